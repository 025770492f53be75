//go:build !spki_postgres

package main

import (
	"errors"
	"time"
)

// openReader fails: this daemon is built without the driver for PostgreSQL, of Go's own packages alone. store_postgres.go has the other openReader.
func openReader(*storeSettings, time.Duration) (reader, error) {
	return nil, errors.New(`this spki-authd reads no list in "postgres": build it with -modfile=postgres.mod -tags spki_postgres (README.md)`)
}
