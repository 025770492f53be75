//go:build !spki_postgres

package main

import (
	"strings"
	"testing"
	"time"
)

// TestNoDriver reads a configuration with a list in PostgreSQL by a daemon that is built without a driver. The error names the tag to build it with.
func TestNoDriver(t *testing.T) {
	text := strings.Replace(leastConfig, `"/acl"`, `{"postgres": {"host": "/run/postgresql", "database": "acl", "user": "u"}}`, 1)
	config, err := parseConfig([]byte(text))
	if err != nil {
		t.Fatal(err)
	}
	if _, err := readAccess(config, time.Now()); err == nil || !strings.Contains(err.Error(), "spki_postgres") {
		t.Errorf("%v", err)
	}
}
