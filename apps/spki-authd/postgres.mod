// The module with the driver for PostgreSQL: go build -modfile=postgres.mod -tags spki_postgres
// The driver is that of Debian's golang-github-lib-pq-dev. Without the last line Go fetches it.
module conguraki/spki-authd

go 1.19

require (
	conguraki/spki v0.2.0
	github.com/lib/pq v1.10.7
)

replace conguraki/spki => ../../bindings/go

replace github.com/lib/pq => /usr/share/gocode/src/github.com/lib/pq
