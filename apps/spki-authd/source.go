package main

// Where an access list comes from: a file, or a store, which is a database with a row for each entry.

import (
	"bytes"
	"encoding/json"
	"errors"
	"fmt"
	"io"
	"regexp"
	"strings"
	"time"

	"conguraki/spki/guard"
)

// A source says where the entries of an access list are: in the file at a path, or, if `store` is not nil, in a store in PostgreSQL.
type source struct {
	file  string
	store *storeSettings
}

// A storeSettings has the settings by which the daemon reads a store: a database that `spki-store` makes. apps/spki-store/README.md says what each field
// means.
type storeSettings struct {
	Host         string `json:"host"`
	Port         int    `json:"port"`
	Database     string `json:"database"`
	User         string `json:"user"`
	PassFile     string `json:"passfile"`
	Root         string `json:"root"`
	Schema       string `json:"schema"`
	StaleSeconds int    `json:"stale_seconds"`
	Connections  int    `json:"connections"`
	CacheMiB     *int   `json:"cache_mib"`

	// What reads the store, or nil until scope.read opens it. It stays open when files are read again.
	opened *store
}

const (
	// The settings that are taken if they are left out.
	usualPort, usualSchema, usualStale, usualConnections, usualCacheMiB = 5432, "spki", 10, 8, 64
	// The least stale_seconds. A store has a beat each second, and a poll takes time: with less, a beat that is a little late would make the store stale.
	leastStale = 3
)

var (
	// The names that a schema may have: they are put into the text of statements, in quotes.
	schemaName = regexp.MustCompile(`^[a-z_][a-z0-9_]{0,40}$`)

	errSource = errors.New(`a list is the path of a file, or {"postgres": {..}}`)
)

// UnmarshalJSON reads the path of a file, or `{"postgres": {..}}`. It fails with errSource for anything else, and as storeSettings.check does for a wrong
// setting. `null` is read as an empty path, as if the list were left out.
func (s *source) UnmarshalJSON(text []byte) error {
	if json.Unmarshal(text, &s.file) == nil {
		return nil
	}
	var named struct {
		Postgres *storeSettings `json:"postgres"`
	}
	decoder := json.NewDecoder(bytes.NewReader(text))
	decoder.DisallowUnknownFields()
	if err := decoder.Decode(&named); err != nil {
		return fmt.Errorf("%w: %v", errSource, worded(err))
	}
	if named.Postgres == nil {
		return errSource
	}
	s.store = named.Postgres
	return s.store.check()
}

// name returns what a list is called in messages: the path of its file, or the schema and the host of its store.
func (s *source) name() string {
	if s.store == nil {
		return s.file
	}
	return "postgres " + s.store.Schema + " at " + s.store.Host
}

// check sets the settings that were left out, and returns an error if one is wrong.
func (s *storeSettings) check() error {
	setText(&s.Schema, usualSchema)
	for field, usual := range map[*int]int{&s.Port: usualPort, &s.StaleSeconds: usualStale, &s.Connections: usualConnections} {
		if *field == 0 {
			*field = usual
		}
	}
	if s.CacheMiB == nil {
		size := usualCacheMiB
		s.CacheMiB = &size
	}
	switch {
	case s.Host == "" || s.Database == "" || s.User == "":
		return errors.New(`"postgres" needs "host", "database" and "user"`)
	case !schemaName.MatchString(s.Schema):
		return fmt.Errorf(`"schema" is %q, and must be small letters, digits and _`, s.Schema)
	case !s.isSocket() && s.Root == "":
		return errors.New(`a "host" that is not the folder of a socket needs "root", the file of the authority that signs its certificate`)
	case s.StaleSeconds < leastStale:
		return fmt.Errorf(`"stale_seconds" is %d, and must be at least %d`, s.StaleSeconds, leastStale)
	case s.Port < 1 || s.Port > 65535 || s.Connections < 1 || *s.CacheMiB < 0:
		return errors.New(`"port", "connections" or "cache_mib" is too small or too large`)
	}
	return nil
}

// isSocket says whether the server is asked at a Unix socket.
func (s *storeSettings) isSocket() bool {
	return strings.HasPrefix(s.Host, "/")
}

// mostAge returns how old the state of the store may be, so that the daemon still decides by it: `stale_seconds`.
func (s *storeSettings) mostAge() time.Duration {
	return time.Duration(s.StaleSeconds) * time.Second
}

// connectionString returns the connection string for the driver: NAME=VALUE for each setting, with spaces between them. A server that is not at a Unix
// socket must show a certificate for its host that `root` has signed.
func (s *storeSettings) connectionString() string {
	settings := []string{"sslmode=disable"}
	if !s.isSocket() {
		settings = []string{"sslmode=verify-full", "sslrootcert=" + quoteSetting(s.Root)}
	}
	for name, value := range map[string]string{"host": s.Host, "dbname": s.Database, "user": s.User, "passfile": s.PassFile} {
		if value != "" {
			settings = append(settings, name+"="+quoteSetting(value))
		}
	}
	// (by the search path no function or operator is used that an account has made in another schema, such as public. The last three: a statement is
	// planned once and not compiled, and a plan from when the table was small must not read the whole table later)
	return strings.Join(append(settings, fmt.Sprintf("port=%d", s.Port), "application_name=spki-authd", "search_path=pg_catalog",
		"enable_seqscan=off", "jit=off", "plan_cache_mode=force_generic_plan"), " ")
}

// quoteSetting returns a value for a connection string: in single quotes, with a backslash before each quote and backslash in it.
func quoteSetting(value string) string {
	return "'" + strings.NewReplacer(`\`, `\\`, `'`, `\'`).Replace(value) + "'"
}

// nameLists sets List of the configuration and of each scope to what source.name returns.
func (c *config) nameLists() {
	c.List = c.Source.name()
	for number := range c.Lists {
		c.Lists[number].List = c.Lists[number].Source.name()
	}
}

// read reads the list of a scope from its file. A list in a store is opened by the first call, which begins to poll the store. If the store does not
// answer, that is no error here: requests are answered with 503 until it does. It fails if the file cannot be read or is refused, and as openReader and
// newStore do. The list that is returned has no scope yet.
func (s *scope) read(policy guard.Policy, c *config) (*list, error) {
	if s.Source.store == nil {
		return readList(s.List, policy, c.Limits)
	}
	options := s.Source.store
	if options.opened == nil {
		// (a store is waited for as long as the line of a grant)
		reader, err := openReader(options, c.Limits.timeOfRequest()/partOfGrant)
		if err != nil {
			return nil, err
		}
		if options.opened, err = newStore(options, reader, c.openList, time.Now); err != nil {
			return nil, err
		}
		go options.opened.poll()
	}
	return &list{store: options.opened, digest: hexDigest([]byte(s.List))}, nil
}

// test polls a store once and prints its status line. It returns why the store cannot be used, or nil. It is for -test.
func (s *store) test(out io.Writer) error {
	if err := s.pollOnce(); err != nil {
		return err
	}
	text, err := s.statusLine()
	fmt.Fprint(out, text)
	return err
}
