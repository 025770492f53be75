package main

// The access lists of the configuration, and which of them decides a request: the first whose scope, a host and a prefix of paths, fits it.

import (
	"errors"
	"fmt"
	"strings"

	"conguraki/spki/guard"
)

// A scope says which requests an access list decides: those for its host, or for each host without one, whose path begins with its prefix. The list of
// the first scope that fits decides. List is the path of the file, or what a store is called in messages: nameLists sets it.
type scope struct {
	Host   string `json:"host"`
	Prefix string `json:"prefix"`
	List   string `json:"-"`
	Source source `json:"list"`
}

// A list is an access list that was read, and its scope. There are three kinds: a list in a file; a list in a store, which has no guard; and the part of
// a list in a store that one question needs, which store.list returns. The part has no scope.
type list struct {
	scope
	// The library's checker with the entries, or nil for a list in a store.
	guard *guard.Guard
	// The digest of the file's octets, for the log. A part has the number of the store's last change, and a list in a store the digest of its name.
	digest string
	// What reads the store of a list in a store, and otherwise nil.
	store *store
	// Of a list in a file, what its entries are found by. Of a part, the numbers of its entries in the store, in their order, and how many rows were
	// skipped.
	principals map[string]struct{}
	numbers    []int
	skipped    int
	// Whether it is a part that the store does not keep: whoever has called store.list closes the guard after one question.
	isPassing bool
}

var (
	errListMissing = errors.New(`"list" and "lists" are missing or empty, and one of them must name an access list`)
	errListTwice   = errors.New(`"list" and "lists" both name access lists, and only one of them may`)
)

// checkLists returns an error if there is no access list, or one by `list` and others by `lists`, or a wrong scope. It sets the prefixes that were left
// out, and needsHost. nameLists is called before it.
func (c *config) checkLists() error {
	if c.List == "" && len(c.Lists) == 0 {
		return errListMissing
	}
	if c.List != "" && len(c.Lists) > 0 {
		return errListTwice
	}
	for number := range c.Lists {
		scope := &c.Lists[number]
		setText(&scope.Prefix, "/")
		if err := scope.check(c.Lists[:number]); err != nil {
			return fmt.Errorf(`"lists", place %d: %w`, number+1, err)
		}
		c.needsHost = c.needsHost || scope.Host != ""
	}
	for _, rule := range c.Requests {
		c.needsHost = c.needsHost || rule.needsHost()
	}
	return nil
}

// check returns an error if a scope has no list, or a wrong host or prefix, or if one of the scopes before it fits all its requests, so that it is never
// reached.
func (s *scope) check(before []scope) error {
	if s.List == "" {
		return errors.New(`"list" is missing or empty, and must name an access list`)
	}
	if s.Host != "" && !isHost(s.Host) {
		return fmt.Errorf(`"host" is %q, and must be a host in small letters without a port, or left out`, s.Host)
	}
	if err := checkPrefix(s.Prefix); err != nil {
		return err
	}
	for _, other := range before {
		if (other.Host == "" || other.Host == s.Host) && strings.HasPrefix(s.Prefix, other.Prefix) {
			return fmt.Errorf("it is never asked: the place of %s is before it", other.List)
		}
	}
	return nil
}

// scopes returns the scopes of all lists. A single list has one that fits each host and path.
func (c *config) scopes() []scope {
	if c.List != "" {
		return []scope{{Prefix: "/", List: c.List, Source: c.Source}}
	}
	return c.Lists
}

// fits says whether a list decides requests for a host and a path, unless an earlier one does. `path` is decoded.
func (s *scope) fits(host, path string) bool {
	return (s.Host == "" || s.Host == host) && strings.HasPrefix(path, s.Prefix)
}

// readList reads the file of an access list, and opens it with a policy and limits. The list has no scope yet. The caller closes its guard. The
// errors for a list that is too long or refused say what an operator can do.
func readList(path string, policy guard.Policy, limits limits) (*list, error) {
	octets, err := readFile(path, mostList)
	if errors.Is(err, errLong) {
		err = fmt.Errorf(`%w: split the list by host or prefix ("lists"), or keep its entries in a store (docs/OPERATING.md)`, err)
	}
	if err != nil {
		return nil, err
	}
	opened, err := guard.Open(octets, policy, limits.ofQuestion())
	if errors.Is(err, guard.ErrRefused) && !errors.Is(err, guard.ErrMemory) {
		err = fmt.Errorf("%w; `spki-cert check %s` says where", err, path)
	}
	if err != nil {
		return nil, fmt.Errorf("%s: %w", path, err)
	}
	principals, err := principalsIn(octets)
	if err != nil {
		opened.Close()
		return nil, fmt.Errorf("%s: %w", path, err)
	}
	return &list{guard: opened, principals: principals, digest: hexDigest(octets)}, nil
}

// names says whether an entry of a list in a file or in a store is for a key in canonical form, for its hash, or for a name that begins with one of them.
// It fails if the store is stale or cannot be read.
func (l *list) names(key []byte) (isNamed bool, err error) {
	if l.store != nil {
		part, err := l.store.listFor(key)
		if err != nil {
			return false, err
		}
		if part.isPassing {
			part.guard.Close()
		}
		return len(part.numbers) > 0, nil
	}
	for _, digest := range digestsOf(key) {
		if _, isThere := l.principals[string(digest)]; isThere {
			return true, nil
		}
	}
	return false, nil
}
