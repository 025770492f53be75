package main

// Rules: which request, in SPKI's sense, a host, a method and a path of HTTP mean. Such a request is a list of strings, as `files read /a`.

import (
	"errors"
	"fmt"
	"strings"
)

// A rule says which request, in SPKI's sense, a method and a path of HTTP mean. The first rule is taken whose host is the client's, or none, and whose
// prefix the path begins with. Methods has the word for each method of HTTP, such as `read` for GET. Request has the strings that a right is needed for.
// fill replaces the three below in it.
type rule struct {
	Host    string            `json:"host"`
	Prefix  string            `json:"prefix"`
	Methods map[string]string `json:"methods"`
	Request []string          `json:"request"`
}

// The strings of a rule's Request that are replaced by the word for the method, by the path and by the host.
const (
	placeOfMethod = "{method}"
	placeOfPath   = "{path}"
	placeOfHost   = "{host}"
)

// checkRules returns an error if a configuration has no rule, a wrong one, or one that is never used.
func checkRules(rules []rule) error {
	if len(rules) == 0 {
		return errors.New(`"requests" is missing: which request a method and a path mean`)
	}
	for place, rule := range rules {
		err := rule.check()
		if err == nil {
			err = rule.checkReached(rules[:place])
		}
		if err != nil {
			return fmt.Errorf(`"requests", %q: %w`, rule.Prefix, err)
		}
	}
	return nil
}

// checkReached returns an error if one of the rules before this one fits all its requests, so that it is never used: a right to its Request would give
// nothing, and a right to that of the other rule would give more than the operator has written.
func (r rule) checkReached(before []rule) error {
	for _, other := range before {
		if (other.Host == "" || other.Host == r.Host) && strings.HasPrefix(r.Prefix, other.Prefix) {
			return fmt.Errorf("this rule is never used: that for %q is before it", other.Host+other.Prefix)
		}
	}
	return nil
}

// check returns an error if the prefix or the host of a rule is wrong, if it has no methods or no strings of a request, or if a string has braces and is
// none of the three that are replaced.
func (r rule) check() error {
	if err := checkPrefix(r.Prefix); err != nil {
		return err
	}
	if r.Host != "" && !isHost(r.Host) {
		return fmt.Errorf("%q is no host in small letters without a port", r.Host)
	}
	if len(r.Methods) == 0 || len(r.Request) == 0 {
		return errors.New("a rule has methods and the strings of a request")
	}
	for _, word := range r.Request {
		if word != placeOfMethod && word != placeOfPath && word != placeOfHost && strings.ContainsAny(word, "{}") {
			return fmt.Errorf("%q is neither a string without braces nor %s, %s or %s", word, placeOfMethod, placeOfPath, placeOfHost)
		}
	}
	return nil
}

// checkPrefix returns an error unless a prefix of paths begins and ends with `/` and pathOf returns it unchanged. So it has no space, although a
// decoded path may have one.
func checkPrefix(prefix string) error {
	if !strings.HasPrefix(prefix, "/") || !strings.HasSuffix(prefix, "/") {
		return errors.New("a prefix begins and ends with `/`")
	}
	if path, err := pathOf(prefix, len(prefix)); err != nil || path != prefix {
		return errors.New("no path begins with this prefix")
	}
	return nil
}

// needsHost says whether a rule depends on the host, so that a request must have one.
func (r rule) needsHost() bool {
	if r.Host != "" {
		return true
	}
	for _, word := range r.Request {
		if word == placeOfHost {
			return true
		}
	}
	return false
}

// requestOf returns the strings of the request that a host, a method and a decoded path mean, and the number, from 1, of the rule that says so: the first
// that fits the host and the path. Without such a rule it returns nil and 0. If that rule lacks the method, it returns nil and the rule's number.
func requestOf(rules []rule, host, method, path string) (request []string, number int) {
	for place, rule := range rules {
		if rule.Host != "" && rule.Host != host || !strings.HasPrefix(path, rule.Prefix) {
			continue
		}
		verb, hasMethod := rule.Methods[method]
		if !hasMethod {
			return nil, place + 1
		}
		return rule.fill(host, verb, path), place + 1
	}
	return nil, 0
}

// fill returns a copy of the rule's Request, in which the host, the path and `verb`, the word for the method, are in their places.
func (r rule) fill(host, verb, path string) []string {
	words := append([]string(nil), r.Request...)
	for place, word := range words {
		switch word {
		case placeOfMethod:
			words[place] = verb
		case placeOfPath:
			words[place] = path
		case placeOfHost:
			words[place] = host
		}
	}
	return words
}
