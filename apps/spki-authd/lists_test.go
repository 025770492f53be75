package main

// Tests of hosts, and of configurations with several access lists or rules, of which the first decides whose host and prefix fit a request. Status
// 200 grants, 401 (where certificates may help) and 403 deny, and 400 refuses an unclear request.

import (
	"strings"
	"testing"
)

// TestHosts reads hosts as web servers pass them on, and texts that are no host or not clear, which are refused.
func TestHosts(t *testing.T) {
	for text, wanted := range map[string]string{
		"a.example": "a.example", "A.Example": "a.example", "a.example:443": "a.example", "a.example:": "a.example", "192.0.2.1:8443": "192.0.2.1",
		"[2001:DB8::1]": "[2001:db8::1]", "[::1]:443": "[::1]", "localhost": "localhost", "a-b_c.example": "a-b_c.example",
	} {
		if host, err := hostOf(text); err != nil || host != wanted {
			t.Errorf("%q: %q, %v", text, host, err)
		}
	}
	for _, text := range []string{
		"", ":443", "a.example.", "a..example", ".example", "a example", "a/b", "a%2eb", "a@b", "a:b", "a:443:443", "::1", "[::1", "[192.0.2.1]", "[x]", "é.example",
		"a.example:123456", "a,b", "a\x00", strings.Repeat("a", mostHost+1),
	} {
		if host, err := hostOf(text); err == nil {
			t.Errorf("%q: %q", text, host)
		}
	}
}

// twoSites returns a site with a list for each of two hosts: Alice may read below /web/ on a.example, Bob on b.example. A list before these two decides
// below /web/api/ of each host, and gives that to Carol alone.
func twoSites(t *testing.T) *site {
	t.Helper()
	s := newSite(t, "")
	list := func(who person) string {
		return writeFile(t, "acl", "(3:acl(5:entry"+who.key+propagates+"(3:tag"+prefixTag("read", "/web/")+")))")
	}
	s.config.List, s.config.Lists = "", []scope{
		{Prefix: "/web/api/", List: list(s.carol)}, {Host: "a.example", List: list(s.alice)}, {Host: "b.example", List: list(s.bob)},
	}
	if err := s.config.checkLists(); err != nil {
		t.Fatal(err)
	}
	s.mustReload(t)
	return s
}

// TestListsOfHosts asks hosts with the rights of twoSites, each time twice: the second time by what the daemon keeps of a valid sequence. No right on
// one host counts on the other. `hasList` says whether a list decides, which the log then names.
func TestListsOfHosts(t *testing.T) {
	s := twoSites(t)
	toMallory := s.alice.sign(s.alice.certificate(s.mallory, prefixTag("read", "/web/"), ""))
	for name, row := range map[string]struct {
		host        string
		who         person
		path, shown string
		wanted      int
		hasList     bool
	}{
		"Alice on a": {"a.example", s.alice, "/web/x", "", 200, true}, "Alice on b": {"b.example", s.alice, "/web/x", "", 401, true},
		"Bob on a": {"a.example", s.bob, "/web/x", "", 401, true}, "Bob on b": {"B.example:443", s.bob, "/web/x", "", 200, true},
		"Alice's friend on a": {"a.example", s.mallory, "/web/x", sequence(toMallory), 200, true},
		"Alice's friend on b": {"b.example", s.mallory, "/web/x", sequence(toMallory), 403, true},
		"Carol's prefix on a": {"a.example", s.carol, "/web/api/x", "", 200, true}, "Alice there": {"a.example", s.alice, "/web/api/x", "", 401, true},
		"another host": {"c.example", s.alice, "/web/x", "", 403, false}, "no host": {"", s.alice, "/web/x", "", 400, false},
		"two hosts": {"a.example,b.example", s.alice, "/web/x", "", 400, false}, "below a": {"x.a.example", s.alice, "/web/x", "", 403, false},
		"Carol's prefix anywhere": {"c.example", s.carol, "/web/api/x", "", 200, true}, "a dot": {"a.example.", s.alice, "/web/x", "", 400, false},
	} {
		for turn := 1; turn <= 2; turn++ {
			pairs := []string{"X-Original-Method", "GET", "X-Original-URI", row.path, "X-Client-Cert", row.who.escaped(), "X-Spki-Sequence", row.shown}
			if row.host != "" {
				pairs = append(pairs, "X-Original-Host", row.host)
			}
			response, line := s.ask(pairs...), s.lastLine(t)
			if response.StatusCode != row.wanted || (line.List != "") != row.hasList {
				t.Errorf("%s, turn %d: %d, wanted %d: %+v", name, turn, response.StatusCode, row.wanted, line)
			}
			if host, err := hostOf(row.host); err == nil && line.Host != host {
				t.Errorf("%s: %+v", name, line)
			}
		}
	}
}

// TestRulesOfHosts has a rule for one host, beside a list for all. For another host no rule fits, which is denied, and a request without a host is
// refused.
func TestRulesOfHosts(t *testing.T) {
	s := newSite(t, "")
	s.config.Requests[0].Host = "a.example"
	if err := s.config.checkLists(); err != nil {
		t.Fatal(err)
	}
	for host, wanted := range map[string]int{"a.example": 200, "b.example": 403, "": 400} {
		response := s.ask("X-Original-Method", "GET", "X-Original-URI", "/web/x", "X-Client-Cert", s.alice.escaped(), "X-Original-Host", host)
		if response.StatusCode != wanted {
			t.Errorf("%q: %d", host, response.StatusCode)
		}
	}
}

// TestHostsThatNothingDependsOn asks where no rule and no list has a host. The log has the host of the request, or none if it is not clear, and Alice is
// granted her request in each case.
func TestHostsThatNothingDependsOn(t *testing.T) {
	s := newSite(t, "")
	for host, wanted := range map[string]string{"A.example:443": "a.example", "": "", "a b": ""} {
		response := s.ask("X-Original-Method", "GET", "X-Original-URI", "/web/x", "X-Client-Cert", s.alice.escaped(), "X-Original-Host", host)
		if response.StatusCode != 200 || s.lastLine(t).Host != wanted {
			t.Errorf("%q: %d, %+v", host, response.StatusCode, s.lastLine(t))
		}
	}
}

// TestWrongLists reads configurations in which `lists` is wrong, or is there beside `list`, each of which is refused, and a right one.
func TestWrongLists(t *testing.T) {
	lists := func(text string) string {
		return strings.Replace(leastConfig, `"list": "/acl"`, `"lists": [`+text+`]`, 1)
	}
	for name, text := range map[string]string{
		"none": lists(""), "both": leastWith(`"lists": [{"list": "/acl"}]`), "no file": lists(`{"host": "a.example"}`),
		"a port": lists(`{"host": "a.example:443", "list": "/acl"}`), "a large letter": lists(`{"host": "A.example", "list": "/acl"}`),
		"no prefix": lists(`{"prefix": "x", "list": "/acl"}`), "twice": lists(`{"host": "a.example", "list": "/a"}, {"host": "a.example", "list": "/b"}`),
		"behind all": lists(`{"list": "/a"}, {"host": "a.example", "list": "/b"}`), "a pattern": lists(`{"host": "*", "list": "/a"}`),
	} {
		if _, err := parseConfig([]byte(text)); err == nil {
			t.Errorf("%s: accepted", name)
		}
	}
	if config, err := parseConfig([]byte(lists(`{"host": "a.example", "list": "/a"}, {"list": "/b"}`))); err != nil || !config.needsHost || config.Lists[1].Prefix != "/" {
		t.Errorf("%+v, %v", config, err)
	}
}
