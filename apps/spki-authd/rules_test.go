package main

// Tests of rules, which say for a host, a method and a path of HTTP which request, in SPKI's sense, they mean: a list of strings. The first rule
// whose host and prefix fit is taken.

import (
	"reflect"
	"testing"
)

// rulesOfTests are two rules: below /api/ the first is taken, which has POST alone.
var rulesOfTests = []rule{
	{Prefix: "/api/", Methods: map[string]string{"POST": "call"}, Request: []string{"api", "{path}", "{method}"}},
	{Prefix: "/", Methods: map[string]string{"GET": "read", "PUT": "write"}, Request: []string{"files", "{method}", "{path}"}},
}

// TestRequestsByRules compares the requests that methods and paths mean, and the numbers of the rules. nil is for a method that the rule lacks.
func TestRequestsByRules(t *testing.T) {
	for _, row := range []struct {
		method, path string
		wanted       []string
		rule         int
	}{
		{"GET", "/a", []string{"files", "read", "/a"}, 2}, {"PUT", "/", []string{"files", "write", "/"}, 2},
		{"POST", "/api/x", []string{"api", "/api/x", "call"}, 1}, {"GET", "/api", []string{"files", "read", "/api"}, 2},
		{"GET", "/api/x", nil, 1}, {"get", "/a", nil, 2}, {"DELETE", "/a", nil, 2}, {"", "/a", nil, 2}, {"GET ", "/a", nil, 2},
		{"GET", "/{method}", []string{"files", "read", "/{method}"}, 2},
	} {
		request, rule := requestOf(rulesOfTests, "", row.method, row.path)
		if !reflect.DeepEqual(request, row.wanted) || rule != row.rule {
			t.Errorf("%s %s: %q by rule %d, wanted %q", row.method, row.path, request, rule, row.wanted)
		}
	}
	if rulesOfTests[1].Request[2] != "{path}" {
		t.Error("a rule was changed")
	}
}

// TestRequestsOfHosts compares the requests that hosts and paths mean by rules of two hosts, and by one of any host behind them. nil is for no rule.
func TestRequestsOfHosts(t *testing.T) {
	read := map[string]string{"GET": "read"}
	rules := []rule{
		{Host: "a.example", Prefix: "/", Methods: read, Request: []string{"a", "{method}", "{path}"}},
		{Host: "b.example", Prefix: "/x/", Methods: read, Request: []string{"b", "{path}"}},
		{Prefix: "/x/", Methods: read, Request: []string{"{host}", "{path}"}},
	}
	if err := checkRules(rules); err != nil {
		t.Fatal(err)
	}
	for _, row := range []struct {
		host, path string
		wanted     []string
	}{
		{"a.example", "/x/1", []string{"a", "read", "/x/1"}}, {"b.example", "/x/1", []string{"b", "/x/1"}}, {"c.example", "/x/1", []string{"c.example", "/x/1"}},
		{"b.example", "/y", nil}, {"", "/y", nil},
	} {
		if request, _ := requestOf(rules, row.host, "GET", row.path); !reflect.DeepEqual(request, row.wanted) {
			t.Errorf("%s %s: %q", row.host, row.path, request)
		}
	}
}

// TestWrongRules checks rules of which one thing is wrong, each of which is refused, and right ones. A rule is written as its host, prefix, methods and
// request.
func TestWrongRules(t *testing.T) {
	methods, request := map[string]string{"GET": "read"}, []string{"files", "{path}"}
	for name, rules := range map[string][]rule{
		"none": nil, "no methods": {{"", "/", nil, request}}, "no request": {{"", "/", methods, nil}}, "no prefix": {{"", "", methods, request}},
		"relative": {{"", "a/", methods, request}}, "no end": {{"", "/a", methods, request}}, "dots": {{"", "/../", methods, request}},
		"escaped": {{"", "/%61/", methods, request}}, "unknown place": {{"", "/", methods, []string{"{user}"}}},
		"part of a string": {{"", "/", methods, []string{"x{path}"}}}, "query": {{"", "/?/", methods, request}},
		"a host with a port": {{"a.example:443", "/", methods, request}}, "a large letter": {{"A.example", "/", methods, request}},
		"a pattern": {{"*.example", "/", methods, request}}, "doubled": {{"", "//", methods, request}},
		"behind that for all":          {{"", "/", methods, request}, {"", "/a/", methods, request}},
		"behind that for all hosts":    {{"", "/a/", methods, request}, {"a.example", "/a/b/", methods, request}},
		"behind one for all its paths": {{"a.example", "/", methods, request}, {"a.example", "/a/", methods, request}},
		"twice":                        {{"", "/a/", methods, request}, {"", "/", methods, request}, {"", "/a/", map[string]string{"PUT": "write"}, request}},
	} {
		if checkRules(rules) == nil {
			t.Errorf("%s: the rules are accepted", name)
		}
	}
	for _, rules := range [][]rule{rulesOfTests, {
		{"a.example", "/", methods, request}, {"b.example", "/", methods, request}, {"", "/a/b/", methods, request}, {"", "/a/", methods, request},
	}} {
		if err := checkRules(rules); err != nil {
			t.Error(err)
		}
	}
}
