package main

// Tests of how the path of a request's target is decoded. A target that two servers could read in two ways is refused.

import (
	"net/url"
	"strings"
	"testing"
)

// mostPath is the most octets of a path in these tests.
const mostPath = 4096

// TestPaths reads targets that are clear, and compares the decoded paths.
func TestPaths(t *testing.T) {
	for target, wanted := range map[string]string{
		"/": "/", "/a/b": "/a/b", "/a/b/": "/a/b/", "/a?b": "/a", "/a?": "/a", "/a?/../b": "/a", "/a?%00%zz": "/a", "/%61": "/a", "/%7Ea": "/~a",
		"/a%20b": "/a b", "/A": "/A", "/a.b": "/a.b", "/.a": "/.a", "/..a": "/..a", "/a:b@c,d=e&f!g$h'i(j)*k+l": "/a:b@c,d=e&f!g$h'i(j)*k+l",
		"/%22%3c%3E%5B%5d%5E%60%7b%7C%7d": "/\"<>[]^`{|}", "/a%2e%2Eb": "/a..b",
	} {
		if path, err := pathOf(target, mostPath); err != nil || path != wanted {
			t.Errorf("%q: %q, %v; wanted %q", target, path, err, wanted)
		}
	}
}

// TestUnclearPaths reads targets that are no path, or that two servers could take for different ones: each is refused.
func TestUnclearPaths(t *testing.T) {
	for _, target := range []string{
		"", "*", "a", "a/b", "?", "?/", "http://host/a", "//host/a", "//", "/a//b", "/a//", "///", "/.", "/..", "/./a", "/a/.", "/a/./b", "/a/..",
		"/a/../b", "/../a", "/%2e", "/%2E%2e/a", "/.%2e/a", "/a/%2e%2e/b", "/%2e/a", "/a%2Fb", "/a%2fb", "/%2f", "/a%5cb", "/a\\b", "/..\\a",
		"/a%5C..%5Cb", "/a%00", "/a%00.txt", "/%0a", "/%0D%0Ax", "/a%09b", "/a%7F", "/a%1f", "/a b", "/a\tb", "/a\nb", "/a\x00b", "/a%", "/a%2",
		"/a%zz", "/a%2g", "/a%g2", "/%u002e", "/%%32e", "/%252e", "/%25", "/%252f", "/a;b", "/a;b=c/d", "/a%3Bb", "/a%3fb", "/a%23b", "/a#b",
		"/a.", "/a./b", "/a..", "/a/b.", "/...", "/a%2e", "/a%20", "/a%20/b", "/%20", "/\xc3\xa9", "/%C3%A9", "/%65%CC%81", "/%c0%ae%c0%ae/a",
		"/%c0%af", "/%ef%bc%8f", "/%e2%80%ae", "/%E2%80%A4%E2%80%A4/", "/a\xff", "/%ff", "/a%0", "/a%80", "/a?\v", "/a?b c",
	} {
		if path, err := pathOf(target, mostPath); err == nil {
			t.Errorf("%q is read as %q", target, path)
		}
	}
}

// TestLongPaths reads a path of as many octets as are allowed, with a query that does not count, and one of one octet more, which is refused.
func TestLongPaths(t *testing.T) {
	const most = 100
	long := "/" + strings.Repeat("a", most-1)
	if _, err := pathOf(long+"?"+long, most); err != nil {
		t.Error(err)
	}
	if _, err := pathOf(long+"a", most); err == nil {
		t.Error("a path over the limit is read")
	}
}

// FuzzPath compares the path of each target that is accepted with what Go's standard library reads. Escaped again, it must be read as the same path.
func FuzzPath(f *testing.F) {
	for _, seed := range []string{"/", "/a/b?c", "/a%20b", "/%2e%2e/a", "//a", "/a%2fb", "/a;b", "/%u002e"} {
		f.Add(seed)
	}
	f.Fuzz(func(t *testing.T, target string) {
		path, err := pathOf(target, mostPath)
		if err != nil {
			return
		}
		read, err := url.ParseRequestURI(target)
		if err != nil || read.Path != path || read.Host != "" {
			t.Errorf("%q is %q, and to others %v, %v", target, path, read, err)
		}
		for _, segment := range strings.Split(path, "/") {
			if segment == "." || segment == ".." {
				t.Errorf("%q is %q", target, path)
			}
		}
		if strings.ContainsAny(path, "\x00\\%;?#") || strings.Contains(path, "//") {
			t.Errorf("%q is %q", target, path)
		}
		// (a character may be escaped by three octets)
		escaped := (&url.URL{Path: path}).EscapedPath()
		if again, err := pathOf(escaped, 3*mostPath); err != nil || again != path {
			t.Errorf("%q is %q, and escaped again %q: %v", target, path, again, err)
		}
	})
}
