package main

// A test of configurations that have a field twice. leastConfig is a right configuration, and leastWith returns it with more fields.

import (
	"strings"
	"testing"
)

// TestFieldsThatAreThereTwice reads configurations with a field that is there twice, of which encoding/json uses the last one: they are refused. In
// names encoding/json takes the long s (017f) for s, and the sign of kelvin (212a) for k. A field whose name is also a value is there once, and
// accepted.
func TestFieldsThatAreThereTwice(t *testing.T) {
	for _, text := range []string{
		leastWith(`"li\u017ft": "/other"`), leastWith(`"tls": {"key": "/k", "\u212aey": "/l"}`), leastWith(`"limits": {"seconds": 1, "seconds": 2}`),
		leastWith(`"policy": "allow-sha1", "policy": "strict"`),
		leastWith(`"limits": {}, "headers": {}, "Limits": {}`), strings.Replace(leastConfig, `"GET": "read"`, `"GET": "read", "GET": "write"`, 1),
		strings.Replace(leastConfig, `"prefix": "/"`, `"prefix": "/", "prefix": "/x/"`, 1), leastWith(`"liſt": "/other"`),
		leastWith(`"listen": "", "Key": 1, "key": 2`),
	} {
		if _, err := parseConfig([]byte(text)); err == nil || !strings.Contains(err.Error(), "twice") {
			t.Errorf("%s: %v", text, err)
		}
	}
	for _, text := range []string{leastConfig, leastWith(`"limits": {"seconds": 1}, "headers": {"host": "seconds"}`)} {
		if _, err := parseConfig([]byte(text)); err != nil {
			t.Errorf("%s: %v", text, err)
		}
	}
}
