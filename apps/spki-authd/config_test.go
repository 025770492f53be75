package main

// Tests of the configuration, an object of JSON. leastConfig is the least one: a list in the file /acl, and one rule, by which GET of a path is the
// request (files read PATH).

import (
	"os"
	"strings"
	"testing"
)

// leastConfig is a configuration with only the fields that are required.
const leastConfig = `{"listen": "unix:/run/x/s", "server": "nginx", "list": "/acl", "log": "/log",
 "requests": [{"prefix": "/", "methods": {"GET": "read"}, "request": ["files", "{method}", "{path}"]}]}`

// TestLeastConfig reads the least configuration, and compares fields that were left out with their usual values.
func TestLeastConfig(t *testing.T) {
	config, err := parseConfig([]byte(leastConfig))
	if err != nil {
		t.Fatal(err)
	}
	wanted := headers{Method: "X-Original-Method", URI: "X-Original-Uri", Certificate: "X-Client-Cert", Sequence: "X-Spki-Sequence", Secret: "X-Spki-Secret",
		ID: "X-Request-Id", Host: "X-Original-Host", Address: "X-Real-Ip"}
	if config.Headers != wanted || config.CertificateForm != escapedPEM || config.RefusedStatus != 400 || config.Limits != usualLimits || *config.Cache != usualCache {
		t.Errorf("%+v", config)
	}
	if config.SocketMode != "0660" || config.Policy != "strict" || config.LogSync != syncSeconds || config.Control != config.Listen+controlSuffix {
		t.Errorf("%+v", config)
	}
}

// leastWith returns the least configuration with more fields in front, such as `"cache": 0`, with commas between them.
func leastWith(fields string) string {
	return strings.Replace(leastConfig, "{", "{"+fields+", ", 1)
}

// TestWrongConfigs reads what is no configuration, and the least one with one wrong field: each is refused.
func TestWrongConfigs(t *testing.T) {
	for _, text := range []string{
		"", "{}", "[]", "null", leastConfig[:len(leastConfig)/2], leastConfig + "x", leastConfig + "{}", leastWith(`"unknown": 1`), leastWith(`"limits": {"octet": 1}`),
		strings.Replace(leastConfig, "nginx", "lighttpd", 1), strings.Replace(leastConfig, `"/acl"`, `""`, 1),
		strings.Replace(leastConfig, "unix:/run/x/s", "unix:s", 1), strings.Replace(leastConfig, "unix:/run/x/s", "0.0.0.0:80", 1),
		strings.Replace(leastConfig, "unix:/run/x/s", ":80", 1),
		strings.Replace(leastConfig, "unix:/run/x/s", "192.0.2.1:80", 1), strings.Replace(leastConfig, "unix:/run/x/s", "localhost:80", 1),
		strings.Replace(leastConfig, "unix:/run/x/s", "127.0.0.1:80", 1), leastWith(`"socket_mode": "0666"`), leastWith(`"socket_mode": "0777"`),
		leastWith(`"socket_mode": "x"`), leastWith(`"policy": "open"`), leastWith(`"refused_status": 200`), leastWith(`"refused_status": 404`),
		leastWith(`"cache": -1`), leastWith(`"limits": {"seconds": -1}`),
		leastWith(`"certificate_form": "pem"`), leastWith(`"headers": {"method": "authorization"}`), leastWith(`"headers": {"method": "a", "uri": "A"}`),
		leastWith(`"headers": {"method": "a b"}`), strings.Replace(leastConfig, `{"GET": "read"}`, `{}`, 1), leastWith(`"cache": "1"`),
		leastWith(`"path_prefix": "/auth"`),
		// (one second more than mostSeconds, and more than a time.Duration has)
		leastWith(`"limits": {"seconds": 86401}`), leastWith(`"limits": {"seconds": 9300000000}`),
	} {
		if _, err := parseConfig([]byte(text)); err == nil {
			t.Errorf("accepted: %s", text)
		}
	}
}

// TestReasonsOfConfigs reads wrong configurations, whose errors say which field is wrong and what it may be.
func TestReasonsOfConfigs(t *testing.T) {
	ofList := func(list string) string { return strings.Replace(leastConfig, `"list": "/acl"`, list, 1) }
	for text, wanted := range map[string]string{
		// (who may only read cannot connect, but no right for others is accepted)
		leastWith(`"socket_mode": "0664"`):                       "mode is 0664, which gives others than its owner and group a right",
		leastWith(`"socket_mode": "0666"`):                       `or set "secret_file"`,
		ofList(`"list": null`):                                   `"list" and "lists" are missing or empty, and one of them must name an access list`,
		ofList(`"list": ""`):                                     `"list" and "lists" are missing or empty`,
		ofList(`"cache": 1`):                                     `"list" and "lists" are missing or empty`,
		ofList(`"list": 1`):                                      `a list is the path of a file, or {"postgres": {..}}: expected an object, found number`,
		ofList(`"list": {"postgres": {"port": "1"}}`):            `in "postgres.port": expected a whole number, found string`,
		leastWith(`"limits": {"seconds": 1.5}`):                  `in "limits.seconds": expected a whole number, found number 1.5`,
		leastWith(`"explain": "yes"`):                            `in "explain": expected true or false, found string`,
		strings.Replace(leastConfig, `"read"`, "1", 1):           `in "requests.methods": expected a string, found number`,
		strings.Replace(leastConfig, `{"GET": "read"}`, "1", 1):  `in "requests.methods": expected an object, found number`,
		leastWith(`"lists": {}`):                                 `in "lists": expected an array, found object`,
		"[]":                                                     "expected an object, found array",
		ofList(`"list": "/a", "lists": [{"list": "/b"}]`):        `"list" and "lists" both name access lists`,
		ofList(`"lists": [{"list": "/a"}, {"list": null}]`):      `"lists", place 2: "list" is missing or empty`,
		ofList(`"lists": [{"host": "A.example", "list": "/a"}]`): `"lists", place 1: "host" is "A.example", and must be a host in small letters`,
	} {
		if _, err := parseConfig([]byte(text)); err == nil || !strings.Contains(err.Error(), wanted) {
			t.Errorf("%s: %v", text, err)
		}
	}
}

// TestSecrets reads files of the secret: a right one, wrong ones, and the right one while everyone may read it.
func TestSecrets(t *testing.T) {
	const secret = "0123456789abcdef0123456789abcdef"
	path := writeFile(t, "secret", secret+"\n")
	if text, err := readSecret(path); err != nil || string(text) != secret {
		t.Errorf("%q, %v", text, err)
	}
	for _, text := range []string{"", "short\n", secret + " x", secret + "\n" + secret, secret + "\x00"} {
		if _, err := readSecret(writeFile(t, "secret", text)); err == nil {
			t.Errorf("%q is a secret", text)
		}
	}
	if err := os.Chmod(path, 0o644); err != nil {
		t.Fatal(err)
	}
	if _, err := readSecret(path); err == nil {
		t.Error("a secret that everyone may read is accepted")
	}
}
