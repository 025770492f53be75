package main

// The configuration, an object of JSON in a file. A field that is left out has its usual value.

import (
	"bytes"
	"encoding/json"
	"errors"
	"fmt"
	"io"
	"os"
	"reflect"
	"strings"
	"time"

	"conguraki/spki/guard"
)

// A config is the file of the daemon. README.md says what each field means.
type config struct {
	Listen          string       `json:"listen"`
	SocketMode      string       `json:"socket_mode"`
	SocketGroup     string       `json:"socket_group"`
	SecretFile      string       `json:"secret_file"`
	TLS             *tlsSettings `json:"tls"`
	Control         string       `json:"control"`
	Server          string       `json:"server"`
	Headers         headers      `json:"headers"`
	CertificateForm string       `json:"certificate_form"`
	PathPrefix      string       `json:"path_prefix"`
	// The path of the single list, or what it is called in messages if it is in a store. It is empty if there are several lists.
	List          string  `json:"-"`
	Source        source  `json:"list"`
	Lists         []scope `json:"lists"`
	Ended         string  `json:"ended"`
	Log           string  `json:"log"`
	LogSync       string  `json:"log_sync"`
	Policy        string  `json:"policy"`
	Requests      []rule  `json:"requests"`
	RefusedStatus int     `json:"refused_status"`
	Explain       bool    `json:"explain"`
	// The settings for signed requests, or nil if signatures are not read.
	Signatures *signatures `json:"signatures"`
	// The settings for certificates that clients leave, or nil if they can leave none.
	Chains *chains `json:"chains"`
	Cache  *int    `json:"cache"`
	Limits limits  `json:"limits"`

	// The secret that SecretFile has, as readSecret returns it; empty without such a file.
	secret []byte
	// Whether a rule or a list depends on the host, so that a request must have one.
	needsHost bool
}

// The limits of the daemon, as README.md says them. Zero is the usual limit: of the first three fields that of the library.
type limits struct {
	Octets       int `json:"octets"`
	Certificates int `json:"certificates"`
	Words        int `json:"words"`
	HeaderOctets int `json:"header_octets"`
	PathOctets   int `json:"path_octets"`
	Connections  int `json:"connections"`
	Seconds      int `json:"seconds"`
	// The requests a second of one key and of one address. Zero is no limit.
	KeyRate     int `json:"key_rate"`
	AddressRate int `json:"address_rate"`
	// The denials a second that are explained.
	ExplainRate int `json:"explain_rate"`
	// The sequences a minute that one address may leave.
	LeaveRate int `json:"leave_rate"`
}

const (
	// The signatures that are kept if `cache` is left out, and the least octets of a secret.
	usualCache  = 10_000
	leastSecret = 32
	// The most octets of the file of the configuration and of each file for TLS, of the secret, of the ended certificates, and of a list: longer
	// files are refused. The library reads no longer list.
	mostConfig, mostSecret, mostEnded, mostList = 1 << 20, 4096, 1 << 24, 1 << 20
	// The most seconds of a request, a day: a far larger number would not fit in a time.Duration.
	mostSeconds = 86_400
)

// usualLimits are taken for limits of zero. 40 workers of nginx that keep 16 connections each have 640, and there is room for others.
var usualLimits = limits{HeaderOctets: 131_072, PathOctets: 4096, Connections: 1024, Seconds: 5, ExplainRate: 5, LeaveRate: 20}

// readConfig reads the file of a configuration and checks it, and reads the secret whose file it names. With an error the configuration is not used.
func readConfig(path string) (*config, error) {
	octets, err := readFile(path, mostConfig)
	if err != nil {
		return nil, err
	}
	config, err := parseConfig(octets)
	if err != nil {
		return nil, fmt.Errorf("%s: %w", path, err)
	}
	if config.SecretFile != "" {
		config.secret, err = readSecret(config.SecretFile)
	}
	return config, err
}

// parseConfig reads the text of a configuration: one object, of known fields, each once. It sets the fields that were left out, and checks all. The error
// says what is wrong: then the configuration is not used.
func parseConfig(octets []byte) (*config, error) {
	if err := checkFields(octets); err != nil {
		return nil, err
	}
	decoder := json.NewDecoder(bytes.NewReader(octets))
	decoder.DisallowUnknownFields()
	config := new(config)
	if err := decoder.Decode(config); err != nil {
		return nil, worded(err)
	}
	if _, err := decoder.Token(); !errors.Is(err, io.EOF) {
		return nil, errors.New("something follows the configuration")
	}
	config.setUsual()
	return config, config.check()
}

// expected has what errors call the types that fields of a configuration have.
var expected = map[reflect.Kind]string{reflect.String: "a string", reflect.Int: "a whole number", reflect.Bool: "true or false",
	reflect.Slice: "an array", reflect.Map: "an object", reflect.Struct: "an object"}

// worded returns an error of encoding/json for those who write configurations: it names the field of a value of a wrong type, and no type of Go.
// Other errors stay as they are.
func worded(err error) error {
	var wrong *json.UnmarshalTypeError
	if !errors.As(err, &wrong) {
		return err
	}
	text := fmt.Sprintf("expected %s, found %s", expected[wrong.Type.Kind()], wrong.Value)
	if wrong.Field == "" {
		return errors.New(text)
	}
	return fmt.Errorf("in %q: %s", wrong.Field, text)
}

// setUsual sets each field that was left out to its usual value, except those that the checks of lists, stores and chains set, and the number of
// nonces.
func (c *config) setUsual() {
	c.nameLists()
	setText(&c.SocketMode, "0660")
	setText(&c.Policy, "strict")
	setText(&c.LogSync, syncSeconds)
	if path := strings.TrimPrefix(c.Listen, unixScheme); path != c.Listen {
		setText(&c.Control, c.Listen+controlSuffix)
	}
	if c.RefusedStatus == 0 {
		c.RefusedStatus = 400
	}
	if c.Cache == nil {
		size := usualCache
		c.Cache = &size
	}
	configured, usual := c.Limits.all(), usualLimits.all()
	for place, limit := range configured {
		if *limit == 0 {
			*limit = *usual[place]
		}
	}
	if usual, isServer := servers[c.Server]; isServer {
		c.Headers.setUsual(usual.headers)
		setText(&c.CertificateForm, usual.form)
	}
}

// all returns pointers to the limits, always in this order: so setUsual pairs those of two values by their places.
func (l *limits) all() []*int {
	return []*int{&l.Octets, &l.Certificates, &l.Words, &l.HeaderOctets, &l.PathOctets, &l.Connections, &l.Seconds, &l.KeyRate, &l.AddressRate,
		&l.ExplainRate, &l.LeaveRate}
}

// setText sets a text to a usual one if it is empty.
func setText(text *string, usual string) {
	if *text == "" {
		*text = usual
	}
}

// check returns an error if a field of a configuration is wrong. The checks of lists and chains also set fields that were left out.
func (c *config) check() error {
	if _, isServer := servers[c.Server]; !isServer {
		return fmt.Errorf(`"server" is %q, and must be nginx, caddy, haproxy, apache, traefik or envoy`, c.Server)
	}
	if c.PathPrefix != "" && c.Headers.URI != "" {
		return errors.New(`"path_prefix" is for Envoy, whose requests have no header with the URI`)
	}
	if _, err := policyOf(c.Policy); err != nil {
		return err
	}
	if c.RefusedStatus != 400 && c.RefusedStatus != 403 {
		return fmt.Errorf(`"refused_status" is %d, and must be 400 or 403`, c.RefusedStatus)
	}
	for _, limit := range append(c.Limits.all(), c.Cache) {
		if *limit < 0 {
			return fmt.Errorf("a limit is %d, and must not be negative", *limit)
		}
	}
	if c.Limits.Seconds > mostSeconds {
		return fmt.Errorf(`"seconds" is %d, and must be at most %d`, c.Limits.Seconds, mostSeconds)
	}
	for _, err := range []error{
		c.checkEntrance(), c.checkControl(), c.checkLog(), c.Headers.check(c.CertificateForm), checkRules(c.Requests), c.checkLists(),
		c.Signatures.check(), c.Chains.check(c.Signatures != nil),
	} {
		if err != nil {
			return err
		}
	}
	return nil
}

// checkLog returns an error if `log` is no absolute path, or `log_sync` none of its three words.
func (c *config) checkLog() error {
	if !strings.HasPrefix(c.Log, "/") {
		return fmt.Errorf(`"log" is %q, and must be /PATH: the file that gets a line before each grant`, c.Log)
	}
	if c.LogSync != syncNever && c.LogSync != syncSeconds && c.LogSync != syncEach {
		return fmt.Errorf(`"log_sync" is %q, and must be %s, %s or %s`, c.LogSync, syncNever, syncSeconds, syncEach)
	}
	return nil
}

// policyOf returns the policy that a word of the configuration means, or an error.
func policyOf(word string) (guard.Policy, error) {
	switch word {
	case "strict":
		return guard.Strict, nil
	case "allow-sha1":
		return guard.AllowSHA1, nil
	}
	return guard.Strict, fmt.Errorf(`"policy" is %q, and must be strict or allow-sha1`, word)
}

// ofQuestion returns those limits that the library checks for each question.
func (l limits) ofQuestion() guard.Limits {
	return guard.Limits{Octets: l.Octets, Certificates: l.Certificates, Words: l.Words}
}

// timeOfRequest returns the time that one request may take: `seconds`.
func (l limits) timeOfRequest() time.Duration {
	return time.Duration(l.Seconds) * time.Second
}

// readSecret reads the secret that the web server and the daemon share, without CR and LF at its end. It fails as readFile does, if others than the
// file's owner and group may use the file, or if it is not one line of at least leastSecret visible characters.
func readSecret(path string) ([]byte, error) {
	about, err := os.Stat(path)
	if err != nil {
		return nil, err
	}
	if about.Mode().Perm()&0o007 != 0 {
		return nil, fmt.Errorf("%s: others may read or write the secret: its mode is %v", path, about.Mode().Perm())
	}
	octets, err := readFile(path, mostSecret)
	if err != nil {
		return nil, err
	}
	secret := bytes.TrimRight(octets, "\r\n")
	if len(secret) < leastSecret || !isVisible(string(secret)) {
		return nil, fmt.Errorf("%s: a secret is one line of at least %d visible characters", path, leastSecret)
	}
	return secret, nil
}

// isVisible says whether a text has only characters of ASCII that are visible.
func isVisible(text string) bool {
	for place := 0; place < len(text); place++ {
		if text[place] <= ' ' || text[place] > '~' {
			return false
		}
	}
	return true
}
