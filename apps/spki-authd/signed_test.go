package main

// Tests of requests that a client has signed by HTTP message signatures, which prove its key in place of TLS. A nonce in the signature makes each
// request good for one time. At a site (newSite) Alice may read below /web/, Bob below /web/docs/ by her certificate, and Carol below /web/docs/a/ by
// his. Mallory has no right. Status 200 grants, 401 (where certificates may help) and 403 deny, 400 refuses an unclear request, and 503 is a failure
// of the daemon.

import (
	"net/http"
	"net/http/httptest"
	"strings"
	"testing"
	"time"

	"conguraki/spki/httpsig"
)

// withSignatures are fields for newSite, by which requests may be signed for two names of the site.
const withSignatures = `, "signatures": {"names": ["files.example.org", "files.example.net:8443"]}`

// signedHeaders returns the headers of a request that a person has signed, in pairs of name and value, as nginx passes them on. `authority` is the
// host, with a port if that is not 443. `sequence`, which is shown in a header, and `body` may be empty.
func (p person) signedHeaders(t testing.TB, method, authority, target, sequence string, body []byte) []string {
	t.Helper()
	signer, err := httpsig.NewSigner(p.private)
	if err != nil {
		t.Fatal(err)
	}
	signer.Sequence = sequence
	header := http.Header{}
	if err := signer.Sign("https", httpsig.Message{Method: method, Authority: authority, Target: target, Header: header, Body: body}); err != nil {
		t.Fatal(err)
	}
	host, _, _ := strings.Cut(authority, ":")
	pairs := []string{"X-Original-Method", method, "X-Original-URI", target, "X-Original-Host", host}
	for name, values := range header {
		pairs = append(pairs, name, values[0])
	}
	return pairs
}

// withValue returns pairs of name and value, with another value for a name, in any case of its letters. If no pair has the name, nothing is changed.
func withValue(pairs []string, name, value string) []string {
	changed := append([]string{}, pairs...)
	for place := 0; place < len(changed); place += 2 {
		if strings.EqualFold(changed[place], name) {
			changed[place+1] = value
		}
	}
	return changed
}

// without returns pairs of name and value, without those of a name, in any case of its letters.
func without(pairs []string, name string) []string {
	var remaining []string
	for place := 0; place < len(pairs); place += 2 {
		if !strings.EqualFold(pairs[place], name) {
			remaining = append(remaining, pairs[place], pairs[place+1])
		}
	}
	return remaining
}

// TestSignedRequests asks with signed requests, right ones and changed ones, and compares the status and the reason. The site has the names of
// withSignatures: files.example.org and files.example.net:8443.
func TestSignedRequests(t *testing.T) {
	s := newSite(t, withSignatures)
	bobs, _ := s.sequencesShown()
	alices := func(method, target string, body string) []string {
		return s.alice.signedHeaders(t, method, "files.example.org", target, "", []byte(body))
	}
	reads, bob := alices("GET", "/web/x?y=z", ""), s.bob.signedHeaders(t, "GET", "files.example.net:8443", "/web/docs/b", bobs, nil)
	for _, row := range []struct {
		name   string
		pairs  []string
		status int
		reason string
	}{
		{"Alice reads", reads, 200, ""},
		{"Alice reads, sent again", reads, 400, "nonce-seen"},
		{"Alice reads, by another's certificate", append(alices("GET", "/web/x", ""), "X-Client-Cert", s.mallory.escaped()), 200, ""},
		{"Bob reads, by another name", bob, 200, ""},
		{"Bob's without his chain", withValue(bob, "X-Spki-Sequence", ""), 400, "invalid-signature"},
		{"Bob's to the first name", withValue(bob, "X-Original-Host", "files.example.org"), 400, "invalid-signature"},
		{"another path", withValue(alices("GET", "/web/x", ""), "X-Original-URI", "/web/y"), 400, "invalid-signature"},
		{"another method", withValue(alices("GET", "/web/x", ""), "X-Original-Method", "HEAD"), 400, "invalid-signature"},
		{"another host", withValue(alices("GET", "/web/x", ""), "X-Original-Host", "evil.example"), 400, "other-authority"},
		{"no host", withValue(alices("GET", "/web/x", ""), "X-Original-Host", ""), 400, "other-authority"},
		{"Alice writes without the right", alices("PUT", "/web/x", "abc"), 401, ""},
		{"PUT made of GET", withValue(alices("GET", "/web/x", ""), "X-Original-Method", "PUT"), 400, "body-without-digest"},
		{"a bad signature, a certificate", append(withValue(alices("GET", "/web/x", ""), "Signature", "spki=:AAAA:"), "X-Client-Cert", s.alice.escaped()),
			400, "invalid-signature"},
		{"half a signature beside a certificate", []string{"X-Original-Method", "GET", "X-Original-URI", "/web/x", "X-Original-Host", "files.example.org",
			"Signature", "spki=:AAAA:", "X-Client-Cert", s.alice.escaped()}, 400, "malformed"},
		{"no key", without(alices("GET", "/web/x", ""), "X-Spki-Public-Key"), 400, "absent-field"},
		{"another's key", withValue(alices("GET", "/web/x", ""), "X-Spki-Public-Key", s.bob.inBraces()), 400, "other-key"},
		{"two keys", append(alices("GET", "/web/x", ""), "X-Spki-Public-Key", s.alice.inBraces()), 400, "repeated-field"},
		{"two signatures", append(alices("GET", "/web/x", ""), "Signature", "spki=:AAAA:"), 400, "repeated-field"},
		{"a certificate alone", []string{"X-Original-Method", "GET", "X-Original-URI", "/web/x", "X-Client-Cert", s.alice.escaped()}, 200, ""},
		{"nothing", []string{"X-Original-Method", "GET", "X-Original-URI", "/web/x"}, 401, ""},
	} {
		response := s.ask(row.pairs...)
		line := s.lastLine(t)
		if response.StatusCode != row.status || !strings.HasSuffix(line.Reason, row.reason) || (line.Entry > 0) != (row.status == 200) {
			t.Errorf("%s: %d, wanted %d: %+v", row.name, response.StatusCode, row.status, line)
		}
	}
	// (the request of the last row is not signed)
	if line := s.lastLine(t); line.Proof != "" {
		t.Error(line)
	}
}

// TestNoncesOfDenials has one signed request denied three times, which uses up no nonce. There is room for one: Alice's first request takes it, and her
// second one is refused.
func TestNoncesOfDenials(t *testing.T) {
	s := newSite(t, `, "signatures": {"names": ["files.example.org"], "nonces": 1}`)
	denied := s.mallory.signedHeaders(t, "GET", "files.example.org", "/web/x", "", nil)
	for turn := 0; turn < 3; turn++ {
		if response := s.ask(denied...); response.StatusCode != http.StatusUnauthorized {
			t.Error(response.StatusCode, s.lastLine(t))
		}
	}
	for _, wanted := range []string{"", string(httpsig.StoreFull)} {
		s.ask(s.alice.signedHeaders(t, "GET", "files.example.org", "/web/x", "", nil)...)
		if line := s.lastLine(t); !strings.HasSuffix(line.Reason, wanted) || (line.Answer == answerYes) != (wanted == "") || line.Proof != bySignature {
			t.Errorf("%+v", line)
		}
	}
}

// TestSignatureSettings sends a signed request where no signatures are read, which is answered by 401. Wrong settings are an error that names
// signatures.
func TestSignatureSettings(t *testing.T) {
	s := newSite(t, "")
	if response := s.ask(s.alice.signedHeaders(t, "GET", "files.example.org", "/web/x", "", nil)...); response.StatusCode != http.StatusUnauthorized {
		t.Error(response.StatusCode)
	}
	for _, wrong := range []string{
		`{}`, `{"names": []}`, `{"names": ["a b"]}`, `{"names": ["a.example", "A.example:8443"]}`, `{"names": ["a"], "nonces": -1}`,
		`{"names": ["https://a.example"]}`,
	} {
		text := `{"listen": "unix:/run/x/s", "server": "nginx", "list": "/l", "log": "/log", "requests": [{"prefix": "/", "methods": {"GET": "read"},
			"request": ["files", "{method}", "{path}"]}], "signatures": ` + wrong + `}`
		if _, err := parseConfig([]byte(text)); err == nil || !strings.Contains(err.Error(), "signatures") {
			t.Errorf("%s: %v", wrong, err)
		}
	}
}

// forgetfulNonces is a memory of nonces that accepts each one again, so that one request can be sent often.
type forgetfulNonces struct{}

// Take accepts each nonce.
func (forgetfulNonces) Take([]byte, string, int64, int64) error { return nil }

// BenchmarkSigned measures a signed request without certificates: the proof of the key, the decision and the response.
func BenchmarkSigned(b *testing.B) {
	s := newSite(b, withSignatures)
	s.logGrant = func([]byte) error { return nil }
	s.requests.Nonces = forgetfulNonces{}
	request := httptest.NewRequest(http.MethodGet, "/auth", nil)
	pairs := s.alice.signedHeaders(b, "GET", "files.example.org", "/web/x", "", nil)
	for place := 0; place < len(pairs); place += 2 {
		request.Header.Set(pairs[place], pairs[place+1])
	}
	b.ReportAllocs()
	for turn := 0; turn < b.N; turn++ {
		result := s.answerTo(request)
		if result.response(nil, time.Now(), !isLast); result.Status != http.StatusOK {
			b.Fatal(result.Status, result.Reason)
		}
	}
}
