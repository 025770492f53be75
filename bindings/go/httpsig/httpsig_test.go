// Tests of signed requests (docs/SIGNATURES.md). A row is one request of testdata/rows, with the answer that every verifier must give: `valid`, or
// the name of a refusal. signers returns a Signer of each algorithm, with a new key. NewVerifier("example.com") is the verifier of that service.

package httpsig

import (
	"bufio"
	"bytes"
	"crypto"
	"crypto/ecdsa"
	"crypto/ed25519"
	"crypto/elliptic"
	"crypto/rand"
	"crypto/rsa"
	"crypto/x509"
	"encoding/base64"
	"errors"
	"fmt"
	"io"
	"math"
	"net/http"
	"net/http/httptest"
	"os"
	"strconv"
	"strings"
	"testing"
	"time"
	"unsafe"

	"conguraki/spki/verify"

	"conguraki/spki"
)

// A row is one of the table that all languages read: tests/generators/signed_requests.py says what its lines are. `gives` is the answer: `valid` or
// the name of a refusal. `now` is the verifier's time, in seconds since 1970. With isAgain the same message was sent `again` seconds earlier, too.
type row struct {
	name, gives string
	message     Message
	now, again  int64
	isAgain     bool
}

// rowsOf returns the rows of the table. The test ends if it cannot be read.
func rowsOf(t testing.TB) (rows []row) {
	octets, err := os.ReadFile("testdata/rows")
	if err != nil {
		t.Fatal(err)
	}
	for _, line := range strings.Split(string(octets), "\n") {
		word, rest, _ := strings.Cut(line, " ")
		if word == "row" {
			rows = append(rows, row{name: rest, message: Message{Header: http.Header{}}})
		} else if len(rows) > 0 {
			rows[len(rows)-1].set(word, unescaped(rest))
		}
	}
	return rows
}

// set sets the part of the row that a line gives. `word` is the first word of the line, and `text` is what follows it, without escapes. A line of
// another kind, such as an empty one, is ignored.
func (r *row) set(word, text string) {
	switch word {
	case "on":
		parts := strings.Split(text, "|")
		r.message.Method, r.message.Target, r.message.Authority = parts[0], parts[1], parts[2]
		r.now, _ = strconv.ParseInt(parts[3], 10, 64)
	case "field":
		name, value, _ := strings.Cut(text, ": ")
		r.message.Header.Add(name, value)
	case "body":
		r.message.Body = []byte(text)
	case "again":
		r.again, _ = strconv.ParseInt(text, 10, 64)
		r.isAgain = true
	case "gives":
		r.gives = text
	}
}

// unescaped returns a text of the table without its escapes, such as `\n` and `\xff`. It panics at an escape that Go does not know.
func unescaped(text string) string {
	plain, err := strconv.Unquote(`"` + strings.ReplaceAll(text, `"`, `\"`) + `"`)
	if err != nil {
		panic(text)
	}
	return plain
}

// verifierAt returns the verifier of the service in the rows, which started at 1792000000. Its clock is `now`, in seconds since 1970, which the test
// may change.
func verifierAt(now *int64) *Verifier {
	verifier := NewVerifier("example.com")
	verifier.Start, verifier.Now = time.Unix(1792000000, 0), func() time.Time { return time.Unix(*now, 0) }
	return verifier
}

// answerOf returns what Message or Check has returned as a row gives it: `valid` or the name of a refusal. For anything else, such as an error that
// is no Refusal, it returns a text that no row gives.
func answerOf(proof *Proof, err error) string {
	var refusal Refusal
	if err == nil && proof.Key.Text() != "" {
		return "valid"
	}
	if proof != nil || !errors.As(err, &refusal) {
		return fmt.Sprintf("%v, %v", proof, err)
	}
	return string(refusal)
}

// TestRows compares what the verifier answers to each row with the answer in the table.
func TestRows(t *testing.T) {
	rows := rowsOf(t)
	if len(rows) < 200 {
		t.Fatalf("the table was not read whole: %d rows", len(rows))
	}
	for _, row := range rows {
		now := row.now
		verifier := verifierAt(&now)
		if row.isAgain {
			now -= row.again
			if answer := answerOf(verifier.Message(row.message)); answer != "valid" {
				t.Errorf("%s, the first time: %s", row.name, answer)
			}
			now = row.now
		}
		if answer := answerOf(verifier.Message(row.message)); answer != row.gives {
			t.Errorf("%s: %s, wanted %s", row.name, answer, row.gives)
		}
	}
}

// mustDecode decodes base64, and ends the test if that fails.
func mustDecode(t testing.TB, text string) []byte {
	decoded, err := base64.StdEncoding.DecodeString(text)
	if err != nil {
		t.Fatal(err)
	}
	return decoded
}

// The examples of RFC 9421: appendix B.2.6, the request whose signature is signatureRFC by the private key of B.1.4, and B.2.4, the signed text
// responseRFC, whose signature curveSignatureRFC is valid by the public key curveRFC of B.1.3. Keys and signatures are in base64.
const (
	privateRFC   = "MC4CAQAwBQYDK2VwBCIEIJ+DYvh6SEqVTm50DFtMDoQikTmiCqirVv9mWG9qfSnF"
	signatureRFC = "wqcAqbmYJ2ji2glfAMaRy4gruYYnx2nEFN2HN6jrnDnQCK1u02Gb04v9EDgwUPiu4A0w6vuQv5lIp5WPpBKRCw=="
	curveRFC     = "MFkwEwYHKoZIzj0CAQYIKoZIzj0DAQcDQgAEqIVYZVLCrPZHGHjP17CTW0/+D9Lfw0EkjqF7xB4FivAxzic30tMM4GF+hR6Dxh71Z50VGGdldkkDXZCnTNnoXQ=="
	responseRFC  = `"@status": 200
"content-type": application/json
"content-digest": sha-512=:mEWXIS7MaLRuGgxOBdODa3xqM1XdEvxoYhvlCFJ41QJgJc4GTsPp29l5oGX69wWdXymyU0rjJuahq4l5aGgfLQ==:
"content-length": 23
"@signature-params": ("@status" "content-type" "content-digest" "content-length");created=1618884473;keyid="test-key-ecc-p256"`
	curveSignatureRFC = "wNmSUAhwb5LxtOtOpNa6W5xj067m5hFrj0XQ4fvpaCLx0NKocgPquLgyahnzDnDAUy5eCdlYUEkLIj+32oiasw=="
)

// TestPublishedExamples makes and verifies the signature of RFC 9421, appendix B.2.6, by Ed25519, verifies that of B.2.4, by ECDSA, and compares a
// digest of RFC 9530 with its body.
func TestPublishedExamples(t *testing.T) {
	header := http.Header{"Date": {"Tue, 20 Apr 2021 02:07:55 GMT"}, "Content-Type": {"application/json"}, "Content-Length": {"18"}}
	signed := base{&Message{Method: "POST", Target: "/foo?param=Value&Pet=dog", Header: header}, "https", "example.com"}
	text, err := signed.text([]string{"date", "@method", "@path", "@authority", "content-type", "content-length"},
		`("date" "@method" "@path" "@authority" "content-type" "content-length");created=1618884473;keyid="test-key-ed25519"`)
	if err != nil {
		t.Fatal(err)
	}
	private, err := x509.ParsePKCS8PrivateKey(mustDecode(t, privateRFC))
	if err != nil {
		t.Fatal(err)
	}
	signer, err := NewSigner(private.(crypto.Signer))
	if err != nil {
		t.Fatal(err)
	}
	signature, err := signer.signText(text)
	if err != nil || base64.StdEncoding.EncodeToString(signature) != signatureRFC {
		t.Errorf("%v, %x", err, signature)
	}
	if !verify.Signature(spki.Signature{Key: signer.key, Message: text, Value: valueOf(Ed25519, mustDecode(t, signatureRFC))}) {
		t.Error("Ed25519")
	}
	public, err := x509.ParsePKIXPublicKey(mustDecode(t, curveRFC))
	if err != nil {
		t.Fatal(err)
	}
	key, err := verify.KeyOf(public)
	if err != nil || !verify.Signature(spki.Signature{Key: key, Message: []byte(responseRFC), Value: valueOf(P256, mustDecode(t, curveSignatureRFC))}) {
		t.Error("ECDSA")
	}
	digest, err := digestOf("sha-512=:WZDPaVn/7XgHaAy8pmojAkGWoRx2UFChF41A2svX+TaPm+AbwAgBWnrIiYllu7BNNyealdVLvRwEmTHWXvJwew==:")
	if err != nil || !digest.matches([]byte(`{"hello": "world"}`)) {
		t.Error("the digest of RFC 9530")
	}
}

// emptySequence is `(8:sequence)`, which has no certificates, in transport form.
const emptySequence = "{KDg6c2VxdWVuY2Up}"

// signers returns a signer with a new key for each algorithm, by its name. (rand.Reader does not fail.)
func signers(t testing.TB) map[string]*Signer {
	_, edwards, _ := ed25519.GenerateKey(rand.Reader)
	curve, _ := ecdsa.GenerateKey(elliptic.P256(), rand.Reader)
	longer, _ := ecdsa.GenerateKey(elliptic.P384(), rand.Reader)
	modulus, _ := rsa.GenerateKey(rand.Reader, 2048)
	byAlgorithm := map[string]*Signer{}
	for name, private := range map[string]crypto.Signer{Ed25519: edwards, P256: curve, P384: longer, RSA: modulus} {
		signer, err := NewSigner(private)
		if err != nil {
			t.Fatal(err)
		}
		byAlgorithm[name] = signer
	}
	return byAlgorithm
}

// serverOfHashes returns a server that answers a request with the hash of the key that it proves, and sets `body` to its body, of at most 100 octets.
// A request that proves no key, or whose body Proof.Body refuses, gets the status 401.
func serverOfHashes(verifier *Verifier, body *[]byte) *httptest.Server {
	return httptest.NewServer(http.HandlerFunc(func(answer http.ResponseWriter, request *http.Request) {
		proof, err := verifier.Request(request)
		if err == nil {
			*body, err = proof.Body(request.Body, 100)
		}
		if err != nil {
			http.Error(answer, err.Error(), http.StatusUnauthorized)
			return
		}
		fmt.Fprint(answer, proof.Hash())
	}))
}

// TestClientAndServer sends requests by a Transport, with each kind of key, to serverOfHashes: a GET without a body, and a PUT whose target has
// escapes. One without a signature gets the status 401.
func TestClientAndServer(t *testing.T) {
	verifier := NewVerifier()
	verifier.Scheme = "http"
	var body []byte
	server := serverOfHashes(verifier, &body)
	defer server.Close()
	name := strings.TrimPrefix(server.URL, "http://")
	verifier.Authorities = []string{name}
	for algorithm, signer := range signers(t) {
		signer.Sequence = emptySequence
		client := http.Client{Transport: &Transport{Signer: signer, Names: []string{name}}}
		for _, sent := range []string{"", "some octets"} {
			request, _ := http.NewRequest(http.MethodPut, server.URL+"/a%20b/%7ec?d=e+f", strings.NewReader(sent))
			if sent == "" {
				request, _ = http.NewRequest(http.MethodGet, server.URL, nil)
			}
			response, err := client.Do(request)
			if err != nil {
				t.Fatal(err)
			}
			hash, _ := io.ReadAll(response.Body)
			response.Body.Close()
			wanted := (&Proof{Key: spki.AssumeKey(signer.key)}).Hash()
			if response.StatusCode != 200 || string(hash) != wanted || string(body) != sent {
				t.Errorf("%s: %d %s, %q", algorithm, response.StatusCode, hash, body)
			}
		}
	}
	response, err := http.Get(server.URL)
	if err != nil || response.StatusCode != http.StatusUnauthorized {
		t.Error(err, response)
	}
}

// TestFieldsToCover names more fields that Sign covers. Each is covered once. A field that the request lacks is AbsentField, also `content-digest`,
// which must be covered where it is present. A name with a capital letter is UnknownComponent.
func TestFieldsToCover(t *testing.T) {
	signer, verifier := signers(t)[Ed25519], NewVerifier("example.com")
	for covered, want := range map[string]error{
		"x-job x-job @path": nil, "x-jobs": AbsentField, "content-digest": AbsentField, "X-Job": UnknownComponent,
	} {
		message := Message{Method: "GET", Authority: "example.com", Target: "/foo", Header: http.Header{"X-Job": {"7"}}}
		if err := signer.Sign("https", message, strings.Fields(covered)...); err != want {
			t.Errorf("%s: %v", covered, err)
		}
		if want != nil {
			continue
		}
		_, err := verifier.Message(message)
		if times := strings.Count(message.Header.Get("Signature-Input"), `"x-job"`); err != nil || times != 1 {
			t.Errorf("%s: %d times, %v", covered, times, err)
		}
	}
}

// A replacedKey signs by a private key, and returns the public key of another one: a service that keeps keys may have replaced its key.
type replacedKey struct {
	crypto.Signer
	public crypto.PublicKey
}

// Public returns the public key that replacedKey was given.
func (r replacedKey) Public() crypto.PublicKey { return r.public }

// TestKeyOfAnotherCurve signs by a private key of P-384 whose public key is of P-256, which is an error and no panic.
func TestKeyOfAnotherCurve(t *testing.T) {
	curve, _ := ecdsa.GenerateKey(elliptic.P256(), rand.Reader)
	longer, _ := ecdsa.GenerateKey(elliptic.P384(), rand.Reader)
	signer, err := NewSigner(replacedKey{longer, curve.Public()})
	if err != nil {
		t.Fatal(err)
	}
	message := Message{Method: "GET", Authority: "example.com", Target: "/foo", Header: http.Header{}}
	if err := signer.Sign("https", message); err == nil || message.Header.Get("Signature") != "" {
		t.Errorf("%v, %q", err, message.Header)
	}
}

// TestMethodsAreTokens signs and verifies requests with methods that are tokens of HTTP or not. A Signer refuses what is none as BadTarget. To test
// the verifier, a signed GET gets the method afterwards: it is BadMethod if it is no token. U+212A is a K whose small letter is the ASCII letter k.
func TestMethodsAreTokens(t *testing.T) {
	signer, verifier := signers(t)[Ed25519], NewVerifier("example.com")
	for method, isToken := range map[string]bool{"GET": true, "get-1": true, "": false, "G T": false, "\u212a": false} {
		message := Message{Method: method, Authority: "example.com", Target: "/foo", Header: http.Header{}}
		if err := signer.Sign("https", message); (err == nil) != isToken || !isToken && err != BadTarget {
			t.Errorf("%q is signed: %v", method, err)
		}
		message.Method = "GET"
		if err := signer.Sign("https", message); err != nil {
			t.Fatal(err)
		}
		message.Method = method
		if _, err := verifier.Check(message); (err == BadMethod) == isToken {
			t.Errorf("%q: %v", method, err)
		}
	}
}

// TestTakeOfUsedNonce takes a nonce that was used, 100 s and 900 s after its signature was made, which expires after 300 s. After 900 s the nonce may
// be forgotten, so the proof is Expired.
func TestTakeOfUsedNonce(t *testing.T) {
	created := time.Now().Unix()
	now := created
	verifier, message := NewVerifier("example.com"), Message{Method: "GET", Authority: "example.com", Target: "/", Header: http.Header{}}
	verifier.Now = func() time.Time { return time.Unix(now, 0) }
	if err := signers(t)[Ed25519].Sign("https", message); err != nil {
		t.Fatal(err)
	}
	if _, err := verifier.Message(message); err != nil {
		t.Fatal(err)
	}
	proof, err := verifier.Check(message)
	if err != nil {
		t.Fatal(err)
	}
	for _, row := range []struct {
		seconds int64
		wanted  error
	}{{100, NonceSeen}, {900, Expired}} {
		now = created + row.seconds
		if err := verifier.Take(proof); err != row.wanted {
			t.Errorf("%+v: %v", row, err)
		}
	}
}

// A recorder is a store that takes each nonce. It has the second of the last one.
type recorder struct{ now int64 }

func (r *recorder) Take(key []byte, nonce string, now, seconds int64) error {
	r.now = now
	return nil
}

// TestClockThatGoesBackShortensNoNonce has the clock go back or on between Check and Take. The store gets the later moment: a nonce that it kept from
// the earlier one could be forgotten, and be taken again, while the signature that was accepted is still accepted.
func TestClockThatGoesBackShortensNoNonce(t *testing.T) {
	created, store := time.Now().Unix(), &recorder{}
	verifier, message := NewVerifier("example.com"), Message{Method: "GET", Authority: "example.com", Target: "/", Header: http.Header{}}
	verifier.Nonces = store
	if err := signers(t)[Ed25519].Sign("https", message); err != nil {
		t.Fatal(err)
	}
	for _, row := range []struct{ later, wanted int64 }{{-200, 0}, {0, 0}, {100, 100}} {
		verifier.Now = func() time.Time { return time.Unix(created, 0) }
		proof, err := verifier.Check(message)
		if err != nil {
			t.Fatal(err)
		}
		verifier.Now = func() time.Time { return time.Unix(created+row.later, 0) }
		if err := verifier.Take(proof); err != nil || store.now != created+row.wanted {
			t.Errorf("%+v: %d, %v", row, store.now-created, err)
		}
	}
}

// putForward returns a moment as Go has it after the system's clock was put forward by some seconds, as by `date -s`: the reading of the monotonic
// clock stays. (The first field of such a Time has 30 bits for the nanoseconds of the system's clock, and above these its seconds.)
func putForward(moment time.Time, seconds uint64) time.Time {
	*(*uint64)(unsafe.Pointer(&moment)) += seconds << 30
	return moment
}

// TestStartByClockThatWasBehind has a service start while its clock is ten minutes behind. The clock is put right after ten seconds. What was created
// before the start by the right clock is refused, since a service before this one may have answered it. A row has the time of the service, by its
// clock, and how long before that a request is signed.
func TestStartByClockThatWasBehind(t *testing.T) {
	signer, verifier := signers(t)[Ed25519], NewVerifier("example.com")
	behind := verifier.Start
	later := putForward(behind.Add(10*time.Second), 600)
	if later.Sub(behind) != 10*time.Second || later.Unix() != behind.Unix()+610 {
		t.Fatal("a Time has another form than putForward knows")
	}
	for _, row := range []struct {
		now    time.Time
		before time.Duration
		wanted error
	}{
		{behind.Add(10 * time.Second), 10 * time.Second, nil}, {behind.Add(10 * time.Second), 11 * time.Second, BeforeStart},
		{later, 9 * time.Second, nil}, {later, 10 * time.Second, nil}, {later, 11 * time.Second, BeforeStart}, {later, 200 * time.Second, BeforeStart},
	} {
		signer.now = func() time.Time { return row.now.Add(-row.before) }
		verifier.Now = func() time.Time { return row.now }
		message := Message{Method: "GET", Authority: "example.com", Target: "/foo", Header: http.Header{}}
		if err := signer.Sign("https", message); err != nil {
			t.Fatal(err)
		}
		if _, err := verifier.Check(message); err != row.wanted {
			t.Errorf("%+v: %v", row, err)
		}
	}
}

// TestServerHasWhatWasSent covers the field Host, which net/http takes out of the header, and an empty field of certificates: the Sequence of the
// proof is then empty, where it would be `(sequence)` without the field.
func TestServerHasWhatWasSent(t *testing.T) {
	header := http.Header{"Host": {"example.com"}, "X-Spki-Sequence": {""}}
	if err := signers(t)[Ed25519].Sign("https", Message{Method: "GET", Authority: "example.com", Target: "/", Header: header}, "host"); err != nil {
		t.Fatal(err)
	}
	var sent bytes.Buffer
	sent.WriteString("GET / HTTP/1.1\r\n")
	header.Write(&sent)
	sent.WriteString("\r\n")
	request, err := http.ReadRequest(bufio.NewReader(&sent))
	if err != nil {
		t.Fatal(err)
	}
	if proof, err := NewVerifier("example.com").Request(request); err != nil || len(proof.Sequence) != 0 {
		t.Error(proof, err)
	}
}

// TestOtherNamesLearnNothing sends a request to a server that is not among the names of the Transport, and one to a server that is, with the Host of
// another service. The server gets no signature and no certificates: it answers with the number of these fields.
func TestOtherNamesLearnNothing(t *testing.T) {
	server := httptest.NewServer(http.HandlerFunc(func(answer http.ResponseWriter, request *http.Request) {
		fmt.Fprint(answer, len(request.Header["Signature"])+len(request.Header["X-Spki-Sequence"]))
	}))
	defer server.Close()
	signer := signers(t)[Ed25519]
	signer.Sequence = emptySequence
	for _, host := range []string{"", "example.com"} {
		names := []string{"example.com"}
		request, _ := http.NewRequest(http.MethodGet, server.URL, nil)
		if host != "" {
			names = append(names, request.Host)
			request.Host = host
		}
		response, err := (&http.Client{Transport: &Transport{Signer: signer, Names: names}}).Do(request)
		if err != nil {
			t.Fatal(err)
		}
		fields, _ := io.ReadAll(response.Body)
		response.Body.Close()
		if string(fields) != "0" {
			t.Errorf("%q: %s", host, fields)
		}
	}
}

// TestRedirectionWithoutTLS follows redirections, each to the URL in the query `to`. A page by https gets a signature. A page by http gets one if
// no request before it was by https, and none otherwise, also after one more redirection. A page answers with the number of its signatures.
func TestRedirectionWithoutTLS(t *testing.T) {
	answers := http.HandlerFunc(func(answer http.ResponseWriter, request *http.Request) {
		to := request.URL.Query()["to"]
		if len(to) > 0 {
			http.Redirect(answer, request, to[0], http.StatusFound)
			return
		}
		fmt.Fprint(answer, len(request.Header["Signature"]))
	})
	safe, open := httptest.NewTLSServer(answers), httptest.NewServer(answers)
	defer safe.Close()
	defer open.Close()
	names := []string{strings.TrimPrefix(safe.URL, "https://"), strings.TrimPrefix(open.URL, "http://")}
	client := http.Client{Transport: &Transport{Signer: signers(t)[Ed25519], Names: names, Base: safe.Client().Transport}}
	for _, row := range []struct{ url, wanted string }{
		{safe.URL, "1"}, {safe.URL + "/?to=" + safe.URL, "1"}, {safe.URL + "/?to=" + open.URL, "0"},
		{safe.URL + "/?to=" + open.URL + "/?to=" + open.URL, "0"},
		{open.URL, "1"}, {open.URL + "/?to=" + open.URL, "1"}, {open.URL + "/?to=" + safe.URL, "1"},
	} {
		response, err := client.Get(row.url)
		if err != nil {
			t.Fatal(err)
		}
		fields, _ := io.ReadAll(response.Body)
		response.Body.Close()
		if string(fields) != row.wanted {
			t.Errorf("%s: %s", row.url, fields)
		}
	}
}

// TestBody reads by Proof.Body the body that was sent, with the limit `most`. A proof with a digest is of the signed body `abc`, and one without
// covers no body. `ok` says whether the body is returned. The highest limit must not overflow.
func TestBody(t *testing.T) {
	digest, _ := digestOf(ContentDigest([]byte("abc")))
	for _, row := range []struct {
		proof Proof
		sent  string
		most  int64
		ok    bool
	}{
		{Proof{digest: digest}, "abc", 3, true}, {Proof{digest: digest}, "abc", 2, false}, {Proof{digest: digest}, "abd", 3, false},
		{Proof{digest: digest}, "", 3, false}, {Proof{}, "", 3, true}, {Proof{}, "a", 3, false},
		{Proof{digest: digest}, "abc", math.MaxInt64, true}, {Proof{}, "", math.MaxInt64, true}, {Proof{}, "a", math.MaxInt64, false},
	} {
		if _, err := row.proof.Body(strings.NewReader(row.sent), row.most); (err == nil) != row.ok {
			t.Errorf("%+v: %v", row, err)
		}
	}
}

// An ofUnknownLength is a body whose length net/http does not know, so that HTTP/2 sends no Content-Length.
type ofUnknownLength struct{ io.Reader }

// serverByHTTP2 returns a server that answers by HTTP/2 with the protocol, and with the verifier's error for the request or its body, or `<nil>`. It
// makes the address of the server the only name of the verifier.
func serverByHTTP2(verifier *Verifier) *httptest.Server {
	server := httptest.NewUnstartedServer(http.HandlerFunc(func(answer http.ResponseWriter, request *http.Request) {
		proof, err := verifier.Request(request)
		if err == nil {
			_, err = proof.Body(request.Body, 100)
		}
		fmt.Fprint(answer, request.Proto, " ", err)
	}))
	server.EnableHTTP2 = true
	server.StartTLS()
	verifier.Authorities = []string{server.Listener.Addr().String()}
	return server
}

// TestBodyByHTTP2 sends GET by HTTP/2, where a body may come without Content-Length. A row has the body that a Transport signs by its digest, and one
// that is added to the signed request afterwards, or nil. One that is added to a request without a body is refused.
func TestBodyByHTTP2(t *testing.T) {
	verifier := NewVerifier()
	server := serverByHTTP2(verifier)
	defer server.Close()
	signing := &Transport{Signer: signers(t)[Ed25519], Names: verifier.Authorities, Base: server.Client().Transport}
	for _, row := range []struct {
		signed, added io.Reader
		wanted        string
	}{
		{nil, nil, "<nil>"}, {ofUnknownLength{strings.NewReader("")}, nil, "<nil>"}, {ofUnknownLength{strings.NewReader("abc")}, nil, "<nil>"},
		{nil, ofUnknownLength{strings.NewReader("abc")}, BodyWithoutDigest.Error()},
	} {
		request, _ := http.NewRequest(http.MethodGet, server.URL, row.signed)
		request, err := signing.signedCopy(request)
		if err != nil {
			t.Fatal(err)
		}
		if row.added != nil {
			request.Body = io.NopCloser(row.added)
		}
		response, err := signing.Base.RoundTrip(request)
		if err != nil {
			t.Fatal(err)
		}
		answer, _ := io.ReadAll(response.Body)
		response.Body.Close()
		if string(answer) != "HTTP/2.0 "+row.wanted {
			t.Errorf("%+v: %s", row, answer)
		}
	}
}

// TestUnknownBodyIsNotSigned signs messages with a body, without one, and with one that HasBody or Content-Length announces, but that is nil. This
// last kind is BodyWithoutDigest, since the body is not known.
func TestUnknownBodyIsNotSigned(t *testing.T) {
	signer := signers(t)[Ed25519]
	for _, row := range []struct {
		message Message
		wanted  error
	}{
		{Message{HasBody: true}, BodyWithoutDigest}, {Message{HasBody: true, Body: []byte{}}, nil}, {Message{HasBody: true, Body: []byte("a")}, nil},
		{Message{}, nil}, {Message{Body: []byte("a")}, nil}, {Message{Header: http.Header{"Content-Length": {"1"}}}, BodyWithoutDigest},
	} {
		row.message.Method, row.message.Authority, row.message.Target = "PUT", "example.com", "/"
		if row.message.Header == nil {
			row.message.Header = http.Header{}
		}
		if err := signer.Sign("https", row.message); err != row.wanted {
			t.Errorf("%+v: %v", row, err)
		}
	}
}

// TestNonces takes nonces at times in seconds. Each is kept for 360 s at least, in two sets of at most 2 nonces. A young set begins at 1000, 1360,
// 1720 and 3000. The one before it is then the old set, and is dropped at 3000, since it is over 720 s old. At 900, 1740 and 2999 the clock has gone
// back: by over a second no nonce is taken, also not that of 1720, which was dropped. At the end two keys use the same nonce, and neither is refused.
func TestNonces(t *testing.T) {
	store := NewMemory(2)
	for _, row := range []struct {
		nonce  string
		now    int64
		wanted error
	}{
		{"a", 1000, nil}, {"a", 1000, NonceSeen}, {"b", 1100, nil}, {"c", 1359, StoreFull}, {"b", 1359, NonceSeen}, {"c", 1360, nil},
		{"a", 1360, NonceSeen}, {"b", 1459, NonceSeen}, {"d", 900, BeforeStart}, {"c", 1719, NonceSeen}, {"a", 1720, nil},
		{"c", 1720, NonceSeen}, {"c", 3000, nil}, {"a", 1740, BeforeStart}, {"d", 2999, nil}, {"a", 3000, StoreFull},
	} {
		if err := store.Take([]byte("key"), row.nonce, row.now, 360); err != row.wanted {
			t.Errorf("%+v: %v", row, err)
		}
	}
	ofKeys := NewMemory(2)
	for _, key := range []string{"key", "other key"} {
		if err := ofKeys.Take([]byte(key), "a", 1000, 360); err != nil {
			t.Errorf("the same nonce of %s: %v", key, err)
		}
	}
}

// FuzzFields shows that there is no panic whatever is in the fields, and that Check returns a proof only after Verify has accepted the signature, and
// only of the key whose hash Signature-Input has. This Verify accepts each text that has the form of a signed request, whatever its signature.
func FuzzFields(f *testing.F) {
	for _, row := range rowsOf(f) {
		header := row.message.Header
		f.Add(header.Get("Signature-Input"), header.Get("Signature"), header.Get("Content-Digest"), header.Get(publicKey), "/foo")
	}
	now := int64(1792000100)
	verifier := verifierAt(&now)
	isVerified := false
	verifier.Verify = func(signed spki.Signature) bool {
		isVerified = bytes.HasPrefix(signed.Message, []byte(`"`)) && bytes.Contains(signed.Message, []byte(`"@signature-params": (`))
		return isVerified
	}
	f.Fuzz(func(t *testing.T, input, signature, digest, key, target string) {
		header := http.Header{"Signature-Input": {input}, "Signature": {signature}, "X-Spki-Public-Key": {key}}
		if digest != "" {
			header["Content-Digest"] = []string{digest}
		}
		isVerified = false
		proof, err := verifier.Check(Message{Method: "GET", Authority: "example.com", Target: target, Header: header})
		if err == nil && (!isVerified || proof.Key.Text() == "" || !strings.Contains(input, proof.Hash())) {
			t.Errorf("%q %q %q", input, signature, key)
		}
	})
}

// FuzzSigned shows that a verifier accepts each request that a Signer signs. What Sign refuses is left out.
func FuzzSigned(f *testing.F) {
	f.Add("GET", "/foo?a=b", "accept", "text/html", "body")
	byAlgorithm, algorithms := signers(f), []string{Ed25519, P256, P384, RSA}
	f.Fuzz(func(t *testing.T, method, target, name, value, body string) {
		// (so the inputs reach all algorithms, and the same input always reaches the same one)
		algorithm := algorithms[(len(target)+len(body))%len(algorithms)]
		signer, verifier := byAlgorithm[algorithm], NewVerifier("example.com")
		message := Message{Method: method, Authority: "example.com", Target: target, Header: http.Header{}, Body: []byte(body)}
		message.Header.Set(name, value)
		if signer.Sign("https", message, strings.ToLower(name)) != nil {
			return
		}
		// (no field has such a name: it is that of a component such as @path)
		if strings.HasPrefix(name, "@") {
			return
		}
		if _, err := verifier.Message(message); err != nil {
			t.Errorf("%q %q %q: %v", method, target, message.Header, err)
		}
	})
}

// BenchmarkCheck times Verifier.Check, with each kind of key.
func BenchmarkCheck(b *testing.B) {
	for name, signer := range signers(b) {
		b.Run(name, func(b *testing.B) {
			message := Message{Method: "GET", Authority: "example.com", Target: "/foo?a=b", Header: http.Header{}}
			if err := signer.Sign("https", message); err != nil {
				b.Fatal(err)
			}
			verifier := NewVerifier("example.com")
			b.ResetTimer()
			for place := 0; place < b.N; place++ {
				if _, err := verifier.Check(message); err != nil {
					b.Fatal(err)
				}
			}
		})
	}
}
