package main

// Tests of what the daemon answers to the headers of a web server's request, and of the line that it logs. A site (newSite) is a decider without a
// socket: Alice may read below /web/, Bob below /web/docs/ by her certificate, and Carol below /web/docs/a/ by his. Mallory has no right. Status 200
// grants, 401 (where certificates may help) and 403 deny, 400 refuses an unclear request, and 503 is a failure of the daemon.

import (
	"bufio"
	"bytes"
	"encoding/json"
	"net/http"
	"net/http/httptest"
	"os"
	"strings"
	"testing"
	"time"
)

// Names for arguments of the daemon's functions that are true or false.
const allowFewerEnded, mayRemove, isLast = true, true, true

// A site is a decider with a list, and the people whom the tests are about. By the list Alice may read below /web/. She gives Bob the right to read
// below /web/docs/, who gives Carol that below /web/docs/a/. Mallory has no right.
type site struct {
	*decider
	alice, bob, carol, mallory person
	// The certificates to Bob and to Carol, in canonical form and not signed.
	toBob, toCarol string
	// All lines that the decider has logged.
	log journal
}

// newSite returns a site with new keys. `fields` are more fields of its configuration, each after a comma such as `, "cache": 0`, or empty.
func newSite(t testing.TB, fields string) *site {
	t.Helper()
	here := &site{alice: newPerson(t), bob: newPerson(t), carol: newPerson(t), mallory: newPerson(t)}
	list := "(3:acl(5:entry" + here.alice.key + propagates + "(3:tag" + prefixTag("read", "/web/") + ")))"
	here.toBob = here.alice.certificate(here.bob, prefixTag("read", "/web/docs/"), propagates)
	here.toCarol = here.bob.certificate(here.carol, prefixTag("read", "/web/docs/a/"), "")
	text := `{"listen": "unix:/run/x/s", "server": "nginx", "list": "` + writeFile(t, "acl", list) + `", "log": "/log",
		"requests": [{"prefix": "/", "methods": {"GET": "read", "PUT": "write"}, "request": ["files", "{method}", "{path}"]}]` + fields + `}`
	config, err := parseConfig([]byte(text))
	if err != nil {
		t.Fatal(err)
	}
	here.decider = newDecider(config)
	here.logGrant, here.logOther = here.log.grant, here.log.other
	here.mustReload(t)
	return here
}

// mustReload has the site read its list and its ended certificates again, and ends the test after an error. Certificates that have ended may count
// again.
func (s *site) mustReload(t testing.TB) {
	t.Helper()
	if err := s.keeper.reload(s.config, allowFewerEnded, s.now()); err != nil {
		t.Fatal(err)
	}
}

// sequencesShown returns the sequences that Bob and Carol show, in transport form: the certificate to Bob, and both.
func (s *site) sequencesShown() (bob, carol string) {
	bobs := s.alice.sign(s.toBob)
	return sequence(bobs), sequence(bobs, s.bob.sign(s.toCarol))
}

// ask returns the response to a request with these headers, in pairs of name and value.
func (s *site) ask(pairs ...string) *http.Response {
	request := httptest.NewRequest(http.MethodGet, "/auth", nil)
	for place := 0; place < len(pairs); place += 2 {
		request.Header.Add(pairs[place], pairs[place+1])
	}
	return s.respond(request)
}

// respond has the site answer a request of the web server, and returns the response that the web server reads. It panics if that is no HTTP.
func (s *site) respond(request *http.Request) *http.Response {
	result := s.answerTo(request)
	response, err := http.ReadResponse(bufio.NewReader(bytes.NewReader(result.response(nil, time.Now(), !isLast))), request)
	if err != nil {
		panic(err)
	}
	return response
}

// askAs returns the response to a request of a person, with the person's TLS certificate. `sequence` is what the person shows, or empty for none.
func (s *site) askAs(who person, method, target, sequence string) *http.Response {
	pairs := []string{"X-Original-Method", method, "X-Original-URI", target, "X-Client-Cert", who.escaped()}
	if sequence != "" {
		pairs = append(pairs, "Authorization", "SPKI "+sequence)
	}
	return s.ask(pairs...)
}

// lastLine returns what the last line of the log says, and ends the test if that is no JSON.
func (s *site) lastLine(t testing.TB) record {
	t.Helper()
	lines := strings.Split(strings.TrimSpace(s.log.String()), "\n")
	var line record
	if err := json.Unmarshal([]byte(lines[len(lines)-1]), &line); err != nil {
		t.Fatalf("%q: %v", lines[len(lines)-1], err)
	}
	return line
}

// TestAnswers asks as each person, showing no certificates, the person's own or somebody else's, and compares the status. `sequence` is what is shown.
func TestAnswers(t *testing.T) {
	s := newSite(t, "")
	bobs, carols := s.sequencesShown()
	for name, row := range map[string]struct {
		who                      person
		method, target, sequence string
		wanted                   int
	}{
		"Alice reads":              {s.alice, "GET", "/web/x", "", 200},
		"Alice, an empty sequence": {s.alice, "GET", "/web/x?y=z", sequence(), 200},
		"Alice writes":             {s.alice, "PUT", "/web/x", "", 401},
		"Alice reads elsewhere":    {s.alice, "GET", "/etc/passwd", "", 401},
		"Alice reads above":        {s.alice, "GET", "/web/../etc/passwd", "", 400},
		"Bob reads":                {s.bob, "GET", "/web/docs/b", bobs, 200},
		"Bob shows nothing":        {s.bob, "GET", "/web/docs/b", "", 401},
		"Bob reads elsewhere":      {s.bob, "GET", "/web/x", bobs, 403},
		"Bob shows Carol's":        {s.bob, "GET", "/web/docs/a/b", carols, 403},
		"Carol reads":              {s.carol, "GET", "/web/docs/a/b", carols, 200},
		"Carol reads more":         {s.carol, "GET", "/web/docs/b", carols, 403},
		"Carol shows Bob's":        {s.carol, "GET", "/web/docs/a/b", bobs, 403},
		"Mallory shows Carol's":    {s.mallory, "GET", "/web/docs/a/b", carols, 403},
		"no rule":                  {s.alice, "DELETE", "/web/x", "", 403},
		"a value of another kind":  {s.alice, "GET", "/web/x", noSequence, 400},
		"cut off":                  {s.carol, "GET", "/web/docs/a/b", carols[:len(carols)-9], 400},
	} {
		if response := s.askAs(row.who, row.method, row.target, row.sequence); response.StatusCode != row.wanted {
			t.Errorf("%s: %d, wanted %d: %+v", name, response.StatusCode, row.wanted, s.lastLine(t))
		}
	}
}

// TestHeadersAndLog compares headers of a grant, a denial, a refusal, and a request without certificates, and the log's lines of the grant and the
// refusal. No line has a whole key or certificate.
func TestHeadersAndLog(t *testing.T) {
	s := newSite(t, "")
	bobs, _ := s.sequencesShown()
	// (the second time the signature is known)
	for turn, cached := range []int{0, 1} {
		header, line := s.askAs(s.bob, "GET", "/web/docs/b", bobs).Header, s.lastLine(t)
		key := hexDigest([]byte(s.bob.key))
		if header.Get("X-Spki-Answer") != "yes" || header.Get("X-Spki-Entry") != "1" || header.Get("X-Spki-Key") != key || header.Get("Cache-Control") != "no-store" {
			t.Errorf("turn %d: %v", turn, header)
		}
		if line.Answer != answerYes || line.Status != 200 || line.Key != key || line.Entry != 1 || line.Cached != cached || len(line.Certificates) != 1 ||
			line.Certificates[0] != digestOfText(s.toBob) || strings.Join(line.Request, " ") != "files read /web/docs/b" || line.List == "" {
			t.Errorf("turn %d: %+v", turn, line)
		}
	}
	denied := s.askAs(s.bob, "GET", "/web/x", bobs)
	if denied.Header.Get("X-Spki-Answer") != "no" || denied.Header.Get("X-Spki-Entry") != "" {
		t.Errorf("%v", denied.Header)
	}
	refused := s.askAs(s.bob, "GET", "/web/x", noSequence)
	if refused.Header.Get("X-Spki-Reason") != "refused sequence 0 Shape" || s.lastLine(t).Reason != "refused sequence 0 Shape" {
		t.Errorf("%v, %+v", refused.Header, s.lastLine(t))
	}
	if unknown := s.askAs(s.bob, "GET", "/web/x", ""); unknown.Header.Get("WWW-Authenticate") != "SPKI" {
		t.Errorf("%v", unknown.Header)
	}
	if log := s.log.String(); strings.Contains(log, bobs) || strings.Contains(log, "BEGIN") || strings.Contains(log, "public-key") {
		t.Error("the log has a whole key or certificate")
	}
}

// TestForgedSignatures shows certificates whose signatures are not those of Alice's key: each is denied, also the second time.
func TestForgedSignatures(t *testing.T) {
	s := newSite(t, "")
	forged := s.mallory.sign(s.alice.certificate(s.mallory, prefixTag("read", "/web/"), propagates))
	own := s.mallory.sign(s.mallory.certificate(s.mallory, prefixTag("read", "/web/"), propagates))
	asAlice := s.mallory.signAs(s.alice, s.alice.certificate(s.mallory, prefixTag("read", "/web/"), propagates))
	for name, shown := range map[string]string{"by Mallory's key": forged, "from Mallory": own, "as if by Alice's key": asAlice} {
		for turn := 0; turn < 2; turn++ {
			if response := s.askAs(s.mallory, "GET", "/web/x", sequence(shown)); response.StatusCode != 403 {
				t.Errorf("%s: %d", name, response.StatusCode)
			}
		}
	}
}

// TestHeadersOfRequests asks with right headers, and with some that are absent, there twice or wrong, and compares the status.
func TestHeadersOfRequests(t *testing.T) {
	s := newSite(t, "")
	bobs, _ := s.sequencesShown()
	whole := []string{"X-Original-Method", "GET", "X-Original-URI", "/web/docs/b", "X-Client-Cert", s.bob.escaped(), "Authorization", "SPKI " + bobs}
	// (`more` adds pairs behind these, and `instead` has its pairs in the place of the sequence)
	more := func(pairs ...string) []string { return append(append([]string(nil), whole...), pairs...) }
	instead := func(pairs ...string) []string { return append(without(whole, "Authorization"), pairs...) }
	for name, row := range map[string]struct {
		pairs  []string
		wanted int
	}{
		"whole": {whole, 200}, "no method": {without(whole, "X-Original-Method"), 400}, "no URI": {without(whole, "X-Original-URI"), 400},
		"no certificate": {without(whole, "X-Client-Cert"), 401}, "empty certificate": {withValue(whole, "X-Client-Cert", ""), 401},
		"no sequence": {instead(), 401}, "two methods": {more("X-Original-Method", "GET"), 400}, "two URIs": {more("X-Original-URI", "/web/docs/b"), 400},
		"two certificates": {more("X-Client-Cert", s.alice.escaped()), 400}, "two sequences": {more("Authorization", "SPKI "+bobs), 400},
		"both headers": {more("X-Spki-Sequence", bobs), 400}, "own header": {instead("X-Spki-Sequence", bobs), 200},
		"other scheme": {instead("Authorization", "Basic QTpC"), 401}, "small letters": {instead("Authorization", "spki "+bobs), 200},
		"other scheme, own header": {instead("Authorization", "Bearer x", "X-Spki-Sequence", bobs), 200}, "no scheme": {instead("Authorization", bobs), 401},
		"spaces": {instead("Authorization", "SPKI    "+bobs), 200}, "scheme alone": {instead("Authorization", "SPKI"), 400},
		"two texts": {instead("Authorization", "SPKI "+bobs+bobs), 400}, "text behind": {instead("Authorization", "SPKI "+bobs+" x"), 400},
		"advanced form": {instead("Authorization", "SPKI (sequence)"), 400}, "long": {more("X-Other", strings.Repeat("x", usualLimits.HeaderOctets)), 400},
		"long sequence": {instead("Authorization", "SPKI {"+strings.Repeat("A", 65_536)+"}"), 400},
	} {
		if response := s.ask(row.pairs...); response.StatusCode != row.wanted {
			t.Errorf("%s: %d, wanted %d: %+v", name, response.StatusCode, row.wanted, s.lastLine(t))
		}
	}
}

// TestManyCertificates shows the same certificate 16 times, which is denied, since its subject is not its issuer. With 17, one more than the library
// reads, the request is refused.
func TestManyCertificates(t *testing.T) {
	s := newSite(t, "")
	signed := s.alice.sign(s.toBob)
	many := make([]string, 17)
	for place := range many {
		many[place] = signed
	}
	for count, wanted := range map[int]int{16: 403, 17: 400} {
		if response := s.askAs(s.bob, "GET", "/web/docs/b", sequence(many[:count]...)); response.StatusCode != wanted {
			t.Errorf("%d certificates: %d: %+v", count, response.StatusCode, s.lastLine(t))
		}
	}
}

// TestSecretOfServer asks with the secret of the web server, which is granted, and with others and without one, which is denied.
func TestSecretOfServer(t *testing.T) {
	s := newSite(t, "")
	s.config.secret = []byte("0123456789abcdef0123456789abcdef")
	whole := []string{"X-Original-Method", "GET", "X-Original-URI", "/web/b", "X-Client-Cert", s.alice.escaped()}
	for secret, wanted := range map[string]int{"": 403, "x": 403, string(s.config.secret): 200, string(s.config.secret) + "x": 403} {
		pairs := append([]string(nil), whole...)
		if secret != "" {
			pairs = append(pairs, "X-Spki-Secret", secret)
		}
		if response := s.ask(pairs...); response.StatusCode != wanted {
			t.Errorf("%q: %d", secret, response.StatusCode)
		}
	}
}

// TestRefusedStatus asks for a path that is not clear where refused_status is 403: the status is that, and the answer is still `refused`.
func TestRefusedStatus(t *testing.T) {
	s := newSite(t, `, "refused_status": 403`)
	if response := s.askAs(s.alice, "GET", "/web/../x", ""); response.StatusCode != 403 || response.Header.Get("X-Spki-Answer") != "refused" {
		t.Errorf("%d, %v", response.StatusCode, response.Header)
	}
}

// TestEndedCertificates ends Carol's certificate after it has granted a request: it counts no longer, and Bob's still does.
func TestEndedCertificates(t *testing.T) {
	s := newSite(t, "")
	bobs, carols := s.sequencesShown()
	if response := s.askAs(s.carol, "GET", "/web/docs/a/b", carols); response.StatusCode != 200 {
		t.Fatal(response.StatusCode)
	}
	s.config.Ended = writeFile(t, "ended", withLastLine(digestOfText(s.toCarol)+" # stolen\n"))
	s.mustReload(t)
	if response := s.askAs(s.carol, "GET", "/web/docs/a/b", carols); response.StatusCode != 403 || !strings.Contains(s.lastLine(t).Reason, digestOfText(s.toCarol)) {
		t.Errorf("an ended certificate counts, although its signature is kept: %d, %+v", response.StatusCode, s.lastLine(t))
	}
	if response := s.askAs(s.bob, "GET", "/web/docs/b", bobs); response.StatusCode != 200 {
		t.Error(response.StatusCode)
	}
}

// TestReloads replaces the list by a wrong one, which changes nothing, and by an empty one, by which Alice has no right.
func TestReloads(t *testing.T) {
	s := newSite(t, "")
	if err := os.WriteFile(s.config.List, []byte("(acl (entry))"), 0o600); err != nil {
		t.Fatal(err)
	}
	if err := s.keeper.reload(s.config, !allowFewerEnded, s.now()); err == nil || !strings.Contains(err.Error(), "refused acl 1 Shape") {
		t.Error(err)
	}
	if response := s.askAs(s.alice, "GET", "/web/x", ""); response.StatusCode != 200 {
		t.Errorf("a refused list has replaced the old one: %d", response.StatusCode)
	}
	if err := os.WriteFile(s.config.List, []byte("(acl)"), 0o600); err != nil {
		t.Fatal(err)
	}
	s.mustReload(t)
	if response := s.askAs(s.alice, "GET", "/web/x", ""); response.StatusCode != 401 {
		t.Errorf("the old list is asked: %d", response.StatusCode)
	}
}

// TestExplanations has requests denied, and compares the reasons in the log: the right that Bob was given lacks the path, no entry names Mallory, and
// the signature of Carol's second certificate is not Bob's.
func TestExplanations(t *testing.T) {
	s := newSite(t, `, "explain": true`)
	bobs, _ := s.sequencesShown()
	s.askAs(s.bob, "GET", "/web/x", bobs)
	if reasons := s.lastLine(t).Reasons; reasons != "entry 1 TagLacks" {
		t.Error(reasons)
	}
	s.askAs(s.mallory, "GET", "/web/x", "")
	if reasons := s.lastLine(t).Reasons; reasons != "no entry is for this key or for the first issuer" {
		t.Error(reasons)
	}
	s.askAs(s.carol, "GET", "/web/docs/a/b", sequence(s.alice.sign(s.toBob), s.mallory.signAs(s.bob, s.toCarol)))
	if reasons := s.lastLine(t).Reasons; reasons != "item 3 NotAccepted" {
		t.Error(reasons)
	}
}

// TestExplanationsAreBounded has eight requests denied at one moment. Six of the denials are explained: explain_rate times savedSeconds. A second later the
// next one is explained too. The tags are sets with more intersections than the library explains, so each explanation is `refused TooLarge`.
func TestExplanationsAreBounded(t *testing.T) {
	s := newSite(t, `, "explain": true, "limits": {"explain_rate": 3}`)
	moment := time.Now()
	s.now = func() time.Time { return moment }
	set := "(1:*3:set" + strings.Repeat("1:a", 900) + ")"
	entry := "(5:entry" + s.alice.key + propagates + "(3:tag" + set + "))"
	if err := os.WriteFile(s.config.List, []byte("(3:acl"+strings.Repeat(entry, 100)+")"), 0o600); err != nil {
		t.Fatal(err)
	}
	s.mustReload(t)
	shown := sequence(s.alice.sign(s.alice.certificate(s.bob, set, "")))
	for place := 0; place < 8; place++ {
		wanted := "refused TooLarge"
		if place >= savedSeconds*3 {
			wanted = notExplained
		}
		response := s.askAs(s.bob, "GET", "/web/x", shown)
		if line := s.lastLine(t); response.StatusCode != 403 || line.Answer != answerNo || line.Reasons != wanted {
			t.Errorf("%d: %d, %+v", place, response.StatusCode, line)
		}
	}
	moment = moment.Add(time.Second)
	s.askAs(s.bob, "GET", "/web/x", shown)
	if reasons := s.lastLine(t).Reasons; reasons != "refused TooLarge" {
		t.Error(reasons)
	}
}

// TestEndOfCertificate asks before the end of a certificate, which is granted, and after it, which is denied.
func TestEndOfCertificate(t *testing.T) {
	s := newSite(t, "")
	until := s.alice.certificateUntil(s.bob, prefixTag("read", "/web/"), "2026-01-01_00:00:00")
	for year, wanted := range map[int]int{2025: 200, 2027: 403} {
		s.now = func() time.Time { return time.Date(year, 1, 1, 0, 0, 0, 0, time.UTC) }
		if response := s.askAs(s.bob, "GET", "/web/x", sequence(s.alice.sign(until))); response.StatusCode != wanted {
			t.Errorf("%d: %d, %+v", year, response.StatusCode, s.lastLine(t))
		}
	}
}

// TestPanicIsAFailure takes the cache away, so that the decider panics: the answer is 503, and the log has it.
func TestPanicIsAFailure(t *testing.T) {
	s := newSite(t, "")
	s.cache = nil
	bobs, _ := s.sequencesShown()
	if response := s.askAs(s.bob, "GET", "/web/docs/b", bobs); response.StatusCode != 503 || s.lastLine(t).Answer != answerFailed {
		t.Errorf("%d, %+v", response.StatusCode, s.lastLine(t))
	}
}

// TestPathPrefixOfEnvoy asks as Envoy does, whose requests have the client's target behind path_prefix. A target without that prefix, or with an unclear
// path behind it, is refused.
func TestPathPrefixOfEnvoy(t *testing.T) {
	s := newSite(t, "")
	text := strings.Replace(strings.Replace(leastConfig, "nginx", "envoy", 1), "{", `{"path_prefix": "/auth", `, 1)
	config, err := parseConfig([]byte(text))
	if err != nil {
		t.Fatal(err)
	}
	s.config, s.keys = config, newKeys(config.CertificateForm)
	for target, wanted := range map[string]int{"/auth/web/x": 200, "/web/x": 400, "/auth/web/../x": 400, "/auth": 400, "/authx/web/x": 400} {
		request := httptest.NewRequest(http.MethodGet, target, nil)
		request.RequestURI = target
		request.Header.Set("X-Forwarded-Client-Cert", `Hash=x;Cert="`+s.alice.escaped()+`"`)
		if response := s.respond(request); response.StatusCode != wanted {
			t.Errorf("%s: %d, %+v", target, response.StatusCode, s.lastLine(t))
		}
	}
}
