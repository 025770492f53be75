package main

// Fuzz tests: whatever a client sends, only what checkGrant allows is granted. At a site (newSite) Alice may read below /web/, Bob below /web/docs/
// by her certificate, and Carol below /web/docs/a/ by his. Mallory has no right. Status 200 grants, 401 (where certificates may help) and 403 deny,
// 400 refuses an unclear request, and 503 is a failure of the daemon.

import (
	"bytes"
	"encoding/base64"
	"encoding/json"
	"net"
	"strings"
	"testing"
	"time"

	"conguraki/spki/guard"
)

// FuzzHeaders asks with any texts in the headers. Each status must be 200, 400, 401 or 403, and 200 only for what checkGrant allows.
func FuzzHeaders(f *testing.F) {
	s := newSite(f, "")
	bobs, carols := s.sequencesShown()
	people := []person{s.alice, s.bob, s.carol, s.mallory}
	// (what each of the people shows)
	for who, shown := range []string{"", bobs, carols, carols} {
		for _, target := range []string{"/web/x", "/web/docs/b", "/web/docs/a/b", "/web/%2e%2e/x", "//web/x"} {
			f.Add("GET", target, people[who].escaped(), "SPKI "+shown, "")
			f.Add("GET", target, people[who].escaped(), "", shown)
		}
	}
	f.Fuzz(func(t *testing.T, method, target, certificate, credentials, inHeader string) {
		defer s.log.Reset()
		pairs := []string{"X-Original-Method", method, "X-Original-URI", target, "X-Client-Cert", certificate}
		if credentials != "" {
			pairs = append(pairs, "Authorization", credentials)
		}
		if inHeader != "" {
			pairs = append(pairs, "X-Spki-Sequence", inHeader)
		}
		status, line := s.ask(pairs...).StatusCode, s.lastLine(t)
		switch status {
		case 200:
			s.checkGrant(t, method, line)
		case 400, 401, 403:
		default:
			t.Errorf("%d: %+v", status, line)
		}
		if line.Status != status || (line.Answer == answerYes) != (status == 200) {
			t.Errorf("%d: %+v", status, line)
		}
	})
}

// FuzzSequence shows octets as certificates, in transport form in a right header, so that they reach the guard. 200 is only for what checkGrant
// allows. Any other status is 400 or 403: 401 is for requests that show nothing.
func FuzzSequence(f *testing.F) {
	s := newSite(f, "")
	people := []person{s.alice, s.bob, s.carol, s.mallory}
	bobs := s.alice.sign(s.toBob)
	// (what each of the people shows)
	for who, shown := range []string{"", bobs, bobs + s.bob.sign(s.toCarol), s.mallory.sign(s.toBob)} {
		f.Add(uint8(who), "/web/docs/a/b", []byte("(8:sequence"+shown+")"))
	}
	f.Fuzz(func(t *testing.T, who uint8, target string, octets []byte) {
		defer s.log.Reset()
		shown := "{" + base64.StdEncoding.EncodeToString(octets) + "}"
		status, line := s.askAs(people[int(who)%len(people)], "GET", target, shown).StatusCode, s.lastLine(t)
		if status == 200 {
			s.checkGrant(t, "GET", line)
		} else if status != 400 && status != 403 || line.Answer == answerYes {
			t.Errorf("%d: %+v", status, line)
		}
	})
}

// FuzzLeft leaves octets with the daemon as certificates, for later requests by Bob's key: they are kept (201), or refused (400). What is kept has
// this key in it, or its hash by SHA-256 (the seeds have no other hash, and nobody signs new ones), and no more is granted by it than checkGrant
// allows.
func FuzzLeft(f *testing.F) {
	s := newSite(f, `, "limits": {"leave_rate": 1000000000}, "chains": {"folder": "`+f.TempDir()+`"}`+withSignatures)
	// (`hashed` names Bob by the hash of his key, and has a comment with a display hint)
	bobs, hashed := s.alice.sign(s.toBob), s.alice.signedCertificate(s.bob.hashOfKey(), prefixTag("read", "/web/docs/"), "(7:comment[1:x]1:y)")
	for _, shown := range []string{"", bobs, hashed, s.bob.key + bobs, bobs + s.bob.sign(s.toCarol), s.alice.signedNameCertificate("builders", s.bob.key)} {
		f.Add([]byte("(8:sequence" + shown + ")"))
	}
	f.Fuzz(func(t *testing.T, octets []byte) {
		defer s.log.Reset()
		s.chains = &folderChains{chains: *s.config.Chains, byKey: map[string][]keptChain{}}
		status, reply := s.leaveAs(t, s.bob, string(octets))
		isKept := s.keepsFor(t, s.bob)
		if status != 201 && status != 400 || (status == 201) != isKept || (reply == answerKept) != isKept {
			t.Errorf("%d: %+v", status, s.lastLine(t))
		}
		canonical, err := guard.Canonical(octets)
		hasBob := bytes.Contains(canonical, []byte(s.bob.key)) || bytes.Contains(canonical, []byte(s.bob.hashOfKey()))
		if isKept && (err != nil || !hasBob) {
			t.Errorf("kept: %q", octets)
		}
		if s.statusFor(s.bob, "/web/docs/b", "") == 200 {
			s.checkGrant(t, "GET", s.lastLine(t))
		}
	})
}

// A scriptedConnection is one on which a client has sent all that it sends: `sent` has what is not read yet, and `answered` what the daemon has written. It
// is never closed, and its deadlines do nothing.
type scriptedConnection struct {
	net.Conn
	sent     *bytes.Reader
	answered bytes.Buffer
}

// Read reads what the client has sent, and fails with io.EOF behind it.
func (p *scriptedConnection) Read(octets []byte) (int, error) { return p.sent.Read(octets) }

// Write adds octets to what the daemon has answered.
func (p *scriptedConnection) Write(octets []byte) (int, error) { return p.answered.Write(octets) }

// Close does nothing.
func (p *scriptedConnection) Close() error { return nil }

// SetDeadline does nothing: no read and no write waits.
func (p *scriptedConnection) SetDeadline(time.Time) error { return nil }

// SetReadDeadline does nothing: no read waits.
func (p *scriptedConnection) SetReadDeadline(time.Time) error { return nil }

// FuzzConnection sends octets that may be requests on a connection. Each answer has one line in the log with the same answer, and 200 is only for what
// checkGrant allows.
func FuzzConnection(f *testing.F) {
	s := newSite(f, "")
	server := newConnectionServer(s.decider)
	header := " / HTTP/1.1\r\nHost: x\r\nX-Original-Method: GET\r\nX-Original-URI: /web/x\r\nX-Client-Cert: " + s.alice.escaped() + "\r\n"
	for _, text := range []string{
		"GET" + header + "\r\n", "GET" + header + "\r\nHEAD" + header + "Connection: close\r\n\r\n", "OPTIONS * HTTP/1.1\r\n\r\n", "x\r\n\r\n",
		"GET" + header + "Content-Length: 3\r\n\r\nabcGET" + header + "\r\n", "GET" + header + "Transfer-Encoding: chunked\r\n\r\n0\r\n\r\n",
		"GET" + header + "X-Client-Cert: " + s.bob.escaped() + "\r\n\r\n", "PUT" + header + "Expect: 100-continue\r\nContent-Length: 1\r\n\r\n",
	} {
		f.Add([]byte(text))
	}
	f.Fuzz(func(t *testing.T, octets []byte) {
		defer s.log.Reset()
		connection := &scriptedConnection{sent: bytes.NewReader(octets)}
		// (as connectionServer.serve does for each connection)
		server.places <- struct{}{}
		state := server.add(connection)
		if len(server.open) != 1 {
			t.Fatal("the connection is not open")
		}
		server.answerAll(state)
		answered, lines := connection.answered.String(), strings.SplitAfter(s.log.String(), "\n")
		answers := strings.SplitAfter(answered, "\r\n\r\n")
		if len(answers) != len(lines) || len(server.open) != 0 || len(server.places) != 0 {
			t.Fatalf("%d answers, %d lines: %q", len(answers)-1, len(lines)-1, answered)
		}
		for place, answer := range answers[:len(answers)-1] {
			var line record
			if err := json.Unmarshal([]byte(lines[place]), &line); err != nil {
				t.Fatal(err)
			}
			if strings.HasPrefix(answer, "HTTP/1.1 200 ") != (line.Answer == answerYes) || !strings.Contains(answer, "X-Spki-Answer: "+string(line.Answer)+"\r\n") {
				t.Errorf("%q, %+v", answer, line)
			}
			if line.Answer == answerYes {
				s.checkGrant(t, "GET", line)
			}
		}
	})
}

// checkGrant reports an error unless the request in a line of the log may be granted: Alice, Bob and Carol may read below one folder each, by what newSite
// gives them. It does not use the daemon for that. `method` is that of the request.
func (s *site) checkGrant(t *testing.T, method string, line record) {
	t.Helper()
	folders := map[string]string{s.alice.key: "/web/", s.bob.key: "/web/docs/", s.carol.key: "/web/docs/a/"}
	for key, folder := range folders {
		// (a request is `files`, the word for the method, and the path)
		if line.Key == hexDigest([]byte(key)) && method == "GET" && line.Request[1] == "read" && strings.HasPrefix(line.Request[2], folder) {
			return
		}
	}
	t.Errorf("granted: %+v", line)
}
