package main

// Tests of the log, which gets one line of JSON for each answer. A request is granted only once its line is written. At a site (newSite) Alice may
// read below /web/, Bob below /web/docs/ by her certificate, and Carol below /web/docs/a/ by his. Mallory has no right. Status 200 grants, 401 (where
// certificates may help) and 403 deny, 400 refuses an unclear request, and 503 is a failure of the daemon.

import (
	"encoding/json"
	"strings"
	"testing"
)

// TestLinesOfRecords compares the lines of records with those that encoding/json writes of them.
func TestLinesOfRecords(t *testing.T) {
	texts := []string{"", "a", "files read /a b", `"`, `\`, "<&>", "\x00\n\r\t\x1f\x7f", "\xff\xc0\x80", "é\u2028", "%5c", "{}[]:,"}
	numbers := []int{0, 1, -1, 65_536}
	for _, text := range texts {
		for _, number := range numbers {
			for _, list := range [][]string{nil, {}, {text}, {text, "", text}} {
				record := record{
					Time: text, ID: text, Answer: answer(text), Status: number, Key: text, Request: list, Entry: number, Certificates: list, Cached: number,
					Unverified: number, List: text, Skipped: number, Reason: text, Reasons: text, Target: text, Microseconds: int64(number), Host: text, Address: text,
				}
				wanted, err := json.Marshal(record)
				if line := string(record.line(nil)); err != nil || line != string(wanted)+"\n" {
					t.Errorf("%q, wanted %q", line, wanted)
				}
			}
		}
	}
}

// TestLogThatCannotBeWritten asks where no grant can be logged: what would be granted fails. A denial stays what it is.
func TestLogThatCannotBeWritten(t *testing.T) {
	s := newSite(t, "")
	if response := s.askAs(s.alice, "GET", "/web/x", ""); response.StatusCode != 200 {
		t.Fatal(response.StatusCode)
	}
	s.log.fail(errFull)
	response := s.askAs(s.alice, "GET", "/web/x", "")
	if response.StatusCode != 503 || response.Header.Get("X-Spki-Answer") != "failed" || response.Header.Get("X-Spki-Entry") != "" {
		t.Errorf("%d, %v", response.StatusCode, response.Header)
	}
	if line := s.lastLine(t); line.Answer != answerFailed || line.Status != 503 || !strings.Contains(line.Reason, errFull.Error()) {
		t.Errorf("%+v", line)
	}
	if response := s.askAs(s.mallory, "GET", "/web/x", ""); response.StatusCode != 401 {
		t.Errorf("a denial: %d", response.StatusCode)
	}
	s.log.fail(nil)
	if response := s.askAs(s.alice, "GET", "/web/x", ""); response.StatusCode != 200 {
		t.Errorf("afterwards: %d", response.StatusCode)
	}
}

// TestLogThatHangs asks while a write to the log of grants does not return: what would be granted is answered by 503, and a denial still by 401. The
// writer waits for a twentieth of the time of a request, so that the test is short.
func TestLogThatHangs(t *testing.T) {
	s := serveHere(t, "")
	released := make(chan struct{})
	defer close(released)
	s.logGrant = newWriter(&hangingSink{released: released}, s.config.Limits.timeOfRequest()/20, nil).write
	for turn := 0; turn < 2; turn++ {
		if status := s.get(t, "/web/x"); status != 503 {
			t.Errorf("%d", status)
		}
	}
	if status := s.get(t, "/x"); status != 401 || s.lastLine(t).Status != 401 {
		t.Errorf("a denial: %d", status)
	}
}

// TestNumbersOfRequests asks with numbers in X-Request-Id, and compares what the log has of them: one of over mostID octets is cut, and one with a
// line feed or NUL is left out. Two numbers are refused. The log also has the number of a request that is refused for its path.
func TestNumbersOfRequests(t *testing.T) {
	s := newSite(t, "")
	// (`alice[:6:6]`, all its six texts without room behind them, has append make a copy)
	alice := []string{"X-Original-Method", "GET", "X-Original-URI", "/web/x", "X-Client-Cert", s.alice.escaped()}
	for id, wanted := range map[string]string{
		"": "", "4f2a": "4f2a", "\"}": "\"}", "a\n": "", "a\x00": "", strings.Repeat("x", mostID): strings.Repeat("x", mostID),
		strings.Repeat("x", mostID+1): strings.Repeat("x", mostID) + "..",
	} {
		pairs := alice
		if id != "" {
			pairs = append(alice[:6:6], "X-Request-Id", id)
		}
		if s.ask(pairs...); s.lastLine(t).ID != wanted {
			t.Errorf("%q: %+v", id, s.lastLine(t))
		}
	}
	if response := s.ask(append(alice[:6:6], "X-Request-Id", "a", "X-Request-Id", "b")...); response.StatusCode != 400 {
		t.Errorf("two numbers: %d", response.StatusCode)
	}
	refused := append([]string{"X-Original-Method", "GET", "X-Original-URI", "/web/../x", "X-Request-Id", "4f2b"}, alice[4:]...)
	if response := s.ask(refused...); response.StatusCode != 400 || s.lastLine(t).ID != "4f2b" {
		t.Errorf("%d, %+v", response.StatusCode, s.lastLine(t))
	}
}
