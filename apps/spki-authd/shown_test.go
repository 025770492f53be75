package main

// Tests of the sequences of certificates that the daemon keeps once a client has shown them and each signature was valid. At a site (newSite) Alice
// may read below /web/, Bob below /web/docs/ by her certificate, and Carol below /web/docs/a/ by his. Mallory has no right. Status 200 grants, 401
// (where certificates may help) and 403 deny, 400 refuses an unclear request, and 503 is a failure of the daemon.

import (
	"fmt"
	"net/http"
	"net/http/httptest"
	"os"
	"runtime"
	"strings"
	"testing"
	"time"

	"conguraki/spki"
	"conguraki/spki/guard"
)

// countKept returns the number of sequences that are kept since they were shown and valid. One in both halves, which no test has, would count twice.
func (s *site) countKept() int {
	return len(s.sequences.kept.old) + len(s.sequences.kept.young)
}

// mustAnswer asks three times to read a target by a sequence, and reports an error, which begins with `name`, unless each status is the one that is
// wanted. A valid sequence is kept after the first question, and put into canonical form at the second. The last line of the log is returned.
func (s *site) mustAnswer(t *testing.T, name string, who person, target, shown string, wanted int) record {
	t.Helper()
	for turn := 1; turn <= 3; turn++ {
		if response := s.askAs(who, "GET", target, shown); response.StatusCode != wanted {
			t.Errorf("%s, turn %d: %d, wanted %d: %+v", name, turn, response.StatusCode, wanted, s.lastLine(t))
		}
	}
	return s.lastLine(t)
}

// TestKeptSequencesGrantNothingByThemselves shows Carol's sequence, which is kept from its first grant on, for several paths and keys, in any order,
// and then for another method: each question is decided anew.
func TestKeptSequencesGrantNothingByThemselves(t *testing.T) {
	s := newSite(t, "")
	_, carols := s.sequencesShown()
	for name, row := range map[string]struct {
		who    person
		target string
		wanted int
	}{
		"Carol": {s.carol, "/web/docs/a/b", 200}, "another path": {s.carol, "/web/docs/b", 403}, "a path beside it": {s.carol, "/web/docs/a", 403},
		"another key": {s.mallory, "/web/docs/a/b", 403}, "the issuer's key": {s.bob, "/web/docs/a/b", 403}, "Carol again": {s.carol, "/web/docs/a/c", 200},
	} {
		s.mustAnswer(t, name, row.who, row.target, carols, row.wanted)
	}
	if s.countKept() != 1 {
		t.Errorf("%d sequences are kept", s.countKept())
	}
	if response := s.askAs(s.carol, "PUT", "/web/docs/a/b", carols); response.StatusCode != 403 {
		t.Errorf("another method: %d", response.StatusCode)
	}
}

// TestSequenceIsCanonicalFromTheSecondTimeOn compares how the text of a kept sequence begins after it was shown once, in transport form, and twice,
// in canonical form.
func TestSequenceIsCanonicalFromTheSecondTimeOn(t *testing.T) {
	s := newSite(t, "")
	_, carols := s.sequencesShown()
	for _, begin := range []string{"{", "(8:sequence"} {
		if response := s.askAs(s.carol, "GET", "/web/docs/a/b", carols); response.StatusCode != 200 {
			t.Errorf("%s: %d", begin, response.StatusCode)
		}
		if kept := s.sequences.get(carols); kept == nil || !strings.HasPrefix(string(kept.text), begin) {
			t.Errorf("what is kept does not begin with %s", begin)
		}
	}
}

// TestKeptSequencesAndTheList replaces the list while Carol's sequence is kept: the list in force decides.
func TestKeptSequencesAndTheList(t *testing.T) {
	s := newSite(t, "")
	_, carols := s.sequencesShown()
	s.mustAnswer(t, "before", s.carol, "/web/docs/a/b", carols, 200)
	list, err := os.ReadFile(s.config.List)
	if err != nil {
		t.Fatal(err)
	}
	for _, row := range []struct {
		text   string
		wanted int
	}{{"(acl)", 403}, {string(list), 200}, {strings.Replace(string(list), "4:read", "5:write", 1), 403}, {string(list), 200}} {
		if err := os.WriteFile(s.config.List, []byte(row.text), 0o600); err != nil {
			t.Fatal(err)
		}
		s.mustReload(t)
		s.mustAnswer(t, "another list", s.carol, "/web/docs/a/b", carols, row.wanted)
	}
}

// TestKeptSequencesAndEndedCertificates ends Bob's certificate alone, then Carol's alone, and then none. Carol's kept sequence, which has both, is
// denied until then.
func TestKeptSequencesAndEndedCertificates(t *testing.T) {
	s := newSite(t, "")
	bobs, carols := s.sequencesShown()
	s.mustAnswer(t, "before", s.carol, "/web/docs/a/b", carols, 200)
	s.mustAnswer(t, "before", s.bob, "/web/docs/b", bobs, 200)
	for place, certificate := range []string{s.toBob, s.toCarol} {
		s.config.Ended = writeFile(t, "ended", withLastLine(digestOfText(certificate)+"\n"))
		s.mustReload(t)
		line := s.mustAnswer(t, "ended", s.carol, "/web/docs/a/b", carols, 403)
		// (the line has the certificates up to the ended one, and those before it are known to be valid)
		if !strings.Contains(line.Reason, digestOfText(certificate)) || len(line.Certificates) != place+1 || line.Cached != place {
			t.Errorf("%+v", line)
		}
		// (Bob shows only his own, which has ended in the first turn alone)
		s.mustAnswer(t, "Bob's", s.bob, "/web/docs/b", bobs, []int{403, 200}[place])
	}
	s.config.Ended = ""
	s.mustReload(t)
	if line := s.mustAnswer(t, "no longer ended", s.carol, "/web/docs/a/b", carols, 200); line.Cached != 2 || len(line.Certificates) != 2 || line.List == "" {
		t.Errorf("%+v", line)
	}
}

// TestKeptSequencesAndTime shows a kept sequence in the last second of its certificate, and a second later.
func TestKeptSequencesAndTime(t *testing.T) {
	s := newSite(t, "")
	s.now = func() time.Time { return time.Date(2026, 1, 1, 0, 0, 0, 0, time.UTC) }
	until := s.alice.certificateUntil(s.bob, prefixTag("read", "/web/"), "2026-01-01_00:00:00")
	shown := sequence(s.alice.sign(until))
	s.mustAnswer(t, "in its last second", s.bob, "/web/x", shown, 200)
	s.now = func() time.Time { return time.Date(2026, 1, 1, 0, 0, 1, 0, time.UTC) }
	s.mustAnswer(t, "a second later", s.bob, "/web/x", shown, 403)
}

// TestOnlyValidSequencesAreKept shows forged, unreadable and ended certificates, and right ones where `cache` is 0: no sequence is kept.
func TestOnlyValidSequencesAreKept(t *testing.T) {
	s := newSite(t, "")
	asAlice := s.mallory.signAs(s.alice, s.alice.certificate(s.mallory, prefixTag("read", "/web/"), propagates))
	s.mustAnswer(t, "a forged one", s.mallory, "/web/x", sequence(asAlice), 403)
	s.mustAnswer(t, "a right one and a forged one", s.mallory, "/web/x", sequence(s.alice.sign(s.toBob), asAlice), 403)
	s.mustAnswer(t, "no S-expression", s.mallory, "/web/x", "{AAAA}", 400)
	if s.countKept() != 0 {
		t.Errorf("%d sequences are kept", s.countKept())
	}
	ended := newSite(t, "")
	ended.config.Ended = writeFile(t, "ended", withLastLine(digestOfText(ended.toBob)+"\n"))
	ended.mustReload(t)
	bobs, _ := ended.sequencesShown()
	if ended.mustAnswer(t, "an ended one", ended.bob, "/web/docs/b", bobs, 403); ended.countKept() != 0 {
		t.Errorf("%d sequences are kept", ended.countKept())
	}
	uncached := newSite(t, `, "cache": 0`)
	_, carols := uncached.sequencesShown()
	if line := uncached.mustAnswer(t, "no cache", uncached.carol, "/web/docs/a/b", carols, 200); uncached.countKept() != 0 || line.Cached != 0 {
		t.Errorf("%d sequences are kept, %+v", uncached.countKept(), line)
	}
}

// TestKeptSequencesAreBounded adds more sequences than are kept, then one that is long and kept, and one that is too long.
func TestKeptSequencesAreBounded(t *testing.T) {
	s := newSite(t, "")
	for number := 0; number < 2*mostShown; number++ {
		s.sequences.add(sequence(str(fmt.Sprint(number))), &shownSequence{})
	}
	if s.countKept() > mostShown || s.countKept() < mostShown/2 {
		t.Errorf("%d sequences are kept", s.countKept())
	}
	// (in transport form they have a third more: the first is below mostShownOctets, which is 8192, and the second above)
	for _, octets := range []int{5000, 7000} {
		text := sequence(str(strings.Repeat("x", octets)))
		if s.sequences.add(text, &shownSequence{}); (s.sequences.get(text) != nil) != (len(text) <= mostShownOctets) {
			t.Errorf("%d octets", len(text))
		}
	}
}

// TestKeptSequencesKeepNoHeader shows 200 sequences, each with 128 KiB of spaces before it, and adds them as decideBy does. Of the 25 MiB of these
// headers little stays in memory.
func TestKeptSequencesKeepNoHeader(t *testing.T) {
	s := newSite(t, "")
	octetsInUse := func() int {
		var memory runtime.MemStats
		runtime.GC()
		runtime.ReadMemStats(&memory)
		return int(memory.HeapAlloc)
	}
	before := octetsInUse()
	for number := 0; number < 200; number++ {
		request := httptest.NewRequest(http.MethodGet, "/auth", nil)
		request.Header.Set(authorization, scheme+strings.Repeat(" ", 1<<17)+sequence(str(fmt.Sprint(number))))
		shown, err := s.config.sequenceOf(request)
		if err != nil {
			t.Fatal(err)
		}
		s.sequences.add(shown, &shownSequence{})
	}
	if more := octetsInUse() - before; s.countKept() != 200 || more > 5<<20 {
		t.Errorf("%d sequences take %d octets", s.countKept(), more)
	}
}

// TestKeptSequencesAreExplained denies a request by a kept sequence, and then another one when its second certificate has ended: where denials are
// explained, the log has the reasons.
func TestKeptSequencesAreExplained(t *testing.T) {
	s := newSite(t, `, "explain": true`)
	_, carols := s.sequencesShown()
	s.mustAnswer(t, "granted", s.carol, "/web/docs/a/b", carols, 200)
	if line := s.mustAnswer(t, "denied", s.carol, "/web/x", carols, 403); line.Reasons != "entry 1 TagLacks" {
		t.Errorf("%+v", line)
	}
	s.config.Ended = writeFile(t, "ended", withLastLine(digestOfText(s.toCarol)+"\n"))
	s.mustReload(t)
	if line := s.mustAnswer(t, "ended", s.carol, "/web/docs/a/b", carols, 403); line.Reasons != "item 3 NotAccepted" {
		t.Errorf("%+v", line)
	}
}

// TestSignaturesThatAreNotRead reads the one signature of a question, and reads it again after the question is closed: that is an error, and not a
// sequence without signatures.
func TestSignaturesThatAreNotRead(t *testing.T) {
	s := newSite(t, "")
	bobs, _ := s.sequencesShown()
	question := guard.Question{Sequence: []byte(bobs), Key: spki.AssumeKey([]byte(s.bob.key)), Words: anyWords, Time: s.now()}
	const anyHost = ""
	_, list, err := s.keeper.listFor(anyHost, "/web/x")
	if err != nil {
		t.Fatal(err)
	}
	opened, err := list.guard.Ask(question)
	if err != nil {
		t.Fatal(err)
	}
	if signatures, err := signaturesIn(opened); err != nil || len(signatures) != 1 {
		t.Errorf("%d signatures, %v", len(signatures), err)
	}
	opened.Close()
	if _, err := signaturesIn(opened); err == nil {
		t.Error("a closed question is read as one without signatures")
	}
}
