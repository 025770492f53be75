package main

// Tests of how many signatures the daemon verifies for a client. At a site (newSite) Alice may read below /web/, Bob below /web/docs/ by her
// certificate, and Carol below /web/docs/a/ by his. Mallory has no right. Status 200 grants, 401 (where certificates may help) and 403 deny, 400
// refuses an unclear request, and 503 is a failure of the daemon.

import (
	"testing"

	"conguraki/spki/guard"
	"conguraki/spki/verify"
)

// TestCostToStrangers counts the signatures that are verified. A client that would get nothing by valid signatures costs none. A row has the status, how
// many signatures are verified (`calls`), and how many the log has as not verified. A signature by another key than the issuer's is neither.
func TestCostToStrangers(t *testing.T) {
	s := newSite(t, "")
	calls := 0
	s.verify = func(signed guard.Signature) bool {
		calls++
		return verify.Signature(signed)
	}
	bobs, carols := s.sequencesShown()
	own := s.mallory.sign(s.mallory.certificate(s.mallory, prefixTag("read", "/web/"), propagates))
	many := make([]string, 16)
	for place := range many {
		many[place] = own
	}
	forged := s.mallory.sign(s.alice.certificate(s.mallory, prefixTag("read", "/web/"), ""))
	asAlice := s.mallory.signAs(s.alice, s.alice.certificate(s.mallory, prefixTag("read", "/web/"), ""))
	for _, row := range []struct {
		name, shown, path string
		who               person
		status, calls     int
		unverified        int
	}{
		{"sixteen that Mallory issued", sequence(many...), "/web/x", s.mallory, 403, 0, 16}, {"Carol's", carols, "/web/docs/a/b", s.mallory, 403, 0, 2},
		{"Bob's", bobs, "/web/docs/b", s.mallory, 403, 0, 1}, {"Bob elsewhere", bobs, "/web/x", s.bob, 403, 0, 1},
		{"another key's signature", sequence(forged), "/web/x", s.mallory, 403, 0, 0}, {"her own, as Alice's", sequence(asAlice), "/web/x", s.mallory, 403, 1, 0},
		{"Bob", bobs, "/web/docs/b", s.bob, 200, 1, 0}, {"Bob again", bobs, "/web/docs/b", s.bob, 200, 0, 0}, {"Carol", carols, "/web/docs/a/b", s.carol, 200, 1, 0},
	} {
		calls = 0
		response, line := s.askAs(row.who, "GET", row.path, row.shown), s.lastLine(t)
		if response.StatusCode != row.status || calls != row.calls || line.Unverified != row.unverified {
			t.Errorf("%s: %d, %d calls, %+v", row.name, response.StatusCode, calls, line)
		}
	}
	// (the sums of the rows, and as known the signature of Bob's certificate in each of the last two)
	if known, verified, spared := s.counts.known.Load(), s.counts.verified.Load(), s.counts.spared.Load(); verified != 3 || spared != 20 || known != 2 {
		t.Errorf("%d known, %d verified, %d spared", known, verified, spared)
	}
}

// TestFalseSignatureIsVerifiedEachTime asks twice with signatures that are all false, where valid ones would grant. Each time the first one is verified,
// since a false one is not remembered. The line of the log names its certificate as the reason, and lists the certificates up to that one.
func TestFalseSignatureIsVerifiedEachTime(t *testing.T) {
	s := newSite(t, "")
	calls := 0
	s.verify = func(guard.Signature) bool { calls++; return false }
	_, carols := s.sequencesShown()
	for turn := 1; turn <= 2; turn++ {
		if response := s.askAs(s.carol, "GET", "/web/docs/a/b", carols); response.StatusCode != 403 || calls != turn {
			t.Errorf("%d, %d calls", response.StatusCode, calls)
		}
		if line := s.lastLine(t); line.Reason != "certificate "+digestOfText(s.toBob)+" has no valid signature" || len(line.Certificates) != 1 {
			t.Errorf("%+v", line)
		}
	}
}
