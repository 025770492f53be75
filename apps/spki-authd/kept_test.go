package main

// Tests of chains: sequences of certificates that a client leaves with the daemon by a signed PUT, for its later requests. Here a folder has them
// (folderChains), in a file for each. At a site (newSite) Alice may read below /web/, Bob below /web/docs/ by her certificate, and Carol below
// /web/docs/a/ by his. Mallory has no right. Status 200 grants, 401 (where certificates may help) and 403 deny, 400 refuses an unclear request, and
// 503 is a failure of the daemon. A PUT gets 201 if its sequence is kept now or was already kept, and 507 if there is no room for it.

import (
	"crypto/sha256"
	"crypto/sha512"
	"io"
	"net/http"
	"net/http/httptest"
	"os"
	"path/filepath"
	"reflect"
	"sort"
	"strings"
	"syscall"
	"testing"
	"time"

	"conguraki/spki/httpsig"
)

// newSiteWithChains returns a site at which clients can leave certificates, at most two sequences for each key, with a folder for them.
func newSiteWithChains(t *testing.T) *site {
	t.Helper()
	s := newSite(t, `, "limits": {"leave_rate": 1000}, "chains": {"folder": "`+t.TempDir()+`", "each": 2}`+withSignatures)
	s.reopenChains(t)
	return s
}

// reopenChains reads the folder of kept certificates, as the daemon does at its start: files that are not needed are removed.
func (s *site) reopenChains(t *testing.T) {
	t.Helper()
	opened, err := openFolderChains(s.config.Chains, s.isNamed, s.now(), mayRemove)
	if err != nil {
		t.Fatal(err)
	}
	s.chains = opened
}

// statusFor returns the status of a request to read a target by a TLS certificate. `sequence` is empty if none is shown.
func (s *site) statusFor(who person, target, sequence string) int {
	pairs := []string{"X-Original-Method", "GET", "X-Original-URI", target, "X-Client-Cert", who.escaped()}
	if sequence != "" {
		pairs = append(pairs, "X-Spki-Sequence", sequence)
	}
	return s.ask(pairs...).StatusCode
}

// putRequest returns a PUT request to files.example.org, with a person's signature, by which the person leaves certificates. `target` is its path,
// with a query or without, and `sequence` is its body.
func (p person) putRequest(t testing.TB, target, sequence string) *http.Request {
	t.Helper()
	request := httptest.NewRequest(http.MethodPut, target, strings.NewReader(sequence))
	request.Host = "files.example.org"
	signer, err := httpsig.NewSigner(p.private)
	if err != nil {
		t.Fatal(err)
	}
	message := httpsig.Message{Method: request.Method, Authority: request.Host, Target: target, Header: request.Header, Body: []byte(sequence)}
	if err := signer.Sign("https", message); err != nil {
		t.Fatal(err)
	}
	return request
}

// leaveAs sends the site a request by which a person leaves certificates, and returns the status and the answer.
func (s *site) leaveAs(t testing.TB, who person, sequence string) (int, answer) {
	t.Helper()
	response := s.respond(who.putRequest(t, usualPath, sequence))
	return response.StatusCode, answer(response.Header.Get("X-Spki-Answer"))
}

// keepsFor says whether a sequence that has not ended is kept for a person's key.
func (s *site) keepsFor(t testing.TB, who person) bool {
	t.Helper()
	chains, err := s.chains.currentOf(hexDigest([]byte(who.key)), s.now())
	if err != nil {
		t.Fatal(err)
	}
	return len(chains) > 0
}

// TestKeptChains leaves certificates and asks, with and without showing some, one after the other, and once more after a start of the daemon. A row
// whose target is `put` leaves its sequence, and any other row asks for its target and shows its sequence, if that is not empty.
func TestKeptChains(t *testing.T) {
	s := newSiteWithChains(t)
	bobs, carols := s.sequencesShown()
	other := sequence(s.alice.sign(s.alice.certificate(s.bob, prefixTag("read", "/web/other/"), "")))
	third := sequence(s.alice.sign(s.alice.certificate(s.bob, prefixTag("read", "/web/third/"), "")))
	const put = "PUT"
	for _, row := range []struct {
		name, target, sequence string
		who                    person
		status                 int
		answer                 answer
	}{
		{"not kept yet", "/web/docs/b", "", s.bob, 401, ""},
		{"shown alone", "/web/docs/b", bobs, s.bob, 200, ""},
		{"still not kept", "/web/docs/b", "", s.bob, 401, ""},
		{"another's", put, carols, s.bob, 400, answerRefused},
		{"by a stranger", put, bobs, s.mallory, 400, answerRefused},
		{"by the issuer", put, bobs, s.alice, 400, answerRefused},
		{"nothing", put, sequence(), s.alice, 400, answerRefused},
		{"no value", put, bobs + "(", s.bob, 400, answerRefused},
		{"another value", put, "(key x)", s.bob, 400, answerRefused},
		{"kept", put, bobs, s.bob, 201, answerKept},
		{"kept again, in another form", put, " " + bobs + "\n", s.bob, 201, answerKnown},
		{"used", "/web/docs/b", "", s.bob, 200, ""},
		{"no more than it gives", "/web/x", "", s.bob, 401, ""},
		{"nobody else's", "/web/docs/b", "", s.mallory, 401, ""},
		{"nor Carol's", "/web/docs/a/b", "", s.carol, 401, ""},
		{"a second one", put, other, s.bob, 201, answerKept},
		{"none is replaced", put, third, s.bob, 507, answerFull},
		{"the second is used", "/web/other/b", "", s.bob, 200, ""},
		{"the first too", "/web/docs/b", "", s.bob, 200, ""},
		{"the third is not", "/web/third/b", "", s.bob, 401, ""},
		{"shown in place of the kept ones", "/web/docs/b", other, s.bob, 403, ""},
	} {
		status, reply := 0, answer("")
		if row.target == put {
			status, reply = s.leaveAs(t, row.who, row.sequence)
		} else {
			status = s.statusFor(row.who, row.target, row.sequence)
		}
		if status != row.status || reply != row.answer {
			t.Errorf("%s: %d %q, wanted %d %q: %+v", row.name, status, reply, row.status, row.answer, s.lastLine(t))
		}
	}
	// (as a pattern of file names, `[x` would match nothing: the folder's name must not be taken for a pattern)
	folder := s.config.Chains.Folder
	if err := os.Rename(folder, folder+"[x"); err != nil {
		t.Fatal(err)
	}
	s.config.Chains.Folder = folder + "[x"
	s.reopenChains(t)
	if status := s.statusFor(s.bob, "/web/docs/b", ""); status != 200 || s.lastLine(t).Kept != "used" {
		t.Error("after a start: ", status, s.lastLine(t))
	}
}

// TestDenialsByKeptChains has Bob leave two sequences. What they grant uses up no explanation. What they deny uses up one, and the log has the
// certificates of the last one that was tried, and why it does not grant the request. Once a certificate in it has ended, the log says that too. At
// one moment two denials are explained: explain_rate times savedSeconds.
func TestDenialsByKeptChains(t *testing.T) {
	s := newSite(t, `, "explain": true, "limits": {"explain_rate": 1}, "chains": {"folder": "`+t.TempDir()+`"}`+withSignatures)
	s.reopenChains(t)
	last := s.alice.certificate(s.bob, prefixTag("read", "/web/other/"), "")
	bobs, _ := s.sequencesShown()
	for _, shown := range []string{bobs, sequence(s.alice.sign(last))} {
		if _, reply := s.leaveAs(t, s.bob, shown); reply != answerKept {
			t.Error(reply)
		}
	}
	moment := time.Now()
	s.now = func() time.Time { return moment }
	const forNoKey = "no entry is for this key or for the first issuer"
	for _, row := range []struct {
		name, target, reasons string
		who                   person
		status, certificates  int
	}{
		{"by the first", "/web/docs/b", "", s.bob, 200, 1},
		{"by the first again", "/web/docs/b", "", s.bob, 200, 1},
		{"by the last", "/web/other/b", "", s.bob, 200, 1},
		{"by neither", "/web/x", "entry 1 TagLacks", s.bob, 401, 1},
		{"by none", "/web/x", forNoKey, s.mallory, 401, 0},
		{"no more at this moment", "/web/x", notExplained, s.bob, 401, 1},
	} {
		status, line := s.statusFor(row.who, row.target, ""), s.lastLine(t)
		if status != row.status || line.Reasons != row.reasons || len(line.Certificates) != row.certificates {
			t.Errorf("%s: %d, %+v", row.name, status, line)
		}
	}
	s.config.Ended = writeFile(t, "ended", withLastLine(digestOfText(last)+"\n"))
	s.mustReload(t)
	moment = moment.Add(time.Second)
	status, line := s.statusFor(s.bob, "/web/x", ""), s.lastLine(t)
	if status != 401 || line.Reason != "certificate "+digestOfText(last)+" has ended" || line.Reasons != "item 1 NotAccepted" {
		t.Errorf("%d, %+v", status, line)
	}
}

// hashOfKey returns the hash by SHA-256 that names a person's key, in canonical form.
func (p person) hashOfKey() string {
	digest := sha256.Sum256([]byte(p.key))
	return "(4:hash6:sha256" + str(string(digest[:])) + ")"
}

// signedCertificate returns a signed certificate for a subject, such as a key or its hash, and a tag. `more` has further fields, or is empty. All are in
// canonical form.
func (p person) signedCertificate(subject, tag, more string) string {
	return p.sign("(4:cert(6:issuer" + p.key + ")" + more + "(7:subject" + subject + ")(3:tag" + tag + "))")
}

// signedNameCertificate returns a signed certificate that defines a name of a person as a subject, which is in canonical form.
func (p person) signedNameCertificate(name, subject string) string {
	return p.sign("(4:cert(6:issuer(4:name" + p.key + str(name) + "))(7:subject" + subject + "))")
}

// TestWhichChainsAreKept leaves chains of many kinds. Each certificate must have a valid signature and not be past its end, and the subject of the
// last one must be the key that signs the request: Bob's. A chain without a reason in its row is kept, and any other one is refused with a reason
// that contains that text.
func TestWhichChainsAreKept(t *testing.T) {
	s := newSiteWithChains(t)
	tag := prefixTag("read", "/web/")
	name := "(4:name" + s.alice.key + "8:builders)"
	toBob, toName := s.alice.sign(s.toBob), s.alice.signedCertificate(name, tag, "")
	definition := s.alice.signedNameCertificate("builders", s.bob.key)
	forged := s.mallory.sign(s.alice.certificate(s.bob, tag, ""))
	asAlice := s.mallory.signAs(s.alice, s.alice.certificate(s.bob, tag, ""))
	digest := sha512.Sum512([]byte(s.bob.key))
	for _, row := range []struct {
		name, reason string
		shown        []string
	}{
		{"a key", "", []string{toBob}},
		{"the hash of a key", "", []string{s.alice.signedCertificate(s.bob.hashOfKey(), tag, "")}},
		{"its hash by SHA-512", "", []string{s.alice.signedCertificate("(4:hash6:sha512"+str(string(digest[:]))+")", tag, "")}},
		{"its hash and an address", "", []string{s.alice.signedCertificate(strings.TrimSuffix(s.bob.hashOfKey(), ")")+"(3:uri1:x))", tag, "")}},
		{"a key behind fields that look so", "", []string{s.alice.signedCertificate(s.bob.key, tag, "(7:comment(7:subject"+s.mallory.key+")[1:x]1:y)")}},
		{"a name that is defined", "", []string{toName, definition}},
		{"a definition alone", "", []string{definition}},
		{"a definition of a name of a name", "", []string{
			s.alice.signedCertificate("(4:name"+s.alice.key+"4:team8:builders)", tag, ""), s.alice.signedNameCertificate("team", s.carol.key),
			s.carol.signedNameCertificate("builders", s.bob.key)}},
		{"keys beside certificates", "", []string{s.alice.key, toBob, s.carol.key}},
		{"certificates that do not join", "", []string{s.mallory.sign(s.mallory.certificate(s.carol, tag, "")), toBob}},
		{"a stranger's own", "", []string{s.mallory.sign(s.mallory.certificate(s.bob, tag, ""))}},
		{"what is not yet valid", "", []string{s.alice.sign("(4:cert(6:issuer" + s.alice.key + ")(7:subject" + s.bob.key + ")(3:tag" + tag +
			")(5:valid(10:not-before19:9000-01-01_00:00:00)))")}},
		{"another key", "is not the key", []string{s.alice.sign(s.alice.certificate(s.carol, tag, ""))}},
		{"another key behind it", "is not the key", []string{toBob, s.bob.sign(s.toCarol)}},
		{"the hash of another key", "is not the key", []string{s.alice.signedCertificate(s.carol.hashOfKey(), tag, "")}},
		{"a key in a comment", "is not the key", []string{s.alice.signedCertificate(s.carol.key, tag, "(7:comment(7:subject"+s.bob.key+"))")}},
		{"a name", "is not the key", []string{toName}},
		{"a name of the issuer", "is not the key", []string{s.alice.signedCertificate("(4:name8:builders)", tag, "")}},
		{"a name of the key", "is not the key", []string{s.alice.signedCertificate("(4:name"+s.bob.key+"1:x)", tag, "")}},
		{"a definition before its name", "is not the key", []string{definition, toName}},
		{"a wrong signature", "has no valid signature", []string{asAlice}},
		{"a wrong one before the last", "has no valid signature", []string{asAlice, toBob}},
		{"a wrong one behind", "has no valid signature", []string{toBob, asAlice}},
		{"another's signature", "item 1 SignerDiffers", []string{forged}},
		{"another digest", "item 1 DigestDiffers", []string{strings.Replace(toBob, "/web/docs/", "/web/dogs/", 1)}},
		{"an issuer that is not shown", "item 3 KeyNotShown", []string{
			toBob, s.alice.sign(strings.Replace(s.toBob, s.alice.key, s.alice.hashOfKey(), 1))}},
		{"keys alone", "there is none", []string{s.bob.key}},
		{"what is past its end", "past its end", []string{s.alice.sign(s.alice.certificateUntil(s.bob, tag, "2020-01-01_00:00:00"))}},
		{"no signature", "refused sequence 1 UnsignedCert", []string{s.toBob}},
	} {
		// (a new folder, so that no row leaves a sequence for the next one)
		s.chains = newFolderChains(t, chains{Each: 2, Keys: 2})
		status, reply := s.leaveAs(t, s.bob, sequence(row.shown...))
		line, isKept := s.lastLine(t), s.keepsFor(t, s.bob)
		if row.reason == "" && (status != 201 || reply != answerKept || !isKept) {
			t.Errorf("%s: %d, %+v", row.name, status, line)
		}
		if row.reason != "" && (status != 400 || reply != answerRefused || isKept || !strings.Contains(line.Reason, row.reason)) {
			t.Errorf("%s: %d, %+v", row.name, status, line)
		}
	}
}

// TestEndedIsNotKept leaves a certificate that has ended early: it is refused with that reason, and not kept.
func TestEndedIsNotKept(t *testing.T) {
	s := newSiteWithChains(t)
	bobs, _ := s.sequencesShown()
	s.config.Ended = writeFile(t, "ended", withLastLine(digestOfText(s.toBob)+" # stolen\n"))
	s.mustReload(t)
	status, reply := s.leaveAs(t, s.bob, bobs)
	if status != 400 || reply != answerRefused || !strings.HasSuffix(s.lastLine(t).Reason, "has ended") || s.keepsFor(t, s.bob) {
		t.Errorf("%d, %+v", status, s.lastLine(t))
	}
}

// strangersSequence returns a sequence that Mallory has given a stranger, whom no list names either, and that stranger.
func (s *site) strangersSequence(t *testing.T) (person, string) {
	t.Helper()
	stranger := newPerson(t)
	return stranger, sequence(s.mallory.sign(s.mallory.certificate(stranger, prefixTag("read", "/web/"), "")))
}

// TestStrangersGiveWay has three strangers fill the room, which is for three keys. Then Bob, Carol and Dora leave what Alice gave them, whom the list
// names: each takes the place of a stranger, and keeps it, also after a start, whoever leaves something then: a stranger, and a fourth whom Alice gave
// something, for whom no room is left.
func TestStrangersGiveWay(t *testing.T) {
	s := newSiteWithChains(t)
	s.config.Chains.Keys = 3
	s.reopenChains(t)
	leave := func(name string, who person, shown string, wanted answer) {
		t.Helper()
		if _, reply := s.leaveAs(t, who, shown); reply != wanted {
			t.Errorf("%s: %s, wanted %s: %+v", name, reply, wanted, s.lastLine(t))
		}
	}
	leaveAsStranger := func(name string, wanted answer) {
		t.Helper()
		stranger, shown := s.strangersSequence(t)
		leave(name, stranger, shown, wanted)
	}
	for place := 0; place < 3; place++ {
		leaveAsStranger("a stranger", answerKept)
	}
	leaveAsStranger("one too many", answerFull)
	named := []person{s.bob, s.carol, newPerson(t)}
	for place, who := range named {
		leave("named", who, sequence(s.alice.sign(s.alice.certificate(who, prefixTag("read", "/web/docs/"), ""))), answerKept)
		if files := s.filesOfChains(); len(files) != 3 {
			t.Errorf("%d: %v", place, files)
		}
		leaveAsStranger("a stranger, later", answerFull)
	}
	for _, isStarted := range []bool{false, true} {
		if isStarted {
			s.reopenChains(t)
		}
		fourth := newPerson(t)
		leave("a fourth", fourth, sequence(s.alice.sign(s.alice.certificate(fourth, prefixTag("read", "/web/"), ""))), answerFull)
		leaveAsStranger("a stranger, at the end", answerFull)
		for place, who := range named {
			if status := s.statusFor(who, "/web/docs/b", ""); status != 200 || s.lastLine(t).Kept != "used" {
				t.Errorf("%d: %d, %+v", place, status, s.lastLine(t))
			}
		}
	}
}

// TestWhoGivesWay has room for two sequences of each of two keys. Of the texts those are named that begin with `n`. A row has the key and the text that are
// added, the answer, and all texts that are kept afterwards, of which several may be possible. First an ended one gives way, then one of the same key
// that is not named, then another key that has none that is named, and nothing else.
func TestWhoGivesWay(t *testing.T) {
	kept, now := newFolderChains(t, chains{Each: 2, Keys: 2}), time.Now()
	kept.isNamed = func(text string) (bool, error) { return text[0] == 'n', nil }
	for _, row := range []struct {
		key, text string
		wanted    answer
		held      string
	}{
		{"a", "x1", answerKept, "x1"}, {"a", "x2", answerKept, "x1 x2"}, {"a", "x3", answerFull, "x1 x2"}, {"a", "n1", answerKept, "n1 x2"},
		{"b", "x4", answerKept, "n1 x2 x4"}, {"c", "x5", answerFull, "n1 x2 x4"}, {"c", "n2", answerKept, "n1 n2 x2"}, {"b", "n3", answerFull, "n1 n2 x2"},
		{"a", "n4", answerKept, "n1 n2 n4"}, {"a", "n5", answerFull, "n1 n2 n4"}, {"c", "x6", answerKept, "n1 n2 n4 x6"}, {"c", "n6", answerKept, "n1 n2 n4 n6"},
		{"c", "n2", answerKnown, "n1 n2 n4 n6"}, {"c", "n7", answerFull, "n1 n2 n4 n6"}, {"d", "n8", answerFull, "n1 n2 n4 n6"},
	} {
		chain := kept.chainOf(row.text, now)
		chain.isNamed, _ = kept.isNamed(row.text)
		// (each ends after the one before it)
		now = now.Add(time.Second)
		if reply, err := kept.add(row.key, chain, now); reply != row.wanted || err != nil {
			t.Errorf("%+v: %s, %v", row, reply, err)
		}
		if held := keptTexts(t, kept); held != row.held {
			t.Errorf("%+v: %s", row, held)
		}
	}
	ended := now.AddDate(0, 0, 10)
	chain := kept.chainOf("n9", ended)
	chain.isNamed = true
	if reply, err := kept.add("d", chain, ended); reply != answerKept || err != nil {
		t.Error(reply, err)
	}
}

// TestNobodyGivesWayUnknown has the lists not answer, as where a store is stale: nothing that is kept gives way, and the answer to what a list named
// before is `failed`.
func TestNobodyGivesWayUnknown(t *testing.T) {
	kept, now := newFolderChains(t, chains{Each: 1, Keys: 1}), time.Now()
	mustAdd(t, kept, "a", "a1", now, answerKept)
	kept.isNamed = func(string) (bool, error) { return false, errStale }
	chain := kept.chainOf("b1", now)
	chain.isNamed = true
	if reply, err := kept.add("b", chain, now); reply != answerFailed || err != errStale || keptTexts(t, kept) != "a1" {
		t.Errorf("%s, %v, %s", reply, err, keptTexts(t, kept))
	}
}

// TestWhomListsName reads a list with entries for Alice in several forms, beside others, and asks whether it names the first issuer of a sequence: Alice
// by her key, a hash, and a name of hers, and nobody else, also where the sequence has a later certificate of hers.
func TestWhomListsName(t *testing.T) {
	s := newSiteWithChains(t)
	tag, hash := "(3:tag(1:*))", s.alice.hashOfKey()
	other := "(5:entry" + s.carol.key + tag + ")"
	digest := sha512.Sum512([]byte(s.alice.key))
	lists := map[string]string{}
	for name, subject := range map[string]string{
		"a key": s.alice.key, "a hash": hash, "another hash": "(4:hash6:sha512" + str(string(digest[:])) + ")",
		"a hash and an address": strings.TrimSuffix(hash, ")") + "(3:uri1:x))", "a name": "(4:name" + s.alice.key + "1:x)",
		"a name of a hash": "(4:name" + hash + "1:x1:y)",
	} {
		lists[name] = "(3:acl" + other + "(5:entry" + subject + tag + ")" + other + ")"
	}
	lists["a version"] = "(3:acl(7:version1:0)(5:entry" + s.alice.key + tag + "))"
	lists["another form"] = "(acl (entry " + s.alice.key + " (tag (*))))"
	toBob, toName := s.alice.sign(s.toBob), s.alice.signedNameCertificate("x", s.bob.key)
	byMallory := s.mallory.sign(s.mallory.certificate(s.alice, prefixTag("read", "/"), propagates))
	for name, text := range lists {
		s.config.List = writeFile(t, "acl", text)
		s.mustReload(t)
		for place, row := range []struct {
			shown  string
			wanted bool
		}{{sequence(toBob), true}, {sequence(toName, toBob), true}, {sequence(s.mallory.key, toBob), true}, {sequence(byMallory, toBob), false}, {sequence(), false}} {
			if isNamed, err := s.isNamed(row.shown); isNamed != row.wanted || err != nil {
				t.Errorf("%s, %d: %v, %v", name, place, isNamed, err)
			}
		}
	}
	if _, err := s.isNamed(noSequence); err == nil {
		t.Error("no sequence is read")
	}
}

// TestLeaveRate leaves certificates at one moment, from two addresses and from one that the web server does not say: twenty of each, by the usual rate,
// and one more three seconds later. Requests that leave nothing are not counted.
func TestLeaveRate(t *testing.T) {
	s := newSite(t, `, "chains": {"folder": "`+t.TempDir()+`"}`+withSignatures)
	s.reopenChains(t)
	fixed := time.Now()
	s.now = func() time.Time { return fixed }
	bobs, _ := s.sequencesShown()
	for _, address := range []string{"192.0.2.1", "2001:db8::1", ""} {
		for turn := 0; turn < 25; turn++ {
			if turn == 22 {
				fixed = fixed.Add(3 * time.Second)
			}
			request := s.bob.putRequest(t, usualPath, bobs)
			if address != "" {
				request.Header.Set("X-Real-Ip", address)
			}
			isAllowed := turn < 20 || turn == 22
			if response := s.respond(request); (response.StatusCode == 201) != isAllowed || (response.StatusCode == 429) == isAllowed {
				t.Errorf("%q, %d: %d", address, turn, response.StatusCode)
			}
			if line := s.lastLine(t); !isAllowed && (line.Address != address || !strings.Contains(line.Reason, "leave_rate")) {
				t.Errorf("%+v", line)
			}
		}
		if status := s.statusFor(s.alice, "/web/x", ""); status != 200 {
			t.Error(status)
		}
	}
}

// TestStrangersLeave has strangers leave certificates that Mallory gave them. Once there is no room for another key, they are answered by `full`, and no
// signature is verified. None of them grants anything, and a request that shows certificates is decided by these as before. Without room for more octets
// the answer is `full` too.
func TestStrangersLeave(t *testing.T) {
	s := newSiteWithChains(t)
	s.config.Chains.Keys = 2
	s.reopenChains(t)
	verified := s.counts.verified.Load()
	for place, wanted := range []answer{answerKept, answerKept, answerFull, answerFull} {
		stranger, shown := s.strangersSequence(t)
		if _, reply := s.leaveAs(t, stranger, shown); reply != wanted {
			t.Errorf("%d: %s, wanted %s", place, reply, wanted)
		}
		if s.statusFor(stranger, "/web/x", "") != 401 || s.statusFor(stranger, "/web/x", shown) != 403 {
			t.Error("a stranger is granted something")
		}
	}
	if count := s.counts.verified.Load() - verified; count != 2 {
		t.Errorf("%d signatures were verified", count)
	}
	bobs, _ := s.sequencesShown()
	if s.statusFor(s.bob, "/web/docs/b", bobs) != 200 {
		t.Error("what a request shows itself does not count")
	}
	// (room for nine octets is left)
	full := &folderChains{chains: *s.config.Chains, byKey: map[string][]keptChain{}, octets: mostLeft - 9}
	if reply, _ := full.add("key", keptChain{text: "ten octets"}, s.now()); reply != answerFull {
		t.Error(reply)
	}
}

// noneIsNamed says that no list names the first issuer of a sequence.
func noneIsNamed(string) (bool, error) { return false, nil }

// newFolderChains returns the chainKeeper of a new, empty folder. A sequence that its chainOf returns ends after nine days at the latest. It keeps at
// most limits.Each sequences of a key, and those of at most limits.Keys keys.
func newFolderChains(t *testing.T, limits chains) *folderChains {
	t.Helper()
	limits.Folder, limits.Days = t.TempDir(), 9
	kept, err := openFolderChains(&limits, noneIsNamed, time.Now(), mayRemove)
	if err != nil {
		t.Fatal(err)
	}
	return kept
}

// mustAdd calls `add` with a text for a key at a moment, and reports an error if `add` fails or its answer is not `wanted`.
func mustAdd(t *testing.T, kept *folderChains, key, text string, now time.Time, wanted answer) {
	t.Helper()
	if reply, err := kept.add(key, kept.chainOf(text, now), now); reply != wanted || err != nil {
		t.Errorf("%s %s: %s, %v", key, text, reply, err)
	}
}

// keptTexts returns the texts of all files in the folder, sorted, with spaces between them. It reports an error unless memory has the same texts, the
// count of octets is right, and neither Each nor Keys is exceeded.
func keptTexts(t *testing.T, kept *folderChains) string {
	t.Helper()
	// (the path and the text of each file, by what is in memory, and by the folder)
	var inMemory, inFiles []string
	octets := 0
	for key, all := range kept.byKey {
		for _, each := range all {
			inMemory = append(inMemory, filepath.Join(kept.Folder, key, each.name)+" "+each.text)
			octets += len(each.text)
		}
		if len(all) == 0 || len(all) > kept.Each {
			t.Errorf("%s has %d sequences", key, len(all))
		}
	}
	paths, _ := filepath.Glob(filepath.Join(kept.Folder, "*", "*"))
	var texts []string
	for _, path := range paths {
		// (of a file that cannot be read the text is empty, and differs from that in memory)
		text, _ := os.ReadFile(path)
		inFiles, texts = append(inFiles, path+" "+string(text)), append(texts, string(text))
	}
	sort.Strings(inMemory)
	sort.Strings(texts)
	if !reflect.DeepEqual(inMemory, inFiles) || octets != kept.octets || len(kept.byKey) > kept.Keys {
		t.Errorf("%d octets, counted as %d: %q, %q", octets, kept.octets, inMemory, inFiles)
	}
	return strings.Join(texts, " ")
}

// TestClockAhead has the clock ahead for a while. Meanwhile the sequence of a key does not count, and afterwards it does again. A start with the clock
// ahead keeps it too, unless by that clock the sequence ended over nine days ago.
func TestClockAhead(t *testing.T) {
	kept, now := newFolderChains(t, chains{Each: 1, Keys: 2}), time.Now()
	count := func(at time.Time) int {
		current, _ := kept.currentOf("a", at)
		return len(current)
	}
	mustAdd(t, kept, "a", "a1", now, answerKept)
	ahead := now.AddDate(1, 0, 0)
	if count(ahead) != 0 {
		t.Error("it counts after its end")
	}
	// (there is room for a second key, so this removes nothing)
	mustAdd(t, kept, "b", "b1", ahead, answerKept)
	if count(now) != 1 || keptTexts(t, kept) != "a1 b1" {
		t.Error("it is lost: ", keptTexts(t, kept))
	}
	// (a start takes the times of the files, which are those of this test: so both sequences end after nine days, 8 and 10 days before these starts)
	for _, row := range []struct {
		days, count int
		held        string
	}{{17, 1, "a1 b1"}, {19, 0, ""}} {
		started, err := openFolderChains(&kept.chains, kept.isNamed, now.AddDate(0, 0, row.days), mayRemove)
		if err != nil {
			t.Fatal(err)
		}
		if kept = started; count(now.AddDate(0, 0, row.days)) != 0 || count(now) != row.count || keptTexts(t, kept) != row.held {
			t.Errorf("a start %d days later: %d, %q", row.days, count(now), keptTexts(t, kept))
		}
	}
}

// TestEndedGiveWay has room for two sequences of each of two keys. Ended ones are removed where another one needs their room, and no others. A row
// has the hours since the begin, the key and the text that are added, the answer, and all texts that are kept afterwards.
func TestEndedGiveWay(t *testing.T) {
	kept, begun := newFolderChains(t, chains{Each: 2, Keys: 2}), time.Now()
	for _, row := range []struct {
		hours     int
		key, text string
		wanted    answer
		held      string
	}{
		{0, "a", "a1", answerKept, "a1"},
		{24, "b", "b1", answerKept, "a1 b1"},
		{120, "a", "a2", answerKept, "a1 a2 b1"},
		{215, "a", "a3", answerFull, "a1 a2 b1"},
		{215, "c", "c1", answerFull, "a1 a2 b1"},
		// (a1 ends after nine days, which are 216 hours. That makes no room for another key, since a2 stays)
		{217, "c", "c1", answerFull, "a1 a2 b1"},
		{217, "a", "a2", answerKnown, "a1 a2 b1"},
		{217, "a", "a3", answerKept, "a2 a3 b1"},
		// (b1 has ended after 240 hours, and a2 after 336)
		{241, "c", "c1", answerKept, "a2 a3 c1"},
		{337, "a", "a2", answerKept, "a2 a3 c1"},
		{337, "a", "a4", answerFull, "a2 a3 c1"},
		// (all but a2 have ended)
		{500, "b", "b2", answerKept, "a2 a3 b2"},
		{500, "a", "a4", answerKept, "a2 a4 b2"},
	} {
		now := begun.Add(time.Duration(row.hours) * time.Hour)
		refusal, _ := kept.whyNotAdded(row.key, kept.chainOf(row.text, now), now)
		if (refusal == "") != (row.wanted == answerKept) {
			t.Errorf("%+v: %q before it is verified", row, refusal)
		}
		mustAdd(t, kept, row.key, row.text, now, row.wanted)
		if held := keptTexts(t, kept); held != row.held {
			t.Errorf("%+v: %s", row, held)
		}
	}
}

// TestEndedOctetsGiveWay has two sequences of four octets each, and room for two octets more. Once they have ended, the first makes room for one of five
// octets.
func TestEndedOctetsGiveWay(t *testing.T) {
	kept, now := newFolderChains(t, chains{Each: 2, Keys: 2}), time.Now()
	kept.octets = mostLeft - 10
	mustAdd(t, kept, "a", "1234", now, answerKept)
	mustAdd(t, kept, "a", "5678", now.Add(time.Hour), answerKept)
	mustAdd(t, kept, "b", "12345", now, answerFull)
	now = now.AddDate(0, 0, 10)
	// (eleven octets: more than are free without both)
	mustAdd(t, kept, "b", "12345678901", now, answerFull)
	mustAdd(t, kept, "b", "12345", now, answerKept)
	if texts := kept.byKey["a"]; len(texts) != 1 || texts[0].text != "5678" || kept.octets != mostLeft-1 {
		t.Error(texts, kept.octets)
	}
}

// TestEndedAtStart starts with room for one of two keys. The sequence of `b` is kept, and that of the other one, which has ended, is removed,
// whichever is read first. With mayRemove false its file stays.
func TestEndedAtStart(t *testing.T) {
	for _, ended := range []string{"a", "c"} {
		kept, now := newFolderChains(t, chains{Each: 1, Keys: 2}), time.Now()
		mustAdd(t, kept, ended, "ended", now, answerKept)
		mustAdd(t, kept, "b", "current", now, answerKept)
		tenDaysAgo := now.AddDate(0, 0, -10)
		if err := os.Chtimes(filepath.Join(kept.Folder, ended, hexDigest([]byte("ended"))), tenDaysAgo, tenDaysAgo); err != nil {
			t.Fatal(err)
		}
		kept.Keys = 1
		for _, mayRemove := range []bool{false, true} {
			started, err := openFolderChains(&kept.chains, kept.isNamed, now, mayRemove)
			if err != nil {
				t.Fatal(err)
			}
			files, _ := filepath.Glob(filepath.Join(kept.Folder, "*", "*"))
			if current, _ := started.currentOf("b", now); len(current) != 1 || (len(files) == 1) != mayRemove {
				t.Errorf("%s: %v, %v", ended, current, files)
			}
			if mayRemove && keptTexts(t, started) != "current" {
				t.Error(ended, keptTexts(t, started))
			}
		}
	}
}

// TestEndedKeyGivesWay keeps the sequence of one key for nine days where there is room for no other one. Once it has ended, another key's is kept in its
// place. A row has the key, the days since the row before, and the answer.
func TestEndedKeyGivesWay(t *testing.T) {
	kept, now := newFolderChains(t, chains{Each: 1, Keys: 1}), time.Now()
	for _, row := range []struct {
		key    string
		later  int
		wanted answer
	}{{"a", 0, answerKept}, {"b", 8, answerFull}, {"b", 2, answerKept}} {
		now = now.AddDate(0, 0, row.later)
		mustAdd(t, kept, row.key, sequence(row.key), now, row.wanted)
	}
	if files, _ := filepath.Glob(filepath.Join(kept.Folder, "*", "*")); len(files) != 1 {
		t.Error(files)
	}
}

// TestNoncesOfLeaving has room for one nonce of those who leave certificates, and for one of requests that are granted. The first stranger who leaves
// some fills the room of the first kind, so the second stranger is refused. The other room stays free for Alice's request.
func TestNoncesOfLeaving(t *testing.T) {
	s := newSite(t, `, "chains": {"folder": "`+t.TempDir()+`"}, "signatures": {"names": ["files.example.org"], "nonces": 1}`)
	s.reopenChains(t)
	for place, wanted := range []answer{answerKept, answerRefused} {
		stranger := newPerson(t)
		if _, reply := s.leaveAs(t, stranger, sequence(s.mallory.sign(s.mallory.certificate(stranger, prefixTag("read", "/"), "")))); reply != wanted {
			t.Errorf("%d: %s, %+v", place, reply, s.lastLine(t))
		}
	}
	if response := s.ask(s.alice.signedHeaders(t, "GET", "files.example.org", "/web/x", "", nil)...); response.StatusCode != 200 {
		t.Error(response.StatusCode, s.lastLine(t))
	}
}

// putAttacks returns, by a name for each, changes of a request by which Bob leaves certificates. A changed request must get a status of at least 400.
// `bobs` is what he leaves, and `other` another sequence for him.
func (s *site) putAttacks(bobs, other string) map[string]func(*http.Request) {
	body := func(text string) func(*http.Request) {
		return func(request *http.Request) {
			request.Body, request.ContentLength = io.NopCloser(strings.NewReader(text)), int64(len(text))
		}
	}
	set := func(name, value string) func(*http.Request) {
		return func(request *http.Request) { request.Header.Set(name, value) }
	}
	return map[string]func(*http.Request){
		"another body":  body(other),
		"an empty body": body(""),
		"half a body": func(request *http.Request) {
			body(bobs[:len(bobs)/2])(request)
			request.ContentLength = int64(len(bobs))
		},
		"a longer body":  body(bobs + " "),
		"no length":      func(request *http.Request) { request.ContentLength = -1 },
		"another digest": set("Content-Digest", httpsig.ContentDigest([]byte(other))),
		"no digest":      func(request *http.Request) { request.Header.Del("Content-Digest") },
		"another body and its digest": func(request *http.Request) {
			body(other)(request)
			set("Content-Digest", httpsig.ContentDigest([]byte(other)))(request)
		},
		"a query put in":              func(request *http.Request) { request.RequestURI = usualPath + "?GET=/web/docs/b" },
		"an empty query put in":       func(request *http.Request) { request.RequestURI = usualPath + "?" },
		"another host":                func(request *http.Request) { request.Host = "files.example.net" },
		"a stranger's host":           func(request *http.Request) { request.Host = "evil.example" },
		"no host":                     func(request *http.Request) { request.Host = "" },
		"no signature":                func(request *http.Request) { request.Header.Del("Signature"); request.Header.Del("Signature-Input") },
		"no key":                      func(request *http.Request) { request.Header.Del("X-Spki-Public-Key") },
		"another key":                 set("X-Spki-Public-Key", s.mallory.inBraces()),
		"two keys":                    func(request *http.Request) { request.Header.Add("X-Spki-Public-Key", s.bob.inBraces()) },
		"a certificate alone":         func(request *http.Request) { request.Header = http.Header{"X-Client-Cert": {s.bob.escaped()}} },
		"a chain in a header":         set("X-Spki-Sequence", bobs),
		"credentials":                 set("Authorization", "SPKI "+bobs),
		"a second signature":          func(request *http.Request) { request.Header.Add("Signature", "spki=:AAAA:") },
		"two numbers":                 func(request *http.Request) { request.Header["X-Request-Id"] = []string{"1", "2"} },
		"POST":                        func(request *http.Request) { request.Method = http.MethodPost },
		"GET, as the web server asks": func(request *http.Request) { request.Method = http.MethodGet },
		"another place":               func(request *http.Request) { request.RequestURI = "/web/docs/b" },
		"a place below":               func(request *http.Request) { request.RequestURI = usualPath + "/" },
		"an escaped place":            func(request *http.Request) { request.RequestURI = "/.well-known/spki%2dchain" },
	}
}

// TestPutAttacks changes a signed request that leaves certificates, in each of the ways of putAttacks: its status is at least 400, and nothing is
// kept.
func TestPutAttacks(t *testing.T) {
	s := newSiteWithChains(t)
	bobs, _ := s.sequencesShown()
	other := sequence(s.alice.sign(s.alice.certificate(s.bob, prefixTag("read", "/web/docs/"), "")))
	for name, change := range s.putAttacks(bobs, other) {
		request := s.bob.putRequest(t, usualPath, bobs)
		change(request)
		if response := s.respond(request); response.StatusCode < 400 || s.keepsFor(t, s.bob) {
			t.Errorf("%s: %d, %+v", name, response.StatusCode, s.lastLine(t))
		}
	}
}

// TestPutRefusals sends by PUT a sequence of one octet too many, and one to a path with a query: both are refused. One with the headers of another
// request and client is kept, since these are not read. The same request again is refused.
func TestPutRefusals(t *testing.T) {
	s := newSiteWithChains(t)
	bobs, _ := s.sequencesShown()
	const target = usualPath
	long := strings.Repeat(" ", mostShownOctets+1-len(bobs)) + bobs
	if response := s.respond(s.bob.putRequest(t, target, long)); response.StatusCode != 400 || !strings.Contains(s.lastLine(t).Reason, "8192") {
		t.Error("too long: ", response.StatusCode, s.lastLine(t))
	}
	// (a query that looks like a request that Bob may do)
	if response := s.respond(s.bob.putRequest(t, target+"?GET=/web/docs/b", bobs)); response.StatusCode != 400 || s.keepsFor(t, s.bob) {
		t.Error("a query: ", response.StatusCode, s.lastLine(t))
	}
	request := s.bob.putRequest(t, target, bobs)
	for name, value := range map[string]string{"X-Original-Method": "GET", "X-Original-Uri": "/web/x", "X-Original-Host": "evil.example",
		"X-Client-Cert": s.mallory.escaped()} {
		request.Header.Set(name, value)
	}
	if response := s.respond(request); response.StatusCode != 201 || s.lastLine(t).Key != hexDigest([]byte(s.bob.key)) || s.lastLine(t).Proof != bySignature {
		t.Error("other headers: ", response.StatusCode, s.lastLine(t))
	}
	// (its body was read: it needs another one to be sent again)
	request.Body = io.NopCloser(strings.NewReader(bobs))
	if response := s.respond(request); response.StatusCode != 400 || !strings.HasSuffix(s.lastLine(t).Reason, "nonce-seen") {
		t.Error("sent again: ", response.StatusCode, s.lastLine(t))
	}
}

// TestKeptChainsEnd leaves a certificate that ends in ten days and one without an end, and counts after some days what is still kept.
func TestKeptChainsEnd(t *testing.T) {
	s := newSiteWithChains(t)
	begun := time.Now()
	end := begun.AddDate(0, 0, 10).UTC().Format("2006-01-02_15:04:05")
	short := sequence(s.alice.sign(s.alice.certificateUntil(s.bob, prefixTag("read", "/web/docs/"), end)))
	long := sequence(s.alice.sign(s.alice.certificate(s.bob, prefixTag("read", "/web/docs/"), "")))
	for _, text := range []string{short, long} {
		if _, reply := s.leaveAs(t, s.bob, text); reply != answerKept {
			t.Error(reply)
		}
	}
	// (days, and how many sequences are kept then: one for its ten days, and one for the usual ninety. Nothing is removed, as by -test)
	for _, row := range [][2]int{{9, 2}, {11, 1}, {89, 1}, {91, 0}} {
		now := begun.AddDate(0, 0, row[0])
		opened, err := openFolderChains(s.config.Chains, s.isNamed, now, !mayRemove)
		if err != nil {
			t.Fatal(err)
		}
		if current, _ := opened.currentOf(hexDigest([]byte(s.bob.key)), now); len(current) != row[1] {
			t.Error(row, current)
		}
	}
	if files := s.filesOfChains(); len(files) != 2 {
		t.Error(files)
	}
	// (days, and how many files a start leaves then: each stays for ninety days after its end)
	for _, row := range [][2]int{{99, 2}, {101, 1}} {
		if _, err := openFolderChains(s.config.Chains, s.isNamed, begun.AddDate(0, 0, row[0]), mayRemove); err != nil || len(s.filesOfChains()) != row[1] {
			t.Error(row, err, s.filesOfChains())
		}
	}
}

// TestEndedFiles keeps one sequence, the same a year later, when it has ended, and after another year the same for another key, which takes the only
// room. currentOf touches no file, and after each `add` there is one file, that of the key.
func TestEndedFiles(t *testing.T) {
	s := newSiteWithChains(t)
	begun, kept := time.Now(), s.chains.(*folderChains)
	bobsKey, carolsKey := hexDigest([]byte(s.bob.key)), hexDigest([]byte(s.carol.key))
	long := sequence(s.alice.sign(s.alice.certificate(s.bob, prefixTag("read", "/web/docs/"), "")))
	mustAdd(t, kept, bobsKey, long, begun, answerKept)
	kept.Keys = 1
	for place, key := range []string{bobsKey, carolsKey} {
		now := begun.AddDate(place+1, 0, 0)
		if current, _ := kept.currentOf(bobsKey, now); current != nil || len(s.filesOfChains()) != 1 {
			t.Error(current, s.filesOfChains())
		}
		mustAdd(t, kept, key, long, now, answerKept)
		current, _ := kept.currentOf(key, now)
		if files := s.filesOfChains(); len(current) != 1 || len(files) != 1 || filepath.Base(filepath.Dir(files[0])) != key {
			t.Error(current, files)
		}
	}
	if folders, _ := filepath.Glob(filepath.Join(s.config.Chains.Folder, "*")); len(folders) != 1 {
		t.Error(folders)
	}
}

// filesOfChains returns the paths of all files in the folder of kept certificates.
func (s *site) filesOfChains() []string {
	paths, _ := filepath.Glob(filepath.Join(s.config.Chains.Folder, "*", "*"))
	return paths
}

// TestKeptNowhere leaves certificates where a file has taken the place of the folder: 503, and the log says why.
func TestKeptNowhere(t *testing.T) {
	s := newSiteWithChains(t)
	bobs, _ := s.sequencesShown()
	if err := os.Remove(s.config.Chains.Folder); err != nil {
		t.Fatal(err)
	}
	if err := os.WriteFile(s.config.Chains.Folder, nil, 0o600); err != nil {
		t.Fatal(err)
	}
	if status, reply := s.leaveAs(t, s.bob, bobs); status != 503 || reply != answerFailed || !strings.Contains(s.lastLine(t).Reason, "not a directory") {
		t.Error(status, reply, s.lastLine(t))
	}
	if s.keepsFor(t, s.bob) {
		t.Error("what has no file is kept")
	}
}

// TestFolderWithoutSync keeps a sequence where the fsync of the folder fails: the answer is `failed`, and no file and no folder is left that the next
// start would read. The folder has an empty path, so files are made below the working directory, and the folder cannot be opened.
func TestFolderWithoutSync(t *testing.T) {
	before, err := os.Getwd()
	if err != nil {
		t.Fatal(err)
	}
	folder, now := t.TempDir(), time.Now()
	if err := os.Chdir(folder); err != nil {
		t.Fatal(err)
	}
	defer os.Chdir(before)
	kept := &folderChains{chains: chains{Each: 1, Keys: 1, Days: 9}, byKey: map[string][]keptChain{}}
	if reply, err := kept.add("a", kept.chainOf("a1", now), now); reply != answerFailed || err == nil || len(kept.byKey) != 0 {
		t.Errorf("%s, %v, %v", reply, err, kept.byKey)
	}
	if paths, err := os.ReadDir(folder); err != nil || len(paths) != 0 {
		t.Error(paths, err)
	}
}

// TestForeignFiles reads a folder with files that no daemon has written as a whole: one of another name, half a file, one that may still be written, and
// one that is too long. They are left out. The third is removed when it is an hour old. A folder that others may write is an error.
func TestForeignFiles(t *testing.T) {
	s := newSiteWithChains(t)
	bobs, _ := s.sequencesShown()
	folder := filepath.Join(s.config.Chains.Folder, hexDigest([]byte(s.bob.key)))
	if err := os.Mkdir(folder, 0o700); err != nil {
		t.Fatal(err)
	}
	long := strings.Repeat("x", mostShownOctets+1)
	for name, text := range map[string]string{"x": bobs, hexDigest([]byte(bobs)): bobs[:len(bobs)-9], hexDigest([]byte(bobs)) + partSuffix: bobs,
		hexDigest([]byte(long)): long} {
		if err := os.WriteFile(filepath.Join(folder, name), []byte(text), 0o600); err != nil {
			t.Fatal(err)
		}
	}
	s.reopenChains(t)
	if status := s.statusFor(s.bob, "/web/docs/b", ""); status != 401 {
		t.Error(status)
	}
	// (a file with .new may be one that another daemon writes now: it is removed when it is older than mostPart)
	if files := s.filesOfChains(); len(files) != 4 {
		t.Error(files)
	}
	hourAgo := s.now().Add(-time.Hour)
	if err := os.Chtimes(filepath.Join(folder, hexDigest([]byte(bobs))+partSuffix), hourAgo, hourAgo); err != nil {
		t.Fatal(err)
	}
	if s.reopenChains(t); len(s.filesOfChains()) != 3 {
		t.Error(s.filesOfChains())
	}
	if err := os.Chmod(s.config.Chains.Folder, 0o777); err != nil {
		t.Fatal(err)
	}
	if _, err := openFolderChains(s.config.Chains, s.isNamed, s.now(), !mayRemove); err == nil {
		t.Error("others may write the folder")
	}
}

// TestStartBesideAnotherDaemon starts a daemon by mistake, with the log and the folder of one that runs, and with fewer days. It fails before it
// removes the file of a sequence that ended 13 days ago by these days, and that the other daemon still takes.
func TestStartBesideAnotherDaemon(t *testing.T) {
	s := newSiteWithChains(t)
	runs, _ := openFailing(t, syncNever, "")
	bobs, _ := s.sequencesShown()
	if status, reply := s.leaveAs(t, s.bob, bobs); status != 201 {
		t.Fatal(status, reply)
	}
	kept, begun := s.filesOfChains(), s.now().AddDate(0, 0, -20)
	if err := os.Chtimes(kept[0], begun, begun); err != nil {
		t.Fatal(err)
	}
	text := strings.NewReplacer("/acl", s.config.List, "/log", runs.path, `"requests"`, `"chains": {"folder": "`+s.config.Chains.Folder+`", "days": 7}`+
		withSignatures+`, "requests"`).Replace(leastConfig)
	var out, messages journal
	status := run([]string{"-config", writeFile(t, "config", text)}, out.writer(), messages.writer())
	if status != statusRefused || !strings.Contains(messages.String(), "another daemon writes this log") || !reflect.DeepEqual(s.filesOfChains(), kept) {
		t.Errorf("%d, %s, %v", status, messages.String(), s.filesOfChains())
	}
}

// TestChainSettings checks settings of `chains`, each with one thing wrong, and right ones, which need signed requests.
func TestChainSettings(t *testing.T) {
	const isSigned = true
	ofStore := &storeSettings{Host: "/run", Database: "d", User: "u"}
	for _, wrong := range []chains{{Folder: "x"}, {Folder: "/x", Days: -1}, {}, {Folder: "/x", Path: "x"}, {Folder: "/x", Path: "/a%2fb"},
		{Folder: "/x", Postgres: ofStore}, {Postgres: &storeSettings{}}} {
		if wrong.check(isSigned) == nil {
			t.Error(wrong)
		}
	}
	if (&chains{Folder: "/x"}).check(!isSigned) == nil || (&chains{Folder: "/x"}).check(isSigned) != nil {
		t.Error("chains need signatures, and no more than a folder")
	}
}

// TestDiskThatHangs adds a sequence where the disk does not answer: its file is a FIFO that nobody reads. Meanwhile currentOf, for another key, of which
// no sequence is kept, returns without waiting.
func TestDiskThatHangs(t *testing.T) {
	kept := newFolderChains(t, chains{Each: 1, Keys: 9})
	chain := kept.chainOf(sequence(), time.Now())
	path := filepath.Join(kept.Folder, "a", chain.name+partSuffix)
	if err := os.Mkdir(filepath.Dir(path), 0o700); err != nil {
		t.Fatal(err)
	}
	if err := syscall.Mkfifo(path, 0o600); err != nil {
		t.Fatal(err)
	}
	added, returned := make(chan answer), make(chan bool)
	go func() {
		answer, _ := kept.add("a", chain, time.Now())
		added <- answer
	}()
	// (this loop ends when `add` holds the lock: from then on, `add` waits for a reader of the FIFO)
	for kept.writing.TryLock() {
		kept.writing.Unlock()
		time.Sleep(time.Millisecond)
	}
	go func() {
		kept.currentOf("b", time.Now())
		close(returned)
	}()
	select {
	case <-returned:
	case <-time.After(time.Second):
		t.Error("currentOf waits for the disk")
	}
	reader, err := os.OpenFile(path, os.O_RDONLY|syscall.O_NONBLOCK, 0)
	if err != nil {
		t.Fatal(err)
	}
	defer reader.Close()
	// (a FIFO takes no fsync)
	if answer := <-added; answer != answerFailed {
		t.Error(answer)
	}
}
