// Tests of guards. Keys and signatures are words, such as a and `sig`: the verifier of a test says which signatures are valid. By `list`, an access
// list, the key a may do everything. By the certificate `forB`, a lets b do it. questionWith(n) is a question by b, who shows `forB` n times: under
// `list` it can be granted for n = 1 alone. By `forA` a lets itself do everything, so it may be in front of `forB`. `forgedForC` is for c, and its
// signature is not valid. acceptAll and acceptNone are verifiers. A place is the number of a signature in its question, from 0.

package guard_test

import (
	"bytes"
	"context"
	"crypto/sha1"
	"crypto/sha256"
	"errors"
	"fmt"
	"math"
	"reflect"
	"runtime"
	"strings"
	"sync"
	"testing"
	"time"

	"conguraki/spki"
	"conguraki/spki/guard"
)

// Each signature has the SHA-256 hash of its certificate.
const (
	list = "(acl (entry (public-key (test a)) (propagate) (tag (*))))"
	forB = `(cert (issuer (public-key (test a))) (subject (public-key (test b))) (tag (*)))
		(signature (hash sha256 #d71ecfb335b8e4b04cb035426566a94e817a12cfcfa4dbf5b704b6cd670c7ad2#) (public-key (test a)) sig)`
)

// The key, the message and the value of the signature of `forB`, as a verifier gets them.
var signatureForB = []string{
	"(10:public-key(4:test1:a))",
	"(4:cert(6:issuer(10:public-key(4:test1:a)))(7:subject(10:public-key(4:test1:b)))(3:tag(1:*)))",
	"3:sig",
}

// questionWith returns a question by b, who shows the certificate `forB` so many times. Under `list` it can be granted for 1 alone: a second `forB`
// has the issuer a, and the subject of the first is b. For 0 b shows no certificate.
func questionWith(times int) guard.Question {
	return guard.Question{
		Sequence: []byte("(sequence " + strings.Repeat(forB, times) + ")"), Key: spki.AssumeKey([]byte("(public-key (test b))")),
		Words: []string{"ftp", "host"}, Time: time.Date(2024, 1, 1, 0, 0, 0, 0, time.UTC),
	}
}

// openGuard returns a guard of a list under the strict policy, which is closed when the test ends.
func openGuard(t testing.TB, list string) *guard.Guard {
	t.Helper()
	opened, err := guard.Open([]byte(list), guard.Strict, guard.Limits{})
	if err != nil {
		t.Fatal(err)
	}
	t.Cleanup(opened.Close)
	return opened
}

// The issuer of both certificates is a. The signature of `forgedForC` has the value `forged`, where a valid one has `sig`.
const (
	forA = `(cert (issuer (public-key (test a))) (subject (public-key (test a))) (propagate) (tag (*)))
		(signature (hash sha256 #b26a73c3cdcb26bbb71fa21531b5b6a1745fc316ddfcf53862a174f5dccebfb6#) (public-key (test a)) sig)`
	forgedForC = `(cert (issuer (public-key (test a))) (subject (public-key (test c))) (tag (*)))
		(signature (hash sha256 #b0c7e53153c3b09dad60263b3b4738aa1ae756cc4642305bcf4fdc4114ff0d5d#) (public-key (test a)) forged)`
)

// askAndMark asks a guard a question, marks its signatures at these places, of which there may be none, and returns it. It is closed when the test
// ends.
func askAndMark(t testing.TB, opened *guard.Guard, question guard.Question, places ...int) *guard.Asked {
	t.Helper()
	asked, err := opened.Ask(question)
	if err != nil {
		t.Fatal(err)
	}
	t.Cleanup(asked.Close)
	for _, place := range places {
		if err := asked.Mark(place); err != nil {
			t.Fatal(err)
		}
	}
	return asked
}

// isGranted says whether a question is granted by its marks. The test fails and ends if Decide returns an error.
func isGranted(t testing.TB, asked *guard.Asked) bool {
	t.Helper()
	decision, err := asked.Decide()
	if err != nil {
		t.Fatal(err)
	}
	return decision.Granted()
}

// acceptAll is a verifier for which each signature is valid.
func acceptAll(guard.Signature) bool { return true }

// acceptNone is a verifier for which no signature is valid.
func acceptNone(guard.Signature) bool { return false }

// TestVerifierIsGivenWhatIsSigned decides by a verifier that accepts the signature of `forB` alone, and by one that accepts none. So the first is
// given exactly the key, the message and the value of that signature, once.
func TestVerifierIsGivenWhatIsSigned(t *testing.T) {
	calls := 0
	decision, err := openGuard(t, list).Decide(questionWith(1), func(signature guard.Signature) bool {
		calls++
		return reflect.DeepEqual([]string{string(signature.Key), string(signature.Message), string(signature.Value)}, signatureForB)
	})
	if err != nil || !decision.Granted() || decision.Entry() != 1 || calls != 1 || decision.String() != "yes entry 1" {
		t.Errorf("%v, %v, %d calls", decision, err, calls)
	}
	decision, err = openGuard(t, list).Decide(questionWith(1), acceptNone)
	if err != nil || decision.Granted() || decision.Entry() != 0 || decision.String() != "no" {
		t.Errorf("%v, %v", decision, err)
	}
}

// TestZeroValuesGrantNothing shows that the zero Decision is a no, and that the zero Policy is Strict, under which a hash by SHA-1 names no key.
func TestZeroValuesGrantNothing(t *testing.T) {
	var zero guard.Policy
	if (guard.Decision{}).Granted() || zero != guard.Strict {
		t.Error("the zero Decision grants, or the zero Policy is another one: ", zero)
	}
	bySHA1 := fmt.Sprintf("(acl (entry (hash sha1 #%x#) (tag (*))))", sha1.Sum([]byte("(10:public-key(4:test1:b))")))
	for policy, wanted := range map[guard.Policy]bool{guard.Strict: false, guard.AllowSHA1: true} {
		opened, err := guard.Open([]byte(bySHA1), policy, guard.Limits{})
		if err != nil {
			t.Fatal(err)
		}
		if decision, err := opened.Decide(questionWith(0), acceptNone); err != nil || decision.Granted() != wanted {
			t.Errorf("%v: %v, %v", policy, decision, err)
		}
		opened.Close()
	}
}

// TestVerifierStopsAtTheFirstWrongSignature shows three certificates, of which the second has a wrong signature. The third is not verified. The
// second is item 3 of the sequence, since each signature is an item too.
func TestVerifierStopsAtTheFirstWrongSignature(t *testing.T) {
	question, calls := questionWith(0), 0
	question.Sequence = []byte("(sequence " + forB + strings.Replace(forB, "sig)", "wrong)", 1) + forB + ")")
	explanation, err := openGuard(t, list).Explain(question, func(signature guard.Signature) bool {
		calls++
		return string(signature.Value) == "3:sig"
	})
	wanted := []guard.Reason{{Item: 3, Word: "NotAccepted"}}
	if err != nil || calls != 2 || !reflect.DeepEqual(explanation.Reasons(), wanted) || wanted[0].String() != explanation.String() {
		t.Errorf("%v, %v, %d calls", explanation, err, calls)
	}
}

// TestMarkOfNoPlace marks places that the question does not have, which is ErrMisused and marks nothing, and then its only place, 0, twice, which
// is no error. Some of the former would be 0 if they were cut to their lowest octet.
func TestMarkOfNoPlace(t *testing.T) {
	asked := askAndMark(t, openGuard(t, list), questionWith(1))
	if listed := asked.Signatures(); len(listed) != 1 || string(listed[0].Message) != signatureForB[1] || !asked.Possible() {
		t.Errorf("%q", listed)
	}
	for _, place := range []int{1, 2, 0x100, 0x101, -1, -256, math.MaxInt, math.MinInt} {
		if err := asked.Mark(place); !errors.Is(err, guard.ErrMisused) || isGranted(t, asked) {
			t.Errorf("%d: %v", place, err)
		}
	}
	for turn := 0; turn < 2; turn++ {
		if err := asked.Mark(0); err != nil || !isGranted(t, asked) {
			t.Error(err)
		}
	}
}

// verifiedOf asks a guard a question, marks its signatures at these places in order, and returns its Verified. The question is closed.
func verifiedOf(t *testing.T, opened *guard.Guard, question guard.Question, places ...int) guard.Verified {
	t.Helper()
	asked, err := opened.Ask(question)
	if err != nil {
		t.Fatal(err)
	}
	defer asked.Close()
	for _, place := range places {
		if err := asked.Mark(place); err != nil {
			t.Fatal(err)
		}
	}
	return asked.Verified()
}

// TestDecideVerified decides by signatures that are known to be valid. A row has the places that are marked, in this order, the argument of First,
// which keeps so many marks, and the entry that grants the request, or 0. At the end, the function of a log changes the sequence that it gets, which
// is a copy.
func TestDecideVerified(t *testing.T) {
	opened, question := openGuard(t, list), questionWith(1)
	withSequence := question
	withSequence.Sequence = []byte("(sequence " + forA + forB + ")")
	question.Sequence = nil // (the Verified has it)
	for _, row := range []struct {
		places []int
		most   int
		wanted int
	}{
		{nil, 2, 0}, {[]int{0}, 2, 0}, {[]int{1}, 2, 0}, {[]int{0, 1}, 2, 1}, {[]int{0, 1}, 1, 0},
		// (more than there are, and fewer than none)
		{[]int{0, 1}, 99, 1}, {[]int{0, 1}, -1, 0},
		// (the mark of 1 was set before that of 0, so it is left out)
		{[]int{1, 0}, 2, 0},
	} {
		verified := verifiedOf(t, opened, withSequence, row.places...).First(row.most)
		canonical, err := verified.Canonical()
		if err != nil || !bytes.HasPrefix(canonical.Sequence(), []byte("(8:sequence")) {
			t.Fatalf("%q, %v", canonical.Sequence(), err)
		}
		for _, form := range []guard.Verified{verified, canonical} {
			if decision, err := opened.DecideVerified(question, form); err != nil || decision.Entry() != row.wanted {
				t.Errorf("%v: %v, %v", row, decision, err)
			}
		}
	}
	var events []guard.Event
	verified := verifiedOf(t, opened, withSequence, 0, 1)
	log := func(event guard.Event) { events = append(events, event); event.Question.Sequence[1] ^= 1 }
	_, _ = opened.Logged(log).DecideVerified(question, verified)
	if len(events) != 1 || !events[0].Decision.Granted() {
		t.Errorf("%v", events)
	}
	if !bytes.Equal(verified.Sequence(), withSequence.Sequence) {
		t.Errorf("the function of the log changed what is verified: %q", verified.Sequence())
	}
}

// TestVerifiedIsOfItsSequence decides by a Verified a question that has a Sequence too, and asks a guard with another policy. Both are ErrMisused, so
// the marks count for nothing else. The zero Verified has no certificates, so it grants b nothing. Octets that are changed after Ask do not matter.
// After Close the error is ErrClosed.
func TestVerifiedIsOfItsSequence(t *testing.T) {
	opened, question := openGuard(t, list), questionWith(1)
	withSequence, otherSequence := question, append([]byte(nil), question.Sequence...)
	withSequence.Sequence = []byte("(sequence " + forA + forB + ")")
	verified := verifiedOf(t, opened, withSequence, 0, 1)
	allowingSHA1, err := guard.Open([]byte(list), guard.AllowSHA1, guard.Limits{})
	if err != nil {
		t.Fatal(err)
	}
	defer allowingSHA1.Close()
	question.Sequence = otherSequence
	if decision, err := opened.DecideVerified(question, verified); !errors.Is(err, guard.ErrMisused) || decision.Granted() {
		t.Errorf("another sequence: %v, %v", decision, err)
	}
	question.Sequence = nil
	if decision, err := allowingSHA1.DecideVerified(question, verified); !errors.Is(err, guard.ErrMisused) || decision.Granted() {
		t.Errorf("another policy: %v, %v", decision, err)
	}
	if decision, err := opened.DecideVerified(question, guard.Verified{}); err != nil || decision.Granted() {
		t.Errorf("no certificates: %v, %v", decision, err)
	}
	// (the octets that Ask has copied, and the copy that Sequence returns)
	withSequence.Sequence[len(withSequence.Sequence)-2] ^= 1
	verified.Sequence()[0] ^= 1
	if decision, err := opened.DecideVerified(question, verified); err != nil || !decision.Granted() {
		t.Errorf("octets that changed since: %v, %v", decision, err)
	}
	opened.Close()
	if decision, err := opened.DecideVerified(question, verified); !errors.Is(err, guard.ErrClosed) || decision.Granted() {
		t.Errorf("a closed guard: %v, %v", decision, err)
	}
}

// TestMarksAreOfOneQuestion opens three questions: by b; by c, who shows a forged certificate; and by b once more, which is not verified. What is
// marked for b's first one grants nothing by the two others. At the end two are swapped by value: the marks go with the question, and do not stay
// with its address.
func TestMarksAreOfOneQuestion(t *testing.T) {
	opened, question := openGuard(t, list), questionWith(0)
	question.Sequence, question.Key = []byte("(sequence "+forgedForC+")"), spki.AssumeKey([]byte("(public-key (test c))"))
	good, bad, unmarked := askAndMark(t, opened, questionWith(1)), askAndMark(t, opened, question), askAndMark(t, opened, questionWith(1))
	for asked, wanted := range map[*guard.Asked]int{good: 1, bad: 0} {
		valid, err := asked.Verify(func(signature guard.Signature) bool { return string(signature.Value) == "3:sig" })
		if err != nil || valid != wanted || !asked.Possible() {
			t.Errorf("%d valid, %v", valid, err)
		}
	}
	if !isGranted(t, good) || isGranted(t, bad) || isGranted(t, unmarked) {
		t.Error("a mark counts for another question")
	}
	*good, *bad = *bad, *good
	if isGranted(t, good) || !isGranted(t, bad) {
		t.Error("a mark does not go with its question")
	}
}

// TestClientsInGoroutines asks for b, and for c, who shows a forged certificate, in three goroutines each. Each answer is by the marks of its own
// question, so only b's are granted.
func TestClientsInGoroutines(t *testing.T) {
	opened, forging := openGuard(t, list), questionWith(0)
	forging.Sequence, forging.Key = []byte("(sequence "+forgedForC+")"), spki.AssumeKey([]byte("(public-key (test c))"))
	var all sync.WaitGroup
	serve := func(question guard.Question, wanted bool) {
		defer all.Done()
		for turn := 0; turn < 200; turn++ {
			decision, err := opened.Decide(question, func(signature guard.Signature) bool { return string(signature.Value) == "3:sig" })
			if err != nil || decision.Granted() != wanted {
				t.Errorf("%v, %v, wanted %v", decision, err, wanted)
			}
		}
	}
	for turn := 0; turn < 3; turn++ {
		all.Add(2)
		go serve(questionWith(1), true)
		go serve(forging, false)
	}
	all.Wait()
}

// TestMarksAreOfOnePlace shows `forA` twice, by the key a. One mark, at either place, grants nothing: each of the two equal signatures needs its own.
func TestMarksAreOfOnePlace(t *testing.T) {
	question := questionWith(0)
	question.Sequence, question.Key = []byte("(sequence "+forA+forA+")"), spki.AssumeKey([]byte("(public-key (test a))"))
	for place := 0; place < 2; place++ {
		asked := askAndMark(t, openGuard(t, list), question, place)
		if isGranted(t, asked) || asked.Count() != 2 {
			t.Errorf("the mark at place %d counts for both places", place)
		}
		if err := asked.Mark(1 - place); err != nil || !isGranted(t, asked) {
			t.Error(err)
		}
	}
}

// TestVerifierThatFailsMarksNothing has a verifier fail at the second signature. The first, which is valid, is not marked then, so a mark of the
// second alone grants nothing.
func TestVerifierThatFailsMarksNothing(t *testing.T) {
	question, fault := questionWith(0), errors.New("no such key")
	question.Sequence, question.Key = []byte("(sequence "+forA+forA+")"), spki.AssumeKey([]byte("(public-key (test a))"))
	asked, calls := askAndMark(t, openGuard(t, list), question), 0
	valid, err := asked.VerifyContext(context.Background(), func(context.Context, guard.Signature) (bool, error) {
		if calls++; calls == 2 {
			return true, fault
		}
		return true, nil
	})
	if !errors.Is(err, fault) || valid != 0 || calls != 2 {
		t.Errorf("%v, %d valid, %d calls", err, valid, calls)
	}
	if err := asked.Mark(1); err != nil || isGranted(t, asked) {
		t.Error(err)
	}
}

// TestNothingIsVerifiedInVain asks two questions that are denied whichever signatures are valid: one with two certificates that do not follow one
// another, and one under an empty list. So Decide calls no verifier. Explain does: its lines depend on which are valid.
func TestNothingIsVerifiedInVain(t *testing.T) {
	calls := 0
	counted := func(guard.Signature) bool { calls++; return true }
	for list, question := range map[string]guard.Question{list: questionWith(2), "(acl)": questionWith(1)} {
		opened := openGuard(t, list)
		if decision, err := opened.Decide(question, counted); err != nil || decision.Granted() || calls != 0 {
			t.Errorf("%v, %v, %d calls", decision, err, calls)
		}
		if _, err := opened.Explain(question, counted); err != nil || calls == 0 {
			t.Errorf("%v, %d calls", err, calls)
		}
		calls = 0
	}
}

// TestSignaturesAreOfTheSequence asks with other keys, requests, times and lists. Under one policy, which signatures are listed depends on the
// sequence alone. Verified relies on that: it uses the places of one question in others with the same sequence. The changes of a question add up from
// turn to turn.
func TestSignaturesAreOfTheSequence(t *testing.T) {
	otherDigest := strings.Replace(forB, "#d7", "#d8", 1) // (a signature for the hash of no certificate)
	for _, text := range []string{forB, forB + forB, forB + otherDigest + forB, "(public-key (test c)) " + forB} {
		question := questionWith(0)
		question.Sequence = []byte("(sequence " + text + ")")
		var wanted []guard.Signature
		for turn, change := range []func(){
			func() {}, func() { question.Key = spki.AssumeKey([]byte("(public-key (test c))")) }, func() { question.Words = []string{"x"} },
			func() { question.Time = time.Date(1999, 1, 1, 0, 0, 0, 0, time.UTC) },
		} {
			change()
			for _, list := range []string{list, "(acl)", "(acl (entry (public-key (test b)) (tag (ftp))))"} {
				asked, err := openGuard(t, list).Ask(question)
				if err != nil {
					t.Fatal(err)
				}
				listed := asked.Signatures()
				asked.Close()
				if wanted == nil {
					wanted = listed
				}
				if !reflect.DeepEqual(listed, wanted) || len(listed) == 0 {
					t.Errorf("turn %d: %q, wanted %q", turn, listed, wanted)
				}
			}
		}
	}
}

// TestQuestionIsCopied changes the octets of a question after Ask. The answer is still that to the question as it was, also the second time.
func TestQuestionIsCopied(t *testing.T) {
	question := questionWith(1)
	asked := askAndMark(t, openGuard(t, list), question, 0)
	for place := range question.Sequence {
		question.Sequence[place] = 'x'
	}
	question.Words[0] = ""
	for turn := 0; turn < 2; turn++ {
		if !isGranted(t, asked) {
			t.Error("the octets of the question are not copied")
		}
	}
}

// TestStringsAreStrings requests by words that have spaces, parentheses or no octets. Each stays one string, so a word with a space in it is not two
// words. In a row the words are joined by commas.
func TestStringsAreStrings(t *testing.T) {
	opened := openGuard(t, "(acl (entry (public-key (test b)) (tag (cache (* prefix /cache/team1/) read))))")
	for words, wanted := range map[string]bool{
		"cache,/cache/team1/a.o,read": true, "cache,/cache/team1/a.o read,write": false, "cache,/cache/team1/\x00),read": true,
		"cache,,read": false, "cache": false,
	} {
		question := questionWith(0)
		question.Words = strings.Split(words, ",")
		if decision, err := opened.Decide(question, acceptAll); err != nil || decision.Granted() != wanted {
			t.Errorf("%q: %v, %v", words, decision, err)
		}
	}
}

// TestRequestAndTimeAsTexts gives the request and the time as texts. The second request is `(ftp)` in transport form. Of the three, the entry grants
// `(ftp host)` alone.
func TestRequestAndTimeAsTexts(t *testing.T) {
	opened := openGuard(t, "(acl (entry (public-key (test b)) (tag (ftp host))))")
	for text, wanted := range map[string]bool{"(ftp host)": true, "{KDM6ZnRwKQ==}": false, "ftp": false} {
		question := questionWith(0)
		question.Words, question.Request = nil, []byte(text)
		question.Time, question.Moment = time.Time{}, []byte(`"2024-01-01_00:00:00"`)
		if decision, err := opened.Decide(question, acceptAll); err != nil || decision.Granted() != wanted {
			t.Errorf("%q: %v, %v", text, decision, err)
		}
	}
}

// TestRefusals spoils one part of a question at a time, and then the access list. Each is a refusal. A row has the line of a question's refusal as
// its key. The time of BadDate is in the year 36812.
func TestRefusals(t *testing.T) {
	opened := openGuard(t, list)
	for line, change := range map[string]func(*guard.Question){
		"refused sequence Trailing 11": func(q *guard.Question) { q.Sequence = []byte("(sequence) x") },
		"refused sequence Short":       func(q *guard.Question) { q.Sequence = nil },
		"refused key Short":            func(q *guard.Question) { q.Key = guard.ProvenKey{} },
		"refused request EmptyList":    func(q *guard.Question) { q.Words = []string{} },
		"refused request Short":        func(q *guard.Question) { q.Words = nil },
		"refused at Short":             func(q *guard.Question) { q.Time = time.Time{} },
		"refused at BadDate":           func(q *guard.Question) { q.Time = time.Unix(1<<40, 0) },
	} {
		question := questionWith(1)
		change(&question)
		decision, err := opened.Decide(question, acceptAll)
		var refusal *guard.Refusal
		if !errors.Is(err, guard.ErrRefused) || !errors.As(err, &refusal) || refusal.Error() != line || decision.Granted() {
			t.Errorf("%s: %v, %v", line, decision, err)
			continue
		}
		words := strings.Fields(line)
		if refusal.Part() != words[1] || refusal.Fault() != words[2] {
			t.Errorf("%s: %s, %s", line, refusal.Part(), refusal.Fault())
		}
	}
	for _, list := range []string{"", "(acl (entry))", "(acl) x"} {
		if opened, err := guard.Open([]byte(list), guard.Strict, guard.Limits{}); !errors.Is(err, guard.ErrRefused) || opened != nil {
			t.Errorf("%q: %v", list, err)
		}
	}
}

// TestTwoWaysAreMisuse gives a text of the request beside its words, or a text of the time beside Time. Each is ErrMisused.
func TestTwoWaysAreMisuse(t *testing.T) {
	for name, change := range map[string]func(*guard.Question){
		"request": func(q *guard.Question) { q.Request = []byte("ftp") }, "time": func(q *guard.Question) { q.Moment = []byte(`"2024-01-01_00:00:00"`) },
	} {
		question := questionWith(1)
		change(&question)
		if decision, err := openGuard(t, list).Decide(question, acceptAll); !errors.Is(err, guard.ErrMisused) || decision.Granted() {
			t.Errorf("%s: %v, %v", name, decision, err)
		}
	}
}

// TestUsualLimits exceeds each usual limit of a decision: 16 certificates, 64 words, and 65,536 octets of all texts, which the word of `long` has
// alone. Questions at the first two limits are not refused. The highest limits allow more. A limit above the highest, as 1,048,577 octets, and a
// policy that does not exist are ErrMisused.
func TestUsualLimits(t *testing.T) {
	opened := openGuard(t, list)
	many, words, long := questionWith(17), questionWith(1), questionWith(1)
	words.Words = make([]string, 65)
	long.Words = []string{strings.Repeat("x", 65_536)}
	for name, question := range map[string]guard.Question{"certificates": many, "words": words, "octets": long} {
		if _, err := opened.Decide(question, acceptAll); !errors.Is(err, guard.ErrTooLong) {
			t.Errorf("%s: %v", name, err)
		}
	}
	words.Words = words.Words[:64]
	for name, question := range map[string]guard.Question{"certificates": questionWith(16), "words": words} {
		if _, err := opened.Decide(question, acceptAll); err != nil {
			t.Errorf("%s: %v", name, err)
		}
	}
	wide, err := guard.Open([]byte(list), guard.Strict, guard.Highest())
	if err != nil {
		t.Fatal(err)
	}
	defer wide.Close()
	for name, question := range map[string]guard.Question{"certificates": questionWith(40), "octets": long} {
		if _, err := wide.Decide(question, acceptAll); err != nil {
			t.Errorf("%s: %v", name, err)
		}
	}
	for _, limits := range []guard.Limits{{Octets: 1_048_577}, {Answer: guard.Highest().Answer + 1}} {
		if _, err := guard.Open([]byte(list), guard.Strict, limits); !errors.Is(err, guard.ErrMisused) {
			t.Error(err)
		}
	}
	if _, err := guard.Open([]byte(list), guard.Policy(2), guard.Limits{}); !errors.Is(err, guard.ErrMisused) {
		t.Error(err)
	}
}

// TestLogged logs a yes, a no, a refusal, and a no of Require, which is logged once. A panic of the function of a log goes on to the caller, so
// nothing is granted.
func TestLogged(t *testing.T) {
	var events []guard.Event
	opened := openGuard(t, list).Logged(func(event guard.Event) { events = append(events, event) })
	refused := questionWith(1)
	refused.Sequence = nil
	for _, question := range []guard.Question{questionWith(1), questionWith(2), refused} {
		decision, err := opened.Decide(question, acceptAll)
		last := events[len(events)-1]
		if last.Decision != decision || last.Err != err || last.Question.Time != question.Time || last.Took < 0 {
			t.Errorf("%+v, %v, %v", last, decision, err)
		}
	}
	accept := func(context.Context, guard.Signature) (bool, error) { return true, nil }
	if _, err := opened.Require(context.Background(), questionWith(2), accept); !errors.Is(err, guard.ErrDenied) {
		t.Error(err)
	}
	if len(events) != 4 || !events[0].Decision.Granted() || events[1].Decision.Granted() || !errors.Is(events[2].Err, guard.ErrRefused) {
		t.Errorf("%+v", events)
	}
	defer func() {
		if recover() == nil {
			t.Error("a panic of a log is lost")
		}
	}()
	_, _ = opened.Logged(func(guard.Event) { panic("the disk is full") }).Decide(questionWith(1), acceptAll)
}

// TestMisuseIsLogged decides by a Verified a question that has a Sequence too, which is ErrMisused. The log gets the error. The zero Guard suffices,
// since the question does not reach the library.
func TestMisuseIsLogged(t *testing.T) {
	var opened guard.Guard
	var events []guard.Event
	logged := opened.Logged(func(event guard.Event) { events = append(events, event) })
	if _, err := logged.DecideVerified(questionWith(1), guard.Verified{}); err != guard.ErrMisused || len(events) != 1 || events[0].Err != err {
		t.Errorf("%+v, %v", events, err)
	}
}

// TestLimitsOfZeroAreTheLibrarys sets one limit, and leaves the others 0. These are then the usual ones, such as 16 certificates.
func TestLimitsOfZeroAreTheLibrarys(t *testing.T) {
	opened, err := guard.Open([]byte(list), guard.Strict, guard.Limits{Answer: 1000})
	if err != nil {
		t.Fatal(err)
	}
	defer opened.Close()
	if decision, err := opened.Decide(questionWith(1), acceptAll); err != nil || !decision.Granted() {
		t.Errorf("%v, %v", decision, err)
	}
	if _, err := opened.Decide(questionWith(17), acceptAll); !errors.Is(err, guard.ErrTooLong) {
		t.Error(err)
	}
}

// TestLimitsBelowZero opens guards with a limit below zero. Each is ErrMisused.
func TestLimitsBelowZero(t *testing.T) {
	for _, limits := range []guard.Limits{
		{Octets: -1}, {Certificates: -1}, {Words: -1}, {Nodes: -1}, {Work: -1}, {Answer: -1}, {Words: math.MinInt}, {Octets: 64, Answer: -64},
	} {
		if opened, err := guard.Open([]byte(list), guard.Strict, limits); !errors.Is(err, guard.ErrMisused) || opened != nil {
			t.Errorf("%+v: %v", limits, err)
		}
	}
}

// TestAClockThatFailed asks at times that only a clock that failed gives: before 1970, and from the year 10000 on, which begins 253,402,300,800 s
// after 1970 began. They are refused, so none brings back the right that ended in 1999. The nanosecond in each does not count. The first second of
// 1970 and the last nanosecond of the year 9999 are times like others.
func TestAClockThatFailed(t *testing.T) {
	opened := openGuard(t, `(acl (entry (public-key (test b)) (tag (*)) (not-after "1999-12-31_23:59:59")))`)
	question := questionWith(0)
	question.Time = time.Unix(0, 0)
	if decision, err := opened.Decide(question, acceptAll); err != nil || !decision.Granted() {
		t.Errorf("%v, %v", decision, err)
	}
	const yearOne = -62_135_596_800 // (the first second of the year 1, which the zero Time is)
	for _, seconds := range []int64{-1, -1 << 31, yearOne - 1, math.MinInt64, 253_402_300_800, math.MaxInt64} {
		question.Time = time.Unix(seconds, 1)
		decision, err := opened.Decide(question, acceptAll)
		var refusal *guard.Refusal
		if !errors.As(err, &refusal) || refusal.Error() != "refused at BadDate" || decision.Granted() {
			t.Errorf("%d: %v, %v", seconds, decision, err)
		}
		if _, err := opened.Explain(question, acceptAll); !errors.As(err, &refusal) || refusal.Fault() != "BadDate" {
			t.Errorf("%d: %v", seconds, err)
		}
		if _, err := opened.Ask(question); !errors.As(err, &refusal) || refusal.Fault() != "BadDate" {
			t.Errorf("%d: %v", seconds, err)
		}
	}
	endless := openGuard(t, `(acl (entry (public-key (test b)) (tag (*))))`)
	question.Time = time.Unix(253_402_300_799, 999_999_999) // (the last nanosecond of the year 9999)
	if decision, err := endless.Decide(question, acceptAll); err != nil || !decision.Granted() {
		t.Errorf("%v, %v", decision, err)
	}
}

// TestUntil keeps a grant. It holds up to the not-after of the entry, and no second longer: the same question, asked again, has the same answer. A
// grant without a window holds till the year 9999 ends, after which no question is answered, but not before 1970. A no never holds.
func TestUntil(t *testing.T) {
	ending := openGuard(t, `(acl (entry (public-key (test a)) (propagate) (tag (*)) (not-after "2026-06-30_23:59:59")))`)
	last, question := time.Date(2026, 6, 30, 23, 59, 59, 0, time.UTC), questionWith(1)
	kept, err := ending.Decide(question, acceptAll)
	if err != nil || !kept.Until().Equal(last) {
		t.Errorf("%v, %v", kept.Until(), err)
	}
	for later, holds := range map[time.Duration]bool{-time.Second: true, 0: true, 999 * time.Millisecond: true, time.Second: false} {
		question.Time = last.Add(later)
		if decision, err := ending.Decide(question, acceptAll); err != nil || decision.Granted() != holds || kept.HoldsAt(question.Time) != holds {
			t.Errorf("%v: %v, %v, %v", later, decision, err, kept.HoldsAt(question.Time))
		}
	}
	endless, err := openGuard(t, list).Decide(questionWith(1), acceptAll)
	if err != nil || !endless.Until().IsZero() || !endless.HoldsAt(last.Add(time.Second)) || endless.HoldsAt(time.Unix(-1, 0)) {
		t.Errorf("%v, %v", endless, err)
	}
	for second, holds := range map[int64]bool{253_402_300_799: true, 253_402_300_800: false} {
		question.Time = time.Unix(second, 999_999_999)
		if asked, _ := openGuard(t, list).Decide(question, acceptAll); asked.Granted() != holds || endless.HoldsAt(question.Time) != holds {
			t.Errorf("%d: %v, %v", second, asked, endless.HoldsAt(question.Time))
		}
	}
	no, err := ending.Decide(questionWith(1), acceptNone)
	if err != nil || !no.Until().IsZero() || no.HoldsAt(last) || (guard.Decision{}).HoldsAt(last) {
		t.Errorf("%v, %v", no, err)
	}
}

// TestVerifierThatFails decides by verifiers that answer, fail, or do both, and by a context that ended before. Require returns the number of the
// entry, or the same error, or ErrDenied for a no.
func TestVerifierThatFails(t *testing.T) {
	opened, away := openGuard(t, list), errors.New("the key store is away")
	stopped, stop := context.WithCancel(context.Background())
	stop()
	for name, row := range map[string]struct {
		ctx     context.Context
		verify  guard.VerifyContext
		granted bool
		wanted  error
	}{
		"yes":                  {context.Background(), func(context.Context, guard.Signature) (bool, error) { return true, nil }, true, nil},
		"no":                   {context.Background(), func(context.Context, guard.Signature) (bool, error) { return false, nil }, false, nil},
		"an error":             {context.Background(), func(context.Context, guard.Signature) (bool, error) { return false, away }, false, away},
		"yes with an error":    {context.Background(), func(context.Context, guard.Signature) (bool, error) { return true, away }, false, away},
		"a context that ended": {stopped, func(context.Context, guard.Signature) (bool, error) { panic("a call") }, false, context.Canceled},
	} {
		decision, err := opened.DecideContext(row.ctx, questionWith(1), row.verify)
		if decision.Granted() != row.granted || !errors.Is(err, row.wanted) {
			t.Errorf("%s: %v, %v", name, decision, err)
		}
		if row.wanted == nil && !row.granted {
			row.wanted = guard.ErrDenied
		}
		if entry, err := opened.Require(row.ctx, questionWith(1), row.verify); (entry == 1) != row.granted || !errors.Is(err, row.wanted) {
			t.Errorf("%s: %d, %v", name, entry, err)
		}
	}
}

// TestContextThatEndsInACall shows three certificates. The first call of the verifier ends the context, so there is no second call, and nothing is
// granted.
func TestContextThatEndsInACall(t *testing.T) {
	ctx, end := context.WithCancel(context.Background())
	question, calls := questionWith(0), 0
	question.Sequence = []byte("(sequence " + forA + forA + forB + ")")
	decision, err := openGuard(t, list).DecideContext(ctx, question, func(context.Context, guard.Signature) (bool, error) {
		calls++
		end()
		return true, nil
	})
	if calls != 1 || !errors.Is(err, context.Canceled) || decision.Granted() {
		t.Errorf("%d calls, %v, %v", calls, decision, err)
	}
}

// questionByLongKey returns a question by b with `times` times the same certificate, by a key with a string of `octets` octets. The key is in front,
// and issuer and signature name it by its hash.
func questionByLongKey(t testing.TB, times, octets int) guard.Question {
	t.Helper()
	key := fmt.Sprintf("(10:public-key(4:test%d:%s))", octets, strings.Repeat("x", octets))
	hash := fmt.Sprintf("(hash sha256 #%x#)", sha256.Sum256([]byte(key)))
	certificate, err := guard.Canonical([]byte(fmt.Sprintf("(cert (issuer %s) (subject (public-key (test b))) (tag (*)))", hash)))
	if err != nil {
		t.Fatal(err)
	}
	signed := fmt.Sprintf("%s (signature (hash sha256 #%x#) %s sig)", certificate, sha256.Sum256(certificate), hash)
	question := questionWith(0)
	question.Sequence = []byte("(sequence " + key + strings.Repeat(signed, times) + ")")
	return question
}

// TestSignaturesAreCopiedOneByOne lists 200 signatures by one key with a string of 100,000 octets. No more is allocated than 10 such strings have:
// a signature is copied just before its call, and the keys of neighbours, which are equal here, are copied once.
func TestSignaturesAreCopiedOneByOne(t *testing.T) {
	opened, err := guard.Open([]byte(list), guard.Strict, guard.Highest())
	if err != nil {
		t.Fatal(err)
	}
	defer opened.Close()
	const times, octets = 200, 100_000
	question := questionByLongKey(t, times, octets)
	calls := 0
	for name, decide := range map[string]func() error{
		"all valid": func() error {
			_, err := opened.Explain(question, func(guard.Signature) bool { calls++; return true })
			return err
		},
		"all listed": func() error {
			asked, err := opened.Ask(question)
			if err != nil {
				return err
			}
			defer asked.Close()
			if listed := asked.Signatures(); len(listed) != times || asked.Count() != times || &listed[0].Key[0] != &listed[times-1].Key[0] {
				t.Error("another key, or another count")
			}
			return nil
		},
	} {
		var before, after runtime.MemStats
		runtime.ReadMemStats(&before)
		if err := decide(); err != nil {
			t.Fatal(name, err)
		}
		runtime.ReadMemStats(&after)
		if allocated := after.TotalAlloc - before.TotalAlloc; allocated > 10*octets {
			t.Errorf("%s: %d octets are allocated", name, allocated)
		}
	}
	if calls != times {
		t.Errorf("%d calls", calls)
	}
}

// TestEachEndsWithItsQuestion closes a question in the call for its first signature. Each stops there with ErrClosed, also if that one is the last.
func TestEachEndsWithItsQuestion(t *testing.T) {
	for _, times := range []int{1, 3} {
		asked, err := openGuard(t, list).Ask(questionWith(times))
		if err != nil {
			t.Fatal(err)
		}
		calls := 0
		err = asked.Each(func(int, guard.Signature) bool {
			calls++
			asked.Close()
			return true
		})
		if calls != 1 || !errors.Is(err, guard.ErrClosed) || asked.Signatures() != nil {
			t.Errorf("%d calls, %v", calls, err)
		}
	}
}

// TestTooLarge explains where the lines may have 5 octets, which is ErrTooLarge. A decision needs no such room.
func TestTooLarge(t *testing.T) {
	opened, err := guard.Open([]byte(list), guard.Strict, guard.Limits{Answer: 5})
	if err != nil {
		t.Fatal(err)
	}
	defer opened.Close()
	if _, err := opened.Explain(questionWith(1), acceptAll); !errors.Is(err, guard.ErrTooLarge) {
		t.Error(err)
	}
	if decision, err := opened.Decide(questionWith(1), acceptAll); err != nil || !decision.Granted() {
		t.Errorf("%v, %v", decision, err)
	}
}

// TestLongAnswersAreWhole explains and reduces a list of 500 entries. Neither answer is cut.
func TestLongAnswersAreWhole(t *testing.T) {
	opened := openGuard(t, "(acl "+strings.Repeat("(entry (public-key (test b)) (tag (*)))", 500)+")")
	explanation, err := opened.Explain(questionWith(0), acceptAll)
	last := guard.Reason{Entry: 500, Word: "grants"}
	if err != nil || opened.Entries() != 500 || len(explanation.Reasons()) != 500 || explanation.Reasons()[499] != last {
		t.Errorf("%d, %v", opened.Entries(), err)
	}
	lines, err := opened.Reduce(questionWith(0), acceptAll)
	if err != nil || !strings.HasSuffix(lines, "entry 500 (five (subject (public-key (test b))) (tag (*)))") {
		t.Errorf("%.100q, %v", lines, err)
	}
}

// TestPanicOfVerifier shows that a panic of a verifier goes on to the caller, and that the guard can be asked afterwards.
func TestPanicOfVerifier(t *testing.T) {
	opened := openGuard(t, list)
	func() {
		defer func() {
			if recover() == nil {
				t.Error("the panic is gone")
			}
		}()
		_, _ = opened.Decide(questionWith(1), func(guard.Signature) bool { panic("no such key") })
	}()
	if decision, err := opened.Decide(questionWith(1), acceptAll); err != nil || !decision.Granted() {
		t.Errorf("%v, %v", decision, err)
	}
}

// TestForms converts texts among the three forms of RFC 9804. What is in none of them is refused.
func TestForms(t *testing.T) {
	canonical, err := guard.Canonical([]byte("(a b)"))
	if err != nil || string(canonical) != "(1:a1:b)" {
		t.Errorf("%q, %v", canonical, err)
	}
	if text, err := guard.Advanced(canonical); err != nil || string(text) != "(a b)\n" {
		t.Errorf("%q, %v", text, err)
	}
	if text, err := guard.Transport(canonical); err != nil || string(text) != "{KDE6YTE6Yik=}\n" {
		t.Errorf("%q, %v", text, err)
	}
	if _, err := guard.Canonical([]byte("(a ~)")); fmt.Sprint(err) != "refused form Bad 3" {
		t.Error(err)
	}
	// (no text grows more in advanced form: an octet printed in base64 takes 7 octets for the 3 of its canonical text, and convert has room for 9)
	if text, err := guard.Advanced([]byte("(" + strings.Repeat("1:\x00", 1000) + ")")); err != nil || len(text) != 7002 {
		t.Errorf("%d, %v", len(text), err)
	}
	// (and none more in transport form: 32 octets for the 12 of three times `a(b)`, and 7 for the outer list, the braces and the line feed)
	if text, err := guard.Transport([]byte("(" + strings.Repeat("a(b)", 3000) + ")")); err != nil || len(text) != 32007 {
		t.Errorf("%d, %v", len(text), err)
	}
	if _, err := guard.Canonical(nil); fmt.Sprint(err) != "refused form Short" {
		t.Error(err)
	}
}

// TestTextBesideAPointer has the texts of calls in an object that also has a pointer, as a connection has its buffer. cgo would panic if it examined
// that object.
func TestTextBesideAPointer(t *testing.T) {
	connection := &struct {
		name   *string
		buffer [100]byte
	}{name: new(string)}
	text := connection.buffer[:copy(connection.buffer[:], list)]
	for _, convert := range []func([]byte) ([]byte, error){guard.Canonical, guard.Advanced, guard.Transport} {
		if _, err := convert(text); err != nil {
			t.Error(err)
		}
	}
	opened, err := guard.Open(text, guard.Strict, guard.Limits{})
	if err != nil {
		t.Fatal(err)
	}
	defer opened.Close()
	question := questionWith(0)
	question.Sequence = connection.buffer[:copy(connection.buffer[:], question.Sequence)]
	if _, err := opened.Decide(question, acceptNone); err != nil {
		t.Error(err)
	}
}

// TestTooLongTextNeedsNoLongBuffer converts a text of 16 MiB, which is refused. The buffer of an answer does not grow with it, and has little more
// than 3 MiB: three times the longest text within the limit. The text itself, a copy of the string, takes 16 MiB. So 32 MiB suffice.
func TestTooLongTextNeedsNoLongBuffer(t *testing.T) {
	tooLong := strings.Repeat(" ", 16<<20)
	var before, after runtime.MemStats
	runtime.ReadMemStats(&before)
	if _, err := guard.Canonical([]byte(tooLong)); !errors.Is(err, guard.ErrTooLong) {
		t.Error(err)
	}
	runtime.ReadMemStats(&after)
	if allocated := after.TotalAlloc - before.TotalAlloc; allocated > 2*uint64(len(tooLong)) {
		t.Errorf("%d octets are allocated for a text that is refused", allocated)
	}
}

// Example opens a guard and decides a request of a client that shows no certificates.
func Example() {
	list, err := guard.Open([]byte("(acl (entry (public-key (test bob)) (tag (packages read (* prefix /manuals/)))))"), guard.Strict, guard.Limits{})
	if err != nil {
		fmt.Println(err)
		return
	}
	defer list.Close()
	decision, err := list.Decide(guard.Question{
		Sequence: []byte("(sequence)"),
		Key:      spki.AssumeKey([]byte("(public-key (test bob))")),
		Words:    []string{"packages", "read", "/manuals/cook.pdf"},
		Time:     time.Date(2026, 3, 1, 12, 0, 0, 0, time.UTC),
	}, func(guard.Signature) bool { return false })
	fmt.Println(decision, err)
	// Output: yes entry 1 <nil>
}

// BenchmarkDecide times a decision with one certificate, without verifying its signature.
func BenchmarkDecide(b *testing.B) {
	opened := openGuard(b, list)
	for turn := 0; turn < b.N; turn++ {
		if decision, err := opened.Decide(questionWith(1), acceptAll); err != nil || !decision.Granted() {
			b.Fatal(decision, err)
		}
	}
}
