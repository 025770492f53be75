//go:build spki_postgres

package main

// Tests of a store in PostgreSQL. tests/suite/test_store.py makes an empty store, and names it in the environment. Random questions are asked while a
// writer changes the entries, and each answer is compared with that of a guard of the whole list. The number of a change is its place in `history`.

import (
	"database/sql/driver"
	"encoding/hex"
	"errors"
	"fmt"
	"math/rand"
	"os"
	"sort"
	"strconv"
	"sync"
	"testing"
	"time"

	"conguraki/spki"
	"conguraki/spki/guard"
	"conguraki/spki/verify"
)

// The tests of this file need a store without entries, by the environment: tests/suite/test_store.py makes one.
const (
	envHost      = "SPKI_STORE_HOST"
	envSchema    = "SPKI_STORE_SCHEMA"
	envQuestions = "SPKI_STORE_QUESTIONS"
	envSeed      = "SPKI_STORE_SEED"
	envRoot      = "SPKI_STORE_ROOT"
)

// What changingStore.answerOfStore begins with where the store gives no list, and does not refuse the question.
const failed = "failed: "

// A changingStore is a store in PostgreSQL, what changes it, and all lists that it had.
type changingStore struct {
	t      *testing.T
	store  *store
	writer *pool
	random *rand.Rand
	people []person
	// Guards what follows.
	mutex sync.Mutex
	// The present entries by their numbers, and those after each change, by the number of the change.
	entries map[int]string
	history []map[int]string
}

// newChangingStore opens the store that the environment names, which answers within `patience` or fails. Without one the test is skipped.
func newChangingStore(t *testing.T, patience time.Duration) *changingStore {
	t.Helper()
	host := os.Getenv(envHost)
	if host == "" {
		t.Skip("no store: tests/suite/test_store.py names one")
	}
	options := &storeSettings{Host: host, Root: os.Getenv(envRoot), Database: "postgres", User: "postgres", Schema: os.Getenv(envSchema)}
	if err := options.check(); err != nil {
		t.Fatal(err)
	}
	seed, _ := strconv.ParseInt(os.Getenv(envSeed), 10, 64)
	opened := &changingStore{t: t, random: rand.New(rand.NewSource(seed)), entries: map[int]string{}}
	reader, err := openReader(options, patience)
	if err != nil {
		t.Fatal(err)
	}
	writer, err := openReader(options, patience)
	if err != nil {
		t.Fatal(err)
	}
	opened.writer = writer.(*pool)
	open := func(entries []byte) (*guard.Guard, error) {
		return guard.Open([]byte("(3:acl"+string(entries)+")"), guard.Strict, guard.Limits{})
	}
	if opened.store, err = newStore(options, reader, open, time.Now); err != nil {
		t.Fatal(err)
	}
	for count := 0; count < 12; count++ {
		opened.people = append(opened.people, newPerson(t))
	}
	opened.history = []map[int]string{{}}
	return opened
}

// forget closes the statement with a number, if it is prepared, so that the next `ask` prepares the text that it is given. Else `ask` would run the
// statement again that it has prepared under this number.
func (l *link) forget(number int) error {
	prepared := l.statements[number]
	if prepared == nil {
		return nil
	}
	l.statements[number] = nil
	return prepared.Close()
}

// runStatement runs a statement, in which %s is the schema, and returns the first value of its row. It reports an error: then the result has no meaning.
func (r *changingStore) runStatement(text string, values ...driver.Value) (first int64) {
	link, err := r.writer.take(r.writer.patience)
	if err != nil {
		r.t.Error(err)
		return 0
	}
	// (a link has room for a few statements, by their numbers: this uses only the first)
	if err = link.forget(0); err == nil {
		use := func(row []driver.Value) error { first, _ = row[0].(int64); return nil }
		err = link.ask(0, fmt.Sprintf(text, r.store.options.Schema), use, values)
	}
	// (the link is given back)
	r.writer.slots <- link
	if err != nil {
		r.t.Error(err)
	}
	return first
}

// somebody returns one of the people at random.
func (r *changingStore) somebody(random *rand.Rand) person {
	return r.people[random.Intn(len(r.people))]
}

// randomPrincipal returns a person's key or, half of the time, a hash of it.
func randomPrincipal(who person, random *rand.Rand) string {
	// (in this order: by SHA-1, SHA-256 and SHA-512)
	digests := digestsOf([]byte(who.key))
	switch random.Intn(6) {
	case 0:
		return "(4:hash6:sha256" + str(string(digests[1])) + ")"
	case 1:
		return "(4:hash6:sha512" + str(string(digests[2])) + ")"
	case 2:
		return "(4:hash4:sha1" + str(string(digests[0])) + ")"
	}
	return who.key
}

// randomEntry returns a random entry: for somebody's key or its hash, or for their name `friends`, and for one of three folders.
func (r *changingStore) randomEntry() string {
	subject, more := randomPrincipal(r.somebody(r.random), r.random), ""
	if r.random.Intn(8) == 0 {
		subject = "(4:name" + subject + "7:friends)"
	}
	if r.random.Intn(4) > 0 {
		more = propagates
	}
	folder := []string{"/web/", "/web/a/", "/web/b/"}[r.random.Intn(3)]
	return "(5:entry" + subject + more + "(3:tag" + prefixTag("read", folder) + "))"
}

// change adds an entry or removes one, as another client does, and notes the list after it. Below 40 entries it adds one, so that questions find some, and
// otherwise it does either at random.
func (r *changingStore) change() {
	next := map[int]string{}
	for number, text := range r.entries {
		next[number] = text
	}
	if len(next) < 40 || r.random.Intn(2) == 0 {
		text := r.randomEntry()
		next[int(r.runStatement("INSERT INTO %s.entries (text) VALUES ($1) RETURNING number", []byte(text)))] = text
	} else {
		numbers := numbersOf(next)
		number := numbers[r.random.Intn(len(numbers))]
		r.runStatement("DELETE FROM %s.entries WHERE number = $1 RETURNING number", int64(number))
		delete(next, number)
	}
	r.runStatement("UPDATE %s.heartbeat SET number = number + 1, moment = clock_timestamp() RETURNING number")
	r.mutex.Lock()
	defer r.mutex.Unlock()
	r.entries = next
	r.history = append(r.history, next)
}

// numbersOf returns the numbers of entries, in order.
func numbersOf(entries map[int]string) []int {
	numbers := make([]int, 0, len(entries))
	for number := range entries {
		numbers = append(numbers, number)
	}
	sort.Ints(numbers)
	return numbers
}

// randomQuestion returns a random question with up to three certificates, each from one person to the next. About one of 20 certificates is signed by
// anybody, and about one of 20 sequences has a value that is no certificate, so that it is refused.
func (r *changingStore) randomQuestion(random *rand.Rand) guard.Question {
	chain := []person{r.somebody(random)}
	text := "(8:sequence"
	for len(chain) < 4 && random.Intn(3) > 0 {
		from, to := chain[len(chain)-1], r.somebody(random)
		chain = append(chain, to)
		signer := from
		if random.Intn(20) == 0 {
			signer = r.somebody(random)
		}
		text += signer.sign("(4:cert(6:issuer" + randomPrincipal(from, random) + ")(7:subject" + randomPrincipal(to, random) + ")" + propagates + "(3:tag" +
			prefixTag("read", "/web/") + "))")
	}
	if random.Intn(20) == 0 {
		text += "(4:cert)"
	}
	return guard.Question{Sequence: []byte(text + ")"), Key: spki.AssumeKey([]byte(chain[len(chain)-1].key)), Words: []string{"files", "read", "/web/a/x"}, Time: time.Now()}
}

// answerOfWholeList returns the answer of a guard with all these entries, which are by their numbers. answerBy says what an answer is.
func (r *changingStore) answerOfWholeList(entries map[int]string, question guard.Question) string {
	text := ""
	numbers := numbersOf(entries)
	for _, number := range numbers {
		text += entries[number]
	}
	opened, err := r.store.open([]byte(text))
	if err != nil {
		r.t.Fatal(err)
	}
	defer opened.Close()
	return answerBy(opened, numbers, question)
}

// answerBy asks a guard, and returns `yes NUMBER` with the number of the entry, `no`, or the error. `numbers` has the numbers of the guard's entries,
// in their order.
func answerBy(opened *guard.Guard, numbers []int, question guard.Question) string {
	decision, err := opened.Decide(question, verify.Signature)
	if err != nil {
		return err.Error()
	}
	if decision.Granted() {
		return fmt.Sprint("yes ", numbers[decision.Entry()-1])
	}
	return "no"
}

// answerOfStore returns the answer by the list that the store returns for a question: answerBy says what that is. If the store returns none, it is the
// library's refusal of the question, or `failed` with any other error behind it. If the list was closed meanwhile, it asks again. One that isPassing
// is left to Go's collector.
func (r *changingStore) answerOfStore(question guard.Question) string {
	for {
		list, err := r.store.list(&question)
		if errors.Is(err, guard.ErrRefused) {
			return err.Error()
		}
		if err != nil {
			return failed + err.Error()
		}
		answer := answerBy(list.guard, list.numbers, question)
		if answer != guard.ErrClosed.Error() {
			return answer
		}
	}
}

// TestQuestionsToStore asks a store while another client changes it. Each answer must be that of the guard of the whole list, in a state between
// the one that was polled last and the present one. `counts` counts the answers by their first two letters: yes, no, refused. Each must come often
// enough, and so must answers by entries that were kept (`hits`).
func TestQuestionsToStore(t *testing.T) {
	r := newChangingStore(t, time.Minute)
	// (so that the first questions find entries)
	for count := 0; count < 60; count++ {
		r.change()
	}
	if err := r.store.pollOnce(); err != nil {
		t.Fatal(err)
	}
	random := rand.New(rand.NewSource(r.random.Int63()))
	end, ended := make(chan struct{}), make(chan struct{})
	go func() {
		defer close(ended)
		for {
			select {
			case <-end:
				return
			default:
				r.change()
			}
		}
	}()
	questions, _ := strconv.Atoi(os.Getenv(envQuestions))
	counts := map[string]int{}
	for count := 0; count < questions && !t.Failed(); count++ {
		// (now and then, so that kept entries are used between two polls)
		if count%20 == 0 {
			if err := r.store.pollOnce(); err != nil {
				t.Error(err)
			}
		}
		question := r.randomQuestion(random)
		first := r.store.lastPolled().changes
		answer := r.answerOfStore(question)
		counts[answer[:2]]++
		if !r.wasRightSince(first, question, answer) {
			t.Errorf("seed %s, question %d: %s: %s", os.Getenv(envSeed), count, answer, hex.EncodeToString(question.Sequence))
		}
	}
	close(end)
	<-ended
	if counts["ye"] < questions/20 || counts["no"] < questions/20 || counts["re"] < questions/200 || r.store.count.hits < uint64(questions)/20 {
		t.Errorf("%v, %d kept", counts, r.store.count.hits)
	}
	t.Logf("%v, %d changes, %d kept of %d", counts, len(r.history), r.store.count.hits, r.store.count.hits+r.store.count.misses)
}

// wasRightSince says whether an answer is that of the list after a change with this number or a later one, also if that is just being made.
func (r *changingStore) wasRightSince(first int64, question guard.Question, answer string) bool {
	for at := first; ; at++ {
		entries := r.entriesAfter(at)
		if entries == nil {
			// (the change that was made while the question was asked is noted in a moment)
			return r.isRightSoon(at, question, answer)
		}
		if r.answerOfWholeList(entries, question) == answer {
			return true
		}
	}
}

// isRightSoon waits until the change with a number is noted, and says whether an answer is that of the list then. It is false if that takes over a minute.
func (r *changingStore) isRightSoon(at int64, question guard.Question, answer string) bool {
	for end := time.Now().Add(time.Minute); time.Now().Before(end); time.Sleep(time.Millisecond) {
		if entries := r.entriesAfter(at); entries != nil {
			return r.answerOfWholeList(entries, question) == answer
		}
	}
	return false
}

// entriesAfter returns the entries after the change with a number, by their numbers, or nil if that change is not noted yet.
func (r *changingStore) entriesAfter(change int64) map[int]string {
	r.mutex.Lock()
	defer r.mutex.Unlock()
	if change >= int64(len(r.history)) {
		return nil
	}
	return r.history[change]
}
