//go:build spki_postgres

package main

// Measurements of decisions by a store in PostgreSQL. bench/store.py fills the store, runs these, and reads their figures: each is a line on standard
// output. BenchmarkStored alone needs no PostgreSQL.

import (
	"errors"
	"fmt"
	"math/rand"
	"net/http"
	"net/http/httptest"
	"os"
	"runtime"
	"sort"
	"strconv"
	"sync"
	"testing"
	"time"

	"conguraki/spki"
	"conguraki/spki/guard"
)

// bench/store.py sets these: how many keys have an entry, and what is measured.
const (
	envKeys = "SPKI_STORE_KEYS"
	envWhat = "SPKI_STORE_WHAT"
)

// figures has what is measured: a store, and for how many keys it has entries, numbered from 0.
type figures struct {
	*testing.T
	store *store
	keys  int
}

// TestStoreFigures prints what decisions by a store take, by the one of three measurements that the environment names.
func TestStoreFigures(t *testing.T) {
	keys, _ := strconv.Atoi(os.Getenv(envKeys))
	if keys == 0 {
		t.Skip("bench/store.py names a store")
	}
	for _, measurement := range []struct {
		name string
		run  func(f *figures)
	}{{"cold", (*figures).measureCold}, {"single", (*figures).measureSingle}, {"load", (*figures).measureLoad}} {
		if measurement.name == os.Getenv(envWhat) {
			measurement.run(newFigures(t, keys))
		}
	}
}

// newFigures opens the store that the environment names, which has entries for so many keys, and polls it once. It is stale only after decades, so it need
// not be polled again.
func newFigures(t *testing.T, keys int) *figures {
	const decades = 1 << 30
	options := &storeSettings{Host: os.Getenv(envHost), Database: "postgres", User: "postgres", Schema: os.Getenv(envSchema), StaleSeconds: decades}
	if err := options.check(); err != nil {
		t.Fatal(err)
	}
	reader, err := openReader(options, time.Minute)
	if err != nil {
		t.Fatal(err)
	}
	open := func(entries []byte) (*guard.Guard, error) {
		return guard.Open([]byte("(3:acl"+string(entries)+")"), guard.Strict, guard.Limits{})
	}
	opened, err := newStore(options, reader, open, time.Now)
	if err != nil {
		t.Fatal(err)
	}
	if err := opened.pollOnce(); err != nil {
		t.Fatal(err)
	}
	return &figures{t, opened, keys}
}

// key returns the key with a number, in canonical form, for which bench/store.py has put an entry into the store.
func key(number int) []byte {
	// (`k` and 39 digits are 40 octets)
	return []byte(fmt.Sprintf("(10:public-key(4:test40:k%039d))", number))
}

// timeOf decides for the key with a number, and returns the time that this took. If the key is denied, or the decision fails, the test fails, and
// goes on: other goroutines than that of the test call this too.
func (f *figures) timeOf(number int) time.Duration {
	question := guard.Question{Sequence: noCertificates, Key: spki.AssumeKey(key(number)), Words: []string{"files", "read", "/web/x"}, Time: time.Now()}
	begun := time.Now()
	decision, err := f.decide(question)
	took := time.Since(begun)
	if err != nil || !decision.Granted() {
		f.Error(number, decision, err)
	}
	return took
}

// decide asks the store as the daemon does: a list that another goroutine has dropped meanwhile is asked for again. One that isPassing is left to
// Go's collector. The question shows no certificates, so no signature is verified. It fails as store.list and the guard do.
func (f *figures) decide(question guard.Question) (guard.Decision, error) {
	for {
		list, err := f.store.list(&question)
		if err != nil {
			return guard.Decision{}, err
		}
		decision, err := list.guard.Decide(question, nil)
		if !errors.Is(err, guard.ErrClosed) {
			return decision, err
		}
	}
}

// printFigure sorts times, and prints their median and their 99th percentile, in microseconds. bench/store.py reads these lines.
func printFigure(name string, times []time.Duration) {
	sort.Slice(times, func(one, other int) bool { return times[one] < times[other] })
	fmt.Printf("figure %s p50 %.1f p99 %.1f\n", name, float64(times[len(times)/2].Nanoseconds())/1e3, float64(times[len(times)*99/100].Nanoseconds())/1e3)
}

// measure decides `count` times for the keys whose numbers `number` returns, and prints the figure of this name.
func (f *figures) measure(name string, count int, number func() int) {
	times := make([]time.Duration, count)
	for place := range times {
		times[place] = f.timeOf(number())
	}
	printFigure(name, times)
}

// measureCold measures keys whose rows are in no memory, as far as bench/store.py can have it so.
func (f *figures) measureCold() {
	random := rand.New(rand.NewSource(1))
	// (The first call prepares the statement, which no figure should contain. No key has this digest.)
	_, _ = f.store.reader.rows(digestsOf([]byte("none")))
	f.measure("cold", 300, func() int { return random.Intn(f.keys) })
}

// measureSingle measures keys whose lists are not kept by the daemon (`miss`), and one whose list is (`hit`), one question at a time. These are at
// most 10,000 keys. Before that each of them is asked for twice, so that the database has its rows in memory.
func (f *figures) measureSingle() {
	random := rand.New(rand.NewSource(2))
	keys := min(f.keys, 10_000)
	notKept := func() int { f.store.kept.clear(); return random.Intn(keys) }
	for turn := 0; turn < 2*keys; turn++ {
		f.store.kept.clear()
		f.timeOf(turn % keys)
	}
	f.measure("miss", 10_000, notKept)
	// (any key: its list is kept from the first question on)
	const sameKey = 7
	f.timeOf(sameKey)
	f.measure("hit", 20_000, func() int { return sameKey })
}

// min returns the lesser number.
func min(one, other int) int {
	if one < other {
		return one
	}
	return other
}

// measureLoad has several goroutines ask at once, nine of ten times for a key whose list is kept. The store keeps only 1 MiB of lists, so those of
// other keys are seldom kept. It prints the questions a second, the part that was answered from kept lists, and the figure `load`, for
// bench/store.py.
func (f *figures) measureLoad() {
	// (how many questions each goroutine asks, and how many keys are asked for often)
	const each, hot = 20_000, 200
	f.store.kept.most = 1 << 20
	workers := 2 * runtime.NumCPU()
	for number := 0; number < hot; number++ {
		f.timeOf(number)
	}
	before, all, begun := f.store.count, make([][]time.Duration, workers), time.Now()
	var group sync.WaitGroup
	for worker := range all {
		group.Add(1)
		go func(worker int) {
			defer group.Done()
			random := rand.New(rand.NewSource(int64(worker)))
			for turn := 0; turn < each; turn++ {
				number := random.Intn(hot)
				if turn%10 == 0 {
					number = random.Intn(min(f.keys, 200_000))
				}
				all[worker] = append(all[worker], f.timeOf(number))
			}
		}(worker)
	}
	group.Wait()
	took, times := time.Since(begun), []time.Duration{}
	for _, ofWorker := range all {
		times = append(times, ofWorker...)
	}
	hits, misses := f.store.count.hits-before.hits, f.store.count.misses-before.misses
	fmt.Printf("figure rate second %.0f hits %.3f\n", float64(len(times))/took.Seconds(), float64(hits)/float64(hits+misses))
	printFigure("load", times)
}

// BenchmarkStored measures one decision: Carol shows two certificates, whose signatures the first turn verifies. The entries are in a store, which a
// table in memory stands for, and kept from that turn on. No line is logged.
func BenchmarkStored(b *testing.B) {
	s := newStored(b)
	s.logGrant = func([]byte) error { return nil }
	_, carols := s.sequencesShown()
	request := httptest.NewRequest(http.MethodGet, "/auth", nil)
	for name, value := range map[string]string{
		"X-Original-Method": "GET", "X-Original-Uri": "/web/docs/a/b", "X-Client-Cert": s.carol.escaped(), "Authorization": "SPKI " + carols,
	} {
		request.Header.Set(name, value)
	}
	for turn := 0; turn < b.N; turn++ {
		if result := s.answerTo(request); result.Status != http.StatusOK {
			b.Fatal(result.Status)
		}
	}
}
