package main

// Tests of the gate before the library, which lets only so many calls of it last at the same time. Status 200 grants, 201 keeps what a client leaves,
// and 503 is a failure of the daemon.

import (
	"errors"
	"os"
	"regexp"
	"runtime"
	"strconv"
	"sync"
	"sync/atomic"
	"testing"
	"time"

	"conguraki/spki"
	"conguraki/spki/guard"
)

// TestThreadsAreBounded compares the room of the gate on small and large machines. By the processors that Go uses on the largest one, the threads are
// at most half of what the unit of systemd allows: Go and the reading of files need some more.
func TestThreadsAreBounded(t *testing.T) {
	for processors, wanted := range map[int]int{1: 58, 4: 64, 36: 128, 384: 128} {
		if room := roomFor(processors); room != wanted {
			t.Errorf("%d processors: %d", processors, room)
		}
	}
	defer runtime.GOMAXPROCS(runtime.GOMAXPROCS(384))
	boundProcessors()
	unit, err := os.ReadFile("spki-authd.service")
	if err != nil {
		t.Fatal(err)
	}
	most, _ := strconv.Atoi(string(regexp.MustCompile(`\nTasksMax=(\d+)\n`).FindSubmatch(unit)[1]))
	if threads := runtime.GOMAXPROCS(0) + roomFor(384); threads > most/2 {
		t.Errorf("%d threads of %d", threads, most)
	}
}

// TestGateOfLibrary sends four requests at once, through a gate that lets two pass. The verifier counts how many are in it: never more than two. If it
// panics, the request leaves the gate too, and gets 503. If it takes longer than timeAtGate, the other two requests get 503.
func TestGateOfLibrary(t *testing.T) {
	s := newSite(t, `, "cache": 0`)
	bobs, _ := s.sequencesShown()
	usual := library
	library = make(gate, 2)
	defer func() { library = usual }()
	var mutex sync.Mutex
	var panics atomic.Bool
	// (how many are in the verifier, the most that were, and how long each stays there)
	inside, most, takes := 0, 0, 10*time.Millisecond
	s.verify = func(guard.Signature) bool {
		if panics.Load() {
			panic("no verifier")
		}
		mutex.Lock()
		inside++
		if inside > most {
			most = inside
		}
		mutex.Unlock()
		time.Sleep(takes)
		mutex.Lock()
		inside--
		mutex.Unlock()
		return true
	}
	// (asks four times at once, and returns how often each status was the answer)
	askFour := func() map[int]int {
		statuses, count := make(chan int), map[int]int{}
		for routine := 0; routine < 4; routine++ {
			go func() { statuses <- s.askAs(s.bob, "GET", "/web/docs/b", bobs).StatusCode }()
		}
		for routine := 0; routine < 4; routine++ {
			count[<-statuses]++
		}
		return count
	}
	if count := askFour(); count[200] != 4 {
		t.Error(count)
	}
	panics.Store(true)
	if count := askFour(); count[503] != 4 {
		t.Error(count)
	}
	panics.Store(false)
	takes = 2 * timeAtGate
	if count := askFour(); count[200] != 2 || count[503] != 2 {
		t.Error(count)
	}
	if most != 2 || len(library) != 0 {
		t.Errorf("%d at once, %d have not left", most, len(library))
	}
}

// TestCallsPassTheGate has Bob leave his certificate while the gate lets nobody through, which fails, and then while it lets one pass. Meanwhile each
// call of the library that this needs fails too, and a sequence that was shown once is not put into canonical form.
func TestCallsPassTheGate(t *testing.T) {
	s := newSiteWithChains(t)
	bobs, _ := s.sequencesShown()
	if status := s.statusFor(s.bob, "/web/docs/b", bobs); status != 200 {
		t.Fatal(status)
	}
	usual := library
	library = make(gate, 1)
	defer func() { library = usual }()
	if err := library.enter(); err != nil {
		t.Fatal(err)
	}
	key := spki.AssumeKey([]byte(s.bob.key))
	var all sync.WaitGroup
	for name, isBusy := range map[string]func() bool{
		"the signatures": func() bool { _, err := s.config.signaturesOf(bobs, key, s.now()); return errors.Is(err, errBusy) },
		"the subject": func() bool {
			_, err := s.config.namesKey([]byte(s.bob.key), key, s.now())
			return errors.Is(err, errBusy)
		},
		"the issuer":  func() bool { _, err := s.isNamed(bobs); return errors.Is(err, errBusy) },
		"the body":    func() bool { _, err := sequenceInBody([]byte(bobs)); return errors.Is(err, errBusy) },
		"the form":    func() bool { _, text := s.sequences.get(bobs).canonical(); return string(text) == bobs },
		"all of them": func() bool { status, reply := s.leaveAs(t, s.bob, bobs); return status == 503 && reply == answerFailed },
	} {
		name, isBusy := name, isBusy
		all.Add(1)
		go func() {
			defer all.Done()
			if !isBusy() {
				t.Errorf("%s: it passes", name)
			}
		}()
	}
	all.Wait()
	library.leave()
	if status, reply := s.leaveAs(t, s.bob, bobs); status != 201 || reply != answerKept || len(library) != 0 {
		t.Errorf("%d %s, %d have not left", status, reply, len(library))
	}
}
