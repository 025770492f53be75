// Tests of when guards and questions are closed and freed. guard_test.go says what `list`, questionWith(n) and acceptAll are: questionWith(1) is
// granted under `list` if its one signature, at the place 0, is valid.

package guard_test

import (
	"errors"
	"runtime"
	"sync"
	"testing"

	"conguraki/spki/guard"
)

// TestClose closes a guard before its question, and both twice. The question stays open after its guard. Once both are closed, Ask, Decide, Mark,
// Each and Verify are ErrClosed, Entries is 0, Possible is false, and Signatures is nil.
func TestClose(t *testing.T) {
	opened := openGuard(t, list)
	asked := askAndMark(t, opened, questionWith(1))
	for turn := 0; turn < 2; turn++ {
		opened.Close()
	}
	if err := asked.Mark(0); err != nil || !isGranted(t, asked) {
		t.Errorf("a question ends with its guard: %v", err)
	}
	for turn := 0; turn < 2; turn++ {
		asked.Close()
	}
	if _, err := opened.Ask(questionWith(1)); !errors.Is(err, guard.ErrClosed) || opened.Entries() != 0 {
		t.Error(err)
	}
	if decision, err := asked.Decide(); !errors.Is(err, guard.ErrClosed) || decision.Granted() || asked.Possible() {
		t.Errorf("%v, %v", decision, err)
	}
	if err := asked.Mark(0); !errors.Is(err, guard.ErrClosed) {
		t.Error(err)
	}
	expectUnlisted(t, asked)
}

// TestCloseOfNoSignatures closes a question that lists no signature. Before Close its list is empty, which is no error. After Close, Each and
// Verify are ErrClosed, although there is no signature to copy.
func TestCloseOfNoSignatures(t *testing.T) {
	asked := askAndMark(t, openGuard(t, list), questionWith(0))
	if listed := asked.Signatures(); listed == nil || len(listed) != 0 {
		t.Errorf("%v", listed)
	}
	if valid, err := asked.Verify(acceptAll); valid != 0 || err != nil {
		t.Errorf("%d valid, %v", valid, err)
	}
	asked.Close()
	expectUnlisted(t, asked)
}

// expectUnlisted calls what lists the signatures of a closed question. No call may list one, and Each and Verify must return ErrClosed.
func expectUnlisted(t *testing.T, asked *guard.Asked) {
	t.Helper()
	never := func(guard.Signature) bool { t.Error("a signature is passed on"); return true }
	if err := asked.Each(func(_ int, signed guard.Signature) bool { return never(signed) }); !errors.Is(err, guard.ErrClosed) {
		t.Error(err)
	}
	if valid, err := asked.Verify(never); valid != 0 || !errors.Is(err, guard.ErrClosed) {
		t.Errorf("%d valid, %v", valid, err)
	}
	if listed := asked.Signatures(); listed != nil {
		t.Error(listed)
	}
}

// TestCopies copies a guard and a question by value and drops the originals. The collector must free nothing while a copy is left: it runs twice
// in each of 20 turns, since the finalizer of what one run finds is called later. Closing one copy closes all of them, and it may be closed again.
func TestCopies(t *testing.T) {
	openCopies := func() (guard.Guard, guard.Asked) {
		opened, err := guard.Open([]byte(list), guard.Strict, guard.Limits{})
		if err != nil {
			t.Fatal(err)
		}
		asked, err := opened.Ask(questionWith(1))
		if err == nil {
			err = asked.Mark(0)
		}
		if err != nil {
			t.Fatal(err)
		}
		return *opened, *asked
	}
	for turn := 0; turn < 20; turn++ {
		opened, asked := openCopies()
		runtime.GC()
		runtime.GC()
		if decision, err := opened.Decide(questionWith(1), acceptAll); err != nil || !decision.Granted() {
			t.Fatal(decision, err)
		}
		if !isGranted(t, &asked) {
			t.Fatal("a mark is lost")
		}
		sameGuard, sameAsked := opened, asked
		sameGuard.Close()
		sameAsked.Close()
		if _, err := opened.Ask(questionWith(1)); !errors.Is(err, guard.ErrClosed) {
			t.Error(err)
		}
		if decision, err := asked.Decide(); !errors.Is(err, guard.ErrClosed) || decision.Granted() {
			t.Errorf("%v, %v", decision, err)
		}
		sameGuard.Close()
		sameAsked.Close()
	}
}

// TestZerosAreClosed calls methods of the zero Guard and the zero Asked. They behave as closed ones.
func TestZerosAreClosed(t *testing.T) {
	var opened guard.Guard
	var asked guard.Asked
	opened.Close()
	asked.Close()
	if decision, err := opened.Decide(questionWith(1), acceptAll); !errors.Is(err, guard.ErrClosed) || decision.Granted() || opened.Entries() != 0 {
		t.Errorf("%v, %v", decision, err)
	}
	if decision, err := asked.Decide(); !errors.Is(err, guard.ErrClosed) || decision.Granted() || asked.Count() != 0 {
		t.Errorf("%v, %v", decision, err)
	}
	expectUnlisted(t, &asked)
}

// TestGoroutines uses one guard and one question in eight goroutines. Four of them also ask the guard other questions by a verifier that accepts, and
// four by one that does not: each gets its own answer. All of them mark the signature of the one question, so it is granted.
func TestGoroutines(t *testing.T) {
	opened := openGuard(t, list)
	asked := askAndMark(t, opened, questionWith(1))
	var all sync.WaitGroup
	for routine := 0; routine < 8; routine++ {
		all.Add(1)
		go func(isValid bool) {
			defer all.Done()
			for turn := 0; turn < 200; turn++ {
				decision, err := opened.Decide(questionWith(1), func(guard.Signature) bool { return isValid })
				if err != nil || decision.Granted() != isValid {
					t.Errorf("%v, %v", decision, err)
				}
				if err := asked.Mark(0); err != nil {
					t.Error(err)
				}
				if decision, err := asked.Decide(); err != nil || !decision.Granted() || !asked.Possible() {
					t.Errorf("%v, %v", decision, err)
				}
			}
		}(routine%2 == 0)
	}
	all.Wait()
}

// TestCloseBesideQuestions closes a guard while four goroutines ask it. Each call is a yes, as before Close, or ErrClosed, which ends its goroutine.
func TestCloseBesideQuestions(t *testing.T) {
	for turn := 0; turn < 50; turn++ {
		opened := openGuard(t, list)
		var all sync.WaitGroup
		for routine := 0; routine < 4; routine++ {
			all.Add(1)
			go func() {
				defer all.Done()
				for {
					decision, err := opened.Decide(questionWith(1), acceptAll)
					if errors.Is(err, guard.ErrClosed) {
						return
					}
					if err != nil || !decision.Granted() {
						t.Errorf("%v, %v", decision, err)
						return
					}
				}
			}()
		}
		runtime.Gosched() // (so that some ask before Close)
		opened.Close()
		all.Wait()
	}
}

// TestNobodyCloses leaves guards and questions to Go's collector, which is run at every 20th turn. What is still used is not freed.
func TestNobodyCloses(t *testing.T) {
	for turn := 0; turn < 200; turn++ {
		opened, err := guard.Open([]byte(list), guard.Strict, guard.Limits{})
		if err != nil {
			t.Fatal(err)
		}
		asked, err := opened.Ask(questionWith(1))
		if err != nil {
			t.Fatal(err)
		}
		if turn%20 == 0 {
			runtime.GC()
		}
		if err := asked.Mark(0); err != nil || !isGranted(t, asked) {
			t.Fatal(err)
		}
	}
}
