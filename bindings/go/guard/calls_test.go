// Tests of many calls at once. guard_test.go says what `list`, questionWith(n) and acceptAll are.

package guard_test

import (
	"runtime"
	"sync"
	"testing"

	"conguraki/spki/guard"
)

// manyCalls is more than the calls of the library that may last at once.
var manyCalls = 3*runtime.GOMAXPROCS(0) + 100

// TestVerifiersThatAsk has more goroutines than calls may last at once, all in their verifiers at the same time. There each asks the guard once more,
// and every second one panics. So no verifier has a place that calls wait for, and the second turn passes as the first.
func TestVerifiersThatAsk(t *testing.T) {
	opened := openGuard(t, list)
	ask := func(verify guard.Verify) {
		if decision, err := opened.Decide(questionWith(1), verify); err != nil || !decision.Granted() {
			t.Errorf("%v, %v", decision, err)
		}
	}
	for turn := 0; turn < 2; turn++ {
		var inside, all sync.WaitGroup
		inside.Add(manyCalls)
		all.Add(manyCalls)
		for routine := 0; routine < manyCalls; routine++ {
			go func(panics bool) {
				defer all.Done()
				defer func() {
					if (recover() != nil) != panics {
						t.Error("a verifier panics, and its caller does not")
					}
				}()
				ask(func(guard.Signature) bool {
					inside.Done()
					inside.Wait()
					ask(acceptAll)
					if panics {
						panic("no verifier")
					}
					return true
				})
			}(routine%2 == 0)
		}
		all.Wait()
	}
}
