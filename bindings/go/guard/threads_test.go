//go:build !race

// A test with more goroutines than the race detector can tell apart, which are 8,128. guard_test.go says what `list`, questionWith(n) and acceptAll
// are.

package guard_test

import (
	"os"
	"regexp"
	"runtime"
	"strconv"
	"strings"
	"sync"
	"testing"
)

// TestManyGoroutines has 20,000 goroutines ask at once. The first 100 want to know why each of 10,000 entries grants, which takes milliseconds. The
// others decide. Go keeps each thread that it began, so at the end the process has as many as it ever had: on four processors at most 64 for calls,
// and some ten beside them. Without a bound it has one for each call that lasts, and Go ends a process with 10,000.
func TestManyGoroutines(t *testing.T) {
	opened, long := openGuard(t, list), openGuard(t, "(acl "+strings.Repeat("(entry (public-key (test a)) (propagate) (tag (*)))", 10_000)+")")
	start := make(chan struct{})
	var all sync.WaitGroup
	all.Add(20_000)
	for routine := 0; routine < 20_000; routine++ {
		go func(explains bool) {
			defer all.Done()
			<-start
			if explains {
				if explanation, err := long.Explain(questionWith(1), acceptAll); err != nil || !strings.HasSuffix(explanation.String(), "entry 10000 grants") {
					t.Error(err)
				}
			} else if decision, err := opened.Decide(questionWith(1), acceptAll); err != nil || !decision.Granted() {
				t.Errorf("%v, %v", decision, err)
			}
		}(routine < 100)
	}
	close(start)
	all.Wait()
	status, err := os.ReadFile("/proc/self/status")
	found := regexp.MustCompile(`\nThreads:\t(\d+)\n`).FindSubmatch(status)
	if err != nil || found == nil {
		t.Fatal(err)
	}
	if threads, err := strconv.Atoi(string(found[1])); err != nil || threads > 3*runtime.GOMAXPROCS(0)+72 {
		t.Errorf("%d threads", threads)
	}
}
