package main

// How many calls of the library may last at the same time.

import (
	"errors"
	"runtime"
	"time"
)

// A gate lets as many goroutines through at once as it has room for, and has the others wait for a while.
type gate chan struct{}

// library is the gate before those calls of the library that may take long. Each such call has a thread of the system. While calls last, Go begins
// one more thread for each further request, and ends the program where it gets none: the unit of systemd lets the daemon have TasksMax. More calls
// than processors make no answer faster, but a short question must not wait for all long ones: so roomFor lets more through. A goroutine that has
// passed must not enter again before it leaves.
var library = make(gate, roomFor(runtime.GOMAXPROCS(0)))

// The most calls that last at once, and the most processors that Go uses. The daemon has a thread for each of both, and a few more: without these
// bounds a machine with some 150 processors would need more than TasksMax, which is 512.
const (
	mostCalls      = 128
	mostProcessors = 128
)

// roomFor returns how many calls may last at once on so many processors: twice as many and 56 more, but at most mostCalls. On four it is 64.
func roomFor(processors int) int {
	if room := 2*processors + 56; room < mostCalls {
		return room
	}
	return mostCalls
}

// boundProcessors has Go use at most mostProcessors. The start of the daemon calls it.
func boundProcessors() {
	if runtime.GOMAXPROCS(0) > mostProcessors {
		runtime.GOMAXPROCS(mostProcessors)
	}
}

// How long a goroutine waits at a gate. Past that its request is answered by `failed`.
const timeAtGate = time.Second

var errBusy = errors.New("too many requests are decided at once")

// enter waits until the gate lets one more goroutine through, which calls leave afterwards. If that takes longer than timeAtGate, it fails with errBusy.
func (g gate) enter() error {
	select {
	case g <- struct{}{}:
		return nil
	default:
	}
	patience := time.NewTimer(timeAtGate)
	defer patience.Stop()
	select {
	case g <- struct{}{}:
		return nil
	case <-patience.C:
		return errBusy
	}
}

// leave lets another goroutine through. A goroutine calls it once for each `enter` that did not fail.
func (g gate) leave() { <-g }
