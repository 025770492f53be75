package main

// Whether the time of day goes back, by what the daemon notes of it after answers, each second and for -health.

import (
	"sync/atomic"
	"time"
)

// A clock notes whether the time of day goes back: then certificates whose window was over count again.
type clock struct {
	// By how many nanoseconds the time of day was ahead when it was noted last: more than 0 if it was put forward since origin or the machine slept,
	// and less if it was put back. And how often it went back.
	ahead, timesBack atomic.Int64
}

// origin is a moment before the daemon notes any. A clock that nobody sets tells the time since then, and so what the time of day should be.
var origin = time.Now()

// The least step back that counts: a second, less a little, since the two clocks are not read at once. Smaller ones do not count, however many there
// are.
const backAtLeast = 900 * time.Millisecond

// note notes a moment of time.Now, which has both clocks, and returns what noteAhead does.
func (c *clock) note(now time.Time) bool {
	// (Round(0) drops the clock that nobody sets)
	return c.noteAhead(now.Round(0).Sub(origin.Round(0)) - now.Sub(origin))
}

// noteAhead notes by how much the time of day is ahead. If that is less than it was, by backAtLeast or more, it counts once more in timesBack, and
// returns true.
func (c *clock) noteAhead(ahead time.Duration) bool {
	if time.Duration(c.ahead.Swap(int64(ahead)))-ahead < backAtLeast {
		return false
	}
	c.timesBack.Add(1)
	return true
}
