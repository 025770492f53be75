package main

// What the daemon counts for its metrics. A record is one answer, and a rule says which request it is about: its number is its place in the configuration.

import (
	"sync/atomic"
	"time"
)

// counts has, since the start of the daemon, how often each answer was given and how long that took, and how many signatures were verified or not.
type counts struct {
	// The number of answers: first by the number of the rule, from 1, or 0 for no rule, and then by the answer's place in `answers`.
	decisions [][]atomic.Uint64
	seconds   histogram
	// The signatures that were known to be valid; those that were verified, with either result, which countValid and checkCertificates count; and
	// those that were not verified since they would change nothing.
	known, verified, spared atomic.Uint64
}

// answers are all answers, in the order in which they are counted.
var answers = []answer{
	answerYes, answerNo, answerRefused, answerUnauthenticated, answerLimited, answerFailed, answerKept, answerKnown, answerFull,
}

// A histogram has how many requests took how long, and how long all took together. Each request is in one bucket, which are as many as the bounds and one
// more: the first whose bound the request did not exceed, or the last one, which has no bound.
type histogram struct {
	buckets     [len(bounds) + 1]atomic.Uint64
	nanoseconds atomic.Int64
}

// bounds are the most that a request in a bucket of a histogram took, in the order of the buckets.
var bounds = [...]time.Duration{
	100 * time.Microsecond, 250 * time.Microsecond, 500 * time.Microsecond, time.Millisecond, 2500 * time.Microsecond, 5 * time.Millisecond,
	10 * time.Millisecond, 50 * time.Millisecond, 250 * time.Millisecond, time.Second, 5 * time.Second,
}

// newCounts returns counts that are all zero, for a configuration with so many rules.
func newCounts(rules int) *counts {
	zero := &counts{decisions: make([][]atomic.Uint64, rules+1)}
	for rule := range zero.decisions {
		zero.decisions[rule] = make([]atomic.Uint64, len(answers))
	}
	return zero
}

// note counts one answer, by the record of it, the time that it took, and the signatures that were known to be valid, and that were not verified.
func (c *counts) note(record *record, took time.Duration) {
	for place, answer := range answers {
		if answer == record.Answer {
			c.decisions[record.rule][place].Add(1)
		}
	}
	if record.Cached > 0 {
		c.known.Add(uint64(record.Cached))
	}
	if record.Unverified > 0 {
		c.spared.Add(uint64(record.Unverified))
	}
	c.seconds.note(took)
}

// note counts the time of one request in its bucket.
func (h *histogram) note(took time.Duration) {
	place := 0
	for place < len(bounds) && took > bounds[place] {
		place++
	}
	h.buckets[place].Add(1)
	h.nanoseconds.Add(int64(took))
}
