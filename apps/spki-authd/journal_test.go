package main

// A log in memory, which tests give the daemon in place of its files, and read.

import (
	"bytes"
	"errors"
	"io"
	"sync"
)

// A journal has, in memory, all lines that a decider writes in a test: grants and others.
type journal struct {
	mutex sync.Mutex
	text  bytes.Buffer
	// The error of each later grant, or nil.
	fault error
}

// errFull is the error of a full disk.
var errFull = errors.New("no space left")

// grant adds the line of a grant. If `fault` is set, it fails with that, and adds nothing.
func (j *journal) grant(line []byte) error {
	j.mutex.Lock()
	defer j.mutex.Unlock()
	if j.fault == nil {
		j.text.Write(line)
	}
	return j.fault
}

// other adds the line of an answer that is no grant. It never fails.
func (j *journal) other(line []byte) {
	j.mutex.Lock()
	defer j.mutex.Unlock()
	j.text.Write(line)
}

// String returns all lines.
func (j *journal) String() string {
	j.mutex.Lock()
	defer j.mutex.Unlock()
	return j.text.String()
}

// Reset removes all lines.
func (j *journal) Reset() {
	j.mutex.Lock()
	defer j.mutex.Unlock()
	j.text.Reset()
}

// fail sets the error of each later grant, or nil.
func (j *journal) fail(fault error) {
	j.mutex.Lock()
	defer j.mutex.Unlock()
	j.fault = fault
}

// writer returns an io.Writer that adds what is written to the journal. A daemon writes its events to it.
func (j *journal) writer() io.Writer {
	return toJournal{j}
}

// A toJournal is the io.Writer of a journal.
type toJournal struct{ *journal }

// Write adds octets to the journal, and never fails.
func (w toJournal) Write(octets []byte) (int, error) {
	w.other(octets)
	return len(octets), nil
}
