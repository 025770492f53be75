package main

// A writer: it writes lines to a sink, such as a file, by one goroutine, so that a disk that hangs blocks no answer. Lines that come while it writes
// wait in batches.

import (
	"errors"
	"runtime"
	"sync"
	"sync/atomic"
	"time"
)

// A sink is what a writer writes to. write takes one or more lines, each with its line feed. After an error none of them counts as written.
type sink interface {
	write(lines []byte) error
}

// A writer passes lines to a sink by one goroutine, those of a batch at once. Its callers wait until their line is written or fails, but no longer than
// `patience`: so a disk or a reader of the lines that hangs blocks no answer.
type writer struct {
	to       sink
	patience time.Duration
	commands chan func()
	// Has an element if lines wait and the goroutine has not looked since.
	wakes chan struct{}
	// What the goroutine calls each second, or nil.
	eachSecond func()
	// Whether lines were late since the last successful write, and whether the last write failed.
	isStuck, isFailing atomic.Bool
	// The lines that were written; those that were not, and of write also those that were written too late; and those that were dropped because too many
	// waited.
	written, failed, dropped atomic.Uint64
	// Guards what follows.
	mutex sync.Mutex
	// The batches that wait, in their order, the number of lines in them, and the batch that is being written, or nil.
	waiting []*batch
	queued  int
	present *batch
	// Buffers for lines that are used again.
	rooms [][]byte
	// The timer that calls endLate, and whether it is set.
	watchdog  *time.Timer
	isWatched bool
}

// A batch has lines that are written at once. Then all callers that wait for one of them go on.
type batch struct {
	lines []byte
	count int
	// Whether its lines are still to be written when their callers have stopped waiting: those of offer are, and those of write are not.
	isKept bool
	// When its first line came, and whether no further line may be added.
	begun  time.Time
	isFull bool
	// Closed when the callers go on, after err and isDone are set.
	done   chan struct{}
	isDone bool
	err    error
}

// The number of waiting lines from which on offer drops its line, and the octets from which on a batch takes no further line.
const (
	mostQueued = 1024
	mostAtOnce = 1 << 18
)

// The octets of a new buffer for a batch, and how many unused buffers are kept: one for the batch that is written, and one for that which waits meanwhile.
const (
	roomForLines = 8 * roomForLine
	mostRooms    = 2
)

// How often, in the time of `patience`, the batches are looked through for those that are late. To set a timer for each line would take a microsecond.
const looksInPatience = 20

var errHangs = errors.New("the log takes no line in time")

// newWriter returns a writer to a sink, whose goroutine it starts. Callers wait for a line no longer than `patience`. The goroutine calls eachSecond each
// second, unless that is nil.
func newWriter(to sink, patience time.Duration, eachSecond func()) *writer {
	started := &writer{to: to, patience: patience, commands: make(chan func()), wakes: make(chan struct{}, 1), eachSecond: eachSecond}
	started.watchdog = time.AfterFunc(patience, started.endLate)
	started.watchdog.Stop()
	go started.run()
	return started
}

// write writes a line, which ends with a line feed, and returns when it is written. If it fails with errHangs, the line may still be written later. After
// another error, which is that of the sink, it does not count as written. The caller may use the line's octets again in each case.
func (w *writer) write(line []byte) error {
	const isKept = false
	w.mutex.Lock()
	batch := w.add(line, isKept)
	w.mutex.Unlock()
	<-batch.done
	return batch.err
}

// offer writes a line, which ends with a line feed, and waits until it is written, fails or is late. If lines were late since the last successful write, it
// does not wait. If mostQueued lines wait, the line is dropped and counted. The caller may use the line's octets again in each case.
func (w *writer) offer(line []byte) {
	w.mutex.Lock()
	if w.queued >= mostQueued {
		w.mutex.Unlock()
		w.dropped.Add(1)
		return
	}
	const isKept = true
	batch := w.add(line, isKept)
	w.mutex.Unlock()
	if !w.isStuck.Load() {
		<-batch.done
	}
}

// lost returns how many lines of offer were dropped or could not be written.
func (w *writer) lost() uint64 {
	return w.failed.Load() + w.dropped.Load()
}

// add adds a line to the last batch that waits, or to a new one, and returns that batch. isKept says whether the line is still to be written when its
// caller has stopped waiting: a batch has only lines with the same isKept. The mutex is held.
func (w *writer) add(line []byte, isKept bool) *batch {
	last := len(w.waiting) - 1
	if last < 0 || w.waiting[last].isFull || w.waiting[last].isKept != isKept {
		w.waiting = append(w.waiting, &batch{lines: w.emptyBuffer(), isKept: isKept, begun: time.Now(), done: make(chan struct{})})
		last++
		w.watch()
		w.wake()
	}
	present := w.waiting[last]
	present.lines = append(present.lines, line...)
	present.count++
	present.isFull = len(present.lines) >= mostAtOnce
	w.queued++
	return present
}

// emptyBuffer returns an empty buffer for lines: a new one, or one that was used before. The mutex is held.
func (w *writer) emptyBuffer() []byte {
	last := len(w.rooms) - 1
	if last < 0 {
		return make([]byte, 0, roomForLines)
	}
	room := w.rooms[last]
	w.rooms = w.rooms[:last]
	return room
}

// wake has the writer's goroutine look for lines that wait. If that was asked already and has not been done, it does nothing.
func (w *writer) wake() {
	select {
	case w.wakes <- struct{}{}:
	default:
	}
}

// watch has endLate called after a part of the patience, if that is not planned yet. The mutex is held.
func (w *writer) watch() {
	if !w.isWatched {
		w.isWatched = true
		w.watchdog.Reset(w.patience / looksInPatience)
	}
}

// endLate ends the waiting of callers whose lines are late, and drops late batches that are not kept, which are those of write. From now on a waiting
// batch of write takes no further line. So no line is dropped with an old batch, and each has at least nine tenths of the patience. A line of offer may
// join an old batch, which is still written. The timer calls it.
func (w *writer) endLate() {
	w.mutex.Lock()
	defer w.mutex.Unlock()
	// (a batch that was begun before this moment will be late before the next look)
	late := time.Now().Add(w.patience/looksInPatience - w.patience)
	if w.present != nil && w.present.begun.Before(late) {
		w.giveUp(w.present)
	}
	remaining := w.waiting[:0]
	for _, batch := range w.waiting {
		batch.isFull = batch.isFull || !batch.isKept
		// (giveUp says whether a late batch is still to be written)
		if batch.begun.After(late) || w.giveUp(batch) {
			remaining = append(remaining, batch)
			continue
		}
		w.queued -= batch.count
	}
	w.waiting = remaining
	w.isWatched = false
	if w.present != nil || len(remaining) > 0 {
		w.watch()
	}
}

// giveUp ends the waiting for a late batch, with errHangs, and says whether the batch is still to be written. The first time, the lines of one that is not
// kept count as failed. The mutex is held.
func (w *writer) giveUp(late *batch) (isKept bool) {
	w.isStuck.Store(true)
	if !late.isKept && !late.isDone {
		w.failed.Add(uint64(late.count))
	}
	late.end(errHangs)
	return late.isKept
}

// end has the callers that wait for a batch go on, with an error, or nil if the lines are written. It does nothing the second time. The writer's mutex is
// held.
func (b *batch) end(err error) {
	if !b.isDone {
		b.isDone, b.err = true, err
		close(b.done)
	}
}

// callBetweenWrites has the writer's goroutine call a function between two writes, and says whether that returned within the patience. If not, the
// function was not and will not be called, or it is still running.
func (w *writer) callBetweenWrites(command func()) bool {
	patience := time.NewTimer(w.patience)
	defer patience.Stop()
	done := make(chan struct{})
	select {
	case w.commands <- func() { command(); close(done) }:
	case <-patience.C:
		return false
	}
	select {
	case <-done:
		return true
	case <-patience.C:
		return false
	}
}

// flush writes the lines that wait, and returns when that is done, or after the patience.
func (w *writer) flush() {
	w.callBetweenWrites(func() {
		for w.writeNext() {
		}
	})
}

// run is the writer's goroutine: it writes the lines that wait, and calls eachSecond and the functions of callBetweenWrites. It never ends.
func (w *writer) run() {
	var beats <-chan time.Time
	if w.eachSecond != nil {
		beats = time.NewTicker(time.Second).C
	}
	for {
		select {
		case <-w.wakes:
			// (goroutines that are about to add a line do that first: so under load one write has several lines)
			runtime.Gosched()
			w.writeNext()
		case command := <-w.commands:
			command()
		case <-beats:
			w.eachSecond()
		}
	}
}

// writeNext writes the batch that has waited longest, counts its lines, and has their callers go on. It says whether there was a batch.
func (w *writer) writeNext() bool {
	next := w.next()
	if next == nil {
		return false
	}
	err := w.to.write(next.lines)
	w.mutex.Lock()
	defer w.mutex.Unlock()
	w.isFailing.Store(err != nil)
	if err == nil {
		w.isStuck.Store(false)
		w.written.Add(uint64(next.count))
	} else if next.isKept || !next.isDone {
		// (giveUp has counted those of any other batch)
		w.failed.Add(uint64(next.count))
	}
	next.end(err)
	w.present = nil
	if len(w.rooms) < mostRooms {
		w.rooms = append(w.rooms, next.lines[:0])
	}
	if len(w.waiting) > 0 {
		w.wake()
	}
	return true
}

// next takes the batch that has waited longest out of w.waiting, and returns it, as w.present until it is written. If none waits, it returns nil.
func (w *writer) next() *batch {
	w.mutex.Lock()
	defer w.mutex.Unlock()
	if len(w.waiting) == 0 {
		return nil
	}
	w.present = w.waiting[0]
	w.waiting = append(w.waiting[:0], w.waiting[1:]...)
	w.queued -= w.present.count
	return w.present
}
