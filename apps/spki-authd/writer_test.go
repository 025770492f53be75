package main

// Tests of the writer, which passes lines to a sink, such as a file or a stream, by one goroutine. Its `write` fails if its line is not written in
// time. Its `offer` never fails: such a line may be dropped.

import (
	"bytes"
	"errors"
	"fmt"
	"io"
	"os"
	"strings"
	"sync"
	"testing"
	"time"
)

// A hangingSink takes no lines until `released` is closed. `text` has what it took.
type hangingSink struct {
	released chan struct{}
	text     bytes.Buffer
}

// write waits until `released` is closed, and then takes the lines.
func (h *hangingSink) write(lines []byte) error {
	<-h.released
	_, err := h.text.Write(lines)
	return err
}

// TestSinkThatHangs writes lines to a sink that takes none: no call waits for ever, write fails, and lines beyond mostQueued are dropped.
func TestSinkThatHangs(t *testing.T) {
	sink := &hangingSink{released: make(chan struct{})}
	writer := newWriter(sink, 20*time.Millisecond, nil)
	// (the sink has the first line, and takes it later. The second one waits behind it, and is never written)
	if err := writer.write([]byte("first\n")); !errors.Is(err, errHangs) {
		t.Error(err)
	}
	if err := writer.write([]byte("given up\n")); !errors.Is(err, errHangs) {
		t.Error(err)
	}
	const tooMany = 100
	for line := 0; line < mostQueued+tooMany; line++ {
		writer.offer([]byte("line\n"))
	}
	// (one more or less, if the writer takes a line meanwhile)
	if dropped := writer.dropped.Load(); dropped < tooMany-1 || dropped > tooMany+1 {
		t.Errorf("%d are dropped", dropped)
	}
	close(sink.released)
	err := writer.write([]byte("last\n"))
	// (the queue was full, and on a busy machine what is before it takes its time)
	for turn := 0; err != nil && turn < 1000; turn++ {
		err = writer.write([]byte("last\n"))
	}
	if err != nil {
		t.Fatal(err)
	}
	text := sink.text.String()
	if strings.Contains(text, "given up") || !strings.HasPrefix(text, "first\n") || !strings.HasSuffix(text, "last\n") || writer.isStuck.Load() {
		t.Errorf("%.200q", text)
	}
}

// TestManyLines writes lines by several goroutines at once. Each is there once, and whole.
func TestManyLines(t *testing.T) {
	const routines, linesEach = 8, 500
	var text bytes.Buffer
	writer := newWriter(&stream{to: &text}, time.Minute, nil)
	var all sync.WaitGroup
	for routine := 0; routine < routines; routine++ {
		all.Add(1)
		go func(routine int) {
			defer all.Done()
			for line := 0; line < linesEach; line++ {
				if err := writer.write([]byte(fmt.Sprintf("%d-%d\n", routine, line))); err != nil {
					t.Error(err)
				}
			}
		}(routine)
	}
	all.Wait()
	seen := map[string]bool{}
	for _, line := range strings.Split(strings.TrimSuffix(text.String(), "\n"), "\n") {
		seen[line] = true
	}
	if len(seen) != routines*linesEach || writer.written.Load() != routines*linesEach {
		t.Errorf("%d lines", len(seen))
	}
}

// TestTimeOfLines writes lines by many goroutines, some of them later, to a sink that takes none. Each call fails within its patience, also that
// whose line is being written, and none before half of the patience is over: all of them count as failed. A line that waits then is not written. Once
// the sink takes lines, the first line is written, and so are those that come afterwards.
func TestTimeOfLines(t *testing.T) {
	const patience, lateLines, linesAfter = time.Second, 64, 100
	sink := &hangingSink{released: make(chan struct{})}
	writer := newWriter(sink, patience, nil)
	var all sync.WaitGroup
	writeLate := func(line string) {
		defer all.Done()
		begun := time.Now()
		err := writer.write([]byte(line))
		// (up to three times the patience, for a busy machine)
		if took := time.Since(begun); !errors.Is(err, errHangs) || took < patience/2 || took > 3*patience {
			t.Errorf("%q: %v after %v", line, err, took)
		}
	}
	all.Add(1)
	go writeLate("first\n")
	// (until the first line is being written)
	for writer.taken() == 0 {
		time.Sleep(time.Millisecond)
	}
	// (these begin one after the other during half of the patience: so each waits behind the first line, and is late at another time)
	for line := 0; line < lateLines; line++ {
		all.Add(1)
		go writeLate("given up\n")
		time.Sleep(patience / (2 * lateLines))
	}
	all.Wait()
	if !writer.isStuck.Load() || writer.written.Load() != 0 {
		t.Error("the sink does not count as hanging, or a line as written")
	}
	close(sink.released)
	wanted := "first\n"
	for line := 0; line < linesAfter; line++ {
		wanted += "later\n"
		if err := writer.write([]byte("later\n")); err != nil {
			t.Fatal(err)
		}
	}
	if text := sink.text.String(); text != wanted || writer.isStuck.Load() || writer.written.Load() != 1+linesAfter || writer.failed.Load() != 1+lateLines {
		t.Errorf("%d written, %d failed: %.100q", writer.written.Load(), writer.failed.Load(), text)
	}
}

// TestOrderOfLines has lines wait behind a write. They are written as they came, those that are offered among the others, and a long line too.
func TestOrderOfLines(t *testing.T) {
	sink := &hangingSink{released: make(chan struct{})}
	writer := newWriter(sink, time.Minute, nil)
	long := strings.Repeat("x", mostAtOnce) + "\n"
	wanted := ""
	var all sync.WaitGroup
	for line, text := range []string{"first\n", "second\n", long, "third\n", "fourth\n", "fifth\n"} {
		wanted += text
		all.Add(1)
		go func(line int, text string) {
			defer all.Done()
			if line%2 == 0 {
				writer.offer([]byte(text))
			} else if err := writer.write([]byte(text)); err != nil {
				t.Error(err)
			}
		}(line, text)
		// (until this line waits or is being written, so that the next one comes behind it)
		for begun := time.Now(); writer.lines() <= line && time.Since(begun) < time.Minute; {
			time.Sleep(time.Millisecond)
		}
	}
	close(sink.released)
	all.Wait()
	if text := sink.text.String(); text != wanted {
		t.Errorf("%d octets, %.20q", len(text), text)
	}
}

// taken returns the number of lines that are being written, all in one batch.
func (w *writer) taken() int {
	w.mutex.Lock()
	defer w.mutex.Unlock()
	if w.present == nil {
		return 0
	}
	return w.present.count
}

// lines returns the number of lines that wait or are being written.
func (w *writer) lines() int {
	taken := w.taken()
	w.mutex.Lock()
	defer w.mutex.Unlock()
	return taken + w.queued
}

// A fullWriter takes `room` more octets, and is full then.
type fullWriter struct {
	room int
	text bytes.Buffer
}

// Write takes what there is room for, and fails with errFull if that is not all.
func (f *fullWriter) Write(octets []byte) (int, error) {
	if len(octets) > f.room {
		count, _ := f.text.Write(octets[:f.room])
		f.room = 0
		return count, errFull
	}
	f.room -= len(octets)
	return f.text.Write(octets)
}

// TestCutLines fills a stream's disk in the middle of the second line, after one octet. The next line that is written begins a line of its own.
func TestCutLines(t *testing.T) {
	disk := &fullWriter{room: len("one\n") + 1}
	stream := &stream{to: disk}
	if err := stream.write([]byte("one\n")); err != nil {
		t.Error(err)
	}
	if stream.write([]byte("two\n")) == nil || stream.write([]byte("three\n")) == nil {
		t.Error("a full stream takes lines")
	}
	disk.room = len("\nfour\n")
	if err := stream.write([]byte("four\n")); err != nil {
		t.Error(err)
	}
	if text := disk.text.String(); text != "one\nt\nfour\n" {
		t.Errorf("%q", text)
	}
}

// TestReaderThatIsGone writes a line to a pipe that is read, and one after its reader is gone: that line counts as failed. Each offer waits until its line
// is written or fails.
func TestReaderThatIsGone(t *testing.T) {
	reader, pipe, err := os.Pipe()
	if err != nil {
		t.Fatal(err)
	}
	defer pipe.Close()
	writer := newWriter(&stream{to: pipe}, time.Minute, nil)
	writer.offer([]byte("one\n"))
	if writer.failed.Load() != 0 {
		t.Fatal("the first line is not written")
	}
	if _, err := io.ReadFull(reader, make([]byte, len("one\n"))); err != nil {
		t.Error(err)
	}
	reader.Close()
	writer.offer([]byte("two\n"))
	if writer.failed.Load() != 1 {
		t.Errorf("%d lines are counted as failed", writer.failed.Load())
	}
}
