package main

// Tests of the ledger, the file with a line for each grant: no request is granted whose line is not in it. Where a full disk cuts a line, its part is
// removed, or, if that fails, the next line begins behind a line feed. `syncs` says when it calls fsync: syncNever, syncSeconds (by `beat`, each
// second) or syncEach (for each write).

import (
	"fmt"
	"os"
	"path/filepath"
	"strings"
	"sync"
	"syscall"
	"testing"
	"time"
)

// A failingFile fails as on a full disk if a write has more octets than `room`, which is -1 for no limit.
type failingFile struct {
	*os.File
	room int
	// Whether Truncate fails, and whether Sync does.
	truncateFails, syncFails bool
}

// Write writes what there is room for, and fails with errFull if that is not all.
func (f *failingFile) Write(octets []byte) (int, error) {
	if f.room < 0 || len(octets) <= f.room {
		return f.File.Write(octets)
	}
	count, err := f.File.Write(octets[:f.room])
	if err == nil {
		err = errFull
	}
	return count, err
}

// Truncate cuts the file, or fails with errFull if truncateFails.
func (f *failingFile) Truncate(size int64) error {
	if f.truncateFails {
		return errFull
	}
	return f.File.Truncate(size)
}

// Sync writes the file to its disk, or fails with errFull if syncFails.
func (f *failingFile) Sync() error {
	if f.syncFails {
		return errFull
	}
	return f.File.Sync()
}

// openFailing opens a ledger that has a text already, or is new if that is empty, and returns it with its file. The file works until a test sets its
// fields. `syncs` is syncNever, syncSeconds or syncEach.
func openFailing(t *testing.T, syncs, text string) (*ledger, *failingFile) {
	t.Helper()
	path := filepath.Join(t.TempDir(), "log")
	if text != "" {
		path = writeFile(t, "log", text)
	}
	opened, err := openLedger(path, syncs)
	if err != nil {
		t.Fatal(err)
	}
	disk := &failingFile{File: opened.file.(*os.File), room: -1}
	opened.file = disk
	t.Cleanup(func() { _ = opened.close() })
	return opened, disk
}

// mustHave reports an error unless a ledger's file has this text.
func (l *ledger) mustHave(t *testing.T, wanted string) {
	t.Helper()
	if content, err := os.ReadFile(l.path); err != nil || string(content) != wanted {
		t.Errorf("%q, %v, wanted %q", content, err, wanted)
	}
}

// TestFullDisk writes three lines, of which a full disk cuts the second: what is written of it is removed. Where that fails too, the third begins behind a
// line feed.
func TestFullDisk(t *testing.T) {
	for truncateFails, wanted := range map[bool]string{false: "one\nthree\n", true: "one\ntw\nthree\n"} {
		ledger, disk := openFailing(t, syncNever, "")
		if err := ledger.write([]byte("one\n")); err != nil {
			t.Fatal(err)
		}
		disk.room, disk.truncateFails = len("tw"), truncateFails
		if ledger.write([]byte("two\n")) == nil {
			t.Error("a cut line is written")
		}
		disk.room = -1
		if err := ledger.write([]byte("three\n")); err != nil {
			t.Error(err)
		}
		ledger.mustHave(t, wanted)
	}
}

// A fullFile writes half of the octets, and fails, at each third write.
type fullFile struct {
	*os.File
	// How often Write was called.
	writes int
}

// Write writes octets, or at each third call half of them, and fails then.
func (f *fullFile) Write(octets []byte) (int, error) {
	if f.writes++; f.writes%3 > 0 {
		return f.File.Write(octets)
	}
	count, _ := f.File.Write(octets[:len(octets)/2])
	return count, errFull
}

// TestFullDiskOfMany has 16 goroutines write 50 lines each, while each third write finds the disk full. The file has the lines for which write returned no
// error, whole and once, and no others.
func TestFullDiskOfMany(t *testing.T) {
	ledger, disk := openFailing(t, syncNever, "")
	ledger.file = &fullFile{File: disk.File}
	writer := newWriter(ledger, time.Minute, nil)
	var all sync.WaitGroup
	var mutex sync.Mutex
	wanted := map[string]bool{}
	for routine := 0; routine < 16; routine++ {
		all.Add(1)
		go func(routine int) {
			defer all.Done()
			for number := 0; number < 50; number++ {
				line := fmt.Sprintf("%d-%d\n", routine, number)
				if writer.write([]byte(line)) == nil {
					mutex.Lock()
					wanted[line] = true
					mutex.Unlock()
				}
			}
		}(routine)
	}
	all.Wait()
	content, err := os.ReadFile(ledger.path)
	lines := strings.SplitAfter(string(content), "\n")
	// (if all 16*50 lines were there, no write had failed)
	if err != nil || len(lines)-1 != len(wanted) || len(wanted) == 0 || len(wanted) == 16*50 {
		t.Errorf("%d lines, wanted %d, %v", len(lines)-1, len(wanted), err)
	}
	for _, line := range lines[:len(lines)-1] {
		if !wanted[line] {
			t.Errorf("%q is in the file", line)
		}
		delete(wanted, line)
	}
}

// TestCutLedger opens a file whose last line was cut, as by a machine that was switched off. The next line that is written begins behind a line feed, also
// if a full disk has refused one before.
func TestCutLedger(t *testing.T) {
	ledger, disk := openFailing(t, syncNever, "one\ntw")
	disk.room = 0
	if ledger.write([]byte("three\n")) == nil {
		t.Error("a full disk takes a line")
	}
	disk.room = -1
	for _, line := range []string{"four\n", "five\n"} {
		if err := ledger.write([]byte(line)); err != nil {
			t.Fatal(err)
		}
	}
	ledger.mustHave(t, "one\ntw\nfour\nfive\n")
}

// TestFailingSyncs writes two lines while fsync fails, and two when it works again. A row says whether the first, the second and the third write
// succeed. The fourth always does. With syncEach the first two fail. With syncSeconds a write fails after a `beat` has failed. The file has the lines
// whose write succeeded.
func TestFailingSyncs(t *testing.T) {
	for syncs, row := range map[string]struct{ first, second, third bool }{
		syncNever: {true, true, true}, syncSeconds: {true, false, false}, syncEach: {false, false, true},
	} {
		ledger, disk := openFailing(t, syncs, "")
		disk.syncFails = true
		if err := ledger.write([]byte("one\n")); (err == nil) != row.first {
			t.Errorf("%s: %v", syncs, err)
		}
		ledger.beat()
		if err := ledger.write([]byte("two\n")); (err == nil) != row.second {
			t.Errorf("%s: %v", syncs, err)
		}
		disk.syncFails = false
		// (with syncSeconds the second write has called `beat` once more, which failed too: that must be reported)
		if err := ledger.write([]byte("three\n")); (err == nil) != row.third {
			t.Errorf("%s: %v", syncs, err)
		}
		if err := ledger.write([]byte("four\n")); err != nil {
			t.Errorf("%s: %v", syncs, err)
		}
		wanted := map[string]string{syncNever: "one\ntwo\nthree\nfour\n", syncSeconds: "one\nfour\n", syncEach: "three\nfour\n"}[syncs]
		ledger.mustHave(t, wanted)
	}
}

// TestLostLinesAreReported has one sync fail, and the next one succeed before anything is written: the next write must fail, and the one after it not.
func TestLostLinesAreReported(t *testing.T) {
	ledger, disk := openFailing(t, syncSeconds, "")
	if err := ledger.write([]byte("one\n")); err != nil {
		t.Fatal(err)
	}
	disk.syncFails = true
	ledger.beat()
	disk.syncFails = false
	ledger.beat()
	if ledger.write([]byte("two\n")) == nil {
		t.Error("nobody is told that lines may be lost")
	}
	if err := ledger.write([]byte("three\n")); err != nil {
		t.Error(err)
	}
}

// TestReopened renames a ledger's file: lines go to the renamed file until reopen, and then to a new one. A file that was removed is made again by the next
// write, and one that was emptied is written on. Where the folder is gone, reopen fails, and write does not.
func TestReopened(t *testing.T) {
	ledger, _ := openFailing(t, syncSeconds, "")
	write := func(line string) {
		if err := ledger.write([]byte(line)); err != nil {
			t.Error(err)
		}
	}
	write("one\n")
	old := ledger.path + ".1"
	if err := os.Rename(ledger.path, old); err != nil {
		t.Fatal(err)
	}
	write("two\n")
	// (the second time there is nothing to do)
	for turn := 0; turn < 2; turn++ {
		if err := ledger.reopen(); err != nil {
			t.Error(err)
		}
	}
	write("three\n")
	ledger.mustHave(t, "three\n")
	if content, err := os.ReadFile(old); err != nil || string(content) != "one\ntwo\n" {
		t.Errorf("%q, %v", content, err)
	}
	os.Remove(ledger.path)
	write("four\n")
	ledger.mustHave(t, "four\n")
	if err := os.Truncate(ledger.path, 0); err != nil {
		t.Fatal(err)
	}
	write("five\n")
	ledger.mustHave(t, "five\n")
	if err := os.Rename(filepath.Dir(ledger.path), filepath.Dir(ledger.path)+".gone"); err != nil {
		t.Fatal(err)
	}
	if ledger.reopen() == nil {
		t.Error("there is no folder")
	}
	write("six\n")
}

// TestLastSync reopens and closes a ledger while fsync fails: that is an error unless the ledger has syncNever. With isOver fsync fails during a
// `beat`, and works again before that: then syncSeconds must still report the `beat` that has failed. syncEach has nothing to report then, since its
// `beat` calls no fsync. The new file is open in each case.
func TestLastSync(t *testing.T) {
	for _, syncs := range []string{syncNever, syncSeconds, syncEach} {
		for _, isOver := range []bool{false, true} {
			ledger, disk := openFailing(t, syncs, "")
			// (whether the error must say that lines may be lost)
			isLost := syncs == syncSeconds || syncs == syncEach && !isOver
			// (reports an error unless `err`, that of a step, says that, or is nil where none may be lost)
			checkError := func(step string, err error) {
				t.Helper()
				if (err != nil) != isLost || err != nil && !strings.Contains(err.Error(), "may not be on the disk") {
					t.Errorf("%s, %v: %s: %v", syncs, isOver, step, err)
				}
			}
			// (writes a line. Then fsync, if it is called, fails during a `beat`, and unless isOver also after it)
			writeAndFailBeat := func(line string) {
				if err := ledger.write([]byte(line)); err != nil {
					t.Error(err)
				}
				disk.syncFails = true
				ledger.beat()
				disk.syncFails = !isOver
			}
			writeAndFailBeat("one\n")
			if err := os.Rename(ledger.path, ledger.path+".1"); err != nil {
				t.Fatal(err)
			}
			checkError("reopened", ledger.reopen())
			disk = &failingFile{File: ledger.file.(*os.File), room: -1}
			ledger.file = disk
			writeAndFailBeat("two\n")
			ledger.mustHave(t, "two\n")
			checkError("closed", ledger.close())
		}
	}
}

// TestWrongLedgerPaths opens what is no ordinary file, a file that another daemon writes, and one in a folder that does not exist: each is an error that
// says so.
func TestWrongLedgerPaths(t *testing.T) {
	ledger, _ := openFailing(t, syncNever, "")
	folder := t.TempDir()
	fifo := filepath.Join(folder, "fifo")
	if err := syscall.Mkfifo(fifo, 0o600); err != nil {
		t.Fatal(err)
	}
	for path, wanted := range map[string]string{
		ledger.path: "another daemon", fifo: "no ordinary file", folder: "no ordinary file", "/dev/null": "no ordinary file", "/none/log": "no such file",
	} {
		if _, err := openLedger(path, syncNever); err == nil || !strings.Contains(err.Error(), wanted) {
			t.Errorf("%s: %v", path, err)
		}
	}
}
