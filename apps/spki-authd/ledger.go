package main

// The ledger: the file that gets a line before each grant. Its owner may rename it while the daemon runs, and then has it opened again.

import (
	"errors"
	"fmt"
	"io/fs"
	"os"
	"path/filepath"
	"syscall"
)

// When a ledger calls fsync, so that its lines are on the disk: never, each second, or before each grant. They are the values of `log_sync`.
const (
	syncNever   = "never"
	syncSeconds = "seconds"
	syncEach    = "each"
)

// A ledger is the log of grants: a file with a line for each. Only one daemon writes it. What was written of lines that failed is cut off again. If that
// fails too, or if the machine stopped meanwhile, the next line begins behind a line feed.
type ledger struct {
	// Its path, and syncNever, syncSeconds or syncEach.
	path, syncs string
	file        file
	// The octets of the file before the lines that are written now, and whether it may end with a part of a line, which could not be removed.
	whole int64
	isCut bool
	// Whether lines are written since the last fsync by `beat` that did not fail, and the last error of one that no write has reported yet, or nil.
	isDirty bool
	fault   error
}

// A file is what a ledger needs of an os.File. Tests have others, which fail.
type file interface {
	Write(octets []byte) (int, error)
	Truncate(size int64) error
	Sync() error
	Stat() (fs.FileInfo, error)
	Close() error
}

// The mode of a new ledger, from which the daemon's umask takes rights away: its owner may write and its group may read.
const modeOfLedger = 0o640

// openLedger opens the ledger at a path, or makes it. `syncs` is syncNever, syncSeconds or syncEach. It fails as ledger.open does: then the ledger that it
// returns is not used.
func openLedger(path, syncs string) (*ledger, error) {
	opened := &ledger{path: path, syncs: syncs}
	return opened, opened.open()
}

// open opens or makes the file. It fails if the file cannot be opened or made, is no ordinary file, or is written by another daemon, or if fsync fails for
// its folder. Then it changes nothing in `l`. If the last line of the file is cut, isCut has the next one begin behind a line feed.
func (l *ledger) open() error {
	if err := checkLedgerPath(l.path); err != nil {
		return err
	}
	opened, err := os.OpenFile(l.path, os.O_RDWR|os.O_APPEND|os.O_CREATE|syscall.O_NONBLOCK, modeOfLedger)
	if err != nil {
		return err
	}
	isCut, size, err := lockLedger(opened)
	if err == nil {
		err = syncFolder(filepath.Dir(l.path))
	}
	if err != nil {
		opened.Close()
		return err
	}
	l.file, l.whole, l.isCut, l.isDirty, l.fault = opened, size, isCut, false, nil
	return nil
}

// checkLedgerPath returns an error if there is something other than an ordinary file at a path, or if its folder does not exist.
func checkLedgerPath(path string) error {
	about, err := os.Stat(path)
	if errors.Is(err, fs.ErrNotExist) {
		_, err = os.Stat(filepath.Dir(path))
		return err
	}
	if err == nil && !about.Mode().IsRegular() {
		err = fmt.Errorf("%s: the log is no ordinary file", path)
	}
	return err
}

// checkOpenable returns an error unless this user may do with a path what open does: read and write the file, or make it in its folder where it does
// not exist, and read the folder. -test asks this, which makes no file.
func checkOpenable(path string) error {
	// (the sums of 4 to read, 2 to write, and 1 to reach what is in a folder, as access(2) has them)
	const toRead, toReadAndWrite, toMake = 4, 6, 7
	folder := filepath.Dir(path)
	rights := map[string]uint32{path: toReadAndWrite, folder: toRead}
	if _, err := os.Stat(path); errors.Is(err, fs.ErrNotExist) {
		rights = map[string]uint32{folder: toMake}
	}
	for place, needed := range rights {
		if err := syscall.Access(place, needed); err != nil {
			return fmt.Errorf("%s: %w", place, err)
		}
	}
	return nil
}

// lockLedger locks a file for this daemon alone, until it is closed, and returns whether its last line is cut, and how many octets it has. It fails if the
// file is no ordinary one, if another daemon has locked it, or if it cannot be read.
func lockLedger(opened *os.File) (isCut bool, size int64, err error) {
	about, err := opened.Stat()
	if err == nil && !about.Mode().IsRegular() {
		err = fs.ErrInvalid
	}
	if err == nil && syscall.Flock(int(opened.Fd()), syscall.LOCK_EX|syscall.LOCK_NB) != nil {
		err = fmt.Errorf("%s: another daemon writes this log", opened.Name())
	}
	if err != nil || about.Size() == 0 {
		return false, 0, err
	}
	last := make([]byte, 1)
	_, err = opened.ReadAt(last, about.Size()-1)
	return last[0] != '\n', about.Size(), err
}

// syncFolder calls fsync for a folder, so that a new file in it is not lost if the machine stops. It fails if the folder cannot be opened, or if fsync
// fails.
func syncFolder(path string) error {
	folder, err := os.Open(path)
	if err != nil {
		return err
	}
	defer folder.Close()
	return folder.Sync()
}

// write writes lines, each with its line feed. After an error it cuts off again what was written of them. If that fails too, this stays, although none of
// them was granted, and isCut has the next lines begin behind a line feed.
func (l *ledger) write(lines []byte) error {
	if err := l.prepare(); err != nil {
		return err
	}
	if l.isCut {
		lines = append([]byte{'\n'}, lines...)
	}
	count, err := l.file.Write(lines)
	if err == nil && l.syncs == syncEach {
		err = l.file.Sync()
	}
	if err != nil {
		if l.file.Truncate(l.whole) != nil {
			l.isCut = l.isCut || count > 0
		}
		return err
	}
	l.isCut, l.isDirty = false, true
	return nil
}

// prepare is called before lines are written. It notes the file's size, and makes the file again if it was removed. If `beat` has failed since the last
// call, prepare fails, although it calls `beat` once more and that may succeed: a system may report only once that lines are lost.
func (l *ledger) prepare() error {
	about, err := l.file.Stat()
	if err != nil {
		return err
	}
	l.whole = about.Size()
	if system, isKnown := about.Sys().(*syscall.Stat_t); isKnown && system.Nlink == 0 {
		return l.replace()
	}
	fault := l.fault
	l.fault = nil
	if fault != nil {
		l.beat()
	}
	return fault
}

// beat calls fsync if the ledger has syncSeconds and lines were written since the last time. The writer calls it each second. prepare reports its error.
func (l *ledger) beat() {
	if l.syncs == syncSeconds && l.isDirty {
		err := l.file.Sync()
		l.isDirty = err != nil
		if err != nil {
			l.fault = err
		}
	}
}

// reopen opens the path again, unless the open file is still there. It fails if the open file cannot be looked at, or as replace does.
func (l *ledger) reopen() error {
	present, err := l.file.Stat()
	if err != nil {
		return err
	}
	if about, err := os.Stat(l.path); err == nil && os.SameFile(about, present) {
		return nil
	}
	return l.replace()
}

// replace opens the path, and closes the old file. If the path cannot be opened, the old file stays open. Another error says that the new file is open, and
// that the last lines of the old one may not be on the disk.
func (l *ledger) replace() error {
	old := *l
	if err := l.open(); err != nil {
		return err
	}
	if err := old.close(); err != nil {
		return fmt.Errorf("%s is opened again, but: %w", l.path, err)
	}
	return nil
}

// close calls fsync, unless the ledger has syncNever, and closes the file. The error says that the last lines may not be on the disk. It is also the error
// of the last `beat`: a system may report that lines are lost only once.
func (l *ledger) close() error {
	fault := l.fault
	if l.syncs != syncNever {
		if err := l.file.Sync(); fault == nil {
			fault = err
		}
	}
	if err := l.file.Close(); fault == nil {
		fault = err
	}
	if fault != nil {
		return fmt.Errorf("the last grants may not be on the disk: %w", fault)
	}
	return nil
}
