package main

// Tests of files that the daemon does not read: those that are no ordinary files, and lists that are too long.

import (
	"errors"
	"path/filepath"
	"strings"
	"syscall"
	"testing"

	"conguraki/spki/guard"
)

// TestSpecialFiles reads a FIFO, devices and a folder by readFile, and the FIFO as ended certificates, as a list and as a configuration: each fails with
// errNoFile. So no read waits for the FIFO's writer.
func TestSpecialFiles(t *testing.T) {
	fifo := filepath.Join(t.TempDir(), "fifo")
	if err := syscall.Mkfifo(fifo, 0o600); err != nil {
		t.Fatal(err)
	}
	for _, path := range []string{fifo, "/dev/null", "/dev/zero", "/dev/tty", t.TempDir()} {
		const mostOctets = 9
		if _, err := readFile(path, mostOctets); !errors.Is(err, errNoFile) {
			t.Errorf("%s: %v", path, err)
		}
	}
	s := newSite(t, "")
	for _, change := range []func(){func() { s.config.Ended = fifo }, func() { s.config.Ended, s.config.List = "", fifo }} {
		change()
		if err := s.keeper.reload(s.config, !allowFewerEnded, s.now()); !errors.Is(err, errNoFile) {
			t.Error(err)
		}
	}
	if _, err := readConfig(fifo); !errors.Is(err, errNoFile) {
		t.Error(err)
	}
}

// TestLongLists reads a list of 1 MiB, which is accepted, and one of one octet more. The refusal says what to do.
func TestLongLists(t *testing.T) {
	// (no entries, and white space, which is allowed)
	begin, end := "(3:acl", ")"
	longest := begin + strings.Repeat(" ", mostList-len(begin)-len(end)) + end
	list, err := readList(writeFile(t, "acl", longest), guard.Strict, usualLimits)
	if err != nil {
		t.Fatal(err)
	}
	list.guard.Close()
	_, err = readList(writeFile(t, "acl", longest+" "), guard.Strict, usualLimits)
	if err == nil || !strings.Contains(err.Error(), `split the list by host or prefix ("lists"), or keep its entries in a store`) {
		t.Error(err)
	}
}
