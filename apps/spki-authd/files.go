package main

// How files are read and written. Only an ordinary file is read: a FIFO could hang, and a device have an effect.

import (
	"errors"
	"fmt"
	"io"
	"io/fs"
	"os"
	"syscall"
)

var (
	errNoFile = errors.New("this is no ordinary file")
	errLong   = errors.New("more octets than may be")
)

// checkOrdinary takes both results of Stat. It returns errNoFile if they are of no ordinary file, and the error of Stat if that failed.
func checkOrdinary(about fs.FileInfo, err error) error {
	if err == nil && !about.Mode().IsRegular() {
		err = errNoFile
	}
	return err
}

// readFile reads a file of at most `most` octets. It fails with errLong for a longer one, and with errNoFile for what is no ordinary file. That is tested
// before it is opened: to open a FIFO would wait for a writer, and to open a device may have an effect.
func readFile(path string, most int) ([]byte, error) {
	if err := checkOrdinary(os.Stat(path)); err != nil {
		return nil, fmt.Errorf("%s: %w", path, err)
	}
	file, err := os.OpenFile(path, os.O_RDONLY|syscall.O_NONBLOCK, 0)
	if err != nil {
		return nil, err
	}
	defer file.Close()
	// (another file may have been moved to the path since)
	if err := checkOrdinary(file.Stat()); err != nil {
		return nil, fmt.Errorf("%s: %w", path, err)
	}
	octets, err := io.ReadAll(io.LimitReader(file, int64(most)+1))
	if err == nil && len(octets) > most {
		err = fmt.Errorf("%s: %w: %d", path, errLong, most)
	}
	return octets, err
}

// writeSynced writes a file that only this user may read, and calls fsync. A file that is there is overwritten, and keeps its mode. It fails if the file
// cannot be opened or written, or if fsync or closing it fails: then a part of the text may be in it.
func writeSynced(path, text string) error {
	file, err := os.OpenFile(path, os.O_WRONLY|os.O_CREATE|os.O_TRUNC, 0o600)
	if err != nil {
		return err
	}
	_, err = file.WriteString(text)
	if err == nil {
		err = file.Sync()
	}
	if fault := file.Close(); err == nil {
		err = fault
	}
	return err
}
