package main

// Standard output and standard error, to which lines and events are written.

import (
	"encoding/json"
	"io"
)

// A stream is the sink of a writer for standard output or standard error, which another process reads, such as the journal.
type stream struct {
	to io.Writer
	// Whether the last line may have been written in part. Then a line feed precedes the next one.
	isCut bool
}

// write writes lines, behind a line feed if isCut. After an error it sets isCut if any octet was written, since a line may be cut then, and else leaves
// it. Without an error it clears it.
func (s *stream) write(lines []byte) error {
	if s.isCut {
		lines = append([]byte{'\n'}, lines...)
	}
	count, err := s.to.Write(lines)
	s.isCut = err != nil && (s.isCut || count > 0)
	return err
}

// offerEvent offers the writer the line of an event. That the line cannot be written is no error.
func (w *writer) offerEvent(message event) {
	if line, err := json.Marshal(message); err == nil {
		w.offer(append(line, '\n'))
	}
}
