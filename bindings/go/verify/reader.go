// Reads and writes canonical texts: S-expressions in canonical form, where a string is LENGTH:OCTETS.

package verify

import (
	"bytes"
	"strconv"
)

// A reader reads a canonical text from the left. `rest` is what it has not read.
type reader struct {
	rest []byte
}

// trySkip skips a text if the rest begins with it, and says whether it does.
func (r *reader) trySkip(text string) bool {
	if !bytes.HasPrefix(r.rest, []byte(text)) {
		return false
	}
	r.rest = r.rest[len(text):]
	return true
}

// readString reads the string, LENGTH:OCTETS, that the rest begins with. It returns its octets, and whether there is one of at most `most` octets.
// Otherwise nothing is skipped. `most` must not exceed 9,999, since no LENGTH of more than four digits is read.
func (r *reader) readString(most int) ([]byte, bool) {
	colon := bytes.IndexByte(r.rest[:min(len(r.rest), len("4096:"))], ':')
	if colon < 0 {
		return nil, false
	}
	length, err := strconv.Atoi(string(r.rest[:colon]))
	if err != nil || length < 0 || length > most || length > len(r.rest)-colon-1 || strconv.Itoa(length) != string(r.rest[:colon]) {
		return nil, false
	}
	octets := r.rest[colon+1 : colon+1+length]
	r.rest = r.rest[colon+1+length:]
	return octets, true
}

// restIs says whether the rest is this text and no more.
func (r *reader) restIs(text string) bool {
	return string(r.rest) == text
}

// min returns the lesser number. (Go has it itself only from 1.21 on.)
func min(a, b int) int {
	if a < b {
		return a
	}
	return b
}

// canonicalText joins its parts: a Go string is added as it is, and a []byte as a string in canonical form, LENGTH:OCTETS. A part of another type,
// also an ed25519.PublicKey, would be left out.
func canonicalText(parts ...any) []byte {
	var text []byte
	for _, part := range parts {
		switch part := part.(type) {
		case string:
			text = append(text, part...)
		case []byte:
			text = strconv.AppendInt(text, int64(len(part)), 10)
			text = append(append(text, ':'), part...)
		}
	}
	return text
}
