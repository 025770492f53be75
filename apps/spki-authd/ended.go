package main

// The file of ended certificates: those that an operator has ended before their time, by the SHA-256 digests of their canonical octets.

import (
	"bytes"
	"crypto/sha256"
	"encoding/hex"
	"errors"
	"fmt"
	"strconv"
	"strings"
)

// endedCertificates are certificates that have ended early, and no longer count. They are known by the SHA-256 digests of their canonical octets.
type endedCertificates struct {
	digests map[digest]struct{}
	// The number of lines with a digest, and the SHA-256 digest, in hexadecimal digits, of the octets of all lines but the last one. The last line of the
	// file has both too.
	count  int
	digest string
}

// noneEnded is what a daemon without a file of ended certificates has.
var noneEnded = &endedCertificates{digest: hexDigest(nil)}

var errLastLine = errors.New("its last line is not `end COUNT SHA256` for the lines before it: `spki-cert end --ended FILE` writes it")

// parseEnded reads the text of a file of ended certificates. Each line is empty, begins with `#`, or is a digest of 64 hexadecimal digits in small letters,
// behind which ` # ` and a comment may be. The last line has the number of lines with a digest, and the digest of all octets before it: a file that was
// cut, or that somebody has added a line to, is refused.
func parseEnded(text []byte) (*endedCertificates, error) {
	body, last, isWhole := cutLastLine(text)
	if !isWhole {
		return nil, errLastLine
	}
	read := &endedCertificates{digests: map[digest]struct{}{}, digest: hexDigest(body)}
	for number, line := range strings.SplitAfter(string(body), "\n") {
		if err := read.add(strings.TrimSuffix(line, "\n")); err != nil {
			return nil, fmt.Errorf("line %d: %w", number+1, err)
		}
	}
	if last != "end "+strconv.Itoa(read.count)+" "+read.digest {
		return nil, errLastLine
	}
	return read, nil
}

// cutLastLine returns the lines before the last one, and the last one without its line feed. If that has none, isWhole is false.
func cutLastLine(text []byte) (body []byte, last string, isWhole bool) {
	if !bytes.HasSuffix(text, []byte("\n")) {
		return nil, "", false
	}
	begin := bytes.LastIndexByte(text[:len(text)-1], '\n') + 1
	return text[:begin], string(text[begin : len(text)-1]), true
}

// add adds the digest of a line, which has no line feed. An empty line and a comment add nothing. It fails for any other line that is not a digest, alone
// or with ` # ` and a comment behind it.
func (e *endedCertificates) add(line string) error {
	if line == "" || line[0] == '#' {
		return nil
	}
	digits, comment, _ := strings.Cut(line, " ")
	octets, err := hex.DecodeString(digits)
	isPlain := digits == strings.ToLower(digits) && (len(line) == len(digits) || strings.HasPrefix(comment, "# "))
	if err != nil || len(octets) != sha256.Size || !isPlain {
		return errors.New("this is no digest of 64 hexadecimal digits in small letters, alone or with ` # COMMENT`")
	}
	e.digests[*(*digest)(octets)] = struct{}{}
	e.count++
	return nil
}

// countLost returns how many digests of an older file are not in this one: a reload that would lose any is refused without `-fewer`.
func (e *endedCertificates) countLost(older *endedCertificates) int {
	lost := 0
	for each := range older.digests {
		if _, isThere := e.digests[each]; !isThere {
			lost++
		}
	}
	return lost
}
