package main

// The path of a request. One that two servers could read in two ways is refused.

import (
	"errors"
	"strings"
)

// errUnclear is the error for a path that is too long, and for each that two servers could read in two ways.
var errUnclear = errors.New("the path is not clear")

// pathOf returns the path of a request's target, decoded once, or fails with errUnclear. It accepts only what every server reads in the same way, so
// nothing has to be normalized, and a path that is accepted is the one that is served:
//
//   - It begins with `/`. The query is cut off at the first `?`, and what precedes it has at most `most` octets as it is sent.
//   - As it is sent, path and query have visible characters of ASCII alone. Each `%` of the path is followed by two hexadecimal digits.
//   - Decoded it has characters of ASCII from the space to `~`, without `%`, `\`, `;`, `?` and `#`. An escaped `/` is refused.
//   - No segment is `.` or `..`, or ends in a dot or a space. None but the last one is empty.
//
// Upper and lower case, and a `/` at the end, stay as they are.
func pathOf(target string, most int) (string, error) {
	sent, _, _ := strings.Cut(target, "?")
	if len(sent) > most || !strings.HasPrefix(sent, "/") || !isVisible(target) {
		return "", errUnclear
	}
	path, err := decodePath(sent)
	if err != nil {
		return "", err
	}
	for rest, isMore := path[1:], true; isMore; {
		var segment string
		segment, rest, isMore = strings.Cut(rest, "/")
		if segment == "" && isMore || strings.HasSuffix(segment, ".") || strings.HasSuffix(segment, " ") {
			return "", errUnclear
		}
	}
	return path, nil
}

// decodePath decodes each `%XX` of a path, once. It fails with errUnclear for a decoded octet that isOfPath does not have, for an escaped `/`, and for a `%`
// without two hexadecimal digits.
func decodePath(sent string) (string, error) {
	if hasPathOctets(sent) {
		return sent, nil
	}
	path := make([]byte, 0, len(sent))
	for place := 0; place < len(sent); place++ {
		octet, isEscaped := sent[place], sent[place] == '%'
		if isEscaped {
			if place+2 >= len(sent) || !isHexadecimal(sent[place+1]) || !isHexadecimal(sent[place+2]) {
				return "", errUnclear
			}
			octet = digit(sent[place+1])<<4 | digit(sent[place+2])
			place += 2
		}
		if !isOfPath[octet] || isEscaped && octet == '/' {
			return "", errUnclear
		}
		path = append(path, octet)
	}
	return string(path), nil
}

// isOfPath has true for each octet that a decoded path may have.
var isOfPath = func() (isAllowed [256]bool) {
	for octet := ' '; octet <= '~'; octet++ {
		isAllowed[octet] = !strings.ContainsRune(`%\;?#`, octet)
	}
	return isAllowed
}()

// hasPathOctets says whether a decoded path may have each octet of a text.
func hasPathOctets(text string) bool {
	for place := 0; place < len(text); place++ {
		if !isOfPath[text[place]] {
			return false
		}
	}
	return true
}

// isHexadecimal says whether an octet is a hexadecimal digit, in small or large letters. The bit 0x20 makes a large letter a small one.
func isHexadecimal(octet byte) bool {
	return '0' <= octet && octet <= '9' || 'a' <= octet|0x20 && octet|0x20 <= 'f'
}

// digit returns the value, from 0 to 15, of an octet that isHexadecimal. The bit 0x20 makes a large letter a small one.
func digit(octet byte) byte {
	if octet <= '9' {
		return octet - '0'
	}
	return (octet | 0x20) - 'a' + 10
}
