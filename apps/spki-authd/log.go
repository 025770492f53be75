package main

// The line of the log for a record, as JSON.

import (
	"encoding/json"
	"strconv"
	"strings"
	"sync"
)

// The octets of a new buffer for a line of the log, which most lines fit in.
const roomForLine = 1024

// rooms are buffers for lines and answers, which are used again.
var rooms = sync.Pool{New: func() any {
	buffer := make([]byte, 0, roomForLine)
	return &buffer
}}

// line returns the record as a line of JSON with its line feed, in `room`, which is overwritten, or in a new buffer if `room` is too small. The line has
// the octets that encoding/json would write, but encoding/json takes four times as long. An optional field is left out if it is empty.
func (r *record) line(room []byte) []byte {
	const needed, optional = true, false
	line := fields(room[:0])
	line.addText("time", r.Time, needed)
	line.addText("id", r.ID, optional)
	line.addText("host", r.Host, optional)
	line.addText("address", r.Address, optional)
	line.addText("answer", string(r.Answer), needed)
	line.addNumber("status", int64(r.Status), needed)
	line.addText("key", r.Key, optional)
	line.addText("proof", r.Proof, optional)
	line.addText("kept", r.Kept, optional)
	line.addTexts("request", r.Request)
	line.addNumber("entry", int64(r.Entry), optional)
	line.addTexts("certificates", r.Certificates)
	line.addNumber("cached", int64(r.Cached), optional)
	line.addNumber("unverified", int64(r.Unverified), optional)
	line.addText("list", r.List, optional)
	line.addNumber("skipped", int64(r.Skipped), optional)
	line.addText("reason", r.Reason, optional)
	line.addText("reasons", r.Reasons, optional)
	line.addText("target", r.Target, optional)
	line.addNumber("microseconds", r.Microseconds, needed)
	return append(line, "}\n"...)
}

// fields are the text of an object of JSON up to some field, without the brace that ends it.
type fields []byte

// addName writes the name of the next field, behind a comma, or behind the brace that begins the object.
func (f *fields) addName(name string) {
	begin := byte(',')
	if len(*f) == 0 {
		begin = '{'
	}
	*f = append(append(append(*f, begin, '"'), name...), '"', ':')
}

// addText writes a field with a text. An empty text is left out, unless isNeeded.
func (f *fields) addText(name, value string, isNeeded bool) {
	if value != "" || isNeeded {
		f.addName(name)
		f.addString(value)
	}
}

// addTexts writes a field with an array of texts, if there are any.
func (f *fields) addTexts(name string, values []string) {
	if len(values) == 0 {
		return
	}
	f.addName(name)
	before := byte('[')
	for _, value := range values {
		*f = append(*f, before)
		f.addString(value)
		before = ','
	}
	*f = append(*f, ']')
}

// addNumber writes a field with a number. Zero is left out, unless isNeeded.
func (f *fields) addNumber(name string, value int64, isNeeded bool) {
	if value != 0 || isNeeded {
		f.addName(name)
		*f = strconv.AppendInt(*f, value, 10)
	}
}

// addString writes a text as a JSON string. If a character of it may need an escape, encoding/json writes it.
func (f *fields) addString(value string) {
	if isPlain(value) {
		*f = append(append(append(*f, '"'), value...), '"')
		return
	}
	// (for a text Marshal never fails)
	escaped, _ := json.Marshal(value)
	*f = append(*f, escaped...)
}

// plain has true only for octets that encoding/json writes as they are. It has false for DEL and all octets beyond ASCII too, although encoding/json
// writes most of these as they are.
var plain = func() (isPlain [256]bool) {
	for octet := ' '; octet <= '~'; octet++ {
		isPlain[octet] = !strings.ContainsRune("\"\\<>&", octet)
	}
	return isPlain
}()

// isPlain says whether `plain` has true for each octet of a text.
func isPlain(text string) bool {
	for place := 0; place < len(text); place++ {
		if !plain[text[place]] {
			return false
		}
	}
	return true
}
