package main

// How requests are read from a connection, by net/http.

import (
	"bufio"
	"bytes"
	"errors"
	"io"
	"net/http"
)

// A requestReader reads the requests of a connection, by net/http. It refuses one that net/http and others would read in two ways.
type requestReader struct {
	// Reads the connection.
	input *bufio.Reader
	// A copy of the lines of a request that do not fit in the buffer of `input`, up to the empty one, and the part of it that Read has not returned yet.
	lines, unread []byte
	// Reads that request by Read: `unread`, and then its body from `input`. It is nil until there is such a request.
	whole *bufio.Reader
}

// The octets of the buffer of `input`, which most requests fit in, and the most octets of a longer buffer that a connection keeps for its next request.
const (
	roomForRequest = 8192
	mostKeptRoom   = 32_768
)

// newRequestReader returns a requestReader for a connection from which nothing was read yet.
func newRequestReader(connection io.Reader) *requestReader {
	return &requestReader{input: bufio.NewReaderSize(connection, roomForRequest)}
}

// next reads the line and the headers of a request, and returns the request, through which its body is read. It fails with errNoRequest for a line
// `Content-Length:` without a value: net/http drops that line, and others may read a body behind it. Another error is that of net/http or of the
// connection. net/http reads from the buffer of `input` if the lines fit in that, and otherwise from a copy of the lines.
func (r *requestReader) next() (*http.Request, error) {
	isWhole, isClear, err := r.peekLines()
	if err == nil && !isWhole {
		isClear, err = r.readLines()
	}
	if err == nil && !isClear {
		err = errNoRequest
	}
	if err != nil {
		return nil, err
	}
	if isWhole {
		return http.ReadRequest(r.input)
	}
	r.unread = r.lines
	if r.whole == nil {
		r.whole = bufio.NewReaderSize(nil, roomForRequest)
	}
	r.whole.Reset(r)
	return http.ReadRequest(r.whole)
}

// peekLines looks at the lines up to the first that is empty, and leaves them to be read. isWhole says whether they all fit in the buffer of `input`, and
// if so isClear says that none of them is isEmptyLength. The error is that of the connection, io.EOF if it ends before the empty line.
func (r *requestReader) peekLines() (isWhole, isClear bool, err error) {
	// (where the next line begins)
	begin := 0
	isClear = true
	for {
		// (as many octets as are in the buffer: this cannot fail)
		text, _ := r.input.Peek(r.input.Buffered())
		for end := bytes.IndexByte(text[begin:], '\n'); end >= 0; end = bytes.IndexByte(text[begin:], '\n') {
			line := text[begin : begin+end+1]
			if isEmpty(line) {
				return true, isClear, nil
			}
			isClear = isClear && !isEmptyLength(line)
			begin += len(line)
		}
		if len(text) == r.input.Size() {
			return false, false, nil
		}
		if _, err := r.input.Peek(len(text) + 1); err != nil {
			return false, false, err
		}
	}
}

// Read reads the copied lines of a request, and then what is behind them on the connection. So `whole` can read both by one io.Reader.
func (r *requestReader) Read(into []byte) (int, error) {
	if len(r.unread) == 0 {
		return r.input.Read(into)
	}
	count := copy(into, r.unread)
	r.unread = r.unread[count:]
	return count, nil
}

// readLines reads the lines up to the first that is empty into r.lines. isClear says that none of them is isEmptyLength. The error is that of the
// connection, io.EOF if it ends before the empty line.
func (r *requestReader) readLines() (isClear bool, err error) {
	r.lines = r.lines[:0]
	if cap(r.lines) > mostKeptRoom {
		r.lines = nil
	}
	begin := 0
	isClear = true
	for {
		part, err := r.input.ReadSlice('\n')
		r.lines = append(r.lines, part...)
		if errors.Is(err, bufio.ErrBufferFull) {
			continue
		}
		if err != nil {
			return false, err
		}
		line := r.lines[begin:]
		if isEmpty(line) {
			return isClear, nil
		}
		isClear = isClear && !isEmptyLength(line)
		begin = len(r.lines)
	}
}

// isEmpty says whether a line is empty but for its end, as the one behind the headers.
func isEmpty(line []byte) bool {
	return string(line) == "\r\n" || string(line) == "\n"
}

var lengthName = []byte("content-length:")

// isEmptyLength says whether a line is `Content-Length:` with nothing but white space behind it.
func isEmptyLength(line []byte) bool {
	// (the first letter rules out most lines, and costs less; the bit 0x20 makes it a small one)
	if len(line) < len(lengthName) || line[0]|0x20 != lengthName[0] {
		return false
	}
	name, value := line[:len(lengthName)], line[len(lengthName):]
	return bytes.EqualFold(name, lengthName) && len(bytes.TrimSpace(value)) == 0
}
