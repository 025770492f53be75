package main

// Tests of how the requests of a connection are read: by net/http from the reader's buffer, or from a copy of the lines where they do not fit in it.

import (
	"fmt"
	"io"
	"strings"
	"testing"
	"testing/iotest"
)

// readAll reads requests that come one after the other. It returns a text for each: its method, its header X-Last, its body, and the error of reading
// that or <nil>, with a space between them. The last text is the error after them.
func readAll(from io.Reader) (read []string) {
	reader := newRequestReader(from)
	for {
		request, err := reader.next()
		if err != nil {
			return append(read, err.Error())
		}
		body, err := io.ReadAll(request.Body)
		read = append(read, fmt.Sprint(request.Method, " ", request.Header.Get("X-Last"), " ", string(body), " ", err))
	}
}

// TestRequestReader reads requests whose lines fit in the buffer, and the same requests with more lines than fit, or one longer line, in the place of
// %s. They are read alike, from a connection that returns all octets at once, half of those asked for, or one. `wanted` has what readAll returns,
// joined by commas. A request behind an empty line is not read.
func TestRequestReader(t *testing.T) {
	for _, row := range []struct{ text, wanted string }{
		{"GET / HTTP/1.1\r\n%sHost: x\r\nX-Last: a\r\n\r\n", "GET a  <nil>, EOF"},
		{"GET / HTTP/1.1\n%sHost: x\nX-Last: a\n\n", "GET a  <nil>, EOF"},
		{"GET / HTTP/1.1\r\n%sX-Last: a\r\n\r\nGET / HTTP/1.1\r\nX-Last: b\r\n\r\n", "GET a  <nil>, GET b  <nil>, EOF"},
		{"PUT / HTTP/1.1\r\n%sHost: x\r\nContent-Length: 3\r\n\r\nabc", "PUT  abc <nil>, EOF"},
		{"PUT / HTTP/1.1\r\n%sHost: x\r\nTransfer-Encoding: chunked\r\n\r\n2\r\nab\r\n0\r\n\r\n", "PUT  ab <nil>, EOF"},
		{"PUT / HTTP/1.1\r\n%sHost: x\r\nContent-Length: 3\r\n\r\na", "PUT  a unexpected EOF, EOF"},
		{"GET / HTTP/1.1\r\n%sHost: x\r\nContent-Length:\r\n\r\n", errNoRequest.Error()},
		{"GET / HTTP/1.1\r\n%sHost: x\r\ncontent-LENGTH: \t \r\n\r\n", errNoRequest.Error()},
		{"GET / HTTP/1.1\r\n%sHost: x\r\nContent-Lengths:\r\n\r\n", "GET   <nil>, EOF"},
		{"GET / HTTP/1.1\r\n%sHost: x\r\n\rx\r\n\r\n", `malformed MIME header: missing colon: "\rx"`},
		{"GET / HTTP/1.1\r\n%sHost: x\r\n", "EOF"}, {"x\r\n%s\r\n", `malformed HTTP request "x"`},
	} {
		for _, more := range []string{"", strings.Repeat("X-More: x\r\n", roomForRequest/10), "X-More: " + strings.Repeat("x", 2*roomForRequest) + "\r\n"} {
			text := fmt.Sprintf(row.text, more)
			for name, from := range map[string]io.Reader{
				"whole": strings.NewReader(text), "halves": iotest.HalfReader(strings.NewReader(text)), "octets": iotest.OneByteReader(strings.NewReader(text)),
			} {
				if requests := strings.Join(readAll(from), ", "); requests != row.wanted {
					t.Errorf("%.60q, %d octets more, %s: %q, wanted %q", row.text, len(more), name, requests, row.wanted)
				}
			}
		}
	}
	if requests := readAll(strings.NewReader("\r\nGET / HTTP/1.1\r\n\r\n")); len(requests) != 1 || !strings.Contains(requests[0], "malformed") {
		t.Errorf("%q", requests)
	}
}
