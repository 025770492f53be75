package main

// A measurement of one decision by certificates. At a site (newSite) Carol may read below /web/docs/a/ by Bob's certificate, and he by Alice's.

import (
	"net/http"
	"net/http/httptest"
	"testing"
	"time"
)

// BenchmarkHandler measures one decision with its response: Carol shows two certificates, whose signatures the first turn verifies. The line for the
// log is dropped.
func BenchmarkHandler(b *testing.B) {
	s := newSite(b, "")
	s.logGrant = func([]byte) error { return nil }
	_, carols := s.sequencesShown()
	request := httptest.NewRequest(http.MethodGet, "/auth", nil)
	for name, value := range map[string]string{
		"X-Original-Method": "GET", "X-Original-Uri": "/web/docs/a/b", "X-Client-Cert": s.carol.escaped(), "Authorization": "SPKI " + carols,
	} {
		request.Header.Set(name, value)
	}
	var buffer []byte
	b.ReportAllocs()
	for turn := 0; turn < b.N; turn++ {
		result := s.answerTo(request)
		if buffer = result.response(buffer, time.Now(), !isLast); result.Status != http.StatusOK {
			b.Fatal(result.Status)
		}
	}
}
