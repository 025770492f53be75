package main

// A test of how moments are written.

import (
	"strings"
	"testing"
	"time"
)

// TestMoments compares how moments are written, in the log and in the date of a response, with what package time writes. Some are in the second of
// the moment before, whose text secondOf keeps, and others are not.
func TestMoments(t *testing.T) {
	begin := time.Date(2026, 2, 28, 23, 59, 59, 999_999_999, time.FixedZone("east", 3600))
	for _, moment := range []time.Time{begin, begin.Add(time.Nanosecond), begin.Add(time.Millisecond), begin.Add(-time.Hour), begin, {}, time.Unix(-1, 5)} {
		if text, want := stamp(moment), moment.UTC().Format("2006-01-02T15:04:05.000Z"); text != want {
			t.Errorf("%s, not %s", text, want)
		}
		granted := record{Status: 200, Answer: answerYes}
		if want := moment.UTC().Format(time.RFC1123); !strings.Contains(string(granted.response(nil, moment, !isLast)), "\r\nDate: "+strings.Replace(want, "UTC", "GMT", 1)+"\r\n") {
			t.Errorf("no date %s: %s", want, granted.response(nil, moment, !isLast))
		}
	}
}
