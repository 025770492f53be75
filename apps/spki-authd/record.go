package main

// A record: the answer to a request, its HTTP response, and what its line in the log has.

import (
	"net/http"
	"strconv"
	"strings"
	"sync/atomic"
	"time"
)

// An answer is the answer to the web server, as `X-Spki-Answer` and the log have it.
type answer string

const (
	answerYes             answer = "yes"
	answerNo              answer = "no"
	answerRefused         answer = "refused"
	answerUnauthenticated answer = "unauthenticated"
	answerLimited         answer = "limited"
	answerFailed          answer = "failed"
	// To certificates that are left, and never to an inquiry.
	answerKept  answer = "kept"
	answerKnown answer = "known"
	answerFull  answer = "full"
)

// A record is one decision: the line of the log, and the answer to the web server. It has no key and no certificate, but their digests. Cached counts
// the signatures that were known to be valid, and Unverified those that were not verified since they could change nothing. Skipped counts the rows of
// a store that are not one entry of the principal that was read. Reason is the fault that the daemon has found, and Reasons is what `explain` notes of a
// denial. Kept is `used` where a guard has granted the request by certificates that
// were left. If none of them grants it, Certificates has the last that were tried. Address is noted only where it asks too often, and Target only
// where there is no Request.
type record struct {
	Time         string   `json:"time"`
	ID           string   `json:"id,omitempty"`
	Host         string   `json:"host,omitempty"`
	Address      string   `json:"address,omitempty"`
	Answer       answer   `json:"answer"`
	Status       int      `json:"status"`
	Key          string   `json:"key,omitempty"`
	Proof        string   `json:"proof,omitempty"`
	Kept         string   `json:"kept,omitempty"`
	Request      []string `json:"request,omitempty"`
	Entry        int      `json:"entry,omitempty"`
	Certificates []string `json:"certificates,omitempty"`
	Cached       int      `json:"cached,omitempty"`
	Unverified   int      `json:"unverified,omitempty"`
	List         string   `json:"list,omitempty"`
	Skipped      int      `json:"skipped,omitempty"`
	Reason       string   `json:"reason,omitempty"`
	Reasons      string   `json:"reasons,omitempty"`
	Target       string   `json:"target,omitempty"`
	Microseconds int64    `json:"microseconds"`
	// The number of the rule that says which request it is, from 1, or 0.
	rule int
	// Where the list is in a store, the numbers there of the entries in the guard, in their order.
	numbers []int
	// How many certificates precede the first that has ended, or whose signature was verified and is not valid. explain marks these as valid.
	mayCount int
}

// entryNumber returns the number of an entry as the log has it, by its place in the guard, from 1. Where entries are in a store, that is the number in the
// store, and otherwise the place itself. 0, which is no entry, stays 0.
func (r *record) entryNumber(place int) int {
	if place > 0 && place <= len(r.numbers) {
		return r.numbers[place-1]
	}
	return place
}

// withReason returns the record with an answer, and with the fault that is the reason of it.
func (r record) withReason(answer answer, fault error) record {
	r.Answer, r.Reason = answer, fault.Error()
	return r
}

// noteSequence notes the list by which a question is decided, and the certificates of its sequence. `notEnded` is how many of these precede the first that
// has ended early, or the number of all. If one has ended, that is the reason, and those behind it are left out.
func (r *record) noteSequence(list *list, sequence *shownSequence, notEnded int) {
	r.List, r.numbers, r.Skipped, r.Certificates, r.mayCount = list.digest, list.numbers, list.skipped, sequence.names, notEnded
	if notEnded < len(sequence.names) {
		r.Certificates = sequence.names[:notEnded+1]
		r.Reason = "certificate " + sequence.names[notEnded] + " has ended"
	}
}

// status returns the HTTP status of an answer. `refused` is `refused_status` of the configuration, 400 or 403. Where it is 403, as nginx needs it,
// `limited` is 403 too, since nginx takes no 429 either. `failed` is 503. Only `yes` is 200: so the answer to certificates that are left is no grant. nginx
// would take the 201 of these for a grant, but it asks by GET, and they are left by PUT.
func (a answer) status(refused int) int {
	switch a {
	case answerYes:
		return http.StatusOK
	case answerNo:
		return http.StatusForbidden
	case answerUnauthenticated:
		return http.StatusUnauthorized
	case answerRefused:
		return refused
	case answerKept, answerKnown:
		return http.StatusCreated
	case answerFull:
		return http.StatusInsufficientStorage
	case answerLimited:
		if refused == http.StatusForbidden {
			return refused
		}
		return http.StatusTooManyRequests
	}
	return http.StatusServiceUnavailable
}

// response returns the HTTP response to the web server, in `room`, which is overwritten, or in a new buffer if `room` is too small. `now` is for its date.
// isLast has it say that the connection is closed. It has no body, so it is the same for HEAD. Its headers have digests, numbers, words of the daemon and
// lines of the library, and nothing that a client sent.
func (r *record) response(room []byte, now time.Time, isLast bool) []byte {
	text := append(room[:0], "HTTP/1.1 "...)
	text = strconv.AppendInt(text, int64(r.Status), 10)
	text = append(append(append(text, ' '), http.StatusText(r.Status)...), "\r\nCache-Control: no-store\r\nContent-Length: 0\r\nDate: "...)
	text = append(text, secondOf(now).date...)
	header := func(name, value string) {
		text = append(append(append(append(text, "\r\n"...), name...), ": "...), value...)
	}
	header("X-Spki-Answer", string(r.Answer))
	if r.Key != "" {
		header("X-Spki-Key", r.Key)
	}
	if r.Entry > 0 {
		header("X-Spki-Entry", "")
		// (the number is appended without a string of its own, which would take memory)
		text = strconv.AppendInt(text, int64(r.Entry), 10)
	}
	if r.Answer == answerRefused {
		header("X-Spki-Reason", strings.ReplaceAll(r.Reason, "\n", ", "))
	}
	if r.Status == http.StatusUnauthorized {
		header("WWW-Authenticate", "SPKI")
	}
	if isLast {
		header("Connection", "close")
	}
	return append(text, "\r\n\r\n"...)
}

// An event is a line on standard error, about the daemon itself. Event is what was done, with ` not` behind it if Detail has a fault, such as
// `started`, `reloaded not` or `ended`: examples/nginx/asking.sh takes it out of the line by a pattern. List and EndedDigest are digests of the lists
// and of the ended certificates, and Entries and Ended the numbers of both.
type event struct {
	Time        string `json:"time"`
	Event       string `json:"event"`
	Detail      string `json:"detail,omitempty"`
	Entries     int    `json:"entries"`
	List        string `json:"list,omitempty"`
	Ended       int    `json:"ended"`
	EndedDigest string `json:"ended_digest,omitempty"`
}

// A second is a second of the clock, since 1970, as the log and the date of a response write it.
type second struct {
	unix      int64
	log, date string
}

// lastSecond is the second that was written last. To write one takes a microsecond.
var lastSecond atomic.Pointer[second]

// secondOf returns the second of a moment, in UTC. It is kept until another second is asked for.
func secondOf(moment time.Time) *second {
	if last := lastSecond.Load(); last != nil && last.unix == moment.Unix() {
		return last
	}
	moment = moment.UTC()
	next := &second{moment.Unix(), moment.Format("2006-01-02T15:04:05"), moment.Format(http.TimeFormat)}
	lastSecond.Store(next)
	return next
}

// stamp returns a moment as the log has it, in UTC with milliseconds.
func stamp(moment time.Time) string {
	milliseconds := moment.Nanosecond() / int(time.Millisecond)
	var room [len("2006-01-02T15:04:05.000Z")]byte
	text := append(room[:0], secondOf(moment).log...)
	return string(append(text, '.', byte('0'+milliseconds/100), byte('0'+milliseconds/10%10), byte('0'+milliseconds%10), 'Z'))
}
