// What a service asks a Guard.

package guard

import "time"

// A Question is what a service asks a guard. Each text is one value in any of the three forms of RFC 9804.
type Question struct {
	// Sequence is what the client shows: certificates and signatures, `(sequence ..)`.
	Sequence []byte
	// Key is the client's key, which it has proved to hold: spki.ProveKey or spki.AssumeKey makes it.
	Key ProvenKey
	// Words has the strings of the request, of any octets. The request is the list of them, or the string itself if there is one.
	Words []string
	// Request is the request as a text, if Words is nil.
	Request []byte
	// Time is the time of the service's own clock. Parts of a second do not count. A time before 1970 or past the year 9999 is refused as
	// BadDate, since only a clock that failed gives it.
	Time time.Time
	// Moment is the time as a date, such as "2026-03-01_12:00:00" in quotes, if Time is zero.
	Moment []byte
}

// joined returns the key, the request, the moment and the strings of the request in one piece, and the length of each: a uintptr has the size of C's
// size_t. It is for library.go: C must not be given memory of Go's that has pointers, as a list of strings does.
func (q *Question) joined() ([]byte, []uintptr) {
	key := q.Key.Text()
	lengths := append(make([]uintptr, 0, 3+len(q.Words)), uintptr(len(key)), uintptr(len(q.Request)), uintptr(len(q.Moment)))
	octets := len(key) + len(q.Request) + len(q.Moment)
	for _, word := range q.Words {
		lengths = append(lengths, uintptr(len(word)))
		octets += len(word)
	}
	joined := append(append(append(make([]byte, 0, octets), key...), q.Request...), q.Moment...)
	for _, word := range q.Words {
		joined = append(joined, word...)
	}
	return joined, lengths
}
