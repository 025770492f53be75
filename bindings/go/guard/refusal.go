// The errors of a Guard. A refusal is a line of the library that begins with `refused`.

package guard

import (
	"errors"
	"strings"
)

// The errors of this package, for errors.Is. With each of them nothing is granted.
var (
	// ErrRefused is each *Refusal.
	ErrRefused = errors.New("refused")
	// ErrTooLong is the refusal of a text or a question that exceeds a limit of octets, certificates or strings.
	ErrTooLong = errors.New("refused as too long")
	// ErrTooLarge is the refusal of an explanation or a reduction that exceeds a limit.
	ErrTooLarge = errors.New("refused TooLarge")
	// ErrMemory is the refusal of a call in which an allocation failed.
	ErrMemory = errors.New("refused Memory")
	// ErrMisused is the error of a wrong call: a policy that does not exist, a limit over the highest or below zero, a request or a time given in
	// two ways, a mark at a place without a signature, a Verified with a Sequence beside it or of another policy.
	ErrMisused = errors.New("libspki_c is misused")
	// ErrDenied is what Require returns for a no.
	ErrDenied = errors.New("no entry grants the request")
	// ErrClosed is the error of a call after Close, and of one on a zero Guard or Asked.
	ErrClosed = errors.New("the guard or the question is closed")
)

// A Refusal is a line that begins with `refused`: a text is not of the form that is required, a limit is exceeded, or an allocation failed. The lines
// are those of the program spki, whose manual lists them.
type Refusal struct {
	line string
}

// Error returns the line, such as `refused sequence 3 Shape`.
func (r *Refusal) Error() string {
	return r.line
}

// Part returns what is refused: `sequence`, `key`, `request`, `at` (the time), `question` (as a whole, by a limit), `acl`, or `form` for an
// access list or a text that is in none of the three forms within the limits. It is empty if the line names none, as in `refused TooLarge`.
func (r *Refusal) Part() string {
	words := strings.Fields(r.line)
	if len(words) < 3 {
		return ""
	}
	return words[1]
}

// Fault returns the name of the fault, such as `Shape`, `Bad`, `EmptyList`, `TooLarge` or `Memory`: the last word in the line with a capital letter
// at its beginning. A number may follow it, as in `refused form Bad 3`. Fault is empty if there is no such word.
func (r *Refusal) Fault() string {
	words := strings.Fields(r.line)
	for place := len(words) - 1; place >= 0; place-- {
		if first := words[place][0]; 'A' <= first && first <= 'Z' {
			return words[place]
		}
	}
	return ""
}

// Is says whether the refusal is of the kind `target`: each is ErrRefused, and some are ErrTooLong, ErrTooLarge or ErrMemory too. It is for
// errors.Is. Each refusal whose part is `question` is ErrTooLong, since only a limit refuses a question as a whole.
func (r *Refusal) Is(target error) bool {
	switch target {
	case ErrRefused:
		return true
	case ErrTooLong:
		return r.Fault() == "TooLong" || r.Part() == "question"
	case ErrTooLarge:
		return r.Fault() == "TooLarge"
	case ErrMemory:
		return r.Fault() == "Memory"
	}
	return false
}

// refusalOf returns the refusal of a line, as the library wrote it, with or without a line feed.
func refusalOf(line string) error {
	return &Refusal{withoutLineFeed(line)}
}
