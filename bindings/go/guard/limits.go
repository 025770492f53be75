// What bounds a question: the policy for hashes, and limits.

package guard

import (
	"fmt"
	"math"
)

// A Policy says which hashes name keys. The zero value is Strict.
type Policy int

const (
	// Strict is the policy under which hashes by SHA-256 and SHA-512 name keys. SHA-1 is broken.
	Strict Policy = 0
	// AllowSHA1 is the policy under which hashes by SHA-1 name keys too.
	AllowSHA1 Policy = 1
)

// Limits bound each question. A limit of zero is the library's own, which spki.h names; one below zero is ErrMisused. Nodes, Work and Answer are
// for Explain and Reduce: what exceeds one of them is ErrTooLarge.
type Limits struct {
	// Octets is the most octets of a question's texts together.
	Octets int
	// Certificates is the most certificates of a question.
	Certificates int
	// Words is the most strings of a request, with those in lists inside it.
	Words int
	// Nodes is the most nodes of one tag times nodes of another whose intersection is computed.
	Nodes int
	// Work is the most work of all certificates and entries together, as struct spki_limits of spki.h counts it.
	Work int
	// Answer is the most octets of the lines of Explain or Reduce, at most 256 MiB. A call reserves address space for as many, and uses the memory
	// that the lines need.
	Answer int
}

// Highest returns the highest limits: certificates and words are then limited by Octets alone. They are not for questions of strangers: on some
// questions within them an explanation takes seconds.
func Highest() Limits {
	return Limits{Octets: mostOctets, Certificates: math.MaxInt, Words: math.MaxInt, Nodes: mostNodes, Work: mostWork, Answer: mostAnswer}
}

// answerOctets returns the most octets of the lines of Explain or Reduce: Answer, or the library's own limit if that is 0.
func (l Limits) answerOctets() int {
	if l.Answer == 0 {
		return usualAnswer
	}
	return l.Answer
}

// check returns an ErrMisused if a limit is below zero, or if Answer is over mostAnswer. The library tests whether another limit is too high.
func (l Limits) check() error {
	for _, limit := range []int{l.Octets, l.Certificates, l.Words, l.Nodes, l.Work, l.Answer} {
		if limit < 0 {
			return fmt.Errorf("%w: a limit is %d", ErrMisused, limit)
		}
	}
	if l.Answer > mostAnswer {
		return fmt.Errorf("%w: the limit of an answer is %d", ErrMisused, l.Answer)
	}
	return nil
}
