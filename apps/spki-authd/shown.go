package main

// The sequences of certificates that clients have shown and whose signatures were all valid. They are kept, so that their signatures are not read and
// verified again.

import (
	"crypto/sha256"
	"encoding/hex"
	"strings"
	"sync"

	"conguraki/spki/guard"
)

// A shownSequence is a sequence of certificates that a client has shown. Those that are kept have only valid signatures. Which signatures a guard lists
// depends on the sequence and the policy alone, the policy of a daemon does not change, and a signature stays valid: so nothing in it can become wrong. It
// says nothing of the key, the request, the time, the list and the ended certificates: each question is decided anew.
type shownSequence struct {
	// The sequence with its valid signatures, and its octets: as it was shown, and from the second time on in canonical form, which `once` makes.
	verified guard.Verified
	text     []byte
	once     sync.Once
	// The SHA-256 digests of the certificates, in the order of their signatures, and the same in hexadecimal digits, as the log has them.
	digests []digest
	names   []string
}

// The most sequences that are kept, and the most octets of one that is: of the text that was shown.
const (
	mostShown       = 1000
	mostShownOctets = 8192
)

// noCertificates is the text of a sequence without certificates, in canonical form. emptySequence is the sequence of a client that shows none.
var (
	noCertificates = guard.Verified{}.Sequence()
	emptySequence  = &shownSequence{text: noCertificates}
)

// sequences keeps the sequences that were shown most recently and have only valid signatures, by their texts as they were shown.
type sequences struct {
	kept *recentMap[string, *shownSequence]
}

// newSequences returns an empty `sequences`. `cache` is the number of signatures that the daemon keeps: with 0 no sequence is kept either.
func newSequences(cache int) *sequences {
	if cache == 0 {
		return &sequences{newRecentMap[string, *shownSequence](0)}
	}
	return &sequences{newRecentMap[string, *shownSequence](mostShown)}
}

// get returns a sequence that is kept, by its text as it was shown, or nil. For an empty text it returns emptySequence.
func (s *sequences) get(text string) *shownSequence {
	if text == "" {
		return emptySequence
	}
	sequence, _ := s.kept.get(text)
	return sequence
}

// add keeps a sequence by its text as it was shown, unless that is too long or no sequences are kept. Its caller has verified all signatures, and set
// sequence.verified.
func (s *sequences) add(text string, sequence *shownSequence) {
	if len(text) > mostShownOctets || s.kept.half == 0 {
		return
	}
	sequence.text = []byte(text)
	// (`text` is a part of a header's value, which may be far longer and would be kept with it)
	s.kept.add(strings.Clone(text), sequence)
}

// canonical returns the valid signatures of a sequence, with its text in canonical form, and that text. The first call makes it, which takes as long
// as a decision: so callers ask when the sequence is shown for the second time. If it fails, for want of memory or since too many questions are
// decided at once, both stay those of the text as it was shown.
func (s *shownSequence) canonical() (guard.Verified, []byte) {
	s.once.Do(func() {
		if library.enter() != nil {
			return
		}
		defer library.leave()
		if canonical, err := s.verified.Canonical(); err == nil {
			s.verified, s.text = canonical, canonical.Sequence()
		}
	})
	return s.verified, s.text
}

// signaturesIn returns copies of all signatures of a question. Unlike Asked.Signatures it returns an error, guard.ErrMemory or guard.ErrClosed, where they
// cannot be read: so no sequence is taken for one without signatures.
func signaturesIn(opened *guard.Asked) ([]guard.Signature, error) {
	signatures := make([]guard.Signature, 0, opened.Count())
	err := opened.Each(func(_ int, signature guard.Signature) bool { signatures = append(signatures, signature); return true })
	return signatures, err
}

// newShownSequence returns the sequence that has these signatures, with the digests of its certificates. It has no text yet, and it does not test whether
// the signatures are valid.
func newShownSequence(signatures []guard.Signature) *shownSequence {
	sequence := &shownSequence{digests: make([]digest, len(signatures)), names: make([]string, len(signatures))}
	for place, signature := range signatures {
		sequence.digests[place] = sha256.Sum256(signature.Message)
		sequence.names[place] = hex.EncodeToString(sequence.digests[place][:])
	}
	return sequence
}

// countNotEnded returns how many certificates precede the first that has ended early, or the number of all. It fails if there are certificates and a
// store is stale, since the store may know that one has ended.
func (s *shownSequence) countNotEnded(present *access) (int, error) {
	if len(s.digests) > 0 {
		if err := present.checkStoresFresh(); err != nil {
			return 0, err
		}
	}
	for place, certificate := range s.digests {
		if present.hasEnded(certificate) {
			return place, nil
		}
	}
	return len(s.digests), nil
}

// markFirst marks the first signatures of a question as valid, as many as `valid`. It fails if the question is closed or has fewer.
func markFirst(opened *guard.Asked, valid int) error {
	for place := 0; place < valid; place++ {
		if err := opened.Mark(place); err != nil {
			return err
		}
	}
	return nil
}
