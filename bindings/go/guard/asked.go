// A question that a guard has read. Its signatures have places: the first has the place 0. A mark says that the signature at a place is valid.

package guard

import (
	"context"
	"runtime"
	"sync"

	"conguraki/spki"
)

// An Asked is a question that a guard has read, with the marks of its valid signatures. It owns all that it needs, may be answered any number of
// times, and may be used by several goroutines. A copy of it is the same question: what closes one closes both. The zero Asked is as one that was
// closed.
type Asked struct {
	shared *sharedAsked
	count  int
	// answerOctets is the most octets of the lines of Explain or Reduce.
	answerOctets int
}

// A sharedAsked is what the copies of an Asked share. It is closed when none is left.
type sharedAsked struct {
	mutex  sync.Mutex
	handle askedHandle
	// What Verified returns: the sequence, the policy by which its signatures are listed, and how many of them Mark has marked in order: the first,
	// then the second, and so on. Other marks count for the answers of this question alone.
	sequence      []byte
	policy        Policy
	markedInOrder int
}

// close frees the memory of the question, if it is open. Go's collector calls it too, as a finalizer, once no copy is left.
func (s *sharedAsked) close() {
	s.mutex.Lock()
	defer s.mutex.Unlock()
	if s.handle != nil {
		closeAsked(s.handle)
		s.handle = nil
		runtime.SetFinalizer(s, nil)
	}
}

// lock locks a.shared.mutex and returns the open handle. The caller unlocks it. With the error ErrClosed nothing is locked.
func (a *Asked) lock() (askedHandle, error) {
	if a.shared == nil {
		return nil, ErrClosed
	}
	a.shared.mutex.Lock()
	if a.shared.handle == nil {
		a.shared.mutex.Unlock()
		return nil, ErrClosed
	}
	return a.shared.handle, nil
}

// expectOpen returns nil if the question is open, and otherwise ErrClosed.
func (a *Asked) expectOpen() error {
	_, err := a.lock()
	if err == nil {
		a.shared.mutex.Unlock()
	}
	return err
}

// A Signature is to be verified, and a ProvenKey is the key of a client. Package spki has both.
type (
	Signature = spki.Signature
	ProvenKey = spki.ProvenKey
)

// Count returns the number of signatures on which the answers depend, also after Close.
func (a *Asked) Count() int {
	return a.count
}

// Each calls a function with the place, from 0, of each signature that the decision depends on, and with the signature, in the order of the
// sequence. It ends without an error when the function returns false. Each signature is copied just before its call. Neighbours with equal keys share
// the octets of the key: do not change them. The error is ErrMemory, or ErrClosed if the question is closed before Each ends, also if it has no
// signature.
func (a *Asked) Each(use func(place int, signed Signature) bool) error {
	var previous Signature
	for place := 0; place < a.count; place++ {
		signed, err := a.signature(place, previous.Key)
		if err != nil {
			return err
		}
		if !use(place, signed) {
			return nil
		}
		previous = signed
	}
	return a.expectOpen()
}

// Signatures returns copies of all signatures that the decision depends on, in the order of the sequence. It is nil if the question is closed, or an
// allocation failed. Neighbours with equal keys share the octets of the key: do not change them.
func (a *Asked) Signatures() []Signature {
	listed := make([]Signature, 0, a.count)
	if a.Each(func(_ int, signed Signature) bool { listed = append(listed, signed); return true }) != nil {
		return nil
	}
	return listed
}

// signature returns a copy of the signature at a place, from 0, which must be below the count. `key` is the key of the signature before it, or nil:
// if both are equal, the result has `key` itself, so that no key is copied twice. The error is ErrClosed or ErrMemory.
func (a *Asked) signature(place int, key []byte) (Signature, error) {
	handle, err := a.lock()
	if err != nil {
		return Signature{}, err
	}
	defer a.shared.mutex.Unlock()
	return signature(handle, place, key)
}

// Mark says that the signature at this place, from 0, is valid. A signature that is not marked counts as not valid. A mark is for its place alone,
// also if the same signature is there twice, and it cannot be taken back. The error is ErrMisused if there is no such place, and ErrClosed after
// Close. Nothing is marked then.
func (a *Asked) Mark(place int) error {
	handle, err := a.lock()
	if err != nil {
		return err
	}
	defer a.shared.mutex.Unlock()
	if place < 0 {
		return ErrMisused
	}
	if err := mark(handle, place); err != nil {
		return err
	}
	if place == a.shared.markedInOrder {
		a.shared.markedInOrder++
	}
	return nil
}

// Verify calls a function with each signature, in order, up to the first for which it returns false, and marks those before that one. It returns how
// many these are, of Count. That is no yes, and a signature that is not valid is no error: Decide answers. To explain a denial, call it also where
// Possible is false. The error is that of Each, with the number 0.
func (a *Asked) Verify(verify Verify) (int, error) {
	return a.VerifyContext(context.Background(), func(_ context.Context, signature Signature) (bool, error) {
		return verify(signature), nil
	})
}

// VerifyContext is Verify by a function that may fail. The context is tested before the first signature and after each. The marks are set after the
// last call. The error is that of the function, of the context or of Each, and then nothing is marked, or ErrClosed if the question is closed while
// the marks are set.
func (a *Asked) VerifyContext(ctx context.Context, verify VerifyContext) (int, error) {
	if err := ctx.Err(); err != nil {
		return 0, err
	}
	// The number of signatures before the first that is not valid, and the error of `verify` or of the context.
	var valid int
	var failure error
	err := a.Each(func(_ int, signed Signature) bool {
		isValid, err := verify(ctx, signed)
		if err == nil {
			err = ctx.Err()
		}
		failure = err
		if err != nil || !isValid {
			return false
		}
		valid++
		return true
	})
	if failure != nil {
		err = failure
	}
	for place := 0; place < valid && err == nil; place++ {
		err = a.Mark(place)
	}
	if err != nil {
		return 0, err
	}
	return valid, nil
}

// Possible says whether the request would be granted if all signatures were valid. If not, no marks make it a yes, and no signature needs to be
// verified. True grants nothing. It is false after Close.
func (a *Asked) Possible() bool {
	handle, err := a.lock()
	if err != nil {
		return false
	}
	defer a.shared.mutex.Unlock()
	return possible(handle)
}

// Decide decides whether the request is granted, if exactly the marked signatures are valid. The error is ErrClosed after Close, or ErrMemory.
func (a *Asked) Decide() (Decision, error) {
	handle, err := a.lock()
	if err != nil {
		return Decision{}, err
	}
	defer a.shared.mutex.Unlock()
	return decide(handle)
}

// Explain says of each entry why it grants the request or does not, or which certificate stops all of them, if exactly the marked signatures are
// valid. The error is ErrTooLarge if a limit is exceeded, ErrMemory, or ErrClosed.
func (a *Asked) Explain() (Explanation, error) {
	text, err := a.lines(explainCommand)
	return Explanation{text}, err
}

// Reduce returns which right remains of each entry after all certificates, if exactly the marked signatures are valid: the lines of the program's
// command reduce. The errors are those of Explain.
func (a *Asked) Reduce() (string, error) {
	return a.lines(reduceCommand)
}

// Close frees the memory of the question. Its guard and other questions stay open. Close may be called at any time and more than once.
func (a *Asked) Close() {
	if a.shared != nil {
		a.shared.close()
	}
}

// lines returns the lines that explainCommand or reduceCommand writes, without the last line feed. The errors are those of Explain.
func (a *Asked) lines(command command) (string, error) {
	handle, err := a.lock()
	if err != nil {
		return "", err
	}
	defer a.shared.mutex.Unlock()
	return lines(handle, command, a.answerOctets)
}

// isWorthVerifying says whether there is a signature and the request would be granted if all were valid. Otherwise the decision is the same whichever
// signatures are marked, and Guard.Decide calls no verifier.
func (a *Asked) isWorthVerifying() bool {
	return a.count > 0 && a.Possible()
}
