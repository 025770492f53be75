// Package guard decides whether the holder of a key may do what it requests, by a proved library: access lists and certificates of SPKI,
// RFC 2693.
//
// A service reads its access list once, into a Guard, and asks it a Question for each request. The parts of a question come from different
// sources, so each is a separate text, and no octets of one part can become another part. The service verifies the signatures, for example
// by the package verify.
//
//	list, err := guard.Open(octets, guard.Strict, guard.Limits{})
//	...
//	decision, err := list.Decide(guard.Question{
//		Sequence: sequence,                            // from the client
//		Key:      spki.AssumeKey(key),                 // of the client, who has proved to hold it, as by TLS; else spki.ProveKey
//		Words:    []string{"packages", "read", path},  // what is asked for
//		Time:     time.Now(),
//	}, verify.Signature)
//	if err != nil || !decision.Granted() {
//		// denied
//	}
//
// A yes holds from its moment to Until, and a no for its moment alone.
//
// Any number of goroutines may call. At the same time so many calls of the library last, each with a thread of the system: twice the processors that
// Go has at the start, and 56. The others wait. No call waits for a verifier, which may call this package too.
//
// The library's decisions are proved. The lines of this module are tested and not proved.
//
// The static library of this repository is linked. CGO_CFLAGS=-I and CGO_LDFLAGS=-L name another folder of spki.h and libspki_c.a. With the
// build tag spki_shared the shared library is linked that pkg-config knows.
package guard

import (
	"context"
	"fmt"
	"runtime"
	"sync"
	"time"
)

// Version is the version of this module. It uses a library whose first two numbers are the same.
const Version = "0.2.0"

// A Guard is an access list that was read once and is asked often, also by several goroutines at the same time. A copy of a Guard is the same
// guard: what closes one closes both. The zero Guard is as one that was closed.
type Guard struct {
	shared *sharedGuard
	log    func(Event)
	// answerOctets is the most octets of the lines of Explain or Reduce.
	answerOctets int
}

// An Event is what a guard has decided, for a log. It grants nothing.
type Event struct {
	Question Question
	Decision Decision
	// Err is nil for a no, also for one that Require returns as ErrDenied.
	Err error
	// Took is the time from the call to the decision, with the verifier's.
	Took time.Duration
}

// Logged returns a copy of the guard that calls a function after each Decide, DecideContext, DecideVerified and Require, before they return, in place
// of that of an earlier Logged, or none for nil. `g` itself stays as it was. The function may be called by several goroutines at the same time. If it
// panics, so does the decision, and nothing is granted. It is not called for a decision whose verifier panics.
func (g *Guard) Logged(log func(Event)) *Guard {
	return &Guard{g.shared, log, g.answerOctets}
}

// A sharedGuard is what the copies of a Guard share. It is closed when none is left.
type sharedGuard struct {
	mutex  sync.RWMutex
	handle guardHandle
	policy Policy
}

// close closes the handle, if it is open: closeGuard says when its memory is freed. Go's collector calls it too, once no copy is left.
func (s *sharedGuard) close() {
	s.mutex.Lock()
	defer s.mutex.Unlock()
	if s.handle != nil {
		closeGuard(s.handle)
		s.handle = nil
		runtime.SetFinalizer(s, nil)
	}
}

// lock locks g.shared.mutex for reading and returns the open handle. The caller unlocks it by RUnlock. With the error ErrClosed nothing is locked.
func (g *Guard) lock() (guardHandle, error) {
	if g.shared == nil {
		return nil, ErrClosed
	}
	g.shared.mutex.RLock()
	if g.shared.handle == nil {
		g.shared.mutex.RUnlock()
		return nil, ErrClosed
	}
	return g.shared.handle, nil
}

// A Verify says whether a signature is valid.
type Verify func(signature Signature) bool

// A VerifyContext is a Verify that may take time or fail, as one that asks another service. With an error it is not known whether the
// signature is valid, and nothing is granted.
type VerifyContext func(ctx context.Context, signature Signature) (bool, error)

// Open reads an access list, `(acl entry ..)`, in any of the three forms of RFC 9804. The error is a *Refusal if the text is no access list, is one
// that Canonical would refuse, or an allocation failed, ErrMisused if there is no such policy, or a limit is over the highest or below zero, and
// another one if the library is of another version.
func Open(list []byte, policy Policy, limits Limits) (*Guard, error) {
	if err := limits.check(); err != nil {
		return nil, err
	}
	handle, err := open(list, policy, limits)
	if err != nil {
		return nil, err
	}
	shared := &sharedGuard{handle: handle, policy: policy}
	runtime.SetFinalizer(shared, (*sharedGuard).close)
	return &Guard{shared: shared, answerOctets: limits.answerOctets()}, nil
}

// Close closes the guard: a later question is ErrClosed. Questions that it was asked stay open, and its memory is freed once they are closed too. It
// may be called at any time and more than once.
func (g *Guard) Close() {
	if g.shared != nil {
		g.shared.close()
	}
}

// Entries returns the number of entries of the list, or 0 after Close.
func (g *Guard) Entries() int {
	handle, err := g.lock()
	if err != nil {
		return 0
	}
	defer g.shared.mutex.RUnlock()
	return entries(handle)
}

// Ask opens a question, whose signatures the caller marks. Nothing of the argument is used after Ask returns. The error is a *Refusal if a part of
// the question, which it names, cannot be read or exceeds a limit, or if an allocation failed. It is ErrMisused if the request or the time is given
// in two ways, and ErrClosed after Close.
func (g *Guard) Ask(question Question) (*Asked, error) {
	asked, err := g.ask(&question)
	if err != nil {
		return nil, err
	}
	runtime.SetFinalizer(asked.shared, (*sharedAsked).close)
	return &asked, nil
}

// ask is Ask without the finalizer, for a caller that closes the question in any case. It copies all that it keeps of `question`.
func (g *Guard) ask(question *Question) (Asked, error) {
	handle, err := g.lock()
	if err != nil {
		return Asked{}, err
	}
	defer g.shared.mutex.RUnlock()
	opened, count, err := ask(handle, question)
	if err != nil {
		return Asked{}, err
	}
	shared := &sharedAsked{handle: opened, sequence: append([]byte(nil), question.Sequence...), policy: g.shared.policy}
	return Asked{shared: shared, count: count, answerOctets: g.answerOctets}, nil
}

// Decide asks a question, verifies its signatures in order, up to the first that is not valid, and decides. None is verified if the request would be
// denied even if all were valid. The error is that of Ask: a *Refusal, ErrMisused or ErrClosed. With an error the decision is a no.
func (g *Guard) Decide(question Question, verify Verify) (Decision, error) {
	return g.decideAndLog(question, func() (Decision, error) { return g.decide(&question, verify) })
}

// decideAndLog returns what the function `decide` returns. If the guard is Logged, it calls the function of the log with that, as an Event, before it
// returns.
func (g *Guard) decideAndLog(question Question, decide func() (Decision, error)) (Decision, error) {
	if g.log == nil {
		return decide()
	}
	start := time.Now()
	decision, err := decide()
	g.log(Event{question, decision, err, time.Since(start)})
	return decision, err
}

// decide is Decide without the log. It verifies no signature if the decision does not depend on them.
func (g *Guard) decide(question *Question, verify Verify) (Decision, error) {
	asked, err := g.ask(question)
	if err != nil {
		return Decision{}, err
	}
	defer asked.Close()
	if asked.isWorthVerifying() {
		if _, err := asked.Verify(verify); err != nil {
			return Decision{}, err
		}
	}
	return asked.Decide()
}

// DecideContext is Decide by a function that may fail. The context is tested before the first signature and after each, and also if none is verified.
// The error is or wraps that of Ask, of the context or of the function. With an error the decision is a no.
func (g *Guard) DecideContext(ctx context.Context, question Question, verify VerifyContext) (Decision, error) {
	return g.decideAndLog(question, func() (Decision, error) { return g.decideContext(ctx, &question, verify) })
}

// decideContext is DecideContext without the log. It verifies no signature if the decision does not depend on them.
func (g *Guard) decideContext(ctx context.Context, question *Question, verify VerifyContext) (Decision, error) {
	asked, err := g.ask(question)
	if err != nil {
		return Decision{}, err
	}
	defer asked.Close()
	if err := ctx.Err(); err != nil {
		return Decision{}, err
	}
	if asked.isWorthVerifying() {
		if _, err := asked.VerifyContext(ctx, verify); err != nil {
			return Decision{}, fmt.Errorf("a signature could not be verified: %w", err)
		}
	}
	return asked.Decide()
}

// Require decides as DecideContext does, and returns the number of the entry that grants the request, from 1, or 0 with an error. A no is an error
// too: ErrDenied. So a caller tests nothing but the error.
func (g *Guard) Require(ctx context.Context, question Question, verify VerifyContext) (int, error) {
	decision, err := g.DecideContext(ctx, question, verify)
	if err == nil && !decision.Granted() {
		err = ErrDenied
	}
	if err != nil {
		return 0, err
	}
	return decision.Entry(), nil
}

// Explain asks a question, verifies its signatures in order, up to the first that is not valid, and says of each entry why it grants the request or
// does not, or which certificate stops all of them. The error is that of Ask, or ErrTooLarge. The time of a call grows with the number of entries.
func (g *Guard) Explain(question Question, verify Verify) (Explanation, error) {
	asked, err := g.ask(&question)
	if err != nil {
		return Explanation{}, err
	}
	defer asked.Close()
	if _, err := asked.Verify(verify); err != nil {
		return Explanation{}, err
	}
	return asked.Explain()
}

// Reduce asks a question, verifies its signatures in order, up to the first that is not valid, and returns which right remains of each entry after
// all certificates: the lines of the program's command reduce. The error is that of Ask, or ErrTooLarge.
func (g *Guard) Reduce(question Question, verify Verify) (string, error) {
	asked, err := g.ask(&question)
	if err != nil {
		return "", err
	}
	defer asked.Close()
	if _, err := asked.Verify(verify); err != nil {
		return "", err
	}
	return asked.Reduce()
}
