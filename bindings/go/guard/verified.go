// A Verified keeps, for later questions, which signatures of a sequence are valid. A mark says that the signature at a place, from 0, is valid.

package guard

// A Verified is a sequence of which the first signatures, or all or none, were marked as valid in a question. It has the sequence, so what was
// verified for one client does not count for what another one shows. Only Asked.Verified makes one with marks. The zero Verified is the sequence
// without certificates.
type Verified struct {
	sequence []byte
	policy   Policy
	// How many signatures the sequence lists, and how many of them are marked, from the first on.
	listed, marked int
}

// noCertificates is a sequence that lists no signatures.
var noCertificates = []byte("(8:sequence)")

// Verified returns the sequence of a question with the marks that were set in order: the first signature, then the second, and so on. A mark that was
// set before that of an earlier place, and not once more after it, is left out, with all behind it. So a service need not verify a sequence again
// that it is shown again. Verified may be called after Close too. That of the zero Asked is the zero Verified.
func (a *Asked) Verified() Verified {
	if a.shared == nil {
		return Verified{}
	}
	a.shared.mutex.Lock()
	defer a.shared.mutex.Unlock()
	return Verified{a.shared.sequence, a.shared.policy, a.count, a.shared.markedInOrder}
}

// Sequence returns a copy of the sequence's octets.
func (v Verified) Sequence() []byte {
	return append([]byte(nil), v.text()...)
}

// text returns the octets of the sequence without a copy, so the caller must not change them. For the zero Verified they are noCertificates.
func (v Verified) text() []byte {
	if v.sequence == nil {
		return noCertificates
	}
	return v.sequence
}

// First returns the same sequence with the first `most` of its marks, or with all if it has fewer. A number below 0 is 0. So a service can leave out
// the mark of a signature that its verifier would now reject, and all behind it.
func (v Verified) First(most int) Verified {
	if most < 0 {
		most = 0
	}
	if v.marked > most {
		v.marked = most
	}
	return v
}

// Canonical returns the same marks with the sequence in canonical form, which a guard reads in three quarters of the time. The conversion takes as
// long as a decision. The canonical form may have more octets, and so exceed a limit that the sequence as it was shown does not. The error is a
// *Refusal if an allocation failed.
func (v Verified) Canonical() (Verified, error) {
	canonical, err := Canonical(v.text())
	if err != nil {
		return Verified{}, err
	}
	v.sequence = canonical
	return v, nil
}

// DecideVerified decides a question whose certificates are those of a Verified, if exactly its marks count. It is Ask, Mark and Decide in one call.
// The error is ErrMisused if the question has a Sequence, or if the Verified lists signatures and comes from a guard with another policy. Otherwise
// it is that of Ask: a *Refusal, ErrMisused or ErrClosed.
func (g *Guard) DecideVerified(question Question, verified Verified) (Decision, error) {
	if len(question.Sequence) > 0 {
		return g.decideAndLog(question, func() (Decision, error) { return Decision{}, ErrMisused })
	}
	decided, logged := question, question
	decided.Sequence = verified.text()
	if g.log != nil {
		// (a copy, which the function of the log may change)
		logged.Sequence = verified.Sequence()
	}
	return g.decideAndLog(logged, func() (Decision, error) { return g.decideVerified(&decided, verified) })
}

// decideVerified is DecideVerified without the log, for a question that has the sequence.
func (g *Guard) decideVerified(question *Question, verified Verified) (Decision, error) {
	handle, err := g.lock()
	if err != nil {
		return Decision{}, err
	}
	defer g.shared.mutex.RUnlock()
	if verified.listed > 0 && verified.policy != g.shared.policy {
		return Decision{}, ErrMisused
	}
	return decideVerified(handle, question, verified.listed, verified.marked)
}
