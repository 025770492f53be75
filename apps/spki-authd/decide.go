package main

// How a request is decided. A record is the answer to it, and its line in the log. Each decision is one of the library, by an access list and the
// certificates that the client shows.

import (
	"errors"
	"strings"
	"time"

	"conguraki/spki/guard"
)

// A decider answers what the web server asks. Each yes is the decision of a guard, which is the library's checker of requests by an access list.
type decider struct {
	config *config
	// What reads the keys of TLS certificates.
	keys *keys
	// The access lists and ended certificates that are in force.
	keeper accessKeeper
	// The signatures, and the whole sequences of certificates, that are known to be valid.
	cache     *cache
	sequences *sequences
	// What verifies signed requests, and what keeps certificates that clients have left: each is nil if the configuration has none.
	requests *requestVerifier
	chains   chainKeeper
	// What the metrics count: the answers, and how often the time of day went back.
	counts *counts
	clock  clock
	// How often each key and each address may ask, and each address may leave certificates.
	byKey, byAddress, byLeaving *rateLimiter
	// How often denials are explained, of all keys together.
	explanations *rateLimiter
	// The clock, and what verifies a signature of a certificate. Tests set others.
	now    func() time.Time
	verify guard.Verify
	// What writes the line of a grant, and what writes every other line. When they return they use the line's octets no longer.
	logGrant func(line []byte) error
	logOther func(line []byte)
}

// The most octets of reasons, and of a target that is refused or that no rule fits, in the log.
const (
	mostReasons = 2048
	mostTarget  = 256
)

// notExplained is what the log has in place of reasons for a denial beyond explain_rate.
const notExplained = "not explained: too many denials"

var (
	errNoCertificate = errors.New("the client has shown no certificate of TLS, and no signature that is read")
	errNoRule        = errors.New("no rule says which request this is")
	errNoList        = errors.New("no access list is for this host and path")
	errOftenAddress  = errors.New("the address asks more often than address_rate")
	errOftenKey      = errors.New("the key asks more often than key_rate")
	errOftenLeft     = errors.New("the address leaves more certificates than leave_rate")
)

// decide returns the record of an inquiry at a moment, with its answer, which is yes only if a guard has granted the request. The record has neither a
// time nor a status yet.
func (d *decider) decide(inquiry *inquiry, now time.Time) record {
	result := record{Answer: answerNo, ID: inquiry.id, Host: inquiry.host}
	if err := d.whyLimited(inquiry, now); err != nil {
		result.Address = cut(inquiry.address, mostID)
		return result.withReason(answerLimited, err)
	}
	client, proof, err := d.clientOf(inquiry)
	if err != nil && errors.Is(err, errNoCertificate) {
		return result.withReason(answerUnauthenticated, err)
	}
	if err != nil {
		return result.withReason(answerRefused, err)
	}
	result.Key = client.keyDigest
	if proof != nil {
		result.Proof = bySignature
	}
	if !d.byKey.allows(client.keyDigest, now) {
		return result.withReason(answerLimited, errOftenKey)
	}
	if inquiry.body != nil {
		// (the client leaves certificates for its later requests, and asks for nothing else)
		return d.keepCertificates(result, client.key, proof, inquiry)
	}
	path, err := pathOf(inquiry.target, d.config.Limits.PathOctets)
	if err != nil {
		result.Target = targetForLog(inquiry.target)
		return result.withReason(answerRefused, err)
	}
	result.Request, result.rule = requestOf(d.config.Requests, inquiry.host, inquiry.method, path)
	if result.Request == nil {
		result.Target = cut(inquiry.method+" "+path, mostTarget)
		return result.withReason(answerNo, errNoRule)
	}
	d.judgeAll(&result, client.key, path, inquiry, now)
	return d.takeNonce(result, proof)
}

// whyLimited returns errOftenAddress or errOftenLeft if the address of an inquiry has asked, or left certificates, too often at `now`, or nil. It counts
// the inquiry. All clients whose address the web server does not say have one together.
func (d *decider) whyLimited(inquiry *inquiry, now time.Time) error {
	network := networkOf(inquiry.address)
	if !d.byAddress.allows(network, now) {
		return errOftenAddress
	}
	// (only a request that leaves certificates has a body)
	if inquiry.body != nil && !d.byLeaving.allows(network, now) {
		return errOftenLeft
	}
	return nil
}

// targetForLog returns what the log has of a target that is refused. A query may have a password or a token, and is left out.
func targetForLog(target string) string {
	path, _, _ := strings.Cut(target, "?")
	return cut(path, mostTarget)
}

// judge asks the guard of a host and a path whether a key may make the request in a record, and sets the record's answer, which is `no` before.
// `path` is decoded. `sequence` is in transport form, or empty if no certificate is shown: then a denial is `unauthenticated`, since certificates may
// help. If it cannot be decided, the answer is `no` where no list is for the host and the path, and else `refused` or `failed`, as answerOf says.
func (d *decider) judge(result *record, key guard.ProvenKey, path, sequence string, now time.Time) {
	question := guard.Question{Key: key, Words: result.Request, Time: now}
	var decision guard.Decision
	var err error
	if verified := d.sequences.get(sequence); verified != nil {
		decision, err = d.decideKnown(result, question, path, verified)
	} else {
		decision, err = d.decideAnew(result, question, path, sequence)
	}
	switch {
	case err != nil && errors.Is(err, errNoList):
		*result = result.withReason(answerNo, err)
	case err != nil:
		*result = result.withReason(answerOf(err), err)
	case decision.Granted():
		result.Answer, result.Entry = answerYes, result.entryNumber(decision.Entry())
	case sequence == "":
		result.Answer = answerUnauthenticated
	}
}

// decideKnown decides a question by a sequence whose signatures are known to be valid, and notes the sequence in a record. A certificate that has
// ended early counts as not verified, and so do those behind it. `question` has no sequence of its own, and `path` is decoded. It fails with
// errNoList or errBusy, if a store is stale or cannot be read, or if the library refuses the question.
func (d *decider) decideKnown(result *record, question guard.Question, path string, sequence *shownSequence) (guard.Decision, error) {
	signatures, text := sequence.canonical()
	valid := 0
	var decision guard.Decision
	// (DecideVerified requires a question without a sequence, and a store needs the sequence, to find the entries that can matter)
	whole := question
	whole.Sequence = text
	_, list, err := d.withList(&whole, result.Host, path, func(present *access, list *list) (err error) {
		if valid, err = sequence.countNotEnded(present); err == nil {
			decision, err = list.guard.DecideVerified(question, signatures.First(valid))
		}
		return err
	})
	if err == nil {
		result.noteSequence(list, sequence, valid)
		result.Cached = valid
	}
	return decision, err
}

// withList calls `use` with the access and the list that are in force for a host and a path, and returns both and the error of `use`. Of a list in a store
// it takes only the entries that the question needs, and closes the list of them afterwards if the store does not keep it (isPassing). If the list is closed
// at that moment, as by a reload, `use` is called again, with the new list. It fails with errNoList if no list is for the host and the path, with errBusy if
// too many questions are decided at once, and as store.list does.
func (d *decider) withList(question *guard.Question, host, path string, use func(present *access, list *list) error) (*access, *list, error) {
	for {
		present, list, err := d.keeper.listFor(host, path)
		if err == nil && list.store != nil {
			list, err = list.store.list(question)
		}
		if err != nil {
			return nil, nil, err
		}
		err = list.useAtGate(present, use)
		if list.isPassing {
			list.guard.Close()
		}
		if err == nil || !errors.Is(err, guard.ErrClosed) {
			return present, list, err
		}
	}
}

// useAtGate calls `use` with an access and this list, as soon as the gate `library` has room for one more call, and returns its error. If the gate has no
// room for timeAtGate, it fails with errBusy, and does not call `use`.
func (l *list) useAtGate(present *access, use func(present *access, list *list) error) error {
	if err := library.enter(); err != nil {
		return err
	}
	defer library.leave()
	return use(present, l)
}

// decideAnew decides a question by certificates whose signatures are not all known to be valid, and notes them in a record. `sequence` has the
// certificates in transport form. `path` is decoded. It fails with errNoList or errBusy, if a store is stale or cannot be read, or if the library
// refuses the question.
func (d *decider) decideAnew(result *record, question guard.Question, path, sequence string) (decision guard.Decision, err error) {
	question.Sequence = []byte(sequence)
	_, _, err = d.withList(&question, result.Host, path, func(present *access, list *list) (err error) {
		decision, err = d.decideBy(result, present, list, question, sequence)
		return err
	})
	return decision, err
}

// decideBy is decideAnew by a list. It verifies signatures only if no certificate has ended early, and the request would be granted if all signatures
// were valid: so a client that gets no right by them costs no verification. Otherwise the record counts those in front of the first ended one as not
// verified. If all signatures are valid, the sequence is kept for decideKnown, by its text `sequence`. It fails if a store is stale, if the library
// refuses the question, or with guard.ErrClosed if the list was closed.
func (d *decider) decideBy(result *record, present *access, list *list, question guard.Question, sequence string) (guard.Decision, error) {
	opened, err := list.guard.Ask(question)
	if err != nil {
		return guard.Decision{}, err
	}
	defer opened.Close()
	signatures, err := signaturesIn(opened)
	if err != nil {
		return guard.Decision{}, err
	}
	certificates := newShownSequence(signatures)
	notEnded, err := certificates.countNotEnded(present)
	if err != nil {
		return guard.Decision{}, err
	}
	result.noteSequence(list, certificates, notEnded)
	valid, canHelp := 0, notEnded == len(signatures) && opened.Possible()
	if canHelp {
		valid = d.countValid(result, certificates, signatures)
	} else {
		result.Unverified = notEnded
	}
	if err := markFirst(opened, valid); err != nil {
		return guard.Decision{}, err
	}
	decision, err := opened.Decide()
	if err == nil && canHelp && valid == len(signatures) {
		certificates.verified = opened.Verified()
		d.sequences.add(sequence, certificates)
	}
	return decision, err
}

// explain notes in a record, as a text for the log, why judge has denied its request by this `path` and `sequence`; notExplained, if more denials
// were explained than explain_rate allows; or the text of the error, if explaining fails. It asks the question again, and decides nothing. Signatures
// that were not verified, since they could not help, are marked as valid too: so the reasons are what else is missing. If the list was replaced since
// the decision, the reasons are those of the new one, which the record then names.
func (d *decider) explain(result *record, key guard.ProvenKey, path, sequence string, now time.Time) {
	const allKeys = ""
	if !d.explanations.allows(allKeys, d.now()) {
		result.Reasons = notExplained
		return
	}
	question := guard.Question{Sequence: noCertificates, Key: key, Words: result.Request, Time: now}
	if sequence != "" {
		question.Sequence = []byte(sequence)
	}
	var explanation guard.Explanation
	_, _, err := d.withList(&question, result.Host, path, func(_ *access, list *list) error {
		opened, err := list.guard.Ask(question)
		if err != nil {
			return err
		}
		defer opened.Close()
		if err := markFirst(opened, result.mayCount); err != nil {
			return err
		}
		result.List, result.numbers = list.digest, list.numbers
		explanation, err = opened.Explain()
		return err
	})
	result.Reasons = reasonsOf(explanation, err, result.entryNumber)
}

// countValid verifies signatures up to the first that is not valid, and returns how many precede that one, or the number of all. `certificates` has
// the certificates that they sign, in the same order. The record gets the number of signatures that were known. If one is not valid, it gets the
// certificates up to that one, and the reason.
func (d *decider) countValid(result *record, certificates *shownSequence, signatures []guard.Signature) int {
	for place, signature := range signatures {
		isValid, wasKnown := d.cache.verifies(signature, certificates.digests[place], d.verify)
		if !wasKnown {
			d.counts.verified.Add(1)
		}
		if !isValid {
			result.Certificates = certificates.names[:place+1]
			result.Reason = "certificate " + certificates.names[place] + " has no valid signature"
			result.mayCount = place
			return place
		}
		if wasKnown {
			result.Cached++
		}
	}
	return len(signatures)
}

// answerOf returns the answer to a request whose decision failed with an error: `refused` if the reason is what the client has sent, and otherwise
// `failed`.
func answerOf(err error) answer {
	// (want of memory is a refusal by the library too)
	if errors.Is(err, guard.ErrRefused) && !errors.Is(err, guard.ErrMemory) || errors.Is(err, errUnkept) {
		return answerRefused
	}
	return answerFailed
}

// reasonsOf returns the reasons of an explanation in one text, cut to mostReasons, without the entries for other keys. If none is left, the text says
// so. If `err`, the error of the explanation, is not nil, it returns the text of that. `number` returns the number that the log has for an entry, by
// its place in the guard, from 1.
func reasonsOf(explanation guard.Explanation, err error, number func(place int) int) string {
	if err != nil {
		return err.Error()
	}
	var lines []string
	for _, reason := range explanation.Reasons() {
		if reason.Word != "NotIssuer" && reason.Word != "NotTheKey" {
			reason.Entry = number(reason.Entry)
			lines = append(lines, reason.String())
		}
	}
	if lines == nil {
		return "no entry is for this key or for the first issuer"
	}
	return cut(strings.Join(lines, ", "), mostReasons)
}

// cut returns a text, or its first octets, as many as `most`, and `..` if it is longer.
func cut(text string, most int) string {
	if len(text) <= most {
		return text
	}
	return text[:most] + ".."
}
