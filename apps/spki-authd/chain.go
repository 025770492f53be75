package main

// What the daemon tests of a sequence that a client leaves: its signatures, and whether the subject of its last certificate is the client's key. The
// library answers both, by questions to a list without entries or with one. And what an entry is found by, which the library has read before.

import (
	"bytes"
	"crypto/sha256"
	"fmt"
	"strconv"
	"time"

	"conguraki/spki"
	"conguraki/spki/guard"
)

// openList opens an access list of these entries with the policy and the limits of all lists. The entries are in canonical form, one behind the other, or
// nil for none. It fails if the library refuses the list. The caller closes the guard.
func (c *config) openList(entries []byte) (*guard.Guard, error) {
	policy, err := policyOf(c.Policy)
	if err != nil {
		return nil, err
	}
	return guard.Open(append(append([]byte("(3:acl"), entries...), ')'), policy, c.Limits.ofQuestion())
}

// signaturesOf returns the signatures of a sequence of certificates, at least one, whatever access list is in force. `sequence` is in transport form. It
// verifies none. It fails with errEmpty, an errUnkept, if there is no signature, and with errUnkept if a certificate would not count even if all signatures
// were valid: to find that, it marks them all as valid, and asks the library for a reason. It also fails with the library's refusal of the sequence,
// and with errBusy if too many questions are decided at once. `key` and `now` only complete the question.
func (c *config) signaturesOf(sequence string, key guard.ProvenKey, now time.Time) ([]guard.Signature, error) {
	if err := library.enter(); err != nil {
		return nil, err
	}
	defer library.leave()
	empty, err := c.openList(nil)
	if err != nil {
		return nil, err
	}
	defer empty.Close()
	question, err := empty.Ask(guard.Question{Sequence: []byte(sequence), Key: key, Words: anyWords, Time: now})
	if err != nil {
		return nil, err
	}
	defer question.Close()
	signatures, err := signaturesIn(question)
	if err != nil {
		return nil, err
	}
	if err := markFirst(question, len(signatures)); err != nil {
		return nil, err
	}
	// (with a list without entries the only reason can be a certificate that does not count)
	explanation, err := question.Explain()
	if err != nil {
		return nil, err
	}
	if reasons := explanation.Reasons(); len(reasons) > 0 {
		return nil, fmt.Errorf("%w: %v", errUnkept, reasons[0])
	}
	if len(signatures) == 0 {
		return nil, errEmpty
	}
	return signatures, nil
}

// namesKey says whether a principal, in canonical form, names a key: by itself or by a hash that the policy allows. It is false for any other principal,
// such as a name. The library decides, by a list with one entry, which gives this principal everything. It fails if the library refuses that list or the
// question, and with errBusy if too many questions are decided at once. `now` only completes the question.
func (c *config) namesKey(principal []byte, key guard.ProvenKey, now time.Time) (bool, error) {
	if !bytes.HasPrefix(principal, []byte("(10:public-key")) && !bytes.HasPrefix(principal, []byte("(4:hash")) {
		return false, nil
	}
	if err := library.enter(); err != nil {
		return false, err
	}
	defer library.leave()
	list, err := c.openList([]byte("(5:entry" + string(principal) + "(3:tag(1:*)))"))
	if err != nil {
		return false, err
	}
	defer list.Close()
	// (without certificates there is no signature to verify)
	decision, err := list.Decide(guard.Question{Sequence: noCertificates, Key: key, Words: anyWords, Time: now}, nil)
	return decision.Granted(), err
}

// anyWords and anyKey are the request and the key of questions for which they do not matter: to a list without entries, or with one that gives
// everything.
var (
	anyWords = []string{"any", "request"}
	anyKey   = spki.AssumeKey([]byte("(10:public-key(4:test3:any))"))
)

// subjectOf returns the subject of a certificate, both in canonical form, or nil if it has none. It looks at one field after the other, so the library must
// have read the certificate before: then its text is whole.
func subjectOf(certificate []byte) []byte {
	const begin, field = "(", "(7:subject"
	for rest := certificate[len(begin):]; len(rest) > 0; rest = rest[lengthOf(rest):] {
		if bytes.HasPrefix(rest, []byte(field)) {
			return rest[len(field) : lengthOf(rest)-1]
		}
	}
	return nil
}

// foundBy returns what an entry in canonical form is found by, as the database computes it: the digest of its subject's hash, or the SHA-256 digest of
// its subject's key, also where the subject is a name that begins with one of them. It is empty for another subject. The library must have read the
// entry before: then its text is whole.
func foundBy(entry []byte) []byte {
	const begin, name, hash, key = "(5:entry", "(4:name", "(4:hash", "(10:public-key"
	rest := bytes.TrimPrefix(bytes.TrimPrefix(entry, []byte(begin)), []byte(name))
	principal := rest[:lengthOf(rest)]
	if bytes.HasPrefix(principal, []byte(key)) {
		digest := sha256.Sum256(principal)
		return digest[:]
	}
	if !bytes.HasPrefix(principal, []byte(hash)) {
		return nil
	}
	// (behind the algorithm comes the digest. The library takes no display hint here)
	rest = principal[len(hash):]
	rest = rest[lengthOf(rest):]
	return rest[bytes.IndexByte(rest, ':')+1 : lengthOf(rest)]
}

// principalsIn returns what the entries of a list are found by, each as a text. The library must have read the list before. It fails with the library's
// refusal of the list, as for want of memory.
func principalsIn(list []byte) (map[string]struct{}, error) {
	canonical, err := guard.Canonical(list)
	if err != nil {
		return nil, err
	}
	principals := map[string]struct{}{}
	const begin, entry = "(3:acl", "(5:entry"
	for rest := canonical[len(begin):]; len(rest) > 1; rest = rest[lengthOf(rest):] {
		if bytes.HasPrefix(rest, []byte(entry)) {
			principals[string(foundBy(rest[:lengthOf(rest)]))] = struct{}{}
		}
	}
	return principals, nil
}

// firstKeyIn returns the key by which the first listed signature of a question is made, or an empty text if none is listed. `empty` is a guard without
// entries. It fails with the library's refusal of the question. The caller has entered the gate `library`.
func firstKeyIn(empty *guard.Guard, question *guard.Question) (first string, err error) {
	opened, err := empty.Ask(*question)
	if err != nil {
		return "", err
	}
	defer opened.Close()
	// (with false Each ends after the first)
	err = opened.Each(func(_ int, signature guard.Signature) bool { first = string(signature.Key); return false })
	return first, err
}

// firstKeyOf is firstKeyIn for a question with this sequence, in transport form. It also fails with errBusy.
func (c *config) firstKeyOf(sequence string, now time.Time) (string, error) {
	if err := library.enter(); err != nil {
		return "", err
	}
	defer library.leave()
	empty, err := c.openList(nil)
	if err != nil {
		return "", err
	}
	defer empty.Close()
	return firstKeyIn(empty, &guard.Question{Sequence: []byte(sequence), Key: anyKey, Words: anyWords, Time: now})
}

// isNamed says whether an entry of some list is for the first issuer of a sequence, or for the principal in front of a name that is the first issuer. It
// is false if the sequence has no signature. `sequence` is in transport form. It fails with the library's refusal of the sequence, with errBusy, and if no
// list has such an entry and a store is stale or cannot be read.
func (d *decider) isNamed(sequence string) (bool, error) {
	first, err := d.config.firstKeyOf(sequence, d.now())
	if err != nil || first == "" {
		return false, err
	}
	for _, each := range d.keeper.present.Load().lists {
		isNamed, fault := each.names([]byte(first))
		if isNamed {
			return true, nil
		}
		if fault != nil {
			err = fault
		}
	}
	return false, err
}

// lengthOf returns how many octets a canonical text's first part has: a string as `3:abc`, a list in parentheses, or a display hint in brackets, without
// the string behind it. If no whole part is there, it returns the length of the text.
func lengthOf(text []byte) int {
	depth := 0
	for place := 0; place < len(text); {
		switch text[place] {
		case '(', '[':
			depth, place = depth+1, place+1
		case ')', ']':
			depth, place = depth-1, place+1
		default:
			digits, _, _ := bytes.Cut(text[place:], []byte(":"))
			length, err := strconv.Atoi(string(digits))
			if err != nil || length < 0 || length > len(text) {
				return len(text)
			}
			place += len(digits) + 1 + length
		}
		if depth == 0 && place <= len(text) {
			return place
		}
	}
	return len(text)
}
