// Tests of keys that clients have proved to hold (ProveKey), and of the schemes of signatures. Keys are texts in canonical form.

package spki_test

import (
	"errors"
	"testing"

	"conguraki/spki"
)

// keyOfB is the key that signs in TestProveKey, in canonical form.
const keyOfB = "(10:public-key(4:test1:b))"

// TestProveKey gives a login whose signature is valid, one whose signature is not, and a certificate whose signature is valid. Only the first proves
// the key, and the others are ErrNotProved: whoever shows a certificate need not hold the key that has signed it. The verifier says `isValid`.
func TestProveKey(t *testing.T) {
	for _, row := range []struct {
		message  string
		isValid  bool
		isProved bool
	}{{"(5:login7:service5:nonce)", true, true}, {"(5:login7:service5:nonce)", false, false}, {"(4:cert)", true, false}} {
		signed := spki.Signature{Key: []byte(keyOfB), Message: []byte(row.message), Value: []byte("3:sig")}
		key, err := spki.ProveKey(signed, func(spki.Signature) bool { return row.isValid })
		isKey := key == spki.AssumeKey([]byte(keyOfB))
		isRefused := errors.Is(err, spki.ErrNotProved)
		if isKey != row.isProved || isRefused == row.isProved || (err == nil) != row.isProved {
			t.Errorf("%+v: %v, %v", row, key, err)
		}
	}
}

// TestKeyAsLine prints keys for a log: each is one line of visible ASCII, also with octets that are not, and keys that differ in such an octet have
// different strings.
func TestKeyAsLine(t *testing.T) {
	for key, wanted := range map[string]string{
		"(10:public-key(4:test5:a\n\x1b\xffb))": `"(10:public-key(4:test5:a\n\x1b\xffb))"`,
		"(10:public-key(4:test1:\xfe))":         `"(10:public-key(4:test1:\xfe))"`,
		"(10:public-key(4:test1:\xff))":         `"(10:public-key(4:test1:\xff))"`,
		"(10:public-key(4:test2:\u00ff))":       `"(10:public-key(4:test2:\u00ff))"`,
	} {
		if line := spki.AssumeKey([]byte(key)).String(); line != wanted {
			t.Errorf("%s, wanted %s", line, wanted)
		}
	}
}

// TestScheme takes the scheme of signatures by keys in canonical form, and by an empty text, which is no key. Only the beginning of a text counts.
func TestScheme(t *testing.T) {
	for key, wanted := range map[string]spki.Scheme{
		"(10:public-key(3:ecc(5:curve7:Ed25519)(5:flags5:eddsa)(1:q1:x)))": spki.Ed25519, "(10:public-key(3:rsa(1:n1:x)(1:e1:x)))": spki.RSA,
		"(10:public-key(3:ecc(5:curve10:NIST P-256)(1:q1:x)))": spki.P256, "(10:public-key(4:test1:b))": spki.Unknown, "": spki.Unknown,
		"(10:public-key(3:ecc(5:curve10:NIST P-384)(1:q1:x)))": spki.Unknown,
	} {
		if scheme := (spki.Signature{Key: []byte(key)}).Scheme(); scheme != wanted {
			t.Errorf("%s: %d", key, scheme)
		}
	}
}
