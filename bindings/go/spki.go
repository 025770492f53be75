// Package spki has the types that the other packages share: a Signature, which a verifier is given, and a ProvenKey, the key that a client has proved
// to hold. It does not need libspki_c.
//
// The package guard decides, and verify verifies signatures.
package spki

import (
	"bytes"
	"errors"
	"strconv"
)

// A Signature is to be verified: whether Value is a signature of Message by Key. The texts are in canonical form: the issuer's `(public-key ..)`,
// the certificate, and the value of `(signature ..)`. Name the fields where you make one, since all have the same type.
type Signature struct {
	Key, Message, Value []byte
}

// A Scheme says how a signature is made.
type Scheme int

const (
	// Unknown is the scheme of each other key, also of one with P-384, although package verify verifies its signatures.
	Unknown Scheme = iota
	// Ed25519 is EdDSA.
	Ed25519
	// RSA is PKCS#1 v1.5 with SHA-256.
	RSA
	// P256 is ECDSA with SHA-256.
	P256
)

// What the canonical text of a key of each scheme begins with.
var schemes = map[Scheme]string{
	Ed25519: "(10:public-key(3:ecc(5:curve7:Ed25519)(5:flags5:eddsa)", RSA: "(10:public-key(3:rsa(", P256: "(10:public-key(3:ecc(5:curve10:NIST P-256)",
}

// Scheme says how the signature is made, by what the text of its key begins with: docs/FORMATS.md, "Keys and signatures of services".
func (s Signature) Scheme() Scheme {
	for scheme, front := range schemes {
		if bytes.HasPrefix(s.Key, []byte(front)) {
			return scheme
		}
	}
	return Unknown
}

// A ProvenKey is a key that a client has proved to hold. A public key is public: without a proof, each client that sends Alice's key would have
// Alice's rights. Two are equal by == if their texts are. The zero value is no key, and a question with it is refused.
type ProvenKey struct {
	text string
}

// ErrNotProved is the error of ProveKey.
var ErrNotProved = errors.New("the client has not proved that it holds the key")

// AssumeKey returns the key `(public-key ..)` of a client that has proved to hold it elsewhere, as by TLS or SSH. Nothing checks that here: each
// client gets the rights of the key that is named.
func AssumeKey(key []byte) ProvenKey {
	return ProvenKey{string(key)}
}

// ProveKey returns the key that has signed a message. The service itself must have made the message, with a nonce that it accepts once: a signature
// of anything else may be an old one, or have another purpose. `verify` says whether the signature is valid, as verify.Signature does. The error is
// ErrNotProved if it is not, or if the message is a certificate: anyone can show a certificate, which proves nothing about who shows it.
func ProveKey(signed Signature, verify func(Signature) bool) (ProvenKey, error) {
	if bytes.HasPrefix(signed.Message, []byte("(4:cert")) || !verify(signed) {
		return ProvenKey{}, ErrNotProved
	}
	return AssumeKey(signed.Key), nil
}

// Text returns the octets of the key, as they were given. They are empty for the zero value.
func (k ProvenKey) Text() string {
	return k.text
}

// String returns the octets of the key in quotes, as Go writes a string: all but visible ASCII and spaces is escaped, and so are `"` and `\`. It is
// one line of a log, and different keys have different strings.
func (k ProvenKey) String() string {
	return strconv.QuoteToASCII(k.text)
}
