// Package verify verifies signatures by Go's standard library, and makes SPKI keys of Go's public keys.
//
// Keys and signatures have the forms of docs/FORMATS.md, "Keys and signatures of services", which libgcrypt and GnuPG read: Ed25519, RSA with
// SHA-256, ECDSA with P-256 and SHA-256 or with P-384 and SHA-384. Each form is one text: a key that is written otherwise is another key, and
// nothing is a signature by it.
//
//	(public-key (ecc (curve Ed25519) (flags eddsa) (q #..#)))    (sig-val (eddsa (r #..#) (s #..#)))
//	(public-key (rsa (n #..#) (e #..#)))                         (sig-val (rsa (s #..#)))
//	(public-key (ecc (curve "NIST P-256") (q #04..#)))           (sig-val (ecdsa (r #..#) (s #..#)))
package verify

import (
	"crypto"
	"crypto/ecdsa"
	"crypto/ed25519"
	"crypto/rsa"

	// (hash.New in digestOf finds the digests that are imported)
	_ "crypto/sha256"
	_ "crypto/sha512"

	"conguraki/spki"
)

// Signature says whether a signature is valid: by Ed25519, by RSA with PKCS#1 v1.5, or by ECDSA. It returns false for a key or a value of another
// form, and for an empty message. It is a guard.Verify.
func Signature(signed spki.Signature) bool {
	return signature(signed, pkcs1v15)
}

// SignatureOrPSS says whether a signature is valid as Signature has it, or by RSA with PSS: with SHA-256 for the message and for the mask, and a salt
// of 32 octets. The value of a signature does not say by which of the two it was made.
func SignatureOrPSS(signed spki.Signature) bool {
	return signature(signed, pkcs1v15, pss)
}

// A scheme verifies the value of a signature by a key of RSA. It returns nil if the value is valid for the SHA-256 digest of a message.
type scheme func(key *rsa.PublicKey, digest, value []byte) error

// pkcs1v15 is the scheme of Signature.
func pkcs1v15(key *rsa.PublicKey, digest, value []byte) error {
	return rsa.VerifyPKCS1v15(key, crypto.SHA256, digest, value)
}

// pss is the other scheme of SignatureOrPSS, with a salt of 32 octets.
func pss(key *rsa.PublicKey, digest, value []byte) error {
	return rsa.VerifyPSS(key, crypto.SHA256, digest, value, &rsa.PSSOptions{SaltLength: rsa.PSSSaltLengthEqualsHash})
}

// signature says whether a signature is valid. By a key of RSA it must be of one of the schemes. They do not matter for other keys. An empty message
// has no valid signature.
func signature(signed spki.Signature, schemes ...scheme) bool {
	public, err := PublicOf(signed.Key)
	if err != nil || len(signed.Message) == 0 {
		return false
	}
	switch public := public.(type) {
	case ed25519.PublicKey:
		octets, ok := ed25519Value(signed.Value)
		return ok && ed25519.Verify(public, signed.Message, octets)
	case *rsa.PublicKey:
		octets, ok := rsaValue(signed.Value, public)
		digest := digestOf(crypto.SHA256, signed.Message)
		for _, scheme := range schemes {
			if ok && scheme(public, digest, octets) == nil {
				return true
			}
		}
	case *ecdsa.PublicKey:
		r, s, ok := ecdsaValue(signed.Value, public.Curve)
		return ok && ecdsa.Verify(public, digestOf(ecdsaCurveOf(public.Curve).hash, signed.Message), r, s)
	}
	return false
}

// digestOf returns the digest of a message.
func digestOf(hash crypto.Hash, message []byte) []byte {
	digest := hash.New()
	digest.Write(message)
	return digest.Sum(nil)
}
