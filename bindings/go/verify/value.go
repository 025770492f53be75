// The values of signatures, `(sig-val ..)` in canonical form, where a string is LENGTH:OCTETS: r and s by Ed25519 and ECDSA, s by RSA.

package verify

import (
	"crypto/elliptic"
	"crypto/rsa"
	"math/big"
)

// The octets of each half, r and s, of a signature by Ed25519.
const half = 32

// The most octets of a key and of the value of a signature, in canonical form. None needs as many.
const mostOctets = 4096

// The texts around the numbers of a signature.
const (
	beforeR     = "(7:sig-val(5:eddsa(1:r"
	beforeRSA   = "(7:sig-val(3:rsa(1:s"
	beforeECDSA = "(7:sig-val(5:ecdsa(1:r"
	beforeS     = ")(1:s"
	afterValue  = ")))"
)

// `order` is the order of the group of Ed25519. The half s of a signature must be below it. `topOfOrder` is its highest octet: an s whose highest
// octet is less is below the order, and needs no comparison of numbers.
const topOfOrder = 0x10

var order = numberOf("1000000000000000000000000000000014def9dea2f79cd65812631a5cf5d3ed")

// ed25519Value returns r and s of a signature by Ed25519, 32 octets each, one after the other, and whether the value has this form and s is below the
// order. Both are little-endian.
func ed25519Value(value []byte) ([]byte, bool) {
	r, s, ok := readPair(value, beforeR)
	if !ok || len(r) != half || len(s) != half || s[half-1] >= topOfOrder && littleEndian(s).Cmp(order) >= 0 {
		return nil, false
	}
	return append(append(make([]byte, 0, 2*half), r...), s...), true
}

// rsaValue returns the number of a signature by RSA, with as many octets as the modulus, and whether the value has this form. The value may have
// fewer or more octets 00 in front. The number must be above 0 and below the modulus: Go 1.19 does not test the latter.
func rsaValue(value []byte, public *rsa.PublicKey) ([]byte, bool) {
	text := reader{rest: value}
	if len(value) > mostOctets || !text.trySkip(beforeRSA) {
		return nil, false
	}
	octets, ok := text.readString(mostOctets)
	s := new(big.Int).SetBytes(octets)
	if !ok || !text.restIs(afterValue) || s.Sign() <= 0 || s.Cmp(public.N) >= 0 {
		return nil, false
	}
	return s.FillBytes(make([]byte, public.Size())), true
}

// ecdsaValue returns the numbers r and s of a signature by ECDSA with a curve, and whether the value has this form, and both are above 0 and below
// the order of the curve. If not, the numbers must not be used.
func ecdsaValue(value []byte, curve elliptic.Curve) (*big.Int, *big.Int, bool) {
	first, second, ok := readPair(value, beforeECDSA)
	r, s, order := new(big.Int).SetBytes(first), new(big.Int).SetBytes(second), curve.Params().N
	return r, s, ok && r.Sign() > 0 && s.Sign() > 0 && r.Cmp(order) < 0 && s.Cmp(order) < 0
}

// readPair returns the two strings, r and s, of a value that begins with `before`, a text such as beforeR, and whether the value has this form.
func readPair(value []byte, before string) ([]byte, []byte, bool) {
	text := reader{rest: value}
	if len(value) > mostOctets || !text.trySkip(before) {
		return nil, nil, false
	}
	r, ok := text.readString(mostOctets)
	if !ok || !text.trySkip(beforeS) {
		return nil, nil, false
	}
	s, ok := text.readString(mostOctets)
	return r, s, ok && text.restIs(afterValue)
}
