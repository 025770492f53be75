// SPKI keys and Go's public keys. A key is a text in canonical form, where a string is LENGTH:OCTETS. `q` is the point of a key by Ed25519 or ECDSA.
// `n` and `e` are the numbers of one by RSA.

package verify

import (
	"bytes"
	"crypto"
	"crypto/ecdsa"
	"crypto/ed25519"
	"crypto/elliptic"
	"crypto/rsa"
	"errors"
	"fmt"
	"math/big"
)

// The fewest and the most bits of a modulus of RSA, and the most of an exponent, which Go does not take longer. A stranger may send 16
// certificates with keys of its own, and a signature by a key of 16,384 bits would take 8 times as long as one of 4,096 bits. All verifiers of
// this repository have these limits.
const (
	LeastBits        = 2048
	MostBits         = 4096
	MostExponentBits = 31
)

// The texts around the octets of a key.
const (
	beforeEd25519 = "(10:public-key(3:ecc(5:curve7:Ed25519)(5:flags5:eddsa)(1:q"
	beforeModulus = "(10:public-key(3:rsa(1:n"
	beforeE       = ")(1:e"
	afterKey      = ")))"
)

// An ecdsaCurve is a curve of ECDSA. `before` is the text in front of the point of a key, and `hash` makes the digest of a message that is signed.
type ecdsaCurve struct {
	elliptic.Curve
	before string
	hash   crypto.Hash
}

var curves = []ecdsaCurve{
	{elliptic.P256(), "(10:public-key(3:ecc(5:curve10:NIST P-256)(1:q", crypto.SHA256},
	{elliptic.P384(), "(10:public-key(3:ecc(5:curve10:NIST P-384)(1:q", crypto.SHA384},
}

// ecdsaCurveOf returns the element of `curves` for a curve of package elliptic, or nil if there is none, as for P-521.
func ecdsaCurveOf(curve elliptic.Curve) *ecdsaCurve {
	for place := range curves {
		if curves[place].Curve == curve {
			return &curves[place]
		}
	}
	return nil
}

// ErrKey is the error, for errors.Is, of a key of another kind, in another form, or beyond the limits above.
var ErrKey = errors.New("no key of Ed25519, of RSA with at least 2048 bits, or of ECDSA with P-256 or P-384")

// KeyOf returns the SPKI key, in canonical form, of an ed25519.PublicKey, an *rsa.PublicKey or an *ecdsa.PublicKey, as a certificate of X.509
// has it. The SHA-256 digest of the text is the hash that may name the key in lists and certificates. Each other key, also one that is too weak, is
// ErrKey.
func KeyOf(public crypto.PublicKey) ([]byte, error) {
	switch public := public.(type) {
	case ed25519.PublicKey:
		if isUsablePoint(public) {
			return canonicalText(beforeEd25519, []byte(public), afterKey), nil
		}
	case *rsa.PublicKey:
		if isStrong(public) {
			return canonicalText(beforeModulus, numberOctets(public.N), beforeE, numberOctets(big.NewInt(int64(public.E))), afterKey), nil
		}
	case *ecdsa.PublicKey:
		if curve := ecdsaCurveOf(public.Curve); curve != nil && public.X != nil && public.Y != nil && curve.IsOnCurve(public.X, public.Y) {
			return canonicalText(curve.before, elliptic.Marshal(curve.Curve, public.X, public.Y), afterKey), nil
		}
	}
	return nil, fmt.Errorf("%w: %T", ErrKey, public)
}

// PublicOf returns the ed25519.PublicKey, the *rsa.PublicKey or the *ecdsa.PublicKey of an SPKI key in canonical form. Each other text is
// ErrKey, also one with a point of small order.
func PublicOf(key []byte) (crypto.PublicKey, error) {
	if len(key) > mostOctets {
		return nil, ErrKey
	}
	public := publicOf(&reader{rest: key})
	if public == nil {
		return nil, ErrKey
	}
	// (each key has one text: that of a number with an octet 00 too many or too few is refused)
	text, err := KeyOf(public)
	if err != nil || !bytes.Equal(text, key) {
		return nil, ErrKey
	}
	return public, nil
}

// publicOf reads a key for PublicOf, which then tests that KeyOf writes the same text. It returns nil if the text is no key, or if its point or its
// numbers are not allowed.
func publicOf(text *reader) crypto.PublicKey {
	switch {
	case text.trySkip(beforeEd25519):
		if octets, ok := text.readString(ed25519.PublicKeySize); ok && isUsablePoint(octets) && text.restIs(afterKey) {
			return ed25519.PublicKey(octets)
		}
	case text.trySkip(beforeModulus):
		if modulus, ok := text.readString(MostBits/8 + 1); ok && text.trySkip(beforeE) { // (+ 1: an octet 00 may be in front)
			// (31 bits need 4 octets)
			if exponent, ok := text.readString(MostExponentBits/8 + 1); ok && text.restIs(afterKey) {
				return rsaKey(modulus, exponent)
			}
		}
	default:
		for _, curve := range curves {
			if text.trySkip(curve.before) {
				if octets, ok := text.readString(mostPoint); ok && text.restIs(afterKey) {
					return pointOf(curve, octets)
				}
			}
		}
	}
	return nil
}

// Coordinates y of Ed25519 that isUsablePoint refuses. `lastY` is p - 1, that of the point of order 2. A greater number, taken modulo p, would be a
// second text of another y. `order8Y` and `order8MinusY` are those of the four points of order 8. The points of order 1 and 4 have y = 1 and y = 0.
// All y below 2^192 are refused with them, which no random key has.
var (
	lastY        = numberOf("7fffffffffffffffffffffffffffffffffffffffffffffffffffffffffffffec")
	order8Y      = numberOf("05fc536d880238b13933c6d305acdfd5f098eff289f4c345b027b2c28f95e826")
	order8MinusY = numberOf("7a03ac9277fdc74ec6cc392cfa53202a0f67100d760b3cba4fd84d3d706a17c7")
)

// numberOf returns the number that hexadecimal digits write, the highest digit first.
func numberOf(digits string) *big.Int {
	number, _ := new(big.Int).SetString(digits, 16)
	return number
}

// isUsablePoint says whether octets may be a key of Ed25519: by their coordinate y, they are not of a point of small order, for which anyone can make
// signatures, and not a second text of a point. It does not test that they are a point: ed25519.Verify does.
func isUsablePoint(q []byte) bool {
	if len(q) != ed25519.PublicKeySize {
		return false
	}
	if top := q[len(q)-1] &^ 0x80; top != 0 && top != 0x05 && top != 0x7a && top != 0x7f {
		// (a shorter way for almost all keys: the highest octet of each y that is refused is one of these four, without the bit of the sign of x)
		return true
	}
	y := littleEndian(q)
	y.SetBit(y, 255, 0) // (the sign of x)
	return y.BitLen() > 192 && y.Cmp(lastY) < 0 && y.Cmp(order8Y) != 0 && y.Cmp(order8MinusY) != 0
}

// littleEndian returns the number that octets encode, the lowest octet first.
func littleEndian(octets []byte) *big.Int {
	reversed := make([]byte, len(octets))
	for place, octet := range octets {
		reversed[len(octets)-1-place] = octet
	}
	return new(big.Int).SetBytes(reversed)
}

// The most octets of a point: 04 and both coordinates, of P-384.
const mostPoint = 1 + 2*48

// pointOf returns the *ecdsa.PublicKey of the octets of a point, 04 and both coordinates, or nil if they are no point of the curve.
func pointOf(curve ecdsaCurve, octets []byte) crypto.PublicKey {
	x, y := elliptic.Unmarshal(curve.Curve, octets)
	if x == nil {
		return nil
	}
	return &ecdsa.PublicKey{Curve: curve.Curve, X: x, Y: y}
}

// rsaKey returns the *rsa.PublicKey of a modulus and an exponent, both big-endian, or nil if it is not within the limits of isStrong.
func rsaKey(modulus, exponent []byte) crypto.PublicKey {
	e := new(big.Int).SetBytes(exponent)
	if e.BitLen() > MostExponentBits { // (a larger one may not fit Int64 and int)
		return nil
	}
	public := &rsa.PublicKey{N: new(big.Int).SetBytes(modulus), E: int(e.Int64())}
	if !isStrong(public) {
		return nil
	}
	return public
}

// isStrong says whether a key of RSA has an odd modulus of LeastBits to MostBits bits, and an odd exponent of at least 3 and at most MostExponentBits
// bits. The limits are on the numbers, so octets 00 in front make no key longer.
func isStrong(public *rsa.PublicKey) bool {
	return public.N != nil && public.N.BitLen() >= LeastBits && public.N.BitLen() <= MostBits && public.N.Bit(0) == 1 &&
		public.E >= 3 && public.E&1 == 1 && big.NewInt(int64(public.E)).BitLen() <= MostExponentBits
}

// numberOctets returns the octets of a number of a key: big-endian, with an octet 00 in front if the first bit would be set. It is the only form that
// PublicOf accepts.
func numberOctets(value *big.Int) []byte {
	return value.FillBytes(make([]byte, value.BitLen()/8+1))
}
