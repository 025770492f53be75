// Tests of keys and signatures. A row of testdata/spki-cert.json is a certificate that `spki-cert sign` made: its key, message and value are texts in
// canonical form. isValid says whether Signature accepts these three.

package verify

import (
	"bytes"
	"crypto"
	"crypto/ecdsa"
	"crypto/ed25519"
	"crypto/elliptic"
	"crypto/rand"
	"crypto/rsa"
	"crypto/sha256"
	"encoding/json"
	"errors"
	"math/big"
	"os"
	"testing"

	"conguraki/spki"
)

// isValid says whether Signature accepts a key, a message and a value, all in canonical form.
func isValid(key, message, value []byte) bool {
	return Signature(spki.Signature{Key: key, Message: message, Value: value})
}

// A signed is a row of testdata/spki-cert.json: a certificate as Message, with its signature, all in canonical form. Kind names the kind of key.
type signed struct {
	Kind                string
	Key, Message, Value []byte
}

// isValid says whether Signature accepts the row.
func (s signed) isValid() bool {
	return isValid(s.Key, s.Message, s.Value)
}

// rowsOfSpkiCert returns certificates that `spki-cert sign` made, one by each of four kinds of key.
func rowsOfSpkiCert(t testing.TB) []signed {
	t.Helper()
	octets, err := os.ReadFile("testdata/spki-cert.json")
	var rows []signed
	if err == nil {
		err = json.Unmarshal(octets, &rows)
	}
	if err != nil || len(rows) != 4 {
		t.Fatal(err, len(rows))
	}
	return rows
}

// TestCertificatesOfSpkiCert verifies the signature of each certificate that `spki-cert sign` made.
func TestCertificatesOfSpkiCert(t *testing.T) {
	for _, row := range rowsOfSpkiCert(t) {
		if !row.isValid() {
			t.Errorf("%s: a right signature is refused", row.Kind)
		}
	}
}

// TestEachChangedOctet flips one bit of one octet at a time, of each octet of a key, message or value, and flips it back. No signature is valid in
// between.
func TestEachChangedOctet(t *testing.T) {
	for _, row := range rowsOfSpkiCert(t) {
		for _, octets := range [][]byte{row.Key, row.Message, row.Value} {
			for place := range octets {
				octets[place] ^= 1 << (place % 8)
				if row.isValid() {
					t.Errorf("%s: octet %d of %q may change", row.Kind, place, octets)
				}
				octets[place] ^= 1 << (place % 8)
			}
		}
	}
}

// TestEachTruncation cuts each key and each value to each lesser length. None is valid then.
func TestEachTruncation(t *testing.T) {
	for _, row := range rowsOfSpkiCert(t) {
		for length := range row.Key {
			if isValid(row.Key[:length], row.Message, row.Value) {
				t.Errorf("%s: %d octets of the key suffice", row.Kind, length)
			}
		}
		for length := range row.Value {
			if isValid(row.Key, row.Message, row.Value[:length]) {
				t.Errorf("%s: %d octets of the value suffice", row.Kind, length)
			}
		}
	}
}

// TestSignaturesOfOthers verifies each certificate with the value, or with the key, of another one. No signature is valid then.
func TestSignaturesOfOthers(t *testing.T) {
	rows := rowsOfSpkiCert(t)
	for i, row := range rows {
		for j, other := range rows {
			if i != j && (isValid(row.Key, row.Message, other.Value) || isValid(other.Key, row.Message, row.Value)) {
				t.Errorf("%s passes for %s", other.Kind, row.Kind)
			}
		}
	}
}

// TestOtherTextsOfAKey writes each key in other ways: with a space, twice, with a display hint, a 0 in front of a length, another word or one more
// element. The certificate's signature is not valid by any such text. A replacement that does not change a key is left out.
func TestOtherTextsOfAKey(t *testing.T) {
	for _, row := range rowsOfSpkiCert(t) {
		for _, text := range [][]byte{
			append([]byte(" "), row.Key...), append(append([]byte{}, row.Key...), ' '), append(append([]byte{}, row.Key...), row.Key...),
			bytes.Replace(row.Key, []byte("10:public-key"), []byte("[1:h]10:public-key"), 1),
			bytes.Replace(row.Key, []byte("10:public-key"), []byte("010:public-key"), 1),
			bytes.Replace(row.Key, []byte("10:public-key"), []byte("11:private-key"), 1),
			bytes.Replace(row.Key, []byte("Ed25519"), []byte("ed25519"), 1),
			bytes.Replace(row.Key, []byte("(1:e"), []byte("(1:f0:)(1:e"), 1),
		} {
			if !bytes.Equal(text, row.Key) && isValid(text, row.Message, row.Value) {
				t.Errorf("%s: %.60q is accepted as the key", row.Kind, text)
			}
		}
	}
}

// TestKeysGoThereAndBack reads each key by PublicOf. KeyOf must write the same text.
func TestKeysGoThereAndBack(t *testing.T) {
	for _, row := range rowsOfSpkiCert(t) {
		public, err := PublicOf(row.Key)
		if err != nil {
			t.Fatal(row.Kind, err)
		}
		if again, err := KeyOf(public); err != nil || !bytes.Equal(again, row.Key) {
			t.Errorf("%s: %q, %v", row.Kind, again, err)
		}
	}
}

// rsaText returns the text of a key of RSA with these octets as its numbers, whether they are allowed or not.
func rsaText(modulus, exponent []byte) []byte {
	return canonicalText(beforeModulus, modulus, beforeE, exponent, afterKey)
}

// TestWeakKeysOfRSA refuses each key that is beyond the limits of isStrong, or whose numbers are not as numberOctets writes them. `strong` has 2048
// bits, the fewest, `short` one bit less, and `long` one more than the most. `padded` is `short` with octets 00 in front. `e` is 65,537.
func TestWeakKeysOfRSA(t *testing.T) {
	strong := new(big.Int).SetBit(new(big.Int).SetBit(new(big.Int), LeastBits-1, 1), 0, 1)
	short := new(big.Int).Rsh(strong, 1)
	short.SetBit(short, 0, 1)
	even := new(big.Int).Lsh(short, 1)
	e := []byte{1, 0, 1}
	padded := append(make([]byte, 8), numberOctets(short)...)
	long := numberOctets(new(big.Int).SetBit(new(big.Int).SetBit(new(big.Int), MostBits, 1), 0, 1))
	if _, err := PublicOf(rsaText(numberOctets(strong), e)); err != nil {
		t.Errorf("2048 bits are refused: %v", err)
	}
	for name, text := range map[string][]byte{
		"2047 bits": rsaText(numberOctets(short), e), "2047 bits, padded": rsaText(padded, e), "even": rsaText(numberOctets(even), e),
		"4097 bits": rsaText(long, e), "nothing": rsaText(nil, e), "e is nothing": rsaText(numberOctets(strong), nil),
		"e is 1": rsaText(numberOctets(strong), []byte{1}), "e is even": rsaText(numberOctets(strong), []byte{1, 0, 0}),
		"e is padded": rsaText(numberOctets(strong), []byte{0, 1, 0, 1}), "e has 32 bits": rsaText(numberOctets(strong), []byte{0, 0x80, 0, 0, 1}),
		"no octet 00 in front": rsaText(numberOctets(strong)[1:], e), "two octets 00": rsaText(append([]byte{0}, numberOctets(strong)...), e),
	} {
		if _, err := PublicOf(text); !errors.Is(err, ErrKey) {
			t.Errorf("%s: %v", name, err)
		}
	}
}

// TestPointsOffTheCurve refuses octets that are no point of P-256 in the form 04 and both coordinates, of 32 octets each. The octet 64 is the last.
func TestPointsOffTheCurve(t *testing.T) {
	private, err := ecdsa.GenerateKey(elliptic.P256(), rand.Reader)
	if err != nil {
		t.Fatal(err)
	}
	longer, err := ecdsa.GenerateKey(elliptic.P384(), rand.Reader)
	if err != nil {
		t.Fatal(err)
	}
	point, pointOfP384 := elliptic.Marshal(elliptic.P256(), private.X, private.Y), elliptic.Marshal(elliptic.P384(), longer.X, longer.Y)
	off := append([]byte{}, point...)
	off[64] ^= 1
	for name, octets := range map[string][]byte{
		"off the curve": off, "compressed": elliptic.MarshalCompressed(elliptic.P256(), private.X, private.Y), "infinity": {0}, "nothing": nil,
		"zeros": append([]byte{4}, make([]byte, 64)...), "long": append(point, 0), "of another curve": pointOfP384,
	} {
		if _, err := PublicOf(canonicalText(curves[0].before, octets, afterKey)); !errors.Is(err, ErrKey) {
			t.Errorf("%s: %v", name, err)
		}
	}
}

// TestKeysOfOtherKinds gives KeyOf what is no key, a key with P-521, one that is too weak, one that is too short, empty ones, and a point off the
// curve. Each is ErrKey.
func TestKeysOfOtherKinds(t *testing.T) {
	other, err := ecdsa.GenerateKey(elliptic.P521(), rand.Reader)
	if err != nil {
		t.Fatal(err)
	}
	weak, err := rsa.GenerateKey(rand.Reader, 1024)
	if err != nil {
		t.Fatal(err)
	}
	for _, public := range []crypto.PublicKey{
		nil, "key", other.Public(), weak.Public(), ed25519.PublicKey("short"), &rsa.PublicKey{}, &ecdsa.PublicKey{},
		&ecdsa.PublicKey{Curve: elliptic.P256(), X: big.NewInt(1), Y: big.NewInt(1)},
	} {
		if text, err := KeyOf(public); !errors.Is(err, ErrKey) || text != nil {
			t.Errorf("%T: %v", public, err)
		}
	}
}

// TestPSS signs with three lengths of salt: 32 octets, the longest, which is the option 0, and 20. Only the one with 32 is valid, and only for
// SignatureOrPSS, which also accepts what Signature accepts.
func TestPSS(t *testing.T) {
	private, err := rsa.GenerateKey(rand.Reader, LeastBits)
	if err != nil {
		t.Fatal(err)
	}
	key, err := KeyOf(private.Public())
	if err != nil {
		t.Fatal(err)
	}
	message := []byte("(4:cert)")
	digest := sha256.Sum256(message)
	for _, salt := range []int{rsa.PSSSaltLengthEqualsHash, 0, 20} {
		octets, err := rsa.SignPSS(rand.Reader, private, crypto.SHA256, digest[:], &rsa.PSSOptions{SaltLength: salt})
		if err != nil {
			t.Fatal(err)
		}
		value := canonicalText(beforeRSA, octets, afterValue)
		accepts := SignatureOrPSS(spki.Signature{Key: key, Message: message, Value: value})
		if accepts != (salt == rsa.PSSSaltLengthEqualsHash) {
			t.Errorf("a salt of the length %d: %v", salt, accepts)
		}
		if isValid(key, message, value) {
			t.Error("Signature accepts PSS")
		}
	}
	for _, row := range rowsOfSpkiCert(t) {
		if !SignatureOrPSS(spki.Signature{Key: row.Key, Message: row.Message, Value: row.Value}) {
			t.Errorf("%s: SignatureOrPSS refuses what Signature accepts", row.Kind)
		}
	}
}

// TestFewerZerosInFront looks for a signature by RSA that begins with one octet 00, as one in 256 does: 20,000 attempts suffice. Its value is valid
// without that octet, and with one more octet 00. Without the next octet, which is not 00, it is not valid.
func TestFewerZerosInFront(t *testing.T) {
	private, err := rsa.GenerateKey(rand.Reader, LeastBits)
	if err != nil {
		t.Fatal(err)
	}
	key, _ := KeyOf(private.Public())
	for counter := 0; counter < 20_000; counter++ {
		message := canonicalText("(4:cert", []byte(big.NewInt(int64(counter)).String()), ")")
		digest := sha256.Sum256(message)
		octets, err := rsa.SignPKCS1v15(nil, private, crypto.SHA256, digest[:])
		if err != nil {
			t.Fatal(err)
		}
		if octets[0] != 0 || octets[1] == 0 {
			continue
		}
		accepts := func(number []byte) bool { return isValid(key, message, canonicalText(beforeRSA, number, afterValue)) }
		if !accepts(octets[1:]) || accepts(octets[2:]) {
			t.Error("an octet 00 in front may be left out, and no other")
		}
		if !accepts(append([]byte{0}, octets...)) {
			t.Error("a number may have more octets 00 in front")
		}
		return
	}
	t.Error("no signature begins with an octet 00")
}

// FuzzSignature fails if a signature is valid whose key and message are not those of a row: only a holder of a private key could make one.
func FuzzSignature(f *testing.F) {
	for _, row := range rowsOfSpkiCert(f) {
		f.Add(row.Key, row.Message, row.Value)
	}
	rows := rowsOfSpkiCert(f)
	f.Fuzz(func(t *testing.T, key, message, value []byte) {
		if !isValid(key, message, value) {
			return
		}
		for _, row := range rows {
			if bytes.Equal(row.Key, key) && bytes.Equal(row.Message, message) {
				return
			}
		}
		t.Errorf("a forged signature: %q %q %q", key, message, value)
	})
}
