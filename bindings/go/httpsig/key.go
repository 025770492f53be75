// Keys and signatures of requests, in the forms of SPKI. A canonical text is an S-expression in canonical form, where a string is LENGTH:OCTETS. Its
// transport form is base64 in braces.

package httpsig

import (
	"bytes"
	"crypto/sha256"
	"encoding/base64"
	"encoding/hex"
	"strconv"
)

// The algorithms, as RFC 9421 calls them.
const (
	Ed25519 = "ed25519"
	P256    = "ecdsa-p256-sha256"
	P384    = "ecdsa-p384-sha384"
	RSA     = "rsa-v1_5-sha256"
)

// The most characters of a key in transport form, as docs/SIGNATURES.md has it.
const mostKey = 4096

// By algorithm: the canonical texts of keys and of the values of signatures, with `%` for each string that differs, and how many octets a signature
// has. With RSA it has as many as the modulus.
var (
	keyForms = map[string]string{
		Ed25519: "(10:public-key(3:ecc(5:curve7:Ed25519)(5:flags5:eddsa)(1:q%)))",
		P256:    "(10:public-key(3:ecc(5:curve10:NIST P-256)(1:q%)))",
		P384:    "(10:public-key(3:ecc(5:curve10:NIST P-384)(1:q%)))",
		RSA:     "(10:public-key(3:rsa(1:n%)(1:e%)))",
	}
	valueForms = map[string]string{
		Ed25519: "(7:sig-val(5:eddsa(1:r%)(1:s%)))",
		P256:    "(7:sig-val(5:ecdsa(1:r%)(1:s%)))",
		P384:    "(7:sig-val(5:ecdsa(1:r%)(1:s%)))",
		RSA:     "(7:sig-val(3:rsa(1:s%)))",
	}
	signatureOctets = map[string]int{Ed25519: 64, P256: 64, P384: 96}
)

// transport returns a canonical text in transport form: its base64 in braces.
func transport(canonical []byte) string {
	return "{" + base64.StdEncoding.EncodeToString(canonical) + "}"
}

// hashOf returns the SHA-256 hash of a key in canonical form, in hexadecimal digits: its `keyid`.
func hashOf(key []byte) string {
	hash := sha256.Sum256(key)
	return hex.EncodeToString(hash[:])
}

// keyOf reads a key in transport form. It returns its canonical text, its algorithm, and how many octets a signature by it has. The error is BadKey.
func keyOf(text string) (key []byte, algorithm string, octets int, err error) {
	if len(text) < 2 || len(text) > mostKey || text[0] != '{' || text[len(text)-1] != '}' {
		return nil, "", 0, BadKey
	}
	key, isBase64 := decodeBase64(text[1 : len(text)-1])
	if !isBase64 {
		return nil, "", 0, BadKey
	}
	algorithm, octets = algorithmOf(key)
	if algorithm == "" {
		return nil, "", 0, BadKey
	}
	return key, algorithm, octets, nil
}

// algorithmOf returns the algorithm of a key in canonical form, and how many octets a signature by it has. The algorithm of what is no key is empty.
// Whether the numbers of the key are allowed is not tested: Verifier.Verify does that.
func algorithmOf(key []byte) (algorithm string, octets int) {
	for algorithm, form := range keyForms {
		strings, hasForm := stringsOf(key, form)
		if hasForm && algorithm == RSA {
			return RSA, len(bytes.TrimLeft(strings[0], "\x00"))
		}
		if hasForm {
			return algorithm, signatureOctets[algorithm]
		}
	}
	return "", 0
}

// valueOf returns the canonical value, `(7:sig-val..)`, of the octets of a signature, which are as many as a signature of the algorithm has. With RSA
// they are one string in it, and otherwise two, of equal length.
func valueOf(algorithm string, octets []byte) []byte {
	strings := [][]byte{octets}
	if half := len(octets) / 2; algorithm != RSA {
		strings = [][]byte{octets[:half], octets[half:]}
	}
	var value []byte
	for _, octet := range []byte(valueForms[algorithm]) {
		if octet != '%' {
			value = append(value, octet)
			continue
		}
		value = strconv.AppendInt(value, int64(len(strings[0])), 10)
		value = append(append(value, ':'), strings[0]...)
		strings = strings[1:]
	}
	return value
}

// stringsOf returns the strings of a canonical text at the places of `%` in a form, such as one of keyForms, and whether the text has this form. A
// text with a string of more than 9,999 octets does not have it.
func stringsOf(text []byte, form string) (strings [][]byte, hasForm bool) {
	for place := 0; place < len(form); place++ {
		if form[place] != '%' {
			if len(text) == 0 || text[0] != form[place] {
				return nil, false
			}
			text = text[1:]
			continue
		}
		colon := bytes.IndexByte(text, ':')
		if colon < 1 || colon > len("9999") {
			return nil, false
		}
		length, err := strconv.Atoi(string(text[:colon]))
		if err != nil || length < 0 || strconv.Itoa(length) != string(text[:colon]) || length > len(text)-colon-1 {
			return nil, false
		}
		strings = append(strings, text[colon+1:colon+1+length])
		text = text[colon+1+length:]
	}
	return strings, len(text) == 0
}
