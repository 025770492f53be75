// The digest of a body, in the field `Content-Digest` of RFC 9530.

package httpsig

import (
	"bytes"
	"crypto/sha256"
	"crypto/sha512"
	"encoding/base64"
	"strings"
)

// A digest is the hash of a body, as `Content-Digest` gives it. The algorithm is `sha-256` or `sha-512`. The zero value, without octets, means that
// the signature covers no digest.
type digest struct {
	algorithm string
	octets    []byte
}

// digestOf reads the value of `Content-Digest`: one digest, by SHA-256 or SHA-512, as in `sha-256=:BASE64:`. Everything else is BadDigest.
func digestOf(value string) (digest, error) {
	name, rest, _ := strings.Cut(value, "=")
	length := map[string]int{"sha-256": sha256.Size, "sha-512": sha512.Size}[name]
	parser := parser{rest}
	octets, err := parser.readOctets()
	// (the length of another algorithm is 0)
	if err != nil || parser.rest != "" || length == 0 || len(octets) != length {
		return digest{}, BadDigest
	}
	return digest{name, octets}, nil
}

// matches says whether a digest is that of a body. The zero value matches no body, not even an empty one.
func (d digest) matches(body []byte) bool {
	if d.algorithm == "sha-512" {
		hash := sha512.Sum512(body)
		return bytes.Equal(hash[:], d.octets)
	}
	hash := sha256.Sum256(body)
	return bytes.Equal(hash[:], d.octets)
}

// ContentDigest returns the value of `Content-Digest` for a body, by SHA-256.
func ContentDigest(body []byte) string {
	hash := sha256.Sum256(body)
	return "sha-256=:" + base64.StdEncoding.EncodeToString(hash[:]) + ":"
}
