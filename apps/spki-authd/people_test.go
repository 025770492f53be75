package main

// The people of the tests: each has a key and a certificate for TLS. What they write, such as certificates and tags, is text in SPKI's canonical
// form.

import (
	"crypto"
	"crypto/ed25519"
	"crypto/rand"
	"crypto/sha256"
	"crypto/x509"
	"crypto/x509/pkix"
	"encoding/base64"
	"encoding/hex"
	"encoding/pem"
	"fmt"
	"math/big"
	"net/url"
	"os"
	"path/filepath"
	"strings"
	"testing"
	"time"

	"conguraki/spki/verify"
)

// A person has a key, also as an SPKI key in canonical form, and a TLS certificate of it in DER that it has signed itself.
type person struct {
	private ed25519.PrivateKey
	key     string
	der     []byte
}

// newPerson makes a person with a new key.
func newPerson(t testing.TB) person {
	t.Helper()
	public, private, err := ed25519.GenerateKey(rand.Reader)
	if err != nil {
		t.Fatal(err)
	}
	key, err := verify.KeyOf(public)
	if err != nil {
		t.Fatal(err)
	}
	return person{private, string(key), selfSigned(t, private)}
}

// selfSigned returns an X.509 certificate of a key, signed by that key, in DER. Its end is long past: the daemon uses nothing but the key.
func selfSigned(t testing.TB, private crypto.Signer) []byte {
	t.Helper()
	template := &x509.Certificate{SerialNumber: big.NewInt(1), Subject: pkix.Name{CommonName: "nobody"}, NotAfter: time.Unix(1, 0)}
	der, err := x509.CreateCertificate(rand.Reader, template, template, private.Public(), private)
	if err != nil {
		t.Fatal(err)
	}
	return der
}

// pem returns the certificate in PEM.
func (p person) pem() string {
	return string(pem.EncodeToMemory(&pem.Block{Type: "CERTIFICATE", Bytes: p.der}))
}

// escaped returns the certificate as nginx passes it on: in PEM, with %XX for special characters. nginx writes a space as %20, and QueryEscape as
// `+`.
func (p person) escaped() string {
	return strings.ReplaceAll(url.QueryEscape(p.pem()), "+", "%20")
}

// inBraces returns the key in transport form: `{BASE64}`.
func (p person) inBraces() string {
	return "{" + base64.StdEncoding.EncodeToString([]byte(p.key)) + "}"
}

// str returns a string in canonical form: `abc` as `3:abc`.
func str(octets string) string {
	return fmt.Sprintf("%d:%s", len(octets), octets)
}

// certificate returns a certificate in canonical form, not signed, by which a person gives another one the right of a tag. `more` has further fields,
// such as propagates, or is empty.
func (p person) certificate(to person, tag, more string) string {
	return "(4:cert(6:issuer" + p.key + ")(7:subject" + to.key + ")" + more + "(3:tag" + tag + "))"
}

// certificateUntil returns a certificate in canonical form, not signed, by which a person gives another one the right of a tag until a time such as
// 2030-01-31_12:00:00.
func (p person) certificateUntil(to person, tag, end string) string {
	return "(4:cert(6:issuer" + p.key + ")(7:subject" + to.key + ")(3:tag" + tag + ")(5:valid(9:not-after" + str(end) + ")))"
}

// sign returns a certificate, which is in canonical form, with this person's signature behind it. The signature has the certificate's digest and the
// person's key.
func (p person) sign(certificate string) string {
	digest := sha256.Sum256([]byte(certificate))
	octets := ed25519.Sign(p.private, []byte(certificate))
	// (the halves of a signature by Ed25519 are called r and s)
	value := "(7:sig-val(5:eddsa(1:r" + str(string(octets[:32])) + ")(1:s" + str(string(octets[32:])) + ")))"
	return certificate + "(9:signature(4:hash6:sha256" + str(string(digest[:])) + ")" + p.key + value + ")"
}

// signAs returns a certificate with this person's signature behind it, which claims to be by another person's key.
func (p person) signAs(other person, certificate string) string {
	return strings.Replace(p.sign(certificate), p.key+"(7:sig-val", other.key+"(7:sig-val", 1)
}

// sequence returns signed certificates as one sequence in transport form, as a client sends them.
func sequence(signed ...string) string {
	return "{" + base64.StdEncoding.EncodeToString([]byte("(8:sequence"+strings.Join(signed, "")+")")) + "}"
}

// noSequence is the list `(a)` in transport form, which is no sequence of certificates.
const noSequence = "{KDE6YSk=}"

// digestOfText returns the SHA-256 digest, in hexadecimal digits, of a certificate in canonical form or of lines, as a file of ended certificates has both.
func digestOfText(text string) string {
	digest := sha256.Sum256([]byte(text))
	return hex.EncodeToString(digest[:])
}

// prefixTag returns, in canonical form, the tag `(files WORD (* prefix PATH))`: a word such as read, for all paths that begin with PATH.
func prefixTag(word, path string) string {
	return "(5:files" + str(word) + "(1:*6:prefix" + str(path) + "))"
}

// withLastLine returns lines of ended certificates with the last line that such a file must have: the number of lines with a digest, and the digest
// of all lines.
func withLastLine(lines string) string {
	digests := 0
	for _, line := range strings.Split(lines, "\n") {
		if line != "" && line[0] != '#' {
			digests++
		}
	}
	return fmt.Sprintf("%send %d %s\n", lines, digests, digestOfText(lines))
}

// propagates is the field of a certificate or an entry that lets the subject delegate.
const propagates = "(9:propagate)"

// writeFile writes a file in a new folder, and returns its path. Both are removed when the test ends.
func writeFile(t testing.TB, name, text string) string {
	t.Helper()
	path := filepath.Join(t.TempDir(), name)
	if err := os.WriteFile(path, []byte(text), 0o600); err != nil {
		t.Fatal(err)
	}
	return path
}
