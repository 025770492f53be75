// The client's side of signed requests (docs/SIGNATURES.md): a Signer adds the fields of a signature to a request.

package httpsig

import (
	"crypto"
	"crypto/ecdsa"
	"crypto/ed25519"
	"crypto/rand"
	"crypto/rsa"
	"encoding/asn1"
	"encoding/base64"
	"errors"
	"fmt"
	"math/big"
	"net/http"
	"strings"
	"time"

	"conguraki/spki/verify"
)

// A Signer makes the fields of signed requests.
type Signer struct {
	// The client's certificates in transport form, `{..}`, or nothing.
	Sequence string
	private  crypto.Signer
	// The public key in canonical form, and its algorithm, such as Ed25519.
	key       []byte
	algorithm string
	now       func() time.Time
	random    func(octets []byte) (int, error)
}

// NewSigner returns a signer by a private key: an ed25519.PrivateKey, an *ecdsa.PrivateKey of P-256 or P-384, an *rsa.PrivateKey, or one of a device
// with such a public key. The error is verify.ErrKey for any other.
func NewSigner(private crypto.Signer) (*Signer, error) {
	key, err := verify.KeyOf(private.Public())
	if err != nil {
		return nil, err
	}
	algorithm, _ := algorithmOf(key)
	return &Signer{private: private, key: key, algorithm: algorithm, now: time.Now, random: rand.Read}, nil
}

// Sign puts the fields of a signature into the header of a request, which must not be nil: also the key, the certificates, and the digest of the
// body if it may have one. All other fields must be in the header before. The scheme is `https` or `http`. `covered` names more fields that the
// signature covers, in small letters, or `@target-uri`. The signature is for this request alone.
//
// The error is BodyWithoutDigest for a body that is not known, UnknownComponent for a name in `covered` that no signature may cover, such as
// `signature` or one with a capital letter, BadTarget for a target or a method in another form, AbsentField if the request lacks a field of
// `covered`, RepeatedField or BadValue for a covered field in two lines or with other octets than visible ASCII, spaces and tabs, or one of the
// private key or of randomness. Some of the fields may be set then, but not `Signature`.
func (s *Signer) Sign(scheme string, message Message, covered ...string) error {
	if err := message.addDigest(); err != nil {
		return err
	}
	message.Header.Set(publicKey, transport(s.key))
	if s.Sequence != "" {
		message.Header.Set("X-Spki-Sequence", s.Sequence)
	}
	names, err := componentsOf(message.Header, covered)
	if err != nil {
		return err
	}
	parameters, err := s.parameters(names)
	if err != nil {
		return err
	}
	if !isToken(message.Method) || !isTarget(message.Target) {
		return BadTarget
	}
	text, err := (&base{&message, scheme, AuthorityOf(scheme, message.Authority)}).text(names, parameters)
	if err != nil {
		return err
	}
	octets, err := s.signText(text)
	if err != nil {
		return err
	}
	message.Header.Set("Signature-Input", label+"="+parameters)
	message.Header.Set("Signature", label+"=:"+base64.StdEncoding.EncodeToString(octets)+":")
	return nil
}

// componentsOf returns the names of what a signature covers: what docs/SIGNATURES.md requires, as far as a header has it, and those named by
// `covered`. The error is UnknownComponent for a name of these that no signature may cover (isComponent). Whether the header has such a field is
// tested later.
func componentsOf(header http.Header, covered []string) ([]string, error) {
	names := []string{method, authority, path, query, publicKey}
	for _, name := range []string{authorization, "x-spki-sequence", contentDigest} {
		if len(header.Values(name)) > 0 {
			names = append(names, name)
		}
	}
	for _, name := range covered {
		if !isComponent(name) {
			return nil, UnknownComponent
		}
		if !contains(names, name) {
			names = append(names, name)
		}
	}
	return names, nil
}

// parameters returns the value of `@signature-params` for components of these names, created now, for mostWindow seconds, with a new nonce. The error
// is one of randomness.
func (s *Signer) parameters(names []string) (string, error) {
	nonce := make([]byte, 16) // (22 characters of base64, of the 16 to 64 that a verifier takes)
	if _, err := s.random(nonce); err != nil {
		return "", err
	}
	created := s.now().Unix()
	return fmt.Sprintf(`("%s");created=%d;expires=%d;nonce="%s";keyid="%s";alg="%s";tag="%s"`, strings.Join(names, `" "`), created,
		created+mostWindow, base64.RawURLEncoding.EncodeToString(nonce), hashOf(s.key), s.algorithm, tag), nil
}

// signText returns the octets of the signature of a text, as RFC 9421 has them. With ECDSA these are r and s in equal halves. (Go's signer writes
// ASN.1.) Ed25519 signs the text itself, and the others sign its digest. The error is one of the private key.
func (s *Signer) signText(text []byte) ([]byte, error) {
	if s.algorithm == Ed25519 {
		return s.private.Sign(rand.Reader, text, crypto.Hash(0))
	}
	hash := crypto.SHA256
	if s.algorithm == P384 {
		hash = crypto.SHA384
	}
	digest := hash.New()
	digest.Write(text)
	octets, err := s.private.Sign(rand.Reader, digest.Sum(nil), hash)
	if err != nil || s.algorithm == RSA {
		return octets, err
	}
	var pair struct{ R, S *big.Int }
	if _, err := asn1.Unmarshal(octets, &pair); err != nil {
		return nil, err
	}
	half := signatureOctets[s.algorithm] / 2
	if len(pair.R.Bytes()) > half || len(pair.S.Bytes()) > half {
		// (as by a service that keeps keys, once it has another one: FillBytes would panic)
		return nil, errors.New("the private key is of another curve than its public key")
	}
	octets = make([]byte, 2*half)
	pair.R.FillBytes(octets[:half])
	pair.S.FillBytes(octets[half:])
	return octets, nil
}

// The compiler tests by these lines that the keys that NewSigner names are crypto.Signers.
var (
	_ crypto.Signer = ed25519.PrivateKey{}
	_ crypto.Signer = (*ecdsa.PrivateKey)(nil)
	_ crypto.Signer = (*rsa.PrivateKey)(nil)
)
