// The service's side of signed requests (docs/SIGNATURES.md): a Verifier tests a Message, and returns a Proof, which says which key has signed it, or
// a Refusal. A nonce is the text that makes each signature count once.

package httpsig

import (
	"errors"
	"io"
	"math"
	"net/http"
	"strings"
	"time"

	"conguraki/spki"
	"conguraki/spki/verify"
)

// The seconds from `created` to `expires` at most, and those that a client's clock may be ahead.
const (
	mostWindow = 300
	mostAhead  = 60
)

// The fewest and the most characters of a nonce.
const (
	leastNonce = 16
	mostNonce  = 64
)

// A Verifier says which key has made a request. Its fields are set before it is used, and then several goroutines may use it.
type Verifier struct {
	// The names of this service, each with its port unless that is the default one of the scheme. A request for any other is refused.
	Authorities []string
	// `https`, as NewVerifier sets it, or `http`.
	Scheme string
	// The field with the client's certificates, in small letters: `x-spki-sequence`, as NewVerifier sets it, or another.
	Sequence string
	// Keeps the nonces that were used.
	Nonces Nonces
	// A request that was created before is refused, since its nonce may be forgotten. It is the time of NewVerifier. Set it to zero if the nonces
	// outlast the process. If the clock was behind then and was put forward since, the time counts that this clock would have shown.
	Start time.Time
	// The clock of the service.
	Now func() time.Time
	// Says whether a signature is valid, as a guard.Verify does.
	Verify func(spki.Signature) bool
}

// NewVerifier returns a verifier for a service of these names, with https, nonces in memory, and verify.Signature.
func NewVerifier(authorities ...string) *Verifier {
	return &Verifier{
		Authorities: authorities, Scheme: "https", Sequence: "x-spki-sequence", Nonces: NewMemory(usualNonces), Start: time.Now(), Now: time.Now,
		Verify: verify.Signature,
	}
}

// A Proof says which key has signed a request.
type Proof struct {
	// The key, and the certificates that the request shows, as a guard.Question has them.
	Key      spki.ProvenKey
	Sequence []byte
	// What Take uses up.
	nonce string
	// The second since 1970 at which the request was proved, that from which its signature is not accepted, and what Body compares a body with.
	moment, expires int64
	digest          digest
}

// Hash returns the SHA-256 digest of the key, in hexadecimal digits: the `keyid` of the request.
func (p *Proof) Hash() string {
	return hashOf([]byte(p.Key.Text()))
}

// Body reads a body of at most `most` octets, and returns it if it is the signed one. The error is OtherDigest if it is not, one of reading, or that
// it is too long. If the request covers no digest, nil is returned for an empty body, and OtherDigest for any other.
func (p *Proof) Body(from io.Reader, most int64) ([]byte, error) {
	limit := most
	if limit < math.MaxInt64 {
		// (an octet more shows that the body is too long)
		limit++
	}
	body, err := io.ReadAll(io.LimitReader(from, limit))
	if err != nil {
		return nil, err
	}
	if int64(len(body)) > most {
		return nil, errors.New("the body is too long")
	}
	if p.digest.octets == nil && len(body) == 0 {
		return nil, nil
	}
	if p.digest.octets == nil || !p.digest.matches(body) {
		return nil, OtherDigest
	}
	return body, nil
}

// Request returns the proof of a request to a server of net/http, as Message does. The body stays unread: Proof.Body reads it. The error is a
// Refusal, or one of Nonces.
func (v *Verifier) Request(request *http.Request) (*Proof, error) {
	return v.Message(MessageOf(request))
}

// Message returns the proof of a message, whose nonce it uses up before anything is decided: ANYBODY CAN MAKE A KEY, and fill the store so that each
// request is refused. A service that denies some keys calls Check, decides, and calls Take for a yes. The error is a Refusal, or one of Nonces: then
// the message proves no key.
func (v *Verifier) Message(message Message) (*Proof, error) {
	proof, err := v.Check(message)
	if err == nil {
		err = v.Take(proof)
	}
	if err != nil {
		return nil, err
	}
	return proof, nil
}

// Take uses up the nonce of a proof that Check has returned. The error is that of Nonces, such as NonceSeen or StoreFull, or Expired if the signature
// has expired since. NO PROOF COUNTS WITHOUT IT: a caller of Check decides, and takes the nonce for a yes alone, before it acts, so that strangers do
// not fill the store.
func (v *Verifier) Take(proof *Proof) error {
	now := v.Now().Unix()
	if now < proof.moment {
		// (the clock has gone back: a nonce that is kept from now would be forgotten before the signature has expired)
		now = proof.moment
	}
	if proof.expires <= now {
		// (the nonce may have been used, and be forgotten)
		return Expired
	}
	// (a signature that Check accepts now is accepted for so many seconds at most)
	return v.Nonces.Take([]byte(proof.Key.Text()), proof.nonce, now, mostWindow+mostAhead)
}

// Check returns the proof of a message, or a Refusal. It does not use up the nonce: a decision and Take must follow.
func (v *Verifier) Check(message Message) (*Proof, error) {
	input, octets, err := signatureOf(message.Header)
	if err != nil {
		return nil, err
	}
	now := v.Now()
	if err := v.checkParameters(input, now); err != nil {
		return nil, err
	}
	text, digest, err := v.checkMessage(message, input)
	if err != nil {
		return nil, err
	}
	key, length, err := signerOf(message.Header, input)
	if err != nil {
		return nil, err
	}
	if len(octets) != length {
		return nil, InvalidSignature
	}
	proven, err := spki.ProveKey(spki.Signature{Key: key, Message: text, Value: valueOf(input.algorithm, octets)}, v.Verify)
	if err != nil {
		return nil, InvalidSignature
	}
	if digest.octets != nil && message.Body != nil && !digest.matches(message.Body) {
		return nil, OtherDigest
	}
	return &Proof{proven, v.sequenceOf(message.Header), input.nonce, now.Unix(), input.expires, digest}, nil
}

// signerOf returns the key of a request in canonical form, and how many octets a signature by it has. The error is a Refusal, also if `keyid` or
// `alg` is that of another key.
func signerOf(header http.Header, input *input) (key []byte, octets int, err error) {
	text, err := fieldOf(header, publicKey)
	if err != nil {
		return nil, 0, err
	}
	key, algorithm, octets, err := keyOf(text)
	switch {
	case err != nil:
		return nil, 0, err
	case hashOf(key) != input.keyID:
		return nil, 0, OtherKey
	case algorithm != input.algorithm:
		return nil, 0, OtherAlgorithm
	}
	return key, octets, nil
}

// sequenceOf returns the field with the certificates as it was sent, also an empty one, or a sequence of none where it is absent. It is called after
// checkMessage, which refuses a request whose field of certificates is not covered or has two lines.
func (v *Verifier) sequenceOf(header http.Header) []byte {
	if sequences := header.Values(v.Sequence); len(sequences) > 0 {
		return []byte(sequences[0])
	}
	return []byte("(sequence)")
}

// signatureOf reads the two fields of a signature: `Signature-Input`, and the octets in `Signature`. The error is a Refusal.
func signatureOf(header http.Header) (*input, []byte, error) {
	inputs, signatures := header.Values("Signature-Input"), header.Values("Signature")
	switch {
	case len(inputs)+len(signatures) == 0:
		return nil, nil, Absent
	case len(inputs) > 1 || len(signatures) > 1:
		return nil, nil, RepeatedField
	case len(inputs) != len(signatures):
		return nil, nil, Malformed
	}
	input, err := inputOf(strings.Trim(inputs[0], " \t"))
	if err != nil {
		return nil, nil, err
	}
	octets, err := octetsOf(strings.Trim(signatures[0], " \t"))
	return input, octets, err
}

// checkParameters returns the refusal of the tag, of the length of the nonce or of the times at a moment, or nil. Unless v.Start is zero, the
// signature must not precede the start of the service, neither by the clock as it was set then, nor as it is set now.
func (v *Verifier) checkParameters(input *input, moment time.Time) error {
	now := moment.Unix()
	switch {
	case input.tag != tag:
		return OtherTag
	case len(input.nonce) < leastNonce || len(input.nonce) > mostNonce:
		return BadNonce
	case input.expires <= input.created || input.expires > input.created+mostWindow:
		return BadWindow
	case input.created > now+mostAhead:
		return TooEarly
	case input.expires <= now:
		return Expired
	case !v.Start.IsZero() && (input.created < v.Start.Unix() || input.created < startBy(moment, v.Start)):
		return BeforeStart
	}
	return nil
}

// startBy returns the second since 1970 of the start, by the clock as it is set at `now`: `now` less the time since `start`. Go takes that time by
// the monotonic clock, which nobody puts forward. If one of the two has no reading of it, the result is the second of `start`.
func startBy(now, start time.Time) int64 {
	return now.Add(-now.Sub(start)).Unix()
}

// checkMessage tests the method, the target and the authority, that the fields are covered which must be if they are sent, and that a body has a
// digest. (What each request must cover, inputOf has tested.) It returns the signed text and the digest of the body, which is the zero digest if none
// is covered. The error is a Refusal. The body itself is not compared.
func (v *Verifier) checkMessage(message Message, input *input) (text []byte, digest digest, err error) {
	if !isToken(message.Method) {
		return nil, digest, BadMethod
	}
	if !isTarget(message.Target) {
		return nil, digest, BadTarget
	}
	signed := base{&message, v.Scheme, AuthorityOf(v.Scheme, message.Authority)}
	if !v.isOwnName(signed.authority) {
		return nil, digest, OtherAuthority
	}
	if text, err = signed.text(input.components, input.text); err != nil {
		return nil, digest, err
	}
	for _, name := range []string{authorization, v.Sequence, contentDigest} {
		if len(message.Header.Values(name)) > 0 && !contains(input.components, name) {
			return nil, digest, UncoveredField
		}
	}
	if !contains(input.components, contentDigest) {
		if message.mayHaveBody() {
			return nil, digest, BodyWithoutDigest
		}
		return text, digest, nil
	}
	value, err := signed.value(contentDigest)
	if err != nil {
		return nil, digest, err
	}
	digest, err = digestOf(value)
	return text, digest, err
}

// isOwnName says whether an authority, as AuthorityOf returns it, is a name of this service. An empty one never is, even if AuthorityOf makes an
// empty one of a name of the service, such as `:443`.
func (v *Verifier) isOwnName(authority string) bool {
	for _, name := range v.Authorities {
		if authority != "" && AuthorityOf(v.Scheme, name) == authority {
			return true
		}
	}
	return false
}
