// Package httpsig proves the client's key in each HTTP request, by HTTP Message Signatures (RFC 9421) of the profile in docs/SIGNATURES.md. A
// Verifier is for services, a Signer and a Transport for clients. It does not need libspki_c.
package httpsig

// A Refusal is why a request proves no key: a name of docs/SIGNATURES.md. It is an error, and errors.Is compares it.
type Refusal string

// The refusals, in the order of docs/SIGNATURES.md, which says when each is the answer.
const (
	Absent            Refusal = "absent"
	RepeatedField     Refusal = "repeated-field"
	Malformed         Refusal = "malformed"
	OtherLabel        Refusal = "other-label"
	TwoSignatures     Refusal = "two-signatures"
	ComponentTwice    Refusal = "component-twice"
	UnknownComponent  Refusal = "unknown-component"
	MissingComponent  Refusal = "missing-component"
	ParameterTwice    Refusal = "parameter-twice"
	UnknownParameter  Refusal = "unknown-parameter"
	MissingParameter  Refusal = "missing-parameter"
	OtherTag          Refusal = "other-tag"
	BadNonce          Refusal = "bad-nonce"
	BadWindow         Refusal = "bad-window"
	TooEarly          Refusal = "too-early"
	Expired           Refusal = "expired"
	BeforeStart       Refusal = "before-start"
	BadMethod         Refusal = "bad-method"
	BadTarget         Refusal = "bad-target"
	OtherAuthority    Refusal = "other-authority"
	AbsentField       Refusal = "absent-field"
	BadValue          Refusal = "bad-value"
	UncoveredField    Refusal = "uncovered-field"
	BodyWithoutDigest Refusal = "body-without-digest"
	BadDigest         Refusal = "bad-digest"
	BadKey            Refusal = "bad-key"
	OtherKey          Refusal = "other-key"
	OtherAlgorithm    Refusal = "other-algorithm"
	InvalidSignature  Refusal = "invalid-signature"
	OtherDigest       Refusal = "other-digest"
	NonceSeen         Refusal = "nonce-seen"
	StoreFull         Refusal = "store-full"
)

// Error returns a sentence with the name.
func (r Refusal) Error() string { return "the request proves no key: " + string(r) }
