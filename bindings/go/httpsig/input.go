// Reads the fields `Signature-Input` and `Signature`. Each is a dictionary of RFC 8941 with one member, `spki=..`: the label is its name. A signature
// covers components: fields of the request, and derived ones such as `@method`.

package httpsig

import (
	"encoding/base64"
	"strconv"
	"strings"
)

// The label of `Signature-Input` and `Signature`, as in `spki=..`, and the value of the parameter `tag`. docs/SIGNATURES.md says what else a request
// must have.
const (
	label = "spki"
	tag   = "spki"
)

// The most octets of `Signature-Input` and of `Signature`, which a verifier reads before it knows the client, the most components, as
// docs/SIGNATURES.md has it, and the most digits of a number, as RFC 8941 has it.
const (
	mostInput      = 8192
	mostComponents = 32
	mostDigits     = 15
)

// The derived components, which are no fields, that a signature may cover.
const (
	method    = "@method"
	authority = "@authority"
	targetURI = "@target-uri"
	path      = "@path"
	query     = "@query"
)

// publicKey is the field with the key that signs, which is always covered.
const publicKey = "x-spki-public-key"

// An input is the value of `Signature-Input`. The times are in seconds since 1970.
type input struct {
	// The value of `@signature-params`: what follows `spki=`, as it was sent.
	text             string
	components       []string
	created, expires int64
	nonce, keyID     string
	algorithm, tag   string
}

// A parser reads the value of a field from the left. `rest` is what it has not read.
type parser struct {
	rest string
}

// trySkip skips a text if the rest begins with it, and says whether it does.
func (p *parser) trySkip(text string) bool {
	if !strings.HasPrefix(p.rest, text) {
		return false
	}
	p.rest = p.rest[len(text):]
	return true
}

// skipLabel skips the label of the first member and its `=`. The error is Malformed if one of the two is missing, and OtherLabel for another label
// than `spki`.
func (p *parser) skipLabel() error {
	name := p.readName()
	if name == "" || !p.trySkip("=") {
		return Malformed
	}
	if name != label {
		return OtherLabel
	}
	return nil
}

// expectEnd returns nil if nothing follows the first member, TwoSignatures if a comma does, perhaps behind spaces and tabs, and otherwise Malformed.
func (p *parser) expectEnd() error {
	switch {
	case p.rest == "":
		return nil
	case strings.HasPrefix(strings.TrimLeft(p.rest, " \t"), ","):
		return TwoSignatures
	}
	return Malformed
}

// readName reads the name of a member or of a parameter, and returns it. It is empty if none is there.
func (p *parser) readName() string {
	end := 0
	for end < len(p.rest) && isNameOctet(p.rest[end], end) {
		end++
	}
	name := p.rest[:end]
	p.rest = p.rest[end:]
	return name
}

// isNameOctet says whether an octet may be at a place, from 0, in a name (RFC 8941, `key`). The first is a small letter or `*`.
func isNameOctet(octet byte, place int) bool {
	return 'a' <= octet && octet <= 'z' || octet == '*' ||
		place > 0 && ('0' <= octet && octet <= '9' || octet == '_' || octet == '-' || octet == '.')
}

// readString reads a string of visible ASCII and spaces in quotes, and returns it without the quotes. Everything else is Malformed, also an escape:
// no string of a request needs one.
func (p *parser) readString() (string, error) {
	if !p.trySkip(`"`) {
		return "", Malformed
	}
	end := strings.IndexByte(p.rest, '"')
	if end < 0 {
		return "", Malformed
	}
	text := p.rest[:end]
	for place := 0; place < end; place++ {
		if text[place] < ' ' || text[place] > '~' || text[place] == '\\' {
			return "", Malformed
		}
	}
	p.rest = p.rest[end+1:]
	return text, nil
}

// readInteger reads a number of seconds: at most 15 digits, without a sign, and without a 0 in front. Everything else is Malformed.
func (p *parser) readInteger() (int64, error) {
	end := 0
	for end < len(p.rest) && '0' <= p.rest[end] && p.rest[end] <= '9' {
		end++
	}
	text := p.rest[:end]
	if end == 0 || end > mostDigits || end > 1 && text[0] == '0' {
		return 0, Malformed
	}
	p.rest = p.rest[end:]
	return strconv.ParseInt(text, 10, 64)
}

// readComponents reads the list of components, `("@method" ..)`, and returns their names in order. The error is UnknownComponent, ComponentTwice or
// Malformed, which more than mostComponents are too.
func (p *parser) readComponents() ([]string, error) {
	if !p.trySkip("(") {
		return nil, Malformed
	}
	var names []string
	for !p.trySkip(")") {
		if len(names) == mostComponents {
			return nil, Malformed
		}
		if len(names) > 0 && !p.trySkip(" ") {
			return nil, Malformed
		}
		name, err := p.readString()
		if err != nil {
			return nil, err
		}
		if !isComponent(name) || strings.HasPrefix(p.rest, ";") { // (a component with parameters)
			return nil, UnknownComponent
		}
		if contains(names, name) {
			return nil, ComponentTwice
		}
		names = append(names, name)
	}
	return names, nil
}

// isComponent says whether a signature may cover a component of this name: a field, in small letters, or one of the five derived ones. The two fields
// of the signature itself may not be covered. Whether the request has the field is not tested.
func isComponent(name string) bool {
	switch name {
	case method, authority, targetURI, path, query:
		return true
	case "signature", "signature-input":
		return false
	}
	return isToken(name) && name == strings.ToLower(name)
}

// contains says whether a name is one of `names`.
func contains(names []string, name string) bool {
	for _, other := range names {
		if other == name {
			return true
		}
	}
	return false
}

// inputOf reads the value of `Signature-Input`. The error is a Refusal, also if a component or a parameter is missing that is required.
func inputOf(text string) (*input, error) {
	if len(text) > mostInput {
		return nil, Malformed
	}
	parser, input := &parser{text}, new(input)
	if err := parser.skipLabel(); err != nil {
		return nil, err
	}
	input.text = parser.rest
	var err error
	if input.components, err = parser.readComponents(); err != nil {
		return nil, err
	}
	count, err := input.readParameters(parser)
	if err != nil {
		return nil, err
	}
	switch {
	case !input.hasComponents():
		return nil, MissingComponent
	case count != len(input.parameterFields()): // (readParameters refuses an unknown one and a second one, so this is too few)
		return nil, MissingParameter
	}
	return input, nil
}

// hasComponents says whether the signature covers all components that are required: the method, the authority, the key, and the target, either whole
// or as path and query.
func (i *input) hasComponents() bool {
	hasTarget := contains(i.components, targetURI) || contains(i.components, path) && contains(i.components, query)
	return hasTarget && contains(i.components, method) && contains(i.components, authority) && contains(i.components, publicKey)
}

// parameterFields returns pointers to the fields for the parameters, by the names of these: to numbers, *int64, and to strings.
func (i *input) parameterFields() map[string]any {
	return map[string]any{
		"created": &i.created, "expires": &i.expires, "nonce": &i.nonce, "keyid": &i.keyID, "alg": &i.algorithm, "tag": &i.tag,
	}
}

// readParameters reads the parameters, `;created=1700000000 ..`, up to the end of the text, into the fields of i, and returns their number. The error
// is a Refusal.
func (i *input) readParameters(p *parser) (int, error) {
	// (the pointer of a parameter that was read becomes nil, so a second one is ParameterTwice)
	fields, count := i.parameterFields(), 0
	for p.trySkip(";") {
		name := p.readName()
		if name == "" {
			return 0, Malformed
		}
		field, isKnown := fields[name]
		switch {
		case !isKnown:
			return 0, UnknownParameter
		case field == nil:
			return 0, ParameterTwice
		case !p.trySkip("="):
			return 0, Malformed
		}
		if err := p.readInto(field); err != nil {
			return 0, err
		}
		fields[name] = nil
		count++
	}
	return count, p.expectEnd()
}

// readInto reads a number or a string, whichever the field is that a pointer of parameterFields points to, and sets the field. The error is
// Malformed.
func (p *parser) readInto(field any) (err error) {
	switch field := field.(type) {
	case *int64:
		*field, err = p.readInteger()
	case *string:
		*field, err = p.readString()
	}
	return err
}

// octetsOf reads the value of `Signature`, `spki=:BASE64:`, and returns the octets of the signature. The error is a Refusal.
func octetsOf(text string) ([]byte, error) {
	parser := &parser{text}
	if len(text) > mostInput {
		return nil, Malformed
	}
	if err := parser.skipLabel(); err != nil {
		return nil, err
	}
	octets, err := parser.readOctets()
	if err != nil {
		return nil, err
	}
	return octets, parser.expectEnd()
}

// readOctets reads base64 between two colons, and returns the octets that it encodes. Everything else is Malformed.
func (p *parser) readOctets() ([]byte, error) {
	if !p.trySkip(":") {
		return nil, Malformed
	}
	end := strings.IndexByte(p.rest, ':')
	if end < 0 {
		return nil, Malformed
	}
	octets, isBase64 := decodeBase64(p.rest[:end])
	if !isBase64 {
		return nil, Malformed
	}
	p.rest = p.rest[end+1:]
	return octets, nil
}

// decodeBase64 decodes base64, and says whether the text is exactly how its octets are encoded, with padding. (Go's decoder passes over ends of
// lines.)
func decodeBase64(text string) ([]byte, bool) {
	if strings.ContainsAny(text, "\r\n") {
		return nil, false
	}
	octets, err := base64.StdEncoding.Strict().DecodeString(text)
	return octets, err == nil
}
