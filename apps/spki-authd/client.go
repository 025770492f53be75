package main

// How the key of the client's TLS certificate is read from a header. Each web server passes the certificate on in one of three forms.

import (
	"crypto/x509"
	"encoding/base64"
	"errors"
	"net/url"
	"strings"

	"conguraki/spki"
	"conguraki/spki/verify"
)

// The forms in which web servers pass the client's certificate on.
const (
	escapedPEM = "escaped-pem"
	base64DER  = "base64-der"
	xfcc       = "xfcc"
)

// A form reads the value of a header, and returns the X.509 certificate in it, in DER. Each form is the function for one kind of value.
type form func(text string) ([]byte, error)

// forms has each form by its name in the configuration.
var forms = map[string]form{escapedPEM: fromEscapedPEM, base64DER: fromBase64DER, xfcc: fromXFCC}

var (
	errCertificate = errors.New("the client's certificate cannot be read")
	errKey         = errors.New("the client's key is none that is used")
)

// keys read the keys of certificates, and keep those that were asked for last: to read a certificate takes longer than to decide. They are kept by the
// whole value of the header, on which alone they depend.
type keys struct {
	form    form
	clients *recentMap[string, client]
}

// A client is a key that the client holds, as a TLS handshake or a signed request has proved, and the key's SHA-256 digest in hexadecimal digits.
type client struct {
	key       spki.ProvenKey
	keyDigest string
}

// The number of keys that are kept, and the most octets of a header's value by which one is.
const (
	mostKeys      = 1000
	mostKeyedText = 4096
)

// newKeys returns empty `keys` that read certificates in the form of this name, such as escapedPEM.
func newKeys(name string) *keys {
	return &keys{forms[name], newRecentMap[string, client](mostKeys)}
}

// holderOf returns the client whose certificate a header has. `text` is the header's value. The web server has verified that the client holds the
// certificate's key. It fails with errCertificate or errKey, as keyOf does.
func (k *keys) holderOf(text string) (client, error) {
	if holder, isKept := k.clients.get(text); isKept {
		return holder, nil
	}
	key, err := keyOf(text, k.form)
	if err != nil {
		return client{}, err
	}
	holder := client{spki.AssumeKey(key), hexDigest(key)}
	if len(text) <= mostKeyedText {
		k.clients.add(text, holder)
	}
	return holder, nil
}

// keyOf returns the key of the client's TLS certificate, as an SPKI key in canonical form. `text` is the header's value. It fails with errCertificate if
// that cannot be read, and with errKey for a kind of key that is not used. Nothing else in the certificate counts.
func keyOf(text string, form form) ([]byte, error) {
	octets, err := form(text)
	if err != nil {
		return nil, errCertificate
	}
	certificate, err := x509.ParseCertificate(octets)
	if err != nil {
		return nil, errCertificate
	}
	key, err := verify.KeyOf(certificate.PublicKey)
	if err != nil {
		return nil, errKey
	}
	return key, nil
}

// The most octets of a certificate in escaped PEM, and the lines that its PEM begins and ends with.
const (
	mostPEM  = 65_536
	beginPEM = "-----BEGIN CERTIFICATE-----"
	endPEM   = "-----END CERTIFICATE-----"
)

// fromEscapedPEM reads PEM in which characters are written as %XX: `$ssl_client_escaped_cert` of nginx. A `+` stays one, since base64 has it. It fails
// for over mostPEM octets, and unless the text is one block CERTIFICATE without headers, behind which only white space follows. pem.Decode would take
// quadratic time for a text that begins many blocks.
func fromEscapedPEM(text string) ([]byte, error) {
	if len(text) > mostPEM {
		return nil, errCertificate
	}
	unescaped, err := url.PathUnescape(text)
	if err != nil {
		return nil, err
	}
	// (without endPEM the text has no white space at its end here, and so no line feed)
	body := strings.TrimSuffix(strings.TrimRight(unescaped, " \t\r\n"), endPEM)
	if !strings.HasPrefix(body, beginPEM+"\n") && !strings.HasPrefix(body, beginPEM+"\r\n") || !strings.HasSuffix(body, "\n") {
		return nil, errCertificate
	}
	// (base64 has no `-`, so the body has no second block: the decoder passes over CR and LF alone)
	return base64.StdEncoding.DecodeString(body[len(beginPEM):])
}

// fromBase64DER reads DER in base64, as Caddy, HAProxy, Apache and Traefik pass it on. Traefik writes the client's whole chain, with a comma between the
// certificates: the first is the client's own. It fails unless each is base64 without spaces: servers join two headers by a comma and a space, and the
// first of them could be one that the client has sent.
func fromBase64DER(text string) (first []byte, err error) {
	for place, part := range strings.Split(text, ",") {
		octets, err := base64.StdEncoding.Strict().DecodeString(part)
		if err != nil {
			return nil, err
		}
		if place == 0 {
			first = octets
		}
	}
	return first, nil
}

// fromXFCC reads the field Cert of `X-Forwarded-Client-Cert`, as Envoy writes it: one element, with fields NAME=VALUE between semicolons, and the
// certificate as escaped PEM in quotes. It fails for a field without `=`, as cutValue and fromEscapedPEM do, and unless exactly one field is Cert, in
// upper or lower case. It does not test the other names.
func fromXFCC(text string) ([]byte, error) {
	var certificates []string
	for text != "" {
		name, rest, isField := strings.Cut(text, "=")
		if !isField {
			return nil, errCertificate
		}
		value, rest, err := cutValue(rest)
		if err != nil {
			return nil, err
		}
		if strings.EqualFold(name, "Cert") {
			certificates = append(certificates, value)
		}
		text = rest
	}
	if len(certificates) != 1 {
		return nil, errCertificate
	}
	return fromEscapedPEM(certificates[0])
}

// cutValue returns the value that a text begins with, in quotes or not, and what follows the semicolon behind the value. It fails with errCertificate for
// a quote without its end, for anything but a semicolon behind a value in quotes, and for a comma, a quote or a backslash in one without quotes. A comma
// would begin another element, which another proxy wrote.
func cutValue(text string) (value, rest string, err error) {
	if !strings.HasPrefix(text, `"`) {
		value, rest, _ = strings.Cut(text, ";")
		if strings.ContainsAny(value, `,"\`) {
			return "", "", errCertificate
		}
		return value, rest, nil
	}
	value, rest, isQuoted := unquote(text[1:])
	if !isQuoted || rest != "" && rest[0] != ';' {
		return "", "", errCertificate
	}
	return value, strings.TrimPrefix(rest, ";"), nil
}

// unquote returns the text up to the next quote, in which each backslash is left out and the character behind it stays, and what follows that quote.
// If there is no such quote, isQuoted is false.
func unquote(text string) (value, rest string, isQuoted bool) {
	var octets strings.Builder
	for place := 0; place < len(text); place++ {
		switch text[place] {
		case '"':
			return octets.String(), text[place+1:], true
		case '\\':
			place++
			if place == len(text) {
				return "", "", false
			}
		}
		octets.WriteByte(text[place])
	}
	return "", "", false
}
