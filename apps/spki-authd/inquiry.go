package main

// What the web server asks: an inquiry, which is read from the headers of the web server's own request. A header that is read may be there only once.

import (
	"crypto/subtle"
	"errors"
	"net/http"
	"strings"
)

// scheme begins the value of `Authorization` in which a client sends its certificates. It may be in upper or lower case.
const scheme = "SPKI "

// The most octets of a request's number, or of an address, in the log: what is longer is cut.
const mostID = 64

// An inquiry is what the web server asks the daemon about its client's request, as the headers of its own request say it.
type inquiry struct {
	// The method and the target of the client's request, and the header's value with the client's TLS certificate, which keys.holderOf reads, or empty.
	method, target, certificate string
	// The client's SPKI certificates in transport form, or empty.
	sequence string
	// The number that the web server has given the request, for the log, or empty.
	id string
	// The host that the client asks for, or empty if it is not known, and the client's address, if the web server says it.
	host, address string
	// All headers, since those of a signed request have the signature.
	header http.Header
	// The body of a request that leaves certificates, or nil.
	body []byte
}

var (
	errSecret   = errors.New("the secret is missing or wrong: this is not the web server")
	errHeader   = errors.New("a header is missing, is there twice or has an octet that headers do not have")
	errSequence = errors.New("the certificates are sent twice, or are no text in transport form")
	errPrefix   = errors.New("the path of the request does not begin with path_prefix")
	errTooLong  = errors.New("the headers have more octets than header_octets")
)

// inquiryOf reads what the web server asks from the headers of its request. It fails with errSecret, errTooLong, errHeader, errHost, errPrefix or
// errSequence, and then returns what it has read until then, for the log.
func (c *config) inquiryOf(request *http.Request) (inquiry inquiry, err error) {
	if err := c.checkServer(request); err != nil {
		return inquiry, err
	}
	if octetsOf(request.Header) > c.Limits.HeaderOctets {
		return inquiry, errTooLong
	}
	if inquiry.id, err = headerValue(request, c.Headers.ID); err != nil {
		return inquiry, err
	}
	inquiry.id = cut(inquiry.id, mostID)
	inquiry.header = request.Header
	if inquiry.host, err = c.hostOf(request); err != nil {
		return inquiry, err
	}
	if inquiry.address, err = c.addressOf(request); err != nil {
		return inquiry, err
	}
	inquiry.method, inquiry.target = request.Method, request.RequestURI
	if c.Headers.Method != "" {
		if inquiry.method, err = requiredHeader(request, c.Headers.Method); err != nil {
			return inquiry, err
		}
	}
	if inquiry.target, err = c.targetOf(request); err != nil {
		return inquiry, err
	}
	if inquiry.certificate, err = headerValue(request, c.Headers.Certificate); err != nil {
		return inquiry, err
	}
	inquiry.sequence, err = c.sequenceOf(request)
	return inquiry, err
}

// targetOf returns the target of the client's request: from a header, or that of the web server's own request behind path_prefix. Without that prefix
// it fails with errPrefix, and returns the whole target for the log. Where the header is missing or empty, it fails with errHeader.
func (c *config) targetOf(request *http.Request) (string, error) {
	if c.Headers.URI != "" {
		return requiredHeader(request, c.Headers.URI)
	}
	if !strings.HasPrefix(request.RequestURI, c.PathPrefix) {
		return request.RequestURI, errPrefix
	}
	return request.RequestURI[len(c.PathPrefix):], nil
}

// hostOf returns the host that the client asks for, in small letters without a port. If that is missing or not clear, it fails with errHost, or
// returns an empty text where neither a rule nor a list depends on the host. For a header that is there twice, or has CR, LF or NUL, it always fails
// with errHeader.
func (c *config) hostOf(request *http.Request) (string, error) {
	text := request.Host
	if c.Headers.Host != "" {
		var err error
		if text, err = headerValue(request, c.Headers.Host); err != nil {
			return "", err
		}
	}
	host, err := hostOf(text)
	if err != nil && !c.needsHost {
		return "", nil
	}
	return host, err
}

// addressOf returns the client's address, or an empty text if the web server does not say it. It fails as headerValue does. Where addresses have a rate,
// a missing one is errHeader too.
func (c *config) addressOf(request *http.Request) (string, error) {
	if c.Limits.AddressRate > 0 {
		return requiredHeader(request, c.Headers.Address)
	}
	return headerValue(request, c.Headers.Address)
}

// checkServer returns errSecret if the configuration has a secret and a request lacks it, or has another: then the request is not the web server's.
func (c *config) checkServer(request *http.Request) error {
	if len(c.secret) == 0 {
		return nil
	}
	secret, err := headerValue(request, c.Headers.Secret)
	// (in constant time: else the time of the answer would tell how many octets are right)
	if err != nil || subtle.ConstantTimeCompare([]byte(secret), c.secret) != 1 {
		return errSecret
	}
	return nil
}

// sequenceOf returns the certificates that the client sends in transport form, or an empty text: from `Authorization: SPKI {..}` or from a header of
// their own. It fails with errSequence for both, for `SPKI` alone, and for a text that does not begin with `{`, and as headerValue does. Other
// credentials in `Authorization` are passed over.
func (c *config) sequenceOf(request *http.Request) (string, error) {
	inHeader, err := headerValue(request, c.Headers.Sequence)
	if err != nil {
		return "", err
	}
	credentials, err := headerValue(request, authorization)
	if err != nil {
		return "", err
	}
	var inCredentials string
	if len(credentials) >= len(scheme) && strings.EqualFold(credentials[:len(scheme)], scheme) {
		inCredentials = strings.TrimLeft(credentials[len(scheme):], " ")
	} else if strings.EqualFold(credentials, strings.TrimSpace(scheme)) {
		return "", errSequence
	}
	if inHeader != "" && inCredentials != "" {
		return "", errSequence
	}
	if sequence := inHeader + inCredentials; sequence == "" || strings.HasPrefix(sequence, "{") {
		return sequence, nil
	}
	return "", errSequence
}

// requiredHeader returns the value of a header, which must be there once and not be empty: otherwise it fails with errHeader.
func requiredHeader(request *http.Request, name string) (string, error) {
	value, err := headerValue(request, name)
	if err == nil && value == "" {
		err = errHeader
	}
	return value, err
}

// headerValue returns the value of a header, or an empty text if it is not there. `name` is in canonical form, as net/http writes it. If the header is
// there twice, a client could have sent one of them: then it fails with errHeader, as for a value with CR, LF or NUL.
func headerValue(request *http.Request, name string) (string, error) {
	values := request.Header[name]
	if len(values) == 0 {
		return "", nil
	}
	value := values[0]
	if len(values) > 1 || strings.IndexByte(value, '\r') >= 0 || strings.IndexByte(value, '\n') >= 0 || strings.IndexByte(value, 0) >= 0 {
		return "", errHeader
	}
	return value, nil
}

// octetsOf returns how many octets the names and values of headers have together.
func octetsOf(header http.Header) int {
	octets := 0
	for name, values := range header {
		for _, value := range values {
			octets += len(name) + len(value)
		}
	}
	return octets
}
