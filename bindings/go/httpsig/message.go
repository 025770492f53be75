// A Message has the parts of a request that a signature may cover. The text that is signed, the signature base of RFC 9421, has a line for each
// component: a field of the request, or a derived one such as `@method`.

package httpsig

import (
	"net/http"
	"strings"
)

// The fields that are covered wherever a request has them, besides the one with the sequence.
const (
	authorization = "authorization"
	contentDigest = "content-digest"
)

// A Message is a request, as it was sent.
type Message struct {
	Method string
	// The name that the client asks, with the port unless that is the default one of the scheme.
	Authority string
	// The path and the query, as in the first line of HTTP/1.1.
	Target string
	Header http.Header
	// Whether the request has a body. It may be false if Content-Length or Transfer-Encoding is in the header, which say so too.
	HasBody bool
	// The body, or nil if there is none or it is not known: then it is not compared. Where HasBody or a field says that there is one, nil is a body
	// that is not known.
	Body []byte
}

// MessageOf returns the message of a request to a server of net/http, whose body stays unread. Its header is a copy, with the field Host, which
// net/http takes out. A body of unknown length counts as a body.
func MessageOf(request *http.Request) Message {
	header := http.Header{}
	if request.Header != nil {
		header = request.Header.Clone()
	}
	header.Set("Host", request.Host)
	return Message{
		Method: request.Method, Authority: request.Host, Target: request.RequestURI, Header: header, HasBody: request.ContentLength != 0,
	}
}

// mayHaveBody says whether the message may have a body, so that its digest must be covered. Each method but GET and HEAD may have one, and these if
// Body has octets or a body is announced.
func (m *Message) mayHaveBody() bool {
	return m.Method != http.MethodGet && m.Method != http.MethodHead || len(m.Body) > 0 || m.announcesBody()
}

// announcesBody says whether HasBody or a field says that the message has a body: Content-Length, unless it is `0`, or Transfer-Encoding.
func (m *Message) announcesBody() bool {
	for _, length := range m.Header.Values("Content-Length") {
		if strings.Trim(length, " \t") != "0" {
			return true
		}
	}
	return m.HasBody || len(m.Header.Values("Transfer-Encoding")) > 0
}

// addDigest puts the digest of the body into the header, if the message may have one. The error is BodyWithoutDigest if it has one that is not known.
func (m *Message) addDigest() error {
	if m.Body == nil && m.announcesBody() {
		return BodyWithoutDigest
	}
	if m.mayHaveBody() {
		m.Header.Set("Content-Digest", ContentDigest(m.Body))
	}
	return nil
}

// AuthorityOf returns the name of a host, perhaps with a port, as it is signed: in small letters, without the default port of the scheme, which is
// `https` or `http`.
func AuthorityOf(scheme, authority string) string {
	defaultPort := map[string]string{"https": ":443", "http": ":80"}[scheme]
	return strings.TrimSuffix(strings.ToLower(authority), defaultPort)
}

// isToken says whether a text is a token of HTTP, as a method and the name of a field are.
func isToken(text string) bool {
	for place := 0; place < len(text); place++ {
		octet := text[place]
		isLetter := 'a' <= octet && octet <= 'z' || 'A' <= octet && octet <= 'Z'
		if !isLetter && !('0' <= octet && octet <= '9') && strings.IndexByte("!#$%&'*+-.^_`|~", octet) < 0 {
			return false
		}
	}
	return text != ""
}

// isTarget says whether a target is a path and perhaps a query, of visible ASCII characters other than `#`. A whole URL, as for a proxy, is none.
func isTarget(target string) bool {
	if !strings.HasPrefix(target, "/") {
		return false
	}
	for place := 0; place < len(target); place++ {
		if target[place] <= ' ' || target[place] > '~' || target[place] == '#' {
			return false
		}
	}
	return true
}

// A base is a message of which the signature base, the signed text of RFC 9421, is made. `scheme` is `https` or `http`, and `authority` is that of
// the message as AuthorityOf returns it.
type base struct {
	*Message
	scheme, authority string
}

// text returns the signed text of these components. The parameters are what follows `spki=` in `Signature-Input`, as it was sent. The error is that
// of value.
func (b *base) text(components []string, parameters string) ([]byte, error) {
	text := make([]byte, 0, 1024) // (most have fewer octets: one allocation)
	for _, name := range components {
		value, err := b.value(name)
		if err != nil {
			return nil, err
		}
		text = append(append(append(text, '"'), name...), `": `...)
		text = append(append(text, value...), '\n')
	}
	return append(append(text, `"@signature-params": `...), parameters...), nil
}

// value returns the value of a component by its name, such as `@path` or the name of a field. For a field the error is AbsentField, RepeatedField or
// BadValue. The value of `@query` begins with `?`, also without a query.
func (b *base) value(name string) (string, error) {
	sentPath, sentQuery, hasQuery := strings.Cut(b.Target, "?")
	switch name {
	case method:
		return b.Method, nil
	case authority:
		return b.authority, nil
	case path:
		return sentPath, nil
	case query:
		return "?" + sentQuery, nil
	case targetURI:
		if hasQuery {
			sentQuery = "?" + sentQuery
		}
		return b.scheme + "://" + b.authority + sentPath + sentQuery, nil
	}
	return fieldOf(b.Header, name)
}

// fieldOf returns the value of a field, which must be there in one line. The error is AbsentField, RepeatedField or BadValue.
func fieldOf(header http.Header, name string) (string, error) {
	values := header.Values(name)
	switch len(values) {
	case 0:
		return "", AbsentField
	case 1:
		return cleanValue(values[0])
	}
	return "", RepeatedField
}

// cleanValue returns the value of a field without the spaces and tabs around it, or BadValue if an octet is neither visible ASCII, space nor tab.
func cleanValue(value string) (string, error) {
	value = strings.Trim(value, " \t")
	for place := 0; place < len(value); place++ {
		if octet := value[place]; octet != '\t' && (octet < ' ' || octet > '~') {
			return "", BadValue
		}
	}
	return value, nil
}
