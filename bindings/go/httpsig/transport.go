// Signs what an http.Client sends: a Transport is an http.RoundTripper with a Signer.

package httpsig

import (
	"bytes"
	"io"
	"net/http"
)

// A Transport signs each request of an http.Client to one of some names. A request to any other, as one that a redirection leads to, goes out as
// it is: its server learns no key and no certificates. So does a request whose Host is another name than that of its URL: the server that gets it
// could use the signature at the other one. And so does one by http to which a server with https has redirected: the signatures of a Transport do not
// cover the scheme, so whoever reads the request on its way could send it by https.
//
//	client := http.Client{Transport: &httpsig.Transport{Signer: signer, Names: []string{"files.example.org"}}}
type Transport struct {
	Signer *Signer
	// The services, by https or http, each with its port unless that is the default one of the scheme.
	Names []string
	// What sends the request: http.DefaultTransport, if nothing is set.
	Base http.RoundTripper
}

// RoundTrip sends a request, signed where isToOneOf allows that, and returns the response. The whole body of a signed request is in memory. The error
// is that of signedCopy or of Base.
func (t *Transport) RoundTrip(request *http.Request) (*http.Response, error) {
	sender := t.Base
	if sender == nil {
		sender = http.DefaultTransport
	}
	if !isToOneOf(t.Names, request) {
		return sender.RoundTrip(request)
	}
	signed, err := t.signedCopy(request)
	if err != nil {
		return nil, err
	}
	return sender.RoundTrip(signed)
}

// isToOneOf says whether the URL of a client's request has one of some names as its host and port, its field Host has the same name, and TLS was not
// lost on the way there (hasLostTLS).
func isToOneOf(names []string, request *http.Request) bool {
	scheme := request.URL.Scheme
	host := AuthorityOf(scheme, request.URL.Host)
	hasOtherHost := request.Host != "" && AuthorityOf(scheme, request.Host) != host
	if hasOtherHost || hasLostTLS(request) {
		return false
	}
	for _, name := range names {
		if AuthorityOf(scheme, name) == host {
			return true
		}
	}
	return false
}

// hasLostTLS says whether a request is not by https, but a redirection that led to it came by https. In a request that follows a redirection,
// http.Client sets Response to that redirection.
func hasLostTLS(request *http.Request) bool {
	if request.URL.Scheme == "https" {
		return false
	}
	for redirected := request.Response; redirected != nil && redirected.Request != nil; redirected = redirected.Request.Response {
		if redirected.Request.URL.Scheme == "https" {
			return true
		}
	}
	return false
}

// signedCopy returns a signed copy of a request, since RoundTrip must not change the request itself. It reads the whole body and closes it. The body
// of the copy has the same octets. The error is one of reading the body, or of Signer.Sign.
func (t *Transport) signedCopy(request *http.Request) (*http.Request, error) {
	signed := request.Clone(request.Context())
	if signed.Header == nil {
		signed.Header = http.Header{}
	}
	message := Message{Method: request.Method, Authority: request.URL.Host, Target: request.URL.RequestURI(), Header: signed.Header}
	if message.Method == "" {
		message.Method = http.MethodGet
	}
	if request.Host != "" {
		message.Authority = request.Host
	}
	if request.Body != nil && request.Body != http.NoBody {
		body, err := io.ReadAll(request.Body)
		request.Body.Close()
		if err != nil {
			return nil, err
		}
		message.Body = body
		signed.Body, signed.ContentLength = bodyOf(body), int64(len(body))
		signed.GetBody = func() (io.ReadCloser, error) { return bodyOf(body), nil }
	}
	return signed, t.Signer.Sign(request.URL.Scheme, message)
}

// bodyOf returns a body of these octets. An empty one is http.NoBody: by HTTP/2 net/http would announce any other.
func bodyOf(octets []byte) io.ReadCloser {
	if len(octets) == 0 {
		return http.NoBody
	}
	return io.NopCloser(bytes.NewReader(octets))
}
