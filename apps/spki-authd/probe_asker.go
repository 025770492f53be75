package main

// The requests of -probe, and how they are sent. An asker sends them by one protocol, with a TLS certificate or without one. A try is one of the
// requests.

import (
	"crypto/ecdsa"
	"crypto/elliptic"
	"crypto/rand"
	"crypto/tls"
	"crypto/x509"
	"encoding/hex"
	"errors"
	"fmt"
	"io"
	"math/big"
	"net/http"
	"net/url"
	"strings"
	"time"
)

// A try is a request that must be denied. `{}` in its path is a name that is drawn at random, and an empty path is one `{}`.
type try struct {
	method, path, body string
	// Further headers, by their names.
	more map[string]string
	// Whether it would make a file if it were granted, whether it names a second path, and whether only HTTP/1.1 can send it for a path: CONNECT.
	makes, hasSecond, needsHTTP1 bool
}

// The body of what writes, and of a lock by WebDAV.
const (
	textBody = "written by spki-authd -probe\n"
	lockBody = `<?xml version="1.0"?><lockinfo xmlns="DAV:"><lockscope><exclusive/></lockscope><locktype><write/></locktype></lockinfo>`
)

// tries are all requests: each method for a plain name, and headers and names that a web server may have rules of their own for.
var tries = append([]try{
	{method: "GET"}, {method: "HEAD"}, {method: "POST", body: textBody, makes: true}, {method: "PUT", body: textBody, makes: true},
	{method: "PATCH", body: textBody, makes: true}, {method: "DELETE"}, {method: "OPTIONS"}, {method: "TRACE"}, {method: "CONNECT", needsHTTP1: true},
	{method: "PROPFIND", more: map[string]string{"Depth": "0"}}, {method: "MKCOL", makes: true}, {method: "MKCOL", path: "{}/", makes: true},
	{method: "COPY", hasSecond: true, makes: true}, {method: "MOVE", hasSecond: true, makes: true},
	{method: "LOCK", body: lockBody, makes: true, more: map[string]string{"Depth": "0"}}, {method: "UNLOCK"}, {method: "REPORT"}, {method: "SEARCH"},
	{method: "PURGE"}, {method: "QUERY"}, {method: "get"}, {method: "PROBE"},
	// (headers by which a client may try to pass for the web server, to log in as probe:probe, to be answered by a cache, and to get another method)
	{method: "GET", more: map[string]string{"X-Spki-Answer": "yes", "X-Forwarded-For": "127.0.0.1", "X-Real-Ip": "127.0.0.1"}},
	{method: "GET", more: map[string]string{"Authorization": "Basic cHJvYmU6cHJvYmU="}},
	{method: "GET", more: map[string]string{"Cache-Control": "only-if-cached, max-stale"}},
	{method: "POST", body: textBody, makes: true, more: map[string]string{"X-Http-Method-Override": "PUT"}},
}, triesFor("{}/", "{}/{}", "{}/index.html", "{}.html", "{}.css", "{}.js", "{}.png", "{}.php", "{}.json", "{}.txt", ".{}", "{}?{}")...)

// triesFor returns two requests for each of these paths: one that reads it, and one that writes it.
func triesFor(paths ...string) (pairs []try) {
	for _, path := range paths {
		pairs = append(pairs, try{method: "GET", path: path}, try{method: "PUT", path: path, body: textBody, makes: true})
	}
	return pairs
}

// How often a request is sent again where the answer is 429.
const mostAgain = 100

var (
	// The pause before it is sent again, and the time for an answer.
	timeAgain     = 200 * time.Millisecond
	timeForAnswer = 30 * time.Second
	// The authorities that may have signed the site's certificate: nil for those that the system trusts. A test sets another.
	rootsOfSite *x509.CertPool
)

// errNotSent is the error for a request that an asker's protocol cannot send.
var errNotSent = errors.New("the protocol has no such request")

// An asker sends requests by one protocol, which is 1 for HTTP/1.1 and 2 for HTTP/2, with a key for TLS or without.
type asker struct {
	name     string
	protocol int
	// Whether the server may close the connection without an answer: it has a key, which the server may refuse.
	mayFail bool
	client  *http.Client
}

// A probeAnswer is a request, its target with the names that were drawn, the status of its answer, and the protocol of that: 1 or 2, as an asker has it.
type probeAnswer struct {
	try              try
	target           string
	status, protocol int
}

// askersOf returns the askers of a site: one without a key and one with a key that nobody knows, by each protocol of its address. Without TLS there
// is only one without a key. It fails only if no random octets can be read.
func askersOf(base *url.URL) ([]asker, error) {
	if base.Scheme == "http" {
		return []asker{newAsker("HTTP/1.1 without TLS", 1, nil)}, nil
	}
	strange, err := newStrangeCertificate()
	if err != nil {
		return nil, err
	}
	return []asker{newAsker("HTTP/1.1, no key", 1, nil), newAsker("HTTP/2, no key", 2, nil),
		newAsker("HTTP/1.1, a strange key", 1, strange), newAsker("HTTP/2, a strange key", 2, strange)}, nil
}

// newAsker returns an asker for a protocol, 1 for HTTP/1.1 or 2 for HTTP/2. `certificate` is its own for TLS, or nil. It follows no redirect.
func newAsker(name string, protocol int, certificate *tls.Certificate) asker {
	settings := &tls.Config{RootCAs: rootsOfSite, NextProtos: []string{"http/1.1"}}
	if certificate != nil {
		settings.Certificates = []tls.Certificate{*certificate}
	}
	transport := &http.Transport{TLSClientConfig: settings, DisableCompression: true, ForceAttemptHTTP2: protocol == 2}
	if protocol == 2 {
		// (net/http fills the list itself)
		settings.NextProtos = nil
	} else {
		// (a map that is not nil keeps net/http from HTTP/2)
		transport.TLSNextProto = map[string]func(string, *tls.Conn) http.RoundTripper{}
	}
	client := &http.Client{Transport: transport, Timeout: timeForAnswer}
	client.CheckRedirect = func(*http.Request, []*http.Request) error { return http.ErrUseLastResponse }
	return asker{name, protocol, certificate != nil, client}
}

// newStrangeCertificate makes a key that no server knows, and returns a certificate for TLS that this key has signed. It fails only if no random octets
// can be read.
func newStrangeCertificate() (*tls.Certificate, error) {
	private, err := ecdsa.GenerateKey(elliptic.P256(), rand.Reader)
	if err != nil {
		return nil, err
	}
	now := time.Now()
	// (the server's clock may be an hour behind)
	about := &x509.Certificate{SerialNumber: big.NewInt(now.UnixNano()), NotBefore: now.Add(-time.Hour), NotAfter: now.Add(24 * time.Hour)}
	octets, err := x509.CreateCertificate(rand.Reader, about, about, private.Public(), private)
	return &tls.Certificate{Certificate: [][]byte{octets}, PrivateKey: private}, err
}

// send sends a request, for a path that nobody has asked for before, and returns the answer. While that is 429, it waits timeAgain and sends the request
// for another path, up to mostAgain times, and fails with errNothingShown if the last answer is 429 too. It fails with errNotSent for a request that the
// protocol cannot send, and as sendOnce does where there is no answer.
func (a asker) send(base *url.URL, attempt try) (probeAnswer, error) {
	if attempt.needsHTTP1 && a.protocol != 1 {
		return probeAnswer{}, errNotSent
	}
	for count := 0; ; count++ {
		answer, err := a.sendOnce(base, attempt)
		if err == nil && answer.status == http.StatusTooManyRequests && count == mostAgain {
			err = fmt.Errorf("%w: each answer to %s is 429", errNothingShown, attempt.method)
		}
		if err != nil || answer.status != http.StatusTooManyRequests {
			return answer, err
		}
		time.Sleep(timeAgain)
	}
}

// sendOnce sends a request once, for a new path, and returns the answer without its body. It fails if the request cannot be sent, or if there is no answer
// within timeForAnswer.
func (a asker) sendOnce(base *url.URL, attempt try) (answer probeAnswer, err error) {
	path := attempt.path
	if path == "" {
		path = "{}"
	}
	target, err := freshAddress(base, path)
	if err != nil {
		return answer, err
	}
	second, err := randomName()
	if err != nil {
		return answer, err
	}
	request, err := http.NewRequest(attempt.method, target, strings.NewReader(attempt.body))
	if err != nil {
		return answer, err
	}
	request.Header = attempt.header(base, second)
	response, err := a.client.Do(request)
	if err != nil {
		return answer, err
	}
	// (some of the body is read, so that the connection can be used again)
	_, _ = io.CopyN(io.Discard, response.Body, mostBody)
	response.Body.Close()
	return probeAnswer{attempt, request.URL.RequestURI(), response.StatusCode, response.ProtoMajor}, nil
}

// freshAddress returns the URL of a path below `base`, as baseOf returns it, with another random name for each `{}`. It fails only if no random octets
// can be read.
func freshAddress(base *url.URL, path string) (string, error) {
	for strings.Contains(path, "{}") {
		name, err := randomName()
		if err != nil {
			return "", err
		}
		path = strings.Replace(path, "{}", name, 1)
	}
	return base.String() + "/" + path, nil
}

// randomName returns a name that nobody has used before: it has 128 random bits. It fails only if no random octets can be read.
func randomName() (string, error) {
	var octets [16]byte
	_, err := rand.Read(octets[:])
	return "spki-probe-" + hex.EncodeToString(octets[:]), err
}
