package main

// How -health tests whether the daemon answers, and the state that the daemon then reports.

import (
	"bytes"
	"context"
	"crypto/tls"
	"crypto/x509"
	"errors"
	"fmt"
	"io"
	"net"
	"net/http"
	"strings"
	"time"
)

// healthID is the number, in the log, of the request by which -health tests whether a daemon answers.
const healthID = "spki-authd-health"

// checkHealth tests that the daemon of a configuration answers, and prints what its order `health` returns. The error says why it does not answer, or
// what an operator must look after. It sends a request that is answered by `refused` or `unauthenticated`, so nothing is decided. No request is ever
// answered with 200 to say that all is well, since a web server could take that for a yes.
func checkHealth(config *config, out io.Writer) error {
	if err := config.checkAnswers(); err != nil {
		return err
	}
	fmt.Fprintf(out, "%s: answers\n", config.Listen)
	text, err := sendOrder(config.controlPath(), orderHealth)
	fmt.Fprint(out, text)
	return err
}

// checkAnswers sends the daemon of a configuration a request that it must not grant, and fails if there is no answer, or one that is neither
// `refused` nor `unauthenticated`, or as config.client does. The request lacks the headers with the method and the URI, or, where these are not
// needed, as for Envoy, the client's certificate.
func (c *config) checkAnswers() error {
	request, err := http.NewRequest(http.MethodGet, c.scheme()+"://spki-authd/", nil)
	if err != nil {
		return err
	}
	request.Header.Set(c.Headers.ID, healthID)
	if len(c.secret) > 0 {
		request.Header.Set(c.Headers.Secret, string(c.secret))
	}
	client, err := c.client()
	if err != nil {
		return err
	}
	response, err := client.Do(request)
	if err != nil {
		return err
	}
	defer response.Body.Close()
	if reply := answer(response.Header.Get("X-Spki-Answer")); reply != answerRefused && reply != answerUnauthenticated {
		return fmt.Errorf("%s: the answer is %d, %q", c.Listen, response.StatusCode, reply)
	}
	return nil
}

// scheme returns the scheme of the URL by which the daemon of a configuration is asked: https or http.
func (c *config) scheme() string {
	if c.TLS != nil {
		return "https"
	}
	return "http"
}

// client returns a client that asks the daemon of a configuration at its socket or port, whatever the URL. By TLS it sends nothing unless the other
// side shows the configured certificate. The error is that of reading the certificate: then the client is not used.
func (c *config) client() (*http.Client, error) {
	network, address := "tcp", strings.TrimPrefix(c.Listen, tlsScheme)
	if path := strings.TrimPrefix(c.Listen, unixScheme); path != c.Listen {
		network, address = "unix", path
	}
	dial := func(ctx context.Context, _, _ string) (net.Conn, error) {
		return new(net.Dialer).DialContext(ctx, network, address)
	}
	transport := &http.Transport{DialContext: dial, DisableKeepAlives: true}
	certificate, err := c.TLS.read()
	if certificate != nil {
		// (Go's own test, of names and authorities, is off: the certificate must be this one)
		transport.TLSClientConfig = &tls.Config{InsecureSkipVerify: true, VerifyPeerCertificate: func(chain [][]byte, _ [][]*x509.Certificate) error {
			if len(chain) == 0 || !bytes.Equal(chain[0], certificate.Certificate[0]) {
				return errors.New("another certificate than that of the configuration is shown")
			}
			return nil
		}}
	}
	return &http.Client{Timeout: c.Limits.timeOfRequest(), Transport: transport}, err
}

// health returns the state of the daemon in lines for people, after a look at the clock. The error says what an operator must look after, and is nil
// if all is well.
func (d *daemon) health() (string, error) {
	d.clock.note(d.now())
	var text strings.Builder
	present, last := d.keeper.present.Load(), d.keeper.last.Load()
	outcome, faults := "done", []string{}
	if last.fault != nil {
		outcome = "refused: " + last.fault.Error()
		faults = append(faults, "the last reload was refused: "+last.fault.Error())
	}
	if d.granted.isFailing.Load() || d.granted.isStuck.Load() {
		faults = append(faults, "the log of grants takes no lines")
	}
	age := func(since time.Time) string {
		return fmt.Sprintf("%s, %d s ago", stamp(since), int(d.now().Sub(since).Seconds()))
	}
	fmt.Fprintf(&text, "started: %s\n", age(d.begun))
	fmt.Fprintf(&text, "last reload: %s, %s\n", age(last.at), outcome)
	// (the first reload is that of the start)
	fmt.Fprintf(&text, "reloads: %d, refused %d\n", d.keeper.reloads.Load()-1, d.keeper.refused.Load())
	fmt.Fprintf(&text, "lists: %d, entries %d, read %s\nlist: %s\n", len(present.lists), present.entries(), age(present.read), present.digestNow())
	fmt.Fprintf(&text, "ended: %d, %s\n", present.ended.count, present.ended.digest)
	fmt.Fprintf(&text, "log of grants: lines %d, failures %d\n", d.granted.written.Load(), d.granted.failed.Load())
	fmt.Fprintf(&text, "other lines: %d, lost %d\n", d.other.written.Load()+d.messages.written.Load(), d.other.lost()+d.messages.lost())
	fmt.Fprintf(&text, "clock: went back %d times\n", d.clock.timesBack.Load())
	for _, each := range present.lists {
		if each.store != nil {
			line, fault := each.store.statusLine()
			text.WriteString(line)
			if fault != nil {
				faults = append(faults, fault.Error())
			}
		}
	}
	if len(faults) > 0 {
		return text.String(), errors.New(strings.Join(faults, "; "))
	}
	return text.String(), nil
}
