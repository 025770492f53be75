package main

// Requests that a client has signed, by which it proves its key in place of TLS. A signature has a nonce, which is good for one granted request, or for one
// that leaves certificates.

import (
	"errors"
	"fmt"
	"strings"
	"time"

	"conguraki/spki/httpsig"
)

// signatures are the settings of the configuration by which requests may be signed: docs/SIGNATURES.md.
type signatures struct {
	// The names of the site, with ports that are not that of https. No two have the same host.
	Names []string `json:"names"`
	// The most nonces in each of the two sets of httpsig.Memory, or 0 for usualNonces.
	Nonces int `json:"nonces"`
}

// The nonces of each set if the configuration does not say how many.
const usualNonces = 1_000_000

// bySignature is the log's `proof` of a request whose signature, and not TLS, proves that the client holds its key.
const bySignature = "signature"

// A requestVerifier verifies signed requests: by Verifier those that are decided.
type requestVerifier struct {
	*httpsig.Verifier
	// The same for requests that leave certificates, but with nonces of their own: strangers can make such requests, and fill those nonces.
	leaving *httpsig.Verifier
	// The names of the site, which may have a port, by their hosts, as the web server passes these on.
	names map[string]string
}

// check returns an error if the names or the number of nonces is wrong. `s` is nil for a configuration without `signatures`: then nothing is wrong.
func (s *signatures) check() error {
	if s == nil {
		return nil
	}
	if len(s.Names) == 0 || s.Nonces < 0 {
		return errors.New(`"signatures" needs "names", and "nonces" must not be negative`)
	}
	seen := map[string]bool{}
	for _, name := range s.Names {
		host, err := hostOf(name)
		if err != nil || seen[host] {
			return fmt.Errorf(`"signatures" has the name %q, which is no name of a host, or whose host is there twice`, name)
		}
		seen[host] = true
	}
	return nil
}

// newRequestVerifier returns what verifies signed requests by the clock `now`, or nil if the configuration has no signed requests. It refuses those that were
// made before the present time (Start), since their nonces may have been used before.
func newRequestVerifier(c *config, now func() time.Time) *requestVerifier {
	if c.Signatures == nil {
		return nil
	}
	verifier := &requestVerifier{Verifier: httpsig.NewVerifier(c.Signatures.Names...), names: map[string]string{}}
	most := c.Signatures.Nonces
	if most == 0 {
		most = usualNonces
	}
	verifier.Nonces, verifier.Sequence, verifier.Now, verifier.Start = httpsig.NewMemory(most), strings.ToLower(c.Headers.Sequence), now, now()
	leaving := *verifier.Verifier
	leaving.Nonces = httpsig.NewMemory(most)
	verifier.leaving = &leaving
	for _, name := range c.Signatures.Names {
		// (names were checked)
		host, _ := hostOf(name)
		verifier.names[host] = name
	}
	return verifier
}

// isSigned says whether a request must prove its key by a signature: the configuration has signed requests, so `v` is not nil, and the request has
// `Signature` or `Signature-Input`.
func (v *requestVerifier) isSigned(inquiry *inquiry) bool {
	return v != nil && len(inquiry.header["Signature"])+len(inquiry.header["Signature-Input"]) > 0
}

// clientOf returns the client of a request: by its signature, with the proof, or else by its TLS certificate, with nil for the proof. If the
// signature is refused, it fails, whatever certificate is there: behind another proxy that would be the proxy's. Without either it fails with
// errNoCertificate. Of a certificate it fails as keyOf does.
func (d *decider) clientOf(inquiry *inquiry) (client, *httpsig.Proof, error) {
	if d.requests.isSigned(inquiry) {
		// (a host that is not the site's has no name there: Check refuses a message without an authority)
		message := httpsig.Message{
			Method: inquiry.method, Authority: d.requests.names[inquiry.host], Target: inquiry.target, Header: inquiry.header, Body: inquiry.body,
		}
		proof, err := d.requests.Check(message)
		if err != nil {
			return client{}, nil, err
		}
		return client{proof.Key, proof.Hash()}, proof, nil
	}
	if inquiry.certificate == "" {
		return client{}, nil, errNoCertificate
	}
	holder, err := d.keys.holderOf(inquiry.certificate)
	return holder, nil, err
}

// takeNonce uses up the nonce of a signed request that is granted, and returns the record. So only clients with a right fill the memory of nonces. A
// request whose nonce was used before, or finds no room, or whose signature has expired since, becomes `refused`. `proof` is nil for a request that is
// not signed: then nothing is done.
func (d *decider) takeNonce(result record, proof *httpsig.Proof) record {
	if proof == nil || result.Answer != answerYes {
		return result
	}
	if err := d.requests.Take(proof); err != nil {
		result.Entry = 0
		return result.withReason(answerRefused, err)
	}
	return result
}
