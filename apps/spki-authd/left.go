package main

// How a client leaves certificates with the daemon, by PUT.

import (
	"bytes"
	"encoding/base64"
	"errors"
	"fmt"
	"io"
	"net/http"

	"conguraki/spki/guard"
	"conguraki/spki/httpsig"
)

// A client leaves certificates by `PUT PATH`, with a sequence as its body. They are kept for the key that has signed the request, if each of them is
// signed, and the subject of the last one is this key. What right they give is not tested: later requests are decided by them.
//
// It is the only request that the web server passes on as it came, with its body. So no header says its method, target or host, and only the
// signature says whose it is. Where a web server asks by GET, any other PUT is refused: its headers may be the client's own.

var (
	errPlace   = errors.New("certificates are not left here")
	errLength  = errors.New("the certificates that are left need a Content-Length of 1 to 8192")
	errChain   = errors.New("this is no value, shows nothing, or is over 8192 octets in transport form")
	errUnkept  = errors.New("these certificates are not kept")
	errEmpty   = fmt.Errorf("%w: there is none", errUnkept)
	errPast    = fmt.Errorf("%w: one is past its end", errUnkept)
	errSubject = fmt.Errorf("%w: the subject of the last one is not the key that has signed the request", errUnkept)
)

// isPut says whether a request is read as one that leaves certificates, by inquiryOfPut, and not as an inquiry, by inquiryOf. A web server that names the
// client's method in a header asks by GET, so no PUT of it is an inquiry. Envoy asks by the client's method, so only a PUT to the path of certificates is
// not one.
func (c *config) isPut(request *http.Request) bool {
	return request.Method == http.MethodPut && (c.Headers.Method != "" || c.isForChains(request))
}

// isForChains says whether the target of a request is the path to which certificates are put, without a query.
func (c *config) isForChains(request *http.Request) bool {
	return c.Chains != nil && request.RequestURI == c.Chains.Path
}

// inquiryOfPut reads a request that leaves certificates, with its body. It fails with errSecret, errPlace if the target is not the path for certificates,
// errTooLong, errHeader, errHost, errLength, errChain or errBusy, and then returns what it has read until then, for the log.
func (c *config) inquiryOfPut(request *http.Request) (inquiry inquiry, err error) {
	if err := c.checkServer(request); err != nil {
		return inquiry, err
	}
	if !c.isForChains(request) {
		return inquiry, errPlace
	}
	if octetsOf(request.Header) > c.Limits.HeaderOctets {
		return inquiry, errTooLong
	}
	if inquiry.id, err = headerValue(request, c.Headers.ID); err != nil {
		return inquiry, err
	}
	inquiry.id, inquiry.header = cut(inquiry.id, mostID), request.Header
	if inquiry.host, err = hostOf(request.Host); err != nil {
		return inquiry, err
	}
	if inquiry.address, err = c.addressOf(request); err != nil {
		return inquiry, err
	}
	inquiry.method, inquiry.target = request.Method, request.RequestURI
	if inquiry.body, err = bodyOf(request); err != nil {
		return inquiry, err
	}
	inquiry.sequence, err = sequenceInBody(inquiry.body)
	return inquiry, err
}

// bodyOf reads the body of a request. It fails with errLength if Content-Length is missing, 0 or over mostShownOctets, or if the body cannot be read
// whole: it is shorter, or too slow.
func bodyOf(request *http.Request) ([]byte, error) {
	if request.ContentLength < 1 || request.ContentLength > mostShownOctets {
		return nil, errLength
	}
	body := make([]byte, request.ContentLength)
	if _, err := io.ReadFull(request.Body, body); err != nil {
		return nil, errLength
	}
	return body, nil
}

// sequenceInBody returns the S-expression of a body in transport form, whatever form the body has. It fails with errChain if the library reads no
// S-expression in the body, also for want of memory, if that is a sequence without certificates, or if it is over mostShownOctets in transport form;
// and with errBusy if too many questions are decided at once. Whether it is a sequence is tested later.
func sequenceInBody(body []byte) (string, error) {
	if err := library.enter(); err != nil {
		return "", err
	}
	defer library.leave()
	canonical, err := guard.Canonical(body)
	sequence := "{" + base64.StdEncoding.EncodeToString(canonical) + "}"
	if err != nil || bytes.Equal(canonical, noCertificates) || len(sequence) > mostShownOctets {
		return "", errChain
	}
	return sequence, nil
}

// keepCertificates keeps the certificates that a client leaves, and returns the record with the answer. `key` is the one that has signed the request, by
// `proof`. Strangers can leave certificates too, of keys that they made. So the nonces of these requests have a memory apart, which strangers may fill
// without harm to other requests, and what no list names gives way to what a list names. No signature of a certificate is verified where the sequence is
// known, or is not named and has no room.
func (d *decider) keepCertificates(result record, key guard.ProvenKey, proof *httpsig.Proof, inquiry *inquiry) record {
	result.Target = inquiry.target
	if err := d.requests.leaving.Take(proof); err != nil {
		return result.withReason(answerRefused, err)
	}
	chain := d.config.Chains.chainOf(inquiry.sequence, d.now())
	if !d.now().Before(chain.until) {
		return result.withReason(answerRefused, errPast)
	}
	var err error
	if chain.isNamed, err = d.isNamed(inquiry.sequence); err != nil {
		return result.withReason(answerOf(err), err)
	}
	if result.Answer, err = d.chains.whyNotAdded(result.Key, chain, d.now()); err != nil {
		return result.withReason(answerFailed, err)
	}
	if result.Answer != "" {
		return result
	}
	if err := d.checkCertificates(&result, key, inquiry.sequence); err != nil {
		return result.withReason(answerOf(err), err)
	}
	if result.Answer, err = d.chains.add(result.Key, chain, d.now()); err != nil {
		return result.withReason(answerFailed, err)
	}
	return result
}

// checkCertificates returns why a sequence is not kept for a key, or nil: a certificate has ended early or has no valid signature, or the subject of the
// last one is not the key. It also fails as signaturesOf and namesKey do, and if a store is stale. The record gets the digests of the certificates.
func (d *decider) checkCertificates(result *record, key guard.ProvenKey, sequence string) error {
	signatures, err := d.config.signaturesOf(sequence, key, d.now())
	if err != nil {
		return err
	}
	certificates := newShownSequence(signatures)
	result.Certificates = certificates.names
	notEnded, err := certificates.countNotEnded(d.keeper.present.Load())
	if err != nil {
		return err
	}
	if notEnded < len(signatures) {
		return fmt.Errorf("%w: certificate %s has ended", errUnkept, certificates.names[notEnded])
	}
	isSubject, err := d.config.namesKey(subjectOf(signatures[len(signatures)-1].Message), key, d.now())
	if err != nil {
		return err
	}
	if !isSubject {
		return errSubject
	}
	for place, signature := range signatures {
		d.counts.verified.Add(1)
		if !d.verify(signature) {
			return fmt.Errorf("%w: certificate %s has no valid signature", errUnkept, certificates.names[place])
		}
	}
	return nil
}
