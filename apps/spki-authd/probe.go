package main

// The command -probe, which asks a finished site for what it must deny. probe_asker.go has the requests, each a try, and the askers, of which each sends
// them by one protocol.

import (
	"errors"
	"fmt"
	"io"
	"net/http"
	"net/url"
	"sort"
	"strings"
)

// A probe sends a finished site requests that it must deny, and counts the answers. Each request is for a path of its own that is drawn at random: so
// no file is read, changed or removed. Here and below, 5xx is without 501 and 505, by which a web server denies.
type probe struct {
	base *url.URL
	// Whether the operator has stopped the daemon, so that the web server can grant only by a hole. Then at least one answer must be 5xx.
	isStopped bool
	out       io.Writer
	// The number of requests that were sent, of answers with 5xx, which show that nothing decided, and of requests that were granted.
	sent, failed, granted int
}

var (
	errBase         = errors.New("-probe takes the address of a folder, such as https://files.example.org/")
	errGranted      = errors.New("the site grants what it must deny")
	errNothingShown = errors.New("nothing is shown")
)

// noAnswer is printed in place of a status for a request without an answer.
const noAnswer = "no answer"

// A verdict is what an answer of the site means.
type verdict int

const (
	isDenied verdict = iota
	// Nobody has decided.
	isFailed
	isGranted
)

// denials are the statuses by which a web server says no, by itself or for the daemon. In this order: a malformed request, no key, no right, no such
// method, another host, too many requests, too long a header, and a method or a version that the server does not have.
var denials = map[int]bool{400: true, 401: true, 403: true, 405: true, 421: true, 429: true, 431: true, 501: true, 505: true}

// verdictOf says what the status of an answer means. One that is neither a denial nor 5xx counts as granted, also 301, 304, 404, 409, 412 and 416: a server
// answers these after a yes.
func verdictOf(status int) verdict {
	switch {
	case denials[status]:
		return isDenied
	case status >= 500:
		return isFailed
	}
	return isGranted
}

// probeSite sends the site at an address requests that it must deny, and prints those that it grants. isStopped says that the daemon is stopped
// meanwhile. The error is nil only if nothing was granted. With isStopped, some answer must also be 5xx. Without it, the first request and at least half
// of all requests of each asker that sendAll does not leave out must have been decided.
func probeSite(address string, isStopped bool, out io.Writer) error {
	base, err := baseOf(address)
	if err != nil {
		return err
	}
	askers, err := askersOf(base)
	if err != nil {
		return err
	}
	probe := &probe{base: base, isStopped: isStopped, out: out}
	for _, each := range askers {
		if err := probe.sendAll(each); err != nil {
			return err
		}
	}
	return probe.end()
}

// baseOf reads the address of a folder, and returns it without the `/` at its end. It fails with errBase if the address cannot be parsed, or has
// another scheme than https or http, no host, a user, a query, even an empty one, a fragment that is not empty, or an escape such as %2F, which
// decoding would change.
func baseOf(address string) (*url.URL, error) {
	base, err := url.Parse(address)
	if err != nil || base.Scheme != "https" && base.Scheme != "http" {
		return nil, errBase
	}
	if base.Hostname() == "" || base.User != nil || base.RawQuery != "" || base.ForceQuery || base.Fragment != "" {
		return nil, errBase
	}
	base.Path = strings.TrimSuffix(base.Path, "/")
	if base.RawPath != "" {
		return nil, errBase
	}
	return base, nil
}

// sendAll sends all requests of `tries` by an asker, and prints how often each status was the answer. It leaves an asker out, and prints why, if the server
// lacks its protocol, or if it may fail and gets no first answer. It fails if another asker gets no first answer. It fails with errNothingShown if a request
// is answered by 429 again and again, and without -stopped also if the first answer is 5xx, or if over half of the requests have 5xx or no answer.
func (p *probe) sendAll(asker asker) error {
	first, err := asker.send(p.base, tries[0])
	if err != nil && asker.mayFail && !errors.Is(err, errNothingShown) {
		fmt.Fprintf(p.out, "%s: left out, the server gives no answer: %v\n", asker.name, err)
		return nil
	}
	if err != nil {
		return fmt.Errorf("%s: %w", asker.name, err)
	}
	if asker.protocol != first.protocol {
		fmt.Fprintf(p.out, "%s: left out, the server has no such protocol\n", asker.name)
		return nil
	}
	if !p.isStopped && verdictOf(first.status) == isFailed {
		return fmt.Errorf("%w: %s: %s is %d; does the daemon run?", errNothingShown, asker.name, tries[0].method, first.status)
	}
	counts, sentBefore, failedBefore := map[string]int{}, p.sent, p.failed
	p.note(asker, first, counts)
	if err := p.sendOthers(asker, counts); err != nil {
		return err
	}
	fmt.Fprintf(p.out, "%s: %s\n", asker.name, countsAsText(counts))
	sent, failed := p.sent-sentBefore, p.failed-failedBefore+counts[noAnswer]
	if !p.isStopped && 2*failed > sent {
		return fmt.Errorf("%w: %s: %d of %d requests have 5xx or no answer; does the daemon run?", errNothingShown, asker.name, failed, sent)
	}
	return nil
}

// sendOthers sends all requests of `tries` but the first by an asker, and counts the answers, also in `counts` by their statuses, or as noAnswer. A request
// that the protocol cannot send is not counted. It fails with errNothingShown if one request is answered by 429 again and again.
func (p *probe) sendOthers(asker asker, counts map[string]int) error {
	for _, each := range tries[1:] {
		answer, err := asker.send(p.base, each)
		switch {
		case errors.Is(err, errNotSent):
		case errors.Is(err, errNothingShown):
			return fmt.Errorf("%s: %w", asker.name, err)
		case err != nil:
			p.sent++
			counts[noAnswer]++
		default:
			p.note(asker, answer, counts)
		}
	}
	return nil
}

// note counts an answer, also in `counts` by its status, and prints its request if that was granted, in a line that begins with `granted: `.
func (p *probe) note(asker asker, answer probeAnswer, counts map[string]int) {
	p.sent++
	counts[fmt.Sprint(answer.status)]++
	switch verdictOf(answer.status) {
	case isFailed:
		p.failed++
	case isGranted:
		p.granted++
		fmt.Fprintf(p.out, "granted: %s %s is %d: %s%s\n", answer.try.method, answer.target, answer.status, asker.name, answer.hintToRemove())
	}
}

// end returns errGranted if anything was granted, and errNothingShown if the daemon was to be stopped and no answer is 5xx, which would show that.
// Otherwise it prints the total, with `nothing was granted`. Without -stopped, sendAll has tested whether the answers show that the daemon was asked.
func (p *probe) end() error {
	switch {
	case p.granted > 0:
		return fmt.Errorf("%w: %d of %d requests", errGranted, p.granted, p.sent)
	case p.isStopped && p.failed == 0:
		return fmt.Errorf("%w: no answer is 5xx, so the daemon is not stopped, or the web server denies without it", errNothingShown)
	}
	fmt.Fprintf(p.out, "%s/: %d requests, nothing was granted\n", p.base, p.sent)
	return nil
}

// hintToRemove returns what is printed behind a grant that may have made a file, or an empty text for any other grant.
func (a probeAnswer) hintToRemove() string {
	if a.status/100 != 2 || !a.try.makes {
		return ""
	}
	return "; remove what it has made"
}

// countsAsText returns how often each status was the answer, in the order of the statuses, such as `401 20 times, 405 3 times`. noAnswer counts as a status.
func countsAsText(counts map[string]int) string {
	names := make([]string, 0, len(counts))
	for name := range counts {
		names = append(names, name)
	}
	// (digits come before letters, so noAnswer is the last)
	sort.Strings(names)
	for place, name := range names {
		names[place] = fmt.Sprintf("%s %d times", name, counts[name])
	}
	return strings.Join(names, ", ")
}

// header returns the headers of a try. `second` is the name of the second path, for methods that have one: COPY and MOVE. `Overwrite: F` keeps them from
// replacing what is there.
func (t try) header(base *url.URL, second string) http.Header {
	header := http.Header{"User-Agent": {"spki-authd -probe"}}
	for name, value := range t.more {
		header.Set(name, value)
	}
	if t.hasSecond {
		header.Set("Destination", base.String()+"/"+second)
		header.Set("Overwrite", "F")
	}
	return header
}
