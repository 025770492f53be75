package main

// Tests of -probe, which sends a site requests that it must deny, and says what it grants. A hole here is a set of requests that the site does not
// deny, by mistake. Exit status statusDone says that nothing is granted, and statusRefused that something is, or that nothing is shown.

import (
	"bytes"
	"crypto/tls"
	"crypto/x509"
	"net/http"
	"net/http/httptest"
	"strings"
	"sync"
	"testing"
	"time"
)

// probeHandler runs -probe on a site that a handler answers, and returns the exit status, what was printed, and the paths that were asked for.
// `words` are more words of the command line. The pause before a request is sent again after a 429, timeAgain, is short meanwhile.
func probeHandler(t *testing.T, handler func(http.ResponseWriter, *http.Request), words ...string) (status int, printed string, paths []string) {
	t.Helper()
	var mutex sync.Mutex
	server := httptest.NewUnstartedServer(http.HandlerFunc(func(answer http.ResponseWriter, request *http.Request) {
		mutex.Lock()
		paths = append(paths, request.URL.Path)
		mutex.Unlock()
		handler(answer, request)
	}))
	server.EnableHTTP2 = true
	server.TLS = &tls.Config{ClientAuth: tls.RequestClientCert}
	server.StartTLS()
	defer server.Close()
	usualTime := timeAgain
	rootsOfSite, timeAgain = x509.NewCertPool(), time.Millisecond
	rootsOfSite.AddCert(server.Certificate())
	defer func() { rootsOfSite, timeAgain = nil, usualTime }()
	var out, messages bytes.Buffer
	status = run(append([]string{"-probe", server.URL + "/files/"}, words...), &out, &messages)
	return status, out.String() + messages.String(), paths
}

// denies returns a handler that answers 401, except to the requests for which isHole is true: these get `status`.
func denies(isHole func(*http.Request) bool, status int) func(http.ResponseWriter, *http.Request) {
	return func(answer http.ResponseWriter, request *http.Request) {
		if isHole(request) {
			answer.WriteHeader(status)
			return
		}
		answer.WriteHeader(http.StatusUnauthorized)
	}
}

// never is no hole for denies: it is true for no request.
func never(*http.Request) bool { return false }

// always is a hole for denies: it is true for each request.
func always(*http.Request) bool { return true }

// isMethod returns a hole for denies: it is true for the requests of one method.
func isMethod(method string) func(*http.Request) bool {
	return func(request *http.Request) bool { return request.Method == method }
}

// hasKey is a hole for denies: it is true for requests with a certificate for TLS.
func hasKey(request *http.Request) bool { return len(request.TLS.PeerCertificates) > 0 }

// hasAnswer is a hole for denies: it is true for requests with the header by which the daemon grants, as a client may send it.
func hasAnswer(request *http.Request) bool { return request.Header.Get("X-Spki-Answer") == "yes" }

// hasPassword is a hole for denies: it is true for requests with a password.
func hasPassword(request *http.Request) bool { return request.Header.Get("Authorization") != "" }

// isHTTP2 is a hole for denies: it is true for requests over HTTP/2.
func isHTTP2(request *http.Request) bool { return request.ProtoMajor == 2 }

// hasSuffix returns a hole for denies: it is true for the requests whose path has this suffix.
func hasSuffix(suffix string) func(*http.Request) bool {
	return func(request *http.Request) bool { return strings.HasSuffix(request.URL.Path, suffix) }
}

// TestProbe probes sites that deny all, and sites where the requests of isHole get another status, `answer`. By 405 and 501 they are denied too.
// Nothing is shown by 429 again and again, by 5xx to all without -stopped, or by denials alone with -stopped. Any other answer but 5xx is a hole,
// which is found. A row has the exit status, more words of the command line, and a part of what must be printed.
func TestProbe(t *testing.T) {
	for name, each := range map[string]struct {
		isHole         func(*http.Request) bool
		answer, status int
		words, printed string
	}{
		"all is denied":             {never, 200, statusDone, "", "nothing was granted"},
		"denied, none was stopped":  {never, 200, statusRefused, "-stopped", "nothing is shown"},
		"the daemon is stopped":     {always, 500, statusDone, "-stopped", "nothing was granted"},
		"a bad gateway":             {always, 502, statusDone, "-stopped", "nothing was granted"},
		"stopped, without -stopped": {always, 500, statusRefused, "", "does the daemon run?"},
		"a page of errors":          {always, 200, statusRefused, "-stopped", "granted: GET /files/spki-probe-"},
		"no such file":              {always, 404, statusRefused, "", "granted: GET /files/spki-probe-"},
		"no such file, stopped":     {always, 404, statusRefused, "-stopped", "granted: GET"},
		"a redirect":                {always, 302, statusRefused, "", "granted: GET"},
		"not modified":              {always, 304, statusRefused, "", "granted: GET"},
		"a conflict":                {isMethod("MKCOL"), 409, statusRefused, "", "granted: MKCOL"},
		"one method":                {isMethod("PUT"), 201, statusRefused, "", "; remove what it has made"},
		"an unknown method":         {isMethod("PROBE"), 404, statusRefused, "", "granted: PROBE"},
		"get, in small letters":     {isMethod("get"), 404, statusRefused, "", "granted: get"},
		"OPTIONS":                   {isMethod("OPTIONS"), 204, statusRefused, "", "granted: OPTIONS"},
		"HEAD":                      {isMethod("HEAD"), 404, statusRefused, "", "granted: HEAD"},
		"no such method":            {isMethod("TRACE"), 405, statusDone, "", "405 1 times"},
		"not done by the server":    {isMethod("LOCK"), 501, statusDone, "", "501 1 times"},
		"a kind of file":            {hasSuffix(".css"), 404, statusRefused, "", ".css is 404"},
		"a folder":                  {hasSuffix("/"), 200, statusRefused, "", "/ is 200"},
		"HTTP/2 alone":              {isHTTP2, 200, statusRefused, "", "HTTP/2, no key"},
		"any key":                   {hasKey, 404, statusRefused, "", "HTTP/1.1, a strange key"},
		"the daemon's own header":   {hasAnswer, 404, statusRefused, "", "granted"},
		"a password":                {hasPassword, 200, statusRefused, "", "granted"},
		"429 to PUT for ever":       {isMethod("PUT"), 429, statusRefused, "", "each answer to PUT is 429"},
		"429 to any key":            {hasKey, 429, statusRefused, "", "each answer to GET is 429"},
	} {
		t.Run(name, func(t *testing.T) {
			status, printed, paths := probeHandler(t, denies(each.isHole, each.answer), strings.Fields(each.words)...)
			if status != each.status || !strings.Contains(printed, each.printed) {
				t.Errorf("status %d, and must be %d with %q: %s", status, each.status, each.printed, printed)
			}
			if len(paths) == 0 {
				t.Error("nothing was asked")
			}
		})
	}
}

// TestProbePaths checks the paths that are asked for: none is asked for twice, and each is drawn at random. So is the second path of COPY and MOVE.
func TestProbePaths(t *testing.T) {
	seconds := map[string]bool{}
	_, _, paths := probeHandler(t, func(answer http.ResponseWriter, request *http.Request) {
		if second := request.Header.Get("Destination"); second != "" {
			seconds[second] = true
		}
		answer.WriteHeader(http.StatusForbidden)
	})
	seen := map[string]bool{}
	for _, path := range paths {
		// (a few names begin with a dot)
		if seen[path] || !strings.HasPrefix(strings.Replace(path, "/.", "/", 1), "/files/spki-probe-") {
			t.Errorf("%s is asked for", path)
		}
		seen[path] = true
	}
	for second := range seconds {
		if !strings.Contains(second, "/files/spki-probe-") {
			t.Errorf("%s is a second path", second)
		}
	}
	// (four askers send all tries, except that the two by HTTP/2 send no CONNECT; each sends one COPY and one MOVE)
	if len(seen) < 4*len(tries)-2 || len(seconds) != 8 {
		t.Errorf("%d paths and %d second ones", len(seen), len(seconds))
	}
}

// TestProbeAgain answers two of three requests by 429, and each third by 401: they are sent again, and the probe finds that all are denied.
func TestProbeAgain(t *testing.T) {
	count := 0
	status, printed, _ := probeHandler(t, func(answer http.ResponseWriter, _ *http.Request) {
		if count++; count%3 != 0 {
			answer.WriteHeader(http.StatusTooManyRequests)
			return
		}
		answer.WriteHeader(http.StatusUnauthorized)
	})
	if status != statusDone {
		t.Error(printed)
	}
}

// TestProbeOfDaemonThatStops stops the daemon after `decided` requests: then the answers are 5xx, or there are none. The probe shows nothing if most
// requests of an asker are like this. In the row with 0 the daemon does not stop, and only PATCH fails.
func TestProbeOfDaemonThatStops(t *testing.T) {
	failsBy502 := func(answer http.ResponseWriter) { answer.WriteHeader(http.StatusBadGateway) }
	for name, each := range map[string]struct {
		decided int
		fail    func(http.ResponseWriter)
		status  int
		printed string
	}{
		"5xx from the second on":   {1, failsBy502, statusRefused, "requests have 5xx or no answer"},
		"silent from the third on": {2, func(http.ResponseWriter) { panic(http.ErrAbortHandler) }, statusRefused, "requests have 5xx or no answer"},
		"5xx to one method":        {0, failsBy502, statusDone, "nothing was granted"},
	} {
		t.Run(name, func(t *testing.T) {
			var mutex sync.Mutex
			count := 0
			status, printed, _ := probeHandler(t, func(answer http.ResponseWriter, request *http.Request) {
				mutex.Lock()
				count++
				isFailed := each.decided > 0 && count > each.decided || each.decided == 0 && request.Method == http.MethodPatch
				mutex.Unlock()
				if isFailed {
					each.fail(answer)
					return
				}
				answer.WriteHeader(http.StatusUnauthorized)
			})
			if status != each.status || !strings.Contains(printed, each.printed) {
				t.Errorf("status %d: %s", status, printed)
			}
		})
	}
}

// TestProbeWords probes what is no address of a folder, and port 1, at which nobody listens, and gives -stopped without -probe: each is an error.
// Only that of -stopped is one of the command line, with another status.
func TestProbeWords(t *testing.T) {
	for _, words := range [][]string{{"-probe", "files"}, {"-probe", "ftp://localhost/"}, {"-probe", "https://u:p@localhost/"},
		{"-probe", "https://localhost/?x"}, {"-probe", "https://localhost/?"}, {"-probe", "https:///x"}, {"-probe", "https://localhost/%2F/"}} {
		var out, messages bytes.Buffer
		if status := run(words, &out, &messages); status != statusRefused || !strings.Contains(messages.String(), errBase.Error()) {
			t.Errorf("%q: %d %s", words, status, messages.String())
		}
	}
	var out, messages bytes.Buffer
	if status := run([]string{"-stopped"}, &out, &messages); status != statusWords {
		t.Errorf("%d %s", status, messages.String())
	}
	if status := run([]string{"-probe", "https://127.0.0.1:1/"}, &out, &messages); status != statusRefused {
		t.Errorf("%d %s", status, messages.String())
	}
}
