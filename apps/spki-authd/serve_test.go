package main

// Tests of a daemon that runs in this process and answers a web server's requests at a Unix socket, and of the program's command lines. By the list
// Alice may read below /web/. A request to read anything else gets 401, and one with an unclear path 400.

import (
	"bufio"
	"bytes"
	"context"
	"errors"
	"io"
	"net"
	"net/http"
	"os"
	"os/exec"
	"path/filepath"
	"strings"
	"sync"
	"syscall"
	"testing"
	"time"
)

// A servedSite is a site for which a daemon in this process answers at a Unix socket.
type servedSite struct {
	*site
	daemon *daemon
	socket string
	client *http.Client
	// Connections that are closed only when the daemon has ended.
	open []net.Conn
}

// serveHere returns a site that a daemon in this process answers for at a socket, until the test ends. Then the daemon must end without an error, and
// have written the events of its start and its end. `fields` are more fields of its configuration, each after a comma, or empty.
func serveHere(t *testing.T, fields string) *servedSite {
	t.Helper()
	folder := t.TempDir()
	here := &servedSite{site: newSite(t, fields), socket: filepath.Join(folder, "socket")}
	here.config.Listen, here.config.SocketMode, here.config.Log = unixScheme+here.socket, "0600", filepath.Join(folder, "log")
	here.config.Control = here.config.Listen + controlSuffix
	signals := signals{make(chan os.Signal, 1), make(chan os.Signal, 1), make(chan os.Signal, 1)}
	ledger, err := openLedger(here.config.Log, here.config.LogSync)
	if err != nil {
		t.Fatal(err)
	}
	here.daemon = &daemon{decider: here.decider, ledger: ledger, signals: signals, orders: make(chan order), begun: time.Now()}
	var messages journal
	here.daemon.startWriters(io.Discard, messages.writer())
	// (startWriters has set the daemon's own logs: the lines go to the site's again, which tests read)
	here.logGrant, here.logOther = here.log.grant, here.log.other
	ended := make(chan error, 1)
	go func() { ended <- here.daemon.listenAndServe() }()
	here.client = &http.Client{Transport: &http.Transport{MaxIdleConnsPerHost: 16, DialContext: func(ctx context.Context, _, _ string) (net.Conn, error) {
		return (&net.Dialer{}).DialContext(ctx, "unix", here.socket)
	}}}
	waitForSocket(t, here.config.controlPath())
	t.Cleanup(func() {
		here.client.CloseIdleConnections()
		signals.end <- syscall.SIGTERM
		if err := <-ended; err != nil || !strings.Contains(messages.String(), `"started"`) || !strings.Contains(messages.String(), `"ended"`) {
			t.Errorf("%v, %s", err, messages.String())
		}
		for _, connection := range here.open {
			connection.Close()
		}
	})
	return here
}

// TestEndsWithoutDisk ends a daemon while fsync fails for its log of grants: `end` fails, and an event says that grants may not be on the disk.
func TestEndsWithoutDisk(t *testing.T) {
	ledger, disk := openFailing(t, syncSeconds, "")
	daemon := &daemon{decider: newSite(t, "").decider, ledger: ledger, begun: time.Now()}
	var messages journal
	daemon.startWriters(io.Discard, messages.writer())
	listener, err := net.Listen("unix", filepath.Join(t.TempDir(), "socket"))
	if err != nil {
		t.Fatal(err)
	}
	// (from now on fsync fails. The writer's goroutine, which uses the file, changes it between two writes)
	daemon.granted.callBetweenWrites(func() { disk.syncFails = true })
	// (`end` closes the listener, and waits until `serve` has noticed that)
	connections := newConnectionServer(daemon.decider)
	go connections.serve(listener)
	err = daemon.end(listener, connections)
	daemon.flush()
	events := messages.String()
	if err == nil || !strings.Contains(events, `"ended not"`) || !strings.Contains(events, "may not be on the disk") {
		t.Errorf("%v, %s", err, events)
	}
}

// waitForSocket waits until somebody listens at a socket, and ends the test if that takes longer than ten seconds.
func waitForSocket(t *testing.T, path string) {
	t.Helper()
	for turn := 0; turn < 1000; turn++ {
		if connection, err := net.Dial("unix", path); err == nil {
			connection.Close()
			return
		}
		time.Sleep(10 * time.Millisecond)
	}
	t.Fatal("nobody listens at ", path)
}

// get asks the daemon over its socket whether Alice may read a target, and returns the status. If there is no answer, it reports an error and returns 0.
func (s *servedSite) get(t *testing.T, target string) int {
	request, err := http.NewRequest(http.MethodGet, "http://daemon/", nil)
	if err != nil {
		t.Error(err)
		return 0
	}
	request.Header.Set("X-Original-Method", "GET")
	request.Header.Set("X-Original-URI", target)
	request.Header.Set("X-Client-Cert", s.alice.escaped())
	response, err := s.client.Do(request)
	if err != nil {
		t.Error(err)
		return 0
	}
	defer response.Body.Close()
	_, _ = io.Copy(io.Discard, response.Body)
	return response.StatusCode
}

// TestReloadsUnderLoad reads the list again and again beside requests, each of which gets its right answer.
func TestReloadsUnderLoad(t *testing.T) {
	s := serveHere(t, "")
	var all sync.WaitGroup
	for routine := 0; routine < 8; routine++ {
		all.Add(1)
		go func() {
			defer all.Done()
			for turn := 0; turn < 100; turn++ {
				if status := s.get(t, "/web/x"); status != 200 {
					t.Errorf("granted: %d", status)
				}
				if status := s.get(t, "/x"); status != 401 {
					t.Errorf("denied: %d", status)
				}
			}
		}()
	}
	for turn := 0; turn < 50; turn++ {
		s.daemon.signals.reload <- syscall.SIGHUP
		// (so that requests come between two reloads)
		time.Sleep(time.Millisecond)
	}
	all.Wait()
}

// TestConnectionsAreBounded opens six connections, where two may be, by clients that never send the rest of a request. The daemon reads two of them
// at a time, and closes each after a second, the time of a request. Then another client is answered. None of the six gets 200.
func TestConnectionsAreBounded(t *testing.T) {
	s := serveHere(t, `, "limits": {"connections": 2, "seconds": 1}`)
	var waiting []net.Conn
	for turn := 0; turn < 6; turn++ {
		connection, err := net.Dial("unix", s.socket)
		if err != nil {
			t.Fatal(err)
		}
		defer connection.Close()
		waiting = append(waiting, connection)
		// (a slow client: it never sends the rest)
		if _, err := connection.Write([]byte("GET / HTTP/1.1\r\nHost: x\r\nX-Slow: ")); err != nil {
			t.Fatal(err)
		}
	}
	if status := s.get(t, "/web/x"); status != 200 {
		t.Errorf("after the slow ones: %d", status)
	}
	for _, connection := range waiting {
		octets, _ := io.ReadAll(connection)
		if bytes.Contains(octets, []byte(" 200 ")) {
			t.Errorf("%q", octets)
		}
	}
}

// TestUnusualRequests sends texts that no web server sends. Each gets one line in the log, and an answer of the decider, which is not 200, or none.
// `long` has more octets than are read for one request, which are twice header_octets.
func TestUnusualRequests(t *testing.T) {
	s := serveHere(t, `, "limits": {"seconds": 1}`)
	for name, text := range map[string]string{
		"OPTIONS *": "OPTIONS * HTTP/1.1\r\nHost: x\r\nConnection: close\r\n\r\n", "OPTIONS * by 1.0": "OPTIONS * HTTP/1.0\r\n\r\n", "no HTTP": "x\r\n\r\n",
		"no host": "GET / HTTP/1.1\r\nConnection: close\r\n\r\n", "spaces": "GET / HTTP/1.0\r\nHost: x\r\nX-Y : z\r\n\r\n",
		"NUL": "GET / HTTP/1.0\r\nHost: x\r\nA: \x00\r\n\r\n", "HTTP/2.0": "PRI * HTTP/2.0\r\n\r\n", "HTTP/0.9": "GET /\r\n",
		"long":        "GET / HTTP/1.1\r\nHost: x\r\nA: " + strings.Repeat("x", 300_000) + "\r\n\r\n",
		"two lengths": "GET / HTTP/1.1\r\nHost: x\r\nContent-Length: 1\r\nContent-Length: 2\r\n\r\n",
		"slow":        "GET / HTTP/1.1\r\nHost: x\r\nA: ",
		"body":        "GET / HTTP/1.1\r\nHost: x\r\nContent-Length: 26\r\n\r\nOPTIONS * HTTP/1.1\r\nA: \r\n\r\n",
		"chunks":      "GET / HTTP/1.1\r\nHost: x\r\nTransfer-Encoding: chunked\r\n\r\n0\r\n\r\n",
		"no length":   s.request("GET", "/web/x", "Content-Length: \r\n"), "no length, and a body": s.request("GET", "/web/x", "content-length:\r\n") + "abc",
		"long body": "GET / HTTP/1.1\r\nHost: x\r\nContent-Length: 100000\r\n\r\n" + strings.Repeat("GET / HTTP/1.1\r\n\r\n", 5000),
		"late body": "GET / HTTP/1.1\r\nHost: x\r\nContent-Length: 9\r\nExpect: 100-continue\r\n\r\n",
	} {
		before := s.lines()
		octets := s.exchange(t, text)
		if bytes.Contains(octets, []byte(" 200 ")) || len(octets) > 0 && !bytes.Contains(octets, []byte("\r\nX-Spki-Answer: ")) {
			t.Errorf("%s: %q", name, octets)
		}
		if s.lines() != before+1 {
			t.Errorf("%s: %d lines", name, s.lines()-before)
		}
	}
	if status := s.get(t, "/web/x"); status != 200 {
		t.Errorf("after them: %d", status)
	}
}

// exchange sends the daemon a text on a new connection, and returns all that it answers until it closes the connection.
func (s *servedSite) exchange(t *testing.T, text string) []byte {
	t.Helper()
	connection, err := net.Dial("unix", s.socket)
	if err != nil {
		t.Fatal(err)
	}
	defer connection.Close()
	// (no error: the daemon may close the connection before all is written)
	_, _ = connection.Write([]byte(text))
	octets, _ := io.ReadAll(connection)
	return octets
}

// request returns the text of an HTTP request that asks whether Alice may read a target. `method` is that of the asking request itself. `more` has
// lines for its header, each with its CRLF, or is empty.
func (s *servedSite) request(method, target, more string) string {
	return method + " / HTTP/1.1\r\nHost: x\r\nX-Original-Method: GET\r\nX-Original-URI: " + target + "\r\nX-Client-Cert: " + s.alice.escaped() + "\r\n" +
		more + "\r\n"
}

// TestRequestsInOneConnection sends five requests one behind the other. The first four are answered in this order, without a body. The last one is
// not answered, since the one before it has `Connection: close`.
func TestRequestsInOneConnection(t *testing.T) {
	s := serveHere(t, "")
	octets := s.exchange(t, s.request("GET", "/web/x", "")+s.request("HEAD", "/web/../x", "")+s.request("GET", "/x", "")+
		s.request("GET", "/web/y", "Connection: close\r\n")+s.request("GET", "/web/z", ""))
	var statusLines []string
	for _, answer := range strings.Split(string(octets), "\r\n\r\n") {
		line, _, _ := strings.Cut(answer, "\r\n")
		statusLines = append(statusLines, line)
	}
	if wanted := "HTTP/1.1 200 OK,HTTP/1.1 400 Bad Request,HTTP/1.1 401 Unauthorized,HTTP/1.1 200 OK,"; strings.Join(statusLines, ",") != wanted {
		t.Errorf("%q", statusLines)
	}
	if s.lines() != 4 {
		t.Errorf("%d lines", s.lines())
	}
}

// TestWaitingConnections asks where one connection is open, and only one is allowed. One that is idle makes room. Beside one on which a request is
// under way the answer comes when that one is closed, and until then no line is logged.
func TestWaitingConnections(t *testing.T) {
	s := serveHere(t, `, "limits": {"connections": 1, "seconds": 60}`)
	first, err := net.Dial("unix", s.socket)
	if err != nil {
		t.Fatal(err)
	}
	if _, err := first.Write([]byte(s.request("GET", "/web/x", ""))); err != nil {
		t.Fatal(err)
	}
	// (once its answer comes, it is idle)
	if _, err := first.Read(make([]byte, 1)); err != nil {
		t.Fatal(err)
	}
	if octets := s.exchange(t, s.request("GET", "/web/y", "Connection: close\r\n")); !bytes.HasPrefix(octets, []byte("HTTP/1.1 200 ")) || s.lines() != 2 {
		t.Errorf("beside an idle one: %q, %d lines", octets, s.lines())
	}
	busy, err := net.Dial("unix", s.socket)
	if err != nil {
		t.Fatal(err)
	}
	if _, err := busy.Write([]byte("GET / HTTP/1.1\r\n")); err != nil {
		t.Fatal(err)
	}
	answered := make(chan []byte)
	go func() { answered <- s.exchange(t, s.request("GET", "/web/y", "Connection: close\r\n")) }()
	select {
	case octets := <-answered:
		t.Errorf("answered beside a busy one: %q", octets)
	case <-time.After(200 * time.Millisecond):
		// (the daemon waits: an answer takes a few milliseconds)
	}
	if s.lines() != 2 {
		t.Errorf("%d lines", s.lines())
	}
	busy.Close()
	// (the request that it has begun is refused: that is a line too)
	if octets := <-answered; !bytes.HasPrefix(octets, []byte("HTTP/1.1 200 ")) || s.lines() != 4 {
		t.Errorf("%q, %d lines", octets, s.lines())
	}
}

// TestManyKeptConnections has 40 clients keep their connections open, where 8 may be, as the workers of a web server do. Each request is answered, if need
// be on a new connection, which a web server then opens.
func TestManyKeptConnections(t *testing.T) {
	s := serveHere(t, `, "limits": {"connections": 8, "seconds": 60}`)
	connections := make([]net.Conn, 40)
	request := []byte(s.request("GET", "/web/x", ""))
	// (sends a request on the connection at a place, if there is one, and waits for the answer)
	isAnswered := func(place int) bool {
		if connections[place] == nil {
			return false
		}
		if _, err := connections[place].Write(request); err != nil {
			return false
		}
		_, err := http.ReadResponse(bufio.NewReader(connections[place]), nil)
		return err == nil
	}
	for turn := 0; turn < 3; turn++ {
		for place := range connections {
			if isAnswered(place) {
				continue
			}
			connection, err := net.Dial("unix", s.socket)
			if err != nil {
				t.Fatal(err)
			}
			defer connection.Close()
			if connections[place] = connection; !isAnswered(place) {
				t.Fatalf("turn %d, connection %d: no answer", turn, place)
			}
		}
	}
	if s.lines() != 3*len(connections) {
		t.Errorf("%d lines", s.lines())
	}
}

// TestEndBesideConnections has a daemon end beside a connection without a request, and one whose request never ends. serveHere ends the daemon after
// the test, and reports an error if it does not end in time.
func TestEndBesideConnections(t *testing.T) {
	s := serveHere(t, `, "limits": {"seconds": 1}`)
	for _, text := range []string{"", "GET / HTTP/1.1\r\nHost: x\r\nX-Slow: "} {
		connection, err := net.Dial("unix", s.socket)
		if err != nil {
			t.Fatal(err)
		}
		// (it stays open until the daemon has ended, which serveHere waits for)
		s.open = append(s.open, connection)
		if _, err := connection.Write([]byte(text)); err != nil {
			t.Fatal(err)
		}
	}
	if status := s.get(t, "/web/x"); status != 200 {
		t.Error(status)
	}
}

// A recordedDeadline is a connection that keeps the last deadline that was set, for reads alone or for reads and writes.
type recordedDeadline struct {
	net.Conn
	until time.Time
}

// SetDeadline keeps a deadline for reads and writes.
func (d *recordedDeadline) SetDeadline(until time.Time) error { d.until = until; return nil }

// SetReadDeadline keeps a deadline for reads.
func (d *recordedDeadline) SetReadDeadline(until time.Time) error { d.until = until; return nil }

// TestRequestOnEndedConnection has an idle connection ended, to make room for a new one or since it was idle for long, while a request comes on it:
// that request has a deadline of its own.
func TestRequestOnEndedConnection(t *testing.T) {
	for name, ends := range map[string]func(server *connectionServer){
		"for a new one": (*connectionServer).closeIdle, "after long": func(server *connectionServer) { server.endLate(time.Now().Add(timeIdle + time.Second)) },
	} {
		server, connection := newConnectionServer(newSite(t, "").decider), &recordedDeadline{}
		state := server.add(connection)
		err := server.setStage(state, isIdle)
		// (its time is not over: this ends nothing)
		server.endLate(time.Now())
		if err != nil || !connection.until.IsZero() {
			t.Errorf("%s: %v, %v", name, err, connection.until)
		}
		if ends(server); connection.until.IsZero() {
			t.Errorf("%s: it stays", name)
		}
		// (the deadline that was over is replaced by one of the time of a request)
		if err := server.setStage(state, isBusy); err != nil || time.Until(connection.until) < time.Second {
			t.Errorf("%s: %v, %v", name, err, connection.until)
		}
	}
}

// lines returns the number of lines in the log.
func (s *servedSite) lines() int {
	return strings.Count(s.log.String(), "\n")
}

// TestSockets opens sockets where a daemon listens and where a file is, which fails, and where an ended daemon has left one, which is replaced. The
// socket of a daemon has the mode of socket_mode.
func TestSockets(t *testing.T) {
	s := serveHere(t, "")
	if about, err := os.Stat(s.socket); err != nil || about.Mode().Perm() != 0o600 {
		t.Errorf("%v, %v", about, err)
	}
	if _, err := s.config.listen(); err == nil {
		t.Error("two daemons have one socket")
	}
	file := writeFile(t, "file", "x")
	changed := *s.config
	changed.Listen = unixScheme + file
	if _, err := changed.listen(); err == nil {
		t.Error("a file was replaced by a socket")
	}
	stale := filepath.Join(t.TempDir(), "stale")
	old, err := net.ListenUnix("unix", &net.UnixAddr{Name: stale, Net: "unix"})
	if err != nil {
		t.Fatal(err)
	}
	old.SetUnlinkOnClose(false)
	old.Close()
	changed.Listen = unixScheme + stale
	listener, err := changed.listen()
	if err != nil {
		t.Fatal(err)
	}
	listener.Close()
}

// TestBusySocket has removeStale find a socket whose queue is full. Its daemon may still run, so the socket stays. The queue is made as short as can be, and
// filled by clients until one is refused.
func TestBusySocket(t *testing.T) {
	path := filepath.Join(t.TempDir(), "busy")
	listener, err := net.ListenUnix("unix", &net.UnixAddr{Name: path, Net: "unix"})
	if err != nil {
		t.Fatal(err)
	}
	defer listener.Close()
	// (a second listen(2) sets the length of the queue to the least)
	raw, err := listener.SyscallConn()
	if err != nil {
		t.Fatal(err)
	}
	if err := raw.Control(func(number uintptr) { _ = syscall.Listen(int(number), 0) }); err != nil {
		t.Fatal(err)
	}
	for {
		connection, err := net.Dial("unix", path)
		if err != nil {
			break
		}
		defer connection.Close()
	}
	if err := removeStale(path); err == nil {
		t.Error("the socket of a busy daemon counts as stale")
	}
	if _, err := os.Lstat(path); err != nil {
		t.Error(err)
	}
}

// TestManagerThatIsGone starts a daemon whose service manager is not there: it starts all the same. Then the test fills the queue of a manager that
// reads nothing, by messages, until notify fails since it has waited for too long.
func TestManagerThatIsGone(t *testing.T) {
	path := filepath.Join(t.TempDir(), "manager")
	t.Setenv(envNotify, path)
	serveHere(t, "")
	manager, err := net.ListenUnixgram("unixgram", &net.UnixAddr{Name: path, Net: "unixgram"})
	if err != nil {
		t.Fatal(err)
	}
	defer manager.Close()
	for err == nil {
		err = notify("STATUS=x")
	}
	if !errors.Is(err, os.ErrDeadlineExceeded) {
		t.Error(err)
	}
}

// TestCommandLines runs the program with several command lines, and compares the status. What is printed must contain a text; an empty one tests nothing.
// The status is 1 after a failure, also of printing, and 2 for a wrong command line.
func TestCommandLines(t *testing.T) {
	list, bad := writeFile(t, "acl", "(acl (entry (public-key (test a)) (tag (*))))"), writeFile(t, "bad", "(acl (entry))")
	config := writeFile(t, "config", strings.Replace(strings.Replace(leastConfig, "/acl", list, 1), `"/log"`, `"`+filepath.Join(t.TempDir(), "log")+`"`, 1))
	for line, wanted := range map[string]struct {
		status       int
		out, message string
	}{
		"-check " + list: {0, "1 entries", ""}, "-check /none": {1, "", "no such file"},
		"-check " + bad: {1, "", "refused acl 1 Shape; `spki-cert check " + bad + "` says where"},
		"-version":      {0, "spki-authd 0.2.0", ""}, "-help": {0, "", "-config"}, "-x": {2, "", "-x"}, "x": {2, "", "no flag"},
		"-test -config " + config: {0, "1 entries", ""}, "-test -config " + list: {1, "", "invalid"}, "-config /none": {1, "", "no such file"},
		"-check=": {2, "", "-check is empty"}, "-probe= -stopped": {2, "", "-probe is empty"}, "-of= -state": {2, "", "-of is empty"},
		"-state -of x -of=": {2, "", "-of is empty"}, "-of x": {2, "", "-state"}, "-fewer": {2, "", "-reload"},
		"-reload -state": {2, "", "-reload and -state"}, "-reload -config " + config: {1, "", "no such file"},
	} {
		var out, messages bytes.Buffer
		status := run(strings.Fields(line), &out, &messages)
		if status != wanted.status || !strings.Contains(out.String(), wanted.out) || !strings.Contains(messages.String(), wanted.message) {
			t.Errorf("%s: %d, %q, %q", line, status, out.String(), messages.String())
		}
	}
	for _, words := range [][]string{{"-check", list}, {"-test", "-config", config}, {"-version"}} {
		var messages bytes.Buffer
		if status := run(words, &fullWriter{}, &messages); status != 1 || !strings.Contains(messages.String(), errFull.Error()) {
			t.Errorf("%q to a full disk: %d, %q", words, status, messages.String())
		}
	}
}

// asProgram is the variable of the environment by which the binary of the tests runs the program in place of the tests.
const asProgram = "SPKI_AUTHD_AS_PROGRAM"

// init runs the program if asProgram is set, before the tests open a file.
func init() {
	if os.Getenv(asProgram) != "" {
		main()
	}
}

// TestClosedOutputs starts the program with both outputs closed, has it deny the request of -health, and ends it. Its log of grants stays empty: the
// lines of the denial and of the events are lost.
func TestClosedOutputs(t *testing.T) {
	program, err := os.Executable()
	if err != nil {
		t.Fatal(err)
	}
	t.Setenv(asProgram, "1")
	folder := t.TempDir()
	text := strings.NewReplacer("/run/x/s", folder+"/socket", "/acl", writeFile(t, "acl", "(acl)"), "/log", folder+"/log").Replace(leastConfig)
	config := writeFile(t, "config", text)
	daemon := exec.Command("/bin/sh", "-c", `exec "$0" -config "$1" >&- 2>&-`, program, config)
	if err := daemon.Start(); err != nil {
		t.Fatal(err)
	}
	defer daemon.Process.Kill()
	waitForSocket(t, folder+"/socket"+controlSuffix)
	var out, messages bytes.Buffer
	status := run([]string{"-health", "-config", config}, &out, &messages)
	_ = daemon.Process.Signal(syscall.SIGTERM)
	fault := daemon.Wait()
	if log, err := os.ReadFile(folder + "/log"); status != 0 || fault != nil || err != nil || len(log) > 0 {
		t.Errorf("%d, %s, %v, %v, the log: %s", status, messages.String(), fault, err, log)
	}
}
