package main

// Tests of the control socket, at which the running daemon takes an operator's orders such as -reload, and of what -health, -state and -metrics
// print. By the list Alice may read below /web/. Status 0 says that a command is done. Status 1 says that it failed, that -health has something to
// report, or that -state finds a difference.

import (
	"bytes"
	"io"
	"net"
	"net/http"
	"os"
	"path/filepath"
	"regexp"
	"strconv"
	"strings"
	"testing"
	"time"
)

// runProgram runs spki-authd with these words and a configuration with the socket and the log of a site. It returns the exit status, and what is written to
// standard output and to standard error.
func (s *servedSite) runProgram(t *testing.T, words ...string) (status int, out, messages string) {
	t.Helper()
	text := strings.Replace(strings.Replace(leastConfig, "/run/x/s", s.socket, 1), `"/log"`, `"`+s.config.Log+`"`, 1)
	var stdout, stderr bytes.Buffer
	status = run(append(words, "-config", writeFile(t, "config", text)), &stdout, &stderr)
	return status, stdout.String(), stderr.String()
}

// TestReloadsThatAreRefused has lists read again over the control socket. The status says whether they are in force. A row has the two files, the
// words of the command, its status and message, and whether -health says afterwards that all is well. oneDigest is that of an ended certificate. The
// list that was read last without an error grants in each case.
func TestReloadsThatAreRefused(t *testing.T) {
	s := serveHere(t, "")
	s.config.Ended = writeFile(t, "ended", withLastLine(oneDigest+"\n"))
	list, err := os.ReadFile(s.config.List)
	if err != nil {
		t.Fatal(err)
	}
	for _, row := range []struct {
		list, ended string
		words       []string
		status      int
		message     string
		isWell      bool
	}{
		{string(list), withLastLine(oneDigest + "\n"), []string{"-reload"}, 0, "", true},
		{"(acl (entry))", withLastLine(oneDigest + "\n"), []string{"-reload"}, 1, "refused acl 1 Shape", false},
		{string(list), withLastLine(""), []string{"-reload"}, 1, "1 digests that are in force are missing", false},
		{string(list), "", []string{"-reload", "-fewer"}, 1, "its last line is not", false},
		{string(list), withLastLine(""), []string{"-reload", "-fewer"}, 0, "", true},
		{string(list), oneDigest + "\n", []string{"-reload"}, 1, "its last line is not", false},
		{string(list), withLastLine(oneDigest + "\n"), []string{"-reload"}, 0, "", true},
	} {
		for path, text := range map[string]string{s.config.List: row.list, s.config.Ended: row.ended} {
			if err := os.WriteFile(path, []byte(text), 0o600); err != nil {
				t.Fatal(err)
			}
		}
		if status, _, messages := s.runProgram(t, row.words...); status != row.status || !strings.Contains(messages, row.message) {
			t.Errorf("%+v: %d, %s", row, status, messages)
		}
		status, out, messages := s.runProgram(t, "-health")
		if (status == 0) != row.isWell || !strings.Contains(messages, row.message) || !strings.Contains(out, "list: "+hexDigest(list)+"\n") {
			t.Errorf("%+v: %d, %s, %s", row, status, out, messages)
		}
		if status := s.get(t, "/web/x"); status != 200 {
			t.Errorf("%+v: %d", row, status)
		}
	}
}

// TestHealth runs -health where the daemon is well, where the disk of its log is full, so that it grants nothing, and where there is no daemon.
// -health sends one request to the web server's socket too, which is refused, and has the line with healthID in the log.
func TestHealth(t *testing.T) {
	s := serveHere(t, "")
	// (serveHere has put a log in memory in this place: now the daemon's own file is written)
	s.logGrant = s.daemon.granted.write
	status, out, messages := s.runProgram(t, "-health")
	for _, wanted := range []string{
		s.socket + ": answers\n", "\nlast reload: ", ", done\n", "\nreloads: 0, refused 0\n", "\nlists: 1, entries 1, read ", "\nended: 0, " + digestOfNothing + "\n",
		"\nlog of grants: lines 0, failures 0\n", "\nclock: went back 0 times\n",
	} {
		if status != 0 || !strings.Contains(out, wanted) {
			t.Errorf("%d, %q, %q", status, out, messages)
		}
	}
	if line := s.lastLine(t); line.ID != healthID || line.Answer != answerRefused || s.lines() != 1 {
		t.Errorf("%+v", line)
	}
	// (the writer's goroutine, which uses the file, changes it between two writes)
	s.daemon.granted.callBetweenWrites(func() { s.daemon.ledger.file = &failingFile{File: s.daemon.ledger.file.(*os.File), room: 0} })
	if status := s.get(t, "/web/x"); status != 503 {
		t.Errorf("a full disk: %d", status)
	}
	if status, out, messages := s.runProgram(t, "-health"); status != 1 || !strings.Contains(messages, "takes no lines") || !strings.Contains(out, "failures 1") {
		t.Errorf("%d, %q, %q", status, out, messages)
	}
	withoutDaemon := writeFile(t, "config", strings.Replace(leastConfig, "/run/x/s", s.socket+"2", 1))
	var stdout, stderr bytes.Buffer
	if status := run([]string{"-health", "-config", withoutDaemon}, &stdout, &stderr); status != statusRefused {
		t.Errorf("nobody is there: %d, %q", status, stdout.String())
	}
}

// TestControlSocket sends the control socket, which only its owner may use, what is no order, and a web server's request. No answer begins with orderDone
// or has 200 in it.
func TestControlSocket(t *testing.T) {
	s := serveHere(t, "")
	about, err := os.Stat(s.config.controlPath())
	if err != nil || about.Mode().Perm() != 0o600 {
		t.Errorf("%v, %v", about, err)
	}
	for _, text := range []string{"GET / HTTP/1.1\r\nHost: x\r\n\r\n", "\n", "reload \n", "Reload\n", strings.Repeat("x", 1000), "reload\r\n", "health"} {
		connection, err := net.Dial("unix", s.config.controlPath())
		if err != nil {
			t.Fatal(err)
		}
		_, _ = connection.Write([]byte(text))
		_ = connection.(*net.UnixConn).CloseWrite()
		octets, _ := io.ReadAll(connection)
		connection.Close()
		if strings.Contains(string(octets), "200") || strings.HasPrefix(string(octets), orderDone) {
			t.Errorf("%q: %q", text, octets)
		}
	}
	client := &http.Client{Transport: &http.Transport{Dial: func(_, _ string) (net.Conn, error) { return net.Dial("unix", s.config.controlPath()) }}}
	if response, err := client.Get("http://x/"); err == nil {
		t.Errorf("a web server is answered: %d", response.StatusCode)
	}
}

// TestBusyMainLoop sends orders to a daemon whose main loop takes none. Each is answered by errMainBusy before its connection ends, and nothing is
// reloaded.
func TestBusyMainLoop(t *testing.T) {
	busy := &daemon{decider: newSite(t, "").decider, orders: make(chan order)}
	reloads := busy.keeper.reloads.Load()
	for _, order := range []string{orderReload, orderReopen} {
		operator, connection := net.Pipe()
		// (it waits for the main loop for half of this time)
		go busy.answerOrder(connection, 2*time.Second)
		if _, err := operator.Write([]byte(order + "\n")); err != nil {
			t.Fatal(err)
		}
		octets, err := io.ReadAll(operator)
		if err != nil || !strings.HasPrefix(string(octets), orderFailed+errMainBusy.Error()+"\n") {
			t.Errorf("%s: %q, %v", order, octets, err)
		}
	}
	if busy.keeper.reloads.Load() != reloads {
		t.Error("a reload was done")
	}
}

// TestReopenedByOrder renames the log of grants under a daemon that goes on, which then opens it anew by -reopen, and by a signal. Each time the line of
// /web/x is in the renamed file, and that of /web/y in the new one, which the second turn renames. Without a folder, opening it is an error.
func TestReopenedByOrder(t *testing.T) {
	s := serveHere(t, "")
	// (serveHere has put a log in memory in this place: now the daemon's own file is written)
	s.logGrant = s.daemon.granted.write
	for turn, how := range []string{"-reopen", "signal"} {
		s.get(t, "/web/x")
		old := s.config.Log + strconv.Itoa(turn)
		if err := os.Rename(s.config.Log, old); err != nil {
			t.Fatal(err)
		}
		if how == "signal" {
			// (the channel alone says what the signal asks for, so any signal will do)
			s.daemon.signals.reopen <- os.Interrupt
			// (the main loop, which is idle, has taken the signal before this order comes: when the order is answered, both are done)
			s.runProgram(t, "-reload")
		} else if status, _, messages := s.runProgram(t, how); status != 0 {
			t.Error(messages)
		}
		s.get(t, "/web/y")
		for path, count := range map[string]int{old: 1 + turn, s.config.Log: 1} {
			if text, err := os.ReadFile(path); err != nil || strings.Count(string(text), "\n") != count {
				t.Errorf("%s: %q, %v", path, text, err)
			}
		}
	}
	if err := os.Rename(filepath.Dir(s.config.Log), filepath.Dir(s.config.Log)+".gone"); err != nil {
		t.Fatal(err)
	}
	defer os.Rename(filepath.Dir(s.config.Log)+".gone", filepath.Dir(s.config.Log))
	if err := s.daemon.inMain((*daemon).reopen, timeForOrder); err == nil {
		t.Error("there is no folder")
	}
}

// TestStatesAreCompared compares two daemons by -state, which prints a line for each: they have different lists, then the same, and then one has an
// ended certificate. Where no daemon answers, that is an error.
func TestStatesAreCompared(t *testing.T) {
	one, two := serveHere(t, ""), serveHere(t, "")
	compare := func() (status int, printed string) {
		var stdout, stderr bytes.Buffer
		return run([]string{"-state", "-of", one.config.Control, "-of", two.config.controlPath()}, &stdout, &stderr), stdout.String()
	}
	if status, out := compare(); status != 1 || strings.Count(out, "\n") != 2 {
		t.Errorf("%d, %q", status, out)
	}
	two.config.List = one.config.List
	two.runProgram(t, "-reload")
	if status, out := compare(); status != 0 {
		t.Errorf("%d, %q", status, out)
	}
	two.config.Ended = writeFile(t, "ended", withLastLine(oneDigest+"\n"))
	two.runProgram(t, "-reload")
	if status, out := compare(); status != 1 || !strings.Contains(out, "ended 1 "+digestOfOneLine) {
		t.Errorf("%d, %q", status, out)
	}
	var stdout, stderr bytes.Buffer
	if status := run([]string{"-state", "-of", one.socket + "2"}, &stdout, &stderr); status != 1 {
		t.Errorf("no daemon: %d", status)
	}
}

// A line of Prometheus' text format, of a value or about a family.
var metric = regexp.MustCompile(`^(# (HELP|TYPE) [a-z_]+ .+|[a-z_]+(\{[a-z]+="[^"\\]*"(,[a-z]+="[^"\\]*")*\})? [0-9.e+-]+)$`)

// TestMetrics sends six requests, and compares what -metrics prints with what became of them. The first verifies the signature of Bob's certificate,
// which is known in the next three. The two of Carol's sequence are spared, since Mallory would get nothing by them. `//` is refused before a rule is
// looked for: its rule is 0.
func TestMetrics(t *testing.T) {
	s := serveHere(t, "")
	// (serveHere has put a log in memory in this place: now the daemon's own file is written)
	s.logGrant = s.daemon.granted.write
	bobs, _ := s.sequencesShown()
	s.askAs(s.bob, "GET", "/web/docs/b", bobs)
	s.askAs(s.bob, "GET", "/web/docs/b", bobs)
	s.askAs(s.bob, "GET", "/web/x", bobs)
	s.askAs(s.mallory, "GET", "/web/docs/b", bobs)
	_, carols := s.sequencesShown()
	s.askAs(s.mallory, "GET", "/web/docs/b", carols)
	s.askAs(s.mallory, "GET", "//", "")
	// (as if two lines of denials and three events had been lost)
	s.daemon.other.failed.Add(2)
	s.daemon.messages.dropped.Add(3)
	status, out, messages := s.runProgram(t, "-metrics")
	if status != 0 {
		t.Fatal(messages)
	}
	for _, line := range strings.Split(strings.TrimSuffix(out, "\n"), "\n") {
		if !metric.MatchString(line) {
			t.Errorf("%q", line)
		}
	}
	for _, wanted := range []string{
		`decisions_total{answer="yes",rule="1"} 2`, `decisions_total{answer="no",rule="1"} 3`, `decisions_total{answer="refused",rule="0"} 1`,
		`seconds_bucket{le="+Inf"} 6`, "seconds_count 6", `signatures_total{how="known"} 3`, `signatures_total{how="verified"} 1`,
		`signatures_total{how="spared"} 2`, "list_entries 1", "reloads_refused_total 0", "last_reload_refused 0", "log_lines_total 2", "log_failures_total 0",
		"clock_back_total 0", "lines_lost_total 5",
	} {
		if !strings.Contains(out, "\nspki_authd_"+wanted+"\n") {
			t.Errorf("%s is not in %s", wanted, out)
		}
	}
	if text, _ := s.daemon.health(); !strings.Contains(text, ", lost 5\n") {
		t.Error(text)
	}
}
