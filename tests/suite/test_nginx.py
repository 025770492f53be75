"""Tries the example of nginx and spki-authd, as it is set up, and among the ordinary lines of other sites. Lists are changed under load, clients are
slow or pass limits, and the daemon is killed, hangs and is started again. test_attacks.py has the attacks. examples/nginx/run.sh, which shows the
example, is run too, and its lines are compared. By the list of the site Ann may read and write below /web/. Ben may read there by a certificate of
Ann, and Eve nothing. `self.site.status(WHO, METHOD, PATH)` is the status of the answer to a request of WHO: 2xx is a grant, 401 and 403 are denials,
and 5xx says that nothing has decided. Past the rate (429) it asks again. `waits_for(WHAT, IS_SO)` fails the test if that is not so after 600 s."""
import contextlib
import glob
import json
import os
import pathlib
import re
import signal
import socket
import subprocess
import tempfile
import unittest
from typing import Any

from harness import needs, served
from harness.served import Site
from harness.support import TESTS, output_of, text_of, waits_for
from harness.web_servers import FileServer
from rows.attackers import (ASKED, DENIED, GRANTED, READ, UNDECIDED, Asked, Attackers, faults_of, faults_of_fields, fields_of_answer, in_braces,
                            sequence, statuses)
from suite.test_authd import asked_by_many
from suite.test_go import sealed
from spki_cert_tool.keys import digest_of

LOGS = ("log/files.log", "log/error.log", "log/authd.log", "log/grants.log")
CHANGES = 20  # (how often test_list_under_load changes the list)


class OfSite(unittest.TestCase):
    """Tests that share one site, which is set up and started for their class."""

    site: Site

    @classmethod
    def setUpClass(cls) -> None:
        cls.site = Site()
        cls.addClassCleanup(cls.site.end)

    def check_ann(self) -> None:
        """Ann must get the page that she may read, with the fields that keep it from others."""
        answer = self.site.answer("ann", b"GET /web/index.html HTTP/1.1\r\nHost: localhost\r\nConnection: close\r\n\r\n")
        self.assertEqual((statuses(answer), list(faults_of_fields(answer, True))), ([200], []))


@needs.needs(*served.NEEDS, *needs.LIBRARY)
class Attacks(OfSite):
    """The requests from which the attacks of test_attacks.py are made, and an attack in the handshake of TLS."""

    def count_lines(self) -> int:
        """How many lines the logs of nginx and of the daemon that LOGS names have together."""
        return sum(self.site.text(name).count("\n") for name in LOGS)

    def test_what_is_granted(self) -> None:
        """The right requests from which attacks are made are granted, so that none is denied for another reason than the attack."""
        certificate = Attackers(self.site).sent["ben"]
        self.assertEqual(self.site.status("ben", "GET", "/web/index.html?x=1", f"Authorization: SPKI {certificate}"), 200)
        self.assertEqual(self.site.status("ben", "HEAD", "/web/index.html", f"X-Spki-Sequence: {certificate}"), 200)
        self.assertEqual(self.site.status("ann", "GET", "/web/%69ndex.html"), 200)

    def test_foreign_certificate(self) -> None:
        """A client that shows Ann's certificate and has only Eve's key gets no connection: `foreign.go` prints a fault of TLS, and no answer."""
        files = map(self.site.at, ("keys/ann.crt", "keys/eve.crt", "keys/eve"))
        words = ("go", "run", os.path.join(TESTS, "programs", "foreign.go"), f"127.0.0.1:{self.site.port}", *files)
        before = self.count_lines()
        output = output_of(*words, seconds=served.SECONDS)[1]
        self.assertNotIn("HTTP/1.1 2", output)
        self.assertIn("tls:", output)
        waits_for("a line in a log", lambda: self.count_lines() > before)
        self.check_ann()


# The error page of SITES and LOCKS, and the statuses that lead to it.
SORRY, ERRORS = "/web/out/main.js", "500 502 503 504"
CACHE = "proxy_cache_path {room}/tmp/cache keys_zone=site:1m; proxy_cache site; proxy_cache_valid any 1h; "
# Ordinary lines of a site, by what they do: those of `http`, and those of the example's `server`.
SITES: list[tuple[str, str, str]] = [
    ("no more lines", "", ""), ("error pages", f"error_page {ERRORS} = {SORRY};", ""),
    ("error pages with 200", f"error_page {ERRORS} =200 {SORRY};", ""), ("error pages with their status", f"error_page {ERRORS} {SORRY};", ""),
    ("error pages in the server", "", f"error_page {ERRORS} = {SORRY};"),
    ("error pages of denials", f"proxy_intercept_errors on; error_page 401 403 = {SORRY};", ""),
    ("error pages of denials in the server", "proxy_intercept_errors on;", f"error_page 400 401 403 =200 {SORRY};"),
    ("error pages of error pages", f"proxy_intercept_errors on; recursive_error_pages on; error_page 401 403 {ERRORS} =200 {SORRY};", ""),
    ("an error page by a name", "proxy_intercept_errors on;",
     f"error_page 401 403 {ERRORS} =200 @page; location @page {{ try_files {SORRY} =404; }}"),
    ("an error page beside", "proxy_intercept_errors on;",
     f"error_page 401 403 {ERRORS} =200 /page; location = /page {{ alias {{room}}/files{SORRY}; }}"),
    ("an error page that is no file", "proxy_intercept_errors on;",
     f"error_page 401 403 {ERRORS} =200 /page; location = /page {{ auth_request off; return 200 sorry; }}"),
    ("a cache", CACHE + "proxy_ignore_headers Cache-Control Expires Set-Cookie Vary;", ""),
    ("a cache by host", CACHE + "proxy_cache_key $host; proxy_ignore_headers Cache-Control Expires Set-Cookie Vary X-Accel-Expires;", ""),
    ("a cache that outlives", CACHE + "proxy_ignore_headers Cache-Control; proxy_cache_use_stale error timeout http_500 http_503 http_403;", ""),
    ("files of what was fetched", "proxy_store {room}/tmp/stored;", ""), ("satisfy any", "satisfy any; allow all;", ""),
    ("satisfy any for this machine", "satisfy any; allow 127.0.0.1; deny all;", ""),
    ("retries", f"proxy_next_upstream error timeout http_403 http_500 http_503 non_idempotent; error_page {ERRORS} = {SORRY};", ""),
    ("another method of asking", "proxy_method POST; proxy_pass_request_headers on;", ""),
    ("lists of folders", "autoindex on; index index.html;", ""), ("all methods of WebDAV", "dav_methods PUT DELETE MKCOL COPY MOVE;", ""),
    ("files by their kind", "", "location ~* \\.(html|js|txt)$ { expires 1d; }"),
    ("a folder of its own", "", "location /secret/ { root {room}/files; }"),
    ("a folder inside", "", "location /web/ { location ~ html { expires 1d; } }"),
    ("a choice of files", "", "location /secret/ { try_files $uri /web/index.html =404; }"),
    ("an if", "", "location /secret/ { if ($request_method = GET) { expires 1d; } }"),
    ("a folder that does not ask", "", "location /secret/ { auth_request off; }"),
    ("a folder where any will do", "", "location /secret/ { satisfy any; allow all; }"),
    ("open files that are kept", "open_file_cache max=100; open_file_cache_errors on; open_file_cache_valid 1h;", "")]
# Lines of files.conf that keep the lines of other sites without effect: the first lock. Each row breaks it: a name, lines of another site, and a
# pattern of the lock's own lines, which are taken away. The second lock is the folder of the files, which nginx has only after a yes of the daemon.
LOCKS: list[tuple[str, str, str]] = [
    ("error pages", f"proxy_intercept_errors on; error_page 401 403 {ERRORS} =200 {SORRY};", "(error_page 599 /|proxy_intercept_errors off);"),
    ("satisfy any", "satisfy any; allow all;", "satisfy all;"),
    ("nobody is asked", "", "auth_request /.spki-authd;")]


@needs.needs(*served.NEEDS, *needs.LIBRARY)
class Sites(OfSite):
    """The example among the ordinary lines of other sites: none of them turns a denial into a grant, nor a daemon that does not answer."""

    def setUp(self) -> None:
        self.own_lines = {name: self.site.text(f"etc/{name}") for name in ("loopback.conf", "files.conf")}
        self.addCleanup(lambda: self.restart_nginx("", ""))

    def restart_nginx(self, of_all: str, of_server: str, without: str = "no such line") -> None:
        """Starts nginx again with the lines `of_all` outside its server and `of_server` in it. The example's lines that match `without` are cut."""
        for name, place, lines in (("loopback.conf", "include files.conf;", of_all), ("files.conf", "server_name localhost;", of_server)):
            more = lines.replace("{room}", self.site.room)
            self.site.write(f"etc/{name}", re.sub(f"(?m)^ *{without}$", "", self.own_lines[name]).replace(place, f"{more}\n{place}", 1))
        self.site.restart_server()

    def check_denied(self, asked: list[Asked], must: set[int]) -> None:
        """No request may be granted or have an effect: each must be answered with one of the statuses `must`."""
        for request in asked:
            self.assertEqual(faults_of(self.site, request, must), [])

    def test_lines_of_other_sites_grant_nothing(self) -> None:
        """No lines of other sites turn a denial into a grant, and Ann still gets what she may."""
        for name, of_all, of_server in SITES:
            self.restart_nginx(of_all, of_server)
            with self.subTest(name):
                self.check_ann()
                self.check_denied(ASKED, DENIED)
                self.check_ann()

    def test_server_behind(self) -> None:
        """Before a server of one's own, as the page says, nginx replaces what that server tells caches, and hides what it tells those of CDNs."""
        behind = FileServer(self.site.at("run/behind"), self.site.at("files"))
        self.addCleanup(behind.server_close)
        self.addCleanup(behind.shutdown)
        hidden = "proxy_hide_header Surrogate-Control; proxy_hide_header CDN-Cache-Control;"
        self.restart_nginx("", f"location /web/ {{ proxy_pass http://unix:{{room}}/run/behind; {hidden} }}")
        self.check_ann()
        answer = self.site.answer("ann", b"GET /web/index.html HTTP/1.1\r\nHost: localhost\r\nConnection: close\r\n\r\n")
        self.assertEqual(fields_of_answer(answer)["cache-control"], "no-cache,private, no-store")

    def test_server_side_includes_are_not_run(self) -> None:
        """nginx runs no server-side include (SSI) in a file that Ann writes: by one she could get a file that she may not read."""
        self.restart_nginx("ssi on; ssi_types *;", "")
        page = '<!--#include virtual="/secret/plan.txt" -->'
        self.assertEqual(self.site.status("ann", "PUT", "/web/page.html", body=page), 201)
        answer = self.site.answer("ann", b"GET /web/page.html HTTP/1.1\r\nHost: localhost\r\nConnection: close\r\n\r\n")
        self.assertTrue(answer.endswith(page.encode()), answer)

    def test_the_second_lock_denies_alone(self) -> None:
        """Where the first lock, lines of the example, is broken, the second one denies: nginx has the folder of the files only after a yes of the
        daemon. `/web/` is left out: for a folder nginx may answer by an error page that the client may read, and that is 200."""
        for name, of_all, line in LOCKS:
            self.restart_nginx(of_all, "", without=line)
            with self.subTest(name):
                self.check_denied([(who, method, path) for who, method, path in ASKED if path != "/web/"], DENIED | UNDECIDED)

    def test_nothing_is_granted_without_the_daemon(self) -> None:
        """While no daemon answers, nothing is granted, not even to Ann. No status may be 401, by which only the daemon denies."""
        self.check_ann()
        self.site.stop_daemon()
        self.addCleanup(self.site.start_daemon)
        for name, of_all, of_server in SITES:
            self.restart_nginx(of_all, of_server)
            with self.subTest(name):
                self.check_denied([*ASKED, *GRANTED], DENIED - {401} | UNDECIDED)

    def test_full_queue(self) -> None:
        """Where the queue of the daemon's socket is full, nginx cannot ask, and nothing is granted."""
        self.restart_nginx(f"error_page {ERRORS} = {SORRY};", "")
        self.check_ann()
        self.site.stop_daemon()
        self.addCleanup(self.site.start_daemon)
        with contextlib.ExitStack() as stack:
            full = stack.enter_context(socket.socket(socket.AF_UNIX))
            full.bind(self.site.at("run/socket"))
            # (a queue for 0 has room for one connection, which fills it: the second one below makes sure of that)
            full.listen(0)
            for _ in range(2):
                waiting = stack.enter_context(socket.socket(socket.AF_UNIX))
                waiting.setblocking(False)
                with contextlib.suppress(BlockingIOError):
                    waiting.connect(self.site.at("run/socket"))
            self.check_denied([*ASKED, *GRANTED], DENIED - {401} | UNDECIDED)


class Numbers(unittest.TestCase):
    """Numbers of the example that must fit others."""

    def number(self, pattern: str) -> int:
        """The number in the group of a pattern, which must match once in files.conf of the example."""
        number, = re.findall(pattern, text_of("examples/nginx/files.conf"))
        return int(number)

    def test_idle_connections(self) -> None:
        """The idle connections of 40 workers of nginx, as files.conf counts, leave a quarter of the 1,024 connections of a daemon to others."""
        self.assertLessEqual(40 * self.number(r"keepalive (\d+);"), 1024 * 3 // 4)

    def test_rates(self) -> None:
        """Requests of an address that show or that leave certificates, each of 18 ms, take at most 0.1 of a core, and others, of 0.1 ms, 0.01."""
        self.assertLessEqual(self.number(r"zone=spki_showing:\w+ rate=(\d+)r/s") * 0.018, 0.1)
        self.assertLessEqual(self.number(r"zone=spki_leaving:\w+ rate=(\d+)r/s") * 0.018, 0.1)
        self.assertLessEqual(self.number(r"zone=spki:\w+ rate=(\d+)r/s") * 0.0001, 0.01)


@needs.needs(*served.NEEDS, *needs.LIBRARY)
class Changes(OfSite):
    """Lists that are changed, slow clients, and a daemon that ends."""

    def test_list_under_load(self) -> None:
        """While readers ask, the list is changed between two that both let Ann read and only one lets Ben. Each fifth list is broken: it is
        refused, and the one before it stays. Nobody gets a wrong answer."""
        without_ben = self.site.text("etc/acl.sexp")
        self.site.cert("entry", "--to", "keys/ben.pub", "--tag", READ, "--acl", "etc/acl.sexp")
        with_ben = self.site.text("etc/acl.sexp")
        try:
            with asked_by_many(lambda: [(who, self.site.status(who, "GET", "/web/index.html")) for who in ("ann", "ben", "eve")]) as answers:
                for number in range(CHANGES):
                    is_broken, has_ben = number % 5 == 4, number % 2 == 1
                    self.site.write("etc/new", "(acl" if is_broken else with_ben if has_ben else without_ben)
                    os.replace(self.site.at("etc/new"), self.site.at("etc/acl.sexp"))
                    message = self.site.reload()
                    self.assertEqual("refused" in message, is_broken, message)
                    if not is_broken:
                        self.assertEqual(self.site.status("ben", "GET", "/web/index.html"), 200 if has_ben else 401)
        finally:
            self.site.write("etc/acl.sexp", without_ben)
            self.site.reload()
        self.assertEqual(set(answers), {("ann", 200), ("ben", 200), ("ben", 401), ("eve", 401)})

    def test_slow_clients(self) -> None:
        """While 40 clients never end their header, or their body, Ann still gets her answers, and no part of a body becomes a file."""
        halves = [b"GET /web/index.html HTTP/1.1\r\nHost: loc", b"PUT /web/slow HTTP/1.1\r\nHost: localhost\r\nContent-Length: 9\r\n\r\nab"] * 20
        with contextlib.ExitStack() as connections:
            for half in halves:
                connections.enter_context(self.site.connected("ann")).sendall(half)
            for _ in range(10):
                self.check_ann()
        self.check_ann()
        self.assertFalse(os.path.exists(self.site.at("files/web/slow")))

    def test_daemon_killed(self) -> None:
        """Without its daemon nginx grants nothing. Started again, the daemon takes over the socket that was left."""
        self.check_ann()
        self.site.daemon.send_signal(signal.SIGKILL)
        self.site.daemon.wait()
        for who in ("ann", "eve", None):
            self.assertGreaterEqual(self.site.status(who, "GET", "/web/index.html"), 500)
        self.assertGreaterEqual(self.site.status("ann", "PUT", "/web/killed", body="x"), 500)
        self.assertFalse(os.path.exists(self.site.at("files/web/killed")))
        self.site.start_daemon()
        self.check_ann()

    def test_daemon_ended(self) -> None:
        """At SIGTERM the daemon ends with status 0. nginx then grants nothing, until the daemon is started again."""
        self.site.daemon.terminate()
        self.assertEqual(self.site.daemon.wait(served.SECONDS), 0)
        self.assertGreaterEqual(self.site.status("ann", "GET", "/web/index.html"), 500)
        self.site.start_daemon()
        self.check_ann()

    def test_ended_certificates(self) -> None:
        """A certificate whose digest is in the file of ended certificates grants nothing after a reload. A reload is refused, and changes nothing, if
        the file is broken, or if a digest is gone and `-fewer` is not given. With `-fewer` the certificate grants again."""
        of_ben = sequence(self.site, "ann", "ben", READ)
        field, before = f"Authorization: SPKI {in_braces(of_ben)}", self.site.text("etc/ended")
        self.assertEqual(self.site.status("ben", "GET", "/web/index.html", field), 200)
        reload = (self.site.program, "-config", self.site.at("etc/authd.json"), "-reload")
        for text, options, exit_status, status in ((sealed(f"{digest_of(of_ben[1]).hex()}\n"), (), 0, 403), ("no digest\n", (), 1, 403),
                                                   (before, (), 1, 403), (before, ("-fewer",), 0, 200)):
            self.site.write("etc/ended", text)
            self.assertEqual(output_of(*reload, *options)[0], exit_status)
            self.assertEqual(self.site.status("ben", "GET", "/web/index.html", field), status)


@needs.needs(*served.NEEDS, *needs.LIBRARY)
class Limits(OfSite):
    """What clients see past the limits of nginx and of the daemon, and where that hangs; and what the logs and `-health` say."""

    def lines(self) -> list[dict[str, Any]]:
        """The lines of the daemon on requests, from its log of grants and its other one, in the order of their times."""
        lines = [json.loads(line) for name in ("authd", "grants") for line in self.site.text(f"log/{name}.log").splitlines()]
        return sorted(lines, key=lambda line: str(line["time"]))

    def restart_with_limits(self, **limits: int) -> None:
        """Starts the daemon again with these `limits` in its configuration. Without arguments it has its usual limits again."""
        self.site.daemon.terminate()
        self.site.daemon.wait(served.SECONDS)
        config = json.loads(self.site.text("etc/authd.json"))
        self.site.write("etc/authd.json", json.dumps({**config, "limits": limits}))
        self.site.start_daemon()

    def test_rate_of_requests(self) -> None:
        """Past the rate a client sees 429, and the daemon is not asked."""
        self.check_ann()
        before, count = len(self.lines()), 400  # (more than files.conf lets through: a burst of 100, and 50 a second)
        request = "GET /web/index.html HTTP/1.1\r\nHost: localhost\r\n"
        requests = f"{request}\r\n".encode() * (count - 1) + f"{request}Connection: close\r\n\r\n".encode()
        codes = statuses(self.site.answer_at_once("ann", requests))
        self.assertEqual((len(codes), set(codes)), (count, {200, 429}))
        self.assertEqual(len(self.lines()) - before, codes.count(200))
        self.check_ann()

    def test_rate_of_certificates(self) -> None:
        """A client that shows certificates, here Ben one of Ann, has a lower rate. Past it the daemon is not asked."""
        field = f"Authorization: SPKI {in_braces(sequence(self.site, 'ann', 'ben', READ))}"
        request, count = f"GET /web/index.html HTTP/1.1\r\nHost: localhost\r\n{field}\r\n", 80  # (a burst of 20, and 5 a second, pass)
        requests = f"{request}\r\n".encode() * (count - 1) + f"{request}Connection: close\r\n\r\n".encode()

        def is_limited() -> bool:
            """Asks, and says whether some requests were granted and the others past the rate."""
            before, codes = len(self.lines()), statuses(self.site.answer_at_once("ben", requests))
            self.assertEqual((len(codes), len(self.lines()) - before), (count, codes.count(200)))
            return set(codes) == {200, 429}
        # (requests of the tests before may have used the rate up)
        waits_for("a request within the rate", is_limited)
        self.check_ann()

    def test_numbers_of_requests(self) -> None:
        """The logs of the daemon and of nginx have the number of a request, and a client cannot set it."""
        self.site.status("ann", "GET", "/web/index.html", "X-Request-Id: ann-was-here")
        last = self.lines()[-1]["id"]
        self.assertRegex(last, "^[0-9a-f]{32}$")
        waits_for("the line of nginx", lambda: f'"id":"{last}"' in self.site.text("log/files.log"))

    def test_health(self) -> None:
        """`spki-authd -health` sends a request that the daemon must refuse, and fails if no daemon answers."""
        command = (self.site.program, "-health", "-config", self.site.at("etc/authd.json"))
        self.assertEqual(output_of(*command)[0], 0)
        self.assertEqual((self.lines()[-1]["id"], self.lines()[-1]["answer"]), ("spki-authd-health", "refused"))
        self.site.daemon.terminate()
        self.site.daemon.wait(served.SECONDS)
        self.assertEqual(output_of(*command)[0], 1)
        self.site.start_daemon()

    def test_all_connections_in_use(self) -> None:
        """If all connections are in use, a client waits until the daemon closes one on which nothing is sent."""
        self.restart_with_limits(connections=1, seconds=1)
        try:
            with socket.socket(socket.AF_UNIX) as silent:
                silent.connect(self.site.at("run/socket"))
                before = len(self.lines())
                self.check_ann()
                self.assertEqual((silent.recv(1), len(self.lines())), (b"", before + 1))
        finally:
            self.restart_with_limits()

    def test_request_that_does_not_end(self) -> None:
        """A request that does not end in time gets no answer, and a line in the log."""
        self.restart_with_limits(seconds=1)
        try:
            with socket.socket(socket.AF_UNIX) as slow:
                slow.connect(self.site.at("run/socket"))
                slow.sendall(b"GET / HTTP/1.1\r\nHost: x\r\n")
                self.assertEqual(slow.recv(1), b"")
            self.assertEqual(self.lines()[-1]["reason"], "the request did not end in time")
            self.check_ann()
        finally:
            self.restart_with_limits()

    def test_daemon_that_hangs(self) -> None:
        """Where the daemon does not answer, a client sees 500 after proxy_read_timeout."""
        self.site.daemon.send_signal(signal.SIGSTOP)
        threads = [pathlib.Path(path) for path in glob.glob(f"/proc/{self.site.daemon.pid}/task/*/stat")]
        try:
            # (until each thread is stopped, one may still answer)
            waits_for("the daemon is stopped", lambda: all(thread.read_text().rpartition(")")[2].split()[0] == "T" for thread in threads))
            self.assertEqual(self.site.status("ann", "GET", "/web/index.html"), 500)
        finally:
            self.site.daemon.send_signal(signal.SIGCONT)
        self.check_ann()


@needs.needs(*served.NEEDS, *needs.LIBRARY)
class Example(unittest.TestCase):
    """examples/nginx/run.sh, the one command that shows the example. ANSWERS are its lines. For the second one the daemon is stopped."""

    ANSWERS = ["nobody GET /web/index.html: 401", "ann GET /web/index.html: 500",
               "ann GET /web/index.html: 200", "ann PUT /web/new.txt: 201", "ann GET /web/new.txt: 200", "ann GET /secret/plan.txt: 401",
               "ben GET /web/new.txt: 401", "robot PUT /web/out/main.js: 204", "robot GET /web/out/main.js: 401", "ben GET /web/new.txt: 200",
               "ben PUT /web/new.txt: 403", "ben GET /secret/plan.txt: 403", "eve GET /web/new.txt: 403"]

    def test_lines_of_the_example(self) -> None:
        """run.sh writes the lines ANSWERS, beside those that begin with `#`, and ends with status 0."""
        with tempfile.TemporaryDirectory() as room:
            settings = {**os.environ, "SPKI_AUTHD": served.build_daemon_into(room), "PORT": str(served.free_port()), "TMPDIR": room}
            script = os.path.join(served.EXAMPLE, "run.sh")
            done = subprocess.run([script], env=settings, capture_output=True, text=True, timeout=served.SECONDS, cwd=TESTS)
            answers = [line for line in done.stdout.splitlines() if not line.startswith("#")]
            self.assertEqual((done.returncode, answers), (0, self.ANSWERS), done.stderr)
            self.assertEqual(os.listdir(room), ["spki-authd"], "it leaves nothing beside the daemon that was built for it")
