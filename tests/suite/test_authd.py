"""The daemon `spki-authd` as a program among others: a service manager that hands it its socket and is told what it does, readers of its log that
hang or are gone, a disk that is full, nginx in front of it, and the files of systemd that come with it. The daemon writes a line to its log of grants
for each grant, and denials to standard output. `self.headers()` are those that a web server sends for Alice, who may read all files.
`self.ask_often(SOCKET, TIMES, HEADERS)` returns the statuses of the answers: 200 is a grant, 400 a denial of a malformed path, 503 a fault of the
daemon, and 500 one that nginx has found. `daemon.run(OPTION)` runs the program once more, with this option. Most waits fail after 600 seconds."""
import contextlib
import json
import os
import shutil
import socket
import ssl
import subprocess
import sys
import tempfile
import threading
import unittest
import urllib.parse
from collections.abc import Callable, Iterator, Sequence
from concurrent.futures import ThreadPoolExecutor

from harness import built, golang, needs, served
from harness.support import output_of, room_for, text_of, waits_for
from suite import test_go
from suite.test_go import Daemon, OverSocket, Person

# How many requests are granted, asked by so many threads; how often the daemon is restarted; the seconds after which what hangs is ended.
GRANTS, THREADS = 100_000 if built.IS_LONG else 2_000, 4
RESTARTS = 20 if built.IS_LONG else 4
UNITS = [os.path.join(golang.DAEMON, name) for name in ("spki-authd.service", "spki-authd.socket")]
SECONDS = 600


def listens(path: str) -> bool:
    """Whether a client can connect to the socket with this path: not if nobody listens there, or if there is no socket."""
    with socket.socket(socket.AF_UNIX) as client:
        return client.connect_ex(path) == 0


@contextlib.contextmanager
def asked_by_many(asks: Callable[[], Sequence[object]]) -> Iterator[list[object]]:
    """A context in which THREADS threads call `asks` again and again until it ends. Its list gets the answers that `asks` returns, and each exception
    that it raises as a text. At its end it waits for the threads."""
    ends, answers = threading.Event(), list[object]()

    def ask_until_end() -> None:
        while not ends.is_set():
            try:
                answers.extend(asks())
            except Exception as why:
                answers.append(repr(why))

    with ThreadPoolExecutor(THREADS) as pool:
        for _ in range(THREADS):
            pool.submit(ask_until_end)
        try:
            yield answers
        finally:
            ends.set()


class OfDaemon(test_go.OfGo):
    """A test of the daemon's program. By its access list Alice may read all files."""

    daemon_program: str
    alice: Person
    access_list: str

    @classmethod
    def setUpClass(cls) -> None:
        super().setUpClass()
        folder = room_for(cls)
        cls.daemon_program = golang.build_daemon(cls.library, os.path.join(folder, "spki-authd"))
        cls.alice = Person(folder, "alice", "ed25519")
        cls.access_list = f"(acl (entry {cls.alice.key} (propagate) (tag (files read))))"

    @contextlib.contextmanager
    def daemon(self, *before: str, **more: object) -> Iterator[Daemon]:
        """A context with a daemon, which must start, and end with status 0. `before` are the words of a command that starts its program, such as
        `prlimit --fsize=5000`, and `more` are fields of its configuration."""
        with tempfile.TemporaryDirectory() as room:
            daemon = Daemon(room, self.daemon_program, self.access_list, *before, **more)
            try:
                self.assertEqual(daemon.event["event"], "started")
                yield daemon
                daemon.process.terminate()
                self.assertEqual(daemon.process.wait(SECONDS), 0)
            finally:
                daemon.process.kill()
                daemon.process.communicate()

    def start_again(self, daemon: Daemon) -> None:
        """Starts a daemon that a test has ended, since the context `daemon` ends it once more."""
        daemon.process = subprocess.Popen([self.daemon_program, "-config", daemon.config], stdout=subprocess.DEVNULL, stderr=subprocess.PIPE)
        self.assertEqual(daemon.message()["event"], "started")

    def headers(self, target: str = "/web/a") -> dict[str, str]:
        """The fields that a web server sends to the daemon where Alice asks by GET for `target`, a path and perhaps a query."""
        return {"X-Original-Method": "GET", "X-Original-URI": target, "X-Client-Cert": urllib.parse.quote(self.alice.certificate)}

    def ask_often(self, path: str, times: int, headers: dict[str, str], target: str = "/") -> list[int]:
        """Sends a GET request for `target` `times` times on one connection to the socket with this path. Returns the statuses of the answers."""
        statuses = []
        with contextlib.closing(OverSocket(path)) as connection:
            for _ in range(times):
                connection.request("GET", target, headers=headers)
                response = connection.getresponse()
                response.read()
                statuses.append(response.status)
        return statuses

    @staticmethod
    def lines(path: str) -> list[str]:
        """The lines of a file, without their line feeds. A last line that has no line feed yet is left out: it may be half written."""
        return text_of(path).split("\n")[:-1]


@needs.needs("openssl", "import cryptography")
class Log(OfDaemon):
    """The logs: a grant has its line in the log of grants, and nothing else is needed for an answer; and a FIFO in the place of a file."""

    def test_each_grant_has_its_line(self) -> None:
        """THREADS threads ask for GRANTS grants. The log of grants gets as many lines, and standard output, which has denials, gets none."""
        with self.daemon() as daemon:
            with ThreadPoolExecutor(THREADS) as pool:
                answered = pool.map(lambda _: self.ask_often(daemon.socket, GRANTS // THREADS, self.headers()), range(THREADS))
            statuses = [status for of_thread in answered for status in of_thread]
            self.assertEqual((len(statuses), set(statuses)), (GRANTS, {200}))
            lines = [json.loads(line) for line in self.lines(daemon.grants)]
            self.assertEqual((len(lines), {line["answer"] for line in lines}), (GRANTS, {"yes"}))
            self.assertEqual(self.lines(daemon.log), [])

    @needs.needs("prlimit")
    def test_nothing_is_granted_on_a_full_disk(self) -> None:
        """The daemon's files may have 5,000 octets, fewer than 40 lines have. Once the log of grants is full, each request gets 503, `-health` ends
        with 1, and each line in the log is whole. Once there is room again, requests are granted again."""
        with self.daemon("prlimit", "--fsize=5000") as daemon:
            statuses = self.ask_often(daemon.socket, 40, self.headers())
            granted = statuses.count(200)
            self.assertEqual(statuses, [200] * granted + [503] * (40 - granted))
            self.assertTrue(0 < granted < 40)
            text = text_of(daemon.grants)
            self.assertEqual((text[-1], len([json.loads(line) for line in text.splitlines()])), ("\n", granted))
            status, _, errors = daemon.run("-health")
            self.assertEqual((status, "takes no lines" in errors), (1, True))
            os.truncate(daemon.grants, 0)
            self.assertEqual(self.ask_often(daemon.socket, 1, self.headers()), [200])

    def test_a_log_reader_that_hangs_delays_no_answer(self) -> None:
        """Nobody reads the pipe to which the daemon writes its denials; later the pipe has no reader. 3,000 denials of over 500 octets, of paths that
        begin with `//`, fill it. Each request and a reload are answered, each grant has its line in the log of grants, and lost lines are counted."""
        with self.daemon() as daemon:
            # (the daemon is started once more, with both its outputs at a pipe)
            daemon.process.terminate()
            daemon.process.wait()
            reader, writer = os.pipe()
            piped = subprocess.Popen([self.daemon_program, "-config", daemon.config], stdout=writer, stderr=writer)
            os.close(writer)
            try:
                waits_for("the daemon listens", lambda: listens(daemon.socket))
                self.assertEqual(set(self.ask_often(daemon.socket, 300, self.headers("/web/" + "a" * 500))), {200})
                self.assertEqual(set(self.ask_often(daemon.socket, 3000, self.headers("//" + "a" * 500))), {400})
                self.assertEqual(self.ask_often(daemon.socket, 5, self.headers()), [200] * 5)
                self.assertEqual(len(self.lines(daemon.grants)), 300 + 5)
                self.assertEqual(daemon.run("-reload")[0], 0)
                self.assertRegex(daemon.run("-metrics")[1], r"\nspki_authd_lines_lost_total [1-9]\d+\n")
                os.close(reader)
                self.assertEqual(self.ask_often(daemon.socket, 5, self.headers("//")), [400] * 5)
                self.assertEqual(self.ask_often(daemon.socket, 5, self.headers()), [200] * 5)
                piped.terminate()
                self.assertEqual(piped.wait(SECONDS), 0)
            finally:
                piped.kill()
                piped.wait()
            self.start_again(daemon)

    def test_a_log_reader_that_is_gone_ends_nothing(self) -> None:
        """A pipe at standard error whose reader is gone does not end the daemon, which writes a line there at a reload."""
        with self.daemon() as daemon:
            assert daemon.process.stderr is not None
            daemon.process.stderr.close()
            self.assertEqual(daemon.run("-reload")[0], 0)
            self.assertEqual(self.ask_often(daemon.socket, 2, self.headers()), [200, 200])
            # (`communicate` would read a stream that is closed)
            daemon.process.stderr = None

    def test_two_daemons_with_one_log(self) -> None:
        """A second daemon, whose configuration differs by the socket alone, refuses to start: it would write the same log of grants."""
        with self.daemon() as daemon:
            other = f"{daemon.config}.other"
            Daemon.write(other, text_of(daemon.config).replace(daemon.socket, f"{daemon.socket}2"))
            status, output = output_of(self.daemon_program, "-config", other, seconds=SECONDS)
            self.assertEqual((status, "another daemon writes this log" in output), (1, True), output)

    def test_fifo_in_place_of_the_ended_certificates(self) -> None:
        """A FIFO in the place of the file of ended certificates is refused at a reload and by `-test`, and hangs nothing."""
        with self.daemon() as daemon:
            fifo = os.path.join(os.path.dirname(daemon.config), "fifo")
            os.mkfifo(fifo)
            os.replace(fifo, daemon.ended)
            for word in ("-reload", "-test"):
                status, _, errors = daemon.run(word)
                self.assertEqual((status, "no ordinary file" in errors), (1, True))
                self.assertEqual(self.ask_often(daemon.socket, 1, self.headers()), [200])

    def test_query_strings_are_not_logged(self) -> None:
        """What a client writes after a `?` may be a password, and is in neither log, that of grants or that of denials."""
        with self.daemon() as daemon:
            for target in ("/web/a?key=hunter2", "//?key=hunter2", "/web/../a?key=hunter2", "/web/\\?hunter2", "/none?hunter2", "/web/a b?hunter2"):
                self.ask_often(daemon.socket, 1, self.headers(target))
            self.assertNotIn("hunter2", "".join([*self.lines(daemon.grants), *self.lines(daemon.log)]))


class Manager:
    """What a service manager, as systemd, does for a daemon: it opens the socket, hands it over, and receives messages of what the daemon does."""

    def __init__(self, daemon: Daemon) -> None:
        """Opens the socket that the daemon is to get, and the one to which it sends messages, as systemd's NOTIFY_SOCKET."""
        self.daemon = daemon
        self.socket = socket.socket(socket.AF_UNIX)
        self.socket.bind(daemon.socket)
        os.chmod(daemon.socket, 0o600)
        self.socket.listen(4096)  # (as Backlog of the unit)
        self.messages = socket.socket(socket.AF_UNIX, socket.SOCK_DGRAM)
        self.messages.bind(f"{daemon.socket}.notify")
        self.messages.settimeout(SECONDS)

    def start(self) -> subprocess.Popen[bytes]:
        """Starts the daemon, and waits until it says that it is ready. Raises as `message`. It gets the socket as from systemd: as the open file with
        the number 3, which LISTEN_PID and LISTEN_FDS announce. A small program in Python sets these, and becomes the daemon."""
        code = ("import os, sys\nos.dup2(int(sys.argv[1]), 3)\nos.environ.update(LISTEN_PID=str(os.getpid()), LISTEN_FDS='1')\n"
                "os.set_inheritable(3, True)\nos.execv(sys.argv[2], sys.argv[2:])")
        words = [sys.executable, "-c", code, str(self.socket.fileno()), self.daemon.program, "-config", self.daemon.config]
        process = subprocess.Popen(words, stdout=subprocess.DEVNULL, stderr=subprocess.DEVNULL, pass_fds=[self.socket.fileno()],
                                   env={**os.environ, "NOTIFY_SOCKET": f"{self.daemon.socket}.notify"})
        while "READY=1" not in self.message():
            pass
        return process

    def message(self) -> str:
        """Waits for the daemon's next message to the manager, and returns it. Raises TimeoutError after SECONDS."""
        return self.messages.recv(4096).decode()

    def close(self) -> None:
        """Closes both sockets. It does not end a daemon."""
        self.socket.close()
        self.messages.close()


def ended_daemon(room: str, program: str, access_list: str) -> Daemon:
    """A daemon that has run once and ended, so that its configuration, list and logs are in the folder `room`."""
    daemon = Daemon(room, program, access_list)
    daemon.process.terminate()
    daemon.process.communicate()
    return daemon


@contextlib.contextmanager
def managed(program: str, access_list: str) -> Iterator[Manager]:
    """A context with a manager, whose daemon has run once and ended."""
    with tempfile.TemporaryDirectory() as room, contextlib.closing(Manager(ended_daemon(room, program, access_list))) as manager:
        yield manager


@needs.needs("openssl", "import cryptography")
class Started(OfDaemon):
    """The daemon under a service manager; its queue where /proc/sys is hidden, as by its unit; and the group of its socket."""

    def test_what_the_manager_is_told(self) -> None:
        """Messages come at a reload, at one that is refused for a fault of the list, and at the end. The daemon leaves the manager's socket."""
        with managed(self.daemon_program, self.access_list) as manager:
            process = manager.start()
            try:
                self.assertEqual(manager.daemon.run("-reload")[0], 0)
                self.assertEqual([manager.message(), manager.message()], ["RELOADING=1", "STATUS=1 entries, 0 ended certificates\nREADY=1"])
                Daemon.write(manager.daemon.list, "(acl (entry))")
                self.assertEqual(manager.daemon.run("-reload")[0], 1)
                self.assertEqual(manager.message(), "RELOADING=1")
                self.assertIn("the last reload was refused\nREADY=1", manager.message())
            finally:
                process.terminate()
            self.assertEqual((process.wait(SECONDS), manager.message()), (0, "STOPPING=1"))
            self.assertTrue(os.path.exists(manager.daemon.socket), "the socket is the manager's")

    def test_restarts_lose_nothing(self) -> None:
        """While clients ask, each request on a connection of its own, the daemon is started again and again. Each request is granted and has its
        line: those that come between two daemons wait in the manager's socket."""
        with managed(self.daemon_program, self.access_list) as manager:
            process = manager.start()
            with asked_by_many(lambda: self.ask_often(manager.daemon.socket, 1, self.headers())) as statuses:
                for _ in range(RESTARTS):
                    process.terminate()
                    self.assertEqual(process.wait(SECONDS), 0)
                    process = manager.start()
            process.terminate()
            process.wait()
            self.assertEqual(set(statuses), {200})
            self.assertEqual(len(self.lines(manager.daemon.grants)), len(statuses))

    def test_a_wrong_socket_is_refused(self) -> None:
        """The daemon refuses to start if the socket that is handed over is not the one that its configuration names, or if everyone may write to it.
        A shell hands it over as systemd does: as the open file 3, which LISTEN_PID and LISTEN_FDS announce."""
        for is_other, reason in ((False, "mode is 0666"), (True, "hands over")):
            with managed(self.daemon_program, self.access_list) as manager:
                if is_other:
                    Daemon.write(manager.daemon.config, text_of(manager.daemon.config).replace(manager.daemon.socket, f"{manager.daemon.socket}2"))
                else:
                    os.chmod(manager.daemon.socket, 0o666)
                words = ["sh", "-c", 'exec 3<&0; LISTEN_PID=$$ LISTEN_FDS=1 exec "$@"', "sh", self.daemon_program, "-config", manager.daemon.config]
                done = subprocess.run(words, stdin=manager.socket.fileno(), stdout=subprocess.DEVNULL, stderr=subprocess.PIPE, text=True,
                                      timeout=SECONDS)
                self.assertEqual((done.returncode, reason in done.stderr), (1, True), done.stderr)

    @needs.needs("systemd-socket-activate")
    def test_socket_activation(self) -> None:
        """systemd's own program starts the daemon at the first request, which is answered."""
        with tempfile.TemporaryDirectory() as room:
            daemon = ended_daemon(room, self.daemon_program, self.access_list)
            words = ["systemd-socket-activate", "-l", daemon.socket, self.daemon_program, "-config", daemon.config]
            with open(daemon.log, "ab") as log:
                process = subprocess.Popen(words, stdout=log, stderr=log)
            try:
                # (the socket has its name a moment before systemd-socket-activate listens there)
                waits_for("systemd-socket-activate listens or has ended", lambda: process.poll() is not None or any(
                    "Listening on" in line for line in self.lines(daemon.log)))
                # (a unit sets SocketMode)
                os.chmod(daemon.socket, 0o600)
                self.assertEqual(self.ask_often(daemon.socket, 2, self.headers()), [200, 200])
                self.assertEqual(daemon.run("-health")[0], 0)
            except OSError:  # (the log says why no request was answered)
                self.fail("\n".join(self.lines(daemon.log)))
            finally:
                process.terminate()
                process.wait()

    @needs.needs("unshare", "ss")
    def test_the_queue_is_as_long_without_proc_sys(self) -> None:
        """A daemon from which systemd's setting ProcSubset=pid hides /proc/sys cannot read the system's limit for queues of connections. Its queue is
        as long as that of any other daemon: 4,096, or the limit if that is lower."""
        with self.daemon() as daemon:
            # (the other daemon has a socket and a log of its own, in a mount namespace where `needs.HIDES` hides /proc/sys)
            other = os.path.join(os.path.dirname(daemon.config), "other")
            Daemon.write(f"{other}.json", text_of(daemon.config).replace(daemon.socket, other).replace(daemon.grants, f"{other}.log"))
            words = [*needs.APART, "sh", "-c", f"{needs.HIDES} && exec {self.daemon_program} -config {other}.json"]
            process = subprocess.Popen(words, stdout=subprocess.DEVNULL, stderr=subprocess.PIPE)
            try:
                assert process.stderr is not None
                self.assertIn(b"started", process.stderr.readline())
                self.assertEqual(self.queue_length(other), self.queue_length(daemon.socket))
                self.assertEqual(self.queue_length(other), min(4096, int(text_of("/proc/sys/net/core/somaxconn"))))
            finally:
                process.kill()
                process.communicate()

    @staticmethod
    def queue_length(path: str) -> int:
        """How many connections the system lets wait at the socket with this path: the fourth column of `ss -xl`."""
        listed = subprocess.run(["ss", "-xl"], stdout=subprocess.PIPE, text=True, check=True).stdout
        return next(int(line.split()[3]) for line in listed.splitlines() if f" {path} " in line)

    @needs.needs("setpriv")
    def test_group_of_the_socket(self) -> None:
        """`-test`, which checks the configuration and starts nothing, refuses a group for the socket that the daemon's user is not in. An empty group
        passes. Root may choose any group, so if the test is run by root, the program runs as another user."""
        with tempfile.TemporaryDirectory() as room:
            daemon = ended_daemon(room, self.daemon_program, self.access_list)
            for path, mode in ((room, 0o777), (daemon.config, 0o644), (daemon.list, 0o644), (daemon.ended, 0o644), (daemon.grants, 0o666)):
                os.chmod(path, mode)
            program = shutil.copy(self.daemon_program, os.path.join(room, "program"))
            as_other = ["setpriv", "--reuid=65534", "--regid=65534", "--clear-groups"] if os.getuid() == 0 else []
            settings = json.loads(text_of(daemon.config))
            for group, wanted in (("root", 1), ("", 0)):
                Daemon.write(daemon.config, json.dumps({**settings, "socket_group": group}))
                done = subprocess.run([*as_other, program, "-test", "-config", daemon.config], capture_output=True, text=True)
                self.assertEqual((done.returncode, "is not in it" in done.stderr), (wanted, bool(wanted)), done.stderr)


# A configuration of nginx, which asks the daemon about each request. It answers 204 to what is granted, and with a file below /web/.
NGINX = """daemon off; error_log {room}/error.log; pid {room}/nginx.pid; worker_processes 2; {user}
events {{ worker_connections 256; }}
http {{
    access_log off;
    client_body_temp_path {room}/b; proxy_temp_path {room}/p; fastcgi_temp_path {room}/f; uwsgi_temp_path {room}/u; scgi_temp_path {room}/s;
    upstream authd {{ server {at}; keepalive 16; }}
    server {{
        listen unix:{room}/http;
        location / {{ auth_request /auth; return 204; }}
        location /web/ {{ auth_request /auth; root {room}; }}
        location = /auth {{
            internal; proxy_pass {scheme}://authd; proxy_http_version 1.1; proxy_set_header Connection ""; proxy_pass_request_body off;
            proxy_ssl_verify on; proxy_ssl_trusted_certificate {room}/crt; proxy_ssl_name spki-authd; proxy_ssl_session_reuse off;
            proxy_set_header Content-Length ""; proxy_set_header X-Original-Method $request_method; proxy_set_header X-Original-URI $request_uri;
            proxy_set_header X-Spki-Secret {secret}; proxy_set_header X-Client-Cert "{certificate}";
        }}
    }}
}}
"""
SECRET = "0123456789abcdef" * 2


@needs.needs("nginx", "openssl", "import cryptography")
class BehindNginx(OfDaemon):
    """The daemon, with nginx between it and the clients. Each request is made with Alice's certificate."""

    @contextlib.contextmanager
    def nginx(self, room: str, at: str, scheme: str) -> Iterator[str]:
        """A context with the path of the socket of an nginx that runs in the folder `room`, which has a certificate in the file `crt`. It asks
        the daemon at the address `at`, a host and a port or `unix:PATH`, by `http` or `https` (`scheme`)."""
        user = "user root;" if os.getuid() == 0 else ""  # (another user could not open the daemon's socket)
        certificate = urllib.parse.quote(self.alice.certificate)
        settings = {"room": room, "at": at, "scheme": scheme, "secret": SECRET, "certificate": certificate, "user": user}
        os.makedirs(os.path.join(room, "web"))
        Daemon.write(os.path.join(room, "web", "a"), "a file")
        Daemon.write(os.path.join(room, "nginx.conf"), NGINX.format(**settings))
        path = f"{os.environ['PATH']}:/usr/sbin"  # (where Debian has nginx)
        words = ["nginx", "-p", room, "-c", os.path.join(room, "nginx.conf"), "-e", os.path.join(room, "error.log")]
        process = subprocess.Popen(words, env={**os.environ, "PATH": path}, stderr=subprocess.DEVNULL)
        try:
            waits_for("the web server listens", lambda: listens(os.path.join(room, "http")))
            yield os.path.join(room, "http")
        finally:
            process.terminate()
            process.wait()

    @staticmethod
    def make_certificate(room: str, name: str) -> None:
        """Makes a key and a self-signed TLS certificate for the name spki-authd. Writes them to the files `name`.key and `name` in the folder."""
        words = ["openssl", "req", "-x509", "-newkey", "ed25519", "-nodes", "-subj", "/CN=spki-authd", "-addext", "subjectAltName=DNS:spki-authd",
                 "-keyout", os.path.join(room, f"{name}.key"), "-out", os.path.join(room, name)]
        subprocess.run(words, check=True, stderr=subprocess.DEVNULL)

    def test_another_program_at_the_port(self) -> None:
        """nginx asks the daemon by TLS. Once the daemon has ended, another program at the same port, with another certificate, says 200 to all. nginx
        sends it no secret, and answers 500 to each request."""
        with tempfile.TemporaryDirectory() as room:
            os.chmod(room, 0o755)
            for name in ("crt", "other"):
                self.make_certificate(room, name)
            at = f"127.0.0.1:{served.free_port()}"
            Daemon.write(os.path.join(room, "secret"), SECRET)
            os.chmod(os.path.join(room, "secret"), 0o600)
            files = {"certificate": os.path.join(room, "crt"), "key": os.path.join(room, "crt.key")}
            with self.daemon(listen=f"tls:{at}", tls=files, secret_file=os.path.join(room, "secret"), control=f"unix:{room}/control") as daemon:
                with self.nginx(room, at, "https") as web:
                    self.assertEqual(self.ask_often(web, 2, {}, "/web/a"), [200, 200])
                    self.assertEqual(daemon.run("-health")[0], 0)
                    daemon.process.terminate()
                    daemon.process.wait()
                    self.assertEqual(self.ask_often(web, 1, {}, "/web/a"), [500])
                    with self.impostor(room, at) as received:
                        self.assertEqual(self.ask_often(web, 3, {}, "/web/a"), [500] * 3)
                    self.assertNotIn(SECRET.encode(), b"".join(received))
                self.start_again(daemon)

    @contextlib.contextmanager
    def impostor(self, room: str, at: str) -> Iterator[list[bytes]]:
        """A context with a server at `at`, a host and a port. It shows the certificate `other` in `room`, not the daemon's, answers 200 to all, and
        adds what it receives to the list. (`web_servers.Impostor` does not do: it chooses its port, and notes only the secret of a request.)"""
        context = ssl.SSLContext(ssl.PROTOCOL_TLS_SERVER)
        context.load_cert_chain(os.path.join(room, "other"), os.path.join(room, "other.key"))
        received: list[bytes] = []
        host, _, port = at.rpartition(":")
        listener = socket.create_server((host, int(port)))

        def serve() -> None:
            with contextlib.suppress(OSError):  # (the listener is shut down at the end)
                while True:
                    client = listener.accept()[0]
                    with contextlib.suppress(OSError), context.wrap_socket(client, server_side=True) as connection:  # (nginx breaks it off)
                        received.append(connection.recv(65536))
                        connection.sendall(b"HTTP/1.1 200 OK\r\nContent-Length: 0\r\n\r\n")

        thread = threading.Thread(target=serve)
        thread.start()
        try:
            yield received
        finally:
            listener.shutdown(socket.SHUT_RDWR)
            listener.close()
            thread.join()

    def test_restarts_behind_nginx(self) -> None:
        """The daemon is started again and again, while clients ask nginx, which keeps connections to it. No request fails."""
        with tempfile.TemporaryDirectory() as room, managed(self.daemon_program, self.access_list) as manager:
            os.chmod(room, 0o755)
            self.make_certificate(room, "crt")  # (NGINX names it, though no TLS is used here)
            process = manager.start()
            with self.nginx(room, f"unix:{manager.daemon.socket}", "http") as web:
                with asked_by_many(lambda: self.ask_often(web, 20, {}, "/web/a")) as statuses:
                    for _ in range(RESTARTS):
                        process.terminate()
                        self.assertEqual(process.wait(SECONDS), 0)
                        process = manager.start()
            process.terminate()
            process.wait()
            self.assertEqual(set(statuses), {200})


class Units(unittest.TestCase):
    """The files of systemd."""

    @needs.needs("systemd-analyze")
    def test_systemd_accepts_the_units(self) -> None:
        """systemd accepts both files, which name /bin/true here in place of the daemon, with the lines of spki-store's page, by which the service has
        a network. Without them it rates what the service may do beyond its work at 6 or less, from 0 to 100."""
        lines = text_of("apps/spki-store/README.md").partition("    [Service]\n")[2].partition("\n\n")[0]
        with tempfile.TemporaryDirectory() as room:
            names = [os.path.join(room, os.path.basename(path)) for path in UNITS]
            for name, path in zip(names, UNITS):
                Daemon.write(name, text_of(path).replace("/usr/local/bin/spki-authd", "/bin/true"))
            words = ("systemd-analyze", "security", "--offline=yes", "--threshold=6", names[0])
            self.assertEqual(output_of(*words)[0], 0)
            os.mkdir(f"{names[0]}.d")
            Daemon.write(f"{names[0]}.d/override.conf", f"[Service]\n{lines}\n")
            self.assertEqual(output_of("systemd-analyze", "verify", *names), (0, ""))
            self.assertRegex(output_of(*words)[1], r"(?s)Service may allocate Internet sockets.*Service has access to the host's network")

    def test_lines_that_the_units_must_have(self) -> None:
        """Without some of these lines a failed start would be the last, a reload could not fail, and the folder of the socket would be removed."""
        service, unit = (text_of(path).splitlines() for path in UNITS)
        for line in ("StartLimitIntervalSec=0", "Type=notify", "ExecReload=/usr/local/bin/spki-authd -reload -config /etc/spki-authd/config.json",
                     "RuntimeDirectoryPreserve=yes", "LogRateLimitIntervalSec=30s", "LogRateLimitBurst=30000", "Requires=spki-authd.socket"):
            self.assertIn(line, service)
        for line in ("Backlog=4096", "SocketMode=0660", "IPAddressAllow=localhost"):
            self.assertIn(line, unit)
