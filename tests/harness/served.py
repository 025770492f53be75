"""The example of nginx and spki-authd, set up in an empty folder and started on a port of loopback, for the tests that ask it."""
import contextlib
import fcntl
import os
import shutil
import signal
import socket
import ssl
import subprocess
import sys
import tempfile
import time
from collections.abc import Iterator

from harness import built, golang
from harness.support import TESTS, TOP, waits_for

EXAMPLE = os.path.join(TOP, "examples", "nginx")
NEEDS = ("nginx", "go", "openssl", "curl", "import cryptography")
# The most seconds of a command, and of one read from a server, so that a test ends that would hang.
SECONDS = 600


def path_of_commands() -> str:
    """The value of PATH by which `spki-cert` and nginx are found."""
    return os.pathsep.join([os.path.join(TOP, "apps", "spki-cert"), os.environ["PATH"], "/usr/sbin"])


def build_daemon_into(folder: str) -> str:
    """Builds the daemon with the library that is tested, and returns the path of a copy in a folder. Go builds only what has changed."""
    original, copy = os.path.join(TESTS, "out", "spki-authd"), os.path.join(folder, "spki-authd")
    os.makedirs(os.path.dirname(original), exist_ok=True)
    # (tests in other processes build it too)
    with open(f"{original}.lock", "w", encoding="ascii") as lock:
        fcntl.flock(lock, fcntl.LOCK_EX)
        shutil.copy(golang.build_daemon(built.library(), original), copy)
    return copy


def free_port() -> int:
    """The number of a port of loopback on which no process listens now. Another one may take it before the caller does."""
    with socket.socket() as taken:
        taken.bind(("127.0.0.1", 0))
        return int(taken.getsockname()[1])


class Site:
    """nginx and the daemon, both started, with their files in the new folder `room`. `web_servers.py` has other web servers. nginx listens on `port`.
    `program` is the path of the daemon, `settings` the environment of commands, and `contexts` has the TLS settings of clients that were made."""

    def __init__(self) -> None:
        self.room = tempfile.mkdtemp(prefix="site-")
        self.port = free_port()
        self.contexts: dict[tuple[str | None, bool, tuple[str, ...]], ssl.SSLContext] = {}
        self.settings = {**os.environ, "PATH": path_of_commands(), "PORT": str(self.port), "SPKI_LIBRARY": built.shared()}
        self.program = build_daemon_into(tempfile.mkdtemp(prefix="daemon-"))
        self.sh(os.path.join(EXAMPLE, "setup.sh"), self.room, str(self.port))
        self.prepare()
        self.start_daemon()
        self.start_server()

    def prepare(self) -> None:
        """Writes what another web server needs, before the programs start. nginx needs nothing more."""

    def at(self, name: str) -> str:
        """The path of a file of the site, which `name` names from the folder `room`."""
        return os.path.join(self.room, name)

    def text(self, name: str) -> str:
        """The text of a file of the site."""
        with open(self.at(name), encoding="utf-8", errors="replace") as file:
            return file.read()

    def write(self, name: str, text: str) -> None:
        with open(self.at(name), "w", encoding="utf-8") as file:
            file.write(text)

    def sh(self, *words: str) -> str:
        """Runs a command in the folder. Returns what it writes on both streams. Raises AssertionError with that if it fails, or TimeoutExpired."""
        done = subprocess.run(words, cwd=self.room, env=self.settings, stdout=subprocess.PIPE, stderr=subprocess.STDOUT, text=True, timeout=SECONDS)
        if done.returncode:
            raise AssertionError(f"{words}: {done.stdout}")
        return done.stdout

    def cert(self, *words: str) -> str:
        """Runs `spki-cert` in the folder, as `sh` does. Returns what it writes."""
        return self.sh(sys.executable, os.path.join(TOP, "apps", "spki-cert", "spki-cert"), *words)

    # ---- the programs

    def start_daemon(self) -> None:
        """Starts the daemon, and waits until it listens. Raises AssertionError if it has ended, or does not listen after 600 seconds."""
        with open(self.at("log/authd.log"), "ab") as log, open(self.at("log/authd-events.log"), "ab") as events:
            self.daemon = subprocess.Popen([self.program, "-config", self.at("etc/authd.json")], stdout=log, stderr=events, cwd=self.room)
        self.write("run/authd.pid", str(self.daemon.pid))
        waits_for("the daemon listens", self.daemon_listens)

    def daemon_listens(self) -> bool:
        """Whether the daemon listens. Raises AssertionError if it has ended."""
        with socket.socket(socket.AF_UNIX) as client, contextlib.suppress(OSError):
            client.connect(self.at("run/socket"))
            return True
        if self.daemon.poll() is not None:
            raise AssertionError(f"the daemon ended: {self.text('log/authd-events.log')}")
        return False

    def command(self) -> list[str]:
        """The command that starts the web server. (Only its maker may read the site's folder: so where that is root, nginx stays root.)"""
        as_user = "user root;" if os.getuid() == 0 else ""
        return ["nginx", "-p", self.room, "-c", "etc/loopback.conf", "-e", "log/error.log", "-g", as_user]

    def start_server(self) -> None:
        """Starts the web server, and waits until it listens. Raises AssertionError if it has ended, or does not listen after 600 seconds."""
        with open(self.at("log/server.log"), "ab") as log:
            self.server = subprocess.Popen(self.command(), env=self.settings, cwd=self.room, stdout=log, stderr=log)
        waits_for("the web server listens", self.server_listens)

    def stop_daemon(self) -> None:
        """Ends the daemon by SIGTERM, and waits for its end."""
        self.daemon.terminate()
        self.daemon.wait()

    def restart_server(self) -> None:
        """Starts the web server again, with the configuration that is there now."""
        self.server.terminate()
        self.server.wait()
        self.start_server()

    def server_listens(self) -> bool:
        """Whether the web server listens. Raises AssertionError if it has ended."""
        with socket.socket() as client, contextlib.suppress(OSError):
            client.connect(("127.0.0.1", self.port))
            return True
        if self.server.poll() is not None:
            raise AssertionError(f"the web server ended: {self.text('log/server.log')}")
        return False

    def reload(self) -> str:
        """Has the daemon read its list again. Returns what it writes to its log of events then. AssertionError is raised after 600 s of nothing."""
        before = self.text("log/authd-events.log")
        self.daemon.send_signal(signal.SIGHUP)
        waits_for("the list is read again", lambda: self.text("log/authd-events.log").count("\n") > before.count("\n"))
        return self.text("log/authd-events.log")[len(before):]

    def end(self) -> None:
        """Ends both programs, and removes the folders."""
        for each in (self.server, self.daemon):
            each.terminate()
            each.wait()
        for folder in (self.room, os.path.dirname(self.program)):
            subprocess.run(["rm", "-rf", folder], check=True)

    # ---- asking

    def context(self, who: str | None, knows_name: bool, protocols: tuple[str, ...]) -> ssl.SSLContext:
        """The TLS settings of a client. `who` names its certificate and key, as `ann`, or `ann.crt ann` by their files. None: it has none. If
        `knows_name`, the server's certificate must have the name that is asked for. The client offers `protocols`, as `h2`, or none."""
        name = who, knows_name, protocols
        if name not in self.contexts:
            self.contexts[name] = context = ssl.create_default_context(cafile=self.at("ca/ca.crt"))
            context.check_hostname = knows_name
            if protocols:
                context.set_alpn_protocols(protocols)
            if who is not None:
                certificate, _, key = who.partition(" ")
                context.load_cert_chain(self.at(f"keys/{certificate if key else certificate + '.crt'}"), self.at(f"keys/{key or certificate}"))
        return self.contexts[name]

    @contextlib.contextmanager
    def connected(self, who: str | None, name: str | None = "localhost", *protocols: str, address: str = "127.0.0.1") -> Iterator[ssl.SSLSocket]:
        """A context with a connection of a client to the web server at `address`, by TLS. `who` names its certificate and key, or is None for none.
        TLS asks for `name`, or for none, and looks for it in the server's certificate if it is `localhost`."""
        with socket.create_connection((address, self.port), SECONDS) as plain:
            with self.context(who, name == "localhost", protocols).wrap_socket(plain, server_hostname=name) as client:
                yield client

    def answer(self, who: str | None, request: bytes, name: str | None = "localhost", address: str = "127.0.0.1") -> bytes:
        """All that the web server answers to the octets `request`, until it ends the connection. Empty if there is no connection. Where the rate is
        exceeded (429), the client asks again each 0.2 seconds, without end. `connected` says what the other arguments are."""
        while (answer := self.answer_at_once(who, request, name, address)).startswith(b"HTTP/1.1 429"):
            time.sleep(0.2)
        return answer

    def answer_at_once(self, who: str | None, request: bytes, name: str | None = "localhost", address: str = "127.0.0.1") -> bytes:
        """All that the web server answers to the octets `request`, sent once: also 429, if the rate is exceeded. Empty if there is no connection. If
        the server breaks it, or is silent for 600 s, what came before: OSError is suppressed. `connected` says what the other arguments are."""
        answer = b""
        with contextlib.suppress(OSError), self.connected(who, name, address=address) as client:
            client.sendall(request)
            while octets := client.recv(65536):
                answer += octets
        return answer

    def status(self, who: str | None, method: str, path: str, *lines: str, body: str = "") -> int:
        """The status of the answer to a request, with these lines added to its header, and a `Content-Length` if it has a body. `who` names the
        client's certificate and key, or is None for none. Raises IndexError if there is no answer."""
        header = [f"{method} {path} HTTP/1.1", "Host: localhost", "Connection: close", *lines]
        header += [f"Content-Length: {len(body)}"] if body else []
        return int(self.answer(who, "\r\n".join([*header, "", body]).encode("latin-1")).split(b" ", 2)[1])
