"""Tests the Go module of bindings/go and the daemon spki-authd: their own tests with the race detector, and linters. The module is asked
what the program is asked, as `test_bindings.py` asks the other bindings. The daemon is asked with keys and certificates that `spki-cert` and
OpenSSL made. Among the long tests, what FUZZED has is fuzzed for two to five minutes each."""
import contextlib
import hashlib
import http.client
import json
import os
import signal
import socket
import subprocess
import tempfile
import urllib.parse
from collections.abc import Iterator
from typing import Any

from harness import built, golang, needs
from harness.support import TESTS, TOP, canonical, output_of, read, text_of
from suite import test_bindings

SPKI_CERT = os.path.join(TOP, "apps", "spki-cert", "spki-cert")
# What is fuzzed: a folder, a package, a fuzz test of Go and its seconds. The two tests of signed requests take ten minutes together.
FUZZED = [(golang.MODULE, "./verify", "FuzzSignature", 120), (golang.MODULE, "./httpsig", "FuzzFields", 300),
          (golang.MODULE, "./httpsig", "FuzzSigned", 300),
          *((golang.DAEMON, ".", name, 120) for name in ("FuzzConnection", "FuzzHeaders", "FuzzSequence", "FuzzLeft", "FuzzPath"))]
# The kinds of keys, each with what `openssl genpkey -algorithm` gets to make one.
KINDS = {"ed25519": ["ed25519"], "rsa": ["RSA", "-pkeyopt", "rsa_keygen_bits:2048"], "p256": ["EC", "-pkeyopt", "ec_paramgen_curve:P-256"],
         "p384": ["EC", "-pkeyopt", "ec_paramgen_curve:P-384"]}


@needs.needs("go", *needs.LIBRARY)
class OfGo(test_bindings.Binding):
    """A test of what is written in Go."""

    def go(self, folder: str, *words: str, octets: bytes | None = None, **more: str) -> bytes:
        """Runs a command of Go in a folder, with `octets` as input and `more` settings of the environment. It must succeed. Returns its output."""
        done = golang.go(folder, list(words), self.library, octets, **more)
        output = (done.stdout + done.stderr).decode(errors="replace")
        self.assertEqual(done.returncode, 0, f"go {' '.join(words)}: {output[-4000:]}")
        return done.stdout


class InGo(OfGo):
    """The module of bindings/go, and for the linters the daemon too."""

    def test_gofmt(self) -> None:
        for folder in (golang.MODULE, golang.DAEMON):
            self.assertEqual(output_of("gofmt", "-l", ".", cwd=folder, seconds=golang.SECONDS), (0, ""))

    def test_vet(self) -> None:
        for folder in (golang.MODULE, golang.DAEMON):
            self.go(folder, "vet", "./...")

    @needs.needs("go-staticcheck")
    def test_staticcheck(self) -> None:
        settings = {**golang.settings(self.library), "XDG_CACHE_HOME": os.path.join(TESTS, "out", "staticcheck")}
        for folder in (golang.MODULE, golang.DAEMON):
            self.assertEqual(output_of("go-staticcheck", "./...", cwd=folder, env=settings, seconds=golang.SECONDS), (0, ""))

    def test_packages(self) -> None:
        """The module has its path and at least these packages, and needs no other module."""
        self.assertEqual(self.go(golang.MODULE, "list", "-m", "all"), b"conguraki/spki\n")
        names = set(self.go(golang.MODULE, "list", "./...").decode().split())
        self.assertLessEqual({"conguraki/spki", "conguraki/spki/guard", "conguraki/spki/verify"}, names)

    def test_own_tests(self) -> None:
        """The tests of the module pass, with the race detector and the strict checks of pointers that are passed to C. `cgocheck=2` asks the runtime
        of Go up to 1.20 for these checks. From 1.21 on they are a setting of the build, GOEXPERIMENT=cgocheck2."""
        self.go(golang.MODULE, "test", "-race", "./...", GODEBUG="cgocheck=2")

    def test_many_goroutines(self) -> None:
        """20,000 goroutines decide at once, in few threads. The race detector knows 8,128 of them at most."""
        self.go(golang.MODULE, "test", "-run", "^TestManyGoroutines$", "./guard")

    def test_questions(self) -> None:
        """A program in Go gives the answers that `test_bindings.all_questions` expects. It reads questions as `test_bindings.framed` writes them, and
        writes its answers as strings in canonical form, without their last line feeds."""
        asked = test_bindings.all_questions(self.program)
        written = self.go(golang.MODULE, "run", "./examples/asked", octets=b"".join(map(test_bindings.framed, asked)))
        fault = test_bindings.faults_of_answers(asked, [answer + b"\n" for answer in test_bindings.strings_in(written)])
        self.assertEqual(fault, "", fault)

    def test_example_decides(self) -> None:
        with tempfile.TemporaryDirectory() as room:
            program = os.path.join(room, "decide")
            self.go(golang.MODULE, "build", "-o", program, "./examples/decide")
            self.check_decisions(program)

    @needs.needs("pkg-config")
    def test_shared_library(self) -> None:
        """With the tag spki_shared the library is the one that pkg-config knows: here the installed one. CGO_LDFLAGS is emptied, since
        `golang.settings` puts the folder of the built library there, by `-L`. Go passes that before the flags of pkg-config, so the linker would
        find the built library and not the installed one. Go's cache has the flags that pkg-config gave in an earlier run, and of these flags alone it
        does not see that they changed: CGO_CPPFLAGS has it compile anew."""
        with tempfile.TemporaryDirectory() as room:
            subprocess.run([os.path.join(TOP, "install.sh"), room, self.program, self.library], check=True, stdout=subprocess.DEVNULL,
                           timeout=golang.SECONDS)
            self.go(golang.MODULE, "test", "-tags", "spki_shared", "./guard", PKG_CONFIG_PATH=os.path.join(room, "lib", "pkgconfig"),
                    LD_LIBRARY_PATH=os.path.join(room, "lib"), CGO_LDFLAGS="", CGO_CPPFLAGS=f"-I{room}")


class Authd(OfGo):
    def test_own_tests_of_daemon(self) -> None:
        self.go(golang.DAEMON, "test", "-race", "./...")


class Fuzzed(OfGo):
    """What FUZZED has is fuzzed, and finds no failure."""

    def test_fuzz(self) -> None:
        for folder, package, name, seconds in FUZZED:
            with self.subTest(name):
                # (1x: one step. Go 1.19 may lose its worker while it minimizes an input that is only new)
                times = ("-fuzztime", f"{seconds}s", "-fuzzminimizetime", "1x")
                self.go(folder, "test", "-run", "^$", "-fuzz", f"^{name}$", *times, package)


if not built.IS_LONG:
    del Fuzzed


class OverSocket(http.client.HTTPConnection):
    """A connection to a Unix socket. If the program there does not answer for 60 seconds, TimeoutError is raised."""

    def __init__(self, path: str) -> None:
        super().__init__("daemon", timeout=60)  # (the name is only sent in the field Host)
        self.path = path

    def connect(self) -> None:
        self.sock = socket.socket(socket.AF_UNIX, socket.SOCK_STREAM)
        self.sock.settimeout(self.timeout)
        self.sock.connect(self.path)


class Person:
    """A person with a key of OpenSSL. `path` and `public` are the files of the private and the public key, and `certificate` is the text of a TLS
    certificate that the person has signed. `key` is the SPKI key as a text, and `digest` the hash of it in hexadecimal digits."""

    def __init__(self, room: str, name: str, kind: str) -> None:
        """Makes the files, which begin with `name`, in the folder `room`. `kind` is one of KINDS."""
        self.path = os.path.join(room, name)
        words = ["openssl", "genpkey", "-algorithm", *KINDS[kind], "-out", self.path]
        subprocess.run(words, check=True, stderr=subprocess.DEVNULL)
        words = ["openssl", "req", "-x509", "-key", self.path, "-subj", f"/CN={name}", "-days", "1"]
        self.certificate = subprocess.run(words, check=True, stdout=subprocess.PIPE, text=True).stdout
        self.public = f"{self.path}.pub"
        subprocess.run(["openssl", "pkey", "-in", self.path, "-pubout", "-out", self.public], check=True)
        self.key = spki_cert("key", self.public).decode()
        self.digest = value_of(spki_cert("key", "--hash", self.public))[2].hex()  # (of `(hash sha256 DIGEST)`)

    def gives(self, to: "Person", tag: str, *more: str) -> bytes:
        """The sequence of a certificate by which this person gives a right to another for a day. `more` are options of `spki-cert sign`."""
        return spki_cert("sign", "--by", self.path, "--to", to.public, "--tag", tag, "--days", "1", *more)


def sealed(lines: str) -> str:
    """The text of a file of ended certificates: `lines`, each with its end, and a last line with their number of digests and their SHA-256."""
    count = sum(bool(line) and not line.startswith("#") for line in lines.splitlines())
    return f"{lines}end {count} {hashlib.sha256(lines.encode()).hexdigest()}\n"


def spki_cert(*words: str) -> bytes:
    """What `spki-cert` writes to standard output when it is run with these words. It must succeed."""
    return subprocess.run([SPKI_CERT, *words], check=True, stdout=subprocess.PIPE, stdin=subprocess.DEVNULL).stdout


class Daemon:
    """A daemon that runs, with its files in the folder `room`. `before` are the words of a command that starts its program, and `more` are fields of
    its configuration. `event` is the first message on its standard error, `log` the path of its standard output, and `grants` that of its log of
    grants. `list`, `ended`, `socket` and `config` are paths too."""

    def __init__(self, room: str, program: str, access_list: str, *before: str, **more: object) -> None:
        """Writes the files, with `access_list` as the list's text, starts the daemon, and waits for its first message."""
        self.program = program
        self.list, self.ended, self.socket, self.log, self.grants = (os.path.join(room, name) for name in ("acl", "ended", "socket", "log", "grants"))
        self.write(self.list, access_list)
        self.write(self.ended, sealed("# none yet\n"))
        rules = [{"prefix": "/", "methods": {"GET": "read", "PUT": "write"}, "request": ["files", "{method}", "{path}"]}]
        config: dict[str, object] = {"listen": f"unix:{self.socket}", "socket_mode": "0600", "server": "nginx", "list": self.list,
                                     "ended": self.ended, "log": self.grants, "requests": rules, **more}
        self.config = os.path.join(room, "config.json")
        self.write(self.config, json.dumps(config))
        with open(self.log, "ab") as log:
            self.process = subprocess.Popen([*before, program, "-config", self.config], stdout=log, stderr=subprocess.PIPE)
        self.event = self.message()

    @staticmethod
    def write(path: str, text: str) -> None:
        with open(path, "w", encoding="utf-8") as file:
            file.write(text)

    def message(self) -> dict[str, object]:
        """Waits, however long, for the next message on the daemon's standard error, and returns it. Raises ValueError if the daemon has ended."""
        assert self.process.stderr is not None
        return dict(json.loads(self.process.stderr.readline()))

    def reload(self) -> dict[str, object]:
        """Has the daemon read its list and its ended certificates again. Returns its message about that."""
        self.process.send_signal(signal.SIGHUP)
        return self.message()

    def run(self, *words: str) -> tuple[int, str, str]:
        """Runs the daemon's program with these words and its configuration. Returns the status, the output and the errors."""
        done = subprocess.run([self.program, *words, "-config", self.config], stdout=subprocess.PIPE, stderr=subprocess.PIPE, text=True, timeout=600)
        return done.returncode, done.stdout, done.stderr

    def ask(self, who: Person, method: str, target: str, sequence: bytes = b"", path: str = "") -> http.client.HTTPResponse:
        """The daemon's answer to what a web server asks about a person's request. `target` is the path of the request, and `sequence` a text with the
        certificates that the person shows. `path` is that of a socket other than the daemon's own, where a proxy listens."""
        headers = {"X-Original-Method": method, "X-Original-URI": target, "X-Client-Cert": urllib.parse.quote(who.certificate)}
        if sequence:
            braced = subprocess.run([built.program(), "transport"], input=sequence, stdout=subprocess.PIPE, check=True).stdout
            headers["Authorization"] = f"SPKI {braced.decode().strip()}"
        connection = OverSocket(path or self.socket)
        try:
            connection.request("GET", "/", headers=headers)
            response = connection.getresponse()
            response.read()
            return response
        finally:
            connection.close()

    def last_grant(self) -> dict[str, object]:
        """The last line of the log of grants, as an object."""
        return dict(json.loads(text_of(self.grants).splitlines()[-1]))


@needs.needs("openssl", "import cryptography")
class Served(OfGo):
    """The daemon as a program. Keys and certificates are made by other programs."""

    @contextlib.contextmanager
    def served(self, access_list: str, room: str) -> Iterator[Daemon]:
        """A context with a daemon that has this list, as a text, and its files in a folder. At the end SIGTERM must end it with status 0."""
        daemon = Daemon(room, golang.build_daemon(self.library, os.path.join(room, "spki-authd")), access_list)
        try:
            self.assertEqual(daemon.event["event"], "started")
            yield daemon
            daemon.process.terminate()
            self.assertEqual((daemon.message()["event"], daemon.process.wait(60)), ("ended", 0))
            self.assertFalse(os.path.exists(daemon.socket))
        finally:
            daemon.process.kill()
            daemon.process.communicate()

    def test_keys_of_each_kind(self) -> None:
        """With keys of each kind, Alice gives Bob the right to read /web/. The daemon grants this by 200. By 403 it denies writing, a wrong signature
        and Alice's request with Bob's certificate, by 401 Bob's without a certificate, and by 400 it refuses a path with `..`."""
        with tempfile.TemporaryDirectory() as room:
            alices = [Person(room, f"alice-{kind}", kind) for kind in KINDS]
            bobs = [Person(room, f"bob-{kind}", kind) for kind in KINDS]
            entries = "".join(f"(entry {alice.key} (propagate) (tag (files)))" for alice in alices)
            with self.served(f"(acl {entries})", room) as daemon:
                for number, alice in enumerate(alices, 1):
                    for bob in bobs:
                        sequence = alice.gives(bob, "(files read (* prefix /web/))")
                        answer = daemon.ask(bob, "GET", "/web/a", sequence)
                        self.assertEqual((answer.status, answer.headers["X-Spki-Entry"]), (200, str(number)))
                        self.assertEqual(answer.headers["X-Spki-Key"], bob.digest)
                        self.assertEqual(daemon.ask(bob, "PUT", "/web/a", sequence).status, 403)
                        self.assertEqual(daemon.ask(bob, "GET", "/web/../a", sequence).status, 400)
                        self.assertEqual(daemon.ask(alice, "GET", "/web/a", sequence).status, 403)
                        self.assertEqual(daemon.ask(bob, "GET", "/web/a").status, 401)
                        self.assertEqual(daemon.ask(bob, "GET", "/web/a", self.with_wrong_signature(sequence)).status, 403)

    @staticmethod
    def with_wrong_signature(sequence: bytes) -> bytes:
        """The canonical text of `sequence`, a text, with one bit changed in the last octet of its last signature."""
        items = value_of(sequence)
        # (a signature is `(signature HASH KEY (sig-val (ALGORITHM .. (NAME NUMBER))))`)
        part = items[-1][3][1][-1]
        part[1] = part[1][:-1] + bytes([part[1][-1] ^ 1])
        return canonical(items)

    def test_reload(self) -> None:
        """At a reload the list and the digests of ended certificates are read again. If the list is refused, the former list and digests stay."""
        with tempfile.TemporaryDirectory() as room:
            alice, bob = (Person(room, name, "ed25519") for name in ("alice", "bob"))
            text = f"(acl (entry {alice.key} (propagate) (tag (files read))))"
            with self.served(text, room) as daemon:
                sequence = alice.gives(bob, "(files read (* prefix /web/))")
                self.assertEqual(daemon.ask(bob, "GET", "/web/a", sequence).status, 200)
                digests = daemon.last_grant()["certificates"]
                assert isinstance(digests, list)
                daemon.write(daemon.ended, sealed(f"{digests[0]} # Bob has left\n"))
                daemon.write(daemon.list, "(acl (entry))")
                message = daemon.reload()
                self.assertEqual(message["event"], "reloaded not")
                self.assertIn("refused acl 1 Shape", str(message["detail"]))
                self.assertEqual(daemon.ask(bob, "GET", "/web/a", sequence).status, 200)
                daemon.write(daemon.list, text)
                self.assertEqual(daemon.reload()["event"], "reloaded")
                self.assertEqual(daemon.ask(bob, "GET", "/web/a", sequence).status, 403)
                self.assertEqual(daemon.ask(alice, "GET", "/web/a").status, 200)
                daemon.write(daemon.list, "(acl)")
                self.assertEqual(daemon.reload()["event"], "reloaded")
                self.assertEqual(daemon.ask(alice, "GET", "/web/a").status, 401)

    def test_killed_and_started_again(self) -> None:
        """A daemon that was killed leaves its socket, and the next one listens at the same path."""
        with tempfile.TemporaryDirectory() as room:
            alice = Person(room, "alice", "ed25519")
            text = f"(acl (entry {alice.key} (tag (files read))))"
            with self.served(text, room) as daemon:
                daemon.process.kill()
                daemon.process.communicate()
                self.assertTrue(os.path.exists(daemon.socket))
                daemon.process = Daemon(room, daemon.program, text).process  # (`served` ends this one)
                self.assertEqual(daemon.ask(alice, "GET", "/web/a").status, 200)

    def test_check_of_a_list(self) -> None:
        """`spki-authd -check` says how many entries a list has, or what is wrong in it."""
        with tempfile.TemporaryDirectory() as room:
            program = golang.build_daemon(self.library, os.path.join(room, "spki-authd"))
            for text, status, line in [("(acl)", 0, "0 entries"), ("(acl (entry))", 1, "refused acl 1 Shape"), ("", 1, "refused form Short")]:
                path = os.path.join(room, "acl")
                Daemon.write(path, text)
                ended, output = output_of(program, "-check", path)
                self.assertEqual((ended, line in output), (status, True), output)


def value_of(text: bytes) -> Any:
    """The plain value of a text in any form, as `read` gives it. Raises CalledProcessError if the program refuses the text."""
    return read(subprocess.run([built.program(), "canonical"], input=text, stdout=subprocess.PIPE, check=True).stdout)
