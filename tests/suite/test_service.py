"""Drives the smallest services in C, Rust, Python and Go by signed requests, with keys and certificates made for them, and counts their lines.

The keys, the list and the certificates are those of examples/signed/run.py. Each request is sent to one process of the service: right ones,
certificates with a wrong signature or that have expired, requests that another key has signed, that are sent again or were changed, and what is no
request. The service in C is compiled without warnings, with OpenSSL and with libgcrypt, and driven again under AddressSanitizer and valgrind.

A copy of each service, which keeps few nonces, is asked by strangers, whose keys have no right. It must grant what it should after that."""
from __future__ import annotations

import contextlib
import json
import os
import pathlib
import socket
import subprocess
import sys
from collections.abc import Iterator
from typing import Any

from harness import built, golang, needs
from harness.support import CARGO, EXAMPLES, TOP, is_compiled, output_of, room_for, text_of

needs.required("import cryptography")
# (examples/signed/ has a module of this file's name)
sys.path.insert(0, os.path.join(EXAMPLES, "signed"))
import spki_http  # noqa: E402
import tools  # noqa: E402
from run import NAME, PASTED, READ, WRITE, Pair, Story, asked_by, signed, with_changed_bit, with_digest_of  # noqa: E402
from spki_cert_tool.keys import ED25519  # noqa: E402

FOLDER, PYTHON, RUST = (os.path.join(TOP, *parts) for parts in (("examples", "c"), ("bindings", "python"), ("bindings", "rust")))
STRICT = ["cc", "-std=c11", "-Wall", "-Wextra", "-Wpedantic", "-Werror", "-O1", "-g"]
SANITIZED = ["-fsanitize=address,undefined", "-fno-sanitize-recover=all", "-fno-omit-frame-pointer"]
VALGRIND = ["valgrind", "--quiet", "--leak-check=full", "--show-leak-kinds=definite,indirect"]
SECONDS = 120
# The most lines of each service.
SERVICES = {"examples/c/service.c": 70, "bindings/rust/examples/service.rs": 60, "bindings/python/examples/service.py": 46,
            "bindings/go/examples/service/main.go": 45}
# The most nonces of a copy of a service, and how many strangers ask it: fewer in Rust, since that service runs a program for each signature.
NONCES, STRANGERS, STRANGERS_IN_RUST = 20, 1_000, 100
# A request that Bob may make, and the canonical form of a sequence without certificates.
BY_BOB, NOTHING_SHOWN = ("packages", "read", "/manuals/cook.pdf"), b"(8:sequence)"
# A request as it is sent: the method, the target and the fields, without `Host`.
Sent = tuple[str, str, dict[str, str]]


class LastingStory(Story):
    """The keys, list and certificates of examples/signed/run.py, with other dates."""

    def __init__(self) -> None:
        """The certificates last, since the service asks by its own clock, but for `ended`, which has expired."""
        super().__init__()
        self.to_builders = self.to_builders.replace("2026-01-01", "2000-01-01")
        self.bob_is_builder = self.bob_is_builder.replace("2026-12-31", "9999-12-31")
        self.ended = self.to_carol.replace("2026-06-30", "2020-06-30")
        self.to_carol = self.to_carol.replace("2026-06-30", "9999-06-30")


def chain_requests(story: LastingStory) -> Iterator[tuple[str, Sent, bool]]:
    """Requests with right certificates, with wrong ones and with none. Yields for each a remark, the request, and whether it must be granted. By
    `asked_by` a key pair signs a request for READ or other words, with a sequence; `signed` is a certificate with its signature by a pair."""
    alice, bob, carol = story.alice, story.bob, story.carol
    good = signed(story.to_carol, bob)
    longer = story.to_carol.replace("9999-06-30", "9999-07-31")
    changed = signed(story.to_carol, bob, changed=longer)
    right = story.sequence(good)
    yield "all is right", asked_by(carol, READ, right), True
    yield "an entry alone, by RSA", asked_by(alice, READ), True
    yield "the second entry", asked_by(bob, ("packages", "read", "/manuals/cook.pdf")), True
    yield "the right is to read", asked_by(carol, WRITE, right), False
    for remark, sequence in {
        "one bit of a signature is changed": story.sequence(with_changed_bit(good)), "a certificate is changed": story.sequence(changed),
        "another certificate is changed": right.replace(story.to_builders, story.to_builders.replace("2000-01-01", "2000-01-02")),
        "a certificate is changed, and its digest made to fit": story.sequence(with_digest_of(longer, changed)),
        "a certificate is signed by another key": story.sequence(signed(story.to_carol, carol, named=bob)),
        "a key is not shown": story.sequence(good, keys=False), "a certificate has expired": story.sequence(signed(story.ended, bob)),
        "nothing is shown": "(sequence)", "an item is none": "(sequence (certificate))", "it is no sequence": "(key x)",
        # (with the two of Alice 17, one more than a guard takes)
        "there are too many certificates": story.sequence(good + 14 * f" {good}"),
        "two sequences": tools.canonical(right) + b"(8:sequence)", "no octets": b"", "half a sequence": tools.canonical(right)[:-1],
    }.items():
        yield remark, asked_by(carol, READ, sequence), False
    yield "another holder asks", asked_by(bob, READ, right), False
    yield "the path has parentheses and quotes", asked_by(carol, PASTED, right), False
    # (`asked_by` would encode these paths, which are signed as they are)
    signer = spki_http.Signer(tools.canonical(carol.text), carol.sign, asked_by(carol, READ, right)[2]["X-Spki-Sequence"])
    for path in ("/builds/web/%69ndex.html", "/builds/web/../app/x", "/builds/web/./x", "/builds/web/index.html?x"):
        yield f"the path {path}", ("GET", path, signer.fields("GET", f"https://{NAME}{path}")), False
    yield "and again all is right", asked_by(carol, READ, right), True


def proof_requests(story: LastingStory) -> Iterator[tuple[str, Sent, bool]]:
    """Requests signed rightly, wrongly or not at all, to be sent in this order. Yields for each a remark, the request, and whether it is granted."""
    alice, bob, carol = story.alice, story.bob, story.carol
    right = story.sequence(signed(story.to_carol, bob))
    once = asked_by(carol, READ, right)
    yield "a request", once, True
    yield "the request again", once, False
    yield "another has signed", asked_by(bob, READ, right, named=carol), False
    yield "it was signed for another service", asked_by(carol, READ, right, name="other.example"), False
    method, target, fields = asked_by(carol, READ, right)
    for remark, sent in {
        "another path": (method, target + "x", fields), "another method": ("HEAD", target, fields), "there is no signature": (method, target, {}),
        "a signature's input alone": (method, target, {"Signature-Input": fields["Signature-Input"]}),
        "another name": (method, target, {**fields, "Host": "other.example"}), "two names": (method, target, {**fields, "host": "other.example"}),
        "no chain": (method, target, {name: value for name, value in fields.items() if name != "X-Spki-Sequence"}),
        "another chain": (method, target, {**fields, "X-Spki-Sequence": asked_by(alice, READ)[2]["X-Spki-Sequence"]}),
        "two chains": (method, target, {**fields, "x-spki-sequence": fields["X-Spki-Sequence"]}),
        "a chain that is not signed": (method, target, {**asked_by(carol, READ)[2], "X-Spki-Sequence": fields["X-Spki-Sequence"]}),
        "a folded line": (method, target, {**fields, "Signature": fields["Signature"].replace("=:", "=:\r\n ", 1)}),
        "a line without a colon": (method, target, {"X-Odd": "1\r\nodd", **fields}),
        "a body that is not signed": (method, target, {**fields, "Content-Length": "1"}),
        # (the service in C reads up to 64 fields)
        "70 fields and a body": (method, target, {**fields, **{f"x-{place}": "" for place in range(70)}, "Content-Length": "1"}),
    }.items():
        yield remark, sent, False
    yield "and then it is granted, once", (method, target, fields), True


def first_line_for(port: int, octets: bytes) -> bytes:
    """The first line of what the service at a port answers to these octets. Empty if it is silent for SECONDS, or breaks the connection, as it may
    before it has read all. Raises OSError if no service listens there."""
    with socket.create_connection(("127.0.0.1", port), timeout=SECONDS) as client, contextlib.suppress(OSError):
        client.sendall(octets)
        client.shutdown(socket.SHUT_WR)
        return client.makefile("rb").readline()
    return b""


def is_granted(port: int, sent: Sent) -> bool:
    """Whether the service at a port grants a request: by the status 200. `Host` is NAME unless the fields have it."""
    method, target, fields = sent
    lines = [f"{method} {target} HTTP/1.1", *(f"{name}: {value}" for name, value in {"Host": NAME, "Connection": "close", **fields}.items()), "", ""]
    return b" 200 " in first_line_for(port, "\r\n".join(lines).encode("latin-1"))


# Octets that are no request: a service must not grant them.
NO_REQUESTS = (b"", b"\r\n\r\n", b"GET\r\n\r\n", b"GET / HTTP/1.1\r\n\r\n", b"GET / HTTP/1.1\r\n: x\r\n\r\n", b"\0" * 99, b"GET " + b"a" * 99_999,
               b"GET / HTTP/1.1\r\nHost: x", b"GET / HTTP/1.1\r\n" + b"a: b\r\n" * 20_000 + b"\r\n")


@needs.needs(*needs.LIBRARY)
class Service(built.OfLibrary):
    """The base of tests that ask a service, and the count of lines. `path` is that of its access list, and `story` has keys and certificates."""

    room: str
    path: str
    story: LastingStory

    @classmethod
    def setUpClass(cls) -> None:
        super().setUpClass()
        cls.room, tools.SPKI = room_for(cls), cls.program  # (tools.py, by which the story is made, runs this program)
        cls.story, cls.path = LastingStory(), os.path.join(cls.room, "acl")
        pathlib.Path(cls.path).write_text(cls.story.access_list, encoding="ascii")

    @contextlib.contextmanager
    def served(self, *words: str, **settings: str) -> Iterator[int]:
        """Has the command `words`, with the path of the list and the name of the service behind it, serve at the port that this yields. It must not
        end before the test, and no sanitizer nor valgrind may report. `settings` are more environment variables."""
        with open(os.path.join(self.room, "errors"), "w+b") as errors, subprocess.Popen(
                [*words, self.path, NAME], stdout=subprocess.PIPE, stderr=errors, env={**os.environ, **settings}) as service:
            try:
                assert service.stdout is not None
                yield int(service.stdout.readline())
                self.assertIsNone(service.poll())
            finally:
                service.terminate()
                service.wait()
            errors.seek(0)
            self.assertNotRegex(errors.read(), rb"lost in|Invalid|uninitialised|ERROR")  # (words of both reports)

    def check_strangers(self, *words: str, strangers: int = STRANGERS, **settings: str) -> None:
        """A service that keeps NONCES nonces must deny the requests of so many strangers, who sign them rightly. Then it must grant NONCES of Bob's,
        each only once, and no more: so none of the strangers used up a nonce. The words are those of `served`."""
        with self.served(*words, **settings) as port:
            # (they are signed behind the start of the service: what was created before that is refused)
            asked = [asked_by(Pair(ED25519), (READ, WRITE, PASTED)[place % 3], NOTHING_SHOWN) for place in range(strangers)]
            self.assertEqual([sent for sent in asked if is_granted(port, sent)], [])
            for _ in range(NONCES):
                sent = asked_by(self.story.bob, BY_BOB, NOTHING_SHOWN)
                self.assertEqual([is_granted(port, sent), is_granted(port, sent)], [True, False])
            self.assertFalse(is_granted(port, asked_by(self.story.bob, BY_BOB, NOTHING_SHOWN)))

    def changed_copy(self, path: str, old: str, new: str) -> str:
        """Copies a file, whose path from the top of the repository is given, with another text in place of `old`, which it must have once. Returns
        the path of the copy."""
        text, copy = text_of(path), os.path.join(self.room, os.path.basename(path))
        self.assertEqual(text.count(old), 1, path)
        pathlib.Path(copy).write_text(text.replace(old, new), encoding="utf-8")
        return copy

    def check_service(self, *words: str, **settings: str) -> None:
        """The service that the command `words` starts must grant the requests of `chain_requests` and `proof_requests` that say so, and no others. It
        must not start on a wrong list, as one of over 1,048,576 octets. The words are those of `served`."""
        with self.served(*words, **settings) as port:
            for remark, sent, wanted in (*chain_requests(self.story), *proof_requests(self.story)):
                with self.subTest(remark):
                    self.assertEqual(is_granted(port, sent), wanted)
            for octets in NO_REQUESTS:
                self.assertNotIn(b" 200 ", first_line_for(port, octets))
            self.assertTrue(is_granted(port, asked_by(self.story.alice, READ)))
        for text in ("(acl (entry (public-key (test a))))", "(acl) (acl)", "(acl)".ljust(1_048_577), ""):
            path = pathlib.Path(self.room, "wrong")
            path.write_text(text, encoding="ascii")
            done: Any = subprocess.run([*words, str(path), NAME], stdout=subprocess.PIPE, stderr=subprocess.PIPE, timeout=SECONDS,
                                       env={**os.environ, **settings})
            self.assertEqual((done.returncode == 0, done.stdout), (False, b""), text[:99])

    def test_lines(self) -> None:
        """Each service of SERVICES has at most as many lines as SERVICES says."""
        for path, most in SERVICES.items():
            self.assertLessEqual(len(text_of(path).splitlines()), most, path)


@needs.needs("openssl/evp.h")
class InC(Service):
    """The service in C with OpenSSL, also under AddressSanitizer and under valgrind, and with libgcrypt."""

    def compile(self, *more: str, verifier: str = "verify_openssl.c", library: str = "-lcrypto", path: str = "service.c") -> str:
        """Compiles the service without warnings, with more options of the compiler. Returns its path. `verifier` is the source that verifies
        signatures, `library` the option that links what it uses, and `path` that of the service's source."""
        service = os.path.join(self.room, self.id())
        sources = [os.path.join(FOLDER, name) for name in (path, "http_request.c", "http_nonces.c", verifier)]
        self.assertTrue(is_compiled(*STRICT, *more, "-o", service, *sources, self.library, library), "service.c is not compiled")
        return service

    def test_service(self) -> None:
        self.check_service(self.compile())

    def test_strangers(self) -> None:
        path = self.changed_copy("examples/c/service.c", "MOST_NONCES = 100000", f"MOST_NONCES = {NONCES}")
        self.check_strangers(self.compile("-I", FOLDER, path=path))

    @needs.needs("/usr/include/gcrypt.h")
    def test_service_by_gcrypt(self) -> None:
        self.check_service(self.compile(verifier="verify_gcrypt.c", library="-lgcrypt"))

    def test_under_address_sanitizer(self) -> None:
        self.check_service(self.compile(*SANITIZED))

    @needs.needs("valgrind")
    def test_under_valgrind(self) -> None:
        self.check_service(*VALGRIND, self.compile())


class InOtherLanguages(Service):
    """The services in Rust, Python and Go."""

    @needs.needs("cargo", "openssl")
    def test_rust(self) -> None:
        settings = {**os.environ, **CARGO, "SPKI_LIB_DIR": os.path.dirname(self.library)}
        status, output = output_of("cargo", "build", "--quiet", "--example", "service", cwd=RUST, env=settings, seconds=SECONDS)
        self.assertEqual(status, 0, output)
        self.check_service(os.path.join(RUST, "out", "debug", "examples", "service"))

    @needs.needs("cargo", "openssl")
    def test_strangers_in_rust(self) -> None:
        """It is built as a crate of its own, beside the module that it shares with other examples."""
        self.changed_copy("bindings/rust/examples/service.rs", "Nonces::new(100_000)", f"Nonces::new({NONCES})")
        os.symlink(os.path.join(RUST, "examples", "by_openssl"), os.path.join(self.room, "by_openssl"))
        pathlib.Path(self.room, "Cargo.toml").write_text(
            '[package]\nname = "service"\nversion = "0.0.0"\nedition = "2021"\n\n[[bin]]\nname = "service"\npath = "service.rs"\n\n'
            f'[dependencies]\nspki = {{ path = "{RUST}" }}\n', encoding="utf-8")
        target = os.path.join(self.room, "target")
        settings = {**os.environ, **CARGO, "SPKI_LIB_DIR": os.path.dirname(self.library), "CARGO_TARGET_DIR": target}
        status, output = output_of("cargo", "build", "--quiet", cwd=self.room, env=settings, seconds=SECONDS)
        self.assertEqual(status, 0, output)
        self.check_strangers(os.path.join(target, "debug", "service"), strangers=STRANGERS_IN_RUST)

    def test_python(self) -> None:
        self.check_service(sys.executable, os.path.join(PYTHON, "examples", "service.py"), PYTHONPATH=PYTHON, SPKI_LIBRARY=self.shared)

    def test_strangers_in_python(self) -> None:
        path = self.changed_copy("bindings/python/examples/service.py", "spki_http.Verifier(name)",
                                 f"spki_http.Verifier(name, nonces=spki_http.Memory({NONCES}))")
        self.check_strangers(sys.executable, path, PYTHONPATH=PYTHON, SPKI_LIBRARY=self.shared)

    @needs.needs("go")
    def test_go(self) -> None:
        program = os.path.join(self.room, "service")
        golang.go(golang.MODULE, ["build", "-o", program, "./examples/service"], self.library).check_returncode()
        self.check_service(program)

    @needs.needs("go")
    def test_strangers_in_go(self) -> None:
        path, serving = "bindings/go/examples/service/main.go", "\tlog.Fatal(http.Serve("
        copy = self.changed_copy(path, serving, f"\tverifier.Nonces = httpsig.NewMemory({NONCES})\n{serving}")
        overlay, program = pathlib.Path(self.room, "overlay"), os.path.join(self.room, "service-of-few")
        overlay.write_text(json.dumps({"Replace": {os.path.join(TOP, path): copy}}), encoding="utf-8")
        golang.go(golang.MODULE, ["build", "-overlay", str(overlay), "-o", program, "./examples/service"], self.library).check_returncode()
        self.check_strangers(program)
