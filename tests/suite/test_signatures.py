"""Tests signed requests: those of `spki-cert request`, by a key's file and by ssh-agent, at a small server that curl asks too; and the verifier in C
of requests. It must answer the rows of the table that the bindings read (`test_spki_http.rows`) as they say, and mutated rows as that in Python does.

A row has a request and the answer: `valid`, or the name of the refusal, such as `nonce-seen`. A request is signed over its method, host, path and
some fields. The caller of the verifier in C compares the digest of its body; that in Python does so itself."""
from __future__ import annotations

import dataclasses
import hashlib
import http.server
import os
import pathlib
import random
import subprocess
import sys
import threading
import unittest
import urllib.request
from typing import Any, Optional

from harness import built, needs
from harness.support import TESTS, TOP, is_compiled, room_for, string
from suite import test_cert

COMMAND = os.path.join(TOP, "apps", "spki-cert", "spki-cert")
SECONDS = 600
WARNINGS = ["cc", "-std=c11", "-Wall", "-Wextra", "-Wpedantic", "-Werror", "-O1", "-g", "-fsanitize=address,undefined", "-fno-sanitize-recover=all"]
# How many rows are mutated.
MUTATED = 200_000 if built.IS_LONG else 2_000
# The name of a row, the request, the time in seconds since 1970, how many seconds before it the same request came or None, and the answer.
Row = tuple[str, Any, int, Optional[int], str]
KINDS = ("ed25519", "rsa", "p256", "p384")


def spki_cert(*words: str, room: str, **settings: str) -> subprocess.CompletedProcess[bytes]:
    """Runs `spki-cert` in the folder `room`, with more `settings` of the environment, but without the caller's ssh-agent and labels, nor a proxy."""
    others = {name: value for name, value in os.environ.items() if name not in ("SSH_AUTH_SOCK", "SPKI_LABELS")}
    return subprocess.run([sys.executable, COMMAND, *words], cwd=room, stdin=subprocess.DEVNULL, stdout=subprocess.PIPE, stderr=subprocess.PIPE,
                          timeout=SECONDS, env={**others, **settings, "no_proxy": "*"})


class Handler(http.server.BaseHTTPRequestHandler):
    """Adds each request, refused or not, to its server's `requests`, and answers by what the server's verifier says of it."""

    server: Service

    def answer_request(self) -> None:
        """Answers with the proved key and 200, or with the name of the refusal and 401. To HEAD it sends the header alone."""
        import spki_http
        body = self.rfile.read(int(self.headers.get("Content-Length", 0)))
        self.server.requests.append((self.command, self.path, body))
        try:
            status, text = 200, self.server.verifier.prove(self.command, self.headers["Host"], self.path, self.headers.items(), body).key
        except spki_http.Refused as why:
            status, text = 401, why.name.encode()
        self.send_response(status)
        self.send_header("Content-Length", str(len(text)))
        self.end_headers()
        if self.command != "HEAD":
            self.wfile.write(text)

    do_GET = do_HEAD = do_PUT = do_DELETE = answer_request

    def log_message(self, *words: object) -> None:
        """Writes no log."""


class Service(http.server.ThreadingHTTPServer):
    """A service at `name`, an address with a port of its own. `requests` has the method, path and body of each request that it got."""

    def __init__(self) -> None:
        import spki_http
        super().__init__(("127.0.0.1", 0), Handler)
        self.name, self.requests = f"127.0.0.1:{self.server_port}", list[tuple[str, str, bytes]]()
        self.verifier = spki_http.Verifier(self.name, scheme="http")

    def serve_during(self, test: unittest.TestCase) -> None:
        """Begins to answer requests, in a thread, until the test has ended."""
        thread = threading.Thread(target=self.serve_forever)
        thread.start()
        test.addCleanup(thread.join)
        test.addCleanup(self.server_close)
        test.addCleanup(self.shutdown)


@needs.needs("import cryptography")
class SpkiCertRequest(unittest.TestCase):
    """Requests that `spki-cert request` signs, at a service that a thread of this process runs, and words that it refuses."""

    room: str

    @classmethod
    def setUpClass(cls) -> None:
        cls.room = room_for(cls)
        for kind in KINDS:
            spki_cert("key", "new", "--no-passphrase", "--type", kind, kind, room=cls.room).check_returncode()

    def setUp(self) -> None:
        self.service = Service()
        self.service.serve_during(self)
        self.url = f"http://{self.service.name}/a%20b/c?d=e"

    def output(self, *words: str, wanted: int = 0, **settings: str) -> str:
        """Runs `spki-cert` with more `settings` of the environment. Its status must be `wanted`: if that is 0 returns its output, else its errors."""
        done = spki_cert(*words, room=self.room, **settings)
        self.assertEqual(done.returncode, wanted, done.stderr)
        return (done.stdout if wanted == 0 else done.stderr).decode(errors="replace")

    def ask(self, fields: str, method: str = "GET", body: bytes | None = None) -> tuple[int, bytes]:
        """Sends a request for `self.url` with these fields, one a line. Returns the status and the body of the service's answer."""
        headers = dict(line.split(": ", 1) for line in fields.splitlines())
        opener = urllib.request.build_opener(urllib.request.ProxyHandler({}), Quiet())
        with opener.open(urllib.request.Request(self.url, body, headers, method=method)) as answer:
            return answer.status, answer.read()

    def test_fields(self) -> None:
        """The printed fields prove each kind of key, but only once, and only for the method and the body for which they were made."""
        pathlib.Path(self.room, "body").write_bytes(b"some octets")
        for kind in KINDS:
            fields = self.output("request", "--by", kind, self.url)
            status, key = self.ask(fields)
            self.assertEqual((status, key[:14]), (200, b"(10:public-key"))
            self.assertEqual(self.ask(fields), (401, b"nonce-seen"))
            self.assertEqual(self.ask(self.output("request", "--by", kind, self.url), "HEAD"), (401, b""))
        put = self.output("request", "--by", "p256", "--body", "body", self.url)
        self.assertEqual(self.ask(put, "PUT", b"some octetz"), (401, b"other-digest"))
        self.assertEqual(self.ask(put, "PUT", b"some octets")[0], 200)

    def test_chain(self) -> None:
        """The certificates are sent as `spki-cert show --braces` prints them. An empty sequence in their place makes the signature invalid."""
        self.output("sign", "--by", "ed25519", "--to", "p256.pub", "--tag", "(files read)", "--days", "9", "-o", "chain.sexp")
        fields = self.output("request", "--by", "p256", "--cert", "chain.sexp", self.url)
        chain = self.output("show", "--braces", "chain.sexp").strip()
        self.assertIn(f"X-Spki-Sequence: {chain}\n", fields)
        self.assertEqual(self.ask(fields.replace(chain, "{KDg6c2VxdWVuY2Up}")), (401, b"invalid-signature"))  # (`(8:sequence)` in base64)
        self.assertEqual(self.ask(fields)[0], 200)

    @needs.needs("curl")
    def test_curl(self) -> None:
        """curl sends what was signed, and spki-cert ends with curl's status: with `--fail` 22 for an answer of 401, here for another host name."""
        pathlib.Path(self.room, "body").write_bytes(bytes(range(256)) * 8192)
        self.assertTrue(self.output("request", "--by", "ed25519", "--curl", self.url, "--", "--silent").startswith("(10:public-key"))
        self.assertIn("200 OK", self.output("request", "--by", "rsa", "--method", "HEAD", "--curl", self.url, "--", "-s"))
        self.assertTrue(self.output("request", "--by", "p256", "--body", "body", "--curl", self.url, "--", "-s").startswith("(10:public-key"))
        self.assertTrue(self.output("request", "--by", "p256", "--method", "DELETE", "--curl", self.url, "--", "-s").startswith("(10:public-key"))
        odd = f"http://{self.service.name}/a/../%7e[b]{{c}}?"
        self.assertTrue(self.output("request", "--by", "p256", "--curl", odd, "--", "-s").startswith("(10:public-key"))
        self.assertEqual([(method, path, len(body)) for method, path, body in self.service.requests], [
            ("GET", "/a%20b/c?d=e", 0), ("HEAD", "/a%20b/c?d=e", 0), ("PUT", "/a%20b/c?d=e", 2_097_152), ("DELETE", "/a%20b/c?d=e", 0),
            ("GET", "/a/../%7e[b]{c}?", 0)])
        self.output("request", "--by", "p256", "--curl", self.url.replace("127.0.0.1", "localhost"), "--", "-s", "--fail", wanted=22)

    def test_refusals(self) -> None:
        """Wrong words end with status 2 and a message, which has the text beside them here."""
        for words, message in (
            (["--by", "nokey", self.url], "nokey: No such file"), (["--by", "p256", "http://a/ b"], "no address of https or http"),
            (["--by", "p256", "ftp://a/"], "no address"), (["--by", "p256", "https://me:word@a/"], "no address"),
            (["--by", "p256", "https://a/#b"], "no address"), (["--by", "p256", "--method", "get", self.url], "capital letters"),
            (["--by", "p256", self.url, "--", "-s"], "--curl"), (["--by", "p256", "--body", "nobody", self.url], "nobody: No such file"),
            (["--by", "p256", "--cert", "p256.pub", self.url], "p256.pub"), (["--by", "p256.pub", self.url], "SSH_AUTH_SOCK is not set"),
            (["--by", "p256", "https://ä/"], "not ASCII"), (["--by", "p256", "http://[::1/"], "IPv6"),
        ):
            self.assertIn(message, self.output("request", *words, wanted=2), words)

    @needs.needs("ssh-keygen")
    def test_agent(self) -> None:
        """Keys that ssh-agent has sign too."""
        socket = test_cert.start_agent(self)
        for kind in KINDS:
            subprocess.run(["ssh-add", "-q", kind], cwd=self.room, env={**os.environ, "SSH_AUTH_SOCK": socket}, check=True)
            self.assertEqual(self.ask(self.output("request", "--by", f"{kind}.pub", self.url, SSH_AUTH_SOCK=socket))[0], 200)


@needs.needs("cc", "import cryptography")
class VerifierInC(unittest.TestCase):
    """The verifier in C of signed requests, under AddressSanitizer."""

    def setUp(self) -> None:
        self.room = room_for(self)

    def answers(self, program: str, rows: list[Row]) -> list[str]:
        """Runs a program compiled from `proving.c`, which says what it reads. Returns what `answer_of` makes of its lines, one for each row."""
        strings: list[bytes] = []
        for _, message, now, again, _ in rows:
            words = [message.method, message.authority, message.target, str(now), "" if again is None else str(again),
                     "1" if message.has_body else "", str(len([*message.fields]))]
            strings += [word.encode("latin-1") for word in [*words, *(text for pair in message.fields for text in pair)]]
        done = subprocess.run([program], input=b"".join(map(string, strings)), stdout=subprocess.PIPE, timeout=SECONDS)
        lines = done.stdout.decode().splitlines()
        self.assertEqual((done.returncode, len(lines)), (0, len(rows)))
        return [self.answer_of(line, row[1].body) for line, row in zip(lines, rows)]

    def answer_of(self, line: str, body: bytes | None) -> str:
        """The answer on a line, or `other-digest` where it is `valid` with the digest of another body: the caller of the verifier must compare them.
        The digest has 64 hexadecimal digits by SHA-256 or 128 by SHA-512. Without one only an empty body is right. A body of None is not compared."""
        answer, _, digest = line.partition(" ")
        if answer != "valid" or body is None:
            return answer
        digests = {0: "" if body == b"" else "another", 64: hashlib.sha256(body).hexdigest(), 128: hashlib.sha512(body).hexdigest()}
        return "valid" if digests[len(digest)] == digest else "other-digest"

    def compile(self, verifier: str, library: str) -> str:
        """Compiles the verifier in C of requests, with one of signatures: the name of its source without `.c`, and the option that links its library.
        Returns the path of the program."""
        folder, program = os.path.join(TOP, "examples", "c"), os.path.join(self.room, verifier)
        files = [os.path.join(folder, f"{name}.c") for name in ("http_request", "http_nonces", verifier)]
        self.assertTrue(is_compiled(*WARNINGS, "-I", folder, "-o", program, os.path.join(TESTS, "programs", "proving.c"), *files, library))
        return program

    def check_answers(self, verifier: str, library: str) -> None:
        """The verifier in C, with one of signatures as `compile` has it, must answer all rows rightly, and mutated rows as that in Python does."""
        import test_spki_http  # (here, since it raises SkipTest where cryptography is missing)
        program, rows = self.compile(verifier, library), [*test_spki_http.rows()]
        names, right_answers = [row[0] for row in rows], [row[4] for row in rows]
        self.assertEqual([*zip(names, self.answers(program, rows))], [*zip(names, right_answers)])
        seed = random.randrange(2**32)
        chance = random.Random(seed)
        changed = [mutated(chance.choice(rows), chance) for _ in range(MUTATED)]
        by_python = [test_spki_http.answer(test_spki_http.verifier_at([now]), message) for _, message, now, _, _ in changed]
        for row, answer, wanted in zip(changed, self.answers(program, changed), by_python):
            self.assertEqual(answer, wanted, f"seed {seed}: {row}")

    @needs.needs("openssl/evp.h")
    def test_bodies_that_no_field_announces(self) -> None:
        """With a body that no field announces, as HTTP/2 may send it, the verifier in C answers as that in Python: also a GET needs a digest then."""
        import test_spki_http  # (here, since it raises SkipTest where cryptography is missing)
        rows: list[Row] = [(name, dataclasses.replace(message, has_body=True), now, None, "") for name, message, now, _, _ in test_spki_http.rows()]
        wanted = [answer_by_check(test_spki_http.verifier_at([row[2]]), row[1]) for row in rows]
        self.assertLessEqual({"valid", "body-without-digest"}, set(wanted))
        names, answers = [row[0] for row in rows], self.answers(self.compile("verify_openssl", "-lcrypto"), rows)
        self.assertEqual([*zip(names, answers)], [*zip(names, wanted)])

    @needs.needs("openssl/evp.h")
    def test_by_openssl(self) -> None:
        self.check_answers("verify_openssl", "-lcrypto")

    @needs.needs("/usr/include/gcrypt.h")
    def test_by_gcrypt(self) -> None:
        self.check_answers("verify_gcrypt", "-lgcrypt")


def answer_by_check(verifier: Any, message: Any) -> str:
    """What `check` of a verifier in Python says of a request: `valid`, or the name of the refusal. `prove` cannot be told of `has_body`."""
    import spki_http
    try:
        verifier.check(message)
    except spki_http.Refused as why:
        return why.name
    return "valid"


def mutated(row: Row, chance: random.Random) -> Row:
    """A row of which one text has another letter, one less or one more, or a part of up to 39 letters twice or not at all; by chance it stays as it
    was. The same request never came before (None). The row keeps its answer, which may be wrong now."""
    name, message, now, _, old_answer = row
    texts = [message.method, message.authority, message.target, *(text for pair in message.fields for text in pair)]
    place = chance.randrange(len(texts))
    text, at = texts[place], chance.randrange(len(texts[place]) + 1)
    # (the new octet means something in these texts, is in none of them, or is one of this text)
    octet, end = chance.choice("\0\t\n ,;=()\":{}@?#/Az09\x7f\xe9" + chance.choice(text or " ")), at + chance.randrange(40)
    texts[place] = chance.choice([text[:at] + octet + text[at:], text[:at] + octet + text[at + 1:], text[:at] + text[at + 1:],
                                  text[:at] + text[at:end] + text[at:], text[:at] + text[end:]])
    pairs = [*zip(texts[3::2], texts[4::2])]
    return name, dataclasses.replace(message, method=texts[0], authority=texts[1], target=texts[2], fields=pairs), now, None, old_answer


class Quiet(urllib.request.HTTPErrorProcessor):
    """Returns an answer of any status, for which urllib would raise an error or follow a redirection."""

    def http_response(self, request: object, response: object) -> object:  # type: ignore[override]
        """The response as it is: `http_response` of the base class would look at its status."""
        return response
