"""Tests the package spki_http by the table that all languages read, by the examples of RFC 9421, and by clients and a server. A row of the table is a
request, its time, and the answer that it must get: `valid` or the name of a refusal. `rows` reads them, `verifier_at` makes the service that they are
for, and `answer` says what it answers.

    PYTHONPATH=bindings/python python3 -m unittest bindings/python/test_spki_http.py
"""
from __future__ import annotations

import base64
import copy
import dataclasses
import email
import http.server
import io
import os
import pickle
import re
import threading
import unittest
import urllib.error
import urllib.request
import urllib.response
import warnings
from collections.abc import Callable, Iterator
from typing import Any
from unittest import mock

import spki_http
from spki_http import _fields, _message

try:
    from cryptography.hazmat.primitives.asymmetric import ec
    from cryptography.hazmat.primitives.asymmetric.ed25519 import Ed25519PrivateKey
    from cryptography.hazmat.primitives.asymmetric.utils import decode_dss_signature
    from cryptography.hazmat.primitives.hashes import SHA256
    from cryptography.hazmat.primitives.serialization import Encoding, PublicFormat, load_der_private_key, load_der_public_key

    import spki_verify
except ImportError:
    raise unittest.SkipTest("there is no cryptography; Debian: python3-cryptography") from None

# The file of the table, an escape in it, and certificates that a client sends: `(sequence)` in transport form.
ROWS = os.path.join(os.path.dirname(os.path.realpath(__file__)), "..", "go", "httpsig", "testdata", "rows")
ESCAPE = re.compile(r"\\(?:x(..)|(.))")
CHAIN = "{KDg6c2VxdWVuY2Up}"
# The examples of RFC 9421, appendix B.2.6 and B.2.4: a private key of Ed25519 (B.1.4), its SIGNATURE of BASE; a public key of P-256 (B.1.3), its
# P256_SIGNATURE of RESPONSE.
PRIVATE = "MC4CAQAwBQYDK2VwBCIEIJ+DYvh6SEqVTm50DFtMDoQikTmiCqirVv9mWG9qfSnF"
SIGNATURE = "wqcAqbmYJ2ji2glfAMaRy4gruYYnx2nEFN2HN6jrnDnQCK1u02Gb04v9EDgwUPiu4A0w6vuQv5lIp5WPpBKRCw=="
BASE = """"date": Tue, 20 Apr 2021 02:07:55 GMT
"@method": POST
"@path": /foo
"@authority": example.com
"content-type": application/json
"content-length": 18
"@signature-params": ("date" "@method" "@path" "@authority" "content-type" "content-length");created=1618884473;keyid="test-key-ed25519\""""
P256_PUBLIC = "MFkwEwYHKoZIzj0CAQYIKoZIzj0DAQcDQgAEqIVYZVLCrPZHGHjP17CTW0/+D9Lfw0EkjqF7xB4FivAxzic30tMM4GF+hR6Dxh71Z50VGGdldkkDXZCnTNnoXQ=="
P256_SIGNATURE = "wNmSUAhwb5LxtOtOpNa6W5xj067m5hFrj0XQ4fvpaCLx0NKocgPquLgyahnzDnDAUy5eCdlYUEkLIj+32oiasw=="
RESPONSE = """"@status": 200
"content-type": application/json
"content-digest": sha-512=:mEWXIS7MaLRuGgxOBdODa3xqM1XdEvxoYhvlCFJ41QJgJc4GTsPp29l5oGX69wWdXymyU0rjJuahq4l5aGgfLQ==:
"content-length": 23
"@signature-params": ("@status" "content-type" "content-digest" "content-length");created=1618884473;keyid="test-key-ecc-p256\""""


def unescaped(text: str) -> str:
    r"""A text of a row with the character that each escape stands for: `\t`, `\n`, `\r`, `\\` or one such as `\xff`."""
    return ESCAPE.sub(lambda match: chr(int(match[1], 16)) if match[1] else {"t": "\t", "n": "\n", "r": "\r", "\\": "\\"}[match[2]], text)


def rows() -> Iterator[tuple[str, spki_http.Message, int, int | None, str]]:
    """The rows: the name, the request, its time in seconds, how many seconds before it the same request came or None, the answer."""
    with open(ROWS, encoding="ascii") as file:
        blocks = [block.splitlines() for block in file.read().split("\n\n") if block.startswith("row ")]
    for lines in blocks:
        columns = [(word, unescaped(rest)) for word, _, rest in (line.partition(" ") for line in lines)]
        # (a row may have several lines `field`, and has at most one of each other word)
        parts = dict(columns)
        method, target, authority, now = parts["on"].split("|")
        fields = [(name, value) for name, _, value in (text.partition(": ") for word, text in columns if word == "field")]
        body = parts["body"].encode("latin-1") if "body" in parts else None
        again = int(parts["again"]) if "again" in parts else None
        yield parts["row"], spki_http.Message(method, authority, target, fields, body), int(now), again, parts["gives"]


def verifier_at(clock: list[int]) -> spki_http.Verifier:
    """The service of the rows, which assume that it started at 1792000000, in seconds since 1970. `clock` is a list of the one time that it reads,
    which the test may change."""
    return spki_http.Verifier("example.com", start=1792000000, now=lambda: clock[0])


def answer(verifier: spki_http.Verifier, message: spki_http.Message) -> str:
    """What the service says of a request: `valid`, or the name of the refusal. `no key` if the proof has none, which no row expects."""
    try:
        proof = verifier.prove(message.method, message.authority, message.target, iter(message.fields), message.body)
    except spki_http.Refused as why:
        return why.name
    return "valid" if proof.key.startswith(b"(10:public-key") else "no key"


def canonical_string(octets: bytes) -> bytes:
    """A string in canonical form."""
    return b"%d:%s" % (len(octets), octets)


def ed25519_signer(private: Ed25519PrivateKey) -> spki_http.Signer:
    """A signer by a key of Ed25519, which sends the certificates CHAIN."""
    def sign(message: bytes) -> bytes:
        signature = private.sign(message)
        return b"(7:sig-val(5:eddsa(1:r%s)(1:s%s)))" % (canonical_string(signature[:32]), canonical_string(signature[32:]))
    public = private.public_key().public_bytes(Encoding.Raw, PublicFormat.Raw)
    return spki_http.Signer(b"(10:public-key(3:ecc(5:curve7:Ed25519)(5:flags5:eddsa)(1:q%s)))" % canonical_string(public), sign, CHAIN)


def curve_signer() -> spki_http.Signer:
    """A signer by a new key of P-256, which sends no certificates."""
    private = ec.generate_private_key(ec.SECP256R1())

    def sign(message: bytes) -> bytes:
        numbers = decode_dss_signature(private.sign(message, ec.ECDSA(SHA256())))
        return b"(7:sig-val(5:ecdsa(1:r%s)(1:s%s)))" % tuple(canonical_string(number.to_bytes(32, "big")) for number in numbers)
    public = private.public_key().public_bytes(Encoding.X962, PublicFormat.UncompressedPoint)
    return spki_http.Signer(b"(10:public-key(3:ecc(5:curve10:NIST P-256)(1:q%s)))" % canonical_string(public), sign)


class Handler(http.server.BaseHTTPRequestHandler):
    """A service that answers the key of a request, or 401 and why it proves none. The test sets `verifier`."""

    verifier: spki_http.Verifier

    def respond(self) -> None:
        """Answers 200 and the key that has signed the request, or 401 and the name of the refusal."""
        body = self.rfile.read(int(self.headers.get("Content-Length", 0)))
        try:
            proof = self.verifier.prove(self.command, self.headers["Host"], self.path, self.headers.items(), body)
        except spki_http.Refused as why:
            self.send_error(401, why.name)
            return
        self.send_response(200)
        self.send_header("Content-Length", str(len(proof.key)))
        self.end_headers()
        self.wfile.write(proof.key)

    do_GET = do_PUT = do_DELETE = respond

    def log_message(self, *words: Any) -> None:
        """Writes no log."""


class Requests(unittest.TestCase):
    """What is accepted and what is refused."""

    # With `again` the same request came so many seconds before, and was valid then. There are over 200 rows if the table was read whole.
    def test_each_row_gets_its_answer(self) -> None:
        table = [*rows()]
        self.assertGreater(len(table), 200)
        for name, message, now, again, gives in table:
            with self.subTest(name):
                clock = [now - (again or 0)]
                verifier = verifier_at(clock)
                if again is not None:
                    self.assertEqual(answer(verifier, message), "valid")
                clock[0] = now
                self.assertEqual(answer(verifier, message), gives)

    # The signature and the base of the example by Ed25519 are made again, and both examples are verified. The first six strings of the parameters are
    # the names of the components.
    def test_examples_of_the_standard(self) -> None:
        private = load_der_private_key(base64.b64decode(PRIVATE), None)
        assert isinstance(private, Ed25519PrivateKey)
        signer = ed25519_signer(private)
        self.assertEqual(base64.b64encode(_fields.octets_of(signer.sign(BASE.encode()))).decode(), SIGNATURE)
        fields = [("Date", "Tue, 20 Apr 2021 02:07:55 GMT"), ("Content-Type", "application/json"), ("Content-Length", "18")]
        message = spki_http.Message("POST", "example.com", "/foo?param=Value&Pet=dog", fields)
        parameters = BASE.rpartition('params": ')[2]
        self.assertEqual(_message.base_of(message, "https", re.findall(r'"([^"]*)"', parameters)[:6], parameters), BASE.encode())
        self.assertTrue(spki_verify.verify_texts(key=signer.key, message=BASE.encode(),
                                                 value=_fields.value_of("ed25519", base64.b64decode(SIGNATURE))))
        public = load_der_public_key(base64.b64decode(P256_PUBLIC)).public_bytes(Encoding.X962, PublicFormat.UncompressedPoint)
        key = b"(10:public-key(3:ecc(5:curve10:NIST P-256)(1:q%s)))" % canonical_string(public)
        self.assertTrue(spki_verify.verify_texts(key=key, message=RESPONSE.encode(),
                                                 value=_fields.value_of("ecdsa-p256-sha256", base64.b64decode(P256_SIGNATURE))))

    def valid_message(self) -> tuple[spki_http.Message, int]:
        """The first row that is valid, and its time."""
        return next((message, now) for _, message, now, _, gives in rows() if gives == "valid")

    def test_verifiers_answer_true_or_false(self) -> None:
        """Every other answer of a verifier is a `TypeError`, also one that Python takes for true."""
        async def later(signature: object) -> bool:
            return True

        message, now = self.valid_message()
        for verify in (lambda signature: 1, lambda signature: "no", lambda signature: None, lambda signature: 0, later):
            verifier = spki_http.Verifier("example.com", start=0, now=lambda: now, verify=verify)  # type: ignore[arg-type]
            with warnings.catch_warnings(), self.assertRaises(TypeError):
                warnings.simplefilter("ignore")
                verifier.check(message)

    def test_a_refusal_is_copied(self) -> None:
        """A process may send it to another one."""
        refused = spki_http.Refused("absent")
        for copied in (copy.copy(refused), pickle.loads(pickle.dumps(refused))):
            self.assertEqual((copied.name, str(copied)), ("absent", "the request proves no key: absent"))

    def test_a_request_without_a_host_is_refused(self) -> None:
        """A request without Host, for which `http.server` has None, is to no name of the service."""
        message, now = self.valid_message()
        for authority in ("", None):
            nameless = dataclasses.replace(message, authority=authority)  # type: ignore[arg-type]
            self.assertEqual(answer(verifier_at([now]), nameless), "other-authority")

    def test_a_nonce_is_not_taken_late(self) -> None:
        """A nonce that is taken after the end of its signature, here 900 seconds later, may have been used before, and be forgotten: it is refused as
        `expired`. 100 seconds later it is not forgotten."""
        message, now = self.valid_message()
        clock = [now]
        verifier = verifier_at(clock)
        self.assertEqual(answer(verifier, message), "valid")
        proof = verifier.check(message)
        for late, wanted in ((100, "nonce-seen"), (900, "expired")):
            clock[0] = now + late
            with self.assertRaises(spki_http.Refused) as refused:
                verifier.take(proof)
            self.assertEqual(refused.exception.name, wanted)

    def test_only_true_of_a_store_counts(self) -> None:
        """A store says by `True` that a nonce is new, and by `False` that it was used. Any other answer is a `TypeError`, also one that Python takes
        for true, and what a store raises is raised. `prove` returns no proof then."""
        async def later(*words: object) -> bool:
            return True

        message, now = self.valid_message()
        words = message.method, message.authority, message.target
        stores: list[tuple[Callable[..., Any], type[Exception]]] = [
            (mock.Mock(return_value=False), spki_http.Refused), (mock.Mock(return_value=None), TypeError), (mock.Mock(return_value=1), TypeError),
            (later, TypeError), (mock.Mock(side_effect=OSError), OSError)]
        for take, wanted in stores:
            verifier = spki_http.Verifier("example.com", start=0, now=lambda: now, nonces=mock.Mock(take=take))
            with warnings.catch_warnings(), self.assertRaises(wanted) as raised:
                warnings.simplefilter("ignore")
                verifier.prove(*words, message.fields, message.body)
            self.assertEqual(getattr(raised.exception, "name", "nonce-seen"), "nonce-seen")
        verifier.nonces = mock.Mock(take=mock.Mock(return_value=True))
        self.assertEqual(answer(verifier, message), "valid")

    def test_a_clock_that_goes_back_shortens_no_nonce(self) -> None:
        """Between `check` and `take` the clock goes back or on. The store gets the later moment: a nonce that it kept from the earlier one could be
        forgotten, and be taken again, while the signature that was accepted is still accepted."""
        message, now = self.valid_message()
        for seconds, wanted in ((-200, now), (0, now), (100, now + 100)):
            clock, store = [now], mock.Mock(take=mock.Mock(return_value=True))
            verifier = spki_http.Verifier("example.com", start=0, now=lambda: clock[0], nonces=store)
            proof, clock[0] = verifier.check(message), now + seconds
            verifier.take(proof)
            store.take.assert_called_once_with(proof.key, proof.nonce, wanted, 360)

    def test_start_by_a_clock_that_was_behind(self) -> None:
        """A service starts while its clock is ten minutes behind, and the clock is put right ten seconds later. What was created before the start by
        the right clock is refused, since a service before this one may have answered it. A row has how many seconds the clock is put forward, 0 if it
        was right, and how many seconds old the request is then."""
        signer, monotonic = curve_signer(), 5000.0
        with mock.patch("time.monotonic", lambda: monotonic):
            verifier = spki_http.Verifier("example.com")
            started, monotonic = verifier.start, monotonic + 10
            for forward, before, wanted in ((0, 9, "valid"), (0, 11, "before-start"), (600, 9, "valid"), (600, 11, "before-start"),
                                            (600, 200, "before-start")):
                moment = started + 10.5 + forward
                verifier.now = lambda: moment
                with mock.patch("time.time", lambda: moment - before):
                    fields = signer.fields("GET", "https://example.com/a")
                message = spki_http.Message("GET", "example.com", "/a", fields.items(), b"")
                self.assertEqual(answer(verifier, message), wanted, (forward, before))

    # Each nonce is kept for 360 s at least, in two sets of at most 2 nonces. `now` is in seconds. A young set begins at 1000, 1360, 1720 and 3000.
    # The one before it is then the old set, and is dropped at 3000, since it is over 720 s old. At 900, 1740 and 2999 the clock has gone back: by
    # over a second no nonce is taken, also not that of 1720, which was dropped.
    def test_nonces_are_kept_in_two_sets(self) -> None:
        store = spki_http.Memory(2)
        for nonce, now, wanted in (
            ("a", 1000, ""), ("a", 1000, "nonce-seen"), ("b", 1100, ""), ("c", 1359, "store-full"), ("b", 1359, "nonce-seen"), ("c", 1360, ""),
            ("a", 1360, "nonce-seen"), ("b", 1459, "nonce-seen"), ("d", 900, "before-start"), ("c", 1719, "nonce-seen"),
            ("a", 1720, ""), ("c", 1720, "nonce-seen"), ("c", 3000, ""), ("a", 1740, "before-start"), ("d", 2999, ""), ("a", 3000, "store-full"),
        ):
            refusal = ""
            try:
                store.take(b"key", nonce, now, 360)
            except spki_http.Refused as why:
                refusal = why.name
            self.assertEqual(refusal, wanted, (nonce, now))


class Clients(unittest.TestCase):
    """Clients and a server."""

    def setUp(self) -> None:
        """Starts a server, which ends with the test, and makes an address there and two signers."""
        self.server = http.server.ThreadingHTTPServer(("127.0.0.1", 0), Handler)
        self.name = f"127.0.0.1:{self.server.server_port}"
        Handler.verifier = spki_http.Verifier(self.name, scheme="http")
        thread = threading.Thread(target=self.server.serve_forever)
        thread.start()
        self.addCleanup(thread.join)
        self.addCleanup(self.server.server_close)
        self.addCleanup(self.server.shutdown)
        self.url = f"http://{self.name}/a%20b/%7ec?d=e+f"
        self.signers = [ed25519_signer(Ed25519PrivateKey.generate()), curve_signer()]

    def check_requests(self, send: Callable[[spki_http.Signer, str, bytes | None], bytes]) -> None:
        """Has `send(signer, method, body)` send requests of each signer. `send` returns the server's answer, which must be the signer's key."""
        for signer in self.signers:
            for method, body in (("GET", None), ("PUT", b"some octets"), ("PUT", b""), ("DELETE", None)):
                self.assertEqual(send(signer, method, body), signer.key, method)

    def test_numbers_of_signatures_get_their_share(self) -> None:
        """A number of a signature gets its share of the octets, with fewer or more octets 00 in front; the halves of Ed25519 are no numbers. Without
        a length the strings stay as they are."""
        def value(kind: bytes, *strings: bytes) -> bytes:
            return b"(7:sig-val(5:%b(1:r%d:%b)(1:s%d:%b)))" % (kind, len(strings[0]), strings[0], len(strings[1]), strings[1])

        for numbers in ((b"r" * 31, b"s" * 32), (b"\0" + b"r" * 31, b"s" * 32), (b"\0\0" + b"r" * 31, b"\0" + b"s" * 32)):
            self.assertEqual(spki_http.octets_of(value(b"ecdsa", *numbers), 64), b"\0" + b"r" * 31 + b"s" * 32)
        self.assertEqual(spki_http.octets_of(value(b"ecdsa", b"r" * 31, b"s" * 31), 64), b"\0" + b"r" * 31 + b"\0" + b"s" * 31)
        self.assertEqual(spki_http.octets_of(value(b"eddsa", b"\0" * 32, b"s" * 32), 64), b"\0" * 32 + b"s" * 32)
        self.assertEqual(spki_http.octets_of(b"(7:sig-val(3:rsa(1:s3:\0ab)))", 4), b"\0\0ab")
        self.assertEqual(spki_http.octets_of(value(b"ecdsa", b"\0r", b"ss")), b"\0rss")

    def test_named_fields_are_covered_once(self) -> None:
        """The signature covers a field that the caller names, once, also if it is named twice or must be covered anyway. A name that the request has
        no field of is refused, also if the field must be covered where it is there. So is a name in capital letters."""
        signer, own_fields = curve_signer(), [("X-Job", "7")]
        fields = signer.fields("PUT", "https://files.example.org/a", b"x", own_fields, ["x-job", "x-job", "content-digest", "x-spki-public-key"])
        covered = fields["Signature-Input"].partition(")")[0]
        self.assertEqual([covered.count(f'"{name}"') for name in ("x-job", "content-digest", "x-spki-public-key")], [1, 1, 1])
        for absent in "x-jobs", "X-Job", "content-digest":
            with self.assertRaisesRegex(ValueError, absent):
                signer.fields("GET", "https://files.example.org/a", b"", own_fields, ["x-job", absent])

    def test_what_cannot_be_signed(self) -> None:
        """An address or a method that cannot be signed is a `ValueError`, such as one with the sign of kelvin, which is no ASCII: in
        small letters it is k."""
        for method, url in (("GET", "https://a.example/b c"), ("GET", "https://a.example/\u212a"), ("G T", "https://a.example/"),
                            ("", "https://a.example/"), ("\u212a", "https://a.example/"), ("GET", "ftp://a.example/"),
                            ("GET", "https://a:b@a.example/"), ("GET", "/b")):
            with self.subTest(url), self.assertRaises(ValueError):
                curve_signer().fields(method, url)

    # Requests by `urllib`, also one object that two signers sign in turn, and one to a host that the handler does not sign for.
    def test_handler_signs_requests_of_urllib(self) -> None:
        def send(signer: spki_http.Signer, method: str, body: bytes | None) -> bytes:
            opener = urllib.request.build_opener(urllib.request.ProxyHandler({}), spki_http.Handler(signer, self.name))
            with opener.open(urllib.request.Request(self.url, body, method=method)) as response:
                return bytes(response.read())
        self.check_requests(send)
        again = urllib.request.Request(self.url, b"some octets", method="PUT")
        for signer in self.signers:
            with urllib.request.build_opener(urllib.request.ProxyHandler({}), spki_http.Handler(signer, self.name)).open(again) as response:
                self.assertEqual(response.read(), signer.key)
        with self.assertRaises(urllib.error.HTTPError) as raised:
            urllib.request.build_opener(urllib.request.ProxyHandler({}), spki_http.Handler(self.signers[0], "example.com")).open(self.url)
        self.assertEqual((raised.exception.code, raised.exception.reason), (401, "absent"))
        raised.exception.close()

    def test_handler_signs_nothing_by_http_after_https(self) -> None:
        """A request to https is signed, and that by http to which it is redirected is not, though it goes to the same host and port."""
        first: list[urllib.request.Request] = []
        target = self.url

        class Redirecting(urllib.request.HTTPSHandler):
            """Answers each request by https with a redirection to the service, which is by http."""

            def https_open(self, request: urllib.request.Request) -> urllib.response.addinfourl:  # type: ignore[override]
                """The redirection, as an answer that `urllib` follows."""
                first.append(request)
                response = urllib.response.addinfourl(io.BytesIO(), email.message_from_string(f"Location: {target}\n\n"), request.full_url, 302)
                response.msg = "Found"  # type: ignore[attr-defined]
                return response

        opener = urllib.request.build_opener(urllib.request.ProxyHandler({}), Redirecting, spki_http.Handler(self.signers[0], self.name))
        with self.assertRaises(urllib.error.HTTPError) as raised:
            opener.open(f"https://{self.name}/a")
        self.assertEqual((raised.exception.code, raised.exception.reason), (401, "absent"))
        raised.exception.close()
        self.assertTrue(first[0].has_header("Signature"))

    def test_auth_signs_requests(self) -> None:
        """`Auth` signs a request like that of `requests`, which has `body`, and one like that of `httpx`, which has `content`. It adds nothing to one
        for another host, and refuses a stream."""
        class Prepared:
            def __init__(self, method: str, url: str, body: bytes | str | None, has_content: bool) -> None:
                # (99 is wrong: a length is not signed)
                self.method, self.url, self.headers = method, url, {"Accept": "*/*", "Content-Length": "99"}
                setattr(self, "content" if has_content else "body", body)

        for has_content in (False, True):
            def send(signer: spki_http.Signer, method: str, body: bytes | None) -> bytes:
                prepared = spki_http.Auth(signer, self.name)(Prepared(method, self.url, body, has_content))
                # (urllib sets the right one)
                del prepared.headers["Content-Length"]
                opener = urllib.request.build_opener(urllib.request.ProxyHandler({}))
                with opener.open(urllib.request.Request(prepared.url, body, prepared.headers, method=method)) as response:
                    return bytes(response.read())
            self.check_requests(send)
            other = spki_http.Auth(self.signers[0], "example.com")(Prepared("GET", self.url, None, has_content))
            self.assertEqual({*other.headers}, {"Accept", "Content-Length"})
        with self.assertRaises(TypeError):
            spki_http.Auth(self.signers[0], self.name)(Prepared("PUT", self.url, iter(()), has_content=False))  # type: ignore[arg-type]
        # (a string is sent as it was signed)
        prepared = spki_http.Auth(self.signers[0], self.name)(Prepared("PUT", self.url, "\u00e9", has_content=False))
        self.assertEqual((prepared.body, prepared.headers["Content-Digest"]), (b"\xc3\xa9", spki_http.content_digest(b"\xc3\xa9")))
        # (a name and an address may both have the port of the scheme, or one of them)
        for name, address in (("a.example", "https://A.example:443/"), ("a.example:443", "https://a.example/"),
                              ("a.example:443", "https://a.example:443/")):
            self.assertIn("Signature", spki_http.Auth(self.signers[0], name)(Prepared("GET", address, None, has_content=False)).headers)


if __name__ == "__main__":
    unittest.main()
