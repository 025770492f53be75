#!/usr/bin/env python3
"""Makes the table `bindings/go/httpsig/testdata/rows`: signed requests, valid ones and attacks, which the verifiers of all languages read.

It signs by `cryptography`, and writes each signature base by hand, as RFC 9421 has it: nothing here is of the verifiers. Alice's key is that of the
RFC's appendix B. The other keys are new in each run, so the table changes with each. `row(name, gives, sent, signature)` adds a row: what a verifier
must answer to the request `sent` with these fields of a signature, by default its own.

A row has these lines. A tab, a line feed, a carriage return and a backslash in them are `\\t`, `\\n`, `\\r`, `\\\\`, another octet is `\\xHH`:

    row NAME
    on METHOD|TARGET|AUTHORITY|NOW           the service is https://example.com, started at 1792000000
    field NAME: VALUE                        in the order in which they are sent
    body TEXT                                if the body is known
    again SECONDS                            the same came so many seconds before, and was valid
    gives NAME                               `valid`, or the refusal"""
from __future__ import annotations

import base64
import hashlib
import os
from collections.abc import Callable
from dataclasses import dataclass, field, replace
from typing import Optional

from cryptography.hazmat.primitives.asymmetric import ec, padding, rsa
from cryptography.hazmat.primitives.asymmetric.ed25519 import Ed25519PrivateKey
from cryptography.hazmat.primitives.asymmetric.utils import decode_dss_signature, encode_dss_signature
from cryptography.hazmat.primitives.hashes import SHA256, SHA384
from cryptography.hazmat.primitives.serialization import Encoding, PublicFormat, load_der_private_key

# (Go keeps what a test of a package found until a file below the module changes)
ROWS = os.path.join("..", "..", "bindings", "go", "httpsig", "testdata", "rows")
NOW = 1792000100
TEST_KEY = base64.b64decode("MC4CAQAwBQYDK2VwBCIEIJ+DYvh6SEqVTm50DFtMDoQikTmiCqirVv9mWG9qfSnF")
ORDER_256 = 0xFFFFFFFF00000000FFFFFFFFFFFFFFFFBCE6FAADA7179E84F3B9CAC2FC632551
ORDER_384 = 0xFFFFFFFFFFFFFFFFFFFFFFFFFFFFFFFFFFFFFFFFFFFFFFFFC7634D81F4372DDF581A0DB248B0A77AECEC196ACCC52973
ORDER_25519 = 2**252 + 27742317777372353535851937790883648493
KEY = "x-spki-public-key"
PLAIN = ("@method", "@authority", "@path", "@query", KEY)
CHAIN = "{KDg6c2VxdWVuY2Up}"
Fields = list[tuple[str, str]]


def string(octets: bytes) -> bytes:
    """Octets as a string in canonical form."""
    return b"%d:%s" % (len(octets), octets)


def in_base64(octets: bytes) -> str:
    """Octets in base64, padded."""
    return base64.b64encode(octets).decode()


@dataclass
class Key:
    """A key pair: the canonical text of the public key, the value of the parameter `alg` for it, and the function that signs a message with it."""

    text: bytes
    algorithm: str
    sign: Callable[[bytes], bytes]


def ed25519(private: Ed25519PrivateKey) -> Key:
    """The `Key` of a private key of Ed25519."""
    octets = private.public_key().public_bytes(Encoding.Raw, PublicFormat.Raw)
    return Key(b"(10:public-key(3:ecc(5:curve7:Ed25519)(5:flags5:eddsa)(1:q%s)))" % string(octets), "ed25519", private.sign)


def ecdsa(private: ec.EllipticCurvePrivateKey, bits: int, digest: SHA256 | SHA384) -> Key:
    """The `Key` of a private key of ECDSA on NIST P-`bits`. It hashes by `digest`, whatever `alg` says. A signature is r and s side by side."""
    def sign(message: bytes) -> bytes:
        """The signature of a message: its two numbers, each in as many octets as the curve has."""
        return b"".join(number.to_bytes(bits // 8, "big") for number in decode_dss_signature(private.sign(message, ec.ECDSA(digest))))
    octets = private.public_key().public_bytes(Encoding.X962, PublicFormat.UncompressedPoint)
    return Key(b"(10:public-key(3:ecc(5:curve10:NIST P-%d)(1:q%s)))" % (bits, string(octets)), f"ecdsa-p{bits}-sha{bits}", sign)


def rsa2048(private: rsa.RSAPrivateKey) -> Key:
    """The `Key` of a private key of RSA of 2,048 bits. Its modulus has 257 octets, with an octet 00 in front, as a key's text requires."""
    n = private.public_key().public_numbers().n
    text = b"(10:public-key(3:rsa(1:n%s)(1:e3:\1\0\1)))" % string(n.to_bytes(257, "big"))
    return Key(text, "rsa-v1_5-sha256", lambda message: private.sign(message, padding.PKCS1v15(), SHA256()))


def test_key() -> Ed25519PrivateKey:
    """The private key `test-key-ed25519` of RFC 9421, appendix B.1.4."""
    private = load_der_private_key(TEST_KEY, None)
    assert isinstance(private, Ed25519PrivateKey)
    return private


ALICE, MALLORY = ed25519(test_key()), ed25519(Ed25519PrivateKey.generate())
P256, RSA = ecdsa(ec.generate_private_key(ec.SECP256R1()), 256, SHA256()), rsa2048(rsa.generate_private_key(65537, 2048))
P384_PRIVATE = ec.generate_private_key(ec.SECP384R1())
P384, P384_BY_SHA256 = ecdsa(P384_PRIVATE, 384, SHA384()), ecdsa(P384_PRIVATE, 384, SHA256())


@dataclass
class Request:
    """A request, signed by `key`. The signature covers `components`. Times are seconds since 1970, and `now` is that at which the request comes. If
    `keyid` or `algorithm` is None, it is that of `key`."""

    method: str = "GET"
    target: str = "/foo?param=Value&Pet=dog"
    authority: str = "example.com"
    fields: Fields = field(default_factory=list)
    body: Optional[str] = None
    now: int = NOW
    components: tuple[str, ...] = PLAIN
    created: str = str(NOW)
    expires: str = str(NOW + 300)
    nonce: str = "sFzj0lYlX0wQm6ZCXPBvTw"
    keyid: Optional[str] = None
    algorithm: Optional[str] = None
    tag: str = "spki"
    # The values of the field with the key, one for each line. None: one line, with `key`.
    keys: Optional[tuple[str, ...]] = None
    # The components with all parameters, in place of those that the fields above make.
    parameters: Optional[str] = None
    key: Key = field(default_factory=lambda: ALICE)


def in_braces(octets: bytes) -> str:
    """The transport form of a text in canonical form."""
    return "{%s}" % in_base64(octets)


def hash_of(key: bytes) -> str:
    """The SHA-256 of a key's text, in hexadecimal digits, as `keyid` has it."""
    return hashlib.sha256(key).hexdigest()


def unsigned_fields(request: Request) -> Fields:
    """The fields of a request without Signature-Input and Signature: those of `fields`, and X-Spki-Public-Key."""
    keys = request.keys if request.keys is not None else (in_braces(request.key.text),)
    return [*request.fields, *(("X-Spki-Public-Key", key) for key in keys)]


def parameters_of(request: Request) -> str:
    """The value of Signature-Input without its label: the components and their parameters."""
    if request.parameters is not None:
        return request.parameters
    names = " ".join(f'"{name}"' for name in request.components)
    keyid = request.keyid if request.keyid is not None else hash_of(request.key.text)
    algorithm = request.algorithm if request.algorithm is not None else request.key.algorithm
    return (f'({names});created={request.created};expires={request.expires};nonce="{request.nonce}";keyid="{keyid}";alg="{algorithm}"'
            f';tag="{request.tag}"')


def value_of(request: Request, name: str) -> str:
    """The value of a component in the signature base: for a name with `@` a part of the request, else the field's values with `, ` between."""
    path, mark, query = request.target.partition("?")
    derived = {"@method": request.method, "@authority": request.authority.lower(), "@path": path, "@query": "?" + query, "@status": "200",
               "@target-uri": f"https://{request.authority}{path}{mark}{query}", "@scheme": "https", "@request-target": request.target}
    values = (value for field_name, value in unsigned_fields(request) if field_name.lower() == name)
    return derived[name] if name.startswith("@") else ", ".join(values)


def signed(request: Request) -> Fields:
    """The fields Signature-Input and Signature, by which a request is signed. The signature base, which is what the key signs, has a line for each
    component between the parentheses of the parameters, and one for the parameters (RFC 9421, section 2.5)."""
    parameters = parameters_of(request)
    names = [part.split('"')[1] for part in parameters[1:].partition(")")[0].split(" ") if part]
    lines = [f'"{name}": {value_of(request, name)}' for name in names] + [f'"@signature-params": {parameters}']
    signature = request.key.sign("\n".join(lines).encode())
    return [("Signature-Input", f"spki={parameters}"), ("Signature", f"spki=:{in_base64(signature)}:")]


def escaped(text: str) -> str:
    """A text with the escapes of the table, in printable ASCII alone. Its characters are octets, as of Latin-1."""
    text = text.replace("\\", "\\\\").replace("\t", "\\t").replace("\n", "\\n").replace("\r", "\\r")
    return "".join(character if " " <= character <= "~" else f"\\x{ord(character):02x}" for character in text)


LINES: list[str] = []


def row(name: str, gives: str, sent: Request, signature: Optional[Fields] = None, again: Optional[int] = None) -> None:
    """Adds the lines of a row to LINES. `gives` is what a verifier must answer, `valid` or a refusal. `signature` are the fields Signature-Input and
    Signature that are sent: by default those of `sent` itself. `again`: the same request came so many seconds before, and was valid."""
    signature = signed(sent) if signature is None else signature
    LINES.extend([f"row {name}", f"on {escaped(f'{sent.method}|{sent.target}|{sent.authority}|{sent.now}')}"])
    LINES.extend(f"field {escaped(f'{field_name}: {value}')}" for field_name, value in [*unsigned_fields(sent), *signature])
    LINES.extend([f"body {escaped(sent.body)}"] if sent.body is not None else [])
    LINES.extend([f"again {again}"] if again is not None else [])
    LINES.extend([f"gives {gives}", ""])


def digest(body: str, algorithm: str = "sha-256") -> tuple[str, str]:
    """The name and the value of the field Content-Digest for a body."""
    octets = hashlib.new(algorithm.replace("-", ""), body.encode()).digest()
    return "Content-Digest", f"{algorithm}=:{in_base64(octets)}:"


BODY = '{"hello": "world"}'
GET = Request()
POST = Request("POST", fields=[digest(BODY), ("Content-Length", "18")], body=BODY, components=(*PLAIN, "content-digest"))
CHAINED = Request(fields=[("X-Spki-Sequence", CHAIN)], components=(*PLAIN, "x-spki-sequence"))
AUTHORIZED = Request(fields=[("Authorization", "SPKI " + CHAIN)], components=(*PLAIN, "authorization"))
LEAVE = Request("PUT", "/.well-known/spki-chain", fields=[digest(CHAIN), ("Content-Length", str(len(CHAIN)))], body=CHAIN, components=POST.components)
WITH_ACCEPT = Request(fields=[("Accept", "text/html")], components=(*PLAIN, "accept"))
WITH_URI = Request(components=("@method", "@authority", "@target-uri", KEY))


def valid_requests() -> None:
    """Requests that are valid, some of them changed behind the signature in what does not count."""
    more = [f"x-{number}" for number in range(27)]  # (with the 5 of PLAIN these are 32 components, as many as are allowed)
    for name, request in {
        "Ed25519": GET, "ECDSA": Request(key=P256), "ECDSA with P-384": Request(key=P384), "RSA": Request(key=RSA), "target-uri": WITH_URI,
        "ECDSA with P-384 and a body": replace(POST, key=P384), "a body with its digest": POST,
        "a body that is not known": replace(POST, body=None), "a digest by SHA-512": replace(POST, fields=[digest(BODY, "sha-512")]),
        "DELETE with the digest of nothing": Request("DELETE", fields=[digest("")], components=POST.components),
        "a chain in its own field": CHAINED, "a chain in Authorization": AUTHORIZED, "another field is covered": WITH_ACCEPT,
        "no query": Request(target="/foo"), "the root": Request(target="/"), "a path in percent-encoding": Request(target="/%7efoo%2Fbar"),
        "created 60 seconds ahead": Request(created=str(NOW + 60)), "a second before its end": Request(now=NOW + 299),
        "components in another order": Request(components=PLAIN[::-1]), "certificates that are left": LEAVE,
        "certificates that are left, of which the digest alone is known": replace(LEAVE, body=None),
        "certificates that are left by P-384": replace(LEAVE, key=P384),
        "32 components": Request(fields=[(name, "1") for name in more], components=(*PLAIN, *more)),
    }.items():
        row(name, "valid", request)
    row("an empty query is none", "valid", replace(GET, target="/foo?"), signed(Request(target="/foo")))
    row("the scheme's port", "valid", replace(GET, authority="example.com:443"), signed(GET))
    row("a name in capitals", "valid", replace(GET, authority="Example.COM"), signed(GET))
    row("names of fields in other letters", "valid", replace(CHAINED, fields=[("x-spki-SEQUENCE", CHAIN)]),
        [(name.upper(), value) for name, value in signed(CHAINED)])
    row("spaces around values", "valid", replace(CHAINED, fields=[("X-Spki-Sequence", f" \t{CHAIN} ")]),
        [(name, f" {value}\t") for name, value in signed(CHAINED)])
    row("a space and a tab around the key", "valid", Request(keys=(f" {in_braces(ALICE.text)}\t",)), signed(GET))
    row("parameters in another order", "valid", Request(
        parameters=f'("@method" "@authority" "@path" "@query" "{KEY}");tag="spki";alg="ed25519";keyid="{hash_of(ALICE.text)}"'
        f';nonce="sFzj0lYlX0wQm6ZCXPBvTw";expires={NOW + 1};created={NOW}'))


def changed_requests() -> None:
    """Requests that are changed after they were signed, and some whose authority, method or target is refused in itself."""
    # (`get` is another method than `GET`, and all but GET and HEAD need a digest of the body)
    row("a method in small letters", "body-without-digest", replace(GET, method="get"), signed(GET))
    for name, sent in {
        "another method": replace(GET, method="HEAD"), "another path": replace(GET, target="/bar?param=Value&Pet=dog"),
        "a path in capitals": replace(GET, target="/FOO?param=Value&Pet=dog"), "no query any more": replace(GET, target="/foo"),
        "a slash at the end": replace(GET, target="/foo/?param=Value&Pet=dog"), "two slashes": replace(GET, target="//foo?param=Value&Pet=dog"),
        "a segment of a dot": replace(GET, target="/./foo?param=Value&Pet=dog"),
        "a letter in percent-encoding": replace(GET, target="/%66oo?param=Value&Pet=dog"),
        "another query": replace(GET, target="/foo?param=Value&Pet=cat"), "a longer query": replace(GET, target="/foo?param=Value&Pet=dog&x=1"),
        "parameters of the query in another order": replace(GET, target="/foo?Pet=dog&param=Value"),
    }.items():
        row(name, "invalid-signature", sent, signed(GET))
    row("digits of percent-encoding in small letters", "invalid-signature", Request(target="/%7efoo"), signed(Request(target="/%7Efoo")))
    row("a query with target-uri", "invalid-signature", replace(WITH_URI, target="/foo?"), signed(replace(WITH_URI, target="/foo")))
    row("http's port in target-uri", "invalid-signature", WITH_URI, signed(replace(WITH_URI, authority="example.com:80")))
    row("made for another name", "other-authority", replace(GET, authority="evil.example"))
    row("made for another name, sent with ours", "invalid-signature", GET, signed(replace(GET, authority="evil.example")))
    for name, authority in {"made for ours, sent with another name": "evil.example", "another port": "example.com:8443",
                            "http's port": "example.com:80", "a dot behind the name": "example.com.", "no name": ""}.items():
        row(name, "other-authority", replace(GET, authority=authority), signed(GET))
    for name, method in {"a method of nothing": "", "a method with a space": "GET ", "a method with an octet over ASCII": "G\xe9T",
                         "a method with a line feed": 'GET\n"@authority": example.com'}.items():
        row(name, "bad-method", replace(GET, method=method), signed(GET))
    row("a star in the first line", "bad-target", Request("OPTIONS", target="*"))
    for name, target in {"the whole address in the first line": "https://example.com/foo", "a target of nothing": "", "a fragment": "/foo#bar",
                         "a space in the target": "/foo bar", "a line feed in the target": '/foo\n"@query": ?',
                         "an octet over ASCII in the target": "/f\xe9"}.items():
        row(name, "bad-target", replace(GET, target=target))


def changed_bodies() -> None:
    """Bodies and digests that are changed, missing or not those of the profile, and beside them one request that is valid."""
    digest_of_other = [digest(BODY + "!"), ("Content-Length", "18")]
    row("another body", "other-digest", replace(POST, body='{"hello": "wurld"}'), signed(POST))
    row("no body any more", "other-digest", replace(POST, body=""), signed(POST))
    row("another body with its digest", "invalid-signature", replace(POST, fields=digest_of_other, body=BODY + "!"), signed(POST))
    row("a digest taken away", "absent-field", replace(POST, fields=[]), signed(POST))
    row("a digest not covered", "uncovered-field", replace(POST, components=PLAIN))
    row("a digest twice", "repeated-field", replace(POST, fields=[digest(BODY), digest("")]), signed(POST))
    for name, request in {
        "POST without a digest": Request("POST"), "PUT without a digest": Request("PUT"), "DELETE without a digest": Request("DELETE"),
        "an unknown method without a digest": Request("FROB"), "GET with a length": replace(GET, fields=[("Content-Length", "18")]),
        "GET with chunks": replace(GET, fields=[("Transfer-Encoding", "chunked")]),
        "GET with an empty length": replace(GET, fields=[("Content-Length", "")]),
    }.items():
        row(name, "body-without-digest", request)
    row("GET with a length of nothing", "valid", replace(GET, fields=[("Content-Length", "0")]))
    encoded = in_base64(hashlib.sha256(BODY.encode()).digest())
    for name, value in {
        "a digest by MD5": "md5=:XrY7u+Ae7tCTyyK7j1rNww==:", "a digest that is too short": "sha-256=:XrY7u+Ae7tCTyyK7j1rNww==:",
        "SHA-512 of 32 octets": f"sha-512=:{encoded}:", "two digests": f"sha-256=:{encoded}:, sha-256=:{encoded}:", "an empty digest": "",
        "a digest in quotes": f'sha-256="{encoded}"', "a digest without padding": f"sha-256=:{encoded[:-1]}:",
        "a digest with a parameter": f"sha-256=:{encoded}:;a", "a digest's algorithm in capitals": f"SHA-256=:{encoded}:",
    }.items():
        row(name, "bad-digest", replace(POST, fields=[("Content-Digest", value)]))


def changed_certificates() -> None:
    """Certificates that a client leaves at the service: changed, left in another way, or sent again."""
    row("other certificates left", "other-digest", replace(LEAVE, body=CHAIN[:-2] + "=}"), signed(LEAVE))
    row("no certificates left", "other-digest", replace(LEAVE, body=""), signed(LEAVE))
    row("other certificates left, with their digest", "invalid-signature", replace(LEAVE, fields=[digest("(sequence)")], body="(sequence)"),
        signed(LEAVE))
    row("certificates left with a query put in", "invalid-signature", replace(LEAVE, target=LEAVE.target + "?y"), signed(LEAVE))
    row("certificates left in another place", "invalid-signature", replace(LEAVE, target=LEAVE.target.replace("chain", "chains")), signed(LEAVE))
    row("certificates left by POST", "invalid-signature", replace(LEAVE, method="POST"), signed(LEAVE))
    row("certificates left without a digest", "body-without-digest", replace(LEAVE, fields=[], components=PLAIN))
    row("certificates left with a digest that is not covered", "uncovered-field", replace(LEAVE, components=PLAIN))
    row("certificates left by another key", "invalid-signature", replace(LEAVE, keys=(in_braces(MALLORY.text),)), [
        (name, value.replace(hash_of(ALICE.text), hash_of(MALLORY.text))) for name, value in signed(LEAVE)])
    row("certificates left at another service", "invalid-signature", LEAVE, signed(replace(LEAVE, authority="evil.example")))
    row("certificates left twice", "nonce-seen", LEAVE, again=0)


def changed_fields() -> None:
    """Chains and covered fields that are changed, put in, doubled or taken away, or have octets that no field may have."""
    row("another chain", "invalid-signature", replace(CHAINED, fields=[("X-Spki-Sequence", "{KDE6YSk=}")]), signed(CHAINED))
    row("a chain taken away", "absent-field", replace(CHAINED, fields=[]), signed(CHAINED))
    row("a chain put in", "uncovered-field", replace(CHAINED, components=PLAIN))
    row("a chain twice", "repeated-field", replace(CHAINED, fields=2 * CHAINED.fields), signed(CHAINED))
    row("a second chain put in", "uncovered-field", replace(CHAINED, fields=[*CHAINED.fields, *AUTHORIZED.fields]), signed(CHAINED))
    row("another chain in Authorization", "invalid-signature", replace(AUTHORIZED, fields=[("Authorization", "SPKI {KDE6YSk=}")]), signed(AUTHORIZED))
    row("Authorization put in", "uncovered-field", replace(AUTHORIZED, components=PLAIN))
    row("a covered field changed", "invalid-signature", replace(WITH_ACCEPT, fields=[("Accept", "text/plain")]), signed(WITH_ACCEPT))
    row("a covered field in other letters", "invalid-signature", replace(WITH_ACCEPT, fields=[("Accept", "Text/html")]), signed(WITH_ACCEPT))
    row("a covered field taken away", "absent-field", replace(WITH_ACCEPT, fields=[]), signed(WITH_ACCEPT))
    row("a covered field in two lines", "repeated-field", replace(WITH_ACCEPT, fields=[("Accept", "text/html"), ("Accept", "b")]))
    row("a space put into a covered field", "invalid-signature", replace(WITH_ACCEPT, fields=[("Accept", "text/ html")]), signed(WITH_ACCEPT))
    for name, value in {"a folded field": "text/html,\r\n b", "a line feed in a field": 'text/html\n"x": y',
                        "an octet over ASCII in a field": "text/h\xe9", "a null octet in a field": "text\0"}.items():
        row(name, "bad-value", replace(WITH_ACCEPT, fields=[("Accept", value)]))


def changed_inputs() -> None:
    """`Signature-Input` and `Signature` that are missing, changed or not those of the profile."""
    fields = signed(GET)
    text, valid_signature = (value for _, value in fields)  # (`text` is Signature-Input of GET, which the rows change)
    bare = text.removeprefix("spki=")

    def add_row(name: str, gives: str, changed: str, signature: str = valid_signature) -> None:
        """Adds a row in which GET has the Signature-Input `changed`, and the Signature `signature`, by default the valid one."""
        row(name, gives, GET, [("Signature-Input", changed), ("Signature", signature)])

    row("no signature", "absent", GET, [])
    row("underscores in names of fields", "absent", GET, [(name.replace("-", "_") + "_", value) for name, value in fields])
    row("Signature alone", "malformed", GET, fields[1:])
    row("Signature-Input alone", "malformed", GET, fields[:1])
    row("Signature in two lines", "repeated-field", GET, [*fields, fields[1]])
    row("Signature-Input in two lines", "repeated-field", GET, [*fields, fields[0]])
    add_row("a second signature", "two-signatures", f"{text}, a={bare}", f"{valid_signature}, a=:AAAA:")
    add_row("a second signature of the same label", "two-signatures", f"{text},{text}", f"{valid_signature},{valid_signature}")
    add_row("a second value of Signature alone", "two-signatures", text, f"{valid_signature}, spki=:AAAA:")
    add_row("a signature of another label before it", "other-label", f"a={bare}, {text}", f"a=:AAAA:, {valid_signature}")
    add_row("another label", "other-label", f"sig1={bare}", valid_signature.replace("spki", "sig1"))
    add_row("labels that differ", "other-label", text, valid_signature.replace("spki", "spkj"))
    add_row("an empty Signature-Input", "malformed", "")
    add_row("an empty Signature", "malformed", text, "")
    for name, changed in {
        "no list of components": "spki;created=1", "text behind the parameters": text + " x", "a space in the list": text.replace("(", "( "),
        "a space behind a semicolon": text.replace(";expires", "; expires"), "a space before a semicolon": text.replace(";expires", " ;expires"),
        "spaces around an equals sign": text.replace("nonce=", "nonce = "), "two spaces between components": text.replace('" "', '"  "', 1),
        "a tab between components": text.replace('" "', '"\t"', 1), "a component without quotes": text.replace('"@path"', "@path"),
        "a line feed in Signature-Input": text.replace('" "', '"\n"', 1), "an octet over ASCII in a parameter": text.replace("sFzj", "s\xe9zj"),
        "a list that does not end": text.partition(")")[0], "a string that does not end": text[:-1],
        "a name of a parameter in capitals": text.replace(";alg", ";Alg"),
        # (28 new ones beside the 5 of PLAIN: one more than 32)
        "33 components": text.replace('("', "(" + "".join(f'"x-{number}" ' for number in range(28)) + '"'),
        "a Signature-Input of over 8,192 octets": text.replace('";alg', "A" * 8192 + '";alg'),
    }.items():
        add_row(name, "malformed", changed)
    add_row("components changed in order", "invalid-signature", text.replace('"@method" "@authority"', '"@authority" "@method"'))
    add_row("another value of a parameter", "invalid-signature", text.replace("sFzj", "tFzj"))
    add_row("an earlier end", "invalid-signature", text.replace(f"expires={NOW + 300}", f"expires={NOW + 299}"))
    add_row("parameters changed in order", "invalid-signature", text.replace(';tag="spki"', "").replace(";created", ';tag="spki";created'))


def changed_components() -> None:
    """Components of a signature that are left out, come twice, or are not those of the profile, and beside them one request that is valid."""
    for name in PLAIN:
        row(f"{name} left out", "missing-component", Request(components=tuple(other for other in PLAIN if other != name)))
    row("no components", "missing-component", Request(components=()))
    row("path alone beside target-uri", "valid", Request(components=(*WITH_URI.components, "@path")))
    row("a component twice", "component-twice", Request(components=(*PLAIN, "@path")))
    for name in ("@status", "@scheme", "@request-target"):
        row(f"the component {name}", "unknown-component", Request(components=(*PLAIN, name)))
    (_, text), signature = signed(GET)
    for name, component in {"a component with a parameter": '"@path";req', "a component in capitals": '"@PATH"', "an empty component": '""',
                            "the component signature": '"signature"', "the component @query-param": '"@query-param";name="a"'}.items():
        row(name, "unknown-component", GET, [("Signature-Input", text.replace('"@path"', component)), signature])


def changed_parameters() -> None:
    """Parameters that are left out, come twice or are not those of the profile or of the key, and requests outside their window."""
    for name in ("created", "expires", "nonce", "keyid", "alg", "tag"):
        parameters = parameters_of(GET).split(";")
        others = [parameter for parameter in parameters if not parameter.startswith(name)]
        row(f"{name} left out", "missing-parameter", Request(parameters=";".join(others)))
        twice = [*parameters, *(parameter for parameter in parameters if parameter.startswith(name))]
        row(f"{name} twice", "parameter-twice", Request(parameters=";".join(twice)))
    row("a parameter more", "unknown-parameter", Request(parameters=parameters_of(GET) + ";a=1"))
    row("another tag", "other-tag", Request(tag="web-bot-auth"))
    row("a nonce of 15 characters", "bad-nonce", Request(nonce="sFzj0lYlX0wQm6Z"))
    row("a nonce of 65 characters", "bad-nonce", Request(nonce="s" * 65))
    row("a nonce with an escape", "malformed", Request(nonce='sFzj0lYlX0w\\"Qm6ZCXPBvTw'))
    for name, value in {
        "a negative number": "-1", "a number with a dot": f"{NOW}.0", "a number with a zero in front": f"0{NOW}", "a number in quotes": f'"{NOW}"',
        "no number": "", "a number of 16 digits": "1" * 16, "a number with a sign": f"+{NOW}",
    }.items():
        row(f"created with {name}", "malformed", Request(created=value))
    row("an end at its beginning", "bad-window", Request(expires=str(NOW)))
    row("an end before its beginning", "bad-window", Request(expires=str(NOW - 1)))
    row("a window of 301 seconds", "bad-window", Request(expires=str(NOW + 301)))
    row("created 61 seconds ahead", "too-early", Request(created=str(NOW + 61), expires=str(NOW + 62)))
    row("at its end", "expired", Request(now=NOW + 300))
    row("a day later", "expired", Request(now=NOW + 86_400))
    row("created before the start", "before-start", Request(now=NOW - 98, created=str(NOW - 101), expires=str(NOW)))  # (it is NOW - 100)
    row("another key than the keyid's", "other-key", Request(keyid=hash_of(MALLORY.text)))
    alice = hash_of(ALICE.text)
    for name, value in {
        "the key itself": in_braces(ALICE.text), "a hash in capitals": alice.upper(), "a hash that is cut off": alice[:-1],
        "a hash with more behind it": f"{alice}0", "a hash between signs": f"#{alice}#", "nothing": "",
        "a hash in base64": in_base64(hashlib.sha256(ALICE.text).digest()), "a hash by SHA-512": hashlib.sha512(ALICE.text).hexdigest(),
        "a hash by SHA-1": hashlib.sha1(ALICE.text).hexdigest(), "the hash of the key's transport form": hash_of(in_braces(ALICE.text).encode()),
        "the hash of the point alone": hash_of(ALICE.text[-35:-3]),  # (its 32 octets are before the last three parentheses)
    }.items():
        row(f"{name} for a keyid", "other-key", Request(keyid=value))
    for algorithm in ("rsa-v1_5-sha256", "hmac-sha256", "ecdsa-p256-sha256", "rsa-pss-sha512", "ED25519", "none", ""):
        row(f"the algorithm {algorithm or 'of no name'}", "other-algorithm", Request(algorithm=algorithm))
    row("Ed25519 for a key of ECDSA", "other-algorithm", Request(key=P256, algorithm="ed25519"))
    row("the algorithm of P-256 for P-384", "other-algorithm", Request(key=P384, algorithm="ecdsa-p256-sha256"))
    row("the algorithm of P-384 for P-256", "other-algorithm", Request(key=P256, algorithm="ecdsa-p384-sha384"))
    row("P-384 and SHA-256", "other-algorithm", Request(key=P384, algorithm="ecdsa-p384-sha256"))


def changed_keys() -> None:
    """The field with the key: missing, twice, not covered, or with a value that is no key of the profile."""
    alice, mallory = in_braces(ALICE.text), in_braces(MALLORY.text)
    row("no key", "absent-field", Request(keys=()), signed(GET))
    row("a key twice", "repeated-field", Request(keys=(alice, alice)))
    row("another key before it", "repeated-field", Request(keys=(mallory, alice)), signed(GET))
    row("another key behind it", "repeated-field", Request(keys=(alice, mallory)), signed(GET))
    row("two keys in a line", "bad-key", Request(keys=(f"{alice}, {alice}",)))
    row("a key that is not covered", "missing-component", Request(components=PLAIN[:-1]))
    row("a key that is not there and not covered", "missing-component", Request(components=PLAIN[:-1], keys=()))
    row("a key with an octet over ASCII", "bad-value", Request(keys=(f"{alice}\xe9",)), signed(GET))
    key, padded = in_base64(ALICE.text), in_base64(RSA.text)
    assert padded.endswith("==")  # (so that there is padding to leave out, and bits behind the end)
    for name, value in {
        "a key without braces": key, "a key in advanced form": "(public-key (test a))", "a key with a space": "{%s }" % key,
        "a key without padding": "{%s}" % padded.rstrip("="), "a key in base64 of URLs": "{%s}" % key.replace("+", "-").replace("/", "_"),
        "a key with bits behind its end": "{%s%s==}" % (padded[:-3], chr(ord(padded[-3]) + 1)), "an empty key": "", "an empty key in braces": "{}",
        "a hash in hexadecimal digits for a key": hash_of(ALICE.text), "a key with a parameter": f"{alice};a=1", "a key in quotes": f'"{alice}"',
    }.items():
        # (some values are texts of RSA, and the others of ALICE or of no key)
        row(name, "bad-key", Request(keys=(value,), keyid=hash_of(RSA.text) if padded[:-3] in value else None))
    for name, shown in {
        "a hash for a key": b"(4:hash6:sha25632:%s)" % hashlib.sha256(ALICE.text).digest(),
        "a key of another algorithm": b"(10:public-key(3:dsa(1:p1:\5)))", "a key of P-521": P384.text.replace(b"P-384", b"P-521"),
        "a key with text behind it": ALICE.text + b"(1:a)", "a key and a comment": ALICE.text[:-1] + b"(7:comment1:a))",
        "a length with a zero in front": ALICE.text.replace(b"32:", b"032:"), "a key of 4,098 characters": rsa_key_of(3028),
    }.items():  # (4,096 characters are allowed. Braces and base64 have 4,094, or 4,098, characters)
        row(name, "bad-key", Request(keys=(in_braces(shown),), keyid=hash_of(shown)))


def other_keys() -> None:
    """Keys, or the hash of one, other than that of the signature, a point of small order, and keys of odd sizes."""
    (_, signature_input), (_, signature) = signed(GET)
    mallory = in_braces(MALLORY.text)
    small = b"(10:public-key(3:ecc(5:curve7:Ed25519)(5:flags5:eddsa)(1:q32:%s)))" % bytes(32)
    row("a point of small order", "invalid-signature", Request(keys=(in_braces(small),)), [
        ("Signature-Input", signature_input.replace(hash_of(ALICE.text), hash_of(small))), ("Signature", f"spki=:{in_base64(bytes(64))}:")])
    longest = rsa_key_of(3027)
    assert len(in_braces(longest)) == 4094
    row("a key of 4,094 characters", "invalid-signature", Request(keys=(in_braces(longest),), keyid=hash_of(longest), algorithm="rsa-v1_5-sha256"))
    for name, empty in {"a modulus of no octets": rsa_key_of(0), "a modulus of an octet 00": rsa_key_of(1).replace(b"\x7f", b"\0")}.items():
        request = Request(keys=(in_braces(empty),), keyid=hash_of(empty), algorithm="rsa-v1_5-sha256")
        row(name, "invalid-signature", request, [signed(request)[0], ("Signature", "spki=::")])
    row("another key", "invalid-signature", Request(keys=(mallory,), keyid=hash_of(MALLORY.text)))
    row("another key put in", "other-key", Request(keys=(mallory,)), signed(GET))
    row("another key put in with its hash", "invalid-signature", Request(keys=(mallory,)), [
        ("Signature-Input", signature_input.replace(hash_of(ALICE.text), hash_of(MALLORY.text))), ("Signature", signature)])
    row("another key and no name of the service", "other-authority", Request(keys=(mallory,), authority="evil.example"))
    row("another key and a chain that is not covered", "uncovered-field", replace(CHAINED, components=PLAIN, keys=(mallory,)))
    row("another key of another algorithm", "other-key", Request(keyid=hash_of(MALLORY.text), algorithm="ecdsa-p256-sha256"))


def rsa_key_of(octets: int) -> bytes:
    """The canonical text of an RSA key whose modulus has so many octets, each of them 7F."""
    return b"(10:public-key(3:rsa(1:n%s)(1:e3:\1\0\1)))" % string(b"\x7f" * octets)


def row_of_signature(name: str, gives: str, sent: Request, parameters: str, value: str) -> None:
    """Adds a row in which a request has the Signature-Input `parameters`, and the Signature `spki=` and `value`."""
    row(name, gives, sent, [("Signature-Input", parameters), ("Signature", f"spki={value}")])


def octets_of(signature: str) -> bytes:
    """The octets of a signature, by the value of the field Signature, `spki=:BASE64:`."""
    return base64.b64decode(signature.removeprefix("spki=:").removesuffix(":"))


def changed_signatures() -> None:
    """The octets of a signature by Ed25519, and how they are written."""
    (_, signature_input), (_, signature) = signed(GET)
    octets = octets_of(signature)

    def add_row(name: str, gives: str, changed: str) -> None:
        """Adds a row in which GET has the Signature `spki=` and `changed`."""
        row_of_signature(name, gives, GET, signature_input, changed)

    add_row("an octet changed", "invalid-signature", f":{in_base64(bytes([octets[0] ^ 1]) + octets[1:])}:")
    add_row("a signature cut off", "invalid-signature", f":{in_base64(octets[:-1])}:")
    add_row("an octet more", "invalid-signature", f":{in_base64(octets + bytes(1))}:")
    add_row("no octets", "invalid-signature", "::")
    add_row("octets 00", "invalid-signature", f":{in_base64(bytes(64))}:")
    raised = (int.from_bytes(octets[32:], "little") + ORDER_25519).to_bytes(32, "little")
    add_row("s raised by the order", "invalid-signature", f":{in_base64(octets[:32] + raised)}:")
    add_row("a signature in quotes", "malformed", f'"{in_base64(octets)}"')
    add_row("no padding", "malformed", f":{in_base64(octets).rstrip('=')}:")
    add_row("base64 of URLs", "malformed", ":" + in_base64(b"\xff" * 64).replace("/", "_") + ":")
    add_row("a space in base64", "malformed", f":{in_base64(octets)[:8]} {in_base64(octets)[8:]}:")
    add_row("a line feed in base64", "malformed", f":{in_base64(octets)[:8]}\n{in_base64(octets)[8:]}:")
    add_row("no colon at the end", "malformed", f":{in_base64(octets)}")
    add_row("a parameter behind the signature", "malformed", f":{in_base64(octets)}:;a=1")
    digits = in_base64(octets).removesuffix("==")
    add_row("bits behind the end", "malformed", f":{digits[:-1]}{chr(ord(digits[-1]) + 1)}==:")


def changed_ecdsa() -> None:
    """The octets of a signature by ECDSA, which are r and s side by side, and what is sent again."""
    by_p256 = Request(key=P256)
    (_, signature_input), (_, signature) = signed(by_p256)
    numbers = octets_of(signature)
    r, s = int.from_bytes(numbers[:32], "big"), int.from_bytes(numbers[32:], "big")
    row_of_signature("ECDSA in DER", "invalid-signature", by_p256, signature_input, f":{in_base64(encode_dss_signature(r, s))}:")
    row_of_signature("ECDSA with numbers 00", "invalid-signature", by_p256, signature_input, f":{in_base64(bytes(64))}:")
    other = numbers[:32] + (ORDER_256 - s).to_bytes(32, "big")
    row_of_signature("ECDSA with the other s, whose nonce is the same", "valid", by_p256, signature_input, f":{in_base64(other)}:")
    by_p384 = Request(key=P384)
    (_, signature_input), (_, signature) = signed(by_p384)
    numbers = octets_of(signature)
    r, s = int.from_bytes(numbers[:48], "big"), int.from_bytes(numbers[48:], "big")
    for name, octets in {
        "in DER": encode_dss_signature(r, s), "with numbers 00": bytes(96), "with numbers of 32 octets": numbers[:32] + numbers[48:80],
        "with numbers of 49 octets": b"\0" + numbers[:48] + b"\0" + numbers[48:],
        "with the order for r": ORDER_384.to_bytes(48, "big") + numbers[48:],
        "of the other order": numbers[48:] + numbers[:48], "of another message": P384.sign(b"another message"),
    }.items():
        row_of_signature(f"P-384 {name}", "invalid-signature", by_p384, signature_input, f":{in_base64(octets)}:")
    other = numbers[:48] + (ORDER_384 - s).to_bytes(48, "big")
    row_of_signature("P-384 with the other s", "valid", by_p384, signature_input, f":{in_base64(other)}:")
    row("P-384 by SHA-256", "invalid-signature", by_p384, signed(replace(by_p384, key=P384_BY_SHA256, algorithm=P384.algorithm)))
    row("P-384 sent again", "nonce-seen", by_p384, again=0)
    row("sent again at once", "nonce-seen", GET, again=0)
    row("sent again in its window", "nonce-seen", replace(GET, now=NOW + 299), again=299)
    row("sent again a second later", "nonce-seen", Request(now=NOW + 1), again=1)
    row("sent again after its window", "expired", replace(GET, now=NOW + 300), again=200)
    row("ECDSA sent again", "nonce-seen", by_p256, again=0)


def main() -> None:
    """Writes the table over the old one. The docstring of each function that adds rows, a single line, precedes its rows there as a remark."""
    for add_rows in (valid_requests, changed_requests, changed_bodies, changed_certificates, changed_fields, changed_inputs, changed_components,
                     changed_parameters, changed_keys, other_keys, changed_signatures, changed_ecdsa):
        LINES.append(f"# {add_rows.__doc__}\n")
        add_rows()
    with open(os.path.join(os.path.dirname(os.path.realpath(__file__)), ROWS), "w", encoding="ascii") as file:
        file.write("# Signed requests, made by tests/generators/signed_requests.py, which says what each line is.\n\n" + "\n".join(LINES))


if __name__ == "__main__":
    main()
