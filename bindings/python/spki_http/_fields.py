"""Reads the fields of a signed request: `Signature-Input`, `Signature`, `Content-Digest`. docs/SIGNATURES.md is the profile."""
from __future__ import annotations

import base64
import hashlib
import re
from dataclasses import dataclass

LABEL = TAG = "spki"
# The most octets of `Signature-Input` and of `Signature`, the most components, and the most characters of a key in
# transport form.
MOST_INPUT, MOST_COMPONENTS, MOST_KEY = 8192, 32, 4096
# The components that are no fields.
DERIVED = ("@method", "@authority", "@target-uri", "@path", "@query")
# The field with the key that signs, which is always covered.
PUBLIC_KEY = "x-spki-public-key"
# The parameters that are numbers, and those that are strings.
NUMBERS, STRINGS = ("created", "expires"), ("nonce", "keyid", "alg", "tag")
# The name of a member or of a parameter, the name of a field, a string in quotes without escapes, a number of at most 15 digits, base64 between
# colons, and what is before a second member.
NAME = re.compile(r"[a-z*][a-z0-9_.*-]*")
FIELD = re.compile(r"[a-z0-9!#$%&'*+.^_`|~-]+")
STRING = re.compile(r'"([ !#-\[\]-~]*)"')
INTEGER = re.compile(r"(?:0|[1-9][0-9]{0,14})(?![0-9])")
OCTETS = re.compile(r":([A-Za-z0-9+/]*={0,2}):")
MORE = re.compile(r"[ \t]*,")
# What is before a string in canonical form.
LENGTH = re.compile(rb"(0|[1-9][0-9]{0,3}):")
# How many octets a digest has.
DIGESTS = {"sha-256": 32, "sha-512": 64}
ECDSA_VALUE = b"(7:sig-val(5:ecdsa(1:r%)(1:s%)))"
# Of each algorithm: the templates of its keys and of the values of its signatures, which are canonical texts with `%` for each string, and how many
# octets a signature has: 0 where the key says it.
FORMS = {
    "ed25519": (b"(10:public-key(3:ecc(5:curve7:Ed25519)(5:flags5:eddsa)(1:q%)))", b"(7:sig-val(5:eddsa(1:r%)(1:s%)))", 64),
    "ecdsa-p256-sha256": (b"(10:public-key(3:ecc(5:curve10:NIST P-256)(1:q%)))", ECDSA_VALUE, 64),
    "ecdsa-p384-sha384": (b"(10:public-key(3:ecc(5:curve10:NIST P-384)(1:q%)))", ECDSA_VALUE, 96),
    "rsa-v1_5-sha256": (b"(10:public-key(3:rsa(1:n%)(1:e%)))", b"(7:sig-val(3:rsa(1:s%)))", 0),
}


class Refused(Exception):
    """Why a request proves no key. `name` is one of docs/SIGNATURES.md, "Refusals"."""

    def __init__(self, name: str) -> None:
        """`name` is that of the refusal, such as `expired`."""
        # (an exception is copied and pickled by the arguments of this call)
        super().__init__(name)
        self.name = name

    def __str__(self) -> str:
        return f"the request proves no key: {self.name}"


@dataclass(frozen=True)
class Input:
    """The value of `Signature-Input`. `text` is that of `@signature-params`, as it was sent. The times are in seconds
    since 1970."""

    text: str
    components: list[str]
    created: int
    expires: int
    nonce: str
    keyid: str
    alg: str
    tag: str


class Parser:
    """Reads the value of a field from the left. Each method but `skip_if` raises `Refused` for a rest of another form than
    it reads. `position` is that of the rest, which is not read yet."""

    def __init__(self, text: str) -> None:
        """Reads the label `spki=` of `text`, the value of a field. Raises `Refused`: `other-label` for another label, and
        `malformed` for none or a text over `MOST_INPUT`."""
        if len(text) > MOST_INPUT:
            raise Refused("malformed")
        self.text, self.position = text, 0
        name = self.take(NAME)
        self.expect("=")
        if name[0] != LABEL:
            raise Refused("other-label")

    def skip_if(self, text: str) -> bool:
        """Skips a text if the rest begins with it. Returns whether it does."""
        if not self.text.startswith(text, self.position):
            return False
        self.position += len(text)
        return True

    def expect(self, text: str) -> None:
        """Skips a text, with which the rest must begin: otherwise the field is `malformed`."""
        if not self.skip_if(text):
            raise Refused("malformed")

    def take(self, pattern: re.Pattern[str]) -> re.Match[str]:
        """Reads what matches a pattern at the beginning of the rest, and returns the match. Otherwise the field is `malformed`."""
        match = pattern.match(self.text, self.position)
        if not match:
            raise Refused("malformed")
        self.position = match.end()
        return match

    def expect_end(self) -> None:
        """Raises `Refused` if something follows: `two-signatures` for a second member, and otherwise `malformed`."""
        if self.position != len(self.text):
            raise Refused("two-signatures" if MORE.match(self.text, self.position) else "malformed")

    def components(self) -> list[str]:
        """Reads the list of components, `("@method" ..)`. Returns their names in order. Raises `Refused`:
        `unknown-component` for one that may not be covered or has parameters, `component-twice`, and `malformed` for
        another form or over `MOST_COMPONENTS`."""
        names: list[str] = []
        self.expect("(")
        while not self.skip_if(")"):
            if len(names) == MOST_COMPONENTS:
                raise Refused("malformed")
            if names:
                self.expect(" ")
            name = self.take(STRING)[1]
            # (behind `;` are parameters of a component)
            if not is_component(name) or self.text.startswith(";", self.position):
                raise Refused("unknown-component")
            if name in names:
                raise Refused("component-twice")
            names.append(name)
        return names

    def parameters(self) -> dict[str, str]:
        """Reads the parameters, `;created=1700000000 ..`, and the end. Returns the texts of their values by name,
        without quotes. Raises `Refused`: `unknown-parameter`, `parameter-twice`, `malformed`, and what `expect_end`
        raises."""
        texts: dict[str, str] = {}
        while self.skip_if(";"):
            name = self.take(NAME)[0]
            if name not in NUMBERS + STRINGS:
                raise Refused("unknown-parameter")
            if name in texts:
                raise Refused("parameter-twice")
            self.expect("=")
            texts[name] = self.take(INTEGER)[0] if name in NUMBERS else self.take(STRING)[1]
        self.expect_end()
        return texts


def is_component(name: str) -> bool:
    """Whether a signature may cover what has this name: a field, in small letters, or one of the five components of
    `DERIVED`. The two fields of the signature itself may not be covered."""
    is_field = FIELD.fullmatch(name) is not None
    return name in DERIVED or (is_field and name not in ("signature", "signature-input"))


def input_of(text: str) -> Input:
    """Reads the value of `Signature-Input`. Raises `Refused`, also if a component or a parameter that is required is missing."""
    parser = Parser(text)
    begin = parser.position
    components, parameters = parser.components(), parser.parameters()
    has_target = "@target-uri" in components or {"@path", "@query"} <= set(components)
    if not has_target or not {"@method", "@authority", PUBLIC_KEY} <= set(components):
        raise Refused("missing-component")
    if len(parameters) != len(NUMBERS + STRINGS):
        raise Refused("missing-parameter")
    created, expires = int(parameters.pop("created")), int(parameters.pop("expires"))
    # (the other parameters are the other fields of `Input`, by the same names)
    return Input(text[begin:], components, created, expires, **parameters)


def signature_of(text: str) -> bytes:
    """The octets of the signature in the value of `Signature`. Raises `Refused`: `other-label`, `two-signatures` or
    `malformed`."""
    parser = Parser(text)
    octets = decoded(parser.take(OCTETS)[1])
    if octets is None:
        raise Refused("malformed")
    parser.expect_end()
    return octets


def decoded(text: str) -> bytes | None:
    """The octets of a text in base64. None if the text is not exactly how these octets are encoded, with padding."""
    try:
        octets = base64.b64decode(text, validate=True)
    except ValueError:
        # (it is not base64, or not ASCII)
        return None
    return octets if base64.b64encode(octets).decode() == text else None


def digest_of(value: str) -> tuple[str, bytes]:
    """The algorithm, `sha-256` or `sha-512`, and the octets in the value of `Content-Digest`. Raises `Refused` with the
    name `bad-digest` for any other value, also for two digests."""
    name, _, rest = value.partition("=")
    match = OCTETS.fullmatch(rest)
    octets = decoded(match[1]) if match else None
    if octets is None or len(octets) != DIGESTS.get(name):
        raise Refused("bad-digest")
    return name, octets


def content_digest(body: bytes) -> str:
    """The value of `Content-Digest` for a body, by SHA-256."""
    return f"sha-256=:{base64.b64encode(hashlib.sha256(body).digest()).decode()}:"


def hash_of(key: bytes) -> str:
    """The SHA-256 hash of a key in canonical form, in hexadecimal digits: its `keyid`."""
    return hashlib.sha256(key).hexdigest()


def in_braces(key: bytes) -> str:
    """The transport form of a key in canonical form: its base64 in braces."""
    return f"{{{base64.b64encode(key).decode()}}}"


def key_of(text: str) -> tuple[bytes, str, int]:
    """Reads a key in transport form. Returns its canonical text, its algorithm, and how many octets a signature by it has. Raises `Refused` with
    the name `bad-key`, also for a text over `MOST_KEY`."""
    key = decoded(text[1:-1]) if len(text) <= MOST_KEY and text.startswith("{") and text.endswith("}") else None
    if not key:
        raise Refused("bad-key")
    return (key, *kind_of(key))


def kind_of(key: bytes) -> tuple[str, int]:
    """The algorithm of a key in canonical form, and how many octets a signature by it has: with RSA as many as the
    modulus. Raises `Refused` with the name `bad-key`. Whether the numbers of the key are allowed is not tested: the
    verifier does that."""
    for algorithm, (template, _, length) in FORMS.items():
        if strings := strings_of(key, template):
            return algorithm, length or len(strings[0].lstrip(b"\0"))
    raise Refused("bad-key")


def value_of(algorithm: str, octets: bytes) -> bytes:
    """The canonical value, `(7:sig-val..)`, of the octets of a signature by an algorithm of FORMS. With RSA they are one
    string in it, and otherwise two halves: callers have tested how many octets there are."""
    half = len(octets) // 2
    strings = [octets] if algorithm.startswith("rsa") else [octets[:half], octets[half:]]
    _, template, _ = FORMS[algorithm]
    # (each `%` of the template becomes LENGTH:OCTETS)
    lengths_and_strings = tuple(part for string in strings for part in (len(string), string))
    return template.replace(b"%", b"%d:%s") % lengths_and_strings


def octets_of(value: bytes, length: int = 0) -> bytes:
    """The octets of a signature, as RFC 9421 sends them, from its canonical value: the strings of the value, joined.
    `length` is how many octets a signature by the key has. Signers write more or fewer octets 00 in front of a number:
    these are added or removed, so that each string has an equal share of the length. A number too long for that stays so.
    With a length of 0 the strings stay as they are, and the caller ensures that the two of ECDSA are equally long. Those
    of Ed25519 always stay as they are, since they are no numbers.
    Raises `ValueError` for a text that is no value of a signature."""
    for algorithm, (_, template, _) in FORMS.items():
        if strings := strings_of(value, template):
            share = 0 if algorithm == "ed25519" else length // len(strings)
            return b"".join(string.lstrip(b"\0").rjust(share, b"\0") if share else string for string in strings)
    raise ValueError("this is no value of a signature")


def strings_of(text: bytes, template: bytes) -> list[bytes]:
    """The strings of a canonical text at the places of `%` in a template of `FORMS`. An empty list if the text does not
    match it, or if a string has over 9,999 octets."""
    first, *rest = template.split(b"%")
    position, strings = len(first), []
    if not text.startswith(first):
        return []
    for part in rest:
        length = LENGTH.match(text, position)
        end = length.end() + int(length[1]) if length else -1
        if not length or text[end:end + len(part)] != part:
            return []
        strings.append(text[length.end():end])
        position = end + len(part)
    return strings if position == len(text) else []
