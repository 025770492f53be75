"""Texts of a value in all three forms of RFC 9804: canonical, advanced, and transport, which is canonical form in base64 and braces."""
import base64
import random
import re

from model.printed import printed
from model.values import Atom, Value, canonical

TOKEN = re.compile(rb"[A-Za-z\-./_:*+=][A-Za-z0-9\-./_:*+=]*")
TOKEN_OCTETS = frozenset(b"ABCDEFGHIJKLMNOPQRSTUVWXYZabcdefghijklmnopqrstuvwxyz0123456789-./_:*+=")
SPACES = (b" ", b" ", b" ", b"\n", b"\t", b"\r", b"\v", b"\f", b"  ", b"\r\n ")
LETTERS = dict(zip((7, 8, 9, 10, 11, 12, 13), (b"\\a", b"\\b", b"\\t", b"\\n", b"\\v", b"\\f", b"\\r")))
LINE_ENDS = (b"\\\n", b"\\\r", b"\\\r\n", b"\\\n\r")


def text_of(value: Value, rng: random.Random) -> bytes:
    """A text of a value, in a form by chance."""
    form = rng.random()
    if form < 0.3:
        return canonical(value)
    if form < 0.45:
        return printed(value)
    if form < 0.65:
        return in_braces(canonical(value), rng)
    return spaces(rng) + advanced(value, rng, rng.choice((0.05, 0.5))) + spaces(rng)


def spaces(rng: random.Random, chance: float = 0.1) -> bytes:
    """One of SPACES by this chance, else nothing."""
    return rng.choice(SPACES) if rng.random() < chance else b""


def in_braces(octets: bytes, rng: random.Random) -> bytes:
    """Octets in the transport form, with whitespace and less padding by chance."""
    return spaces(rng) + b"{" + with_whitespace(with_less_padding(base64.b64encode(octets), rng), rng) + b"}" + spaces(rng)


def with_less_padding(body: bytes, rng: random.Random) -> bytes:
    """Base64, by chance without some or all of its padding."""
    if body.endswith(b"=") and rng.random() < 0.3:
        return body[:-1]
    return body.rstrip(b"=") if rng.random() < 0.2 else body


def with_whitespace(body: bytes, rng: random.Random) -> bytes:
    """A body of base64 or hexadecimal digits, with whitespace inside or at its ends by chance."""
    for _ in range(rng.choice((0, 0, 0, 1, 2))):
        at = rng.randrange(len(body) + 1)
        body = body[:at] + rng.choice(SPACES) + body[at:]
    return body


def advanced(value: Value, rng: random.Random, wild: float) -> bytes:
    """A text of a value in advanced form. `wild` is the chance that a string is written in any of the ways (`string`). Between two members there is
    whitespace where they would run together, and elsewhere by chance."""
    if isinstance(value, Atom):
        body = string(value.body, rng, wild)
        if value.hint is None:
            return body
        hint = string(value.hint, rng, wild)
        around = [spaces(rng, wild / 3) for _ in range(3)]
        return b"[" + around[0] + hint + around[1] + b"]" + around[2] + body
    pieces = [b"(", spaces(rng, wild / 5)]
    before = b"("
    for member in value:
        text = advanced(member, rng, wild)
        run_together = before[-1] in TOKEN_OCTETS and text[0] in TOKEN_OCTETS
        if run_together and rng.random() < wild:
            space = rng.choice(SPACES)
        elif before != b"(" and rng.random() > wild:
            space = b" "
        else:
            space = b" " if run_together else spaces(rng)
        pieces += [space, text]
        before = text
    return b"".join((*pieces, spaces(rng, wild / 5), b")"))


def string(octets: bytes, rng: random.Random, wild: float) -> bytes:
    """A string in one of the ways of advanced form: a token, hexadecimal digits, base64 or quotes, these by chance behind the length, or its length,
    `:` and its octets. `wild` is the chance that a way is drawn. Else it is a token if it can be one, or has its length."""
    if rng.random() >= wild:
        if TOKEN.fullmatch(octets):
            return octets
        return b"%d:%s" % (len(octets), octets)
    way = rng.randrange(5)
    length = b"%d" % len(octets) if rng.random() < 0.3 else b""
    if way == 0 and TOKEN.fullmatch(octets):
        return octets
    if way == 1:
        return length + b"#" + with_whitespace(mixed_case(octets.hex().encode(), rng), rng) + b"#"
    if way == 2:
        return length + b"|" + with_whitespace(with_less_padding(base64.b64encode(octets), rng), rng) + b"|"
    if way == 3:
        return length + quoted(octets, rng)
    return b"%d:%s" % (len(octets), octets)


def mixed_case(digits: bytes, rng: random.Random) -> bytes:
    """Hexadecimal digits of lower case, of upper case or of both."""
    return rng.choice((digits, digits.upper(), bytes(rng.choice((digit, *bytes([digit]).upper())) for digit in digits)))


def quoted(octets: bytes, rng: random.Random) -> bytes:
    """A string in quotes, by chance with escapes, and with escaped line ends, which add nothing to it."""
    pieces = []
    for octet in octets:
        if octet in b'"\\' or octet in LETTERS or rng.random() < 0.15:
            pieces.append(escape(octet, rng))
        else:
            pieces.append(bytes([octet]))
        if rng.random() < 0.03:
            pieces.append(rng.choice(LINE_ENDS))
    return b'"' + rejoined(pieces) + b'"'


def rejoined(pieces: list[bytes]) -> bytes:
    """The pieces side by side. A raw CR or LF behind an escaped line end is written as an escape: a backslash with CR LF is one line end."""
    text = b""
    for piece in pieces:
        if piece in (b"\n", b"\r") and text.endswith((b"\\\n", b"\\\r")):
            piece = b"\\%03o" % piece[0]
        text += piece
    return text


def escape(octet: int, rng: random.Random) -> bytes:
    """An octet in quotes as an escape, or raw unless it is a quote or a backslash."""
    ways = [b"\\%03o" % octet, b"\\x%02x" % octet, b"\\x%02X" % octet]  # (a short escape is drawn as often as these three)
    if octet in b"\"'?\\":
        ways += 3 * [b"\\" + bytes([octet])]
    if octet in LETTERS:
        ways += 3 * [LETTERS[octet]]
    if octet not in b'"\\':
        ways.append(bytes([octet]))
    return rng.choice(ways)
