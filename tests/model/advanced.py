"""Reading advanced form (section "Advanced form" of docs/FORMATS.md). `X.count_use(row)` counts one use of a row of the table X (coverage.py).
Each function that reads raises FormFault with the first fault, also by `octet_at`: `Short` where the text ends too soon."""
import re

from .coverage import Rows
from .octets import from_base64, past_whitespace
from .values import DEEPEST, LONGEST, WHITESPACE, Atom, FormFault, Value, octet_at, written_length

TOKEN = re.compile(rb"[A-Za-z\-./_:*+=][A-Za-z0-9\-./_:*+=]*")
LENGTH = re.compile(rb"0|[1-9][0-9]*")
RAW = re.compile(rb'[^"\\]*')
HEXADECIMAL = re.compile(rb"[0-9A-Fa-f \t\n\v\f\r]*")
BASE64 = re.compile(rb"[A-Za-z0-9+/= \t\n\v\f\r]*")
LINE_END = re.compile(rb"\r\n|\n\r|\r|\n")
LETTERS = dict(zip(b"abtnvfr", (7, 8, 9, 10, 11, 12, 13)))
THEMSELVES = b"\"'?\\"

WAYS = Rows("advanced form, a string", [
    "token", "verbatim", "quoted", "hexadecimal", "base64", "quoted with a length", "hexadecimal with a length", "base64 with a length"])
HINTS = Rows("advanced form, a hint", ["with whitespace", "without whitespace"])
ESCAPES = Rows("advanced form, in quotes", [
    "a raw octet", "a letter", "the octet behind the backslash", "octal", "hexadecimal", "CR LF", "LF CR", "CR", "LF"])
FAULTS = Rows("advanced form, fault", ["TooLong", "TooDeep", "Short", "Trailing", "Bad"])
PLACES = Rows("advanced form, Bad at another octet", [
    "where a value begins", "where a member begins", "behind [", "behind ]", "behind a hint's string", "behind a length",
    "behind a length 0", "behind a backslash", "behind a backslash: 4 to 7", "behind \\x", "behind an octal escape's first digit",
    "between # and #", "between | and |"])
CLOSING = Rows("advanced form, Bad at the closing mark", ["an odd number of digits", "no base64", "another length"])


def bad(place: str, at: int) -> FormFault:
    """The fault `Bad` to raise for the octet at an offset. Counts a row of PLACES."""
    PLACES.count_use(place)
    return FormFault("Bad", at)


def bad_closing(why: str, at: int) -> FormFault:
    """The fault `Bad` to raise for a string that is wrong as a whole, at its closing mark. Counts a row of CLOSING."""
    CLOSING.count_use(why)
    return FormFault("Bad", at)


def read(text: bytes) -> Value:
    """The value of a text in advanced form. Raises FormFault with the first fault from the left."""
    try:
        if len(text) > LONGEST:
            raise FormFault("TooLong")
        value, end = value_at(text, past_whitespace(text, 0), open_lists=0)
        behind = past_whitespace(text, end)
        if behind < len(text):
            raise FormFault("Trailing", behind)
    except FormFault as fault:
        FAULTS.count_use(fault.kind)
        raise
    return value


def value_at(text: bytes, at: int, open_lists: int) -> tuple[Value, int]:
    """The value that begins at an offset, which is past whitespace, and the offset behind it. `open_lists` counts the lists around it."""
    octet = octet_at(text, at)
    if octet == ord("("):
        if open_lists == DEEPEST:
            raise FormFault("TooDeep")
        return members_at(text, at + 1, open_lists + 1)
    if octet == ord("["):
        return hinted_at(text, at + 1)
    body, at = string_at(text, at, "where a member begins" if open_lists else "where a value begins")
    return Atom(body), at


def members_at(text: bytes, at: int, open_lists: int) -> tuple[Value, int]:
    """The list whose members begin at an offset, and the offset behind its `)`."""
    members: list[Value] = []
    at = past_whitespace(text, at)
    while octet_at(text, at) != ord(")"):
        member, at = value_at(text, at, open_lists)
        members.append(member)
        at = past_whitespace(text, at)
    return tuple(members), at + 1


def hinted_at(text: bytes, at: int) -> tuple[Value, int]:
    """The string whose display hint begins behind the `[` before an offset, and the offset behind the string."""
    begins = past_whitespace(text, at)
    hint, ends = string_at(text, begins, "behind [")
    bracket = past_whitespace(text, ends)
    if octet_at(text, bracket) != ord("]"):
        raise bad("behind a hint's string", bracket)
    body_begins = past_whitespace(text, bracket + 1)
    body, end = string_at(text, body_begins, "behind ]")
    has_whitespace = (begins, bracket, body_begins) != (at, ends, bracket + 1)
    HINTS.count_use("with whitespace" if has_whitespace else "without whitespace")
    return Atom(body, hint), end


def string_at(text: bytes, at: int, place: str) -> tuple[bytes, int]:
    """The octets of the string that begins at an offset, and the offset behind it. `place` is the row of PLACES if none begins there."""
    octet = octet_at(text, at)
    token = TOKEN.match(text, at)
    if token:
        WAYS.count_use("token")
        return token[0], token.end()
    if octet in MARKS:
        way, body_at = MARKS[octet]
        body, closing = body_at(text, at + 1)
        WAYS.count_use(way)
        return body, closing + 1
    length = LENGTH.match(text, at)
    if not length:
        raise bad(place, at)
    return string_of_length(text, length.end(), length[0])


def string_of_length(text: bytes, at: int, digits: bytes) -> tuple[bytes, int]:
    """The octets of a string with a length, and the offset behind it. `digits` are those of the length, and end at offset `at`."""
    length, octet = written_length(digits), octet_at(text, at)
    if octet == ord(":"):
        if at + 1 + length > len(text):
            raise FormFault("Short")
        WAYS.count_use("verbatim")
        return text[at + 1:at + 1 + length], at + 1 + length
    if octet not in MARKS:
        raise bad("behind a length 0" if digits == b"0" else "behind a length", at)
    way, body_at = MARKS[octet]
    body, closing = body_at(text, at + 1)
    if len(body) != length:
        raise bad_closing("another length", closing)
    WAYS.count_use(way + " with a length")
    return body, closing + 1


def quoted_at(text: bytes, at: int) -> tuple[bytes, int]:
    """The octets of a quoted string, and the offset of its closing quote. `at` is behind the opening quote."""
    pieces: list[bytes] = []
    while True:
        raw = RAW.match(text, at)
        assert raw
        if raw[0]:
            ESCAPES.count_use("a raw octet")
        pieces.append(raw[0])
        at = raw.end()
        if octet_at(text, at) == ord('"'):
            return b"".join(pieces), at
        piece, at = escape_at(text, at + 1)
        pieces.append(piece)


def escape_at(text: bytes, at: int) -> tuple[bytes, int]:
    """The octets that an escape means, and the offset behind it. `at` is behind the backslash."""
    octet = octet_at(text, at)
    if octet in LETTERS:
        ESCAPES.count_use("a letter")
        return bytes([LETTERS[octet]]), at + 1
    if octet in THEMSELVES:
        ESCAPES.count_use("the octet behind the backslash")
        return bytes([octet]), at + 1
    if octet in b"01234567":
        if octet in b"4567":
            raise bad("behind a backslash: 4 to 7", at)
        for place in (at + 1, at + 2):
            if octet_at(text, place) not in b"01234567":
                raise bad("behind an octal escape's first digit", place)
        ESCAPES.count_use("octal")
        return bytes([int(text[at:at + 3], 8)]), at + 3
    if octet == ord("x"):
        for place in (at + 1, at + 2):
            if octet_at(text, place) not in b"0123456789abcdefABCDEF":
                raise bad("behind \\x", place)
        ESCAPES.count_use("hexadecimal")
        return bytes([int(text[at + 1:at + 3], 16)]), at + 3
    line_end = LINE_END.match(text, at)
    if not line_end:
        raise bad("behind a backslash", at)
    ESCAPES.count_use({b"\r\n": "CR LF", b"\n\r": "LF CR", b"\r": "CR", b"\n": "LF"}[line_end[0]])
    return b"", line_end.end()


def hexadecimal_at(text: bytes, at: int) -> tuple[bytes, int]:
    """The octets of hexadecimal digits from an offset on, and the offset of the closing `#`."""
    body = HEXADECIMAL.match(text, at)
    assert body
    if octet_at(text, body.end()) != ord("#"):
        raise bad("between # and #", body.end())
    digits = body[0].translate(None, WHITESPACE)
    if len(digits) % 2:
        raise bad_closing("an odd number of digits", body.end())
    return bytes.fromhex(digits.decode()), body.end()


def base64_at(text: bytes, at: int) -> tuple[bytes, int]:
    """The octets of base64 from an offset on, and the offset of the closing mark."""
    body = BASE64.match(text, at)
    assert body
    if octet_at(text, body.end()) != ord("|"):
        raise bad("between | and |", body.end())
    octets = from_base64(body[0])
    if octets is None:
        raise bad_closing("no base64", body.end())
    return octets, body.end()


# By the mark that begins a string: the row of WAYS, and what reads the octets behind the mark.
MARKS = {ord('"'): ("quoted", quoted_at), ord("#"): ("hexadecimal", hexadecimal_at), ord("|"): ("base64", base64_at)}
