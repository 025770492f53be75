"""What the forms share: whitespace, and base64 as it is read. `X.count_use(row)` counts one use of a row of the table X (coverage.py)."""
import base64
import re

from .coverage import Rows
from .values import WHITESPACE

SPACES = re.compile(rb"[ \t\n\v\f\r]*")
BODY = re.compile(rb"([A-Za-z0-9+/]*)(=*)")
PADDING = Rows("base64, padding", ["none is wanted", "whole", "in part", "left out"])
NO_BASE64 = Rows("base64, fault", ["a symbol behind padding", "too much padding", "one symbol too many", "spare bits"])


def past_whitespace(text: bytes, at: int) -> int:
    """The offset of the first octet past the whitespace that begins at `at`, if any does."""
    spaces = SPACES.match(text, at)
    assert spaces
    return spaces.end()


def from_base64(body: bytes) -> bytes | None:
    """The octets that a body of base64 means (RFC 4648), None if it is no base64. The body consists of symbols, `=` and whitespace, which is ignored.
    Some or all of the padding may be left out. Bits that the last symbol has to spare must be zero."""
    parts = BODY.fullmatch(body.translate(None, WHITESPACE))
    if not parts:
        NO_BASE64.count_use("a symbol behind padding")
        return None
    symbols, padding = parts.groups()
    padding_length = -len(symbols) % 4
    if padding_length == 3:
        NO_BASE64.count_use("one symbol too many")
        return None
    if len(padding) > padding_length:
        NO_BASE64.count_use("too much padding")
        return None
    octets = base64.b64decode(symbols + b"=" * padding_length)
    if base64.b64encode(octets).rstrip(b"=") != symbols:
        NO_BASE64.count_use("spare bits")
        return None
    used = "whole" if len(padding) == padding_length else "in part" if padding else "left out"
    PADDING.count_use(used if padding_length else "none is wanted")
    return octets
