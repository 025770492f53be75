"""The transport form: `{`, the base64 of the canonical form, `}` (section "Transport form"). FAULTS counts which are met (coverage.py)."""
import base64
import re

from . import canonical
from .coverage import Rows
from .octets import from_base64, past_whitespace
from .values import LONGEST, FormFault, Value, octet_at
from .values import canonical as canonical_text

INSIDE = re.compile(rb"[A-Za-z0-9+/= \t\n\v\f\r]*")
FAULTS = Rows("transport form, fault", [
    "TooLong", "Bad at an octet inside", "Short", "TooDeep at the }", "Bad at the }, no base64", "Bad at the }, no canonical form", "Trailing"])


def fault(row: str, kind: str, at: int | None = None) -> FormFault:
    """The FormFault to raise, with the offset of an octet if its kind has one. Counts a row of FAULTS."""
    FAULTS.count_use(row)
    return FormFault(kind, at)


def read(text: bytes) -> Value:
    """The value of a text whose first octet past whitespace must be `{`. Raises FormFault with the first fault from the left."""
    if len(text) > LONGEST:
        raise fault("TooLong", "TooLong")
    begins = past_whitespace(text, 0) + 1
    inside = INSIDE.match(text, begins)
    assert inside
    ends = inside.end()
    if ends == len(text):
        raise fault("Short", "Short")
    if octet_at(text, ends) != ord("}"):
        raise fault("Bad at an octet inside", "Bad", ends)
    octets = from_base64(inside[0])
    if octets is None:
        raise fault("Bad at the }, no base64", "Bad", ends)
    try:
        value = canonical.read(octets)
    except FormFault as inner:
        if inner.kind == "TooDeep":
            raise fault("TooDeep at the }", "TooDeep") from None
        raise fault("Bad at the }, no canonical form", "Bad", ends) from None
    rest = past_whitespace(text, ends + 1)
    if rest < len(text):
        raise fault("Trailing", "Trailing", rest)
    return value


def written(value: Value) -> bytes:
    """The transport form of a value."""
    return b"{" + base64.b64encode(canonical_text(value)) + b"}"
