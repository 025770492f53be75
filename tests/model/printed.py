"""The printed text of a value (section "The printed text"). `X.count_use(row)` counts one use of a row of the table X (coverage.py)."""
import base64
import re

from .coverage import Rows
from .values import Value

TOKEN = re.compile(rb"[A-Za-z\-./_:*+=][A-Za-z0-9\-./_:*+=]*")
PRINTABLE = re.compile(rb"[\x20-\x7e]*")
WAYS = Rows("printed text, a string", ["token", "quoted", "base64", "with a hint"])


def string(octets: bytes) -> bytes:
    """The printed text of octets, which are the body of a string or its display hint."""
    if TOKEN.fullmatch(octets):
        WAYS.count_use("token")
        return octets
    if PRINTABLE.fullmatch(octets):
        WAYS.count_use("quoted")
        return b'"' + octets.replace(b"\\", b"\\\\").replace(b'"', b'\\"') + b'"'
    WAYS.count_use("base64")
    return b"|" + base64.b64encode(octets) + b"|"


def printed(value: Value) -> bytes:
    """The printed text of a value."""
    if isinstance(value, tuple):
        return b"(" + b" ".join(map(printed, value)) + b")"
    if value.hint is None:
        return string(value.body)
    WAYS.count_use("with a hint")
    return b"[" + string(value.hint) + b"]" + string(value.body)
