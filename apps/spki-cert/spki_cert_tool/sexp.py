"""S-expressions as Python has them: a string is `bytes`, a string with a display hint a pair of `bytes`, a list a `list`."""
import base64
import re
from typing import Union

Value = Union[bytes, "tuple[bytes, bytes]", "list[Value]"]

# The most letters of a line of `laid_out`, where a value allows it.
WIDTH = 120
TOKEN = re.compile(rb"[A-Za-z./_:*+=-][A-Za-z0-9./_:*+=-]*\Z")
PRINTED = re.compile(rb"[ -~]*\Z")


def read(octets: bytes) -> Value:
    """The value of a canonical text. Raises Wrong if it is none."""
    # (here, since `forms` imports this module)
    from .forms import Parser
    return Parser(octets, is_canonical=True).whole().value


def canonical(value: Value) -> bytes:
    """The canonical text of a value, the only form that is hashed and signed: `(1:a2:bc)` for `[b"a", b"bc"]`."""
    if isinstance(value, list):
        return b"(" + b"".join(map(canonical, value)) + b")"
    if isinstance(value, tuple):
        return b"[" + canonical(value[0]) + b"]" + canonical(value[1])
    return b"%d:%s" % (len(value), value)


def string_on_one_line(octets: bytes) -> str:
    """A string in advanced form, on one line: as a token or in quotes where it can be, else in hexadecimal up to 64 octets, and longer in base64."""
    if TOKEN.match(octets):
        return octets.decode()
    if PRINTED.match(octets) and b'"' not in octets and b"\\" not in octets:
        return f'"{octets.decode()}"'
    return f"#{octets.hex()}#" if len(octets) <= 64 else f"|{base64.b64encode(octets).decode()}|"


def on_one_line(value: Value) -> str:
    """A value in advanced form, the form for writing by hand, on one line."""
    if isinstance(value, list):
        return f"({' '.join(map(on_one_line, value))})"
    if isinstance(value, tuple):
        return f"[{string_on_one_line(value[0])}]{string_on_one_line(value[1])}"
    return string_on_one_line(value)


def in_short(value: Value, room: int = 400) -> str:
    """A value on one line of about `room` letters, cut off with `..` where it is longer. What is cut off is not looked at, so it takes no time."""
    if isinstance(value, list):
        parts: list[str] = []
        for member in value:
            if room <= 0:
                parts.append("..")
                break
            parts.append(in_short(member, room))
            room -= len(parts[-1]) + 1
        return f"({' '.join(parts)})"
    if isinstance(value, tuple):
        return f"[{in_short(value[0], room)}]{in_short(value[1], room)}"
    return string_on_one_line(value) if len(value) <= room else f"{string_on_one_line(value[:room])}.."


def laid_out(value: Value, indent: int = 0) -> str:
    """A text of a value in advanced form, with line breaks where it is long, for people to read. It is to begin at the column `indent`, from 0."""
    line, margin, room = on_one_line(value), "\n" + " " * (indent + 1), WIDTH - indent
    if len(line) > room and isinstance(value, list):
        return "(" + margin.join(laid_out(member, indent + 1) for member in value) + ")"
    # (whitespace is ignored in base64 and hexadecimal, so they may be broken)
    if len(line) > room and line[0] in "|#":
        return margin.join(line[start:start + room] for start in range(0, len(line), room))
    return line
