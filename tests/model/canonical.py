"""Reading canonical form (section "S-expressions in canonical form"). `X.count_use(row)` counts one use of a row of the table X (coverage.py).
Each function that reads raises FormFault with the first fault, also by `octet_at`: `Short` where the text ends too soon."""
import re

from .coverage import Rows
from .values import DEEPEST, LONGEST, Atom, FormFault, Value, octet_at, written_length

LENGTH = re.compile(rb"0|[1-9][0-9]*")
PLACES = Rows("canonical form, Bad at another octet", [
    "where a value begins", "in a length, after a first digit 0", "in a length, after another digit", "after [ and after ]",
    "after the hint's string"])
FAULTS = Rows("canonical form, fault", ["TooDeep", "Bad", "Short", "Trailing"])


def bad(place: str, at: int) -> FormFault:
    """The fault `Bad` to raise for the octet at an offset. Counts a row of PLACES."""
    PLACES.count_use(place)
    return FormFault("Bad", at)


def read(text: bytes) -> Value:
    """The value of a canonical text. Raises FormFault with the first fault from the left."""
    if len(text) > LONGEST:
        raise FormFault("TooLong")  # (no row of FAULTS: `calls.string_at` counts it)
    try:
        value, end = value_at(text, at=0, open_lists=0)
        if end < len(text):
            raise FormFault("Trailing", end)
    except FormFault as fault:
        FAULTS.count_use(fault.kind)
        raise
    return value


def value_at(text: bytes, at: int, open_lists: int) -> tuple[Value, int]:
    """The value that begins at an offset, and the offset behind it. `open_lists` counts the lists around it."""
    octet = octet_at(text, at)
    if octet == ord("("):
        if open_lists == DEEPEST:
            raise FormFault("TooDeep")
        return members_at(text, at + 1, open_lists + 1)
    if octet == ord("["):
        hint, at = string_at(text, at + 1, "after [ and after ]")
        if octet_at(text, at) != ord("]"):
            raise bad("after the hint's string", at)
        body, at = string_at(text, at + 1, "after [ and after ]")
        return Atom(body, hint), at
    body, at = string_at(text, at, "where a value begins")
    return Atom(body), at


def members_at(text: bytes, at: int, open_lists: int) -> tuple[Value, int]:
    """The list whose members begin at an offset, and the offset behind its `)`."""
    members: list[Value] = []
    while octet_at(text, at) != ord(")"):
        member, at = value_at(text, at, open_lists)
        members.append(member)
    return tuple(members), at + 1


def string_at(text: bytes, at: int, place: str) -> tuple[bytes, int]:
    """The octets of the string that begins at an offset, and the offset behind it. `place` is the row of PLACES if none begins there."""
    octet_at(text, at)  # (raises Short at the end of the text)
    length = LENGTH.match(text, at)
    if not length:
        raise bad(place, at)
    begins = length.end() + 1
    if octet_at(text, length.end()) != ord(":"):
        raise bad("in a length, after a first digit 0" if length[0] == b"0" else "in a length, after another digit", length.end())
    ends = begins + written_length(length[0])
    if ends > len(text):
        raise FormFault("Short")
    return text[begins:ends], ends
