"""Values, and their canonical texts (RFC 9804, section 6.2).

A value is a string, which is an `Atom`, or a list, which is a tuple of values."""
from dataclasses import dataclass
from typing import TypeGuard, Union

WHITESPACE = b" \t\n\v\f\r"
LONGEST = 1_048_576
DEEPEST = 64


@dataclass(frozen=True, slots=True)
class Atom:
    """An octet string, with a display hint or with none. No hint differs from every hint, the empty one too."""

    body: bytes
    hint: bytes | None = None


Value = Union[Atom, tuple["Value", ...]]


class FormFault(Exception):
    """Why a text is no value: TooLong, TooDeep or Short, or Bad or Trailing with the offset of an octet."""

    def __init__(self, kind: str, at: int | None = None) -> None:
        super().__init__(kind, at)
        self.kind = kind
        self.at = at

    def __str__(self) -> str:
        return self.kind if self.at is None else f"{self.kind} {self.at}"


def octet_at(text: bytes, at: int) -> int:
    """The octet at an offset. Raises the FormFault Short if the text ends there, since then the value is not whole."""
    if at >= len(text):
        raise FormFault("Short")
    return text[at]


def written_length(digits: bytes) -> int:
    """The number that the digits of a length mean, or 10**9 for more than nine digits: that is longer than every text too."""
    return int(digits) if len(digits) <= 9 else 10**9


def verbatim(octets: bytes) -> bytes:
    """A string of octets as canonical form has it: its length, a colon, the octets."""
    return b"%d:%s" % (len(octets), octets)


def canonical(value: Value) -> bytes:
    """The canonical text of a value."""
    if isinstance(value, Atom):
        hint = b"" if value.hint is None else b"[" + verbatim(value.hint) + b"]"
        return hint + verbatim(value.body)
    return b"(" + b"".join(map(canonical, value)) + b")"


def is_plain(value: Value, *words: bytes) -> TypeGuard[Atom]:
    """Whether a value is a string without a display hint, and one of the words if any are given."""
    return isinstance(value, Atom) and value.hint is None and (not words or value.body in words)


def head_of(value: Value) -> bytes | None:
    """The word that a list is headed by: its first member, if that is a string without a display hint. Else None."""
    first = value[0] if isinstance(value, tuple) and value else None
    return first.body if first is not None and is_plain(first) else None
