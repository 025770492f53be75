"""The kinds of questions: texts, calls that are misuse or nearly, strings inside values. `guards` has those to guards."""
from dataclasses import dataclass


@dataclass(frozen=True)
class Question:
    """A command and a text. For `check_accepted`, `rows` is the text of the accepted signatures, which stand beside the case."""

    command: str
    text: bytes
    rows: bytes = b""


@dataclass(frozen=True)
class Call:
    """A call of `spki_answer` with a number that need not be a command's, or of `spki_check_accepted` if the number is None. Each text, and the
    buffer, is a pair: whether its pointer is null, and the length that the call is given. No octet of a text is read: its length is 0, or
    its pointer is null, or the length is over 2^63 - 1. `command` is the name of all such calls."""

    number: int | None
    texts: tuple[tuple[bool, int], ...]
    buffer: tuple[bool, int]
    command: str = "calls"


@dataclass(frozen=True)
class StringQuestion:
    """A text in canonical form, or nearly, and a path into it: the number of a member, from 0, for each list. `command` names all such calls."""

    text: bytes
    path: tuple[int, ...]
    command: str = "spki_string"
