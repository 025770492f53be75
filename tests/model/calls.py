"""What calls for C programs answer, beside the program's lines: statuses, misuse, strings of a value (section "The library for C programs")."""
from . import answers, canonical
from .answers import COMMANDS, NO, REFUSED, YES, Answer
from .coverage import Rows  # (`X.count_use(row)` counts one use of a row of the table X)
from .values import Atom, FormFault

# Statuses of the library that the program does not have.
TOO_SMALL, MISUSED, DONE, NONE, GRANTED = 4, 5, 6, 7, 9
NAMES = {GRANTED: "SPKI_YES", NO: "SPKI_NO", REFUSED: "SPKI_REFUSED", TOO_SMALL: "SPKI_TOO_SMALL", MISUSED: "SPKI_MISUSED", DONE: "SPKI_DONE",
         NONE: "SPKI_NONE"}
LONGEST_TEXT = 2**63 - 1
DECISIONS = ("check", "check_accepted", "guard decide")

STATUSES = Rows("call for C programs, status", NAMES.values())
CALLS = Rows("call for C programs, pointers and lengths", [
    "status 5: no command has this number", "status 5: a null pointer with a length", "status 5: a length over 2^63 - 1",
    "status 5: a null buffer with a length", "status 5: a buffer of a length over 2^63 - 1", "a null pointer without octets", "no buffer"])
STRINGS = Rows("string inside a value", [
    "found", "found, with a hint", "none: a list", "none: no such member", "none: a path into a string",
    *(f"refused: {kind}" for kind in ("TooLong", "TooDeep", "Short", "Bad", "Trailing"))])
# whether it is null, and the length that the call says
Pointer = tuple[bool, int]


def of_library(command: str, answered: Answer) -> Answer:
    """The answer of the library to a command, by that of the program. For a command of DECISIONS, YES becomes GRANTED and NO stays. For other
    commands both become DONE. Other statuses stay. Counts a row of STATUSES."""
    status, octets = answered
    if status in (YES, NO):
        status = DONE if command not in DECISIONS else GRANTED if status == YES else NO
    STATUSES.count_use(NAMES[status])
    return status, octets


def too_small() -> int:
    """The status TOO_SMALL, of a call whose buffer is too small. Counts its row of STATUSES."""
    STATUSES.count_use(NAMES[TOO_SMALL])
    return TOO_SMALL


def misused(row: str) -> Answer:
    """The answer to a call that is misuse. Counts a row of CALLS."""
    CALLS.count_use(f"status 5: {row}")
    return MISUSED, b""


def call(number: int | None, texts: tuple[Pointer, ...], buffer: Pointer) -> Answer:
    """What `spki_answer` answers to a number and a text or, if it is None, `spki_check_accepted` to two texts: each empty, null or too long."""
    if number is not None and number >= len(COMMANDS):
        return misused("no command has this number")
    for is_null, length in texts:
        if length:
            return misused("a length over 2^63 - 1" if length > LONGEST_TEXT else "a null pointer with a length")
        if is_null:
            CALLS.count_use("a null pointer without octets")
    is_null, length = buffer
    if length > LONGEST_TEXT or is_null and length:
        return misused("a buffer of a length over 2^63 - 1" if length > LONGEST_TEXT else "a null buffer with a length")
    answered = answers.check_accepted(b"", b"") if number is None else answers.answer(COMMANDS[number], b"")
    if len(answered[1]) > length:
        CALLS.count_use("no buffer")
        return too_small(), b""
    # (an empty text is refused by every command, so that any command serves here)
    return of_library("check", answered)


def string_at(text: bytes, path: tuple[int, ...]) -> Answer:
    """What `spki_string` answers: a status, and the octets of the string at the end of a path, none if the text is refused or has no string there."""
    try:
        value = canonical.read(text)
    except FormFault as fault:
        STRINGS.count_use(f"refused: {fault.kind}")
        return of_library("spki_string", (REFUSED, b""))
    for number in path:
        if isinstance(value, Atom) or number >= len(value):
            STRINGS.count_use("none: a path into a string" if isinstance(value, Atom) else "none: no such member")
            return of_library("spki_string", (NONE, b""))
        value = value[number]
    if not isinstance(value, Atom):
        STRINGS.count_use("none: a list")
        return of_library("spki_string", (NONE, b""))
    STRINGS.count_use("found" if value.hint is None else "found, with a hint")
    return of_library("spki_string", (DONE, value.body))
