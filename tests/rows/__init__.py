"""Reads the tables in `tables/`, and says what is wrong with a program's answer to a row.

A row of a table is a command, the exit status that is wanted, a text and the answer that is wanted, with two or more spaces
between them. `any` stands for each of the commands. A line that begins with `;` is a remark. In texts and answers

    %41         is the octet 41
    %n          is a line feed
    %-          is nothing, where a text or an answer has no octet
    %<64*(>     is what stands behind the star, so many times
    %[PATH]     is what the file has, the path being one from the top of the repository

and every other octet stands for itself. Of each text that `canonical` converts, what `advanced` and `transport` write must be
read again as the same canonical form. Each text that `check` refuses `reduce` and `explain` must refuse by the same line. Of each that it
decides, the first entry that `explain` says grants must be the one that `check` names, unless both others refuse it as TooLarge."""
import os
import re
from collections.abc import Iterator
from typing import NamedTuple

from harness.support import COMMANDS, TOP, run

GRANTS = re.compile(rb"entry (\d+) grants")
TOO_LARGE = (2, b"refused TooLarge\n")
# Each way to write an octet, by a group; the last, empty one is a `%` that begins none of them.
ESCAPE = re.compile(rb"%(?:([0-9A-F]{2})|(n)|(-)|<(\d+)\*([^>]*)>|\[([^]]+)\]|())")
# So many octets of a text are shown.
SHOWN = 1000


class Row(NamedTuple):
    """A row: its place (`tables/NAME:LINE`), a command, a text, and the exit status and the answer that are expected."""

    place: str
    command: str
    text: bytes
    status: int
    answer: bytes


def octets_of(escape: re.Match[bytes]) -> bytes:
    """The octets that an escape, a match of ESCAPE, stands for. Raises ValueError if it has no meaning, OSError if its file cannot be read."""
    code, line_feed, nothing, times, repeated, path, _ = escape.groups()
    if code:
        return bytes.fromhex(code.decode())
    if line_feed:
        return b"\n"
    if nothing:
        return b""
    if times:
        return int(times) * repeated
    if path:
        with open(os.path.join(TOP, path.decode()), "rb") as file:
            return file.read()
    raise ValueError(f"{escape.string!r} has an unknown escape")


def unescaped(field: bytes) -> bytes:
    """The octets that a field of a row stands for. Raises ValueError for an escape without a meaning, OSError for a file that cannot be read."""
    return ESCAPE.sub(octets_of, field)


def rows_of(table: str) -> Iterator[Row]:
    """The rows of a table, by its path: of `any` one for each command. Raises ValueError for a line of another form, and what `unescaped` raises."""
    with open(table, "rb") as lines:
        for number, line in enumerate(lines, 1):
            line = line.rstrip(b"\n")
            if not line or line.startswith(b";"):
                continue
            place = f"tables/{os.path.basename(table)}:{number}"
            fields = re.split(rb" {2,}", line)
            if len(fields) != 4:
                raise ValueError(f"{place}: a row has a command, a status, a text and an answer")
            command, status, text, answer = fields
            for each in COMMANDS if command == b"any" else [command.decode()]:
                yield Row(place, each, unescaped(text), int(status), unescaped(answer))


def shown(octets: bytes) -> str:
    """Octets as a fault shows them, cut where they are long."""
    return f"{octets[:SHOWN]!r}{f'.. ({len(octets)} octets)' if len(octets) > SHOWN else ''}"


def fault_of(program: str, row: Row) -> str | None:
    """What is wrong with the program's answer to a row, None if nothing is."""
    status, answer = run(program, row.command, row.text)
    fault = fault_of_other_commands(program, row) if (status, answer) == (row.status, row.answer) else (
        f"expected {row.status} {shown(row.answer)}\nactual   {status} {shown(answer)}")
    return fault and f"{row.place}: {row.command}\ntext   {shown(row.text)}\n{fault}"


def fault_of_other_commands(program: str, row: Row) -> str | None:
    """What is wrong with what other commands answer to the text of a row, None if nothing is. `reduce` and `explain` must agree with `check`. What
    `advanced` and `transport` write of a text must be read as the value that `canonical` writes. Called only if the row's own answer is right."""
    if row.command == "check":
        return fault_of_check(program, row)
    if row.command != "canonical" or row.status:
        return None
    for form in ("advanced", "transport"):
        _, written = run(program, form, row.text)
        status, answer = run(program, "canonical", written)
        if (status, answer) != (0, row.answer):
            return f"what {form} writes is {shown(written)}\nexpected canonical to read the same value again\nactual   {status} {shown(answer)}"
    return None


def fault_of_check(program: str, row: Row) -> str | None:
    """What is wrong with what `reduce` and `explain` say of the text of a row of `check`, whose own answer is right. None if nothing is."""
    decided = row.status, row.answer
    reduced, explained = (run(program, command, row.text) for command in ("reduce", "explain"))
    all_three = (("check", decided), ("reduce", reduced), ("explain", explained))
    answers = "\n".join(f"{command:<9} {status} {shown(octets)}" for command, (status, octets) in all_three)
    if row.status == 2:
        return None if reduced == explained == decided else f"wanted reduce and explain to refuse it by the same line\n{answers}"
    if explained[0] == 2:
        return None if explained == reduced == TOO_LARGE else f"wanted explain to decide it, or to refuse it as TooLarge\n{answers}"
    first = GRANTS.search(explained[1])
    line = b"yes entry %s\n" % first[1] if first else b"no\n"
    return None if decided == (explained[0], line) else f"wanted explain to agree with check\n{answers}"
