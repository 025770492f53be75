"""Rows for `test_one_call`, the program that does calls of the libraries: those of the tables in `calls/`, and texts that are made here.

A row of a table is the name of a call, its texts and the answer that is wanted, with two or more spaces between them. Several names with
commas between them are a row each. Texts and answers are written as in `tables/` (`rows/__init__.py`). What a call takes and answers:

    run                             a command, a text; of the reader and of the writer: the octets of each call, the room, what follows
                                    then (`fails`, `interrupted`, or nothing more); and whether a flush fails. The answer is the status;
                                    the reader's calls, faults, whether it ended, octets left; the writer's calls, faults, whether it was
                                    flushed; and what was written
    decode, read_any, Tag::read ..  a text; the value in canonical form. `Tag::read` answers the number of nodes too
    Tag::meet, Tag::holds ..        two texts; a text, or yes or no
    Five::then, fold_chain ..       tuples, three texts each: the key of the issuer, the name that is defined, the rest as an entry.
                                    `fold_owned` takes the most nodes and the bound on work before them. The answer is an
                                    authorization, or the cause of a stop
    decide, explain, judge ..       a case, and a verifier: rows, or `all`, or `broken`, which is out of memory
    Guard::read                     a list, its policy, the most octets (or `usual`: the default limits) and nodes; empty: the greatest
    PreparedQuestion::decide ..     the four texts of `Guard::read`; a sequence, a key, a request, a moment; a verifier or marks
    answer_opened                   the four texts of `Guard::read`; `decide`, `explain` or `reduce`; then questions of five texts each: a
                                    sequence, a key, a request, a moment, marks
    OwnedQuestion::signed           the four texts of `Guard::read`; a sequence, a key, a request, a moment
    OwnedQuestion::decide_by ..     as many texts, and marks
    Guard::ask                      the four texts of `Guard::read`; a key, seconds, and the strings of a request
    first_member, grants ..         what the callers in `test_callers` take: `crates/test_one_call/src/callers.rt` says it

A refused text's answer is the fault and its message."""
import os
import re
import subprocess
from collections.abc import Iterable, Iterator
from typing import NamedTuple

from harness.support import EXAMPLES, SECONDS, TESTS
from rows import unescaped

CALLS = os.path.join(TESTS, "calls")
SHORT = b"Form(Short): the text ends too soon"
ADVANCED, BRACES = b'(a "b c" #6 4# |ZQ==| |ZQ| [x]3:fgh)', b"{KDE6YSk=}"
LINE = b"yes entry 1\n"


class CallRow(NamedTuple):
    """A row: its place (`calls/NAME:LINE`, or `calls/` and what it tests), the name of a call, its texts, and the answer that is expected."""

    place: str
    call: str
    texts: tuple[bytes, ...]
    answer: bytes

    def line(self) -> bytes:
        """The line that the program reads for the row: the call, and its texts in hexadecimal digits."""
        return b" ".join([self.call.encode(), *(text.hex().encode() for text in self.texts)]) + b"\n"


def rows_of(table: str) -> Iterator[CallRow]:
    """The rows of a table in the folder `calls/`, by its name: of several calls one for each. Raises ValueError for a line of one field, and what
    `unescaped` raises."""
    with open(os.path.join(CALLS, table), "rb") as lines:
        for number, line in enumerate(lines, 1):
            line = line.rstrip(b"\n")
            if line and not line.startswith(b";"):
                calls, *texts, answer = re.split(rb" {2,}", line)
                for call in calls.decode().split(","):
                    yield CallRow(f"calls/{table}:{number}", call, tuple(map(unescaped, texts)), unescaped(answer))


def tables() -> dict[str, list[CallRow]]:
    """The rows of each table in the folder `calls/`, by the table's name."""
    return {name: list(rows_of(name)) for name in sorted(os.listdir(CALLS))}


def answers(program: str, rows: Iterable[CallRow]) -> list[bytes]:
    """What the program answers to rows, in order. If its status is not 0, since a row has no answer or it ended early, `ended with STATUS: MESSAGE`
    follows, with what it wrote to standard error."""
    done = subprocess.run([program], input=b"".join(row.line() for row in rows), capture_output=True, timeout=SECONDS)
    ending = [b"ended with %d: %s" % (done.returncode, done.stderr)] if done.returncode else []
    return [answer_of(line) for line in done.stdout.split(b"\n")[:-1]] + ending


def answer_of(line: bytes) -> bytes:
    """The octets that a line of the program has in hexadecimal digits, or the line itself if it has other characters, as `refused Memory` has."""
    try:
        return bytes.fromhex(line.decode())
    except ValueError:
        return line


# ---- texts that are cut short


def first_run() -> bytes:
    """The text of examples/first-run.csexp."""
    with open(os.path.join(EXAMPLES, "first-run.csexp"), "rb") as file:
        return file.read()


def cut_short() -> Iterator[CallRow]:
    """Calls of readers on texts that lack their last octets, in canonical, advanced and transport form: each is refused as `Short`."""
    for calls, text in ((("decode", "Doc::open"), first_run()), (("read_advanced", "read_any"), ADVANCED), (("read_any",), BRACES)):
        for length in range(len(text)):
            for call in calls:
                # (two octets say which of the two texts of `read_any` a row has)
                yield CallRow(f"calls/cut:{call}:{text[:2].decode()}:{length}", call, (text[:length],), SHORT)


# ---- readers and writers that fail


def number(value: int) -> bytes:
    """A number as a text of a row."""
    return b"%d" % value


def failing_ends() -> Iterator[CallRow]:
    """Calls of `run` on the first run, in which the reader or the writer, at an octet a call, fails after `room` octets, or the writer is full."""
    # (the texts and the answers are those that the head of this file describes for `run`; 3 is the status where reading or writing fails)
    text = first_run()
    for room in range(len(text) + 1):
        wanted = b"3, %d 1 false %d, 0 0 false;" % (room + 1, len(text) - room)
        yield CallRow(f"calls/ends:read {room}", "run", (b"check", text, b"1", number(room), b"fails"), wanted)
    for room in range(len(LINE)):
        for past in (b"fails", b""):
            wanted = b"3, 2 0 true 0, %d 1 false;%s" % (room + 1, LINE[:room])
            texts = (b"check", text, b"", b"", b"", b"1", number(room), past)  # (no limit of the reader)
            yield CallRow(f"calls/ends:write {room} {past.decode() or 'no more'}", "run", texts, wanted)
