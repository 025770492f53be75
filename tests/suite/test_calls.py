"""Runs `test_one_call`, the program that does calls of the libraries, on the rows of the tables in `calls/` and on those that `call_rows.py`,
`guard_rows.py` and `question_rows.py` make. A row has a call, its texts and the expected answer. Each is a test, which `tests/run calls/tags:12`
runs alone; all rows of a class are given to one process. `rt ci` makes the program by a second compiler too: if it is there, it answers alike."""
import os
import re
import unittest
from collections.abc import Callable, Iterable, Iterator

from harness import built
from rows import call_rows, guard_rows, question_rows, shown
from rows.call_rows import CallRow

# The functions that make rows, by the names of the classes of their tests.
MAKERS: dict[str, Callable[[], Iterator[CallRow]]] = {
    "CutShort": call_rows.cut_short, "FailingEnds": call_rows.failing_ends, "Verifiers": guard_rows.of_verifiers,
    "SeparateRows": guard_rows.of_separate_rows, "RevokedKeys": guard_rows.of_revoked_keys, "Questions": guard_rows.of_questions,
    "RefusedParts": question_rows.of_refused_parts, "Strings": question_rows.of_strings, "Seconds": question_rows.of_seconds,
    "Limits": question_rows.of_limits, "SeveralEntries": question_rows.of_several_entries}
# How an answer begins that is a refusal, as in `Form(Short): `.
FAULT = re.compile(rb"\w+\(.*\): ")
# The most octets of all texts of a row that is an example.
MOST_OCTETS = 1000
# How the place of a row begins in which the second of two entries grants, by a certificate.
BY_CERTIFICATE = "calls/questions:second-entry 1 (public-key (test b)):"


def all_rows() -> dict[str, list[CallRow]]:
    """The rows of each class of tests, by its name. A table in calls/ gives a class, and each of MAKERS too."""
    return {name.capitalize(): rows for name, rows in call_rows.tables().items()} | {name: list(make()) for name, make in MAKERS.items()}


def examples() -> list[CallRow]:
    """For each call at most two rows, the best by `rank`: one whose texts are read, one whose texts are refused. test_hostile.py repeats them."""
    best: dict[tuple[str, bool], CallRow] = {}
    for row in (row for rows in all_rows().values() for row in rows if is_example(row)):
        kind = row.call, FAULT.match(row.answer) is not None
        if kind not in best or rank(row) > rank(best[kind]):
            best[kind] = row
    return [*best.values()]


def rank(row: CallRow) -> tuple[bool, int]:
    """How good an example a row is, as a key for sorting: best is a grant by a certificate, then a longer answer, which takes more memory."""
    return row.place.startswith(BY_CERTIFICATE), len(row.answer)


def is_example(row: CallRow) -> bool:
    """Whether a row may be an example: it is short, it is not about depth, and no reader, writer or verifier fails by itself. No row of the call
    `run` is one: its writer allocates too, and if memory is refused there, the answer is a fault of writing."""
    texts = b" ".join(row.texts)
    is_short = row.call != "run" and len(texts) <= MOST_OCTETS
    return is_short and not any(word in texts for word in (b"((((", b"( ( (", b"broken", b"interrupted", b"fails"))


class OfCalls(unittest.TestCase):
    """Tests of calls: the rows, and what the program answers to all of them."""

    path = built.ONE_CALL
    rows: dict[str, CallRow] = {}
    answers: dict[str, bytes]

    @classmethod
    def setUpClass(cls) -> None:
        # (a status behind all answers is left out: it is 2 where a row's answer is `refused Memory`)
        cls.answers = dict(zip(cls.rows, call_rows.answers(built.existing(cls.path), cls.rows.values())))

    def check_row(self, name: str) -> None:
        """The program's answer to the row of this name must be the expected one. If the program ended early, with a status other than 0, the first
        row without an answer has `ended with STATUS: MESSAGE`, and those behind it `no answer`."""
        row, answer = self.rows[name], self.answers.get(name, b"no answer")
        if answer != row.answer:
            texts = "\n".join(f"text   {shown(text)}" for text in row.texts)
            self.fail(f"{row.place}: {row.call}\n{texts}\nexpected {shown(row.answer)}\nactual   {shown(answer)}")


def row_test(name: str) -> Callable[[OfCalls], None]:
    """The test of the row with this name."""
    return lambda self: self.check_row(name)


def class_of_rows(name: str, rows: Iterable[CallRow], path: str) -> type:
    """A class of this name with a test for each of these rows. The program at `path` answers them."""
    named = {f"test_{row.place}:{row.call}": row for row in rows}
    tests = {each: row_test(each) for each in named}
    return type(name, (OfCalls,), {"path": path, "rows": named} | tests)


def add_classes() -> None:
    """Adds the classes to this module: those for the program, and those for the second compiler's program if that has been built."""
    rows = all_rows()
    for ending, path in (("", built.ONE_CALL), ("BySecondCompiler", built.ONE_CALL_BY_RATTLE)):
        if ending and not os.path.exists(path):
            continue
        for name, of_class in rows.items():
            globals()[name + ending] = class_of_rows(name + ending, of_class, path)


add_classes()
