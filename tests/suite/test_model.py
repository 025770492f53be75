"""Compares the library and the program with the model in `model/`, on as many generated cases as SPKI_TEST_CASES says; and the model with
the rows of the tables, whose answers were worked out by hand, and with the words of docs/FORMATS.md.
`differential.py` says what a case is, and repeats one. Where the program alone is tested, it answers each text but those of `check_accepted`."""
import os
import re
import secrets
import tempfile
import unittest
from collections import Counter
from collections.abc import Callable, Iterator

import differential
from generators.questions import question
from harness import built, needs
from harness.relayed import Relayed
from harness.support import ON_ARM, TESTS, is_compiled, tables_here, text_of
from model import coverage
from model.answers import COMMANDS, ModelDisagrees, answer
from model.guard import WISHES
from rows import rows_of, shown

# Words of docs/FORMATS.md for faults, causes, stops and statuses. In a line `refused ..`, and in a column for faults, any word with a capital is one.
WORD = re.compile(r"\b(?:[A-Z][a-z]+(?:[A-Z][a-z]+)+|SPKI_[A-Z_]+)\b")
LINE, ANY_WORD = re.compile(r"`(refused [^`]*)`"), re.compile(r"\b[A-Z]\w+")
# The heading of a column is no such word. Allocations fail in tests/suite/test_hostile.py and tests/suite/test_clibrary.py.
ELSEWHERE = {"Fault", "Faults", "Memory", "SPKI_NO_MEMORY"}
CASES_ON_ARM = 2_000  # (the most: an emulator is slow)
# The kinds of cases: each that is asked has a test of its own, named after it.
ASKED = (*COMMANDS, "check_accepted", *(f"guard {wish}" for wish in WISHES), "calls", "spki_string")


def fault_columns(text: str) -> Iterator[str]:
    """Yields the cells, with the heading and the dashes, of the first column whose heading begins with `Fault`, of each table in a text."""
    column: int | None = None
    for line in text.splitlines():
        cells = line.split("|") if line.startswith("|") else []
        if not cells:
            column = None
        elif column is None:
            # (where no cell is such a heading, a place behind the last cell, at which no row has a cell)
            column = next((place for place, cell in enumerate(cells) if cell.strip().startswith("Fault")), len(cells))
        yield from cells[column:][:1] if column is not None else []


class Model(unittest.TestCase):
    """The model beside the tables and the document."""

    def test_tables(self) -> None:
        """The model answers each row of the tables as the row says."""
        for row in (row for table in tables_here() for row in rows_of(table)):
            with self.subTest(row.place, command=row.command):
                try:
                    status_and_answer = answer(row.command, row.text)
                except ModelDisagrees as why:
                    self.fail(f"{row.place}: {row.command}: {why}")
                self.assertEqual(status_and_answer, (row.status, row.answer), f"{row.place}: {row.command}\ntext   {shown(row.text)}")

    def test_words_of_the_document(self) -> None:
        """Each word of docs/FORMATS.md for a fault, a cause, a stop or a status is in a row of the model."""
        text = text_of("docs/FORMATS.md")
        parts = [*LINE.findall(text), *fault_columns(text)]
        named = {*WORD.findall(text), *(word for part in parts for word in ANY_WORD.findall(part))}
        rows = {word for table in coverage.TABLES for row in table.counts for word in re.findall(r"\w+", row)}
        self.assertEqual(sorted(named - rows - ELSEWHERE), [], "docs/FORMATS.md names words that are in no row of the model")


@needs.needs(*([] if built.IS_ALONE else needs.LIBRARY))
class Generated(built.OfProgram):
    """The library on each case and the program on some; or the program alone on each text of its commands."""

    # `differ` and `ended` are the numbers of the cases that differ, and of those that ended their process. `rows` counts how often each row of
    # the model came. `described` has what is printed of some of these cases, by their numbers. `by_program` is how many cases the program answered.
    seed: str
    differ: list[int]
    ended: list[int]
    rows: Counter
    described: dict[int, str]
    by_program: int

    @classmethod
    def setUpClass(cls) -> None:
        """Compares all cases once, with a new seed. The tests of the commands look at those that differ."""
        super().setUpClass()
        cls.seed = secrets.token_hex(4)
        with tempfile.TemporaryDirectory() as folder:
            archive = None if built.IS_ALONE else built.library()
            comparison = differential.comparison_of(cls.program, archive, folder, cls.seed)
            cls.differ, cls.ended, cls.rows = differential.compare(comparison, first=0, cases=built.CASES, jobs=os.cpu_count() or 1)
            cls.described = {number: differential.lines_of_case(comparison, number) for number in cls.differ[:differential.SHOWN]}
        cls.described.update({number: differential.line_of_ended(cls.seed, number) for number in cls.ended})
        cls.by_program = comparison.by_program

    def check_command(self, command: str) -> None:
        """No case of a command may differ, or end its process."""
        alone = " --program-alone" if built.IS_ALONE else ""
        faults = [f"{self.described.get(number, f'case {number} differs')}\n"
                  f"alone  tests/differential.py{alone} --seed {self.seed} --first {number} --cases 1"
                  for number in [*self.differ, *self.ended] if question(self.seed, number).command == command]
        if faults:
            self.fail("\n".join(faults))

    def test_all_are_asked(self) -> None:
        """Each case that differs or has ended its process is of a command that has a test here."""
        others = {question(self.seed, number).command for number in [*self.differ, *self.ended]} - {*ASKED}
        self.assertEqual(others, set())


@needs.needs(*needs.ARM, "qemu-aarch64")
class GeneratedOnArm(built.OfProgram):
    """The library for ARM on other cases, in an emulator, and the program of this machine on some of them."""

    def test_cases(self) -> None:
        """Both answer as the model does. In the emulator relay.c, linked with the library, does the calls that it is sent."""
        seed, cases = secrets.token_hex(4), min(built.CASES, CASES_ON_ARM)
        with tempfile.TemporaryDirectory() as folder:
            relay, source = os.path.join(folder, "relay"), os.path.join(TESTS, "programs", "relay.c")
            self.assertTrue(is_compiled("aarch64-linux-gnu-gcc", "-std=c11", "-O1", "-o", relay, source, built.arm()))
            relayed = Relayed([*ON_ARM, relay])
            self.addCleanup(relayed.close)
            comparison = differential.Comparison(differential.Library(relayed), self.program, seed)
            differ, ended, _ = differential.compare(comparison, first=0, cases=cases, jobs=os.cpu_count() or 1)
            described = [differential.lines_of_case(comparison, number) for number in differ[:differential.SHOWN]]
        self.assertEqual((described, ended), ([], []), f"cases 0 to {cases - 1}, seed {seed}")


def command_test(command: str) -> Callable[[Generated], None]:
    """A test method that checks the cases of a command."""
    return lambda self: self.check_command(command)


def rows_that_came(self: Generated) -> None:
    """A test method: some case must reach each row of the model, such as a fault, if there are 20,000 cases or more."""
    never = differential.unreached(self.rows) if built.CASES >= differential.WHOLE_COVERAGE else []
    self.assertEqual(never, [], f"never came, seed {self.seed}")


def part_of_the_program(self: Generated) -> None:
    """A test method: the program must answer at least a tenth of all cases, if there are 20,000 or more."""
    wanted = differential.PROGRAM_SHARE * built.CASES if built.CASES >= differential.WHOLE_COVERAGE else 0
    self.assertGreaterEqual(self.by_program, wanted)


for name in COMMANDS if built.IS_ALONE else ASKED:
    setattr(Generated, f"test_{name.replace(' ', '_')}", command_test(name))
if built.IS_ALONE:
    del GeneratedOnArm
else:
    setattr(Generated, "test_rows_that_came", rows_that_came)
    setattr(Generated, "test_part_of_the_program", part_of_the_program)
