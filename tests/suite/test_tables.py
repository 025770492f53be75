"""Runs the program on the rows of the tables in `tables/`, on the pairs of sets of `pairs.py` and on the cases with certificates of `chains.py`. A
row has a command, a text and the expected answer. Each is a test, which `tests/run tables/malformed:12` runs alone; of the pairs, all with the same
first set are one. `rt ci` makes the program by a second compiler too: if it is there, it must answer the same."""
import os
from collections import Counter
from collections.abc import Callable, Iterable, Iterator
from concurrent.futures import ThreadPoolExecutor

from harness import built
from harness.support import run, tables_here
from rows import Row, chains, fault_of, pairs, rows_of

Test = Callable[[built.OfProgram], None]
SETS = len(pairs.sets())
# The program that `rt try` compiles is not optimized: these would take it a minute and more, and are left out then.
SLOW_WITHOUT_PROOFS = ("chains:chain with 101 strings",)


class BySecondCompiler(built.OfProgram):
    """Tests of the program that the compiler written in Rattle has built."""

    @classmethod
    def setUpClass(cls) -> None:
        cls.program = built.existing(built.BY_RATTLE)


def row_test(row: Row) -> Test:
    """A test method: the program must give the answer of the row, and by other commands answers that agree with it (`fault_of`)."""
    def test(self: built.OfProgram) -> None:
        fault = fault_of(self.program, row)
        if fault:
            self.fail(fault)
    return test


def named_tests(rows: Iterable[Row]) -> Iterator[tuple[str, Test]]:
    """Yields the name and the test of each row. The name is the place of the row, with the command if several have this place, and with a number, 2
    or more, behind the first one that has both."""
    listed = list(rows)
    places, named = Counter(row.place for row in listed), Counter[str]()
    for row in listed:
        name = f"test_{row.place}{f':{row.command}' if places[row.place] > 1 else ''}"
        named[name] += 1
        yield f"{name}{f':{named[name]}' if named[name] > 1 else ''}", row_test(row)


def faults_of_pairs(program: str) -> list[str | None]:
    """What is wrong with the program's answer to each pair of sets, in the order of `pairs.rows`, or None if nothing is."""
    with ThreadPoolExecutor(os.cpu_count()) as pool:
        # (`pairs.rows` composes the expected answers of what the program answers to pairs of members)
        rows = [Row(*row) for row in pairs.rows(lambda text: pool.submit(run, program, "intersect", text))]
        return list(pool.map(lambda row: fault_of(program, row), rows))


def pairs_test(number: int) -> Test:
    """A test method for the pairs whose first set has this number, from 0. The first of them that runs asks the program about all pairs."""
    def test(self: built.OfProgram) -> None:
        own = type(self)
        if not hasattr(own, "faults"):
            setattr(own, "faults", faults_of_pairs(self.program))
        faults: list[str] = list(filter(None, getattr(own, "faults")[number * SETS:(number + 1) * SETS]))
        if faults:
            self.fail("\n".join(faults))
    return test


def classes(base: type[built.OfProgram], ending: str = "") -> Iterator[type]:
    """Yields the classes of tests, derived from `base`: one for each table, `Chains` and `Pairs`, each with `ending` behind its name."""
    tables = {os.path.basename(path).capitalize(): rows_of(path) for path in tables_here()}
    for name, rows in {**tables, "Chains": map(Row._make, chains.rows())}.items():
        tried = (row for row in rows if not (built.IS_ALONE and row.place in SLOW_WITHOUT_PROOFS))
        yield type(name + ending, (base,), dict(named_tests(tried)))
    yield type(f"Pairs{ending}", (base,), {f"test_pairs:{number + 1}": pairs_test(number) for number in range(SETS)})


def add_classes() -> None:
    """Adds the classes to this module, also those of the second compiler's program where it is there. With `--quick` it is left out: the program that
    is tested was compiled anew, and the second compiler's may be of older sources."""
    added = list(classes(built.OfProgram))
    if os.path.exists(built.BY_RATTLE) and not built.IS_ALONE:
        added += classes(BySecondCompiler, "BySecondCompiler")
    globals().update({each.__name__: each for each in added})


add_classes()
