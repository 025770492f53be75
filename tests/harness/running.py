"""Runs tests of unittest in several processes, and says what passed, what failed and what was skipped. A part is some tests of one class, which one
process runs, mostly all of them. A row of a table is a test whose name has `:` in it, as `test_tables/tags:12`."""
import contextlib
import io
import multiprocessing
import os
import sys
import tempfile
import time
import traceback
import unittest
from collections import Counter
from collections.abc import Iterable, Iterator, Sequence
from concurrent.futures import FIRST_COMPLETED, Future, ProcessPoolExecutor, wait
from dataclasses import dataclass, field

from harness import needs
from harness.support import TESTS

# The modules that take longest begin first. A class whose tests ask the program alone, each by itself, is divided.
LONGEST_FIRST = ("test_model", "test_clibrary", "test_go", "test_bindings", "test_hostile", "test_guide", "test_service", "test_store",
                 "test_database")
APART, MOST_TOGETHER = ("test_tables", "test_locate"), 60
SUITE = os.path.join(TESTS, "suite")
FAULT_LENGTH, SECONDS_BETWEEN_LINES = 6000, 300
# A line of a test that is shown although it passes begins so.
NOTE = "note: "


@dataclass
class Outcome:
    """The outcome of some tests of one class: how many passed, the faults of those that failed by their names, the names and reasons of those that
    were skipped, and what all of them wrote."""

    name: str
    passed: int = 0
    failed: dict[str, str] = field(default_factory=dict)
    skipped: list[tuple[str, str]] = field(default_factory=list)
    seconds: float = 0.0
    output: str = ""


def module_of(test: unittest.TestCase) -> str:
    """The module of a test, without the folder. For one that is skipped as a whole, unittest makes a test with the module's name."""
    return test.id().rpartition(".")[2] if is_whole_module(test) else type(test).__module__.removeprefix("suite.")


def short_name(test: unittest.TestCase) -> str:
    """The name of a test for `tests/run`: a row of a table by its place, as `tables/tags:12`, another by module, class and method."""
    module, _, rest = test.id().removeprefix("suite.").partition(".")
    method = rest.partition(".")[2].removeprefix("test_")
    return method if ":" in method else f"{module.removeprefix('test_')}.{rest}"


def goes_by(test: unittest.TestCase, name: str) -> bool:
    """Whether a name of the command line selects a test: it is that of the test, its table, its class or its module, or the path of its module."""
    name = name.removeprefix(f"{os.path.relpath(SUITE)}{os.sep}").removesuffix(".py").removeprefix("suite.").removeprefix("test_")
    module, class_name = module_of(test).removeprefix("test_"), type(test).__qualname__
    names = (short_name(test), test.id().removeprefix("suite.test_"), module, f"{module}.{class_name}", class_name)
    return name in names or ":" in short_name(test) and short_name(test).startswith(f"{name}:")


# ---- in a process of its own


class Result(unittest.TestResult):
    """Gathers the results of tests of one class into `outcome`. A test that fails, or of which several subtests fail, counts once."""

    def __init__(self, outcome: Outcome, stops_early: bool) -> None:
        super().__init__()
        self.outcome, self.failfast = outcome, stops_early

    def addSuccess(self, test: unittest.TestCase) -> None:
        self.outcome.passed += short_name(test) not in self.outcome.failed

    def addSkip(self, test: unittest.TestCase, reason: str) -> None:
        if needs.is_by_missing_needs(reason):
            self.outcome.skipped.append((short_name(test), reason))
        else:
            self.add(test, f"it was skipped although tests/harness/needs.py says that nothing is missing: {reason}")

    def addFailure(self, test, err) -> None:
        # (the message of an assertion says what is wrong, and of another exception only the traceback says where it is)
        self.add(test, str(err[1]) if isinstance(err[1], AssertionError) and str(err[1]) else "".join(traceback.format_exception(*err)))

    def addError(self, test, err) -> None:
        self.addFailure(test, err)

    def addSubTest(self, test, subtest, err) -> None:
        if err is not None:
            self.addFailure(test, err)

    def addUnexpectedSuccess(self, test) -> None:
        self.add(test, "it passes, and it is marked as one that fails")

    def add(self, test, text: str) -> None:
        """Adds a fault of a test, behind those that it has already. Where the setup of a class failed, `test` is unittest's object for the class. If
        the result stops early (`failfast`), no further test begins."""
        name = short_name(test) if isinstance(test, unittest.TestCase) else str(test)
        self.outcome.failed[name] = self.outcome.failed.get(name, "") + text.rstrip() + "\n"
        if self.failfast:
            self.stop()


@contextlib.contextmanager
def catching_outputs() -> Iterator[io.StringIO]:
    """A context that catches what this process and those that it starts write to both outputs. Yields a text that has this once the context ended."""
    caught, originals = io.StringIO(), [os.dup(1), os.dup(2)]
    with tempfile.TemporaryFile() as file:
        sys.stdout.flush()
        sys.stderr.flush()
        for descriptor in (1, 2):
            os.dup2(file.fileno(), descriptor)
        try:
            yield caught
        finally:
            sys.stdout.flush()
            sys.stderr.flush()
            for descriptor, original in zip((1, 2), originals):
                os.dup2(original, descriptor)
                os.close(original)
            file.seek(0)
            caught.write(file.read().decode(errors="replace"))


def run_part(name: str, tests: list[unittest.TestCase], stops_early: bool) -> Outcome:
    """Runs some tests of the class of this name, and returns their outcome. `stops_early`: no test begins after the first that fails."""
    outcome, begun = Outcome(name), time.monotonic()
    with catching_outputs() as caught:
        unittest.TestSuite(tests).run(Result(outcome, stops_early))
    outcome.seconds, outcome.output = time.monotonic() - begun, caught.getvalue()
    return outcome


# ---- all of them


def flattened(suite: unittest.TestSuite | unittest.TestCase) -> Iterator[unittest.TestCase]:
    """The tests of a suite."""
    if isinstance(suite, unittest.TestCase):
        yield suite
    else:
        for each in suite:
            yield from flattened(each)


def tests_of(words: list[str], modules: Sequence[str] = ()) -> list[unittest.TestCase]:
    """The tests of these modules, or of all if none is given. If there are words, only those whose names contain one, or match one with a star."""
    loader = unittest.TestLoader()
    if words:
        loader.testNamePatterns = [word if "*" in word else f"*{word}*" for word in words]
    if not modules:
        return list(flattened(loader.discover(SUITE, top_level_dir=TESTS)))
    return list(flattened(loader.loadTestsFromNames([f"suite.{module}" for module in modules])))


def is_whole_module(test: unittest.TestCase) -> bool:
    """Whether unittest has put this in the place of a module that is skipped or cannot be imported. No other process can be sent its class."""
    return type(test).__module__ == unittest.loader.__name__


def parts_of(tests: Iterable[unittest.TestCase]) -> list[tuple[str, list[unittest.TestCase]]]:
    """The tests in parts (name of the class, tests), those that take longest first. One of APART has parts of MOST_TOGETHER tests."""
    by_class: dict[str, list[unittest.TestCase]] = {}
    for test in tests:
        name = module_of(test) if is_whole_module(test) else f"{module_of(test)}.{type(test).__qualname__}"
        by_class.setdefault(name, []).append(test)
    parts = []
    for name, of_class in by_class.items():
        size = MOST_TOGETHER if name.split(".")[0] in APART else len(of_class)
        parts += [(name, of_class[start:start + size]) for start in range(0, len(of_class), size)]
    order = {name: place for place, name in enumerate(LONGEST_FIRST)}
    return sorted(parts, key=lambda part: order.get(part[0].split(".")[0], len(order)))


def print_faults(outcome: Outcome, command: str) -> None:
    """Prints what failed in a part, with the end of what its tests wrote, each up to FAULT_LENGTH characters; and always its tests' notes. `command`,
    with the name of a test behind it, runs this test alone."""
    for name, text in outcome.failed.items():
        print(f"\nFAILED {name}\n{text[:FAULT_LENGTH]}alone  {command} '{name}'\n", flush=True)
    if outcome.failed and outcome.output:
        print(f"what {outcome.name} wrote:\n{outcome.output[-FAULT_LENGTH:]}", flush=True)
    print("".join(f"{line}\n" for line in outcome.output.splitlines() if line.startswith(NOTE)), end="", flush=True)


def line_of_class(name: str, outcomes: list[Outcome]) -> str:
    """A line with the outcomes of all parts of a class."""
    counts = [(sum(part.passed for part in outcomes), "passed"), (sum(len(part.failed) for part in outcomes), "failed"),
              (sum(len(part.skipped) for part in outcomes), "skipped")]
    text = ", ".join(f"{count} {what}" for count, what in counts if count)
    return f"{name:<44} {text or 'nothing was run'}, {sum(part.seconds for part in outcomes):.1f} s"


class Report:
    """The outcomes so far, printed by classes as they end. `command`, with the name of a test behind it, runs this test alone. `left` has, by the
    names of the classes, how many of their parts have not ended."""

    def __init__(self, parts: Iterable[tuple[str, list[unittest.TestCase]]], command: str) -> None:
        self.left, self.command = Counter(name for name, _ in parts), command
        self.outcomes: list[Outcome] = []

    def add(self, outcome: Outcome) -> None:
        """Adds the outcome of a part, and prints its faults. Behind the last part of a class it prints the line of the class."""
        self.outcomes.append(outcome)
        print_faults(outcome, self.command)
        self.left[outcome.name] -= 1
        if not self.left[outcome.name]:
            print(line_of_class(outcome.name, [each for each in self.outcomes if each.name == outcome.name]), flush=True)


def outcome_of(future: Future, name: str) -> Outcome:
    """The outcome of a part. If its process died, or `run_part` raised there, that is a fault of the class."""
    fault = future.exception()
    return future.result() if fault is None else Outcome(name, failed={name: f"its process ended: {fault!r}\n"})


def as_they_end(started: dict[Future, str]) -> Iterator[Future]:
    """Yields the future of each part when it has ended. `started` has the class's name by the future. After each five minutes in which none ends it
    prints the names of those that run."""
    left = set(started)
    while left:
        ended, left = wait(left, SECONDS_BETWEEN_LINES, FIRST_COMPLETED)
        yield from ended
        if not ended:
            print("still running:", ", ".join(sorted({started[future] for future in left if future.running()})), flush=True)


def run_all(tests: list[unittest.TestCase], jobs: int, stops_early: bool, command: str) -> list[Outcome]:
    """Runs tests in `jobs` processes, and prints their outcomes. Returns one for each part that began. `stops_early`: the first failure cancels
    what waits. `command`, with the name of a test behind it, runs this test alone. What stands for a whole module has its part in this process."""
    parts = parts_of(tests)
    report = Report(parts, command)
    for name, part in parts:
        if is_whole_module(part[0]):
            report.add(run_part(name, part, stops_early))
    with ProcessPoolExecutor(jobs, mp_context=multiprocessing.get_context("fork")) as pool:
        started = {pool.submit(run_part, name, part, stops_early): name for name, part in parts if not is_whole_module(part[0])}
        for future in as_they_end(started):
            if not future.cancelled():
                report.add(outcome_of(future, started[future]))
            if stops_early and any(outcome.failed for outcome in report.outcomes):
                pool.shutdown(wait=False, cancel_futures=True)
    return report.outcomes


def skipped_lines(outcomes: Iterable[Outcome]) -> Iterator[str]:
    """A line for each class and each reason by which tests of it were skipped, sorted. `.ci/merge_gate/report.py` reads them by `skipped: `."""
    reasons = Counter((outcome.name, reason) for outcome in outcomes for _, reason in outcome.skipped)
    for (name, reason), count in sorted(reasons.items()):
        yield f"skipped: {count} of {name} ({reason})"
