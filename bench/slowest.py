#!/usr/bin/env python3
"""Searches for the slowest texts of each call, and fails if one takes more than docs/PERFORMANCE.md says: the table "The texts that take longest".

A recipe (recipes.py) has the numbers by which a text is made. The first recipes of each call are named: their texts were slow once. A search then
changes their numbers by chance, mostly one part at a time, with a fixed seed and for a fixed number of steps. It goes on from the recipe whose text
takes the most time for its octets. The slowest ones are then made as large as the call allows, and measured beside the named ones. Times are
processor times. A time over its limit is taken again, and the least counts: other programs only add to it.

`--named` measures the named texts alone. A call may be named by its first words, as in `slowest.py "a guard decides"`.

Build the program and the library first. Usage: bench/slowest.py [--named] [--steps N] [--seed N] [--program FILE] [--library FILE] [CALL ..]
"""
import argparse
import os
import random
import resource
import signal
import subprocess
import sys
import tempfile
import time
from collections.abc import Iterator
from functools import cached_property

from typing import Any, NamedTuple

from memory import used
from recipes import Entries, Form, Link, Recipe, Tag, changed, changed_form, fitted, formed
from shared import BENCH, LIBRARY, PROGRAM, TOP

KIB, MIB = 1 << 10, 1 << 20
FLAGS = ["-std=c11", "-O2", "-Wall", "-Wextra", "-Wpedantic", "-Werror", "-Wl,--wrap=malloc,--wrap=realloc,--wrap=free"]
# How many steps the searches for one call have together, their seed, how many of them begin with the plainest text, and how many of the slowest
# texts are measured in full.
STEPS, SEED, STARTS, IN_FULL = 160, 72, 2, 2
# The most octets of the list and of the question of a text in a search, and the processor seconds after which a run is ended.
SEARCHED_LIST, SEARCHED_QUESTION, MOST_SECONDS = 64 * KIB, 16 * KIB, 20
# How often a time over its limit is taken again at most, and the seconds before each turn.
TURNS, PAUSE = 4, 5
# The most octets of memory of a run. A run that needs more answers `refused Memory`. Without this limit `reduce` could take all of the machine.
MOST_MEMORY = 8 << 30
# Processor seconds for each entry that no limit of work refuses, as its product of nodes is at most 1,000,000, and for each octet that is written.
SECONDS_AN_ENTRY, SECONDS_AN_OCTET = 0.1, 2e-9
# The most entries of a text that the search makes for a call whose limit is by the entry: 10,000 would take a quarter of an hour, and show no more.
MOST_ENTRIES = 100
# More certificates and entries than any text has.
MANY = 1 << 30


class Call(NamedTuple):
    """A call, and the most seconds and MiB that it may take. A guard's call has a word and limits of slowest.c; a command has no limits. `listed`
    and `asked` are the most octets of the list and the question, `certificates` the most certificates, and `marks` says which signatures are valid.
    `is_by_entry`: each entry may add SECONDS_AN_ENTRY, and `entry_mebibytes` of memory."""

    what: str
    word: str
    limits: str
    listed: int
    asked: int
    certificates: int
    seconds: float
    mebibytes: float
    marks: str = "all"
    is_by_entry: bool = False
    entry_mebibytes: int = 0

    @property
    def limit(self) -> str:
        """The most that it takes, in words."""
        seconds = f"{1000 * self.seconds:g} ms" if self.seconds < 1 else f"{self.seconds:g} s"
        more = f" and {1000 * SECONDS_AN_ENTRY:g} ms an entry" if self.is_by_entry else ""
        more_memory = f" and {self.entry_mebibytes} MiB an entry" if self.entry_mebibytes else ""
        return f"{seconds}{more} | {self.mebibytes:g} MiB{more_memory}"


# The table of docs/PERFORMANCE.md.
CALLS = [
    Call("a guard opens a list", "list", "usual", MIB, 1 * KIB, 16, 0.15, 40),
    Call("opens a question by the highest limits", "question", "highest", 1 * KIB, MIB, MANY, 0.15, 40),
    Call("a guard decides", "decide", "usual", MIB, 64 * KIB, 16, 0.06, 16),
    Call("decides by the highest limits", "decide", "highest", MIB, MIB, MANY, 0.3, 80, "half"),
    Call("a guard explains", "explain", "usual", MIB, 64 * KIB, 16, 0.2, 16),
    Call("reduces", "reduce", "usual", MIB, 64 * KIB, 16, 0.2, 16),
    Call("explains by the highest limits", "explain", "highest", MIB, MIB, MANY, 5, 1024),
    Call("reduces by the highest limits", "reduce", "highest", MIB, MIB, MANY, 5, 1024),
    Call("spki check", "check", "", MIB // 2, MIB // 3, MANY, 10, 256),
    Call("spki explain", "explain", "", MIB // 2, MIB // 3, MANY, 10, 256, is_by_entry=True),
    Call("spki reduce", "reduce", "", MIB // 2, MIB // 3, MANY, 10, 256, is_by_entry=True, entry_mebibytes=120),
    Call("spki intersect", "intersect", "", MIB // 2, MIB // 2, MANY, 10, 256),
    Call("spki canonical", "canonical", "", MIB, 0, 0, 10, 256),
    Call("spki advanced", "advanced", "", MIB, 0, 0, 10, 256),
    Call("spki transport", "transport", "", MIB, 0, 0, 10, 256)]
FORMED = ("canonical", "advanced", "transport")


def rows() -> list[str]:
    """The rows that the table of docs/PERFORMANCE.md must have. A test compares the page with them."""
    limits = dict.fromkeys(call.limit for call in CALLS)
    return [f"| {', '.join(call.what for call in CALLS if call.limit == limit)} | {limit} |" for limit in limits]


def ranges(members: int = 314) -> Link:
    """A certificate for a set of so many ranges without limits."""
    return Link(Tag("set", members, leaf_kind="range"))


def equal_strings(members: int) -> Link:
    """A certificate for a set of so many equal strings."""
    return Link(Tag("set", members))


LONG_PREFIX = Entries(Tag("prefix"), grows="octets")
NESTED = Tag("set", 960, depth=57)


class Named(NamedTuple):
    """A recipe that was slow once, for the calls whose names begin with one of `words`. The list has at most `listed` octets and the question
    `asked`, or fewer if the call allows only fewer."""

    what: str
    words: tuple[str, ...]
    recipe: Recipe
    listed: int = MIB
    asked: int = MIB


DECISIONS = ("a guard decides", "decides")
ANSWERS, COMMANDS = ("a guard explains", "explains", "reduces"), ("spki check", "spki explain", "spki reduce")
# (their reductions are 65 GB and more)
UNPRINTED = COMMANDS[:2]
NAMED = [
    Named("an entry with a long prefix, two certificates for sets of 314 ranges", ANSWERS, Recipe(LONG_PREFIX, (ranges(),) * 2)),
    Named("the same by a question, a list of one entry", ANSWERS, Recipe(links=(Link(Tag("prefix")), ranges(), ranges()), grows="octets"), 70),
    Named("entries for a name, one definition with many names", ANSWERS, Recipe(Entries(names=1), (Link(),), grows="names"), asked=65_500),
    Named("entries, a certificate for a long name", ANSWERS, Recipe(links=(Link(),), grows="names"), asked=65_500),
    Named("an entry for a name of empty strings", (*DECISIONS, *ANSWERS[:1], "reduces", "a guard opens"),
          Recipe(Entries(names=1, grows="names"), (Link(names=2),)), asked=1_000),
    Named("entries for 57 nested sets", (*DECISIONS, "a guard opens"), Recipe(Entries(NESTED), is_by_other=False)),
    Named("certificates for 57 nested sets", (*DECISIONS, "opens"), Recipe(links=(Link(NESTED),), grows="repeats")),
    Named("certificates for lists of empty strings", ("decides by", "opens"), Recipe(links=(Link(Tag("list", 998, octets=0)),), grows="repeats")),
    Named("many certificates", ("decides by",), Recipe(links=(Link(),), grows="repeats")),
    Named("a prefix, sets of 98 ranges, and ranges, in 9.8 KB", ("explains by", "reduces by"),
          Recipe(links=(Link(Tag("prefix")), *(ranges(98),) * 3, Link(Tag("range"), 5)), grows="octets"), 70, 9_800),
    Named("20 entries, a prefix, sets of 98 ranges, and ranges, in 9.5 KB", UNPRINTED,
          Recipe(links=(Link(Tag("prefix", octets=10, lists=3)), *(ranges(98),) * 3, Link(Tag("range"), 3)), grown=0, grows="octets"), 1_100, 8_000),
    Named("an entry with a long prefix, two certificates for sets of 998 ranges", UNPRINTED,
          Recipe(Entries(Tag("prefix", lists=3), grows="octets"), (ranges(998),) * 2), 64 * KIB),
    Named("30 entries for a string, two certificates for sets of 998 of it", COMMANDS,
          Recipe(Entries(Tag("string")), (equal_strings(998),) * 2), 1_650),
    Named("two sets of 998 equal strings", ("spki intersect",), Recipe(Entries(Tag("set", 998)), (equal_strings(998),)), 3_100),
    Named("two sets of 500 equal strings of 1,000 octets", ("spki intersect",),
          Recipe(Entries(Tag("set", 500, octets=1000)), (Link(Tag("set", 500, octets=1000)),))),
    Named("entries, a certificate for a long name, in 128 KiB", COMMANDS, Recipe(links=(Link(),), grows="names"), 64 * KIB, 64 * KIB)]


class Cost(NamedTuple):
    """What a call took: its status (-1 if it was ended), seconds and MiB, and the octets that a command wrote."""

    status: int
    seconds: float
    mebibytes: float
    written: int = 0


class TooSlow(Exception):
    """A run was ended, most likely since it took too long."""


class Measure:
    """Runs calls, in a folder of its own. What takes `seconds` raises TooSlow as `run` does, but for `cost_of`."""

    def __init__(self, folder: str, program: str, library: str) -> None:
        """`program` is the path of `spki`, `library` that of the library for C, and `folder` gets the files."""
        self.program, self.library, self.folder, self.file = program, library, folder, os.path.join(folder, "text")

    @cached_property
    def driver(self) -> str:
        """The path of the program of slowest.c, which is built once. Raises CalledProcessError if it does not compile."""
        program, headers = os.path.join(self.folder, "slowest"), os.path.join(TOP, "crates", "spki_c")
        subprocess.run(["cc", *FLAGS, "-I", headers, "-o", program, os.path.join(BENCH, "slowest.c"), self.library], check=True)
        return program

    def write(self, octets: bytes) -> None:
        """Writes these octets to the file that each run reads."""
        with open(self.file, "wb") as file:
            file.write(octets)

    def run(self, words: list[str], seconds: float, **more: Any) -> subprocess.CompletedProcess[bytes]:
        """Runs a program, with further settings for `subprocess.run`. Raises TooSlow if it takes more than so many seconds of the processor, or up to
        one more, since prlimit takes whole seconds; also if anything else kills it by SIGKILL."""
        limit = int(seconds) + 1
        done = subprocess.run(["prlimit", f"--cpu={limit}", *words], **more)
        if done.returncode in (-signal.SIGXCPU, -signal.SIGKILL):
            raise TooSlow
        return done

    def cost_of_guard(self, call: Call, recipe: Recipe, seconds: float) -> Cost:
        """What a guard's call takes on the parts of a recipe. Raises ChildProcessError if the driver fails, as for a list that is refused."""
        self.write(b"".join(b"%d\n%s" % (len(part), part) for part in recipe.parts()))
        done = self.run([self.driver, call.word, call.limits, call.marks, self.file], seconds, stdout=subprocess.PIPE)
        if done.returncode:
            raise ChildProcessError(f"slowest {call.word} ended with status {done.returncode} on {recipe}")
        status, milliseconds, octets = done.stdout.split()
        return Cost(int(status), float(milliseconds) / 1000, int(octets) / MIB)

    def cost_of_command(self, word: str, text: bytes, seconds: float) -> Cost:
        """What a command of the program, named by a word, takes on a text. Its memory is measured apart: it is 0 here."""
        self.write(text)
        before = resource.getrusage(resource.RUSAGE_CHILDREN)
        with open(self.file, "rb") as source:
            done = self.run([self.program, word], seconds, stdin=source, stdout=subprocess.DEVNULL)
        after = resource.getrusage(resource.RUSAGE_CHILDREN)
        return Cost(done.returncode, after.ru_utime + after.ru_stime - before.ru_utime - before.ru_stime, 0.0)

    def octets_written(self, word: str) -> int:
        """How many octets a command writes of the text in the file."""
        with open(self.file, "rb") as source, subprocess.Popen([self.program, word], stdin=source, stdout=subprocess.PIPE) as writing:
            counting = subprocess.run(["wc", "-c"], stdin=writing.stdout, stdout=subprocess.PIPE)
        return int(counting.stdout)

    def cost_of(self, call: Call, recipe: Any, seconds: float = MOST_SECONDS, is_whole: bool = False) -> Cost:
        """What a call takes on the text of a recipe: infinite time if it takes more than so many seconds. `is_whole`: also the memory and the output
        of a command. The recipe is a Form for a conversion."""
        try:
            if call.limits:
                return self.cost_of_guard(call, recipe, seconds)
            text = text_for(call, recipe)
            cost = self.cost_of_command(call.word, text, seconds)
            if not is_whole:
                return cost
            return cost._replace(mebibytes=used(self.program, call.word, text)[1], written=self.octets_written(call.word))
        except TooSlow:
            return Cost(-1, float("inf"), 0.0)


def text_for(call: Call, recipe: Any) -> bytes:
    """The text that a recipe makes for a command: one to be converted, for which the recipe is a Form, two tags, or a list and a question."""
    if call.word in FORMED:
        return bytes(recipe.text())
    return bytes(recipe.tags() if call.word == "intersect" else recipe.case())


def size_of(call: Call, recipe: Any) -> int:
    """The number of octets that a recipe makes for a call: of the text to be converted, of two tags, or of the list and the question together."""
    is_of_parts = call.word not in FORMED and call.word != "intersect"
    return sum(map(len, recipe.parts())) if is_of_parts else len(text_for(call, recipe))


def sized(call: Call, recipe: Any, list_octets: int, question_octets: int, entries: int = MANY) -> Any:
    """The recipe with the largest text that a call may have, with at most so many octets of the list and of the question, and so many entries. None
    if none is small enough, or if a command's text of it has over 1 MiB. For a conversion the recipe is a Form, and `list_octets` is for its whole
    text."""
    list_octets, question_octets = min(list_octets, call.listed), min(question_octets, call.asked)
    if call.word in FORMED:
        return formed(recipe, list_octets)
    larger = fitted(recipe, list_octets, question_octets, call.certificates, entries)
    if larger is None or call.limits:
        return larger
    # (a command's text has more than the list and the question, and may have 1 MiB)
    return larger if len(text_for(call, larger)) <= MIB else None


def found_size(call: Call, recipe: Any, list_octets: int, question_octets: int) -> Any:
    """As `sized`, for a recipe that the search made: with MOST_ENTRIES at most for a call whose limit is by the entry."""
    return sized(call, recipe, list_octets, question_octets, MOST_ENTRIES if call.is_by_entry else MANY)


def search(measure: Measure, call: Call, first: Any, chance: random.Random, steps: int) -> Iterator[tuple[float, Any]]:
    """Searches from a first recipe, by so many steps. Yields each recipe that took more time for an octet than those before: the seconds for an
    octet, and the recipe as it was before `found_size` made its text as large as a search allows."""
    change: Any = changed_form if call.word in FORMED else changed
    slowest, most = first, 0.0
    for step in range(steps + 1):
        # (mostly one change, and sometimes two that help only together)
        candidate = slowest if step == 0 else change(chance, slowest)
        candidate = change(chance, candidate) if step and chance.random() < 0.3 else candidate
        # (the call that opens a question has nearly no list, so its question may be as long as a list)
        recipe = found_size(call, candidate, SEARCHED_LIST, SEARCHED_QUESTION if call.word != "question" else SEARCHED_LIST)
        if recipe is None:
            continue
        # (a short text mostly takes what does not depend on its octets, so it counts as a longer one)
        by_octet = measure.cost_of(call, recipe).seconds / max(size_of(call, recipe), SEARCHED_QUESTION)
        if by_octet > most:
            slowest, most = candidate, by_octet
            yield by_octet, candidate


def recipes_of(measure: Measure, call: Call, steps: int, seed: int) -> Iterator[tuple[str, Any]]:
    """The recipes on which a call is measured in full, each with its name: the named ones, and as `found` the slowest of searches of so many steps
    together, none if that is 0. A recipe is None where no text of it is small enough."""
    of_call = [named for named in NAMED if call.what.startswith(named.words)]
    for named in of_call:
        yield named.what, sized(call, named.recipe, named.listed, named.asked)
    chance, slowest = random.Random(f"{seed} {call.what}"), list[tuple[float, Any]]()
    begins: list[Any] = [Form()] * STARTS if call.word in FORMED else [named.recipe for named in of_call] + [Recipe()] * STARTS
    for first in begins if steps else []:
        # (the last that a search yields is its slowest)
        slowest += [*search(measure, call, first, chance, steps // len(begins))][-1:]
    for _, recipe in sorted(slowest, key=lambda found: -found[0])[:IN_FULL]:
        yield "found", found_size(call, recipe, MIB, MIB)


def most_seconds(call: Call, recipe: Any, written: int = 0) -> float:
    """The most seconds that a call may take on a text, if it writes so many octets."""
    return call.seconds + (SECONDS_AN_ENTRY * recipe.entries.count if call.is_by_entry else 0) + SECONDS_AN_OCTET * written


def most_mebibytes(call: Call, recipe: Any) -> float:
    """The most MiB that a call may take on a text. The `Form` of a conversion has no entries: they are read only for a limit by the entry."""
    return call.mebibytes + (call.entry_mebibytes * recipe.entries.count if call.entry_mebibytes else 0)


def least_cost(measure: Measure, call: Call, recipe: Any) -> Cost:
    """What the quickest run of a call on a text takes, with memory and output. It is run again, at most TURNS times, while its time is over the
    limit, but not over twice."""
    # (a run is ended some time after it is over twice its limit: more does not matter)
    most = 3 * most_seconds(call, recipe) + MOST_SECONDS
    least = measure.cost_of(call, recipe, most, is_whole=True)
    for _ in range(TURNS):
        limit = most_seconds(call, recipe, least.written)
        if limit < least.seconds < 2 * limit:
            time.sleep(PAUSE)
            least = min(least, measure.cost_of(call, recipe, most, is_whole=True), key=lambda cost: cost.seconds)
    return least


def faults_of(measure: Measure, call: Call, steps: int, seed: int) -> Iterator[str]:
    """Measures a call, and prints a line for each of its texts. Yields one for each text that takes more than it may. A call's status is only
    printed."""
    print(f"{call.what}: at most {call.seconds:g} s, {call.mebibytes:g} MiB", flush=True)
    for what, recipe in recipes_of(measure, call, steps, seed):
        if recipe is None:
            continue
        cost = least_cost(measure, call, recipe)
        limit = most_seconds(call, recipe, cost.written)
        most = most_mebibytes(call, recipe)
        is_over = cost.seconds > limit or cost.mebibytes > most
        print(f"    {size_of(call, recipe):>9,} octets {cost.seconds:>9.4f} s {cost.mebibytes:>7.1f} MiB  status {cost.status}  {what}"
              f"{': OVER' if is_over else ''}", flush=True)
        if what == "found" or is_over:
            print(f"              {recipe}", flush=True)
        if is_over:
            yield f"{call.what}: {what}: {cost.seconds:.3f} s (at most {limit:g}), {cost.mebibytes:.1f} MiB (at most {most:g})"


def main() -> None:
    """Measures the calls that the command line names, or all. Ends with status 1 if a limit is exceeded, 2 if a word is the beginning of no call's
    name."""
    parser = argparse.ArgumentParser(description="Searches for the slowest texts of each call.")
    parser.add_argument("--named", action="store_true", help="measure the named texts alone")
    parser.add_argument("--steps", type=int, default=STEPS, help="of the search for one call")
    parser.add_argument("--seed", type=int, default=SEED)
    parser.add_argument("--program", default=PROGRAM)
    parser.add_argument("--library", default=LIBRARY)
    parser.add_argument("calls", nargs="*", metavar="CALL", help="how the names of the calls begin that are measured")
    options = parser.parse_args()
    chosen = [call for call in CALLS if call.what.startswith(tuple(options.calls or [""]))]
    if not all(any(call.what.startswith(word) for call in CALLS) for word in options.calls):
        parser.error(f"no call begins so; they are: {', '.join(call.what for call in CALLS)}")
    resource.setrlimit(resource.RLIMIT_AS, (MOST_MEMORY, MOST_MEMORY))
    with tempfile.TemporaryDirectory() as folder:
        measure, steps = Measure(folder, options.program, options.library), 0 if options.named else options.steps
        over = [fault for call in chosen for fault in faults_of(measure, call, steps, options.seed)]
    print("over the limits:", *over or ["none"], sep="\n")
    if over:
        sys.exit(1)


if __name__ == "__main__":
    main()
