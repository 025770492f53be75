#!/usr/bin/env python3
"""Compares the library for C programs, and the built program, with the model in `model/` on generated texts.

The model is a second implementation, in Python: it was written from docs/FORMATS.md and not from the sources of the program. Each case is a command
and a text of `generators/`; of `check_accepted` also a text with rows. Some cases are questions to a guard, a few ask for a string inside a value,
and a few are calls of the library that are misuse, or nearly. The library answers each case, by a few processes that load it, and the program itself
at least a tenth of them. Status and answer must be those of the model, octet by octet. In some cases the library gets a buffer that is too small.

A case depends on the seed and its number alone. The first five that differ are made smaller and printed; `--first NUMBER --cases 1` with the
same seed repeats one. The tables at the end say how often each row of the document's tables came. With 20,000 cases or more it is a failure
if a row never came, or if the program answered less than a tenth of them. `test_model.py` makes these comparisons among the tests.

Needs a C compiler, which makes a shared object of the library in a temporary folder; with --program-alone there is no library, and the
program answers each text but those of `check_accepted`. The last line counts the commands and what is asked of guards, strings and calls that
are misuse as one each, and the tests of the run as a whole: the rows that came, the part of the program.
Usage: tests/differential.py [--cases N] [--seed S] [--first NUMBER] [--jobs J] [--program-alone] [PROGRAM [LIBRARY]]"""
import argparse
import ctypes
import multiprocessing
import os
import random
import secrets
import signal
import subprocess
import sys
import tempfile
import time
from collections import Counter
from collections.abc import MutableSequence
from dataclasses import dataclass
from multiprocessing.connection import Connection
from typing import Any

from generators import tags
from generators.asked import Call, Question, StringQuestion
from generators.guards import GuardQuestion
from generators.questions import Asked, question
from generators.seldom import ROOM
from generators.smaller import smaller
from harness.guard_door import GuardDoor
from harness.guard_door import model_answer as model_guard_answer
from harness.support import LIBRARY as ARCHIVE, PROGRAM, positive
from model import coverage, laws
from model.answers import COMMANDS, Answer, ModelDisagrees, answer, check_accepted
from model.calls import DONE, TOO_SMALL, call, of_library, string_at, too_small
from model.guard import MISUSES, WISHES

# A case that takes longer counts as one that does not end. How often a line says how far the run is.
SECONDS, SECONDS_BETWEEN_LINES = 600, 300
# The program answers the texts of each 7th case. Questions to guards, calls and separate rows are no texts, so this is over a tenth of all cases.
PROGRAM_EVERY, PROGRAM_SHARE = 7, 0.1
SMALL_BUFFER_EVERY = 5
# A run of so many cases must reach each row of the model. So many cases that differ are made smaller and printed.
WHOLE_COVERAGE, SHOWN = 20_000, 5

# ---- the model, the library and the program


def model_answer(asked: Question) -> Answer:
    """The status and the answer of the model to a text. The statuses are those of the program: `of_library` turns them into the library's."""
    if asked.command == "check_accepted":
        return check_accepted(asked.text, asked.rows)
    return answer(asked.command, asked.text)


class Library:
    """The library for C programs: `loaded` into this process by ctypes, or a `Relayed` of harness/relayed.py."""

    def __init__(self, loaded: Any) -> None:
        self.guards = GuardDoor(loaded)
        buffer: list[Any] = [ctypes.c_char_p, ctypes.c_size_t, ctypes.POINTER(ctypes.c_size_t)]
        self.by_command, self.by_rows = loaded.spki_answer, loaded.spki_check_accepted
        self.by_command.argtypes = [ctypes.c_uint32, ctypes.c_char_p, ctypes.c_size_t, *buffer]
        self.by_rows.argtypes = [ctypes.c_char_p, ctypes.c_size_t, ctypes.c_char_p, ctypes.c_size_t, *buffer]
        self.by_command.restype = self.by_rows.restype = ctypes.c_uint32
        self.string = loaded.spki_string
        self.string.argtypes = [ctypes.c_void_p, ctypes.c_size_t, ctypes.c_void_p, ctypes.c_size_t, ctypes.POINTER(ctypes.c_void_p),
                                ctypes.POINTER(ctypes.c_size_t)]

    def ask(self, asked: Question, room: int) -> tuple[int, int, bytes]:
        """The status, the length of the answer, and the octets of a buffer of `room` octets and one more, which were zeros before the call."""
        buffer, needed = ctypes.create_string_buffer(room + 1), ctypes.c_size_t()
        text = (asked.text, len(asked.text))
        if asked.command == "check_accepted":
            status = self.by_rows(*text, asked.rows, len(asked.rows), buffer, room, needed)
        else:
            status = self.by_command(COMMANDS.index(asked.command), *text, buffer, room, needed)
        return status, needed.value, buffer.raw

    def fault_of_call(self, asked: Call) -> str | None:
        """What is wrong with the answer to a call of which no text is read, None if nothing is. `asked` has the command's number, or None for
        `spki_check_accepted`; and of each text and of the buffer whether its pointer is null, and its length."""
        wanted = call(asked.number, asked.texts, asked.buffer)
        octets, needed = ctypes.create_string_buffer(ROOM + 1), ctypes.c_size_t()
        texts = [argument for is_null, length in asked.texts for argument in (None if is_null else b"", length)]
        is_null, room = asked.buffer
        buffer = None if is_null else octets
        if asked.number is None:
            status = self.by_rows(*texts, buffer, room, needed)
        else:
            status = self.by_command(asked.number, *texts, buffer, room, needed)
        result = status, octets.raw.rstrip(b"\0")
        return None if result == wanted else f"the library answers {in_short(result)}, the model {in_short(wanted)}"

    def fault_of_string(self, asked: StringQuestion) -> str | None:
        """What is wrong with the string that `spki_string` finds by a path inside a value, None if nothing is."""
        wanted = string_at(asked.text, asked.path)
        text, path = ctypes.create_string_buffer(asked.text, len(asked.text)), (ctypes.c_size_t * len(asked.path))(*asked.path)
        octets, length = ctypes.c_void_p(), ctypes.c_size_t()
        status = self.string(text, len(asked.text), path, len(path), octets, length)
        # (a string must be a part of the text that was given; without one, the pointer must be null and the length 0)
        if status == DONE:
            at = (octets.value or 0) - ctypes.addressof(text)
            string, is_right_place = asked.text[at:at + length.value], 0 <= at <= at + length.value <= len(asked.text)
        else:
            string, is_right_place = b"", octets.value is None and length.value == 0
        if (status, string) == wanted and is_right_place:
            return None
        return f"the library finds {in_short((status, string))}, at the right place: {is_right_place}, the model {in_short(wanted)}"

    def fault_of_answer(self, asked: Question, wanted: Answer) -> str | None:
        """What is wrong with the answer to a text, None if nothing is. `wanted` is what the model answers, with the status of the program."""
        wanted = of_library(asked.command, wanted)
        status, needed, buffer = self.ask(asked, len(wanted[1]) + 8)  # (8 octets more than the answer, which must stay zeros)
        if status == TOO_SMALL:
            status, needed, buffer = self.ask(asked, needed)
        if (status, buffer[:needed]) != wanted:
            return f"the library answers {in_short((status, buffer[:needed]))}"
        return "the library writes behind its answer" if buffer[needed:].strip(b"\0") else None

    def fault_with_small_buffer(self, asked: Question, wanted: Answer) -> str | None:
        """What is wrong where the buffer has one octet less than the answer, None if nothing is. An empty answer has no such buffer."""
        length = len(wanted[1])
        if not length or self.ask(asked, length - 1) == (too_small(), length, length * b"\0"):
            return None
        return "the library writes to a buffer that is too small, or tells another length or status"


def fault_of_program(program: str, asked: Question, wanted: Answer) -> str | None:
    """What is wrong with the program's answer to a text, None if nothing is. `wanted` is the model's. Raises TimeoutExpired after SECONDS."""
    done = subprocess.run([program, asked.command], input=asked.text, stdout=subprocess.PIPE, stderr=subprocess.DEVNULL, timeout=SECONDS)
    return None if (done.returncode, done.stdout) == wanted else f"the program answers {in_short((done.returncode, done.stdout))}"


def in_short(result: Answer) -> str:
    """The status and the first 300 octets of an answer, for a message."""
    status, octets = result
    return f"{status} {octets[:300]!r}{'..' if len(octets) > 300 else ''}"


@dataclass
class Comparison:
    """What is compared with the model on the cases of a seed: the library, unless it is None, and the program, by its path."""

    library: Library | None
    program: str
    seed: str
    by_program: int = 0
    """How many cases the program has answered."""

    def fault(self, asked: Asked, number: int) -> str | None:
        """What is wrong with the answers to a case, None if nothing is. The number of the case says whether the program, or the library with a buffer
        that is too small, is asked too. Without a library only texts are asked."""
        if isinstance(asked, Question):
            return self.fault_of_text(asked, number)
        if self.library is None:
            return None
        if isinstance(asked, Call):
            return self.library.fault_of_call(asked)
        return self.library.fault_of_string(asked) if isinstance(asked, StringQuestion) else self.fault_of_guard(self.library, asked, number)

    def fault_of_guard(self, library: Library, asked: GuardQuestion, number: int) -> str | None:
        """What is wrong with the answer of a guard, None if nothing is. Each fifth case by its number, but no misuse, gets too small a buffer too."""
        try:
            wanted = model_guard_answer(asked)
        except ModelDisagrees as why:
            return f"the model disagrees with itself: {why}"
        except Exception as why:
            return f"the model fails: {why!r}"
        fault = library.guards.fault_of_answer(asked, wanted)
        if not fault and number % SMALL_BUFFER_EVERY == 0 and asked.oddity not in MISUSES.counts:
            fault = library.guards.fault_with_small_buffer(asked)
        return fault and f"{fault}, the model {in_short(wanted[0])}"

    def fault_of_text(self, asked: Question, number: int) -> str | None:
        """What is wrong with the answers to a text, None if nothing is: that of the model breaks a law of model/laws.py, or that of the library or of
        the program differs. By its number the program (always without a library, never for `check_accepted`) and a small buffer are tried too."""
        try:
            wanted = model_answer(asked)
            rng = random.Random(number)
            # (the law of intersections is tried with a request near each tag)
            laws.check_laws(asked.command, asked.text, wanted, lambda of_tags: [tags.request_near(tag, rng) for tag in of_tags])
        except ModelDisagrees as why:
            return f"the model disagrees with itself: {why}"
        except Exception as why:
            # an error of the model is shown with its case, and does not end the run
            return f"the model fails: {why!r}"
        fault = self.library.fault_of_answer(asked, wanted) if self.library else None
        if not fault and self.library and number % SMALL_BUFFER_EVERY == 0:
            fault = self.library.fault_with_small_buffer(asked, wanted)
        if not fault and (not self.library or number % PROGRAM_EVERY == 0) and asked.command != "check_accepted":
            self.by_program += 1
            fault = fault_of_program(self.program, asked, wanted)
        return fault and f"{fault}, the model {in_short(wanted)}"


# ---- many cases


def run_job(comparison: Comparison, numbers: range, at: MutableSequence[int], job: int, results: Connection) -> None:
    """Compares the cases of these numbers, in a process of its own, and keeps the present number in `at[job]`. Sends to `results` which cases differ,
    how often each row of the model was reached, and how many cases the program answered. A case that takes over SECONDS ends it: nothing is sent."""
    coverage.reset_counts()
    differ = []
    for number in numbers:
        at[job] = number
        # (the signal ends the process also within a call in C)
        signal.alarm(SECONDS)
        if comparison.fault(question(comparison.seed, number), number):
            differ.append(number)
    signal.alarm(0)
    results.send((differ, coverage.counts(), comparison.by_program))


def compare(comparison: Comparison, first: int, cases: int, jobs: int) -> tuple[list[int], list[int], Counter]:
    """Compares so many cases from the number `first` on, in `jobs` processes. Returns the numbers of the cases that differ, those of the cases that
    ended their process, and how often each row of the model was reached, by the title of its table and its name. A process that ended reports neither
    its other cases nor its rows. While it waits, it prints how far the run is."""
    # (the number of the case that each process is at: each takes every `jobs`-th number, so the mean of all says how many cases are done)
    at = multiprocessing.Array("q", jobs)
    workers = []
    for job in range(jobs):
        results, sender = multiprocessing.Pipe(duplex=False)
        numbers = range(first + job, first + cases, jobs)
        process = multiprocessing.Process(target=run_job, args=(comparison, numbers, at, job, sender))
        process.start()
        sender.close()  # (so that the pipe ends with the process)
        workers.append((results, process))
    differ: list[int] = []
    ended: list[int] = []
    rows: Counter = Counter()
    for job, (results, process) in enumerate(workers):
        while not results.poll(SECONDS_BETWEEN_LINES):
            print(f"about {sum(at.get_obj()) // jobs - first} cases so far", flush=True)
        try:
            numbers, counts, by_program = results.recv()
            differ += numbers
            comparison.by_program += by_program
            rows.update(counts)
        except EOFError:
            ended.append(at[job])
        process.join()
    return sorted(differ), ended, rows


def lines_of_case(comparison: Comparison, number: int) -> str:
    """The lines about a case that differs: the smallest one that was found to differ too, and what is wrong with that one."""
    least = smaller(question(comparison.seed, number), lambda candidate: comparison.fault(candidate, number) is not None)
    return f"case {number}: {least!r:.4000}\n    {comparison.fault(least, number)}"


def line_of_ended(seed: str, number: int) -> str:
    """The line about a case that ended its process."""
    return f"case {number} ends the process that asks, or takes over {SECONDS} seconds: {question(seed, number)!r:.2000}"


def tables(rows: Counter) -> list[str]:
    """A line for each table of the model: its rows with their counts. `rows` has the counts by pairs of the table's title and the row's name."""
    by_title: dict[str, list[str]] = {}
    for (title, name), count in rows.items():
        by_title.setdefault(title, []).append(f"{name} {count}")
    return [f"{title}: {'; '.join(names)}" for title, names in by_title.items()]


def shared_object(archive: str, folder: str) -> str:
    """Links the static library into a shared object in a folder, which Python can load. Returns its path. Raises CalledProcessError if cc fails."""
    path = os.path.join(folder, "libspki_c.so")
    subprocess.run(["cc", "-shared", "-o", path, "-Wl,--whole-archive", archive, "-Wl,--no-whole-archive"], check=True)
    return path


def comparison_of(program: str, archive: str | None, folder: str, seed: str) -> Comparison:
    """What is compared with the model: a program, and the library of an archive, unless that is None. `folder` is for the library's shared object."""
    library = Library(ctypes.CDLL(shared_object(os.path.abspath(archive), folder))) if archive else None
    return Comparison(library, os.path.abspath(program), seed)


def arguments() -> argparse.Namespace:
    """The words of the command line, parsed. Ends the process with status 2 if they are wrong."""
    parser = argparse.ArgumentParser(description="Compares the library and the program with the model on generated texts.")
    parser.add_argument("--cases", type=positive, default=20_000)
    parser.add_argument("--seed", default=secrets.token_hex(4))
    parser.add_argument("--first", type=int, default=0, help="the number of the first case")
    parser.add_argument("--jobs", type=positive, default=os.cpu_count() or 1)
    parser.add_argument("--program-alone", action="store_true", help="there is no library")
    parser.add_argument("program", nargs="?", default=PROGRAM)
    parser.add_argument("library", nargs="?", default=ARCHIVE)
    return parser.parse_args()


def unreached(rows: Counter) -> list[str]:
    """The rows of the model that no case has reached. `rows` has the counts by pairs of the table's title and the row's name."""
    return [f"{title}: {name}" for (title, name), count in rows.items() if not count]


def faults_of_run(cases: int, rows: Counter, by_program: int) -> list[str]:
    """What is wrong with a run of 20,000 cases or more as a whole, at most one text for each of two tests: each row came, and the program answered a
    tenth of the cases. `by_program` is how many it answered. A smaller run has no such fault."""
    never, is_whole = unreached(rows), cases >= WHOLE_COVERAGE
    tests = [(f"never came: {'; '.join(never)}", is_whole and never),
             (f"the program answered {by_program} cases, less than a tenth", is_whole and by_program < PROGRAM_SHARE * cases)]
    return [text for text, is_found in tests if is_found]


def main() -> int:
    """Compares all cases. Prints the tables, the first SHOWN cases that differ, and all that ended a process. Returns 1 if anything is wrong, else 0.
    Ends the process with status 1 without program or library. `.ci/merge_gate/` reads the last two lines: `deep` the seed, `report` the counts."""
    options, begun = arguments(), time.monotonic()
    archive = None if options.program_alone else options.library
    for name in (options.program, *([archive] if archive else [])):
        if not os.path.exists(name):
            sys.exit(f"{name} is not there: tests/run builds it")
    print(f"{options.cases} cases from {options.first} on, seed {options.seed}", flush=True)
    with tempfile.TemporaryDirectory() as folder:
        comparison = comparison_of(options.program, archive, folder, options.seed)
        differ, ended, rows = compare(comparison, options.first, options.cases, min(options.jobs, options.cases))
        print(*tables(rows), sep="\n")
        print("".join(f"{lines_of_case(comparison, number)}\n" for number in differ[:SHOWN]), end="")
    print("".join(f"{line_of_ended(options.seed, number)}\n" for number in ended), end="")
    faults = faults_of_run(options.cases, rows, comparison.by_program)
    print(*faults, sep="\n", end="\n" if faults else "")
    print(f"{options.cases} cases, seed {options.seed}: {len(differ)} differ, {len(ended)} do not end, the program answered "
          f"{comparison.by_program}; {time.monotonic() - begun:.0f} seconds")
    failed = len({question(options.seed, number).command for number in [*differ, *ended]}) + len(faults)
    # (one for each command, for `check_accepted`, for each call of a guard, for misuse and for strings; and the two tests of the run)
    print(f"{len(COMMANDS) + 1 + len(WISHES) + 2 + 2 - failed} passed, {failed} failed")
    return 1 if failed else 0


if __name__ == "__main__":
    sys.exit(main())
