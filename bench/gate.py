#!/usr/bin/env python3
"""Runs a command, by default `.ci/run`, and prints how many processor minutes its checks took: by crate, the proofs, the proofs
of the tests, and the wrong bodies. What is not a check (compilers, the tests as they run) is one row.

The processes below the command are looked at each second, so that a process that ends between two looks loses up to a second. Measure on a
quiet machine: beside other work the same check takes up to half as many processor seconds more.

The same check takes 1.0 to 2.5 times as long from machine to machine. So a fixed check is measured before the command, `rt selftest`: the
toolchain proves, builds and runs an example of its own, which does not change with this repository. The last row is the whole cost as a
multiple of it.

Usage: bench/gate.py [COMMAND ..]
"""
import os
import subprocess
import sys
import threading
import time
from collections import defaultdict

ROOT = os.path.realpath(os.path.join(os.path.dirname(__file__), ".."))
TICKS = os.sysconf("SC_CLK_TCK")
# The parts of a crate's checks: the proofs, the proofs of its tests, and the wrong bodies, which are edits of it.
PARTS = ("proofs", "tests", "edits")
FIXED = ["rt", "selftest"]


def words_of(process):
    """The words of the command line of a process, by its number."""
    with open(f"/proc/{process}/cmdline", "rb") as file:
        return file.read().decode(errors="replace").split("\0")


def fields_of(process):
    """The fields of /proc/PID/stat behind the name: [1] is the parent, [11] and [12] the ticks, [19] the begin."""
    with open(f"/proc/{process}/stat") as file:
        return file.read().rpartition(")")[2].split()


def ticks_of(process):
    """The processor time of a process itself, in ticks, and when it began, which distinguishes it from an earlier one with its number."""
    fields = fields_of(process)
    return int(fields[11]) + int(fields[12]), int(fields[19])


def is_ours(process):
    """Whether a process is this one, or was started by it, also through others. Raises OSError if one of these has ended meanwhile."""
    while process > 1:
        if process == os.getpid():
            return True
        process = int(fields_of(process)[1])
    return False


def part_of(process, words):
    """The crate that a process checks, and the part of its checks (PARTS), by the process's number and the words of its command line. None if the
    process is no check of a crate. Raises OSError if it has ended meanwhile."""
    if "--crate-name" not in words:
        return None
    crate = words[words.index("--crate-name") + 1]
    if not os.path.isdir(os.path.join(ROOT, "crates", crate)):
        return None
    # (the toolchain checks each edit in a folder of its own, whose name begins so)
    if os.path.basename(os.readlink(f"/proc/{process}/cwd")).startswith("rt-edit-"):
        return crate, "edits"
    return crate, "tests" if "--test" in words else "proofs"


class CheckTimes:
    """The processor time of each check that was seen. `seen` has its crate and part, and its ticks so far, by the number of its process and when that
    began."""

    def __init__(self):
        """No check was seen yet."""
        self.seen = {}

    def note_running(self):
        """Notes the processor time of each check that runs now."""
        for process in filter(str.isdigit, os.listdir("/proc")):
            try:
                part = part_of(process, words_of(process)) if is_ours(int(process)) else None
                ticks, begun = ticks_of(process)
            except (OSError, ValueError, IndexError):
                # (the process has ended meanwhile)
                continue
            if part:
                self.seen[process, begun] = part, ticks

    def minutes(self):
        """The processor minutes by crate and part."""
        totals = defaultdict(float)
        for part, ticks in self.seen.values():
            totals[part] += ticks / TICKS / 60
        return totals


def run_timed(command):
    """Runs a command. Returns its status, and the processor minutes that it takes with all that it starts."""
    before = os.times()
    status = subprocess.run(command).returncode
    after = os.times()
    return status, (after.children_user + after.children_system - before.children_user - before.children_system) / 60


def table(totals, whole, clock, fixed):
    """The lines of the table. `totals` are the minutes by crate and part, `whole` those of the command with all that it started, `clock` those on
    the clock, and `fixed` those of the fixed check."""
    yield f"{'processor minutes':<24}" + "".join(f"{part:>9}" for part in PARTS) + f"{'all':>9}"
    for crate in sorted({crate for crate, _ in totals}):
        row = [totals.get((crate, part), 0.0) for part in PARTS]
        yield f"{crate:<24}" + "".join(f"{minutes:>9.1f}" for minutes in [*row, sum(row)])
    sums = [sum(minutes for (_, name), minutes in totals.items() if name == part) for part in PARTS]
    yield f"{'all crates':<24}" + "".join(f"{minutes:>9.1f}" for minutes in [*sums, sum(sums)])
    without_parts = " " * 9 * len(PARTS)
    yield f"{'all else':<24}{without_parts}{max(0.0, whole - sum(sums)):>9.1f}"
    yield f"{'all':<24}{without_parts}{whole:>9.1f}"
    yield f"{'minutes on the clock':<24}{without_parts}{clock:>9.1f}"
    yield f"{'the fixed check':<24}{without_parts}{fixed:>9.1f}"
    yield f"{'all, as a multiple of it':<24}{without_parts}{whole / fixed:>9.1f}"


def main():
    """Runs the fixed check and the command, and prints the table. Returns the status of the command. Ends with status 1 if the fixed check fails."""
    command = sys.argv[1:] or [os.path.join(ROOT, ".ci", "run")]
    status, fixed = run_timed(FIXED)
    if status:
        sys.exit(f"{' '.join(FIXED)} fails, so there is nothing to compare with")
    times, ended, begun = CheckTimes(), threading.Event(), time.monotonic()

    def watch():
        """Looks each second, until the command has ended."""
        while not ended.wait(1.0):
            times.note_running()

    watching = threading.Thread(target=watch)
    watching.start()
    try:
        status, whole = run_timed(command)
    finally:
        ended.set()
        watching.join()
    print(*table(times.minutes(), whole, (time.monotonic() - begun) / 60, fixed), sep="\n")
    return status


if __name__ == "__main__":
    sys.exit(main())
