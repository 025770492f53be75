"""How many instructions, or blocks of memory, a run of a program takes, or a call that it repeats.

A counter is a function of a command (its words) and a text (an open file, or subprocess.DEVNULL), which runs the command on it and returns a
number. (`counted_by_perf` returns None where perf cannot count.)"""
import contextlib
import os
import re
import shutil
import subprocess
import tempfile


def counted_by_perf(command, text):
    """The instructions that a command takes on an open text, counted by perf. None if perf cannot count them here. Raises OSError if there is no
    perf."""
    done = subprocess.run(["perf", "stat", "-x", ",", "-e", "instructions:u"] + command, stdin=text, capture_output=True)
    # (the last line is the number and further fields, or something else where perf cannot count)
    line = re.match(rb"(\d+),", done.stderr.splitlines()[-1]) if done.stderr else None
    return int(line[1]) if line else None


def counted_by_valgrind(command, text, *flags, settings=None):
    """The instructions that a command takes on an open text, counted by valgrind, with flags of valgrind and settings added to the environment.
    Raises OSError if there is no valgrind, and AttributeError if it cannot run the command."""
    with tempfile.NamedTemporaryFile() as out:
        words = ["valgrind", "--tool=callgrind", f"--callgrind-out-file={out.name}", *flags]
        done = subprocess.run(words + command, stdin=text, capture_output=True, env={**os.environ, **(settings or {})})
    return int(re.search(rb"Collected : (\d+)", done.stderr).group(1))


def counted_inside(function):
    """Returns a counter of the instructions inside a function of the program and in what it calls, by valgrind."""
    return lambda command, text: counted_by_valgrind(command, text, f"--toggle-collect={function}")


def counted_with_cache(blocks):
    """Returns a counter of instructions, by valgrind, in runs in which the C library keeps so many freed blocks of each size: what an
    allocation costs depends on it."""
    settings = {"GLIBC_TUNABLES": f"glibc.malloc.tcache_count={blocks}"}
    return lambda command, text: counted_by_valgrind(command, text, settings=settings)


def counted_allocations(command, text):
    """The blocks of memory that a command allocates on an open text, counted by valgrind. Raises as `counted_by_valgrind` does."""
    done = subprocess.run(["valgrind", *command], stdin=text, capture_output=True)
    return int(re.search(rb"total heap usage: ([\d,]+) allocs", done.stderr).group(1).replace(b",", b""))


def counted(count, words, text):
    """What the counter `count` counts of a command (`words`) on a text, given as octets."""
    with tempfile.NamedTemporaryFile() as file:
        file.write(text)
        file.flush()
        with open(file.name, "rb") as opened:
            return count(words, opened)


def choose_counter():
    """The counter of instructions that works here: by perf, else by valgrind, which may be missing too (`can_count`)."""
    # (perf may be missing, or not be allowed to count)
    with contextlib.suppress(OSError):
        if counted_by_perf(["true"], subprocess.DEVNULL) is not None:
            return counted_by_perf
    return counted_by_valgrind


def can_count():
    """Whether perf or valgrind can count instructions here."""
    return choose_counter() is not counted_by_valgrind or shutil.which("valgrind") is not None


def count_one_call(count, words, calls=100):
    """What the counter `count` counts of one call, by a program whose last word, behind `words`, is the number of calls: what `calls` further calls
    add, divided by `calls`. What the program does besides is the same for each number. Raises CalledProcessError if the program fails."""
    # (a counter does not look at the status of the program)
    subprocess.run([*words, "1"], stdout=subprocess.DEVNULL, check=True)
    few, many = (counted(count, [*words, str(number)], b"") for number in (1, 1 + calls))
    return (many - few) / calls
