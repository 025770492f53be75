"""What the scripts of tests/, bench/ and examples/ share: paths of programs, how one is run, and how the model reads and writes S-expressions.

A service that takes over `examples/signed/` does not need this module: `tools.py` there and `apps/spki-cert/spki_cert_tool/` stand by themselves."""
import base64
import importlib.machinery
import importlib.util
import os
import subprocess
import sys
import tempfile
import time
from collections.abc import Callable
from typing import Any

from model.plain import canonical, on_one_line, read
from model.values import verbatim

TOP = os.path.realpath(os.path.join(os.path.dirname(os.path.abspath(__file__)), "..", ".."))
TESTS, BENCH, EXAMPLES = (os.path.join(TOP, name) for name in ("tests", "bench", "examples"))
# (the last of them has the gate)
sys.path += [os.path.join(TOP, *path) for path in (("apps", "spki-cert"), ("bindings", "python"), (".ci",))]
PROGRAM = os.path.join(TOP, "crates", "spki", "out", "spki")
LIBRARY = os.path.join(TOP, "crates", "spki_c", "out", "libspki_c.a")
# What cargo builds by: no network, and nothing that only a debugger or another build after a change needs. That takes half of the time.
CARGO = {"CARGO_NET_OFFLINE": "true", "CARGO_INCREMENTAL": "0", "CARGO_PROFILE_DEV_DEBUG": "0"}
# The target of the library for ARM, and the words before a program for it that run it here.
ARM, ON_ARM = "aarch64-unknown-linux-gnu", ["qemu-aarch64", "-L", "/usr/aarch64-linux-gnu"]
COMMANDS = ("canonical", "advanced", "transport", "intersect", "reduce", "check", "explain")
SECONDS, SECONDS_TO_COMPILE, SECONDS_TO_WAIT = 120, 900, 600

__all__ = ["ARM", "BENCH", "COMMANDS", "EXAMPLES", "LIBRARY", "ON_ARM", "PROGRAM", "SECONDS", "TESTS", "TOP", "braced", "canonical",
           "given_program", "group", "is_compiled", "loaded", "on_one_line", "output_of", "positive", "read", "run", "room_for", "string",
           "tables_here", "text_of", "waits_for"]


def positive(text: str) -> int:
    """The number that a word of a command line is, at least 1: a type for argparse. Raises ValueError for any other word."""
    if int(text) < 1:
        raise ValueError(text)
    return int(text)


def given_program(place=1):
    """The path of the program that word `place` of this script's command line names, from 1, or of the built one if there are fewer words. Ends the
    script if the program is not there or cannot be run."""
    program = os.path.abspath(sys.argv[place] if len(sys.argv) > place else PROGRAM)
    if not os.access(program, os.X_OK):
        sys.exit(f"{program} is not there: build it by rt run in crates/spki")
    return program


def run(program, command, text, seconds=SECONDS):
    """The exit status of a command of the program on a text (bytes), and its standard output (bytes). Raises TimeoutExpired after so many seconds."""
    done = subprocess.run([program, command], input=text, stdout=subprocess.PIPE, stderr=subprocess.DEVNULL, timeout=seconds)
    return done.returncode, done.stdout


def output_of(*words, text=None, seconds=SECONDS, **settings):
    """Runs a command with `text` as its input. Returns its exit status and all that it writes to both outputs, as a text. Raises TimeoutExpired after
    so many seconds. Without a text the input is that of this process. `settings` are those of `subprocess.run`."""
    done = subprocess.run(words, input=text, stdout=subprocess.PIPE, stderr=subprocess.STDOUT, timeout=seconds, text=True, **settings)
    return done.returncode, done.stdout


def is_compiled(*words):
    """Whether this command, which begins with the compiler, compiles and links a program in C. It finds `spki.h`."""
    return subprocess.run([*words, "-I", os.path.join(TOP, "crates", "spki_c")], timeout=SECONDS_TO_COMPILE).returncode == 0


def text_of(path):
    """The text of a file, by its path from the top of the repository, or from the root of the file system."""
    with open(os.path.join(TOP, path), encoding="utf-8") as file:
        return file.read()


def string(octets):
    """A string in canonical form, by its octets or its text."""
    return verbatim(octets.encode() if isinstance(octets, str) else octets)


def group(*members):
    """A list in canonical form, of members in canonical form."""
    return b"(" + b"".join(members) + b")"


def braced(octets):
    """The transport form of a text in canonical form."""
    return b"{" + base64.b64encode(octets) + b"}"


def waits_for(what: str, is_so: Callable[[], bool]) -> None:
    """Waits until `is_so` returns true. Raises AssertionError, which says `what`, after SECONDS_TO_WAIT."""
    end = time.monotonic() + SECONDS_TO_WAIT
    while not is_so():
        if time.monotonic() > end:
            raise AssertionError(f"not so after {SECONDS_TO_WAIT} seconds: {what}")
        time.sleep(0.05)


def room_for(test: Any) -> str:
    """A new folder for a test, or for a class of tests, which is removed after it."""
    room, is_class = tempfile.TemporaryDirectory(), isinstance(test, type)
    (test.addClassCleanup if is_class else test.addCleanup)(room.cleanup)
    return room.name


def tables_here():
    """The tables of tests/tables/, by their paths."""
    return [os.path.join(TESTS, "tables", name) for name in sorted(os.listdir(os.path.join(TESTS, "tables")))]


def loaded(path):
    """Loads the script at a path, also one without a suffix, as a module. The module's name is not `__main__`, so its main does not run."""
    sys.dont_write_bytecode = True  # (so that no `__pycache__` is left beside a script)
    name = f"loaded {os.path.basename(path)}"
    loader = importlib.machinery.SourceFileLoader(name, path)
    module = importlib.util.module_from_spec(importlib.util.spec_from_loader(name, loader))
    sys.modules[name] = module
    loader.exec_module(module)
    return module
