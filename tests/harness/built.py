"""The paths of the program and of the libraries that are tested, which `tests/run` builds, and the size of a run. These variables of the environment
say both. `tests/run` sets all but ONE_CALL and LIBRARY, by which a person tests others:

    SPKI_TEST_PROGRAM   another program than crates/spki/out/spki
    SPKI_TEST_ONE_CALL  another program than crates/test_one_call/out/test_one_call
    SPKI_TEST_LIBRARY   another static library than crates/spki_c/out/libspki_c.a; the shared one lies beside it, and those for ARM in the
                        folder aarch64-unknown-linux-gnu there
    SPKI_TEST_ALONE     the program alone is tested: there is no library
    SPKI_TEST_CASES     how many generated cases are compared with the model
    SPKI_TEST_LONG      the long tests too, which `.ci/deep` runs
"""
import os
import unittest

from harness.support import ARM, LIBRARY, PROGRAM, TOP

BY_RATTLE = os.path.join(TOP, "crates", "spki", "out", "spki.by-rattle")
ONE_CALL = os.environ.get("SPKI_TEST_ONE_CALL", os.path.join(TOP, "crates", "test_one_call", "out", "test_one_call"))
ONE_CALL_BY_RATTLE = os.path.join(TOP, "crates", "test_one_call", "out", "test_one_call.by-rattle")
IS_LONG, IS_ALONE = (bool(os.environ.get(f"SPKI_TEST_{word}")) for word in ("LONG", "ALONE"))
CASES = int(os.environ.get("SPKI_TEST_CASES", "2000"))


def existing(path: str) -> str:
    """The whole path of a built file. Raises FileNotFoundError if it is not there."""
    if not os.path.exists(path):
        raise FileNotFoundError(f"{path} is not there: tests/run builds it")
    return os.path.abspath(path)


def program() -> str:
    """The path of the program that is tested. Raises FileNotFoundError if it is not built."""
    return existing(os.environ.get("SPKI_TEST_PROGRAM", PROGRAM))


def library() -> str:
    """The path of the static library that is tested. Raises FileNotFoundError if it is not built."""
    return existing(os.environ.get("SPKI_TEST_LIBRARY", LIBRARY))


def shared() -> str:
    """The path of the shared library that is tested. Raises FileNotFoundError if it is not built."""
    return existing(library().removesuffix(".a") + ".so")


def arm() -> str:
    """The path of the static library for ARM that is tested. The shared one is beside it. Raises FileNotFoundError if it is not built."""
    return existing(os.path.join(os.path.dirname(library()), ARM, "libspki_c.a"))


class OfProgram(unittest.TestCase):
    """The base of tests of the program: `program` is its path."""

    program: str

    @classmethod
    def setUpClass(cls) -> None:
        cls.program = program()


class OfLibrary(OfProgram):
    """The base of tests of the library for C: `library` is the path of the static one, and `shared` that of the shared one. Some tests compare its
    answers with those of the program."""

    library: str
    shared: str

    @classmethod
    def setUpClass(cls) -> None:
        super().setUpClass()
        cls.library, cls.shared = library(), shared()
