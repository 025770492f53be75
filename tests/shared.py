"""All that bench/, examples/ and docs/pictures/ use of the tests: they import nothing else of theirs."""
from typing import Any

from harness import golang
from harness.support import BENCH, LIBRARY, PROGRAM, TOP, braced, canonical, given_program, group, read, run, string

__all__ = ["BENCH", "LIBRARY", "PROGRAM", "TOP", "braced", "canonical", "given_program", "golang", "group", "page_tests", "read", "run", "servers",
           "string"]


def servers() -> Any:
    """The module that starts servers of PostgreSQL. Its import looks for all that the tests use, which takes a while, so it is imported only here."""
    from harness import databases
    return databases


def page_tests() -> Any:
    """The module of the playground's tests. Its import looks for all that the tests use, which takes a while, so it is imported only here. It needs
    no browser. Its class InChromium opens the page in one: without that, its driver or Selenium `InChromium.setUpClass` raises an exception."""
    from suite import test_playground
    return test_playground
