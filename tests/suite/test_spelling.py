"""Checks the spelling of documents, comments and scripts by `codespell`, which knows common mistakes. `spelling.words` beside this file has the
words of the project that codespell takes for mistakes, one a line. It is a long test: its list of words grows with each version."""
import os
import unittest
from collections.abc import Iterator

from harness import built, needs
from harness.support import SECONDS_TO_WAIT, TESTS, TOP, output_of

KINDS = (".md", ".1", ".py", ".rs", ".go", ".rt", ".h", ".c", ".sh")
WITHOUT_SUFFIX = ("apps/locate", "tests/run", ".ci/run", ".ci/deep")


def files_here() -> Iterator[str]:
    """The files of the repository, or of a copy of it, without what is built, by their paths from the top."""
    for folder, folders, names in os.walk(TOP):
        folders[:] = sorted(set(folders) - {".git", "out", "__pycache__"})
        yield from (os.path.relpath(os.path.join(folder, name), TOP) for name in sorted(names))


@needs.needs("codespell")
class Spelling(unittest.TestCase):
    """The spelling of the files of KINDS and WITHOUT_SUFFIX, and of those in specs/."""

    def test_spelling(self) -> None:
        files = [path for path in files_here() if path.endswith(KINDS) or path in WITHOUT_SUFFIX or "/specs/" in path]
        words = ["codespell", "--ignore-words", os.path.join(TESTS, "suite", "spelling.words"), *files]
        self.assertEqual(output_of(*words, cwd=TOP, seconds=SECONDS_TO_WAIT), (0, ""))


if not built.IS_LONG:
    del Spelling
