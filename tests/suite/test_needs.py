"""Compares CONTRIBUTING.md with `needs.py`, the list of what the tests use, and tries how a test is skipped."""
import pathlib
import tempfile
import unittest

from harness import needs, running
from harness.support import text_of


class Needs(unittest.TestCase):
    """The list of what the tests use, and what may be skipped by it."""

    def test_table_of_the_page(self) -> None:
        self.assertIn("\n".join(needs.table()), text_of("CONTRIBUTING.md"), "CONTRIBUTING.md lacks the table that needs.py makes")

    def test_line_of_the_page(self) -> None:
        self.assertIn(needs.install_line(), text_of("CONTRIBUTING.md"), "CONTRIBUTING.md lacks the line that tests/run --needs prints")

    def test_skips(self) -> None:
        """A test may be skipped only for a need that is on the list and that this machine lacks."""
        unlisted = needs.Need("no-such-command", "no-such-package", "nothing")
        self.assertFalse(needs.is_by_missing_needs(unlisted.reason))
        self.assertTrue(all(needs.is_by_missing_needs(need.reason) != need.is_there for need in needs.NEEDS))

    def test_skipped_module(self) -> None:
        """A module that is skipped as a whole has an outcome under its own name: a failure if the reason is no need of the list."""
        with tempfile.TemporaryDirectory() as folder:
            pathlib.Path(folder, "test_gone.py").write_text("import unittest\nraise unittest.SkipTest('there is no such command')\n")
            tests = list(running.flattened(unittest.TestLoader().discover(folder, top_level_dir=folder)))
        outcome, = running.run_all(tests, jobs=1, stops_early=False, command="tests/run")
        self.assertEqual(outcome.name, "test_gone")
        self.assertIn("there is no such command", "".join(outcome.failed.values()))
