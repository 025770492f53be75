"""Compares the commands of all pages and helps with the lists of page_commands.py, which say what runs each."""
from __future__ import annotations

import os
import re
import unittest

from harness import page_commands
from harness.page_commands import NOT_RUN, RUN, Command, tracked
from harness.support import COMMANDS, text_of

# What is to be done where a command is unknown.
ADVICE = ("no test knows these commands. Put each where a test runs it: into a block of a page that RUN in tests/harness/page_commands.py names. "
          "If it can not be run, add a row to NOT_RUN there, with the reason")


class Lists(unittest.TestCase):
    """The commands of the pages beside the lists of page_commands.py."""

    commands: list[Command]

    @classmethod
    def setUpClass(cls) -> None:
        cls.commands = page_commands.all_commands()

    def test_all_commands_are_known(self) -> None:
        unknown = page_commands.uncovered(self.commands)
        self.assertEqual(unknown, [], "\n".join([ADVICE, *unknown]))

    def test_each_row_is_about_a_command(self) -> None:
        """A row whose commands are gone is to be removed."""
        unused = [row for row in RUN if not any((command.page, command.kind) == (row.page, row.kind) for command in self.commands)]
        self.assertEqual(unused, [], "these rows of RUN are about no command: remove them")
        unneeded = [row for row in NOT_RUN if not any(page_commands.covers(row, command) for command in self.commands)]
        self.assertEqual(unneeded, [], "these rows of NOT_RUN are about no command: remove them")

    def test_the_tests_read_their_pages(self) -> None:
        """The module of tests that a row of RUN names has the name of the row's page in its source."""
        for row in RUN:
            with self.subTest(row):
                self.assertIn(os.path.basename(row.page), text_of(f"tests/suite/{row.test}.py"))

    def test_names(self) -> None:
        """In backticks the word behind `spki` or `spki-cert` is a command of it, which has the options; behind `spki-authd` it is a flag."""
        helps: dict[str, str] = {}
        flags = "".join(text_of(path) for path in tracked() if path.startswith("apps/spki-authd/") and path.endswith(".go"))
        for command in self.commands:
            named = re.fullmatch(r"(spki-cert|spki|spki-authd) -?([a-z]+)((?: --[a-z-]+)*)", command.line)
            if not named or command.kind != "inline":
                continue
            program, word, options = named.groups()
            if program == "spki":
                self.assertIn(word, COMMANDS, command)
            elif program == "spki-authd":
                self.assertIn(f'"{word}"', flags, command)
            else:
                helps[word] = helps.get(word) or page_commands.help_of(word)
                self.assertEqual([option for option in options.split() if option not in helps[word]], [], command)
