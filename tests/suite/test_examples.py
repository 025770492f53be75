"""Runs the examples that are programs: those with real keys and signatures, those with a database, and those with keys of lsh. Each ends
with a line 'N passed, M failed', and must pass."""
import os
import unittest

from harness import built, databases, needs
from harness.support import EXAMPLES, output_of

SECONDS = 1800


class Example(unittest.TestCase):
    """A test of an example."""

    def check_example(self, *words: str, **settings: str) -> None:
        """An example must end with status 0, and its last line must count tests and no failure. `words` are its path below examples/ and its
        arguments, and `settings` more variables of the environment."""
        status, output = output_of(os.path.join(EXAMPLES, words[0]), *words[1:], seconds=SECONDS, env={**os.environ, **settings})
        self.assertRegex(output, r"(?:^|\n)[1-9]\d* passed, 0 failed\n$", output[-3000:])
        self.assertEqual(status, 0, output[-3000:])


class OfProgram(Example):
    """The examples that need nothing that is built but the program."""

    @needs.needs("import cryptography")
    def test_signed(self) -> None:
        self.check_example("signed/run.py", built.program())

    @needs.needs("lsh-keygen", "sexp-conv")
    def test_lsh(self) -> None:
        self.check_example("lsh.py", built.program())


@needs.needs("import cryptography", *needs.LIBRARY, *databases.NEEDED)
class OfDatabase(Example):
    """The story of a service with a database."""

    def test_story(self) -> None:
        """The story passes, and removes the roles of PostgreSQL that it has made."""
        with databases.Server() as server:
            self.check_example("database/story.py", server.address, SPKI_LIBRARY=built.shared())
            self.assertEqual(server.run("psql", server.address, "-Atc", "SELECT rolname FROM pg_roles WHERE rolname LIKE 'spki%'"), "")
