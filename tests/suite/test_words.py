"""Runs the program with words that ask for no command, with those that ask for help, and with one right command beside them.

Wrong words end with status 2, nothing on standard output and a message or the usage on standard error; help with status 0, nothing on
standard output and the help on standard error, which names the exit statuses 0, 2 and 3. The help of the program begins with what it does."""
import re
import subprocess

from harness import built
from harness.support import COMMANDS, SECONDS, text_of

WRONG = [(), (b"frob",), (b"check", b"check"), (b"",), (b"\xff",), (b"check", b"\xff"), (b"Check",), (b"check ",), (b"--",),
         (b"--frob",), (b"check", b"--frob"), (b"help",), (b"--version",), (b"-V",), (b"check", b"--version")]
HELP = [(b"--help",), (b"-h",)] + [(command.encode(), b"--help") for command in COMMANDS]
STATUSES = (b"\n  0  ", b"\n  2  ", b"\n  3  ")  # (1 is no, which only some commands answer)
TEXT = b"(1:a)"
NO_TEXT = (2, b"", b"error: the words aren't UTF-8\n")  # (what the program does with a word that is no text)


class Words(built.OfProgram):
    """The words of the command line."""

    def run_with(self, words: tuple[bytes, ...]) -> tuple[int, bytes, bytes]:
        """Runs the program with these words on TEXT. Returns its status, its output and its errors."""
        done = subprocess.run([self.program.encode(), *words], input=TEXT, stdout=subprocess.PIPE, stderr=subprocess.PIPE, timeout=SECONDS)
        return done.returncode, done.stdout, done.stderr

    def test_wrong_words(self) -> None:
        for words in WRONG:
            with self.subTest(words):
                status, out, errors = self.run_with(words)
                is_message = errors.startswith(b"error: ") or b"Usage: spki" in errors
                self.assertEqual((status, out, is_message), (2, b"", True), f"spki {b' '.join(words)!r}: {errors!r}")

    def test_words_that_are_not_utf_8(self) -> None:
        self.assertEqual(self.run_with((b"\xff",)), NO_TEXT)
        self.assertEqual(self.run_with((b"check", b"\xff")), NO_TEXT)

    def test_help(self) -> None:
        for words in HELP:
            with self.subTest(words):
                status, out, errors = self.run_with(words)
                is_help = b"Usage: spki" in errors and all(each in errors for each in STATUSES)
                self.assertEqual((status, out, is_help), (0, b"", True), f"spki {b' '.join(words)!r}: {errors!r}")
        self.assertTrue(self.run_with((b"--help",))[2].startswith(b"Decides"))

    def test_manual(self) -> None:
        """The manual says where the help is written, and that there is no `--version`. Both are so, by the tests above."""
        manual = re.sub(r"^\.\w+ |[\\\"]", "", text_of("docs/spki.1"), flags=re.MULTILINE).replace("\n", " ")
        sentences = ("The help is written on standard error, with exit status 0.", "There is no --version : the version is at the foot of this page.")
        self.assertEqual([sentence for sentence in sentences if sentence not in manual], [])

    def test_one_right_command(self) -> None:
        self.assertEqual(self.run_with((b"canonical",)), (0, TEXT, b""))
