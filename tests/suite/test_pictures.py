"""Tests the pictures: those of docs/pictures/ are as draw.py draws them, and examples/picture.py draws cases of examples/ with what the
program says of each, and what stops it in red. If Graphviz is there, it must read what is drawn."""
import os
from collections.abc import Callable

from harness import built, needs
from harness.support import EXAMPLES, TOP, output_of, room_for

# A case of examples/, and what its picture has.
CASES = {
    "guide/granted.sexp": ["yes entry 1", "left: (tag (packages read (* prefix\\n/builds/web/)))"],
    "guide/no-delegation.sexp": ["item 3 NoDelegation", "color=red"],
    "delegation.sexp": ["yes entry 1"], "first-run.csexp": ["yes entry 1"], "shorter-request.csexp": ["TagLacks", "color=red"],
    "second-entry.csexp": ["yes entry 2"], "no-entries.csexp": ["digraph chain"], "signed/cases/granted.sexp": ["yes entry 1", "builders of"],
    "signed/cases/changed-octet.sexp": ["item 6 DigestDiffers", "color=red"], "signed/cases/other-key.sexp": ["item 6 NotAccepted"],
    "signed/cases/other-signer.sexp": ["item 6 SignerDiffers"], "signed/cases/key-not-shown.sexp": ["item 1 KeyNotShown"],
    "signed/cases/other-holder.sexp": ["NotTheKey", "asks"], "signed/cases/too-late.sexp": ["WindowLacks"]}


class Pictures(built.OfProgram):
    """What examples/picture.py and docs/pictures/draw.py draw, and how they end if they draw nothing."""

    def draw(self, name: str) -> tuple[int, str]:
        """The status of examples/picture.py on a case, by its path below examples/, and what it draws."""
        return output_of(os.path.join(EXAMPLES, "picture.py"), os.path.join(EXAMPLES, name), self.program)

    def check_words(self, name: str) -> None:
        """The picture of a case, a key of CASES, must have its words there."""
        status, picture = self.draw(name)
        missing = [word for word in CASES[name] if word not in picture]
        self.assertEqual((status, missing), (0, []), f"{name} is drawn without {missing}\n{picture}")

    def check_by_graphviz(self, name: str) -> None:
        """Graphviz must read the picture of a case."""
        status, output = output_of("dot", "-Tplain", text=self.draw(name)[1])
        self.assertEqual(status, 0, f"dot does not read the picture of {name}: {output}")

    def test_pictures_of_the_documents(self) -> None:
        """The files in docs/pictures/ are as draw.py draws them. It ends with a message if the program, here /bin/false, fails."""
        draw = os.path.join(TOP, "docs", "pictures", "draw.py")
        status, output = output_of(draw, "--check", self.program)
        self.assertEqual(status, 0, output)
        self.assertEqual(output_of(draw, "/bin/false", "--check"), (2, "/bin/false explain ended with status 1 and no answer\n"))

    def test_what_is_not_drawn(self) -> None:
        """A case that is refused, a file that is not there, and a program that fails at a command each end in one line and status 2. The program is a
        script, which runs the shell's words `fails` for `command`, and else the real program."""
        program = os.path.join(room_for(self), "spki")
        for case, command, fails, message in [
                ("bad-date.csexp", "", ":", "refused at BadDate"), ("none", "", ":", "No such file or directory"),
                ("delegation.sexp", "explain", "exit 3", "explain ended with status 3 and no answer"),
                ("delegation.sexp", "explain", "exit 0", "explain ended with status 0 and no answer"),
                ("delegation.sexp", "explain", "kill -9 $$", "explain ended with status -9 and no answer"),
                ("delegation.sexp", "reduce", "echo refused Memory; exit 2", "refused Memory"),
                ("delegation.sexp", "canonical", "echo refused Memory; exit 2", "refused Memory")]:
            with open(program, "w", encoding="utf-8") as file:
                file.write(f"#!/bin/sh\n[ \"$1\" != '{command}' ] || {{ {fails}; }}\nexec '{self.program}' \"$@\"\n")
            os.chmod(program, 0o755)
            with self.subTest(message, command=command):
                status, output = output_of(os.path.join(EXAMPLES, "picture.py"), os.path.join(EXAMPLES, case), program)
                self.assertEqual((status, output.count("\n"), message in output), (2, 1, True), output)


def add_tests(name: str) -> None:
    """Adds the tests of a case: that its picture has the words, and that Graphviz reads it."""
    words: Callable[[Pictures], None] = lambda self: self.check_words(name)
    read: Callable[[Pictures], None] = lambda self: self.check_by_graphviz(name)
    place = os.path.splitext(name)[0]
    setattr(Pictures, f"test_picture:{place}", words)
    setattr(Pictures, f"test_picture:{place}:read", needs.needs("dot")(read))


for each in CASES:
    add_tests(each)
