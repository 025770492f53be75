"""What happens where a call of the bindings is used wrongly, by the tables that rows/wrong_uses.py reads. A row has code that uses a call wrongly,
and its outcome, such as `does not compile` or `is granted`. Rows that do not compile (in Python: that mypy refuses) are compiled together, in Rust
each alone. The compiler must name a line of each, and print there what the row's pattern matches. All other rows are run. A wrong use that is
granted is of a kind that docs/GUIDE.md names."""
import os
import pathlib
import re
import subprocess
import sys
import unittest
from collections import defaultdict

from harness import built, golang, needs
from harness.snippets import GO_MODULE
from harness.support import CARGO, EXAMPLES, TOP, room_for, text_of
from rows import wrong_uses
from rows.wrong_uses import Row

SECONDS = 600
RUST, PYTHON, CRATE = (os.path.join(TOP, *words) for words in (["bindings", "rust"], ["bindings", "python"], ["crates", "spki_c"]))
WARNINGS = ["-Wall", "-Wextra", "-Wno-unused-function", "-Wno-unused-const-variable", "-Werror"]
# The kinds of wrong uses that grant: the first cells of the guide's table of them.
GUIDE = text_of("docs/GUIDE.md").partition("| A wrong use | What to do |\n|---|---|\n")[2].partition("\n\n")[0]
GRANTED = re.findall(r"^\| (.*?) \|", GUIDE, re.MULTILINE)


class Table(unittest.TestCase):
    """The table itself."""

    def test_rows(self) -> None:
        """There are 40 rows or more, at least 10 in each language. A row that is granted is of one of the kinds that the guide names, each of which
        has a row."""
        rows = {language: wrong_uses.parts_of(language)[1] for language in wrong_uses.LANGUAGES}
        self.assertGreaterEqual(sum(map(len, rows.values())), 40)
        self.assertGreaterEqual(min(map(len, rows.values())), 10)
        granted = [row.name for of_language in rows.values() for row in of_language if row.outcome == "is granted"]
        self.assertEqual([name for name in granted if not name.startswith(tuple(GRANTED))], [])
        self.assertEqual([kind for kind in GRANTED if not any(name.startswith(kind) for name in granted)], [])


@needs.needs(*needs.LIBRARY)
class WrongUses(built.OfLibrary):
    """The rows of each language: the compiler must refuse those that `split` calls wrong, and the others are run and must print their outcomes."""

    room: str

    def setUp(self) -> None:
        self.room = room_for(self)
        self.environment = {**os.environ, "SPKI_LIBRARY": self.shared, "PYTHONPATH": PYTHON, "LC_ALL": "C"}

    def output(self, *words: str, folder: str = "", status: int | None = None) -> str:
        """Runs a command in a folder, by default that of the test. Its status must be the given one, if any. Returns both outputs as one text."""
        done = subprocess.run(words, cwd=folder or self.room, stdout=subprocess.PIPE, stderr=subprocess.STDOUT, text=True, timeout=SECONDS,
                              env=self.environment)
        if status is not None:
            self.assertEqual(done.returncode, status, done.stdout)
        return done.stdout

    def write_program(self, name: str, shared: str, rows: list[Row]) -> tuple[str, dict[int, Row]]:
        """Writes the file `name`: the code that all rows share, and a program of these. Returns its path, and the row of each line that is in one."""
        text, lines = wrong_uses.program_of(shared, rows)
        path = os.path.join(self.room, name)
        os.makedirs(os.path.dirname(path), exist_ok=True)
        pathlib.Path(path).write_text(text, encoding="utf-8")
        return path, lines

    def check_refused(self, rows: list[Row], output: str, path: str, lines: dict[int, Row]) -> None:
        """The compiler must name a line of each of these rows, and write there what the row's pattern matches. `output` is what it writes about the
        program at a path, and `lines` has for the number of each line the row whose code it is."""
        faults: defaultdict[str, str] = defaultdict(str)
        for row, fault in wrong_uses.faults_in(output, path, lines):
            faults[row.name] += fault
        for row in rows:
            with self.subTest(row.name):
                # (the pattern may be empty, which every text matches)
                self.assertIn(row.name, faults)
                self.assertRegex(faults[row.name], f"(?s){row.pattern}")

    def check_outcomes(self, rows: list[Row], output: str) -> None:
        """The program of these rows must have written a line for each, with the place of the row and its outcome."""
        self.assertEqual(output, "".join(f"{row.place} {row.outcome}\n" for row in rows), [f"{row.place}: {row.name}" for row in rows])

    def split(self, language: str) -> tuple[str, list[Row], list[Row]]:
        """The code that all rows of a language share, the wrong rows, which must not compile, and the other rows."""
        shared, rows = wrong_uses.parts_of(language)
        return shared, [row for row in rows if row.outcome == "does not compile"], [row for row in rows if row.outcome != "does not compile"]

    def test_c(self) -> None:
        shared, wrong, others = self.split("c")
        words = ["gcc", "-std=c11", *WARNINGS, "-I", CRATE, "-I", os.path.join(EXAMPLES, "c"), "-x", "c"]
        path, lines = self.write_program("wrong.c", shared, wrong)
        self.check_refused(wrong, self.output(*words, "-c", "-O1", "-o", "wrong.o", path, status=1), path, lines)
        path, _ = self.write_program("run.c", shared, others)
        self.output(*words, "-o", "run", path, "-x", "none", self.library, status=0)  # (-x none: the library is no source)
        self.check_outcomes(others, self.output("./run", status=0))

    @needs.needs("g++")
    def test_cpp(self) -> None:
        shared, wrong, others = self.split("cpp")
        words = ["g++", "-std=c++17", *WARNINGS, "-I", CRATE]
        path, lines = self.write_program("wrong.cpp", shared, wrong)
        self.check_refused(wrong, self.output(*words, "-fsyntax-only", path, status=1), path, lines)
        path, _ = self.write_program("run.cpp", shared, others)
        self.output(*words, "-o", "run", path, self.library, status=0)
        self.check_outcomes(others, self.output("./run", status=0))

    @needs.needs("cargo")
    def test_rust(self) -> None:
        """The rows are compiled one by one: the compiler finds faults of one kind before it looks for those of the next."""
        shared, wrong, others = self.split("rust")
        self.environment.update(CARGO, SPKI_LIB_DIR=os.path.dirname(self.library))
        self.output("cargo", "build", "--quiet", "--lib", folder=RUST, status=0)
        folder = os.path.join(RUST, "out", "debug")
        library, dependencies = os.path.join(folder, "libspki.rlib"), os.path.join(folder, "deps")
        words = ["rustc", "--edition=2021", "--extern", f"spki={library}", "-L", f"dependency={dependencies}"]
        for row in wrong:
            path, lines = self.write_program("wrong.rs", shared, [row])
            self.check_refused([row], self.output(*words, "--emit=metadata", "-o", "wrong.rmeta", path, status=1), path, lines)
        path, _ = self.write_program("run.rs", shared, others)
        self.output(*words, "-o", "run", path, status=0)
        self.check_outcomes(others, self.output("./run", status=0))

    @needs.needs("go")
    def test_go(self) -> None:
        shared, wrong, others = self.split("go")
        self.environment.update(golang.settings(self.library))
        for name, rows in (("wrong", wrong), ("run", others)):
            path, lines = self.write_program(f"{name}/main.go", shared, rows)
            pathlib.Path(self.room, name, "go.mod").write_text(GO_MODULE.format(module=golang.MODULE), encoding="utf-8")
            words = ("go", "build", "-gcflags=-e", "-o", "program", ".")  # (-e: all errors, and not only the first ten)
            output = self.output(*words, folder=os.path.dirname(path), status=None if rows is wrong else 0)
            if rows is wrong:
                self.check_refused(wrong, output, path, lines)
        self.check_outcomes(others, self.output(os.path.join(self.room, "run", "program"), status=0))

    @needs.needs("mypy")
    def test_python_by_types(self) -> None:
        shared, wrong, _ = self.split("python")
        self.environment["MYPYPATH"] = PYTHON
        path, lines = self.write_program("wrong.py", shared, wrong)
        mypy = ["mypy", "--strict", "--cache-dir", os.devnull, "--no-error-summary", "--follow-imports", "silent"]
        self.check_refused(wrong, self.output(*mypy, path, status=1), path, lines)

    def test_python(self) -> None:
        shared, _, others = self.split("python")
        path, _ = self.write_program("run.py", shared, others)
        self.check_outcomes(others, self.output(sys.executable, "-W", "ignore", path, status=0))  # (a warning would be in the output)
