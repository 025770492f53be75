"""Checks the scripts in Python, those without a suffix too: pyflakes and pycodestyle find nothing in them, mypy accepts their types,
and those beside the tests import nothing of theirs but `shared`."""
import os
import re
import subprocess
import unittest

from harness import needs
from harness.support import TESTS, TOP, text_of

# A script without a suffix begins with this line.
MARK = "#!/usr/bin/env python3"
LINE_LENGTH = 150
# The folders whose modules are imported by their names alone, and the one whose modules have names that others have too.
MODULES = ("tests", "examples", "examples/signed", "examples/database", "bindings/python", "bench", "apps/spki-cert", "apps/spki-store", ".ci")
PAGE = "apps/playground"
# The folders whose modules mypy reads apart from those of other folders. The rest is one more group.
APART = (".ci", "tests", "bench", "apps/playground", "apps/spki-cert", "apps/spki-store", "bindings")


def scripts() -> list[str]:
    """The scripts in Python of the repository, by their paths from the top: also new ones, which git does not track yet, but none that it ignores."""
    listed = subprocess.run(["git", "ls-files", "-co", "--exclude-standard"], cwd=TOP, stdout=subprocess.PIPE, text=True, check=True)
    return [path for path in listed.stdout.splitlines() if path.endswith(".py") or is_script(path)]


def is_script(path: str) -> bool:
    """Whether a file, by its path from the top, has no suffix and is a script in Python."""
    if "." in path.rpartition("/")[2]:
        return False
    with open(f"{TOP}/{path}", encoding="utf-8", errors="replace") as file:
        return file.readline().rstrip("\n") == MARK


class Scripts(unittest.TestCase):
    """All scripts in Python."""

    def check_all(self, *words: str) -> None:
        """A command, which gets the paths of all scripts behind these words, must find nothing in them."""
        done = subprocess.run([*words, *scripts()], cwd=TOP, stdout=subprocess.PIPE, stderr=subprocess.STDOUT, text=True)
        self.assertEqual(done.returncode, 0, done.stdout)

    @needs.needs("mypy")
    def test_types(self) -> None:
        """mypy accepts the types: in groups, since several folders have a module of the same name, and of each script without a suffix alone."""
        groups: dict[str, list[str]] = {}
        for path in scripts():
            group = path if not path.endswith(".py") else next((folder for folder in APART if path.startswith(f"{folder}/")), "others")
            groups.setdefault(group, []).append(path)
        for name, paths in groups.items():
            settings = {**os.environ, "MYPYPATH": ":".join([PAGE, *MODULES] if name == PAGE else MODULES)}  # (PAGE for its own scripts alone)
            with self.subTest(name):
                words = ["mypy", "--config-file", os.path.join(TESTS, "mypy.ini"), "--cache-dir", os.path.join(TESTS, "out", "mypy"), *paths]
                done = subprocess.run(words, cwd=TOP, stdout=subprocess.PIPE, stderr=subprocess.STDOUT, text=True, env=settings)
                self.assertEqual(done.returncode, 0, done.stdout)

    def test_imports(self) -> None:
        """A script outside of tests/ imports none of the packages of the tests. It may import their module `shared`."""
        theirs = re.compile(r"^ *(from|import) (harness|rows|suite|model|generators)\b", re.MULTILINE)
        self.assertEqual([path for path in scripts() if not path.startswith("tests/") and theirs.search(text_of(path))], [])

    @needs.needs("pyflakes3")
    def test_pyflakes(self) -> None:
        self.check_all("pyflakes3")

    @needs.needs("pycodestyle")
    def test_pycodestyle(self) -> None:
        self.check_all("pycodestyle", "--max-line-length", str(LINE_LENGTH))
