"""Tests that what the documents name is there: each relative link and its heading, each path of a file or folder of this repository in backticks and
in indented commands, the versions of the manual and of README.md, which are that of the file VERSION, and the logic of the toolchain that README.md
names, which `rt --version` prints; each definition of docs/DEFINITIONS.md, in the file of its row; each clause of docs/PROOFS.md and each call of
docs/ARCHITECTURE.md, in the function of its row (`claims.py`, `ways.py`). Pages are within their limits, and count the lines of files rightly.

A path is what begins with a name at the top of the repository, or in the folder of the document, or with `src`, `specs` or `proofs` in the page of a
crate; and each word in backticks that ends as a file here. Words in capitals and `*` stand for any name. `out/` is left out. Each page is a test."""
import glob
import os
import re
import unittest
from collections.abc import Callable, Iterator

from harness import claims, ways
from harness.support import TOP, output_of, text_of

PAGES = ["*.md", "docs/*.md", "examples/*.md", "apps/**/*.md", "bindings/**/*.md", "crates/*/CALLING.md"]
# The octets that README.md may have, all pages of docs/ with the pages CALLING.md, and CHANGELOG.md, which has a release in some 20 to 40 lines.
MOST_OF_README, MOST_OF_PAGES, MOST_OF_CHANGES = 16_384, 245_760, 4_096
LINK = re.compile(r"\]\(([^)\s]+)\)")
TICKS = re.compile(r"`([^`\n]+)`")
FENCED = re.compile(r"^```(\w*) ?(\S*)\n(.*?)^```$", re.MULTILINE | re.DOTALL)
HEADING = re.compile(r"^#+ (.*)$", re.MULTILINE)
PATH = re.compile(r"^(?:\.ci|[\w*+-][\w.*+-]*)(?:/[\w.*+-]+)*/?$")
KINDS = (".md", ".py", ".sexp", ".csexp", ".tsexp", ".rt", ".antt", ".h", ".c", ".sh", ".svg")
# A link to a file, and in how many lines it does something: behind the link, or before it as the link's text.
COUNTED = re.compile(r"\]\(([^)\s]+)\)[^][().]* in (\d+)(?:\slines|\.)|\[(\d+)(?: lines)? in \w+\]\(([^)\s]+)\)")
LOGIC = re.compile(r"rattle-kit-\w+ (logic [0-9a-f]+)")
PLACEHOLDER = re.compile(r"\b[A-Z]{2,}(?![A-Za-z.])")
# What pages name that is made by a command, by the reader, or by another program.
MADE_ELSEWHERE = {"ask.py", "builders.sexp", "to-bob.sexp", "to-carol.sexp", "case.sexp", "chain.svg", "chain.sexp", "wrong.sexp", "x.edit", "locate"}


def names_here():
    """The bare names of all files of the repository, without what is built."""
    bare_names = set()
    for _, folders, names in os.walk(TOP):
        folders[:] = set(folders) - {".git", "out", "__pycache__"}
        bare_names.update(names)
    return bare_names


def anchor(heading):
    """The anchor of a heading, as pages on the web have it: in small letters, with hyphens for spaces, without punctuation but `-` and `_`."""
    bare = re.sub(r"[^\w\- ]", "", heading.replace("`", "")).strip().lower()
    return bare.replace(" ", "-")


def dead_links(page):
    """Yields a text for each relative link of a page that leads to no file or no heading. Code in backticks or fences has no links."""
    for target in LINK.findall(TICKS.sub("", FENCED.sub("", text_of(page)))):
        if re.match(r"[a-z]+:", target):
            continue
        path, _, part = target.partition("#")
        file = os.path.normpath(os.path.join(os.path.dirname(page), path)) if path else page
        if not os.path.exists(os.path.join(TOP, file)):
            yield f"the link to {target}"
        elif part and part not in map(anchor, HEADING.findall(text_of(file))):
            yield f"the heading of the link to {target}"


def possible_paths(page):
    """Yields the words of a page that may be paths: all that are in backticks, and those with a `/` that are in an indented line, before any `#`."""
    text = text_of(page)
    plain = FENCED.sub("", text)
    for quoted in TICKS.findall(plain):
        yield from quoted.split()
    for line in re.findall(r"^    (.*)$", plain, re.MULTILINE):
        yield from (word for word in line.split("#")[0].split() if "/" in word)


def base_folders(page):
    """The two folders in which a path that a page names may begin: the top of the repository, and the folder of the page."""
    return TOP, os.path.join(TOP, os.path.dirname(page))


def dead_paths(page, names):
    """Yields a text for each path that a page names and that is not there. `names` has the bare names of all files. A word without a folder must be
    one of them if it ends as a file does. Left out are names of blocks, MADE_ELSEWHERE, files in out/, and words in capitals, which stand for any."""
    written = {name for _, name, _ in FENCED.findall(text_of(page)) if name}
    for word in possible_paths(page):
        word = re.sub(r"^(?:\.\./|\./)+", "", word.rstrip(".,;:)"))
        if not PATH.match(word) or re.search(r"\bout/", f"{word}/") or PLACEHOLDER.search(word) or word in MADE_ELSEWHERE | written:
            continue
        # (a word with a `/` is a path if it begins with the name of a folder or a file that is here)
        first, is_bare_file = word.split("/")[0], "/" not in word and word.endswith(KINDS)
        is_path = "/" in word and any(os.path.exists(os.path.join(base, first)) for base in base_folders(page))
        is_there = any(glob.glob(os.path.join(base, word)) for base in base_folders(page))
        if not is_there and (is_path or is_bare_file and word not in names):
            yield f"the path {word}"


# ---- names in the sources

# A row of docs/DEFINITIONS.md, its files and its names; and a definition of a specification, or a field or constructor of one.
DEFINED = re.compile(r"^\| ([A-Z]\w+(?:, [A-Z]\w+)*) \| ((?:`[\w-]+`(?:, )?)+) \|", re.MULTILINE)
OF_SPECS = re.compile(r"^ *(?:(?:abbrev|pub|record|data|unfoldable) )*([\w-]+)\b|\(pub ([\w-]+)", re.MULTILINE)


def names_in_specs(paths: list[str]) -> set[str]:
    """The names that the specifications at these paths define, also of fields and constructors. Any other first word of a line is among them too."""
    return {name for path in paths for names in OF_SPECS.findall(text_of(path)) for name in names if name}


def below_crates(part: str) -> list[str]:
    """The paths of the files that a pattern such as `src/**/*.rt` matches in the folder of any crate."""
    return glob.glob(os.path.join("crates", "*", part), root_dir=TOP, recursive=True)


def missing_definitions() -> Iterator[str]:
    """Yields `FILES: NAME` for each definition that a row of docs/DEFINITIONS.md names and its files lack in all crates of the section's head."""
    for head, rows in claims.SECTION.findall(text_of("docs/DEFINITIONS.md")):
        for files, names in DEFINED.findall(rows):
            paths = [f"crates/{crate}/specs/{file}.antt" for crate in re.findall(r"`(\w+)`", head) for file in files.split(", ")]
            there = names_in_specs([path for path in paths if os.path.exists(os.path.join(TOP, path))])
            yield from (f"{files}: {name}" for name in re.findall(r"`([\w-]+)`", names) if name not in there)


class Documents(unittest.TestCase):
    """What the documents name."""

    def test_versions(self) -> None:
        version = text_of("VERSION").strip()
        for page in ("docs/spki.1", "docs/spki-cert.1", "docs/spki-authd.8"):
            self.assertIn(f'"Conguraki {version}"', text_of(page).splitlines()[0])
        self.assertIn(f"The version is {version}.", text_of("README.md"))

    def test_paths_of_tests(self) -> None:
        """Each path below tests/ that any file of the repository names is there, except in an out/, where programs are built."""
        named = re.findall(r"tests/.*", output_of("git", "grep", "-ohE", r"(^|[^A-Za-z0-9_/.-])tests/[a-z][A-Za-z0-9_/.*]*[a-z/]", cwd=TOP)[1])
        self.assertTrue(named)
        self.assertEqual({path for path in named if "/out/" not in path and not glob.glob(os.path.join(TOP, path))}, set())

    def test_lengths(self) -> None:
        """README.md and CHANGELOG.md are no longer than their limits, and docs/*.md and the pages CALLING.md together are below theirs: nobody reads
        long pages."""
        lengths = {path: os.path.getsize(path) for pattern in PAGES for path in glob.glob(os.path.join(TOP, pattern), recursive=True)}
        self.assertLessEqual(lengths[os.path.join(TOP, "README.md")], MOST_OF_README)
        self.assertLessEqual(lengths[os.path.join(TOP, "CHANGELOG.md")], MOST_OF_CHANGES)
        self.assertLess(sum(size for path, size in lengths.items() if "/docs/" in path or path.endswith("CALLING.md")), MOST_OF_PAGES)

    def test_toolchain(self) -> None:
        """README.md names a toolchain of the logic that `rt --version` prints. Kits of one logic prove the same."""
        self.assertEqual(set(LOGIC.findall(text_of("README.md"))), set(LOGIC.findall(output_of("rt", "--version")[1])))

    def test_definitions(self) -> None:
        """Each definition that docs/DEFINITIONS.md lists is in the file of its row."""
        self.assertEqual(list(missing_definitions()), [])

    def test_claims(self) -> None:
        """Each clause that a row of docs/PROOFS.md names is in the contract of a function there, which leads to each definition of the row."""
        sources = claims.Sources(below_crates("src/**/*.rt"), below_crates("specs/**/*.antt"))
        self.assertEqual(list(claims.faults("docs/PROOFS.md", sources)), [])

    def test_costs(self) -> None:
        """Each function of which docs/PERFORMANCE.md says that it has the clause `cost`, or that it has none, is so, and no call of a service is left
        out."""
        sources = claims.Sources(below_crates("src/**/*.rt"), [])
        self.assertEqual(list(claims.wrong_costs("docs/PERFORMANCE.md", sources)), [])

    def test_ways(self) -> None:
        """Each call that docs/ARCHITECTURE.md lists on the way from octets to an answer stands in the function of its row."""
        self.assertEqual(list(ways.faults("docs/ARCHITECTURE.md", ways.bodies_of(below_crates("src/**/*.rt")))), [])

    def test_calls_for_c(self) -> None:
        """Each function `spki_c_..` has a row in docs/PROOFS.md. A call of spki.h has a namesake among these, or is explained there."""
        self.assertEqual(list(claims.unclaimed("docs/PROOFS.md", "crates/spki_c/spki.h", "crates/spki_c/spki.c")), [])

    def check_page(self, page: str) -> None:
        """All that a page names must be there, and each file have as many lines as the page says."""
        counts = [(file + other, number + of_other) for file, number, of_other, other in COUNTED.findall(text_of(page))]
        wrong = [pair for pair in counts if text_of(os.path.join(os.path.dirname(page), pair[0])).count("\n") != int(pair[1])]
        missing = sorted({*dead_links(page), *dead_paths(page, NAMES)})
        self.assertEqual((missing, wrong), ([], []), f"{page}: these are not there, or have another number of lines")


def page_test(page: str) -> Callable[[Documents], None]:
    """The test of a page."""
    return lambda self: self.check_page(page)


NAMES = names_here()
for path in sorted(path for pattern in PAGES for path in glob.glob(os.path.join(TOP, pattern), recursive=True)):
    each = os.path.relpath(path, TOP)
    setattr(Documents, f"test_page:{each}", page_test(each))
