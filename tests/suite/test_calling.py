"""Compares the pages for callers, crates/*/CALLING.md, with the sources.

The paragraph before a block of code ends with the block's file: the block is word for word in that file of crates/test_callers, which is proved.
A call is a public function, or a method of a type or a trait. Each call that the library's lib.rt passes on, by `pub use` or `pub mod`, is named in
the row of its file in the table of calls, or is a law of a file that has a row. Nothing else is named in a row. Each block and call is a test."""
import functools
import glob
import os
import re
import unittest
from collections.abc import Callable

from harness.support import TOP as ROOT, text_of

CRATES = os.listdir(os.path.join(ROOT, "crates"))
# A block of code with the file that is named before it, a row of the table of calls, and the line that begins an `impl` or a public trait.
BLOCK = re.compile(r"`([\w./]+\.(?:rt|antt))`[^`\n]*\n\n```(?:rust|antt)\n(.*?)^```$", re.MULTILINE | re.DOTALL)
ROW = re.compile(r"^\| `([\w./]+\.rt)` \| (.*) \|$", re.MULTILINE)
HEAD = re.compile(r"(?:impl|pub trait)\b.*\{$")


def page_of(crate):
    """The text of a crate's CALLING.md, empty if it has none."""
    path = f"crates/{crate}/CALLING.md"
    return text_of(path) if os.path.exists(os.path.join(ROOT, path)) else ""


def path_in(crate, path):
    """The path of a file from the top of the repository. `path` is as on the page of a crate: `src/..` for its own files, from crates/ for others."""
    return f"crates/{crate}/{path}" if path.startswith("src/") else f"crates/{path}"


# ---- the calls that a library passes on


def owner_of(head):
    """The name of the type or trait in the first line of an `impl` or a trait: of `impl TRAIT for TYPE` the type."""
    return re.match(r"(?:impl(?:<.*?>)?(?: \w+(?:<.*?>)? for)?|pub trait) (\w+)", head)[1]


def calls_in_source(source):
    """Yields the public calls of a source, also methods of public traits, as pairs: the type or trait that has it, None for a function; its name."""
    owner, is_trait = None, False
    for line in source.splitlines():
        if HEAD.match(line):
            owner, is_trait = owner_of(line), line.startswith("pub trait")
        elif line == "}":
            owner, is_trait = None, False
        call = re.match(r" *fn (\w+)" if is_trait else r" *pub fn (\w+)", line)
        if call:
            yield owner, call[1]


@functools.cache
def calls_in_crate(crate):
    """The public calls of a crate's sources, each as a triple: its file; the type or trait that has it, or None for a function; its name."""
    paths = [os.path.relpath(file, ROOT) for file in glob.glob(os.path.join(ROOT, "crates", crate, "src", "*.rt"))]
    return [(path, owner, name) for path in paths for owner, name in calls_in_source(text_of(path))]


def calls_of_item(crate, item):
    """Yields the calls that a `pub use` of an item of a crate passes on: those of a type or a trait, in any file, or the function. Each is a triple:
    its file, its name there, and its name as callers write it. Both names are the same here: `calls_passed_on` puts modules before the second."""
    for path, owner, name in calls_in_crate(crate):
        if owner == item:
            yield path, f"{owner}::{name}", f"{owner}::{name}"
        elif owner is None and name == item:
            yield path, name, name


def calls_passed_on(crate, module="lib"):
    """Yields the calls that a module passes on: what its `pub use` lines name, also of other crates; its own functions, if it is not `lib`; and those
    of its public modules. Each is a triple: its file, its name there, and the name for callers, with a function's module: `laws::one_value`."""
    path = f"crates/{crate}/src/{module}.rt"
    source = text_of(path)
    for origin, items in re.findall(r"^pub use ([\w:]+)::(\{[^}]*\}|\w+);", source, re.MULTILINE):
        for item in re.findall(r"\w+", items):
            if origin in CRATES:
                yield from (call for call in calls_passed_on(origin) if call[2].split("::")[0] == item)
            else:
                yield from calls_of_item(crate, item)
    if module != "lib":
        yield from ((path, name, name) for owner, name in calls_in_source(source) if owner is None)
    for inner in re.findall(r"^pub mod (\w+);", source, re.MULTILINE):
        for file, name, public_name in calls_passed_on(crate, inner):
            yield file, name, public_name if "::" in public_name else f"{inner}::{public_name}"


def is_law(name):
    """Whether a call is a law, a proved statement about definitions: its name begins with a module of laws, such as `laws::` or `line_laws::`."""
    return re.match(r"\w*laws::", name) is not None


# ---- a page


def checks(crate):
    """Yields the checks of a crate's page as pairs of texts: what each is about, and what is wrong, or None. A block of code must name a file of
    test_callers and be in it. The row of a file must have each call of it that lib.rt passes on, and no other call. Laws may be left out of it."""
    page = page_of(crate)
    blocks = BLOCK.findall(page)
    yield "the blocks", None if 2 * len(blocks) == len(re.findall(r"^```", page, re.MULTILINE)) else "one of them has no file"
    for path, block in blocks:
        is_there = path.startswith("crates/test_callers/") and f"\n{block}" in text_of(path)
        yield f"the block of {path}", None if is_there else "is not in the file"
    rows = {path_in(crate, path): set(re.findall(r"`([^`]+)`", named)) for path, named in ROW.findall(page)}
    passed_on = {(path, public_name) for path, _, public_name in calls_passed_on(crate)}
    for path, public_name in sorted(passed_on):
        is_there = path in rows and (is_law(public_name) or public_name in rows[path])
        yield f"{path}: {public_name}", None if is_there else "is not on the page"
    for path, public_name in sorted((path, public_name) for path, named in rows.items() for public_name in named):
        yield f"{path}: {public_name}", None if (path, public_name) in passed_on else "is not passed on"


class Pages(unittest.TestCase):
    """The pages for callers. `add_tests` adds a test for each check."""


def check_test(crate: str, about: str, fault: str | None) -> Callable[[Pages], None]:
    """Returns the test of a check. It fails unless `fault` is None. Otherwise `fault` says what is wrong with `about`, a part of the crate's page."""
    return lambda self: self.assertIsNone(fault, f"crates/{crate}/CALLING.md: {about} {fault}")


def add_tests() -> None:
    """Adds the tests of all pages."""
    for crate in sorted(filter(page_of, CRATES)):
        for number, (about, fault) in enumerate(checks(crate), 1):
            setattr(Pages, f"test_calling:{crate}:{number}:{about}", check_test(crate, about, fault))


add_tests()
