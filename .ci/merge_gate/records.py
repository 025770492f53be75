"""Records of deep runs: crates/NAME/wrong/tried has a checksum of what the wrong bodies of a crate were last tried against. The gate compares it, and
so tells of a crate whose promises changed after its wrong bodies were tried."""
import glob
import hashlib
import os
import re
from collections.abc import Iterator
from typing import Any

# A remark or an import, which says nothing of what is promised, unless two definitions have one name. The head of a function, up to its body. A
# public trait. A member of an impl, a trait or a struct for contracts alone, such as a view or an invariant: it says what a value is in them.
REMARK = re.compile(r"^\s*(?:--|//|use |ghost use |pub use ).*\n|^\s*\n", re.MULTILINE)
HEAD = re.compile(r"^( *)(?:pub(?:\([\w:]+\))? |const |unsafe |extern \"C\" )*fn (?:.|\n)*?(?:\n\1| )\{\}?$", re.MULTILINE)
TRAIT = re.compile(r"^pub (?:unsafe )?trait (?:.|\n)*?^\}", re.MULTILINE)
GHOST = re.compile(r"^ *ghost \w+(?: =|:) (?:.|\n)*?\}[;,]$", re.MULTILINE)


def read(path: str) -> str:
    """The text of a file, without blank lines and those that begin as a remark or an import."""
    with open(path, encoding="utf-8") as file:
        return REMARK.sub("", file.read())


def promises(crate: Any) -> Iterator[str]:
    """What the wrong bodies of a crate are tried against, and they themselves: the contracts of its functions, its public traits, and the definitions
    and the ghost members of this crate and of those below. A wrong body is an edit of a function that its contract must refuse."""
    for path in sorted(glob.glob(f"{crate.folder}/src/**/*.rt", recursive=True)):
        text = read(path)
        yield from (found[0] for pattern in (HEAD, TRAIT) for found in pattern.finditer(text))
    for folder in sorted({crate.folder, *(used.folder for used in crate.below())}):
        yield from map(read, sorted(glob.glob(f"{folder}/specs/**/*.antt", recursive=True)))
        yield from (ghost for path in sorted(glob.glob(f"{folder}/src/**/*.rt", recursive=True)) for ghost in GHOST.findall(read(path)))
    yield from map(read, sorted(glob.glob(f"{crate.folder}/wrong/*.edit")))


def sum_of(crate: Any) -> str:
    """The SHA-256 checksum of what `promises` yields for a crate, in hexadecimal digits."""
    return hashlib.sha256("\0".join(promises(crate)).encode()).hexdigest()


def path_of(crate: Any) -> str:
    """The path of a crate's record."""
    return os.path.join(crate.folder, "wrong", "tried")


def write(crate: Any, checksum: str) -> None:
    """Records that all wrong bodies of a crate were tried and refused, while `sum_of` the crate was this checksum."""
    with open(path_of(crate), "w", encoding="utf-8") as file:
        file.write(checksum + "\n")


def is_right(crate: Any) -> bool:
    """Whether a crate has a record, and its checksum is that of the present promises and wrong bodies."""
    return os.path.exists(path_of(crate)) and read(path_of(crate)).strip() == sum_of(crate)
