"""Tries wrong bodies, edits `crates/NAME/wrong/x.edit` of functions, by checks of the functions alone that they change. One check tries several that
change different functions, since loading the crate is most of its cost. A wrong body that the contract refuses passes. One that is still proved
fails. So does one that cannot be applied or read, one whose check ends at a limit of the prover, and one that is refused only because a proof file
names what it removed: that says nothing of the contract."""
import glob
import os
import re
from collections.abc import Iterator
from typing import Any, NamedTuple

from merge_gate import toolchain

# The head of a function: its spaces and its name. The head of an `impl`: its trait and the argument of that, if it has them, and its type. What
# errors say of a name that an edit has removed.
HEAD = re.compile(r'^(\s*)(?:pub(?:\([a-z]+\))?\s+)?(?:const\s+)?(?:extern\s+"C"\s+)?fn\s+(\w+)')
IMPL = re.compile(r"^impl(?:<.*?>)? (?:(\w+)(?:<(\w*).*?>)? for )?(\w+)")
NAME_GONE = re.compile(r"has no field|is not in scope|has no `|was not admitted")


def path_of(file: str, lines: list[str], at: int, name: str) -> str:
    """The path by which the toolchain knows a function: `Tag::meet` in `impl Tag`, `AnswerFromFault::from` in `impl From<Fault> for Answer`, and with
    its module elsewhere, `intersection::meet`. `file` is its path in the crate, `lines` its text. The head is line `at`, from 0, with the name."""
    if lines[at].startswith(" "):
        unindented = [line for line in lines[:at] if line[:1].strip()]
        if impl := IMPL.match(unindented[-1]):
            return f"{impl[3]}{impl[1] or ''}{impl[2] or ''}::{name}"
    modules = file.removeprefix("src/").removesuffix(".rt").split("/")
    return "::".join([*(module for module in modules if module not in ("lib", "main")), name])


def function_around(file: str, lines: list[str], number: int) -> str | None:
    """The path (`path_of`) of the function that line `number` of a file, from 0, is in, or None. A later `}` that is indented as its head ends it."""
    for at in range(number, -1, -1):
        head = HEAD.match(lines[at])
        if head:
            end = next((n for n in range(at + 1, len(lines)) if lines[n] == head[1] + "}"), at)
            return path_of(file, lines, at, head[2]) if number <= end else None
    return None


def functions_changed(file: str, old: str, new: str) -> set[str | None]:
    """The paths of the functions in which two texts of a file differ, with None among them for a line outside of functions. An edit replaces parts of
    lines, so both texts have equally many lines."""
    lines = old.split("\n")
    pairs = zip(lines, new.split("\n"), strict=True)
    return {function_around(file, lines, number) for number, (before, after) in enumerate(pairs) if before != after}


def functions_of(folder: str, texts: dict[str, str]) -> list[str]:
    """The paths of the functions that an edit changes. `texts` has each file that it changes, by its path in the folder of the crate, with its text
    after the edit. Empty if the edit changes nothing, or anything outside of functions of src/."""
    changed: set[str | None] = set()
    for file, text in texts.items():
        with open(os.path.join(folder, file), encoding="utf-8") as old:
            changed |= functions_changed(file, old.read(), text) if file.startswith("src/") else {None}
    return [] if None in changed else sorted(path for path in changed if path)


def refuses(crate: str, path: str, output: str) -> bool:
    """Whether a check's output shows that the contract of the function `path` itself, by its last name, is unproved: not only that of what it calls.
    A line `fn CRATE::PATH: VERDICT` is about one function: proofs rest on contracts of others, not on bodies. `not proved` may only mean that a proof
    file names what is gone, while `did not prove` says that the prover tried."""
    name = path.rpartition("::")[2]
    verdicts = re.findall(rf"^fn {crate}::(?:\S+::)?{name}: (.*)$", output, re.MULTILINE)
    errors = re.findall(rf"^(?:\./)?proofs/(?:[\w+]+/)*{name}/\S*: error.*$", output, re.MULTILINE)
    are_gone = bool(errors) and all(NAME_GONE.search(error) for error in errors)
    return any("did not prove" in verdict or (verdict.startswith("not proved") and not are_gone) for verdict in verdicts)


def path_of_edit(crate: Any, name: str) -> str:
    """The path of the file of a wrong body, which is named CRATE/NAME."""
    return os.path.join(crate.folder, "wrong", f"{name.rpartition('/')[2]}.edit")


def paths_of(crate: Any) -> list[str]:
    """The paths of the files of all wrong bodies of a crate."""
    return sorted(glob.glob(os.path.join(crate.folder, "wrong", "*.edit")))


class Body(NamedTuple):
    """A wrong body: the path of its file, its crate's files that it changes with their texts after it, and the paths of the functions that it
    changes: none if it changes something else too, or cannot be applied."""

    path: str
    texts: dict[str, str]
    functions: list[str]


def body_of(path: str, folder: str) -> Body:
    """The wrong body in the file at `path`, an edit of the crate in `folder`."""
    texts, _ = toolchain.applied(path, folder)
    return Body(path, texts, functions_of(folder, texts))


def batches(bodies: list[Body]) -> list[list[Body]]:
    """Wrong bodies in groups, each for one check. No two of a group change functions of the same name, since a line of a check names its function by
    it. Those that change no functions are in none."""
    groups: list[tuple[set[str], list[Body]]] = []
    for body in bodies:
        names = {path.rpartition("::")[2] for path in body.functions}
        for taken, group in groups:
            if names and not taken & names:
                taken |= names
                group.append(body)
                break
        else:
            groups += [(names, [body])] if names else []
    return [group for _, group in groups]


def merged(folder: str, bodies: list[Body]) -> dict[str, str]:
    """The files of the crate in a folder that wrong bodies of different functions change, with their texts after all of them. No edit changes the
    number of lines, and no two change the same line: so of each line the text that differs from the old one is taken, if any does."""
    texts = {}
    for file in {file for body in bodies for file in body.texts}:
        with open(os.path.join(folder, file), encoding="utf-8") as old:
            before = old.read().split("\n")
        after = [body.texts[file].split("\n") for body in bodies if file in body.texts]
        texts[file] = "\n".join(next((line for line in lines if line != lines[0]), lines[0]) for lines in zip(before, *after, strict=True))
    return texts


def tried(crate: Any, paths: list[str], over: str) -> Iterator[tuple[bool, str]]:
    """Tries the wrong bodies in files. First only the functions that they change are checked. The folder `over` keeps proofs from one check for the
    next. If that does not show that one is refused, as where it changes something else, the whole crate is checked with it alone. Yields for each
    whether it is refused, as it must be, and the line to print."""
    bodies = [body_of(path, crate.folder) for path in paths]
    refused = set()
    for group in batches(bodies):
        output = toolchain.check_of(crate, merged(crate.folder, group), [path for body in group for path in body.functions], over)
        refused |= {body.path for body in group if any(refuses(crate.name, path, output) for path in body.functions)}
    for path in paths:
        is_refused, why = (True, "") if path in refused else toolchain.verdict_on(crate, path, over)
        yield is_refused, f"{crate.name}/{os.path.basename(path).removesuffix('.edit')}: {'refused' if is_refused else f'NOT SHOWN: {why}'}"
