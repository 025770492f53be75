"""What the gate needs of the toolchain that no command of `rt` gives. `rt` is a script, which is loaded as a module. All names of it that are
used stand here:

| Name | Why no command serves |
|---|---|
| `read_edit` | applies an edit as `rt ci` and `rt must-fail` do, which apply it only to try it |
| `checked` | checks a copy of a crate with other texts, over the libraries that `rt ci` leaves. `rt check` proves these libraries again |
| `unread` | whether a line says that an edited text could not be read. The texts of such lines are the toolchain's own |
| `must_fail`, `REFUSED` | the verdict on one edit. `rt must-fail` proves the whole crate first, and knows no file outside of must-fail/ |
| `rtlib.crates_below`, `rtlib.ALLOW_C` | the crates as `checked` and `must_fail` take them; a variable, removed here, that lets them have C |
| `Kept`, `Crate` | what `rt ci` has kept of a crate. No command puts only the libraries of some crates in their places |
| `rtlib.guarded` | ends the checks when this process ends. It must be called first in the main thread |
"""
import functools
import glob
import importlib.machinery
import os
import shutil
import sys
import types
from typing import Any

TOP = os.path.realpath(os.path.join(os.path.dirname(os.path.abspath(__file__)), "..", ".."))
# What the toolchain says of an edit that it refuses for a name alone, or by a limit of its own: that shows nothing of the contract.
SAYS_LITTLE = ("says little of the contract", "says less of the contract")
# One check has one process.
ONE_JOB = ["--jobs", "1"]


@functools.lru_cache(maxsize=None)
def rt_module() -> Any:
    """The toolchain's `rt`, loaded as a module. Python writes nothing beside it. Ends the process if `rt` is not in the path."""
    sys.dont_write_bytecode = True
    path = os.path.realpath(shutil.which("rt") or sys.exit("rt is not in the path"))
    loader = importlib.machinery.SourceFileLoader("rt", path)
    module = sys.modules["rt"] = types.ModuleType("rt")
    module.__file__ = path
    loader.exec_module(module)
    os.environ.pop(module.rtlib.ALLOW_C, None)  # (no crate may have C)
    module.rtlib.guarded()  # (ends the checks when this process ends)
    return module


def crates(*names: str) -> dict[str, Any]:
    """The crates with these names, or without names all, by name, those that use the fewest others first. Ends the process if one is missing."""
    every = {crate.name: crate for crate in sorted(rt_module().rtlib.crates_below(TOP), key=lambda crate: len(crate.below()))}
    missing = sorted(set(names) - every.keys())
    if missing:
        sys.exit(f"there is no crate {', '.join(missing)}")
    return {name: crate for name, crate in every.items() if not names or name in names}


def applied(path: str, folder: str) -> tuple[dict[str, str], str]:
    """The files of the crate in `folder` that the edit in the file `path` changes, with their texts after it, and "". Or {}, and why it fails."""
    texts, why = rt_module().read_edit(path, folder)
    return texts or {}, why or ""


def check_of(crate: Any, texts: dict[str, str], only: list[str], over: str) -> str:
    """The output of a check of the functions `only` (paths as of `bodies.path_of`) of a crate with `texts` in place of its own. Empty if a text could
    not be read, or the status is neither 0 (all proved) nor 1. Takes proofs from the folder `over`, empty at first, and keeps its own there."""
    ran = rt_module().checked(crate, texts, [*ONE_JOB, *(f"--only={path}" for path in only)], over)
    is_read = not any(rt_module().unread(line, texts) for line in ran.stdout.split("\n"))
    return ran.stdout if is_read and ran.returncode in (0, 1) else ""


def verdict_on(crate: Any, path: str, over: str) -> tuple[bool, str]:
    """Whether a crate's contract refuses the edit in the file `path`, and what `rt` says of it. False too if it is refused for one of SAYS_LITTLE, or
    not tried. Checks the whole crate, over the folder `over` as `check_of` does."""
    verdict, why = rt_module().must_fail(crate, path, ONE_JOB, over)
    return verdict == rt_module().REFUSED and not any(words in why for words in SAYS_LITTLE), why


def remove_kept_libraries() -> None:
    """Removes libraries of earlier runs: `rt ci` would put them back over those that it makes, and the one for C would be built over old ones."""
    for path in [*glob.glob(os.path.join(TOP, "crates", "*", "out", "rlib")), os.path.join(TOP, "crates", "spki_c", "out", "incremental")]:
        shutil.rmtree(path, ignore_errors=True)


def give_libraries(names: set[str]) -> None:
    """Puts the libraries of these crates into their folders, as `rt ci` has kept them for the present files. Where it kept none, the folder has none.
    `names` may be empty, and must include all crates below each. It is needed behind `rt ci NAME ..`, which works on a copy and leaves none here."""
    chosen = crates(*names).values() if names else ()
    rt_module().Crate.cuts_libraries = True  # (as `rt ci` does: a crate then loads only the statements of the libraries below it)
    kept = rt_module().Kept(chosen, anew=False)
    for crate in chosen:
        shutil.rmtree(os.path.join(crate.folder, "out", "rlib"), ignore_errors=True)
        os.makedirs(os.path.join(crate.folder, "out"), exist_ok=True)
        if kept.give(crate, tests=False, key=kept.key(crate)):
            kept.is_built(crate)  # (records its checksum, which the keys of the crates above depend on)
