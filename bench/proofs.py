#!/usr/bin/env python3
"""Proves a crate from nothing by one process, over the libraries that `rt ci` has left, and prints the seconds that the proof of each function
takes, the longest first. Of these it names the seconds for the function's states and for its goals. A second table has the declarations of the
proofs, goals and lemmas, for which the prover took the most steps: how many million, and where each is.

The toolchain writes a file for each part of a proof once it is done. So a part takes the time from the file before it to its own. The states
of a function are in `Lts`: they grow with what it owns at each place where it may return. Its goals are in `Proof`. What is in files of
`proofs/` that are no function's is one row, `chapters`. Measure on a quiet machine: beside other work the seconds grow, and the steps
stay the same.

Usage: bench/proofs.py CRATE [ROWS]        20 rows unless another number is given
"""
import glob
import json
import os
import re
import sys
import tempfile
from collections import Counter

sys.path.append(os.path.join(os.path.dirname(os.path.realpath(__file__)), "..", ".ci"))
from merge_gate import toolchain  # noqa: E402

PART = re.compile(r"Rattle-\w+-proofs\.(?:(?P<function>.*)\.)?(?P<part>[^.]+)")


def parts_in(folder):
    """Yields the parts of proofs that a check has written to a folder, in order of time: the function, its part, and the seconds from the file before
    it. The first file of all is left out."""
    paths = [os.path.join(parent, name) for parent, _, names in os.walk(folder) for name in names]
    files = sorted((os.stat(path).st_mtime, os.path.basename(path)) for path in paths)
    for (begin, _), (end, name) in zip(files, files[1:]):
        part = PART.fullmatch(name.removesuffix(".oantt").removesuffix(".decls"))
        if part:
            yield part["function"] or "chapters", part["part"].partition("-")[0], end - begin


def steps_in(folder):
    """Yields the declarations of the proofs that a check has written to a folder: the steps that the prover took, the greatest number where several
    are written, the module, and the name. They are objects in JSON, each of which begins with `aux`, between other octets."""
    for path in glob.glob(os.path.join(folder, "*", "records", "*.decls.oantt")):
        with open(path, encoding="utf-8", errors="replace") as file:
            text = file.read()
        module = os.path.basename(path).removesuffix(".decls.oantt").partition("-")[2]
        for begin in re.finditer(r'\{"aux"', text):
            try:
                declaration = json.JSONDecoder().raw_decode(text, begin.start())[0]
            except ValueError:
                # (other octets that begin in the same way)
                continue
            yield max(declaration["steps"]), module, declaration["name"]


def main():
    """Proves the crate and prints both tables. Ends with status 1, and what the check says, if the crate is not proved, or the usage if no
    crate is named."""
    if len(sys.argv) < 2:
        sys.exit(__doc__)
    name, rows = sys.argv[1], int(sys.argv[2]) if len(sys.argv) > 2 else 20
    crate = toolchain.crates(name)[name]
    with tempfile.TemporaryDirectory() as folder:
        # (no file of the crate has another text, and one process proves all)
        proved = toolchain.rt_module().checked(crate, {}, toolchain.ONE_JOB, folder)
        if proved.returncode:
            sys.exit(proved.stdout)
        parts, declarations = list(parts_in(folder)), sorted(steps_in(folder), reverse=True)
    every, states, goals = Counter(), Counter(), Counter()
    for function, part, seconds in parts:
        every[function] += seconds
        states[function] += seconds if part == "Lts" else 0
        goals[function] += seconds if part == "Proof" else 0
    print(f"{'seconds':>8} {'states':>8} {'goals':>8}")
    for function, seconds in every.most_common(rows):
        print(f"{seconds:8.1f} {states[function]:8.1f} {goals[function]:8.1f}  {function}")
    print(f"{every.total():8.1f} {states.total():8.1f} {goals.total():8.1f}  all\n\n{'steps/M':>8}")
    for steps, module, declaration in declarations[:rows]:
        print(f"{steps / 1e6:8.2f}  {module} {declaration}")
    print(f"{sum(steps for steps, _, _ in declarations) / 1e6:8.2f}  all")


if __name__ == "__main__":
    main()
