"""The deep run: every wrong body, and what takes hours."""
import argparse
import concurrent.futures
import os
import re
import shutil
import subprocess
import tempfile
import time
from typing import Any

from merge_gate import bodies, plan, records, toolchain
from merge_gate.report import Counts
from merge_gate.run import run

SEED = re.compile(r"^\d+ cases, seed ([0-9a-f]{8}): ", re.MULTILINE)


def try_bodies(names: list[str], counts: Counts, sums: dict[str, str]) -> None:
    """Tries wrong bodies, over the libraries that `rt ci` has left. If one is missing, a failure is counted and none is tried. A name is
    CRATE/NAME, or a crate for all of its. `sums` has by crate `records.sum_of` from before `rt ci`, recorded if all of its are refused."""
    crates = toolchain.crates(*(name.partition("/")[0] for name in names))
    lacking = {used.name for crate in crates.values() for used in crate.below() if not os.path.isdir(used.rlib)}
    if lacking:
        return counts.add(False, f"no wrong body was tried, since rt ci has not left the libraries {', '.join(sorted(lacking))}")

    def verdicts(crate: Any) -> tuple[Any, list[tuple[bool, str]]]:
        """Tries the named wrong bodies of a crate. Returns it, and for each of them whether it is refused, and the line about it."""
        own = [name for name in names if name.partition("/")[0] == crate.name]
        chosen = bodies.paths_of(crate) if crate.name in own else [bodies.path_of_edit(crate, name) for name in own]
        with tempfile.TemporaryDirectory(prefix="trials-") as over:
            return crate, [*bodies.tried(crate, chosen, over)]

    with concurrent.futures.ThreadPoolExecutor(2) as pool:
        for crate, results in pool.map(verdicts, crates.values()):
            for is_refused, line in results:
                counts.add(is_refused, line)
            if crate.name in sums and all(is_refused for is_refused, _ in results):
                records.write(crate, sums[crate.name])


def try_all(names: list[str], counts: Counts) -> None:
    """Tries every wrong body of these crates, or without names of all, and counts the results. `rt ci` proves the crates first. If it fails, none is
    tried: in a crate that is not proved each of them would be refused."""
    sums = {name: records.sum_of(crate) for name, crate in toolchain.crates(*names).items() if bodies.paths_of(crate)}
    toolchain.remove_kept_libraries()
    counts.add_log(*run(["rt", "ci", *names], plan.DEEP_MINUTES))
    if counts.failed:
        return counts.add(False, "no wrong body was tried, since rt ci failed")
    toolchain.give_libraries({used.name for crate in toolchain.crates(*names).values() for used in crate.below()} if names else set())
    try_bodies([*sums], counts, sums)


def run_all(counts: Counts) -> None:
    """Tries every wrong body, runs all tests, the long ones and the benches, one after the other, without what needs a missing program. Prints the
    line for CONTRIBUTING.md, which `test_layout` reads there. It names the commit of the beginning, since the present one may be another by then."""
    begun, seed = time.monotonic(), "none"
    commit = subprocess.check_output(["git", "describe", "--always", "--dirty", "--abbrev=12", "--exclude=*"], cwd=toolchain.TOP, text=True).strip()
    try_all([], counts)
    for needs, words in plan.LONG:
        if not shutil.which(needs):
            counts.left_out.append(f"{' '.join(words)} (there is no {needs})")
            continue
        output, status = run(words, plan.DEEP_MINUTES)
        counts.add_log(output, status, has_counts=words[0] == "tests/run")  # (a bench may write no counts)
        seed = next(iter(SEED.findall(output)), seed)
    used = os.times()
    print(f"Last run of `.ci/deep`: commit {commit}, {counts.passed} passed, {counts.failed} failed, {(time.monotonic() - begun) / 60:.0f} minutes "
          f"on {len(os.sched_getaffinity(0))} processors, {(used.children_user + used.children_system) / 60:.0f} processor minutes; "
          f"{plan.DEEP_CASES:,} texts and questions of `tests/differential.py`, seed {seed}.")


def main(about: str) -> int:
    """Runs what the command line asks for. `about` is the text of its help. Returns 1 if something failed, else 0. Ends the process with status 2 if
    the words are wrong, also if `--alone` has no names: a run that tries nothing must not pass. It has status 1 if a crate is missing."""
    parser = argparse.ArgumentParser(description=about)
    parser.add_argument("names", nargs="*", metavar="NAME", help="a crate whose wrong bodies are tried, or with --alone also CRATE/WRONG-BODY")
    parser.add_argument("--alone", action="store_true", help="prove nothing first, and write no record: take the libraries that `rt ci` left")
    options, counts = parser.parse_args(), Counts()
    if options.alone and not options.names:
        parser.error("--alone takes names")
    if options.alone:
        try_bodies(options.names, counts, {})
    elif options.names:
        try_all(options.names, counts)
    else:
        run_all(counts)
    return counts.end()
