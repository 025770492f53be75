#!/usr/bin/env python3
"""Times a decision by three certificates, in process through the library for C, beside libmacaroons' verification of a macaroon
with three caveats. The decision is made from the text of a case, and through a guard that has the list already, of a question that is opened
for it or was before.

They do not do the same work: a macaroon is checked with a secret that the service shares with whoever mints it, and its caveats
are compared as whole texts. Of the certificates the digests are taken, and names, tags and windows are joined; that their signatures
are right another tool has found before.

Build the library first (crates/spki_c/archive.py), and install libmacaroons (Debian: libmacaroons-dev).
Usage: bench/macaroons.py
"""
import os
import subprocess
import sys
import tempfile

from shapes import by_keys, parts_of

sys.path.append(os.path.join(os.path.dirname(os.path.abspath(__file__)), "..", "tests"))
from shared import BENCH, LIBRARY, TOP  # noqa: E402

FLAGS = ["-O2", "-Wall", "-Wextra", "-std=c11"]
# Three of the ways to grant that macaroons.c numbers: a question that is open already is decided, a macaroon is verified, a question is opened
# and decided.
DECIDE_ONLY, MACAROON, OPEN_AND_DECIDE = "1", "2", "3"


def written_parts(text):
    """The parts of a case, as the octets of a file that question.h reads: each part with its length on a line before it."""
    return b"".join(b"%d\n%s" % (len(part), part) for part in parts_of(text))


def has_libmacaroons():
    """Whether libmacaroons is installed."""
    return subprocess.run(["cc", "-E", "-"], input=b"#include <macaroons.h>\n", capture_output=True).returncode == 0


def build(folder, library=LIBRARY):
    """Builds macaroons.c in a folder, and writes the files that it reads there. Returns the words that start it, or None if libmacaroons is not
    installed. Ends the script if it does not compile."""
    if not has_libmacaroons():
        return None
    program, case, parts = (os.path.join(folder, name) for name in ("macaroons", "case", "parts"))
    for path, octets in ((case, by_keys(3)), (parts, written_parts(by_keys(3)))):
        with open(path, "wb") as file:
            file.write(octets)
    words = ["cc", *FLAGS, "-I", os.path.join(TOP, "crates", "spki_c"), "-o", program, os.path.join(BENCH, "macaroons.c"), library]
    if subprocess.run([*words, "-lmacaroons"]).returncode:
        sys.exit(f"bench/macaroons.c does not compile with {library}: build it by crates/spki_c/archive.py")
    return [program, case, parts]


def measure(words):
    """Four times in µs: a decision from a case's text, one of a question that is open already, a macaroon's verification, and a question opened
    and decided. `words` are those of `build`. Raises CalledProcessError if one of them does not grant."""
    return tuple(map(float, subprocess.run(words, stdout=subprocess.PIPE, check=True, text=True).stdout.split()))


def main():
    """Prints the four times. Ends the script if libmacaroons is not installed."""
    with tempfile.TemporaryDirectory() as folder:
        words = build(folder) or sys.exit("libmacaroons is not there (Debian: libmacaroons-dev)")
        decision, through_guard, verification, opened = measure(words)
    print(f"three certificates: from a case's text {decision} µs, through a guard {through_guard} µs, of which the question is opened before, "
          f"{opened} µs with that; a macaroon with three caveats {verification} µs")


if __name__ == "__main__":
    main()
