#!/usr/bin/env python3
"""Converts the texts of a folder by `spki` and by nettle's `sexp-conv`, in both directions, and compares them.

Of each text: its canonical form by both programs; then what each program writes in each of its forms, read by the other
one, must be that canonical form again. Of a text on which both are known to differ only what `spki` writes is read back.
Prints a line for each text. The status is 1 if a text is not as wanted: on a difference that KNOWN does not have (docs/PEERS.md says why they
differ), or where a program fails. It is 1 as well if the texts of this repository do not show each difference of KNOWN, and 2 if something is
missing.

Build the program first (`rt run` in crates/spki), and install `sexp-conv` (Debian: nettle-bin).
Usage: examples/peers.py [PROGRAM [FOLDER]]
"""
import os
import shutil
import subprocess
import sys

HERE = os.path.dirname(os.path.abspath(__file__))
sys.path.append(os.path.join(HERE, "..", "tests"))
from shared import given_program, run  # noqa: E402

PROGRAM = given_program()
TEXTS = os.path.join(HERE, "texts")
FOLDER = sys.argv[2] if len(sys.argv) > 2 else TEXTS
PEER = "sexp-conv"
FORMS = ("canonical", "advanced", "transport")
SYNTAXES = ("canonical", "advanced", "hex", "transport")
SECONDS = 20

# The files of `texts` on which both are known to differ: the canonical form by `spki`, and that by `sexp-conv`. None where one refuses the text.
KNOWN = {
    "braces-and-more.tsexp": (None, b"(1:a)(1:a)"),
    "braces-inside.sexp": (None, b"(1:a1:a)"),
    "braces-without-padding.tsexp": (b"(1:a)", None),
    "comment-in-front.sexp": (None, b"(1:a)"),
    "comment.sexp": (None, b"(1:a1:b)"),
    "escapes-of-one-letter.sexp": (b"(1:\x071:\x0b)", b"(1:a1:v)"),
    "hexadecimal-escapes.sexp": (b"2:ab", None),
    "length-past-32-bits.sexp": (None, b"1:a"),
    "line-end-before-escape.sexp": (b"2:a\n", b"3:a\\n"),
    "line-end-before-quote.sexp": (b"(1:a1:b)", None),
    "no-escape.sexp": (None, b"1:q"),
    "no-padding.sexp": (b"(1:e2:ab)", None),
    "no-value.sexp": (None, b""),
    "octal-escapes.sexp": (b"2:ab", b"6:141142"),
    "octal-past-an-octet.sexp": (None, b"3:400"),
    "other-whitespace-in-hexadecimal.sexp": (b"3:abc", None),
    "other-whitespace.sexp": (b"(1:a1:b1:c)", None),
    "run-together.sexp": (None, b"1:a1:b"),
    "some-padding.sexp": (b"1:e", None),
    "too-deep.sexp": (None, b"(" * 65 + b"1:a" + b")" * 65),
    "two-values.sexp": (None, b"(1:a)(1:b)"),
}


def written_by_spki(form, text):
    """What `spki` writes for a text in a form of FORMS. None if it refuses the text. Ends the script if it does neither. Raises
    `subprocess.TimeoutExpired` if it does not end within SECONDS."""
    status, output = run(PROGRAM, form, text, SECONDS)
    if status not in (0, 2):
        sys.exit(f"{PROGRAM} {form} ended with status {status}")
    return output if status == 0 else None


def written_by_peer(syntax, text):
    """What `sexp-conv` writes for a text in a syntax of SYNTAXES. None if it ends with another status than 0. Ends the script if it does not end."""
    try:
        done = subprocess.run([PEER, "-s", syntax], input=text, stdout=subprocess.PIPE, stderr=subprocess.DEVNULL, timeout=SECONDS)
    except subprocess.TimeoutExpired:
        sys.exit(f"{PEER} -s {syntax} did not end in {SECONDS} s")
    return done.stdout if done.returncode == 0 else None


def there_and_back(write, read, forms, text):
    """A list of truth values, one for each of `forms`: whether `read` makes the same canonical form of what `write` writes in this form.

    `write` is `written_by_spki` with FORMS or `written_by_peer` with SYNTAXES, and `read` is the other function. `write` must give a canonical form
    of the text. Another form that it refuses counts as false.
    """
    canonical = write("canonical", text)
    results = []
    for form in forms:
        passed_on = write(form, text)
        results.append(passed_on is not None and read("canonical", passed_on) == canonical)
    return results


def printed(octets):
    """A canonical form as it is printed: its octets, or from 24 octets on only their number, so that a line stays short. None is that of a text that
    was refused."""
    if octets is None:
        return "refused"
    return repr(octets)[2:-1] if len(octets) < 24 else f"{len(octets)} octets"


def compare(name, text):
    """Compares both programs on `text`, the octets of the file `name`. Returns the line that is printed about it, and whether the result is the
    expected one: both read it alike, and each reads what the other one writes; or they differ as KNOWN says, and `sexp-conv` reads what `spki`
    writes."""
    ours, theirs = written_by_spki("canonical", text), written_by_peer("canonical", text)
    results = there_and_back(written_by_spki, written_by_peer, FORMS, text) if ours is not None else []
    if name in KNOWN:
        verdict = "known" if (ours, theirs) == KNOWN[name] else "OTHER THAN KNOWN"
    else:
        verdict = "same" if ours is not None and ours == theirs else "DIFFERS"
        results += there_and_back(written_by_peer, written_by_spki, SYNTAXES, text) if theirs is not None else []
    if not all(results):
        verdict += ", LOST ON THE WAY"
    values = printed(ours) if ours == theirs else f"spki: {printed(ours)}; sexp-conv: {printed(theirs)}"
    return f"{name:<38}{len(text):>6}  {verdict:<10}{sum(results)}/{len(results)}  {values}", verdict in ("same", "known")


def main():
    """Compares the programs on each file of FOLDER that is not hidden, and prints the lines. Ends with status 1 if one is not as wanted, or if FOLDER
    is TEXTS and does not show each difference of KNOWN, and with 2 if FOLDER or `sexp-conv` is missing."""
    for name, is_there in ((PEER, shutil.which(PEER) is not None), (FOLDER, os.path.isdir(FOLDER))):
        if not is_there:
            print(f"{name} is not there", file=sys.stderr)
            sys.exit(2)
    names = sorted(name for name in os.listdir(FOLDER) if not name.startswith(".") and os.path.isfile(os.path.join(FOLDER, name)))
    print(f"{'text':<38}{'octets':>6}  {'result':<10}way  canonical form")
    agreed = 0
    for name in names:
        with open(os.path.join(FOLDER, name), "rb") as file:
            line, as_wanted = compare(name, file.read())
        print(line)
        agreed += as_wanted
    known = KNOWN.keys() & set(names)
    print(f"{agreed} of {len(names)} texts as wanted, {len(known)} of them known to differ")
    # (the texts of this repository must show each known difference)
    if agreed < len(names) or (FOLDER == TEXTS and known != KNOWN.keys()):
        sys.exit(1)


if __name__ == "__main__":
    main()
