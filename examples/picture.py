#!/usr/bin/env python3
"""Draws the delegation chain of a case, as text for Graphviz's `dot`: a certificate is an arrow, and what stops the chain is red.

The chain is that of the entry that grants the request, else of the entry that comes nearest to that. `spki explain` says what stops it,
`spki reduce` what right is left at its end, and `spki canonical` reads the case. Other entries are left out. `spki-cert show --svg`
draws the same as SVG.

Build the program first (`rt run` in crates/spki), and draw with Graphviz (Debian: graphviz):
    examples/picture.py examples/delegation.sexp | dot -Tsvg > chain.svg
Usage: examples/picture.py CASE [PROGRAM]
"""
import collections
import os
import re
import subprocess
import sys

sys.path.append(os.path.join(os.path.dirname(os.path.abspath(__file__)), "..", "tests"))
from shared import given_program, read, run  # noqa: E402
from spki_cert_tool.drawing import WIDTH, drawing_of_case  # noqa: E402

# A line of `explain`: the numbers of the entry and of the item, each from 1 or None, and the word that says why.
REASON = re.compile(r"^(?:entry (\d+) )?(?:item (\d+) )?(\w+)$", re.MULTILINE)
Reason = collections.namedtuple("Reason", "entry item word")


class NotDrawn(Exception):
    """The program refuses the case, or fails. The message is one line."""


def answer(program, command, text):
    """The octets that the program, a path, writes for a command and a text. Raises `NotDrawn` if it refuses the text, fails or writes nothing,
    and `subprocess.TimeoutExpired` if it does not end."""
    status, lines = run(program, command, text)
    # (the status is 0 for a yes or another answer, and 1 for a no)
    if status not in (0, 1) or not lines:
        raise NotDrawn(lines.decode(errors="replace").strip() or f"{program} {command} ended with status {status} and no answer")
    return lines


def drawn(program, path, width=WIDTH):
    """The drawing (`drawing.Drawing`) of the case, a question with its access list, in the file at `path`, by what `program`, the path of `spki`,
    says of it. A line of text has at most `width` letters. Raises `OSError` if the file cannot be read or the program cannot be run, `NotDrawn` if
    the program refuses the case or fails, and `subprocess.TimeoutExpired` if it does not end."""
    with open(path, "rb") as file:
        text = file.read()
    lines = answer(program, "explain", text)

    def reduced(entry):
        """The value that `spki reduce` writes of an entry, by its number from 1: what right is left of it."""
        line = answer(program, "reduce", text).split(b"\n")[entry - 1]
        return read(answer(program, "canonical", line.split(b" ", 2)[2]))

    case = read(answer(program, "canonical", text))
    reasons = [Reason(*(int(number) if number else None for number in numbers), word) for *numbers, word in REASON.findall(lines.decode())]
    return drawing_of_case(case, reasons, reduced, width=width)


def quoted(lines):
    """Lines of text as one quoted string in the language of Graphviz."""
    return '"' + "\\n".join(line.replace("\\", "\\\\").replace('"', '\\"') for line in lines) + '"'


def dot_of(drawing):
    """Yields the lines of a drawing, a `drawing.Drawing`, in the language of Graphviz. A subject is an ellipse. The access list and the request,
    which have a colour, are boxes."""
    # (the names of the shapes are octets that Graphviz could not read)
    names = {identity: f"n{place}" for place, identity in enumerate(drawing.shapes)}
    yield from ("digraph chain {", "  rankdir=LR;", "  node [shape=ellipse, fontsize=11];", "  edge [fontsize=10];")
    for identity, shape in drawing.shapes.items():
        yield f"  {names[identity]} [label={quoted(shape.lines)}{f', shape=box, color={shape.colour}' if shape.colour else ''}];"
    for arrow in drawing.arrows:
        yield f"  {names[arrow.begin]} -> {names[arrow.end]} [label={quoted(arrow.lines)}, color={arrow.colour}, fontcolor={arrow.colour}];"
    yield "}"


def main():
    """Prints the drawing of the case that the command line names. Returns the exit status: 0, or 2 if it cannot be drawn. Without a name, and for
    one that begins with `-`, the program ends with the help and status 1."""
    if len(sys.argv) < 2 or sys.argv[1].startswith("-"):
        sys.exit(__doc__)
    try:
        drawing = drawn(given_program(place=2), sys.argv[1])
    except (OSError, NotDrawn, subprocess.TimeoutExpired) as why:
        print(why, file=sys.stderr)
        return 2
    print(*dot_of(drawing), sep="\n")
    return 0


if __name__ == "__main__":
    sys.exit(main())
