#!/usr/bin/env python3
"""Draws the pictures of the documents, as SVG with plain text, which reads on light and on dark pages:

chain.svg            README.md: from an access list to a yes
granted.svg          docs/GUIDE.md: the chain of the case examples/guide/granted.sexp
no-delegation.svg    docs/GUIDE.md: the same of examples/guide/no-delegation.sexp, with what stops it in red
crates.svg           docs/ARCHITECTURE.md: which crate uses which
octets.svg           docs/ARCHITECTURE.md: the way of the octets to an answer

The pictures of cases have the boxes, arrows and words that examples/picture.py writes for Graphviz, which asks the program. Build the
program first (`rt run` in crates/spki).
Usage: docs/pictures/draw.py [--check] [PROGRAM]        --check writes nothing, and fails if a picture is not as it is drawn

The exit status is 1 if a picture is not as it is drawn or the program is not there, and 2 if a picture cannot be drawn, read or written.
"""
import argparse
import os
import subprocess
import sys
from html import escape

HERE = os.path.dirname(os.path.abspath(__file__))
sys.path.append(os.path.join(HERE, "..", "..", "examples"))
from picture import NotDrawn, drawn, given_program  # noqa: E402
from spki_cert_tool.drawing import PICTURE_WIDTH, box, page, svg_of_drawing, text  # noqa: E402

CASES = {"granted": "The chain of a request that is granted", "no-delegation": "A chain that stops at a certificate"}


def arrow(x1, y1, x2, y2, *above):
    """Yields the SVG of an arrow from (x1, y1) to (x2, y2), in pixels, and of lines of text above its middle, from the top."""
    yield f'<path class="line" marker-end="url(#end)" d="M{x1:g} {y1:g} L{x2:g} {y2:g}"/>'
    for place, line in enumerate(above):
        yield f'<text class="small" x="{(x1 + x2) / 2:g}" y="{(y1 + y2) / 2 - 8 - 16 * (len(above) - 1 - place):g}">{escape(line)}</text>'


def chain():
    """The lines of chain.svg: from an access list to a yes."""
    return page(
        860, 250, "A chain from an access list to a yes",
        box(20, 50, 190, 90, ["access list, entry 1", "read and write /builds/", "may be delegated"], "own"),
        box(335, 50, 190, 90, ["Alice's key", "read and write /builds/", "may delegate it"]),
        box(650, 50, 190, 90, ["Carol's key", "read /builds/web/", "until 2026-06-30"]),
        arrow(210, 95, 333, 95, "names"),
        arrow(525, 95, 648, 95, "certificate,", "signed by Alice"),
        box(335, 180, 190, 50, ["yes entry 1"], "good"),
        box(650, 180, 190, 50, ["request on 2026-03-01", "read /builds/web/index.html"]),
        arrow(745, 140, 745, 178), arrow(650, 205, 527, 205, "is it granted?"),
        text(20, 30, "kept by the service"), text(335, 30, "keys, which stand for their holders"),
        text(20, 200, "Each step grants the same right"), text(20, 218, "or a part of it, and never more."))


CRATES = {
    "spki": (150, 30), "spki_c": (420, 30), "spki_guard": (285, 110), "spki_words": (520, 110), "spki_service": (285, 190),
    "metered_io": (520, 190), "spki_decision": (150, 270), "spki_reduce": (50, 350), "spki_case": (250, 350), "spki_cert": (150, 430),
    "spki_tag": (150, 510), "sexpr_text": (420, 510), "sexpr_core": (285, 590)}
USES = [
    ("spki", "spki_guard"), ("spki_c", "spki_guard"), ("spki_guard", "spki_words"), ("spki_guard", "metered_io"),
    ("spki_guard", "spki_service"), ("spki_service", "spki_decision"), ("spki_service", "sexpr_text"),
    ("spki_decision", "spki_reduce"), ("spki_decision", "spki_case"),
    ("spki_reduce", "spki_cert"), ("spki_case", "spki_cert"), ("spki_cert", "spki_tag"), ("spki_tag", "sexpr_core"),
    ("sexpr_text", "sexpr_core")]
WHAT = {
    "spki": "the program", "spki_c": "calls for C", "spki_guard": "lines, run", "spki_words": "command line",
    "spki_service": "lists held, questions", "spki_decision": "evidence, decision",
    "metered_io": "counted streams", "spki_reduce": "tuples, rules", "spki_case": "cases, verifier", "spki_cert": "keys, certificates",
    "spki_tag": "tags, requests", "sexpr_text": "advanced form", "sexpr_core": "values, canonical form"}


def crates():
    """The lines of crates.svg: which crate uses which. An arrow that follows from two others is left out."""
    width, height = 150, 44
    boxes = [part for name, (x, y) in CRATES.items() for part in box(x, y, width, height, [name, WHAT[name]])]
    arrows = []
    for above, below in USES:
        (x1, y1), (x2, y2) = CRATES[above], CRATES[below]
        if y1 == y2:
            arrows += arrow(x1 + width, y1 + height / 2, x2 - 2, y2 + height / 2)
        else:
            middle, shift = width / 2, (x2 - x1) * 0.12
            arrows += arrow(x1 + middle + shift, y1 + height, x2 + middle - shift, y2 - 2)
    return page(720, 655, "Which crate uses which", arrows, boxes)


STEPS = [
    ("standard input", "any of the three forms", "box"), ("read_whole", "the octets", "box"), ("convert", "the canonical text", "box"),
    ("Doc::open", "a table of its nodes", "box"), ("Case::of", "the case", "box"),
    ("judge", "the evidence", "box"), ("ChainRequirement", "what an entry needs", "box"),
    ("grants", "whether an entry has it", "box"), ("decide", "the first yes, or no", "own"), ("run", "the line", "good")]


def octets():
    """The lines of octets.svg: the way of the octets to an answer, in two rows."""
    width, height, gap = 150, 56, 22
    boxes, arrows = [], []
    for place, (name, what, kind) in enumerate(STEPS):
        row, column = divmod(place, 5)
        x, y = 20 + column * (width + gap), 20 + row * (height + 50)
        boxes += box(x, y, width, height, [name, what], kind)
        if column:
            arrows += arrow(x - gap, y + height / 2, x - 2, y + height / 2)
        elif row:
            end = 20 + 4 * (width + gap) + width / 2
            arrows.append(f'<path class="line" marker-end="url(#end)" d="M{end:g} {y - 50} L{end:g} {y - 25} L{x + width / 2:g} {y - 25} '
                          f'L{x + width / 2:g} {y - 2}"/>')
    return page(878, 202, "The way of the octets to an answer", arrows, boxes)


# ---- the chain of a case


def of_case(name, program):
    """The lines of the picture of the case examples/guide/NAME.sexp: its chain from top to bottom, by what the program at a path says of it."""
    return svg_of_drawing(drawn(program, os.path.join(HERE, "..", "..", "examples", "guide", f"{name}.sexp"), PICTURE_WIDTH), CASES[name])


def differing(program, is_check):
    """Draws the pictures, by the program at a path, and writes them. `is_check`: compares them with the files instead, and prints which differ.
    Returns how many differ, 0 if they are written. Raises what `drawn` does, and `OSError` if a picture cannot be read or written."""
    pictures, wrong = {make.__name__: make() for make in (chain, crates, octets)}, 0
    pictures.update({name: of_case(name, program) for name in CASES})
    for name, lines in pictures.items():
        path, svg = os.path.join(HERE, f"{name}.svg"), "\n".join(lines) + "\n"
        if not is_check:
            with open(path, "w", encoding="utf-8") as file:
                file.write(svg)
            continue
        with open(path, encoding="utf-8") as file:
            if file.read() != svg:
                print(f"{path} is not as it is drawn: run docs/pictures/draw.py")
                wrong += 1
    return wrong


def main():
    """Writes the pictures, or with --check compares them. Returns the exit status."""
    asked = argparse.ArgumentParser(description="Draws the pictures of the documents.")
    asked.add_argument("--check", action="store_true", help="write nothing, and fail if a picture is not as it is drawn")
    asked.add_argument("program", nargs="?", metavar="PROGRAM")
    given = asked.parse_args()
    # (`given_program` takes the place of the word that names the program, and for one behind the last word the built program)
    program = given_program(sys.argv.index(given.program, 1) if given.program else len(sys.argv))
    try:
        return 1 if differing(program, given.check) else 0
    except (OSError, NotDrawn, subprocess.TimeoutExpired) as why:
        print(why, file=sys.stderr)
        return 2


if __name__ == "__main__":
    sys.exit(main())
