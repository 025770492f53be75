"""Draws the delegation chain of a case, which is one text with a whole question, as SVG. A certificate is an arrow, and what stops the chain is red.
`svg_of` also draws the arrows of an access list, a certificate or a sequence.

The chain of a case is that of the entry that grants the request, else of the entry that comes nearest to that. The library says what stops it, and
what right is left at its end. Other entries are left out. Long texts are broken into lines, and nothing but white space is cut off. A `Value` is an
S-expression: `bytes`, a pair of them with a display hint in front, or a list of values.
"""
from __future__ import annotations

import itertools
import re
import textwrap
from collections.abc import Callable, Iterable, Iterator
from html import escape
from typing import TYPE_CHECKING, NamedTuple

from .asking import Answer, Asked, asked_of_case, best_answer, case_of, fits_of, fits_with, nearest
from .certificates import Keys, entries_of, field, headed, keys_in, members, terms_of
from .sexp import Value, canonical, on_one_line
from .showing import Labels

if TYPE_CHECKING:
    from spki import Reason

# The letters of a line of text, by default and in the pictures of `spki-cert`, and the pixels that such a picture is wide, so that these lines fit.
WIDTH, PICTURE_WIDTH, PICTURE_PIXELS = 36, 70, 840
RED, GREEN, BLACK = "red", "darkgreen", "black"
# The causes of a no, as `explain` has them, in the words of the picture.
MEANINGS = {
    "KeyNotShown": "the key of its issuer is not shown", "DigestDiffers": "its signature has another digest",
    "SignerDiffers": "it is signed by another key than its issuer's", "NotAccepted": "its signature is not accepted",
    "NotIssuer": "another key issued it", "NotTheName": "it defines another name", "NoDelegation": "its issuer may not pass the right on",
    "NoValidity": "no moment is left", "NoTag": "no request is left", "NotTheKey": "the right ends at another key",
    "TagLacks": "the request is not in the tag", "WindowLacks": "the moment is not in the validity"}


class Shape(NamedTuple):
    """What an arrow begins or ends at: a subject, which has no colour, or the access list or the request, which have one. `lines` are its text."""

    lines: list[str]
    colour: str = ""


class Arrow(NamedTuple):
    """An arrow from one shape to another, by their names in `Drawing.shapes`, with lines of text beside it. Its colour is RED, GREEN or BLACK."""

    begin: bytes
    end: bytes
    lines: list[str]
    colour: str


class Drawing:
    """The shapes and arrows that are drawn."""

    def __init__(self, keys: Iterable[Value], labels: Labels | None, width: int) -> None:
        """A hash of one of `keys`, or of a key that `labels` know, is drawn as that key. `labels` say what keys are called; for None they are written
        as they are. A line of a key, a request, a tag or a validity has at most `width` letters."""
        keys_of_labels = labels.keys.by_hash.values() if labels is not None else ()
        self.keys, self.labels, self.width = Keys([*keys, *keys_of_labels]), labels, width
        # (by the names of the shapes: octets that tell them apart)
        self.shapes: dict[bytes, Shape] = {}
        self.arrows: list[Arrow] = []

    def in_lines(self, text: str) -> list[str]:
        """A text in lines of at most `width` letters: one empty line for an empty text."""
        return textwrap.wrap(text, self.width, break_on_hyphens=False) or [""]

    def add_subject(self, subject: Value) -> bytes:
        """Adds the shape of a subject, unless it is there. Returns the name of the shape, which is the same for a known key and its hashes."""
        principal, *names = members(subject) if headed(subject, b"name") else [subject]
        shape_name = canonical([self.keys.text_of(principal)[1], *names])
        lines = [f"{' '.join(on_one_line(name) for name in names)} of"] if names else []
        lines += [self.labels.label_of(principal)] if self.labels is not None else self.in_lines(on_one_line(principal))
        self.shapes.setdefault(shape_name, Shape(lines))
        return shape_name

    def add_arrow(self, begin: bytes, end: bytes, colour: str, *lines: str) -> None:
        """Adds an arrow between two shapes by their names, in RED, GREEN or BLACK, with those of the lines that are not empty."""
        self.arrows.append(Arrow(begin, end, [line for line in lines if line], colour))

    def lines_of_terms(self, value: Value) -> list[str]:
        """The lines that say what a certificate or an entry gives: its tag, its validity, and whether it may be passed on."""
        parts = [field(value, head) for head in (b"tag", b"valid", b"not-before", b"not-after", b"propagate")]
        return [line for part in parts if part for line in self.in_lines(on_one_line(part))]

    def add_entries(self, access_list: Value, only: int | None = None) -> None:
        """Adds the access list, with an arrow for each of its entries, or for the one with the number `only`, from 1."""
        self.shapes[b"list"] = Shape(["access list"], "blue")
        for number, entry in enumerate(entries_of(access_list), 1):
            if only in (None, number):
                self.add_arrow(b"list", self.add_subject(entry.subject), BLACK, f"entry {number}", *self.lines_of_terms(entry.value))

    def add_certificates(self, sequence: Value, stops: int | None = None, cause: str = "") -> None:
        """Adds an arrow for each certificate of a sequence. If item number `stops`, a certificate, stops the chain, its arrow is the last one, red,
        and says the `cause`, a key of MEANINGS."""
        for number, item in enumerate(members(sequence), 1):
            if headed(item, b"cert") and number <= (stops or number):
                terms = terms_of(item)
                title = [f"item {number} {cause}:", MEANINGS[cause]] if number == stops else [f"item {number}"]
                issuer = [b"name", terms.issuer or b"", terms.name] if terms.name is not None else terms.issuer or b""
                colour = RED if number == stops else BLACK
                self.add_arrow(self.add_subject(issuer), self.add_subject(terms.subject), colour, *title, *self.lines_of_terms(item))

    def add_request(self, case: Value, entry: int, word: str, left: Value) -> None:
        """Adds the request, and the arrow to it from the subject of `left`, the right `(five ..)` that the chain leaves of entry number `entry`.
        `word` is `grants`, or a cause of MEANINGS for which it does not grant. For NotTheKey it adds an arrow from the key that asks to the request
        too."""
        key, request, moment = members(case)[3:6]
        colour = GREEN if word == "grants" else RED
        title = [f"yes entry {entry}"] if word == "grants" else [f"{word}:", MEANINGS[word]]
        self.shapes[b"request"] = Shape([*self.in_lines(on_one_line(request)), *self.in_lines(on_one_line(moment))], colour)
        tag = self.in_lines(f"left: {on_one_line(field(left, b'tag') or b'')}")
        self.add_arrow(self.add_subject(members(field(left, b"subject") or b"")[0]), b"request", colour, *title, *tag)
        if word == "NotTheKey":
            self.add_arrow(self.add_subject(members(key)[0]), b"request", BLACK, "asks")


def drawing_of_case(case: Value, reasons: list[Reason], reduced: Callable[[int], Value], labels: Labels | None = None, width: int = WIDTH) -> Drawing:
    """The drawing of a case, for the reason that comes nearest of the library's `reasons`. `reduced` returns the right `(five ..)` that is left of an
    entry, by its number from 1: it is called only if the chain joins to its end. Without reasons the drawing is empty. `labels` and `width` are as
    for Drawing."""
    access_list, _, sequence, key, asks = members(case)[:5]
    request = members(asks)[0]
    chosen = nearest(reasons, fits_with(sequence, request, fits_of(access_list, request)))
    drawing = Drawing([members(key)[0], *keys_in(sequence)], labels, width)
    if chosen is not None:
        if chosen.entry is not None:
            drawing.add_entries(access_list, chosen.entry)
        drawing.add_certificates(sequence, chosen.item, chosen.word)
        if chosen.entry is not None and chosen.item is None:
            drawing.add_request(case, chosen.entry, chosen.word, reduced(chosen.entry))
    return drawing


# ---- SVG


# The class of CLASSES for a box with a colour.
KINDS = {"blue": "own", "darkgreen": "good", "red": "bad"}
# What an element or a class of the pictures looks like in CSS: on light pages, and on dark ones.
CLASSES = {
    ".page": ("fill: #ffffff; stroke: #d0d7de", "fill: #0d1117; stroke: #30363d"),
    ".box": ("fill: #f6f8fa; stroke: #57606a", "fill: #161b22; stroke: #8b949e"),
    ".good": ("fill: #dafbe1; stroke: #1a7f37", "fill: #12261e; stroke: #3fb950"),
    ".own": ("fill: #ddf4ff; stroke: #0969da", "fill: #0c2d6b; stroke: #58a6ff"),
    ".bad": ("fill: #ffebe9; stroke: #cf222e", "fill: #3c1618; stroke: #ff7b72"), "text": ("fill: #1f2328", "fill: #e6edf3"),
    ".small": ("fill: #57606a", "fill: #8b949e"), ".line": ("stroke: #57606a", "stroke: #8b949e"), ".head": ("fill: #57606a", "fill: #8b949e"),
    ".line.red": ("stroke: #cf222e", "stroke: #ff7b72"), ".line.darkgreen": ("stroke: #1a7f37", "stroke: #3fb950"),
    "text.red": ("fill: #cf222e", "fill: #ff7b72"), "text.darkgreen": ("fill: #1a7f37", "fill: #3fb950")}
LIGHT, DARK = ("\n".join(f"  {name} {{ {looks[place]} }}" for name, looks in CLASSES.items()) for place in (0, 1))
STYLE = f"""
  text {{ font-family: sans-serif; font-size: 14px; text-anchor: middle }}
  .title {{ font-weight: bold }}
  .small {{ font-size: 12px }}
  .left {{ text-anchor: start }}
  .line {{ fill: none; stroke-width: 1.5 }}
{LIGHT}
  @media (prefers-color-scheme: dark) {{
{DARK}
  }}
"""


# What XML does not have: a label may have it.
NO_XML = re.compile("[^\t\n -\ud7ff\ue000-\ufffd\U00010000-\U0010ffff]")
# In pixels: the height of a line of text in a box, and what a box has above and below its lines; the width of a box of a chain, and the margin of
# the picture, which is also the room between two boxes without an arrow.
LINE, MARGINS, BOX_WIDTH, EDGE = 18, 22, 420, 20
# In pixels, of the text beside an arrow: the height of a line, where the first one is below the arrow's beginning, and how far right of the arrow.
BESIDE_LINE, BESIDE_TOP, BESIDE_GAP = 16, 24, 14


def box(x: float, y: float, width: float, height: float, lines: list[str], kind: str = "box") -> Iterator[str]:
    """A box as SVG, with lines of text in its middle, the first of which is its title. `x` and `y` are those of its upper left corner, in pixels as
    all lengths here, and `kind` is a class of CLASSES."""
    yield f'<rect class="{kind}" x="{x}" y="{y}" width="{width}" height="{height}" rx="6"/>'
    # (where the letters of the first line stand: 5 pixels below the middle of the line)
    baseline = y + height / 2 - LINE * (len(lines) - 1) / 2 + 5
    for place, line in enumerate(lines):
        of_class = ' class="title"' if place == 0 else ' class="small"'
        yield f'<text{of_class} x="{x + width / 2:g}" y="{baseline + LINE * place:g}">{escape(NO_XML.sub("?", line))}</text>'


def text(x: float | str, y: float, line: str, of_class: str = "small left") -> Iterator[str]:
    """A line of text as SVG, in classes of STYLE. It begins at `x`, or has its middle there without the class `left`. Its letters stand on `y`."""
    yield f'<text class="{of_class}" x="{x}" y="{y}">{escape(NO_XML.sub("?", line))}</text>'


def page(width: float, height: float, title: str, *parts: Iterable[str]) -> Iterator[str]:
    """The lines of a whole picture, as SVG. Its parts are lines of SVG too, and its size is in pixels."""
    yield (f'<svg xmlns="http://www.w3.org/2000/svg" viewBox="0 0 {width} {height}" width="{width}" height="{height}" role="img" '
           f'aria-label="{escape(title)}">')
    yield f"<title>{escape(title)}</title>"
    yield f"<style>{STYLE}</style>"
    yield ('<defs><marker id="end" viewBox="0 0 8 8" refX="7" refY="4" markerWidth="8" markerHeight="8" orient="auto">'
           '<path class="head" d="M0 0 L8 4 L0 8 z"/></marker></defs>')
    yield f'<rect class="page" x="0.5" y="0.5" width="{width - 1}" height="{height - 1}" rx="8"/>'
    for part in parts:
        yield from part
    yield "</svg>"


def svg_of_drawing(drawing: Drawing, title: str, width: float = 620) -> Iterator[str]:
    """The lines of a picture as SVG, `width` pixels wide: from top to bottom, each arrow with the boxes where it begins and ends. Where an arrow
    begins at the box before, that box is not drawn again."""
    # (`y` is the lower edge of the last box, whose name is `last`. An arrow goes down from its middle, with lines of text on its right)
    middle, y, parts = EDGE + BOX_WIDTH // 2, EDGE, list[str]()
    last: bytes | None = None
    for arrow, is_end in itertools.product(drawing.arrows, (False, True)):
        shape_name = arrow.end if is_end else arrow.begin
        if shape_name == last and not is_end:
            continue
        shape = drawing.shapes[shape_name]
        top = y + (BESIDE_TOP + BESIDE_LINE * len(arrow.lines) if is_end else EDGE if last else 0)
        if is_end:
            # (the head of the arrow ends 2 pixels above the box)
            parts.append(f'<path class="line {arrow.colour}" marker-end="url(#end)" d="M{middle} {y} L{middle} {top - 2}"/>')
            for place, line in enumerate(arrow.lines):
                parts += text(middle + BESIDE_GAP, y + BESIDE_TOP + BESIDE_LINE * place, line, f"small left {arrow.colour}")
        height = MARGINS + LINE * len(shape.lines)
        parts += box(EDGE, top, BOX_WIDTH, height, shape.lines, KINDS.get(shape.colour, "box"))
        y, last = top + height, shape_name
    return page(width, y + EDGE, title, parts)


def svg_of(value: Value, labels: Labels) -> bytes:
    """A list, a certificate, a sequence or a case as SVG. Of a case it is the chain of its decision. Raises Refused if the library, which only a case
    needs, refuses it or cannot be loaded."""
    if headed(value, b"case"):
        asked = asked_of_case(value, labels)
        return svg_of_answer(asked, best_answer(asked))
    drawing = Drawing(keys_in(value), labels, PICTURE_WIDTH)
    if headed(value, b"acl"):
        drawing.add_entries(value)
    else:
        drawing.add_certificates([b"sequence", value] if headed(value, b"cert") else value)
    return "\n".join([*svg_of_drawing(drawing, "Certificates", PICTURE_PIXELS), ""]).encode()


def svg_of_answer(asked: Asked, answer: Answer) -> bytes:
    """The chain of an answer as SVG: that of the reason that comes nearest. `asked` is the question."""
    drawing = drawing_of_case(case_of(asked, answer.sequence), answer.reasons, answer.remaining_right, asked.labels, PICTURE_WIDTH)
    return "\n".join([*svg_of_drawing(drawing, "The chain of a request", PICTURE_PIXELS), ""]).encode()
