"""Where a text is refused and why, by the code of apps/spki-cert/ that apps/locate uses too. A place is an offset in octets, with a remark that says
what is wrong there. An item is a member of a sequence: a key, a certificate or a signature."""
import re
from typing import NamedTuple

from spki_cert_tool.forms import Parser, Wrong
from spki_cert_tool.places import places_of, read_text, refusal, value_in

# What is underlined from a place on: a word, or one character, or nothing at the end of the text.
WORD = re.compile(r"\(?[\w\-./:*+=]+|.|$", re.DOTALL)
# The number of an item, in a refusal and in a remark.
NUMBER = re.compile(r"\b(?:sequence|item) ([1-9]\d*)\b")


class Item(NamedTuple):
    """A member of a list as it is written: the word that it is headed by, and its place."""

    head: bytes | None
    begin: int
    end: int


def items_of(text):
    """The members of the list that a text is in advanced or canonical form, with the head first. None if it is no list, or cannot be read."""
    try:
        node = Parser(text).whole()
    except (Wrong, RecursionError):
        return None
    # (`head` is None for a member that is a string)
    return None if node.members is None else [Item(member.head, member.begin, member.end) for member in node.members]


def places(text, line):
    """The places of the refusal `line` in a text, as pairs of an offset and a remark: first where the fault is, then further places that explain it.
    Empty if the text is not refused by this line."""
    # (for a text in braces, `offsets` has the offset of each octet that they encode; otherwise it is None)
    (wrong, _, offsets), _ = read_text(text, line)
    if wrong is None or refusal(wrong, offsets) != line:
        return []
    return [(offsets[min(at, len(offsets) - 1)] if offsets else at, why) for at, why in places_of(wrong)]


def places_for_page(text, offsets):
    """Places for the page, which underlines them. `offsets` are offsets with remarks, as `places` returns them."""
    return [place_for_page(text, at, why) for at, why in offsets]


def heads_in(text, made_up=()):
    """The words that the items of a sequence, or of a case's sequence, begin with, as octets: b"" for an item without one, and None for an item that
    the page made up, of which `made_up` has the offsets in `text`. Empty if the text cannot be read."""
    try:
        node = value_in(text)
    except (Wrong, RecursionError):
        return []
    if node.head == b"case":
        node = next((part for part in node.rest if part.head == b"sequence"), node)
    return [None if item.begin in made_up else item.head or b"" for item in node.rest]


def with_certificate_numbers(words, heads):
    """A refusal or a remark in which `sequence N` or `item N`, the number of an item, is replaced by that of a certificate among the certificates,
    also for its signature, or of another item among those that were typed. `heads` are the words of the items, as `heads_in` returns them."""
    def name_of_item(match):
        """What the page calls the item of a match of NUMBER: the matched words themselves if there is no item with this number."""
        number = int(match[1])
        up_to_item = heads[:number]
        count = up_to_item.count(b"cert")
        if len(up_to_item) < number:
            return match[0]
        if up_to_item[-1] in (b"signature", None) and count:
            return f"signature of certificate {count}"
        return f"certificate {count}" if up_to_item[-1] == b"cert" else f"item {number - up_to_item.count(None)}"

    return NUMBER.sub(name_of_item, words)


def place_for_page(text, at, why):
    """A place with its remark, as the page gets it: the begin and the end of the word there, counted as JavaScript counts, and line and column from
    1, the column in characters. `text` is octets, and `at` an offset in them."""
    before = text[:at].decode(errors="ignore")
    # (of a longer word the first 200 octets are underlined, which are enough to see it)
    word = WORD.match(text[at:at + 200].decode(errors="ignore"))[0]
    begin = utf16_length(before)
    line = before.count("\n") + 1
    return {"begin": begin, "end": begin + utf16_length(word), "line": line, "column": len(before) - before.rfind("\n"), "why": why}


def utf16_length(text):
    """The length of a string as JavaScript counts it: in units of UTF-16."""
    return len(text.encode("utf-16-le", "surrogatepass")) // 2
