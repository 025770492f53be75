"""Reads a text of an S-expression in any of the three forms of docs/FORMATS.md, and says what is wrong with one and where.

A value is read with its places, so that a fault can be shown at its line and column. The faults are those of the program `spki`. A place is an offset
in the text, in octets from 0. What reads something takes the offset where this begins, and raises `Wrong` if it is not in its form.
"""
from __future__ import annotations

import base64
import difflib
import re
import unicodedata
from collections.abc import Iterable
from dataclasses import dataclass, field

from .sexp import Value

# The limits of docs/FORMATS.md: octets of a text, lists that are open at once, nodes of a tag.
MOST_OCTETS, MOST_LISTS, MOST_NODES = 1_048_576, 64, 1024
# A longer word is compared with no other.
MOST_MEANT = 60
SPACES = re.compile(rb"[ \t\n\v\f\r]*")
# A word as people write it, perhaps with letters outside ASCII.
LETTERS = re.compile(rb"[\w\-./:*+=\x80-\xff]+")
TOKEN = re.compile(rb"[A-Za-z\-./_:*+=][A-Za-z0-9\-./_:*+=]*")
LENGTH = re.compile(rb"0|[1-9][0-9]*")
# What may be between two marks of a string, by the mark. Whether escapes and base64 are right is tested behind that.
BODIES = {b'"': re.compile(rb'(?:[^"\\]|\\.)*', re.DOTALL), b"#": re.compile(rb"[0-9A-Fa-f\s]*"), b"|": re.compile(rb"[A-Za-z0-9+/=\s]*")}
# A piece of a quoted string: octets that are themselves, or an escape. A line break that is escaped is nothing.
PIECE = re.compile(rb"([^\"\\]+)|\\(?:([\"'?\\])|([abtnvfr])|([0-3][0-7]{2})|x([0-9A-Fa-f]{2})|\r\n|\n\r|\r|\n)")
ESCAPED = {b"a": b"\a", b"b": b"\b", b"t": b"\t", b"n": b"\n", b"v": b"\v", b"f": b"\f", b"r": b"\r"}
# So many digits are probably a digest without its marks, and no length.
DIGITS = re.compile(rb"[0-9A-Fa-f]{16}")
SYMBOLS = re.compile(rb"([A-Za-z0-9+/]*)(=*)")
# Remarks on octets that begin no value.
REMARKS = {b";": "`;` begins no comment: there are no comments, only the field `(comment \"..\")`",
           b",": "there are no commas: spaces are between members, and what contains each of several words is `(* set read write)`",
           b"'": "`'` is no quotation mark here: leave it out, or write `\"`",
           b"?": "there are no patterns: what begins so is `(* prefix /web/)`, and a string with `?` needs quotes"}
# The categories of Unicode whose characters are invisible.
INVISIBLE = ("Cf", "Cc", "Zs", "Zl", "Zp")
# The kinds of faults of the form of a text. All others are of its value.
FORM_FAULTS = ("TooLong", "TooDeep", "Short", "Bad", "Trailing")
# A further place of a fault, with a remark.
Place = tuple[int, str]


@dataclass
class Node:
    """A value and its place in the text, from the offset `begin` to the offset `end` behind it. A string has `body`, and perhaps a display hint in
    `hint`. A list has `members`. What a value does not have is None."""

    begin: int
    end: int = 0
    body: bytes | None = None
    hint: bytes | None = None
    members: list[Node] | None = None

    @property
    def head(self) -> bytes | None:
        """The word that a list begins with. None for a string, and for a list that begins with no plain string."""
        first = self.members[0] if self.members else None
        return first.body if first is not None and first.hint is None else None

    @property
    def rest(self) -> list[Node]:
        """The members of a list after its head."""
        return self.members[1:] if self.members else []

    def is_plain(self, *words: bytes) -> bool:
        """Whether it is a string without a hint, and one of the words if any are given."""
        return self.body is not None and self.hint is None and (not words or self.body in words)

    @property
    def value(self) -> Value:
        """The value without its places, as `sexp` has it: `bytes`, a pair with a display hint, or a list."""
        if self.members is not None:
            return [member.value for member in self.members]
        body = self.body or b""
        return body if self.hint is None else (self.hint, body)


class Wrong(Exception):
    """Why a text is refused: the kind of fault as `spki` names it, the offset of its place, a remark, and further places with remarks."""

    def __init__(self, kind: str, at: int, why: str, others: Iterable[Place] = (), shown_at: int | None = None) -> None:
        """`kind` is the kind of fault as `spki` names it, `at` the offset of its place, `why` a remark, and `others` are further places."""
        super().__init__(kind, at, why)
        self.kind, self.at, self.why, self.others = kind, at, why, list(others)
        self.shown_at = shown_at
        """The place that is shown first, if it is not the one where the fault is found."""


def remark_on_octet(text: bytes, at: int) -> str | None:
    """A remark on the octet at the offset `at`, where a value should begin and none does: what its author probably meant, and what to write instead.
    None if there is nothing to say of it."""
    # (a character has at most four octets in UTF-8. If the octets are no UTF-8, `character` is empty or one behind them)
    octet, character = text[at:at + 1], text[at:at + 4].decode(errors="ignore")[:1]
    if octet >= b"\x80" and character and text.startswith(character.encode(), at):
        if character in "“”„‟«»‘’‚‹›´":
            return f"`{character}` is a quotation mark of a word processor: write `\"`"
        if unicodedata.category(character) in INVISIBLE:
            name = unicodedata.name(character, "without a name").lower()
            return f"this is the invisible character U+{ord(character):04X}, {name}, which is no space here: delete it, or write a plain one"
        # (the whole word that the character is in)
        word = next(letters[0] for letters in LETTERS.finditer(text) if letters.end() > at)
        return f"a string with `{character}` needs quotes: `\"{word.decode(errors='replace')}\"`"
    # (other commands read a file for `@FILE`)
    if octet == b"@" and at == 0:
        return "no file is read here, and \"$(cat FILE)\" gives what is in it"
    return REMARKS.get(octet, f"a string with `{octet.decode()}` needs quotes" if octet in b"!$%&@~<>\\^`" else None)


def spaces_end(text: bytes, at: int) -> int:
    """The offset after the whitespace that begins at an offset."""
    return match_at(SPACES, text, at).end()


def column(text: bytes, at: int) -> int:
    """The column of an offset, from 0."""
    return at - text.rfind(b"\n", 0, at) - 1


def shape_fault(node: Node, why: str, others: Iterable[Place] = ()) -> Wrong:
    """The fault `Shape` of a value that does not have the form that it must have, with a remark. `others` are further places."""
    return Wrong("Shape", node.begin, why, others)


def suggestion(word: bytes | None, allowed: Iterable[bytes]) -> str:
    """The end of a remark, which asks whether the most similar of the allowed words is meant. Empty if the word is allowed or longer than MOST_MEANT,
    or if none is similar. None counts as an empty word."""
    allowed = list(allowed)
    if word in allowed or len(word or b"") > MOST_MEANT:
        return ""
    near = difflib.get_close_matches((word or b"").decode(errors="replace"), [other.decode(errors="replace") for other in allowed], 1)
    return f"; is `{near[0]}` meant?" if near else ""


def excerpt(octets: bytes) -> str:
    """The first 40 octets for people to read, with escapes as Python has them, and `..` behind them if there are more."""
    return repr(octets[:40])[2:-1] + (".." if len(octets) > 40 else "")


# ---- the forms of a text


@dataclass
class Parser:
    """Reads advanced form, which contains canonical form, or canonical form alone. Its methods raise Wrong, but for `trailing_fault`, which
    returns it."""

    text: bytes
    is_canonical: bool = False
    opened: list[int] = field(default_factory=list)
    """The offsets of the lists that are being read."""
    unclosed: tuple[int, int] | None = None
    """The offset of a list that by the indentation was to end earlier, and the offset where it was to end."""

    def whole(self) -> Node:
        """The value of the text, which has nothing but whitespace around it."""
        if len(self.text) > MOST_OCTETS:
            raise Wrong("TooLong", MOST_OCTETS, f"the text has more than {MOST_OCTETS:,} octets")
        node = self.value(self.skip(0), "a value")
        behind = self.skip(node.end)
        if behind < len(self.text):
            raise self.trailing_fault(node, behind)
        return node

    def trailing_fault(self, node: Node, behind: int) -> Wrong:
        """The fault of what follows the value, at offset `behind`. By its indentation it may belong to the value, which a `)` too many has ended."""
        begins = (node.begin, "the value begins here")
        if self.text[behind:behind + 1] == b")":
            return Wrong("Trailing", behind, "this `)` closes no list: it is one too many, or a `(` is missing before it", [begins])
        if node.members is None:
            return Wrong("Trailing", behind, "the text is no access list, certificate or key, since each begins with `(`; a text is one value, "
                         "and a second one begins here", [begins])
        if node.head in (b"acl", b"sequence") and self.text.startswith(b"(" + node.head, behind):
            return Wrong("Trailing", behind, "a second list begins here; a text is one value: put all into one "
                         f"`({node.head.decode()} ..)`", [begins])
        is_behind_others = self.text[self.text.rfind(b"\n", 0, behind) + 1:behind].strip()
        if is_behind_others or column(self.text, behind) <= column(self.text, node.begin):
            end = self.text.count(b"\n", 0, node.end) + 1
            return Wrong("Trailing", behind, f"a text is one value, and this one ends on line {end}: delete all behind it", [begins])
        return Wrong("Trailing", behind, "this `)` ends the value, and by its indentation the next line belongs to it; is it one too many?",
                     [(behind, "this follows the value"), begins], node.end - 1)

    def skip(self, at: int) -> int:
        """The offset after the whitespace at an offset. In canonical form it is the same offset, since there is none."""
        return at if self.is_canonical else spaces_end(self.text, at)

    def octet(self, at: int, string_begin: int | None = None) -> bytes:
        """The octet at an offset. If the text ends there, it raises Wrong with what is open: lists, and the string that begins at `string_begin`, if
        one is being read."""
        if at < len(self.text):
            return self.text[at:at + 1]
        places = [(begin, "this list is not closed") for begin in reversed(self.opened)]
        if string_begin is not None:
            has_mark = self.text[string_begin:string_begin + 1] in BODIES
            why = "this string is not whole: its last mark is missing" if has_mark else "the text ends before the value is whole"
            raise Wrong("Short", len(self.text), why, [(string_begin, "this string is not whole"), *places], string_begin if has_mark else None)
        if self.unclosed is not None:
            begin, end = self.unclosed
            raise Wrong("Short", end, "a `)` is missing, and by the indentation of the next line it is missing here",
                        [(begin, "the list that it closes begins here"), *places])
        count = f": {len(self.opened)} `)` are missing" if len(self.opened) > 1 else ": a `)` is missing" if self.opened else ""
        raise Wrong("Short", len(self.text.rstrip()), f"the text ends before the value is whole{count}" if self.text.strip() else "there is no value",
                    places)

    def value(self, at: int, wanted: str) -> Node:
        """The value at an offset. If none begins there, raises `Wrong`, which says that `wanted` is expected: a few words, as "a member"."""
        octet = self.octet(at)
        if octet == b"(":
            return self.list_at(at)
        if octet == b"[":
            return self.string_with_hint(at)
        body, end = self.string(at, wanted)
        return Node(at, end, body)

    def list_at(self, at: int) -> Node:
        """The list whose `(` is at an offset."""
        if len(self.opened) == MOST_LISTS:
            raise Wrong("TooDeep", at, f"the {MOST_LISTS + 1}th list that is open at once begins here", [(self.opened[0], "the first one")])
        self.opened.append(at)
        members: list[Node] = []
        # (`own_column` is that of the list. It is computed once, and only if a member begins a line)
        own_column, next_at = -1, self.skip(at + 1)
        while self.octet(next_at) != b")":
            end = members[-1].end if members else at + 1
            # (a member that begins a line no further right than its list: this was perhaps to end before it)
            if b"\n" in self.text[end:next_at] and not self.is_canonical:
                own_column = column(self.text, at) if own_column < 0 else own_column
                self.unclosed = (at, end) if self.unclosed is None and column(self.text, next_at) <= own_column else self.unclosed
            members.append(self.value(next_at, "a member or `)`"))
            next_at = self.skip(members[-1].end)
        self.opened.pop()
        return Node(at, next_at + 1, members=members)

    def string_with_hint(self, at: int) -> Node:
        """The string whose display hint begins at an offset."""
        hint, end = self.string(self.skip(at + 1), "a display hint, which is a string")
        end = self.skip(end)
        if self.octet(end, at) != b"]":
            raise Wrong("Bad", end, "`]` must end the display hint; a list is in parentheses", [(at, "which begins here")])
        body, end = self.string(self.skip(end + 1), "the string of a display hint")
        return Node(at, end, body, hint)

    def string(self, at: int, wanted: str) -> tuple[bytes, int]:
        """The octets of the string at an offset, and the offset after it. If none begins there, raises Wrong and says that `wanted` is expected."""
        octet, token = self.octet(at), None if self.is_canonical else TOKEN.match(self.text, at)
        if token:
            return token[0], token.end()
        if octet in BODIES and not self.is_canonical:
            return self.string_in_marks(at, at, None)
        length = LENGTH.match(self.text, at)
        if length:
            return self.string_with_length(at, length.end(), length[0])
        if not self.is_canonical and (remark := remark_on_octet(self.text, at)):
            raise Wrong("Bad", at, f"{remark}; here {wanted} is expected")
        raise Wrong("Bad", at, f"no {'canonical ' if self.is_canonical else ''}text has this octet where {wanted} is expected")

    def string_with_length(self, begin: int, at: int, digits: bytes) -> tuple[bytes, int]:
        """The octets of a string with a length, and the offset after it. It begins at `begin` with the digits of its length, which end at `at`.
        Behind them is a colon, or in advanced form the mark of a string as `string_in_marks` reads it. Raises Wrong."""
        octet = self.octet(at, begin)
        # (ten digits are more octets than any text has, and a number of a million digits would take long to read)
        length = int(digits) if len(digits) < 10 else 10**9
        if octet == b":":
            if at + 1 + length > len(self.text):
                raise Wrong("Short", len(self.text), f"the length says {digits.decode()} octets, and {len(self.text) - at - 1} are left",
                            [(begin, "the string begins here"), *((opened, "this list is not closed") for opened in reversed(self.opened))])
            return self.text[at + 1:at + 1 + length], at + 1 + length
        if octet in BODIES and not self.is_canonical:
            return self.string_in_marks(begin, at, length)
        if self.is_canonical or digits == b"0" and octet.isdigit() and not DIGITS.match(self.text, begin):
            why = "a length is followed by a colon" if self.is_canonical else "a length has no leading zero"
            raise Wrong("Bad", at, why, [(begin, "the length begins here")])
        why = "put hexadecimal digits between two `#`" if DIGITS.match(self.text, begin) else "put quotes around a string that begins with a digit"
        raise Wrong("Bad", at, f"{why}; otherwise the digits are the length of a string", [(at, "no length is followed by this")], begin)

    def string_in_marks(self, begin: int, at: int, length: int | None) -> tuple[bytes, int]:
        """The octets of a string between two marks, which are quotes, `#` or `|`, and the offset after it. The first mark is at `at`. The string
        begins at `begin`: with its length, if one is given, which must be right."""
        mark = self.octet(at)
        body = match_at(BODIES[mark], self.text, at + 1)
        # (before the closing mark is looked for, since the first fault is shown: a wrong escape is in front of a mark that is missing)
        octets: bytes | None = self.quoted_octets(begin, at + 1) if mark == b'"' else None
        if self.octet(body.end(), begin) != mark:
            raise Wrong("Bad", body.end(), f"this octet is not allowed between two `{mark.decode()}`", [(begin, "the string begins here")])
        if mark == b"#":
            digits = b"".join(body[0].split())
            if len(digits) % 2:
                raise Wrong("Bad", body.end(), "the number of hexadecimal digits is odd", [(begin, "the string begins here")])
            octets = bytes.fromhex(digits.decode())
        elif mark == b"|":
            octets = octets_of_base64(body[0])
            if octets is None:
                raise Wrong("Bad", body.end(), "the text before this mark is no base64", [(begin, "the string begins here")])
        assert octets is not None
        if length is not None and length != len(octets):
            raise Wrong("Bad", body.end(), f"the length says {length} octets, and the string has {len(octets)}", [(begin, "the string begins here")])
        return octets, body.end() + 1

    def quoted_octets(self, begin: int, at: int) -> bytes:
        """The octets of the quoted string that begins at `begin`, and whose first octet behind the mark is at `at`, up to the closing mark or the end
        of the text. Raises Wrong if an escape is wrong or cut off."""
        pieces = []
        while piece := PIECE.match(self.text, at):
            plain, itself, letter, octal, hexadecimal = piece.groups(b"")
            numbers = [int(octal, 8)] if octal else [int(hexadecimal, 16)] if hexadecimal else []
            pieces.append(plain + itself + ESCAPED.get(letter, b"") + bytes(numbers))
            at = piece.end()
        if self.text[at:at + 1] == b"\\":
            self.refuse_escape(begin, at)
        return b"".join(pieces)

    def refuse_escape(self, begin: int, at: int) -> None:
        """Raises Wrong for the escape whose backslash is at the offset `at`, and which is wrong or cut off. The place of the fault is its first
        octet that no escape has there. The string begins at `begin`."""
        first = self.octet(at + 1, begin)
        # (the octets that may be behind the backslash, in this order)
        allowed = [b"0123abtnvfrx\"'?\\\r\n"] + ([b"01234567"] * 2 if first in b"0123" else [b"0123456789abcdefABCDEF"] * 2)
        for place, octets in enumerate(allowed, at + 1):
            if self.octet(place, begin) not in octets:
                raise Wrong("Bad", place, "no escape has this octet here", [(at, "the escape begins here"), (begin, "the string begins here")])


def match_at(pattern: re.Pattern[bytes], text: bytes, at: int) -> re.Match[bytes]:
    """The match of a pattern at an offset, for a pattern that matches an empty text too: so there is one."""
    match = pattern.match(text, at)
    assert match is not None
    return match


def octets_of_base64(body: bytes) -> bytes | None:
    """The octets of a text in base64, or None if it is none, or if the unused bits of its last symbol are not zero. Whitespace is ignored, and
    padding may be missing, all of it or a part."""
    match = SYMBOLS.fullmatch(b"".join(body.split()))
    if not match:
        return None
    symbols, given_padding = match.groups()
    padding = -len(symbols) % 4
    # (no number of octets needs three)
    if padding == 3 or len(given_padding) > padding:
        return None
    octets = base64.b64decode(symbols + b"=" * padding)
    return octets if base64.b64encode(octets).rstrip(b"=") == symbols else None


def without_braces(text: bytes) -> tuple[bytes, list[int] | None, int]:
    """For a text in braces: the canonical text inside, the offset in the text of each of its octets and of its end, and the offset behind the braces
    and the whitespace after them, where the text should end. Without braces: the text itself, None, and its length. Raises Wrong."""
    begin = spaces_end(text, 0)
    if text[begin:begin + 1] != b"{":
        return text, None, len(text)
    if len(text) > MOST_OCTETS:
        raise Wrong("TooLong", MOST_OCTETS, f"the text has more than {MOST_OCTETS:,} octets")
    body = match_at(BODIES[b"|"], text, begin + 1)
    if body.end() == len(text):
        raise Wrong("Short", body.end(), "the text ends before `}`", [(begin, "the braces begin here")])
    if text[body.end():body.end() + 1] != b"}":
        raise Wrong("Bad", body.end(), "this octet is not allowed in braces", [(begin, "the braces begin here")])
    octets = octets_of_base64(body[0])
    if octets is None:
        raise Wrong("Bad", body.end(), "the text in the braces is no base64", [(begin, "the braces begin here")])
    symbols = [body.start() + place for place, octet in enumerate(body[0]) if not bytes([octet]).isspace()]
    # (three octets are four symbols)
    return octets, [symbols[place * 4 // 3] for place in range(len(octets))] + [body.end()], spaces_end(text, body.end() + 1)
