"""Tags and requests: what they are read as, and which requests a tag contains (section "Tags"; RFC 2693, section 6.3.1)."""
import re
from dataclasses import dataclass
from typing import Union

from .coverage import Rows  # (`X.count_use(row)` counts one use of a row of the table X)
from .values import Atom, Value, is_plain

MOST_NODES = 1024
CLOCK = rb"([01][0-9]|2[0-3]):[0-5][0-9]:([0-5][0-9]|60)"
TIME = re.compile(CLOCK)
DATE = re.compile(rb"[0-9]{4}-(0[1-9]|1[0-2])-(0[1-9]|[12][0-9]|3[01])_" + CLOCK)
ORDERINGS = (b"alpha", b"time", b"date")

FAULTS = Rows("tag, fault", [
    "TooManyNodes", "a string: Hint", "EmptyList", "ListHead", "a list's head: Hint", "behind the star a list: UnknownStar",
    "behind the star another word: UnknownStar", "behind the star: Hint", "behind prefix nothing: UnknownStar",
    "behind prefix more than one: UnknownStar", "behind prefix a list: UnknownStar", "behind prefix: Hint", "behind range nothing: RangeOrdering",
    "behind range a list: RangeOrdering", "behind range another string: RangeOrdering", "behind range: Hint", "among the limits: Hint", "RangeLimit"])
REQUEST_FAULTS = Rows("request, fault", ["Hint", "EmptyList", "ListHead", "StarInRequest"])
NORMAL = Rows("tag, normal form", ["a set in a set", "a set with a member (*)", "a set with one member", "a list with a member (* set)"])
CONTAINED = Rows("tag contains a request", [
    f"{kind}: {answer}" for kind in ("(*)", "a string", "a list", "a set", "a prefix", "a range alpha", "a range time", "a range date")
    for answer in ("yes", "no") if (kind, answer) != ("(*)", "no")])


class TagFault(Exception):
    """Why a value is no tag, or no request."""


def fault(row: str, kind: str) -> TagFault:
    """The TagFault to raise. Counts a row of FAULTS."""
    FAULTS.count_use(row)
    return TagFault(kind)


@dataclass(frozen=True, slots=True)
class Star:
    """`(*)`: all requests."""


@dataclass(frozen=True, slots=True)
class Text:
    """A string: this string alone."""

    body: bytes


@dataclass(frozen=True, slots=True)
class Plain:
    """A list that is headed by a string other than `*`, which is its first member."""

    members: tuple["Tag", ...]


@dataclass(frozen=True, slots=True)
class AnyOf:
    """`(* set t ..)`: the requests of some member."""

    members: tuple["Tag", ...]


@dataclass(frozen=True, slots=True)
class Prefix:
    """`(* prefix p)`: strings that begin with p."""

    start: bytes


@dataclass(frozen=True, slots=True)
class Limit:
    """A limit of a range: a string, and whether the string itself is outside."""

    strict: bool
    body: bytes


@dataclass(frozen=True, slots=True)
class Range:
    """`(* range ordering low? up?)`: strings of the ordering between the limits."""

    ordering: bytes
    low: Limit | None
    up: Limit | None


Tag = Union[Star, Text, Plain, AnyOf, Prefix, Range]
NOTHING = AnyOf(())


# ---- reading


def read(value: Value) -> Tag:
    """The tag that a value is, in normal form. Raises TagFault with the first fault."""
    return Reader().tag(value)


class Reader:
    """Reads one tag, and counts its nodes as they are written."""

    def __init__(self) -> None:
        self.nodes = 0

    def tag(self, value: Value) -> Tag:
        """The tag that a value is, in normal form. Raises TagFault, for an outer list before those inside."""
        self.nodes += 1
        if self.nodes > MOST_NODES:
            raise fault("TooManyNodes", "TooManyNodes")
        if isinstance(value, Atom):
            if value.hint is not None:
                raise fault("a string: Hint", "Hint")
            return Text(value.body)
        if not value:
            raise fault("EmptyList", "EmptyList")
        first = value[0]
        if isinstance(first, tuple):
            raise fault("ListHead", "ListHead")
        if first.hint is not None:
            raise fault("a list's head: Hint", "Hint")
        if first.body != b"*":
            return normal_list(tuple(map(self.tag, value)))
        return self.starred(value[1:])

    def starred(self, members: tuple[Value, ...]) -> Tag:
        """The tag of a list that begins with the star, by the members behind it. Raises TagFault."""
        if not members:
            return Star()
        word = members[0]
        if isinstance(word, tuple):
            raise fault("behind the star a list: UnknownStar", "UnknownStar")
        if word.hint is not None:
            raise fault("behind the star: Hint", "Hint")
        if word.body == b"set":
            return normal_set(tuple(map(self.tag, members[1:])))
        if word.body == b"prefix":
            return prefix_of(members[1:])
        if word.body == b"range":
            return range_of(members[1:])
        raise fault("behind the star another word: UnknownStar", "UnknownStar")


def prefix_of(members: tuple[Value, ...]) -> Tag:
    """The tag of `(* prefix ..)`, by the members behind `prefix`. Raises TagFault unless there is exactly one, a string without a hint."""
    if not members:
        raise fault("behind prefix nothing: UnknownStar", "UnknownStar")
    if len(members) > 1:
        raise fault("behind prefix more than one: UnknownStar", "UnknownStar")
    start = members[0]
    if isinstance(start, tuple):
        raise fault("behind prefix a list: UnknownStar", "UnknownStar")
    if start.hint is not None:
        raise fault("behind prefix: Hint", "Hint")
    return Prefix(start.body)


def range_of(members: tuple[Value, ...]) -> Tag:
    """The tag of `(* range ..)`, by the members behind `range`: an ordering, and then at most a lower and an upper limit. Raises TagFault."""
    if not members:
        raise fault("behind range nothing: RangeOrdering", "RangeOrdering")
    ordering = members[0]
    if isinstance(ordering, tuple):
        raise fault("behind range a list: RangeOrdering", "RangeOrdering")
    if ordering.hint is not None:
        raise fault("behind range: Hint", "Hint")
    if ordering.body not in ORDERINGS:
        raise fault("behind range another string: RangeOrdering", "RangeOrdering")
    limits = members[1:]
    if any(isinstance(member, Atom) and member.hint is not None for member in limits):
        raise fault("among the limits: Hint", "Hint")
    low, limits = first_limit(limits, b"g", b"ge")
    up, limits = first_limit(limits, b"l", b"le")
    if limits:
        raise fault("RangeLimit", "RangeLimit")
    return Range(ordering.body, low, up)


def first_limit(members: tuple[Value, ...], strict: bytes, other: bytes) -> tuple[Limit | None, tuple[Value, ...]]:
    """The limit that members begin with, and the members behind it. The limit is None if they do not begin with a string behind one of the two words:
    `strict`, by which the string itself is outside, or `other`."""
    if len(members) >= 2 and is_plain(members[0], strict, other) and is_plain(members[1]):
        word, body = members[0], members[1]
        assert isinstance(word, Atom) and isinstance(body, Atom)
        return Limit(word.body == strict, body.body), members[2:]
    return None, members


# ---- normal form


def normal_list(members: tuple[Tag, ...]) -> Tag:
    """The normal form of a list whose members are in normal form: NOTHING if one of them is."""
    if NOTHING in members:
        NORMAL.count_use("a list with a member (* set)")
        return NOTHING
    return Plain(members)


def normal_set(members: tuple[Tag, ...]) -> Tag:
    """The normal form of a set whose members have theirs: a set inside gives its members, one with `(*)` is `(*)`, one of a single member is that."""
    flat: list[Tag] = []
    for member in members:
        if isinstance(member, AnyOf):
            NORMAL.count_use("a set in a set")
            flat += member.members
        else:
            flat.append(member)
    if Star() in flat:
        NORMAL.count_use("a set with a member (*)")
        return Star()
    if len(flat) == 1:
        NORMAL.count_use("a set with one member")
        return flat[0]
    return AnyOf(tuple(flat))


def nodes(tag: Tag) -> int:
    """The number of nodes of a tag."""
    return 1 + sum(map(nodes, tag.members)) if isinstance(tag, (Plain, AnyOf)) else 1


def has_set(tag: Tag) -> bool:
    """Whether the tag is a set, or has one inside."""
    return isinstance(tag, AnyOf) or isinstance(tag, Plain) and any(map(has_set, tag.members))


def weight(tag: Tag) -> int:
    """The nodes of a tag except the heads of lists, plus the octets of its strings, prefixes and limits: a part of `node_cost`."""
    if isinstance(tag, Plain):
        return sum(map(weight, tag.members))  # (of a list and its head one node counts)
    if isinstance(tag, AnyOf):
        return 1 + sum(map(weight, tag.members))
    if isinstance(tag, Range):
        return 1 + sum(len(limit.body) for limit in (tag.low, tag.up) if limit is not None)
    return 1 + len(tag.body if isinstance(tag, Text) else tag.start if isinstance(tag, Prefix) else b"")


def count_of_ranges(tag: Tag) -> int:
    """The number of prefixes and ranges in a tag."""
    return sum(map(count_of_ranges, tag.members)) if isinstance(tag, (Plain, AnyOf)) else int(isinstance(tag, (Prefix, Range)))


def node_cost(tag: Tag) -> int:
    """What it costs to intersect one node with the tag, beside the 32 of the node: see the row "work" of section "Questions to a guard"."""
    return 15 * nodes(tag) + 48 * count_of_ranges(tag) + weight(tag)


def written(tag: Tag) -> Value:
    """The value that a tag is written as."""
    if isinstance(tag, Star):
        return (Atom(b"*"),)
    if isinstance(tag, Text):
        return Atom(tag.body)
    if isinstance(tag, Plain):
        return tuple(map(written, tag.members))
    if isinstance(tag, AnyOf):
        return (Atom(b"*"), Atom(b"set"), *map(written, tag.members))
    if isinstance(tag, Prefix):
        return (Atom(b"*"), Atom(b"prefix"), Atom(tag.start))
    limits: list[Value] = []
    if tag.low is not None:
        limits += [Atom(b"g" if tag.low.strict else b"ge"), Atom(tag.low.body)]
    if tag.up is not None:
        limits += [Atom(b"l" if tag.up.strict else b"le"), Atom(tag.up.body)]
    return (Atom(b"*"), Atom(b"range"), Atom(tag.ordering), *limits)


# ---- requests


def read_request(value: Value) -> Value:
    """The value itself if it is a request. Raises TagFault with the first fault otherwise."""
    kind = request_fault(value)
    if kind:
        REQUEST_FAULTS.count_use(kind)
        raise TagFault(kind)
    return value


def request_fault(value: Value) -> str | None:
    """The first fault, a row of REQUEST_FAULTS, of a value as a request. None if it is a request."""
    if isinstance(value, Atom):
        return "Hint" if value.hint is not None else None
    if not value:
        return "EmptyList"
    if isinstance(value[0], tuple):
        return "ListHead"
    if value[0].hint is None and value[0].body == b"*":
        return "StarInRequest"
    return next(filter(None, map(request_fault, value)), None)


def contains(tag: Tag, request: Value) -> bool:
    """Whether a tag contains a request."""
    kind, answer = contained(tag, request)
    CONTAINED.count_use(f"{kind}: {'yes' if answer else 'no'}")
    return answer


def contained(tag: Tag, request: Value) -> tuple[str, bool]:
    """The kind of a tag, as in the rows of CONTAINED, and whether the tag contains a request."""
    if isinstance(tag, Star):
        return "(*)", True
    if isinstance(tag, Text):
        return "a string", isinstance(request, Atom) and request.body == tag.body
    if isinstance(tag, Plain):
        return "a list", isinstance(request, tuple) and len(request) >= len(tag.members) and all(map(contains, tag.members, request))
    if isinstance(tag, AnyOf):
        return "a set", any(contains(member, request) for member in tag.members)
    if isinstance(tag, Prefix):
        return "a prefix", isinstance(request, Atom) and request.body.startswith(tag.start)
    return f"a range {tag.ordering.decode()}", isinstance(request, Atom) and in_range(tag, request.body)


def in_range(tag: Range, body: bytes) -> bool:
    """Whether a string is one of a range's ordering and between its limits."""
    if tag.ordering == b"time" and not TIME.fullmatch(body) or tag.ordering == b"date" and not DATE.fullmatch(body):
        return False
    if tag.low is not None and (body < tag.low.body or tag.low.strict and body == tag.low.body):
        return False
    return tag.up is None or body < tag.up.body or not tag.up.strict and body == tag.up.body
