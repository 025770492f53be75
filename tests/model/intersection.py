"""The intersection of two tags by its rules (section "The intersection of two tags"; RFC 2693, section 6.3.1)."""
import math
from collections.abc import Iterator
from contextlib import contextmanager

from .coverage import Rows  # (`X.count_use(row)` counts one use of a row of the table X)
from .tags import NOTHING, AnyOf, Limit, Plain, Prefix, Range, Star, Tag, Text, has_set, in_range, nodes

MOST_PRODUCT = 1_000_000
MOST_WORK = 2_300_000_000
RULES = Rows("intersection, rule", [
    "(*) and any", "a set and any: none is left", "a set and any: one is left", "a set and any: a set is left",
    "two sets of several members: several are left", "two strings: equal", "two strings: (* set)", "a string and a prefix: contained",
    "a string and a prefix: (* set)", "a string and a range: contained", "a string and a range: (* set)", "two prefixes: the longer",
    "two prefixes: (* set)", "two ranges: a range", "two ranges: the lower string is above", "two ranges: equal strings, one limit strict",
    "two ranges: alpha and another ordering", "two ranges: time and date", "a prefix and a range", "a prefix and a range: no upper limit",
    "a prefix and a range: octets FF at the end", "two lists: of one length", "two lists: one is longer", "two lists: (* set)", "all else"])
LIMITS = Rows("intersection, limits", [
    f"{which}: {case}" for which in ("lower", "upper")
    for case in ("none", "one is missing", "another string", "equal strings, strict and not", "equal strings and words")])
REFUSED = Rows("intersection, refused", ["TooLarge", "the product is 1,000,000"])

# What the context `limited` sets: the most that a product of nodes may be, and how much work is left, None without a limit.
most_product = MOST_PRODUCT
most_work: int | None = None
# The work of a chain that `is_small` by this number is not counted. It is 0 for a guard, which counts all work.
uncounted = 0


class TooLarge(Exception):
    """The product of the nodes is over the limit, or the work is (`is_work`). `is_of_guard`: the limit is that of a guard. That is known of a product
    if a case would allow it, and of work if the context counts also the work of small chains."""

    def __init__(self, product: int = 0, is_work: bool = False) -> None:
        super().__init__(product)
        self.is_of_guard = uncounted == 0 if is_work else product <= MOST_PRODUCT
        self.is_work = is_work


@contextmanager
def limited(most: int, work: int | None = None, small: int = 0) -> Iterator[None]:
    """A context in which a product of nodes is at most `most`, and all steps together cost at most `work` (None: no limit). A chain that
    `is_small` by the product `small` costs nothing."""
    global most_product, most_work, uncounted
    before = most_product, most_work, uncounted
    most_product, most_work, uncounted = most, work, small
    try:
        yield
    finally:
        most_product, most_work, uncounted = before


@contextmanager
def counting_work(of_entry: Tag, others: list[Tag | None]) -> Iterator[None]:
    """A context in which an entry's tag and those of certificates (None: a name's definition) are folded. A small chain has no limit of work."""
    global most_work
    before = most_work
    if is_small(of_entry, others):
        most_work = None
    try:
        yield
    finally:  # (work that was spent stays spent)
        most_work = before if most_work is None else most_work


def is_small(of_entry: Tag, others: list[Tag | None]) -> bool:
    """Whether the numbers of nodes alone show that no intersection in a chain is too large, so that its work need not be counted. Their product is at
    most `uncounted`. Or no tag has a set, and their sum, times the largest of a certificate, is. A name's definition counts as one node."""
    size, sizes = nodes(of_entry), [1 if tag is None else nodes(tag) for tag in others]
    if size * math.prod(sizes) <= uncounted:
        return True
    return not any(has_set(tag) for tag in (of_entry, *others) if tag is not None) and (size + sum(sizes)) * max([1, *sizes]) <= uncounted


def intersection(a: Tag, b: Tag) -> Tag:
    """The tag of the requests that both contain. Raises TooLarge if the product of the nodes is over the limit."""
    product = nodes(a) * nodes(b)
    if product > most_product:
        REFUSED.count_use("TooLarge")
        raise TooLarge(product)
    if product == MOST_PRODUCT:
        REFUSED.count_use("the product is 1,000,000")
    return unlimited_intersection(a, b)


def spend_work(cost: int) -> None:
    """Takes the cost of a step from the work that is left, if work has a limit. Raises TooLarge if too little is left."""
    global most_work
    if most_work is None:
        return
    most_work -= cost
    if most_work < 0:
        raise TooLarge(is_work=True)


def unlimited_intersection(a: Tag, b: Tag) -> Tag:
    """The intersection of two tags, by the first rule that fits, without a limit of nodes: the rules call it for members."""
    if isinstance(a, Star) or isinstance(b, Star):
        RULES.count_use("(*) and any")
        return b if isinstance(a, Star) else a
    if isinstance(a, AnyOf) or isinstance(b, AnyOf):
        return intersect_sets(members_of(a), members_of(b))
    if isinstance(a, Text):
        return intersect_string(a, b)
    if isinstance(b, Text):
        return intersect_string(b, a)
    if isinstance(a, Prefix) and isinstance(b, Prefix):
        return intersect_prefixes(a, b)
    if isinstance(a, Range) and isinstance(b, Range):
        return intersect_ranges(a, b)
    if isinstance(a, Prefix) and isinstance(b, Range):
        return intersect_ranges(as_range(a), b)
    if isinstance(a, Range) and isinstance(b, Prefix):
        return intersect_ranges(a, as_range(b))
    if isinstance(a, Plain) and isinstance(b, Plain):
        return intersect_lists(a.members, b.members)
    RULES.count_use("all else")
    return NOTHING


def members_of(tag: Tag) -> tuple[Tag, ...]:
    """The members of a set. What is no set counts as its only member."""
    return tag.members if isinstance(tag, AnyOf) else (tag,)


def intersect_sets(first: tuple[Tag, ...], second: tuple[Tag, ...]) -> Tag:
    """The set of the intersections of each member of the first with each of the second, in this order, without `(* set)`, or the only one."""
    members = [common for a in first for b in second if (common := unlimited_intersection(a, b)) != NOTHING]
    if not members:
        RULES.count_use("a set and any: none is left")
        return NOTHING
    RULES.count_use("a set and any: one is left" if len(members) == 1 else "a set and any: a set is left")
    if min(len(first), len(second), len(members)) > 1:
        RULES.count_use("two sets of several members: several are left")
    return members[0] if len(members) == 1 else AnyOf(tuple(members))


def intersect_string(string: Text, other: Tag) -> Tag:
    """The intersection of a string with a tag that is neither a star nor a set."""
    if isinstance(other, Text):
        is_inside, rule = string == other, "two strings: equal"
    elif isinstance(other, Prefix):
        is_inside, rule = string.body.startswith(other.start), "a string and a prefix: contained"
    elif isinstance(other, Range):
        is_inside, rule = in_range(other, string.body), "a string and a range: contained"
    else:
        RULES.count_use("all else")
        return NOTHING
    RULES.count_use(rule if is_inside else rule.split(":")[0] + ": (* set)")
    return string if is_inside else NOTHING


def intersect_prefixes(a: Prefix, b: Prefix) -> Tag:
    """The longer prefix, if it starts with the shorter one, else NOTHING."""
    shorter, longer = sorted((a, b), key=lambda prefix: len(prefix.start))
    is_longer = longer.start.startswith(shorter.start)
    RULES.count_use("two prefixes: the longer" if is_longer else "two prefixes: (* set)")
    return longer if is_longer else NOTHING


def as_range(prefix: Prefix) -> Range:
    """The range that a prefix counts as: the strings from the prefix itself up to, and without, the least string that is greater than all that begin
    with it. That one is the prefix with its last octet raised by one. FF has no successor, so octets FF at the end are left out, and the octet before
    them is raised. A prefix of octets FF alone, or of none, has no upper limit."""
    start = prefix.start.rstrip(b"\xff")
    if start != prefix.start:
        RULES.count_use("a prefix and a range: octets FF at the end")
    RULES.count_use("a prefix and a range" if start else "a prefix and a range: no upper limit")
    above = start[:-1] + bytes([start[-1] + 1]) if start else None
    return Range(b"alpha", Limit(False, prefix.start), None if above is None else Limit(True, above))


def intersect_ranges(a: Range, b: Range) -> Tag:
    """The range with the greater lower limit and the lesser upper limit. NOTHING if this lower limit is above this upper one, or equal to it and one
    is strict, or if one range is of times and the other of dates. The ordering `alpha`, which has all strings, gives way to another one."""
    orderings = {a.ordering, b.ordering}
    if orderings == {b"time", b"date"}:
        RULES.count_use("two ranges: time and date")
        return NOTHING
    if len(orderings) == 2:
        RULES.count_use("two ranges: alpha and another ordering")
        orderings.remove(b"alpha")
    low, up = tighter("lower", a.low, b.low), tighter("upper", a.up, b.up)
    if low is not None and up is not None:
        if low.body > up.body:
            RULES.count_use("two ranges: the lower string is above")
            return NOTHING
        if low.body == up.body and (low.strict or up.strict):
            RULES.count_use("two ranges: equal strings, one limit strict")
            return NOTHING
    RULES.count_use("two ranges: a range")
    return Range(orderings.pop(), low, up)


def tighter(which: str, a: Limit | None, b: Limit | None) -> Limit | None:
    """The greater of two limits if `which` is `lower`, the lesser if it is `upper`. A missing limit gives way to the other one. Of two limits with
    the same string, `ge` or `le` gives way to `g` or `l`."""
    if a is None or b is None:
        LIMITS.count_use(f"{which}: {'none' if a is b else 'one is missing'}")
        return a or b
    if a.body == b.body:
        LIMITS.count_use(f"{which}: {'equal strings and words' if a == b else 'equal strings, strict and not'}")
        return a if a.strict else b
    LIMITS.count_use(f"{which}: another string")
    a_is_greater = a.body > b.body
    return a if a_is_greater == (which == "lower") else b


def intersect_lists(a: tuple[Tag, ...], b: tuple[Tag, ...]) -> Tag:
    """The intersection of two lists, member by member, their heads first. The further members of the longer one stay."""
    members: list[Tag] = []
    for first, second in zip(a, b):
        common = unlimited_intersection(first, second)
        if common == NOTHING:
            RULES.count_use("two lists: (* set)")
            return NOTHING
        members.append(common)
    RULES.count_use("two lists: of one length" if len(a) == len(b) else "two lists: one is longer")
    return Plain((*members, *max(a, b, key=len)[len(members):]))
