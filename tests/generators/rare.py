"""Texts at the limits: octets, lists inside one another, nodes. Those of octets, LONG, come at fixed numbers of questions, since they take long."""
import random
from collections.abc import Callable

from model.values import LONGEST, Atom, Value, canonical

from .cases import Builder, Subject

# Each text or question that has a number of its own comes once in so many numbers (`questions.question`).
EVERY = 20_000


def too_long(rng: random.Random) -> bytes:
    """A string as a text of just as many octets as are read, mostly with one more behind it. Its length, of seven digits, and the colon are 8."""
    return b"%d:" % (LONGEST - 8) + (LONGEST - 8 + rng.choice((0, 1, 1, 1, 1))) * b"a"


def too_long_in_braces(rng: random.Random) -> bytes:
    """A transport form of two octets too many, or of one without its `}`."""
    return b"{" + LONGEST * b"A" + rng.choice((b"}", b""))


def text_that_grows(rng: random.Random) -> bytes:
    """A text within the limit whose canonical form has one octet too many, or just as many as are read: 4 octets `[a]b` are 8 there. The octets `b`
    at the end lengthen the last of these strings: 131,070 * 8 + 15 + 2 are 1,048,577, one too many."""
    return b"(" + 131_071 * b"[a]b" + (7 if rng.randrange(8) else 6) * b"b" + b")"


def many_strings(kind: bytes, count: int) -> Value:
    """A tag of `count` nodes: a `list` or a `set`, as `kind` says, of equal strings. A list and its head are two nodes, a set is one."""
    head = (Atom(b"f"),) if kind == b"list" else (Atom(b"*"), Atom(b"set"))
    return (*head, *(count - (2 if kind == b"list" else 1)) * (Atom(b"x"),))


def pair_near_limit(rng: random.Random) -> tuple[Value, Value]:
    """Two tags whose nodes have a product of a million, or one that is a little less or more."""
    first, second = rng.choice(((1000, 1000), (999, 1001), (977, 1024), (1001, 1000)))
    return many_strings(b"list", first), many_strings(b"list", second)


def large_tags(rng: random.Random) -> bytes:
    """The text of an intersection of two tags whose product of nodes is at the limit, or near it."""
    return canonical((Atom(b"intersect"), *pair_near_limit(rng)))


def too_many_nodes(rng: random.Random) -> bytes:
    """The text of an intersection with a tag of 1,024 nodes, as many as are read, or 1,025."""
    return canonical((Atom(b"intersect"), many_strings(rng.choice((b"list", b"set")), 1024 + rng.randrange(2)), Atom(b"a")))


class LargeTags(Builder):
    """Builds a case in which the tags of an entry and of a certificate have too many nodes, or nearly."""

    def __init__(self, rng: random.Random) -> None:
        super().__init__(rng)
        # (the tags of up to 1,001 nodes contain this request)
        self.request = (Atom(b"f"), *1010 * (Atom(b"x"),))
        self.lengths = (1, 1, 2)

    def by_chance(self, chance: float) -> bool:
        """Whether something happens that has this chance. Under 0.1 it never does: so a mistake seldom stops the chain, and tags are intersected."""
        return chance >= 0.1 and super().by_chance(chance)

    def tag(self) -> Value:
        """A field with a tag of 1,000 or 1,001 nodes, of which two have a product near the limit of 1,000,000, or of 1,025, one more than is read."""
        return (Atom(b"tag"), many_strings(b"list", self.rng.choice((1000, 1000, 1001, 1001, 1025 if self.by_chance(0.5) else 1001))))


class GrowingTags(LargeTags):
    """Builds a case in which the sets of an entry and a certificate leave some 10,000 strings. Times the next tag's nodes that is about a million."""

    def __init__(self, rng: random.Random) -> None:
        super().__init__(rng)
        self.lengths = (2,)  # (how many certificates the case may have)
        self.left = [many_strings(b"set", rng.choice((101, 102))), many_strings(b"list", rng.choice((100, 101)))]

    def tag(self) -> Value:
        """A field with the next tag: first those of the two certificates, which are in `left`, then a set of 100 nodes for each entry."""
        return (Atom(b"tag"), self.left.pop(0) if self.left else many_strings(b"set", 100))

    def next_subject(self, name_chance: float) -> Subject:
        """A key, whatever `name_chance` is, so that each certificate is one of an authorization."""
        return super().next_subject(name_chance=0)


def large_case(rng: random.Random) -> bytes:
    """The text of a case with large tags."""
    return canonical(rng.choice((LargeTags, GrowingTags))(rng).case())


def deep(rng: random.Random) -> bytes:
    """The text of lists inside one another, 64 or 65 deep: as deep as is read, or deeper by one."""
    count = 64 + rng.randrange(2)
    return count * b"(" + rng.choice((b"", b"a")) + count * b")"


def deep_tags(rng: random.Random) -> bytes:
    """The text of an intersection of deep tags, whose answer may have more than 64 lists inside one another."""
    lists: Value = Atom(b"a")
    for _ in range(rng.choice((rng.randrange(1, 64), 60, 62))):  # (63 of the 64 lists that are read may be in a tag)
        lists = (Atom(b"f"), lists)
    sets: Value = (Atom(b"*"), Atom(b"prefix"), Atom(b"a"))
    for _ in range(rng.choice((rng.randrange(1, 32), 30))):  # (each step puts the tag into two lists)
        others: tuple[Value, ...] = ((Atom(b"f"), (Atom(b"*"),)), (Atom(b"f"),), (Atom(b"*"), Atom(b"set")), Atom(b"f"))
        members = [(Atom(b"f"), sets), rng.choice(others)]
        rng.shuffle(members)
        sets = (Atom(b"*"), Atom(b"set"), *members)
    pair = [lists, sets]
    rng.shuffle(pair)
    return canonical((Atom(b"intersect"), *pair))


LONG: tuple[Callable[[random.Random], bytes], ...] = (too_long, too_long_in_braces, text_that_grows)
