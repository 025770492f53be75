"""Tags and requests that belong together, or nearly. A written tag is the value inside `(tag ..)`, from which the model reads a `Tag`."""
import random

from model.tags import AnyOf, Plain, Prefix, Range, Tag, Text
from model.values import Atom, Value

STRINGS = [b"ftp", b"read", b"write", b"a", b"b", b"ab", b"abc", b"", b"*", b"set", b"10:00:00", b"23:59:60", b"24:00:00", b"09:30:15",
           b"2024-01-01_00:00:00", b"2024-02-31_23:59:60", b"2024-13-01_00:00:00", b"2024", b"\xff", b"a\xff", b"a\xff\xff", b"my host", b"z"]
STAR = (Atom(b"*"),)
EMPTY_SET = (Atom(b"*"), Atom(b"set"))


def request(rng: random.Random, depth: int = 2) -> Value:
    """A request, of up to `depth` lists inside one another. No list begins with `*`, which a request must not."""
    if depth == 0 or rng.random() < 0.3:
        return Atom(rng.choice(STRINGS))
    head = Atom(rng.choice([body for body in STRINGS if body != b"*"]))
    return (head, *(request(rng, depth - 1) for _ in range(rng.randrange(4))))


def tag_for(allowed: Value, rng: random.Random, depth: int = 3) -> Value:
    """A written tag that mostly contains the request `allowed`. Below `depth` lists and sets it is `(*)`, or has what is there in the request."""
    kind = rng.random()
    if kind < 0.06 or depth == 0:
        return STAR if rng.random() < 0.5 else allowed
    if kind < 0.1:
        return tag(rng, depth - 1)
    if kind < 0.3:
        members = [tag_for(allowed, rng, depth - 1)] + [tag(rng, depth - 1) for _ in range(rng.randrange(3))]
        rng.shuffle(members)
        return (*EMPTY_SET, *members)
    if isinstance(allowed, tuple):
        length = rng.randrange(1, len(allowed) + 1)
        members = [tag_for(member, rng, depth - 1) for member in allowed[1:length]]
        if rng.random() < 0.05:
            members.append(tag(rng, depth=0))
        return (allowed[0], *members)
    if kind < 0.5:
        return allowed
    if kind < 0.65:
        return (Atom(b"*"), Atom(b"prefix"), Atom(near(allowed.body[:rng.randrange(len(allowed.body) + 1)], rng)))
    return range_for(allowed.body, rng)


def near(body: bytes, rng: random.Random) -> bytes:
    """A string, or by chance one that is an octet longer or shorter, or differs in its last octet."""
    if rng.random() < 0.85:
        return body
    return rng.choice((body + b"\xff", body[:-1], body + b"a", body[:-1] + bytes([(body[-1] + 1) % 256]) if body else b"a"))


def range_for(body: bytes, rng: random.Random) -> Value:
    """A range that often contains a string. Its ordering mostly fits: a string of 8 octets may be a time, one of 19 a date."""
    if rng.random() < 0.7:
        fitting = b"time" if len(body) == 8 else b"date" if len(body) == 19 else b"alpha"
        ordering = fitting if rng.random() < 0.6 else b"alpha"
    else:
        ordering = rng.choice((b"alpha", b"time", b"date"))
    limits: list[Value] = []
    if rng.random() < 0.7:
        limits += [Atom(rng.choice((b"g", b"ge", b"ge"))), Atom(rng.choice((body, near(body, rng), body[:1], b"a")))]
    if rng.random() < 0.7:
        limits += [Atom(rng.choice((b"l", b"le", b"le"))), Atom(rng.choice((body, near(body, rng), body + b"z", b"a")))]
    return (Atom(b"*"), Atom(b"range"), Atom(ordering), *limits)


def tag(rng: random.Random, depth: int = 2) -> Value:
    """A written tag of any kind. The less `depth` is, the fewer lists and sets are inside one another."""
    kind = rng.random()
    if kind < 0.05:
        return STAR
    if kind < 0.1:
        return EMPTY_SET
    if depth == 0 or kind < 0.3:
        return Atom(rng.choice(STRINGS))
    if kind < 0.5:
        return (*EMPTY_SET, *(tag(rng, depth - 1) for _ in range(rng.randrange(4))))
    return tag_for(request(rng, depth), rng, depth)


def pair(rng: random.Random) -> tuple[Value, Value]:
    """Two written tags, which mostly have a request in common."""
    if rng.random() < 0.05:
        body = rng.choice(STRINGS)
        return range_or_prefix_for(body, rng), range_or_prefix_for(body, rng)
    if rng.random() < 0.12:
        return two_sets(rng)
    common = request(rng)
    first = tag_for(common, rng)
    if rng.random() < 0.08:
        return first, first
    if rng.random() < 0.2:
        common = changed_request(common, rng)
    return first, (tag_for(common, rng) if rng.random() < 0.85 else tag(rng))


def two_sets(rng: random.Random) -> tuple[Value, Value]:
    """Two written sets. Each has, in some order, the same requests or tags for them, and by chance one more tag of any kind."""
    requests = [request(rng, depth=1) for _ in range(rng.choice((2, 2, 3, 3, 4, 12)))]
    sets = []
    for _ in range(2):
        members = [tag_for(each, rng, depth=1) if rng.random() < 0.5 else each for each in requests]
        members += [tag(rng, depth=1)] if rng.random() < 0.3 else []
        rng.shuffle(members)
        sets.append((*EMPTY_SET, *members))
    return sets[0], sets[1]


def range_or_prefix_for(body: bytes, rng: random.Random) -> Value:
    """A range that often contains a string, or a prefix: the string, one near it, or any other."""
    if rng.random() < 0.7:
        return range_for(body, rng)
    return (Atom(b"*"), Atom(b"prefix"), Atom(rng.choice((near(body, rng), rng.choice(STRINGS)))))


def changed_request(old: Value, rng: random.Random) -> Value:
    """A request that differs from the given one in one string, or by chance in none. The head of a list gets an `x` more, so that it is not `*`."""
    if isinstance(old, Atom):
        return Atom(rng.choice(STRINGS))
    at = rng.randrange(len(old))
    if at == 0:
        return (Atom(near(old[0].body, rng) + b"x"), *old[1:]) if isinstance(old[0], Atom) else old
    return (*old[:at], changed_request(old[at], rng), *old[at + 1:])


def request_near(tag: Tag, rng: random.Random) -> Value:
    """A request that a tag often contains; any for `(* set)`. If the head of a list comes out as `*`, it is that string alone."""
    if isinstance(tag, Text):
        return Atom(near(tag.body, rng))
    if isinstance(tag, AnyOf) and tag.members:
        return request_near(rng.choice(tag.members), rng)
    if isinstance(tag, Plain):
        members = [request_near(member, rng) for member in tag.members]
        members += [request(rng, depth=1) for _ in range(rng.choice((0, 0, 1)))]
        return tuple(members) if isinstance(members[0], Atom) and members[0].body != b"*" else members[0]
    if isinstance(tag, Prefix):
        return Atom(near(tag.start + rng.choice((b"", b"a", b"\xff")), rng))
    if isinstance(tag, Range):
        bodies = [limit.body for limit in (tag.low, tag.up) if limit] + STRINGS
        return Atom(near(rng.choice((bodies[0], rng.choice(bodies))), rng))
    return request(rng)
