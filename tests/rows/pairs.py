"""All pairs of sets with at most two of the tags in MEMBERS. The intersection of two sets is the set of the intersections of their members,
each with each, in the order of the first set's members and then of the second's. Empty intersections, `(* set)`, are left out."""
from itertools import product

MEMBERS = (b"a", b"ab", b"(* prefix a)", b"(* range alpha ge ab)", b"(f)", b"(f a)", b"(g (* set a b))")
NOTHING = b"(* set)"


def sets():
    """The members of each set, as a tuple of written tags: none, one or two."""
    return [()] + [(member,) for member in MEMBERS] + list(product(MEMBERS, MEMBERS))


def written(members):
    """A set with these members, as it is written."""
    return b"(" + b" ".join((b"*", b"set") + members) + b")"


def normal_form(members):
    """A set with these members, none of them a set, as it is written in normal form: a set of one member is that member."""
    return members[0] if len(members) == 1 else written(members)


def intersection(first, second):
    """The text that asks for the intersection of two tags."""
    return b"(intersect " + first + b" " + second + b")"


def rows(start):
    """Yields (place, command, text, status, answer) of each pair of sets. The expected answer is composed of what the program answers to each pair of
    members. `start` starts `intersect` on a text, and returns a future of its status and answer."""
    started = {pair: start(intersection(*pair)) for pair in product(MEMBERS, MEMBERS)}
    by_pair = {pair: run.result()[1].rstrip(b"\n") for pair, run in started.items()}
    for first, second in product(sets(), sets()):
        common = tuple(by_pair[pair] for pair in product(first, second) if by_pair[pair] != NOTHING)
        text = intersection(written(first), written(second))
        yield f"pairs: {text.decode()}", "intersect", text, 0, normal_form(common) + b"\n"
