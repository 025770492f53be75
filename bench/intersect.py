#!/usr/bin/env python3
"""Counts the instructions of `spki intersect` on pairs of sets, and prints how they grow with the members; and the peak
memory of the answers with the most members, 998,001 or 110,224 lists of three nodes, and of one of 250 MB. `group` makes a list
and `string` a string, in canonical form.

Instructions are counted by `perf stat`, or by valgrind where that is not there; those of intersecting two strings, which
starting the program takes anyway, are taken off. Build the program first (`rt run` in crates/spki).
Usage: bench/intersect.py [PROGRAM]
"""
import os
import sys

from counting import counted, choose_counter
from memory import peak

sys.path.append(os.path.join(os.path.dirname(os.path.abspath(__file__)), "..", "tests"))
from shared import PROGRAM as BUILT, group, string  # noqa: E402

PROGRAM = sys.argv[1] if len(sys.argv) > 1 else BUILT
MEMBERS = [125, 250, 500, 999]
# For 8 times the members at most so many times the instructions; and the most MiB for an answer with the most members.
MOST_RATIO, MOST_MEMORY = 12.0, 256
# The most MiB for an answer of 250 MB: its tag has 250,001 nodes, which share the octets of one string.
MOST_LONG = 64


def set_of(members):
    """The tag of a set with these members."""
    return group(string("*"), string("set"), *members)


def prefix(octets):
    """The tag of a prefix."""
    return group(string("*"), string("prefix"), string(octets))


def intersection(one, other):
    """The text that asks for the intersection of two tags."""
    return group(string("intersect"), one, other)


def strings(n):
    """Two sets of the same n different strings, in two orders."""
    names = [string(f"n{i}") for i in range(n)]
    return set_of(names), set_of(names[::-1])


def long_strings(n):
    """Two sets of the same n different strings, which are equal for 200 octets, in two orders."""
    names = [string("x" * 200 + f"{i}") for i in range(n)]
    return set_of(names), set_of(names[::-1])


def other_strings(n):
    """Two sets of n strings, of which none is in both."""
    return set_of([string(f"a{i}") for i in range(n)]), set_of([string(f"b{i}") for i in range(n)])


def prefixes(n):
    """Two sets of the same n prefixes, in two orders. They are equally long, so that none begins with another and each has only its equal in common
    with the other set. Still all pairs are tried, since prefixes that differ may have something in common."""
    return set_of([prefix(f"n{i:04}") for i in range(n)]), set_of([prefix(f"n{i:04}") for i in range(n)][::-1])


def equal_members(member):
    """Returns a function that makes two sets, each of this member n times: the intersection of each with each is kept."""
    return lambda n: (set_of([member] * n), set_of([member] * n))


WIDEST = {
    "strings": equal_members(string("a")),
    "prefixes": equal_members(prefix("")),
    "ranges": equal_members(group(*[string(word) for word in "* range alpha ge a l z".split()])),
    "lists": equal_members(group(string("f"), string("a"))),
}


def instructions(count, one, other):
    """The instructions, counted by `count`, of the intersection of two tags."""
    return counted(count, [PROGRAM, "intersect"], intersection(one, other))


def main():
    """Measures all. Ends with status 1 if a limit is exceeded."""
    count = choose_counter()
    start = instructions(count, string("a"), string("b"))
    missed = False
    print(f"{'two sets of':<16}" + "".join(f"{n:>12}" for n in MEMBERS) + f"   times for {MEMBERS[-1] / MEMBERS[0]:.0f} times the members")
    for make in (strings, long_strings, other_strings, prefixes):
        counts = [instructions(count, *make(n)) - start for n in MEMBERS]
        ratio = counts[-1] / counts[0]
        # (of prefixes each is tried with each, which grows as the square)
        is_bounded = make is not prefixes
        missed = missed or (is_bounded and ratio > MOST_RATIO)
        verdict = ("pass" if ratio <= MOST_RATIO else "miss") if is_bounded else "all pairs"
        print(f"{make.__name__:<16}" + "".join(f"{number:>12,}" for number in counts) + f"   {ratio:.1f}   {verdict}")
    print(f"(instructions, by {count.__name__.split('_')[-1]}; at most {MOST_RATIO:.0f} times)")
    for name, make in WIDEST.items():
        # (a list has three nodes, and the product of the nodes of both tags is at most 1,000,000)
        memory = peak(PROGRAM, "intersect", intersection(*make(999 if name != "lists" else 332)))
        missed = missed or memory > MOST_MEMORY
        print(f"most members of {name:<10} {memory:>7.1f} MiB   {'pass' if memory <= MOST_MEMORY else 'miss'}")
    memory = peak(PROGRAM, "intersect", intersection(*equal_members(string("a" * 1000))(500)))
    missed = missed or memory > MOST_LONG
    print(f"members of 1,000 octets    {memory:>7.1f} MiB   {'pass' if memory <= MOST_LONG else 'miss'}")
    sys.exit(1 if missed else 0)


if __name__ == "__main__":
    main()
