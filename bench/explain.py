#!/usr/bin/env python3
"""Counts the instructions of `spki explain` on cases, texts with an access list, certificates and a question, and shows what `reduce` may write. The
limits are:

- On cases of one entry, at most 4 times the instructions of `check`, which intersects no tags there, and at most 128 MiB of memory.
- On many entries with many certificates, at most 1.5 times the number of entries times what one entry takes with the certificates: each is folded.
- `reduce` of a text of 1 MiB, of which half is the key that stands in each line: at most 32 MiB of memory.

Build the program first (`rt run` in crates/spki). Usage: bench/explain.py [PROGRAM]
"""
import subprocess
import sys

from chains import LENGTHS, MOST_OCTETS, by_hashes, by_keys, case, certificate, entry, keys_of, through_names, widest
from check import LIMIT_MEMORY, PROGRAM, group, key, string
from counting import counted, choose_counter
from memory import used
from linear import LIMIT_SUM, MEMBERS, SHAPES, SIZES

LIMIT_RATIO = 4
LIMIT_OF_KEYS = 32
# The members of a set of which two have 1,000,000 as the product of their nodes.
COPIES = 999


def measure_one_entry(count):
    """The largest ratio of the instructions of `explain`, by the counter `count`, to those of `check` on one entry, and the most MiB.
    Prints a line for each case."""
    # (the first case is denied, and the other two are granted)
    texts = [("a chain by keys", by_keys(LENGTHS[-1], asks=key("other"))), ("a chain by hashes", by_hashes(LENGTHS[-1])),
             ("a chain through names", through_names(LENGTHS[-1]))]
    # (the first of `widest` has many entries)
    _, *of_one_entry = widest()
    texts += [(what, text) for what, text, _ in of_one_entry]
    worst, most = 0.0, 0.0
    for what, text in texts:
        of_check, of_explain = (counted(count, [PROGRAM, command], text) for command in ("check", "explain"))
        seconds, memory = used(PROGRAM, "explain", text)
        print(f"{what:<44}{of_check:>16,}{of_explain:>16,}   {of_explain / of_check:.2f}   {seconds:.2f} s   {memory:.1f} MiB", flush=True)
        worst, most = max(worst, of_explain / of_check), max(most, memory)
    return worst, most


def measure_many_entries(count):
    """Prints a line for each shape of case (linear.py) with many entries and many certificates. Returns the largest ratio of the instructions of
    `explain` on many entries, by the counter `count`, to the number of entries times those on one entry. The cases with many have about SIZES[0]
    octets."""
    worst = 0.0
    for shape in (shape for shape in SHAPES if shape.is_product):
        entries, certificates = shape.fitting(SIZES[0])
        many, one = (counted(count, [PROGRAM, "explain"], shape.make(number, certificates, MEMBERS)) for number in (entries, 1))
        print(f"{many:>16,}   {many / one / entries:.2f} times as many of one entry   {shape.what.format(entries, certificates)}", flush=True)
        worst = max(worst, many / one / entries)
    return worst


def largest_reductions(entries):
    """A case whose entries are each reduced to a tag of 998,001 strings: each of two sets has 999 equal ones."""
    tag = group(string("*"), string("set"), *[string("a")] * COPIES)
    keys = keys_of(1)
    return case([entry(keys[0], tag)] * entries, [(certificate(keys[0], keys[1], tag), keys[0])], asks=keys[1])


def print_reductions():
    """Prints what `reduce` takes and writes for some of the largest entries, and how many fit into a text."""
    entry_octets = len(largest_reductions(2)) - len(largest_reductions(1))
    fit = (MOST_OCTETS - len(largest_reductions(0))) // entry_octets
    # (an entry's line has `a` and a space for each string, and some 70 octets more)
    line_octets = COPIES * COPIES * 2 + 70
    for entries in (1, 2, 4):
        text = largest_reductions(entries)
        seconds, memory = used(PROGRAM, "reduce", text)
        written = len(subprocess.run([PROGRAM, "reduce"], input=text, stdout=subprocess.PIPE, check=True).stdout)
        print(f"{entries} such entries, {len(text)} octets: {written} octets written in {seconds:.2f} s with {memory:.0f} MiB")
    print(f"{fit} such entries fit into {MOST_OCTETS} octets: {fit * line_octets} octets to be written")


def most_memory_with_long_keys():
    """The most memory in MiB that `reduce` takes for two texts of 1 MiB. Each has a certificate for a key of half the text, which has one string or
    very many, and as many entries as fit, so that the key is in each line that is written. Prints a line for each text. Raises CalledProcessError if
    `reduce` refuses one."""
    most = 0.0
    issuer, other = keys_of(1)
    # (about half the text: 100 octets are for what is around the string, and an empty string has two octets)
    for parts in ([string(b"\x01" * (MOST_OCTETS // 2 - 100))], [string("")] * 250_000):
        links = [(certificate(issuer, group(string("public-key"), group(string("rsa"), *parts))), issuer)]
        entry_octets = len(case([entry(issuer)], links, asks=other)) - len(case([], links, asks=other))
        entries = (MOST_OCTETS - len(case([], links, asks=other))) // entry_octets
        text = case([entry(issuer)] * entries, links, asks=other)
        # (`used` measures a refusal too)
        subprocess.run([PROGRAM, "reduce"], input=text, stdout=subprocess.DEVNULL, check=True)
        seconds, memory = used(PROGRAM, "reduce", text)
        print(f"{entries:,} entries and a certificate for a key of {len(parts):,} strings: {seconds:.2f} s, {memory:.0f} MiB", flush=True)
        most = max(most, memory)
    return most


def main():
    """Measures all. Ends with status 1 if a limit is passed."""
    count = choose_counter()
    worst, most = measure_one_entry(count)
    print(f"largest ratio of explain to check: {worst:.2f} (at most {LIMIT_RATIO}); most memory {most:.1f} MiB")
    ratio_of_many = measure_many_entries(count)
    print(f"largest ratio of many entries to as many of one: {ratio_of_many:.2f} (at most {LIMIT_SUM})")
    print_reductions()
    most_with_keys = most_memory_with_long_keys()
    print(f"most memory where a long key stands in each line: {most_with_keys:.1f} MiB (at most {LIMIT_OF_KEYS})")
    if worst > LIMIT_RATIO or most > LIMIT_MEMORY or ratio_of_many > LIMIT_SUM or most_with_keys > LIMIT_OF_KEYS:
        sys.exit(1)


if __name__ == "__main__":
    main()
