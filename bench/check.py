#!/usr/bin/env python3
"""Times `spki check` on large cases, and prints how the time grows with the octets and how much memory it takes. A case is one text with an access
list, certificates, which signatures are valid, and a question. Each kind of case is made by a function, with at most `size` octets, for three
sizes. `group` makes a list and `string` a string, in canonical form. Times are processor times, the least of some runs.

Build the program first (`rt run` in crates/spki). Usage: bench/check.py [PROGRAM]
"""
import os
import subprocess
import sys

from memory import peak, processor_seconds

sys.path.append(os.path.join(os.path.dirname(os.path.abspath(__file__)), "..", "tests"))
from shared import PROGRAM as BUILT, group, string  # noqa: E402

PROGRAM = sys.argv[1] if len(sys.argv) > 1 else BUILT
SIZES = [64 * 1024, 256 * 1024, 1024 * 1024]
RUNS = 40
# At most so many times the time for 4 times the octets, and so many MiB.
LIMIT_RATIO, LIMIT_MEMORY = 5.0, 128


def key(name):
    """A key, whose name is its only part."""
    return group(string("public-key"), group(string("test"), string(name)))


def case(entries, request):
    """A case without certificates, in which the key `a` asks."""
    return group(
        string("case"), group(string("acl"), *entries), group(string("accepted")), group(string("sequence")),
        group(string("key"), key("a")), group(string("request"), request), group(string("at"), string("2024-01-01_00:00:00")))


def entry(name, tag):
    """An entry that grants a tag to the key of this name."""
    return group(string("entry"), key(name), group(string("tag"), tag))


STAR = group(string("*"))


def many_entries(size):
    """Returns a text and how its answer begins: a case with entries of another key, and the asking key's entry at the end."""
    empty = len(case([entry("a", STAR)], string("ftp")))
    entry_octets = len(entry("b", STAR))
    return case([entry("b", STAR)] * ((size - empty) // entry_octets) + [entry("a", STAR)], string("ftp")), b"yes entry"


def many_structures(size):
    """Returns a text and how its answer begins: a case with entries for names, for hashes and with windows, and the asking key's entry at the end."""
    date = string("2024-01-01_00:00:00")
    tag = group(string("tag"), STAR)
    three = [
        group(string("entry"), group(string("name"), key("b"), string("friends"), string("bob")), tag, group(string("propagate"))),
        group(string("entry"), group(string("hash"), string("sha256"), string("d" * 32)), group(string("comment"), string("x")), tag),
        group(string("entry"), key("b"), group(string("valid"), group(string("not-before"), date), group(string("not-after"), date)), tag),
    ]
    empty = len(case([entry("a", STAR)], string("ftp")))
    return case(three * ((size - empty) // len(b"".join(three))) + [entry("a", STAR)], string("ftp")), b"yes entry"


def many_certificates(size):
    """Returns a text and how its answer begins: a case with one certificate many times, whose signature has another digest. So the answer is `no`,
    though the list has an entry for the asking key: each certificate that is shown must be valid."""
    cert = group(string("cert"), group(string("issuer"), key("a")), group(string("subject"), key("b")), group(string("tag"), STAR))
    pair = cert + group(string("signature"), group(string("hash"), string("sha256"), string("d" * 32)), key("a"), string("sig"))

    def case_with(items):
        """A case with these items in its sequence."""
        return group(
            string("case"), group(string("acl"), entry("a", STAR)), group(string("accepted")), group(string("sequence"), *items),
            group(string("key"), key("a")), group(string("request"), string("ftp")), group(string("at"), string("2024-01-01_00:00:00")))

    return case_with([pair] * ((size - len(case_with([]))) // len(pair))), b"no"


def many_members(size):
    """Returns a text and how its answer begins: a case with a request of many members."""
    empty, member_octets = len(case([entry("a", STAR)], group(string("ftp")))), len(string("x"))
    return case([entry("a", STAR)], group(string("ftp"), *[string("x")] * ((size - empty) // member_octets))), b"yes entry 1\n"


def lists_in_lists(size):
    """Returns a text and how its answer begins: a case with a request of 60 lists in one another, again and again. With the three around them 63 are
    open at once, and the limit is 64."""
    deep = b"".join([b"(1:f"] * 60) + b")" * 60
    empty = len(case([entry("a", STAR)], group(string("ftp"))))
    return case([entry("a", STAR)], group(string("ftp"), *[deep] * ((size - empty) // len(deep)))), b"yes entry 1\n"


def one_string(size):
    """Returns a text and how its answer begins: a case with a request of one long string."""
    # (16 octets are more than the digits of the string's length need)
    empty = len(case([entry("a", STAR)], string("ftp"))) + 16
    return case([entry("a", STAR)], string(b"x" * (size - empty))), b"yes entry 1\n"


def no_value(size):
    """Returns a text and how its answer begins: empty lists in a list without an end, which is no whole value. They have the most nodes for
    the octets."""
    return b"(" + b"()" * ((size - 1) // 2), b"refused form Short\n"


def run(text, wanted, timeout=None):
    """The processor time of a decision of the text, in seconds. Ends the script if the answer does not begin with `wanted`. After `timeout` seconds
    on the clock the run is ended, and `subprocess.TimeoutExpired` is raised."""
    done, seconds = processor_seconds([PROGRAM, "check"], input=text, stdout=subprocess.PIPE, timeout=timeout)
    if not done.stdout.startswith(wanted):
        sys.exit(f"wrong answer: {done.stdout!r}, wanted {wanted!r}")
    return seconds


def main():
    """Measures all. Ends with status 1 if a limit is passed or an answer is wrong."""
    worst_ratio, worst_memory = 0.0, 0.0
    print(f"{'case':<16}" + "".join(f"{size // 1024:>9} KiB" for size in SIZES) + "   ratios      peak")
    for make in (many_entries, many_structures, many_certificates, many_members, lists_in_lists, one_string, no_value):
        times = []
        for size in SIZES:
            text, wanted = make(size)
            times.append(min(run(text, wanted) for _ in range(RUNS)))
        ratios = [after / before for before, after in zip(times, times[1:])]
        memory = peak(PROGRAM, "check", make(SIZES[-1])[0])
        worst_ratio = max([worst_ratio] + ratios)
        worst_memory = max(worst_memory, memory)
        print(f"{make.__name__:<16}" + "".join(f"{seconds * 1000:>10.1f} ms" for seconds in times)
              + "   " + " ".join(f"{ratio:.2f}" for ratio in ratios) + f"   {memory:.1f} MiB")
    print(f"largest ratio for 4 times the octets: {worst_ratio:.2f} (at most {LIMIT_RATIO})")
    print(f"largest peak: {worst_memory:.1f} MiB (at most {LIMIT_MEMORY})")
    if worst_ratio > LIMIT_RATIO or worst_memory > LIMIT_MEMORY:
        sys.exit(1)


if __name__ == "__main__":
    main()
