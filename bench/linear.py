#!/usr/bin/env python3
"""Times `spki check` on texts whose time must be linear in their octets. `slowest.py` searches for others. Each text is a case: an access list,
certificates, a row for each signature that is valid, and a question. Mostly the key OTHER asks, which is granted nothing, so that every entry is
tried. `group` makes a list and `string` a string, in canonical form.

Each kind of text, a shape, is made for three lengths, by a function of a number of entries, a number of certificates and the most members of a set
or list, which may ignore some of them. Times are processor times, the least of some runs. The ratio for 4 times the octets is that of times or that
of instructions, whichever is less: short times differ by half from run to run, and a comparison of long octets has more instructions than its time
shows. The limits are:

- At most 1 second at 1 MiB for each text except the last, and where it takes over 0.1 seconds, at most 5 times for 4 times the octets.
- Many entries with many certificates take at most 1.5 times what the entries take with one certificate and the certificates with one entry.
- The last text is of the worst kind that is known: 16 certificates are each intersected with a tag of 331,776 strings. It is
  only measured. A guard decides it as quickly as the others, because it forms no intersection.

The exit status is 1 if a limit is exceeded or an answer is wrong.

Build the program first (`rt run` in crates/spki). Usage: bench/linear.py [PROGRAM]
"""
import subprocess
import sys
from dataclasses import dataclass
from typing import Callable

from check import PROGRAM, STAR, group, key, run, string
from counting import counted, choose_counter
from shapes import a_set, by_hashes, by_keys, certificate, definition, digest, entry, name, parts_of, through_names

SIZES = [64 * 1024, 256 * 1024, 1024 * 1024]
RUNS, ENOUGH_SECONDS, MOST_SECONDS = 7, 2.0, 120
LIMIT_SECONDS, SHORT_SECONDS, LIMIT_RATIO, LIMIT_SUM = 1.0, 0.1, 5.0, 1.5
# The certificates behind a tag of 331,776 strings.
BEHIND_LARGE = 16
# The most members of a set or list of which two have 1,000,000 as the product of their nodes, and of those that so many certificates have that with
# more members the work would be over 2,300,000,000: the case would be refused at once.
MEMBERS, MEMBERS_OF_MANY = 999, 399
OTHER = key("other")
OWNER = key("k")
FTP = group(string("ftp"))
RANGE = group(*map(string, ("*", "range", "alpha", "ge", "a", "le", "b")))
SET_OF_TWO = group(*map(string, ("*", "set", "a", "b")))


def with_signature(octets, signer, value=string("sig")):
    """A certificate, given as octets, with its signature behind it. `value` is that of the signature."""
    return octets + group(string("signature"), digest(octets), signer, value)


def case_of(entries, rows, items, asks=OTHER):
    """A case of these entries, rows of accepted signatures and items of its sequence. By default the key OTHER asks, to which nothing is granted, so
    that every entry is tried."""
    return group(
        string("case"), group(string("acl"), *entries), group(string("accepted"), *rows), group(string("sequence"), *items),
        group(string("key"), asks), group(string("request"), string("ftp")), group(string("at"), string("2024-01-01_00:00:00")))


def row(octets, signer, value=string("sig")):
    """The row that accepts a signature of a certificate."""
    return group(string("by"), signer, digest(octets), value)


def repeated(entries, cert, certificates, before=()):
    """A case of these entries. Its sequence has the certificates of `before`, and behind them the certificate `cert` as often as `certificates` says.
    The owner has signed all."""
    return case_of(entries, [row(octets, OWNER) for octets in (*before, cert)],
                   [with_signature(octets, OWNER) for octets in before] + [with_signature(cert, OWNER)] * certificates)


# Each of the next functions makes the cases of a shape.

def chain(entries, certificates, members):
    """A case of one entry and a chain of so many certificates by keys."""
    return by_keys(certificates, asks=OTHER)


def chain_of_hashes(entries, certificates, members):
    """A case of one entry and a chain of so many certificates, in which hashes name the keys."""
    return by_hashes(certificates, asks=OTHER)


def chain_of_names(entries, certificates, members):
    """A case of one entry and a chain of so many definitions of names."""
    return through_names(certificates, asks=OTHER)


def many_rows(entries, certificates, members):
    """A case of one entry and so many certificates of one key, each with a row."""
    certs = [certificate(OWNER, OWNER, group(string("*"), string("set"), string("ftp"), string(f"x{place:05}"))) for place in range(certificates)]
    return case_of([entry(OWNER)], [row(cert, OWNER) for cert in certs], [with_signature(cert, OWNER) for cert in certs])


def rows_of_one_digest(entries, certificates, members):
    """A case of one entry and one certificate so many times, each time with another signature, and a row for each of these signatures."""
    cert = certificate(OWNER, OWNER)
    values = [string(f"v{place:05}") for place in range(certificates)]
    return case_of([entry(OWNER)], [row(cert, OWNER, value) for value in values], [with_signature(cert, OWNER, value) for value in values])


def wide_lists(entries, certificates, members):
    """A case of one entry and a chain of so many certificates by keys, all for a list of `members` strings."""
    return by_keys(certificates, group(string("ftp"), *[string("x")] * (members - 1)), asks=OTHER)


def wide_sets(entries, certificates, members):
    """A case of one entry and a chain of so many certificates by keys, all for a set of `members` strings."""
    return by_keys(certificates, group(string("*"), string("set"), *[string(f"{place:03}") for place in range(members)]), asks=OTHER)


def list_of_members(entries, certificates, members):
    """A case of an entry for a list of nine tenths of `members` members, and so many times a certificate for the list of its first member, (ftp)."""
    return repeated([entry(OWNER, group(string("ftp"), *[string("x")] * (members * 9 // 10 - 1)))], certificate(OWNER, OWNER, FTP), certificates)


def entries_and_chain(entries, certificates, members):
    """A case of equal entries for the first key of a chain by keys."""
    return by_keys(certificates, entries=entries, asks=OTHER)


def entries_and_tags(entries, certificates, members):
    """A case of equal entries for (ftp), and a chain by keys for (ftp). The product of the nodes of all tags is over the limit, so the product
    alone cannot show that each intersection is within it."""
    return by_keys(certificates, FTP, entries=entries, asks=OTHER)


def entries_in_turns(entries, certificates, members):
    """A case of entries for (ftp) and for (*) in turn, and a chain by keys for (ftp). So each entry has another tag than the one before it."""
    return by_keys(certificates, FTP, entries=entries, asks=OTHER, turn=STAR)


def entries_with_own_tags(entries, certificates, members):
    """A case of entries for the first key of a chain by keys. Each entry has a tag that no other has, and that the certificates leave as it is."""
    # (its list is empty, and is replaced by one with entries)
    text = by_keys(certificates, FTP, entries=0, asks=OTHER)
    listed = [entry(key("k00000"), group(string("ftp"), string(f"x{place:05}"))) for place in range(entries)]
    return text.replace(group(string("acl")), group(string("acl"), *listed), 1)


def entries_and_names(entries, certificates, members):
    """A case of equal entries for the first name of a chain of definitions."""
    return through_names(certificates, entries=entries, asks=OTHER)


def entries_and_two_words(entries, certificates, members):
    """A case of equal entries for a name of two words, `friends friend` of the first key. The chain of definitions resolves the first word, and
    nothing defines the second. So no entry grants anything, whoever asks, and each is tried."""
    # (the list that `through_names` makes is empty here, and is replaced by one with these entries)
    text = through_names(certificates, entries=0, asks=OTHER)
    listed = [entry(name(key("k00000"), "friends", "friend"))] * entries
    return text.replace(group(string("acl")), group(string("acl"), *listed), 1)


def long_key(entries, octets, members):
    """A case of entries for a hash, each of which is compared with the key that asks, which has so many octets and a few more. The case has
    no certificates."""
    return case_of([entry(digest(OWNER))] * entries, [], [], key("k" * octets))


def long_issuer(entries, certificates, members):
    """A case of entries for the hash of a long key, and one certificate many times, from this hash to itself. The key has 148 octets for each
    certificate, so that it grows with the text."""
    long = key("k" * (148 * certificates))
    cert = certificate(digest(long), digest(long))
    return case_of([entry(digest(long))] * entries, [row(cert, long)], [long] + [with_signature(cert, digest(long))] * certificates)


def long_name(names, certificates, members):
    """A case of an entry for a subject of so many names behind a key, and one definition many times, of the first name by itself."""
    first = name(OWNER, "n")
    return repeated([entry(name(OWNER, *["n"] * names))], definition(first, first), certificates)


def large_tag(entries, certificates, members, other=string("a")):
    """A case of an entry and a certificate for the same set of `members` strings, and then `certificates` certificates for the tag `other`. With
    MEMBERS the intersection of the two sets has as many strings as the limit of nodes allows, and each further certificate is intersected with
    all of them."""
    large = a_set(string("a"), members)
    return repeated([entry(OWNER, large)], certificate(OWNER, OWNER, other), certificates, [certificate(OWNER, OWNER, large)])


def large_tag_and_range(entries, certificates, members):
    """A case of two sets whose intersection has the most strings, and many times a certificate for a range, which contains them."""
    return large_tag(entries, certificates, members, RANGE)


def large_tag_and_set(entries, certificates, members):
    """A case of two sets whose intersection has many strings, and many times a certificate for a set of two strings. The product of the nodes of all
    three is limited, and the third set has 3 nodes, so the two have fewer members."""
    return large_tag(entries, certificates, int(members / 3 ** 0.5), SET_OF_TWO)


def narrower_range(place):
    """A range that lies within that of the place before."""
    return group(*map(string, ("*", "range", "alpha", "g", f"a{10_000 + place}", "l", f"a{99_999 - place}")))


def after_large(large, tags):
    """A case of an entry and a certificate for a large tag, and certificates for these tags, all by the owner."""
    certs = [certificate(OWNER, OWNER, tag) for tag in (large, *tags)]
    return case_of([entry(OWNER, large)], [row(cert, OWNER) for cert in certs], [with_signature(cert, OWNER) for cert in certs])


def narrowed_ranges(entries, certificates, members):
    """A case of two sets whose intersection has the most ranges, and certificates for ranges, each of which lies within the one before it: so each
    changes both limits of all ranges."""
    return after_large(a_set(RANGE, members), map(narrower_range, range(certificates)))


def ranges_and_sets_of_two(entries, certificates, members):
    """A case of two sets whose intersection has many ranges, and certificates for sets of two: a range within that of the certificate before, and one
    that has nothing in common with the others. Such a set has 3 nodes, so the two have fewer members, as in `large_tag_and_set`."""
    low, high = (group(*map(string, ("*", "range", "alpha", word, "b"))) for word in ("l", "g"))
    sets = (group(string("*"), string("set"), narrower_range(place), high) for place in range(certificates))
    return after_large(a_set(low, int(members / 3 ** 0.5)), sets)


def strangers(entries, certificates, members):
    """A case of entries for other keys, each with a set of three strings of its own, and certificates that a stranger, OWNER, issues to itself."""
    tags = (group(string("*"), string("set"), *[string(f"{place:05}{number}") for number in range(3)]) for place in range(entries))
    listed = [entry(key(f"other{place:05}"), tag) for place, tag in enumerate(tags)]
    return repeated(listed, certificate(OWNER, OWNER, a_set(string("a"), 30)), certificates)


@dataclass(frozen=True)
class Shape:
    """A kind of text. `make` returns one, by a number of entries, a number of certificates and the most members of a set or list. `what` says in
    words what it is, with places for the first two numbers. `listed` is the part of a text's octets that its access list may take. `is_product`: it
    has many entries and many certificates. `members` is the number that `fitting` and `text` pass to `make`."""

    what: str
    make: Callable
    listed: float = 0.5
    is_product: bool = False
    members: int = MEMBERS

    @property
    def name(self):
        """The name of `make`."""
        return self.make.__name__

    def entries(self, octets, members):
        """The largest number of entries with which a text's list has at most `octets` octets, where a set or list has at most `members` members. The
        list does not depend on the number of certificates, so the texts that are measured have two."""
        return largest_count(lambda count: lengths_in_case(self.make(count, 2, members))[0], octets)

    def fitting(self, size):
        """The numbers of entries and certificates in a text of at most `size` octets: first as many entries as the list's part allows, and then as
        many certificates as fit into what is left, both by `largest_count`."""
        entries = self.entries(int(size * self.listed), self.members)
        # (what a case has besides its list: it does not depend on the number of entries)
        others = lengths_in_case(self.make(1, 2, self.members))[1]
        list_octets = len(self.make(entries, 2, self.members)) - others
        return entries, largest_count(lambda count: lengths_in_case(self.make(1, count, self.members))[1], size - list_octets)

    def text(self, size):
        """What the text is that has the numbers of `fitting`, in words, and the text."""
        counts = self.fitting(size)
        return self.what.format(*counts), self.make(*counts, self.members)


def largest_count(octets_of, octets):
    """The largest count for which `octets_of(count)` is at most `octets` - 16, if it grows by the same for each, mostly a lower one otherwise; 1 if
    none is so small, or it does not grow. The growth is that from 2 to 12. The 16 octets are for lengths that have more digits behind that."""
    few, many = octets_of(2), octets_of(12)
    return max(1, 2 + (octets - 16 - few) * 10 // (many - few)) if many > few else 1


def lengths_in_case(text):
    """The number of octets of a case's list, and that of all other octets of the case."""
    list_octets = len(parts_of(text)[0])
    return list_octets, len(text) - list_octets


# Those of which `service.py` asks guards.
LARGE_TAG = Shape("two sets whose intersection has 998,001 strings, {1:,} times a certificate for one string", large_tag, 0.0)
LARGE_TAG_AND_RANGE = Shape("the same sets, {1:,} times a certificate for a range with two limits", large_tag_and_range, 0.0)
LARGE_TAG_AND_SET = Shape("two sets whose intersection has 331,776 strings, {1:,} times a certificate for a set of two", large_tag_and_set, 0.0)
SHAPES = [
    Shape("1 entry, {1:,} certificates in a chain", chain, 0.0),
    Shape("1 entry, {1:,} certificates in a chain, by hashes of keys", chain_of_hashes, 0.0),
    Shape("1 entry, {1:,} definitions of names in a chain", chain_of_names, 0.0),
    Shape("1 entry, {1:,} certificates of one key", many_rows, 0.0),
    Shape("1 entry, {1:,} times one certificate, each time with another signature", rows_of_one_digest, 0.0),
    Shape("1 entry, {1:,} certificates for lists of 400 nodes", wide_lists, 0.0, members=MEMBERS_OF_MANY),
    Shape("1 entry, {1:,} certificates for sets of 400 nodes", wide_sets, 0.0, members=MEMBERS_OF_MANY),
    Shape("1 entry for a list of 900 nodes, {1:,} times a certificate for its head", list_of_members, 0.0),
    Shape("{0:,} entries for the first issuer, {1:,} certificates in a chain, all for (*)", entries_and_chain, is_product=True),
    Shape("{0:,} entries for the first issuer, {1:,} certificates in a chain, all for (ftp)", entries_and_tags, is_product=True),
    Shape("the same of {0:,} and {1:,}, every second entry for (*)", entries_in_turns, is_product=True),
    Shape("the same of {0:,} and {1:,}, each entry with a tag of its own", entries_with_own_tags, is_product=True),
    Shape("{0:,} entries for the first name, {1:,} definitions in a chain", entries_and_names, is_product=True),
    Shape("{0:,} entries for names of two words, {1:,} definitions in a chain", entries_and_two_words, is_product=True),
    Shape("{0:,} entries for a hash, an asking key of {1:,} octets", long_key),
    Shape("{0:,} entries, {1:,} times one certificate, all for the hash of one long key", long_issuer, 0.25),
    Shape("a subject of {0:,} names, {1:,} times one definition of the first by itself", long_name),
    Shape("{0:,} entries for other keys, each for a set of its own, {1:,} times a certificate for a set of 30", strangers, is_product=True),
]


def seconds_of(text):
    """The least processor seconds of RUNS runs, or of fewer once these have taken ENOUGH_SECONDS together. None if a run was ended after MOST_SECONDS
    on the clock. Ends the script if the answer is not `no`."""
    times = []
    while len(times) < RUNS and sum(times) < ENOUGH_SECONDS:
        try:
            times.append(run(text, b"no\n", MOST_SECONDS))
        except subprocess.TimeoutExpired:
            return None
    return min(times)


def time_and_print(what, text):
    """Times a text, and prints its length, its seconds and `what`, which describes it. Returns the seconds: infinity if a run took over
    MOST_SECONDS."""
    seconds = seconds_of(text)
    print(f"{len(text):>9,}  " + (f"{seconds:>8.3f} s" if seconds is not None else f"over {MOST_SECONDS} s") + f"  {what}", flush=True)
    return float("inf") if seconds is None else seconds


def faults_of(shape, count):
    """Measures a shape and prints the figures. Yields a line for each limit that it exceeds. `count` is a counter of instructions (counting.py)."""
    def instructions(text):
        """The instructions of `check` on a text."""
        return counted(count, [PROGRAM, "check"], text)

    def ratio_of(numbers):
        """The largest ratio of a number to the one before it."""
        return max(after / before for before, after in zip(numbers, numbers[1:]))

    times = [time_and_print(*shape.text(size)) for size in SIZES]
    counts = [instructions(shape.text(size)[1]) for size in SIZES]
    many, ratio = counts[-1], min(ratio_of(times), ratio_of(counts))
    print(f"{'':<9}  {ratio:>8.2f}    times for 4 times the octets", flush=True)
    if times[-1] > LIMIT_SECONDS:
        yield f"{shape.name}: {times[-1]:.2f} s (at most {LIMIT_SECONDS})"
    if ratio > LIMIT_RATIO and times[-1] > SHORT_SECONDS:
        yield f"{shape.name}: {ratio:.1f} times for 4 times the octets (at most {LIMIT_RATIO})"
    if shape.is_product:
        entries, certificates = shape.fitting(SIZES[-1])
        parts = instructions(shape.make(entries, 1, MEMBERS)) + instructions(shape.make(1, certificates, MEMBERS))
        print(f"{'':<9}  {many / parts:>8.2f}    times the entries with one certificate, and the certificates with one entry", flush=True)
        if many > LIMIT_SUM * parts:
            yield f"{shape.name}: {many / parts:.1f} times what its parts take (at most {LIMIT_SUM})"


def main():
    """Measures all. Ends with status 1 if a limit is passed."""
    print(f"{'octets':>9}  {'time':>10}  text")
    count = choose_counter()
    over = [fault for shape in SHAPES for fault in faults_of(shape, count)]
    time_and_print(LARGE_TAG_AND_SET.what.format(0, BEHIND_LARGE), large_tag_and_set(1, BEHIND_LARGE, MEMBERS))
    print("over the limits:", *over or ["none"], sep="\n")
    if over:
        sys.exit(1)


if __name__ == "__main__":
    main()
