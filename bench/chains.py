#!/usr/bin/env python3
"""Times `spki check` on long chains of certificates and on wide texts, and beside `openssl`. Each text is a case: an access list, certificates and a
question in one. `group` makes a list and `string` a string, in canonical form. `linear.py` has slower texts. Times are processor times, the least
of some runs, and of a wide text that of one run.

Build the program first (`rt run` in crates/spki). Usage: bench/chains.py [PROGRAM]
"""
import subprocess
import sys

from check import LIMIT_MEMORY, LIMIT_RATIO, PROGRAM, group, key, run, string
from memory import peak, processor_seconds
from shapes import a_set, by_hashes, by_keys, case, certificate, entry, keys_of, through_names

# The certificates of the chains, each about four times as many as before, and how often each chain is decided.
LENGTHS = [94, 375, 1500]
RUNS = 30
LIMIT_SECONDS = 1.0
MOST_OCTETS = 1024 * 1024
# The strings in a tag of the widest cases. With twice as many the work of a case would be over 2,300,000,000: it would be refused at once.
STRINGS = 399


def measure_growth():
    """Prints the times and the most memory of long chains. Returns the largest ratio of the time of a chain to that of one with a quarter of its
    certificates. Ends the script if the peak is too high."""
    worst = 0.0
    print(f"{'chain':<16}" + "".join(f"{length:>9} certs" for length in LENGTHS) + "   ratios      peak")
    for make in (by_keys, by_hashes, through_names):
        texts = [make(length) for length in LENGTHS]
        rounds = [[run(text, b"yes entry 1\n") for text in texts] for _ in range(RUNS)]
        times = [min(taken) for taken in zip(*rounds)]
        ratios = [after / before for before, after in zip(times, times[1:])]
        memory = peak(PROGRAM, "check", texts[-1])
        print(f"{make.__name__:<16}" + "".join(f"{seconds * 1000:>12.1f} ms" for seconds in times)
              + "   " + " ".join(f"{ratio:.2f}" for ratio in ratios) + f"   {memory:.1f} MiB")
        worst = max([worst] + ratios)
        if memory > LIMIT_MEMORY:
            sys.exit(f"a peak of over {LIMIT_MEMORY} MiB")
    return worst


def widest():
    """Yields (what it is, text, its answer): cases of at most 1 MiB with many entries, or with certificates for large tags."""
    # (1,024, 8 * 1,024 and 16 * 1,024 octets are more than what a case has besides)
    entry_octets = len(entry(key("k00000")))
    certificate_octets = len(by_keys(2)) - len(by_keys(1))
    half = MOST_OCTETS // 2
    certificates, entries = (half - 1024) // certificate_octets, half // entry_octets
    yield f"{entries} entries times {certificates} certificates", by_keys(certificates, entries=entries, asks=key("other")), b"no\n"
    tag = group(string("ftp"), *[string("x")] * (STRINGS - 1))
    certificate_octets = len(by_keys(2, tag)) - len(by_keys(1, tag))
    certificates = (MOST_OCTETS - 8 * 1024) // certificate_octets
    yield f"{certificates} lists of {STRINGS + 1} nodes", by_keys(certificates, tag, asks=key("other")), b"no\n"
    tag = group(string("*"), string("set"), *[string(f"{place:03}") for place in range(STRINGS)])
    certificate_octets = len(by_keys(2, tag)) - len(by_keys(1, tag))
    certificates = (MOST_OCTETS - 16 * 1024) // certificate_octets
    yield f"{certificates} sets of {STRINGS + 1} nodes", by_keys(certificates, tag, asks=key("other")), b"no\n"


def behind_a_large_tag(more, tag):
    """A case of an entry and a certificate whose tags have an intersection of 998,001 strings of one octet, and behind it `more` certificates
    with `tag`. tests/suite/test_hostile.py alone asks it."""
    large = a_set(string("a"))
    keys = keys_of(more + 1)
    links = [(certificate(keys[0], keys[1], large), keys[0])]
    links += [(certificate(issuer, subject, tag), issuer) for issuer, subject in zip(keys[1:], keys[2:])]
    return case([entry(keys[0], large)], links, asks=key("other"))


def large_tags():
    """Yields (what it is, text): cases of at most 1 MiB in which the intersection of an entry's and a certificate's tag has the most nodes, or the
    longest strings."""
    def case_of_tags(one, other):
        """A case in which these tags of an entry and a certificate are intersected."""
        first, second = keys_of(1)
        return case([entry(first, one)], [(certificate(first, second, other), first)], asks=key("other"))

    # (999 members of a node, 332 of three and 499 of two have at most 1,000 nodes with the set: the product of two such numbers is at most the limit,
    # 1,000,000. The strings are so long that two such tags have less than 1 MiB. A tag may have 57 lists in one another)
    strings = a_set(string("a" * 500))
    yield "long strings", case_of_tags(strings, strings)
    prefixes = a_set(group(string("*"), string("prefix"), string("a" * 1000)))
    ranges = a_set(group(string("*"), string("range"), string("alpha")))
    yield "ranges of long prefixes", case_of_tags(prefixes, ranges)
    yield "long prefixes of ranges", case_of_tags(ranges, prefixes)
    low, up = string("a" * 230), string("b" * 230)
    limited = a_set(group(string("*"), string("range"), string("alpha"), string("ge"), low, string("le"), up))
    yield "ranges with long limits", case_of_tags(limited, limited)
    lists = a_set(group(string("a" * 1500), string("b")), 332)
    yield "lists with long heads", case_of_tags(lists, lists)
    nested = string("b")
    for _ in range(55):
        nested = group(string("a"), nested)
    yield "lists in lists", case_of_tags(a_set(group(string("a")), 499), group(string("a"), *[nested] * 8))


def measure_beside_openssl():
    """The seconds of a decision by three certificates, and those of the SHA-256 of the same octets by `openssl`, each a process and the least of 50
    runs."""
    text = by_keys(3)
    decision_seconds = min(run(text, b"yes entry 1\n") for _ in range(50))
    words = ["openssl", "dgst", "-sha256"]
    digest_seconds = min(processor_seconds(words, input=text, stdout=subprocess.DEVNULL, check=True)[1] for _ in range(50))
    return decision_seconds, digest_seconds


def main():
    """Measures all. Ends with status 1 if a limit is exceeded or an answer is wrong. Of large tags only the memory counts, whatever the answer."""
    worst = measure_growth()
    print(f"largest ratio for 4 times the certificates: {worst:.2f} (at most {LIMIT_RATIO})")
    slowest = most = 0.0
    for what, text, wanted in widest():
        seconds = run(text, wanted)
        memory = peak(PROGRAM, "check", text)
        slowest, most = max(slowest, seconds), max(most, memory)
        print(f"{what}, {len(text)} octets: {seconds:.2f} s, {memory:.1f} MiB")
    print(f"longest of the wide texts: {slowest:.2f} s (at most {LIMIT_SECONDS})")
    for what, text in large_tags():
        memory = peak(PROGRAM, "check", text)
        print(f"a large tag of {what}, {len(text)} octets: {memory:.1f} MiB")
        most = max(most, memory)
    decision, digest = measure_beside_openssl()
    print(f"a chain of three certificates: {decision * 1000:.2f} ms, openssl {digest * 1000:.2f} ms, ratio {decision / digest:.2f}")
    print(f"most memory of a wide text or large tags: {most:.1f} MiB (at most {LIMIT_MEMORY})")
    if worst > LIMIT_RATIO or slowest > LIMIT_SECONDS or most > LIMIT_MEMORY:
        sys.exit(1)


if __name__ == "__main__":
    main()
