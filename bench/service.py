#!/usr/bin/env python3
"""Measures what a service does with a guard, through the library for C, and ends with status 1 where a limit is passed. Most texts are cases:
an access list, certificates, which signatures are valid, and a question. `group` makes a list and `string` a string, in canonical form. A `driver`
runs the program of service.c, which calls the library.

- A question without certificates and one with three, opened and decided, on lists of 10,000 entries for keys and for hashes, beside a list of
  one.
- Opening a guard of 1 MiB, beside a decision of a case of the same list.
- A decision by three certificates from the text of a case, and one through a guard beside libmacaroons' verification of a macaroon with three
  caveats: with the question opened for it, and opened before. Where libmacaroons is not there (Debian: libmacaroons-dev) this is left out.
- A question that is opened, listed and decided, beside the digests of its certificates.
- The memory that is kept of questions of 1 MiB that were opened, and the most that is taken meanwhile, beside their octets, and the time, at
  the highest limits.
- With a limit of 64 KiB for a question, the time and the memory of decisions, explanations and reductions of the widest questions that are
  known, with lists of up to 1 MiB. The limits on nodes, work and answers are those that a guard without limits has.
- A decision through the bindings for Rust and Python, beside the calls in C. Where `cargo` is not there Rust is left out.
- The questions that 8 threads open and decide, each with a guard of its own, beside those of one, as on four free cores: how many cores are
  free is how far 8 threads count beside one. A thread that decides must not wait for another one.

The first four and Rust are compared by instructions. Where neither perf nor valgrind is there they are left out, and the digests and Rust where
valgrind is not. `.ci/deep` reads the lines that say so, which end with `is left out` or `are left out`. The questions are compared by processor time.
Other programs only add to a time. So each time is the least of some turns, and while it is over its limit, of more turns with pauses. Only the time
to open a question of 1 MiB is taken once.
All ratios are taken in one run. Build the library first (crates/spki_c/archive.py).
Usage: bench/service.py [LIBRARY]
"""
import os
import shutil
import subprocess
import sys
import tempfile
import time

from chains import MOST_OCTETS, large_tags
from check import group, key, string
from counting import can_count, choose_counter, count_one_call, counted_allocations, counted_by_valgrind, counted_inside, counted_with_cache
from macaroons import DECIDE_ONLY, MACAROON, OPEN_AND_DECIDE, build, measure, written_parts
from shapes import by_keys, case, certificate, definition, digest, entry, keys_of, name, parts_of
from linear import (LARGE_TAG, LARGE_TAG_AND_RANGE, LARGE_TAG_AND_SET, SHAPES, Shape, large_tag, largest_count, long_issuer,
                    narrowed_ranges, ranges_and_sets_of_two, wide_sets)

sys.path.append(os.path.join(os.path.dirname(os.path.abspath(__file__)), "..", "tests"))
from shared import BENCH, LIBRARY, TOP, braced, canonical, read  # noqa: E402

FLAGS = ["-std=c11", "-O2", "-Wall", "-Wextra", "-Wpedantic", "-Werror", "-pthread"]
ENTRIES = 10_000
THREADS, CORES = 8, 4
# Of a time through Python: the rounds of which the least counts, and the calls of each.
ROUNDS, CALLS = 40, 50
# How often a time is taken, at least and at most, and the seconds of a pause.
TURNS, MOST_TURNS, PAUSE = 3, 20, 10
# The limits of a guard for strangers' questions: octets, and the members of two sets or lists whose product of nodes is 10,000.
QUESTION_OCTETS, QUESTION_MEMBERS = 65_536, 99
# The certificates that a guard takes whose caller sets no limits.
USUAL_CERTIFICATES = 16
# The most seconds of a run of service.c.
SECONDS = 600
# The function that digests by SHA-256.
DIGEST = "sha2::block256::Core256::update"
# How many freed blocks of each size glibc keeps for a thread; 7 unless it is told.
CACHES = (0, 7, 16, 64)
MOST = {"10,000 keys, no certificate": 1.5, "10,000 keys, three certificates": 1.5, "10,000 hashes, no certificate": 1.5,
        "10,000 hashes, three certificates": 1.5, "opening 1 MiB": 1.2, "instructions of a case": 96_000, "three caveats": 1.0,
        "three caveats, opened before": 0.05, "by the digests": 5.0, "Rust": 1.01, "blocks more through Rust": 0.0, "Python, µs more": 11.0,
        "memory kept of a question by its octets": 3.0, "memory while it is opened": 40.0, "memory while sets of empty strings are opened": 62.0,
        "opening a question of 1 MiB, ms": 500.0, "a decision, ms": 100.0, "a decision, MiB": 16.0, "a decision by default, ms": 100.0,
        "an explanation or a reduction, ms": 200.0, "an explanation or a reduction, MiB": 16.0,
        "waits of 1,000 decisions": 1.0}
LEAST = {"threads": 3.5}
# The C library gives a block of 128 KiB or more pages of its own, also after it has freed one.
APART = {"GLIBC_TUNABLES": "glibc.malloc.mmap_threshold=131072"}
# What the library's statuses say.
ANSWERS = {1: "no", 2: "refused", 6: "done", 9: "yes"}


class Driver:
    """The program of service.c, in a folder that has it and the texts that it reads."""

    def __init__(self, folder, library):
        """Builds the program in `folder`, with the library at the path `library`. Ends the script if it does not compile."""
        self.folder, self.program, self.library = folder, os.path.join(folder, "service"), library
        words = ["cc", *FLAGS, "-I", os.path.join(TOP, "crates", "spki_c"), "-o", self.program, os.path.join(BENCH, "service.c"), library]
        if subprocess.run(words).returncode:
            sys.exit(f"bench/service.c does not compile with {library}, which crates/spki_c/archive.py builds")

    def write(self, name, octets):
        """Writes a file with these octets, and returns its path."""
        path = os.path.join(self.folder, name)
        with open(path, "wb") as file:
            file.write(octets)
        return path

    def write_question(self, name, text):
        """Writes a file with the parts of a case, as question.h reads it, and returns its path."""
        return self.write(name, written_parts(text))

    def instructions(self, way, path, calls=100):
        """The instructions of one call by a way of service.c (`ask`, `reopen` or `answer`) on a file: the mean of `calls` calls."""
        return count_one_call(choose_counter(), [self.program, way, path], calls)

    def build_opening(self):
        """Builds opening.c, which counts memory, and returns the path of the program. Raises CalledProcessError if it does not compile."""
        program = os.path.join(self.folder, "opening")
        words = ["cc", *FLAGS, "-Wl,--wrap=malloc,--wrap=realloc,--wrap=free", "-I", os.path.join(TOP, "crates", "spki_c"), "-o", program]
        subprocess.run([*words, os.path.join(BENCH, "opening.c"), self.library], check=True)
        return program

    def run(self, *words):
        """Runs service.c with these words, and returns the numbers that it prints. Ends the script if it fails. Raises TimeoutExpired after
        SECONDS. Large blocks of memory lie apart, so that the pages in use do not depend on the gaps that earlier blocks left."""
        done = subprocess.run([self.program, *map(str, words)], stdout=subprocess.PIPE, text=True, timeout=SECONDS, env={**os.environ, **APART})
        if done.returncode:
            sys.exit(f"service {' '.join(map(str, words))}: status {done.returncode}")
        return [float(number) for number in done.stdout.split()]


def by_key(owner):
    """The subject of an entry for a key: the key itself. (`digest` makes the other subject, which is its hash.)"""
    return owner


def case_without_certificates(entries, subject_of):
    """A case of so many entries, of which the last is that of the key that asks. `subject_of` makes the subject for a key."""
    return case([*other_entries(entries - 1, subject_of), entry(subject_of(key("k00000")))], [], asks=key("k00000"))


def case_with_three(entries, subject_of=by_key):
    """A case of so many entries and three certificates. The last entry is that of the first issuer, and the subject of the last certificate asks.
    `subject_of` makes the subject of an entry for a key."""
    keys = keys_of(3)
    links = [(certificate(issuer, subject), issuer) for issuer, subject in zip(keys, keys[1:])]
    return case([*other_entries(entries - 1, subject_of), entry(subject_of(keys[0]))], links, asks=keys[-1])


def other_entries(count, subject_of=by_key):
    """So many entries of keys that do not ask. `subject_of` makes the subject for a key."""
    return [entry(subject_of(key(f"other{place:06}"))) for place in range(count)]


# Each of the parts below yields pairs: the name of a limit in MOST or LEAST, and the measured value.

def many_entries(driver):
    """Yields (name of a limit, ratio): the instructions of questions opened and decided with 10,000 entries to those with one."""
    for subjects, subject_of in (("keys", by_key), ("hashes", digest)):
        for what, make in (("no certificate", case_without_certificates), ("three certificates", case_with_three)):
            few, many = (driver.instructions("ask", driver.write_question("entries", make(count, subject_of))) for count in (1, ENTRIES))
            print(f"{what}: 1 entry {few:,.0f} instructions, {ENTRIES:,} {subjects} {many:,.0f}", flush=True)
            yield f"10,000 {subjects}, {what}", many / few


def opening_a_list(driver):
    """Yields (name of a limit, ratio): the instructions of opening a list of 1 MiB to those of a decision of a case of it. The decision passes
    over the entries of other keys by their subjects, and makes no index."""
    empty = len(case([], [], asks=key("a")))
    text = case(other_entries((MOST_OCTETS - empty) // len(other_entries(1)[0])), [], asks=key("a"))
    # (two calls are enough: each reads 1 MiB)
    opening = driver.instructions("reopen", driver.write("list", parts_of(text)[0]), calls=2)
    checking = driver.instructions("answer", driver.write("case", text), calls=2)
    print(f"opening a list of {len(parts_of(text)[0]):,} octets {opening:,.0f} instructions, SPKI_CHECK on a case of it {checking:,.0f}", flush=True)
    yield "opening 1 MiB", opening / checking


def decision_from_text(driver):
    """Yields (name of a limit, instructions) of a decision by three certificates from the text of a case."""
    yield "instructions of a case", driver.instructions("answer", driver.write("case", by_keys(3)))


def beside_macaroons(driver):
    """Yields (name of a limit, ratio of instructions): a decision by three certificates to the verification of a macaroon. First the question is open
    already, then it is opened too. The times in µs are only printed. Yields nothing if libmacaroons is not there."""
    words = build(driver.folder, driver.library)
    if words is None:
        print("libmacaroons is not there (Debian: libmacaroons-dev): the decision beside a macaroon is left out")
        return
    _, decide_time, macaroon_time, whole_time = measure(words)
    print(f"three certificates through a guard {decide_time:.1f} µs, with the question opened {whole_time:.1f} µs, "
          f"a macaroon with three caveats {macaroon_time:.1f} µs")
    decide_only, open_and_decide, verification = (
        count_one_call(choose_counter(), [*words, way]) for way in (DECIDE_ONLY, OPEN_AND_DECIDE, MACAROON))
    print(f"in instructions {decide_only:,.0f}, {open_and_decide:,.0f} and {verification:,.0f}", flush=True)
    yield "three caveats, opened before", decide_only / verification
    yield "three caveats", open_and_decide / verification


def beside_digests(driver):
    """Yields (name of a limit, ratio): a question by three certificates, opened, listed and decided, to the digests in it. Yields nothing without
    valgrind."""
    path = driver.write_question("three", case_with_three(1))
    if shutil.which("valgrind") is None:
        print("valgrind is not there (Debian: valgrind): the digests are left out")
        return
    whole, digests = (count_one_call(count, [driver.program, "ask", path]) for count in (counted_by_valgrind, counted_inside(DIGEST)))
    print(f"a question opened, listed and decided {whole:,.0f} instructions, its digests {digests:,.0f}", flush=True)
    yield "by the digests", whole / digests


def build_in_rust(driver):
    """Builds service.rs, and returns the path of the program. Raises CalledProcessError if it does not compile."""
    crate = os.path.join(driver.folder, "rust")
    os.makedirs(crate)
    with open(os.path.join(crate, "Cargo.toml"), "w", encoding="utf-8") as file:
        file.write(f"""[package]
name = "service"
version = "0.0.0"
edition = "2021"

[[bin]]
name = "service"
path = "{BENCH}/service.rs"

[dependencies]
spki = {{ path = "{TOP}/bindings/rust" }}
""")
    settings = {**os.environ, "SPKI_LIB_DIR": os.path.dirname(driver.library), "CARGO_TARGET_DIR": os.path.join(crate, "target")}
    subprocess.run(["cargo", "build", "--quiet", "--release", "--offline"], cwd=crate, env=settings, check=True)
    return os.path.join(crate, "target", "release", "service")


def through_rust(driver):
    """Yields (name of a limit, value): the ratio of a question opened, listed and decided through Rust to the same in C, and how many blocks of
    memory it takes more. Yields nothing without `cargo` or valgrind. The same blocks cost up to 3 percent more or less as the C library keeps few or
    many that were freed. So the mean for several numbers of them is taken."""
    if shutil.which("cargo") is None or shutil.which("valgrind") is None:
        print("cargo or valgrind is not there (Debian: cargo, valgrind): the decision through Rust is left out")
        return
    path = driver.write_question("three", case_with_three(1))
    ways = [[driver.program, "ask", path], [build_in_rust(driver), path]]
    in_c, in_rust = (sum(count_one_call(counted_with_cache(blocks), words) for blocks in CACHES) / len(CACHES) for words in ways)
    blocks_in_c, blocks_in_rust = (count_one_call(counted_allocations, words) for words in ways)
    print(f"a question opened, listed and decided: in C {in_c:,.0f} instructions and {blocks_in_c:.0f} blocks, through Rust {in_rust:,.0f} and "
          f"{blocks_in_rust:.0f}", flush=True)
    yield "Rust", in_rust / in_c
    yield "blocks more through Rust", blocks_in_rust - blocks_in_c


def by_instructions(driver):
    """Yields (name of a limit, measured value) of all parts that compare instructions. Yields nothing, and prints why, if neither perf nor
    valgrind is there."""
    if not can_count():
        print("valgrind is not there (Debian: valgrind): what is compared by instructions is left out")
        return
    for part in (many_entries, opening_a_list, decision_from_text, beside_macaroons, beside_digests, through_rust):
        yield from part(driver)


def turns(is_limit_kept):
    """Yields the numbers of the turns in which the caller takes a time: TURNS, and then more after pauses, until `is_limit_kept` returns true or
    there were MOST_TURNS."""
    for turn in range(MOST_TURNS):
        if turn >= TURNS:
            if is_limit_kept():
                return
            time.sleep(PAUSE)
        yield turn


def time_through_python(driver, text):
    """The µs of a decision through Python, with all signatures valid: the least mean of a round. `text` is a case whose question is granted. Ends the
    script if it is not. Sets SPKI_LIBRARY, which the first import of `spki` reads: so that import is here."""
    os.environ["SPKI_LIBRARY"] = driver.library.removesuffix(".a") + ".so"
    sys.path.insert(1, os.path.join(TOP, "bindings", "python"))
    import spki
    acl, sequence, asker, request, moment = parts_of(text)
    least = float("inf")
    with spki.Guard(acl) as guard:
        question = spki.Question(sequence, spki.ProvenKey.assume(asker), text=request, moment=moment)
        for _ in range(ROUNDS):
            begun = time.perf_counter()
            for _ in range(CALLS):
                if not guard.decide(question, lambda _: True):
                    sys.exit("wrong answer through Python")
            least = min(least, (time.perf_counter() - begun) / CALLS)
    return least * 1e6


def through_python(driver):
    """Yields (name of a limit, µs): what a decision through Python takes more than the two calls in C."""
    what, text = "Python, µs more", case_with_three(1)
    path, in_c, in_python = driver.write_question("three", text), [], []
    for _ in turns(lambda: min(in_python) - min(in_c) <= MOST[what]):
        # (two times: of listing the signatures, and of a decision)
        in_c.append(sum(driver.run("decide", path)))
        in_python.append(time_through_python(driver, text))
    print(f"signatures listed and a decision: in C {min(in_c):.1f} µs, through Python {min(in_python):.1f} µs", flush=True)
    yield what, min(in_python) - min(in_c)


def octets_of_question(text):
    """The number of octets of a case's question: of all parts but the list, which the service has."""
    return sum(map(len, parts_of(text)[1:]))


def widest_of(shape, most_certificates=MOST_OCTETS):
    """What the widest case of a shape is, in words, and the case: its list has at most 1 MiB, and its question at most 64 KiB and `most_certificates`
    certificates, besides the one for a large tag in the shapes that have such a tag."""
    entries = shape.entries(MOST_OCTETS, QUESTION_MEMBERS)
    certificates = min(most_certificates, largest_count(lambda count: octets_of_question(shape.make(1, count, QUESTION_MEMBERS)), QUESTION_OCTETS))
    return f"{shape.name}, {entries:,} and {certificates:,}", shape.make(entries, certificates, QUESTION_MEMBERS)


def ten_large_sets(entries, certificates, members):
    """The case of `large_tag`, but with ten entries for the first issuer in place of one, each with a set of its own. `entries` has no effect."""
    # (the access list is the member behind the head of a case)
    value = read(large_tag(1, certificates, members))
    sets = [group(string("*"), string("set"), string(f"b{place}"), *[string("a")] * (members - 1)) for place in range(10)]
    value[1] = read(group(string("acl"), *[entry(key("k"), tag) for tag in sets]))
    return canonical(value)


def measure_answer(driver, kind, path, enough):
    """The quickest of some runs that answer the question of a file: its status, the milliseconds, those of them that list the signatures, and
    the MiB. `kind` is `decide`, `explain` or `reduce`. More runs are made, up to MOST_TURNS, until one takes at most `enough` milliseconds."""
    runs = []
    for _ in turns(lambda: min(took for _, took, *_ in runs) <= enough):
        runs.append(driver.run("widest", kind, path))
    return min(runs, key=lambda run: run[1])


def measure_question(driver, what, text):
    """Measures the answers to a question, and prints what they take. Returns a dictionary of their milliseconds and MiB, by `decide`, `explain` and
    `reduce`. `what` says in words what the case `text` is."""
    path = driver.write_question("wide", text)
    list_octets, question_octets = len(parts_of(text)[0]), octets_of_question(text)
    print(f"{what}: list of {list_octets:,} octets, question of {question_octets:,}")
    costs = {}
    for kind in ("decide", "explain", "reduce"):
        limit = MOST["a decision, ms" if kind == "decide" else "an explanation or a reduction, ms"]
        status, milliseconds, listing, mebibytes = measure_answer(driver, kind, path, limit)
        costs[kind] = milliseconds, mebibytes
        print(f"    {kind}: {ANSWERS[status]}, {milliseconds:.1f} ms, of which {listing:.1f} list the signatures, {mebibytes:.1f} MiB", flush=True)
    return costs


def key_of_lists(entries, lists):
    """A case of entries for the first issuer, and a certificate for a key with so many lists. A reduction has this key in the line of each entry:
    once all these lines were made, also those behind the limit of the answer, and that took 13 s."""
    issuer = keys_of(0)[0]
    subject = group(string("public-key"), group(string("test"), *[group(string("a"))] * lists))
    return case([entry(issuer)] * entries, [(certificate(issuer, subject), issuer)], asks=subject)


def only_entry(*parts):
    """A case of one entry, which has these further fields, each as nested lists of octets (`read` returns such). Its key asks."""
    fields = read(entry(keys_of(0)[0]))
    fields.extend(parts)
    return case([canonical(fields)], [], asks=keys_of(0)[0])


def entry_for_parts(count):
    """A case of one entry, for a key with so many empty strings."""
    owner = group(string("public-key"), group(string("test"), *[string("")] * count))
    return case([entry(owner)], [], asks=keys_of(0)[0])


def entry_for_name(count):
    """A case of one entry, for a name of so many strings."""
    return case([entry(name(keys_of(0)[0], *["n"] * count))], [], asks=keys_of(0)[0])


def full_list(tag):
    """A case with a list of 1 MiB: as many entries for a tag as can be, all for the shortest key, which asks."""
    asker = group(string("public-key"), group(string("a")))
    one_entry = group(string("entry"), asker, group(string("tag"), tag))
    return case([one_entry] * ((MOST_OCTETS - len(group(string("acl")))) // len(one_entry)), [], asks=asker)


def lists_of_strings(members):
    """(what it is, the case): a list of 1 MiB of entries for lists of so many strings. No tags take more time to read, or more memory, for each
    octet."""
    return f"entries for lists of {members} strings", full_list(group(*[string("a")] * members))


def lists_in_lists(entries, depth):
    """A case of entries for the first issuer, and a certificate for so many lists in one another: nothing takes more memory for each node."""
    tag = string("x")
    for _ in range(depth):
        tag = group(string("l"), tag)
    issuer, subject = keys_of(1)
    return case([entry(issuer)] * entries, [(certificate(issuer, subject, tag), issuer)], asks=subject)


def equal_strings(entries, *prefixes):
    """A case of so many equal entries for the first issuer. In a reduction each has a far longer line than an answer may have: `prefixes` are how
    often the set of each certificate has the empty prefix, and the last certificate has a string of 44,000 octets, which the intersection of all has
    as often as the product of these numbers. The string is no token, but printable, so that a printer looks at all of it to find its form."""
    sets = [group(string("*"), string("set"), *[group(string("*"), string("prefix"), string(""))] * members) for members in prefixes]
    tags = [*sets, group(string("*"), string("set"), string("a" + " " * 43_999))]
    keys = keys_of(len(tags))
    links = [(certificate(issuer, subject, tag), issuer) for issuer, subject, tag in zip(keys, keys[1:], tags)]
    return case([entry(keys[0])] * entries, links, asks=keys[-1])


def wide_shapes():
    """The shapes of linear.py, and more with large tags."""
    others = [Shape("", make) for make in (narrowed_ranges, ranges_and_sets_of_two, ten_large_sets)]
    return (*SHAPES, LARGE_TAG, LARGE_TAG_AND_RANGE, LARGE_TAG_AND_SET, *others)


def decisions_by_default(driver):
    """Yields (name of a limit, the most milliseconds) of a decision, for the texts of all shapes with as many certificates as a guard takes whose
    caller sets no limits. The guard that is measured has these limits of nodes, work and answers, and none of certificates."""
    limit, most = MOST["a decision by default, ms"], 0.0
    for shape, text in (widest_of(shape, USUAL_CERTIFICATES) for shape in wide_shapes()):
        _, milliseconds, *_ = measure_answer(driver, "decide", driver.write_question("usual", text), limit)
        if milliseconds > most:
            most = milliseconds
            print(f"by default {shape}: {milliseconds:.1f} ms", flush=True)
    yield "a decision by default, ms", most


def widest_answers(driver):
    """Yields (name of a limit, value): the most milliseconds and MiB of one answer. docs/PERFORMANCE.md says what a decision takes."""
    texts = [widest_of(shape) for shape in wide_shapes()]
    texts += [(f"large tags: {what}", text) for what, text in large_tags()]
    texts += [("a string 1,000 times, 60 entries", equal_strings(60, 1_000)), ("a string 9,801 times", equal_strings(1, 99, 99)),
              ("10 lists in one another, 9,500 entries", lists_in_lists(9_500, 10)),
              ("a key of 4,000 lists, 12,300 entries", key_of_lists(12_300, 4_000)), ("the shortest entries", full_list(string("a"))),
              ("an entry for a key of 520,000 strings", entry_for_parts(520_000)),
              ("an entry for a name of 349,000 strings", entry_for_name(349_000)),
              ("an entry with a comment of 520,000 lists", only_entry([b"comment", *[[]] * 520_000]))]
    texts += map(lists_of_strings, (20, 100, 600))
    costs = [measure_question(driver, what, text) for what, text in texts]
    for place, unit in enumerate(("ms", "MiB")):
        yield f"a decision, {unit}", max(each["decide"][place] for each in costs)
        yield f"an explanation or a reduction, {unit}", max(each[kind][place] for each in costs for kind in ("explain", "reduce"))


def in_transport_form(count):
    """The parts of a question that shows a chain of so many certificates. Its sequence is in transport form, so that it is decoded first."""
    return in_a_chain(count, braced)


def in_a_chain(count, form=bytes):
    """The parts of a question that shows a chain of so many certificates. `form` makes the sequence's text of its canonical form,
    which by default stays as it is."""
    acl, sequence, asker, request, moment = parts_of(by_keys(count))
    return acl, form(sequence), asker, request, moment


def small_lists(count):
    """The parts of a question whose certificate has a comment of so many empty lists: nothing has fewer octets for each value."""
    keys = keys_of(1)
    fields = read(certificate(*keys))
    fields.append([b"comment", *[[]] * count])
    return parts_of(case([entry(keys[0])], [(canonical(fields), keys[0])], asks=keys[1]))


def long_subject(count):
    """The parts of a question whose certificate defines a name as a name of so many strings."""
    keys = keys_of(1)
    long = definition(name(keys[0], "n"), name(keys[1], *["n"] * count))
    return parts_of(case([entry(name(keys[0], "n"))], [(long, keys[0])], asks=keys[1]))


def many_words(count):
    """The parts of a question for a request of so many short strings, as a text."""
    acl, sequence, asker, _, moment = parts_of(by_keys(1))
    return acl, sequence, asker, group(*[string("a")] * count), moment


def request_of_nested_lists(count):
    """The parts of a question for a request with 60 lists in one another, so many times. At most 64 lists may be open at once."""
    acl, sequence, asker, _, moment = parts_of(by_keys(1))
    inner = string("x")
    for _ in range(60):
        inner = group(string(""), inner)
    return acl, sequence, asker, group(string("a"), *[inner] * count), moment


def empty_strings(count):
    """The parts of a question with so many certificates for sets of 1,000 empty strings: nothing takes more memory for each octet."""
    keys = keys_of(count)
    tag = group(string("*"), string("set"), *[string("")] * 1_000)
    return parts_of(case([entry(keys[0])], [(certificate(*pair, tag), pair[0]) for pair in zip(keys, keys[1:])], asks=keys[-1]))


def two_long_keys(count):
    """The parts of a question with so many certificates, or one fewer if that is odd, of two long keys that differ late. The certificates name them
    by their hashes."""
    # (the two keys take two thirds of 1 MiB, and the certificates the rest)
    keys = [key("k" * (MOST_OCTETS // 3) + end) for end in "ab"]
    links = [(certificate(digest(issuer), key("s")), digest(issuer)) for issuer in keys for _ in range(count // 2)]
    return parts_of(case([entry(digest(keys[0]))], links, keys, asks=key("s")))


def of_shape(make):
    """Returns a function of a number of certificates, which makes the parts of a question with so many, by a shape of linear.py with one entry."""
    return lambda count: parts_of(make(1, count, QUESTION_MEMBERS))


# The questions that are opened: what each is, with a place for a count, and the function of the count that makes its parts.
WIDE = {"{:,} certificates in a chain": in_a_chain, "the same of {:,} in transport form": in_transport_form,
        "{:,} certificates for sets of 100 nodes": of_shape(wide_sets),
        "{:,} times a certificate for the hash of one long key": of_shape(long_issuer), "{:,} for the hashes of two": two_long_keys,
        "a subject of {:,} names": long_subject,
        "a comment of {:,} empty lists": small_lists, "a request of {:,} strings": many_words,
        "a request of {:,} times 60 lists in one another": request_of_nested_lists}


def measure_opening(driver, program, what, make):
    """Opens the largest question up to 1 MiB that `make` makes by a count, by `program`, which is that of opening.c, and prints what this takes.
    `what` says what the question is, with a place for the count. Returns the octets of memory that are kept and the most that are taken meanwhile,
    both divided by those of the question, and the ms."""
    # (the first part is the list, which is not of the question)
    count = largest_count(lambda count: sum(map(len, make(count)[1:])), MOST_OCTETS)
    path = driver.write("opened", b"".join(b"%d\n%s" % (len(part), part) for part in make(count)))
    octets, taken, kept, milliseconds = map(float, subprocess.run([program, path], stdout=subprocess.PIPE, check=True).stdout.split())
    print(f"{what.format(count)}: question of {octets:,.0f} octets, {taken:,.0f} octets of memory at most, {kept:,.0f} kept, {milliseconds:.1f} ms",
          flush=True)
    return kept / octets, taken / octets, milliseconds


def opening_of_widest(driver):
    """Yields (name of a limit, value): the most memory that is kept of a question of 1 MiB, and that is taken while it is opened, both divided by its
    octets, and the most time."""
    program = driver.build_opening()
    kept, taken, times = zip(*[measure_opening(driver, program, what, make) for what, make in WIDE.items()])
    kept_of_sets, taken_by_sets, time_of_sets = measure_opening(driver, program, "{:,} certificates for sets of 1,000 empty strings", empty_strings)
    yield "memory kept of a question by its octets", max(*kept, kept_of_sets)
    yield "memory while it is opened", max(taken)
    yield "memory while sets of empty strings are opened", taken_by_sets
    yield "opening a question of 1 MiB, ms", max(*times, time_of_sets)


def scaling_of_threads(driver):
    """Yields (name of a limit, value): how many times as many decisions THREADS threads make as one, and how often a thread waits in 1,000 decisions,
    for a lock for example. Each is the best of some turns, since other programs may disturb one. The first is scaled to CORES free cores: `counting`
    is how many times as far THREADS threads count as one, so about how many cores are free."""
    results = []
    for _ in range(TURNS):
        one, many, counting, waits = driver.run("threads", THREADS, driver.write_question("three", case_with_three(1)))
        print(f"one thread {one:,.0f} decisions a second, {THREADS} threads {many:,.0f}; "
              f"{THREADS} threads count {counting:.2f} times as far as one")
        results.append((CORES * many / one / counting, waits))
    ratios, waits_of_turns = zip(*results)
    yield "threads", max(ratios)
    yield "waits of 1,000 decisions", min(waits_of_turns)


def print_and_check(what, value):
    """Prints a measured value beside its limit. Returns whether it is within the limit. `what` is the name of a limit in MOST or LEAST."""
    least, most = LEAST.get(what, float("-inf")), MOST.get(what, float("inf"))
    is_within = least <= value <= most
    limit = f"at least {least:,.2f}" if what in LEAST else f"at most {most:,.2f}"
    print(f"{what}: {value:,.2f} ({limit}){'' if is_within else ': LIMIT PASSED'}")
    return is_within


def main():
    """Measures all, and then prints each value beside its limit. Ends with status 1 if a limit is passed or an answer is wrong."""
    library = os.path.abspath(sys.argv[1] if len(sys.argv) > 1 else LIBRARY)
    with tempfile.TemporaryDirectory() as folder:
        driver = Driver(folder, library)
        parts = (by_instructions, through_python, opening_of_widest, decisions_by_default, widest_answers, scaling_of_threads)
        values = [pair for part in parts for pair in part(driver)]
    # (a list, so that each value is printed)
    if not all([print_and_check(*pair) for pair in values]):
        sys.exit(1)


if __name__ == "__main__":
    main()
