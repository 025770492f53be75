"""What `spki-cert` does grows as its texts do. Counts steps, and no time: lines of Python that are run, octets of a text that are looked through, and
octets that are made canonical. A text with four times the parts takes less than five times the steps. If a bound ends a search, the answer says so.

`spki_cert_tool` is the package of `spki-cert`. Work grows with the square of the parts, if each part leads to work on the whole text: each maker of a
text says where that could be."""
import hashlib
import importlib
import os
import pkgutil
import sys
import tempfile
import unittest
from collections.abc import Callable, Iterator
from contextlib import ExitStack, contextmanager
from typing import Any
from unittest import mock

from harness import needs
from harness.support import canonical

# The parts of the smaller text, how many times as many the larger one has, and how many times as many steps that may take.
FEW, TIMES, MOST_TIMES = 40, 4, 5.0
NOW = b"2026-03-01_12:00:00"
# How many steps were counted, as the only member of a list, so that all functions here can add to it.
SEEN: list[int] = [0]


class Text(bytes):
    """A text that adds to SEEN how many of its octets these methods look through, a search up to what it finds, or copy. `re` adds nothing."""

    def rfind(self, part: bytes, begin: int = 0, end: int | None = None) -> int:  # type: ignore[override]
        place = super().rfind(part, begin, end)
        SEEN[0] += (len(self) if end is None else end) - max(place, begin)
        return place

    def find(self, part: bytes, begin: int = 0, end: int | None = None) -> int:  # type: ignore[override]
        place = super().find(part, begin, end)
        SEEN[0] += (len(self) if place < 0 else place) - begin
        return place

    def count(self, part: bytes, begin: int = 0, end: int | None = None) -> int:  # type: ignore[override]
        SEEN[0] += (len(self) if end is None else end) - begin
        return super().count(part, begin, end)

    def __getitem__(self, place):
        octets = super().__getitem__(place)
        SEEN[0] += len(octets) if isinstance(octets, bytes) else 1
        return octets


@contextmanager
def counting() -> Iterator[None]:
    """A context that sets SEEN to 0 and counts steps there: the events of `trace`, the octets that each module of `spki_cert_tool` makes canonical,
    and those that are hashed. A `Text` adds its own."""
    import spki_cert_tool
    from spki_cert_tool import sexp

    def trace(frame, event, _):
        """Adds 1 to SEEN for each event in `spki_cert_tool`: a call, a line, a return, an exception. Python calls this where a function begins. There
        it returns itself, so that Python calls it for each further event of the function too."""
        if "spki_cert_tool" in frame.f_code.co_filename:
            SEEN[0] += 1
            return trace
        return None

    def counting_canonical(value):
        """`canonical`, whose octets are counted."""
        octets = sexp.canonical(value)
        SEEN[0] += len(octets)
        return octets

    def counting_hash(make):
        """`make`, a function of hashlib, which adds the octets that it hashes, its last argument."""
        def make_and_count(*words):
            SEEN[0] += len(words[-1])
            return make(*words)
        return make_and_count

    SEEN[0] = 0
    names = [name for _, name, _ in pkgutil.iter_modules(spki_cert_tool.__path__) if name not in ("__main__", "sexp")]
    modules = [importlib.import_module(f"spki_cert_tool.{name}") for name in names]
    with ExitStack() as stack:
        for module in (module for module in modules if hasattr(module, "canonical")):
            stack.enter_context(mock.patch.object(module, "canonical", counting_canonical))
        for name in ("new", "sha256"):
            stack.enter_context(mock.patch.object(hashlib, name, counting_hash(getattr(hashlib, name))))
        before = sys.gettrace()
        sys.settrace(trace)
        try:
            yield
        finally:
            sys.settrace(before)


def key(name: str, octets: int = 1) -> Any:
    """A public key whose value is the name, repeated `octets` times. If the name is one letter, the value has so many octets."""
    return [b"public-key", [b"test", name.encode() * octets]]


def hash_of(value: Any) -> Any:
    """The value `(hash sha256 ..)` that names another value by the digest of its canonical form."""
    return [b"hash", b"sha256", hashlib.sha256(canonical(value)).digest()]


def certificate(issuer: Any, subject: Any, *more: Any) -> Any:
    """A certificate of the right `ftp`, with the fields `more`. It is not signed: see `signed`."""
    return [b"cert", [b"issuer", issuer], [b"subject", subject], [b"tag", [b"ftp"]], *more]


def signed(cert: Any) -> Any:
    """A certificate and a signature in its issuer's name, whose value is no real one, as two items of a sequence."""
    return [cert, [b"signature", hash_of(cert), cert[1][1], b"sig"]]


# ---- the texts, by how many parts they have


def members_behind_a_long_line(parts: int) -> bytes:
    """A list far right on a long line, whose `parts` members begin lines of their own. At each of these the parser needs the column of the list, and
    must look for it only once. The second line feed makes an empty line before the first member, which changes nothing."""
    return b"(" + b"a" * 40 * parts + b" (b" + b"\n" * 2 + b" c\n" * parts + b"))"


def entries_that_ended(parts: int) -> bytes:
    """A list of `parts` entries, one on each line, whose validity is past: `check` makes a remark on each. Its line and column must be found without
    looking through the text from the beginning."""
    return b"(acl" + b"".join(b'\n (entry (public-key (test k%d)) (tag (ftp)) (not-after "2020-01-01_00:00:00"))' % at for at in range(parts)) + b")"


def long_display(parts: int) -> bytes:
    """A certificate with a field of 20 * `parts` lists. `check` must look at each of them once."""
    return canonical([b"sequence", *signed(certificate(key("a"), key("b"), [b"display", *[[b"x"]] * 20 * parts]))])


def hashes_of_a_long_key(parts: int) -> bytes:
    """`parts` certificates of one long key, which they name by its hash. The key must be made canonical once, and not for each certificate."""
    long = key("k", 60 * parts)
    return canonical([b"sequence", long, *[part for at in range(parts) for part in signed(certificate(hash_of(long), key(f"s{at}")))]])


def entries_for_a_long_key(parts: int) -> bytes:
    """An entry for a long key, at most 8 for its hash, which are compared with each other, and `parts` for other keys. For each of those the long key
    must not be made canonical again."""
    long = key("k", 60 * parts)
    entries: Any = [[b"entry", subject, [b"tag", [b"t%d" % at]]] for at, subject in enumerate([long] + [hash_of(long)] * min(parts, 8))]
    others: Any = [[b"entry", key(f"o{at}"), [b"tag", [b"ftp"]]] for at in range(parts)]
    return canonical([b"acl", *entries, *others])


def names_of_a_long_key(parts: int) -> bytes:
    """An entry for a long key, and `parts` for names of it, which have its hash. For each of those the long key must not be hashed again."""
    long = key("k", 60 * parts)
    names: Any = [[b"entry", [b"name", hash_of(long), b"n%d" % at], [b"tag", [b"ftp"]]] for at in range(parts)]
    return canonical([b"acl", [b"entry", long, [b"tag", [b"ftp"]]], *names])


def keys_in_lines(parts: int) -> bytes:
    """`parts` lines that begin as keys of OpenSSH do, and have no key. The place of each must be looked for after the one before it."""
    return b"".join(b"ssh-ed25519 AAAA%06d comment\n" % at for at in range(parts))


CHECKED = [members_behind_a_long_line, entries_that_ended, long_display, hashes_of_a_long_key, entries_for_a_long_key, names_of_a_long_key,
           keys_in_lines]


@needs.needs("import cryptography")
class OfCheck(unittest.TestCase):
    """`spki-cert check`, which reads a text, says what is probably a mistake, and verifies signatures; and what `entry` does with a list."""

    def check_growth(self, work: Callable[[int], object]) -> None:
        """`work(parts)` is called for FEW parts and for TIMES as many. The second call must take less than MOST_TIMES as many steps."""
        steps = []
        for parts in (FEW, FEW * TIMES):
            with counting():
                work(parts)
            steps.append(SEEN[0])
        self.assertLess(steps[1] / steps[0], MOST_TIMES, steps)

    def test_texts(self) -> None:
        """`check` takes less than MOST_TIMES as many steps for TIMES as many parts, on each text of CHECKED."""
        from spki_cert_tool import checking
        # (so that what a first call alone does is not counted)
        checking.remarks_on("/dev/null", NOW)
        for make in CHECKED:
            texts = {parts: Text(make(parts)) for parts in (FEW, FEW * TIMES)}
            read = checking.remarks_on_key_file if make is keys_in_lines else lambda path, octets: checking.remarks_on_text(path, octets, NOW)
            with self.subTest(make.__name__):
                self.check_growth(lambda parts: read("text", texts[parts]))

    def test_removed_entries(self) -> None:
        """`list_without` removes all entries for a key, here each second one, in one pass through the list."""
        from spki_cert_tool import making
        entry, other = (b"\n (entry %s (tag (ftp)))" % canonical(key(name)) for name in "ab")
        lists = {parts: Text(b"(acl" + (entry + other) * parts + b")") for parts in (FEW, FEW * TIMES)}
        self.check_growth(lambda parts: making.list_without(key("a"), lists[parts]))
        text, gone = making.list_without(key("a"), lists[FEW])
        self.assertEqual((text, len(gone)), (b"(acl" + other * FEW + b")", FEW))

    def test_lists_and_a_long_key(self) -> None:
        """A long key whose entry is added to a list, or whose entries are removed from one, is made canonical once, and not for each entry there."""
        from spki_cert_tool import making
        longs = {parts: key("k", 60 * parts) for parts in (FEW, FEW * TIMES)}
        lists = {parts: canonical([b"acl", *[[b"entry", key(f"o{at}"), [b"tag", [b"ftp"]]] for at in range(parts)]]) for parts in longs}
        self.check_growth(lambda parts: making.list_without(longs[parts], lists[parts]))
        self.check_growth(lambda parts: [*making.warnings_of_list([b"entry", longs[parts], [b"tag", [b"ftp"]]], lists[parts])])

    def test_compared_entries(self) -> None:
        """`warnings_of_list` compares the tag of a new entry with the tags in the list until the work reaches MOST_PRODUCTS. With a high bound it
        compares all 30, each of 60 members, and with the bound 0 none. An empty `Keys` knows that two keys differ."""
        from spki_cert_tool import certificates, making, tag_words
        wide: Any = [b"*", b"set", *[b"%03d" % at for at in range(60)]]
        listed = canonical([b"acl", *[[b"entry", key("a"), [b"tag", wide]]] * 30])
        entry: Any = [b"entry", key("a"), [b"tag", [*wide[:-1], b"x"]]]
        for most, least_calls in ((10**9, 30 * 60), (0, 0)):
            with mock.patch.object(making, "MOST_PRODUCTS", most), mock.patch.object(tag_words, "covers", wraps=tag_words.covers) as covers:
                self.assertEqual(list(making.warnings_of_list(entry, listed)), [])
                self.assertGreaterEqual(covers.call_count, least_calls)
                self.assertTrue(most or covers.call_count == 0)
        self.assertFalse(certificates.Keys().are_one(key("a"), key("b")))

    def test_many_keys_of_a_file(self) -> None:
        """After the first MOST_KEYS keys of a file, here 3, a last remark says that no more are looked at, and what to do. It is placed at the fourth
        key, one line below the third. All keys are faulty, so each of the first three has a remark of its own before it."""
        from spki_cert_tool import checking
        with tempfile.TemporaryDirectory() as room, mock.patch.object(checking, "MOST_KEYS", 3):
            path = os.path.join(room, "keys.pub")
            with open(path, "wb") as file:
                file.write(keys_in_lines(5))
            kind, remarks = checking.remarks_on(path, NOW)
        self.assertEqual((kind, len(remarks), remarks[-1].text), ("5 public keys", 4, "only the first 3 of these keys are looked at: split the file"))
        self.assertEqual([(remark.line, remark.column) for remark in remarks], [(1, 1), (2, 1), (3, 1), (4, 1)])


class OfMessages(unittest.TestCase):
    """Messages about a long request or word."""

    def test_long_requests(self) -> None:
        """`lacks` says what a tag lacks, and shows only the first 400 octets of a long request, or returns None if it lacks nothing. A set of 900
        strings without the request has one message, of at most 8 octets for each string and 1,000 more: `in_short` cuts two texts, and not 900."""
        from spki_cert_tool import tag_words
        long = b"m" * 100_000
        wide: Any = [b"*", b"set", *[b"%03d" % at for at in range(900)]]
        with mock.patch.object(tag_words, "in_short", wraps=tag_words.in_short) as in_short:
            message = tag_words.lacks([b"ftp", wide], [b"ftp", long])
        assert message is not None
        self.assertLessEqual(in_short.call_count, 2)
        self.assertLess(len(message), 900 * 8 + 1000)
        self.assertEqual(tag_words.lacks(b"a", long), f"the request is `{'m' * 400}..`, and the tag has `a`")
        self.assertIsNone(tag_words.lacks([b"*", b"range", b"alpha", b"ge", b"a"], long))

    def test_long_words(self) -> None:
        """For a misspelt word of more than 60 octets no similar word is looked for, since that would take long. 20 times `tah` are 60 octets."""
        from spki_cert_tool import forms
        self.assertEqual([forms.suggestion(b"tah" * times, [b"tag" * times]) != "" for times in (1, 20, 21)], [True, True, False])


@needs.needs("import cryptography")
class OfAsk(unittest.TestCase):
    """The search of `spki-cert ask` for chains of certificates, which counts its steps itself."""

    def search(self, pairs, entries, holder, most=20_000):
        """The list of chains that are found from entries to the key `holder`, and the object that counts steps. `pairs` has the issuer and subject of
        each certificate, `entries` the subject of each entry, and `most` is the bound of steps."""
        from spki_cert_tool import certificates
        signed = [certificates.Signed(certificates.terms_of(certificate(*pair)), signature=b"", number=1) for pair in pairs]
        steps = certificates.Steps(most)
        listed = [certificates.terms_of([b"entry", subject, [b"tag", [b"*"]]]) for subject in entries]
        return list(certificates.chains(listed, signed, certificates.Keys(), holder, steps)), steps

    def test_steps(self) -> None:
        """A chain of 16 certificates takes 16 steps, however many equal entries it begins at. A certificate for a name of 30 strings takes 31.
        `count` and `taken` are the wanted numbers of chains and steps."""
        line = [key(f"k{at}") for at in range(17)]
        links, name = list(zip(line, line[1:])), [b"name", key("k1"), *[b""] * 30]
        for pairs, entries, holder, count, taken in [(links, [line[0]] * 500, line[16], 1, 16), (links, [line[0]], key("x"), 0, 16),
                                                     ([(line[0], name)], [line[0]], line[1], 0, 31)]:
            chains, steps = self.search(pairs, entries, holder)
            self.assertEqual((len(chains), steps.most - steps.left, steps.is_cut), (count, taken, False))

    def test_bound(self) -> None:
        """40 keys that all give a right to each other, or a name of 25,000 strings, take more steps than the bound, which ends the search."""
        net = [key(f"k{at}") for at in range(40)]
        long = [b"name", key("k1"), *[b""] * 25_000]
        for pairs in ([(issuer, subject) for issuer in net for subject in net], [(net[0], long)]):
            chains, steps = self.search(pairs, [net[0]], key("x"))
            self.assertEqual((chains, steps.is_cut, steps.left < 0), ([], True, True))

    def test_long_keys(self) -> None:
        """A search compares the digests of keys, 32 octets, and not the keys, however long they are: `holder_of` returns the digest, and after it
        the canonical text of each name, here `1:n`. The canonical text of a key that is added is made once."""
        from spki_cert_tool import certificates
        long, keys = key("k", 10_000), certificates.Keys()
        keys.add(long)
        self.assertEqual([len(part) for part in certificates.holder_of(hash_of(long), [b"n"], keys)], [32, 3])
        self.assertEqual(certificates.holder_of(hash_of(long), [], keys), certificates.holder_of(long, [], keys))
        self.assertIs(keys.text_of(hash_of(long)), keys.text_of(hash_of(long)))
