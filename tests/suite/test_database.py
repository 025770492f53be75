"""Compares decisions by entries in a store, as examples/database/ makes them, with those of a guard of all entries.

- Random lists with entries for keys, hashes and names, and questions with up to three certificates: the answer, the number of the entry and each
  refusal must be those of the guard of the whole list.
- Several clients add and remove entries at the same time, and ask in between: an entry that was added grants, and one that was removed does not.

The store is on a server in a temporary folder. `tests/suite/test_store.py` asks the same of the daemon, and kills servers."""
import contextlib
import hashlib
import os
import random
import secrets
import sys
from concurrent.futures import ThreadPoolExecutor
from unittest import mock

from harness import built, databases, needs
from harness.support import EXAMPLES, canonical

needs.required(*needs.LIBRARY, *databases.NEEDED)
os.environ["SPKI_LIBRARY"] = built.shared()
sys.path.insert(1, os.path.join(EXAMPLES, "database"))
import entries  # noqa: E402
import spki  # noqa: E402
from spki_store_tool.tables import Store  # noqa: E402

# Of a random list: how many keys, entries and questions there are.
KEYS, ENTRIES, QUESTIONS = 12, 150, 1500
# How many clients there are at the same time, and how often each adds and removes entries.
CLIENTS, ROUNDS = 4, 25
NOON = b"19:2026-03-01_12:00:00"
TAG = b"(tag (packages read))"
REQUEST = (b"packages", b"read", b"/a")


def key_of(name):
    """The value of a public key with this name. No signature is made by it: see `is_right`."""
    return [b"public-key", [b"test", name]]


def hash_of(value, algorithm="sha256"):
    """The value `(hash ..)` that names another value by the digest of its canonical form."""
    return [b"hash", algorithm.encode(), hashlib.new(algorithm, canonical(value)).digest()]


def is_right(signature):
    """The verifier of these tests: a signature is right if its value is the string `sig`, in canonical form."""
    return signature.value == b"3:sig"


def question(sequence, asker, request=REQUEST, moment=NOON):
    """A question that the key `asker`, a value, asks. `sequence` has its certificates, as a value or as the octets of a text. `request` has the
    strings of the request, and `moment` its date in canonical form."""
    key = spki.ProvenKey.assume(canonical(asker))
    return spki.Question(sequence if isinstance(sequence, bytes) else canonical(sequence), key, words=request, moment=moment)


class RandomMaker:
    """Makes random entries and questions about KEYS keys. Values are octets, or lists of values. What a choice lists twice is twice as frequent."""

    def __init__(self, seed):
        self.random = random.Random(seed)
        self.keys = [key_of(b"k%d" % place) for place in range(KEYS)]

    def principal(self, key):
        """A principal that names a key: the key itself, or a hash of it by SHA-256, SHA-512 or SHA-1."""
        return self.random.choice([key, key, hash_of(key), hash_of(key), hash_of(key, "sha512"), hash_of(key, "sha1")])

    def tag(self):
        """A tag. All but `(packages write)` contain REQUEST."""
        return [b"tag", self.random.choice([[b"*"], [b"packages"], [b"packages", b"read"], [b"packages", [b"*", b"set", b"read", b"write"]],
                                            [b"packages", b"write"]])]

    def validity(self):
        """A list of no field, or of one: the end or the beginning of the validity. Both dates are before NOON, so what has the end is expired."""
        return self.random.choice([[], [], [], [[b"not-after", b"2026-02-01_00:00:00"]], [[b"not-before", b"2026-02-01_00:00:00"]]])

    def entry(self):
        """The arguments of `entries.entry` for an entry: its principal and a list of its fields, as canonical texts, and a tuple of names."""
        propagate = [[b"propagate"]] if self.random.random() < 0.8 else []
        names = self.random.choice([(), (), (), (b"friends",), (b"friends", b"bob")])
        fields = [canonical(field) for field in [*propagate, self.tag(), *self.validity()]]
        return canonical(self.principal(self.random.choice(self.keys))), fields, names

    def certificate(self, issuer, subject):
        """A certificate from one key to another. It gives an authorization, or one in four times defines the issuer's name `friends`."""
        owner = self.principal(issuer)
        if self.random.random() < 0.25:
            return [b"cert", [b"issuer", [b"name", owner, b"friends"]], [b"subject", self.principal(subject)], *self.validity()]
        propagate = [[b"propagate"]] if self.random.random() < 0.8 else []
        return [b"cert", [b"issuer", owner], [b"subject", self.principal(subject)], *propagate, self.tag(), *self.validity()]

    def question(self):
        """A question with up to three certificates in a chain. Some lack a key, have a wrong signature or another request, or are asked by another
        key. A few are refused: they have two values in the place of a sequence, a key without content, or a request without strings."""
        chain = [self.random.choice(self.keys) for _ in range(self.random.randrange(4) + 1)]
        items = [key for key in chain if self.random.random() < 0.95]
        for issuer, subject in zip(chain, chain[1:]):
            certificate = self.certificate(issuer, subject)
            value = b"sig" if self.random.random() < 0.95 else b"wrong"
            items += [certificate, [b"signature", hash_of(certificate), issuer, value]]
        asker = chain[-1] if self.random.random() < 0.9 else self.random.choice(self.keys)
        if self.random.random() < 0.03:
            return question(b"(sequence) (key)", asker)
        request, = self.random.choices([REQUEST, REQUEST[:2], (b"packages", b"write"), ()], [20, 5, 4, 1])
        return question([b"sequence", *items], asker if self.random.random() < 0.97 else [b"public-key"], request)


def outcome(decide, asked):
    """What `decide` returns for the question `asked`: the number of the entry that grants it, or None. If it is refused, the line of the refusal."""
    try:
        return decide(asked)
    except spki.Refused as refusal:
        return refusal.line


def decider_by_whole_list(store, policy):
    """Returns a function that decides a question by a guard of all rows that the store has now: the number of the row that grants, or None."""
    rows = list(store.all())
    guard = entries.guard_of([row.text for row in rows], policy, entries.LIMITS)

    def decide(asked):
        decision = guard.decide(asked, is_right)
        return rows[decision.entry - 1].number if decision else None
    return decide


def agrees_with_whole_list(store, seed, policy):
    """Adds random entries to a store. Returns whether a service answers random questions as the whole list does, before and after some entries are
    removed, and more than 10 with a yes, with a no, and with a refusal. Prints how many there are of each, or the first difference."""
    maker, counts = RandomMaker(seed), {"yes": 0, "no": 0, "refused": 0}
    numbers = []
    for _ in range(ENTRIES):
        principal, fields, names = maker.entry()
        numbers.append(store.add(entries.entry(principal, *fields, names=names)))
    service = entries.Service(store, policy)
    for _ in range(2):
        decide = decider_by_whole_list(store, policy)
        for _ in range(QUESTIONS // 2):
            asked = maker.question()
            wanted, answer = outcome(decide, asked), outcome(lambda each: service.decide(each, is_right), asked)
            if wanted != answer:
                print(f"seed {seed}: {asked}: {answer}, and of the whole list {wanted}")
                return False
            counts["no" if answer is None else "yes" if isinstance(answer, int) else "refused"] += 1
        for number in maker.random.sample(numbers, ENTRIES // 3):
            store.remove(number)
    print(f"seed {seed}: {counts}")
    return min(counts.values()) > 10


# ---- several clients at the same time


def fault_of_client(connect, place):
    """In each of ROUNDS rounds adds two entries for a key that only this client uses, of which one grants, and removes them. Asks a question of this
    key before, between and after. `connect()` returns the store by a new connection. `place` is the number of the client, from 0. Returns the first
    fault that it finds, as a text, or None."""
    key = key_of(b"client%d" % place)
    asked = question(b"(sequence)", key)
    with contextlib.closing(connect()) as store:
        service = entries.Service(store)
        for turn in range(ROUNDS):
            principal = canonical(key if turn % 2 else hash_of(key))
            if service.decide(asked, is_right) is not None:
                return f"client {place}: a yes before entry {turn} is added"
            useless = store.add(entries.entry(principal, b"(tag (packages write))"))
            number = store.add(entries.entry(principal, TAG))
            if service.decide(asked, is_right) != number:
                return f"client {place}: no yes by entry {number}"
            if not store.remove(number) or service.decide(asked, is_right) is not None:
                return f"client {place}: a yes after entry {number} was removed"
            store.remove(useless)
    return None


def faults_of_clients(connect):
    """What CLIENTS clients at the same time find wrong, a text for each fault. `connect()` returns the store by a new connection."""
    with ThreadPoolExecutor(CLIENTS) as pool:
        return list(filter(None, pool.map(lambda place: fault_of_client(connect, place), range(CLIENTS))))


class RefusedEntries(built.OfLibrary):
    def test_entries_refused(self):
        """`entries.entry` refuses a principal and fields that make no entry, before they are in a table."""
        key = canonical(key_of(b"k"))
        for name, principal_and_fields in {
                "an entry without a tag": (key,), "an entry for a tag": (TAG, TAG), "two principals": (key + key, TAG),
                "a name as a principal": (b"(name %s n)" % key, TAG), "a field that ends the entry": (key, b"(tag (*))) (entry x)"),
                "a digest of another length": (b"(hash sha256 abc)", TAG)}.items():
            with self.subTest(name), self.assertRaises((spki.Refused, ValueError)):
                entries.entry(*principal_and_fields)


class RowsThatAreNoEntries(built.OfLibrary):
    def test_rows_are_read_alone(self):
        """Rows that are not one entry each are skipped, also those that join into what looks like entries: the entry behind them grants."""
        key = canonical(key_of(b"k"))
        entry = entries.entry(key, TAG)
        texts = (entry[:20], entry[20:], b"", entry + entry, b" " + entry, entry + entry[:20], entry, entry[20:])
        store = mock.Mock(**{"entries_for.return_value": list(enumerate(texts, 1)), "has_ended.return_value": False})
        self.assertEqual(entries.Service(store).decide(question(b"(sequence)", key_of(b"k")), is_right), 7)


class StoresOnServer(built.OfLibrary):
    """Decisions by entries in PostgreSQL. Each test has an empty store, in a schema of its own."""

    @classmethod
    def setUpClass(cls):
        super().setUpClass()
        cls.server = databases.Server().__enter__()
        cls.addClassCleanup(cls.server.__exit__, None, None, None)

    def setUp(self):
        self.schema = f"spki_{secrets.token_hex(6)}"
        self.connect().make()

    def connect(self):
        """The store, by a connection of its own, which is closed after the test."""
        store = Store(self.server.address, self.schema)
        self.addCleanup(store.close)
        return store

    def test_agrees_with_whole_list(self):
        self.assertTrue(agrees_with_whole_list(self.connect(), seed=0, policy=spki.Policy.STRICT))

    def test_agrees_where_sha1_is_allowed(self):
        """Decisions agree with those of the whole list also under `ALLOW_SHA1`, by which hashes by SHA-1 name keys too."""
        self.assertTrue(agrees_with_whole_list(self.connect(), seed=1, policy=spki.Policy.ALLOW_SHA1))

    def test_several_clients(self):
        self.assertEqual(faults_of_clients(self.connect), [])
