"""Cases with a chain of certificates, most of which join (the subject of one is the issuer of the next), and rows, which accept their signatures."""
import hashlib
import random
from dataclasses import dataclass, field

from model.values import Atom, Value, canonical

from . import tags
from .mutations import mutated

DIGESTS = {b"sha1": hashlib.sha1, b"sha256": hashlib.sha256, b"sha512": hashlib.sha512}
MOMENTS = [b"2023-12-31_23:59:60", b"2024-01-01_00:00:00", b"2024-02-31_12:00:00", b"2024-06-15_08:30:00", b"2025-01-01_00:00:00"]
NAMES = [b"bob", b"friends", b"n", b"", b"a b"]
PARTS_OF_KEYS: list[Value] = [
    (Atom(b"test"), Atom(b"a")), (Atom(b"test"), Atom(b"b")), (Atom(b"test"), Atom(b"b", b"h")), (Atom(b"test"),),
    (Atom(b"rsa"), (Atom(b"n"), Atom(b"\x00\xc3\x01")), (Atom(b"e"), Atom(b"\x03"))), (Atom(b"*"), ())]
KEYS: list[Value] = [(Atom(b"public-key"), parts) for parts in PARTS_OF_KEYS]
FAULTY = 0.025


@dataclass
class Subject:
    """A subject of the chain: a key, or with `names` the name `(name KEY NAME ..)`, whose first NAME this key defines."""

    key: Value
    names: list[bytes] = field(default_factory=list)


def word(name: str) -> Value:
    """A keyword of an S-expression, such as `cert`, as a string without a display hint."""
    return Atom(name.encode())


class Builder:
    """Builds one case. Each step goes wrong by a small chance. Issuers and subjects are drawn from `keys`. The chain has as many certificates as one
    of `lengths` says, and more to define the names that are left. `items` and `rows` are those of the sequence and of the list of accepted
    signatures so far, and `hashed` the keys that an issuer's hash names, which the sequence must show."""

    def __init__(self, rng: random.Random) -> None:
        self.rng = rng
        self.keys = rng.sample(KEYS, 3)
        self.lengths: tuple[int, ...] = (0, 0, 1, 1, 1, 2, 2, 2, 3, 3, 4, 5, 8)
        self.request = tags.request(rng)
        self.moment = rng.choice(MOMENTS)
        self.hashed: list[Value] = []
        self.items: list[Value] = []
        self.rows: list[Value] = []

    def by_chance(self, chance: float) -> bool:
        """Whether something happens that has this chance. In `LargeTags` (rare.py) nothing under 0.1 does: so mistakes ask this, not `rng`."""
        return self.rng.random() < chance

    def wrong(self) -> bool:
        """Whether a step goes wrong: by the small chance FAULTY, where it has no chance of its own."""
        return self.by_chance(FAULTY)

    # ---- parts

    def principal(self, key: Value, by_hash: float = 0.3) -> Value:
        """A key, or with the chance `by_hash` a hash of it, which may have a field `(uri x)`, and by a small chance a wrong digest."""
        if self.rng.random() >= by_hash:
            return key
        algorithm = self.rng.choice((b"sha1", b"sha256", b"sha256", b"sha512"))
        digest = DIGESTS[algorithm](canonical(key)).digest()
        if self.wrong():
            digest = digest[:-1] + bytes([digest[-1] ^ 1])
        uri = ((Atom(b"uri"), Atom(b"x")),) if self.by_chance(0.15) else ()
        return (word("hash"), Atom(algorithm), Atom(digest), *uri)

    def subject(self, subject: Subject, issuer: Value | None = None) -> Value:
        """A subject as it is written. If its key is `issuer` (None in an entry), a name may be relative: `(name NAME ..)` without a principal."""
        if not subject.names:
            return self.principal(subject.key)
        relative = subject.key == issuer and self.rng.random() < 0.4
        principal = () if relative else (self.principal(subject.key),)
        return (word("name"), *principal, *map(Atom, subject.names))

    def window(self) -> list[Value]:
        """The fields of a window that mostly contains the moment: some of `(not-before ..)` and `(not-after ..)`, or `(valid ..)` with them."""
        limits: list[Value] = []
        earlier, later = [date for date in MOMENTS if date <= self.moment], [date for date in MOMENTS if date >= self.moment]
        for head, fitting in (("not-before", earlier), ("not-after", later)):
            if self.rng.random() < 0.25:
                limits.append((word(head), Atom(self.rng.choice(MOMENTS if self.by_chance(0.2) else fitting))))
        if self.rng.random() < 0.3:
            self.rng.shuffle(limits)
            # (a limit beside `(valid ..)` is a fault)
            directly = limits[:1] if self.by_chance(0.02) else []
            return [(word("valid"), *limits), *directly] if limits or self.by_chance(0.3) else []
        return limits

    def tag(self) -> Value:
        """A field with a tag that mostly contains the request."""
        return (word("tag"), tags.tag_for(self.request, self.rng) if not self.wrong() else tags.tag(self.rng))

    def fields(self, *needed: Value, propagate: bool, ignored: tuple[str, ...]) -> list[Value]:
        """Fields in some order: the needed ones, by chance a window of time, `(propagate)` if `propagate` is true, and by chance fields with the
        heads `ignored`, which the reader of the entry or certificate skips."""
        fields = [*needed, *self.window()]
        if propagate:
            fields.append((word("propagate"),))
        fields += [(word(head), Atom(b"x")) for head in ignored if self.by_chance(0.04)]
        if self.by_chance(0.5):
            self.rng.shuffle(fields)
        return fields

    # ---- the chain

    def next_subject(self, name_chance: float) -> Subject:
        """A subject to which an authorization or a name goes: one of the keys, or with the chance `name_chance` a name of it."""
        names = [self.rng.choice(NAMES) for _ in range(self.rng.choice((1, 1, 2)))] if self.rng.random() < name_chance else []
        return Subject(self.rng.choice(self.keys), names)

    def certificate(self, subject: Subject, is_last: bool) -> Subject:
        """Adds the certificate that continues the chain from a subject: an authorization mostly delegates, unless it `is_last`. Returns the subject
        that follows."""
        issuer = subject.key if not self.wrong() else self.rng.choice(self.keys)
        principal = self.principal(issuer)
        self.hashed += [issuer] if principal != issuer else []
        # (a subject that is a name needs a certificate that defines it, a key one that passes a right on; by chance it is the other way)
        defines = bool(subject.names) != self.wrong()
        following = self.next_subject(name_chance=0.15 if defines else 0.35)
        ignored = ("display", "issuer-info", "subject-info", "comment")
        version: list[Value] = [(word("version"), Atom(b"0"))] if self.by_chance(0.08) else []
        subject_field: Value = (word("subject"), self.subject(following, issuer))
        if defines:
            name = subject.names[0] if subject.names and not self.wrong() else self.rng.choice(NAMES)
            needed = [*version, (word("issuer"), (word("name"), principal, Atom(name))), subject_field]
            fields = self.fields(*needed, propagate=self.by_chance(0.01), ignored=ignored)
            following.names += subject.names[1:]  # (the definition replaces the first name)
        else:
            needed = [*version, (word("issuer"), principal), subject_field, self.tag()]
            fields = self.fields(*needed, propagate=not is_last and not self.by_chance(0.04), ignored=ignored)
        self.sign((word("cert"), *fields), issuer)
        return following

    def sign(self, certificate: Value, key: Value) -> None:
        """Adds a certificate with its signature by a key, by chance `(do ..)` between them, and the row that says that the signature was verified. By
        a small chance the certificate, its digest, the signer or the row is wrong, or the row is missing."""
        if self.wrong():
            certificate = mutated(certificate, self.rng)
        octets = canonical(certificate)
        algorithm = self.rng.choice((b"sha1", b"sha256", b"sha512"))
        digest = DIGESTS[algorithm](octets if not self.by_chance(0.015) else b"").digest()
        signer = self.principal(key if not self.by_chance(0.015) else self.rng.choice(self.keys), by_hash=0.15)
        values: tuple[Value, ...] = (Atom(b"sig"), (Atom(b"rsa"), Atom(b"\x01\xff")), Atom(b"sig", b"h"), ())
        value = self.rng.choice(values)
        self.items.append(certificate)
        if self.by_chance(0.1):
            self.items.append((word("do"), word("hash"), Atom(algorithm)))
        self.items.append((word("signature"), (word("hash"), Atom(algorithm), Atom(digest)), signer, value))
        if not self.by_chance(0.015):
            shown = value if not self.by_chance(0.01) else Atom(b"other")
            self.rows.append((word("by"), key, (word("hash"), word("sha256"), Atom(hashlib.sha256(octets).digest())), shown))

    def chain(self, subject: Subject, length: int) -> Subject:
        """Adds `length` certificates from a subject on, and mostly the definitions of names that are left. Returns the chain's last subject."""
        for left in range(length, 0, -1):
            subject = self.certificate(subject, is_last=left == 1)
        # (each definition may leave more names, so the items have a bound)
        while subject.names and not self.by_chance(0.1) and len(self.items) < 24:
            subject = self.certificate(subject, is_last=True)
        return subject

    def items_with_keys(self) -> list[Value]:
        """The items of the sequence, with the keys that issuers' hashes name before or behind them. By a small chance a key is missing."""
        items = list(self.items)
        for key in self.hashed:
            if not self.wrong():
                items.insert(self.rng.choice((0, 0, len(items))), key)
        return items

    # ---- the case

    def entries(self, subject: Subject) -> list[Value]:
        """The entry of the chain, and others that nearly match. To be called after `chain`: an entry that certificates follow must delegate."""
        entries = [self.entry(subject, propagate=bool(self.items))]
        for _ in range(self.rng.choice((0, 0, 0, 0, 1, 1, 1, 2, 2, 12))):
            other = subject if self.rng.random() < 0.7 else self.next_subject(name_chance=0.3)
            entries.insert(self.rng.randrange(len(entries) + 1), self.entry(other, propagate=self.rng.random() < 0.7))
        return entries

    def entry(self, subject: Subject, propagate: bool) -> Value:
        """An entry for a subject, with a tag that mostly contains the request. It delegates if `propagate` is true and no step goes wrong."""
        fields = self.fields(self.tag(), propagate=propagate and not self.wrong(), ignored=("comment",))
        return (word("entry"), self.subject(subject), *fields)

    def case(self) -> Value:
        """The whole case: an entry and a chain from it to the key that asks, mostly. To be called once."""
        subject = self.next_subject(name_chance=0.3)
        last = self.chain(subject, self.rng.choice(self.lengths))
        entries = self.entries(subject) if not self.by_chance(0.02) else []
        if self.by_chance(0.1):
            entries.insert(0, (word("version"), Atom(b"0")))
        asker = last.key if not self.wrong() else self.rng.choice(self.keys)
        self.rng.shuffle(self.rows)
        policy = [(word("policy"), word("strict"))] if self.by_chance(0.25) else []
        request = self.request if not self.wrong() else tags.request(self.rng)
        return (word("case"), (word("acl"), *entries), (word("accepted"), *self.rows), (word("sequence"), *self.items_with_keys()),
                (word("key"), asker), (word("request"), request), (word("at"), Atom(self.moment)), *policy)


def with_rows_apart(case: Value, rng: random.Random) -> tuple[Value, Value]:
    """A case, and its list `(accepted ROW ..)` as a value of its own. The list that stays is whole, has no row, or lacks its last member."""
    assert isinstance(case, tuple)
    accepted = case[2]
    assert isinstance(accepted, tuple)
    inside = rng.choice((accepted[:1], accepted, accepted[:-1]))
    return (*case[:2], inside, *case[3:]), accepted
