"""What entries and certificates say: who gives what to whom, until when, and whether it may be delegated.

An entry is `(entry SUBJECT FIELD ..)` in an access list `(acl ENTRY ..)`. A certificate is `(cert FIELD ..)` in a sequence `(sequence ITEM ..)`,
where its signature follows it. A principal is a key `(public-key ..)` or a hash of one, `(hash ALGORITHM DIGEST)`. A name is
`(name PRINCIPAL STRING ..)`. A `Value` is an S-expression: `bytes`, a pair of them with a display hint in front, or a list of values.
"""
import contextlib
import hashlib
import re
from collections import deque
from collections.abc import Iterable, Iterator
from dataclasses import dataclass
from datetime import datetime
from typing import ClassVar, NamedTuple

from .sexp import Value, canonical

# A moment as `strftime` writes it.
DATE_FORMAT = "%Y-%m-%d_%H:%M:%S"


def headed(value: Value, *heads: bytes) -> bool:
    """Whether a value is a list that begins with one of these strings."""
    return isinstance(value, list) and bool(value) and value[0] in heads


def members(value: Value) -> list[Value]:
    """The members of a list after its head. Of a string there are none."""
    return value[1:] if isinstance(value, list) else []


def field(value: Value, head: bytes) -> Value | None:
    """The first field of an entry or a certificate with a head, as `(tag ..)` for `tag`, or None if it has none."""
    return next((member for member in members(value) if headed(member, head)), None)


def first_member(value: Value | None) -> Value | None:
    """The first member of a field after its head. None if it has none, or if the field is None, as `field` returns it where there is none."""
    return members(value)[0] if value is not None and members(value) else None


def string_of(value: Value | None) -> bytes | None:
    """The octets of a string, without its display hint. None if the value is a list or None."""
    return value[1] if isinstance(value, tuple) else value if isinstance(value, bytes) else None


@dataclass(frozen=True)
class Terms:
    """What an entry or a certificate says."""

    value: Value
    """The entry or the certificate itself."""
    issuer: Value | None
    """The principal that issues it. None for an entry, which the owner of the list issues."""
    name: bytes | None
    """The name that a certificate defines, or None if it gives a right."""
    subject: Value
    """A principal, or `(name PRINCIPAL n ..)`."""
    # None for a certificate that defines a name.
    tag: Value | None
    # The first and the last moment at which it is valid, or None for no limit.
    begins: bytes | None
    ends: bytes | None
    # Whether it has `(propagate)`, so that its subject may delegate the right.
    delegates: bool
    # The strings of its comment in one, or an empty string.
    comment: str

    @property
    def principal(self) -> Value:
        """The principal of the subject."""
        return members(self.subject)[0] if headed(self.subject, b"name") else self.subject

    @property
    def names(self) -> list[Value]:
        """The names of the subject, which certificates must define."""
        return members(self.subject)[1:] if headed(self.subject, b"name") else []

    @property
    def window(self) -> str:
        """From when until when it is valid, in words."""
        begins = f"from {self.begins.decode()} " if self.begins else ""
        return begins + (f"until {self.ends.decode()}" if self.ends else "without end")

    def state(self, moment: bytes) -> str:
        """Whether it is valid at a moment, in words."""
        if self.ends is not None and self.ends < moment:
            return "ENDED"
        return "NOT YET VALID" if self.begins is not None and self.begins > moment else "valid now"


def terms_of(value: Value) -> Terms:
    """The terms of an entry or a certificate. A relative name as subject becomes one of the issuer. A limit of the window may be in `(valid ..)`.
    The readers of `structures` must have accepted the value."""
    issuer, name, subject = None, None, members(value)[0]
    if headed(value, b"cert"):
        issuer, subject = first_member(field(value, b"issuer")) or b"", first_member(field(value, b"subject")) or b""
        if headed(issuer, b"name"):
            issuer, name = members(issuer)[0], string_of(members(issuer)[1])
        if headed(subject, b"name") and not headed(members(subject)[0], b"public-key", b"hash"):
            subject = [b"name", issuer, *members(subject)]
    valid = field(value, b"valid") or b""
    begins, ends = (string_of(first_member(field(value, head) or field(valid, head))) for head in (b"not-before", b"not-after"))
    comments = map(string_of, members(field(value, b"comment") or b""))
    return Terms(value, issuer, name, subject, first_member(field(value, b"tag")), begins, ends, field(value, b"propagate") is not None,
                 " ".join(comment.decode(errors="replace") for comment in comments if comment is not None))


def remarks_on_window(begins: bytes | None, ends: bytes | None, moment: bytes, what: str = "it") -> Iterator[tuple[bytes, str]]:
    """Yields what is probably a mistake in a window of time, from `begins` to `ends`, as of a moment: for each the head of its field, and a remark. A
    remark calls what has the window `what`, as "this entry". All three are dates, as 2026-03-01_12:00:00; None is no limit."""
    for head, limit in ((b"not-before", begins), (b"not-after", ends)):
        if limit and not is_in_calendar(limit):
            yield head, f"no calendar has the moment {limit.decode()}"
    if begins and ends and ends < begins:
        yield b"not-after", f"{what} ends before it begins, so it is never valid"
    elif ends and ends < moment:
        yield b"not-after", f"{what} ended on {ends.decode()}"


def is_in_calendar(moment: bytes) -> bool:
    """Whether a calendar has a moment. A minute may have a leap second."""
    with contextlib.suppress(ValueError):
        return bool(datetime.strptime(re.sub(":60$", ":59", moment.decode()), DATE_FORMAT))
    return False


def entries_of(access_list: Value) -> list[Terms]:
    """The terms of each entry of an access list, in their order."""
    return [terms_of(member) for member in members(access_list) if headed(member, b"entry")]


class Signed(NamedTuple):
    """A certificate of a sequence with its signature. `number` is that of the certificate among all items of the sequence, from 1."""

    terms: Terms
    signature: Value
    number: int


def keys_in(sequence: Value) -> list[Value]:
    """The keys that are items of a sequence."""
    return [item for item in members(sequence) if headed(item, b"public-key")]


def certificates_in(sequence: Value) -> list[Signed]:
    """The certificates of a sequence, each with the signature that follows it. One without a signature is left out."""
    certificates: list[Signed] = []
    unsigned: tuple[Value, int] | None = None
    for number, item in enumerate(members(sequence), 1):
        if headed(item, b"cert"):
            unsigned = item, number
        elif headed(item, b"signature") and unsigned:
            certificates.append(Signed(terms_of(unsigned[0]), item, unsigned[1]))
            unsigned = None
    return certificates


class Keys:
    """Keys that are known, to be found by the principals that name them. Each is made canonical once: a long one may be named or compared many times.
    A hash may be added too, which changes nothing."""

    def __init__(self, keys: Iterable[Value] = ()) -> None:
        # (both by the algorithm and the digest of a hash: the key; and its canonical text with the SHA-256 digest of it)
        self.by_hash: dict[tuple[bytes, bytes], Value] = {}
        self.texts: dict[tuple[bytes, bytes], tuple[bytes, bytes]] = {}
        # (by the identity of a principal: itself, so that no other object gets this identity, and what `text_of` returns)
        self.made: dict[int, tuple[Value, tuple[bytes, bytes]]] = {}
        for key in keys:
            self.add(key)

    def add(self, key: Value) -> None:
        """Adds a key, by its hash in each algorithm. The first of equal ones stays."""
        text = self.text_of(key)
        for algorithm in ("sha1", "sha256", "sha512") if not headed(key, b"hash") else ():
            name = algorithm.encode(), hashlib.new(algorithm, text[0]).digest()
            self.by_hash.setdefault(name, key)
            self.texts.setdefault(name, text)

    def named(self, principal: Value) -> Value | None:
        """The key that a principal names, or None if it is a hash of no key that is known."""
        if headed(principal, b"public-key"):
            return principal
        match principal:
            case [b"hash", bytes() as algorithm, bytes() as digest, *_]:
                return self.by_hash.get((algorithm, digest))
        return None

    def text_of(self, principal: Value) -> tuple[bytes, bytes]:
        """The canonical text of the key that a principal names, and its SHA-256 digest. Both of the principal itself if the key is not known."""
        match principal:
            case [b"hash", bytes() as algorithm, bytes() as digest, *_] if (algorithm, digest) in self.texts:
                return self.texts[algorithm, digest]
        if id(principal) not in self.made:
            # (a hash may have `(uri ..)` behind its digest)
            octets = canonical(principal[:3] if headed(principal, b"hash") and isinstance(principal, list) else principal)
            self.made[id(principal)] = principal, (octets, hashlib.sha256(octets).digest())
        return self.made[id(principal)][1]

    def are_one(self, one: Value | None, other: Value | None) -> bool:
        """Whether two principals name the same key, by the keys that are known. False if one is None."""
        if one is None or other is None:
            return False
        return self.text_of(one)[1] == self.text_of(other)[1]


def fault_of_signature(signed: Signed, keys: Keys) -> str | None:
    """The word of `explain` for the first test that a certificate's signature does not pass, one of FAULTS in `showing`. None if it is valid.
    `keys` are those that a hash may name. A hash by SHA-1 counts too, as with `--open`: of it a strict service says KeyNotShown."""
    issuer, certificate = signed.terms.issuer or b"", canonical(signed.terms.value)
    if keys.named(issuer) is None:
        return "KeyNotShown"
    hash_signed, signer, value = members(signed.signature)
    algorithm, digest = (string_of(member) or b"" for member in members(hash_signed)[:2])
    if hashlib.new(algorithm.decode(), certificate).digest() != digest:
        return "DigestDiffers"
    if not keys.are_one(signer, issuer):
        return "SignerDiffers"
    # (here, because it takes a tenth of a second)
    from spki_verify import verify_texts
    return None if verify_texts(key=keys.text_of(issuer)[0], message=certificate, value=canonical(value)) else "NotAccepted"


def accepted_by(rows: Iterable[Value]) -> set[tuple[bytes, bytes, bytes]]:
    """The signatures that the rows of a case accept: for each the key in canonical form, the SHA-256 digest of the certificate, and the value in
    canonical form."""
    parts = [members(row) for row in rows]
    return {(canonical(key), string_of(members(digest)[1]) or b"", canonical(value)) for key, digest, value in parts}


@dataclass
class Steps:
    """How many steps a search for chains may still take. To put a certificate behind others takes one step, and one for each string of the name to
    which the chain then leads."""

    most: ClassVar[int] = 20_000
    left: int = most
    is_cut: bool = False
    """Whether chains were left out."""


# Whom a chain leads to: the SHA-256 digest of the canonical text of a key, and the strings of a name in canonical form.
Holder = tuple[bytes, ...]


def holder_of(principal: Value, names: Iterable[Value], keys: Keys) -> Holder:
    """The holder, as a tuple for comparing, of a principal with the names behind it. A hash of one of `keys` is the same holder as this key."""
    return keys.text_of(principal)[1], *map(canonical, names)


def chains(entries: Iterable[Terms], certificates: list[Signed], keys: Keys, key: Value, steps: Steps, most: int = 16) -> Iterator[list[Signed]]:
    """Yields the chains of at most `most` certificates that lead from an entry to a key, the shortest first: 16 is the most that a service takes by
    default. Only issuers and subjects are compared: tags, times, delegation and signatures are for the caller to test. A holder is who has the right,
    a key or a name. No chain passes one twice: without the certificates in between it would give at least as much. The search ends when it needs a
    step and none is left, and then sets `steps.is_cut`."""
    # (the certificates by their issuers as holders, a key or a key and the name that is defined, each with its subject as a holder)
    wanted, by_issuer = holder_of(key, [], keys), dict[Holder, list[tuple[Signed, Holder]]]()
    for signed in certificates:
        terms = signed.terms
        issuer = holder_of(terms.issuer or b"", [terms.name] if terms.name is not None else [], keys)
        by_issuer.setdefault(issuer, []).append((signed, holder_of(terms.principal, terms.names, keys)))
    begins = dict.fromkeys(holder_of(entry.principal, entry.names, keys) for entry in entries)
    # (each chain that is not ended yet: the holders that it passes, and its certificates)
    waiting = deque[tuple[list[Holder], list[Signed]]](([holder], []) for holder in begins)
    while waiting and steps.left >= 0:
        holders, chain = waiting.popleft()
        holder = holders[-1]
        if holder == wanted:
            yield chain
            continue
        # (the subject of a certificate replaces its issuer, the key and the first name of a holder; further names stay behind it)
        for signed, subject in by_issuer.get(holder[:2], []) if len(chain) < most else []:
            next_holder = (*subject, *holder[2:])
            steps.left -= len(next_holder)
            if steps.left < 0:
                break
            if next_holder not in holders:
                waiting.append(([*holders, next_holder], [*chain, signed]))
    steps.is_cut = steps.is_cut or steps.left < 0


def sequence_of(chain: Iterable[Signed], keys: Keys) -> Value:
    """The sequence of a chain: the keys of those issuers that are named by hashes, and each certificate with its signature. `keys` has the keys; one
    that is not known is left out."""
    keys_shown: list[Value] = []
    items: list[Value] = []
    for signed in chain:
        issuer = signed.terms.issuer or b""
        key = keys.named(issuer)
        if key is not None and key != issuer and key not in keys_shown:
            keys_shown.append(key)
        items += [signed.terms.value, signed.signature]
    return [b"sequence", *keys_shown, *items]
