"""A question that was answered, as values: what the words, the picture and the labels are made of.

What is decided comes from the lines of the commands `explain`, which says for each entry why it grants the request or what stops its chain of
certificates, and `reduce`, which says what right is left of each entry. This module only follows the subjects along the certificates, for people to
read.
"""
import re
import sys
from dataclasses import dataclass, field as dataclass_field

from labels import Labels, field
from spki_cert_tool.sexp import on_one_line

# A line of `explain`.
LINE = re.compile(r"(?:entry (\d+) )?(?:item (\d+) )?(.*)")


@dataclass
class Reason:
    """A line of `explain`, taken apart. `entry` is the number of an entry from 1, or None if a signature that does not count stops the chains of all.
    `item` is the number, from 1, of the item of the sequence that stops the chain, or None if none does. `word` is either `grants` or the cause of
    the no, as NotIssuer."""

    entry: int | None
    item: int | None
    word: str

    @property
    def line(self):
        """The line as `explain` writes it, as `entry 1 item 3 NoDelegation`."""
        parts = [self.entry and f"entry {self.entry}", self.item and f"item {self.item}", self.word]
        return " ".join(part for part in parts if part)

    @property
    def rank(self):
        """A key for `sorted`: what grants is first, then the chain that goes furthest, where one that no item stops goes further than all others. Of
        chains without such an item, one that ends at another key is the last. Of equal ones the first entry is first."""
        return self.word != "grants", -(self.item or sys.maxsize), self.word == "NotTheKey", self.entry or 0


def reasons_of(lines):
    """The lines of `explain` as a list of `Reason`. For its only line `no entries` it is empty."""
    parts = [LINE.fullmatch(line).groups() for line in lines if line != "no entries"]
    return [Reason(int(entry) if entry else None, int(item) if item else None, word) for entry, item, word in parts]


@dataclass
class Story:
    """The values of a question that was answered, and what they are called. In a value a string is `bytes`, and a list is a `list`."""

    labels: Labels
    # The entries of the access list, and the items of the sequence: keys, certificates and signatures.
    entries: list
    items: list
    # The key that requests.
    key: list
    request: object
    # The moment.
    at: bytes
    rights_left: dict = dataclass_field(default_factory=dict)
    """Rights `(five ..)` by the number of an entry and that of an item: the right of the entry before this item, or for None at the chain's end."""

    def certificate(self, item):
        """The certificate that is the item of the sequence with this number, from 1."""
        return self.items[item - 1]

    def certificate_number(self, item):
        """The number of a certificate among the certificates, by its number among all items. Both count from 1."""
        return sum(value[0] == b"cert" for value in self.items[:item])

    def holder(self, reason):
        """The subject that has the right where the chain of a reason ends, or before the item that stops it. The reason must have an entry."""
        subject = self.entries[reason.entry - 1][1]
        for number, item in enumerate(self.items, 1):
            if reason.item is not None and number >= reason.item:
                break
            if item[0] == b"cert":
                subject = subject_after(subject, item)
        return subject

    def remaining_right(self, reason):
        """The right that remains where the chain of a reason ends or stops, a value `(five ..)`, or None if it is not known."""
        return self.rights_left.get((reason.entry, reason.item))


def issuer_of(certificate):
    """The issuer of a certificate: a principal, or a name that the certificate defines."""
    return field(certificate, b"issuer")[1]


def subject_of(certificate):
    """The subject of a certificate: a principal or a name. A relative name, `(name NAME ..)`, gets the principal of the issuer: `(name PRINCIPAL
    NAME ..)`."""
    subject, issuer = field(certificate, b"subject")[1], issuer_of(certificate)
    if subject[0] == b"name" and isinstance(subject[1], bytes):
        return [b"name", issuer[1] if issuer[0] == b"name" else issuer, *subject[1:]]
    return subject


def subject_after(before, certificate):
    """The subject of a right after a certificate. `before` is the subject of the right before it. A certificate that gives a right gives it to its
    own subject. One that defines a name replaces the first name of `before`, and further names stay."""
    subject = subject_of(certificate)
    # (a name is `(name PRINCIPAL NAME NAME ..)`, so its second name is member 3)
    further_names = before[3:] if issuer_of(certificate)[0] == b"name" and before[0] == b"name" else []
    if not further_names:
        return subject
    return [*subject, *further_names] if subject[0] == b"name" else [b"name", subject, *further_names]


def window(value):
    """The validity of an entry, a certificate or a right, in words, as `from 2026-01-01 00:00:00`, or None if it has no limit."""
    limits = field(value, b"valid") or value
    parts = [(word, field(limits, head)) for word, head in (("from", b"not-before"), ("until", b"not-after"))]
    return " ".join(f"{word} {moment_of(limit[1])}" for word, limit in parts if limit) or None


def moment_of(date):
    """A date, given as octets, as the page shows it: 2026-03-01 12:00:00."""
    return date.decode(errors="replace").replace("_", " ")


def tag_of(value):
    """The tag of an entry, a certificate or a right, as text, or None."""
    tag = field(value, b"tag")
    return on_one_line(tag[1]) if tag else None
