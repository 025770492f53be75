"""Which certificates of a sequence pass the tests of evidence, and their tuples (section "Evidence and decision"). `strict`: SHA-1 names no key."""
import hashlib
from collections.abc import Iterable, Iterator
from dataclasses import dataclass
from typing import Union

from .case import Row
from .coverage import Rows  # (`X.count_use(row)` counts one use of a row of the table X)
from .structures import Certificate, Hash, Item, Key, Principal, Signature, Subject, Window
from .tags import Tag

STOPS = Rows("evidence, stop", ["KeyNotShown", "DigestDiffers", "SignerDiffers", "NotAccepted"])
NAMED = Rows("a principal names a key", ["a key", "sha1", "sha1 under the strict policy", "sha256", "sha512"])
ISSUERS = Rows("evidence, the issuer's key", ["as written", "shown before", "shown behind", "the first of several"])


class Stopped(Exception):
    """The first certificate that fails a test of evidence: the number of its item, and the first test that it fails. Counts the row of STOPS."""

    def __init__(self, item: int, stop: str) -> None:
        super().__init__(item, stop)
        STOPS.count_use(stop)
        self.item = item
        self.stop = stop


@dataclass(frozen=True, slots=True)
class Authorization:
    """RFC 2693's 5-tuple of a certificate or an entry, whose issuer is Self if there is no key."""

    issuer: Key | None
    subject: Subject
    propagate: bool
    tag: Tag
    window: Window


@dataclass(frozen=True, slots=True)
class Definition:
    """RFC 2693's 4-tuple: what a name of a key means."""

    key: Key
    name: bytes
    subject: Subject
    window: Window


Tuple = Union[Authorization, Definition]


def names(principal: Principal | None, key: Key, strict: bool) -> bool:
    """Whether a principal names a key: it is the key, or a hash of it. Under the strict policy a `sha1` hash names no key."""
    if not isinstance(principal, Hash):
        if principal == key:
            NAMED.count_use("a key")
        return principal == key
    if not principal.fits(key.octets):
        return False
    refused = strict and principal.algorithm == b"sha1"
    NAMED.count_use("sha1 under the strict policy" if refused else principal.algorithm.decode())
    return not refused


def proved_tuples(items: list[Item], rows: Iterable[Row], strict: bool) -> list[tuple[int, Tuple]]:
    """The number of the item and the tuple of each certificate, if `rows` accept their signatures. Raises Stopped at the first that fails a test."""
    accepted = set(rows)
    return [(number, tuple_of(number, certificate, signature, items, accepted, strict))
            for number, certificate, signature in signed_certificates(items)]


def signed_certificates(items: list[Item]) -> Iterator[tuple[int, Certificate, Signature]]:
    """Each certificate: the number of its item, itself, and its signature. `read_sequence` has required a signature behind each."""
    for number, item in enumerate(items, 1):
        if isinstance(item, Certificate):
            yield number, item, next(later for later in items[number:] if isinstance(later, Signature))


def tuple_of(number: int, certificate: Certificate, signature: Signature, items: list[Item], accepted: set[Row], strict: bool) -> Tuple:
    """The tuple of a certificate, the item of this number, if it passes the four tests. Raises Stopped with the first, in order, that it fails."""
    key = issuer_key(certificate.issuer, number, items, strict)
    if key is None:
        raise Stopped(number, "KeyNotShown")
    if not signature.digest.fits(certificate.octets):
        raise Stopped(number, "DigestDiffers")
    if not names(signature.signer, key, strict):
        raise Stopped(number, "SignerDiffers")
    if Row(key, hashlib.sha256(certificate.octets).digest(), signature.value) not in accepted:
        raise Stopped(number, "NotAccepted")
    if certificate.name is not None:
        return Definition(key, certificate.name, certificate.subject, certificate.window)
    assert certificate.tag is not None
    return Authorization(key, certificate.subject, certificate.propagate, certificate.tag, certificate.window)


def issuer_key(issuer: Principal, number: int, items: list[Item], strict: bool) -> Key | None:
    """The issuer itself if it is a key, else the first key in the whole sequence that the hash names, or None. The number is the certificate's."""
    if isinstance(issuer, Key):
        ISSUERS.count_use("as written")
        return issuer
    keys = [(at, item) for at, item in enumerate(items, 1) if isinstance(item, Key) and names(issuer, item, strict)]
    if not keys:
        return None
    first, key = keys[0]
    ISSUERS.count_use("shown before" if first < number else "shown behind")
    if len(keys) > 1:
        ISSUERS.count_use("the first of several")
    return key
