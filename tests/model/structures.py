"""Keys, hashes, names, dates, entries, certificates, sequences (section "Keys, hashes, dates, entries, certificates").

Each reader takes a value, and returns the structure that it is or raises its first fault in reading order: StructureFault, or ItemFault for items."""
import hashlib
import re
from collections.abc import Callable, Iterable
from dataclasses import dataclass, field
from typing import Any, Union

from . import tags
from .coverage import Rows  # (`X.count_use(row)` counts one use of a row of the table X)
from .tags import DATE, Tag, TagFault
from .values import Atom, Value, canonical, head_of, is_plain

DIGESTS = {b"sha1": hashlib.sha1, b"sha256": hashlib.sha256, b"sha512": hashlib.sha512}
KINDS = ["Shape", "UnknownVersion", "HashAlg", "DigestLength", "KeyUris", "Threshold", "Keyholder", "Online", "RelativeInEntry",
         "BadDate", "UnsignedCert", "StraySignature", "UnknownOp"]
FAULTS = Rows("structure, fault", KINDS + [
    f"Tag {kind}" for kind in ("EmptyList", "ListHead", "Hint", "UnknownStar", "RangeOrdering", "RangeLimit", "TooManyNodes")])
SHAPES = Rows("structure, Shape", [
    "a list of another head", "a member is missing", "a member too many", "an algorithm that is no plain string", "an algorithm is a list",
    "a digest that is no plain string", "neither a key nor a hash", "a name that is no plain string", "no subject", "a version is a list", "no field",
    "a field twice", "a field is missing", "validity both ways", "tag or propagate beside a name", "an issuer of two names", "no item"])
PLACES = Rows("structure, other faults by their place", [
    *(f"HashAlg: {place}, {what}" for place in ("a hash", "a hash without a digest", "an operation") for what in ("another string", "a hint")),
    *(f"UnknownVersion: {place}, {what}" for place in ("a list", "a certificate") for what in ("another string", "a hint")),
    *(f"BadDate: {what}" for what in ("a list", "a hint", "another form", "month", "day", "hour", "minute", "second")),
    *(f"UnknownOp: {what}" for what in ("no second member", "a list", "a hint", "another string"))])
FORMS = Rows("structure that is read", [
    "key", "hash with uri", "hash without uri", "a key as a subject", "a hash as a subject", "a name as a subject",
    "a relative name as a subject", "limits directly", "limits in valid", "an empty valid", "no limit", "version of a list",
    "version of a certificate", "ignored field", "propagate", "a hash as an issuer", "certificate of an authorization",
    "certificate of a name", "do", "do between certificate and signature", "key item", "a window that holds no moment"])


class StructureFault(Exception):
    """Why a value is not the structure that is read: a kind of KINDS, or `Tag` and the tag's fault. Each that is made is counted in FAULTS."""

    def __init__(self, kind: str) -> None:
        super().__init__(kind)
        FAULTS.count_use(kind)
        self.kind = kind


class ItemFault(Exception):
    """A fault of an item of an access list, a sequence or a list of rows: its number, from 1, or 0 for the version of a list; and its kind."""

    def __init__(self, item: int, kind: str) -> None:
        super().__init__(item, kind)
        self.item = item
        self.kind = kind


def shape_fault(row: str) -> StructureFault:
    """The fault Shape to raise. Counts the row of SHAPES that says what is wrong."""
    SHAPES.count_use(row)
    return StructureFault("Shape")


def fault_at(kind: str, place: str) -> StructureFault:
    """The StructureFault of a kind other than Shape to raise. Counts the row `KIND: PLACE` of PLACES."""
    PLACES.count_use(f"{kind}: {place}")
    return StructureFault(kind)


@dataclass(frozen=True, slots=True)
class Key:
    """A key: the octets of its canonical text, by which keys are compared, and the value as it was read, which `reduce` prints."""

    octets: bytes
    value: Value = field(compare=False)


@dataclass(frozen=True, slots=True)
class Hash:
    """A hash of a canonical text: of a key, or of what is signed."""

    algorithm: bytes
    digest: bytes

    def fits(self, octets: bytes) -> bool:
        """Whether the digest is that of these octets."""
        return DIGESTS[self.algorithm](octets).digest() == self.digest


Principal = Union[Key, Hash]


@dataclass(frozen=True, slots=True)
class Subject:
    """A principal, or a name of it. A relative name has no principal of its own."""

    principal: Principal | None
    names: tuple[bytes, ...] = ()


@dataclass(frozen=True, slots=True)
class Window:
    """The moments from one to another, both included. A missing limit does not limit."""

    not_before: bytes | None = None
    not_after: bytes | None = None

    def holds(self, moment: bytes) -> bool:
        """Whether a moment is in the window."""
        return (self.not_before or moment) <= moment <= (self.not_after or moment)


@dataclass(frozen=True, slots=True)
class Entry:
    """An entry of an access list."""

    subject: Subject
    propagate: bool
    tag: Tag
    window: Window


@dataclass(frozen=True, slots=True)
class Certificate:
    """A certificate: with a `name` it defines this name of the issuer, otherwise it is an authorization with a tag. `octets`: its canonical text."""

    issuer: Principal
    name: bytes | None
    subject: Subject
    propagate: bool
    tag: Tag | None
    window: Window
    octets: bytes


@dataclass(frozen=True, slots=True)
class Signature:
    """A signature: of the message with this digest, by whom, and its value's canonical text."""

    digest: Hash
    signer: Principal
    value: bytes


@dataclass(frozen=True, slots=True)
class Operation:
    """An item `(do hash alg)`, which has no effect."""


Item = Union[Key, Operation, Certificate, Signature]


# ---- fixed forms


class Members:
    """The members of a list behind its head, taken from the left: `left` has those that are not yet taken. Raises Shape for any other value."""

    def __init__(self, value: Value, head: bytes) -> None:
        if head_of(value) != head:
            raise shape_fault("a list of another head")
        assert isinstance(value, tuple)
        self.left = value[1:]

    def next(self) -> Value:
        """The next member, which is taken away. Raises Shape if none is left."""
        if not self.left:
            raise shape_fault("a member is missing")
        first, self.left = self.left[0], self.left[1:]
        return first

    def end(self) -> None:
        """Raises Shape if a member is left."""
        if self.left:
            raise shape_fault("a member too many")


def read_key(value: Value) -> Key:
    """Reads `(public-key (alg part*))`. Raises KeyUris for a list `(uri ..)` behind the inner list."""
    members = Members(value, b"public-key")
    if head_of(members.next()) is None:
        raise shape_fault("an algorithm that is no plain string")
    if members.left and head_of(members.left[0]) == b"uri":
        raise StructureFault("KeyUris")
    members.end()
    FORMS.count_use("key")
    return Key(canonical(value), value)


def read_algorithm(value: Value, place: str) -> bytes:
    """The algorithm of a hash. `place` names the structure in PLACES. Raises Shape for a list, and HashAlg for a string that names none."""
    if isinstance(value, tuple):
        raise shape_fault("an algorithm is a list")
    if value.hint is not None or value.body not in DIGESTS:
        raise fault_at("HashAlg", f"{place}, {'another string' if value.hint is None else 'a hint'}")
    return value.body


def read_hash(value: Value) -> Hash:
    """Reads `(hash alg digest (uri x*)?)`."""
    members = Members(value, b"hash")
    # (a fault of the algorithm comes before that of a digest that is not there, and PLACES counts both)
    has_digest = len(members.left) > 1
    algorithm = read_algorithm(members.next(), "a hash" if has_digest else "a hash without a digest")
    digest = members.next()
    if not isinstance(digest, Atom) or digest.hint is not None:
        raise shape_fault("a digest that is no plain string")
    if len(digest.body) != DIGESTS[algorithm]().digest_size:
        raise StructureFault("DigestLength")
    has_uri = bool(members.left) and head_of(members.left[0]) == b"uri"
    if has_uri:
        members.next()
    members.end()
    FORMS.count_use("hash with uri" if has_uri else "hash without uri")
    return Hash(algorithm, digest.body)


def read_principal(value: Value) -> Principal:
    """Reads a principal: a key, or the hash of one."""
    if head_of(value) == b"public-key":
        return read_key(value)
    if head_of(value) == b"hash":
        return read_hash(value)
    raise shape_fault("neither a key nor a hash")


def read_name(value: Value) -> Subject:
    """Reads `(name principal n n*)`, or `(name n n*)`, which has no principal."""
    members = Members(value, b"name")
    first = members.next()
    if isinstance(first, tuple):
        principal = read_principal(first)
        names = (members.next(), *members.left)
    else:
        principal = None
        names = (first, *members.left)
    if not all(map(is_plain, names)):
        raise shape_fault("a name that is no plain string")
    return Subject(principal, tuple(name.body for name in names if isinstance(name, Atom)))


def read_subject(value: Value) -> Subject:
    """Reads a subject: a principal, a name or a relative name. RFC 2693's other subjects, `k-of-n` and `keyholder`, raise Threshold and Keyholder."""
    head = head_of(value)
    if head == b"k-of-n":
        raise StructureFault("Threshold")
    if head == b"keyholder":
        raise StructureFault("Keyholder")
    if head == b"name":
        subject = read_name(value)
        FORMS.count_use("a name as a subject" if subject.principal else "a relative name as a subject")
        return subject
    if head not in (b"public-key", b"hash"):
        raise shape_fault("no subject")
    principal = read_principal(value)
    FORMS.count_use("a key as a subject" if isinstance(principal, Key) else "a hash as a subject")
    return Subject(principal)


def read_date(value: Value) -> bytes:
    """The octets of a date `YYYY-MM-DD_hh:mm:ss`. Its only fault is BadDate."""
    if not isinstance(value, Atom) or value.hint is not None or not DATE.fullmatch(value.body):
        raise fault_at("BadDate", why_no_date(value))
    return value.body


def why_no_date(value: Value) -> str:
    """Why a value is no date, as in a row of PLACES: a list, a hint, another form, or the name of the first number that is out of its range."""
    if not isinstance(value, Atom) or value.hint is not None:
        return "a hint" if isinstance(value, Atom) else "a list"
    numbers = re.fullmatch(rb"[0-9]{4}-([0-9]{2})-([0-9]{2})_([0-9]{2}):([0-9]{2}):([0-9]{2})", value.body)
    if not numbers:
        return "another form"
    least_and_most = {"month": (1, 12), "day": (1, 31), "hour": (0, 23), "minute": (0, 59), "second": (0, 60)}
    return next(name for (name, (least, most)), number in zip(least_and_most.items(), numbers.groups()) if not least <= int(number) <= most)


def read_tag(value: Value) -> Tag:
    """Reads a tag within a structure. Its fault becomes a StructureFault `Tag FAULT`."""
    try:
        return tags.read(value)
    except TagFault as fault:
        raise StructureFault(f"Tag {fault}") from None


def read_version(value: Value, place: str = "a list") -> None:
    """Reads `(version "0")`. `place` names the structure that it is in, as PLACES does."""
    members = Members(value, b"version")
    number = members.next()
    if isinstance(number, tuple):
        raise shape_fault("a version is a list")
    if number != Atom(b"0"):
        raise fault_at("UnknownVersion", f"{place}, {'another string' if number.hint is None else 'a hint'}")
    members.end()


# ---- fields


def reader_of_one(read: Callable[[Value], Any]) -> Callable[[Value], Any]:
    """The reader of a field of any head that has one member, by the reader of the member."""
    def reader(value: Value) -> Any:
        """Reads a field. Raises Shape unless it has exactly one member, and what `read` raises for that."""
        members = Members(value, head_of(value) or b"")
        content = read(members.next())
        members.end()
        return content

    return reader


def read_propagate(value: Value) -> bool:
    """Reads `(propagate)`."""
    Members(value, b"propagate").end()
    FORMS.count_use("propagate")
    return True


def read_ignored(value: Value) -> None:
    """Reads a field such as `(comment ..)`, which may have any content and has no effect."""
    FORMS.count_use("ignored field")


def read_issuer(value: Value) -> Subject:
    """Reads the member of `(issuer ..)`: a principal, or `(name principal n)` with one name."""
    if head_of(value) != b"name":
        return Subject(read_principal(value))
    subject = read_name(value)
    if subject.principal is None:
        raise shape_fault("neither a key nor a hash")
    if len(subject.names) != 1:
        raise shape_fault("an issuer of two names")
    return subject


def read_valid(value: Value) -> dict[bytes, Any]:
    """Reads `(valid ..)`: its limits by their heads."""
    return read_fields(Members(value, b"valid").left, LIMITS)


def read_certificate_version(value: Value) -> None:
    """Reads `(version "0")` in a certificate."""
    read_version(value, "a certificate")
    FORMS.count_use("version of a certificate")


Readers = dict[bytes, Callable[[Value], Any]]
LIMITS: Readers = {b"not-before": reader_of_one(read_date), b"not-after": reader_of_one(read_date)}
ENTRY: Readers = {**LIMITS, b"valid": read_valid, b"tag": reader_of_one(read_tag), b"propagate": read_propagate, b"comment": read_ignored}
CERTIFICATE: Readers = {
    **ENTRY, b"issuer": reader_of_one(read_issuer), b"subject": reader_of_one(read_subject), b"version": read_certificate_version,
    b"display": read_ignored, b"issuer-info": read_ignored, b"subject-info": read_ignored}


def read_fields(fields: Iterable[Value], readers: Readers) -> dict[bytes, Any]:
    """What the reader of each field returns, by the field's head. Fields may have any order, each at most once. Raises Shape for a field that
    has no reader or comes twice, and Online for `(online ..)`."""
    contents: dict[bytes, Any] = {}
    for value in fields:
        head = head_of(value)
        if head == b"online":
            raise StructureFault("Online")
        if head not in readers:
            raise shape_fault("no field")
        if head in contents:
            raise shape_fault("a field twice")
        contents[head] = readers[head](value)
    return contents


def require_fields(contents: dict[bytes, Any], *heads: bytes) -> None:
    """Raises Shape if one of these fields is missing in what `read_fields` returned."""
    if any(head not in contents for head in heads):
        raise shape_fault("a field is missing")


def window_of(contents: dict[bytes, Any]) -> Window:
    """The window of what `read_fields` returned: its limits are fields themselves or are in `(valid ..)`. Raises Shape if there are both."""
    directly = {head: contents[head] for head in LIMITS if head in contents}
    if b"valid" not in contents:
        limits, form = directly, "limits directly" if directly else "no limit"
    elif directly:
        raise shape_fault("validity both ways")
    else:
        limits, form = contents[b"valid"], "limits in valid" if contents[b"valid"] else "an empty valid"
    FORMS.count_use(form)
    window = Window(limits.get(b"not-before"), limits.get(b"not-after"))
    if len(limits) == 2 and limits[b"not-before"] > limits[b"not-after"]:
        FORMS.count_use("a window that holds no moment")
    return window


# ---- lists


def read_entry(value: Value) -> Entry:
    """Reads `(entry subject field*)`. The subject must not be a relative name, and one field must be a tag."""
    members = Members(value, b"entry")
    subject = read_subject(members.next())
    if subject.principal is None:
        raise StructureFault("RelativeInEntry")
    contents = read_fields(members.left, ENTRY)
    require_fields(contents, b"tag")
    return Entry(subject, b"propagate" in contents, contents[b"tag"], window_of(contents))


def read_access_list(value: Value) -> list[Entry]:
    """Reads `(acl version? entry*)`. Raises ItemFault for an entry, by its number from 1, or the version, by 0, and Shape for another head."""
    entries = Members(value, b"acl").left
    if entries and head_of(entries[0]) == b"version":
        read_numbered(0, read_version, entries[0])
        FORMS.count_use("version of a list")
        entries = entries[1:]
    return [read_numbered(number, read_entry, entry) for number, entry in enumerate(entries, 1)]


def read_numbered(number: int, read: Callable[[Value], Any], value: Value) -> Any:
    """What a reader returns for an item. Raises ItemFault, with the item's number, where the reader raises StructureFault."""
    try:
        return read(value)
    except StructureFault as fault:
        raise ItemFault(number, fault.kind) from None


def read_certificate(value: Value) -> Certificate:
    """Reads `(cert field*)`, which has either an issuer with a name or a tag. A relative name as its subject becomes one of the issuer."""
    contents = read_fields(Members(value, b"cert").left, CERTIFICATE)
    require_fields(contents, b"issuer", b"subject")
    issuer, subject = contents[b"issuer"], contents[b"subject"]
    if issuer.names:
        if b"tag" in contents or b"propagate" in contents:
            raise shape_fault("tag or propagate beside a name")
    else:
        require_fields(contents, b"tag")
    window = window_of(contents)
    if subject.principal is None:
        subject = Subject(issuer.principal, subject.names)
    FORMS.count_use("certificate of a name" if issuer.names else "certificate of an authorization")
    if isinstance(issuer.principal, Hash):
        FORMS.count_use("a hash as an issuer")
    name = issuer.names[0] if issuer.names else None
    return Certificate(issuer.principal, name, subject, b"propagate" in contents, contents.get(b"tag"), window, canonical(value))


def read_signature(value: Value) -> Signature:
    """Reads `(signature hash principal value)`."""
    members = Members(value, b"signature")
    signature = Signature(read_hash(members.next()), read_principal(members.next()), canonical(members.next()))
    members.end()
    return signature


def read_operation(value: Value) -> Operation:
    """Reads `(do hash alg)`."""
    members = Members(value, b"do")
    if not members.left:
        raise fault_at("UnknownOp", "no second member")
    operation = members.next()
    if not is_plain(operation, b"hash"):
        raise fault_at("UnknownOp", "a list" if isinstance(operation, tuple) else "a hint" if operation.hint is not None else "another string")
    read_algorithm(members.next(), "an operation")
    members.end()
    FORMS.count_use("do")
    return Operation()


def read_sequence(value: Value) -> list[Item]:
    """Reads `(sequence item*)`. Behind a certificate must be its signature, only `(do ..)` between. Raises ItemFault, or Shape for another head."""
    items: list[Item] = []
    # the number of the certificate whose signature is still to come, or 0
    unsigned = 0
    for number, member in enumerate(Members(value, b"sequence").left, 1):
        if unsigned and head_of(member) not in (b"do", b"signature"):
            break  # (the fault is that of the certificate, and comes before one of this member)
        if not unsigned and head_of(member) == b"signature":
            raise ItemFault(number, StructureFault("StraySignature").kind)
        item = read_numbered(number, read_item, member)
        if unsigned and isinstance(item, Operation):
            FORMS.count_use("do between certificate and signature")
        unsigned = number if isinstance(item, Certificate) else 0 if isinstance(item, Signature) else unsigned
        items.append(item)
    if unsigned:
        raise ItemFault(unsigned, StructureFault("UnsignedCert").kind)
    return items


def read_item(value: Value) -> Item:
    """An item of a sequence, by the reader for its head."""
    readers: dict[bytes | None, Callable[[Value], Item]] = {
        b"public-key": read_key, b"do": read_operation, b"cert": read_certificate, b"signature": read_signature}
    head = head_of(value)
    if head not in readers:
        raise shape_fault("no item")
    if head == b"public-key":
        FORMS.count_use("key item")
    return readers[head](value)
