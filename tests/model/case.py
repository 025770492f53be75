"""The case, and rows as a text of their own (section "The case"). A row of a case is a signature that is accepted."""
from collections.abc import Callable
from dataclasses import dataclass
from typing import Any

from . import structures, tags
from .coverage import Rows  # (`X.count_use(row)` counts one use of a row of the table X)
from .structures import Entry, Item, ItemFault, Key, Members, StructureFault, read_date, read_hash, read_key
from .tags import TagFault
from .values import Value, canonical, head_of, is_plain

PARTS = (b"acl", b"accepted", b"sequence", b"key", b"request", b"at")
REFUSED = Rows("case, refused", [
    "case Shape", "acl 0", "acl", "accepted", "sequence", "key", "request", "at", "accepted: a hash of another algorithm"])
POLICIES = Rows("case, policy", ["strict", "none"])


class CaseFault(Exception):
    """Why a value is no case, or a part of it is wrong: the words behind `refused` in the line."""


@dataclass(frozen=True, slots=True)
class Row:
    """A signature that is accepted: its signer, the SHA-256 digest of the message, and the canonical text of its value."""

    key: Key
    digest: bytes
    value: bytes


@dataclass(frozen=True, slots=True)
class Case:
    """A case: the entries, the accepted signatures, the items of the sequence, and who asks for what, and when."""

    entries: list[Entry]
    rows: list[Row]
    items: list[Item]
    key: Key
    request: Value
    moment: bytes
    strict: bool


def has_outer_structure(value: Value) -> bool:
    """Whether a value is a list `(case ..)` with members of the heads PARTS, each of `key`, `request` and `at` with exactly one member behind its
    head, and then `(policy strict)` or nothing. What is inside is not read."""
    if head_of(value) != b"case":
        return False
    assert isinstance(value, tuple)
    parts, policy = value[1:7], value[7:]
    return (tuple(map(head_of, parts)) == PARTS and all(isinstance(part, tuple) and len(part) == 2 for part in parts[3:])
            and (not policy or len(policy) == 1 and is_policy(policy[0])))


def is_policy(value: Value) -> bool:
    """Whether a value is `(policy strict)`."""
    return isinstance(value, tuple) and len(value) == 2 and head_of(value) == b"policy" and is_plain(value[1], b"strict")


def read(value: Value) -> Case:
    """The case that a value is. Raises CaseFault with its first fault."""
    if not has_outer_structure(value):
        REFUSED.count_use("case Shape")
        raise CaseFault("case Shape")
    assert isinstance(value, tuple)
    acl, accepted, sequence, key, request, at = value[1:7]
    assert isinstance(key, tuple) and isinstance(request, tuple) and isinstance(at, tuple)
    strict = len(value) == 8
    POLICIES.count_use("strict" if strict else "none")
    return Case(part("acl", structures.read_access_list, acl), part("accepted", read_rows, accepted),
                part("sequence", structures.read_sequence, sequence), part("key", read_key, key[1]),
                part("request", tags.read_request, request[1]), part("at", read_date, at[1]), strict)


def part(name: str, read_part: Callable[[Value], Any], value: Value) -> Any:
    """What `read_part` returns for a part of a case. Its faults become a CaseFault with the part's name."""
    try:
        return read_part(value)
    except ItemFault as fault:
        REFUSED.count_use("acl 0" if name == "acl" and not fault.item else name)
        raise CaseFault(f"{name} {fault.item} {fault.kind}") from None
    except (StructureFault, TagFault) as fault:
        REFUSED.count_use(name)
        raise CaseFault(f"{name} {fault}") from None


def read_rows(value: Value) -> list[Row]:
    """Reads `(accepted row ..)`. Raises StructureFault for a list of another head, and ItemFault with the number of a row that has a fault."""
    return [structures.read_numbered(number, read_row, member) for number, member in enumerate(Members(value, b"accepted").left, 1)]


def read_row(value: Value) -> Row:
    """Reads `(by key hash value)`. Raises StructureFault, HashAlg also for a hash that is not by `sha256`."""
    members = Members(value, b"by")
    key = read_key(members.next())
    digest = read_hash(members.next())
    if digest.algorithm != b"sha256":
        REFUSED.count_use("accepted: a hash of another algorithm")
        raise StructureFault("HashAlg")
    row = Row(key, digest.digest, canonical(members.next()))
    members.end()
    return row
