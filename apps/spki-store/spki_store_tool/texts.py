"""Access lists of any length as texts in canonical form, and their entries.

The library is loaded where a text is read: the heartbeat needs none."""
from __future__ import annotations

import contextlib
import hashlib
import os
from collections.abc import Iterable, Iterator
from typing import TypeVar

# The octets that the library reads at once.
MOST = 1 << 20
# The text of an access list in canonical form is BEGIN, perhaps VERSION, its entries, and END.
BEGIN, VERSION, END = b"(3:acl", b"(7:version1:0)", b")"
# (octets as numbers, which an index into octets gives)
OPENED, CLOSED, BRACKETS = ord("("), ord(")"), b"[]"
# The most octets of a length with its colon: no string of an entry has more than 9,999,999 octets.
MOST_LENGTH = 8


class Wrong(Exception):
    """A text, a row of the database or a word of the command line is refused. The message says why."""


def end_of(text: bytes, at: int) -> int:
    """The offset behind the list in canonical form that begins at an offset. Raises Wrong if the list is not whole. Only parentheses and lengths are
    looked at: whether a list begins there, and whether the library reads it, is not tested."""
    # (how many lists are open; a string is passed by its length)
    depth = 0
    while at < len(text):
        octet = text[at]
        if octet == OPENED:
            depth += 1
        elif octet == CLOSED:
            depth -= 1
        elif octet not in BRACKETS:
            # (-1 if there is no colon: then `digits` is empty)
            colon = text.find(b":", at, at + MOST_LENGTH)
            digits = text[at:max(colon, at)]
            if not digits.isdigit():
                break
            at = colon + int(digits)
        at += 1
        if depth <= 0:
            break
    if depth or at > len(text):
        raise Wrong(f"octet {at}: no list in canonical form ends here")
    return at


def entries_in(text: bytes, begin: int = 0) -> Iterator[tuple[bytes, int]]:
    """Yields the entries of an access list in canonical form, each with the offset behind it. `begin` is 0, or such an offset, from which an import
    goes on. Raises Wrong if the text does not begin as an access list, or where neither a whole list nor the end of the access list follows. Does not
    test that the lists are entries."""
    if text[:len(BEGIN)] != BEGIN:
        raise Wrong("this is no access list, which begins with (3:acl in canonical form; one of over 1 MiB must be in this form")
    at = begin or len(BEGIN)
    if not begin and text[at:at + len(VERSION)] == VERSION:
        at += len(VERSION)
    while text[at:at + 1] == b"(":
        end = end_of(text, at)
        yield text[at:end], end
        at = end
    # (not the whole rest of a long list, which would be copied)
    if text[at:at + len(END) + 1] != END:
        raise Wrong(f"octet {at}: neither an entry nor the end of the list")


def read_list(path: str) -> bytes:
    """The text of the list in a file. One of at most 1 MiB may have any of the three forms, and is made canonical. A longer one is returned as it is.
    That it is an access list is not tested. Raises Wrong for a short text in none of the forms, or a longer stream, and OSError."""
    with open(path, "rb") as file:
        text = file.read(MOST + 1)
        if len(text) <= MOST:
            return canonical(text)
        # (a stream has no size)
        if not os.fstat(file.fileno()).st_size:
            raise Wrong(f"{path}: a list of over 1 MiB must be in a file, and this is a stream")
        # (not mapped: where a file that is mapped becomes shorter, the system ends the process)
        file.seek(0)
        return file.read()


def canonical(text: bytes) -> bytes:
    """The canonical form of a text of one value. Raises Wrong."""
    import spki
    try:
        return spki.canonical(text)
    except spki.Refused as refusal:
        raise Wrong(refusal.line) from None


def advanced(text: bytes) -> str:
    """A text in canonical form on one line, for people to read. If the library refuses it, its octets and why."""
    import spki
    try:
        return spki.advanced(text).decode().rstrip("\n")
    except spki.Refused as refusal:
        return f"{text!r}: {refusal.line}"


def entry_of(text: bytes) -> bytes:
    """The canonical form of a text that is one entry. Raises Wrong if it is none."""
    entry = canonical(text)
    if why := fault_of_one(entry):
        raise Wrong(why)
    return entry


def fault_of(texts: list[bytes]) -> tuple[int, str] | None:
    """The place, from 0, of the first text that is no entry in canonical form, and why. None if all are. Each text must be one list by parentheses
    and lengths, as `entries_in` cuts it and schema.sql requires it. So they are read as one access list if they fit into MOST octets, which takes
    less time than one by one."""
    import spki
    whole = BEGIN + b"".join(texts) + END
    # (a list that is refused is read again below, text by text)
    with contextlib.suppress(spki.Refused):
        if len(whole) <= MOST and spki.canonical(whole) == whole:
            with spki.Guard(whole) as guard:
                if guard.entries == len(texts):
                    return None
    for place, text in enumerate(texts):
        if why := fault_of_one(text):
            return place, why
    return None


def is_canonical(text: bytes) -> bool:
    """Whether a text is one value in canonical form."""
    import spki
    try:
        return spki.canonical(text) == text
    except spki.Refused:
        return False


def fault_of_one(text: bytes) -> str | None:
    """Why a text is no entry in canonical form. None if it is one."""
    import spki
    try:
        if spki.canonical(text) != text:
            return "the text is not in canonical form"
        with spki.Guard(BEGIN + text + END) as guard:
            return None if guard.entries == 1 else "the text is not one entry"
    except spki.Refused as refusal:
        return str(refusal.line)


def principal_of(text: bytes) -> bytes:
    """What an entry in canonical form is found by: the digest of its hash, or the SHA-256 digest of its key. Raises Wrong if its subject begins
    with neither."""
    import spki
    # (the principal is behind the 8 octets `(5:entry`, and for a name behind the 7 octets `(4:name` too)
    at = 15 if text[8:15] == b"(4:name" else 8
    principal = text[at:end_of(text, at)]
    if spki.string_at(principal, 0) not in (b"public-key", b"hash"):
        raise Wrong("an entry is for a key, a hash or a name that begins with one")
    # (the string at place 2 of `(hash ALGORITHM DIGEST)` is the digest; a key has none there)
    return spki.string_at(principal, 2) or hashlib.sha256(principal).digest()


Sized = TypeVar("Sized")


def batches(items: Iterable[tuple[Sized, int]], most: int) -> Iterator[list[Sized]]:
    """Yields items, each given with how many octets it has, in lists of at most `most` items whose octets fit into an access list of MOST octets. A
    longer item is a list alone."""
    batch: list[Sized] = []
    size = len(BEGIN) + len(END)
    for item, octets in items:
        if batch and (len(batch) == most or size + octets > MOST):
            yield batch
            batch, size = [], len(BEGIN) + len(END)
        batch.append(item)
        size += octets
    if batch:
        yield batch
