"""Importing and exporting whole lists. The table `imports` of a store has a row for each list that was imported, by the SHA-256 digest of its text:
how many of its octets and entries are in the store by now, and whether that is all."""
from __future__ import annotations

import hashlib
import os
import sys
import tempfile
import time
from collections import Counter
from collections.abc import Iterator

from .tables import Row, Store
from .texts import BEGIN, END, Wrong, batches, entries_in, fault_of, read_list

# The entries of one transaction of an import.
MOST_AT_ONCE = 5000
# The seconds between two lines of progress.
PAUSE = 0.5


class Progress:
    """A line on standard error that says how far an import is."""

    def __init__(self, octets: int, entries_before: int, is_shown: bool) -> None:
        """`octets` is the length of the list, and `entries_before` how many of its entries an earlier import has added. Unless `is_shown`, nothing is
        written."""
        self.octets, self.entries_before, self.is_shown = octets, entries_before, is_shown
        # (when the import began, and when the line was last written, in seconds)
        self.begun, self.shown_at = time.monotonic(), 0.0

    def show(self, done: int, entries: int) -> None:
        """Shows that so many octets (`done`) and entries of the list are imported, at most once in PAUSE seconds and at the end."""
        now = time.monotonic()
        if self.is_shown and (now - self.shown_at > PAUSE or done == self.octets):
            # (`max`, since neither the time nor the length may be 0 in a division)
            self.shown_at, rate = now, (entries - self.entries_before) / max(now - self.begun, 0.001)
            # (the whole bar is 30 letters wide)
            bar = "#" * (30 * done // max(self.octets, 1))
            sys.stderr.write(f"\r[{bar:<30}] {100 * done // max(self.octets, 1):>3} %  {entries:,} entries, {rate:,.0f} a second ")
            sys.stderr.write("\n" if done == self.octets else "")
            sys.stderr.flush()


def digest_of(text: bytes) -> bytes:
    """The SHA-256 digest by which a list is known in `imports`."""
    return hashlib.sha256(text).digest()


def parts_of(text: bytes, begin: int) -> Iterator[tuple[list[bytes], int]]:
    """Yields the entries of a list from the offset `begin` on in parts, each for one transaction, with the offset behind it. Raises Wrong as
    `entries_in` does."""
    # (an item of a batch is an entry and the offset behind it)
    for batch in batches(((item, len(item[0])) for item in entries_in(text, begin)), MOST_AT_ONCE):
        yield [entry for entry, _ in batch], batch[-1][1]


def import_list(store: Store, path: str, is_shown: bool) -> tuple[int, int]:
    """Adds the entries of the list in the file at `path`. Returns how many were added now, and how many before, by an import of this list that did
    not end. `is_shown` says whether to show the progress. Raises Wrong for a list that was imported before or is being imported, or has something
    that is no entry: since all entries are tested first, such a list adds nothing."""
    text = read_list(path)
    digest, offset, before = digest_of(text), 0, 0
    # (at most one row: how far an import of this list is)
    for offset, before, is_done in store.rows("SELECT octets, entries, is_done FROM {imports} WHERE file = %s", digest):
        if is_done:
            raise Wrong(f"{path}: this list was imported before, {before} entries: `spki-store import --again` adds them once more")
    progress, count = Progress(len(text), before, is_shown), before
    progress.show(offset, before)
    for texts, _ in parts_of(text, offset):
        if fault := fault_of(texts):
            raise Wrong(f"{path}: entry {count + fault[0] + 1}: {fault[1]}")
        count += len(texts)
    count = before
    for texts, end in parts_of(text, offset):
        count += len(texts)
        add_noted(store, texts, digest, offset, end, count, is_done=False)
        offset = end
        progress.show(end, count)
    add_noted(store, [], digest, offset, len(text), count, is_done=True)
    progress.show(len(text), count)
    return count - before, before


def add_noted(store: Store, texts: list[bytes], digest: bytes, begin: int, end: int, entries: int, is_done: bool) -> None:
    """Adds entries in canonical form, and notes that the list with a digest was imported from the offset `begin` up to `end`, and has so many entries
    up to there. `is_done` says that it is the whole list. One statement does both: so nothing is added twice, and a client that is stopped or lost
    leaves no transaction open, for which all other changes would wait. Raises Wrong, and adds nothing, if the list is no longer imported just up to
    `begin`: another import of it has done that meanwhile."""
    # (this makes the list's row, or changes it if it is at `begin`; otherwise `noted` has no row. COPY would take less time, but the policies of
    # schema.sql for rows forbid it)
    if not store.rows("WITH noted AS (INSERT INTO {imports} AS so_far (file, octets, entries, is_done) VALUES (%s, %s, %s, %s)"
                      " ON CONFLICT (file) DO UPDATE SET octets = excluded.octets, entries = excluded.entries, is_done = excluded.is_done"
                      " WHERE so_far.octets = %s AND NOT so_far.is_done RETURNING 1),"
                      " added AS (INSERT INTO {entries} (text) SELECT * FROM unnest(%b::bytea[]) WHERE EXISTS (SELECT FROM noted))"
                      " SELECT 1 FROM noted", digest, end, entries, is_done, begin, texts):
        raise Wrong("this list is being imported by another process: nothing is added twice")


def forget(store: Store, path: str) -> None:
    """Forgets that a list was imported, wholly or in part, so that the next import begins anew. Its entries stay in the store."""
    store.rows("DELETE FROM {imports} WHERE file = %s", digest_of(read_list(path)))


def export_list(store: Store, path: str) -> int:
    """Writes all entries as one list in canonical form into a new file, which only its owner may read, whole or not at all. Returns how many they
    are. Raises Wrong if the file is there already, and OSError."""
    if os.path.lexists(path):
        raise Wrong(f"{path} is there already, and is not written over")
    count = 0
    with tempfile.NamedTemporaryFile(dir=os.path.dirname(os.path.abspath(path)), prefix=".spki-store-", delete=False) as file:
        try:
            file.write(BEGIN)
            for count, row in enumerate(store.all(), 1):
                file.write(row.text)
            file.write(END)
            file.flush()
            os.fsync(file.fileno())
            # (a file that somebody else has made meanwhile stays)
            os.link(file.name, path)
        except FileExistsError:
            raise Wrong(f"{path} is there already, and is not written over") from None
        finally:
            os.unlink(file.name)
    return count


def differences(store: Store, path: str) -> Iterator[tuple[Row | None, bytes]]:
    """Yields the rows that a list does not have, each with its text, and then None with each entry of the list that the store does not have. Of equal
    entries each counts: one that the list has twice and the store once is missing once."""
    text = read_list(path)
    # (how often the list has each entry, by its digest, less the rows that have it)
    counts = Counter(hashlib.sha256(entry).digest() for entry, _ in entries_in(text))
    for row in store.all():
        digest = hashlib.sha256(row.text).digest()
        if counts[digest] > 0:
            counts[digest] -= 1
        else:
            yield row, row.text
    # (unary plus leaves out what is not above 0)
    missing = +counts
    for entry, _ in entries_in(text) if missing else ():
        digest = hashlib.sha256(entry).digest()
        if missing[digest] > 0:
            missing[digest] -= 1
            yield None, entry
