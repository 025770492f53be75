#!/usr/bin/env python3
"""A service whose access list is a table of a database: its entries come and go while it answers.

Alice has an entry, by the hash of her key, and passes a part of her right on to Bob. All sign requests by the code of examples/signed/run.py. Bob
asks again after the entry is removed, after it is added again, and after Alice's certificate is ended early. The keys need `cryptography` (Debian:
python3-cryptography).

The store is in the schema `spki_story` of the PostgreSQL whose settings of libpq are given. It must not be there, and is dropped at the end. Needs
psycopg (Debian: python3-psycopg). Build the program and the library first (`rt run` in crates/spki, crates/spki_c/archive.py).

Prints what it does. The last line, 'N passed, M failed', counts the answers that are as wanted: the tests read it.
Usage: examples/database/story.py SETTINGS        as 'host=/run/postgresql dbname=acl'
"""
import hashlib
import os
import sys
from datetime import datetime, timezone

HERE = os.path.dirname(os.path.abspath(__file__))
TOP = os.path.join(HERE, "..", "..")
os.environ.setdefault("SPKI_LIBRARY", os.path.join(TOP, "crates", "spki_c", "out", "libspki_c.so"))
sys.path[1:1] = [os.path.join(HERE, "..", "signed"), os.path.join(TOP, "bindings", "python"), os.path.join(TOP, "apps", "spki-store")]
# (where another Python than Debian's is the first in the path, it does not look for Debian's modules)
sys.path.append("/usr/lib/python3/dist-packages")
import entries  # noqa: E402
import psycopg  # noqa: E402
import spki  # noqa: E402
import spki_http  # noqa: E402
from run import Pair, asked_by, signed  # noqa: E402
from spki_cert_tool.keys import ED25519, RSA  # noqa: E402
from spki_store_tool.tables import ROLES, Store  # noqa: E402
from spki_verify import verify  # noqa: E402

NAME, SCHEMA = "packages.example", "spki_story"
READ, WRITE = ("packages", "read", "/builds/x"), ("packages", "write", "/builds/x")
RIGHTS = b"(tag (packages (* set read write)))"


def answers(store):
    """Asks one request after the other while Alice's entry is added to `store`, a `Store`, and removed. Yields for each answer whether it is the
    expected one. Carol's key is in no certificate."""
    alice, bob, carol = map(Pair, (RSA, ED25519, ED25519))
    to_bob = f'(cert (issuer {alice.principal}) (subject {bob.principal}) (tag (packages read)) (not-after "9999-12-31_23:59:59"))'
    sequence = f"(sequence {alice.text} {signed(to_bob, alice)})"
    service = entries.Service(store)
    entry_text, verifier = entries.entry(alice.principal.encode(), RIGHTS, b"(propagate)"), spki_http.Verifier(NAME)

    def asks(remark, pair, certificates, words, wanted):
        """Prints `remark` and the answer to a request of these words that a pair signs, with a sequence of certificates. Returns whether the answer
        is `wanted`: the number of the entry that grants, or None for a no."""
        method, target, fields = asked_by(pair, words, certificates)
        proof = verifier.check(spki_http.Message(method, NAME, target, fields.items(), b""))
        question = spki.Question(proof.sequence, spki.ProvenKey.assume(proof.key), words=[word.encode() for word in words],
                                 moment=datetime.now(timezone.utc))
        number = service.decide(question, verify)
        if number is not None:
            verifier.take(proof)  # (only for a yes: strangers could fill the store of nonces)
        print(f"{remark}: {'no' if number is None else f'yes, by entry {number}'}{'' if number == wanted else '; WANTED OTHERWISE'}")
        return number == wanted

    yield asks("Alice reads, and no entry is there", alice, "(sequence)", READ, None)
    first = store.add(entry_text)
    yield asks("Alice writes, and has an entry", alice, "(sequence)", WRITE, first)
    yield asks("Bob reads, by Alice's certificate", bob, sequence, READ, first)
    yield asks("Bob writes", bob, sequence, WRITE, None)
    yield asks("Carol shows Bob's certificate", carol, sequence, READ, None)
    store.remove(first)
    yield asks("Bob reads, and Alice's entry is removed", bob, sequence, READ, None)
    second = store.add(entry_text)
    yield asks("Bob reads, and Alice has an entry again", bob, sequence, READ, second)
    store.end(hashlib.sha256(spki.canonical(to_bob.encode())).digest(), "")
    yield asks("Bob reads, and Alice's certificate has ended", bob, sequence, READ, None)
    store.remove(second)


def main():
    """Makes the store, asks, and removes the store, with the roles of the database that it has made. Returns the exit status: 0 if each answer is the
    expected one, otherwise 1. Ends with 1 too for wrong arguments, or if no store can be made."""
    if len(sys.argv) != 2:
        sys.exit("Usage: examples/database/story.py SETTINGS")
    try:
        store = Store(sys.argv[1], SCHEMA)
        store.make()
    except psycopg.Error as why:
        sys.exit(f"no store can be made: {why}")
    try:
        results = list(answers(store))
    finally:
        store.connection.execute(f"DROP SCHEMA {SCHEMA} CASCADE")
        store.connection.execute("DROP ROLE " + ", ".join(f"{SCHEMA}_{role}" for role in ROLES))
        store.close()
    print(f"{sum(results)} passed, {len(results) - sum(results)} failed")
    return 0 if all(results) else 1


if __name__ == "__main__":
    sys.exit(main())
