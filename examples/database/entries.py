"""Decisions by the entries of a store that `spki-store` keeps in PostgreSQL, in Python: what `spki-authd` does with it, without its cache.

The first certificate of a question has one issuer key, and only an entry whose subject begins with this key, or with a hash of it, can grant the
request. Where no certificate is shown it is the client's key. So a decision reads these rows, in the order of their numbers, and decides by a guard
of them. The answer is that of the guard of all rows: this is a theorem about access lists (docs/OPERATING.md, "A list of millions").

This service reads the server that it is given, and keeps nothing: on the primary a removed entry, and a certificate that has ended early, grant only
in questions already under way. It does not look at the heartbeat, so it must not read a replica. What psycopg raises grants nothing."""
import hashlib

import spki

PRINCIPALS = (b"public-key", b"hash")
ALGORITHMS = ("sha1", "sha256", "sha512")


def digests_of(key):
    """The digests by which the store finds the principals that can name a key, as octets: one by each of ALGORITHMS. `key` is its text in canonical
    form. If the store finds other principals too, that does no harm: the guard decides by the entries themselves."""
    return [hashlib.new(algorithm, key).digest() for algorithm in ALGORITHMS]


def string(octets):
    """A string in canonical form, LENGTH:OCTETS, as `3:abc`."""
    return b"%d:%s" % (len(octets), octets)


def entry(principal, *fields, names=()):
    """The canonical text of an entry for a principal, or for a name of this principal with the strings `names`. `fields` are `(tag ..)`,
    `(propagate)` and so on.

    Principal and fields are texts of one value each, in any of the three forms, as octets. Each is read by itself, so none can change another. Raises
    `spki.Refused` or `ValueError` if they make no entry.
    """
    principal = spki.canonical(principal)
    # (the string at the place 0 of a list is its head)
    if spki.string_at(principal, 0) not in PRINCIPALS:
        raise ValueError("a principal is a public key or a hash")
    subject = b"(4:name%s%s)" % (principal, b"".join(map(string, names))) if names else principal
    text = b"(5:entry%s%s)" % (subject, b"".join(map(spki.canonical, fields)))
    # (raises `Refused` if the text is no entry)
    guard_of([text]).close()
    return text


# The most nodes that an explanation by the entries found may intersect.
LIMITS = spki.Limits(nodes=10_000)


def guard_of(texts, policy=spki.Policy.STRICT, limits=LIMITS):
    """A guard of the access list of these entries, texts in canonical form. Raises `spki.Refused` if one of them is no entry, or if the list has over
    1 MiB."""
    return spki.Guard(b"(3:acl%s)" % b"".join(texts), policy, limits)


def is_entry(text):
    """Whether the text of a row, read alone, is exactly one entry in canonical form. A row that is none is skipped: it would have the library refuse
    the others, or join with them into something else. Entries only grant, so nothing is granted by that. Raises `spki.Refused` if an allocation
    failed."""
    try:
        with guard_of([text]) as guard:
            return guard.entries == 1 and spki.canonical(text) == text
    except spki.Refused as refusal:
        if refusal.fault == spki.Fault.MEMORY:
            raise
        return False


class Service:
    """Answers questions by the entries of `store`: an object whose method `entries_for` returns the number and the text of each entry that it finds
    by the digests of a key, as `digests_of` returns them. Its method `has_ended` says whether a certificate has ended early, by the SHA-256 digest of
    its canonical form. `spki_store_tool.tables.Store` is one. `policy` and `limits` are those of each guard."""

    def __init__(self, store, policy=spki.Policy.STRICT, limits=LIMITS):
        self.store, self.policy, self.limits = store, policy, limits
        # (a guard of no entries, which reads a question before its entries are known)
        self.no_entries = guard_of([], policy, limits)

    def decide(self, question, verify):
        """The number, in the store, of the first entry that grants `question`, a `spki.Question`. `None` if no entry does.

        Raises `spki.Refused` if a part of the question cannot be read, or the entries found have over 1 MiB together, and what psycopg raises if
        the database does not answer. `verify(signature)`, which returns whether a signature is valid, is called once for each signature, in order,
        until one is not valid or the certificate of the next has ended; and not at all if the entries found grant nothing, whatever is valid.
        """
        def counts(signature):
            """Whether a signature is valid and its certificate has not ended. This is read after the entries, and what has ended stays so: thus a yes
            is that of the whole list and of all that had ended when the entries were read."""
            return not self.store.has_ended(hashlib.sha256(signature.message).digest()) and verify(signature)

        # (a guard without entries reads the parts, and lists the signatures. If certificates are shown and none is listed, the first has a fault,
        # such as another digest: then no entry grants, so any rows may be read)
        with self.no_entries.ask(question) as asked:
            first = next(iter(asked), None)
        found = self.store.entries_for(digests_of(first.key if first else spki.canonical(question.key.text)))
        rows = [(number, text) for number, text in found if is_entry(text)]
        with guard_of([text for _, text in rows], self.policy, self.limits) as guard:
            decision = guard.decide(question, counts)
        return rows[decision.entry - 1][0] if decision else None
