"""Shows lists, certificates, sequences and cases in words: who, to whom, what, until when, and whether it may be delegated. Keys are called by
labels from files of keys, else by the beginning of their hashes. A row is what is shown of an entry, a certificate, a key or a question, as a
dictionary for JSON, from which `lines_of` makes the words."""
import contextlib
import glob
import os
from collections import Counter
from collections.abc import Iterator

from .certificates import (Keys, Terms, accepted_by, certificates_in, entries_of, fault_of_signature, headed, keys_in, members, string_of,
                           terms_of)
from .files import octets_of
from .forms import Wrong
from .keys import OPENSSH, BadKey, digest_of, hash_of, is_private, kind_of, no_passphrase, read_public
from .sexp import Value, canonical, on_one_line

# The most letters of a key that is written as it is, and how many hexadecimal digits of its hash stand for a longer one: 64 bits, since a key with
# the same 32 bits can be made within days.
SHORT_KEY, SHORT_DIGITS = 40, 16
# What is said of a certificate that does not count, by the word of `explain`, or by that of `check` for one without a signature.
FAULTS = {"KeyNotShown": "the key of its issuer is not here, so the signature is not tested", "DigestDiffers": "its signature has another digest",
          "SignerDiffers": "signed by another key than its issuer's", "NotAccepted": "the signature is not valid",
          "UnsignedCert": "it has no signature"}
KINDS = {b"cert": "a certificate", b"case": "a case", b"intersect": "a question of two tags", b"accepted": "rows of valid signatures",
         b"signature": "a signature", b"hash": "a hash", b"entry": "an entry"}
# What is shown of one item, as JSON has it.
Row = dict[str, object]


def visible(text: str) -> str:
    """A text whose invisible characters are escaped."""
    return "".join(letter if letter.isprintable() else ascii(letter)[1:-1] for letter in text)


class Labels:
    """What keys are called: `labels`, by the SHA-256 digests of the keys, each a name that the user has given, or an empty text, and in quotes a
    comment that the key's sender may have written. `keys` has also those without a label, so that their hashes are known."""

    def __init__(self) -> None:
        self.keys = Keys()
        self.labels: dict[bytes, tuple[str, str]] = {}
        # How many keys have each name, or each comment without a name.
        self.counts = Counter[str]()

    def add(self, key: Value, name: str, comment: str = "") -> None:
        """Adds a key with a name and a comment, both of which may be empty. Its first name stays, or else its first comment. Invisible characters are
        escaped, and in the comment also quotes."""
        self.keys.add(key)
        digest = self.keys.text_of(key)[1]
        before = self.labels.get(digest, ("", ""))
        if name and not before[0] or comment and not any(before):
            quoted = '"%s"' % visible(comment.replace("\\", "\\\\").replace('"', '\\"')) if comment else ""
            self.labels[digest] = visible(name), quoted
            self.counts.subtract([before[1]])
            self.counts.update([visible(name) or quoted])

    def add_path(self, path: str) -> None:
        """Takes the public keys of a file, or of the files of a folder that are not hidden: lines of OpenSSH with their comments, as authorized_keys
        has them, or one key. A key that is alone in its file, or has no comment, has the name of the file without its suffix, and a comment that says
        the same is left out. What is no public key is left out, and of a file what is behind its first MiB. Raises Refused for a file that cannot be
        read."""
        files = sorted(filter(os.path.isfile, glob.glob(f"{glob.escape(path)}/*"))) if os.path.isdir(path) else [path]
        for file in files:
            octets = octets_of(file)
            if is_private(octets):
                continue
            stem, pieces = os.path.splitext(os.path.basename(file))[0], OPENSSH.findall(octets) or [(octets, b"")]
            for key, octets_of_comment in pieces:
                comment = octets_of_comment.decode(errors="replace").strip()
                name = "" if comment and pieces[1:] else stem
                with contextlib.suppress(BadKey, Wrong):
                    self.add(read_public(key, no_passphrase), name, comment if comment != name else "")

    def label_of(self, principal: Value | None) -> str:
        """What a principal is called: its name and comment, else the text of a short key, or digits of the hash of a long one. None is the issuer of
        entries. A name that several keys have, or a comment in place of a name, is followed by these digits."""
        if principal is None:
            return "the list"
        is_known, digest = self.keys.named(principal) is not None, self.keys.text_of(principal)[1]
        if is_known and digest in self.labels:
            name, comment = self.labels[digest]
            label = f"{name} {comment}".strip()
            return label if self.counts[name or comment] == 1 else f"{label} (key {digest.hex()[:SHORT_DIGITS]})"
        text = on_one_line(principal)
        if headed(principal, b"public-key") and len(text) <= SHORT_KEY:
            return text
        # (of a hash of an unknown key its own digest, by whatever algorithm)
        digest_shown = digest if is_known else string_of(members(principal)[1]) or b""
        return f"key {digest_shown.hex()[:SHORT_DIGITS]}"

    def label_of_subject(self, subject: Value) -> str:
        """What a subject is called: a key or a hash as by `label_of`, and a name of a key as `friends of ann`."""
        if not headed(subject, b"name"):
            return self.label_of(subject)
        names = " ".join(on_one_line(name) for name in members(subject)[1:])
        return f"{names} of {self.label_of(members(subject)[0])}"

    def decider_of(self, terms: Terms) -> str | None:
        """What the key is called whose holder decides who the subject of a certificate or an entry is, if that is a name of another key than the
        issuer's. Otherwise None."""
        return self.label_of(terms.principal) if terms.names and not self.keys.are_one(terms.issuer, terms.principal) else None


def row_of_terms(kind: str, number: int | None, terms: Terms, moment: bytes, labels: Labels) -> Row:
    """What an entry or a certificate says, as a row: a dictionary, for JSON and for `lines_of`. `kind` is `entry` or `certificate`, and `number` is
    that of the entry or item, or None for a certificate that is alone. The row says whether it is valid at `moment`."""
    return {"kind": kind, "number": number, "issuer": labels.label_of(terms.issuer),
            "name": terms.name.decode(errors="surrogateescape") if terms.name is not None else None,
            "subject": labels.label_of_subject(terms.subject), "decides": labels.decider_of(terms),
            "tag": on_one_line(terms.tag) if terms.tag is not None else None,
            "from": terms.begins.decode() if terms.begins else None, "until": terms.ends.decode() if terms.ends else None,
            "window": terms.window, "delegates": terms.delegates, "comment": terms.comment or None, "state": terms.state(moment)}


def row_of_signature(cert: Value, fault: str | None, signature: str = "") -> Row:
    """What the row of a certificate has besides its terms: its digest, how its signature is, and the fault for which it does not count, one of
    FAULTS."""
    judged: Row = {"digest": digest_of(cert).hex(), "fault": fault, "signature": None if fault else signature}
    return {**judged, "state": "does not count"} if fault else judged


def rows_of(value: Value, moment: bytes, labels: Labels) -> Iterator[Row]:
    """Yields the rows of a list, a certificate, a sequence or a case: one for each entry, certificate and key, and for a case also its question."""
    if headed(value, b"cert"):
        yield {**row_of_terms("certificate", None, terms_of(value), moment, labels), **row_of_signature(value, "UnsignedCert")}
    elif headed(value, b"acl"):
        yield from (row_of_terms("entry", number, entry, moment, labels) for number, entry in enumerate(entries_of(value), 1))
    elif headed(value, b"sequence"):
        yield from rows_of_sequence(value, moment, labels, keys_in(value), [])
    else:
        # (a case, whose parts are the list, the rows, the sequence, the key, the request and the moment)
        access_list, rows, sequence, key, request, at = members(value)[:6]
        yield from rows_of(access_list, moment, labels)
        yield from rows_of_sequence(sequence, moment, labels, [*members(key), *keys_in(sequence)], members(rows))
        yield {"kind": "question", "key": labels.label_of(members(key)[0]), "request": on_one_line(members(request)[0]),
               "at": on_one_line(members(at)[0])}


def rows_of_sequence(sequence: Value, moment: bytes, labels: Labels, keys_shown: list[Value], rows: list[Value]) -> Iterator[Row]:
    """Yields the rows of a sequence. Hashes may name `keys_shown`. `rows` are those of its case, by which a signature counts that is not valid."""
    keys, accepted = Keys(keys_shown), accepted_by(rows)
    certificates = {signed.number: signed for signed in certificates_in(sequence)}
    for number, item in enumerate(members(sequence), 1):
        if headed(item, b"public-key"):
            yield {"kind": "key", "number": number, "label": labels.label_of(item), "algorithm": kind_of(item), "hash": on_one_line(hash_of(item))}
        elif signed := certificates.get(number):
            fault = fault_of_signature(signed, keys)
            row = keys.text_of(signed.terms.issuer or b"")[0], digest_of(item), canonical(members(signed.signature)[2])
            by_row = fault == "NotAccepted" and row in accepted
            judged = row_of_signature(item, None if by_row else fault, "accepted by a row of the case" if by_row else "valid")
            yield {**row_of_terms("certificate", number, signed.terms, moment, labels), **judged}


def lines_of(row: Row) -> Iterator[str]:
    """Yields the lines that say a row in words. The row is what `rows_of` yields for an entry, a certificate, a key or a question."""
    kind, number, fault = row["kind"], row.get("number"), row.get("fault")
    front = f"{'entry' if kind == 'entry' else 'item'} {number}" if number else "certificate"
    if kind == "key":
        yield f"{front}  key {row['label']}, {row['algorithm']}"
        return
    if kind == "question":
        yield f"question  {row['key']} requests {row['request']} at {row['at']}"
        return
    terms = f"{row['issuer']} -> {row['subject']}, {'may' if row['delegates'] else 'may not'} delegate, {row['window']}"
    if row["name"] is not None:
        terms = f"{row['issuer']} calls {row['subject']} {on_one_line(str(row['name']).encode(errors='surrogateescape'))}, {row['window']}"
    if fault:
        yield f"{front}  DOES NOT COUNT: {FAULTS[str(fault)]} ({fault})"
    yield f"    {terms}" if fault else f"{front}  {terms}: {row['state']}"
    if row["tag"] is not None:
        yield f"    may {row['tag']}"
    if row["decides"]:
        yield f"    {row['decides']} decides who is {row['subject']}"
    if row["comment"]:
        yield f"    comment: {row['comment']!r}"
    if row.get("signature"):
        yield f"    the signature is {row['signature']}"
    if "digest" in row:
        yield f"    sha256 {row['digest']}"


def what_is(value: Value) -> str:
    """What kind of text a value is, in words, by its head."""
    if headed(value, b"acl"):
        return f"an access list, entries: {len(entries_of(value))}"
    if headed(value, b"sequence"):
        return f"a sequence, certificates: {len(certificates_in(value))}"
    if headed(value, b"public-key"):
        return f"a public key, {kind_of(value)}"
    return next((what for head, what in KINDS.items() if headed(value, head)), "a tag, or another value")
