"""Makes certificates and entries: what is asked for, what is probably a mistake, and the signed sequence.

An entry of an access list and a certificate give a right to a subject. A sequence has certificates, each with its signature behind it, and keys: a
client shows it to a service. Values are S-expressions as `sexp` has them.
"""
import os
import re
from collections.abc import Iterator

from .certificates import Keys, Terms, certificates_in, entries_of, headed, members, remarks_on_window, terms_of
from .files import CONTROLS, Refused, Signer, now
from .forms import Node
from .keys import hash_of, principal_of, verifies
from .places import lines_of_fault, place_shown, read_form, read_text, value_in
from .sexp import Value, canonical, laid_out, on_one_line
from .tag_words import MOST_PRODUCTS, gives_all_of, is_everything, lacks, remarks


def certificate_of(key: Value, subject: Value, fields: list[Value], name: bytes | None = None) -> Value:
    """The unsigned certificate `(cert ..)` by the holder of a key, which defines `name`, or gives a right if that is None. The subject is a key, a
    hash of a key or a name. `fields` are the other fields, as `fields_of` returns them."""
    issuer = principal_of(key)
    return [b"cert", [b"issuer", [b"name", issuer, name] if name is not None else issuer], [b"subject", subject], *fields]


def fields_of(tag: Value | None, begins: bytes | None, ends: bytes | None, delegates: bool = False, comment: str = "") -> list[Value]:
    """The fields that certificates and entries have alike, each as a list that begins with its name. `begins` and `ends` are dates, as
    2026-03-01_12:00:00, and `delegates` says that the subject may delegate the right. What is None, or an empty comment, gets no field."""
    fields: list[Value] = [[b"propagate"]] if delegates else []
    pairs = (b"tag", tag), (b"not-before", begins), (b"not-after", ends), (b"comment", os.fsencode(comment) or None)
    return fields + [[head, value] for head, value in pairs if value is not None]


def list_with(entry: Value, before: bytes) -> bytes:
    """The text of the access list `before` with an entry at its end. What is before that stays as it is but for spaces at its end, unless the list is
    in braces: then it is written in advanced form. Raises Refused if a service would refuse the new list."""
    node = value_in(before)
    text = text_of([b"acl", *members(node.value), entry])
    if not before.lstrip().startswith(b"{"):
        # (without the `)` that ends the list, which is written again behind the entry)
        text = before[:node.end - 1].rstrip() + b"\n " + laid_out(entry, 1).encode() + b")\n"
    refuse_as_service("acl", text)
    return text


def signed_sequence(certificate: Value, signer: Signer, chain: Value | None) -> Value:
    """Signs a certificate. Returns the sequence `(sequence ..)` that a client shows: the items of the sequence `chain`, if there is one, and then the
    certificate with its signature. Raises Refused if the signature does not verify, or if a service would refuse the sequence, and BadKey if the
    signer does not sign."""
    octets = canonical(certificate)
    value = signer.sign(octets)
    if not verifies(signer.key, octets, value):
        raise Refused("the signature that was made does not verify; nothing was written")
    sequence = sequence_with(chain, signer.key, certificate, value)
    refuse_as_service("sequence", canonical(sequence))
    return sequence


def sequence_with(chain: Value | None, key: Value, certificate: Value, value: Value) -> Value:
    """The sequence that has the items of the sequence `chain`, or none for None, and then a certificate with its signature by `key`. `value` is the
    value of the signature, `(sig-val ..)`. The key is put before the certificate if certificates name it by its hash, unless the chain has it."""
    items = members(chain) if chain is not None else []
    keys_shown = [] if principal_of(key) == key or key in items else [key]
    return [b"sequence", *items, *keys_shown, certificate, [b"signature", hash_of(certificate), principal_of(key), value]]


def list_without(subject: Value, before: bytes) -> tuple[bytes, list[tuple[int, str, str]]]:
    """The text of the access list `before` without the entries for a subject and the white space in front of them, and of each of these the number,
    from 1, the tag, and the text, as `text_shown` has it. The rest stays as it is, unless the list is in braces: then it is written in advanced form.
    A key and a hash of it are one subject."""
    if before.lstrip().startswith(b"{"):
        before = text_of(value_in(before).value)
    # (an entry without a tag has terms too, of which only the subject is used)
    wanted, entries = terms_of([b"entry", subject]), [node for node in value_in(before).members or [] if node.head == b"entry"]
    entry_terms = [terms_of(node.value) for node in entries]
    keys = Keys(terms.principal for terms in (wanted, *entry_terms))
    # (the indices, from 0, of the entries to remove; `ends` has 0 and the offset behind each of them)
    removed = [index for index, terms in enumerate(entry_terms)
               if terms.names == wanted.names and keys.are_one(terms.principal, wanted.principal)]
    ends = [0, *(entries[index].end for index in removed)]
    # (the text before each entry that is removed; what is after the last one follows)
    pieces = [before[end:entries[index].begin].rstrip() for end, index in zip(ends, removed)]
    gone = [(index + 1, on_one_line(entry_terms[index].tag or b""), text_shown(entries[index], before)) for index in removed]
    return b"".join(pieces) + before[ends[-1]:], gone


def text_shown(node: Node, text: bytes) -> str:
    """The part of a text that a node is, as it stands there, or in advanced form if it has characters that are not visible."""
    part = text[node.begin:node.end].decode("latin-1")
    return part if part.isascii() and not CONTROLS.search(part) else on_one_line(node.value)


def refuse_as_service(what: str, text: bytes) -> None:
    """Raises Refused if a service would refuse a text that was made here. `what` says what it is: `acl` or `sequence`."""
    diagnosis = read_text(text, f"refused {what}")[0]
    if diagnosis[0] is not None:
        raise Refused("a service would refuse this:", *lines_of_fault(f"the {what}", diagnosis))


# ---- what is probably a mistake


def warnings_of_certificate(terms: Terms, tag_text: str, chain_until: bytes | None, chain: Value | None, tries: list[Value]) -> Iterator[str]:
    """Yields what is probably a mistake in a certificate. It is made only if that is confirmed. The chain, the sequence by which its issuer has the
    right, must be valid until the moment `chain_until`, or without end if that is None. `tag_text` is the tag as it was written, if there is one, and
    `tries` are requests that the tag is to contain."""
    if terms.ends is None:
        yield "it has no end: give --days or --until; otherwise it counts until a service ends it by `spki-cert end`"
    if terms.name is None and not terms.names and Keys([terms.issuer or b"", terms.principal]).are_one(terms.issuer, terms.principal):
        yield "its subject is its issuer, who has the right already: --to is the key that gets it"
    yield from warnings_of(terms, tag_text, tries)
    for signed in certificates_in(chain) if chain is not None else []:
        ends = signed.terms.ends
        if ends is not None and (chain_until is None or chain_until > ends):
            yield f"item {signed.number} of the chain ends earlier, on {ends.decode()}, and the right ends with it"
        yield from (f"item {signed.number} of the chain: {why}" for why in tries_lacked(signed.terms.tag, tries))


def warnings_of_list(new_entry: Value, before: bytes) -> Iterator[str]:
    """Yields a remark for each entry of an access list that gives all of the new entry already. `before` is the text of the list. The work of one
    comparison is the product of the lengths of both tags. Once the work of all reaches MOST_PRODUCTS, no further entry is compared."""
    entries, new, work_left = entries_of(value_in(before).value), terms_of(new_entry), MOST_PRODUCTS
    keys = Keys(terms.principal for terms in (*entries, new))
    for number, terms in enumerate(entries, 1):
        work_left -= len(canonical(terms.tag or b"")) * len(canonical(new.tag or b""))
        if work_left > 0 and gives_all_of(terms, new, keys):
            yield f"entry {number} of the list gives all of this already"


def warnings_of(terms: Terms, tag_text: str, tries: list[Value]) -> Iterator[str]:
    """Yields what is probably a mistake in what certificates and entries both have. A missing end is no mistake here: an entry can be removed
    from its list. `tag_text` is the tag as it was written, if there is one, and `tries` are requests that the tag is to contain."""
    yield from (f"{why}: give a later date by --until" for _, why in remarks_on_window(terms.begins, terms.ends, now()))
    if headed(terms.principal, b"hash") and members(terms.principal)[0] == b"sha1":
        yield "its subject is a hash by sha1, which names no key under the strict policy"
    if terms.tag is None:
        return
    if is_everything(terms.tag):
        yield "its tag is `(*)`, which contains every request: narrow it, for example `(packages read)`, or keep it if that is meant"
    if isinstance(terms.tag, bytes):
        yield (f"--tag is one string, `{on_one_line(terms.tag)}`, and contains only the request of this one word: a tag is a list, as "
               "`(packages read (* prefix /web/))`, and that of a file is given by \"$(cat FILE)\"")
    if re.search(r"[^\s(] +\)", tag_text):
        yield "--tag has a blank before a `)`: is a variable of the shell empty there?"
    (_, text, places), node = read_form(os.fsencode(tag_text))
    for at, why in remarks(node):
        where, around = place_shown(text, places, at)
        yield f"--tag, {where}: {why}\n{around}"
    yield from tries_lacked(terms.tag, tries)


def tries_lacked(tag: Value | None, tries: list[Value]) -> Iterator[str]:
    """Yields a remark for each of the requests `tries` that a tag does not contain. Nothing if there is no tag."""
    for request in tries:
        why_not = lacks(tag, request) if tag is not None else None
        if why_not:
            yield f"its tag does not contain the request `{on_one_line(request)}`: {why_not}"


def text_of(value: Value) -> bytes:
    """The octets of a file with a value: in advanced form, with line breaks, for people to read."""
    return laid_out(value).encode() + b"\n"
