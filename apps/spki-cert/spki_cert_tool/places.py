"""Finds where a text is refused, and why, and shows the place: line, column and the text around it.

A text headed `case`, `intersect`, `accepted`, `acl`, `sequence` or `public-key` is read as that, and so is `cert`, `signature`, `hash` or `entry`
where no refusal is to be explained. Another value is read only as an S-expression, unless such a refusal says as what it is to be read.

A fault is a `Wrong`, with the offset of its place. A `Diagnosis` is the fault of a text or None, the text in which the fault has its place, which for
a text in braces is the canonical text inside, and then `places`, the offsets in the whole text of the octets inside, or None without braces.
"""
import bisect
import functools
import re
from functools import partial
from typing import Optional

from .forms import FORM_FAULTS, MOST_OCTETS, Node, Parser, Place, Wrong, suggestion, without_braces
from .sexp import canonical
from .structures import (Members, Reader, but_is, read_certificate, read_date, read_entry, read_hash, read_item, read_key, read_request, read_row,
                         read_signature, read_tag, read_version)

# How many octets are shown on each side of a place, at most.
WIDTH = 60
# The heads of the parts of a case, in their order.
PARTS = (b"acl", b"accepted", b"sequence", b"key", b"request", b"at")
# What is wrong with a text, or None; the text in which the fault has its place, which is the canonical text in the braces or else the text itself;
# and, if there are braces, the offset in the whole text of each octet in them.
Diagnosis = tuple[Optional[Wrong], bytes, Optional[list[int]]]
# A block of PEM behind its first words, to its last line, or to the end of the text if that is missing.
PEM_END = rb"-----.*?(?:-----END [A-Z0-9 ]+-----|\Z)"
USED = "only Ed25519, RSA of 2048 bits or more and ECDSA with the curve P-256 or P-384 are used; `spki-cert key new FILE` makes a key"
# What is neither a key that is used nor an S-expression, and what can be done with it.
FOREIGN = [
    (rb"\A\xef\xbb\xbf", "a byte order mark is before the text, and is invisible: delete it, or save the file as UTF-8 without one"),
    (rb"\A(?:\xff\xfe|\xfe\xff|[ -~]\0|\0[ -~])", "this is UTF-16; save the file as UTF-8"),
    (rb"\A\x30(?:[\x81-\x84]|.\x30.\x06|.\x02\x01)", "this is binary (DER); `openssl pkey -inform DER -in FILE` writes a private key in PEM, "
     "with `-pubin` a public one, and `openssl x509 -inform DER -noout -pubkey -in FILE` the key of a certificate"),
    (rb"-----BEGIN (?:X509 |TRUSTED )?CERTIFICATE" + PEM_END, "this is an X.509 certificate, and no key; "
     "`openssl x509 -noout -pubkey -in FILE | spki-cert key -` writes its key as an S-expression"),
    (rb"-----BEGIN (?:NEW )?CERTIFICATE REQUEST" + PEM_END, "this is a request for an X.509 certificate; "
     "`openssl req -noout -pubkey -in FILE | spki-cert key -` writes its key as an S-expression"),
    (rb"-----BEGIN PGP [A-Z ]+" + PEM_END, "this is of OpenPGP, whose keys are not used; `spki-cert key new FILE` makes a key"),
    (rb"---- BEGIN SSH2 .*?(?:END SSH2[^\n]*|\Z)", "this is a key in the form of SSH2; `ssh-keygen -i -f FILE` writes it in the form of OpenSSH"),
    (rb"\APuTTY-User-Key-File.*", "this is a key of PuTTY; `puttygen FILE -O private-openssh -o NEW` writes it in the form of OpenSSH"),
    (rb"sk-(?:ssh|ecdsa)-[\w@.-]{1,64}\s{1,64}AAAA[^()\n]*", "this is a FIDO key of OpenSSH (sk-..), and such keys are not supported: "
     "they do not sign a certificate itself; `spki-cert key new FILE` makes a key"),
    (rb"(?:ssh|ecdsa)-[\w@.-]{1,64}-cert-v01@\S{1,64}\s{1,64}AAAA[^()\n]*",
     "this is a certificate of OpenSSH, and no key; give the key that it is for, FILE.pub"),
    (rb"ssh-dss\s{1,64}AAAA[^()\n]*", f"this is a key of DSA; {USED}"),
    (rb"\A(?:(?:\s*#[^\n]*\n)*\s*AGE-SECRET-KEY-|\[Interface\]|[A-Za-z0-9+/]{43}=\s*\Z).*",
     "this is perhaps a secret key of age or WireGuard, and such keys are not used: keep it secret; `spki-cert key new FILE` makes a key"),
    (rb"\A\s*\{\s*\"", "this is JSON, perhaps a JWK: have the program that made it write PEM, or make a key by `spki-cert key new FILE`")]
# Keys in a form that is no S-expression, where one is wanted.
PASTED = [(pattern, f"this is {called}, and no S-expression; {wanted}") for pattern, called, wanted in [
    (rb"(?:ssh-|ecdsa-)[\w@.-]{1,64}\s{1,64}AAAA[A-Za-z0-9+/=]*[^()\n]*", "a key as OpenSSH writes it", "`spki-cert key FILE` writes it as one"),
    (rb"-----BEGIN [A-Z0-9 ]*PRIVATE KEY" + PEM_END, "a private key, which belongs into no list",
     "keep it secret, and replace it if somebody saw it; `spki-cert key FILE` writes the public one"),
    (rb"-----BEGIN [A-Z0-9 ]+" + PEM_END, "a key in PEM", "`spki-cert key FILE` writes it as one")]]
# What is added for one of FOREIGN or PASTED inside `(public-key ..)`; and what is said of an empty file, or one that is refused at its first octet.
INSIDE = "; replace the whole `(public-key ..)` by that S-expression"
EMPTY = {"acl": "an access list begins as `(acl)`, and `spki-cert entry --acl FILE` adds an entry",
         "sequence": "`spki-cert sign` writes a certificate with its signature", "key": "`spki-cert key FILE` writes a key"}
# What a private key has. `K..` is how `(11:private-key` and `(private-key` begin in base64, and below `b3..` is `openssh-key-v1`.
SECRET = re.compile(rb"(?i)private.?key|K(?:DExOn|H)ByaXZhdGUta2V5|AGE-SECRET-KEY")
# What is in no word of a command but a private key itself. A file may be called `private-key`.
PRIVATE = re.compile(rb"BEGIN [A-Z0-9 ]{0,40}PRIVATE KEY|private-key\s*\((?:\d:)?(?:ecc|rsa|dsa|ec?dsa|eddsa|elg)\b|PuTTY-User-Key-File|PrivateKey ="
                     rb"|AGE-SECRET-KEY-1|b3BlbnNzaC1rZXktdjE|K(?:DExOn|H)ByaXZhdGUta2V5")
# A line that is meant as a comment, behind a `#` one with a letter that is no hexadecimal digit; and how a text begins that may follow other words.
COMMENT = rb"[ \t]*(?:#[^#()]{0,40}[G-Zg-z][^#]*|//.*|--.*)\Z"
BEGINS = rb"^\((?:acl|case|cert|entry|public-key|sequence)[\s()]"
FLAGS = re.DOTALL | re.MULTILINE


def remark_on_foreign(text: bytes) -> str | None:
    """A remark on a text that is something known, but neither a key that is used nor an S-expression. None for any other text."""
    return next((why for pattern, why in FOREIGN if re.match(pattern, text.lstrip(), FLAGS)), None)


def may_be_secret(text: bytes) -> bool:
    """Whether a text is perhaps a private key, in any form."""
    # (a text of FOREIGN may be one of another program, as of age or PuTTY)
    return SECRET.search(text) is not None or remark_on_foreign(text) is not None


def has_private_key(word: bytes) -> bool:
    """Whether a word of a command probably has a private key in it."""
    # (a key in JSON, a JWK, has a member "kty", and its private part is the member "d")
    return PRIVATE.search(word) is not None or b'"kty"' in word and b'"d"' in word


def name_foreign(text: bytes, wrong: Wrong) -> None:
    """Changes the remark and the place shown of the fault `wrong`, if it lies in something known that is no S-expression: a text of FOREIGN or
    PASTED, such as a key in another form, a comment, or words before an S-expression. Otherwise leaves them as they are."""
    for pattern, why in [*FOREIGN, *PASTED]:
        for match in re.finditer(pattern, text, FLAGS):
            if match.start() <= wrong.at <= match.end():
                is_inside_key = text[:match.start()].rstrip().endswith(b"(public-key")
                wrong.shown_at, wrong.why = match.start(), why + (INSIDE if is_inside_key else "")
                return
    line_begin = text.rfind(b"\n", 0, wrong.at) + 1
    # (what is behind a whole list is no comment, but a second value)
    is_behind_list = wrong.kind.endswith("Trailing") and text.lstrip().startswith(b"(")
    if re.match(COMMENT, text[line_begin:].partition(b"\n")[0], FLAGS) and not is_behind_list:
        wrong.shown_at, wrong.why = line_begin, "there are no comments, only the field `(comment \"..\")`; delete this line"
        return
    begins = re.search(BEGINS, text, FLAGS)
    # (a `;` has a remark of its own)
    if begins and wrong.at < begins.start() and text[wrong.at:wrong.at + 1] != b";":
        line = text.count(b"\n", 0, begins.start()) + 1
        wrong.shown_at, wrong.why = 0, f"this is no S-expression; one begins on line {line}: delete what is before it, and what is behind its end"


def read_part(name: str, read: Reader, node: Node) -> None:
    """Reads a part of a text by its reader. A fault that it raises gets the part's name in front of its kind, and between them the word `Tag` for a
    fault of a tag in a list or a sequence, as in `acl 1 Tag Hint`."""
    try:
        read(node)
    except Wrong as wrong:
        is_of_tag = wrong.kind in ("EmptyList", "ListHead", "Hint", "UnknownStar", "RangeOrdering", "RangeLimit", "TooManyNodes")
        wrong.kind = f"{name} {'Tag ' if is_of_tag and name.startswith(('acl', 'sequence')) else ''}{wrong.kind}"
        raise


def read_numbered(name: str, read: Reader, nodes: list[Node], first: int = 1) -> None:
    """Reads the entries, items or rows of the part `name`, counted from `first`. A fault that it raises gets `name` and the number in front of its
    kind, and the place where its entry, item or row begins."""
    for number, node in enumerate(nodes, first):
        try:
            read_part(f"{name} {number}", read, node)
        except Wrong as wrong:
            word = {"acl": "entry", "sequence": "item"}.get(name, "row")
            wrong.others.append((node.begin, f"{word} {number} begins here"))
            raise


def read_list(node: Node) -> None:
    """Reads an access list. As all that READERS has, raises Wrong where the program `spki` refuses it, with its name of the part."""
    read_part("acl 0", partial(Members, head=b"acl", what="the access list"), node)
    entries = node.rest
    if entries and entries[0].head == b"version":
        read_part("acl 0", read_version, entries.pop(0))
    read_numbered("acl", read_entry, entries)


def read_sequence(node: Node) -> None:
    """Checks a sequence. Raises Wrong for a wrong head or item, for a certificate without its signature behind it, where only operations `(do ..)`
    may be between, and for a signature for which no certificate waits."""
    read_part("sequence 0", partial(Members, head=b"sequence", what="the sequence"), node)
    # (the number, from 1, and the node of a certificate whose signature has not come yet)
    unsigned: tuple[int, Node] | None = None
    # (None is behind the last item)
    for number, item in enumerate([*node.rest, None], 1):
        head = item.head if item else None
        if unsigned and head not in (b"do", b"signature"):
            number, certificate = unsigned
            raise Wrong(f"sequence {number} UnsignedCert", certificate.begin, "no signature follows this certificate: the signature comes with "
                        "the file that `spki-cert sign` wrote; take that whole file again from who signed it",
                        [(item.begin, "this follows it")] if item else [(node.end - 1, "the sequence ends here")])
        if item and not unsigned and head == b"signature":
            raise Wrong(f"sequence {number} StraySignature", item.begin, "no certificate waits for this signature")
        if item:
            read_numbered("sequence", read_item, [item], number)
            unsigned = (number, item) if head == b"cert" else None if head == b"signature" else unsigned


def read_case(node: Node) -> None:
    """Reads a case, part after part. Raises Wrong if its parts are not those of a case, or at the first part that is refused."""
    read_outline(node)
    acl, accepted, sequence, key, request, moment = node.rest[:6]
    read_list(acl)
    read_numbered("accepted", read_row, accepted.rest)
    read_sequence(sequence)
    for name, part in (("key", key), ("request", request), ("at", moment)):
        READERS[name](part.rest[0])


def read_outline(node: Node) -> None:
    """Tests that a case has its parts, by their heads and in their order, and behind them `(policy strict)` or nothing, and that the key, the request
    and the moment are one member each. Raises Wrong if not."""
    read_part("case", partial(Members, head=b"case", what="the text"), node)
    parts = node.rest
    for place, head in enumerate(PARTS):
        part = parts[place] if place < len(parts) else None
        if part is None:
            raise Wrong("case Shape", node.end - 1, f"the part `({head.decode()} ..)` is missing here")
        if part.head != head:
            order = ", ".join(name.decode() for name in PARTS)
            raise Wrong("case Shape", part.begin, f"this part must be {but_is(part, head)}; the order is {order}")
        # (key, request and at, the last three of PARTS, have one member)
        if place > 2 and len(part.rest) != 1:
            raise Wrong("case Shape", part.begin, f"`({head.decode()} ..)` has one member, and this has {len(part.rest)}")
    for place, member in enumerate(parts[len(PARTS):]):
        is_policy, words = place == 0 and member.head == b"policy", member.rest
        if not is_policy or len(words) != 1 or not words[0].is_plain(b"strict"):
            advice = "; for the open policy leave it out" if is_policy else suggestion(member.head, (b"policy",))
            raise Wrong("case Shape", member.begin, f"the moment is followed by `(policy strict)` or nothing{advice}")


def read_intersect(node: Node) -> None:
    """Reads `(intersect A B)`. Raises Wrong unless A and B are two tags."""
    read_part("intersect", partial(Members, head=b"intersect", what="the text"), node)
    tags = node.rest
    if len(tags) != 2:
        raise Wrong("intersect Shape", node.begin, f"`(intersect A B)` has two tags, and this has {len(tags)} members")
    for number, tag in enumerate(tags, 1):
        read_part(f"tag {number}", read_tag, tag)


def read_rows(node: Node) -> None:
    """Reads `(accepted ROW ..)` as a text of its own; there may be no row. Raises Wrong if the head is another one, or a row is not in its form."""
    read_part("rows", partial(Members, head=b"accepted", what="the text"), node)
    read_numbered("rows", read_row, node.rest)


READERS: dict[str, Reader] = {
    "case": read_case, "intersect": read_intersect, "rows": read_rows, "acl": read_list, "sequence": read_sequence,
    "key": partial(read_part, "key", read_key), "request": partial(read_part, "request", read_request), "at": partial(read_part, "at", read_date)}
# What a text is by its head. A request and a moment have none.
BY_HEAD = {b"case": "case", b"intersect": "intersect", b"accepted": "rows", b"acl": "acl", b"sequence": "sequence", b"public-key": "key"}
# Parts of texts, which no command of the program reads alone.
ALONE = {b"cert": read_certificate, b"signature": read_signature, b"hash": read_hash, b"entry": read_entry}
# The words after `refused` that a text can have in addition to its own.
WORDS = {"case": ("acl", "accepted", "sequence", "key", "request", "at"), "intersect": ("tag",)}
# What a text is by a word that is no text's own.
BY_WORD = {"accepted": "case", "tag": "intersect"}
# The texts whose faults of form are named after them, as in `refused key Short`.
NAMED = ("rows", "sequence", "key", "request", "at")


def kind_of(node: Node, word: str) -> str | None:
    """The kind in READERS as which a text is read, by its head, or by `word`, which is the word after `refused` in a refusal, or empty. The head says
    it unless `word` belongs to texts of another kind only. None if neither says it."""
    kind = BY_HEAD.get(node.head or b"")
    is_word_of_kind = kind is not None and word in (kind, *WORDS.get(kind, ()))
    is_word_of_none = word not in READERS and word not in BY_WORD
    if kind and (is_word_of_kind or is_word_of_none):
        return kind
    return BY_WORD.get(word, word if word in READERS else None)


def read_as(node: Node, word: str, fault: str) -> None:
    """Raises Wrong for the first fault of a value of a kind: its canonical form is too long, or the reader of the kind refuses it. Where no refusal
    is to be explained, a part of a text, such as a certificate, is read too. Other values are not. `word` and `fault` are those of the refusal
    `refused WORD FAULT` that is to be explained, or empty. (Of one with a number `fault` is the number.) If FAULT is one of the form other than
    TooLong, nothing is read: the form could be read here, so this is not the text that was refused."""
    if fault in FORM_FAULTS and fault != "TooLong":
        return
    kind, length = kind_of(node, word), len(canonical(node.value))
    if kind and length > MOST_OCTETS:
        raise Wrong("TooLong", node.begin, f"the canonical form has {length:,} octets, and may have {MOST_OCTETS:,}")
    if kind:
        READERS[kind](node)
    elif not word and node.head in ALONE:
        ALONE[node.head](node)


def read_text(text: bytes, to_explain: str = "") -> tuple[Diagnosis, Node]:
    """What is wrong with a text, a `Diagnosis`, and its value, which is an empty list if the form of the text cannot be read. `to_explain` is empty,
    or a refusal that is to be explained, as `refused sequence 3 Shape` or `refused key Short`: its second word says as what the text is read."""
    # (the words after `refused`, each empty if it is missing)
    word, fault, *_ = *to_explain.split()[1:3], "", ""
    # (`inner` is the text, or what is in its braces, and then `places` are the offsets of these octets in the text)
    node, inner, places = Node(0, members=[]), text, None
    try:
        inner, places, closing = without_braces(text)
        node = Parser(inner, is_canonical=places is not None).whole()
        if closing < len(text):
            places, inner = None, text
            raise Wrong("Trailing", closing, "the braces end before this octet; a text is one value")
        read_as(node, word, fault)
    except Wrong as wrong:
        if wrong.kind in FORM_FAULTS:
            # (`spki` says `Bad` of what is in braces, whatever else than TooDeep is wrong with its form)
            if places and wrong.kind != "TooDeep":
                wrong.kind, wrong.why = "Bad", f"what is in the braces is no canonical form in base64 (a list is in parentheses): {wrong.why}"
            wrong.kind = f"{word if word in NAMED and fault in FORM_FAULTS else 'form'} {wrong.kind}"
        if places is None:
            name_foreign(text, wrong)
        if not text.strip():
            wrong.why = f"the file is empty; {EMPTY.get(word, '; '.join(EMPTY.values()))}"
        # (a fault that is shown at the beginning: the text is probably something else altogether)
        elif wrong.shown_at == 0 and word in ("acl", "sequence"):
            wrong.why += f"; {EMPTY[word]}"
        return (wrong, inner, places), node
    return (None, inner, places), node


def read_form(text: bytes) -> tuple[Diagnosis, Node]:
    """What is wrong with the form of a text, and its value, as `read_text` returns both. Nothing else of the value is tested. The fault is named
    without the word `form`, as `Bad`."""
    # (as if a fault of the form were to be explained)
    diagnosis, node = read_text(text, "refused form Trailing")
    if (wrong := diagnosis[0]) is not None:
        wrong.kind = wrong.kind.split()[-1]
    return diagnosis, node


def value_in(text: bytes) -> Node:
    """The value of a text in any of the three forms. Its places are offsets in the text. If the text is in braces, they are offsets in the canonical
    text inside. Raises Wrong if the form cannot be read. Its place is in one of these two texts: the Diagnosis of `read_form` has the right one."""
    (wrong, _, _), node = read_form(text)
    if wrong is not None:
        raise wrong
    return node


def refusal(wrong: Wrong, places: list[int] | None) -> str:
    """The line by which the program `spki` refuses a text with this fault. `places` are the offsets of the octets in its braces, or None."""
    if wrong.kind.split()[-1] not in ("Bad", "Trailing"):
        return f"refused {wrong.kind}"
    # (a fault in braces is at the closing one)
    return f"refused {wrong.kind} {places[-1] if places else wrong.at}"


class Lines:
    """The lines of a text by `begins`, the offsets where they begin, which are found once."""

    def __init__(self, text: bytes) -> None:
        self.begins = [0, *(line_feed.end() for line_feed in re.finditer(b"\n", text))]

    def line_and_column(self, at: int) -> tuple[int, int]:
        """The line and the column of an offset, from 1."""
        line = bisect.bisect_right(self.begins, at)
        return line, at - self.begins[line - 1] + 1


@functools.lru_cache(1)
def lines_in(text: bytes) -> Lines:
    """The lines of a text, which are found once for all places of a fault: there may be a million lines."""
    return Lines(text)


def place_shown(text: bytes, places: list[int] | None, at: int) -> tuple[str, str]:
    """A place, the offset `at`, in words, as line and column, and its line of the text with a mark below, at most WIDTH octets on each side. If the
    text was in braces, `places` has for each of its octets the offset in the file, and the words say the octet; otherwise it is None."""
    line, column = lines_in(text).line_and_column(at)
    line_begin, line_end = at - column + 1, text.find(b"\n", at)
    first, last = max(line_begin, at - WIDTH), min(len(text) if line_end < 0 else line_end, at + WIDTH)
    front = "".join(printable(octet) for octet in text[first:at])
    where = f"line {line}, column {column}, octet {at}"
    if places:
        where = f"octet {at} of the canonical form in the braces (octet {places[min(at, len(places) - 1)]} of the text)"
    return where, f"    {front}{''.join(printable(octet) for octet in text[at:last])}\n    {' ' * len(front)}^"


def places_of(wrong: Wrong) -> list[Place]:
    """The places of a fault with their remarks, each place once, and that which is shown first in front. Of several remarks on a further place the
    last one is kept, which has the number of the item."""
    first = wrong.at if wrong.shown_at is None else wrong.shown_at
    others = {at: why for at, why in wrong.others if at != first}
    return [(first, wrong.why), *others.items()]


def printable(octet: int) -> str:
    """An octet as it is shown: a tab or a line break as a space, and what else is not printable as `\\x..`."""
    return chr(octet) if 32 <= octet < 127 else " " if octet in b"\t\n\r" else f"\\x{octet:02x}"


def lines_of_fault(name: str, diagnosis: Diagnosis) -> list[str]:
    """The lines that show a fault of a file that is called `name`: the refusal, and each place with the text around it, unless the file may have a
    secret. Empty if nothing is wrong."""
    wrong, text, places = diagnosis
    if wrong is None:
        return []
    lines, is_secret = [f"{name}: {refusal(wrong, places)}"], may_be_secret(text)
    for at, why in places_of(wrong):
        where, around = place_shown(text, places, at)
        lines += [f"{where}: {why}", *([] if is_secret else [around])]
    return lines
