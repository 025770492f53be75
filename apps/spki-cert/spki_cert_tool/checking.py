"""Checks files: what a service would refuse, with the place, and what is legal and probably a mistake."""
import itertools
import os
import re
from collections import deque
from collections.abc import Iterator
from typing import NamedTuple

from .certificates import Keys, certificates_in, fault_of_signature, keys_in, remarks_on_window, terms_of
from .files import Refused, octets_of, remark_on_mode
from .forms import Node, Wrong, shape_fault, suggestion
from .keys import ENCRYPTED, BadKey, is_key_file, is_private, is_text, kind_of, no_passphrase, pieces_of, public_of, read_public
from .places import ALONE, BY_HEAD, Lines, places_of, read_text, refusal
from .sexp import canonical
from .showing import FAULTS, what_is
from .structures import read_tag
from .tag_words import MOST_PRODUCTS, gives_all_of, is_everything, remarks

# The suffixes of the files in a folder that are always looked at.
S_EXPRESSIONS, OTHER_KEYS = (".sexp", ".csexp", ".tsexp"), (".pub", ".pem", ".key")
# A line that begins as a certificate does, perhaps behind a byte order mark.
CERTIFICATE = re.compile(rb"^(?:\xef\xbb\xbf)?[ \t]*\([ \t]*(?:\d+:)?(?:sequence|cert)\b", re.MULTILINE)
# The heads of all kinds of texts, which a misspelled head is compared with.
HEADS = (*BY_HEAD, *ALONE, b"tag", b"request", b"private-key")
# The lists in which entries, certificates, keys and hashes are looked for. Other lists, such as tags, may have any heads in them.
PARTS = (b"acl", b"case", b"cert", b"entry", b"issuer", b"key", b"name", b"sequence", b"signature", b"subject")
# How many keys of a file are looked at, and how many entries for one subject are compared with each other: so a long file takes seconds at most.
MOST_KEYS, MOST_COMPARED = 1000, 64


class Remark(NamedTuple):
    """What is said of a place in a file. Line and column are counted from 1."""

    path: str
    line: int
    column: int
    is_refused: bool
    """Whether a service would refuse the file, or it cannot be read. Else it is legal, and probably a mistake."""
    text: str

    def __str__(self) -> str:
        """The remark as `check` writes it."""
        return f"{self.path}:{self.line}:{self.column}: {'refused: ' if self.is_refused else ''}{self.text}"


def files_below(paths: list[str]) -> Iterator[tuple[str, bool]]:
    """Yields the files that are given or are in a folder that is given, in order, each with whether its own path is given. In folders, what is
    hidden, links to folders, and what is neither a file nor a folder are left out. Raises Refused for a folder that cannot be read."""
    for path in paths:
        if not os.path.isdir(path):
            yield path, True
            continue
        for folder, folders, names in os.walk(path, onerror=refuse_folder):
            folders[:] = sorted(name for name in folders if not name.startswith("."))
            files = (os.path.join(folder, name) for name in sorted(names) if not name.startswith("."))
            # (a link to nothing is yielded too: whoever reads it says what is wrong)
            yield from ((file, False) for file in files if os.path.isfile(file) or not os.path.exists(file))


def refuse_folder(why: OSError) -> None:
    """Raises Refused for a folder that cannot be read, where `os.walk` would leave it out."""
    raise Refused(f"{why.filename}: this folder cannot be read: {why.strerror}") from None


def remarks_on(path: str, moment: bytes, is_given: bool = True) -> tuple[str | None, list[Remark]]:
    """What a file is, in words, and the remarks on it, as of a moment: for one that cannot be read, why. None in place of the words if it is left
    out: its path was not given itself (`is_given`), and by its name and its octets it is neither an S-expression nor a key."""
    try:
        octets = octets_of(path)
    except Refused as why:
        return "no file that can be read", [Remark(path, 1, 1, is_refused=True, text=why.lines[0].removeprefix(f"{path}: "))]
    suffix, begins_as_list = os.path.splitext(path)[1], octets.lstrip()[:1] in (b"(", b"{")
    # (a certificate that is damaged may begin with anything, and one that begins as such may have any name)
    may_be_text = suffix in S_EXPRESSIONS or not suffix and (begins_as_list or CERTIFICATE.search(octets)) or CERTIFICATE.match(octets)
    if not (is_given or suffix in OTHER_KEYS or is_key_file(octets) or may_be_text):
        return None, []
    if is_key_file(octets) or is_private(octets) and not is_text(octets):
        return remarks_on_key_file(path, octets)
    return remarks_on_text(path, octets, moment)


def remarks_on_key_file(path: str, octets: bytes) -> tuple[str, list[Remark]]:
    """What a file with keys of OpenSSH or PEM, or with a private key, is, in words, and the remarks on it. That a private
    key is encrypted is no remark."""
    has_private = is_private(octets)
    pieces = [(0, octets)] if has_private else pieces_of(octets)
    on_keys, kind, lines = list[Remark](), "a file of keys", Lines(octets)
    for begin, piece in pieces[:MOST_KEYS]:
        try:
            kind = f"a {'private' if has_private else 'public'} key, {kind_of(read_public(piece, no_passphrase))}"
        except (BadKey, Wrong) as why:
            if has_private and str(why) == ENCRYPTED:
                kind = "a private key, encrypted"
            else:
                text = str(why) if isinstance(why, BadKey) else why.why
                on_keys.append(Remark(path, *lines.line_and_column(begin), is_refused=True, text=text))
    on_keys += [Remark(path, 1, 1, is_refused=False, text=why.removeprefix(f"{path} is ")) for why in remark_on_mode(path)]
    if len(pieces) > MOST_KEYS:
        place = lines.line_and_column(pieces[MOST_KEYS][0])
        on_keys.append(Remark(path, *place, is_refused=False, text=f"only the first {MOST_KEYS} of these keys are looked at: split the file"))
    return f"{len(pieces)} public keys" if len(pieces) > 1 else kind, on_keys


def remarks_on_text(path: str, octets: bytes, moment: bytes) -> tuple[str, list[Remark]]:
    """What an S-expression is, in words, and the remarks on it. A remark on what is in braces has line 1 and column 1."""
    (wrong, text, places), node = read_text(octets)
    if wrong is None and node.head not in (*BY_HEAD, *ALONE):
        wrong = fault_of_tag(node)
    # (the remarks as offsets and words: of a refusal only that on its first place)
    at_offsets = [*probable_mistakes(node, moment)] if wrong is None else places_of(wrong)[:1]
    front = f"{refusal(wrong, places).removeprefix('refused ')}: " if wrong is not None else ""
    lines = Lines(text)
    on_text = [Remark(path, *(lines.line_and_column(at) if places is None else (1, 1)), wrong is not None, front + why) for at, why in at_offsets]
    return "refused" if wrong is not None else what_is(node.value), on_text


def fault_of_tag(node: Node) -> Wrong | None:
    """Why a value is no tag: the fault in it, or a head that is probably misspelled. None if it is one."""
    if node.head is not None and suggestion(node.head, HEADS):
        return shape_fault(node, f"no kind of text begins with `({node.head.decode(errors='replace')} ..)`{suggestion(node.head, HEADS)}")
    try:
        read_tag(tag_of(node))
    except Wrong as wrong:
        return wrong
    return None


def tag_of(node: Node) -> Node:
    """The tag in a value `(tag TAG)`. Any other value is taken as the tag itself."""
    return node.members[1] if node.head == b"tag" and node.members and len(node.members) == 2 else node


def probable_mistakes(node: Node, moment: bytes) -> Iterator[tuple[int, str]]:
    """Yields what is legal and probably a mistake in a value: for each the offset in the text, and a remark. A value whose head is in neither table,
    BY_HEAD nor ALONE, is a request if that is `request`, else a tag. A request, rows, two tags, and a signature or a hash alone, have no remarks."""
    kind = BY_HEAD.get(node.head or b"")
    if kind in ("acl", "sequence", "case") or node.head in (b"cert", b"entry"):
        yield from mistakes_in_parts(node, moment)
    # (the first part of a case, behind its head, is the list)
    if kind in ("acl", "case"):
        yield from needless_entries(node if kind == "acl" else node.rest[0])
    if kind in ("sequence", "case"):
        yield from invalid_signatures(node)
    elif kind == "key":
        yield from mistakes_in_key(node)
    elif kind is None and node.head not in (*ALONE, b"request"):
        yield from remarks(tag_of(node))


def mistakes_in_parts(node: Node, moment: bytes) -> Iterator[tuple[int, str]]:
    """Yields what is probably a mistake in the entries, certificates, keys and hashes of a value: for each the offset in the text, and a remark."""
    waiting = deque([node])
    while waiting:
        part = waiting.popleft()
        if part.head in (b"cert", b"entry"):
            yield from mistakes_in_terms(part, moment)
        if part.head == b"public-key":
            yield from mistakes_in_key(part)
        elif part.head == b"hash" and part.members and part.members[1].body == b"sha1":
            yield part.begin, "a hash by sha1 names no key under the strict policy; `spki-cert key --hash` writes one by sha256"
        elif part.head in PARTS:
            # (the hash and the principal of a signature, and not its value)
            inner_parts = part.rest[:2] if part.head == b"signature" else part.rest
            waiting += [inner for inner in inner_parts if inner.members is not None]


def mistakes_in_terms(node: Node, moment: bytes) -> Iterator[tuple[int, str]]:
    """Yields what is probably a mistake in an entry or a certificate, as of a moment: for each the offset in the text, and a remark."""
    is_certificate = node.head == b"cert"
    terms = terms_of(node.value)
    for field in node.members or []:
        if field.head == b"tag" and field.members:
            yield from remarks(field.members[1])
            if is_everything(field.members[1].value) and is_certificate:
                yield field.begin, ("this tag contains every request: sign a certificate with a narrower one, for example `(packages read)`, "
                                    "or keep it if that is meant")
    if is_certificate and terms.ends is None:
        yield node.begin, "this certificate has no end: sign a new one with `--days N`, and end this one by `spki-cert end`"
    # (the offset of each field by its head; those of the limits may be in `(valid ..)`)
    fields = [inner for field in node.members or [] for inner in ((field.members or []) if field.head == b"valid" else [field])]
    begins = {field.head: field.begin for field in fields}
    what, advice = (("this certificate", "sign a new one, since a changed date breaks the signature") if is_certificate
                    else ("this entry", "remove it, or give a later date"))
    yield from ((begins[head], f"{why}: {advice}") for head, why in remarks_on_window(terms.begins, terms.ends, moment, what))


def needless_entries(node: Node) -> Iterator[tuple[int, str]]:
    """Yields the entries of a list that give nothing that another one does not give: for each the offset in the text, and a remark. Of those for one
    subject the first MOST_COMPARED are compared. The work of a comparison is the product of both lengths. Past MOST_PRODUCTS in all, this ends."""
    entries = [(entry, terms_of(entry.value)) for entry in node.rest if entry.head == b"entry"]
    # (the indices, from 0, of the entries for each subject)
    keys, by_subject = Keys(terms.principal for _, terms in entries), dict[bytes, list[int]]()
    for index, (_, terms) in enumerate(entries):
        by_subject.setdefault(canonical([keys.text_of(terms.principal)[1], *terms.names]), []).append(index)
    work_left, needless = MOST_PRODUCTS, set[int]()
    pairs = (pair for same in by_subject.values() for pair in itertools.permutations(same[:MOST_COMPARED], 2))
    for index, wide_index in pairs:
        (narrow_node, narrow), (wide_node, wide) = entries[index], entries[wide_index]
        work_left -= (narrow_node.end - narrow_node.begin) * (wide_node.end - wide_node.begin)
        if work_left < 0:
            return
        # (of two that give the same only the later one is needless)
        if index not in needless and gives_all_of(wide, narrow, keys) and (wide_index < index or not gives_all_of(narrow, wide, keys)):
            needless.add(index)
            yield narrow_node.begin, f"entry {wide_index + 1} gives all of entry {index + 1}: remove entry {index + 1}"


def mistakes_in_key(node: Node) -> Iterator[tuple[int, str]]:
    """Yields the offset of a key and a remark, if it is probably a mistake: a key in a key, or one of a kind that services verify that is in another
    form, weak or of another length."""
    inner = node.members[1] if node.members and len(node.members) > 1 else node
    if inner.head == b"public-key":
        yield inner.begin, "this is a key in a key, so no signature by it counts: replace the whole outer `(public-key ..)` by the inner one"
    elif inner.head in (b"ecc", b"rsa", b"ecdsa", b"ed25519", b"eddsa", b"rsa-pkcs1-sha256") and public_of(node.value) is None:
        yield inner.begin, "this is no whole key of Ed25519, RSA, ECDSA P-256 or P-384, so no signature by it counts; `spki-cert key FILE` writes one"


def invalid_signatures(node: Node) -> Iterator[tuple[int, str]]:
    """Yields the certificates of a sequence or a case whose signatures are not valid: for each the offset in the text, and a remark. A signature by
    a key of a kind that services do not verify is left out if only its value is in doubt."""
    from spki_verify import public_of as public_of_text
    # (the sequence is the third part of a case, behind the head, the list and the rows)
    sequence = node if node.head == b"sequence" else (node.members or [])[3]
    value = sequence.value
    keys = Keys(keys_in(value))
    for signed in certificates_in(value):
        fault = fault_of_signature(signed, keys)
        if fault and (fault != "NotAccepted" or public_of_text(keys.text_of(signed.terms.issuer or b"")[0]) is not None):
            # (item 1 of a sequence is its member 1, since its head is member 0)
            yield (sequence.members or [])[signed.number].begin, f"{FAULTS[fault]} ({fault})"
