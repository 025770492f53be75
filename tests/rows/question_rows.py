"""Rows for `test_one_call` that are made here: parts of questions that are refused, requests by strings, moments in seconds, limits, lists with
several entries for a key. The answers are worked out by hand from docs/FORMATS.md, the dates by `date -u -d @SECONDS +%F_%T`. The texts of each
call are those that call_rows.py lists. `b"open", b"", b""` is the open policy, and the greatest limits of octets and nodes."""
import hashlib
from collections.abc import Iterator

from harness.support import group, string
from rows.call_rows import CallRow, number
from rows.chains import cert, entry, octets_of, row, signed
from rows.guard_rows import KA, KB, KC, NOW, canonical, case, parts_of, rows_of

A = canonical(KA)
FOR_A = "(acl (entry (public-key (test a)) (tag (*))))"
NO_CERTIFICATES = b"(8:sequence)"
TEXT_OF = {
    "Shape": "not of a form that is read", "UnknownVersion": "unknown version", "KeyUris": "a key with uris", "BadDate": "not a date",
    "StraySignature": "a signature without certificate", "UnknownOp": "unknown operation", "EmptyList": "a list without members",
    "StarInRequest": "a star in a request", "Hint": "a display hint", "Tag(EmptyList)": "tag: a list without members"}
# The list, the sequence, the key, the request and the moment of a case; the part that is refused, its item and its fault.
REFUSED = [
    (("(acl x)", "(sequence)", KA, "a", NOW), "Acl", 1, "Shape"),
    (("(acl (entry (public-key (test a)) (tag a)) (entry (public-key (test a)) (tag ())))", "(sequence)", KA, "a", NOW), "Acl", 2, "Tag(EmptyList)"),
    (('(acl (version "1"))', "(sequence)", KA, "a", NOW), "Acl", 0, "UnknownVersion"),
    ((FOR_A, "(sequence (signature))", "x", "(*)", "x"), "Sequence", 1, "StraySignature"),
    ((FOR_A, "(sequence (public-key (test b)) (do now))", "x", "(*)", "x"), "Sequence", 2, "UnknownOp"),
    ((FOR_A, "(sequence)", "x", "(*)", "x"), "Key", 0, "Shape"),
    ((FOR_A, "(sequence)", "(public-key (test a) (uri x))", "(*)", "x"), "Key", 0, "KeyUris"),
    ((FOR_A, "(sequence)", KA, "(*)", "x"), "Request", None, "StarInRequest"),
    ((FOR_A, "(sequence)", KA, "()", "x"), "Request", None, "EmptyList"),
    ((FOR_A, "(sequence)", KA, "(a [b]c)", "x"), "Request", None, "Hint"),
    ((FOR_A, "(sequence)", KA, "a", "x"), "At", 0, "BadDate"),
    ((FOR_A, "(sequence)", KA, "a", '"2024-13-01_00:00:00"'), "At", 0, "BadDate")]
PART = {"Acl": "access list", "Sequence": "sequence", "Key": "key", "Request": "request", "At": "moment"}


def of_refused_parts() -> Iterator[CallRow]:
    """A case, in canonical form, and a guard, by texts in advanced and in canonical form, refuse the parts of REFUSED for the same faults."""
    for place, (parts, part, item, kind) in enumerate(REFUSED, 1):
        texts = [octets_of(text) for text in parts]
        case_text = canonical(b"(case %s (accepted) %s (key %s) (request %s) (at %s))" % tuple(texts))
        fault = kind if item is None else f"CertFault {{ item: {item}, kind: {kind} }}"
        message = TEXT_OF[kind] if item is None else f"item {item}: {TEXT_OF[kind]}"
        yield CallRow(f"calls/parts:{place}: case", "Case::read", (case_text,), f"Case({part}({fault})): {PART[part]}: {message}".encode())
        for form, texts_in_form in (("advanced", texts), ("canonical", [*map(canonical, texts)])):
            yield from of_refused_part(f"calls/parts:{place}: {form}", texts_in_form, part, item, kind)


def of_refused_part(place: str, texts: list[bytes], part: str, item: int | None, kind: str) -> Iterator[CallRow]:
    """The rows in which a guard refuses the texts of a list, sequence, key, request and moment, for the fault of one of them: `part`, a key
    of PART. `item`, the place of its member (0 for all of it, None for a request), and `kind` are the fault: a value of Rattle or words in a line."""
    fault, message = f"CertFault {{ item: {item}, kind: {kind} }}", f"item {item}: {TEXT_OF[kind]}"
    guard = texts[0], b"open", b"", b""
    words = kind.replace("(", " ").replace(")", "")  # (a fault `Tag(EmptyList)` is `Tag EmptyList` in a line)
    if part == "Acl":
        yield CallRow(place, "Guard::read", guard, f"Acl(Acl({fault})): access list: {message}".encode())
        yield CallRow(f"{place}, line", "refused_list", guard, f"Refused refused acl {item} {words}\n".encode())
        return
    name, line = "Moment" if part == "At" else part, f"sequence {item}" if part == "Sequence" else part.lower()
    if part != "Sequence":  # (a guard names no item of a key, a request or a moment)
        fault, message = kind, TEXT_OF[kind]
    yield CallRow(place, "PreparedQuestion::decide", (*guard, *texts[1:], b"all"), f"Ask({name}({fault})): {PART[part]}: {message}".encode())
    yield CallRow(f"{place}, line", "answer_opened", (*guard, b"decide", *texts[1:], b""), f"Refused refused {line} {words}\n".encode())


# ---- requests by strings, and moments in seconds


def list_of(tag: bytes, fields: bytes = b"") -> bytes:
    """The canonical text of a list with an entry for KA. The content of its `(tag ..)` and its further fields are given as canonical texts."""
    return group(string("acl"), group(string("entry"), A, group(string("tag"), tag), fields))


def row_by_strings(place: str, listed: bytes, words: tuple[bytes, ...], answer: bytes, seconds: int = 0, octets: bytes = b"") -> CallRow:
    """A row of a question of KA to a guard of the list `listed`, by strings (`words`) and at a moment in seconds since 1970. `octets` is the limit of
    octets as a number in digits, empty for the greatest limit."""
    return CallRow(f"calls/words:{place}", "Guard::ask", (listed, b"open", octets, b"", A, number(seconds), *words), answer)


# Strings with octets that would end a list, a string, a text or a line elsewhere.
STRINGS = [
    (b"ftp", b'x) (at "2030-01-01_00:00:00") (a'), (b"ftp", b")"), (b"ftp", b"("), (b"ftp", b"3:dir"),
    (b"ftp", b"a b", b'"', b"#61#", b"|YQ==|", b"{MTph}", b"[h]x"), (b"ftp", b""), (b"", b""), (b"ftp", b"*"), (b"ftp", b"\n; a\n"),
    (b"ftp", b"\x00\xff\x80"), (b"(3:ftp)", b"(1:*)")]
ONE_STRING = [(b"3:a)b", b"a)b", b"Yes(1)"), (b"(3:a)b)", b"a)b", b"No"), (b"1:*", b"*", b"Yes(1)"), (b"0:", b"", b"Yes(1)")]
NO_REQUESTS = [((), "EmptyList"), ((b"*", b"x"), "StarInRequest"), ((b"*", b"set"), "StarInRequest")]


def of_strings() -> Iterator[CallRow]:
    """Several strings are granted by the tag that is their list, and not by one with one more member. One string is granted by that string, and
    not by a list of it. No strings, and several of which the first is `*`, are refused. Each octet of a string counts as it is."""
    for place, words in enumerate(STRINGS):
        members = [*map(string, words)]
        yield row_by_strings(f"strings {place}", list_of(group(*members)), words, b"Yes(1)")
        yield row_by_strings(f"strings {place} and more", list_of(group(*members, b"(1:*)")), words, b"No")
    for octet in range(256):
        words = b"ftp", bytes([octet])
        yield row_by_strings(f"octet {octet}", list_of(group(*map(string, words))), words, b"Yes(1)")
        yield row_by_strings(f"octet {octet}, another list", list_of(b"(3:ftp2:ab)"), words, b"No")
    for place, (tag, word, answer) in enumerate(ONE_STRING):
        yield row_by_strings(f"one string {place}", list_of(tag), (word,), answer)
    for words, kind in NO_REQUESTS:
        fault = f"Ask(Request({kind})): request: {TEXT_OF[kind]}".encode()
        yield row_by_strings(f"no request {b' '.join(words).decode()}", list_of(b"(1:*)"), words, fault)


DATES = {0: b"1970-01-01_00:00:00", 1: b"1970-01-01_00:00:01", 951_782_400: b"2000-02-29_00:00:00", 951_868_799: b"2000-02-29_23:59:59",
         4_107_542_400: b"2100-03-01_00:00:00", 4_107_542_399: b"2100-02-28_23:59:59", 2_147_483_648: b"2038-01-19_03:14:08",
         1_795_428_000: b"2026-11-23_10:00:00", 253_402_300_799: b"9999-12-31_23:59:59"}
NO_DATES = (-1, 253_402_300_800, -62_167_219_200, -62_167_219_201, 2**63 - 1, -2**63, -377_705_116_800, 1_000_000_000_000)


def of_seconds() -> Iterator[CallRow]:
    """Seconds mean what their date means as a text: an entry of that date grants, another one not. Those below 0 and after 9999 are refused."""
    for seconds, date in DATES.items():
        for limit, answer in ((date, b"Yes(1)"), (b"1971-01-01_00:00:00", b"No")):
            listed = list_of(b"(1:*)", group(string("not-before"), string(limit)) + group(string("not-after"), string(limit)))
            yield row_by_strings(f"seconds {seconds} {answer.decode()}", listed, (b"a",), answer, seconds)
            arguments = (listed, b"open", b"", b"", NO_CERTIFICATES, A, b"1:a", string(date), b"")  # (without marks)
            yield CallRow(f"calls/words:text {seconds} {answer.decode()}", "PreparedQuestion::decide_by", arguments, answer)
    for seconds in NO_DATES:
        yield row_by_strings(f"no date {seconds}", list_of(b"(1:*)"), (b"a",), b"Ask(Moment(BadDate)): moment: not a date", seconds)


# ---- limits, and several entries

# Requests as strings, and the number of octets of their canonical form. The sequence has 12 octets, the key 26, the date 22.
TOO_LONG = b"Ask(TooLong): the texts are too long"
LENGTHS = [((b"a",), 3), ((b"a", b"bc"), 9), ((b"0123456789",), 13), ((b"012345678", b"0123456789"), 26), ((b"", b"a"), 7)]


def of_limits() -> Iterator[CallRow]:
    """Questions of as many octets as may be, and of more; products of nodes, which do not limit a decision; many strings and certificates."""
    for words, length in LENGTHS:
        whole = 12 + 26 + length + 22  # (the octets of the sequence, the key, the request and the date)
        for octets, answer in ((whole, b"Yes(1)"), (whole - 1, TOO_LONG), (0, TOO_LONG)):
            yield row_by_strings(f"octets {length} {octets}", list_of(b"(1:*)"), words, answer, octets=number(octets))
    text = sets_case()
    yield CallRow("calls/limits:sets", "decide", (text, rows_of(text)), b"Yes(1)")
    parts = parts_of(text)  # (list, sequence, key, request, moment, policy)
    # (tags of 5 and of 4 nodes are intersected: their product is 20)
    for nodes, explained in ((1_000_000, b"[Grants]"), (20, b"[Grants]"), (19, b"Decision(TooLarge): the tags are too large"),
                             (0, b"Decision(TooLarge): the tags are too large")):
        arguments = (parts[0], b"open", b"", number(nodes), *parts[1:5], b"1")
        yield CallRow(f"calls/limits:nodes {nodes}", "PreparedQuestion::explain_by", arguments, explained)
        for call in ("PreparedQuestion::decide_by", "PreparedQuestion::grant_by"):
            yield CallRow(f"calls/limits:nodes {nodes}: {call}", call, arguments, b"Yes(1)")
    yield from of_strings_in_chains()
    yield from of_counts()


def of_counts() -> Iterator[CallRow]:
    """By the default limits a question may have 16 certificates and 64 strings, also in lists inside the request. Without these it may have more."""
    listed, item = f"(acl (entry {KA} (propagate) (tag (*))))".encode(), signed(cert(KA, KB, "(tag (*))"), KA)
    for count, strings, refusal in ((16, 64, None), (17, 64, "Certificates"), (17, 65, "Certificates"), (16, 65, "Words")):
        question = (f"(sequence {item * count})".encode(), KB.encode(), f"({'a ' * (strings - 2)}(a b))".encode(), NOW)  # (`(a b)` has 2 of them)
        # (no: behind the first certificate the chain needs one of B, and all are issued by A)
        by_default = b"Refused refused question TooMany%s\n" % refusal.encode() if refusal else b"No no\n"
        for limits, answer in ((b"usual", by_default), (b"", b"No no\n")):
            arguments = (listed, b"strict", limits, b"", b"decide", *question, b"1" * count)
            yield CallRow(f"calls/limits:{count} certificates, {strings} strings, {limits.decode()}", "answer_opened", arguments, answer)


def sets_case() -> bytes:
    """A case for KB, in which a set of three members is delegated as one of two."""
    certificate = cert(KA, KB, "(tag (* set (ftp) x))")
    return case(entry("a", "(propagate) (tag (* set (ftp) x y))"), row(certificate, KA), signed(certificate, KA))


def of_strings_in_chains() -> Iterator[CallRow]:
    """A chain that as a case is refused as TooLarge with 102 strings or more in its last tag: the first two leave 99 * 99 strings, or 9,802
    nodes, which times 102 are below 1,000,000, and times 103 are not. A guard decides it, since its decision intersects nothing."""
    tag = f"(tag (* set{' a' * 99}))"
    for third in (101, 102, 1_023):  # (1,023 strings are the most in a tag)
        first, second = cert(KA, KB, f"(propagate) {tag}"), cert(KB, KC, f"(tag (* set{' a' * third}))")
        sequence = f"(sequence {signed(first, KA)} {signed(second, KB)})".encode()
        guard = (f"(acl (entry {KA} (propagate) {tag}))".encode(), b"open", b"", b"")  # (by the greatest limits of octets and nodes)
        for request, answer in ((b"a", b"Yes(1)"), (b"b", b"No")):
            arguments = (*guard, sequence, KC.encode(), request, NOW, b"11")  # (both signatures are marked)
            yield CallRow(f"calls/limits:{third} strings, {request.decode()}", "PreparedQuestion::decide_by", arguments, answer)


# Strings that KA requests, and the first entry that grants each of them under the open and under the strict policy.
FIRST = {b"a": (6, 6), b"b": (3, 4), b"c": (4, 4), b"d": (2, 2), b"e": (2, 2), b"f": (8, 8), b"g": (None, None)}


def of_several_entries() -> Iterator[CallRow]:
    """Questions to a list of entries for hashes of KA, for KA and for others. The first that grants is named, by the strict policy none by SHA-1."""
    def hashed(alg: str, tag: str) -> str:
        """An entry for the hash of KA by an algorithm, with a tag."""
        return f"(entry (hash {alg} #{hashlib.new(alg, A).hexdigest()}#) (tag {tag}))"

    every = "(* set a b c d e)"
    entries = [f"(entry {KC} (tag {every}))", hashed("sha512", "(* set d e)"), hashed("sha1", "(* set b e)"), f"(entry {KA} (tag (* set c b)))",
               f"(entry (name {KA} x) (tag {every}))", hashed("sha256", every), hashed("sha1", every), hashed("sha512", "f")]
    listed = f"(acl {''.join(entries)})".encode()
    yield CallRow("calls/several:entries", "Guard::read", (listed, b"open", b"", b""), b"8")
    for word, numbers in FIRST.items():
        for policy, first in zip((b"open", b"strict"), numbers):
            answer = b"No" if first is None else b"Yes(%d)" % first
            yield CallRow(f"calls/several:{word.decode()} {policy.decode()}", "Guard::ask", (listed, policy, b"", b"", A, b"0", word), answer)
