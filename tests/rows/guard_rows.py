"""Rows for `test_one_call`, made by the functions `of_..`: cases with certificates, whose digests are computed, and questions to guards. The answers
of `of_questions` are those of the model. All others are worked out by hand from docs/FORMATS.md. The texts of each call are those in call_rows.py.
In a case, `rows` are the signatures that it accepts, and `items` the members of its sequence."""
import hashlib
import re
from collections.abc import Iterator
from typing import Any

from harness.support import braced
from model import forms, guard
from model import case as cases
from model.printed import printed
from model.values import canonical as written
from rows import chains
from rows.call_rows import CallRow, first_run
from rows.chains import canonical, cert, entry, key, row, signed

KA, KB, KC = map(key, "abc")
NOW = b'"2024-01-01_00:00:00"'
C1 = cert(KA, KB, "(tag (*))")
# Entries for KA: one that delegates and contains each request, and one that does not delegate and contains some.
ALL, HOST = entry("a"), entry("a", "(tag (ftp host))")
NO_ROWS, NO_LIMITS = b"(8:accepted)", (b"", b"")  # (empty limits of octets and nodes are the greatest ones)
ENTRY = re.compile(rb"entry \d+ ")
SHAPES = {"Canonical": lambda text: text, "Advanced": lambda text: printed(forms.read(text)), "Transport": braced}


def case(entries: str, rows: str = "", items: str = "", asks: str = KB, request: str = "(ftp)") -> bytes:
    """The canonical text of a case, from the texts of its entries, its rows and its items, of the key that asks and of its request."""
    return canonical(chains.case(entries, rows, items, asks, request))


# ---- cases and verifiers


def signed_wrongly(certificate: str) -> str:
    """A certificate and a signature by KA, in whose digest one bit is wrong."""
    head, digits, tail = chains.digest(certificate).split("#")
    return f"{certificate} (signature {head}#{int(digits[:2], 16) ^ 1:02x}{digits[2:]}#{tail} {KA} sig)"


def case_by_hash(behind: str, is_changed: bool = False) -> bytes:
    """A case with a certificate whose issuer is the hash of KA, and the text `behind` it: a key or none. `is_changed`: the signed digest is wrong."""
    hashed = cert(chains.digest(KA), KB, "(tag (*))")
    return case(ALL, row(hashed, KA), (signed_wrongly(hashed) if is_changed else signed(hashed, KA)) + behind)


def delegation(rows: str, signer: str) -> bytes:
    """A case in which KA delegates its right to KB, with these rows and this signer of the certificate, which is wrong if it is not KA."""
    return case(ALL, rows, signed(C1, signer))


def rows_of(text: bytes) -> bytes:
    """The `(accepted ..)` of a case, in canonical form."""
    return written(members_of(text)[2])


def members_of(text: bytes) -> Any:
    """The members of a case, of which the first is the word `case`. The type is `Any` so that each can be taken by its number."""
    return forms.read(text)


def of_verifiers() -> Iterator[CallRow]:
    """What calls answer to cases by a verifier: the rows of the case, others, `all` (which accepts each signature) or `broken` (which lacks memory).
    `judge` answers the first item that fails a test of evidence and the cause, or how many certificates pass. `Case::read` takes no verifier."""
    right, none = delegation(row(C1, KA), KA), delegation("", KA)
    other, shown = delegation(row(C1, KB), KB), case_by_hash(KA)
    differs = case_by_hash(KA, is_changed=True)
    for name, call, text, rows, wanted in [
        ("hash-issuer: shown", "judge", shown, rows_of(shown), b"1"),
        ("hash-issuer: not shown", "judge", case_by_hash(""), rows_of(shown), b"1 KeyNotShown"),
        ("hash-issuer: another digest", "judge", differs, rows_of(differs), b"1 DigestDiffers"),
        ("hash-issuer: another digest, all accepted", "judge", differs, b"all", b"1 DigestDiffers"),
        ("not-accepted: no row", "judge", none, NO_ROWS, b"1 NotAccepted"),
        ("not-accepted: another signer", "judge", other, rows_of(other), b"1 SignerDiffers"),
        ("not-accepted: another signer, all accepted", "judge", other, b"all", b"1 SignerDiffers"),
        ("not-accepted: none accepted", "judge", right, NO_ROWS, b"1 NotAccepted"), ("first-run", "decide", first_run(), NO_ROWS, b"Yes(1)"),
        ("first-run, broken", "decide", first_run(), b"broken", b"Yes(1)"), ("delegation, none accepted", "decide", none, NO_ROWS, b"No"),
        ("delegation, all accepted", "decide", none, b"all", b"Yes(1)"), ("delegation, another signer", "decide", delegation("", KB), b"all", b"No"),
        ("shorter-request", "explain", case(HOST, asks=KA), NO_ROWS, b"[TagLacks]"),
        ("shorter-request, whole", "explain", case(HOST, asks=KA, request="(ftp host dir)"), NO_ROWS, b"[Grants]"),
        ("second-entry", "explain", case(entry("c", "(tag (*))") + ALL, row(C1, KA), signed(C1, KA), KA), canonical(f"(accepted {row(C1, KA)})"),
         b"[Stopped { item: 1, cause: NotIssuer }, NotTheKey]"),
        ("not-accepted", "explain", none, NO_ROWS, b"1 NotAccepted"), ("not-accepted", "reduce_case", none, NO_ROWS, b"1 NotAccepted"),
        ("reduced-sets", "reduce_case", *case_of_sets("(* set write (* prefix re))"),
         b"(4:five(7:subject(10:public-key(4:test1:b)))(3:tag(1:*3:set4:read5:write)))\n"),
        ("reduced-sets, other tag", "reduce_case", *case_of_sets("x"), b"1 NoTag\n"),
    ]:
        yield CallRow(f"calls/cases:{name}", call, (text, rows), wanted)
    for name, text, verifier, wanted in [
        ("first-run, none accepted", first_run(), NO_ROWS, b"Yes(1)"), ("first-run, broken", first_run(), b"broken", b"Yes(1)"),
        ("delegation, none accepted", none, NO_ROWS, b"No"), ("delegation, all accepted", none, b"all", b"Yes(1)"),
        ("delegation, broken", none, b"broken", b"refused Memory"), ("delegation, another signer", delegation("", KB), b"all", b"No"),
    ]:
        parts = parts_of(text)  # (list, sequence, key, request, moment, policy)
        for call in ("PreparedQuestion::decide", "PreparedQuestion::grant"):
            yield CallRow(f"calls/cases:{name}: {call}", call, (parts[0], parts[5], *NO_LIMITS, *parts[1:5], verifier), wanted)
    for call in ("decide", "explain", "reduce_case"):
        yield CallRow(f"calls/cases:broken: {call}", call, (none, b"broken"), b"refused Memory")
    yield CallRow("calls/cases:first-run", "Case::read", (first_run(),), b"1 0")


def case_of_sets(tag: str) -> tuple[bytes, bytes]:
    """A case with an entry for the set of read and write and a certificate with this tag, and the text of its rows."""
    certificate = cert(KA, KB, f"(tag {tag})")
    text = case(entry("a", "(propagate) (tag (* set read write))"), row(certificate, KA), signed(certificate, KA))
    return text, rows_of(text)


def of_separate_rows() -> Iterator[CallRow]:
    """Decisions on a case and the text of its accepted signatures. A fault of the case is reported before one of that text."""
    text, rows = delegation(row(C1, KA), KA), canonical(f"(accepted {row(C1, KA)})")
    for name, case_text, rows_text, wanted in [
        ("row", text, rows, b"Done yes entry 1\n"), ("no row", text, b"(accepted)", b"No no\n"),
        ("no case, no rows", b"(", b")", b"Refused refused form Short\n"), ("another case", b"(a)", b")", b"Refused refused case Shape\n"),
        ("no rows", first_run(), b")", b"Refused refused rows Bad 0\n"), ("other rows", first_run(), b"(a)", b"Refused refused rows Shape\n"),
    ]:
        yield CallRow(f"calls/rows:{name}", "check_accepted", (case_text, rows_text), wanted)


# ---- callers that accept no signature of a revoked key


def of_revoked_keys() -> Iterator[CallRow]:
    """What `decide_unrevoked` says to KB, and `answer_both` to KB and to KA, if KA delegates its right to KB and keys are revoked. The chain ends
    at KB, so the answer to KA is no. KB has signed nothing, so revoking it changes nothing. `answer_both` has a request and moment of its own."""
    text = case(entry("a"), row(C1, KA), signed(C1, KA))
    parts, rows = parts_of(text)[:5], rows_of(text)  # (list, sequence, key, request, moment)
    ka, kb = canonical(KA), canonical(KB)
    for revoked, wanted in (((), b"Yes(1)"), ((kb,), b"Yes(1)"), ((kb, ka), b"No")):
        yield CallRow(f"calls/callers:decide_unrevoked {len(revoked)}", "decide_unrevoked", (*parts, rows, *revoked), wanted)
    for revoked, wanted in (((), b"(Yes(1), No)"), ((ka,), b"(No, No)")):
        yield CallRow(f"calls/callers:answer_both {len(revoked)}", "answer_both", (*parts[:2], kb, ka, rows, *revoked), wanted)


# ---- the questions of cases


def parts_of(text: bytes) -> list[bytes]:
    """The texts of a case's list [0], sequence [1], key [2], request [3] and moment [4], and its policy [5], `open` or `strict`."""
    members = members_of(text)
    parts = [members[1], members[3], *(part[1] for part in members[4:7])]
    return [*map(written, parts), b"strict" if len(members) > 7 else b"open"]


def answer_of(wish: str, parts: list[bytes], rows: bytes) -> tuple[guard.Answer, list[guard.Signed]]:
    """What the model answers to the parts of a case (`parts_of`) and its rows, and the signatures of it. `wish`: `decide`, `explain` or `reduce`."""
    question, policy = guard.Parts(*parts[1:5]), guard.OPEN if parts[5] == b"open" else guard.STRICT
    return guard.answer(wish, parts[0], question, cases.read_rows(forms.read(rows)), policy, guard.USUAL, oddity="")


def in_debug(wish: str, answer: bytes) -> bytes:
    """The lines of an answer as `test_one_call` writes the result: as a value of Rattle, such as `Yes(1)`; for `reduce` each authorization in
    canonical form, or the item at which its chain stops and the cause; and where evidence fails, its item and the cause."""
    if wish == "decide":
        return b"No" if answer == b"no\n" else b"Yes(%s)" % answer.split()[2]  # (`yes entry N`)
    if answer.startswith(b"item "):  # (this item fails a test of evidence)
        return answer[len(b"item "):-1]
    lines = [ENTRY.sub(b"", line, count=1) for line in answer.split(b"\n")[:-1] if line != b"no entries"]
    if wish == "reduce":
        return b"".join((written(forms.read(line)) if line.startswith(b"(") else line.removeprefix(b"item ")) + b"\n" for line in lines)
    return b"[%s]" % b", ".join(reason(line) for line in lines)


def reason(line: bytes) -> bytes:
    """What a line of an explanation says behind `entry N`, as a value of Rattle: `Stopped { .. }`, `Grants`, or the word of the line."""
    stop = re.fullmatch(rb"item (\d+) (\w+)", line)
    return b"Stopped { item: %s, cause: %s }" % stop.groups() if stop else line.replace(b"grants", b"Grants")


def example_cases() -> Iterator[tuple[str, bytes]]:
    """Yields (name, canonical text) of cases, in groups: in each the request, the entries, the rows or the items of the sequence vary."""
    yield "first-run", first_run()
    for request in ("(ftp)", "(ftp host dir)", "(ftp host)", "ftp", "(http host)"):
        yield f"shorter-request {request}", case(HOST, asks=KA, request=request)
    other = "(entry (name (public-key (test a)) x) (propagate) (tag (*)))"
    lists = ["", entry("c", "(tag (*))") + ALL, entry("a", "(propagate) (tag (ftp))") + ALL, entry("b") + other,
             entry("a", "(tag (*))") + entry("a", "(propagate) (tag http)")]
    for place, entries in enumerate(lists):
        for asks in (KA, KB):
            yield f"second-entry {place} {asks}", case(entries, row(C1, KA), signed(C1, KA), asks)
            yield f"second-entry {place} {asks} alone", case(entries, asks=asks)
    for signer in (KA, KB):
        for listed in (KA, KB):
            yield f"not-accepted {signer} {listed}", delegation(row(C1, listed), signer)
        yield f"not-accepted {signer}", delegation("", signer)
    for behind in (KA, KB, ""):
        yield f"hash-issuer {behind or 'not shown'}", case_by_hash(behind)


def of_questions() -> Iterator[CallRow]:
    """Each of `example_cases`, as a case and as a question to a guard of its list. The parts of the question are in each of the three forms."""
    for name, text in example_cases():
        rows, parts = rows_of(text), parts_of(text)
        for wish, call in (("decide", "decide"), ("explain", "explain"), ("reduce", "reduce_case")):
            (_, answer), listed = answer_of(wish, parts, rows)
            yield CallRow(f"calls/questions:{name}: {call}", call, (text, rows), in_debug(wish, answer))
            for form, in_form in SHAPES.items():
                parts_in_form = [*map(in_form, parts[:5]), parts[5]]
                yield from of_question(f"calls/questions:{name}: {form}", wish, parts_in_form, rows, answer, listed)


def of_question(place: str, wish: str, parts: list[bytes], rows: bytes, answer: bytes, listed: list[guard.Signed]) -> Iterator[CallRow]:
    """The rows of one question, by each call that can answer it. `parts`: list, sequence, key, request, moment and policy. `rows`: the text of the
    accepted signatures. `answer`: the lines that the model answers. `listed`: the signatures of the question, which marks accept or not."""
    opening, question, marks, result = (parts[0], parts[5], *NO_LIMITS), tuple(parts[1:5]), marks_of(rows, listed), in_debug(wish, answer)
    yield CallRow(f"{place} {wish}", f"PreparedQuestion::{wish}", (*opening, *question, rows), result)
    yield CallRow(f"{place} {wish}_by", f"PreparedQuestion::{wish}_by", (*opening, *question, marks), result)
    if wish == "reduce":
        yield CallRow(f"{place} reduce_into", "PreparedQuestion::reduce_into", (*opening, *question, marks), result)
    verdict = b"Done" if is_done(answer) else b"No"
    yield CallRow(f"{place} {wish} in lines", "answer_opened", (*opening, wish.encode(), *question, marks), verdict + b" " + answer)
    if wish == "decide":
        policy = guard.OPEN if parts[5] == b"open" else guard.STRICT
        is_possible = guard.is_possible(parts[0], guard.Parts(*question), policy, guard.USUAL)
        for call in ("PreparedQuestion::is_possible", "OwnedQuestion::is_possible"):
            for some_marks in sorted({marks, b""}):  # (on which the answer does not depend)
                yield CallRow(f"{place} {call}, {len(some_marks)} marks", call, (*opening, *question, some_marks), b"yes" if is_possible else b"no")
        yield CallRow(f"{place} other marks", "answer_opened", (*opening, b"decide", *question, marks + b"1"), b"other marks")  # (one too many)
        yield CallRow(f"{place} opened", "OwnedQuestion::decide_by", (*opening, *question, marks), result)
        texts = b"".join(text + b"\n" for signed_texts in listed for text in signed_texts)
        yield CallRow(f"{place} signed", "OwnedQuestion::signed", (*opening, *question), texts)


def is_done(answer: bytes) -> bool:
    """Whether the lines of an answer say that an entry grants, or becomes an authorization."""
    return re.search(rb"^(yes entry \d+|entry \d+ grants|entry \d+ \(five .*)$", answer, re.MULTILINE) is not None


def marks_of(rows: bytes, listed: list[guard.Signed]) -> bytes:
    """The marks of a question's signatures: `1` for each that a row accepts, `0` for each other."""
    accepted = {(each.key.octets, each.digest, each.value) for each in cases.read_rows(forms.read(rows))}
    return b"".join(b"1" if (signer, hashlib.sha256(message).digest(), value) in accepted else b"0" for signer, message, value in listed)
