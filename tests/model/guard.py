"""A guard: an access list that is read once, and questions whose parts are texts of their own (section "Questions to a guard")."""
import calendar
import datetime
import hashlib
import re
from dataclasses import dataclass
from typing import Any

from . import answers, evidence, forms, intersection, structures, tags
from .answers import Answer, Refused, refusal, refused
from .calls import GRANTED, MISUSED, of_library, too_small
from .case import Case, Row  # (a row is a signature that is accepted)
from .coverage import Rows  # (`X.count_use(row)` counts one use of a row of the table X)
from .structures import Certificate, Entry, ItemFault, Key, Signature, StructureFault
from .tags import TagFault
from .values import Atom, FormFault, Value, canonical

WISHES = {"decide": answers.decide, "explain": answers.explain, "reduce": answers.reduce}
PARTS = ("sequence", "key", "request", "at")
STRICT, OPEN = POLICIES = (0, 1)
# the key, the message and the signature value
Signed = tuple[bytes, bytes, bytes]
REFUSED = Rows("question to a guard, refused", [
    "list, form", "list", "list, item 0", "question TooLong", "question TooManyCertificates", "question TooManyWords", "at, seconds",
    *(f"{part}{row}" for part in PARTS for row in (", form", "")),
    "sequence, item 0", "explain, octets of the answer", "reduce, octets of the answer"])
GIVEN = Rows("question to a guard, given", [
    "request by no string", "request by one string", "request by strings", "seconds", "limits that are lower"])
SIGNED = Rows("question to a guard, signatures that are listed", ["none", "of each certificate", "up to one that does not stand"])
DECIDED = Rows("question to a guard, decided", ["yes where check is TooLarge", "no where check is TooLarge", "as check"])
STATUSES = Rows("question to a guard, status", [f"{wish}: {status}" for wish in WISHES for status in (0, 1, 2)])
# what is misuse when a guard is opened, a question is opened, a signature is asked for, a question is answered, a signature is marked
OPENED = ("no policy has this number", "a limit of octets above the highest", "a limit of nodes above the highest",
          "a limit of work above the highest", "no place for the guard", "a list that is null with a length", "limits of another size")
ASKED = ("no guard", "no question", "a part that is null with a length", "a part of a length over 2^63 - 1", "strings that are null with a count",
         "more strings than there are octets", "no place for the question", "a question of another size", "a request as a text and as strings",
         "a moment as a text and in seconds", "a buffer for a line that is null with a length")
LISTED = ("no place for the signature", "a signature of no question")
ANSWERED = ("a buffer that is null with a length", "no opened question", "a guard in place of an opened question")
MARKED = ("a mark past the signatures", "a mark far past the signatures", "a mark of no opened question")
MISUSES = Rows("question to a guard, status 5", [*OPENED, *ASKED, *LISTED, *ANSWERED, *MARKED])
POSSIBLE = Rows("question to a guard, if all signatures were valid", ["yes", "no"])
ALLOWED = Rows("question to a guard, null pointers that are allowed", ["limits", "needed"])
SMALL = Rows("question to a guard, status 4", ["the line of a refused list", "the line of a refused question", "an answer"])
FIRST_SECOND, LAST_SECOND = 0, 253_402_300_799
# as the last second of a decision: that of no yes, and of one that nothing ends
NEVER, NO_END = -2**63, LAST_SECOND
UNTIL = Rows("question to a guard, what ends a yes", ["nothing", "a window"])
# after so many years, which are so many days, the Gregorian calendar is the same again
CYCLE_YEARS, CYCLE_DAYS = 400, 146_097
# a date in canonical form
DATE_OCTETS = 22


@dataclass(frozen=True, slots=True)
class Limits:
    """The most octets, certificates and strings (words) of a question, product of nodes of an intersection, work, and octets of an answer."""

    octets: int = 65_536
    certificates: int = 16
    words: int = 64
    nodes: int = intersection.MOST_PRODUCT
    work: int = 2_000_000
    answer: int = 1_048_576


USUAL = Limits()
HIGHEST = Limits(octets=1_048_576, work=1_000_000_000)


@dataclass(frozen=True, slots=True)
class Guard:
    """A guard: the entries of its access list, whether its policy is strict, by which no hash by SHA-1 names a key, and its limits."""

    entries: list[Entry]
    strict: bool
    limits: Limits


@dataclass(frozen=True, slots=True)
class Parts:
    """The parts of a question, as texts in any form. A request may also be a tuple of strings, and a moment seconds since 1970."""

    sequence: bytes
    key: bytes
    request: bytes | tuple[bytes, ...]
    moment: bytes | int


# ---- what is read


def open_guard(text: bytes, strict: bool, limits: Limits) -> Guard:
    """The guard of a list's text. `strict`: no hash by SHA-1 names a key. Raises Refused if the text is no access list."""
    try:
        entries = structures.read_access_list(forms.read_within_limit(text))
    except FormFault as fault:
        REFUSED.count_use("list, form")
        raise refusal(f"form {fault.kind}", f"form {fault}") from None
    except ItemFault as fault:
        REFUSED.count_use("list" if fault.item else "list, item 0")
        raise Refused(f"acl {fault.item} {fault.kind}") from None
    except StructureFault as fault:
        REFUSED.count_use("list, item 0")
        raise Refused(f"acl 0 {fault}") from None
    if limits != USUAL:  # (higher limits count too)
        GIVEN.count_use("limits that are lower")
    return Guard(entries, strict, limits)


def case_of(guard: Guard, question: Parts, rows: list[Row]) -> Case:
    """The case of a question, with these rows. Raises Refused for too many octets, else the first bad part, else too many certificates or strings."""
    if octets_of(question) > guard.limits.octets:
        REFUSED.count_use("question TooLong")
        raise Refused("question TooLong")
    items = part("sequence", structures.read_sequence, question.sequence)
    key = part("key", structures.read_key, question.key)
    if isinstance(question.request, tuple):
        request = read("request", tags.read_request, value_of_strings(question.request))
    else:
        request = part("request", tags.read_request, question.request)
    moment = date_of(question.moment) if isinstance(question.moment, int) else part("at", structures.read_date, question.moment)
    check_counts(guard.limits, items, request)
    return Case(guard.entries, rows, items, key, request, moment, guard.strict)


def check_counts(limits: Limits, items: list[Any], request: Value) -> None:
    """Raises Refused if a question that is read has more certificates or strings than the limits."""
    if sum(isinstance(item, Certificate) for item in items) > limits.certificates:
        REFUSED.count_use("question TooManyCertificates")
        raise Refused("question TooManyCertificates")
    if strings_in(request) > limits.words:
        REFUSED.count_use("question TooManyWords")
        raise Refused("question TooManyWords")


def strings_in(value: Value) -> int:
    """How many strings a value has."""
    return 1 if isinstance(value, Atom) else sum(map(strings_in, value))


def part(name: str, reader: Any, text: bytes) -> Any:
    """What a reader, such as `structures.read_key`, returns for a part's text. Raises Refused with the part's name."""
    try:
        value = forms.read_within_limit(text)
    except FormFault as fault:
        REFUSED.count_use(f"{name}, form")
        raise Refused(f"{name} {fault}") from None
    return read(name, reader, value)


def read(name: str, reader: Any, value: Value) -> Any:
    """What a reader, such as `structures.read_key`, returns for a part's value. Raises Refused with the part's name, and for a sequence, whose reader
    alone raises ItemFault, with the number of the item: 0 if the sequence itself is wrong."""
    try:
        return reader(value)
    except ItemFault as fault:
        REFUSED.count_use(name)
        raise Refused(f"{name} {fault.item} {fault.kind}") from None
    except (StructureFault, TagFault) as fault:
        REFUSED.count_use("sequence, item 0" if name == "sequence" else name)
        raise Refused(f"sequence 0 {fault}" if name == "sequence" else f"{name} {fault}") from None


def value_of_strings(strings: tuple[bytes, ...]) -> Value:
    """The request that is given as strings: a single string is the string itself, others are the list of them."""
    GIVEN.count_use("request by one string" if len(strings) == 1 else "request by strings" if strings else "request by no string")
    return Atom(strings[0]) if len(strings) == 1 else tuple(map(Atom, strings))


def date_of(seconds: int) -> bytes:
    """Seconds since 1970-01-01 00:00:00 UTC as `YYYY-MM-DD_hh:mm:ss`. Raises Refused, `at BadDate`, before 1970 or after the year 9999."""
    if not FIRST_SECOND <= seconds <= LAST_SECOND:
        REFUSED.count_use("at, seconds")
        raise Refused("at BadDate")
    GIVEN.count_use("seconds")
    moment = datetime.datetime(1970, 1, 1) + datetime.timedelta(seconds=seconds)
    return moment.strftime("%Y-%m-%d_%H:%M:%S").encode()


def octets_of(question: Parts) -> int:
    """How many octets the texts of a question have together. Strings count as the canonical form of their value, seconds as a date."""
    request = question.request
    if isinstance(request, tuple):
        request = canonical(Atom(request[0]) if len(request) == 1 else tuple(map(Atom, request)))
    moment = DATE_OCTETS if isinstance(question.moment, int) else len(question.moment)
    return len(question.sequence) + len(question.key) + len(request) + moment


# ---- what is answered


def signatures_to_verify(case: Case) -> list[Signed]:
    """The key, the message and the signature value of each certificate, up to the first that fails one of the first three tests of evidence."""
    listed: list[Signed] = []
    for number, certificate, signature in evidence.signed_certificates(case.items):
        key = issuer_key_if_fit(number, certificate, signature, case)
        if key is None:
            SIGNED.count_use("up to one that does not stand")
            return listed
        listed.append((key.octets, certificate.octets, signature.value))
    SIGNED.count_use("of each certificate" if listed else "none")
    return listed


def issuer_key_if_fit(number: int, certificate: Certificate, signature: Signature, case: Case) -> Key | None:
    """The issuer's key of a certificate that passes the first three tests of evidence, None if it fails one. The number is its item's."""
    key = evidence.issuer_key(certificate.issuer, number, case.items, case.strict)
    if key and signature.digest.fits(certificate.octets) and evidence.names(signature.signer, key, case.strict):
        return key
    return None


def until(list_text: bytes, question: Parts, policy: int, limits: Limits, answered: Answer) -> int:
    """The last second at which a yes to the same question holds: the least not-after of its entry and of all certificates. NO_END if there is
    none, NEVER if the library's answer `answered` is not yes."""
    status, line = answered
    if status != GRANTED:
        return NEVER
    guard = open_guard(list_text, policy == STRICT, limits)
    entry = guard.entries[int(line.split()[-1]) - 1]  # (`yes entry N`)
    certificates = [item for item in case_of(guard, question, rows=[]).items if isinstance(item, Certificate)]
    windows = [entry.window, *(certificate.window for certificate in certificates)]
    ends = [window.not_after for window in windows if window.not_after]
    UNTIL.count_use("a window" if ends else "nothing")
    return last_second(min(ends)) if ends else NO_END


def last_second(date: bytes) -> int:
    """The last second since 1970-01-01 00:00:00 UTC that is not after a date. The date may be February 31, or have the second 60. The year may
    be 0, which `datetime` lacks: so a year 400 to 799 with the same calendar is used, and the days between are added."""
    year, month, day, hour, minute, second = map(int, re.split(b"[-_:]", date))
    same_year = year % CYCLE_YEARS + CYCLE_YEARS
    last_day = calendar.monthrange(same_year, month)[1]
    clock = (hour, minute, min(second, 59)) if day <= last_day else (23, 59, 59)
    since = datetime.datetime(same_year, month, min(day, last_day), *clock) - datetime.datetime(1970, 1, 1)
    days = since.days + (year - same_year) // CYCLE_YEARS * CYCLE_DAYS
    return days * 86_400 + since.seconds


def compare_with_check(case: Case, decided: Answer) -> None:
    """Raises ModelDisagrees unless the guard's decision is that of `check`, or `check` is refused as TooLarge by the guard's limit of nodes."""
    try:
        checked = answers.check(case, case.rows)
    except Refused:
        DECIDED.count_use("no where check is TooLarge" if decided[0] else "yes where check is TooLarge")
        return
    DECIDED.count_use("as check")
    if checked != decided:
        raise answers.ModelDisagrees(f"check: {checked}, a guard: {decided}")


def misused(row: str) -> tuple[Answer, list[Signed]]:
    """The answer to a call that is misuse, and an empty list of signatures. Counts a row of MISUSES."""
    MISUSES.count_use(row)
    return of_library("misuse", (MISUSED, b"")), []  # (the status is that of every command)


def status_too_small(row: str) -> int:
    """The status of a call whose buffer is too small. The row of SMALL, which is counted, says for what."""
    SMALL.count_use(row)
    return too_small()


def misuse_of_opening(policy: int, limits: Limits, oddity: str) -> str | None:
    """The row of OPENED that says what is misuse when a guard is opened: of the policy, the limits, or `oddity` if it is one. None if nothing is."""
    if policy not in POLICIES:
        return OPENED[0]  # (no policy has this number)
    above = [row for row, limit in zip(OPENED[1:4], ("octets", "nodes", "work"), strict=True) if getattr(limits, limit) > getattr(HIGHEST, limit)]
    return above[0] if above else oddity if oddity in OPENED else None


def answer(wish: str, list_text: bytes, question: Parts, rows: list[Row], policy: int, limits: Limits, oddity: str) -> tuple[Answer, list[Signed]]:
    """What the library answers to a question, and the signatures that it lists. `wish` is the call: decide, explain or reduce. The verifier accepts
    the signatures of the rows. The oddity is a row of MISUSES or of ALLOWED: what is misuse in the calls, or which optional pointer is null. It
    is empty if nothing is odd. Raises ModelDisagrees if a decision is not that of `check`."""
    if row := misuse_of_opening(policy, limits, oddity):
        return misused(row)
    listed: list[Signed] = []
    try:
        guard = open_guard(list_text, policy == STRICT, limits)
        if oddity in ASKED:
            return misused(oddity)
        case = case_of(guard, question, rows)
        listed = signatures_to_verify(case)
        if oddity in (*LISTED, *ANSWERED, *MARKED):
            return misused(oddity)
        with intersection.limited(limits.nodes, None if wish == "decide" else limits.work):
            status, octets = WISHES[wish](case, case.rows)
            if wish == "decide":
                compare_with_check(case, (status, octets))
            elif len(octets) > limits.answer:
                REFUSED.count_use(f"{wish}, octets of the answer")
                raise Refused("TooLarge")
    except Refused as why:
        status, octets = refused(why)
    STATUSES.count_use(f"{wish}: {status}")
    if oddity in ALLOWED.counts:
        ALLOWED.count_use(oddity)
    return of_library(f"guard {wish}", (status, octets)), listed


def is_possible(list_text: bytes, question: Parts, policy: int, limits: Limits) -> bool:
    """Whether a question would be granted if all its signatures were valid. Raises Refused for a list or question that is refused."""
    guard = open_guard(list_text, policy == STRICT, limits)
    case = case_of(guard, question, rows=[])
    rows = [Row(structures.read_key(forms.read(key)), hashlib.sha256(message).digest(), value) for key, message, value in signatures_to_verify(case)]
    with intersection.limited(limits.nodes, work=None):
        is_granted = answers.decide(case, rows)[0] == answers.YES
    POSSIBLE.count_use("yes" if is_granted else "no")
    return is_granted
