"""The lines and exit statuses of the commands, and of decisions by rows apart (sections "The program", "The library for C programs").

An answer is a pair: the exit status, and what the program writes. `rows` of a case, or apart from it, are its accepted signatures, `(by KEY HASH
VALUE)` each. `X.count_use(..)` counts a row of a table of the document. A chain is an entry with all certificates of the sequence. Steps are the
certificates that passed the tests of evidence, each with the number of its item."""
from collections.abc import Callable
from contextlib import AbstractContextManager

from . import case as cases
from . import derivations, evidence, forms, reduction, tags
from .case import Case, CaseFault, Row
from .coverage import Rows
from .evidence import Authorization, names
from .intersection import MOST_PRODUCT, MOST_WORK, TooLarge, intersection, limited
from .printed import printed
from .structures import Entry, ItemFault, Key, Principal, Subject, Window
from .tags import TagFault, contains
from .transport import written as transport
from .values import Atom, FormFault, Value, canonical, head_of

Answer = tuple[int, bytes]
Steps = list[tuple[int, evidence.Tuple]]
COMMANDS = ("canonical", "advanced", "transport", "intersect", "reduce", "check", "explain")
YES, NO, REFUSED = 0, 1, 2
# In a chain of up to so many certificates each bracketing is tried: their number grows quickly.
SHORT_CHAIN = 6

LINES = Rows("line", [
    "canonical", "advanced", "transport", "intersect", "yes entry", "no: evidence", "no: no entry grants", "item J STOP", "no entries",
    "entry N FIVE", "entry N item J CAUSE", "grants", "NotTheKey: names left", "NotTheKey: another key", "TagLacks", "WindowLacks"])
REFUSALS = Rows("line, refused", [
    "form TooLong", "form TooDeep", "form Short", "form Bad", "form Trailing", "intersect Shape", "tag 1", "tag 2", "TooLarge: intersect",
    "TooLarge: check", "TooLarge: explain", "TooLarge: reduce", "TooLarge: check, by a guard's product", "TooLarge: explain, by a guard's product",
    "TooLarge: reduce, by a guard's product", "TooLarge: explain, by a guard's work", "TooLarge: reduce, by a guard's work", "case", "rows TooLong",
    "rows TooDeep", "rows Short", "rows Bad", "rows Trailing", "rows Shape", "rows"])
STATUSES = Rows("status", [f"{command}: {status}" for command in (*COMMANDS, "check_accepted") for status in (YES, NO, REFUSED)
                           if status != NO or COMMANDS.index(command if command in COMMANDS else "check") > 3])  # (only on a case)
FIVES = Rows("five", ["a principal", "a hash", "a name", "(propagate)", "no valid", "valid with not-before", "valid with not-after",
                      "valid with both"])
BRACKETS = Rows("every bracketing was tried", [f"{count} certificates" for count in range(SHORT_CHAIN + 1)] + ["one grants"])


class ModelDisagrees(Exception):
    """Two readings of the document within the model differ."""


class Refused(Exception):
    """Why a text is refused: the words behind `refused` in the line."""


# ---- the commands


def answer(command: str, text: bytes) -> Answer:
    """The status and what the program writes, for a command and a text."""
    try:
        status, octets = answer_of_text(command, text)
    except Refused as why:
        status, octets = refused(why)
    STATUSES.count_use(f"{command}: {status}")
    return status, octets


def check_accepted(text: bytes, rows_text: bytes) -> Answer:
    """What `spki_check_accepted` answers to a case whose accepted signatures, the rows, are a text of their own, with a status of the program."""
    try:
        case = read_case(text)
        with case_limits():
            status, octets = check(case, read_rows(rows_text))
    except Refused as why:
        status, octets = refused(why)
    STATUSES.count_use(f"check_accepted: {status}")
    return status, octets


def refused(why: Refused) -> Answer:
    """The status and the line of a refusal."""
    return REFUSED, b"refused %s\n" % str(why).encode()


def refusal(row: str, words: object) -> Refused:
    """The Refused to raise, with the words that follow `refused`. Counts a row of REFUSALS."""
    REFUSALS.count_use(row)
    return Refused(words)


def too_large(command: str, why: TooLarge) -> Refused:
    """The Refused to raise where a product of nodes or the work is too large. Its row in REFUSALS says whether a guard's lower limit is the cause."""
    limit = "work" if why.is_work else "product"
    return refusal(f"TooLarge: {command}" + (f", by a guard's {limit}" if why.is_of_guard else ""), "TooLarge")


def answer_of_text(command: str, text: bytes) -> Answer:
    """The answer of a command to a text, whose status is not that of a refusal: for that it raises Refused."""
    if command in ("canonical", "advanced", "transport"):
        value = read_text(text, within_limit=False)
        LINES.count_use(command)
        if command == "canonical":
            return YES, canonical(value)
        return YES, (printed(value) if command == "advanced" else transport(value)) + b"\n"
    if command == "intersect":
        return YES, intersect(read_text(text))
    case = read_case(text)
    with case_limits():
        return {"check": check, "explain": explain, "reduce": reduce}[command](case, case.rows)


def case_limits() -> AbstractContextManager[None]:
    """A context in which intersections have the limits of a case: the product of nodes, and the work if a chain is not small."""
    return limited(most=MOST_PRODUCT, work=MOST_WORK, small=MOST_PRODUCT)


def read_text(text: bytes, within_limit: bool = True) -> Value:
    """The value of a text. `within_limit`: its canonical form must not be too long either. Raises Refused."""
    try:
        return forms.read_within_limit(text) if within_limit else forms.read(text)
    except FormFault as fault:
        raise refusal(f"form {fault.kind}", f"form {fault}") from None


def read_case(text: bytes) -> Case:
    """The case of a text. Raises Refused if it is none."""
    value = read_text(text)
    try:
        return cases.read(value)
    except CaseFault as fault:
        raise refusal("case", fault) from None


def read_rows(text: bytes) -> list[Row]:
    """The accepted signatures of a text `(accepted row ..)`. Raises Refused."""
    try:
        value = forms.read_within_limit(text)
    except FormFault as fault:
        raise refusal(f"rows {fault.kind}", f"rows {fault}") from None
    if head_of(value) != b"accepted":
        raise refusal("rows Shape", "rows Shape")
    try:
        return cases.read_rows(value)
    except ItemFault as fault:
        raise refusal("rows", f"rows {fault.item} {fault.kind}") from None


def intersect(value: Value) -> bytes:
    """The printed line with the intersection of the two tags of `(intersect A B)`. Raises Refused."""
    if not isinstance(value, tuple) or head_of(value) != b"intersect" or len(value) != 3:
        raise refusal("intersect Shape", "intersect Shape")
    two_tags = []
    for number, member in enumerate(value[1:], 1):
        try:
            two_tags.append(tags.read(member))
        except TagFault as fault:
            raise refusal(f"tag {number}", f"tag {number} {fault}") from None
    try:
        common = intersection(*two_tags)
    except TooLarge as why:
        raise too_large("intersect", why) from None
    LINES.count_use("intersect")
    return printed(tags.written(common)) + b"\n"


# ---- cases


def first_granted(case: Case, rows: list[Row], grants: Callable[[Entry, Steps], bool]) -> Answer:
    """The answer with the first entry that grants the request, or no, also if evidence fails. `grants`: whether an entry with these steps does."""
    try:
        steps = evidence.proved_tuples(case.items, rows, case.strict)
    except evidence.Stopped:
        LINES.count_use("no: evidence")
        return NO, b"no\n"
    for number, entry in enumerate(case.entries, 1):
        if grants(entry, steps):
            LINES.count_use("yes entry")
            return YES, b"yes entry %d\n" % number
    LINES.count_use("no: no entry grants")
    return NO, b"no\n"


def check(case: Case, rows: list[Row]) -> Answer:
    """The answer of `check`: the first entry that grants the request, or no. Raises Refused if tags are too large."""
    return first_granted(case, rows, lambda entry, steps: folded("check", case, entry, steps)[1])  # ([1]: whether the request is granted)


def decide(case: Case, rows: list[Row]) -> Answer:
    """The answer of a guard: the first entry that grants the request, or no. Unlike `check` it intersects no tags, so it never refuses a case."""
    def grants(entry: Entry, steps: Steps) -> bool:
        """Whether the tree that joins all from the left grants the request. In a short chain every bracketing is tried too."""
        first, others = reduction.entry_tuple(entry), [step for _, step in steps]
        is_granted = derivations.grants_from_left([first, *others], case.key, case.request, case.moment, case.strict)
        if len(steps) <= SHORT_CHAIN:
            try_brackets(first, others, case, is_granted)
        return is_granted

    return first_granted(case, rows, grants)


def folded(command: str, case: Case, entry: Entry, steps: Steps) -> tuple[Authorization | reduction.Stopped, bool]:
    """The authorization that an entry becomes with all certificates, or the Stopped that says where the chain stops; and whether the request
    is granted. In a chain of up to SHORT_CHAIN certificates every bracketing is tried too. Raises Refused if tags are too large."""
    result: Authorization | reduction.Stopped
    try:
        result = reduction.fold(entry, steps, case.strict)
        is_granted = why_not_granted(result, case) is None
    except reduction.Stopped as stopped:
        result, is_granted = stopped, False
    except TooLarge as why:
        raise too_large(command, why) from None
    if len(steps) <= SHORT_CHAIN:
        try_brackets(reduction.entry_tuple(entry), [step for _, step in steps], case, is_granted)
    return result, is_granted


def try_brackets(entry: Authorization, steps: list[evidence.Tuple], case: Case, is_granted: bool) -> None:
    """Tries every bracketing of the tuples of an entry and of certificates. `is_granted` is the answer of the left fold. Raises ModelDisagrees if it
    grants the request and no bracketing does, or the other way around."""
    some_tree = derivations.grants([entry, *steps], case.key, case.request, case.moment, case.strict)
    BRACKETS.count_use(f"{len(steps)} certificates")
    if some_tree:
        BRACKETS.count_use("one grants")
    if some_tree != is_granted:
        raise ModelDisagrees(f"the left fold grants: {is_granted}, some bracketing grants: {some_tree}")


def why_not_granted(authorization: Authorization, case: Case) -> str | None:
    """The row of LINES for the first reason why the result of a whole chain does not grant the request, None if it grants it."""
    if authorization.subject.names:
        return "NotTheKey: names left"
    if not names(authorization.subject.principal, case.key, case.strict):
        return "NotTheKey: another key"
    if not contains(authorization.tag, case.request):
        return "TagLacks"
    return None if authorization.window.holds(case.moment) else "WindowLacks"


def explain(case: Case, rows: list[Row]) -> Answer:
    """The answer of `explain`, by `entry_lines`: of each entry that it grants the request, or why it does not. YES if some entry grants it."""
    def reason(authorization: Authorization) -> bytes:
        """`grants`, or the word for why it does not grant."""
        row = why_not_granted(authorization, case) or "grants"
        LINES.count_use(row)
        return row.split(":")[0].encode()

    return entry_lines("explain", case, rows, reason, is_good=lambda word: word == b"grants")


def reduce(case: Case, rows: list[Row]) -> Answer:
    """The answer of `reduce`, by `entry_lines`: the authorization that each entry becomes, or where its chain stops. YES if one does not stop."""
    def five(authorization: Authorization) -> bytes:
        """The printed text of the authorization, a 5-tuple."""
        LINES.count_use("entry N FIVE")
        return printed(five_value(authorization))

    return entry_lines("reduce", case, rows, five, is_good=lambda text: True)  # (each authorization is good)


def entry_lines(command: str, case: Case, rows: list[Row], text_of: Callable[[Authorization], bytes], is_good: Callable[[bytes], bool]) -> Answer:
    """The line of each entry: `text_of` its authorization, or where its chain stops. YES if `is_good` is true of one such text, else NO. If evidence
    fails or there is no entry, one line says so. `command` is the word in a refusal's row. Raises Refused if tags are too large."""
    try:
        steps = evidence.proved_tuples(case.items, rows, case.strict)
    except evidence.Stopped as stopped:
        LINES.count_use("item J STOP")
        return NO, b"item %d %s\n" % (stopped.item, stopped.stop.encode())
    if not case.entries:
        LINES.count_use("no entries")
        return NO, b"no entries\n"
    lines, status = [], NO
    for number, entry in enumerate(case.entries, 1):
        result, _ = folded(command, case, entry, steps)
        if isinstance(result, reduction.Stopped):
            LINES.count_use("entry N item J CAUSE")
            text = b"item %d %s" % (result.item, result.cause.encode())
        else:
            text = text_of(result)
            status = YES if is_good(text) else status
        lines.append(b"entry %d %s\n" % (number, text))
    return status, b"".join(lines)


# ---- the written authorization


def five_value(authorization: Authorization) -> Value:
    """The S-expression `(five (subject S) (propagate)? (tag T) (valid ..)?)`. It has no issuer, which is always the list's keeper."""
    members: list[Value] = [Atom(b"five"), (Atom(b"subject"), subject_value(authorization.subject))]
    if authorization.propagate:
        FIVES.count_use("(propagate)")
        members.append((Atom(b"propagate"),))
    members.append((Atom(b"tag"), tags.written(authorization.tag)))
    return (*members, *window_fields(authorization.window))


def subject_value(subject: Subject) -> Value:
    """The S-expression of a subject: its principal, or `(name principal n n ..)`."""
    assert subject.principal is not None
    principal = principal_value(subject.principal)
    if not subject.names:
        FIVES.count_use("a principal")
        return principal
    FIVES.count_use("a name")
    return (Atom(b"name"), principal, *map(Atom, subject.names))


def principal_value(principal: Principal) -> Value:
    """The S-expression of a principal: a key as it was read, or a hash without `(uri ..)`."""
    if isinstance(principal, Key):
        return principal.value
    FIVES.count_use("a hash")
    return (Atom(b"hash"), Atom(principal.algorithm), Atom(principal.digest))


def window_fields(window: Window) -> tuple[Value, ...]:
    """A tuple with the S-expression `(valid ..)`, or an empty one if there is no limit."""
    limits: list[Value] = []
    if window.not_before:
        limits.append((Atom(b"not-before"), Atom(window.not_before)))
    if window.not_after:
        limits.append((Atom(b"not-after"), Atom(window.not_after)))
    if not limits:
        FIVES.count_use("no valid")
        return ()
    FIVES.count_use("valid with both" if len(limits) == 2 else "valid with not-before" if window.not_before else "valid with not-after")
    return ((Atom(b"valid"), *limits),)
