"""Questions that seldom come by chance. Each has a number of its own, so that no seed leaves it out. A maker makes one, by random numbers."""
import hashlib
import random
from collections.abc import Callable, Iterator
from dataclasses import replace

from model import advanced
from model.answers import COMMANDS
from model.calls import LONGEST_TEXT
from model.guard import LAST_SECOND, STRICT, WISHES, Limits
from model.values import DEEPEST, LONGEST, Atom, Value, canonical, head_of

from . import spellings
from .asked import Call, Question, StringQuestion
from .guards import ODDITIES, Asked, GuardQuestion, with_oddity
from .mutations import FIRST, NEARLY, SNIPPETS, part, places, replaced
from .rare import many_strings

# A maker returns the question of one number (`questions.question`). What it leaves to chance, it takes from the random numbers.
Maker = Callable[[random.Random], Asked]
OF_CASES = ("check", "explain", "reduce", "check_accepted")
KEY, OTHER = (advanced.read(b"(public-key (test %s))" % name) for name in (b"a", b"b"))
NO_ROWS = b"(accepted)"
# The octets of the buffer of a `Call`: enough for each answer to texts without octets.
ROOM = 64

# a case that has each structure at one place or at two
EVERYTHING = advanced.read(b"""(case
 (acl (version "0") (entry (name (public-key (test a)) n) (propagate) (tag (* set (f (* prefix a)) x)) (not-before "2024-01-01_00:00:00")))
 (accepted (by (public-key (test a)) (hash sha256 "%s") sig))
 (sequence (public-key (test a)) (cert (version "0") (issuer (hash sha1 "%s")) (subject (public-key (test b))) (propagate) (tag (*))
   (valid (not-after "2024-01-01_00:00:00"))) (do hash sha1) (signature (hash sha256 "%s") (public-key (test a)) sig))
 (key (public-key (test b))) (request (f a)) (at "2024-01-01_00:00:00") (policy strict))""" % (32 * b"x", 20 * b"x", 32 * b"x"))

# tags whose intersection is by a rule, or has limits, that seldom come
PAIRS = [advanced.read(b"(intersect %s)" % pair.encode()) for pair in (
    "(* range alpha l b) (* range alpha le b)", "(* range alpha le b) (* range alpha l b)", "(* range alpha g b) (* range alpha ge b)",
    "(* range alpha ge b) (* range alpha g b)", "(* range alpha l b) (* range alpha l b)", "(* range alpha g b) (* range alpha g b)",
    "(* range time) (* range date)", "(* prefix a) (* prefix b)", "(* prefix a) (* prefix ab)", "(* prefix #61ff#) (* range alpha)",
    "(* prefix #ff#) (* range alpha g a)", "(* range alpha g b) (* range alpha l a)", "(* range alpha g a) (* range alpha le a)")]
ROWS = (65 * b"(" + 65 * b")", b"(accepted", b"(accepted ~)", b"(accepted) x", b"(rows)", b"(accepted (by))", b"")
STRINGS: list[tuple[bytes, tuple[int, ...]]] = [
    (b"3:abc", ()), (b"(1:a(1:b2:cd))", (1, 1)), (b"(1:a[1:h]2:cd)", (1,)), (b"(1:a(1:b))", (1,)), (b"(1:a)", (1,)), (b"(1:a)", (0, 0)),
    (b"()", (2**64 - 1,)), (b"%d:" % (LONGEST - 7) + (LONGEST - 7) * b"a", ()), (b"%d:" % (LONGEST - 8) + (LONGEST - 8) * b"a", ()),
    ((DEEPEST + 1) * b"(", (0,)), (b"(1:a", (0,)), (b"(1:a ", (0,)), (b"a", ()), (b"1:ab", ())]
CALLS = [Call(number, texts, buffer) for number in (None, 0, len(COMMANDS) - 1) for texts, buffer in [
    (((True, 0),), (False, ROOM)), (((True, 1),), (False, ROOM)), (((False, LONGEST_TEXT + 1),), (False, ROOM)), (((False, 0),), (True, 1)),
    (((False, 0),), (False, LONGEST_TEXT + 1)), (((False, 0),), (True, 0))]]
CALLS = [replace(it, texts=2 * it.texts) if it.number is None else it for it in CALLS] + [
    Call(number, ((False, 0),), (False, ROOM)) for number in (len(COMMANDS), 2**32 - 1)]


def variants_of_everything() -> Iterator[Value]:
    """Variants of EVERYTHING, each with one change: what NEARLY has for a head, a faulty member of FIRST behind it, a large tag, or no entries."""
    for path in places(EVERYTHING):
        structure = part(EVERYTHING, path)
        members = structure if isinstance(structure, tuple) else ()
        head = head_of(structure) or b""
        yield from (replaced(EVERYTHING, path, (other,)) for other in NEARLY.get(head, ()))
        yield from (replaced(EVERYTHING, path, ((*members[:1], member, *members[1:]),)) for member in FIRST.get(head, ()))
    # (the path of the entry's tag, and that of the list)
    yield replaced(EVERYTHING, (1, 2, 3, 1), (many_strings(b"set", 1025),))
    yield replaced(EVERYTHING, (1,), ((Atom(b"acl"),),))


def case_of_two_tags(first: Value, second: Value, request: Value) -> Value:
    """A case of a request, in which the tag `first` of an entry and the tag `second` of a certificate are intersected."""
    certificate = (Atom(b"cert"), (Atom(b"issuer"), KEY), (Atom(b"subject"), OTHER), (Atom(b"tag"), second))
    digest = (Atom(b"hash"), Atom(b"sha256"), Atom(hashlib.sha256(canonical(certificate)).digest()))
    entry = (Atom(b"entry"), KEY, (Atom(b"propagate"),), (Atom(b"tag"), first))
    return (Atom(b"case"), (Atom(b"acl"), entry), (Atom(b"accepted"), (Atom(b"by"), KEY, digest, Atom(b"sig"))),
            (Atom(b"sequence"), certificate, (Atom(b"signature"), digest, KEY, Atom(b"sig"))),
            (Atom(b"key"), OTHER), (Atom(b"request"), request), (Atom(b"at"), Atom(b"2024-01-01_00:00:00")))


def case_of_two_lists(first: int, second: int) -> Value:
    """A case in which two tags, lists of equal strings with so many nodes, are intersected. The request is the longer list."""
    return case_of_two_tags(many_strings(b"list", first), many_strings(b"list", second), many_strings(b"list", max(first, second)))


def too_deep_intersection() -> Value:
    """`(intersect A B)` of two tags, each 60 lists deep, of which half in B are sets. Their intersection has the lists of A in these sets: so it is
    some 90 deep, and 64 are read."""
    lists, sets = b"(f " * 60 + b"a" + 60 * b")", b"(* set (f " * 30 + b"(* prefix a)" + 30 * b") (f))"
    return advanced.read(b"(intersect %s %s)" % (lists, sets))


def guard_question_of(case: Value, wish: str) -> GuardQuestion:
    """The question to a guard that has the parts of a case, by the default limits and the strict policy. `wish` is one of WISHES."""
    assert isinstance(case, tuple)
    acl, rows, sequence = map(canonical, case[1:4])
    key, request, moment = (canonical(part[1]) for part in case[4:7] if isinstance(part, tuple))
    return GuardQuestion(f"guard {wish}", acl, sequence, key, request, moment, rows, strings=None, seconds=None, policy=STRICT)


# ---- makers


def always(question: Asked) -> Maker:
    """A maker of the same question each time."""
    return lambda rng: question


def to_command(command: str, value: Value) -> Maker:
    """A maker of a command and a text of a value, in a form by chance. For `check_accepted` the list of rows is empty."""
    return lambda rng: Question(command, spellings.text_of(value, rng), NO_ROWS if command == "check_accepted" else b"")


def to_some_command(text: bytes, is_braced: bool = False) -> Maker:
    """A maker of some command and a text, which is put into transport form if `is_braced`."""
    return lambda rng: Question(rng.choice(COMMANDS), spellings.in_braces(text, rng) if is_braced else text)


def beside_rows(case: Value, rows: bytes, is_braced: bool = False) -> Maker:
    """A maker of a case and a text of rows, which is put into transport form if `is_braced`."""
    return lambda rng: Question("check_accepted", spellings.text_of(case, rng), spellings.in_braces(rows, rng) if is_braced else rows)


def to_guard_oddly(question: GuardQuestion, oddity: str) -> Maker:
    """A maker of a question to a guard whose calls have an oddity, which is a row of MISUSES or ALLOWED (model/guard.py)."""
    return lambda rng: with_oddity(question, rng, oddity)


def makers_of_texts() -> Iterator[Maker]:
    """Makers of texts for some command: each snippet, and lists that open too deep or nearly, alone, in a list, and in braces."""
    for snippet in (*SNIPPETS, (DEEPEST + 1) * b"(", DEEPEST * b"("):
        yield to_some_command(snippet)
        yield to_some_command(b"(a " + snippet + b")")
        yield to_some_command(snippet, is_braced=True)


def makers_of_cases() -> Iterator[Maker]:
    """Makers of cases, mostly with a fault, of cases beside rows with a fault, and of tags: PAIRS, and some too large, nearly so, or too deep."""
    for number, value in enumerate(variants_of_everything()):
        yield to_command(OF_CASES[number % len(OF_CASES)], value)
    for text in ROWS:
        yield beside_rows(EVERYTHING, text)
        yield beside_rows(case_of_two_lists(2, 2), text, is_braced=True)
    for sizes in ((1000, 1000), (1000, 1001), (1001, 1001)):
        yield to_command("intersect", (Atom(b"intersect"), *(many_strings(b"list", size) for size in sizes)))
        yield from (to_command(command, case_of_two_lists(*sizes)) for command in OF_CASES[:3])
    yield from (to_command("intersect", pair) for pair in (*PAIRS, too_deep_intersection()))


def makers_of_guards() -> Iterator[Maker]:
    """Makers of questions to guards: at limits and past them, with tags that are too large, with other parts, and with an oddity in the calls."""
    for wish in WISHES:
        question = guard_question_of(case_of_two_lists(4, 4), wish)
        # (the product of nodes is 16. The work is 392: each of the first tag's 4 nodes costs 32 + 15 * 4 + 3 nodes without the head + 3 octets)
        yield from (always(replace(question, limits=Limits(nodes=nodes))) for nodes in (15, 16))
        yield from (always(replace(question, limits=Limits(work=work))) for work in (391, 392))
        # (`entry 1 grants` and the end of its line are 15 octets)
        yield from (always(replace(question, limits=Limits(answer=answer))) for answer in (1, 12, 15, 16, 17, 1000))
        yield always(guard_question_of(case_of_two_lists(1000, 1001), wish))
        yield from (always(replace(question, acl=acl)) for acl in (b"acl", b'(acl (version "1"))', b"(acl (version [0:]1:0))"))
        yield from (always(replace(question, sequence=sequence)) for sequence in (b"sequence", b"(sequences)", b"(sequence x)"))
        yield from (always(replace(question, strings=strings)) for strings in ((), (b"x",), (b"f", b"x")))
        yield from (always(replace(question, seconds=seconds)) for seconds in (-1, 0, LAST_SECOND + 1))
        yield from (to_guard_oddly(question, oddity) for oddity in ODDITIES)


MAKERS: list[Maker] = [*makers_of_texts(), *makers_of_cases(), *makers_of_guards(), *map(always, CALLS),
                       *(always(StringQuestion(*it)) for it in STRINGS)]
