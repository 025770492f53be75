"""The question that a seed and a number make: mostly a command and its text."""
import random

from model.answers import COMMANDS
from model.values import Atom, Value, canonical

from . import rare, spellings, tags
from .asked import Call, Question, StringQuestion
from .cases import KEYS, Builder, with_rows_apart
from .guards import ODDITIES, Asked, guard_question, with_oddity
from .mutations import LISTS, mutated_text, places
from .nearly import maybe_changed, maybe_wrong_text
from .seldom import MAKERS, OF_CASES, ROOM

CONVERSIONS = COMMANDS[:3]
BODIES = [b"a", b"ftp", b"", b"my host", b"\x00\xff", b"0a", b'"\\', b"\n\r", b"a\nb", b"?'", b"*", b"\x07\x0b\x7f",
          b"a\x7f", b"~ ", b"a\x1f", b"a\x80", b"3:abc", b"ABC=", bytes(range(256))]
LONG_QUESTIONS = len(rare.LONG) * len((*COMMANDS, "rows"))
LENGTHS = (9, 10, 63, 64, 65, 99, 100, 255, 256, 1000, 4096)


def question(seed: str, number: int) -> Asked:
    """The question of a seed and a number. Of each EVERY numbers the first are those of MAKERS (seldom.py), and the last those of long texts. Others
    are of some kind by chance: the number beside a kind below is the share of all kinds up to it."""
    rng = random.Random(f"{seed}/{number}")
    at = number % rare.EVERY
    if at < len(MAKERS):
        return MAKERS[at](rng)
    if rare.EVERY - at <= LONG_QUESTIONS:
        return long_question(rng, rare.EVERY - at - 1)
    kind = rng.random()
    if kind < 0.013:
        return limit_question(rng)
    if kind < 0.018:
        return call(rng)
    if kind < 0.023:
        return with_oddity(guard_question(rng), rng, rng.choice(ODDITIES))
    if kind < 0.033:
        return string_question(rng)
    if kind < 0.3:
        return Question(rng.choice(CONVERSIONS), maybe_wrong_text(value(rng), rng))
    if kind < 0.5:
        return Question("intersect", maybe_wrong_text(maybe_changed((Atom(b"intersect"), *tags.pair(rng)), rng, chance=0.35), rng))
    return guard_question(rng) if kind < 0.65 else case_question(rng)


def long_question(rng: random.Random, at: int) -> Question:
    """A text at the limit of octets, for a command or as rows. `at`, from 0 to below LONG_QUESTIONS, says which text and which command."""
    commands = (*COMMANDS, "rows")
    text = rare.LONG[at // len(commands)](rng)
    command = commands[at % len(commands)]
    if command == "rows":
        return Question("check_accepted", canonical(Builder(rng).case()), text)
    return Question(command, text)


def limit_question(rng: random.Random) -> Question:
    """A text at another limit than that of octets: nodes of a tag, the product of two tags, or lists that are open at once."""
    kind = rng.randrange(8)
    if kind < 3:
        return Question("intersect", (rare.large_tags, rare.too_many_nodes, rare.deep_tags)[kind](rng))
    if kind < 6:
        return Question(rng.choice(OF_CASES[:3]), rare.large_case(rng))  # (a command that takes no rows apart)
    text = rare.deep(rng)
    text = spellings.in_braces(text, rng) if rng.random() < 0.5 else text
    if rng.random() < 0.3:
        return Question("check_accepted", canonical(Builder(rng).case()), text)
    return Question(rng.choice(COMMANDS), text)


def call(rng: random.Random) -> Call:
    """A call of `spki_answer` or, if `number` is None, of `spki_check_accepted`, which takes two texts. It is misuse, or nearly (see `Call`)."""
    number = rng.choice((None, None, *range(len(COMMANDS)), len(COMMANDS), len(COMMANDS) + 1, 255, 2**32 - 1))
    texts = [(rng.random() < 0.4, rng.choice((0, 0, 0, 1, 2**31, 2**63 - 1, 2**63, 2**64 - 1))) for _ in range(2 if number is None else 1)]
    buffer = rng.choice(((False, ROOM), (False, ROOM), (True, 0), (True, 1), (False, 2**63), (True, 2**64 - 1), (False, 5)))
    # (No text has octets. So if its pointer is not null, its length is 0, or 2^63 or more, which is refused before the text is read.)
    return Call(number, tuple((is_null or 0 < length < 2**63, length) for is_null, length in texts), buffer)


def string_question(rng: random.Random) -> StringQuestion:
    """A value in canonical form, by chance nearly one, and the path to a part of it. By chance the path ends in one or two other numbers."""
    whole = Builder(rng).principal(rng.choice(KEYS)) if rng.random() < 0.3 else value(rng)
    path = rng.choice(places(whole))
    if rng.random() < 0.2:
        path = (*path[:-1], rng.choice((0, 1, 5, 2**32, 2**63, 2**64 - 1)), *path[:rng.randrange(2)])
    text = canonical(whole)
    return StringQuestion(mutated_text(text, rng) if rng.random() < 0.2 else text, path)


def case_question(rng: random.Random) -> Question:
    """A command on a case, or on a case and rows apart. By chance either is changed."""
    command = rng.choice(OF_CASES)
    case = maybe_changed(Builder(rng).case(), rng, chance=0.35)
    if command != "check_accepted":
        return Question(command, maybe_wrong_text(case, rng, wrong=0.05))
    # (a case that was changed may have lost the list of its rows)
    if not isinstance(case, tuple) or len(case) < 3 or not isinstance(case[2], tuple):
        return Question(command, maybe_wrong_text(case, rng, wrong=0.05), b"(accepted)")
    case, rows = with_rows_apart(case, rng)
    return Question(command, maybe_wrong_text(case, rng, wrong=0.05), maybe_wrong_text(maybe_changed(rows, rng, chance=0.2), rng, wrong=0.1))


def value(rng: random.Random, depth: int = 3) -> Value:
    """A value by chance: a string, or a list of at most four values, with at most `depth` lists inside one another. Any part may be one of LISTS
    instead, whose own lists are not counted. The whole value, for which `depth` is 3, may be a tag instead."""
    if depth == 3 and rng.random() < 0.1:
        return tags.tag(rng, depth=3)
    kind = rng.random()
    if kind < 0.1:
        return rng.choice(LISTS)
    if depth and kind < 0.55:
        return tuple(value(rng, depth - 1) for _ in range(rng.randrange(5)))
    length = rng.choice(LENGTHS) if rng.random() < 0.03 else rng.randrange(7)
    body = rng.choice(BODIES) if rng.random() < 0.7 else rng.randbytes(length)
    return Atom(body, rng.choice((b"", b"x", b"text/plain", b"\x80")) if rng.random() < 0.2 else None)
