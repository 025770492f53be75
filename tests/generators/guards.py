"""Questions to a guard: a list, the parts of a question as texts of their own, and what a verifier accepts."""
import random
from dataclasses import dataclass, replace
from typing import Union

from model.guard import ALLOWED, FIRST_SECOND, HIGHEST, LAST_SECOND, MISUSES, OPEN, OPENED, STRICT, USUAL, WISHES, Limits
from model.values import Atom, Value, canonical

from .asked import Call, Question, StringQuestion
from .cases import Builder
from .nearly import maybe_changed, maybe_wrong_text

ODDITIES = [*MISUSES.counts, *ALLOWED.counts]
NO_POLICY, OCTETS_ABOVE, NODES_ABOVE, WORK_ABOVE, *_ = OPENED
# The first and last second that is a moment and those beside them, 2023 to 2024, 2000-02-29, 1900-03-01, the year 0, 1971, and the ends of 64 bits.
SECONDS = (0, -1, 1_704_067_199, 1_704_067_200, 1_718_440_200, 951_782_400, -2_203_891_200, -62_167_219_200,
           FIRST_SECOND + 31_622_400, LAST_SECOND, LAST_SECOND + 1, -2**63, 2**63 - 1)
STRINGS = (b"", b"ftp", b"x) (at ", b"1:a", b"\x00\xff", b"(", b"a.o read")


@dataclass(frozen=True)
class GuardQuestion:
    """A question to a guard: `guard decide`, `guard explain` or `guard reduce`, the list, the parts, the rows that the verifier looks into, the
    policy and the limits. If `strings` or `seconds` is not None, it is the request or the moment, in place of the text. `oddity` names what is misuse
    in the calls, or a null pointer that is allowed. Mostly it is empty."""

    command: str
    acl: bytes
    sequence: bytes
    key: bytes
    request: bytes
    moment: bytes
    rows: bytes
    strings: tuple[bytes, ...] | None
    seconds: int | None
    policy: int
    limits: Limits = USUAL
    oddity: str = ""


# All kinds of questions.
Asked = Union[Question, GuardQuestion, Call, StringQuestion]


def guard_question(rng: random.Random) -> GuardQuestion:
    """A question to a guard of a case's list, with the other parts of the case. Each text but the rows is right, or by chance nearly so."""
    case = Builder(rng).case()
    assert isinstance(case, tuple)
    acl, rows, sequence = case[1:4]
    key, request, moment = (part[1] for part in case[4:7] if isinstance(part, tuple))
    strings = strings_of(request, rng)
    wish = rng.choice(list(WISHES))
    # (a case has seven members with its head, and `(policy strict)` may be an eighth)
    policy = STRICT if len(case) == 8 else OPEN
    return GuardQuestion("guard " + wish, part_text(acl, rng), part_text(sequence, rng), part_text(key, rng), part_text(request, rng),
                         part_text(moment, rng), canonical(rows), strings, seconds=rng.choice(SECONDS) if rng.random() < 0.15 else None,
                         policy=policy, limits=limits_for(wish, rng))


def limits_for(wish: str, rng: random.Random) -> Limits:
    """Limits, some of them low by chance: about what a generated question needs. No low limit is 0, since that stands for the usual limit."""
    # (a low limit on nodes is below `few`: with 8 one decision in ten is of parts that as a case would be too large, and that the guard decides)
    few, chance = (8, 0.4) if wish == "decide" else (60, 0.15)
    return Limits(rng.randrange(1, 1200) if rng.random() < 0.05 else USUAL.octets, rng.randrange(1, 3) if rng.random() < 0.1 else USUAL.certificates,
                  rng.randrange(1, 4) if rng.random() < 0.1 else USUAL.words, rng.randrange(1, few) if rng.random() < chance else USUAL.nodes,
                  rng.randrange(1, 1_500) if rng.random() < 0.15 else USUAL.work, rng.randrange(1, 120) if rng.random() < 0.1 else USUAL.answer)


def with_oddity(question: GuardQuestion, rng: random.Random, oddity: str) -> GuardQuestion:
    """The question with an oddity, the name of a row of MISUSES or ALLOWED (model/guard.py). For four of them its policy or a limit is set wrong
    here. harness/guard_door.py makes the calls with the others. Limits that are right become the usual ones: a low one might refuse the question."""
    policy = rng.choice((2, 3, 255, 2**31, 2**32 - 1)) if oddity == NO_POLICY else question.policy
    octets = rng.choice((HIGHEST.octets + 1, 2**63, 2**64 - 1)) if oddity == OCTETS_ABOVE else USUAL.octets
    nodes = rng.choice((HIGHEST.nodes + 1, 2**63, 2**64 - 1)) if oddity == NODES_ABOVE else USUAL.nodes
    work = rng.choice((HIGHEST.work + 1, 2**63, 2**64 - 1)) if oddity == WORK_ABOVE else USUAL.work
    return replace(question, policy=policy, limits=Limits(octets, nodes=nodes, work=work), oddity=oddity)


def part_text(value: Value, rng: random.Random) -> bytes:
    """A text of a part. By chance its value or the text is changed, or a second value follows."""
    text = maybe_wrong_text(maybe_changed(value, rng, chance=0.03), rng, wrong=0.03)
    return text + canonical(value) if rng.random() < 0.01 else text


def strings_of(request: Value, rng: random.Random) -> tuple[bytes, ...] | None:
    """By chance up to three strings of STRINGS. Else those of the request, or None if it goes as a text: by chance, and always if strings cannot say
    it. They cannot say a list of one member, since one string stands for itself, nor a list inside, nor a display hint."""
    if rng.random() < 0.06:
        return tuple(rng.choice(STRINGS) for _ in range(rng.randrange(4)))
    members = request if isinstance(request, tuple) else (request,)
    is_list_of_one = len(members) == 1 and isinstance(request, tuple)
    if is_list_of_one or rng.random() < 0.5:
        return None
    strings = [member.body for member in members if isinstance(member, Atom) and member.hint is None]
    return tuple(strings) if len(strings) == len(members) else None
