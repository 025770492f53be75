"""Makes a question smaller for as long as it still shows a difference."""
import time
from collections.abc import Callable, Iterator
from dataclasses import replace
from itertools import chain
from typing import Any

from model import forms
from model.guard import USUAL
from model.printed import printed
from model.values import FormFault, Value, canonical

from .asked import Call, Question, StringQuestion
from .guards import Asked, GuardQuestion
from .mutations import part, places, replaced

# A text of so many octets is only cut: to leave out each of its parts would take too long.
LARGE = 20_000


def smaller(question: Asked, shows: Callable[[Asked], bool], seconds: float = 20) -> Asked:
    """The question made smaller: replaced by the first of its candidates that still `shows` the difference, until there is none or time is over."""
    ends = time.monotonic() + seconds
    is_smaller = True
    while is_smaller:
        is_smaller = False
        for candidate in candidates(question):
            if time.monotonic() > ends:
                return question
            if shows(candidate):
                question, is_smaller = candidate, True
                break
    return question


def candidates(question: Asked) -> Iterator[Asked]:
    """Questions of the same command in which one thing is smaller. There are none for a `Call`, which is small already."""
    if isinstance(question, Call):
        return
    if isinstance(question, StringQuestion):
        yield from (replace(question, path=path) for path in without_one(question.path))
    if isinstance(question, GuardQuestion):
        yield from smaller_parts(question)
    names = {Question: ("text", "rows"), StringQuestion: ("text",), GuardQuestion: ("acl", "sequence", "key", "request", "moment", "rows")}
    for name in names[type(question)]:
        for text in smaller_texts(getattr(question, name)):
            yield replace(question, **{name: text})


def smaller_parts(question: GuardQuestion) -> Iterator[GuardQuestion]:
    """Questions to a guard with one string of the request less or a shorter one, a moment nearer to 1970 or as a text, or the usual limits."""
    if question.strings is not None:
        yield from (replace(question, strings=strings) for strings in without_one(question.strings))
        for number, string in enumerate(question.strings):
            for text in smaller_texts(string):
                yield replace(question, strings=(*question.strings[:number], text, *question.strings[number + 1:]))
    if question.seconds:
        yield from (replace(question, seconds=seconds) for seconds in (None, 0, int(question.seconds / 2)))
    if question.limits != USUAL:
        yield replace(question, limits=USUAL)


def without_one(members: tuple[Any, ...]) -> Iterator[tuple[Any, ...]]:
    """The members without the first, without the second, and so on."""
    yield from (members[:at] + members[at + 1:] for at in range(len(members)))


def smaller_texts(text: bytes) -> Iterator[bytes]:
    """Smaller texts: shorter ones of the same value or of one of `smaller_values`, unless the text is LARGE, and the text without some octets."""
    try:
        value = forms.read(text) if len(text) < LARGE else None
    except FormFault:  # (no value: then octets alone are left out)
        value = None
    if value is not None:
        for each in chain([value], smaller_values(value)):
            yield from (other for other in (printed(each), canonical(each)) if len(other) < len(text))
    piece = len(text)
    while piece:
        for at in range(0, len(text), piece):
            yield text[:at] + text[at + piece:]
        piece //= 2


def smaller_values(value: Value) -> Iterator[Value]:
    """Values without a part, or with a part in place of the list that it is in."""
    for path in places(value):
        if path:
            yield replaced(value, path, ())
            yield replaced(value, path[:-1], (part(value, path),))
