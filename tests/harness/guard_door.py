"""The calls for guards of the library for C programs, by ctypes, as a service makes them. A guard keeps an access list. A question to it is opened,
which lists the signatures that must be verified; those that are valid are marked; then the opened question is answered.

A question's `oddity` is what is wrong or null in its calls, empty if nothing is. `room` is how many octets a call may write to a buffer."""
import ctypes
import hashlib
from ctypes import POINTER, Structure, byref, c_bool, c_char_p, c_int64, c_size_t, c_uint32, c_void_p
from dataclasses import astuple
from typing import Any

from generators.guards import GuardQuestion
from model import forms, guard
from model import case as cases
from model.answers import Answer
from model.calls import DONE, GRANTED, MISUSED, TOO_SMALL
from model.guard import Parts, Signed, answer
from model.values import Atom

ROOM = 64  # (octets of a buffer that each line of a refusal fits into)
MANY = 2**60  # (so many structures have more octets than an array can have)
# a place far past all signatures: the count of those that are listed, at most 16, is added, and the sum must still have 64 bits
NEAR_MOST = 2**64 - 255 - 16
# What stands for the signatures of a question that the library lists wrongly: no question has it.
LISTED_WRONGLY: list[Signed] = [(b"", b"", b"")]


class Text(Structure):
    """`struct spki_text`."""

    _fields_ = [("octets", c_char_p), ("length", c_size_t)]


class Limits(Structure):
    """`struct spki_limits`."""

    _fields_ = [(name, c_size_t) for name in ("size", "octets", "certificates", "words", "nodes", "work", "answer")]


class Asked(Structure):
    """`struct spki_question`."""

    _fields_ = [("size", c_size_t), ("sequence", Text), ("key", Text), ("request", Text), ("words", POINTER(Text)), ("word_count", c_size_t),
                ("moment", Text), ("seconds", POINTER(c_int64))]


class Decision(Structure):
    """`struct spki_decision`."""

    _fields_ = [("status", c_uint32), ("until", c_int64)]


class Listed(Structure):
    """`struct spki_signed`, with addresses as numbers: ctypes would end the octets of a `c_char_p` at the first 00."""

    _fields_ = [(name + part, c_size_t) for name in ("key", "message", "value", "octets") for part in ("", "_length")]


def text_of(octets: bytes) -> Text:
    """Octets as a `struct spki_text`."""
    return Text(octets, len(octets))


def accepted_rows(question: GuardQuestion) -> list[cases.Row]:
    """The rows of a question, `(by KEY (hash sha256 DIGEST) VALUE)`, as the model reads them. The signatures that they name count as valid."""
    return cases.read_rows(forms.read(question.rows))


def model_answer(question: GuardQuestion) -> tuple[Answer, list[Signed]]:
    """What the model answers to a question, a status and octets, and the signatures that it lists."""
    return answer(wish_of(question), question.acl, parts_of(question), accepted_rows(question), question.policy, question.limits, question.oddity)


def wish_of(question: GuardQuestion) -> str:
    """How a question is answered: `decide`, `explain` or `reduce`."""
    return question.command.removeprefix("guard ")


def parts_of(question: GuardQuestion) -> Parts:
    """The parts of a question as the model takes them."""
    request: bytes | tuple[bytes, ...] = question.request if question.strings is None else question.strings
    moment: bytes | int = question.moment if question.seconds is None else question.seconds
    return Parts(question.sequence, question.key, request, moment)


class GuardDoor:
    """The calls for guards, of a library that is loaded. A `handle` points to a guard, and `asked` to a question that it has opened. MISUSES and
    ALLOWED of model/guard.py have the oddities."""

    def __init__(self, loaded: ctypes.CDLL) -> None:
        self.truths: tuple[bool, ...] = ()
        """What `spki_asked_granted` and `spki_asked_possible` say of the last decision: whether it is a yes, and whether it would be one if all
        signatures were valid. Empty if nothing was decided."""
        self.until = guard.NEVER
        """The last second at which the last decision holds."""
        needed = POINTER(c_size_t)
        self.open, self.close, self.entries = loaded.spki_guard_open, loaded.spki_guard_close, loaded.spki_guard_entries
        self.ask, self.count, self.signature = loaded.spki_guard_ask, loaded.spki_asked_count, loaded.spki_asked_signature
        self.close_asked, self.mark = loaded.spki_asked_close, loaded.spki_asked_mark
        self.granted, self.possible = loaded.spki_asked_granted, loaded.spki_asked_possible
        self.decision = loaded.spki_asked_decide
        self.decision.restype = Decision
        self.by_wish: dict[str, Any] = {"decide": self.decide, "explain": loaded.spki_asked_explain, "reduce": loaded.spki_asked_reduce}
        self.open.argtypes = [c_char_p, c_size_t, c_uint32, POINTER(Limits), POINTER(c_void_p), c_void_p, c_size_t, needed]
        self.ask.argtypes = [c_void_p, POINTER(Asked), POINTER(c_void_p), c_void_p, c_size_t, needed]
        self.signature.argtypes, self.mark.argtypes = [c_void_p, c_size_t, POINTER(Listed)], [c_void_p, c_size_t]
        for call in (self.close, self.close_asked):
            call.argtypes, call.restype = [c_void_p], None
        for call in (self.entries, self.count):
            call.argtypes, call.restype = [c_void_p], c_size_t
        for call in (self.granted, self.possible):
            call.argtypes, call.restype = [c_void_p], c_bool
        for call in (self.decision, loaded.spki_asked_explain, loaded.spki_asked_reduce):
            call.argtypes = [c_void_p, c_void_p, c_size_t, needed]

    def decide(self, asked: Any, line: Any, room: int, needed: Any) -> int:
        """Calls `spki_asked_decide`, which writes a line of at most `room` octets, and its length to `needed`. Returns the status alone, as the calls
        that explain and reduce do, and keeps the last second of the decision in `until`."""
        decision = self.decision(asked, line, room, needed)
        self.until = decision.until
        return int(decision.status)

    def fault_of_answer(self, question: GuardQuestion, wanted: tuple[Answer, list[Signed]]) -> str | None:
        """What is wrong with the answer to a question, with what the library says of a decision, or with the listed signatures. None if nothing is.
        `wanted` is what `model_answer` returns. Signatures are not compared if no question is opened or a call is misuse: the model lists none."""
        handle, asked = c_void_p(), c_void_p()
        self.truths = ()
        try:
            answered, listed = self.answer_and_signatures(question, handle, asked)
        finally:
            self.close_asked(asked)
            self.close(handle)
        wanted_answer, wanted_signatures = wanted
        if answered != wanted_answer:
            return f"the guard answers {answered[0]} {answered[1][:300]!r}"
        if self.truths:
            asked_of_model = question.acl, parts_of(question), question.policy, question.limits
            if self.truths != (answered[0] == GRANTED, guard.is_possible(*asked_of_model)):
                return f"whether it is granted and whether it could be are said to be {self.truths}"
            if self.until != guard.until(*asked_of_model, answered):
                return f"a decision holds until {self.until}"
        if listed is None or answered[0] == MISUSED or listed == wanted_signatures:
            return None
        return f"the guard lists {len(listed)} signatures, or others than the model"

    def fault_with_small_buffer(self, question: GuardQuestion) -> str | None:
        """What is wrong where a call's buffer has one octet less than its line or answer, None if nothing is. No call may be misuse: it has none."""
        handle, asked = c_void_p(), c_void_p()
        try:
            is_right = self.refuses_small_buffers(question, handle, asked)
        finally:
            self.close_asked(asked)
            self.close(handle)
        return None if is_right else "a call for guards writes where there is too little room, or tells another length or status"

    def answer_and_signatures(self, question: GuardQuestion, handle: c_void_p, asked: c_void_p) -> tuple[Answer, list[Signed] | None]:
        """The answer, and the signatures that are listed, or None if they are not listed. Opens the guard and the question in the handles, which the
        caller closes, but closes the guard itself before the question is answered. Where a call refuses, or is misuse, the answer is that call's."""
        status, line = self.open_guard(question, handle, ROOM)
        if status != DONE:
            return (status, line), None
        odd = question.oddity
        # (a guard that is null has no entries)
        if odd == "no guard" and self.entries(None):
            return (status, b"the entries of no guard"), None
        status, line = self.open_question(question, handle, asked, ROOM)
        if status != DONE:
            return (status, line), None
        if odd == "a guard in place of an opened question":
            return self.answer(question, handle), None
        self.close(handle)
        handle.value = None
        if odd in guard.LISTED:
            is_of_none = odd == "a signature of no question"
            return (self.signature(None if is_of_none else asked, 0, byref(Listed()) if is_of_none else None), b""), None
        listed = self.signatures(asked)
        if odd in guard.MARKED:
            past, _, no_question = guard.MARKED
            marked = len(listed) if odd == past else NEAR_MOST + len(listed)  # (the place behind the last, or one near 2^64)
            return (self.mark(None if odd == no_question else asked, marked), b""), listed
        self.mark_valid(question, asked, listed)
        answered = self.answer(question, None if odd == "no opened question" else asked)
        if question.command == "guard decide" and odd not in guard.ANSWERED:
            self.truths = self.granted(asked), self.possible(asked)
        return answered, listed

    def mark_valid(self, question: GuardQuestion, asked: c_void_p, listed: list[Signed]) -> None:
        """Marks in `asked` the listed signatures that count as valid, and the place behind the last, which must change nothing."""
        for place, is_valid in enumerate([*are_accepted(question, listed), True]):
            if is_valid:
                self.mark(asked, place)

    def open_guard(self, question: GuardQuestion, handle: c_void_p, room: int) -> Answer:
        """What `spki_guard_open` answers to the list, told that the buffer for the line has `room` octets. It has one more, in which a write past its
        end shows. `handle` gets the guard. The question's oddity is made here if it is one of this call."""
        line, needed, odd = ctypes.create_string_buffer(room + 1), c_size_t(), question.oddity
        text, length = (None, 1) if odd == "a list that is null with a length" else (question.acl, len(question.acl))
        size = ctypes.sizeof(Limits) - (odd == "limits of another size")
        limits = None if odd == "limits" else byref(Limits(size, *astuple(question.limits)))
        place = None if odd == "no place for the guard" else byref(handle)
        status = self.open(text, length, question.policy, limits, place, line, room, byref(needed))
        return status, line.raw[:needed.value]

    def open_question(self, question: GuardQuestion, handle: c_void_p, asked: c_void_p, room: int) -> Answer:
        """What `spki_guard_ask` answers to a question of the guard `handle`, with a buffer of `room` octets for the line. `asked` gets the opened
        question. The question's oddity is made here if it is one of this call."""
        line, needed, odd = ctypes.create_string_buffer(room + 1), c_size_t(), question.oddity
        structure = structure_of(question)
        pointer = None if odd == "no question" else byref(structure)
        place = None if odd == "no place for the question" else byref(asked)
        buffer = None if odd == "a buffer for a line that is null with a length" else line
        status = self.ask(None if odd == "no guard" else handle, pointer, place, buffer, room, byref(needed))
        return status, line.raw[:needed.value]

    def signatures(self, asked: c_void_p) -> list[Signed]:
        """The signatures of the opened question `asked`. LISTED_WRONGLY if a call for one fails, its octets are wrong, or one is behind the last."""
        signatures = []
        for place in range(self.count(asked)):
            signature = Listed()
            if self.signature(asked, place, byref(signature)) != DONE:
                return LISTED_WRONGLY
            signatures.append(signed_at(signature))
            # (of a value that is one string its octets are listed too)
            octets = ctypes.string_at(signature.octets, signature.octets_length) if signature.octets else None
            if octets != octets_of_value(signatures[-1][2]):
                return LISTED_WRONGLY
        return LISTED_WRONGLY if self.signature(asked, len(signatures), byref(Listed())) == DONE else signatures

    def answer(self, question: GuardQuestion, asked: c_void_p | None) -> Answer:
        """What the question's call answers to the opened question `asked`, or null, by its marks. First asks for the length, then for the answer."""
        call, odd, needed = self.by_wish[wish_of(question)], question.oddity, c_size_t()
        if odd == "a buffer that is null with a length":
            return call(asked, None, 1, byref(needed)), b""
        status = call(asked, None, 0, byref(needed))
        octets = ctypes.create_string_buffer(needed.value + 1)
        if status == TOO_SMALL:
            status = call(asked, octets, needed.value, None if odd == "needed" else byref(needed))
        return status, octets.raw[:needed.value]

    def refuses_small_buffers(self, question: GuardQuestion, handle: c_void_p, asked: c_void_p) -> bool:
        """Whether the call that writes a refusal's line or the answer returns TOO_SMALL and writes nothing, if its buffer is one octet too small.
        Opens guard and question in the handles, which the caller closes. `status_too_small` is TOO_SMALL, and counts that a row was reached."""
        status, line = self.open_guard(question, handle, ROOM)
        if status != DONE:
            status, buffer = self.open_guard(question, c_void_p(), len(line) - 1)
            return (status, buffer) == (guard.status_too_small("the line of a refused list"), len(line) * b"\0")
        status, line = self.open_question(question, handle, asked, ROOM)
        if status != DONE:
            status, buffer = self.open_question(question, handle, c_void_p(), len(line) - 1)
            return (status, buffer) == (guard.status_too_small("the line of a refused question"), len(line) * b"\0")
        self.mark_valid(question, asked, self.signatures(asked))
        length = len(self.answer(question, asked)[1])
        octets, needed = ctypes.create_string_buffer(length), c_size_t()
        status = self.by_wish[wish_of(question)](asked, octets, length - 1, byref(needed))
        return (status, needed.value, octets.raw) == (guard.status_too_small("an answer"), length, length * b"\0")


def octets_of_value(value: bytes) -> bytes | None:
    """The octets of a value in canonical form that is one string, None if it is a list."""
    string = forms.read(value)
    return string.body if isinstance(string, Atom) else None


def signed_at(listed: Listed) -> Signed:
    """The key, the message and the value of a signature that is listed."""
    return (ctypes.string_at(listed.key, listed.key_length), ctypes.string_at(listed.message, listed.message_length),
            ctypes.string_at(listed.value, listed.value_length))


def structure_of(question: GuardQuestion) -> Asked:
    """A question as `struct spki_question`. An oddity of this structure is put into it; those of calls are left out."""
    request = b"" if question.strings is not None else question.request
    moment = b"" if question.seconds is not None else question.moment
    asked = Asked(ctypes.sizeof(Asked), *map(text_of, (question.sequence, question.key, request)), moment=text_of(moment))
    if question.strings is not None:
        # an array of no strings has an address too
        asked.words = (Text * max(1, len(question.strings)))(*map(text_of, question.strings))
        asked.word_count = len(question.strings)
    if question.seconds is not None:
        asked.seconds = ctypes.pointer(c_int64(question.seconds))
    odd = question.oddity
    if odd == "a part that is null with a length":
        asked.key = Text(None, 1)
    elif odd == "a part of a length over 2^63 - 1":
        asked.sequence.length = 2**63
    elif odd == "strings that are null with a count":
        asked.words, asked.word_count = None, 1
    elif odd == "more strings than there are octets":
        asked.words, asked.word_count = (Text * 1)(), MANY
    elif odd == "a question of another size":
        asked.size += 1
    elif odd == "a request as a text and as strings":
        asked.words, asked.request = (Text * 1)(), text_of(b"x")
    elif odd == "a moment as a text and in seconds":
        asked.seconds, asked.moment = ctypes.pointer(c_int64(0)), text_of(b"x")
    return asked


def are_accepted(question: GuardQuestion, listed: list[Signed]) -> list[bool]:
    """For each listed signature, in order, whether it counts as valid: a row of the question has its key, its message's digest and its value."""
    accepted = {(row.key.octets, row.digest, row.value) for row in accepted_rows(question)}
    return [(key, hashlib.sha256(message).digest(), value) in accepted for key, message, value in listed]
