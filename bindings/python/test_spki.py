"""What the package `spki` does beside the library: opened questions, marks, its buffers, its types and its exceptions.

By the access list LIST key a may do everything, and may delegate it. PAIR is a certificate of a for key b with its signature, SIGNED what a verifier
gets of the two, and SHOWN the sequence of PAIR alone. OWN is a certificate of a for itself that delegates, so that PAIR may follow it. FORGED is a
sequence for key c, whose signature is not valid. `new_question` makes a question by b that shows SHOWN, but for the parts that a test names.
`Guard.ask` opens a question: a test marks each of its signatures that counts as valid by its place, from 0. An item is a certificate or a signature
of a sequence, from 1.

`tests/suite/test_bindings.py` compares the answers to many questions with the program's. Usage, in this folder:
SPKI_LIBRARY=../../crates/spki_c/out/libspki_c.so python3 -m unittest
"""
import asyncio
import contextlib
import copy
import ctypes
import dataclasses
import datetime as datetime_module
import hashlib
import importlib.util
import multiprocessing
import os
import pickle
import shutil
import subprocess
import sys
import tempfile
import threading
import unittest
import warnings
from datetime import datetime, timedelta, timezone
from pathlib import Path
from unittest import mock

import spki
from spki import _library

LIST = b"(acl (entry (public-key (test a)) (propagate) (tag (*))))"
# A certificate of a for b, with its signature. Keys and signatures are words: the verifier of each test says which are valid.
PAIR = (b"(cert (issuer (public-key (test a))) (subject (public-key (test b))) (tag (*)))"
        b" (signature (hash sha256 #d71ecfb335b8e4b04cb035426566a94e817a12cfcfa4dbf5b704b6cd670c7ad2#) (public-key (test a)) sig)")
SHOWN = b"(sequence " + PAIR + b")"
# A certificate by which a lets itself do everything. It may stand in front of another one, also twice, and each signature is still needed.
OWN = (b"(cert (issuer (public-key (test a))) (subject (public-key (test a))) (propagate) (tag (*)))"
       b" (signature (hash sha256 #b26a73c3cdcb26bbb71fa21531b5b6a1745fc316ddfcf53862a174f5dccebfb6#) (public-key (test a)) sig)")
# A certificate for c in the name of a, whose signature is not valid.
FORGED = (b"(sequence (cert (issuer (public-key (test a))) (subject (public-key (test c))) (tag (*)))"
          b" (signature (hash sha256 #b0c7e53153c3b09dad60263b3b4738aa1ae756cc4642305bcf4fdc4114ff0d5d#) (public-key (test a)) forged))")
KEY = b"(public-key (test b))"
# The signature of PAIR, as a verifier gets it.
SIGNED = spki.Signature(key=b"(10:public-key(4:test1:a))", value=b"3:sig",
                        message=b"(4:cert(6:issuer(10:public-key(4:test1:a)))(7:subject(10:public-key(4:test1:b)))(3:tag(1:*)))")
NOW, EPOCH = (datetime(year, 1, 1, tzinfo=timezone.utc) for year in (2024, 1970))
BEFORE = datetime(1969, 12, 31, 23, 59, 59, 999_999, timezone.utc)
WORDS = (b"ftp", b"host")
HIGHEST = spki.Limits.highest()


def new_question(sequence=SHOWN, key=KEY, words=WORDS, moment=NOW, text=None):
    """A question, by default one that LIST grants if the signature of PAIR is valid. A `text` of the request replaces
    the words."""
    return spki.Question(sequence, spki.ProvenKey.assume(key), words=words if text is None else None, text=text, moment=moment)


def accept_all(signature):
    """A verifier for which each signature is valid: any function of a signature that returns whether it is valid is a verifier."""
    return True


def accept_none(signature):
    """A verifier for which no signature is valid."""
    return False


def recording(calls):
    """A verifier that appends each signature to the list `calls`, and for which each is valid: `append` returns None."""
    return lambda signature: calls.append(signature) is None


def fail(signature):
    """A verifier that fails, by an exception which nothing else raises."""
    raise ZeroDivisionError


class OfFalseLength(bytes):
    """Octets that say another length than they have."""

    def __len__(self):
        return 1 << 40


class Verifiers(unittest.TestCase):
    def setUp(self):
        self.guard = spki.Guard(LIST)

    # `LIST` grants the question if the one signature is valid: `verify` is called once, with its key, message and value.
    def test_a_verifier_gets_key_message_and_value(self):
        calls = []
        self.assertEqual(self.guard.decide(new_question(), recording(calls)), spki.Grant(1))
        self.assertEqual(calls, [SIGNED])

    # An answer other than `True` and `False` is a `TypeError`, also one that Python takes for true, or a number whose lowest octet is 1.
    def test_a_verifier_must_answer_true_or_false(self):
        self.assertFalse(self.guard.decide(new_question(), accept_none))
        for answer in (None, 1, 0, -255, 0x101, "yes", object(), [True]):
            for ask in (self.guard.decide, self.guard.explain, self.guard.reduce):
                with self.assertRaises(TypeError):
                    ask(new_question(), lambda signature: answer)

    # A coroutine is true in Python, but no answer. Python would also warn that it is never awaited.
    def test_a_verifier_that_is_a_coroutine_is_an_error(self):
        async def verify(signature):
            return True

        with warnings.catch_warnings():
            warnings.simplefilter("ignore")
            with self.assertRaises(TypeError):
                self.guard.decide(new_question(), verify)

    # Of three certificates the second, item 3, has a wrong signature.
    def test_a_verifier_is_not_called_behind_the_first_wrong_signature(self):
        calls = []

        def verify(signature):
            calls.append(signature.value)
            return signature == SIGNED

        question = new_question(b"(sequence " + PAIR + PAIR.replace(b"sig)", b"wrong)") + PAIR + b")")
        self.assertEqual(list(self.guard.explain(question, verify).reasons()), [spki.Reason(None, 3, "NotAccepted")])
        self.assertEqual(calls, [b"3:sig", b"5:wrong"])

    # An exception of a verifier is passed on to the caller.
    def test_an_exception_of_a_verifier_reaches_the_caller(self):
        for ask in (self.guard.decide, self.guard.explain, self.guard.reduce):
            with self.assertRaises(ZeroDivisionError):
                ask(new_question(), fail)

    # The verifier is called 40 times for each question. Of 40 times PAIR the second certificate, item 3, is `NotIssuer`: the subject is b by then.
    # With 39 times OWN in front, one PAIR is granted.
    def test_a_verifier_is_called_for_each_of_many(self):
        calls = []
        guard = spki.Guard(LIST, limits=HIGHEST)
        question = new_question(b"(sequence " + PAIR * 40 + b")")
        explanation = guard.explain(question, recording(calls))
        self.assertEqual(calls, [SIGNED] * 40)
        self.assertEqual(list(explanation.reasons()), [spki.Reason(1, 3, "NotIssuer")])
        calls.clear()
        self.assertTrue(guard.decide(new_question(b"(sequence " + OWN * 39 + PAIR + b")"), recording(calls)))
        self.assertEqual((len(calls), calls[-1]), (40, SIGNED))

    def test_a_verifier_is_not_called_in_vain(self):
        """No signature is verified for a decision where none could help: the second certificate is not by the subject of the first, or the list is
        empty. For an explanation the first one is verified all the same."""
        for guard, question in ((self.guard, new_question(b"(sequence " + PAIR * 2 + b")")), (spki.Guard(b"(acl)"), new_question(FORGED))):
            self.assertEqual(guard.decide(question, fail), None)
            with self.assertRaises(ZeroDivisionError):
                guard.explain(question, fail)

    # A verifier may call the same guard: no lock is held meanwhile.
    def test_a_verifier_may_ask_its_guard(self):
        def verify(signature):
            return bool(self.guard.decide(new_question(), accept_all))

        self.assertTrue(self.guard.decide(new_question(), verify))


class OpenedQuestions(unittest.TestCase):
    def setUp(self):
        self.guard = spki.Guard(LIST)

    # A question lists its one signature. The octets of a value that is one string are those of the string. A value that is a list has none.
    def test_signatures_and_their_octets(self):
        with self.guard.ask(new_question()) as opened:
            self.assertEqual(opened.signatures(), [SIGNED])
            self.assertEqual(SIGNED.octets, b"sig")
            self.assertEqual(len(opened), 1)
        with self.guard.ask(new_question(SHOWN.replace(b" sig)", b" (sig-val x))"))) as opened:
            self.assertEqual([signature.octets for signature in opened.signatures()], [None])

    def test_which_places_are_marked(self):
        """`mark` takes only the place of a listed signature, and no number that would be a place after a cut to fewer bits. A mark may be
        repeated. `decide`, `explain` and `reduce` take no marks as an argument."""
        with self.guard.ask(new_question()) as opened:
            self.assertTrue(opened.is_possible)
            self.assertEqual(opened.decide(), None)
            for place in (1, -1, -256, 0x100, 0x101, 2 ** 64, -2 ** 64):
                with self.assertRaises(IndexError):
                    opened.mark(place)
            for place in (True, False, None, "0", b"\0", 0.0, [0]):
                with self.assertRaises(TypeError):
                    opened.mark(place)
            self.assertEqual(opened.decide(), None)
            for _ in range(3):
                opened.mark(0)
                self.assertEqual(opened.decide(), spki.Grant(1))
            for ask in (opened.decide, opened.explain, opened.reduce):
                with self.assertRaises(TypeError):
                    ask([True])

    def test_no_place_below_zero_is_marked(self):
        """The place -1, which `Asked.mark` refuses, is refused by the inner call too. It must not become the last of the 64 numbers that
        `_small_sizes` keeps, since this question has a signature at that place."""
        with spki.Guard(LIST, limits=HIGHEST).ask(new_question(b"(sequence " + PAIR * 64 + b")")) as opened:
            self.assertEqual(len(opened), 64)
            with self.assertRaises(RuntimeError):
                spki._mark(opened._open_handle(), -1)

    def test_marks_are_of_one_question(self):
        """Two clients at once: what is marked for b grants nothing to c, and nothing to b in a question that is opened later."""
        good, bad = self.guard.ask(new_question()), self.guard.ask(new_question(FORGED, b"(public-key (test c))"))
        self.assertTrue(good.is_possible and bad.is_possible)
        for opened, valid_count in ((good, 1), (bad, 0)):
            self.assertEqual(opened.verify(lambda signature: signature.value == b"3:sig"), valid_count)
        self.assertEqual((good.decide(), bad.decide()), (spki.Grant(1), None))
        again = self.guard.ask(new_question())
        self.assertEqual(again.decide(), None)

    def test_marks_of_clients_in_threads_stay_apart(self):
        """Two clients in several threads: each answer is by the marks of its own question. A row of `answers` says whether the certificate is forged,
        and whether the request is granted."""
        answers = []

        def serve(sequence, key):
            for _ in range(200):
                with self.guard.ask(new_question(sequence, key)) as opened:
                    opened.verify(lambda signature: signature.value == b"3:sig")
                    answers.append((sequence is FORGED, opened.decide() is not None))

        clients = [(SHOWN, KEY), (FORGED, b"(public-key (test c))")]
        threads = [threading.Thread(target=serve, args=clients[place % 2]) for place in range(6)]
        for thread in threads:
            thread.start()
        for thread in threads:
            thread.join()
        self.assertEqual((len(answers), set(answers)), (6 * 200, {(False, True), (True, False)}))

    def test_marks_are_of_one_place(self):
        """Two equal signatures are two places, and both marks are needed."""
        for place in (0, 1):
            opened = self.guard.ask(new_question(b"(sequence " + OWN + OWN + b")", b"(public-key (test a))"))
            self.assertEqual(*opened.signatures())
            opened.mark(place)
            self.assertEqual(opened.decide(), None)
            opened.mark(1 - place)
            self.assertEqual(opened.decide(), spki.Grant(1))

    # The verifier accepts the first signature and fails at the second. The first is not marked, so a mark of the second grants nothing.
    def test_a_verifier_that_fails_marks_nothing(self):
        with self.guard.ask(new_question(b"(sequence " + OWN + OWN + b")", b"(public-key (test a))")) as opened:
            answers = iter((True,))
            with self.assertRaises(StopIteration):
                opened.verify(lambda signature: next(answers))
            opened.mark(1)
            self.assertEqual(opened.decide(), None)

    # The signatures may be verified by coroutines, all at the same time. The places of the valid ones are marked afterwards.
    def test_signatures_are_verified_by_coroutines(self):
        async def verify(signature):
            await asyncio.sleep(0)
            return signature == SIGNED

        async def decide():
            with self.guard.ask(new_question()) as opened:
                for place, is_valid in enumerate(await asyncio.gather(*map(verify, opened))):
                    if is_valid:
                        opened.mark(place)
                return opened.decide()

        self.assertTrue(asyncio.run(decide()))

    # An opened question can be used after its guard is closed, and no more after it is closed itself.
    def test_an_opened_question_outlives_its_guard(self):
        opened = self.guard.ask(new_question())
        self.guard.close()
        del self.guard
        opened.mark(0)
        self.assertTrue(opened.decide())
        opened.close()
        for call in (opened.decide, opened.signatures, opened.reduce, lambda: opened.mark(0), lambda: opened.is_possible):
            with self.assertRaises(ValueError):
                call()

    # An opened question, a no, an explanation and a reduction are false, so `if answer:` grants by a decision alone.
    def test_only_a_granted_decision_is_true(self):
        opened = self.guard.ask(new_question())
        no = opened.decide()
        opened.mark(0)
        for answer in (opened, no, opened.explain(), opened.reduce(), self.guard.explain(new_question(), accept_all),
                       self.guard.reduce(new_question(), accept_all), self.guard.explain(new_question(), accept_none)):
            self.assertFalse(answer, answer)
        self.assertTrue(opened.decide())
        self.assertEqual(str(opened.reduce()), "entry 1 (five (subject (public-key (test b))) (tag (*)))")

    # `require` raises `Denied` for a no, and returns the number of the entry for a yes.
    def test_require_raises_for_a_no(self):
        opened = self.guard.ask(new_question())
        for call in (lambda: self.guard.require(new_question(), accept_none), opened.require):
            with self.assertRaises(spki.Denied):
                call()
        opened.mark(0)
        self.assertEqual((self.guard.require(new_question(), accept_all), opened.require()), (1, 1))

    def test_a_grant_says_until_when_it_holds(self):
        """A grant holds till the least window ends, here that of the entry, and no second longer. What is no `datetime` with a time zone is a
        `TypeError`. Without a window a grant holds at each moment from 1970 on till the year 9999 ends, in UTC: a later one is refused."""
        last, second = datetime(2026, 6, 30, 23, 59, 59, tzinfo=timezone.utc), timedelta(seconds=1)
        ending = spki.Guard(LIST.replace(b"(tag (*))", b'(tag (*)) (not-after "2026-06-30_23:59:59")'))
        grant = ending.decide(new_question(), accept_all)
        self.assertEqual(grant, spki.Grant(1, last))
        for moment, holds in ((last - second, True), (last, True), (last + 0.999 * second, True), (last + second, False)):
            self.assertEqual((grant.holds_at(moment), bool(ending.decide(new_question(moment=moment), accept_all))), (holds, holds), moment)
        for moment in (last.replace(tzinfo=None), 0):
            with self.assertRaises(TypeError):
                grant.holds_at(moment)
        endless = self.guard.decide(new_question(), accept_all)
        self.assertEqual((endless.until, endless.holds_at(last + second), endless.holds_at(BEFORE)), (None, True, False))
        latest = datetime.max.replace(tzinfo=timezone.utc)
        self.assertTrue(endless.holds_at(latest) and self.guard.decide(new_question(moment=latest), accept_all))
        later = datetime.max.replace(hour=22, tzinfo=timezone(timedelta(hours=-2)))  # (the first hour of the year 10000)
        self.assertFalse(endless.holds_at(later))
        with self.assertRaisesRegex(spki.Refused, "refused at BadDate"):
            self.guard.decide(new_question(moment=later), accept_all)

    # The replaced call of the library returns the last second but one of the year 9999, the last one, to which a grant holds whose windows do not
    # end, one before 1970, and one long before the year 1, which becomes the first moment of a `datetime`.
    def test_ends_that_python_does_not_have(self):
        opened, second = self.guard.ask(new_question()), timedelta(seconds=1)
        last, first = (limit.replace(microsecond=0, tzinfo=timezone.utc) for limit in (datetime.max, datetime.min))
        for until, wanted in ((253_402_300_798, last - second), (253_402_300_799, None), (-1, EPOCH - second), (-2 ** 62, first)):
            with mock.patch.object(_library, "decide", return_value=_library.Decision(_library.YES, until)), \
                    mock.patch.object(spki._CallMemory, "line", return_value=b"yes entry 7\n"):
                self.assertEqual(opened.decide(), spki.Grant(7, wanted))

    # Marks are by place, so `verify` reads the signatures by place too, however a subclass iterates.
    def test_verify_reads_by_place(self):
        opened = self.guard.ask(new_question())
        with mock.patch.object(spki.Asked, "__iter__", lambda asked: iter(())):
            opened.verify(accept_all)
        self.assertTrue(opened.decide())

    # Equal keys are one object of `bytes`, so that a service which keeps 40 of them needs the memory of one.
    def test_equal_keys_are_one_object(self):
        opened, verified = spki.Guard(LIST, limits=HIGHEST).ask(new_question(b"(sequence " + PAIR * 40 + b")")), []
        opened.verify(recording(verified))
        for signatures in (opened.signatures(), list(opened), verified):
            self.assertEqual(({id(signature.key) for signature in signatures}, len(signatures)), ({id(signatures[0].key)}, 40))

    def test_each_call_holds_the_lock(self):
        """Each call of the library by which an `Asked` reads a signature, marks one or answers is made while the lock of the `Asked` is held: so
        none is made while another thread marks a signature. No other lock ensures it: three of these calls release the GIL."""
        opened, is_held = self.guard.ask(new_question()), {}
        with contextlib.ExitStack() as patches:
            for name in ("signature", "mark", "possible", "decide", "explain", "reduce"):

                # (the defaults are the values of this round of the loop)
                def call(*arguments, name=name, real=getattr(_library, name)):
                    is_held.setdefault(name, set()).add(opened._lock.locked())
                    return real(*arguments)

                patches.enter_context(mock.patch.object(_library, name, call))
            opened.signatures()
            opened.verify(accept_all)
            opened.mark(0)
            self.assertTrue(opened.is_possible and opened.decide() and opened.explain().text and opened.reduce().text)
        self.assertEqual((len(is_held), set().union(*is_held.values())), (6, {True}))

    # The signatures behind the first, or behind the first wrong one, are never copied from the library. `places` has the places of those that are:
    # one for `next`, and three for `verify`, whose verifier refuses the third, when four are copied.
    def test_signatures_are_listed_one_by_one(self):
        opened, places = spki.Guard(LIST, limits=HIGHEST).ask(new_question(b"(sequence " + PAIR * 40 + b")")), []
        signature = _library.signature
        with mock.patch.object(_library, "signature", lambda handle, place, at: places.append(place.value) or signature(handle, place, at)):
            self.assertEqual((next(iter(opened)), places), (SIGNED, [0]))
            valid_count = opened.verify(lambda signature: len(places) < 4)
        self.assertEqual((places, valid_count), ([0, 0, 1, 2], 2))

    def test_each_text_is_copied_once(self):
        """Of each signature the key, the message and the value are copied once each: three slices of `_library.memory`, whose mock copies by another
        call. The octets of the value are a part of it."""
        with mock.patch.object(_library, "memory", mock.MagicMock()) as memory, self.guard.ask(new_question()) as opened:
            memory.__getitem__.side_effect = lambda places: ctypes.string_at(places.start, places.stop - places.start)
            for read in (opened.signatures, lambda: opened.verify(accept_all)):
                memory.__getitem__.reset_mock()
                read()
                self.assertEqual(memory.__getitem__.call_count, 3)

    # The `repr` of a guard and of an opened question says whether it is closed.
    def test_repr_says_what_is_closed(self):
        opened = self.guard.ask(new_question())
        names = [repr(self.guard), repr(opened)]
        self.guard.close()
        opened.close()
        self.assertEqual(names + [repr(self.guard), repr(opened)], [
            "<spki.Guard of 1 entries, STRICT>", "<spki.Asked of 1 signatures>", "<spki.Guard of 1 entries, STRICT, closed>",
            "<spki.Asked of 1 signatures, closed>"])

    # A failed allocation raises `Refused` with the fault `MEMORY`, and is not the end of the list.
    def test_signature_without_memory(self):
        opened = spki.Guard(LIST).ask(new_question())
        with mock.patch.object(_library, "signature", return_value=_library.NO_MEMORY), self.assertRaises(spki.Refused) as raised:
            opened.signatures()
        self.assertEqual(raised.exception.fault, "Memory")

    # The library is replaced by calls that return a status which the module expects of none of them.
    def test_an_unknown_status_is_no_answer(self):
        opened = spki.Guard(LIST).ask(new_question())
        for status in (0, 3, 5, 7, 10):
            with mock.patch.object(_library, "decide", return_value=_library.Decision(status)), self.assertRaises(RuntimeError):
                opened.decide()
            with mock.patch.object(_library, "mark", return_value=status), self.assertRaises(RuntimeError):
                opened.mark(0)


class Copies(unittest.TestCase):
    """A guard and an opened question are of one process. A question is its parts, and it and an exception may be sent to another process."""

    def setUp(self):
        self.guard = spki.Guard(LIST)
        self.opened = self.guard.ask(new_question())

    # Each way to copy or pickle a guard, an opened question or the handle of one is a `TypeError`.
    def test_what_is_open_is_not_copied(self):
        @dataclasses.dataclass
        class Service:
            guard: object

        calls = [copy.copy, copy.deepcopy, *(lambda original, protocol=protocol: pickle.dumps(original, protocol) for protocol in range(6)),
                 lambda original: dataclasses.asdict(Service(original)), lambda original: dataclasses.astuple(Service(original)),
                 lambda original: copy.deepcopy([original])]
        for original in (self.guard, self.opened, self.guard._handle, self.opened._handle):
            for place, call in enumerate(calls):
                with self.subTest(f"{type(original).__name__}, call {place}"), self.assertRaisesRegex(TypeError, "read the list and ask again"):
                    call(original)
        # (no copy has freed the guard, whose place in memory a new one could then take)
        other = spki.Guard(b"(acl)")
        self.assertEqual((self.guard.decide(new_question(), accept_all), other.decide(new_question(), accept_all)), (spki.Grant(1), None))

    # The arguments of a new process are pickled.
    def test_what_is_open_is_not_sent_to_a_process(self):
        for original in (self.guard, self.opened):
            process = multiprocessing.get_context("spawn").Process(target=print, args=(original,))
            with self.assertRaisesRegex(TypeError, "read the list and ask again"):
                process.start()

    # A copy of a question, and what its `repr` evaluates to, equal the question. Questions with other parts do not.
    def test_a_question_is_copied(self):
        for question in (new_question(), new_question(text=b"(ftp host)", moment=b'"2024-01-01_00:00:00"'), new_question(words=[]),
                         new_question(moment=BEFORE)):
            evaluated = eval(repr(question), {**vars(spki), "datetime": datetime_module})
            for copied in (copy.copy(question), copy.deepcopy(question), pickle.loads(pickle.dumps(question)), evaluated):
                self.assertEqual((copied, hash(copied), repr(copied)), (question, hash(question), repr(question)))
            self.assertNotEqual(question, new_question(key=b"(public-key (test c))"))
        self.assertTrue(self.guard.decide(copy.deepcopy(new_question()), accept_all))
        # (a list of the same words makes an equal question, and another moment does not)
        self.assertEqual(len({new_question(), new_question(words=list(WORDS)), new_question(moment=NOW + timedelta(seconds=1))}), 2)
        self.assertNotEqual(new_question(), None)

    def test_exceptions_are_copied(self):
        """A process may send them to another one."""
        for exception in (spki.Denied(), spki.Refused("refused Memory"), spki.NotProved("no proof")):
            for copied in (copy.copy(exception), pickle.loads(pickle.dumps(exception))):
                self.assertEqual((type(copied), str(copied), vars(copied)), (type(exception), str(exception), vars(exception)))

    def test_a_child_uses_what_was_open(self):
        """A child that was forked answers by its parent's guard and question, frees nothing of them, and opens and frees its own."""
        child = os.fork()
        if child == 0:
            # (the child ends with 0 if all is right, 1 if not, 2 after an exception. `closed` has the handles that are freed: `__del__` calls its
            # default argument, which is replaced)
            try:
                closed = []
                is_right = self.guard.decide(new_question(), accept_all) and not self.opened.decide()
                self.opened.mark(0)
                is_right = is_right and self.opened.decide()
                with mock.patch.object(spki._GuardHandle.__del__, "__defaults__", (closed.append,)), \
                        mock.patch.object(spki._AskedHandle.__del__, "__defaults__", (closed.append,)):
                    self.guard.close()
                    self.opened.close()
                    own = spki.Guard(LIST)
                    is_right = is_right and not closed and own.decide(new_question(), accept_all)
                    own.close()
                os._exit(0 if is_right and len(closed) == 1 else 1)
            finally:
                os._exit(2)
        self.assertEqual(os.waitpid(child, 0)[1], 0)
        self.assertEqual((self.guard.decide(new_question(), accept_all), self.opened.decide()), (spki.Grant(1), None))


class ProvenKeys(unittest.TestCase):
    """A question takes a key that is proved, and says so by its type."""

    LOGIN = spki.Signature(key=spki.canonical(KEY), message=b"(5:login7:service5:nonce)", value=b"3:sig")

    # A valid signature of a message that is no certificate proves its key. A verifier must return `True` or `False`.
    def test_a_login_proves_its_key(self):
        seen = []
        proven = spki.ProvenKey.by(self.LOGIN, recording(seen))
        self.assertEqual((seen, proven.text, proven), ([self.LOGIN], self.LOGIN.key, spki.ProvenKey.assume(self.LOGIN.key)))
        with self.assertRaises(spki.NotProved):
            spki.ProvenKey.by(self.LOGIN, accept_none)
        for answer in (None, 1, "yes"):
            with self.assertRaises(TypeError):
                spki.ProvenKey.by(self.LOGIN, lambda signature: answer)

    def test_a_certificate_proves_no_key(self):
        """Whoever shows a certificate need not hold the key that has signed it."""
        signature, = spki.Guard(LIST).ask(new_question()).signatures()
        with self.assertRaises(spki.NotProved):
            spki.ProvenKey.by(signature, accept_all)

    # A `ProvenKey` is made by `by` or `assume` alone, does not change, and may be copied.
    def test_by_and_assume_alone_make_a_proven_key(self):
        key = spki.ProvenKey.assume(KEY)
        for call in (spki.ProvenKey, lambda: spki.ProvenKey(KEY), lambda: spki.ProvenKey.assume("key")):
            with self.assertRaises(TypeError):
                call()
        with self.assertRaises(AttributeError):
            key._text = b"(public-key (test a))"
        for copied in (copy.copy(key), copy.deepcopy(key), pickle.loads(pickle.dumps(key)), eval(repr(key), vars(spki))):
            self.assertEqual((copied, hash(copied), new_question().key), (key, hash(key), key))
        self.assertNotEqual(key, KEY)


class Signatures(unittest.TestCase):
    # The three parts of a `Signature` are given by name, so that none is taken for another.
    def test_the_parts_of_a_signature_have_names(self):
        for given in ((b"key", b"message", b"value"), ()):
            with self.assertRaises(TypeError):
                spki.Signature(*given)

    # The scheme of a signature is that of the form of its key.
    def test_scheme_by_the_form_of_the_key(self):
        for key, scheme in [(b"(public-key (ecc (curve Ed25519) (flags eddsa) (q #00#)))", spki.Scheme.ED25519),
                            (b"(public-key (rsa (n #00#) (e #010001#)))", spki.Scheme.RSA),
                            (b'(public-key (ecc (curve "NIST P-256") (q #04#)))', spki.Scheme.P256), (KEY, None)]:
            self.assertEqual(dataclasses.replace(SIGNED, key=spki.canonical(key)).scheme, scheme)


class QuestionParts(unittest.TestCase):
    """The parts of a question, and texts that are given to other calls."""

    def test_a_string_with_spaces_stays_one_string(self):
        """A string with spaces, parentheses or a length in it stays one string of the request: a path that ends with ` read` makes no `write` a
        `read`."""
        guard = spki.Guard(b"(acl (entry (public-key (test b)) (tag (cache (* prefix /cache/team1/) read))))")
        for words, is_granted in [((b"cache", b"/cache/team1/a.o", b"read"), True), ((b"cache", b"/cache/team1/a.o read", b"write"), False),
                                  ((b"cache", b"/cache/team1/a.o 4:read", b"write"), False), ((b"cache", b"/cache/team1/\0)", b"read"), True),
                                  ((b"cache", b"", b"read"), False), ((b"cache",), False)]:
            self.assertEqual(bool(guard.decide(new_question(b"(sequence)", words=words), accept_all)), is_granted, words)
            self.assertEqual(bool(guard.decide(new_question(b"(sequence)", words=list(words)), accept_all)), is_granted, words)

    # A request by one word is that string, and not the list of it.
    def test_one_word_is_no_list(self):
        guard = spki.Guard(b"(acl (entry (public-key (test b)) (tag ftp)))")
        self.assertTrue(guard.decide(new_question(b"(sequence)", words=(b"ftp",)), accept_all))
        self.assertTrue(guard.decide(new_question(b"(sequence)", text=b"ftp"), accept_all))
        self.assertFalse(guard.decide(new_question(b"(sequence)", text=b"(ftp)"), accept_all))

    # The tag is a list of 40 strings. It contains each request that begins with them. The usual limits would refuse 1,000 strings. The moment is
    # given in both ways, since it is passed beside the array of strings. Few strings come last, after many: none of those may be left.
    def test_many_words_make_one_list(self):
        guard = spki.Guard(b"(acl (entry (public-key (test b)) (tag (" + 40 * b"w " + b"))))", limits=HIGHEST)
        for count in (39, 40, 41, 1000, 3):
            for moment in (NOW, b'"2024-01-01_00:00:00"'):
                self.assertEqual(bool(guard.decide(new_question(b"(sequence)", words=count * [b"w"], moment=moment), accept_all)), count >= 40, count)

    # A window that begins with 1970, asked at its first second, long after it, a second before it, and by a clock in another time zone, whose 00:59
    # is 01:59 in UTC: an offset of the wrong sign would make it 23:59 of the day before. A `datetime` without a time zone is a `TypeError`.
    def test_moments_are_compared_with_the_window(self):
        guard = spki.Guard(b'(acl (entry (public-key (test b)) (tag (*)) (not-before "1970-01-01_00:00:00")))')
        for moment, is_granted in [(EPOCH, True), (datetime.max.replace(tzinfo=timezone.utc), True), (b'"1970-01-01_00:00:00"', True),
                                   (b'"1969-12-31_23:59:59"', False),
                                   (datetime(1970, 1, 1, 0, 59, tzinfo=timezone(timedelta(hours=-1))), True)]:
            self.assertEqual(bool(guard.decide(new_question(b"(sequence)", moment=moment), accept_all)), is_granted, moment)
        with self.assertRaises(TypeError):
            new_question(moment=datetime(2024, 1, 1))

    def test_a_clock_that_failed_grants_nothing(self):
        """A right that has ended is not granted by a time before 1970, as that of a clock that failed."""
        guard = spki.Guard(b'(acl (entry (public-key (test b)) (tag (*)) (not-after "1999-12-31_23:59:59")))')
        self.assertTrue(guard.decide(new_question(b"(sequence)", moment=EPOCH), accept_all))
        for moment in (BEFORE, datetime.min.replace(tzinfo=timezone.utc), EPOCH.astimezone(timezone(timedelta(hours=9))) - timedelta(seconds=1)):
            for ask in (guard.decide, guard.explain, guard.reduce):
                with self.assertRaises(spki.Refused, msg=moment) as raised:
                    ask(new_question(b"(sequence)", moment=moment), accept_all)
                self.assertEqual(raised.exception.line, "refused at BadDate")

    # A part of a question that cannot be read raises `Refused` with the line of the program.
    def test_a_refusal_names_the_part_and_the_fault(self):
        guard = spki.Guard(LIST)
        for question, line, fault in [
            (new_question(b"(sequence) x"), "refused sequence Trailing 11", "Trailing"), (new_question(b""), "refused sequence Short", "Short"),
            (new_question(b"(sequence (do))"), "refused sequence 1 UnknownOp", "UnknownOp"),
            (new_question(key=KEY * 2), "refused key Trailing 21", "Trailing"),
            (new_question(key=b"(public-key (test a) (uri))"), "refused key KeyUris", "KeyUris"),
            (new_question(words=()), "refused request EmptyList", "EmptyList"), (new_question(text=b"()"), "refused request EmptyList", "EmptyList"),
            (new_question(moment=BEFORE), "refused at BadDate", "BadDate"), (new_question(moment=b"now"), "refused at BadDate", "BadDate"),
        ]:
            for ask in (guard.decide, guard.explain, guard.reduce):
                with self.assertRaises(spki.Refused, msg=line) as raised:
                    ask(question, accept_all)
                self.assertEqual((raised.exception.line, str(raised.exception), raised.exception.fault), (line, line, fault))
                self.assertEqual(raised.exception.part, line.split()[1])

    # Arguments of other types are a `TypeError`.
    def test_other_types_are_no_parts(self):
        for given in ({"sequence": "(sequence)"}, {"key": bytearray(KEY)}, {"words": "ftp"}, {"words": b"ftp"}, {"words": ("ftp",)}, {"words": 7},
                      {"words": (bytearray(b"ftp"),)}, {"moment": 1.5}, {"moment": True}, {"moment": 1_704_067_200}, {"text": "ftp"}):
            with self.assertRaises(TypeError):
                new_question(**given)
        for key in (KEY, None, SIGNED, spki.ProvenKey):
            with self.assertRaises(TypeError):
                spki.Question(SHOWN, key, words=WORDS, moment=NOW)
        for other in ("(acl)", 7, None, bytearray(b"(acl)")):
            for call in (spki.Guard, spki.canonical, spki.string_at):
                with self.assertRaises(TypeError):
                    call(other)
        with self.assertRaises(TypeError):
            spki.Guard(LIST).decide((SHOWN, KEY, WORDS, NOW), accept_all)

    # The octets of the questions are made at run time, so they have no other owner, and `garbage` would overwrite what was freed.
    def test_a_question_keeps_its_octets(self):
        guard = spki.Guard(b"(acl (entry (public-key (test b)) (tag (w w10 w11 w12 w13))))")
        questions = [spki.Question(b"(%s)" % b"sequence", spki.ProvenKey.assume(b"(public-key (%s b))" % b"test"),
                                   words=[b"w", *(b"w%d" % number for number in range(10, 14))],
                                   moment=NOW + timedelta(seconds=number)) for number in range(200)]
        garbage = [bytes(size % 64) for size in range(20_000)]
        self.assertTrue(all(guard.decide(question, accept_all) for question in questions))
        self.assertEqual(len(garbage), 20_000)

    # A request by neither words nor a text, or by both, is a `TypeError`.
    def test_a_request_is_given_once(self):
        for given in ({}, {"words": WORDS, "text": b"(ftp)"}):
            with self.assertRaises(TypeError):
                spki.Question(SHOWN, spki.ProvenKey.assume(KEY), moment=NOW, **given)

    def test_lengths_are_those_of_the_octets(self):
        """A subclass of bytes may say another length than it has. Nothing beyond its octets is read."""
        guard = spki.Guard(OfFalseLength(LIST))
        self.assertTrue(guard.decide(new_question(OfFalseLength(SHOWN), OfFalseLength(KEY), [OfFalseLength(word) for word in WORDS]), accept_all))
        self.assertTrue(guard.decide(new_question(text=OfFalseLength(b"(ftp)"), moment=OfFalseLength(b'"2024-01-01_00:00:00"')), accept_all))
        self.assertEqual(spki.canonical(OfFalseLength(b"(a)")), b"(1:a)")
        self.assertEqual(spki.string_at(OfFalseLength(b"3:abc")), b"abc")


class Guards(unittest.TestCase):
    # An empty list, the same in transport form, and a list whose entry has no parts.
    def test_access_lists_are_read_or_refused(self):
        self.assertEqual(spki.Guard(b"(acl)").entries, 0)
        self.assertEqual(spki.Guard(b"{KDM6YWNsKQ==}").entries, 0)
        with self.assertRaises(spki.Refused) as raised:
            spki.Guard(b"(acl (entry))")
        self.assertEqual(raised.exception.line, "refused acl 1 Shape")

    # The explanation and the reduction of a list that has the entry of LIST, without its `(acl ` and `)`, 500 times are whole.
    def test_long_answers(self):
        guard = spki.Guard(b"(acl " + LIST[5:-1] * 500 + b")")
        self.assertEqual(guard.entries, 500)
        explanation = guard.explain(new_question(), accept_all)
        self.assertEqual(list(explanation.reasons()), [spki.Reason(number, None, "grants") for number in range(1, 501)])
        last_line = guard.reduce(new_question(), accept_all).text.splitlines()[499]
        self.assertEqual(last_line, "entry 500 (five (subject (public-key (test b))) (tag (*)))")

    # The explanation of an empty list has no reasons.
    def test_an_explanation_of_no_entries(self):
        self.assertEqual(list(spki.Guard(b"(acl)").explain(new_question(), accept_all).reasons()), [])
        self.assertEqual(str(spki.Guard(b"(acl)").explain(new_question(), accept_all)), "no entries")

    # A hash by SHA-1 names a key under `ALLOW_SHA1` alone. `STRICT` is the default, and a policy is no number, also none that a cut to 32 bits makes
    # 0 or 1.
    def test_sha1_names_keys_by_allow_sha1_alone(self):
        digest = hashlib.sha1(spki.canonical(KEY)).hexdigest().encode()
        by_sha1 = b"(acl (entry (hash sha1 #%s#) (tag (*))))" % digest
        for policy, is_granted in [(spki.Policy.ALLOW_SHA1, True), (spki.Policy.STRICT, False)]:
            self.assertEqual(bool(spki.Guard(by_sha1, policy).decide(new_question(b"(sequence)"), accept_all)), is_granted)
        self.assertFalse(spki.Guard(by_sha1).decide(new_question(b"(sequence)"), accept_all))
        for other in (0, 1, 2 ** 32, 2 ** 32 + 1, "strict", None, True):
            with self.assertRaises(TypeError):
                spki.Guard(by_sha1, other)

    # A limit out of range is an error, also one that a cut to 64 bits would make 16, and so is one that is no int, or a bool. A question beyond a
    # limit of octets, certificates or strings is refused. Those of nodes, work and the answer bound explanations, and no decisions. 0 is the default.
    def test_limits(self):
        for wrong in ({"octets": 1_048_577}, {"nodes": 1_000_001}, {"work": -1}, {"octets": -1}, {"answer": 2 ** 28 + 1},
                      {"certificates": 2 ** 64 + 16}):
            with self.assertRaises(ValueError):
                spki.Limits(**wrong)
        for wrong in ({"octets": 1.5}, {"words": "7"}, {"work": True}):
            with self.assertRaises(TypeError):
                spki.Limits(**wrong)
        for question, limits, line in [
                (new_question(), spki.Limits(octets=64), "refused question TooLong"),
                (new_question(b"(sequence " + PAIR * 17 + b")"), spki.Limits(), "refused question TooManyCertificates"),
                (new_question(words=65 * [b"w"]), spki.Limits(), "refused question TooManyWords")]:
            with self.assertRaises(spki.Refused) as raised:
                spki.Guard(LIST, limits=limits).decide(question, accept_all)
            self.assertEqual(raised.exception.line, line)
        self.assertTrue(spki.Guard(LIST, limits=spki.Limits(octets=0, certificates=0, work=7)).decide(new_question(), accept_all))
        for limits in (spki.Limits(nodes=1), spki.Limits(work=1), spki.Limits(answer=5)):
            # (a tag of three nodes, since `(*)` is within the limit of one)
            guard = spki.Guard(LIST.replace(b"(*)", b"(ftp host)"), limits=limits)
            self.assertTrue(guard.decide(new_question(), accept_all))
            with self.assertRaises(spki.Refused) as raised:
                guard.explain(new_question(), accept_all)
            self.assertEqual((raised.exception.line, raised.exception.part), ("refused TooLarge", None))

    # After `close` each of these calls on a guard or an opened question raises `ValueError`, and `close` may be called again.
    def test_calls_after_close_fail(self):
        with spki.Guard(LIST) as guard:
            self.assertTrue(guard.decide(new_question(), accept_all))
            opened = guard.ask(new_question())
        opened.close()
        for call in (lambda: guard.decide(new_question(), accept_all), lambda: guard.explain(new_question(), accept_all),
                     lambda: guard.reduce(new_question(), accept_all), lambda: guard.ask(new_question()), lambda: guard.entries,
                     opened.signatures, lambda: opened.verify(accept_all), lambda: opened.mark(0), opened.decide, opened.explain, opened.reduce,
                     lambda: opened.is_possible):
            with self.assertRaises(ValueError):
                call()
        guard.close()
        opened.close()

    # A verifier closes the guard that calls it, and returns True, since `close` returns None. The decision is made all the same.
    def test_closing_a_guard_while_it_is_asked(self):
        guard = spki.Guard(LIST)
        self.assertTrue(guard.decide(new_question(), lambda signature: guard.close() is None))

    def test_closing_in_another_thread(self):
        """A guard and a question may be closed while another thread makes one of `calls` again and again: this answers as before, or raises
        ValueError. Each row says whether the answer is the right one: `mark` returns None."""
        calls = {"entries": lambda guard, opened: guard.entries == 1, "decide": lambda guard, opened: bool(guard.decide(new_question(), accept_all)),
                 "count": lambda guard, opened: len(opened) == 1, "signatures": lambda guard, opened: opened.signatures()[0] == SIGNED,
                 "verify": lambda guard, opened: opened.verify(accept_all) == 1, "ask": lambda guard, opened: len(guard.ask(new_question())) == 1,
                 "mark": lambda guard, opened: opened.mark(0) is None, "is_possible": lambda guard, opened: opened.is_possible,
                 "decide by marks": lambda guard, opened: opened.mark(0) is None and opened.decide() == spki.Grant(1),
                 "explain": lambda guard, opened: str(guard.explain(new_question(), accept_all)) == "entry 1 grants",
                 "explain by marks": lambda guard, opened: opened.mark(0) is None and str(opened.explain()) == "entry 1 grants",
                 "reduce": lambda guard, opened: str(guard.reduce(new_question(), accept_all)).startswith("entry 1 "),
                 "reduce by marks": lambda guard, opened: opened.mark(0) is None and str(opened.reduce()).startswith("entry 1 ")}
        for name, call in calls.items():
            for _ in range(200):
                guard = spki.Guard(LIST)
                opened, begins, wrong = guard.ask(new_question()), threading.Barrier(2), []

                # (the defaults are the values of this round of the loop)
                def use(guard=guard, opened=opened, begins=begins, wrong=wrong, call=call):
                    begins.wait()
                    try:
                        if not all(call(guard, opened) for _ in range(20)):
                            wrong.append("another answer")
                    except ValueError:
                        pass

                thread = threading.Thread(target=use)
                thread.start()
                begins.wait()
                guard.close()
                opened.close()
                thread.join()
                self.assertEqual(wrong, [], name)

    # Eight threads use one guard and one opened question. Each opens a question 200 times, and marks and decides the opened one as often.
    def test_threads_share_a_guard_and_a_question(self):
        guard, granted = spki.Guard(LIST), []
        opened = guard.ask(new_question())

        def ask():
            granted.append(all(guard.decide(new_question(), accept_all) and opened.mark(0) is None and opened.decide() for _ in range(200)))

        threads = [threading.Thread(target=ask) for _ in range(8)]
        for thread in threads:
            thread.start()
        for thread in threads:
            thread.join()
        self.assertEqual(granted, [True] * 8)

    # `decide` closes its question by `_library.close`, also if the verifier raises: the first two of `closed`. The handles of the guard and of the
    # opened question are closed by `__del__`, whose default argument is replaced here, and once, though `close` is called twice.
    def test_each_handle_is_closed_once(self):
        closed = []
        closing = mock.patch.object(spki._GuardHandle.__del__, "__defaults__", (closed.append,)), \
            mock.patch.object(spki._AskedHandle.__del__, "__defaults__", (closed.append,))
        with closing[0], closing[1], mock.patch.object(_library, "close", closed.append):
            guard = spki.Guard(LIST)
            opened = guard.ask(new_question())
            self.assertTrue(guard.decide(new_question(), accept_all))
            with self.assertRaises(ZeroDivisionError):
                guard.decide(new_question(), fail)
            guard.close()
            opened.close()
            opened.close()
            guard.close()
            del guard, opened
        self.assertEqual([type(handle).__name__ for handle in closed], ["c_void_p", "c_void_p", "_GuardHandle", "_AskedHandle"])


class Texts(unittest.TestCase):
    # A text in each form of RFC 9804, and one that is in none: no string begins with `~`.
    def test_conversion_to_each_form(self):
        self.assertEqual(spki.canonical(b"(a #00#)"), b"(1:a1:\0)")
        self.assertEqual(spki.advanced(b"(1:a1:b)"), b"(a b)\n")
        self.assertEqual(spki.transport(b"(a)"), b"{KDE6YSk=}\n")
        with self.assertRaises(spki.Refused) as raised:
            spki.canonical(b"(a ~)")
        self.assertEqual(raised.exception.line, "refused form Bad 3")

    def test_long_forms_are_whole_in_bounded_memory(self):
        """The longest advanced form is that of octets which are printed in base64: 1,000 times `|AA==|` with 999 spaces, two parentheses and a line
        feed. For a text that is too long only three times the longest text is allocated, which is less than 1 << 22 octets."""
        self.assertEqual(len(spki.advanced(b"(" + b"1:\0" * 1000 + b")")), 7 * 1000 + 2)
        with mock.patch.object(spki, "_AnswerMemory", side_effect=spki._AnswerMemory) as memory, self.assertRaises(spki.Refused) as raised:
            spki.canonical(b" " * (1 << 24))
        self.assertEqual(raised.exception.fault, "TooLong")
        self.assertLess(memory.call_args.args[0], 1 << 22)

    # A path has the numbers of the members to go into. `string_at` is `None` for a path to a list, into a string, or to no member, and if the text is
    # not in canonical form.
    def test_string_at_follows_a_path(self):
        key = spki.canonical(b"(public-key (rsa-pkcs1-sha256 (e #010001#) (n #c000ff#)))")
        self.assertEqual(spki.string_at(key, 1, 2, 1), b"\xc0\0\xff")
        self.assertEqual(spki.string_at(key, 0), b"public-key")
        self.assertEqual(spki.string_at(b"3:abc"), b"abc")
        self.assertEqual(spki.string_at(b"0:"), b"")
        for path in ((), (1,), (1, 3, 1), (0, 0), (2,), (2 ** 64,), (-1,)):
            self.assertIsNone(spki.string_at(key, *path))
        self.assertIsNone(spki.string_at(b"(a)", 0))

    # A failed allocation raises `Refused` with the fault `MEMORY`, and does not mean that no string is there.
    def test_string_without_memory(self):
        with mock.patch.object(spki.library, "spki_string", return_value=_library.NO_MEMORY), self.assertRaises(spki.Refused) as raised:
            spki.string_at(b"3:abc")
        self.assertEqual(raised.exception.fault, "Memory")


class Words(unittest.TestCase):
    def test_words_are_strings(self):
        """A word of a line is a member, and equals its string: in a dictionary, in a text and after a pickle."""
        for member, word in ((spki.Cause.TAG_LACKS, "TagLacks"), (spki.Cause.GRANTS, "grants"), (spki.Fault.BAD_DATE, "BadDate"),
                             (spki.Part.AT, "at")):
            self.assertIs(type(member)(word), member)
            self.assertEqual(({word: 1}.get(member), f"{member}", str(member), member), (1, word, word, word))
            self.assertIs(pickle.loads(pickle.dumps(member)), member)
        self.assertIs(spki.Fault("NotYetKnown"), spki.Fault.OTHER)
        refused = spki.Refused("refused Memory")
        self.assertEqual((refused.part, refused.fault), (None, spki.Fault.MEMORY))


class Libraries(unittest.TestCase):
    def test_only_a_library_of_this_version_is_loaded(self):
        """A library is loaded if the first two numbers of its version are those of this module. Otherwise the error says its version."""
        source = 'const char *spki_version(void) { return "%s"; }'
        for version, is_used in (("0.2.0", True), ("0.2.7", True), ("0.1.0", False), ("1.2.0", False), ("0.20.0", False)):
            with tempfile.TemporaryDirectory() as folder:
                path = os.path.join(folder, "libspki_c.so")
                words = ["cc", "-shared", "-fPIC", "-x", "c", "-", "-o", path]
                try:
                    subprocess.run(words, input=source % version, text=True, check=True)
                except FileNotFoundError:
                    self.skipTest("there is no cc; Debian: gcc")
                if is_used:
                    self.assertIsInstance(_library.load(path), ctypes.CDLL)
                    continue
                with self.assertRaises(ImportError) as raised:
                    _library.load(path)
                self.assertIn(f"has version {version}, and this module needs 0.2", str(raised.exception))
        # (the library of mathematics says no version, like this one before it had versions)
        with self.assertRaises(ImportError):
            _library.load(ctypes.util.find_library("m"))

    def test_a_library_that_is_not_there_is_named(self):
        """If SPKI_LIBRARY names no file, `import spki` fails, and the error names it."""
        done = subprocess.run([sys.executable, "-c", "import spki"], env={**os.environ, "SPKI_LIBRARY": "/nowhere/libspki_c.so"},
                              capture_output=True, text=True)
        self.assertNotEqual(done.returncode, 0)
        self.assertIn("/nowhere/libspki_c.so", done.stderr)


@unittest.skipUnless(importlib.util.find_spec("setuptools"), "there is no setuptools; Debian: python3-setuptools")
class Builds(unittest.TestCase):
    def test_a_build_has_the_library_that_is_named(self):
        """A build has the file that SPKI_LIBRARY names, also if an earlier build in the same folder had another one. After `new` come an older file,
        the word `none`, for which a build has no library, and a file that is not there, for which the build fails."""
        with tempfile.TemporaryDirectory() as folder:
            skipped = shutil.ignore_patterns("build", "*.egg-info", "__pycache__")
            package = shutil.copytree(os.path.dirname(os.path.realpath(__file__)), os.path.join(folder, "python"), ignore=skipped)
            for name, seconds in (("new", 2_000_000_000), ("old", 1_000_000_000)):
                with open(os.path.join(folder, name), "w", encoding="ascii") as file:
                    file.write(name)
                os.utime(file.name, (seconds, seconds))
            for name, wanted in (("new", ["new"]), ("old", ["old"]), ("none", []), ("absent", [])):
                named = name if name == "none" else os.path.join(folder, name)
                words = [sys.executable, "setup.py", "-q", "build_py", "--build-lib", "library"]
                done = subprocess.run(words, cwd=package, env={**os.environ, "SPKI_LIBRARY": named}, capture_output=True, text=True)
                self.assertEqual(done.returncode == 0, name != "absent", done.stderr)
                libraries = Path(package, "library", "spki").glob("*.so")
                self.assertEqual([path.read_text("ascii") for path in libraries], wanted, name)


if __name__ == "__main__":
    unittest.main()
