"""Runs apps/locate, which shows where a refused text has its mistake, and compares what it shows.

First on texts with one mistake each: whole texts, and parts of a question to a guard. They are written out here with the place, by line and column,
and with words of the remark that it should show. It must show each place once. Then on each row of the tables in `tables/`, and on generated texts
and parts, whose answers the model has. It must find the refusal that is the answer there, and none if there is another answer, or if the answer is
`TooLarge` or `Memory`, which have no place. A fault has a place (`at`), and may have others, such as where the item begins that has the fault."""
import contextlib
import io
import os
import random
import re
import subprocess
import sys
import tempfile
import unittest
from collections.abc import Callable, Iterator
from unittest import mock

from generators.asked import Question
from generators.guards import guard_question
from generators.questions import question
from harness.support import COMMANDS, TOP, loaded, tables_here
from model import guard, structures, tags
from model.answers import Refused, answer
from rows import Row, rows_of

PATH = os.path.join(TOP, "apps", "locate")
GENERATED, SEED = 150, "locate"  # (how many texts are generated, and from what)
# The beginning of a refusal, by which `locate` reads a text as a command does. The other commands read any value: `refused form`.
READ_AS = {"intersect": "refused tag", "check": "refused case", "explain": "refused case", "reduce": "refused case"}
KEY = "(public-key (test a))"
HASH = f"(hash sha256 #{'00' * 32}#)"
CERT = f"(cert\n (issuer {KEY})\n (subject {KEY})\n (tag ftp)\n FIELD)"
CASE = f'(case (acl (entry {KEY} (tag ftp)))\n (accepted)\n (sequence {KEY} {KEY}\n CERT (signature {HASH} {KEY} sig))\n' \
       f' (key {KEY}) (request ftp) (at "2024-01-01_00:00:00"))'


def with_certificate(text):
    """The text of a case that has this text in the place of its certificate."""
    return CASE.replace("CERT", text)


def with_field(field):
    """The text of a case whose certificate has this text as its last field."""
    return with_certificate(CERT.replace("FIELD", field))


# Texts that are whole: the text, the words of the refusal behind `refused`, the place as line and column, and words of the remark.
MISTAKES = [
    ("(a\n ~)", "form Bad 4", (2, 2), "a member or `)`"), ("(a 2024-01-01)", "form Bad 7", (1, 4), "put quotes around"),
    ('(a "\\q")', "form Bad 5", (1, 6), "no escape"), ("#616#", "form Bad 4", (1, 5), "odd"),
    ("(a)\n(b)", "form Trailing 4", (2, 1), "a text is one value"), ("(a\n (b c", "form Short", (2, 6), "not closed"),
    ('(a "b', "form Short", (1, 4), "string is not whole"), ("(9:abc)", "form Short", (1, 8), "9 octets"),
    ("", "form Short", (1, 1), "the file is empty"), ("(" * 65, "form TooDeep", (1, 65), "65th list"),
    ("{KDE6YSk=", "form Short", (1, 10), "before `}`"),
    (with_field('(not-afer "2024-01-01_00:00:00")'), "sequence 3 Shape", (8, 2), "`not-after` meant"),
    (with_field("(tag x)"), "sequence 3 Shape", (8, 2), "a second time"),
    (with_certificate(f"(cert (issuer {KEY}) (subject {KEY}))"), "sequence 3 Shape", (4, 2), "`(tag ..)` is missing"),
    (with_certificate(f"(cert (issuer {KEY}) (tag x))"), "sequence 3 Shape", (4, 2), "`(subject ..)` is missing"),
    (with_field("(propagate yes)"), "sequence 3 Shape", (8, 13), "too many"),
    (with_field('(not-after "2024-01-01_00:00:00") (valid)'), "sequence 3 Shape", (8, 2), "`(valid ..)` too"),
    (with_certificate(f"(cert (issuer (name {KEY} n)) (subject {KEY}) (tag x))"), "sequence 3 Shape", (4, 80), "defines a name"),
    (with_certificate(f"(cert (issuer (key a)) (subject {KEY}) (tag x))"), "sequence 3 Shape", (4, 16),
     "must be `(public-key ..)` or `(hash ..)`, but is `(key ..)`"),
    (CASE.replace("(tag ftp)", "(taag ftp)", 1).replace("CERT", KEY), "acl 1 Shape", (1, 41), "`tag` meant"),
    (with_certificate(KEY).replace("(accepted)", f"(accepted (by {KEY} {HASH}))"), "accepted 1 Shape", (2, 118), "is missing"),
    (with_certificate(KEY).replace('"2024-01-01_00:00:00"', '"2024-13-01_00:00:00"'), "sequence 4 StraySignature", (4, 24), "no certificate"),
    ("(intersect (* range numeric) a)", "tag 1 RangeOrdering", (1, 21), "`alpha`, `time` or `date`"),
    ("(intersect (* range dates) a)", "tag 1 RangeOrdering", (1, 21), "is `date` meant?"),
    ("(intersect (* prefx a) b)", "tag 1 UnknownStar", (1, 15), "is `prefix` meant?"),
    (with_certificate(KEY).replace("(entry", "(entri"), "acl 1 Shape", (1, 12), "is `entry` meant?"),
    (with_field("").replace("(cert", "(certt"), "sequence 3 Shape", (4, 2), "is `cert` meant?"),
    (with_certificate(KEY).replace("(accepted)", "(acepted)"), "case Shape", (2, 2), "is `accepted` meant?"),
    (with_certificate(KEY).replace(':00"))', ':00") (policy open))'), "case Shape", (5, 71), "leave it out"),
    (with_certificate(KEY).replace(':00"))', ':00") (polisy strict))'), "case Shape", (5, 71), "is `policy` meant?")]

# Parts of a question to a guard, access lists, and a case that is read as such although a part's refusal is given: the text, the words of the refusal
# that `locate` is given or none, the refusal that it must show, the place as line and column, and words of the remark.
SIGNED = f"(signature {HASH} {KEY} sig)"
OF_PARTS = [
    (f"(acl\n (entry {KEY} (tag a))\n (entry {KEY}\n (taag a)))", "", "acl 2 Shape", (4, 2), "`tag` meant"),
    ('(acl (version "1"))', "", "acl 0 UnknownVersion", (1, 15), "version is 0"),
    ("(acl\n ~)", "form Bad 6", "form Bad 6", (2, 2), "a member or `)`"),
    ("(ack)", "acl 0 Shape", "acl 0 Shape", (1, 1), "must be `(acl ..)`, but is `(ack ..)`; is `acl` meant?"),
    (f"(sequence {KEY}\n (cert (issuer {KEY}) (subject {KEY}) (tag ())))", "", "sequence 2 Tag EmptyList", (2, 76), "has members"),
    (f"(sequence {SIGNED})", "sequence 1 StraySignature", "sequence 1 StraySignature", (1, 11), "no certificate"),
    (f"(sequence\n (cert (issuer {KEY}) (subject {KEY}) (tag a)))", "", "sequence 1 UnsignedCert", (2, 2), "no signature"),
    ("(sequence (do hash sha265))", "", "sequence 1 HashAlg", (1, 20), "is `sha256` meant?"),
    ("(sequenze)", "sequence 0 Shape", "sequence 0 Shape", (1, 1), "must be `(sequence ..)`, but is"),
    (KEY, "sequence 0 Shape", "sequence 0 Shape", (1, 1), "must be `(sequence ..)`, but is"),
    ("(seq ~)", "sequence Bad 5", "sequence Bad 5", (1, 6), "a member or `)`"), ("{KDE6YQ", "sequence Short", "sequence Short", (1, 8), "before `}`"),
    ("(public-key (test a)\n (uri))", "", "key KeyUris", (2, 2), "no `(uri ..)`"),
    ("(public-key test)", "key Shape", "key Shape", (1, 13), "name of an algorithm"),
    ("(hash sha1 x)", "key Shape", "key Shape", (1, 1), "must be `(public-key ..)`, but is `(hash ..)`"),
    ("(public-key (test a)", "key Short", "key Short", (1, 21), "not closed"),
    ("(ftp\n ())", "request EmptyList", "request EmptyList", (2, 2), "has members"),
    ("(ftp (* a))", "request StarInRequest", "request StarInRequest", (1, 7), "does not begin with `*`"),
    ("(sequence (a) ((b)))", "request ListHead", "request ListHead", (1, 16), "is a string"),
    ("[text]ftp", "request Hint", "request Hint", (1, 1), "display hint"), ("(" * 65, "request TooDeep", "request TooDeep", (1, 65), "65th list"),
    ('"2024-13-01_00:00:00"', "at BadDate", "at BadDate", (1, 1), "in UTC"),
    ('"2024-01-01_00:00:00" x', "at Trailing 22", "at Trailing 22", (1, 23), "a text is one value"),
    (f"(accepted (by {KEY} {HASH}))", "rows 1 Shape", "rows 1 Shape", (1, 117), "is missing"),
    ("(accepted ~)", "rows Bad 10", "rows Bad 10", (1, 11), "a member or `)`"),
    (with_certificate(KEY), "request EmptyList", "sequence 4 StraySignature", (4, 24), "another refusal")]
# A text, the words of the refusal that is given or none, the exit status, and words that are printed.
STATUSES = [
    ("(a)", "", 0, "nothing is wrong with the form"), ("(a ~)", "", 1, "refused form Bad 3"), ("(a ~)", "form Short", 2, "another refusal"),
    ("(a)", "sequence Bad 5", 2, "of another text"), ("(sequence)", "question TooLong", 0, "no place in it"),
    (KEY, "TooLarge", 0, "no place in it"), ("(acl)", "Memory", 0, "no place in it")]
# The readers of the parts in the model.
MODEL = {"sequence": structures.read_sequence, "key": structures.read_key, "request": tags.read_request, "at": structures.read_date}
GUARD_QUESTIONS = 600  # (how many questions have their parts tried)
# The offset of a place that is shown.
PLACE = re.compile(r"^(?:line \d+, column \d+, )?octet (\d+)", re.MULTILINE)
LOCATE = loaded(PATH)


def locate(text, refusal):
    """Runs `locate` on a file with a text, with `refused` and `refusal` behind its name unless that is empty. Returns status and standard output."""
    with tempfile.NamedTemporaryFile() as file, contextlib.redirect_stdout(io.StringIO()) as out:
        file.write(text.encode())
        file.flush()
        with mock.patch.object(sys, "argv", ["locate", file.name, *(["refused", *refusal.split()] if refusal else [])]):
            return LOCATE.main(LOCATE.__doc__ or ""), out.getvalue()


def has_no_place(answer):
    """Whether the answer of a command (bytes) is a refusal for which `locate` shows no place."""
    return answer in (b"refused TooLarge\n", b"refused Memory\n")


def show_places(wrong, inner, places):
    """Has `locate` show each place of the fault `wrong`, unless it is None. It must not raise. `inner` is the text in which the places are. Of a text
    in braces this is the text inside, and `places` are the offsets of its octets in the file. For any other text `places` is None."""
    for at, _ in [(wrong.at, wrong.why), *wrong.others] if wrong else []:
        LOCATE.place_shown(inner, places, at)


def refusal_of_part(name, text):
    """The line by which the model refuses a part of a question, or None if it accepts it. `name` is `acl` or a key of MODEL. `text` has octets."""
    try:
        if name == "acl":
            guard.open_guard(text, strict=False, limits=guard.USUAL)
        else:
            guard.part(name, MODEL[name], text)
    except Refused as why:
        return f"refused {why}"
    return None


class Refusals(unittest.TestCase):
    """The refusals and places that `locate` finds in texts, and its exit statuses."""

    def check_mistake(self, text: str, refusal: str, wanted: str, place: tuple[int, int], words: str) -> None:
        """`locate`, run with a refusal or none, must show the refusal `wanted` at a line and column, with these words, and no place twice."""
        output = locate(text, refusal)[1]
        first_place, offsets = output.split("\n")[1] if "\n" in output else "", PLACE.findall(output)
        is_right = f"refused {wanted}\n" in output and first_place.startswith(f"line {place[0]}, column {place[1]},") and words in output
        if not is_right or len(set(offsets)) < len(offsets):
            self.fail(f"text   {text!r}, given {refusal!r}\nexpected {wanted} at line {place[0]}, column {place[1]}, {words}\nactual   {output}")

    def check_refusal(self, place: str, command: str, text: bytes, wanted: tuple[int, bytes]) -> None:
        """`locate` must find the refusal that a command answers to a text. It must find none if the command answers otherwise, or by a refusal that
        has no place. `wanted` is the command's status and answer, and `place` names the text."""
        (wrong, inner, places), _ = LOCATE.read_text(text, READ_AS.get(command, "refused form"))
        located = f"{LOCATE.refusal(wrong, places)}\n".encode() if wrong else b""
        show_places(wrong, inner, places)
        status, answer = wanted
        refusal = answer if status == 2 and not has_no_place(answer) else b""
        self.assertEqual(located, refusal, f"{place}: {command}\ntext   {text[:1000]!r}\nexpected {refusal!r}\nactual   {located!r}")

    def test_statuses(self) -> None:
        """The status is 1 if the text is refused, else 0; but 2 if the given refusal is another, or has a place and the text is not refused."""
        for text, refusal, wanted, words in STATUSES:
            with self.subTest(text):
                status, output = locate(text, refusal)
                self.assertTrue(status == wanted and words in output, f"{text!r}, given {refusal!r}: status {status}, wanted {wanted}: {output}")

    def test_lines_that_cannot_be_written(self) -> None:
        """On a full disk the status is 2, and not 1 as for a place that is shown: here one in the tool's own source."""
        with open("/dev/full", "wb") as full:
            self.assertEqual(subprocess.run([PATH, PATH], stdout=full, stderr=subprocess.DEVNULL, timeout=60).returncode, 2)

    def test_generated_texts(self) -> None:
        for number in range(GENERATED):
            generated = question(SEED, number)
            # (the others are questions to a guard, or are for other calls than the program's commands)
            if isinstance(generated, Question) and generated.command in COMMANDS:
                with self.subTest(number):
                    self.check_refusal(f"case {number}", generated.command, generated.text, answer(generated.command, generated.text))

    def test_generated_parts(self) -> None:
        """`locate` must find the model's refusal of each part of a question. It is given this refusal, or the part's name if there is none."""
        for number in range(GUARD_QUESTIONS):
            generated = guard_question(random.Random(f"{SEED}/{number}"))
            parts = {"acl": generated.acl, "sequence": generated.sequence, "key": generated.key, "request": generated.request, "at": generated.moment}
            for name, text in parts.items():
                with self.subTest(number, part=name):
                    wanted = refusal_of_part(name, text)
                    (wrong, inner, places), _ = LOCATE.read_text(text, wanted or f"refused {name}")
                    show_places(wrong, inner, places)
                    self.assertEqual(LOCATE.refusal(wrong, places) if wrong else None, wanted, f"question {number}, {name}: {text!r}")


def mistake_test(text: str, refusal: str, wanted: str, place: tuple[int, int], words: str) -> Callable[[Refusals], None]:
    """A test method that calls `check_mistake` with these arguments."""
    return lambda self: self.check_mistake(text, refusal, wanted, place, words)


def row_test(row: Row) -> Callable[[Refusals], None]:
    """A test method that calls `check_refusal` with a row of a table."""
    return lambda self: self.check_refusal(row.place, row.command, row.text, (row.status, row.answer))


def tests_of_mistakes() -> Iterator[tuple[str, Callable[[Refusals], None]]]:
    """Yields the name and the method of a test for each row of MISTAKES and of OF_PARTS."""
    for number, (text, wanted, place, words) in enumerate(MISTAKES, 1):
        yield f"test_mistake:text:{number}", mistake_test(text, "", wanted, place, words)
    for number, part in enumerate(OF_PARTS, 1):
        yield f"test_mistake:part:{number}", mistake_test(*part)


def tests_of_tables() -> Iterator[tuple[str, Callable[[Refusals], None]]]:
    """Yields the name and the method of a test for each row of the tables."""
    for table in tables_here():
        for row in rows_of(table):
            yield f"test_locate:{row.place}:{row.command}", row_test(row)


for name, each in [*tests_of_mistakes(), *tests_of_tables()]:
    setattr(Refusals, name, each)
