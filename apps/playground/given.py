"""A question as the page sent it, in boxes or as one case: how it is asked, and where a box is refused. A box has one text of the question: the
access list, the sequence, the key, the request or the moment. A case is one text with all of them."""
import functools
import hashlib

from completion import VALUE, with_signatures
from engine import Question, Refused, case_text, request_text, string
from place import heads_in, with_certificate_numbers, places, places_for_page, utf16_length
from spki_cert_tool.sexp import canonical, on_one_line, read

BOXES = ("acl", "sequence", "key", "request", "at")
# The most letters of a certificate that is shown under the pointer, and of an intersection.
MOST_LETTERS = 4000


def text(sent, name):
    """The field `name` of the object that the page sent, if it is a string, else an empty string."""
    value = sent.get(name)
    return value if isinstance(value, str) else ""


def members(sent, name, kind, wanted):
    """The members of the list that is the field `name` of the object that the page sent, as a tuple. It is empty if the field is not there, or
    null. Raises `Refused` for what is no list, or if a member is not of the type `kind`. Its text says what is `wanted`, as "a list of strings"."""
    value = sent.get(name)
    if value is None:
        value = []
    # (`type(..) is`, since by `isinstance` True is an `int`)
    if not isinstance(value, list) or any(type(member) is not kind for member in value):
        raise Refused(f"refused: the field `{name}` must be {wanted}")
    return tuple(value)


def words_of(sent):
    """The strings of the request of the object that the page sent, as octets: none if it has no request. What is no character becomes `?`. Raises
    `Refused` if the request is no list of strings."""
    return tuple(word.encode(errors="replace") for word in members(sent, "request", str, "a list of strings"))


def id_of(signed):
    """A name for a signature, a `Signed`: the same for no other key, message or value."""
    # (canonical texts, none of which begins another one)
    return hashlib.sha256(b"".join(signed)).hexdigest()


def is_test(signed):
    """Whether the key of a signature, a `Signed`, is a made-up one, `(public-key (test ..))`."""
    return signed.key.startswith(b"(10:public-key(4:test")


class SentQuestion:
    """A question of separate boxes, as octets. `sent` is the object that the page sent, whose fields may have wrong types: a text that is no string
    counts as empty, and for a list of another type the class raises `Refused`. `sequence` is a `SignedText`, which has the signatures that the page
    made up too. Methods that ask the engine raise `Refused`."""

    def __init__(self, engine, sent):
        """`engine` is the `Engine` that decides. Raises `Refused` as the class says."""
        self.engine, self.box = engine, {name: text(sent, name).encode(errors="replace") for name in ("acl", "sequence", "key", "at")}
        self.words, self.refused = words_of(sent), members(sent, "refused", int, "a list of whole numbers")
        self.accepted = members(sent, "accepted", str, "a list of strings")
        self.sequence = with_signatures(engine, self.box["sequence"])
        self.with_all = Question(self.box["acl"], self.sequence.text, self.box["key"], self.words, string(self.box["at"]),
                                 sent.get("strict") is not False)

    @functools.cached_property
    def question(self):
        """The question, with the places of the signatures that do not count. Raises `Refused`."""
        signed = enumerate(self.engine.signed(self.with_all))
        return self.with_all._replace(refused_signatures=tuple(place for place, each in signed if not self.counts(place, each)))

    def counts(self, place, signed):
        """Whether the signature at a place, a `Signed`, counts: it is accepted, or of a made-up key and not refused. Nobody here verifies one of a
        real key."""
        return id_of(signed) in self.accepted or is_test(signed) and place not in self.refused

    def values(self):
        """The access list, the sequence, the key, the request and the moment, as values: a string is `bytes`, and a list a `list`. A request of one
        string is this string."""
        value, question = self.engine.value, self.with_all
        request = self.words[0] if len(self.words) == 1 else list(self.words)
        return value(question.acl), value(question.sequence), value(question.key), request, self.box["at"]

    def check(self):
        """The line of the decision: `yes entry N` or `no`. Raises `Refused` as `lines` does."""
        return self.engine.lines(self.question, "check")[0]

    def lines(self, command):
        """The lines that the command `check`, `explain` or `reduce` answers to this question. Raises `Refused` if it is refused."""
        return self.engine.lines(self.question, command)

    def reduce_items(self, items):
        """The lines of `reduce`, which say what right is left of each entry, if the sequence had only these items, which are values."""
        return self.engine.lines(self.question._replace(sequence=canonical([b"sequence", *items])), "reduce")

    def signatures(self, labels):
        """The signatures on which the decision depends, as the page lists them, each a dictionary: who signed, the certificate, cut at MOST_LETTERS,
        whether the page made the signature up, and whether it counts. `id` names it, and `isTest` says whether its key is a made-up one. `labels`, a
        `Labels`, learns the keys of the certificates."""
        listed = []
        for place, signed in enumerate(self.engine.signed(self.with_all)):
            # (the message that is signed is the certificate)
            certificate = read(signed.message)
            labels.learn(certificate)
            listed.append({"by": labels.name_of(read(signed.key)), "says": on_one_line(certificate)[:MOST_LETTERS],
                           "madeUp": signed.value == string(VALUE), "counts": self.counts(place, signed), "id": id_of(signed),
                           "isTest": is_test(signed)})
        return listed

    def faults_by_box(self, line):
        """What is shown at the box that the refusal `line` is about, with its places there, in a dictionary by the name of that one box. Empty if the
        refusal is about no box."""
        # (the word after `refused`, as in `refused sequence 3 Shape`)
        word = line.split()[1]
        # (a fault of the form that is named after no part is one of the access list)
        name = "acl" if word == "form" else word
        if name not in BOXES:
            return {}
        if name in ("request", "at"):
            return {name: self.fault_of_words(name, line)}
        octets = self.sequence.text if name == "sequence" else self.box[name]
        in_box = places(octets, line)
        if name == "sequence":
            in_box = [(self.sequence.offset_as_typed(at), with_certificate_numbers(why, self.heads)) for at, why in in_box]
        return {name: {"line": line, "shown": self.line_for_page(line), "places": places_for_page(self.box[name], in_box)}}

    @functools.cached_property
    def heads(self):
        """The words that the items of the sequence begin with, as octets. None for a signature that the page made up."""
        # (a signature that is added begins with a space)
        return heads_in(self.sequence.text, [at + 1 for at, _ in self.sequence.added])

    def line_for_page(self, line):
        """The line of a refusal as the page writes it: a certificate has its number among the certificates, and not among all items."""
        return with_certificate_numbers(line, self.heads)

    def fault_of_words(self, name, line):
        """What is shown at the box `name`, `request` or `at`, for the refusal `line`. What is typed there is no S-expression, so its whole first line
        is the place."""
        typed = self.box["at"] if name == "at" else b"\n".join(self.words)
        if name == "at":
            why = f"{'this is no moment' if typed else 'the moment is missing'}; choose a date and a time of day, in UTC"
        elif self.words:
            why = next((remark for _, remark in places(request_text(self.words), line)), "")
        else:
            why = "a request has at least one string"
        first = typed.split(b"\n")[0]
        place = {"begin": 0, "end": utf16_length(first.decode(errors="replace")), "line": 1, "column": 1, "why": why}
        return {"line": line, "places": [place]}

    def case(self):
        """The question as a case, which is one text for the program."""
        question = self.question
        accepted = [signed for place, signed in enumerate(self.engine.signed(self.with_all)) if place not in question.refused_signatures]
        parts = map(self.engine.canonical, (question.acl, question.sequence, question.key))
        return case_text(*parts, request_text(self.words), question.at, accepted, question.is_strict)


class SentCase:
    """A whole case in one box, with those methods of `SentQuestion` by which `asking.py` decides, explains and refuses it. `engine` is the `Engine`
    that decides, and `sent` the object that the page sent: its field `text` is the case. Methods that ask the engine raise `Refused`."""

    def __init__(self, engine, sent):
        self.engine, self.octets = engine, text(sent, "text").encode(errors="replace")

    def values(self):
        """The access list, the sequence, the key, the request and the moment of the case, as values: a string is `bytes`, and a list a `list`."""
        # (a case is `(case ACL (accepted ..) (sequence ..) (key KEY) (request REQUEST) (at MOMENT) ..)`)
        case = self.engine.value(self.octets)
        return case[1], case[3], case[4][1], case[5][1], case[6][1]

    def check(self):
        """The line of the decision: `yes entry N` or `no`. Raises `Refused` as `lines` does."""
        return self.lines("check")[0]

    def lines(self, command):
        """The lines that the command `check`, `explain` or `reduce` answers to the case. Raises `Refused` if it is refused."""
        return self.engine.command(command, self.octets).decode().split("\n")

    def reduce_items(self, items):
        """The lines of `reduce`, which say what right is left of each entry, if the sequence of the case had only these items, which are values."""
        case = self.engine.value(self.octets)
        # (the sequence is member 3 of a case)
        return self.engine.command("reduce", canonical([*case[:3], [b"sequence", *items], *case[4:]])).decode().split("\n")

    @functools.cached_property
    def heads(self):
        """The words that the items of the sequence begin with, as octets."""
        return heads_in(self.octets)

    def line_for_page(self, line):
        """The line of a refusal as the page writes it: a certificate has its number among the certificates, and not among all items."""
        return with_certificate_numbers(line, self.heads)

    def faults_by_box(self, line):
        """What is shown at the box of the case for the refusal `line`, with its places there, in a dictionary by the name of the box."""
        in_box = [(at, with_certificate_numbers(why, self.heads)) for at, why in places(self.octets, line)]
        return {"case": {"line": line, "shown": self.line_for_page(line), "places": places_for_page(self.octets, in_box)}}
