"""Who decides: the library for C through `bindings/python/spki/`, or the program `spki` where the library is not built.

Both give the same lines. The library takes the parts of a question as separate texts. For the program one case, a text with the whole question, is
written of their canonical forms, so that no part can become another one.
"""
import ctypes
import functools
import hashlib
import os
import shutil
import subprocess
import sys
from typing import NamedTuple

TOP = os.path.realpath(os.path.join(os.path.dirname(os.path.abspath(__file__)), "..", ".."))
LIBRARY = os.path.join(TOP, "crates", "spki_c", "out", "libspki_c.so")
PROGRAM = os.path.join(TOP, "crates", "spki", "out", "spki")
# The program that `tests/run --quick` compiles without a proof.
UNPROVED_PROGRAM = os.path.join(TOP, "tests", "out", "tried", "spki")
# What is said where nothing can decide: the quickest command that changes it. `{}` is the path of `tests/run`.
NOT_BUILT = "nothing that can decide is built: `{} --quick words` compiles the program in a minute or two, and proves nothing; then start this again"
sys.path.append(os.path.join(TOP, "apps", "spki-cert"))
from spki_cert_tool.sexp import canonical, read  # noqa: E402

# In the order of their numbers in spki.h.
COMMANDS = ("canonical", "advanced", "transport", "intersect", "reduce", "check", "explain")
# The limits of a guard on each question. A list is bounded by what the server takes.
MOST_OCTETS, MOST_NODES = 65_536, 1_000_000
# How many texts or questions an engine keeps with its answers, for the next keystroke.
CACHE_SIZE = 32
# The parts of a question besides the access list, in the order in which they are read, each with a text that can be read, in canonical form.
PARTS = {"sequence": b"(8:sequence)", "key": b"(10:public-key(4:test7:anybody))", "request": b"1:a", "at": b"19:2000-01-01_00:00:00"}


class Question(NamedTuple):
    """A question of separate parts, as texts. `words` are the strings of the request, and `at` is the moment, as a string in any form."""

    acl: bytes
    sequence: bytes
    key: bytes
    words: tuple[bytes, ...]
    at: bytes
    is_strict: bool = True
    refused_signatures: tuple[int, ...] = ()
    """The numbers, from 0, of the listed signatures that do not count."""


class Refused(Exception):
    """The library or the program refuses a text: `line` is its line, which begins with `refused`. labels.py raises it with a remark as `line`."""

    def __init__(self, line):
        super().__init__(line)
        self.line = line


class Failed(Exception):
    """The program cannot be run, or ended without an answer."""


class Signed(NamedTuple):
    """A signature on which the decision depends, as canonical texts."""

    key: bytes
    message: bytes
    value: bytes


def string(octets):
    """A string in canonical form, LENGTH:OCTETS, as `3:abc`."""
    return b"%d:%s" % (len(octets), octets)


def request_text(words):
    """The request of the strings `words`, in canonical form: the list of them, or the string if there is one."""
    return string(words[0]) if len(words) == 1 else b"(" + b"".join(map(string, words)) + b")"


class Engine:
    """What both engines have: `command`, which runs a command on one text, and `canonical` and `value`, which return the canonical form of a text and
    its value, and keep them for the next keystroke. An engine also has `name`, for people to read, `limits_memory`, which says whether the memory of
    its process may be limited, `answer`, and for a question `signed` and `lines`."""

    def __init__(self):
        # (functions of a text, which raise `Refused` if it cannot be read)
        self.canonical = functools.lru_cache(CACHE_SIZE)(lambda text: self.command("canonical", text))
        self.value = functools.lru_cache(CACHE_SIZE)(lambda text: read(self.canonical(text)))

    def command(self, name, text):
        """The answer of one of COMMANDS to a text, without the line feed at its end. Raises `Refused`."""
        answer = self.answer(name, text)
        if answer.startswith(b"refused "):
            raise Refused(answer.decode().rstrip("\n"))
        # (`spki` adds no line feed to a canonical form, whose last octet may be a line feed)
        return answer if name == "canonical" else answer.removesuffix(b"\n")


class ByLibrary(Engine):
    """The engine that calls the library for C, in this process. So the memory of this process can be limited."""

    name, limits_memory = "libspki_c.so", True

    def __init__(self):
        """Loads the library: that which SPKI_LIBRARY names, else the built one, else that which the package `spki` finds. Raises `ImportError` or
        `OSError` if it is not there."""
        super().__init__()
        if "SPKI_LIBRARY" not in os.environ and os.path.exists(LIBRARY):
            os.environ["SPKI_LIBRARY"] = LIBRARY
        sys.path.append(os.path.join(TOP, "bindings", "python"))
        import spki
        self.spki = spki
        # (the function of the library that the package has loaded, with the types of its arguments)
        self.spki_answer = spki.library.spki_answer
        # (the guards of the last two lists stay open, so that a keystroke in another box opens none)
        self.guard = functools.lru_cache(2)(self.open_guard)

    def answer(self, name, text):
        """The octets that the program `spki` would write for a text that it gets with the command `name`."""
        # (`spki_answer` sets `needed` to how many octets it needs, and is called again if there was less room. At first that is a guess)
        needed, room = ctypes.c_size_t(MOST_OCTETS), b""
        while len(room) < needed.value:
            room = ctypes.create_string_buffer(needed.value)
            self.spki_answer(COMMANDS.index(name), text, len(text), room, len(room), ctypes.byref(needed))
        return room.raw[:needed.value]

    def open_guard(self, acl, is_strict):
        """The guard of an access list, a text: an object that answers questions by it. Raises the library's `Refused`."""
        # (for certificates and strings the same number is as good as no limit, since their octets are bounded already)
        return self.spki.Guard(acl, self.spki.Policy.STRICT if is_strict else self.spki.Policy.ALLOW_SHA1,
                               self.spki.Limits(octets=MOST_OCTETS, certificates=MOST_OCTETS, words=MOST_OCTETS, nodes=MOST_NODES))

    def ask(self, question, use):
        """Opens a question (`Question`), calls the function `use` with the opened one, an object of the package `spki`, and returns what it returns.
        Raises `Refused`. The key counts as proven: nobody is let in here."""
        key = self.spki.ProvenKey.assume(question.key)
        parts = self.spki.Question(question.sequence, key, words=question.words, moment=question.at)
        try:
            with self.guard(question.acl, question.is_strict).ask(parts) as asked:
                return use(asked)
        except self.spki.Refused as why:
            raise Refused(why.line) from None

    def signed(self, question):
        """The signatures on which the decision depends, each a `Signed`, in the order of the certificates. Raises `Refused`."""
        return self.ask(question, lambda asked: [Signed(signature.key, signature.message, signature.value) for signature in asked.signatures()])

    def lines(self, question, command):
        """The lines of the command `check`, `explain` or `reduce` for a question. Raises `Refused`."""
        def mark_and_answer(asked):
            """Marks the signatures of an opened question that count as valid. Returns what its method for the command returns: for `check` that is
            `decide`, and otherwise the method of the command's name."""
            for place in range(len(asked)):
                if place not in question.refused_signatures:
                    asked.mark(place)
            return getattr(asked, "decide" if command == "check" else command)()

        answer = self.ask(question, mark_and_answer)
        if command == "check":
            return [f"yes entry {answer.entry}" if answer else "no"]
        return str(answer).split("\n")


class ByProgram(Engine):
    """The engine that runs the program `spki`, at a path, for each answer. No limit is set on the memory of the program."""

    limits_memory = False

    def __init__(self, program):
        super().__init__()
        self.program = program
        # (`__main__.py` prints ` decides` behind the name)
        self.name = "spki (compiled without proofs)" if program == UNPROVED_PROGRAM else "spki"
        # (a function of a question without `refused_signatures`, which do not matter for it)
        self.all_signed = functools.lru_cache(CACHE_SIZE)(self.list_signed)

    def answer(self, name, text):
        """The octets that the program writes for a text that it gets with the command `name`. Raises `Failed`."""
        try:
            ended = subprocess.run([self.program, name], input=text, stdout=subprocess.PIPE, stderr=subprocess.DEVNULL)
        except OSError as why:
            raise Failed(f"The program cannot be run: {why.strerror}.") from None
        # (the status is 0 for a yes or another answer, 1 for a no, and 2 for a refusal)
        if ended.returncode not in (0, 1, 2) or not ended.stdout:
            raise Failed(f"The program ended with status {ended.returncode} and no answer.")
        return ended.stdout

    def parts(self, question):
        """The canonical forms of the list, the sequence, the key, the request and the moment. Raises `Refused`. A fault of the form in another part
        than the list is named after this part, as a guard names it."""
        acl = self.canonical(question.acl)
        texts = (question.sequence, question.key, request_text(question.words), question.at)
        if sum(map(len, texts)) > MOST_OCTETS:
            raise Refused("refused question TooLong")
        canonical_texts = []
        for name, text in zip(PARTS, texts):
            try:
                canonical_texts.append(self.canonical(text))
            except Refused as why:
                # (a guard reads the parts one after the other, so a wrong value in an earlier part is refused first. `check` looks for that, with
                # texts of PARTS, which can be read, in place of this part and the later ones)
                readable = list(PARTS.values())[len(canonical_texts):]
                self.command("check", case_text(acl, *canonical_texts, *readable, accepted=(), is_strict=question.is_strict))
                raise Refused(why.line.replace(" form ", f" {name} ", 1)) from None
        return acl, *canonical_texts

    def signed(self, question):
        """The signatures as `list_signed` returns them, of which those of some questions are kept. Raises `Refused`."""
        return self.all_signed(question._replace(refused_signatures=()))

    def list_signed(self, question):
        """The signatures on which the decision depends, in the order of the certificates, up to the first that has a fault: its issuer's key is not
        shown, or its digest or signer is another one. Raises `Refused`."""
        # (raises `Refused` if a part is wrong, so what follows may take the parts apart)
        self.answer_of_case(question, accepted=())
        # (an operation `(do ..)` may be between a certificate and its signature)
        items, signatures = [item for item in self.value(question.sequence)[1:] if item[0] != b"do"], []
        keys = [item for item in items if item[0] == b"public-key"]
        # (each item with the next one: that of a certificate is its signature)
        for certificate, signature in zip(items, items[1:]):
            if certificate[0] != b"cert":
                continue
            signed = signed_by(certificate, signature, keys, question.is_strict)
            if signed is None:
                break
            signatures.append(signed)
        return signatures

    def answer_of_case(self, question, accepted, command="check"):
        """The answer of a command to the case of a question, in which the signatures `accepted`, each a `Signed`, are valid. Raises `Refused`."""
        case = case_text(*self.parts(question), accepted, question.is_strict)
        return self.command(command, case).decode()

    def lines(self, question, command):
        """The lines of the command `check`, `explain` or `reduce` for a question. Raises `Refused`."""
        accepted = [signed for place, signed in enumerate(self.signed(question)) if place not in question.refused_signatures]
        return self.answer_of_case(question, accepted, command).split("\n")


def signed_by(certificate, signature, keys, is_strict):
    """The signature of a certificate, as `Signed`, if the key of its issuer is shown, and the digest and the signer are right. None otherwise.
    Certificate, signature and `keys`, which are those of the sequence, are values: a list is a `list`, and a string is `bytes`."""
    issuer = next(field[1] for field in certificate[1:] if field[0] == b"issuer")
    key, message = key_of(issuer[1] if issuer[0] == b"name" else issuer, keys, is_strict), canonical(certificate)
    # (`(signature (hash ALGORITHM DIGEST ..) SIGNER VALUE)`)
    _, (_, algorithm, digest, *_), signer, value = signature
    is_right = key is not None and hashlib.new(algorithm.decode(), message).digest() == digest and names(signer, key, is_strict)
    return Signed(canonical(key), message, canonical(value)) if is_right else None


def key_of(principal, keys, is_strict):
    """The key that a principal names: itself, or for a hash the first of `keys` that it names. None if there is none."""
    if principal[0] == b"public-key":
        return principal
    return next((key for key in keys if names(principal, key, is_strict)), None)


def names(principal, key, is_strict):
    """Whether a principal names a key. Under the strict policy no hash by SHA-1 does."""
    if principal[0] == b"public-key":
        return principal == key
    is_allowed = principal[1] != b"sha1" or not is_strict
    return is_allowed and hashlib.new(principal[1].decode(), canonical(key)).digest() == principal[2]


def accepted_row(signed):
    """The row `(by KEY (hash sha256 DIGEST) VALUE)` of the part `accepted` of a case, which says that this `Signed` is valid."""
    return b"(2:by" + signed.key + b"(4:hash6:sha256" + string(hashlib.sha256(signed.message).digest()) + b")" + signed.value + b")"


def case_text(acl, sequence, key, request, at, accepted, is_strict):
    """The text of the case that has these parts, all in canonical form. `accepted` are the signatures that are valid in it, as `Signed`: one that is
    there twice gets one row. Without `is_strict` hashes by SHA-1 name keys too."""
    rows = b"".join(dict.fromkeys(map(accepted_row, accepted)))
    policy = b"(6:policy6:strict)" if is_strict else b""
    return (b"(4:case" + acl + b"(8:accepted" + rows + b")" + sequence + b"(3:key" + key + b")(7:request" + request + b")(2:at" + at + b")"
            + policy + b")")


def find_program():
    """The path of the program, or None: the built one, the installed one, or the one without proofs. The variable SPKI_PROGRAM of the
    environment names another than these."""
    if "SPKI_PROGRAM" in os.environ:
        return shutil.which(os.environ["SPKI_PROGRAM"])
    return shutil.which(PROGRAM) or shutil.which("spki") or shutil.which(UNPROVED_PROGRAM)


def choose_engine(wanted):
    """The engine that is `wanted`, "library" or "program". For None it is the library where it can be loaded, else the program. Raises `LookupError`
    if it is not there: its text says how to build it, or that SPKI_PROGRAM names none."""
    if wanted != "program":
        try:
            return ByLibrary()
        except (ImportError, OSError):
            if wanted == "library":
                raise LookupError("libspki_c.so is not found: build it by crates/spki_c/archive.py, or name it in SPKI_LIBRARY") from None
    path = find_program()
    if path is None and "SPKI_PROGRAM" in os.environ:
        raise LookupError(f"SPKI_PROGRAM names no program: {os.environ['SPKI_PROGRAM']}")
    if path is None:
        raise LookupError(NOT_BUILT.format(os.path.relpath(os.path.join(TOP, "tests", "run"))))
    return ByProgram(path)
