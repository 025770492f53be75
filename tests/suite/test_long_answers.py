"""Counts the calls of the library that Go, Rust, Python and C++ make for long answers: one for each `explain` and each `reduce`, by the usual
limits and by the highest. The library is that of `counted.c`, and the answers are those of the program."""
import hashlib
import os
import pickle
import subprocess
import sys

from harness import golang, needs
from harness.support import CARGO, TESTS, canonical, output_of, room_for, text_of
from suite import test_bindings
from suite.test_bindings import CRATE, PYTHON, SECONDS, Asked

# The calls that `counted.c` counts. The last, which would take a whole case, must not be made. 6 is the status SPKI_DONE.
NAMES = ("spki_asked_explain", "spki_asked_reduce", "spki_answer")
ENTRIES, KEY_OCTETS, DONE = 900, 4000, 6  # (as many as make the answers as long as test_the_answers_are_long says)
ISSUER, AT = [b"public-key", [b"test", b"a"]], b"2024-01-01_00:00:00"
# A program that answers the pickled questions of its standard input by the module `spki` in the folder of its argument.
BY_PYTHON = "import pickle, sys; sys.path.append(sys.argv[1]); import spki; from suite import test_bindings; sys.stdout.buffer.write(pickle.dumps(" \
            "[test_bindings.answered_by_python(spki, each) for each in pickle.load(sys.stdin.buffer)]))"


def case_of(subject, items, rows):
    """The text of a case (an access list and a question), whose list has ENTRIES equal entries. `subject` is the key that asks, `items` are the
    certificates and signatures shown, `rows` the accepted signatures. Each is an S-expression in lists of octets."""
    entry = [b"entry", ISSUER, [b"propagate"], [b"tag", [b"ftp"]]]
    return canonical([b"case", [b"acl", *[entry] * ENTRIES], [b"accepted", *rows], [b"sequence", *items], [b"key", subject], [b"request", b"ftp"],
                      [b"at", AT], [b"policy", b"strict"]])


def case_with_long_key():
    """The text of a case whose answers have the subject's key, of KEY_OCTETS and more, once for each entry."""
    subject = [b"public-key", [b"test", b"k" * KEY_OCTETS]]
    certificate = [b"cert", [b"issuer", ISSUER], [b"subject", subject], [b"tag", [b"*"]]]
    digest = [b"hash", b"sha256", hashlib.sha256(canonical(certificate)).digest()]
    return case_of(subject, [certificate, [b"signature", digest, ISSUER, b"sig"]], [[b"by", ISSUER, digest, b"sig"]])


@needs.needs("ld", "objcopy")
class Counted(test_bindings.Binding):
    """The bindings with a library whose calls of NAMES are those of `counted.c`: each calls the library itself, and adds a line to a file."""

    @classmethod
    def setUpClass(cls):
        super().setUpClass()
        cls.room = room_for(cls)
        # (renames the calls of NAMES in the library, and joins it with counted.c, which has these names: as an archive and as a shared library)
        renamed, own, whole, cls.archive, cls.counting = (os.path.join(cls.room, name) for name in (
            "renamed.a", "counted.o", "whole.o", "libspki_c.a", "libspki_c.so"))
        for words in (["objcopy", *[f"--redefine-sym={name}=of_library_{name}" for name in NAMES], cls.library, renamed],
                      ["cc", "-std=c11", "-O2", "-fPIC", "-Wall", "-Wextra", "-Werror", "-I", CRATE, "-c", "-o", own,
                       os.path.join(TESTS, "programs", "counted.c")],
                      ["ld", "-r", "-o", whole, own, "--whole-archive", renamed], ["ar", "rcsD", cls.archive, whole],
                      ["cc", "-shared", "-o", cls.counting, whole]):
            subprocess.run(words, check=True, timeout=SECONDS)
        short, long = case_of(subject=[b"public-key", [b"test", b"b"]], items=[], rows=[]), case_with_long_key()
        # (without the same questions in other forms, by strings or by seconds: these have `by` in their names)
        cls.asked = [each._replace(limits=limits) for text, limits in ((short, "usual"), (short, "highest"), (long, "highest"))
                     for each in test_bindings.questions_of(cls.program, text, limits) if each.command != "decide" and "by" not in each.name]

    def setUp(self):
        self.counts = os.path.join(self.room, self.id())
        self.settings = {**os.environ, "SPKI_COUNTED": self.counts, "SPKI_LIBRARY": self.counting}  # (what counted.c and the module spki read)

    def check_counts(self, asked: list[Asked], answers):
        """The answers, lines as octets, must be the wanted ones, and the library must have been called once for each, in this order."""
        fault = test_bindings.faults_of_answers(asked, answers)
        self.assertEqual(fault, "", fault)
        self.assertEqual(text_of(self.counts).splitlines(), [f"{each.command} {DONE} {len(each.wanted)}" for each in asked])

    def test_the_answers_are_long(self):
        """All by the usual limits are longer than 8 KiB, and one by the highest limits is longer than 1 MiB, the usual limit of an answer."""
        lengths = {limits: sorted(len(each.wanted) for each in self.asked if each.limits == limits) for limits in ("usual", "highest")}
        self.assertGreater(lengths["usual"][0], 8192)
        self.assertGreater(lengths["highest"][-1], 1 << 20)

    def test_in_python(self):
        done = subprocess.run([sys.executable, "-c", BY_PYTHON, PYTHON], input=pickle.dumps(self.asked), stdout=subprocess.PIPE, cwd=TESTS,
                              env=self.settings, check=True, timeout=SECONDS)
        self.check_counts(self.asked, pickle.loads(done.stdout))

    @needs.needs("go")
    def test_in_go(self):
        octets = b"".join(map(test_bindings.framed, self.asked))
        done = golang.go(golang.MODULE, ["run", "./examples/asked"], self.archive, octets, SPKI_COUNTED=self.counts)
        self.assertEqual(done.returncode, 0, done.stderr)
        self.check_counts(self.asked, [answer + b"\n" for answer in test_bindings.strings_in(done.stdout)])

    @needs.needs("cargo")
    def test_in_rust(self):
        octets, target = b"".join(map(test_bindings.framed, self.asked)), os.path.join(TESTS, "out", "counted")
        settings = {**self.settings, **CARGO, "SPKI_LIB_DIR": self.room, "CARGO_TARGET_DIR": target}
        done = subprocess.run(["cargo", "run", "--quiet", "--example", "asked"], cwd=test_bindings.RUST, input=octets, stdout=subprocess.PIPE,
                              env=settings, check=True, timeout=SECONDS)
        self.check_counts(self.asked, [answer + b"\n" for answer in test_bindings.strings_in(done.stdout)])

    @needs.needs("g++")
    def test_in_cpp(self):
        program, source = os.path.join(self.room, "long_answers"), os.path.join(TESTS, "programs", "long_answers.cpp")
        words = ["-std=c++17", "-Wall", "-Wextra", "-Wpedantic", "-Werror", "-I", CRATE, "-o", program, source]
        self.assertEqual(output_of("g++", *words, self.archive, seconds=SECONDS), (0, ""))
        answers = []
        # (each case has a question of `explain`, and then one of `reduce`: the program answers both)
        for explained, reduced in zip(self.asked[::2], self.asked[1::2]):
            paths = [os.path.join(self.room, name) for name in ("list", "sequence", "key")]
            for path, octets in zip(paths, (explained.access_list, explained.sequence, explained.key)):
                with open(path, "wb") as file:
                    file.write(octets)
            done = subprocess.run([program, explained.limits, *paths], stdout=subprocess.PIPE, env=self.settings, check=True, timeout=SECONDS)
            answers += [done.stdout[:len(explained.wanted)], done.stdout[len(explained.wanted):]]
        self.check_counts(self.asked, answers)
