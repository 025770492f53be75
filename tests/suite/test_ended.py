"""Tests `spki-cert end`, which writes the file of the certificates that no longer count: what gets into it, what is refused, and what is left
unchanged then. A file of ended certificates has a line for each digest, and a last line `end COUNT SHA-256`. `sealed(LINE ..)` is the whole file with
these lines, and A, B and C are digests. `self.end(WORD ..)` runs the command on the file ENDED. Its status must be `wanted`: 0 is done, 1 is no, 2 a
refusal, 3 a fault of the system, and 4 asks for `--yes`. What is expected is not computed by the command: the digests are from the model's canonical
form and from the messages that the library lists to be verified, and the last line is worked out here."""
import contextlib
import fcntl
import hashlib
import io
import itertools
import os
import pathlib
import re
import stat
import subprocess
import sys
import tempfile
import unittest
from unittest import mock

from harness import built, needs
from harness.support import TOP, output_of, room_for, text_of
from model import advanced, values
from suite import test_guide
from spki_cert_tool import commands, ending, files

COMMAND = os.path.join(TOP, "apps", "spki-cert", "spki-cert")
A, B, C = (letter * 64 for letter in "abc")
ENDED = "etc ended"  # (a name with a space)
# Comments of certificates that an older way to end them wrote into the file: as a line of its own, and as the digest of another certificate.
COMMENTS = ("see sha256 of the release", f"sha256 {A} #")
WRITERS = 6  # (at the same time)


def sealed(*lines: str) -> bytes:
    """The file of ended certificates with these lines and a last one: `end`, how many of them begin with a digest, and the SHA-256 of all."""
    text = "".join(f"{line}\n" for line in lines).encode("utf-8", "surrogateescape")
    count = len([line for line in lines if re.match("[0-9a-f]{64}", line)])
    return text + f"end {count} {hashlib.sha256(text).hexdigest()}\n".encode()


def digests_by_model(text: bytes) -> list[str]:
    """The digests of the certificates of a sequence, by the model."""
    items = advanced.read(text)
    assert isinstance(items, tuple)
    return [hashlib.sha256(values.canonical(item)).hexdigest() for item in items if values.head_of(item) == b"cert"]


def make_unusable(kind: str, path: str) -> None:
    """Makes at a path what `spki-cert end` must not use: no ordinary file, or one that cannot be used. `kind` is a word of `test_unusable_files`."""
    if kind == "fifo":
        os.mkfifo(path)
    elif kind == "folder":
        os.mkdir(path)
    elif kind in ("device", "nowhere"):
        os.symlink("/dev/null" if kind == "device" else "not-there", path)
    else:
        pathlib.Path(path).write_bytes(b"#" * (ending.MOST_ENDED + 1) if kind == "long" else sealed(A))
    if kind == "read-only":
        os.chmod(path, 0o444)
    elif kind == "two names":
        os.link(path, f"{path}2")


def state_of(path: str) -> list[int]:
    """What differs if a file or a link is replaced, or a file written: inode, mode, size, count of names, times."""
    state = os.lstat(path)
    return [state.st_ino, state.st_mode, state.st_size, state.st_nlink, state.st_mtime_ns, state.st_ctime_ns]


@needs.needs("import cryptography")
class TestOfEnding(unittest.TestCase):
    """A test in a folder with the keys `ann` and `ben`. `first` is a sequence of one certificate, by Ann for Ben. `own` is one of Ben's for Ann.
    `second` is a sequence with both, and `cert` the certificate of `first` alone. `digests` are those of the two certificates."""

    room: str
    digests: list[str]

    @classmethod
    def setUpClass(cls) -> None:
        """Makes the keys, and the files that the class names."""
        cls.room = room_for(cls)
        for who in ("ann", "ben"):
            cls.run_here("key", "new", "--no-passphrase", who)
        signs = ("sign", "--tag", "(files)", "--days", "9")
        cls.run_here(*signs, "--by", "ann", "--to", "ben.pub", "--propagate", "--comment", COMMENTS[0], "-o", "first")
        cls.run_here(*signs, "--by", "ben", "--to", "ann.pub", "--comment", COMMENTS[1], "-o", "own")
        first, own = advanced.read(cls.octets("first")), advanced.read(cls.octets("own"))
        assert isinstance(first, tuple) and isinstance(own, tuple)
        cls.write("second", values.canonical((*first, *own[1:])))
        cls.write("cert", values.canonical(first[1]))
        cls.digests = digests_by_model(cls.octets("first")) + digests_by_model(cls.octets("own"))

    @classmethod
    def at(cls, name: str) -> str:
        """The path of a file in the folder."""
        return os.path.join(cls.room, name)

    @classmethod
    def octets(cls, name: str) -> bytes:
        """The octets of a file in the folder."""
        return pathlib.Path(cls.at(name)).read_bytes()

    @classmethod
    def write(cls, name: str, octets: bytes) -> None:
        """Writes a new file in the folder, in the place of an old one."""
        path = pathlib.Path(cls.at(name))
        path.unlink(missing_ok=True)
        path.write_bytes(octets)

    @classmethod
    def run_here(cls, *words: str) -> tuple[int, str]:
        """Runs `spki-cert` in the folder, within this process. Returns its status, and what it writes on both streams, in ASCII."""
        output, before = io.TextIOWrapper(io.BytesIO(), "ascii", write_through=True), os.getcwd()
        os.chdir(cls.room)
        try:
            with mock.patch.object(sys, "argv", ["spki-cert", *words]), contextlib.redirect_stdout(output), contextlib.redirect_stderr(output):
                return commands.main(), output.buffer.getvalue().decode()  # type: ignore[attr-defined]
        finally:
            os.chdir(before)

    def end(self, *words: str, wanted: int = 0) -> str:
        """Runs `spki-cert end`, which must end with the status `wanted`. Returns what it writes."""
        status, output = self.run_here("end", "--ended", ENDED, *words)
        self.assertEqual(status, wanted, output)
        return output

    def digests_in_file(self) -> list[str]:
        """The digests in the file of ended certificates, in its order. Its last line must be right."""
        lines = self.octets(ENDED).decode().splitlines()
        self.assertEqual(self.octets(ENDED), sealed(*lines[:-1]))
        return [line[:64] for line in lines if re.match("[0-9a-f]{64}", line)]

    def check_unchanged(self, before: bytes, output: str) -> None:
        """The file of ended certificates must be as before, and no temporary file may be left. `output`, which a command wrote, is shown if not."""
        self.assertEqual(self.octets(ENDED), before, output)
        self.assertEqual([name for name in os.listdir(self.room) if name.startswith(".")], [], output)


class Ends(TestOfEnding):
    """What gets into the file and out of it, and what stays in it."""

    def setUp(self) -> None:
        self.write(ENDED, sealed())

    def test_which_certificate_is_ended(self) -> None:
        """What is ended is the last certificate of a file, with `--place` the one at a place, or a digest, which gets a remark. `first` has one
        certificate, and `second` has a second one. Their COMMENTS add no digest."""
        first, second = self.digests
        for words, wanted in ((["second"], [second]), (["first"], [first]), (["second", "--place", "1"], [first]),
                              (["second", "--place", "2"], [second]), (["first", "second"], [first, second]), (["--digest", B], [B]),
                              (["--digest", B.upper()], [B]), (["first", "--digest", B, "--digest", C], [first, B, C])):
            with self.subTest(words=words):
                self.write(ENDED, sealed())
                output = self.end(*words)
                self.assertEqual((self.digests_in_file(), f"digests added: {len(wanted)};" in output), (wanted, True), output)
                self.assertEqual("--digest is compared with no certificate" in output, "--digest" in words)

    def test_only_a_sound_certificate_is_ended(self) -> None:
        """A certificate whose signature is not valid, or is not there, is not ended: its digest would be that of another text, and the certificate
        that was signed would count on. The status is 1, each such file is named with its fault and its digest, and nothing is written. `--digest`
        ends it, and `--undo` takes it out again. In `second`, the first certificate is altered and the last one is sound."""
        first, own = (values.canonical(advanced.read(self.octets(name))) for name in ("first", "own"))
        altered = first.replace(b"(5:files)", b"(4:file)")
        cert = values.canonical(advanced.read(altered)[1])  # type: ignore[index]
        digest = hashlib.sha256(cert).hexdigest()
        forged = altered.replace(bytes.fromhex(self.digests[0]), bytes.fromhex(digest))
        for name, octets, fault in (("altered", altered, "its signature has another digest (DigestDiffers)"),
                                    ("forged", forged, "the signature is not valid (NotAccepted)"),
                                    ("cert", self.octets("cert"), "it has no signature (UnsignedCert)"),
                                    ("both", altered[:-1] + own.removeprefix(b"(8:sequence"), "its signature has another digest (DigestDiffers)")):
            with self.subTest(name=name):
                self.write(ENDED, sealed())
                self.write(name, octets)
                wanted, of = self.digests[0] if name == "cert" else digest, "1 of 2" if name == "both" else "1 of 1"
                for words in ([name], ["first", name]) if name != "both" else ([name, "--place", "1"],):
                    output = self.end(*words, wanted=1)
                    self.assertIn(f"{name}, certificate {of}: not ended: {fault}", output)
                    self.assertIn(f"--digest {wanted}", output)
                    self.check_unchanged(sealed(), output)
                self.end("--digest", wanted)
                self.assertEqual(self.digests_in_file(), [wanted])
                self.end("--undo", name, *["--place", "1"] * (name == "both"))
                self.assertEqual(self.digests_in_file(), [])
        self.end("both")
        self.assertEqual(self.digests_in_file(), self.digests[1:])

    def test_one_digest_in_each_form(self) -> None:
        """A certificate has the same digest in each form of S-expressions: `own` in the advanced one, and the last of `second` in braces."""
        for name, octets in (("advanced", self.octets("own")), ("braces", self.run_here("show", "--braces", "second")[1].encode())):
            with self.subTest(name=name):
                self.write(ENDED, sealed())
                self.write("form", octets)
                self.end("form")
                self.assertEqual(self.digests_in_file(), [self.digests[1]])

    def test_reasons_are_one_visible_line(self) -> None:
        """A reason is one line of visible ASCII behind the digest and the date, whatever is given, of 200 characters at most."""
        for reason, wanted in (("laptop stolen", " laptop stolen"), ("", ""), (f"x\n{A}\nend 0 {B}", f" x {A} end 0 {B}"),
                               ("a\rb\x1b[2Jc\x85d\0e", " a b [2Jc\\x85d e"),
                               ("Schl\xfcssel", " Schl\\xfcssel"), ("\udcff", " \\udcff"), ("# \\ '", " # \\ '"), ("x" * 999, " " + "x" * 200)):
            with self.subTest(reason=reason):
                self.write(ENDED, sealed())
                self.end("second", "--reason", reason)
                line = self.octets(ENDED).decode().splitlines()[0]
                self.assertRegex(line, rf"^{self.digests[1]} # \d{{4}}-\d\d-\d\d{re.escape(wanted)}$")
                self.assertEqual(self.digests_in_file(), [self.digests[1]])

    def test_ending_twice(self) -> None:
        """A certificate that has ended already is reported, and not written again."""
        self.end("first")
        before = self.octets(ENDED)
        output = self.end("first", "--reason", "again")
        self.assertIn("it had ended before\ndigests added: 0", output)
        self.check_unchanged(before, output)
        self.assertIn("digests added: 1;", self.end("first", "second"))
        self.assertEqual(self.digests_in_file(), self.digests)

    def test_undo_takes_out_all_digests_or_none(self) -> None:
        """`--undo` takes out all digests that are named, and names the command for the daemon; or none, with status 1, if one is not there."""
        others = ["# M\xfcller", "", f"{A} # 2026-01-01", f"{B}"]
        self.write(ENDED, sealed(*others, self.digests[1]))
        before = self.octets(ENDED)
        for words in (["first"], ["second", "first"], ["--digest", C]):
            output = self.end("--undo", *words, wanted=1)
            self.assertIn("it has not ended; nothing was written", output)
            self.check_unchanged(before, output)
        self.assertIn("-reload -fewer", self.end("--undo", "second"))
        self.assertEqual(self.octets(ENDED), sealed(*others))

    def test_list_shows_each_digest(self) -> None:
        """`--list` writes each digest with its date or `-` and its reason, the last line as the file has it, and no control characters."""
        text = sealed("# a comment", "", f"{A} # 2026-01-02 stolen", f"{B} # 2026-01-03", f"{C} # M\xfcller \x1b[2J 2026-01-04", "d" * 64)
        self.write(ENDED, text)
        self.assertEqual(self.end("--list"), f"{A} 2026-01-02 stolen\n{B} 2026-01-03\n{C} - M\\xfcller [2J 2026-01-04\n{'d' * 64} -\n"
                         + text.decode().splitlines()[-1] + "\n")
        self.check_unchanged(text, "--list")

    def test_new_file(self) -> None:
        """Without a certificate the command makes the file, with mode 644. Of one that is there it says if it is whole, and counts the digests."""
        os.unlink(self.at(ENDED))
        self.assertIn("made; digests: 0", self.end())
        self.assertEqual((self.digests_in_file(), stat.S_IMODE(os.stat(self.at(ENDED)).st_mode)), ([], 0o644))
        self.end("first")
        before = self.octets(ENDED)
        self.assertIn("whole; digests: 1", self.end())
        self.check_unchanged(before, "the file is there")

    def test_mode_owner_and_comments_stay(self) -> None:
        """The mode, the lines with their comments, and for root the owner stay as they are. One line is added, and the last one is another."""
        self.write(ENDED, sealed("# M\xfcller \udcff", f"{A} # \x01 \xe9"))
        os.chmod(self.at(ENDED), 0o640)
        if os.geteuid() == 0:
            os.chown(self.at(ENDED), 1, 2)
        before = os.stat(self.at(ENDED))
        self.end("first")
        after = os.stat(self.at(ENDED))
        self.assertEqual((after.st_mode, after.st_uid, after.st_gid), (before.st_mode, before.st_uid, before.st_gid))
        self.assertTrue(self.octets(ENDED).startswith("# M\xfcller \udcff\n".encode("utf-8", "surrogateescape") + f"{A} # \x01 \xe9\n".encode()))
        self.assertEqual(self.octets(ENDED).count(b"\n"), 2 + 1 + 1)

    def test_link_to_the_file(self) -> None:
        """A symbolic link stays, and what it names is replaced."""
        self.write("real", sealed())
        os.unlink(self.at(ENDED))
        os.symlink("real", self.at(ENDED))
        self.end("first")
        self.assertTrue(os.path.islink(self.at(ENDED)))
        self.assertEqual(self.digests_in_file(), [self.digests[0]])

    def test_writers_at_once(self) -> None:
        """Each of several writers adds its digest, and none is lost."""
        running = [subprocess.Popen([sys.executable, COMMAND, "end", "--ended", ENDED, "--digest", f"{number:064x}"], cwd=self.room,
                                    stdout=subprocess.DEVNULL) for number in range(WRITERS)]
        self.assertEqual([each.wait() for each in running], [0] * WRITERS)
        self.assertEqual(sorted(self.digests_in_file()), [f"{number:064x}" for number in range(WRITERS)])

    def test_changed_before_the_lock(self) -> None:
        """If another writer replaces the file after it was opened and before it is locked, what the other one wrote is not lost."""
        def change_and_lock(handle: int, how: int) -> None:
            """In place of `fcntl.flock`: replaces the file before it is locked the first time."""
            if self.digests_in_file() == []:
                self.write(ENDED, sealed(A))
            flock(handle, how)

        flock = fcntl.flock
        with mock.patch("fcntl.flock", change_and_lock):
            self.end("first")
        self.assertEqual(self.digests_in_file(), [A, self.digests[0]])

    def test_file_that_stays_locked(self) -> None:
        """While another program keeps the file locked, the command waits at most SECONDS_TO_LOCK, here 0, and then fails."""
        with files.locked(self.at(ENDED)), mock.patch.object(files, "SECONDS_TO_LOCK", 0):
            output = self.end("first", wanted=2)
        self.assertIn("another program has locked it", output)
        self.check_unchanged(sealed(), output)

    def test_full_disk(self) -> None:
        """If a step of writing the new file fails, the old one stays, and no other file is left."""
        for name in ("os.fsync", "os.replace", "os.fchown", "os.listxattr"):
            with self.subTest(name=name), mock.patch(name, side_effect=OSError(28, "No space left on device")):
                output = self.end("first", wanted=3)
                self.assertIn("No space left on device; the file is as before", output)
                self.check_unchanged(sealed(), output)

    def test_full_output(self) -> None:
        """If only standard output cannot be written, the status is 3, and no message says that nothing was written, since the file was."""
        class Full(io.StringIO):
            def flush(self) -> None:
                raise OSError(28, "No space left on device")

        errors, before = io.StringIO(), os.getcwd()
        os.chdir(self.room)
        self.addCleanup(os.chdir, before)
        with mock.patch.object(sys, "argv", ["spki-cert", "end", "first", "--ended", ENDED]), contextlib.redirect_stdout(Full()), \
                contextlib.redirect_stderr(errors):
            self.assertEqual(commands.main(), 3)
        self.assertNotIn("nothing was written", errors.getvalue())
        self.assertEqual(self.digests_in_file(), self.digests[:1])


class Refuses(TestOfEnding):
    """What ends with a status that is not 0, and changes nothing."""

    def test_wrong_arguments(self) -> None:
        """Words that do not name a certificate, or that do not go together, are refused."""
        self.write(ENDED, sealed(A))
        self.write("none", b"(sequence)")
        self.write("list", b"(acl)")
        self.write("half", self.octets("second")[:-9])
        for words, text in ((["nothere"], "No such file"), (["."], "a folder, and a file is wanted"), (["first", "nothere"], "No such file"),
                            (["half"], "refused form"), (["none"], "no certificate; it has 0"), (["list"], "only a certificate"),
                            (["ann.pub"], "refused form"), (["ann"], "refused"), (["second", "--place", "3"], "no certificate 3; it has 2"),
                            (["second", "--place", "0"], "no certificate 0"),
                            (["second", "--place", "-1"], "no certificate -1"), (["first", "second", "--place", "1"], "goes with one FILE"),
                            (["--digest", A, "--place", "1"], "goes with one FILE"), (["--digest", A[1:]], "64 hexadecimal digits"),
                            (["--digest", A + "a"], "64 hexadecimal digits"), (["--digest", A[1:] + "g"], "64 hexadecimal digits"),
                            (["--digest", A + "\n"], "64 hexadecimal digits"), (["--digest", ""], "64 hexadecimal digits"),
                            (["--undo"], "--undo needs"), (["--list", "first"], "about all digests"), (["--adopt", "first"], "about all digests"),
                            (["--reason", "x"], "--reason goes with"), (["--undo", "first", "--reason", "x"], "--reason goes with"),
                            (["first", "--yes"], "--yes goes with --adopt"), ([ENDED], "refused form")):
            with self.subTest(words=words):
                output = self.end(*words, wanted=2)
                self.assertIn(text, output)
                self.check_unchanged(sealed(A), output)

    def test_files_that_are_not_whole(self) -> None:
        """A file that is not as it was written is refused by each command but --adopt, with what differs and what to do."""
        good = sealed("# M\xfcller", f"{A} # 2026-01-01 x", "", B)
        lines = good.split(b"\n")
        rows = [("empty", b"", "not `end COUNT"), ("cut in a line", good[:99], "not `end COUNT"),
                ("cut in the last line", good[:-9], "not `end COUNT"), ("a count too long", b"end %s %064d\n" % (b"9" * 5000, 0), "not `end COUNT"),
                ("cut before the last line", good[:good.index(b"end ")], "not `end COUNT"), ("no end of line", good[:-1], "not `end COUNT"),
                ("a line less", b"\n".join(lines[:1] + lines[2:]), "says 2 digests, and there are 1"),
                ("a line more", b"\n".join([C.encode(), *lines]), "says 2 digests, and there are 3"),
                ("another digest", good.replace(B.encode(), C.encode()), "has another SHA-256"),
                ("another comment", good.replace(b"x", b"y"), "has another SHA-256"),
                ("an empty line behind", good + b"\n", "not `end COUNT"), ("a comment behind", good + b"# x\n", "not `end COUNT"),
                ("twice", good + good, "line 5 is no digest"), ("capitals", sealed(A.upper()), "line 1 is no digest"),
                ("a space in front", sealed("", f" {A}"), "line 2 is no digest"), ("no space", sealed(f"{A}# x"), "line 1 is no digest"),
                ("no space behind", sealed(f"{A} #x"), "line 1 is no digest"), ("two spaces", sealed(f"{A}  # x"), "line 1 is no digest"),
                ("words", sealed(f"{A} x"), "line 1 is no digest"), ("long", sealed(A + "a"), "line 1 is no digest"),
                ("spaces", sealed(" "), "line 1 is no digest"),
                ("returns", good.replace(b"\n", b"\r\n"), "not `end COUNT"), ("a wrong count", re.sub(b"end 2", b"end 02", good), "not `end COUNT"),
                ("the sequence", self.octets("second"), "not `end COUNT")]
        words_of: list[list[str]] = [["first"], [], ["--list"], ["--undo", "--digest", A]]
        for (name, octets, text), words in itertools.product(rows, words_of):
            with self.subTest(name=name, words=words):
                self.write(ENDED, octets)
                output = self.end(*words, wanted=2)
                self.assertIn(text, output)
                self.assertIn("--adopt", output)
                self.check_unchanged(octets, output)

    def test_unusable_files(self) -> None:
        """What is no ordinary file that can be written, or too long, or has two names, is refused and stays. A FIFO is not waited for."""
        rows = [("fifo", "no ordinary file"), ("device", "no ordinary file"), ("folder", "no ordinary file"), ("read-only", "its mode 444"),
                ("two names", "2 names"), ("long", "more than 16777216 octets"), ("nowhere", "not there; `spki-cert end --ended")]
        for (kind, text), words in itertools.product(rows, (["first"], ["--undo", "--digest", A], ["--adopt"])):
            with self.subTest(kind=kind, words=words), tempfile.TemporaryDirectory(dir=self.room) as room:
                path = os.path.join(room, "ended")
                make_unusable(kind, path)
                before = state_of(path)
                status, output = self.run_here("end", "--ended", path, *words)
                self.assertEqual((status, text in output), (2, True), output)
                self.assertEqual((state_of(path), [name for name in os.listdir(room) if name.startswith(".")]), (before, []))

    def test_missing_file(self) -> None:
        """If the name of the file is wrong, no new file is made, which no daemon would read, unless the command has no certificate and no option."""
        for words in (["first"], ["--list"], ["--adopt"], ["--undo", "first"]):
            status, output = self.run_here("end", "--ended", "other", *words)
            self.assertEqual((status, os.path.exists(self.at("other"))), (2, False), output)
        self.assertEqual(self.run_here("end", "--ended", "no/folder")[0], 2)


class Adopts(TestOfEnding):
    """How a file that people have written or changed becomes whole."""

    def test_adopt_accepts_files_of_people(self) -> None:
        """`--adopt` accepts digests in capitals or with spaces around them, other ends of lines, and a last line that is missing or has another
        SHA-256. It writes the file as the command itself does. `lines` precede the new last line. A line with a digest alone has 65 octets."""
        for name, octets, lines in (
                ("old", f"#old\n\n{A.upper()}\n {B} #  x\n{C}#\xfc\n".encode(), ["#old", "", A, f"{B} # x", f"{C} # \xfc"]),
                ("nothing in a comment", f"{A} #\n#\n{B}\t# \n".encode(), [A, "#", B]), ("no end of line", A.encode(), [A]),
                ("returns", f"{A}\r\n# x\r\n".encode(), [A, "# x"]), ("another comment", sealed(f"{A} # x").replace(b"x", b"y"), [f"{A} # y"]),
                ("whole", sealed(A, "# x"), [A, "# x"]), ("no last line", sealed(A, B)[:2 * 65], [A, B])):
            with self.subTest(name=name):
                self.write(ENDED, octets)
                output = self.end("--adopt")
                self.assertEqual((self.octets(ENDED), f"digests: {len(self.digests_in_file())}\n" in output), (sealed(*lines), True), output)

    def test_adopt_of_a_cut_file_needs_yes(self) -> None:
        """A file without digests, or whose line `end ..` is cut or has another number, is accepted only by `--yes`. A digest line has 65 octets."""
        rows: list[tuple[str, bytes, list[str]]] = [
            ("empty", b"", []), ("comments", b"# x\n", ["# x"]), ("a line less", sealed(A, B)[65:], [B]),
            ("a line more", A.encode() + b"\n" + sealed(B), [A, B]), ("a cut last line", sealed(A, B)[:-9], [A, B])]
        for name, octets, lines in rows:
            with self.subTest(name=name):
                self.write(ENDED, octets)
                output = self.end("--adopt", wanted=4)
                self.assertIn("was it cut?", output)
                self.check_unchanged(octets, output)
                self.end("--adopt", "--yes")
                self.assertEqual(self.octets(ENDED), sealed(*lines))

    def test_adopt_refuses_other_lines(self) -> None:
        """A line that is neither a digest nor a comment is refused, also with `--yes`. One of a million blanks would take hours in quadratic time."""
        for octets in (A.encode() + b"\n" + B[:30].encode(), b"see sha256\n", sealed(A) + sealed(B), b" " * 10**6 + b"\0", A.encode() + b" x\n"):
            with self.subTest(octets=octets):
                self.write(ENDED, octets)
                output = self.end("--adopt", "--yes", wanted=2)
                self.assertIn("remove or mend it", output)
                self.check_unchanged(octets, output)


@needs.needs(*needs.LIBRARY, "import cryptography")
class OfLibrary(TestOfEnding):
    """The digests are those of what the library lists to be verified, which the daemon looks up."""

    def test_digests_of_the_messages_of_the_library(self) -> None:
        """`program` prints the SHA-256 of each message that the library lists for the sequence in its first file, asked by the key in its second."""
        program = ("import hashlib, sys, spki; guard = spki.Guard(b'(acl)');"
                   "key = spki.ProvenKey.assume(spki.canonical(open(sys.argv[2], 'rb').read()));"
                   "asked = guard.ask(spki.Question(open(sys.argv[1], 'rb').read(), key, words=(b'files',), moment=b'\"2026-03-01_12:00:00\"'));"
                   "print(*(hashlib.sha256(signature.message).hexdigest() for signature in asked.signatures()), sep='\\n')")
        self.write("key", self.run_here("key", "ann.pub")[1].encode())
        settings = {**os.environ, "SPKI_LIBRARY": built.shared(), "PYTHONPATH": os.path.join(TOP, "bindings", "python")}
        status, output = output_of(sys.executable, "-c", program, "second", "key", cwd=self.room, env=settings)
        self.assertEqual((status, output.split()), (0, self.digests))
        self.write(ENDED, sealed())
        self.end("first", "second")
        self.assertEqual(self.digests_in_file(), output.split())


class Page(unittest.TestCase):
    """What the operator's page says."""

    def test_no_digest_is_cut_out_of_text(self) -> None:
        """The page ends certificates by `spki-cert end`. No command writes to the file by itself, or cuts a digest out of text that issuers wrote."""
        lines = [first for kind, first, _ in test_guide.steps_of_markdown(text_of("docs/OPERATING.md")) if kind == "command"]
        self.assertEqual([line for line in lines if re.search(r">+ *etc/ended|sed .*sha256", line)], [])
        self.assertTrue(any("spki-cert end " in line for line in lines))
