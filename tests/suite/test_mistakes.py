"""Tests what `spki-cert` does with mistakes: no file is lost, nothing is signed that was not meant, each message leads to the place, and no stream,
signal or random word ends it by a traceback. Most tests have a folder with the private keys `alice`, `bob` and `carol`, their public keys `alice.pub`
and so on, the access list acl.sexp with an entry for alice, her certificate `to-bob`, and an empty `folder`. `self.cert(WORD ..)` runs `spki-cert`
there. Its status must be `wanted`: 0 is done, 1 is no or a remark, 2 refuses a file or word, 3 says that reading or writing failed or a signal came,
and 4 asks for `--yes` or `--anyway`: the command is probably a mistake. In Python an S-expression is octets or a list of S-expressions."""
import base64
import contextlib
import datetime
import os
import pathlib
import random
import re
import signal
import stat
import subprocess
import sys
import tempfile
from unittest import mock

from harness import built, needs
from rows import mistakes
from suite.test_cert import COMMAND, TAG, CommandTest, octets_in
from spki_cert_tool import arguments, asking, certificates, commands, ending, files, keys, sexp
from spki_cert_tool.places import value_in

SECONDS = 600
# How many runs there are at random: as children of one process, and as programs.
RUNS, STARTS = (10_000, 300) if built.IS_LONG else (120, 3)
SEED = "spki-cert"


def key_pair(kind="ed25519"):
    """A new key of a kind of `keys.new_private`: the octets of a file with the private key, and those of the public key's line for OpenSSH."""
    private = keys.new_private(kind)
    return keys.file_of(private, b""), keys.openssh_line(private.public_key())


class TestWithKeys(CommandTest):
    """A test in the folder that the head describes. `pairs` has for each name the octets of the private and of the public key."""

    @classmethod
    def setUpClass(cls):
        super().setUpClass()
        cls.pairs = {name: key_pair() for name in ("alice", "bob", "carol")}

    def setUp(self):
        """Writes the keys. Then alice gets an entry of acl.sexp, and gives bob a part of her right by the certificate `to-bob`."""
        super().setUp()
        os.mkdir(self.at("folder"))
        for name, (private, public) in self.pairs.items():
            self.write(name, private)
            os.chmod(self.at(name), 0o600)
            self.write(f"{name}.pub", public + f" {name}\n".encode())
        self.cert("entry", "--to", "alice.pub", "--tag", "(packages)", "--propagate", "--acl", "acl.sexp")
        self.sign("--propagate", "-o", "to-bob")

    def sign(self, *words, by="alice", to="bob.pub", tag="(packages read)", wanted=0, days=("--days", "30")):
        """Runs `spki-cert sign`, with options of validity in `days` and others in `words`. Its status must be `wanted`. Returns what it writes."""
        return self.cert("sign", "--by", by, "--to", to, "--tag", tag, *days, *words, wanted=wanted)

    def changes_nothing(self, *words, message="", wanted=2):
        """A command must end with the status `wanted`, write the text `message`, and neither change nor make a file in the folder."""
        before = self.contents()
        with self.subTest(words):
            self.assertIn(message, self.cert(*words, wanted=wanted))
            self.assertEqual(before, self.contents())

    def contents(self):
        """The octets of each regular file of the folder, by its name. Links and folders are left out."""
        return {name: octets_in(self.at(name)) for name in os.listdir(self.room) if stat.S_ISREG(os.lstat(self.at(name)).st_mode)}


class OfWriting(TestWithKeys):
    """How files are written: over no key and no input, with no edit lost, and with a message on what is left where that fails."""

    def test_no_key_and_no_input_is_written_over(self):
        signs = ("sign", "--by", "alice", "--to", "bob.pub", "--tag", "(packages read)", "--days", "30")
        os.symlink("alice", self.at("to-key"))
        self.write("dan.key", "(public-key (test dan))")
        for words, message in [
                ((*signs, "-o", "alice"), "is not written over"), ((*signs, "--force", "-o", "alice"), "is not written over"),
                ((*signs, "--force", "-o", "to-key"), "is not written over"), ((*signs, "--force", "-o", "carol"), "is not written over"),
                ((*signs, "--force", "-o", "carol.pub"), "is not written over"), ((*signs, "--force", "-o", "bob.pub"), "reads this file"),
                ((*signs, "-o", "acl.sexp"), "adds an entry to this list"), (("key", "alice", "-o", "alice"), "not written over"),
                (("key", "alice", "--force", "-o", "alice"), "not written over"), (("key", "new", "--no-passphrase", "alice"), "is there already"),
                (("key", "new", "--no-passphrase", "to-key"), "is there already"), ((*signs, "--force", "-o", "dan.key"), "is not written over"),
                (("show", "--svg", "to-bob", "--force", "to-bob"), "reads this file"),
                (("show", "--svg", "alice.pub", "--force", "--labels", ".", "to-bob"), "reads this file")]:
            self.changes_nothing(*words, message=message)

    def test_no_secret_is_written_over_or_shown(self):
        """No file with a secret is written over, and no output has a part of one. The secrets are private keys in forms that spki-cert does not read,
        or cut off, and as words of a command also keys that it reads. The file of ended certificates is not written over either."""
        from cryptography.hazmat.primitives.serialization import Encoding, NoEncryption, PrivateFormat, pkcs12
        # (a seed is a secret in base64. Alone in the file `wg` it is a text of one string, which `check` accepts unless it begins with a digit)
        seed = b"0"
        while seed[:1].isdigit():
            private = keys.new_private("ed25519")
            octets = private.private_bytes(Encoding.Raw, PrivateFormat.Raw, NoEncryption())
            seed = base64.b64encode(octets)
        cut_off = b"(private-key (ecc (curve Ed25519) (flags eddsa) (q #00#) (d #%s#)" % octets.hex().encode()
        der = private.private_bytes(Encoding.DER, PrivateFormat.PKCS8, NoEncryption())
        p12 = pkcs12.serialize_key_and_certificates(b"x", private, None, None, NoEncryption())
        parts = seed.decode()[:20], octets.hex()[:20]  # (of the secret, as an output might have them; one in braces has its own base64)
        forms = {"der": der, "p12": p12, "jwk": b'{"kty": "OKP", "d": "%s"}' % seed, "utf-16": cut_off.decode().encode("utf-16"),
                 "ssh2": b"---- BEGIN SSH2 ENCRYPTED PRIVATE KEY ----\n%s\n" % seed, "sexp": cut_off, "age": b"# made\nAGE-SECRET-KEY-1" + seed,
                 "wireguard": b"[Interface]\nPrivateKey = " + seed, "wg": seed + b"\n", "braces": b"{%s" % base64.b64encode(cut_off)}
        for name, secret in forms.items():
            self.write(name, secret)
            for words in (("key", name), ("show", name), ("check", name), ("sign", "--by", name, "--to", "bob.pub", "--tag", TAG, "--days", "1"),
                          ("entry", "--to", "bob.pub", "--tag", TAG, "--acl", name)):
                with self.subTest(words):
                    output = self.cert(*words, wanted=0 if words == ("check", "wg") else 2)
                    for secret_part in (*parts, "\\x", base64.b64encode(cut_off).decode()[-20:]):  # (`\x..` is an octet of a binary file)
                        self.assertNotIn(secret_part, output)
            self.changes_nothing("key", "bob.pub", "--force", "-o", name, message="is not written over")
            self.check_not_shown(secret.decode(errors="surrogateescape").strip("\0\n"), *parts)
        for private_pem, _ in self.pairs.values():
            _, *lines, _, _ = private_pem.decode().split("\n")  # (without the lines BEGIN and END, and what is behind the last line feed)
            self.check_not_shown(private_pem.decode(), *lines)
        self.cert("end", "--ended", "ended")
        self.changes_nothing("key", "bob.pub", "--force", "-o", "ended", message="the file of ended certificates is there already")

    def check_not_shown(self, secret, *parts):
        """A command that gets the text `secret` as a word must refuse it, and write none of these parts of it. A secret in base64 alone is recognized
        only where a command takes the name of a file. No word of a command line can have an octet 0, so then nothing is tried."""
        as_file = [("key", secret), ("show", secret), ("key", "alice.pub", secret), ("ask", "--acl", secret, "--key", "bob.pub", "--", "x"),
                   ("sign", "--by", secret, "--to", "bob.pub", "--tag", TAG), ("sign", "--by", "alice", "--to", secret, "--tag", TAG, "--days", "1")]
        as_word = [(secret,), ("entry", "--to", "bob.pub", "--tag", secret), ("entry", "--to", "bob.pub", "--tag", f"x {secret}"),
                   ("show", f"--at={secret}", "to-bob"), ("check", secret), ("entry", "--to", "bob.pub", "--tag", TAG, "--acl", secret)]
        commands_with_secret = as_file + as_word if " " in secret or "{" in secret else as_file
        for words in commands_with_secret if "\0" not in secret else []:
            with self.subTest(words):
                output = self.cert(*words, wanted=2)
                self.assertEqual([part for part in parts if part in output], [])

    def test_only_a_regular_file_is_written(self):
        os.mkfifo(self.at("fifo"))
        os.symlink("/dev/full", self.at("device"))
        for name in ("fifo", "folder", "device", "/dev/null"):
            for words in ((), ("--force",)):
                self.assertIn("no regular file", self.sign(*words, "-o", name, wanted=2))
        self.assertTrue(stat.S_ISFIFO(os.lstat(self.at("fifo")).st_mode))
        self.assertIn("is not there", self.sign("-o", "none/c.sexp", wanted=2))

    def test_a_file_that_is_there_needs_force(self):
        """By `--force` the file is written over, also through a link, and keeps its mode. It is not if its mode lets nobody write."""
        self.write("c.sexp", "(sequence)")
        os.chmod(self.at("c.sexp"), 0o640)
        self.assertIn("--force writes over it", self.sign("-o", "c.sexp", wanted=2))
        self.assertEqual(octets_in(self.at("c.sexp")), b"(sequence)")
        os.symlink("c.sexp", self.at("link"))
        self.sign("-o", "link", "--force")
        self.assertEqual((os.path.islink(self.at("link")), stat.S_IMODE(os.stat(self.at("c.sexp")).st_mode)), (True, 0o640))
        self.verify("c.sexp")
        for mode in (0o444, 0o400, 0o000):
            os.chmod(self.at("c.sexp"), mode)
            self.check_not_written("sign", "--by", "alice", "--to", "bob.pub", "--tag", TAG, "--days", "1", "--force", "-o", "c.sexp")

    def test_force_replaces_only_a_file_of_its_kind(self):
        """A certificate takes the place of one, also of one that is damaged or not signed, and of an empty file. A list, an entry, a case, a picture,
        JSON and any other text stay, and what the file is, is said. So it is for what other commands write."""
        signs = ("sign", "--by", "alice", "--to", "bob.pub", "--tag", TAG, "--days", "1", "--force", "-o", "x")
        draws, keys_of = ("show", "--svg", "x", "--force", "to-bob"), ("key", "--json", "--force", "-o", "x", "bob.pub")
        adds = ("entry", "--to", "bob.pub", "--tag", TAG, "--force", "-o", "x")
        braces = "{%s}" % base64.b64encode(b"(3:acl)").decode()
        for words, kept, lost in (
                (signs, {"(acl)": "`spki-cert entry --acl x` adds an entry to this list", braces: "adds an entry",
                         "(entry)": "it has `(entry ..)`", "(case": "`(case ..)`", "<svg></svg>": "it is a picture",
                         "[1]": "it is JSON", "notes": "it is another text", "\0\1": "it is another text",
                         "#!/bin/sh\n(sequence)": "it is another text"},
                 ("(sequence)", "(cert x)", "(sequence (", "", "\n ")),
                (draws, {"(sequence)": "it has `(sequence ..)`: give another name", "notes": "another text"}, ("<svg></svg>",)),
                (adds, {"(acl)": "adds an entry to this list", "(sequence)": "`(sequence ..)`"}, ("(entry)",)),
                (keys_of, {"(sequence)": "`(sequence ..)`", "notes": "another text"}, ("[]",))):
            for text, message in kept.items():
                self.write("x", text)
                self.changes_nothing(*words, message=message)
            for text in lost:
                self.write("x", text)
                with self.subTest(words, text=text):
                    self.cert(*words)
                    self.assertNotEqual(octets_in(self.at("x")), text.encode())

    def check_not_written(self, *words):
        """A command must refuse, by the mode of c.sexp, to write this file, and leave it as it is."""
        before = os.stat(self.at("c.sexp"))
        self.assertIn("is not to be written", self.cert(*words, wanted=2))
        self.assertEqual(before, os.stat(self.at("c.sexp")))

    def test_a_list_is_edited_in_its_place(self):
        """The file of a list keeps its mode and owner. An entry that gives nothing new needs `--yes`. A list that is read-only is not changed."""
        adds = ("entry", "--to", "bob.pub", "--tag", "(packages read)", "--acl", "acl.sexp")
        os.chmod(self.at("acl.sexp"), 0o640)
        with contextlib.suppress(PermissionError):  # (only root may give it another owner)
            os.chown(self.at("acl.sexp"), 12345, 12345)
        before = os.stat(self.at("acl.sexp"))
        self.assertEqual(self.cert(*adds), "entries added: 1\n")
        after = os.stat(self.at("acl.sexp"))
        self.assertEqual((before.st_mode, before.st_uid, before.st_gid), (after.st_mode, after.st_uid, after.st_gid))
        self.changes_nothing(*adds, message="entry 2 of the list gives all of this already", wanted=4)
        os.chmod(self.at("acl.sexp"), 0o444)
        for words in ((*adds, "--yes"), ("entry", "--remove", "--to", "bob.pub", "--acl", "acl.sexp")):
            self.changes_nothing(*words, message="its mode 444")

    def test_edits_at_the_same_time_are_all_kept(self):
        """Each of four edits waits for the lock of the list. Afterwards the list is the word `acl` and four entries."""
        children = [subprocess.Popen([sys.executable, COMMAND, "entry", "--to", "bob.pub", "--tag", f"(packages a{number})", "--acl", "new.sexp"],
                                     cwd=self.room, stdout=subprocess.DEVNULL) for number in range(4)]
        self.assertEqual([child.wait(SECONDS) for child in children], [0] * 4)
        self.assertEqual(len(value_in(octets_in(self.at("new.sexp"))).value), 5)

    def test_a_dash_is_a_stream(self):
        """In place of a file to read, `-` is standard input, which is read once. In place of one to write it is standard output."""
        for words, name in [(("key", "-"), "bob.pub"), (("show", "-"), "to-bob"), (("check", "-"), "acl.sexp"),
                            (("key", "-o", "-", "bob.pub"), "bob.pub"),
                            (("sign", "--by", "-", "--to", "bob.pub", "--tag", TAG, "--days", "1"), "alice"),
                            (("entry", "--to", "bob.pub", "--tag", TAG, "--acl", "-"), "acl.sexp"), (("show", "--svg", "-", "-"), "to-bob")]:
            with self.subTest(words), open(self.at(name), encoding="ascii") as stream, mock.patch.object(sys, "stdin", stream):
                self.assertTrue(self.cert(*words))
                self.assertFalse(os.path.exists(self.at("-")))
        with open(self.at("alice"), encoding="ascii") as stream, mock.patch.object(sys, "stdin", stream):
            self.assertIn("was read already", self.cert("key", "-", "-", wanted=2))

    def test_a_file_system_without_links_gets_a_file(self):
        """A new file gets its name by `os.link`, which replaces no file. Where that fails, it gets it otherwise, and no temporary file is left."""
        with mock.patch.object(os, "link", side_effect=PermissionError(1, "Operation not permitted")):
            self.sign("-o", "c.sexp")
            self.assertIn("is there already", self.sign("-o", "c.sexp", wanted=2))
        self.verify("c.sexp")
        self.assertEqual([name for name in os.listdir(self.room) if name.startswith(".")], [])

    def test_a_disk_that_is_full_leaves_the_file(self):
        self.write("c.sexp", "(sequence)")
        for call in ("fsync", "fchmod", "replace"):
            with self.subTest(call), mock.patch.object(os, call, side_effect=OSError(28, "No space left on device")):
                self.assertIn("the file is as before", self.sign("--force", "-o", "c.sexp", wanted=3))
            self.assertEqual((octets_in(self.at("c.sexp")), [name for name in os.listdir(self.room) if name.startswith(".")]), (b"(sequence)", []))

    def test_a_folder_that_cannot_be_synced_is_reported(self):
        """The file is written then, and the status is 3. It is no fault if the folder may not be read, or if the file system does not sync folders.
        `opens` is the error of opening the folder, and `syncs` that of its fsync, which is the second: the first is of the file."""
        for number, (opens, syncs, status) in enumerate([
                (None, OSError(5, "Input/output error"), 3), (None, OSError(22, "Invalid argument"), 0),
                (OSError(5, "Input/output error"), None, 3), (OSError(22, "Invalid argument"), None, 3),
                (OSError(24, "Too many open files"), None, 3), (PermissionError(13, "Permission denied"), None, 0)]):
            with self.subTest(opens=opens, syncs=syncs), mock.patch.object(os, "fsync", side_effect=(None, syncs)), \
                    mock.patch.object(os, "open", self.open_unless(opens)):
                output = self.sign("-o", f"{number}.sexp", wanted=status)
                self.assertEqual(("is written, but the system does not say" in output, "as before" in output), (status == 3, False), output)
            self.verify(f"{number}.sexp")

    def test_a_temporary_file_that_stays_is_named(self):
        """A temporary file that cannot be deleted is named, and it is said whether the other file is written. Afterwards no signal is blocked."""
        for syncs, state in ((None, "written"), (OSError(28, "No space left on device"), "as before")):
            name, other = f"{state}.sexp", f"its temporary file {re.escape(os.path.realpath(self.room))}/\\.spki-cert-\\w+"
            with self.subTest(state), mock.patch.object(os, "unlink", side_effect=OSError(5, "Input/output error")), \
                    mock.patch.object(os, "fsync", side_effect=syncs):
                self.assertRegex(self.sign("-o", name, wanted=3), f"{name}: the file is {state}, and {other} cannot be deleted: Input/output error")
            self.assertEqual((os.path.exists(self.at(name)), signal.pthread_sigmask(signal.SIG_BLOCK, [])), (syncs is None, set()))

    def open_unless(self, error):
        """A function for use instead of `os.open`, which raises `error` for the folder of the test. If `error` is None, it opens each path."""
        folder, opens = os.path.realpath(self.room), os.open

        def open_or_fail(path, *words, **named):
            if error is not None and path == folder:
                raise error
            return opens(path, *words, **named)

        return open_or_fail


@needs.needs(*needs.LIBRARY)
class OfTheLibrary(TestWithKeys):
    """Commands that ask the library write no case, sequence, picture or certificate over a file that they read."""

    def setUp(self):
        super().setUp()
        self.settings["SPKI_LIBRARY"] = built.shared()

    def test_no_answer_is_written_over_an_input(self):
        os.link(self.at("acl.sexp"), self.at("hard"))
        os.symlink("acl.sexp", self.at("soft"))
        asks = ("ask", "--acl", "acl.sexp", "--key", "bob.pub", "--cert", "to-bob")
        for option in ("--save", "--sequence", "--svg"):
            for name in ("acl.sexp", "hard", "soft", "bob.pub", "to-bob"):
                self.changes_nothing(*asks, "--force", option, name, "--", "packages", "read", message="reads this file")
        self.changes_nothing(*asks, "--save", "new", "--svg", "./new", "--", "packages", "read", message="to one file")
        signs = ("sign", "--by", "bob", "--to", "carol.pub", "--tag", "(packages read)", "--days", "1")
        self.changes_nothing(*signs, "--chain", "to-bob", "--force", "-o", "to-bob", message="reads this file")


class OfArguments(TestWithKeys):
    """The words of a command: no option is abbreviated, and what is a mistake leaves no certificate."""

    def test_no_option_is_abbreviated(self):
        for name, options in arguments.commands_with_options().items():
            for option in (option for option in options if option.startswith("--")):
                for end in range(len("--x"), len(option)):
                    if option[:end] not in options:
                        self.assertIn("no such option", self.cert(name, option[:end], "x", wanted=2))
        self.assertIn("is `--named` meant?", self.sign("--name", "x", "-o", "c", wanted=2))

    def test_a_set_of_whole_tags_is_signed_without_a_warning(self):
        self.sign("-o", "c.sexp", tag="(* set (packages read) (packages write))")  # (status 0: a tag that is probably a mistake has 4)

    def test_a_command_with_a_mistake_writes_no_certificate(self):
        """No command of `mistakes.OF_WORDS` writes the file c.sexp. Each ends with the status and the words of its row."""
        for row in mistakes.OF_WORDS:
            self.write("authorized_keys", b"".join(public + b"\n" for _, public in self.pairs.values()))
            self.write("altered", octets_in(self.at("to-bob")).replace(b"(packages read)", b"(packages)"))
            self.write("braces", b"{%s}" % base64.b64encode(sexp.canonical(value_in(octets_in(self.at("to-bob"))).value)))
            with self.subTest(row.what):
                output = self.cert(*row.words, wanted=row.status)
                self.assertIn(row.said, output)
                self.assertNotIn("c.sexp", os.listdir(self.room))


class OfKeyFiles(TestWithKeys):
    """Files that people have, most of them of keys: what is read in them, and what is said of them."""

    def test_the_option_key_chooses_one_of_several_keys(self):
        lines = [b"# alice's keys", b'from="10.0.0.0/8",command="echo #" ' + self.pairs["alice"][1] + b" alice", b"", self.pairs["bob"][1]]
        self.write("authorized_keys", b"\n".join(lines))
        for number, name in ((1, "alice"), (2, "bob")):
            self.assertEqual(self.cert("key", "--key", str(number), "authorized_keys"), self.cert("key", f"{name}.pub"))
            self.sign("--key", str(number), "--force", "-o", "c.sexp", by="carol", to="authorized_keys")
            self.assertEqual(sexp.laid_out(self.verify("c.sexp")[0].terms.subject) + "\n", self.cert("key", f"{name}.pub"))
        self.assertIn("2 keys are in this file", self.cert("ask", "--acl", "acl.sexp", "--key", "authorized_keys", "--", "packages", wanted=2))
        self.assertIn("authorized_keys: 2 public keys", self.cert("check", "authorized_keys"))

    @needs.needs("ssh-keygen")
    def test_the_public_part_needs_no_passphrase(self):
        subprocess.run(["ssh-keygen", "-q", "-t", "ed25519", "-N", "sesame", "-f", self.at("locked")], check=True, stdin=subprocess.DEVNULL)
        self.assertEqual(self.cert("key", "locked"), self.cert("key", "locked.pub"))
        self.assertIn("locked: a private key, Ed25519", self.cert("check", "locked"))
        with mock.patch("importlib.util.find_spec", return_value=None):  # (as if bcrypt were not installed)
            self.assertIn("encrypted OpenSSH keys need python3-bcrypt", self.sign("-o", "c.sexp", by="locked", wanted=2))

    def test_a_key_that_others_may_read_is_reported(self):
        os.chmod(self.at("alice"), 0o644)
        self.assertIn("its mode is 644; chmod 600 alice", self.sign("-o", "c.sexp", wanted=4))
        self.assertFalse(os.path.exists(self.at("c.sexp")))
        self.write("private.sexp", f"(private-key (ecc (curve Ed25519) (flags eddsa) (q \"\") (d #{'00' * 32}#)))")
        os.chmod(self.at("private.sexp"), 0o640)
        self.assertIn("its mode is 640", self.cert("check", "private.sexp", wanted=1))

    def test_the_message_about_another_curve(self):
        from cryptography.hazmat.primitives.asymmetric import ec
        private = ec.generate_private_key(ec.SECP521R1())
        self.write("p521", keys.file_of(private, b""))
        self.write("p521.pub", keys.openssh_line(private.public_key()))
        for name in ("p521", "p521.pub"):
            self.assertIn("ECDSA with the curve P-256 or P-384 are used", self.cert("key", name, wanted=2))
            self.assertIn("ECDSA with the curve P-256 or P-384 are used", self.sign(by=name, wanted=2))

    def test_the_message_about_a_key_of_dsa(self):
        """The message comes without a warning of a library. The file has a key of DSA in its whole form, with invented numbers."""
        parts = [b"ssh-dss", *(number.to_bytes(number.bit_length() // 8 + 1, "big") for number in (2**1023 + 1, 2**159 + 1, 2, 4))]
        octets = b"".join(len(part).to_bytes(4, "big") + part for part in parts)
        self.write("dsa.pub", b"ssh-dss " + base64.b64encode(octets) + b" x\n")
        for words in (("check", "dsa.pub"), ("key", "dsa.pub")):
            done = subprocess.run([sys.executable, COMMAND, *words], cwd=self.room, capture_output=True, text=True)
            self.assertIn("this is a key of DSA; only Ed25519", done.stdout + done.stderr)
            self.assertEqual((done.returncode, "Warning" in done.stderr), (2, False), done.stderr)

    def test_the_file_that_is_named_is_read(self):
        """`check` reads a file of any name, but passes over a fifo in a folder. It says which file or folder it cannot read, and what a file has."""
        self.write("acl.conf", "(acl")
        self.assertIn("acl.conf:1:5: refused: form Short", self.cert("check", "acl.conf", wanted=2))
        self.write("acl.conf", "(acl)")
        self.assertIn("acl.conf: an access list, entries: 0", self.cert("check", "acl.conf"))
        self.assertIn("no file that can be read", self.cert("check", "none", wanted=2))
        os.mkfifo(self.at("folder/fifo"))
        self.cert("check", "folder")
        with mock.patch("os.scandir", side_effect=PermissionError(13, "Permission denied", "folder")):
            self.assertIn("folder: this folder cannot be read: Permission denied", self.cert("check", "folder", wanted=2))
        for name, kind in (("alice", "a private key, Ed25519"), ("bob.pub", "a public key, Ed25519"), ("to-bob", "a sequence, certificates: 1")):
            self.assertIn(f"{name}: {kind}", self.cert("check", name))
        self.write("case", '(case (acl) (accepted) (sequence) (key (public-key (test a))) (request x) (at "2026-01-01_00:00:00"))')
        for words in (("key", "case"), ("entry", "--to", "bob.pub", "--remove", "--acl", "case")):
            self.changes_nothing(*words, message="this is a whole case, and")


class OfChains(TestWithKeys):
    """The search for chains: the certificates that lead from an entry to a key."""

    def sequences(self, count):
        """Values of sequences with one certificate: `count` that bob issues for himself, one of bob for carol, and the one of alice for bob."""
        own = [self.sequence("bob", "bob", number) for number in range(count)]
        return [*own, self.sequence("bob", "carol", 0), value_in(octets_in(self.at("to-bob"))).value]

    def sequence(self, issuer, subject, number):
        """The value of a sequence with one certificate for `(packages)`. `issuer` and `subject` are names in `pairs`, `number` is its comment."""
        signer = keys.FileSigner(keys.read_private(self.pairs[issuer][0], lambda: b""))
        to = keys.read_public(self.pairs[subject][1], lambda: b"")
        certificate = [b"cert", [b"issuer", signer.key], [b"subject", to], [b"propagate"], [b"tag", [b"packages"]], [b"comment", b"%d" % number]]
        signature = [b"signature", keys.hash_of(certificate), signer.key, signer.sign(sexp.canonical(certificate))]
        return [b"sequence", certificate, signature]

    def test_the_search_is_bounded(self):
        """The search ignores what a key issues for itself, so it finds the only chain in under 100 of 20,000 steps: `to-bob`, without a comment, and
        bob's certificate for carol, with the comment 0. Among 40 keys that each issue for all of them the search ends when no steps are left."""
        holder = keys.read_public(self.pairs["carol"][1], lambda: b"")
        entries = certificates.entries_of(value_in(octets_in(self.at("acl.sexp"))).value)
        signed = [each for sequence in self.sequences(12) for each in certificates.certificates_in(sequence)]
        steps = certificates.Steps()
        chains = list(certificates.chains(entries, signed, certificates.Keys(), holder, steps))
        self.assertEqual([[each.terms.comment for each in chain] for chain in chains], [["", "0"]])
        self.assertLess(steps.most - steps.left, 100)
        net = [[b"public-key", [b"test", b"%d" % number]] for number in range(40)]
        terms = [certificates.terms_of([b"cert", [b"issuer", issuer], [b"subject", subject], [b"tag", [b"*"]]]) for issuer in net for subject in net]
        signed = [certificates.Signed(each, signature=b"", number=1) for each in terms]
        entry = certificates.terms_of([b"entry", net[0], [b"tag", [b"*"]]])
        steps = certificates.Steps()
        self.assertEqual(list(certificates.chains([entry], signed, certificates.Keys(), holder, steps)), [])
        self.assertLess(steps.left, 0)


@needs.needs(*needs.LIBRARY)
class OfTheRightOfAChain(OfChains):
    """`sign --chain`, by which the library decides what the chain gives to the issuer, and the search of `ask` among many certificates."""

    # (needs no library: OfChains runs it)
    test_the_search_is_bounded = None

    def setUp(self):
        super().setUp()
        self.settings["SPKI_LIBRARY"] = built.shared()

    def sign_behind(self, *words, by="bob", to="carol.pub", tag="(packages read)", chain="to-bob", wanted=0):
        """Runs `spki-cert sign --chain`: `by` signs c.sexp, behind the chain in a file. The status must be `wanted`. Returns what it writes."""
        return self.sign("--chain", chain, "--force", "-o", "c.sexp", *words, by=by, to=to, tag=tag, wanted=wanted, days=("--days", "5"))

    def test_what_the_issuer_has_is_signed(self):
        """Bob delegates a tag that his chain gives him, or a part of it, also where Alice gave it to a name that is his."""
        for tag in ("(packages read)", "(packages read (* set b a))", "(packages read (* prefix /web/))"):
            self.sign_behind(tag=tag)
            self.assertEqual(len(self.verify("c.sexp")), 2)
        self.cert("name", "--by", "alice", "--name", "team", "--to", "bob.pub", "--days", "9", "-o", "named")
        self.cert("sign", "--by", "alice", "--named", "team", "--tag", "(packages (* set write read))", "--propagate", "--days", "9", "-o", "to-team")
        team, name = (value_in(octets_in(self.at(file))).value for file in ("to-team", "named"))
        self.write("both", sexp.laid_out([*team, *name[1:]]))
        self.sign_behind(chain="both", tag="(packages (* set read write))")

    def test_what_the_issuer_cannot_give_is_not_signed(self):
        """A right that the chain does not give to the issuer is signed only with `--anyway`, not with `--yes`. The message comes in each case."""
        text = octets_in(self.at("to-bob"))
        self.write("changed", text.replace(b"(packages read)", b"(packages)"))
        # (changes a bit in the first octet, in hexadecimal, of the signature's field `s`)
        self.write("tampered", re.sub(rb"(\(s\s+#)(..)", lambda match: match[1] + b"%02x" % (int(match[2], 16) ^ 1), text))
        self.write("none", "(sequence)")
        self.cert("sign", "--by", "alice", "--to", "bob.pub", "--tag", "(packages read)", "--days", "30", "-o", "no-more")
        for words, message in [
                ({"chain": "changed"}, "DigestDiffers"), ({"chain": "tampered"}, "NotAccepted"), ({"chain": "none"}, "has no certificate"),
                ({"by": "carol", "to": "alice.pub"}, "NotIssuer"), ({"chain": "no-more"}, "bob may not delegate"),
                ({"tag": "(package read)"}, "NoTag"),
                ({"tag": "(packages)"}, "the chain gives only `(packages read)`"), ({"tag": "(packages (* set read write))"}, "gives only")]:
            with self.subTest(message):
                for more in ((), ("--yes",)):
                    self.assertIn(message, self.sign_behind(*more, wanted=4, **words))
                self.assertFalse(os.path.exists(self.at("c.sexp")))
                self.assertIn(message, self.sign_behind("--anyway", **words))
                os.remove(self.at("c.sexp"))

    def test_without_the_library_a_chain_gives_nothing(self):
        """Where it is not known what the chain gives, a certificate is signed only with `--anyway`, not with `--yes`."""
        with mock.patch.dict(sys.modules, {"spki": None}):
            self.assertIn("the library decides, and is not here", self.sign_behind("--yes", wanted=4))
            self.assertFalse(os.path.exists(self.at("c.sexp")))
            self.sign_behind("--anyway")

    def test_a_chain_that_ends_earlier_or_lacks_the_request_warns(self):
        words = ("sign", "--by", "bob", "--to", "carol.pub", "--tag", "(packages read)", "--chain", "to-bob", "--days", "40", "-o", "c.sexp")
        self.assertIn("item 1 of the chain ends earlier", self.cert(*words, wanted=4))
        self.cert(*words, "--yes")
        self.assertIn("item 1 of the chain: its tag does not contain the request `(packages write)`", self.cert(
            *words, "--try", "packages", "write", wanted=4))

    def test_a_right_for_the_same_days_does_not_warn(self):
        """`--days` counts whole days, so it does not warn if the chain ends less than a day before. `--until` means its moment exactly."""
        moment = datetime.datetime.now(datetime.timezone.utc) + datetime.timedelta(30)
        near, far, later = ((moment + datetime.timedelta(hours=hours)).strftime("%Y-%m-%d_%H:%M:%S") for hours in (-23, -25, 1))
        for ends, limit, warns in ((near, ("--days", "30"), False), (far, ("--days", "30"), True), (near, ("--until", later), True)):
            with self.subTest(ends=ends, limit=limit):
                signs = "sign", "--tag", "(packages)", "--force", "-o"
                self.cert(*signs, "b.sexp", "--by", "alice", "--to", "bob.pub", "--propagate", "--until", ends)
                output = self.cert(*signs, "c.sexp", "--by", "bob", "--to", "carol.pub", "--chain", "b.sexp", *limit, wanted=4 if warns else 0)
                self.assertEqual("item 1 of the chain ends earlier" in output, warns, output)

    def test_certificates_of_a_key_for_itself_are_no_burden(self):
        """Many certificates of bob for bob do not keep the search from the right chain. If it stops at a bound of steps or chains, a line says so."""
        os.mkdir(self.at("many"))
        for number, sequence in enumerate(self.sequences(12)):
            self.write(f"many/{number}", sexp.laid_out(sequence))
        asks = ("ask", "--acl", "acl.sexp", "--key", "carol.pub", "--cert", "many", "--")
        self.assertIn("so entry 1 grants it", self.cert(*asks, "packages", "read"))
        self.assertIn("TagLacks", self.cert(*asks, "mail", wanted=1))
        # (`left`, the first field of the dataclass, has `most` as its default, by which `__init__` was made: both are replaced)
        with mock.patch.object(certificates.Steps, "most", 1), mock.patch.object(certificates.Steps.__init__, "__defaults__", (1, False)):
            self.assertIn("the search for chains ended after 1 steps", self.cert(*asks, "packages", "read", wanted=1))
        self.write("many/other", sexp.laid_out(self.sequence("bob", "carol", 99)))  # (which makes a second chain)
        for most, is_cut in ((1, True), (2, False)):
            with mock.patch.object(asking, "MOST_CHAINS", most):
                output = self.cert(*asks, "mail", wanted=1)
            self.assertEqual(f"ended after 20,000 steps or {most} chains: give only the certificates of the chain" in output, is_cut, output)


# ---- streams, signals, random words


class Child:
    """`spki-cert` in a forked child of this process: it has streams and signals of its own, and starts faster than a new Python."""

    def __init__(self, room, words, settings, stdin="/dev/null", stdout=None, before=lambda: None):
        """Starts `spki-cert` with these words, in the folder `room`, with the environment `settings`. `stdin` is a path, and `stdout` a function that
        opens a file: None is a stream that is closed. `before` is called in the child right before the command. An exception gives the status 99."""
        self.errors = tempfile.TemporaryFile()
        self.process = os.fork()
        if self.process == 0:
            try:
                # (the child has no terminal, where it could ask for a passphrase, and ends if it hangs)
                os.setsid()
                signal.alarm(SECONDS)
                os.chdir(room)
                os.environ.clear()
                os.environ.update(settings)
                sys.argv = ["spki-cert", *words]
                os.dup2(self.errors.fileno(), 2)
                sys.stderr = open(2, "w", encoding="utf-8", closefd=False)
                sys.stdin = open(stdin, encoding="utf-8") if stdin else None
                sys.stdout = stdout() if stdout else None
                before()
                commands.run()
            except BaseException:
                import traceback
                os.write(2, traceback.format_exc().encode())
            finally:
                os._exit(99)

    def wait(self):
        """Waits until the command has ended: SIGALRM ends one that hangs. Returns its status, or minus a signal's number, and its standard error."""
        status = os.waitstatus_to_exitcode(os.waitpid(self.process, 0)[1])
        self.errors.seek(0)
        with self.errors:
            return status, self.errors.read().decode(errors="replace")


def writing_to(path, encoding="utf-8"):
    """Returns a function without arguments that opens the file of a path for writing: the `stdout` of a `Child`."""
    return lambda: open(path, "w", encoding=encoding)


class OfStreams(TestWithKeys):
    """What commands say if a stream is closed, full, at its end or of another encoding. `EACH` has command lines, as words, by a name for each."""

    EACH = {"key": ("key", "alice.pub"), "key new": ("key", "new", "--no-passphrase", "new"), "check": ("check", "acl.sexp"),
            "sign": ("sign", "--by", "alice", "--to", "bob.pub", "--tag", TAG, "--days", "1"), "show": ("show", "to-bob"),
            "name": ("name", "--by", "alice", "--to", "bob.pub", "--name", "x", "--days", "1"), "completion": ("completion",),
            "entry": ("entry", "--to", "bob.pub", "--tag", TAG), "help": ("sign", "--help"), "version": ("--version",)}

    def test_a_closed_or_full_output_is_reported(self):
        for name, words in self.EACH.items():
            for message, stdout in (("is closed", None), ("No space left", writing_to("/dev/full"))):
                with self.subTest(name=name, message=message):
                    for new in ("new", "new.pub"):  # (`key new` writes over no file)
                        pathlib.Path(self.at(new)).unlink(missing_ok=True)
                    status, errors = Child(self.room, words, self.settings, stdout=stdout).wait()
                    self.assertEqual((status, errors.count("\n")), (3, 1), errors)
                    self.assertRegex(errors, f"^spki-cert: standard output: .*{message}")

    def test_a_closed_or_full_output_is_reported_in_a_shell(self):
        for flags, redirection, message in (("-B", ">&-", "is closed"), ("-B", "> /dev/full", "No space left"), ("-uB", "> out", "File too large")):
            command = f"ulimit -f 1; '{sys.executable}' {flags} '{COMMAND}' --help {redirection}"  # (a file has at most one block; -u: no buffer)
            done = subprocess.run(["sh", "-c", command], cwd=self.room, capture_output=True, text=True)
            self.assertEqual((done.returncode, message in done.stderr, "Traceback" in done.stderr), (3, True, False), done.stderr)

    def test_what_an_output_cannot_show_is_escaped(self):
        """What the encoding of standard output lacks is escaped: here ü, where it is ASCII. A control character of a label is escaped in any
        encoding, and ä is not where the encoding has it. An octet of the command line that is no UTF-8 is shown as U+FFFD, which is escaped too. (A
        key has the first label that is found, so carol.pub is removed: x.pub has the same key.)"""
        self.cert("sign", "--by", "alice", "--to", "bob.pub", "--tag", TAG, "--days", "1", "--comment", "für Bob\udcff", "-o", "c.sexp")
        self.write("x.pub", self.pairs["carol"][1] + " \x1b[2Jcarol ä".encode())
        status, errors = Child(self.room, ("show", "--labels", ".", "c.sexp"), self.settings, stdout=writing_to("out", "ascii")).wait()
        self.assertEqual((status, errors), (0, ""))
        self.assertIn(b"f\\xfcr Bob\\ufffd", octets_in(self.at("out")))
        self.sign("-o", "d.sexp", to="x.pub")
        os.remove(self.at("carol.pub"))
        self.assertIn("\\x1b[2Jcarol ä", self.cert("show", "--labels", ".", "d.sexp"))

    def test_the_end_of_the_input_at_a_passphrase(self):
        with mock.patch("getpass.getpass", side_effect=EOFError), mock.patch.object(files, "open", mock.mock_open(), create=True), \
                mock.patch("termios.tcgetattr"):  # (in place of a terminal: its file and its settings)
            self.assertIn("the input ended where", self.cert("key", "new", "new", wanted=2))


class OfSignals(TestWithKeys):
    """Signals that a command gets while it waits or writes a file. With the words of `WAITING` it waits for input, or for its output to be read."""

    WAITING = {"key": ("key", "-"), "sign": ("sign", "--by", "-", "--to", "bob.pub", "--tag", TAG, "--days", "1", "-o", "c.sexp"),
               "name": ("name", "--by", "-", "--to", "bob.pub", "--name", "x", "--days", "1", "-o", "c.sexp"), "show": ("show", "-"),
               "entry": ("entry", "--to", "bob.pub", "--tag", TAG, "--acl", "-"), "check": ("check", "-"),
               "ask": ("ask", "--acl", "acl.sexp", "--key", "-", "--", "x"), "key new": ("key", "new", "--no-passphrase", "new"),
               "completion": ("completion",)}

    def test_signals_to_sign_name_entry_and_key_new(self):
        self.check_signals("sign", "name", "entry", "key new")

    def test_signals_to_other_commands(self):
        self.check_signals("key", "show", "check", "ask", "completion")

    def check_signals(self, *names):
        """Sends each signal to these commands while they wait for input, or for their output to be read. One of `commands.ENDING` must end each with
        status 3 and a line that says so. Others may end it, without a traceback. No file changes, and only `new` and `new.pub` may appear."""
        before = self.contents()
        # (without the two that no program can handle, and of the real-time signals only the first and the last)
        signals = sorted(signal.valid_signals() - {signal.SIGKILL, signal.SIGSTOP} - set(range(signal.SIGRTMIN + 1, signal.SIGRTMAX)))
        for name in names:
            for number in signals:
                status, errors = self.send_signal(self.WAITING[name], number)
                is_ending = number in commands.ENDING
                with self.subTest(name=name, number=number):
                    self.assertNotIn("Traceback", errors)
                    self.assertIn(status, (3,) if is_ending else (0, 2, 3, -number), errors)
                    self.assertEqual("ended by" in errors, is_ending, errors)
                self.assertLessEqual(set(os.listdir(self.room)) - set(before), {"folder", "new", "new.pub"})  # (`before` has no folders)
                for new in ("new", "new.pub"):
                    pathlib.Path(self.at(new)).unlink(missing_ok=True)
        self.assertEqual(before, self.contents())

    def send_signal(self, words, number):
        """Sends a signal to a command when it waits, and then ends its wait. Returns its status, and what it has written to standard error."""
        # (the child writes to `is_ready` when it waits, and then reads from `hang`, which ends when this process closes `release`)
        (ready, is_ready), (hang, release) = os.pipe(), os.pipe()

        def before():
            """Has the child wait when it reads its input or writes its output."""
            os.close(release)
            # (a shell starts what runs in the background with SIGINT and SIGQUIT ignored, and the child inherits that)
            signal.signal(number, signal.SIG_DFL)

            def wait(*_):
                os.write(is_ready, b"x")
                return os.read(hang, 1)
            sys.stdin = mock.Mock(buffer=mock.Mock(read=wait), fileno=lambda: hang)
            sys.stdout = mock.Mock(encoding="ascii", buffer=mock.Mock(write=lambda octets: len(octets) + len(wait())))
        child = Child(self.room, words, self.settings, before=before)
        os.close(is_ready)  # (so that `read` returns if the child has ended and was never ready)
        os.read(ready, 1)
        os.kill(child.process, number)
        os.kill(child.process, signal.SIGCONT)  # (a signal may have stopped the child)
        os.close(release)
        outcome = child.wait()
        for handle in (ready, hang):
            os.close(handle)
        return outcome

    def test_a_file_is_whole_when_a_signal_comes(self):
        """A signal that comes while the file is written, at each of three calls, ends the command once the file is whole and in its place."""
        for call in ("fsync", "fchmod", "link"):
            def before(call=call, real=getattr(os, call)):
                """In the child, has this function of `os` send SIGTERM to the process before it does its work."""
                def signal_and_call(*words):
                    os.kill(os.getpid(), signal.SIGTERM)
                    return real(*words)
                signal.signal(signal.SIGTERM, signal.SIG_DFL)
                setattr(os, call, signal_and_call)
            words = ("sign", "--by", "alice", "--to", "bob.pub", "--tag", TAG, "--days", "1", "-o", f"{call}.sexp")
            status, errors = Child(self.room, words, self.settings, before=before).wait()
            self.assertEqual((status, errors), (3, "spki-cert: ended by SIGTERM\n"))
            self.verify(f"{call}.sexp")
        self.assertEqual([name for name in os.listdir(self.room) if name.startswith(".")], [])


class OfRandomWords(TestWithKeys):
    """Whatever words, files and streams a command gets, it ends with a status of the manual and loses no file."""

    # Options behind which a command has a file that it writes, and for each command the words behind which it has one that it reads. For a command
    # that INPUTS does not have, these are --by, --to and --chain.
    OUTPUTS = ("-o", "--output", "--save", "--sequence", "--svg", "--acl")
    INPUTS = {"key": ("--hash", "--json", "--force", "key"), "show": ("--force", "--json", "--braces", "show", "--labels"),
              "ask": ("--acl", "--key", "--cert", "--labels", "--case"), "entry": ("--to",)}
    # Words that an option or a command may get, and likely commands.
    VALUES = ("(packages read)", "(*", "(* prefix /)", "x", "", "-", "--", "7", "0", "2099-01-01", "2020-01-01", "\udcff\udc80", "ä", "a\nb",
              "9" * 30, "(hash sha256 #00#)", "(name x)", ".", "folder", "none", "none/x", "/dev/null", "/dev/full", "ed25519", "c.sexp", "link",
              "alice", "alice.pub", "bob", "bob.pub", "acl.sexp", "to-bob", "keys", "wild", "wild.pub", "wild.sexp", "carol", "carol.pub")
    LIKELY = (*OfStreams.EACH.values(), ("entry", "--to", "bob.pub", "--tag", TAG, "--acl", "acl.sexp"), ("check", "."),
              ("entry", "--remove", "--to", "alice.pub", "--acl", "acl.sexp"), ("show", "--svg", "c.svg", "acl.sexp"), ("key", "--json", "wild"),
              ("ask", "--acl", "acl.sexp", "--key", "bob.pub", "--cert", ".", "--save", "c.sexp", "--", "packages", "read"),
              ("sign", "--by", "bob", "--to", "carol.pub", "--chain", "to-bob", "--tag", TAG, "--days", "1", "-o", "c.sexp"),
              ("sign", "--by", "wild", "--to", "wild.pub", "--tag", TAG, "--days", "1", "--yes", "-o", "c.sexp"),
              ("show", "--labels", ".", "wild.sexp"),
              ("sign", "--by", "alice", "--to", "bob.pub", "--tag", TAG, "--days", "1", "-o", "c.sexp"), ("key", "--hash", "c.key", "-o", "new"))

    def setUp(self):
        super().setUp()
        self.write("keys", b"\n".join(public for _, public in self.pairs.values()))
        self.write("c.sexp", "(acl)")
        self.write("c.key", self.cert("key", "bob.pub"))
        os.symlink("acl.sexp", self.at("link"))
        # (the octets from which `random_octets` makes others)
        self.sources = [octets_in(self.at(name)) for name in ("alice", "alice.pub", "acl.sexp", "to-bob", "keys")]
        # (where no library is tested, or it is not built, the commands that ask it say that it is not here)
        if not built.IS_ALONE and os.path.exists(os.environ.get("SPKI_TEST_LIBRARY", built.LIBRARY)):
            self.settings["SPKI_LIBRARY"] = built.shared()

    def random_words(self, rng):
        """Random words of a command line. One in five has any options and values of a command, and the others are a likely one. Then `--force` may be
        added, up to three words are replaced or inserted, and a file that is written may become a file that the command names, or any value."""
        options_of = arguments.commands_with_options()
        if rng.random() < 0.2:
            name = rng.choice(list(options_of))
            words = [name, *(rng.choice([rng.choice([*options_of[name], "x"]), rng.choice(self.VALUES)]) for _ in range(rng.randrange(8)))]
        else:
            words = list(rng.choice(self.LIKELY))
        words[1:1] = ["--force"] * (rng.random() < 0.4)
        for _ in range(rng.choice((0, 0, 1, 1, 2, 3))):
            place, value = rng.randrange(1, len(words) + 1), rng.choice([*self.VALUES, *options_of.get(words[0], [])])
            words[place:place + rng.randrange(2)] = [value]
        outputs = [place + 1 for place, word in enumerate(words[:-1]) if word in self.OUTPUTS]
        if outputs and rng.random() < 0.4:
            words[rng.choice(outputs)] = rng.choice([word for word in words if os.path.isfile(self.at(word))] or self.VALUES)
        return words

    def random_octets(self, rng):
        """Random octets for a file: in four of five cases those of one of `sources`, else any. Then some may be replaced, left out or added."""
        octets = bytearray(rng.choice(self.sources) if rng.random() < 0.8 else rng.randbytes(rng.randrange(200)))
        for _ in range(rng.randrange(5)):
            place = rng.randrange(len(octets) + 1)
            octets[place:place + rng.choice((0, 1, 1, 30))] = rng.choice((b"", b"(", b")", b"\0", b"\xff", b'"', b"#", b"9", octets[:50]))
        return bytes(octets)

    def test_nothing_is_lost(self):
        """Commands with random words, files and streams, in children of this process. `check_run` says what must hold."""
        rng, before = random.Random(SEED), self.contents()
        for number in range(RUNS):
            words, wild = self.random_words(rng), {name: self.random_octets(rng) for name in ("wild", "wild.pub", "wild.sexp")}
            for name, octets in wild.items():
                self.write(name, octets)
            stdin = rng.choice(("/dev/null", self.at("alice"), self.at("acl.sexp"), self.at("wild"), None))
            stdout = rng.choice((*[writing_to(os.devnull)] * 2, writing_to(os.devnull, "ascii"), writing_to("/dev/full"), None))
            with self.subTest(number=number, words=words):
                status, errors = Child(self.room, words, self.settings, stdin, stdout).wait()
                self.check_run(words, status, errors, {**before, **wild})

    def test_nothing_is_lost_by_the_program(self):
        """As `test_nothing_is_lost`, but each run is a new process of the program. That takes longer, so the runs are fewer."""
        rng, before = random.Random(SEED + " starts"), self.contents()
        for number in range(STARTS):
            words, wild = self.random_words(rng), {"wild": self.random_octets(rng)}
            self.write("wild", wild["wild"])
            done = subprocess.run([sys.executable, COMMAND, *words], cwd=self.room, env=self.settings, stdin=subprocess.DEVNULL,
                                  stdout=subprocess.DEVNULL, stderr=subprocess.PIPE, start_new_session=True, timeout=SECONDS)
            with self.subTest(number=number, words=words):
                self.check_run(words, done.returncode, done.stderr.decode(errors="replace"), {**before, **wild})

    def check_run(self, words, status, errors, before):
        """A command must have ended with a status of the manual, and without a traceback, a changed input, a lost key or a half file. `before` has
        the octets of each file by its name: restores these files, and removes others."""
        after, may_change = self.contents(), {value for option, value in zip(words, words[1:]) if option in self.OUTPUTS}
        if "link" in may_change:
            may_change.add("acl.sexp")
        changed = {name for name in before if after.get(name) != before[name]}
        written = {name: after[name] for name in after if before.get(name) != after[name]}
        for name in set(after) - set(before):
            os.remove(self.at(name))
        for name in changed:
            self.write(name, before[name])
        self.assertIn(status, range(5), errors)
        self.assertNotIn("Traceback", errors)
        self.assertNotIn("a fault of spki-cert", errors)
        may_write_over = "--force" in words or words[0] == "entry"
        self.assertTrue(not changed or changed <= may_change and may_write_over, f"{changed} {errors}")
        inputs = {word for option, word in zip(words, words[1:]) if option in self.INPUTS.get(words[0], ("--by", "--to", "--chain"))}
        # (no changed file may be an input: also not by the link to acl.sexp, or in `.`, the whole folder)
        names_of_changed = {".", "link", *changed} if "acl.sexp" in changed else {".", *changed}
        self.assertFalse(changed and inputs & names_of_changed, f"{changed} {errors}")
        self.assertFalse({"alice", "bob", "carol", "alice.pub", "bob.pub", "carol.pub", "keys"} & changed, errors)
        for name, octets in written.items():
            self.assertFalse(name.startswith(".spki"), name)
            if octets.startswith(ending.HEAD):  # (a file of ended certificates, which is whole if it has this last line)
                self.assertRegex(octets, rb"\nend \d+ [0-9a-f]{64}\n\Z")
                continue
            # (the keys of several files are several values)
            if not octets.startswith((b"<svg", b"ssh-", b"ecdsa-", b"-----BEGIN", b"[")):
                value_in(b"(" + octets + b")")
