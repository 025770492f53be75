#!/usr/bin/env python3
"""Reads by `spki` what lsh's tools and nettle's `sexp-conv` write about keys, and asks with it.

Makes keys by `lsh-keygen`, splits and locks them by `lsh-writekey`, lets `lsh-authorize` put them on its list, and goes to OpenSSH's
form and back by `lsh-export-key` and `ssh-conv`, all in an empty home. `examples/lsh/captured` is what `lsh --capture-to` wrote of a
host's key. docs/PEERS.md says what is alike and what is not. Prints a line for each thing that is tried. The last line is 'N passed, M failed',
which the tests read.

Build the program first (`rt run` in crates/spki), and install the tools (Debian: lsh-utils, nettle-bin).
Usage: examples/lsh.py [PROGRAM]
"""
import os
import shutil
import subprocess
import sys
import tempfile

HERE = os.path.dirname(os.path.abspath(__file__))
sys.path.append(os.path.join(HERE, "..", "tests"))
from shared import canonical, given_program, read, run  # noqa: E402

PROGRAM = given_program()
TOOLS = ("lsh-keygen", "lsh-writekey", "lsh-authorize", "lsh-export-key", "ssh-conv", "sexp-conv")
SECONDS = 120


class Home:
    """An empty home, a folder of its own for HOME, in which the tools of lsh and nettle are run."""

    def __init__(self, folder):
        """Makes the home in a folder, which must be empty: with a seed of random numbers, which lsh's tools need."""
        self.folder = folder
        self.settings = {**os.environ, "HOME": folder, "LOGNAME": "someone"}
        os.mkdir(os.path.join(folder, ".lsh"))
        # (lsh-make-seed wants to watch somebody type; a seed is 32 random octets that only their owner may read)
        seed = os.open(os.path.join(folder, ".lsh", "yarrow-seed-file"), os.O_WRONLY | os.O_CREAT, 0o600)
        os.write(seed, os.urandom(32))
        os.close(seed)

    def run(self, words, text=b""):
        """The octets that a program writes to its standard output, run in the home with `text` as its input. `words` are its name and arguments. Its
        status is not looked at: `main` counts an empty output as a failure. Raises `TimeoutExpired` if it does not end within SECONDS."""
        return subprocess.run(words, input=text, stdout=subprocess.PIPE, stderr=subprocess.DEVNULL, cwd=self.folder, env=self.settings,
                              timeout=SECONDS).stdout

    def file(self, name):
        """The octets of a file of the home. Raises `FileNotFoundError` if it is not there, as where a tool has failed."""
        with open(os.path.join(self.folder, name), "rb") as file:
            return file.read()

    def key_files(self, name, options):
        """Makes a key by `lsh-keygen` with these options, and writes it to files called `name`. Returns the octets of each, by what it is: as it was
        made, its private half as it is and locked by a password, its public half."""
        key = self.run(["lsh-keygen", *options])
        self.run(["lsh-writekey", "-c", "none", "-l", "a label", "-o", name], key)
        self.run(["lsh-writekey", "-c", "aes256-cbc", "-p", "secret", "-l", "a label", "-o", f"{name}.locked"], key)
        return {"as it was made": key, "private": self.file(name), "locked": self.file(f"{name}.locked"), "public": self.file(f"{name}.pub")}

    def authorize(self, name):
        """Has `lsh-authorize` put the public key of `name`, as `key_files` has it, on its list, a folder. Returns the name of the file that it makes
        there, and its octets. Raises `ValueError` or `FileNotFoundError` if it makes none."""
        folder = os.path.join(".lsh", "authorized_keys_sha1")
        path = os.path.join(self.folder, folder)
        before = set(os.listdir(path)) if os.path.exists(path) else set()
        self.run(["lsh-authorize", f"{name}.pub"])
        (new,) = set(os.listdir(path)) - before
        return new, self.file(os.path.join(folder, new))


def spki(command, text):
    """The answer of a command of `spki` to a text, as octets. The status is not looked at."""
    return run(PROGRAM, command, text)[1]


def check(access_list, key, request=b"login", policy=b""):
    """The answer of `spki check` on a case without certificates, as a line. The parts are octets of texts in any form but transport form. `policy` is
    `(policy strict)`, or empty to let SHA-1 name keys."""
    case = b"(case %s (accepted) (sequence) (key %s) (request %s) (at \"2026-03-01_12:00:00\") %s)"
    return spki("check", case % (access_list, key, request, policy)).decode().strip()


def list_of_hash(algorithm, digest):
    """An access list of one key, by its hash: an algorithm, and a digest in hexadecimal digits."""
    return f"(acl (entry (hash {algorithm} #{digest}#) (tag login)))".encode()


def tries_of_keys(home):
    """Yields what is tried with an RSA and a DSA key of `home`, a `Home`: a remark, the actual and the expected value. For RSA, the option -l of
    lsh-keygen is the number of bits, and for DSA a level of NIST: 0 has 512 bits. Short keys are made quickly, and nothing here is signed."""
    for name, options in (("RSA", ("-l", "1024")), ("DSA", ("-a", "dsa", "-l", "0"))):
        files = home.key_files(name, options)
        for kind, text in files.items():
            yield f"{name}, {kind}: read as sexp-conv reads it", spki("canonical", text), home.run(["sexp-conv", "-s", "canonical"], text)
        key = spki("canonical", files["public"])
        sha1, in_list = home.authorize(name)
        yield f"{name}: what lsh-authorize keeps is the public key in canonical form", in_list, key
        yield f"{name}: its name there is the SHA-1 hash that names the key", check(list_of_hash("sha1", sha1), key), "yes entry 1"
        yield f"{name}: but not under the strict policy", check(list_of_hash("sha1", sha1), key, policy=b"(policy strict)"), "no"
        sha256 = home.run(["sexp-conv", "--hash=sha256"], files["public"]).decode().strip()
        answer = check(list_of_hash("sha256", sha256), key, policy=b"(policy strict)")
        yield f"{name}: sexp-conv --hash=sha256 gives a hash that names it", answer, "yes entry 1"
        yield f"{name}: the private half is no key", check(b"(acl)", spki("canonical", files["private"])), "refused key Shape"
    exported = home.run(["lsh-export-key", "--openssh"], home.file("RSA.pub"))
    public = spki("canonical", home.file("RSA.pub"))
    yield "RSA: by way of OpenSSH's form it is the same key", spki("canonical", home.run(["ssh-conv"], exported)), public
    _, (algorithm, modulus, exponent) = read(public)
    yield "RSA: the modulus stands first", (algorithm, modulus[0], exponent[0]), (b"rsa-pkcs1-sha1", b"n", b"e")
    exponent_first = canonical([b"public-key", [algorithm, exponent, modulus]])
    yield "RSA: with the exponent first it is another key", check(b"(acl (entry %s (tag login)))" % exponent_first, public), "no"


def tries_of_captured_list(home):
    """Yields what is tried with the list of hosts that lsh wrote into lsh/captured: a remark, the actual and the expected output. Its one entry has
    the field `(subject KEY)`, where an access list of `spki` has the key itself."""
    with open(os.path.join(HERE, "lsh", "captured"), "rb") as file:
        text = file.read()
    # (a comment of lsh is in front of the list, which is in transport form)
    braces = text[text.index(b"{"):]
    yield "list: a remark in front is refused", spki("canonical", text), b"refused form Bad 1\n"
    yield "list: behind it, read as sexp-conv reads it", spki("canonical", braces), home.run(["sexp-conv", "-s", "canonical"], braces)
    # (`(acl (entry (subject KEY) TAG))`)
    _, (_, (_, key), tag) = read(spki("canonical", braces))
    request = canonical(tag[1])
    yield "list: a subject in a list of its own is refused", check(spki("canonical", braces), canonical(key), request), "refused acl 1 Shape"
    without_subject = canonical([b"acl", [b"entry", key, tag]])
    yield "list: without that it grants", check(without_subject, canonical(key), request), "yes entry 1"


def main():
    """Tries everything in an empty home, and prints a line for each try. Returns the exit status: 0 if each actual value is the expected one,
    otherwise 1. Ends with 1 too if one of TOOLS is not there."""
    for program in TOOLS:
        if shutil.which(program) is None:
            sys.exit(f"{program} is not there")
    passed = failed = 0
    with tempfile.TemporaryDirectory() as folder:
        home = Home(folder)
        for tries in (tries_of_keys, tries_of_captured_list):
            for remark, actual, wanted in tries(home):
                # (two tools that both write nothing, as when they fail, do not agree)
                is_good = actual == wanted and bool(actual)
                print(f"{'as wanted' if is_good else 'OTHERWISE':<10} {remark}{'' if is_good else f': {actual!r}, and not {wanted!r}'}")
                passed, failed = passed + is_good, failed + (not is_good)
    print(f"{passed} passed, {failed} failed")
    return 1 if failed else 0


if __name__ == "__main__":
    sys.exit(main())
