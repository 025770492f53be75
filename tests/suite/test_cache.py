"""The build cache of docs/GUIDE.md in C, Rust, Python and Go: each serves Bob, to whom Alice's certificate gives a part of her right, and answers the
same lines. The lines of each are counted without empty ones."""
import os
import subprocess
import sys
import unittest
from typing import TYPE_CHECKING

from harness import built, golang, needs
from harness.support import EXAMPLES, TOP, canonical, output_of, room_for, text_of

if TYPE_CHECKING:
    from spki_cert_tool.sexp import Value

SECONDS = 1800
CRATE, RUST, PYTHON = (os.path.join(TOP, *words) for words in (["crates", "spki_c"], ["bindings", "rust"], ["bindings", "python"]))
# The files, and the most lines that each may have.
FILES = {os.path.join(EXAMPLES, "c", "cache.c"): 80, os.path.join(RUST, "examples", "cache.rs"): 60, os.path.join(PYTHON, "examples", "cache.py"): 25,
         os.path.join(golang.MODULE, "examples", "cache", "main.go"): 47}
# What Bob sends and is answered. He may read and write below /builds/. A path that does not begin with `/`, ends with it, or has `..`, `.` or an
# empty part, is denied.
LINES = [("read /builds/a", "nothing is there"), ("write /builds/a octets of a", "written 11"), ("read /builds/a", "octets of a"),
         ("read /other", "denied"), ("write /secret x", "denied"), ("read /builds/../secret", "denied"), ("read /builds/./a", "denied"),
         ("read //builds/a", "denied"), ("read /builds/", "denied"), ("read builds/a", "denied"), ("delete /builds/a", "denied"), ("", "denied"),
         ("read", "denied"), ("read /builds/a", "octets of a")]


@needs.needs(*needs.LIBRARY, "import cryptography")
class Caches(built.OfLibrary):
    """The cache in each language serves Bob by Alice's certificate, and nobody else."""

    def setUp(self) -> None:
        self.room = room_for(self)

    def check_cache(self, *words: str) -> None:
        """The cache that the command `words` starts must answer Bob as LINES says, and deny all to Carol, since Alice's certificate is for Bob. It
        must deny all to Bob too if Alice's signature is of another certificate."""
        from spki_cert_tool import keys
        alice, bob, carol = (keys.FileSigner(keys.new_private(kind)) for kind in (keys.P256, keys.ED25519, keys.ED25519))
        issuer = keys.principal_of(alice.key)
        prefix: "Value" = [b"*", b"prefix", b"/builds/"]
        acl: "Value" = [b"acl", [b"entry", issuer, [b"propagate"], [b"tag", [b"cache"]]]]
        tag: "Value" = [b"tag", [b"cache", [b"*", b"set", b"read", b"write"], prefix]]
        certificate: list["Value"] = [b"cert", [b"issuer", issuer], [b"subject", bob.key], tag]
        right, other = alice.sign(canonical(certificate)), alice.sign(canonical([*certificate, [b"propagate"]]))
        for name, holder, value in (("bob", bob, right), ("carol", carol, right), ("forged", bob, other)):
            signature: "Value" = [b"signature", keys.hash_of(certificate), issuer, value]
            sequence: "Value" = [b"sequence", alice.key, certificate, signature]
            answers = self.answers(words, name, acl, holder.key, sequence)
            self.assertEqual(answers, [wanted if name == "bob" else "denied" for _, wanted in LINES], name)

    def answers(self, words: tuple[str, ...], name: str, *parts: "Value") -> list[str]:
        """Runs a cache by `words`, with its files in a new folder `name`. `parts`: access list, key, sequence. Returns its answers to LINES."""
        folder = os.path.join(self.room, name)
        os.makedirs(os.path.join(folder, "files", "builds"))
        paths = [os.path.join(folder, part) for part in ("acl", "key", "sequence")]
        for path, part in zip(paths, parts):
            with open(path, "wb") as file:
                file.write(canonical(part))
        with open(os.path.join(folder, "files", "secret"), "w", encoding="ascii") as file:
            file.write("no right contains this path")
        command = [*words, paths[0], os.path.join(folder, "files"), *paths[1:]]
        done = subprocess.run(command, input="".join(f"{line}\n" for line, _ in LINES), capture_output=True, text=True, timeout=SECONDS,
                              env={**os.environ, "PYTHONPATH": PYTHON, "SPKI_LIBRARY": self.shared})
        self.assertEqual((done.returncode, done.stderr), (0, ""))
        return done.stdout.splitlines()

    def compile(self, *words: str, folder: str = TOP, **more: str) -> None:
        """Compiles a cache: runs the command `words` in a folder, with the settings `more` in its environment. It must succeed."""
        status, output = output_of(*words, cwd=folder, env={**os.environ, **more}, seconds=SECONDS)
        self.assertEqual(status, 0, output)

    @needs.needs("openssl/evp.h")
    def test_c(self) -> None:
        program, folder = os.path.join(self.room, "cache"), os.path.join(EXAMPLES, "c")
        sources = [os.path.join(folder, name) for name in ("cache.c", "verify_openssl.c")]
        self.compile("cc", "-std=c11", "-Wall", "-Wextra", "-Wpedantic", "-Werror", "-I", CRATE, "-o", program, *sources, self.library, "-lcrypto")
        self.check_cache(program)
        # (an octet 00 ends the program with status 1, also in a last line without a line feed)
        self.assertEqual(output_of(program, os.path.join(self.room, "bob", "acl"), "", "", "", text="read /a\0b"), (1, ""))

    @needs.needs("cargo", "openssl")
    def test_rust(self) -> None:
        self.compile("cargo", "build", "-q", "--example", "cache", folder=RUST, SPKI_LIB_DIR=os.path.dirname(self.library), CARGO_NET_OFFLINE="true")
        self.check_cache(os.path.join(RUST, "out", "debug", "examples", "cache"))

    def test_python(self) -> None:
        self.check_cache(sys.executable, os.path.join(PYTHON, "examples", "cache.py"))

    @needs.needs("go")
    def test_go(self) -> None:
        program = os.path.join(self.room, "cache")
        self.compile("go", "build", "-o", program, "./examples/cache", folder=golang.MODULE, **golang.settings(self.library))
        self.check_cache(program)


class Lengths(unittest.TestCase):
    """The lines of each cache."""

    def test_lines(self) -> None:
        """No file of FILES has more lines with text than its number there."""
        for path, most in FILES.items():
            self.assertLessEqual(sum(bool(line.strip()) for line in text_of(path).splitlines()), most, path)
