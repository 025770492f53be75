"""What the tests use beyond the toolchain and Python, in one list: the table of CONTRIBUTING.md, the skipped tests and the line that
`tests/run --needs` prints come from it."""
import glob
import importlib.util
import os
import shutil
import subprocess
import unittest
from collections.abc import Callable, Iterator
from dataclasses import dataclass
from typing import Any


@dataclass(frozen=True)
class Need:
    """A command, a header of C, a file or a module of Python, its Debian package, and what is left out `without` it. The form of the name says what
    it is: a header ends with `.h`, a module is behind `import `, and any other path has `/`."""

    name: str
    package: str
    without: str

    @property
    def is_there(self) -> bool:
        """Whether this machine had it when the tests started: a test may add folders of modules to the path later."""
        return THERE[self.name]

    def is_found(self) -> bool:
        """Whether this machine has it now, by the form of its name. `unshare` and `ip` must also be allowed to do what the tests do with them."""
        if self.name.endswith(".h"):
            return has_header(self.name)
        if self.name == "unshare":
            return can_hide_proc()
        if self.name == "ip":
            return can_make_networks()
        if self.name.startswith("import "):
            return importlib.util.find_spec(self.name.removeprefix("import ")) is not None
        return bool(glob.glob(self.name) if "/" in self.name else shutil.which(self.name))

    @property
    def reason(self) -> str:
        """Why a test that needs it is skipped."""
        return f"there is no {self.name}; Debian: {self.package}"


NEEDS = [Need(*words) for words in [
    ("cc", "gcc", "the library for C, what calls it, generated texts on it, failing allocations, reads and writes"),
    ("ld", "binutils", "the library for C and what calls it"),
    ("objcopy", "binutils", "the library for C and what calls it"),
    ("g++", "g++", "the header for C++"),
    ("clang", "clang", "calls of the library with fuzzed parts"),
    ("/usr/lib/llvm-*/lib/clang/*/lib/linux/libclang_rt.fuzzer-*.a", "libclang-rt-dev", "calls of the library with fuzzed parts"),
    ("aarch64-linux-gnu-gcc", "gcc-aarch64-linux-gnu", "the library for ARM"),
    ("/usr/aarch64-linux-gnu/lib/libc.a", "libc6-dev-arm64-cross", "the library for ARM"),
    ("qemu-aarch64", "qemu-user", "what the library for ARM answers"),
    ("valgrind", "valgrind", "runs of the library and of the service in C under valgrind and helgrind; most benches"),
    ("pkg-config", "pkgconf", "what pkg-config says of the installed library"),
    ("cmake", "cmake", "finding the installed library by CMake"),
    ("cargo", "cargo", "the Rust crate, from Rust 1.76 on, tested with 1.95: Debian 12 has 1.63, which is too old"),
    ("cargo-clippy", "rust-clippy", "the lints of the Rust crate"),
    ("cargo-fmt", "rustfmt", "the layout of the Rust crate"),
    ("/usr/share/cargo/registry/serde_json-1.*", "librust-serde-json-dev", "the Rust crate for serde"),
    ("go", "golang-go", "the Go module and `spki-authd`, from Go 1.19 on"),
    ("go-staticcheck", "go-staticcheck", "the lints of the Go module and of `spki-authd`"),
    ("import cryptography", "python3-cryptography", "`spki-cert`, the examples and the services with real keys and signatures"),
    ("import bcrypt", "python3-bcrypt", "encrypted keys of OpenSSH in `spki-cert`"),
    ("import pip", "python3-pip", "`pip install` of `spki-cert` and of the Python package"),
    ("import setuptools", "python3-setuptools", "`pip install` of `spki-cert` and of the Python package"),
    ("import wheel", "python3-wheel", "`pip install` of `spki-cert` and of the Python package"),
    ("ssh-keygen", "openssh-client", "keys of OpenSSH in `spki-cert`"),
    ("/usr/include/gcrypt.h", "libgcrypt20-dev", "the verifier in C by libgcrypt, and verifying the signatures of `spki-cert` by it"),
    ("openssl", "openssl", "the keys of OpenSSL in `spki-cert`, the verifier in Rust, and the manual's example with real keys, from OpenSSL 3.0 on"),
    ("openssl/evp.h", "libssl-dev", "the service in C, and the verifier in C by OpenSSL"),
    ("nginx", "nginx", "the example behind nginx, and what docs/OPERATING.md says"),
    ("caddy", "caddy", "attacks on `spki-authd` behind Caddy"),
    ("haproxy", "haproxy", "attacks on `spki-authd` behind HAProxy"),
    ("apache2", "apache2", "attacks on `spki-authd` behind Apache"),
    ("/usr/lib/*/lua/5.3/socket/unix.so", "lua-socket", "attacks on `spki-authd` behind Apache"),
    ("varnishd", "varnish", "a cache before the example behind nginx"),
    ("git", "git", "git over HTTPS by a key, at the example behind nginx"),
    ("rsync", "rsync", "rsync over TLS by a key, behind HAProxy"),
    ("curl", "curl", "the example behind nginx, and what docs/OPERATING.md says"),
    ("systemd-analyze", "systemd", "the units of `spki-authd`, as systemd reads them"),
    ("systemd-socket-activate", "systemd", "`spki-authd` with a socket that systemd opens"),
    ("unshare", "util-linux", "the queue of `spki-authd` where /proc is hidden"),
    ("setpriv", "util-linux", "`spki-authd` as another user"),
    ("prlimit", "util-linux", "`spki-authd` on a full disk"),
    ("ss", "iproute2", "the queue of `spki-authd` where /proc is hidden"),
    ("ip", "iproute2", "servers of PostgreSQL that are cut from each other, or have a full disk"),
    ("/usr/lib/postgresql/*/bin/initdb", "postgresql", "entries in PostgreSQL"),
    ("/usr/lib/python3/dist-packages/psycopg", "python3-psycopg", "`spki-store`, and entries in PostgreSQL"),
    ("/usr/share/gocode/src/github.com/lib/pq/conn.go", "golang-github-lib-pq-dev", "`spki-authd` with a list in PostgreSQL"),
    ("dpkg-deb", "dpkg", "the Debian packages"),
    ("dpkg-parsechangelog", "dpkg-dev", "the changelog of the Debian packages, as dpkg reads it"),
    ("lintian", "lintian", "what lintian says of the Debian packages"),
    ("mmdebstrap", "mmdebstrap", "in `.ci/deep` the commands of the pages on machines that have what a page names, by Debian's servers"),
    ("man", "man-db", "the warnings of the manual"),
    ("dot", "graphviz", "reading the pictures that are drawn"),
    ("sexp-conv", "nettle-bin", "the keys of lsh; in `.ci/deep` the comparison with nettle"),
    ("lsh-keygen", "lsh-utils", "the keys of lsh"),
    ("pyflakes3", "pyflakes3", "faults in the scripts in Python"),
    ("pycodestyle", "pycodestyle", "the layout of the scripts in Python"),
    ("mypy", "mypy", "the types of the scripts and of the Python module"),
    ("codespell", "codespell", "the spelling, which only `.ci/deep` checks"),
    ("chromium", "chromium", "the page `apps/playground` in a browser"),
    ("chromedriver", "chromium-driver", "the page `apps/playground` in a browser"),
    ("/usr/lib/python3/dist-packages/selenium", "python3-selenium", "the page `apps/playground` in a browser")]]
BY_NAME = {need.name: need for need in NEEDS}
# What the library for C is built with, that for ARM, and what fuzzes.
LIBRARY = ("cc", "ld", "objcopy")
ARM = (*LIBRARY, "aarch64-linux-gnu-gcc", "/usr/aarch64-linux-gnu/lib/libc.a")
FUZZER = ("clang", "/usr/lib/llvm-*/lib/clang/*/lib/linux/libclang_rt.fuzzer-*.a", "openssl/evp.h")
INITDB = "/usr/lib/postgresql/*/bin/initdb"
# Where Debian has its modules for Python, which another Python than Debian's does not look through.
DEBIAN = "/usr/lib/python3/dist-packages"
BROWSER = ("chromium", "chromedriver", f"{DEBIAN}/selenium")
# A mount namespace and a process namespace of its own, in which /proc can be another one. Who is not root needs a user namespace for that.
APART = ["unshare", *["--map-root-user"] * bool(os.getuid()), "--mount", "--pid", "--fork", "--kill-child", "--mount-proc"]
# What hides all of /proc but the processes there, as ProcSubset=pid does.
HIDES = "mount -t proc -o subset=pid proc /proc && ! [ -e /proc/sys ]"


def can_hide_proc() -> bool:
    """Whether unshare is there and may make a /proc that has nothing but processes."""
    return bool(shutil.which("unshare")) and not subprocess.run([*APART, "sh", "-c", HIDES], stderr=subprocess.DEVNULL).returncode


def can_make_networks() -> bool:
    """Whether ip is there, and this process may make networks and disks: only root may."""
    return bool(shutil.which("ip")) and not os.getuid() and not subprocess.run(["unshare", "--net", "--mount", "true"], check=False).returncode


def has_header(name: str) -> bool:
    """Whether the C compiler finds a header."""
    words = ["cc", "-E", "-include", name, "-x", "c", "/dev/null"]
    return bool(shutil.which("cc")) and not subprocess.run(words, stdout=subprocess.DEVNULL, stderr=subprocess.DEVNULL).returncode


# Which needs this machine has, looked for once, when the tests start.
THERE = {need.name: need.is_found() for need in NEEDS}


def has(*names: str) -> bool:
    """Whether this machine has all needs of these names."""
    return all(BY_NAME[name].is_there for name in names)


def needs(*names: str) -> Callable[[Any], Any]:
    """A decorator that skips a test, or all tests of a class, where a need of one of these names is not there."""
    gone = [need.reason for need in map(BY_NAME.__getitem__, names) if not need.is_there]
    return unittest.skipIf(bool(gone), ", ".join(gone))


def required(*names: str) -> None:
    """Skips the module that calls this, by raising SkipTest, where a need of one of these names is not there."""
    gone = [need.reason for need in map(BY_NAME.__getitem__, names) if not need.is_there]
    if gone:
        raise unittest.SkipTest(", ".join(gone))


def is_by_missing_needs(reason: str) -> bool:
    """Whether a test was skipped only for needs that this machine lacks: the reason is those of such needs, joined as `needs` and `required` do. Each
    other test that is skipped counts as failed."""
    gone = {need.reason for need in NEEDS if not need.is_there}
    return all(part in gone for part in reason.split(", "))


def table() -> Iterator[str]:
    """The lines of the table in CONTRIBUTING.md."""
    yield "| Command, header, file or module | Debian package | Left out without it |"
    yield "|---|---|---|"
    yield from (f"| `{need.name}` | `{need.package}` | {need.without} |" for need in NEEDS)


def install_line() -> str:
    """The command that installs the packages of all needs."""
    return "apt-get install " + " ".join(dict.fromkeys(need.package for need in NEEDS))
