"""Runs Go's commands, as in `bindings/go` and `spki-authd`, on a given library, without a network. The cache of what is compiled is in tests/out/.
It knows nothing of libraries for C, so the digest of the library is one of the compiler's flags: with another library all is linked again."""
import hashlib
import os
import subprocess

from harness.support import TESTS, TOP

MODULE, DAEMON = os.path.join(TOP, "bindings", "go"), os.path.join(TOP, "apps", "spki-authd")
HEADERS = os.path.join(TOP, "crates", "spki_c")
SECONDS = 1800


def settings(library: str) -> dict[str, str]:
    """The environment of a `go` command that links this library and uses no network. The flag `-D` makes Go link again if the library has changed."""
    with open(library, "rb") as file:
        digest = hashlib.sha256(file.read()).hexdigest()
    return {**os.environ, "GOCACHE": os.path.join(TESTS, "out", "go"), "GOFLAGS": "-mod=mod", "GOPROXY": "off", "GOENV": "off", "GOWORK": "off",
            "GOTOOLCHAIN": "local", "CGO_ENABLED": "1", "CGO_CFLAGS": f"-g -O2 '-I{HEADERS}' -DSPKI_OF_LIBRARY_{digest}",
            "CGO_LDFLAGS": f"'-L{os.path.dirname(library)}'"}


def go(folder: str, words: list[str], library: str, stdin: bytes | None = None, **more: str) -> subprocess.CompletedProcess[bytes]:
    """Runs `go` in a folder on an input, with a static library to link, and `more` of the environment. Returns how it ended, also if it failed."""
    return subprocess.run(["go", *words], cwd=folder, input=stdin, stdout=subprocess.PIPE, stderr=subprocess.PIPE, timeout=SECONDS,
                          env={**settings(library), **more})


def build_daemon(library: str, to: str, *flags: str) -> str:
    """Builds spki-authd with a static library at the path `to`, which it returns, by `go build FLAGS`. Raises CalledProcessError if that fails."""
    go(DAEMON, ["build", *flags, "-o", to, "."], library).check_returncode()
    return to
