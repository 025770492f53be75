"""The program that the example runs, `spki`, and where the packages of `spki-cert` and of its verifier are. To import this without `cryptography`
ends the example with status 0: then nothing is tried, and the last line is `0 passed, 0 failed`."""
import importlib.util
import os
import subprocess
import sys

TOP = os.path.join(os.path.dirname(os.path.abspath(__file__)), "..", "..")
SPKI = os.path.join(TOP, "crates", "spki", "out", "spki")
# How long `spki` may run.
SECONDS = 10
sys.path += [os.path.join(TOP, "apps", "spki-cert"), os.path.join(TOP, "bindings", "python")]
if importlib.util.find_spec("cryptography") is None:
    print("cryptography is not there (Debian: python3-cryptography), so nothing is tried\n0 passed, 0 failed")
    sys.exit(0)


def spki(command, text):
    """The exit status of a command of `spki` on a text, and its answer. After SECONDS it is ended, and TimeoutExpired raised."""
    octets = text.encode() if isinstance(text, str) else text
    done = subprocess.run([SPKI, command], input=octets, stdout=subprocess.PIPE, stderr=subprocess.DEVNULL, timeout=SECONDS)
    return done.returncode, done.stdout


def canonical(text):
    """The canonical form of a text, by `spki canonical`. Raises ValueError with the line of a refusal."""
    status, octets = spki("canonical", text)
    if status != 0:
        raise ValueError(octets.decode().strip())
    return octets
