"""Signs an HTTP request by a key, and prints its fields or has curl send it: docs/SIGNATURES.md."""
from __future__ import annotations

import argparse
import base64
import os
import re
import subprocess

from .files import DONE, Refused, octets_of, remark_on_mode, signer_at, tell, value_of, write_output
from .sexp import canonical

# The exit status for curl ended by a signal is the sum of BY_SIGNAL and the number of the signal, as a shell has it.
BY_SIGNAL = 128
METHOD = re.compile(r"[A-Z]{1,32}")
# An address in ASCII without a user, a password or a fragment.
ADDRESS = re.compile(r"https?://(?:(?![/?#@])[!-~])+(?:[/?][!\"$-~]*)?")


def request(given: argparse.Namespace) -> int:
    """Prints the fields of a signed request, or with --curl has curl send it. Tells it if others have access to the private key. Returns the exit
    status, with --curl that of curl. Raises Refused or BadKey."""
    # (here, since only this command needs it)
    from spki_http import Signer
    method = given.method or ("PUT" if given.body is not None else "GET")
    body = octets_of(given.body, most=-1) if given.body is not None else None
    if not METHOD.fullmatch(method):
        raise Refused(f"{method}: a method is in capital letters, as PUT")
    if not ADDRESS.fullmatch(given.address):
        raise Refused(f"{given.address}: no address of https or http, or one with a space, a fragment, a password or letters that are not ASCII; "
                      "write %20 for a space")
    if given.words and not given.curl:
        raise Refused(f"{given.words[0]}: options of curl go with --curl")
    sequence = "{%s}" % base64.b64encode(canonical(value_of(given.cert, "sequence"))).decode() if given.cert is not None else ""
    key_signer = signer_at(given.by)
    tell(*(f"spki-cert: {remark}" for remark in remark_on_mode(given.by)))
    signer = Signer(canonical(key_signer.key), lambda message: canonical(key_signer.sign(message)), sequence)
    try:
        fields = signer.fields(method, given.address, body or b"")
    except ValueError as why:
        raise Refused(f"{given.address}: {why}") from None
    lines = "".join(f"{name}: {value}\n" for name, value in fields.items())
    if given.curl:
        return send_by_curl(method, given.address, lines.encode(), body, given.words)
    write_output(lines)
    return DONE


def send_by_curl(method: str, address: str, lines: bytes, body: bytes | None, words: list[str]) -> int:
    """Has curl send a request as it is. Returns its exit status, or BY_SIGNAL plus the number of the signal that ended it. `lines` are the fields,
    each as a line NAME: VALUE, `body` is None for a request without one, and `words` are more options of curl. The fields and the body are files
    without a name, so that no list of processes shows them. Raises Refused if there is no curl."""
    files = [memory_file(octets) for octets in [lines, *([body] if body is not None else [])]]
    # (without --path-as-is and --globoff curl would change the address, which is signed. With `--request HEAD` it would wait for a body)
    command = ["curl", "--path-as-is", "--globoff", *(["--head"] if method == "HEAD" else ["--request", method]), "--header", f"@/dev/fd/{files[0]}",
               *(["--header", "Content-Type: application/octet-stream", "--data-binary", f"@/dev/fd/{files[1]}"] if body is not None else []),
               *words, "--url", address]
    try:
        status = subprocess.run(command, pass_fds=files).returncode
        return status if status >= 0 else BY_SIGNAL - status
    except FileNotFoundError:
        raise Refused("there is no curl (Debian: curl)") from None
    finally:
        for file in files:
            os.close(file)


def memory_file(octets: bytes) -> int:
    """Makes a file in memory with these octets, and returns its descriptor, which the caller closes."""
    file = os.memfd_create("spki-cert")
    with os.fdopen(os.dup(file), "wb") as writer:
        writer.write(octets)
    os.lseek(file, 0, os.SEEK_SET)
    return file
