"""Decides a request, as a service does that is written in Python.

Usage: decide.py ACL SEQUENCE KEY WORD ..

ACL is a file of the service, its access list. SEQUENCE and KEY are files of the client. The client must have proved that it holds the
key: this program does not check that. The request is the list of the WORDs, or the word where there is one. Keys and signatures have the
forms of docs/FORMATS.md, which `spki-cert` writes. `spki_verify` verifies, by `cryptography`.
"""
import os
import sys
from datetime import datetime, timezone

import spki
import spki_verify


def is_granted(guard: spki.Guard, sequence: bytes, key: spki.ProvenKey, words: list[bytes], now: datetime) -> bool:
    """Whether a request is granted. Each word is one string of it, whatever octets it has. Raises `spki.Refused` if the sequence, the key or the
    request cannot be read, which is a no too."""
    question = spki.Question(sequence, key, words=words, moment=now)
    return bool(guard.decide(question, spki_verify.verify))


def main() -> None:
    """Prints `granted` or `denied` for the arguments ACL SEQUENCE KEY WORD .. and ends with status 0 for both. Ends with
    the usage if there are fewer. Raises an exception if a file cannot be read or a text is refused."""
    if len(sys.argv) < 5:
        sys.exit("usage: decide.py ACL SEQUENCE KEY WORD ..")
    texts = []
    for path in sys.argv[1:4]:
        with open(path, "rb") as file:
            texts.append(file.read())
    access_list, sequence, key = texts
    with spki.Guard(access_list) as guard:
        words = [os.fsencode(word) for word in sys.argv[4:]]
        # THE CLIENT MUST HAVE PROVED THAT IT HOLDS THE KEY: a public key is public.
        client = spki.ProvenKey.assume(key)
        print("granted" if is_granted(guard, sequence, client, words, datetime.now(timezone.utc)) else "denied")


if __name__ == "__main__":
    try:
        main()
    except (OSError, spki.Refused) as why:
        sys.exit(str(why))
