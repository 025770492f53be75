"""Decides a request as decide.py does, in a service with asyncio: the signatures are verified in its threads, several at the same time, and other
requests go on meanwhile.

Usage: asynchronous.py ACL SEQUENCE KEY WORD ..
"""
import asyncio
import os
import sys
from datetime import datetime, timezone

import spki
import spki_verify


async def is_granted(guard: spki.Guard, sequence: bytes, key: spki.ProvenKey, words: list[bytes], now: datetime) -> bool:
    """Whether a request is granted. All signatures are verified, in threads, or none if they cannot make it a yes. The
    valid ones are marked, and the marks decide. Raises `spki.Refused` if the sequence, the key or the request cannot
    be read, which is a no too."""
    question = spki.Question(sequence, key, words=words, moment=now)
    with guard.ask(question) as asked:
        signatures = asked.signatures() if asked.is_possible else []
        verified = (asyncio.to_thread(spki_verify.verify, signature) for signature in signatures)
        for place, is_valid in enumerate(await asyncio.gather(*verified)):
            if is_valid:
                asked.mark(place)
        return bool(asked.decide())


async def main() -> None:
    """Prints `granted` or `denied` for the arguments ACL SEQUENCE KEY WORD .. and ends with status 0 for both. Ends with
    the usage if there are fewer. Raises an exception if a file cannot be read or a text is refused."""
    if len(sys.argv) < 5:
        sys.exit("usage: asynchronous.py ACL SEQUENCE KEY WORD ..")
    texts = []
    for path in sys.argv[1:4]:
        with open(path, "rb") as file:
            texts.append(file.read())
    access_list, sequence, key = texts
    with spki.Guard(access_list) as guard:
        words = [os.fsencode(word) for word in sys.argv[4:]]
        # THE CLIENT MUST HAVE PROVED THAT IT HOLDS THE KEY: a public key is public.
        client = spki.ProvenKey.assume(key)
        print("granted" if await is_granted(guard, sequence, client, words, datetime.now(timezone.utc)) else "denied")


if __name__ == "__main__":
    try:
        asyncio.run(main())
    except (OSError, spki.Refused) as why:
        sys.exit(str(why))
