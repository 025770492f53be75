"""Signatures for certificates that have none, so that a certificate can be changed while it is looked at.

The page verifies no signature. It writes one behind each certificate without one: the right digest, the issuer, and a word as the value.
"""
import hashlib

from engine import Refused
from place import items_of
from spki_cert_tool.sexp import on_one_line

# The signer of a certificate whose issuer cannot be read, and the value of each signature that is made up.
NOBODY = [b"public-key", [b"test", b"nobody"]]
VALUE = b"made-up-by-this-page"


class SignedText:
    """A sequence as it was typed, in octets, to which `add` adds the signatures that are missing. `text` is the text so far. `added` has for each
    signature its offset in `text` and its length."""

    def __init__(self, text):
        self.text, self.added = text, []

    def add(self, at, signature):
        """Writes `signature`, octets, at the offset `at` of the text as it was typed. Offsets must be given from the least to the greatest."""
        at += sum(length for _, length in self.added)
        self.text = self.text[:at] + signature + self.text[at:]
        self.added.append((at, len(signature)))

    def offset_as_typed(self, at):
        """The offset in the text as it was typed, for the offset `at` in the text with the signatures. For an offset in an added signature it is that
        where the signature was added."""
        for begin, length in reversed(self.added):
            if at > begin:
                at = max(begin, at - length)
        return at


def with_signatures(engine, text):
    """A sequence, given as octets, as a SignedText, with a signature behind each certificate. A text that cannot be read, or is in braces, is
    left as it is."""
    signed = SignedText(text)
    # (an operation `(do ..)` may be between a certificate and its signature)
    items = [item for item in items_of(text) or () if item.head != b"do"]
    for item, next_item in zip(items, [*items[1:], None]):
        if item.head == b"cert" and (next_item is None or next_item.head != b"signature"):
            signed.add(item.end, b" " + signature(engine, text[item.begin:item.end]))
    return signed


def signature(engine, certificate):
    """The signature of a certificate that the page makes up, as octets in advanced form. `engine` is an `Engine` of engine.py, and `certificate` the
    octets of a text. If it cannot be read, its digest is that of the text as it is: no digest would be right then."""
    try:
        octets = engine.canonical(certificate)
        signer = signer_of(engine.value(certificate))
    except Refused:
        octets, signer = certificate, NOBODY
    digest = [b"hash", b"sha256", hashlib.sha256(octets).digest()]
    return on_one_line([b"signature", digest, signer, VALUE]).encode()


def signer_of(certificate):
    """The principal that issues a certificate, as it is written there. NOBODY if it has no issuer. Any value may be given."""
    issuer = next((part[1] for part in certificate[1:] if isinstance(part, list) and part[:1] == [b"issuer"] and len(part) > 1), NOBODY)
    is_name = isinstance(issuer, list) and issuer[:1] == [b"name"] and len(issuer) > 1
    return issuer[1] if is_name else issuer
