"""Proves the client's key in each HTTP request, by HTTP Message Signatures (RFC 9421). docs/SIGNATURES.md is the
profile.

    proof = verifier.check(spki_http.Message(self.command, self.headers["Host"], self.path, self.headers.items(), body))  # may raise Refused
    if guard.decide(spki.Question(proof.sequence, spki.ProvenKey.assume(proof.key), ..), verify):
        verifier.take(proof)  # may raise Refused: the service acts behind it
    requests.put(url, data=body, auth=spki_http.Auth(signer, "files.example.org"))  # a client

Nonces are taken for a yes alone: anybody can make keys, and requests that are denied would fill the store.
It needs neither the package `spki` nor the library. Signatures are verified by `spki_verify`, which needs
`cryptography`, or by another function.
"""
from ._fields import Refused, content_digest, octets_of
from ._message import Message
from ._signer import Auth, Handler, Signer
from ._verifier import Memory, Nonces, Proof, Verifier

__all__ = ["Auth", "Handler", "Memory", "Message", "Nonces", "Proof", "Refused", "Signer", "Verifier", "content_digest", "octets_of"]
