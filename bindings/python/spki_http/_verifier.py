"""Says which key has signed a request."""
from __future__ import annotations

import hashlib
import threading
import time
from collections.abc import Callable, Iterable
from dataclasses import dataclass, replace
from typing import NamedTuple, Protocol

from ._fields import PUBLIC_KEY, TAG, Input, Refused, digest_of, hash_of, input_of, key_of, signature_of, value_of
from ._message import AUTHORIZATION, DIGEST, METHOD, TARGET, Message, authority_of, base_of
from ._message import value_of as component_of

# The most seconds from `created` to `expires`, and the most that `created` may be in the future: a client's clock may be ahead.
MOST_WINDOW, MOST_AHEAD = 300, 60
# The fewest and the most characters of a nonce, and the most nonces in each set of a `Memory`.
LEAST_NONCE, MOST_NONCE = 16, 64
USUAL_NONCES = 100_000
# The sequence of a request that shows no certificates.
NOTHING_SHOWN = b"(sequence)"


class Signed(NamedTuple):
    """A signature that is to be verified, as a guard hands it to a verifier: key and value are canonical texts."""

    key: bytes
    message: bytes
    value: bytes


def usual_verify() -> Callable[[Signed], bool]:
    """The function that verifies signatures if a `Verifier` is given none. It is imported here, since it needs `cryptography`: `ImportError`
    without it."""
    import spki_verify
    return spki_verify.verify


def truth_of(answer: bool, name: str) -> bool:
    """The answer of what has this name. Raises `TypeError` if it is neither `True` nor `False`: a coroutine would count as true."""
    if answer is not True and answer is not False:
        raise TypeError(f"{name} returns True or False, and not a value of {type(answer).__name__}")
    return answer


class Nonces(Protocol):
    """Keeps which nonces were used. Several verifiers may share one, also in several processes: then `take` must be one step of the store, as `SET`
    with `NX` of Redis, and not a look and a write."""

    def take(self, key: bytes, nonce: str, now: int, seconds: int) -> bool:
        """Keeps a nonce of a key for at least `seconds` from `now`, which is in seconds since 1970. Returns `True` if it keeps it now and did not
        before: only then the request counts. `False` is `nonce-seen`, and any other value, such as the coroutine of an `async` function, is a
        `TypeError` of the verifier. Raises `Refused` for a reason of its own: if there is no room, or if the nonce may be forgotten, since the clock
        has gone back."""


class Memory:
    """Keeps nonces in two sets of at most `most` each, as digests of key and nonce. New ones go into the young set.
    Once the young set is as old as the time for which a nonce is kept, the next `take` makes it the old set, and drops
    the one before. If it is twice as old, both are dropped. `young_since` is when the young set was begun, in seconds
    since 1970: 0 before the first nonce."""

    def __init__(self, most: int = USUAL_NONCES) -> None:
        """`most` is how many nonces each of the two sets may have, the old and the young one."""
        self.most, self.young_since, self.lock = most, 0, threading.Lock()
        self.old: set[bytes] = set()
        self.young: set[bytes] = set()

    def take(self, key: bytes, nonce: str, now: int, seconds: int) -> bool:
        """Keeps a nonce of a key for at least `seconds`, the same in each call, from `now`, which is in seconds since 1970, and returns `True`.
        Raises `Refused` if it was used before, or if the young set is full: nothing is forgotten early. If the clock has gone
        back to over a second before the young set began, each nonce is refused as `before-start`, since it may be forgotten."""
        # (the octet 0 separates key and nonce: a nonce has none. 16 octets of the digest are enough)
        digest = hashlib.sha256(key + b"\0" + nonce.encode()).digest()[:16]
        with self.lock:
            if now < self.young_since - 1:
                # (what was dropped had expired a second before the young set began)
                raise Refused("before-start")
            age = now - self.young_since
            if age >= seconds:
                # (after twice the time the nonces of the young set need not be kept either)
                self.old = self.young if age < 2 * seconds else set()
                self.young, self.young_since = set(), now
            if digest in self.old or digest in self.young:
                raise Refused("nonce-seen")
            if len(self.young) >= self.most:
                raise Refused("store-full")
            self.young.add(digest)
            return True


@dataclass(frozen=True)
class Proof:
    """The key that has signed a request, in canonical form, and the certificates that the request shows, as a question takes them. `digest` is
    the algorithm and the octets of its body's digest, or None if none is covered. `moment` is when the request was proved, and `expires` when its
    signature ends, in seconds since 1970."""

    key: bytes
    sequence: bytes
    nonce: str
    expires: int
    digest: tuple[str, bytes] | None
    moment: int

    def covers(self, body: bytes) -> bool:
        """Whether a body is the signed one, by its digest. If no digest is covered, the empty body alone is."""
        if self.digest is None:
            return body == b""
        algorithm, octets = self.digest
        # (`hashlib` writes the names without a hyphen)
        return hashlib.new(algorithm.replace("-", ""), body).digest() == octets


class Verifier:
    """Verifies signed requests to one service: which key has signed each."""

    def __init__(self, *authorities: str, scheme: str = "https", sequence: str = "x-spki-sequence", nonces: Nonces | None = None,
                 start: float | None = None, now: Callable[[], float] = time.time,
                 verify: Callable[[Signed], bool] | None = None) -> None:
        """`authorities` are the names of the service, each with its port unless that is the default one of the scheme.

        `scheme` is `https` or `http`. `sequence` is the name of the field with the certificates, in small letters. `nonces`
        keeps the used nonces, in a `Memory` if it is None. `now` is the clock, in seconds since 1970, and `verify` says
        whether a signature is valid: `spki_verify` if it is None. A request that was created before `start`, in seconds
        since 1970, is refused, since its nonce may be forgotten. `start` is the time now if it is None, and 0 is for
        nonces that outlast the process. If neither `start` nor `now` is given, and the clock was behind at the start and was
        put forward since, the time counts that this clock would have shown. With one of both the clock must be right then.
        Raises `ImportError` if `verify` is None and `cryptography` is missing."""
        # (without the empty name, which a request has whose Host is the default port alone)
        self.authorities = {authority_of(scheme, name) for name in authorities} - {""}
        self.scheme, self.sequence, self.now = scheme, sequence, now
        self.verify = usual_verify() if verify is None else verify
        self.nonces: Nonces = Memory() if nonces is None else nonces
        # (by the monotonic clock, which is read before `now` here, and after it later, so that the start is never found too late)
        self.began = time.monotonic() if start is None and now is time.time else None
        self.start = int(now() if start is None else start)

    def prove(self, method: str, authority: str, target: str, fields: Iterable[tuple[str, str]], body: bytes | None = None) -> Proof:
        """The proof of a request, whose nonce is used up before anything is decided: ANYBODY CAN MAKE A KEY, and fill the store so that each request
        is refused. A service that denies some keys calls `check`, decides, and calls `take` for a yes. `authority` is the value of Host, `target`
        the path with the query, and `fields` has pairs of name and value. Raises what `check` and `take` raise. If `body` is None, the caller must
        test the body later by `Proof.covers`."""
        proof = self.check(Message(method, authority, target, fields, body))
        self.take(proof)
        return proof

    def take(self, proof: Proof) -> None:
        """Uses up the nonce of a proof from `check`. NO PROOF COUNTS WITHOUT IT: the caller decides, and calls this for a yes
        alone, before it acts, so that strangers do not fill the store. Raises `Refused`, also if the signature has expired
        since, `TypeError` if the store returns neither `True` nor `False`, and what the store raises."""
        # (where the clock has gone back since, a nonce that is kept from now would be forgotten before the signature has expired)
        now = max(int(self.now()), proof.moment)
        if proof.expires <= now:
            # (the nonce may have been used, and be forgotten)
            raise Refused("expired")
        # (a signature by a clock that is ahead is accepted for as long as both together)
        if not truth_of(self.nonces.take(proof.key, proof.nonce, now, MOST_WINDOW + MOST_AHEAD), "a store of nonces"):
            raise Refused("nonce-seen")

    def check(self, message: Message) -> Proof:
        """The proof of a request, whose nonce is not used up: a decision and `take` must follow. Raises `Refused`, and
        `TypeError` if `verify` returns neither `True` nor `False`."""
        # (the fields may be an iterator, which can be read once)
        message = replace(message, fields=[*message.fields])
        inputs, signatures = message.values("signature-input"), message.values("signature")
        if not inputs and not signatures:
            raise Refused("absent")
        if len(inputs) > 1 or len(signatures) > 1:
            raise Refused("repeated-field")
        if not inputs or not signatures:
            raise Refused("malformed")
        signature_input, octets = input_of(inputs[0]), signature_of(signatures[0])
        moment = self.now()
        self._check_parameters(signature_input, moment)
        text, digest = self._check_message(message, signature_input)
        key, algorithm, length = key_of(component_of(message, self.scheme, PUBLIC_KEY))
        if hash_of(key) != signature_input.keyid:
            raise Refused("other-key")
        if algorithm != signature_input.alg:
            raise Refused("other-algorithm")
        if len(octets) != length or not truth_of(self.verify(Signed(key, text, value_of(algorithm, octets))), "a verifier"):
            raise Refused("invalid-signature")
        # (the field is covered if it is there, and so it has one line)
        sequences = message.values(self.sequence)
        shown = sequences[0].encode() if sequences else NOTHING_SHOWN
        proof = Proof(key, shown, signature_input.nonce, signature_input.expires, digest, int(moment))
        if message.body is not None and not proof.covers(message.body):
            raise Refused("other-digest")
        return proof

    def _check_parameters(self, signature_input: Input, moment: float) -> None:
        """Tests the tag, the length of the nonce, and the times at `moment`, which `now` has just returned. The signature must
        not precede the start of the service, neither by the clock as it was set then, nor, if that is known, as it is set now.
        Raises `Refused` with the name of the first test that fails."""
        created, expires = signature_input.created, signature_input.expires
        now, start = int(moment), self.start if self.began is None else max(self.start, int(moment - (time.monotonic() - self.began)))
        for is_wrong, name in (
            (signature_input.tag != TAG, "other-tag"),
            (not LEAST_NONCE <= len(signature_input.nonce) <= MOST_NONCE, "bad-nonce"),
            (not created < expires <= created + MOST_WINDOW, "bad-window"), (created > now + MOST_AHEAD, "too-early"),
            (expires <= now, "expired"), (created < start, "before-start"),
        ):
            if is_wrong:
                raise Refused(name)

    def _check_message(self, message: Message, signature_input: Input) -> tuple[bytes, tuple[str, bytes] | None]:
        """Tests the method, the target and the authority, that each covered field is there once with a value that can
        be signed, that each field is covered that must be, also a digest where there may be a body, and the form of the
        digest. Returns the signed text, and the algorithm and octets of the body's digest, or None if none is covered.
        Raises `Refused` with the name of the first test that fails."""
        if not METHOD.fullmatch(message.method):
            raise Refused("bad-method")
        if not TARGET.fullmatch(message.target):
            raise Refused("bad-target")
        # (some servers give None if a request has no Host)
        if not message.authority or authority_of(self.scheme, message.authority) not in self.authorities:
            raise Refused("other-authority")
        text = base_of(message, self.scheme, signature_input.components, signature_input.text)
        components = signature_input.components
        if any(message.values(name) and name not in components for name in (AUTHORIZATION, self.sequence, DIGEST)):
            raise Refused("uncovered-field")
        if DIGEST not in signature_input.components:
            if message.may_have_body():
                raise Refused("body-without-digest")
            return text, None
        return text, digest_of(component_of(message, self.scheme, DIGEST))
