"""Verifies signatures by `cryptography` (Debian: python3-cryptography), in the forms of docs/FORMATS.md, "Keys and signatures of services":
Ed25519, RSA by PKCS#1 v1.5 with SHA-256, ECDSA with P-256 and SHA-256 or with P-384 and SHA-384. libgcrypt and GnuPG have the same forms.

    guard.decide(question, spki_verify.verify)

It needs neither the package `spki` nor the library. `spki-cert` verifies by it too.
"""
from __future__ import annotations

from typing import NamedTuple, Protocol, Union

from cryptography.exceptions import InvalidSignature
from cryptography.hazmat.primitives.asymmetric.ec import ECDSA, SECP256R1, SECP384R1, EllipticCurve, EllipticCurvePublicKey
from cryptography.hazmat.primitives.asymmetric.ed25519 import Ed25519PublicKey
from cryptography.hazmat.primitives.asymmetric.padding import PKCS1v15
from cryptography.hazmat.primitives.asymmetric.rsa import RSAPublicKey, RSAPublicNumbers
from cryptography.hazmat.primitives.asymmetric.utils import encode_dss_signature
from cryptography.hazmat.primitives.hashes import SHA256, SHA384, HashAlgorithm

__all__ = ["Public", "Signed", "LEAST_BITS", "MOST_BITS", "MOST_EXPONENT_BITS", "number", "public_of", "verify", "verify_texts"]

Public = Union[Ed25519PublicKey, RSAPublicKey, EllipticCurvePublicKey]

# The bits of a modulus of RSA, and of an exponent. All verifiers of this repository have these limits.
LEAST_BITS, MOST_BITS, MOST_EXPONENT_BITS = 2048, 4096, 31
# The octets of a key of Ed25519, and of each half, r and s, of a signature by it.
HALF = 32
# A canonical text of more octets is no key and no value of a signature.
MOST_OCTETS = 4096
# The prime and the order of Ed25519.
P_25519, ORDER_25519 = 2**255 - 19, 2**252 + 27742317777372353535851937790883648493
# The two coordinates y of the four points of order 8 of Ed25519.
ORDER_8_YS = (0x05FC536D880238B13933C6D305ACDFD5F098EFF289F4C345B027B2C28F95E826,
              0x7A03AC9277FDC74EC6CC392CFA53202A0F67100D760B3CBA4FD84D3D706A17C7)
# The templates of keys and of the values of signatures: canonical texts with `%` for each string that differs.
ED25519_KEY = b"(10:public-key(3:ecc(5:curve7:Ed25519)(5:flags5:eddsa)(1:q%)))"
RSA_KEY = b"(10:public-key(3:rsa(1:n%)(1:e%)))"
ECDSA_KEY = b"(10:public-key(3:ecc(5:curve%)(1:q%)))"
EDDSA_VALUE = b"(7:sig-val(5:eddsa(1:r%)(1:s%)))"
RSA_VALUE = b"(7:sig-val(3:rsa(1:s%)))"
ECDSA_VALUE = b"(7:sig-val(5:ecdsa(1:r%)(1:s%)))"


class Curve(NamedTuple):
    """A curve of ECDSA: its prime and its order, the octets of a coordinate, and the digest of a message that is
    signed."""

    curve: EllipticCurve
    prime: int
    order: int
    octets: int
    digest: HashAlgorithm


CURVES = {
    b"NIST P-256": Curve(SECP256R1(), 2**256 - 2**224 + 2**192 + 2**96 - 1,
                         0xFFFFFFFF00000000FFFFFFFFFFFFFFFFBCE6FAADA7179E84F3B9CAC2FC632551, 32, SHA256()),
    b"NIST P-384": Curve(SECP384R1(), 2**384 - 2**128 - 2**96 + 2**32 - 1,
                         0xFFFFFFFFFFFFFFFFFFFFFFFFFFFFFFFFFFFFFFFFFFFFFFFFC7634D81F4372DDF581A0DB248B0A77AECEC196ACCC52973, 48, SHA384()),
}


class Signed(Protocol):
    """A signature that is to be verified, as `spki.Signature` and `spki_http` have it."""

    @property
    def key(self) -> bytes:
        """The key by which the signature must be, in canonical form."""

    @property
    def message(self) -> bytes:
        """The octets that are signed."""

    @property
    def value(self) -> bytes:
        """The value in `(signature ..)`, in canonical form."""


def verify(signature: Signed) -> bool:
    """Whether a signature is valid. It is not if its key or its value is in another form than docs/FORMATS.md has, or its message is empty."""
    return verify_texts(key=signature.key, message=signature.message, value=signature.value)


def verify_texts(*, key: bytes, message: bytes, value: bytes) -> bool:
    """Whether `value` is a valid signature of `message` by `key`. `key` and `value` are canonical texts, and `message` is
    any octets. False if `key` or `value` is in another form, and for an empty message, which docs/FORMATS.md excludes."""
    public = public_of(key)
    try:
        return public is not None and message != b"" and _is_valid(public, message, value)
    except (InvalidSignature, OverflowError, ValueError):
        return False


def public_of(key: bytes) -> Public | None:
    """The public key of a canonical text. `None` if it is in none of the forms, or has a number or a point that docs/FORMATS.md, "What a
    verifier tests first", excludes."""
    try:
        if strings := _strings(key, ED25519_KEY):
            return Ed25519PublicKey.from_public_bytes(strings[0]) if _is_of_large_order(strings[0]) else None
        if strings := _strings(key, ECDSA_KEY):
            curve, point = CURVES.get(strings[0]), strings[1]
            if curve is None or not _are_coordinates(curve, point):
                return None
            return EllipticCurvePublicKey.from_encoded_point(curve.curve, point)
        return _rsa_key(*strings) if (strings := _strings(key, RSA_KEY)) else None
    except ValueError:
        return None


def number(value: int) -> bytes:
    """The octets of a number of a key: big-endian, with an octet 00 in front if the first bit would be set."""
    return value.to_bytes(value.bit_length() // 8 + 1, "big")


def _is_of_large_order(q: bytes) -> bool:
    """Whether octets may be a key of Ed25519: by their coordinate y, they are not of a point of small order, for which
    anyone can make signatures, and not a second text of a point. The points of order 1, 2 and 4 have a y of 1, p - 1
    and 0. All y below 2^192 are refused with them, which no random key has. That the octets are a point is not
    tested."""
    # (the highest bit is the sign of x)
    y = int.from_bytes(q, "little") % 2**255
    return len(q) == HALF and 2**192 <= y < P_25519 - 1 and y not in ORDER_8_YS


def _are_coordinates(curve: Curve, q: bytes) -> bool:
    """Whether octets are an uncompressed point: 4, and then two coordinates below the prime of a curve. `cryptography` tests that the point is on
    the curve."""
    x, y = int.from_bytes(q[1:1 + curve.octets], "big"), int.from_bytes(q[1 + curve.octets:], "big")
    return len(q) == 1 + 2 * curve.octets and q[0] == 4 and x < curve.prime and y < curve.prime


def _rsa_key(modulus: bytes, exponent: bytes) -> RSAPublicKey | None:
    """The key of a modulus and an exponent. None if one is not as `number` writes it, or is even, or is beyond the
    limits at the top of this file, or if the exponent is 1, by which anyone can sign."""
    n, e = int.from_bytes(modulus, "big"), int.from_bytes(exponent, "big")
    is_written = (modulus, exponent) == (number(n), number(e))
    is_within = LEAST_BITS <= n.bit_length() <= MOST_BITS and 3 <= e < 2**MOST_EXPONENT_BITS
    return RSAPublicNumbers(e, n).public_key() if is_written and is_within and n % 2 and e % 2 else None


def _is_valid(public: Public, message: bytes, value: bytes) -> bool:
    """True if a value is a signature of a message by a public key. Otherwise False, or one of the exceptions that
    `verify_texts` catches."""
    if isinstance(public, Ed25519PublicKey):
        halves = _strings(value, EDDSA_VALUE)
        if [len(half) for half in halves] != [HALF, HALF] or int.from_bytes(halves[1], "little") >= ORDER_25519:
            return False
        public.verify(b"".join(halves), message)
        return True
    template = RSA_VALUE if isinstance(public, RSAPublicKey) else ECDSA_VALUE
    numbers = [int.from_bytes(string, "big") for string in _strings(value, template)]
    if not numbers:
        return False
    if isinstance(public, RSAPublicKey):
        if not 1 <= numbers[0] < public.public_numbers().n:
            return False
        public.verify(numbers[0].to_bytes((public.key_size + 7) // 8, "big"), message, PKCS1v15(), SHA256())
        return True
    curve = next(each for each in CURVES.values() if each.curve.key_size == public.key_size)
    if not all(1 <= each < curve.order for each in numbers):
        return False
    public.verify(encode_dss_signature(*numbers), message, ECDSA(curve.digest))
    return True


def _strings(text: bytes, template: bytes) -> list[bytes]:
    """The strings of a canonical text at the places of `%` in a template, such as `RSA_KEY`. An empty list if the text
    does not match it or has more than `MOST_OCTETS`."""
    first, *rest = template.split(b"%")
    position, strings = len(first), []
    if len(text) > MOST_OCTETS or not text.startswith(first):
        return []
    for part in rest:
        colon = text.find(b":", position, position + len(b"4096:"))
        digits = text[position:colon] if colon >= 0 else b""
        length = int(digits) if digits.isdigit() else -1
        end = colon + 1 + length
        # (a length has one form: without a 0 in front)
        if digits != b"%d" % length or text[end:end + len(part)] != part:
            return []
        strings.append(text[colon + 1:end])
        position = end + len(part)
    return strings if position == len(text) else []
