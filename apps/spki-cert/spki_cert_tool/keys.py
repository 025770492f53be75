"""Keys that people have, as keys of SPKI, and back; signing and verifying. The forms are those of docs/FORMATS.md, "Keys and signatures
of services", which libgcrypt and GnuPG read too. `cryptography` reads the files and signs. The package `spki_verify` verifies by it. Both are
imported where they are used, because that takes a tenth of a second.
"""
from __future__ import annotations

import base64
import hashlib
import importlib.util
import re
from collections.abc import Callable
from typing import TYPE_CHECKING, Any, Union, cast

from .forms import Parser, Wrong
from .places import USED, remark_on_foreign, value_in
from .sexp import Value, canonical

if TYPE_CHECKING:
    from cryptography.hazmat.primitives.asymmetric.ec import EllipticCurvePrivateKey
    from cryptography.hazmat.primitives.asymmetric.ed25519 import Ed25519PrivateKey
    from cryptography.hazmat.primitives.asymmetric.rsa import RSAPrivateKey
    from spki_verify import Public
    Private = Union[Ed25519PrivateKey, RSAPrivateKey, EllipticCurvePrivateKey]

ED25519, RSA, P256, P384 = "ed25519", "rsa", "p256", "p384"
KINDS = (ED25519, RSA, P256, P384)
# The bits of a new key of RSA.
NEW_BITS = 3072
# The octets of each of the two numbers of a signature by Ed25519 or P-256.
HALF = 32
# So many octets are read of a number of a private RSA key in an S-expression, since computing with more would take long. A longer key than those
# that are used is refused with its number of bits, which is right up to so many octets.
MOST_OCTETS = 4098
# The most octets of a number of a private key in PEM, 4096 bits behind a zero octet, and of what is between its lines BEGIN and END, where such a key
# has 3400. `cryptography` tests primes of any length, which may take minutes, and no signal ends the program meanwhile.
MOST_IN_PEM, MOST_BETWEEN = 513, 5120
# How an S-expression of a private key begins.
PRIVATE = (b"(private-key", b"(11:private-key")
PEM = re.compile(rb"-----BEGIN ([A-Z0-9 ]+)-----")
# A block of PEM. One without a last line is only its first line here, which is no whole key.
BLOCK = re.compile(rb"-----BEGIN [A-Z0-9 ]+-----(?:(?:(?!-----BEGIN ).)*?-----END [A-Z0-9 ]+-----)?", re.DOTALL)
# A line of a public key of OpenSSH: the key, and its comment. At most two fields are before it, as the options in authorized_keys, or a marker and
# names in known_hosts.
FIELD = rb'(?!ssh-|ecdsa-|sk-)(?:\\"|\\(?!")|[^ \t\r\n"\\]|"(?:\\"|\\(?!")|[^"\r\n\\])*")+[ \t]+'
# (no more blanks than `remark_on_foreign` takes, which refuses certificates and FIDO keys)
KEY = rb"(?:ssh-|ecdsa-|sk-)[\w@.-]+[ \t]{1,64}AAAA[A-Za-z0-9+/=]+"
OPENSSH = re.compile(rb"^(?![ \t]*#)[ \t]*(?:%b){0,2}(%b)[ \t]*([^\r\n]*)" % (FIELD, KEY), re.MULTILINE)
# A block of PEM with a private key, of which group 1 is what is between its lines, and how one begins that is encrypted.
PRIVATE_PEM = re.compile(rb"-----BEGIN [A-Z0-9 ]*PRIVATE KEY-----(.*?)(?:-----END|\Z)", re.DOTALL)
ENCRYPTED_PEM = re.compile(rb"-----BEGIN (?:ENCRYPTED PRIVATE KEY-----|[A-Z0-9 ]*PRIVATE KEY-----\s*Proc-Type: 4,ENCRYPTED)")
NEEDS_BCRYPT = "encrypted OpenSSH keys need python3-bcrypt (pip: bcrypt); or let ssh-agent sign by it"
ENCRYPTED = "this is an encrypted private key"
# A function that asks for the passphrase of a file.
Asking = Callable[[], bytes]


class BadKey(Exception):
    """There is no key that can be used, in a file or at ssh-agent. The text says why."""


def digest_of(value: Value) -> bytes:
    """The SHA-256 digest of a value's canonical form."""
    return hashlib.sha256(canonical(value)).digest()


def hash_of(value: Value) -> Value:
    """The list `(hash sha256 DIGEST)` of a value. It names a key, or says of which certificate a signature is."""
    return [b"hash", b"sha256", digest_of(value)]


def principal_of(key: Value) -> Value:
    """The principal by which certificates name a key: the key itself, or for one of RSA, which is long, its hash."""
    is_rsa = isinstance(key, list) and isinstance(key[1], list) and key[1][0] == b"rsa"
    return hash_of(key) if is_rsa else key


def key_of(public: object) -> Value:
    """The SPKI key of a public key of `cryptography`. Raises BadKey for a kind or a length that is not used, and for a key by which
    services verify no signature."""
    from cryptography.hazmat.primitives.asymmetric import ec, ed25519, rsa
    from cryptography.hazmat.primitives.serialization import Encoding, PublicFormat
    from spki_verify import LEAST_BITS, MOST_BITS, MOST_EXPONENT_BITS, number
    key: Value
    if isinstance(public, ed25519.Ed25519PublicKey):
        octets = public.public_bytes(Encoding.Raw, PublicFormat.Raw)
        key = [b"public-key", [b"ecc", [b"curve", b"Ed25519"], [b"flags", b"eddsa"], [b"q", octets]]]
    elif isinstance(public, rsa.RSAPublicKey):
        numbers = public.public_numbers()
        if not LEAST_BITS <= numbers.n.bit_length() <= MOST_BITS or numbers.e.bit_length() > MOST_EXPONENT_BITS:
            raise BadKey(f"a key of RSA with {numbers.n.bit_length()} bits; it must have {LEAST_BITS} to {MOST_BITS}, "
                         f"and an exponent of at most {MOST_EXPONENT_BITS}")
        key = [b"public-key", [b"rsa", [b"n", number(numbers.n)], [b"e", number(numbers.e)]]]
    elif isinstance(public, ec.EllipticCurvePublicKey) and isinstance(public.curve, (ec.SECP256R1, ec.SECP384R1)):
        octets = public.public_bytes(Encoding.X962, PublicFormat.UncompressedPoint)
        key = [b"public-key", [b"ecc", [b"curve", b"NIST P-%d" % public.key_size], [b"q", octets]]]
    else:
        kind = type(public).__name__.strip("_").removesuffix("PublicKey")
        raise BadKey(f"a key of the kind {kind}, and {USED}")
    if public_of(key) is None:
        raise BadKey("services verify no signature by this key, since a number or a point in it is weak")
    return key


def public_of(key: Value) -> Public | None:
    """The public key of `cryptography` for an SPKI key that `key_of` could return. None for one in another form, or that is weak or of another
    length: services verify no signature by it."""
    from spki_verify import public_of as public_of_text
    return public_of_text(canonical(key))


def kind_of(key: Value) -> str:
    """What kind of key an SPKI key is, for people to read: as "Ed25519", "ECDSA NIST P-256" or "RSA 3072", where the number is that of the bits. Of
    another key the algorithm, or that it is not known."""
    match key:
        case [_, [b"ecc", [b"curve", b"Ed25519"], *_]]:
            return "Ed25519"
        case [_, [b"ecc", [b"curve", bytes() as curve], *_]]:
            return f"ECDSA {curve.decode(errors='replace')}"
        case [_, [b"rsa", [b"n", bytes() as modulus], *_]]:
            return f"RSA {int.from_bytes(modulus, 'big').bit_length()}"
        case [_, [bytes() as algorithm, *_]]:
            return f"of the algorithm {algorithm.decode(errors='replace')}"
    return "of no kind that is known"


# ---- signatures


def value_of_octets(kind: str, octets: bytes) -> Value:
    """The value `(sig-val ..)` of the octets of a signature by a key of the kind ED25519 or RSA."""
    if kind == ED25519:
        return [b"sig-val", [b"eddsa", [b"r", octets[:HALF]], [b"s", octets[HALF:]]]]
    return [b"sig-val", [b"rsa", [b"s", octets]]]


def value_of_numbers(r: int, s: int, octets: int = HALF) -> Value:
    """The value `(sig-val ..)` of a signature of ECDSA, whose numbers are `r` and `s`. Each is written in so many octets. Raises
    OverflowError if one needs more."""
    return [b"sig-val", [b"ecdsa", [b"r", r.to_bytes(octets, "big")], [b"s", s.to_bytes(octets, "big")]]]


class FileSigner:
    """Signs by a private key that was read from a file. `key` is the public one. Making one raises BadKey for a kind or length that is not used."""

    def __init__(self, private: Private) -> None:
        self.private, self.key = private, key_of(private.public_key())

    def sign(self, message: bytes) -> Value:
        """The value `(sig-val ..)` of a signature of these octets: by RSA and P-256 with SHA-256, by P-384 with SHA-384."""
        from cryptography.hazmat.primitives.asymmetric import ec, ed25519, padding, utils
        from cryptography.hazmat.primitives.hashes import SHA256, SHA384
        if isinstance(self.private, ed25519.Ed25519PrivateKey):
            return value_of_octets(ED25519, self.private.sign(message))
        if isinstance(self.private, ec.EllipticCurvePrivateKey):
            octets = self.private.key_size // 8
            pair = self.private.sign(message, ec.ECDSA(SHA256() if octets == HALF else SHA384()))
            return value_of_numbers(*utils.decode_dss_signature(pair), octets)
        return value_of_octets(RSA, self.private.sign(message, padding.PKCS1v15(), SHA256()))


def verifies(key: Value, message: bytes, value: Value) -> bool:
    """Whether `value`, a list `(sig-val ..)`, is a valid signature of the octets of a message by an SPKI key."""
    from spki_verify import verify_texts
    return verify_texts(key=canonical(key), message=message, value=canonical(value))


# ---- files


def is_private(octets: bytes) -> bool:
    """Whether the octets of a file have a private key in PEM or OpenSSH's form, or begin as one of PuTTY, or behind spaces as PRIVATE."""
    has_pem = any(kind.endswith(b"PRIVATE KEY") for kind in PEM.findall(octets))
    return has_pem or octets.startswith(b"PuTTY-User-Key-File") or octets.lstrip().startswith(PRIVATE)


def is_key_file(octets: bytes) -> bool:
    """Whether the octets of a file have a line of OpenSSH or the first line of a block of PEM, as keys have that are no S-expression. False for what
    `is_text` accepts: its strings may have such lines."""
    return not is_text(octets) and (PEM.search(octets) is not None or OPENSSH.search(octets) is not None)


def is_text(octets: bytes) -> bool:
    """Whether the octets of a file begin with `(` or `{`, as an S-expression, and not as PRIVATE. So JSON is one here, which is refused when it is
    read."""
    return octets.lstrip().startswith((b"(", b"{")) and not octets.lstrip().startswith(PRIVATE)


def read_public(octets: bytes, asking: Asking, number: int | None = None) -> Value:
    """The public key of the octets of a file: OpenSSH, PEM or S-expression, public or private. Of several it is the one with this number, from 1,
    which must be given then. `asking` is called for the passphrase of an encrypted private key in PEM. Of a public S-expression only the form is
    tested. Raises Wrong for an S-expression that is no key and for a text in none of the forms, and BadKey for the rest."""
    if is_private(octets):
        octets = public_part(octets) or openssh_line(read_private(octets, asking).public_key())
    pieces = pieces_of(octets)
    if number is None and len(pieces) > 1:
        raise BadKey(f"{len(pieces)} keys are in this file; --key N takes the one with this number for --to, and `spki-cert key --key N` writes it")
    if number is not None and not 1 <= number <= len(pieces):
        raise BadKey(f"there is no key {number} in this file; it has {len(pieces)}")
    _, piece = pieces[(number or 1) - 1]
    if is_text(piece):
        return key_of_text(piece)
    if why := remark_on_foreign(piece):
        raise BadKey(why)
    return key_of(public_in(piece)) if OPENSSH.match(piece) or PEM.search(piece) else key_of_text(piece)


def pieces_of(octets: bytes) -> list[tuple[int, bytes]]:
    """The parts of the octets of a file that are read as one public key each, with the offset of each: the whole if `is_text`, otherwise the lines of
    OpenSSH and the blocks of PEM, of any kind, in their order in the file, or the whole if there are none."""
    if is_text(octets):
        return [(0, octets)]
    lines = [(found.start(1), found[1]) for found in OPENSSH.finditer(octets)]
    blocks = [(found.start(), found[0]) for found in BLOCK.finditer(octets)]
    return sorted([*lines, *blocks]) or [(0, octets)]


def no_passphrase() -> bytes:
    """The argument `asking` of `read_public` for callers that only look at keys: raises BadKey instead of asking for a passphrase."""
    raise BadKey(ENCRYPTED)


def public_in(octets: bytes) -> object:
    """The public key, as `cryptography` has it, of one line of OpenSSH or one block of PEM. Raises BadKey for a kind that `cryptography` does not
    read, or a key that is not whole."""
    from cryptography.exceptions import UnsupportedAlgorithm
    from cryptography.hazmat.primitives.serialization import load_pem_public_key, load_ssh_public_key
    try:
        return load_pem_public_key(octets) if PEM.search(octets) else load_ssh_public_key(octets)
    except UnsupportedAlgorithm as fault:
        kind = f"a kind that is not read here ({fault})" if PEM.search(octets) else f"the kind {octets.split()[0].decode(errors='replace')}"
        raise BadKey(f"a key of {kind}, and {USED}") from None
    # (also NotImplementedError for a compressed point, and IndexError for an empty one)
    except Exception:
        raise BadKey(f"no whole public key: was it copied to its end? It must be one line of OpenSSH or a block of PEM, and {USED}") from None


def public_part(octets: bytes) -> bytes | None:
    """The line of the public key that the file of a private key of OpenSSH has in clear. None if it is another file. Raises BadKey if it is cut, and
    for any file with several private keys."""
    count = sum(kind.endswith(b"PRIVATE KEY") for kind in PEM.findall(octets))
    if count > 1:
        raise BadKey(f"{count} private keys are in this file, and which of them is meant is not clear: write the one into a file of its own")
    if b"BEGIN OPENSSH" not in octets:
        return None
    try:
        rest = base64.b64decode(octets.partition(b"KEY-----")[2].partition(b"-----END")[0]).removeprefix(b"openssh-key-v1\0")
        # (the cipher, the function that makes its key, and the parameters of this; then four octets with the number of keys)
        for _ in range(3):
            _, rest = split_string(rest)
        blob, _ = split_string(rest[4:])
        kind, _ = split_string(blob)
        if re.fullmatch(rb"[\w@.-]+", kind):
            return kind + b" " + base64.b64encode(blob)
    except (ValueError, BadKey):
        pass
    raise BadKey("no whole private key of OpenSSH: was it copied to its end?")


def split_string(octets: bytes) -> tuple[bytes, bytes]:
    """The first string of some octets, which SSH writes behind its length in four octets, and the octets after it. Raises BadKey if it is cut off,
    with a text for an answer of ssh-agent; `public_part`, which reads a file, catches it and says something else."""
    end = 4 + int.from_bytes(octets[:4], "big")
    if len(octets) < max(end, 4):
        raise BadKey("ssh-agent sent an answer that is not whole")
    return octets[4:end], octets[end:]


def key_of_text(octets: bytes) -> Value:
    """The SPKI key in a text, which may have any of the three forms. Whether its numbers are weak is not tested. Raises Wrong for any other text."""
    from .structures import read_key
    node = value_in(octets)
    read_key(node)
    return node.value


def read_private(octets: bytes, asking: Asking) -> Private:
    """The private key of the octets of a file: PEM, OpenSSH or S-expression. `asking` gives the passphrase if it is encrypted. Raises BadKey, also
    for a key of a kind or length that is not used, or Wrong for an S-expression that cannot be read."""
    from cryptography.exceptions import UnsupportedAlgorithm
    from cryptography.hazmat.primitives.serialization import load_pem_private_key
    from cryptography.hazmat.primitives.serialization.ssh import load_ssh_private_key
    openssh_public, is_asked = public_part(octets), False
    load: Any = load_ssh_private_key if openssh_public else load_pem_private_key
    if why := remark_on_foreign(openssh_public or octets):
        raise BadKey(why)
    try:
        if octets.lstrip().startswith(b"("):
            return private_of_text(octets)
        # (before `cryptography` tests the primes. Of OpenSSH's form it tests only those whose product is the number in the public part)
        if openssh_public:
            key_of(public_in(openssh_public))
        else:
            refuse_long(octets)
        try:
            private = load(octets, None)
        except (TypeError, ValueError) as fault:
            # (for an encrypted key, `cryptography` raises TypeError or a ValueError with this word, by its version and the file's form)
            if isinstance(fault, ValueError) and "password" not in str(fault):
                raise
            if openssh_public and importlib.util.find_spec("bcrypt") is None:
                raise BadKey(NEEDS_BCRYPT) from None
            is_asked = True
            private = load(octets, asking())
    except (BadKey, Wrong, ImportError, KeyboardInterrupt, SystemExit):
        raise
    # (`cryptography` also raises InvalidTag, and PanicException, which is no Exception)
    except BaseException as fault:
        if "bcrypt" in str(fault):
            raise BadKey(NEEDS_BCRYPT) from None
        if isinstance(fault, UnsupportedAlgorithm):
            raise BadKey(f"a private key of a kind, or with a cipher, that is not read here ({fault}); {USED}") from None
        if is_asked:
            raise BadKey("this is not the passphrase of the key, or the file is damaged") from None
        raise BadKey(f"no private key that can be read: was it copied to its end? And {USED}") from None
    # (raises BadKey for a kind or length that is not used)
    key_of(private.public_key())
    return cast("Private", private)


def refuse_long(octets: bytes) -> None:
    """Raises BadKey for a private key in PEM that is longer than those that are used, and ValueError or IndexError, which `read_private` catches, for
    one that is no base64 or ends within a value. Of an encrypted one the numbers are not seen."""
    found, der, at = PRIVATE_PEM.search(octets), b"", 0
    is_long = found is not None and len(found[1]) > MOST_BETWEEN
    if found is not None and not is_long and not ENCRYPTED_PEM.search(octets):
        der = base64.b64decode(b"".join(found[1].split()), validate=True)
    # (DER: each value behind its kind, and its length, which is one octet, or more behind their count and 128)
    while at < len(der):
        kind, length, at = der[at], der[at + 1], at + 2
        if length >= 128:
            at, length = at + length - 128, int.from_bytes(der[at:at + length - 128], "big")
        # (an INTEGER)
        is_long = is_long or kind == 2 and length > MOST_IN_PEM
        # (the members of a SEQUENCE are values too, and those of RSA are in an OCTET STRING, which is longer than those of other keys)
        if kind != 0x30 and not (kind == 4 and length > 255):
            at += length
    if is_long:
        raise BadKey(f"a private key that is longer than one of RSA with 4096 bits, and {USED}")
    if at != len(der):
        raise ValueError


def private_of_text(octets: bytes) -> Private:
    """The private key of an S-expression, as libgcrypt has it. For a curve the public point `q` is not read, but computed. Raises Wrong if it is no
    S-expression, BadKey for another form or an RSA key of a length that is not used, and ValueError or ArithmeticError, which `read_private` catches,
    for numbers that are no key."""
    from cryptography.hazmat.primitives.asymmetric import ec, ed25519, rsa
    match Parser(octets).whole().value:
        case [b"private-key", [b"ecc", [b"curve", b"Ed25519"], [b"flags", b"eddsa"], [b"q", _], [b"d", bytes() as secret]]]:
            return ed25519.Ed25519PrivateKey.from_private_bytes(secret)
        case [b"private-key", [b"ecc", [b"curve", b"NIST P-256" | b"NIST P-384" as curve], [b"q", _], [b"d", bytes() as secret]]]:
            return ec.derive_private_key(int.from_bytes(secret, "big"), ec.SECP256R1() if curve == b"NIST P-256" else ec.SECP384R1())
        case [b"private-key", [b"rsa", [b"n", bytes() as modulus], [b"e", bytes() as exponent], [b"d", bytes() as secret],
                               [b"p", bytes() as first], [b"q", bytes() as second], *_]]:
            n, e, d, p, q = (int.from_bytes(number[:MOST_OCTETS], "big") for number in (modulus, exponent, secret, first, second))
            public = rsa.RSAPublicNumbers(e, n)
            # (raises BadKey for a long key before `cryptography` tests primes. It tests only those whose product is n)
            key_of(public.public_key())
            return rsa.RSAPrivateNumbers(p, q, d, d % (p - 1), d % (q - 1), rsa.rsa_crt_iqmp(p, q), public).private_key()
    raise BadKey("a private key in a form that is not known")


def new_private(kind: str) -> Private:
    """A new private key of one of `KINDS`."""
    from cryptography.hazmat.primitives.asymmetric import ec, ed25519, rsa
    if kind == ED25519:
        return ed25519.Ed25519PrivateKey.generate()
    if kind == RSA:
        return rsa.generate_private_key(65537, NEW_BITS)
    return ec.generate_private_key(ec.SECP256R1() if kind == P256 else ec.SECP384R1())


def file_of(private: Private, passphrase: bytes, is_pem: bool = False) -> bytes:
    """The octets of the file of a private key, as OpenSSH has it or in PEM (PKCS#8). It is encrypted unless the passphrase is empty. Raises BadKey
    where OpenSSH's form cannot be encrypted here, or if the passphrase is too long."""
    from cryptography.exceptions import UnsupportedAlgorithm
    from cryptography.hazmat.primitives.serialization import BestAvailableEncryption, Encoding, NoEncryption, PrivateFormat
    encryption = BestAvailableEncryption(passphrase) if passphrase else NoEncryption()
    try:
        form = PrivateFormat.PKCS8 if is_pem else PrivateFormat.OpenSSH
        return cast(bytes, cast(Any, private).private_bytes(Encoding.PEM, form, encryption))
    except UnsupportedAlgorithm:
        raise BadKey(f"{NEEDS_BCRYPT}; with --pem the new key is encrypted without it") from None
    except ValueError as why:
        # (a passphrase of over 1,023 octets)
        raise BadKey(f"the key is not encrypted: {why}") from None


def openssh_line(public: Public) -> bytes:
    """The line of a public key in the form of OpenSSH, without a comment."""
    from cryptography.hazmat.primitives.serialization import Encoding, PublicFormat
    return public.public_bytes(Encoding.OpenSSH, PublicFormat.OpenSSH)
