"""The words of the library's lines, as enumerations. Each is a `str` too, and equals the word."""
from __future__ import annotations

import enum


class _Word(str, enum.Enum):
    """A word of a line. A word that this version of the module does not know is `OTHER`: the line has the word
    itself."""

    def __str__(self) -> str:
        return str(self.value)

    @classmethod
    def _missing_(cls, value: object) -> _Word:
        """The member `OTHER`. `enum` calls it for a word that no member has, instead of raising `ValueError`."""
        return cls["OTHER"]


class Fault(_Word):
    """Why a text or a question is refused."""

    BAD = "Bad"
    """An octet of a text that is not allowed at its place, or a string whose octets are not as many or not as encoded as
    its form requires. Behind the word the line has the offset, from 0."""
    BAD_DATE = "BadDate"
    """A date that is not written as `2026-03-01_12:00:00` or has a number such as month 13, or seconds below 0 or past the
    year 9999. There is no calendar check: `2026-02-30_12:00:00` is a date."""
    DIGEST_LENGTH = "DigestLength"
    """A digest of another length than its algorithm has."""
    EMPTY_LIST = "EmptyList"
    """A list without members in a tag or a request."""
    HASH_ALG = "HashAlg"
    """A hash or a `(do hash ..)` by another algorithm than SHA-1, SHA-256 or SHA-512."""
    HINT = "Hint"
    """A display hint in a tag or a request."""
    KEY_URIS = "KeyUris"
    """A key with `(uri ..)`."""
    KEYHOLDER = "Keyholder"
    """A subject `(keyholder ..)`."""
    LIST_HEAD = "ListHead"
    """A list in a tag or a request that begins with a list."""
    MEMORY = "Memory"
    """An allocation failed."""
    MISUSED = "Misused"
    """A call that is made wrongly, in Rust. In Python it raises `IndexError`, `TypeError` or `ValueError`, and no line
    has this word."""
    ONLINE = "Online"
    """A validity with `(online ..)`."""
    RANGE_LIMIT = "RangeLimit"
    """A range in a tag whose limits are neither one limit nor a lower and then an upper one."""
    RANGE_ORDERING = "RangeOrdering"
    """A range in a tag by another ordering than `alpha`, `time` or `date`, or by none."""
    RELATIVE_IN_ENTRY = "RelativeInEntry"
    """An entry for a name without a principal."""
    SHAPE = "Shape"
    """A value that has not the form of its part, such as an entry without a tag."""
    SHORT = "Short"
    """The text ends before its value is complete."""
    STAR_IN_REQUEST = "StarInRequest"
    """A list that begins with `*` in a request."""
    STRAY_SIGNATURE = "StraySignature"
    """A signature in a sequence without a certificate before it."""
    THRESHOLD = "Threshold"
    """A subject `(k-of-n ..)`."""
    TOO_DEEP = "TooDeep"
    """More than 64 lists are open at once."""
    TOO_LARGE = "TooLarge"
    """An explanation or a reduction exceeds a limit of nodes, of work or of the answer."""
    TOO_LONG = "TooLong"
    """A text or a question has more octets than a limit."""
    TOO_MANY_CERTIFICATES = "TooManyCertificates"
    """A question has more certificates than a limit."""
    TOO_MANY_NODES = "TooManyNodes"
    """A tag has more nodes than a limit."""
    TOO_MANY_WORDS = "TooManyWords"
    """A request has more strings than a limit."""
    TRAILING = "Trailing"
    """An octet behind a complete value. Behind the word the line has its offset, from 0."""
    UNKNOWN_OP = "UnknownOp"
    """A `(do ..)` in a sequence that is not `(do hash ..)`."""
    UNKNOWN_STAR = "UnknownStar"
    """A `(* ..)` of no known form in a tag."""
    UNKNOWN_VERSION = "UnknownVersion"
    """A version other than 0."""
    UNSIGNED_CERT = "UnsignedCert"
    """A certificate in a sequence that no signature follows."""
    OTHER = "Other"
    """A word that this version of the module does not know."""


class Cause(_Word):
    """That an entry grants a request, or why it does not, or the test that a certificate does not pass."""

    DIGEST_DIFFERS = "DigestDiffers"
    """The digest in its signature is another than that of the certificate."""
    GRANTS = "grants"
    """The entry grants the request."""
    KEY_NOT_SHOWN = "KeyNotShown"
    """No key of the sequence has the hash that is its issuer."""
    NO_DELEGATION = "NoDelegation"
    """The authorization so far must not be delegated."""
    NO_TAG = "NoTag"
    """The intersection of the tags is empty."""
    NO_VALIDITY = "NoValidity"
    """No moment is within both windows."""
    NOT_ACCEPTED = "NotAccepted"
    """Its signature is not marked as valid."""
    NOT_ISSUER = "NotIssuer"
    """The subject so far is a name that is not resolved, or another than the certificate's issuer."""
    NOT_THE_KEY = "NotTheKey"
    """The last subject is a name that is not resolved, or another than the client's key."""
    NOT_THE_NAME = "NotTheName"
    """The subject so far does not begin with the name that the certificate defines."""
    SIGNER_DIFFERS = "SignerDiffers"
    """The signature is by another key than that of the issuer."""
    TAG_LACKS = "TagLacks"
    """The tag does not contain the request."""
    WINDOW_LACKS = "WindowLacks"
    """The window does not contain the moment."""
    OTHER = "Other"
    """A word that this version of the module does not know."""


class Part(_Word):
    """What is refused."""

    ACL = "acl"
    """The access list."""
    AT = "at"
    """The moment."""
    FORM = "form"
    """An access list or a text that is in none of the three forms within the limits."""
    KEY = "key"
    """The client's key."""
    QUESTION = "question"
    """The question as a whole, which exceeds a limit."""
    REQUEST = "request"
    """The request."""
    SEQUENCE = "sequence"
    """The certificates and signatures."""
    OTHER = "Other"
    """A word that this version of the module does not know."""
