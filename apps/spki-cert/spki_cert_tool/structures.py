"""Reads keys, hashes, names, entries, certificates and signatures, and tags, which are patterns for requests: docs/FORMATS.md, "Keys, hashes,
dates, entries, certificates" and "Tags".

To read a value, a `Node` with its place in a text, is to check that it has the form that is required. The head of a list is the word it begins with.
"""
import re
from collections.abc import Callable

from .forms import MOST_NODES, Node, Wrong, excerpt, shape_fault, suggestion

# The form of a date. Whether the calendar has it is not tested.
MOMENT = re.compile(rb"\d{4}-(0[1-9]|1[0-2])-(0[1-9]|[12]\d|3[01])_([01]\d|2[0-3]):[0-5]\d:([0-5]\d|60)")
# How many octets a digest has, by its algorithm.
DIGESTS = {b"sha1": 20, b"sha256": 32, b"sha512": 64}
PRINCIPALS = (b"public-key", b"hash")
STARS, ORDERINGS = (b"set", b"prefix", b"range"), (b"alpha", b"time", b"date")
LIMITS = (b"not-before", b"not-after")
ENTRY_FIELDS = (*LIMITS, b"valid", b"tag", b"propagate", b"comment")
CERTIFICATE_FIELDS = (*ENTRY_FIELDS, b"issuer", b"subject", b"version", b"display", b"issuer-info", b"subject-info")
# Reads a value, and raises Wrong where a service would refuse it: so do all functions `read_..`. Some return what others need of the value.
Reader = Callable[[Node], object]
# The fields that were read, by their heads: for each its node, and what its reader returned.
FieldsRead = dict[bytes, tuple[Node, object]]


def but_is(node: Node, *heads: bytes) -> str:
    """The end of a remark behind "must be", as "`(key ..)`, but is `(kay ..)`; is `key` meant?": the heads that are allowed, of which a list must
    have one, and what the value is instead."""
    allowed = [f"`({head.decode()} ..)`" for head in heads]
    actual = f"the string `{excerpt(node.body or b'')}`" if node.members is None else "a list without a word as its head"
    if node.head is not None:
        actual = f"`({excerpt(node.head)} ..)`"
    return f"{', '.join(allowed[:-1])}{' or ' if allowed[1:] else ''}{allowed[-1]}, but is {actual}{suggestion(node.head, heads)}"


class Members:
    """The members of a list after its head. `left` has those that are not read yet, and `next` takes the first of them."""

    def __init__(self, node: Node, head: bytes, what: str) -> None:
        """Raises Wrong for a value that is no list with this head. `what` is what must have it, in words for the remark."""
        if node.head != head:
            raise shape_fault(node, f"{what} must be {but_is(node, head)}")
        self.node, self.left = node, node.rest

    def next(self, what: str) -> Node:
        """Takes and returns the next member. Raises Wrong if there is none; `what` is what is missing then, in words."""
        if not self.left:
            raise Wrong("Shape", self.node.end - 1, f"{what} is missing here", [(self.node.begin, "in the list that begins here")])
        return self.left.pop(0)

    def require_end(self) -> None:
        """Raises Wrong if there is one more member."""
        if self.left:
            head = (self.node.head or b"").decode(errors="replace")
            raise shape_fault(self.left[0], f"this is one member too many in `({head} ..)`", [(self.node.begin, "which begins here")])


def list_reader(head: bytes | None, what: str, *readers: tuple[str, Reader]) -> Reader:
    """Returns a reader of lists with this head, or any head for None, and exactly these members: each by what it is called, and its reader. The list
    is called `what` in a remark. The reader returns what that of the last member returns, and None without members."""
    def read_list(node: Node) -> object:
        """Reads the list. Raises Wrong if it has another head or other members."""
        members, last_result = Members(node, head or node.head or b"", what), None
        for name, read in readers:
            last_result = read(members.next(name))
        members.require_end()
        return last_result
    return read_list


def read_key(node: Node) -> None:
    """Reads a key `(public-key (ALGORITHM PART ..))`. Raises Wrong if it is none."""
    members = Members(node, b"public-key", "a key")
    inner = members.next("(ALGORITHM PART ..)")
    if inner.head is None:
        raise shape_fault(inner, "a key contains a list that begins with the name of an algorithm")
    if members.left and members.left[0].head == b"uri":
        raise Wrong("KeyUris", members.left[0].begin, "a key has no `(uri ..)` here")
    members.require_end()


def read_algorithm(node: Node) -> bytes:
    """Reads the algorithm of a hash, and returns it. Raises Wrong if it is none."""
    if node.members is not None:
        raise shape_fault(node, "the algorithm of a hash is a string")
    if node.hint is not None or node.body not in DIGESTS:
        without = ", without a display hint" if node.hint is not None else ""
        raise Wrong("HashAlg", node.begin, f"the algorithm is sha1, sha256 or sha512{without}{suggestion(node.body, DIGESTS)}")
    return node.body or b""


def read_hash(node: Node) -> bytes:
    """Reads `(hash ALGORITHM DIGEST)`, which may have one more member `(uri ..)`, and returns the algorithm. Raises Wrong if it is none."""
    members = Members(node, b"hash", "a hash")
    algorithm = read_algorithm(members.next("the algorithm"))
    digest = members.next("the digest")
    if not digest.is_plain():
        raise shape_fault(digest, "the digest is a string without a display hint")
    if len(digest.body or b"") != DIGESTS[algorithm]:
        lengths = f"a digest by {algorithm.decode()} has {2 * DIGESTS[algorithm]} hexadecimal digits, here {2 * len(digest.body or b'')}"
        raise Wrong("DigestLength", digest.begin, f"{lengths}, between two `#`: copy it again, or take that of `spki-cert key --hash FILE`")
    if members.left and members.left[0].head == b"uri":
        members.left.pop(0)
    members.require_end()
    return algorithm


def read_principal(node: Node) -> None:
    """Reads a principal, which is a key or a hash. Raises Wrong if it is none."""
    if node.head not in PRINCIPALS:
        raise shape_fault(node, f"a principal must be {but_is(node, *PRINCIPALS)}")
    (read_key if node.head == b"public-key" else read_hash)(node)


def read_name(node: Node) -> tuple[bool, int]:
    """Reads `(name PRINCIPAL n ..)` or `(name n ..)`. Returns whether it has a principal, and how many strings. Raises Wrong if it is none."""
    members = Members(node, b"name", "a name")
    has_principal = bool(members.left) and members.left[0].members is not None
    if has_principal:
        read_principal(members.next("the principal"))
    names = [members.next("a name's string"), *members.left]
    for name in names:
        if not name.is_plain():
            raise shape_fault(name, "a name consists of strings without display hints")
    return has_principal, len(names)


def read_subject(node: Node) -> bool:
    """Reads a subject. Returns whether it is or has a principal, and so is no relative name. Raises Wrong if it is none."""
    for head, kind in ((b"k-of-n", "Threshold"), (b"keyholder", "Keyholder")):
        if node.head == head:
            raise Wrong(kind, node.begin, f"a subject `({head.decode()} ..)` is not supported")
    if node.head == b"name":
        return read_name(node)[0]
    if node.head not in PRINCIPALS:
        raise shape_fault(node, f"a subject must be {but_is(node, *PRINCIPALS, b'name')}")
    read_principal(node)
    return True


def read_date(node: Node) -> None:
    """Reads a date. Raises Wrong if it has another form. Whether the calendar has it is not tested."""
    if not node.is_plain() or not MOMENT.fullmatch(node.body or b""):
        raise Wrong("BadDate", node.begin, 'a date is a string YYYY-MM-DD_HH:MM:SS in quotes, in UTC')


def read_version_number(node: Node) -> None:
    """Reads the string of a version. Raises Wrong unless it is 0."""
    if node.members is not None:
        raise shape_fault(node, "a version is a string")
    if not node.is_plain(b"0"):
        raise Wrong("UnknownVersion", node.begin, "the version is 0")


def read_issuer(node: Node) -> bool:
    """Reads an issuer. Returns whether a certificate with it defines a name. Raises Wrong if it is none."""
    if node.head != b"name":
        read_principal(node)
        return False
    has_principal, count = read_name(node)
    if not has_principal or count != 1:
        raise shape_fault(node, "an issuer is a principal, or `(name PRINCIPAL n)` with one string")
    return True


def field_reader(read: Reader) -> Reader:
    """The reader of a field `(HEAD MEMBER)`, whose member is read by `read`. It returns what `read` returns."""
    return list_reader(None, "a field", ("the member of this field", read))


read_version = list_reader(b"version", "a version", ("the version's string", read_version_number))
# The reader of each field by its head. (`read_tag` and `read_fields` are defined below.) A field that is not here is not read.
FIELDS: dict[bytes, Reader] = {
    b"not-before": field_reader(read_date), b"not-after": field_reader(read_date), b"tag": field_reader(lambda node: read_tag(node)),
    b"issuer": field_reader(read_issuer), b"subject": field_reader(read_subject), b"version": read_version,
    b"propagate": list_reader(None, "a field"), b"valid": lambda node: read_fields(node, node.rest, LIMITS)}


def why_no_field(node: Node, allowed: tuple[bytes, ...]) -> str:
    """Why a value is no field where only the fields with the heads `allowed` may be."""
    if node.head is not None:
        return f"`{excerpt(node.head)}` is no field here{suggestion(node.head, allowed)}"
    # (a string that is the head of a field lacks its parentheses)
    word = node.body if node.body in allowed else b"tag" if b"tag" in allowed else allowed[0]
    return f"a field is in parentheses and begins with a word, as `({excerpt(word or b'')} ..)`"


def read_fields(owner: Node, nodes: list[Node], allowed: tuple[bytes, ...]) -> FieldsRead:
    """Reads the fields `nodes`, whose heads must be allowed. Returns by head the field's node and what its reader returns. `owner` is the list that
    has them. Raises Wrong for a field that is not allowed, that its reader refuses or that is there twice, and for one of LIMITS beside `valid`."""
    fields: FieldsRead = {}
    for node in nodes:
        head = node.head
        if head == b"online":
            raise Wrong("Online", node.begin, "an online test is not supported; give a short validity by `(not-after ..)`")
        if head is None or head not in allowed:
            raise shape_fault(node, why_no_field(node, allowed))
        if head in fields:
            both = f"one `(tag (* set A B))` contains both, or write a second `({excerpt(owner.head or b'')} ..)`"
            advice = both if head == b"tag" else "remove one of them"
            raise shape_fault(node, f"the field `{head.decode()}` is here a second time: {advice}",
                              [(fields[head][0].begin, "the first one"), (owner.begin, "in the list that begins here")])
        fields[head] = node, FIELDS.get(head, lambda _: None)(node)
    for head in LIMITS:
        if b"valid" in fields and head in fields:
            raise shape_fault(fields[head][0], f"`{head.decode()}` is given directly, and there is `(valid ..)` too",
                              [(fields[b"valid"][0].begin, "here")])
    return fields


def require_fields(owner: Node, fields: FieldsRead, *heads: bytes) -> None:
    """Raises Wrong if a field with one of these heads is not among those that were read. `owner` is the list that should have it."""
    for head in heads:
        if head not in fields:
            raise shape_fault(owner, f"the field `({head.decode()} ..)` is missing in the list that begins here")


def read_entry(node: Node) -> None:
    """Reads an entry of an access list. Raises Wrong if it is none."""
    if node.head == b"deny":
        raise shape_fault(node, "there are no denials: what no entry gives is denied, so leave this out")
    members = Members(node, b"entry", "an entry")
    subject = members.next("the subject")
    if not read_subject(subject):
        raise Wrong("RelativeInEntry", subject.begin, "a name in an entry needs the key that defines it: `(name KEY n ..)`")
    require_fields(node, read_fields(node, members.left, ENTRY_FIELDS), b"tag")


def read_certificate(node: Node) -> None:
    """Reads a certificate, which gives a right or, if its issuer is a name, defines this name. Raises Wrong if it is none."""
    fields = read_fields(node, Members(node, b"cert", "a certificate").left, CERTIFICATE_FIELDS)
    require_fields(node, fields, b"issuer", b"subject")
    issuer_node, defines_name = fields[b"issuer"]
    if not defines_name:
        require_fields(node, fields, b"tag")
        return
    for head in (b"tag", b"propagate"):
        if head in fields:
            why = f"its issuer is a name, so it defines a name and must have no `{head.decode()}`: remove the `{head.decode()}`, or write the key "
            raise shape_fault(fields[head][0], f"{why}alone as issuer", [(issuer_node.begin, "its issuer is a name")])


def read_digest_of_row(node: Node) -> None:
    """Reads the hash in a row, which says that a signature is valid. Raises Wrong unless it is one by SHA-256."""
    if read_hash(node) != b"sha256":
        raise Wrong("HashAlg", node.begin, "the hash of a row is by sha256")


def read_operation(node: Node) -> None:
    """Reads an item `(do hash ALGORITHM)`. Raises Wrong if it is none."""
    # (another operation has a fault of its own, so this is tested before the rest)
    if not node.rest or not node.rest[0].is_plain(b"hash"):
        raise Wrong("UnknownOp", node.begin, "the only operation is `(do hash ALGORITHM)`")
    list_reader(b"do", "an operation", ("hash", lambda _: None), ("the algorithm", read_algorithm))(node)


read_signature = list_reader(b"signature", "a signature", ("the hash", read_hash), ("the principal", read_principal), ("the value", lambda _: None))
read_row = list_reader(b"by", "a row", ("the key", read_key), ("the hash", read_digest_of_row), ("the value of the signature", lambda _: None))
ITEMS: dict[bytes, Reader] = {b"public-key": read_key, b"do": read_operation, b"cert": read_certificate, b"signature": read_signature}


def read_item(node: Node) -> None:
    """Reads an item of a sequence: a key, an operation, a certificate or a signature. Raises Wrong if it is none."""
    if node.head is None or node.head not in ITEMS:
        raise shape_fault(node, f"an item must be {but_is(node, *ITEMS)}")
    ITEMS[node.head](node)


# ---- tags and requests


def refuse_hint(node: Node) -> None:
    """Raises Wrong if a string has a display hint."""
    if node.hint is not None:
        raise Wrong("Hint", node.begin, "no string here has a display hint")


def list_head(node: Node) -> Node:
    """The first member of a list in a tag or a request. Raises Wrong if there is none, or it is no string without a hint."""
    if not node.members:
        raise Wrong("EmptyList", node.begin, "a list here has members")
    if node.members[0].members is not None:
        raise Wrong("ListHead", node.members[0].begin, "the first member of a list here is a string")
    refuse_hint(node.members[0])
    return node.members[0]


def read_tag(node: Node, nodes: list[int] | None = None) -> None:
    """Reads a tag, and the tags in it, each of which is a node. Raises Wrong if one is none, or if there are over MOST_NODES. `nodes` is a list of
    one number, which counts the nodes of the outermost tag so far. It is None for the outermost tag itself."""
    nodes = [0] if nodes is None else nodes
    nodes[0] += 1
    if nodes[0] > MOST_NODES:
        raise Wrong("TooManyNodes", node.begin, f"the {MOST_NODES + 1}th node of the tag begins here")
    if node.members is None:
        return refuse_hint(node)
    behind = node.members
    if list_head(node).body == b"*":
        if len(behind) == 1:
            return None
        word = behind[1]
        if word.members is None:
            refuse_hint(word)
        if word.body not in STARS:
            raise Wrong("UnknownStar", word.begin, "the star is followed by `set`, `prefix` or `range`" + suggestion(word.body, STARS))
        behind = behind[2:]
        if word.body != b"set":
            return (read_prefix if word.body == b"prefix" else read_range)(node, behind)
    for member in behind:
        read_tag(member, nodes)


def read_prefix(node: Node, behind: list[Node]) -> None:
    """Reads a tag `(* prefix ..)`, whose members behind the word `prefix` are given. Raises Wrong unless they are one string."""
    if len(behind) != 1 or behind[0].members is not None:
        raise Wrong("UnknownStar", node.begin, "`prefix` is followed by one string")
    refuse_hint(behind[0])


def read_range(node: Node, behind: list[Node]) -> None:
    """Reads a tag `(* range ..)`, whose members behind the word `range` are given. Raises Wrong unless they are an ordering and limits."""
    # (without an ordering the fault is at the tag itself, whose body is None)
    ordering = behind[0] if behind else node
    if ordering.members is None:
        refuse_hint(ordering)
    if ordering.body not in ORDERINGS:
        raise Wrong("RangeOrdering", ordering.begin, "`range` is followed by `alpha`, `time` or `date`" + suggestion(ordering.body, ORDERINGS))
    for member in behind[1:]:
        if member.members is None:
            refuse_hint(member)
    limits = behind[1:]
    for words in ((b"g", b"ge"), (b"l", b"le")):
        if len(limits) >= 2 and limits[0].is_plain(*words) and limits[1].is_plain():
            limits = limits[2:]
    if limits:
        raise Wrong("RangeLimit", limits[0].begin, "the limits are at most one of `g s` and `ge s`, and then at most one of `l s` and `le s`")


def read_request(node: Node) -> None:
    """Reads a request: strings and lists of them, as deep as they go. Raises Wrong if it is none."""
    if node.members is None:
        return refuse_hint(node)
    head = list_head(node)
    if head.body == b"*":
        raise Wrong("StarInRequest", head.begin, "a list in a request does not begin with `*`")
    for member in node.members:
        read_request(member)
