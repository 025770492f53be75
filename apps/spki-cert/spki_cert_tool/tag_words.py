"""Why a tag, which is a pattern for requests, does not contain a request, and what in a tag is probably a mistake.

A request is a string or a list of requests. A string as a tag contains only itself. A list contains the lists that are at least as long, and whose
members its own members contain, one by one. `(*)` contains every request, `(* set TAG ..)` what one of its members contains, `(* prefix STRING)` the
strings that begin so, and `(* range ORDERING ge LOW le HIGH)` the strings between two limits. A `Value` is an S-expression: `bytes`, a pair of them
with a display hint in front, or a list of values.
"""
import itertools
import operator
import re
from collections.abc import Iterator

from .certificates import Keys, Terms, headed, members, string_of
from .forms import Node, Place
from .sexp import Value, in_short, on_one_line
from .structures import MOMENT, STARS

# The form of a time of day, those that orderings require, and the comparisons by the words of limits. `alpha` requires no form.
TIME = re.compile(rb"([01]\d|2[0-3]):[0-5]\d:([0-5]\d|60)")
FORMS = {b"time": TIME, b"date": MOMENT}
COMPARED = {b"g": operator.gt, b"ge": operator.ge, b"l": operator.lt, b"le": operator.le}
# Words that are hardly meant as a list one after the other, but as a set.
ACTIONS = {b"read", b"write", b"get", b"put", b"post", b"delete", b"list", b"create", b"update", b"execute", b"admin", b"push", b"pull"}
# The work of comparing tags is the octets of one times the octets of the other. So much is done at most.
MOST_PRODUCTS = 50_000_000


def holds(tag: Value, request: Value) -> bool:
    """Whether a tag contains a request. The tag must be one that `read_tag` accepts."""
    if tag == [b"*"]:
        return True
    if headed(tag, b"*"):
        word, *behind = members(tag)
        if word == b"set":
            return any(holds(member, request) for member in behind)
        if word == b"prefix":
            return isinstance(request, bytes) and request.startswith(string_of(behind[0]) or b"")
        return isinstance(request, bytes) and is_in_range(behind, request)
    if isinstance(tag, list) and isinstance(request, list):
        return len(request) >= len(tag) and all(map(holds, tag, request))
    return tag == request


def lacks(tag: Value, request: Value, place: str = "the request") -> str | None:
    """Why a tag does not contain a request: the first member that differs. None if it contains it. `place` is what the request is called in the
    words, and for a member of it as "member 2 of the request". The tag must be one that `read_tag` accepts."""
    if holds(tag, request):
        return None
    requested = in_short(request)
    if headed(tag, b"*"):
        word, *behind = members(tag)
        if word == b"set" and len(behind) == 1:
            return lacks(behind[0], request, place)
        what = f"no member of `{on_one_line(tag)}` contains it" if word == b"set" else f"the tag has `{on_one_line(tag)}`"
        return f"{place} is `{requested}`, and {what}"
    if not isinstance(tag, list):
        return f"{place} is `{requested}`, and the tag has `{on_one_line(tag)}`"
    if not isinstance(request, list):
        return f"{place} is the string `{requested}`, and the tag has the list `{on_one_line(tag)}`"
    for number, (tag_member, member) in enumerate(zip(tag, request), 1):
        if not holds(tag_member, member):
            return lacks(tag_member, member, f"member {number} of {place}")
    count = len(request)
    return f"{place} has {count} members, and the tag at least {len(tag)}: `{on_one_line(tag[count])}` is asked for as member {count + 1}"


def fitting(tag: Value, request: Value) -> int:
    """How many members of a request a tag contains, before the first one that differs. If it contains the request, that is one more than there are:
    1 for a string. The tag must be one that `read_tag` accepts."""
    if holds(tag, request):
        return 1 + len(request) if isinstance(request, list) else 1
    if headed(tag, b"*"):
        return max((fitting(member, request) for member in members(tag)[2:]), default=0) if members(tag)[0] == b"set" else 0
    if not isinstance(tag, list) or not isinstance(request, list):
        return 0
    return sum(1 for _ in itertools.takewhile(lambda pair: holds(*pair), zip(tag, request)))


def is_in_range(behind: list[Value], request: bytes) -> bool:
    """Whether a string is in a range `(* range ..)`, whose members behind `range` are the ordering and the limits."""
    ordering, *limits = (string_of(member) or b"" for member in behind)
    limit_by_word = dict(zip(limits[::2], limits[1::2]))
    return has_form(ordering, request) and all(COMPARED[word](request, limit) for word, limit in limit_by_word.items())


def has_form(ordering: bytes, octets: bytes) -> bool:
    """Whether a string has the form that an ordering requires: any for `alpha`, a time of day for `time`, a date with its time for `date`."""
    return ordering == b"alpha" or FORMS[ordering].fullmatch(octets) is not None


def covers(wide: Value, narrow: Value) -> bool:
    """Whether the tag `wide` contains all that the tag `narrow` contains, as far as that is easily seen. It may be False although it does, as for two
    ranges, for a range and a prefix, and where only several members of a set contain it together."""
    if wide == narrow or wide == [b"*"]:
        return True
    if headed(narrow, b"*") and members(narrow)[:1] == [b"set"]:
        return all(covers(wide, member) for member in members(narrow)[1:])
    if not headed(wide, b"*"):
        # (a string contains only itself. A list contains lists that have at least its members)
        if headed(narrow, b"*") or not isinstance(wide, list) or not isinstance(narrow, list):
            return False
        return len(narrow) >= len(wide) and all(map(covers, wide, narrow))
    if members(wide)[0] == b"set":
        return any(covers(member, narrow) for member in members(wide)[1:])
    # (`wide` is a prefix or a range. A longer prefix is narrower; ranges are not compared)
    if headed(narrow, b"*"):
        return members(narrow)[:1] == members(wide)[:1] == [b"prefix"] and holds(wide, members(narrow)[1])
    return isinstance(narrow, bytes) and holds(wide, narrow)


def gives_all_of(wide: Terms, narrow: Terms, keys: Keys) -> bool:
    """Whether the entry `wide` gives all that the entry `narrow` gives: to the same subject, for at least as long, and with delegation if `narrow`
    has it. As `covers`, it may be False although it does. `keys` are those that hashes may name."""
    is_one_subject = wide.names == narrow.names and keys.are_one(wide.principal, narrow.principal)
    # (`~` is after every date)
    is_as_long = (wide.begins or b"") <= (narrow.begins or b"") and (wide.ends or b"~") >= (narrow.ends or b"~")
    return is_one_subject and wide.delegates >= narrow.delegates and is_as_long and covers(wide.tag or b"", narrow.tag or b"")


# ---- what is probably a mistake


def remarks(node: Node, is_outermost: bool = True) -> Iterator[Place]:
    """Yields what in a tag is probably a mistake: for each the offset and a remark. `read_tag` must have accepted the tag. `is_outermost` says that
    it is a whole tag, and no member of one."""
    if node.members is None:
        yield from remarks_on_string(node)
        return
    head, rest = node.members[0].body or b"", node.members[1:]
    if head == b"*":
        yield from remarks_on_star(node, rest, is_outermost)
        return
    if head == b"tag" and len(rest) == 1 and is_outermost:
        yield node.begin, f"`(tag ..)` is written around it: give `{on_one_line(rest[0].value)}` alone"
        return
    words = [member.body for member in node.members]
    if head[:1] == b"*" and head[1:] in STARS:
        word = head[1:].decode()
        yield node.begin, f"`(*{word} ..)` is a list that begins with the string `*{word}`; with a space behind the star it is `(* {word} ..)`"
    elif head in STARS:
        yield node.begin, f"`({head.decode()} ..)` is a list that begins with this word; with a star it is `(* {head.decode()} ..)`"
    # (a list of words alone, inside a tag or of nothing but ACTIONS, is probably meant as a set)
    elif None not in words and len(words) > 1 and (not is_outermost or ACTIONS.issuperset(word or b"" for word in words)):
        text = on_one_line(node.value)
        yield node.begin, f"`{text}` contains only lists that begin so; what contains each of these words is `(* set {text[1:]}`"
    for member in rest:
        yield from remarks(member, is_outermost=False)


def remarks_on_string(node: Node) -> Iterator[Place]:
    """Yields the offset of a string in a tag and a remark, if it is probably a mistake."""
    body = node.body or b""
    front = re.split(rb"[*?]", body)[0]
    if b"*" in body or body.endswith(b"?"):
        advice = f"what begins so is `(* prefix {on_one_line(front)})`" if front else "what contains every string is `(*)`"
        yield node.begin, f"a string is no pattern: `{on_one_line(body)}` contains only itself; {advice}"
    elif odd := re.search(rb"[\s()]", body):
        what = "parentheses" if odd[0] in b"()" else "a space"
        yield node.begin, f"this is one string with {what} in it; without its quotes it is several values"
    elif body == b"":
        yield node.begin, "this string is empty, and contains only the empty string"


def remarks_on_star(node: Node, rest: list[Node], is_outermost: bool) -> Iterator[Place]:
    """Yields what in a set, a prefix or a range is probably a mistake: for each the offset and a remark. `rest` are its members behind the star. The
    members of an outermost set are whole tags, as `remarks` has them."""
    word = rest[0].body if rest else None
    if word == b"set":
        if len(rest) == 1:
            yield node.begin, "an empty set contains no request: write its members, as `(* set read write)`, or remove it"
        for member in rest[1:]:
            yield from remarks(member, is_outermost)
    elif word == b"prefix":
        yield from remarks_on_prefix(node, rest[1].body or b"")
    elif word == b"range":
        yield from remarks_on_range(node, rest[1].body or b"", [member.body or b"" for member in rest[2:]])


def remarks_on_prefix(node: Node, body: bytes) -> Iterator[Place]:
    """Yields the offset of a tag `(* prefix BODY)` and a remark, if it is probably a mistake."""
    if body == b"":
        yield node.begin, "each string begins with the empty string"
    elif b"*" in body:
        begin = on_one_line(body.split(b"*")[0])
        yield node.begin, f"a prefix is no pattern, and ends before what may follow: without the star it is `(* prefix {begin})`"
    # (a last part with a dot, as `/web/index.html`, is probably a whole file)
    elif b"/" in body and not body.endswith(b"/") and b"." not in body.rsplit(b"/", 1)[1]:
        text = on_one_line(body)
        yield node.begin, f"`{text}` is also the beginning of `{text}-other`; the prefix of a folder ends with `/`"


def remarks_on_range(node: Node, ordering: bytes, limits: list[bytes]) -> Iterator[Place]:
    """Yields what in a range is probably a mistake: for each the offset and a remark. `limits` are its members behind the ordering: `g`, `ge`, `l` or
    `le`, for above, at least, below or at most, and then a string; perhaps two more of these; or nothing."""
    limit_by_word = dict(zip(limits[::2], limits[1::2]))
    low, up = limit_by_word.get(b"g", limit_by_word.get(b"ge")), limit_by_word.get(b"l", limit_by_word.get(b"le"))
    # (an empty limit is no mistake: the intersection of `(* prefix "")` and `(* range date)` is `(* range date ge "")`)
    for limit in filter(None, (low, up)):
        if not has_form(ordering, limit):
            yield node.begin, f"the limit `{on_one_line(limit)}` is no {ordering.decode()} as requests have them"
    is_strict = b"g" in limit_by_word or b"l" in limit_by_word
    if low is not None and up is not None and (low > up or low == up and is_strict):
        yield node.begin, f"no string is between `{on_one_line(low)}` and `{on_one_line(up)}`: {'exchange them' if low > up else 'remove the range'}"


def is_everything(tag: Value) -> bool:
    """Whether a tag is `(*)`, or a set with such a member."""
    return tag == [b"*"] or headed(tag, b"*") and members(tag)[:1] == [b"set"] and any(map(is_everything, members(tag)[1:]))
