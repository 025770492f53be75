"""Values and texts that differ a little from a given one. LISTS are put anywhere. NEARLY has, for a head, what a list with this head is replaced by,
mostly a faulty one. FIRST has, for a head, the faulty members that are put behind it."""
import random
import re
from collections.abc import Callable

from model import advanced
from model.values import Atom, Value, canonical, head_of

WORDS = [it.encode() for it in (
    "public-key hash name entry acl cert issuer subject tag propagate not-before not-after valid online comment version display "
    "signature sequence do by case accepted key request at policy strict uri k-of-n keyholder set prefix range alpha time date g ge l le * "
    "sha1 sha256 sha512 md5 0 1 test a b issuer-info subject-info").split()]


def values_of(text: str) -> list[Value]:
    """The values that a text in advanced form has side by side."""
    members = advanced.read(b"(" + text.encode() + b")")
    assert isinstance(members, tuple)
    return list(members)


LISTS = values_of("""
    () (()) ([h]a) (a ()) (online crl) (version "0") (version "1") (uri x) (propagate) (valid) (not-before "2024-01-01_00:00:00")
    (not-after "2024-13-01_00:00:00") (not-after) (tag (*)) (comment [h]c) (display) (issuer-info ()) (do hash sha1) (k-of-n) (keyholder a)
    (name bob) (signature) (public-key (test a)) (* set) (*) (* numeric) (policy strict) (policy open)""")

NEARLY = {
    b"public-key": values_of("""
        (public-key (test a) (uri)) (public-key (test a) (uri) x) (public-key (test a) x) (public-key) (public-key ()) (public-key ([h]test a))
        (public-key ((test) a)) (public-key test) (hash sha1 x) (k-of-n "2" "3") (keyholder (test a)) (name bob) (name (public-key (test a)))
        (name (public-key (test a)) (x)) (name (public-key (test a)) [h]bob) (name bob ()) (name) (name (k-of-n) bob) ([h]public-key (test a))
        (private-key (test a)) (name (public-key (test a) (uri)) bob) (public-key (test a) ([h]uri)) public-key"""),
    b"hash": values_of(f"""
        (hash md5 x) (hash sha1 x) (hash () x) (hash sha1) (hash) (hash [h]sha1 x) (hash sha1 ()) (hash sha1 [h]"{'x' * 20}")
        (hash sha1 "{'x' * 20}") (hash sha512 "{'x' * 64}") (hash sha256 "{'x' * 32}") (hash sha256 "{'x' * 32}" (uri))
        (hash sha256 "{'x' * 32}" x) (hash sha256 "{'x' * 32}" (uri) x) (hash sha256 "{'x' * 20}") (hash md5)"""),
    b"name": values_of("""
        (name) (name bob) (name bob (x)) (name [h]bob) (name (public-key (test a))) (name (public-key (test a)) bob bob)
        (name (public-key (test a)) bob ()) (name () bob) (name (keyholder a) bob) (k-of-n) (keyholder)"""),
    b"version": values_of('(version) (version "1") (version ()) (version [h]"0") (version "0" x) (version "1" x)'),
    b"tag": values_of("""
        (tag) (tag ()) (tag () x) (tag (*) x) (tag [h]a) (tag ((a))) (tag ([h]a)) (tag (* x)) (tag (* ())) (tag (* [h]set)) (tag (* prefix))
        (tag (* prefix a b)) (tag (* prefix ())) (tag (* prefix [h]a)) (tag (* range)) (tag (* range ())) (tag (* range [h]alpha))
        (tag (* range numeric)) (tag (* range alpha l a g b)) (tag (* range alpha [h]g a)) (tag (* range alpha (g) [h]a))
        (tag (* range alpha g)) (tag (* range alpha g ())) (tag (f (* set)))"""),
    b"*": values_of("""
        (* x) (* ()) (* [h]set) (* prefix) (* prefix a b) (* prefix ()) (* prefix [h]a) (* range) (* range ()) (* range [h]alpha)
        (* range numeric) (* range alpha l a g b) (* range alpha [h]g a) (* range alpha (g) [h]a) (* range alpha g) (* range alpha g ())
        (* set [h]a) (* set ()) (* set (())) ([h]*) [h]a () ([h]f) ((f)) (f (* set)) (* set (* set a b)) (* set a (*))"""),
    b"not-before": values_of("""
        (not-before) (not-before [h]"2024-01-01_00:00:00") (not-before ()) (not-before "2024-00-01_00:00:00") (not-before "2024-01-01")
        (not-before "2024-01-01_00:00:00" x) (not-before "2024-01-01_00:00:00 ") (not-before "0000-12-31_23:59:60") (online)
        (valid (not-before "2024-01-01_00:00:00") (not-before "2024-01-01_00:00:00")) (valid (online crl)) (valid (tag (*))) (valid x)"""),
    b"issuer": values_of("""
        (issuer) (issuer (name bob)) (issuer (name (public-key (test a)) bob bob)) (issuer (k-of-n)) (issuer (keyholder a)) (issuer x)
        (issuer (public-key (test a)) x) (issuer (hash md5 x)) (issuer (name (public-key (test a))))"""),
    b"subject": values_of("""
        (subject) (subject (k-of-n)) (subject (keyholder a)) (subject x) (subject ()) (subject (public-key (test a)) x) (subject (name))
        (subject (name bob)) (subject (name bob ())) (subject (name (hash md5 x) bob))"""),
    b"propagate": values_of("(propagate x) [h]propagate propagate ([h]propagate) (online)"),
    b"do": values_of("""
        (do) (do ()) (do [h]hash sha1) (do sign sha1) (do hash) (do hash ()) (do hash md5) (do hash md5 x) (do hash sha1 x) (do hash [h]sha1)"""),
    b"signature": values_of(f"""
        (signature) (signature (hash md5 x)) (signature (hash sha256 "{'x' * 32}") (public-key (test a)) s)
        (signature (hash sha256 "{'x' * 32}") (public-key (test a))) (signature (hash sha256 "{'x' * 32}") (public-key (test a)) s s)
        (signature (hash sha256 "{'x' * 32}") (keyholder a) s) x (do) (public-key (test a))"""),
    b"by": values_of(f"""
        (by) (by x) (by (public-key (test a)) (hash sha1 "{'x' * 20}")) (by (public-key (test a)) (hash sha1 x) s)
        (by (public-key (test a)) (hash sha256 "{'x' * 32}")) (by (public-key (test a)) (hash sha256 "{'x' * 32}") s s) by
        (by (public-key (test a)) (hash sha512 "{'x' * 64}") s)"""),
    b"cert": values_of("(cert) (signature) (signature x) (do) (do sign) x (acl) (online) (cert (subject)) (cert (issuer)) (cert x)"),
    b"entry": values_of("""
        (entry) (entry (name bob) (tag (*))) (entry (name bob ()) (tag (*))) (entry (public-key (test a))) (entry (k-of-n) (tag (*)))
        (entry (keyholder a)) (entry (public-key (test a)) (online) (tag ())) entry (entry (public-key (test a)) (tag a) (tag ()))"""),
    b"request": values_of("""
        (request) (request [h]a) (request ()) (request (())) (request (*)) (request (a (*))) (request ([h]a)) (request (a [h]b)) (request (a ()))
        (request a b) (request *) (request (a *))"""),
    b"at": values_of('(at) (at ()) (at [h]"2024-01-01_00:00:00") (at "2024-01-01_24:00:00") (at "2024-01-01_00:00:00" x)'),
    b"policy": values_of("(policy) (policy open) (policy [h]strict) (policy (strict)) (policy strict x) strict"),
    b"acl": values_of('(acl) (acl (version "1")) (acl (version)) (acl (version ())) (acl x) acl')}
# heads that stand once in a case, or that seldom show
RARE = (b"request", b"request", b"entry", b"do", b"at", b"version")
# (a member behind the head is read first: so a fault there comes before others)
FIRST = {
    b"sequence": values_of("(do) (do ()) (do [h]hash sha1) (do sign sha1) (do hash md5) (do hash [h]sha1)"),
    b"acl": values_of('(version "1") (version [h]"0")'),
    b"cert": values_of("""
        (version "1") (version [h]"0") (not-before "2024-13-01_00:00:00") (not-before "2024-01-32_00:00:00") (not-before "2024-01-01_24:00:00")
        (not-after "2024-01-01_00:60:00") (not-after "2024-01-01_00:00:61") (not-after "2024-01-00_00:00:00")"""),
    b"signature": values_of("(hash md5 x) (hash [h]sha1 x) (hash md5) (hash [h]sha1)")}
# what is put into a text
SNIPPETS = [it.encode() for it in r"""
    "\q" "\400" "\777" "\18" "\108" "\x6g" "\xg6" "\8" #6g# #616# |ZQ===| |YWJ| |Z| |Z=Q=| |=| |a~| 4"abc" 2#61# 1|YWI=| 0"a" 1"" [a](b)
    [[a]b]c [(a)]b []a [a)b [a[b [a]]b [a])b [~]a [a]~ 03:abc 3x:abc ~ {KDE6YSk=} 00: 1a 0a 01:a [a] [1:a(1:b [1:a]x [a]1:b [1:a]) [1:a~]1:b
    "\ ' \" ( ) ((( ))) 12 9999999999999999999999: [a"b"]c """.split()] + [
    b"3 :abc", b"[a b]c", b"[ ]a", b"[a ]b", b"[ a ] b", b"[1:a1:b", b"[0:(1:b", b"[1:a",  b'"a\\\r\nb"', b'"\\\n\r"', b"# 6 1#", b'"']
OCTETS = b'()[]{}"#|:;\\ \n\r\t\v\f0123456789abcfgxyzAZ-./_*+=\x00\x7f\x80\xff~,!'
LENGTH = re.compile(rb"[0-9]+(?=[:\"#|])")
Path = tuple[int, ...]


# ---- values


def places(value: Value, path: Path = ()) -> list[Path]:
    """The paths to all parts of a value: the numbers of the members on the way down, and () for the whole. `path` is put before each."""
    paths = [path]
    if isinstance(value, tuple):
        for number, member in enumerate(value):
            paths += places(member, (*path, number))
    return paths


def some_place(value: Value, rng: random.Random) -> Path:
    """A path to a part, by going down from the whole by chance. Each member of a list is as likely as another, whether it has few parts or many."""
    path: Path = ()
    while isinstance(value, tuple) and value and rng.random() < 0.85:
        number = rng.randrange(len(value))
        path, value = (*path, number), value[number]
    return path


def part(value: Value, path: Path) -> Value:
    """The part of a value at a path."""
    for number in path:
        assert isinstance(value, tuple)
        value = value[number]
    return value


def replaced(value: Value, path: Path, parts: tuple[Value, ...]) -> Value:
    """The value with the part at a path replaced by these parts, side by side. The whole (the path ()) becomes the one part, or the list of them."""
    if not path:
        return parts[0] if len(parts) == 1 else tuple(parts)
    assert isinstance(value, tuple)
    number = path[0]
    inside = parts if len(path) == 1 else (replaced(value[number], path[1:], parts),)
    return (*value[:number], *inside, *value[number + 1:])


def with_near_form(value: Value, rng: random.Random) -> Value:
    """A value in which one list is replaced by what NEARLY has for its head. If no list has such a head, some part is replaced by one of LISTS."""
    heads = [(path, head) for path in places(value) if (head := head_of(part(value, path))) in NEARLY]
    if not heads:
        return replaced(value, some_place(value, rng), (rng.choice(LISTS),))
    # (each head as often as another one, however often the value has it, and those of RARE more often)
    distinct = sorted({head for _, head in heads if head})
    head = rng.choice(distinct + [rare for rare in RARE if rare in distinct])
    path = rng.choice([path for path, other in heads if other == head])
    return replaced(value, path, (rng.choice(NEARLY[head]),))


def with_faulty_first(value: Value, rng: random.Random) -> Value | None:
    """A value in which a list has a faulty member of FIRST behind its head. None if the value has no list with such a head."""
    pairs = [(path, member) for path in places(value) for member in FIRST.get(head_of(part(value, path)) or b"", ())]
    if not pairs:
        return None
    # each member as often as another one, also those of lists of which there are few
    member = rng.choice(sorted({member for _, member in pairs}, key=canonical))
    path = rng.choice([path for path, other in pairs if other == member])
    old = part(value, path)
    assert isinstance(old, tuple)
    return replaced(value, path, ((old[0], member, *old[1:]),))


def mutated(value: Value, rng: random.Random) -> Value:
    """A value that mostly differs from the given one at one place. By chance a faulty member is put behind a head, a list becomes one of NEARLY,
    or any part is changed: left out, doubled, replaced, followed by one of LISTS, put into a list, or changed inside."""
    kind = rng.random()
    if kind < 0.15 and (faulty := with_faulty_first(value, rng)):
        return faulty
    if kind < 0.57:
        return with_near_form(value, rng)
    everywhere = places(value)
    path = rng.choice(everywhere) if rng.random() < 0.5 else some_place(value, rng)
    old = part(value, path)
    kind = rng.randrange(7)
    if kind == 0:
        return replaced(value, path, ())
    if kind == 1:
        return replaced(value, path, (old, old))
    if kind == 2:
        return replaced(value, path, (part(value, rng.choice(everywhere)),))
    if kind == 3:
        return replaced(value, path, (old, rng.choice(LISTS)))
    if kind == 4:
        return replaced(value, path, (rng.choice(((old,), rng.choice(LISTS))),))
    return replaced(value, path, (changed_list(old, rng) if isinstance(old, tuple) else changed_string(old, rng),))


def changed_string(old: Atom, rng: random.Random) -> Atom:
    """A string with a hint put in or taken away, another word, or other octets."""
    kind = rng.randrange(3)
    if kind == 0:
        return Atom(old.body, rng.choice((b"", b"h", b"text/plain")) if old.hint is None else None)
    return Atom(rng.choice(WORDS) if kind == 1 else changed_octets(old.body, rng), old.hint)


def changed_list(old: tuple[Value, ...], rng: random.Random) -> Value:
    """A list without its last member (if it has one), or with two members swapped, the head mostly left in its place."""
    if len(old) < 3 or rng.random() < 0.3:
        return old[:-1]
    first, second = rng.sample(range(0 if rng.random() < 0.1 else 1, len(old)), 2)
    swapped = list(old)
    swapped[first], swapped[second] = swapped[second], swapped[first]
    return tuple(swapped)


# ---- texts


def changed_octets(text: bytes, rng: random.Random) -> bytes:
    """A text in which one octet is changed, dropped, doubled, put in or swapped with the next one, or by chance none."""
    at = rng.randrange(len(text) + 1)
    before, old, rest, new = text[:at], text[at:at + 1], text[at + 1:], bytes([rng.choice(OCTETS)])
    return before + rng.choice((new + rest, rest, 2 * old + rest, new + old + rest, rest[:1] + old + rest[1:]))


def changed_length(text: bytes, rng: random.Random) -> bytes:
    """A text with a string's length off by one (if not 0), larger by 10 to 10^19, or with a 0 before or a space behind; else as `changed_octets`."""
    lengths = list(LENGTH.finditer(text))
    if not lengths:
        return changed_octets(text, rng)
    digits = rng.choice(lengths)
    length = int(digits[0][:9])  # (SNIPPETS have longer ones, whose other digits do not matter)
    new = rng.choice((b"%d" % (length + 1), b"%d" % max(0, length - 1), b"0" + digits[0], b"%d" % (length + 10**rng.choice((1, 2, 9, 19))),
                      digits[0] + b" "))
    return text[:digits.start()] + new + text[digits.end():]


def cut(text: bytes, rng: random.Random) -> bytes:
    """A beginning of a text, by chance all or nothing of it."""
    return text[:rng.randrange(len(text) + 1)]


def continued(text: bytes, rng: random.Random) -> bytes:
    """A text with something behind it."""
    return text + rng.choice((b" ", b"\n", b"x", b")", b" ()", b"{", b"}", b"\x00", text))


def with_snippet(text: bytes, rng: random.Random) -> bytes:
    """A text with one of SNIPPETS put in, behind a parenthesis or a space, or behind the first octet if it has neither; by chance with a space."""
    where = [at for at in range(len(text)) if text[at:at + 1] in (b"(", b")", b" ")] or [0]
    at = rng.choice(where) + 1
    return text[:at] + rng.choice(SNIPPETS) + rng.choice((b" ", b"")) + text[at:]


def with_other_start(text: bytes, rng: random.Random) -> bytes:
    """A text with something before it, or without its first octet."""
    return rng.choice((text[1:], bytes([rng.choice(OCTETS)]) + text, rng.choice(SNIPPETS) + text))


TEXT_MUTATIONS: tuple[Callable[[bytes, random.Random], bytes], ...] = (
    changed_octets, changed_octets, changed_length, with_snippet, with_snippet, cut, continued, with_other_start)


def mutated_text(text: bytes, rng: random.Random) -> bytes:
    """A text that mostly differs a little from the given one."""
    return rng.choice(TEXT_MUTATIONS)(text, rng)
