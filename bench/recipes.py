"""Texts that are made by numbers, so that a search can change them: which tags and names an entry and the certificates have, how long, how
often and how deep. A `Recipe` has the numbers of a list and a question, a `Link` those of a certificate and how often it is there, and a `Form` those
of a text to be converted. All certificates are of one key, and join as far as `Recipe.certificates` says, so that little work is left out. One
number of the entries and one of the certificates grows until the text has the octets that are wanted."""
import base64
import random
from collections.abc import Callable, Iterator
from dataclasses import dataclass, replace

from check import STAR, group, string
from shapes import definition, digest, name

# What a tag written in a text may have.
MOST_NODES, MOST_DEPTH = 1024, 57
OWNER, OTHER = (group(string("public-key"), group(string(word))) for word in "ab")
AT = b"2024-01-01_00:00:00"
KINDS = ("star", "string", "prefix", "range", "limits", "list", "set")
LEAVES = ("string", "prefix", "range", "limits")


def subject_of(count: int) -> bytes:
    """The owner if `count` is 0, otherwise a name of the owner with `count` strings. The first string is `n`, which the certificates define, and the
    others are empty."""
    return name(OWNER, "n", *[""] * (count - 1)) if count else OWNER


@dataclass(frozen=True)
class Tag:
    """A tag of a kind of KINDS. Of a list or a set `depth` are in one another, and the innermost has `members` leaves of the kind `leaf_kind`. The
    strings in a leaf have `octets` octets or a few more, and the leaf's number is in them unless `are_equal`. Any other kind is `(*)` or one leaf."""

    kind: str = "star"
    members: int = 1
    octets: int = 1
    depth: int = 1
    leaf_kind: str = "string"
    are_equal: bool = True
    # Lists beside it in a set, which nothing else contains: they count where a command multiplies the nodes of all tags, and are gone after a step.
    lists: int = 0

    def leaf(self, kind: str, number: int = 0) -> bytes:
        """A string, a prefix, or a range without or with limits. Strings, prefixes and limits begin with the same octets."""
        octets = b"m" * self.octets + (b"" if self.are_equal else b"%04d" % number)
        if kind == "string":
            return string(octets)
        if kind == "prefix":
            return group(*map(string, (b"*", b"prefix", octets)))
        limits = [string(word) for word in (b"ge", octets + b"a", b"le", octets + b"z")] if kind == "limits" else []
        return group(*map(string, (b"*", b"range", b"alpha")), *limits)

    @property
    def nodes(self) -> int:
        """The number of nodes of the written tag, or a greater one."""
        own = 1
        if self.kind in ("list", "set"):
            # (a leaf counts as one node. A list has a node for itself and one for its first string)
            own = self.members + self.depth * (1 if self.kind == "set" else 2)
        # (each list beside it has two, and the set around them all has one)
        return own + 2 * self.lists + (1 if self.lists else 0)

    def text(self) -> bytes:
        """The octets of the tag."""
        alone = self.alone()
        return group(string("*"), string("set"), alone, *[group(string("l"))] * self.lists) if self.lists else alone

    def alone(self) -> bytes:
        """The octets of the tag without the lists beside it."""
        if self.kind == "star":
            return STAR
        if self.kind in LEAVES:
            return self.leaf(self.kind)
        head = [string("*"), string("set")] if self.kind == "set" else [string("l")]
        nested = group(*head, *[self.leaf(self.leaf_kind, number) for number in range(self.members)])
        for _ in range(self.depth - 1):
            nested = group(*head, nested)
        return nested


@dataclass(frozen=True)
class Entries:
    """Entries for the owner, or for a name of the owner with so many strings. `grows` is the field, of these or of the tag, that grows."""

    tag: Tag = Tag()
    count: int = 1
    names: int = 0
    grows: str = "count"


@dataclass(frozen=True)
class Link:
    """A certificate `repeats` times: the definition of a name if the subject before it has names, else a right for the tag. Its subject has so
    many names, and it has a comment of so many lists."""

    tag: Tag = Tag()
    repeats: int = 1
    names: int = 0
    comment: int = 0


@dataclass(frozen=True)
class Recipe:
    """A list and a question. `grown`, modulo the number of `links`, is the place of the link of which a number grows, and `grows` the field that has
    this number, empty if none grows. The request has `words` strings of `word_octets` octets each. `is_by_other`: a key asks that nothing is granted
    to."""

    entries: Entries = Entries()
    links: tuple[Link, ...] = ()
    grown: int = 0
    grows: str = ""
    words: int = 1
    word_octets: int = 3
    is_by_other: bool = True

    def list_text(self) -> bytes:
        """The access list."""
        entries = self.entries
        entry = group(string("entry"), subject_of(entries.names), group(string("propagate")), group(string("tag"), entries.tag.text()))
        return group(string("acl"), *[entry] * entries.count)

    def certificates(self) -> Iterator[bytes]:
        """The certificates, in order. Each continues from the subject of the one before, or of the entries, as long as the first string of that
        subject is `n`: if a definition puts the owner in its place, and empty strings remain, neither the next one nor later ones join."""
        # (how many strings the name of that subject has: a definition replaces the first by its own subject)
        names = self.entries.names
        for link in self.links:
            for _ in range(link.repeats):
                subject = subject_of(link.names)
                is_right = names == 0
                names = link.names + max(0, names - 1)
                if is_right:
                    parts = [group(string("issuer"), OWNER), group(string("subject"), subject), group(string("propagate")),
                             group(string("tag"), link.tag.text())]
                    certificate = group(string("cert"), *parts)
                else:
                    certificate = definition(name(OWNER, "n"), subject)
                comment = group(string("comment"), *[b"()"] * link.comment) if link.comment else b""
                yield certificate[:-1] + comment + b")"

    def parts(self) -> list[bytes]:
        """The list, the sequence, the key, the request and the moment."""
        items = [cert + group(string("signature"), digest(cert), OWNER, string("s")) for cert in self.certificates()]
        word = string(b"m" * self.word_octets)
        request = group(*[word] * self.words) if self.words > 1 else word
        return [self.list_text(), group(string("sequence"), *items), OTHER if self.is_by_other else OWNER, request, string(AT)]

    def case(self) -> bytes:
        """The list and the question as one text, a case with a row for each different certificate."""
        acl, sequence, key, request, moment = self.parts()
        rows = {group(string("by"), OWNER, digest(cert), string("s")) for cert in self.certificates()}
        return group(string("case"), acl, group(string("accepted"), *sorted(rows)), sequence, group(string("key"), key),
                     group(string("request"), request), group(string("at"), moment))

    def tags(self) -> bytes:
        """The text that asks for the intersection of the entries' tag and that of the first link, which is `(*)` if there is no link."""
        return group(string("intersect"), self.entries.tag.text(), (self.links[0] if self.links else Link()).tag.text())

    # ---- how a text grows

    def with_list(self, number: int) -> "Recipe":
        """The recipe with `number` as the growing number of its entries: the field `entries.grows` of the entries, or of their tag."""
        entries, field = self.entries, self.entries.grows
        if field in ("count", "names"):
            return replace(self, entries=replace(entries, **{field: number}))
        return replace(self, entries=replace(entries, tag=replace(entries.tag, **{field: number})))

    def with_links(self, number: int) -> "Recipe":
        """The recipe with `number` as the growing number of its certificates, or the recipe itself if none grows. `grows` names a field of the
        certificate at the place `grown`, or of its tag."""
        if not self.links or not self.grows:
            return self
        at, field = self.grown % len(self.links), self.grows
        link = self.links[at]
        is_of_link = field in ("repeats", "names", "comment")
        grown = replace(link, **{field: number}) if is_of_link else replace(link, tag=replace(link.tag, **{field: number}))
        return replace(self, links=(*self.links[:at], grown, *self.links[at + 1:]))

    def is_read(self, certificates: int) -> bool:
        """Whether the text is read and not refused: all tags have few enough nodes and are not too deep, and there are at most so many
        certificates."""
        tags = [self.entries.tag, *(link.tag for link in self.links)]
        return (all(tag.nodes <= MOST_NODES and tag.depth <= MOST_DEPTH for tag in tags)
                and sum(link.repeats for link in self.links) <= certificates)


def greatest(fits: Callable[[int], bool], most: int = 1 << 20) -> int:
    """The greatest number up to `most` for which `fits` is true, 0 if there is none. If it is true for a number, it must be for each lower one from 1
    on."""
    low, high = 0, 1
    while high <= most and fits(high):
        low, high = high, 2 * high
    high = min(high, most + 1)
    while high - low > 1:
        middle = (low + high) // 2
        low, high = (middle, high) if fits(middle) else (low, middle)
    return low


def fitted(recipe: Recipe, list_octets: int, question_octets: int, certificates: int, most_entries: int) -> Recipe | None:
    """The recipe with its growing numbers as great as can be: the list has at most `list_octets` octets and `most_entries` entries, the question at
    most `question_octets` octets and `certificates` certificates. None if even the number 1 makes more, or tags of too many nodes or too deep
    ones."""
    def question_fits(number: int) -> bool:
        """Whether the question is read and small enough with this as its growing number."""
        larger = recipe.with_links(number)
        return larger.is_read(certificates) and sum(map(len, larger.parts()[1:])) <= question_octets

    number = greatest(question_fits) if recipe.links and recipe.grows else int(question_fits(1))
    if not number:
        return None
    with_question = recipe.with_links(number)

    def list_fits(number: int) -> bool:
        """Whether the recipe is read, and its list is small enough, with this as the growing number of its entries."""
        larger = with_question.with_list(number)
        return larger.is_read(certificates) and larger.entries.count <= most_entries and len(larger.list_text()) <= list_octets

    number = greatest(list_fits)
    return with_question.with_list(number) if number else None


@dataclass(frozen=True)
class Form:
    """A text for the conversions: a list with the same member `lists` times. The member is `depth` lists in one another, of which the innermost has
    `count` strings, or empty lists, of one kind of FORMS. `octets` is how long a string is, where its kind has a length: in base64 three times
    as long. `is_braced`: in transport form."""

    kind: str = "token"
    count: int = 1
    octets: int = 1
    depth: int = 1
    lists: int = 1
    is_braced: bool = False

    def text(self) -> bytes:
        """The octets of the text."""
        octets = self.octets
        piece = {"token": b"m" * octets + b" ", "canonical": b"%d:" % octets + b"\1" * octets, "quoted": b'"' + b'\\"' * octets + b'"',
                 "escaped": b'"' + b"\\x01" * octets + b'"', "hexadecimal": b"#" + b"01" * octets + b"#", "base64": b"|" + b"AQEB" * octets + b"|",
                 "hinted": b"[1:h]%d:" % octets + b"m" * octets, "empty": b"0:", "lists": b"()"}[self.kind]
        inner = b"(" * self.depth + piece * self.count + b")" * self.depth
        text = b"(" + inner * self.lists + b")"
        return b"{%s}" % base64.b64encode(text) if self.is_braced else text


FORMS = ("token", "canonical", "quoted", "escaped", "hexadecimal", "base64", "hinted", "empty", "lists")


def formed(form: Form, octets: int) -> Form | None:
    """The form with as many lists as make at most so many octets. None if one list makes more."""
    lists = greatest(lambda number: len(replace(form, lists=number).text()) <= octets)
    return replace(form, lists=lists) if lists else None


# ---- changes by chance (what is drawn may be what was there)


def near(chance: random.Random, number: int, most: int) -> int:
    """A number from 1 to `most`: in seven of ten calls one that is up to 2.8 times more or less than `number`, give or take 1, and otherwise any, of
    each length in bits about as often."""
    if chance.random() < 0.3:
        return min(most, int(2 ** chance.uniform(0, most.bit_length())))
    return max(1, min(most, int(number * 2 ** chance.uniform(-1.5, 1.5)) + chance.choice((-1, 0, 1))))


def changed_tag(chance: random.Random, tag: Tag) -> Tag:
    """A tag of which one part is changed by chance."""
    field = chance.choice(("kind", "kind", "members", "octets", "depth", "leaf_kind", "are_equal", "lists"))
    # (only the function of the chosen field is called)
    values = {"kind": lambda: chance.choice(KINDS), "members": lambda: near(chance, tag.members, 999),
              "octets": lambda: near(chance, tag.octets, 30_000), "depth": lambda: near(chance, tag.depth, MOST_DEPTH),
              "leaf_kind": lambda: chance.choice(LEAVES), "are_equal": lambda: not tag.are_equal, "lists": lambda: chance.choice((0, 0, 1, 10))}
    return replace(tag, **{field: values[field]()})


def changed_link(chance: random.Random, link: Link) -> Link:
    """A certificate of which one part is changed by chance."""
    field = chance.choice(("tag", "tag", "tag", "repeats", "names", "comment"))
    if field == "tag":
        return replace(link, tag=changed_tag(chance, link.tag))
    if field == "repeats":
        return replace(link, repeats=near(chance, link.repeats, 60))
    number = 0 if chance.random() < 0.5 else near(chance, getattr(link, field) or 1, 30_000)
    return replace(link, **{field: number})


def changed(chance: random.Random, recipe: Recipe) -> Recipe:
    """The recipe with one part changed by chance: its entries, a link, which may also be added or removed, which number grows, or who asks for what.
    One with four links gets no further one."""
    entries, links, part = recipe.entries, recipe.links, chance.choice(("entries", "entries", "link", "link", "links", "grows", "request", "by"))
    if part == "entries":
        changes = (replace(entries, tag=changed_tag(chance, entries.tag)), replace(entries, names=chance.choice((0, 0, 1, 2, 50))),
                   replace(entries, grows=chance.choice(("count", "octets", "names"))))
        return replace(recipe, entries=chance.choice(changes))
    if part == "link" and links:
        at = chance.randrange(len(links))
        return replace(recipe, links=(*links[:at], changed_link(chance, links[at]), *links[at + 1:]))
    if part in ("link", "links"):
        at = chance.randrange(len(links) + 1)
        if links and (len(links) >= 4 or chance.random() < 0.3):
            # (one is removed, the first if `at` is behind the last)
            removed = at % len(links)
            return replace(recipe, links=(*links[:removed], *links[removed + 1:]))
        # (one is added: a copy of one that is there, or a new one)
        return replace(recipe, links=(*links[:at], chance.choice((*links, changed_link(chance, Link()))), *links[at:]))
    if part == "grows":
        return replace(recipe, grown=chance.randrange(4), grows=chance.choice(("", "repeats", "names", "octets", "members", "comment")))
    if part == "request":
        return replace(recipe, words=near(chance, recipe.words, 64), word_octets=near(chance, recipe.word_octets, 20_000))
    return replace(recipe, is_by_other=not recipe.is_by_other)


def changed_form(chance: random.Random, form: Form) -> Form:
    """A form of which one part is changed by chance."""
    field = chance.choice(("kind", "count", "octets", "depth", "is_braced"))
    values = {"kind": lambda: chance.choice(FORMS), "count": lambda: near(chance, form.count, 100_000),
              "octets": lambda: near(chance, form.octets, 100_000), "depth": lambda: near(chance, form.depth, 60),
              "is_braced": lambda: not form.is_braced}
    return replace(form, **{field: values[field]()})
