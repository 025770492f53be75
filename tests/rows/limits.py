"""Texts at the limits from both sides, with the answers that docs/FORMATS.md has for them: pairs of an exit status and the octets or text that are
printed. Cases are composed as in chains.py: keys are letters, and unless `asks` or `request` says otherwise, key d asks for `(ftp)`."""
from harness.support import braced
from rows import chains
from rows.chains import NO, YES, case, cert, entry, key, numbered, octets_of, refused, rows_and_items

MOST_OCTETS, MOST_DEPTH, MOST_NODES = 1048576, 64, 1024
FORMS = ("canonical", "advanced", "braces")
CONVERSIONS = ("canonical", "advanced", "transport")
STRUCTURES = {"intersect": "intersect Shape", "check": "case Shape", "reduce": "case Shape", "explain": "case Shape"}


def strings(count, each="a"):
    """The string `each` so many times, with spaces between."""
    return " ".join([each] * count)


def one_string(size, form):
    """A text of `size` octets with one string, in a form of FORMS, and the canonical form of the string. Spaces at the end fill the text up."""
    # (how many octets of the string fit: beside its length and colon, two quotes, or two braces around base64, which has 4 octets for 3)
    room = {"canonical": size - len(f"{size}:"), "advanced": size - 2, "braces": (size - 2) // 4 * 3 - len(f"{size}:")}[form]
    octets = b"x" * room
    canonical = b"%d:%s" % (room, octets)
    text = {"canonical": canonical, "advanced": b'"' + octets + b'"', "braces": braced(canonical)}[form]
    return text + b" " * (size - len(text)), canonical


def lengths():
    """Yields (name, command, text, answer): a string and whitespace of 1,048,576 octets, or of 1, 2 or 1,048,576 more; and a case with whitespace."""
    for form in FORMS:
        text, canonical = one_string(MOST_OCTETS, form)
        name = f"{len(text)} octets in {form} form"
        yield name, "canonical", text, (0, canonical)
        yield name, "advanced", text, (0, b"x" * len(canonical.split(b":")[1]) + b"\n")
        yield name, "transport", text, (0, braced(canonical) + b"\n")
        # (the canonical form, which these commands need, is longer than the text in quotes, and so over the limit)
        for command, shape in STRUCTURES.items():
            yield name, command, text, refused(shape if len(canonical) <= MOST_OCTETS else "form TooLong")
        for more in (1, 2, MOST_OCTETS):
            text, _ = one_string(MOST_OCTETS + more, form)
            for command in (*CONVERSIONS, *STRUCTURES):
                yield f"{len(text)} octets in {form} form", command, text, refused("form TooLong")
    whole = case(entry("a"), asks=key("a")).encode()
    for text in (whole, braced(chains.canonical(whole.decode()))):
        yield "a case of all octets", "check", text.ljust(MOST_OCTETS), YES
        yield "a case and one octet too many", "check", text.ljust(MOST_OCTETS + 1), refused("form TooLong")


def longer_in_canonical_form():
    """Yields (name, command, text, answer): a text with fewer octets than the limit, whose canonical form has more."""
    text = b"(" + b"a " * 400000 + b")"
    yield "400,000 tokens", "canonical", text, (0, b"(" + b"1:a" * 400000 + b")")
    for command in STRUCTURES:
        yield "400,000 tokens", command, text, refused("form TooLong")


def lists_in_lists():
    """Yields (name, command, text, answer): as many lists open at once as may be, and one more, for each reader."""
    for depth in (MOST_DEPTH, MOST_DEPTH + 1):
        canonical = b"(" * depth + b")" * depth
        for form, text in zip(FORMS, (canonical, b"( " * depth + b") " * depth, braced(canonical))):
            fits = depth == MOST_DEPTH
            answers = {"canonical": canonical, "advanced": canonical + b"\n", "transport": braced(canonical) + b"\n"}
            for command, answer in answers.items():
                yield f"{depth} lists in {form} form", command, text, (0, answer) if fits else refused("form TooDeep")
            for command, shape in STRUCTURES.items():
                yield f"{depth} lists in {form} form", command, text, refused(shape if fits else "form TooDeep")


def deep_parts():
    """Yields (name, command, text, answer): requests and tags as deep as may be, and deeper by one list. Of the 64 lists that may be open at once, 2
    are around a request, 4 around a tag in a case, and 1 around a tag in an `intersect`."""
    def nested(depth):
        """The text of so many lists, each inside the one before."""
        return "(f " * depth + "f" + ")" * depth

    for depth, answer in ((62, YES), (63, refused("form TooDeep"))):
        yield f"a request of {depth} lists", "check", case(entry("a"), asks=key("a"), request=nested(depth)), answer
    for depth, answer in ((60, YES), (61, refused("form TooDeep"))):
        of_entry, shown = entry("a", f"(tag {nested(depth)})"), rows_and_items((cert(key("a"), key("d"), f"(tag {nested(depth)})"), key("a")))
        yield f"an entry's tag of {depth} lists", "check", case(of_entry, asks=key("a"), request=nested(depth)), answer
        yield f"a certificate's tag of {depth} lists", "check", case(entry("a"), *shown, request=nested(depth)), answer
    for depth, answer in ((63, (0, nested(63) + "\n")), (64, refused("form TooDeep"))):
        yield f"two tags of {depth} lists", "intersect", f"(intersect {nested(depth)} {nested(depth)})", answer


def nodes():
    """Yields (name, command, text, answer): tags of 1,024 nodes, and of one more, wherever a tag may be."""
    for head in ("* set", "x"):
        # (a set is one node beside its members, a list with its head two)
        fits, larger = (f"({head} {strings(MOST_NODES - 1 - (head == 'x') + more)})" for more in (0, 1))
        yield "the first tag", "intersect", f"(intersect {fits} (*))", (0, fits + "\n")
        yield "the second tag", "intersect", f"(intersect (*) {fits})", (0, fits + "\n")
        yield "the first tag", "intersect", f"(intersect {larger} (*))", refused("tag 1 TooManyNodes")
        yield "the second tag", "intersect", f"(intersect (*) {larger})", refused("tag 2 TooManyNodes")
        request = "a" if head == "* set" else fits  # (one that the tag `fits` contains)
        for tag, in_entry, in_certificate in ((fits, YES, YES), (larger, refused("acl 1 Tag TooManyNodes"), refused("sequence 1 Tag TooManyNodes"))):
            shown = rows_and_items((cert(key("a"), key("d"), f"(tag {tag})"), key("a")))
            yield "an entry's tag", "check", case(entry("a", f"(tag {tag})"), asks=key("a"), request=request), in_entry
            yield "a certificate's tag", "check", case(entry("a"), *shown, request=request), in_certificate


def products():
    """Yields (name, command, text, answer): products of two tags' nodes around 1,000,000."""
    def sets(one, other):
        """The text for the intersection of two sets of these members. A set is a node more than its members, and keeps equal ones."""
        return f"(intersect (* set {one}) (* set {other}))"

    yield "1,024 nodes and 976", "intersect", sets(strings(1023), strings(975)), (0, f"(* set {strings(1023 * 975)})\n")
    yield "1,024 nodes and 977", "intersect", sets(strings(1023), strings(976)), refused("TooLarge")
    yield "1,000 nodes twice", "intersect", sets(numbered(999), numbered(999)), (0, f"(* set {numbered(999)})\n")
    yield "1,001 nodes and 1,000", "intersect", sets(numbered(1000), numbered(999)), refused("TooLarge")
    yield "1,001 nodes twice", "intersect", sets(numbered(1000), numbered(1000)), refused("TooLarge")
    fits, larger = (f"({strings(count, 'x')})" for count in (999, 1000))
    yield "lists of 1,000 nodes", "intersect", f"(intersect {fits} {fits})", (0, fits + "\n")
    yield "lists of 1,001 nodes", "intersect", f"(intersect {larger} {larger})", refused("TooLarge")
    for name, text, answer in chains.sizes():
        yield name, "check", text, answer


def work():
    """Yields (name, command, text, answer): entries and certificates whose work is 2,300,000,000, the limit, and more. The tags of 23 entries have
    1,000 nodes each. By the first certificate, whose tag has 4 nodes and 99,904 octets, each node costs 32 + 15 * 4 + 4 + 99,904 = 100,000. Then
    nothing is left of the tags. The second one's tag has 336 nodes: the product 1,000 * 4 * 336 is over 1,000,000, up to which no work counts."""
    def chain_of(more, *tags):
        """The rows and the items of the first certificate, whose tag has so many octets more, and of a further one for each of these tags."""
        first = cert(key("a"), key("b"), f"(propagate) (tag (* set r {'x' * 49_951} {'y' * (49_952 + more)}))")
        return rows_and_items((first, key("a")), *((cert(key("b"), key("b"), f"(propagate) (tag {tag})"), key("b")) for tag in tags))

    each, grants = entry("a", f"(propagate) (tag (* set {numbered(999)}))"), entry("a", "(propagate) (tag (*))")
    second = f"(* set r {numbered(334)})"
    asked = {"asks": key("b"), "request": "r"}
    for more, answer in ((0, NO), (1, refused("TooLarge"))):
        yield f"the work of 23 entries, {more} octets more", "check", case(each * 23, *chain_of(more, second), **asked), answer
        yield f"an entry that grants before, {more} octets more", "check", case(grants + each * 23, *chain_of(more, second), **asked), YES
    for command in ("explain", "reduce"):
        yield "the work of 23 entries, 1 octet more", command, case(each * 23, *chain_of(1, second), **asked), refused("TooLarge")
    yield "24 entries whose product of nodes is 4,000", "check", case(each * 24, *chain_of(1), **asked), NO
    yield "24 entries and a certificate for all requests", "check", case(each * 24, *chain_of(1, "(*)"), **asked), NO


def rows():
    """Yields the place, the command, the text, the status and the answer of each row."""
    for rows_of in (lengths, longer_in_canonical_form, lists_in_lists, deep_parts, nodes, products, work):
        for name, command, text, (status, answer) in rows_of():
            yield f"limits: {name}", command, octets_of(text), status, octets_of(answer)
