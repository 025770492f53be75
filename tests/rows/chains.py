"""Cases with certificates, whose digests are computed here. The answers are worked out by hand from docs/FORMATS.md: each is a pair of an exit status
and the text that is printed. A case is a whole question in one text: an access list, rows, each of which accepts one signature, the items of a
sequence, the key that asks (here mostly d), a request (mostly `(ftp)`) and a moment. The keys are named by letters."""
import base64
import hashlib
import re

from model import forms, values

NOW = '"2024-01-01_00:00:00"'


def octets_of(text: str | bytes) -> bytes:
    """A text as octets, which it may be already."""
    return text.encode() if isinstance(text, str) else text


def canonical(text: str | bytes) -> bytes:
    """The canonical form of a text in any form. Raises FormFault if it is not one value."""
    return values.canonical(forms.read(octets_of(text)))


def digest(text, alg="sha256"):
    """The `(hash ..)` of a text's canonical form, by an algorithm of hashlib."""
    return f"(hash {alg} #{hashlib.new(alg, canonical(text)).hexdigest()}#)"


def key(letter):
    """The `(public-key ..)` that is named by a letter."""
    return f"(public-key (test {letter}))"


def cert(issuer, subject, fields="(propagate) (tag (*))"):
    """A `(cert ..)`. `fields` is the text behind its issuer and subject, by default delegation and the tag of all requests."""
    return f"(cert (issuer {issuer}) (subject {subject}) {fields})"


def signed(certificate, signer, value="sig", message=None):
    """A certificate and its `(signature ..)`. `message` is the text of which the signature has the digest: by default the certificate."""
    return f"{certificate} (signature {digest(message or certificate)} {signer} {value})"


def row(certificate, signer, value="sig"):
    """The row, `(by ..)`, that accepts a signature of a certificate by a key."""
    return f"(by {signer} {digest(certificate)} {value})"


def rows_and_items(*pairs):
    """The rows and the items of certificates, each given with its signer: two texts, the members of the accepted list and of the sequence."""
    return " ".join(row(*pair) for pair in pairs), " ".join(signed(*pair) for pair in pairs)


def case(entries, rows="", items="", asks=key("d"), request="(ftp)", at=NOW, policy=""):
    """The text of a case. Its parts are pasted in: `entries`, `rows` and `items` are the members of their lists, side by side."""
    return f"(case (acl {entries}) (accepted {rows}) (sequence {items}) (key {asks}) (request {request}) (at {at}) {policy})"


def entry(letter, fields="(propagate) (tag (*))"):
    """An entry for the key of a letter. `fields` is the text behind its subject."""
    return f"(entry {key(letter)} {fields})"


def numbered(count):
    """The strings n0, n1 and so on, so many, with spaces between."""
    return " ".join(f"n{place}" for place in range(count))


YES, NO = (0, "yes entry 1\n"), (1, "no\n")


def refused(line):
    """The answer, a status and a line, of a refusal: `line` is what follows `refused`."""
    return 2, f"refused {line}\n"


# ---- chains from a by b and c to d

CHAIN = [(key("a"), key("b")), (key("b"), key("c")), (key("c"), key("d"))]


def chain(changed=None, how=None):
    """The rows and the items of CHAIN, two texts as of `rows_and_items`. The certificate at the place `changed`, from 0, fails the test of evidence
    that `how` names: `key not shown`, `digest differs`, `signer differs` or `not accepted`. By default all pass."""
    rows, items = [], []
    for place, (issuer, subject) in enumerate(CHAIN):
        fails = how if place == changed else None
        certificate = cert(digest(issuer) if fails == "key not shown" else issuer, subject)
        signer = key("x") if fails == "signer differs" else issuer
        other = cert(issuer, key("x")) if fails == "digest differs" else None
        items.append(signed(certificate, signer, message=other))
        if fails != "not accepted":
            rows.append(row(certificate, issuer))
    return " ".join(rows), " ".join(items)


def chains():
    """Yields (name, text, what `check` answers): the chain from a by b and c to d, and others, most of which differ from it at one place."""
    yield "whole chain", case(entry("a"), *chain()), YES
    for place in range(3):
        for how in ("key not shown", "digest differs", "signer differs", "not accepted"):
            yield f"certificate {place + 1}: {how}", case(entry("a"), *chain(place, how)), NO
    rows, items = chain()
    hashed = cert(digest(key("a")), key("d"))
    yield "hashed issuer, its key shown", case(entry("a"), row(hashed, key("a")), signed(hashed, key("a")) + key("a")), YES
    yield "chain in another order", case(entry("a"), rows, " ".join(reversed([signed(cert(*link), link[0]) for link in CHAIN]))), NO
    yield "only the first certificate", case(entry("a"), rows, signed(cert(*CHAIN[0]), key("a"))), NO
    yield "one certificate twice", case(entry("a"), rows, items + signed(cert(*CHAIN[2]), key("c"))), NO
    yield "second entry", case(entry("b") + entry("a"), rows, items), (0, "yes entry 2\n")
    yield "rows of another value", case(entry("a"), rows.replace(" sig)", " other)"), items), NO
    yield "row of another key", case(entry("a"), rows.replace("test c", "test x"), items), NO
    yield "entry that does not delegate", case(entry("a", "(tag (*))"), rows, items), NO
    last = cert(key("a"), key("d"), "(tag (*))")
    yield "last certificate need not delegate", case(entry("a"), *rows_and_items((last, key("a")))), YES


def windows_and_tags():
    """Yields (name, text, what `check` answers): cases with a certificate whose window or tag decides."""
    for limit, answer in (('(not-after "2024-01-01_00:00:00")', YES), ('(not-after "2023-12-31_23:59:59")', NO),
                          ('(valid (not-before "2024-01-01_00:00:01"))', NO)):
        limited = cert(key("a"), key("d"), f"(tag (*)) {limit}")
        yield f"window {limit}", case(entry("a"), *rows_and_items((limited, key("a")))), answer
    for tag, answer in (("(ftp)", YES), ("(ftp host)", NO), ("(http)", NO), ("(* set (http) (ftp))", YES)):
        narrowed = cert(key("a"), key("d"), f"(tag {tag})")
        yield f"tag {tag}", case(entry("a"), *rows_and_items((narrowed, key("a")))), answer


def sizes():
    """Yields (name, text, what `check` answers): products of the nodes of tags up to 1,000,000 and over it, and an entry before and behind a larger
    one. A set of N strings has N + 1 nodes, so 999 and 1,000 strings make 1,000 * 1,001. Equal strings are all kept: 99 and 99 leave 9,801, so 9,802
    nodes. Times the 102 nodes of 101 strings that is 999,804, and times 103 it is 1,009,606."""
    shown = rows_and_items((cert(key("a"), key("d"), f"(tag (* set {numbered(1000)}))"), key("a")))
    large, small = entry("a", f"(propagate) (tag (* set {numbered(999)}))"), entry("a", "(propagate) (tag n0)")
    yield "too large", case(large + small, *shown, request="n0"), refused("TooLarge")
    yield "granted before too large", case(small + large, *shown, request="n0"), YES
    for third, answer in ((101, YES), (102, refused("TooLarge"))):
        tag = f"(propagate) (tag (* set {'a ' * 99}))"
        first, second = cert(key("a"), key("b"), tag), cert(key("b"), key("d"), f"(tag (* set {'a ' * third}))")
        yield f"chain with {third} strings", case(entry("a", tag), *rows_and_items((first, key("a")), (second, key("b"))), request="a"), answer


def long_lists():
    """Yields (name, text, what `check` answers): lists of eight entries that do not grant, all for one reason, and of one or two more, which may.
    (From eight entries on an earlier version decided in another way.)"""
    rows, items = chain()
    ninth = (0, "yes entry 9\n")
    over = '(not-after "2023-12-31_23:59:59")'
    for why, other in (("of another key", entry("x")), ("that do not delegate", entry("a", "(tag (*))")),
                       ("whose window is over", entry("a", f"(propagate) (tag (*)) {over}")),
                       ("for another request", entry("a", "(propagate) (tag (http))"))):
        yield f"eight entries {why}, and one that grants", case(other * 8 + entry("a"), rows, items), ninth
        yield f"nine entries {why}", case(other * 9, rows, items), NO
    yield "nine entries, and another key asks", case(entry("a") * 9, rows, items, asks=key("x")), NO
    yield "nine entries, and a certificate twice", case(entry("a") * 9, rows, items + signed(cert(*CHAIN[2]), key("c"))), NO
    large, small = (entry("a", f"(propagate) (tag {tag}) {over}") for tag in (f"(* set {'n ' * 999})", "n"))
    # (the large tags have 1,000 and 1,001 nodes, whose product is over the limit of 1,000,000)
    granted, shown = entry("a", "(propagate) (tag n)"), rows_and_items((cert(key("a"), key("d"), f"(tag (* set {'n ' * 1000}))"), key("a")))
    yield "eight entries whose window is over, and one too large", case(small * 8 + large, *shown, request="n"), refused("TooLarge")
    yield "eight entries whose window is over, and one that grants, before one too large", \
        case(small * 8 + granted + large, *shown, request="n"), ninth
    named = [f"(entry (name {key('a')} {names}) (tag (*)))" for names in ("friends", "friends friends", "others")]
    first, second = (f"(cert (issuer (name {key(issuer)} friends)) (subject {key(subject)}))" for issuer, subject in ("ab", "bd"))
    shown_both, shown_first = rows_and_items((first, key("a")), (second, key("b"))), rows_and_items((first, key("a")))
    yield "eight entries for a name, and one for two names", case(named[0] * 8 + named[1], *shown_both), ninth
    yield "eight entries for another name, and one for the name", case(named[2] * 8 + named[0], *shown_first, asks=key("b")), ninth
    yield "nine entries for a name that is another key's", case(named[0] * 9, *shown_first), NO


def long_lists_of_tags():
    """Yields (name, text, what `check` answers): nine entries, and two certificates whose tags have 1,001 nodes each, so a product over 1,000,000."""
    def case_of(entries, tag):
        """A case of entries and of two certificates, both with this tag."""
        first, second = cert(key("a"), key("b"), f"(propagate) (tag {tag})"), cert(key("b"), key("d"), f"(tag {tag})")
        return case(entries, *rows_and_items((first, key("a")), (second, key("b"))), request="n")

    over, granted = entry("a", '(propagate) (tag n) (not-after "2023-12-31_23:59:59")'), entry("a", "(propagate) (tag n)")
    different, copies = "(* set n " + " ".join(f"a{i}" for i in range(999)) + ")", f"(* set {'n ' * 1000})"
    yield "eight entries of which one member is left, and one that grants", case_of(over * 8 + granted, different), (0, "yes entry 9\n")
    yield "nine entries of which 1,000 members are left", case_of(over * 9, copies), refused("TooLarge")
    yield "nine entries of which nothing is left", case_of(entry("a", "(propagate) (tag m)") * 9, copies), NO


def moments():
    """Yields (name, text, what `check` answers): a window that contains its last moment, and two windows that share one moment or none."""
    alone = f"(entry {key('a')} (tag (*)) (not-after \"2024-12-31_23:59:59\"))"
    for at, answer in (("2024-12-31_23:59:59", YES), ("2025-01-01_00:00:00", NO)):
        yield f"windows: entry alone at {at}", case(alone, asks=key("a"), at=f'"{at}"'), answer
    until = entry("a", '(propagate) (tag (*)) (not-after "2024-06-01_00:00:00")')
    for start, answer in (("2024-06-01_00:00:00", YES), ("2024-06-01_00:00:01", NO)):
        shown = rows_and_items((cert(key("a"), key("b"), f'(tag (*)) (valid (not-before "{start}"))'), key("a")))
        yield f"windows: certificate from {start}", case(until, *shown, asks=key("b"), at='"2024-06-01_00:00:00"'), answer


def policies():
    """Yields (name, text, what `check` answers): cases, most of them by both policies. The strict one denies if a hash by SHA-1 is an issuer or a
    signer (or a subject: see `explained`), and not if it is a message's digest."""
    a, b = key("a"), key("b")
    c1 = cert(a, b, "(tag (*))")
    hashed = {alg: cert(digest(a, alg), b, "(tag (*))") for alg in ("sha1", "sha256", "sha512")}
    examples = [
        ("subject by sha512", f"(entry {digest(a, 'sha512')} (tag (*)))", "", "", a, YES),
        ("issuer by sha1", entry("a"), row(hashed["sha1"], a), signed(hashed["sha1"], a) + a, b, NO),
        ("issuer by sha256", entry("a"), row(hashed["sha256"], a), signed(hashed["sha256"], a) + a, b, YES),
        ("issuer by sha512", entry("a"), row(hashed["sha512"], a), a + signed(hashed["sha512"], a), b, YES),
        ("digest by sha1", entry("a"), row(c1, a), f"{c1} (signature {digest(c1, 'sha1')} {a} sig)", b, YES),
        ("signer by sha1", entry("a"), row(c1, a), signed(c1, digest(a, "sha1")), b, NO)]
    for name, entries, rows, items, asks, by_strict in examples:
        yield f"open: {name}", case(entries, rows, items, asks), YES
        yield f"strict: {name}", case(entries, rows, items, asks, policy="(policy strict)"), by_strict
    for name in ("sha1", "sha256", "sha512"):
        yield f"issuer by {name}, no key shown", case(entry("a"), row(hashed[name], a), signed(hashed[name], a), b), NO
    short = f"(entry (hash sha512 #{hashlib.sha256(canonical(a)).hexdigest()}#) (tag (*)))"
    for policy in ("", "(policy strict)"):
        yield f"short digest {policy}", case(short, asks=a, policy=policy), refused("acl 1 DigestLength")


def signature_places():
    """Yields (name, text, what `check` answers): signatures at right and wrong places of a sequence, and operations, known and unknown."""
    a, c1 = key("a"), cert(key("a"), key("b"), "(tag (*))")
    signature = f"(signature {digest(c1)} {a} sig)"
    for items, line in ((signature, "1 StraySignature"), (f"{c1} {a} {signature}", "1 UnsignedCert"), (c1, "1 UnsignedCert"),
                        (f"{c1} {signature} {signature}", "3 StraySignature"), ("(do sign)", "1 UnknownOp")):
        yield f"sequence {items}", case(entry("a"), "", items), refused(f"sequence {line}")
    with_operations = f"(do hash sha1) {c1} (do hash sha256) {signature}"
    yield "operations between", case(entry("a"), row(c1, a), with_operations, key("b")), YES


# ---- malformed rows, and two faults in one case

HASH = digest("x")


def malformed():
    """Yields (name, text, what `check` answers): cases with a row or policy, mostly a wrong one, or with several faults: the first is named."""
    faults = [
        ("()", "Shape"), ("x", "Shape"), ("(by)", "Shape"), ("(row)", "Shape"), (f"(by {key('a')})", "Shape"),
        (f"(by {key('a')} {HASH})", "Shape"), (f"(by {key('a')} {HASH} sig sig)", "Shape"), (f"(by a {HASH} sig)", "Shape"),
        (f"(by (public-key (test a) (uri x)) {HASH} sig)", "KeyUris"), (f"(by {key('a')} (hash md5 x) sig)", "HashAlg"),
        (f"(by {key('a')} (hash sha256 x) sig)", "DigestLength"), (f"(by {key('a')} {digest('x', 'sha1')} sig)", "HashAlg"),
        (f"(by {key('a')} {digest('x', 'sha512')} sig)", "HashAlg"), (f"(by {key('a')} (hash sha1 x) sig)", "DigestLength"),
        (f"(by {key('a')} (hash) sig)", "Shape"), (f"(by {HASH} {HASH} sig)", "Shape"), (f"({key('a')} {HASH} sig)", "Shape")]
    good = f"(by {key('a')} {HASH} (any (value)))"
    for written, kind in faults:
        yield f"row {written}", case("", written), refused(f"accepted 1 {kind}")
        yield f"row {written} behind two", case("", good + good + written), refused(f"accepted 3 {kind}")
    for policy, answer in (("", NO), ("(policy strict)", NO), ("(policy lax)", refused("case Shape")), ("(policy)", refused("case Shape")),
                           ("(policy strict strict)", refused("case Shape")), ("(policy (strict))", refused("case Shape")),
                           ("strict", refused("case Shape")), ("(policy strict) (policy strict)", refused("case Shape"))):
        yield f"policy {policy}", case("", policy=policy), answer
    bad_entry, bad_row, bad_item, bad_key, bad_request, bad_moment = "(entry)", "(by)", "(do)", "k", "()", "x"
    yield "all parts", case(bad_entry, bad_row, bad_item, bad_key, bad_request, bad_moment, "(policy lax)"), refused("case Shape")
    yield "all parts but the policy", case(bad_entry, bad_row, bad_item, bad_key, bad_request, bad_moment), refused("acl 1 Shape")
    yield "from the rows on", case("", bad_row, bad_item, bad_key, bad_request, bad_moment), refused("accepted 1 Shape")
    yield "from the sequence on", case("", "", bad_item, bad_key, bad_request, bad_moment), refused("sequence 1 UnknownOp")
    yield "from the key on", case("", "", "", bad_key, bad_request, bad_moment), refused("key Shape")
    yield "from the request on", case("", "", "", key("a"), bad_request, bad_moment), refused("request EmptyList")
    yield "the moment", case("", "", "", key("a"), "(ftp)", bad_moment), refused("at BadDate")


# ---- what `reduce` and `explain` write

GRANTS, NONE = (0, "entry 1 grants\n"), (1, "no entries\n")


def reduced_to(subject, fields="(tag (*))"):
    """What `reduce` answers to a case of one entry whose chain does not stop: the authorization for a subject. `fields` is the text behind that."""
    return 0, f"entry 1 (five (subject {subject}) {fields})\n"


def explained():
    """Yields (name, text, what `reduce` answers, what `explain` answers): cases, mostly of one entry. If its chain stops, both answers are equal."""
    a, b, c = key("a"), key("b"), key("c")
    host, all_of_it = f"(entry {a} (tag (ftp host)))", entry("a")
    c1, c2 = cert(a, b, "(tag (*))"), cert(b, c, "(tag (*))")
    yield "first run", case(host, asks=a, request="(ftp host dir)"), reduced_to(a, "(tag (ftp host))"), GRANTS
    yield "shorter request", case(host, asks=a), reduced_to(a, "(tag (ftp host))"), (1, "entry 1 TagLacks\n")
    packed = base64.b64encode(hashlib.sha256(canonical(a)).digest()).decode()
    of_hash = f"(entry {digest(a)[:-1]} (uri http://keys.example/a)) (tag (*)))"
    yield "entry for a hash", case(of_hash, asks=a), reduced_to(f"(hash sha256 |{packed}|)"), GRANTS
    yield "delegation", case(all_of_it, *rows_and_items((c1, a)), b), reduced_to(b), GRANTS
    stopped, no_tag = (1, "entry 1 item 3 NoDelegation\n"), (1, "entry 1 item 1 NoTag\n")
    yield "delegation: one too many", case(all_of_it, *rows_and_items((c1, a), (c2, b)), c), stopped, stopped
    yield "delegation passed on", case(all_of_it, *rows_and_items((cert(a, b), a)), b), reduced_to(b, "(propagate) (tag (*))"), GRANTS
    read_and_write = entry("a", "(propagate) (tag (* set read write))")
    narrowed, apart = cert(a, b, "(tag (* set write (* prefix re)))"), cert(a, b, "(tag x)")
    yield "reduced sets", case(read_and_write, *rows_and_items((narrowed, a)), b, "read"), reduced_to(b, "(tag (* set read write))"), GRANTS
    yield "reduced sets: none", case(read_and_write, *rows_and_items((apart, a)), b, "read"), no_tag, no_tag
    sha1 = reduced_to(f"(hash sha1 |{base64.b64encode(hashlib.sha1(canonical(a)).digest()).decode()}|)")
    by_sha1 = f"(entry {digest(a, 'sha1')} (tag (*)))"
    yield "open: subject by sha1", case(by_sha1, asks=a), sha1, GRANTS
    yield "strict: subject by sha1", case(by_sha1, asks=a, policy="(policy strict)"), sha1, (1, "entry 1 NotTheKey\n")
    yield from explained_windows()
    yield from explained_names()
    yield from explained_evidence()


def explained_windows():
    """Yields (name, text, what `reduce` answers, what `explain` answers): cases in which a window decides, or is the last of three reasons."""
    a, b, c = key("a"), key("b"), key("c")
    alone = f"(entry {a} (tag (*)) (not-after \"2024-12-31_23:59:59\"))"
    lacks = 1, "entry 1 WindowLacks\n"
    reduced = reduced_to(a, '(tag (*)) (valid (not-after "2024-12-31_23:59:59"))')
    yield "windows: too late", case(alone, asks=a, at='"2025-01-01_00:00:00"'), reduced, lacks
    until = entry("a", '(propagate) (tag (*)) (not-after "2024-06-01_00:00:00")')
    limits = '(valid (not-before "2024-06-01_00:00:00") (not-after "2024-06-01_00:00:00"))'
    stopped = 1, "entry 1 item 1 NoValidity\n"
    for start, reduced, why in (("2024-06-01_00:00:00", reduced_to(b, f"(tag (*)) {limits}"), lacks), ("2024-06-01_00:00:01", stopped, stopped)):
        limited = cert(a, b, f'(tag (*)) (valid (not-before "{start}"))')
        yield f"windows: certificate from {start}", case(until, *rows_and_items((limited, a)), b), reduced, why
    limits = '(not-before "2024-06-01_00:00:00") (not-after "2024-01-01_00:00:00")'
    yield "limits: a window without moments", case(f"(entry {a} (tag (*)) {limits})", asks=a, at='"2024-03-01_00:00:00"'), \
        reduced_to(a, f"(tag (*)) (valid {limits})"), lacks
    over = '(not-after "2000-01-01_00:00:00")'
    tests, reduced = f"(entry {c} (tag (http)) {over})", reduced_to(c, f"(tag (http)) (valid {over})")
    for asks, request, why in ((a, "(ftp)", "NotTheKey"), (c, "(ftp)", "TagLacks"), (c, "(http)", "WindowLacks")):
        yield f"three tests: {why}", case(tests, asks=asks, request=request), reduced, (1, f"entry 1 {why}\n")


def explained_names():
    """Yields (name, text, what `reduce` answers, what `explain` answers): cases with names of keys."""
    a, b, c = key("a"), key("b"), key("c")
    friends, bob = f"(cert (issuer (name {a} friends)) (subject {b}))", f"(cert (issuer (name {b} bob)) (subject {c}))"
    of_friends = f"(entry (name {a} friends bob) (tag (*)))"
    yield "linked names", case(of_friends, *rows_and_items((friends, a), (bob, b)), c), reduced_to(c), GRANTS
    turned = 1, "entry 1 item 1 NotTheName\n"
    yield "linked names: in the other order", case(of_friends, *rows_and_items((bob, b), (friends, a)), c), turned, turned
    yield "linked names: one left", case(of_friends, *rows_and_items((friends, a)), c), reduced_to(f"(name {b} bob)"), (1, "entry 1 NotTheKey\n")
    relative, definition = cert(a, "(name bob)", "(tag (*))"), f"(cert (issuer (name {a} bob)) (subject {b}))"
    yield "relative name", case(entry("a"), *rows_and_items((relative, a), (definition, a)), b), reduced_to(b), GRANTS


def explained_evidence():
    """Yields (name, text, what `reduce` answers, what `explain` answers): certificates that fail a test of evidence, and no entry or two entries."""
    a, b, c = key("a"), key("b"), key("c")
    c1, c2, by_hash = cert(a, b, "(tag (*))"), cert(b, c, "(tag (*))"), cert(digest(a), b, "(tag (*))")
    rows, items = rows_and_items((c1, a))
    for name, shown, why in (("no key shown", signed(by_hash, a), "KeyNotShown"), ("signed by another", signed(by_hash, b) + a, "SignerDiffers"),
                             ("digest of another text", signed(by_hash, a, message=c1) + a, "DigestDiffers")):
        yield f"hash issuer: {name}", case(entry("a"), row(by_hash, a), shown, b), (1, f"item 1 {why}\n"), (1, f"item 1 {why}\n")
    first, later = (1, "item 1 NotAccepted\n"), (1, "item 4 NotAccepted\n")  # (item 4: c2, behind c1, its signature and a key)
    yield "not accepted", case(entry("a"), "", items, b), first, first
    yield "evidence behind a key", case(entry("a"), rows, items + a + signed(c2, b), c), later, later
    yield "no entries where evidence fails", case("", "", items, b), first, first
    yield "no entries", case("", rows, items, b), NONE, NONE
    _, line_of_b = reduced_to(b)
    yield "second entry", case(f"(entry {c} (tag (*)))" + entry("a"), rows, items, a), \
        (0, f"entry 1 item 1 NotIssuer\n{line_of_b.replace('entry 1', 'entry 2')}"), (1, "entry 1 item 1 NotIssuer\nentry 2 NotTheKey\n")


def answer_of_check(lines):
    """The status and the line that `check` must answer to a case, by the text that `explain` prints: the first entry that grants, else no."""
    granted = re.search(r"^entry (\d+) grants$", lines, re.MULTILINE)
    return (0, f"yes entry {granted[1]}\n") if granted else NO


def rows():
    """Yields the place, the command, the text, the status and the answer of each row."""
    for examples in (chains, windows_and_tags, moments, policies, signature_places, sizes, long_lists, long_lists_of_tags, malformed):
        for name, text, (status, answer) in examples():
            yield f"chains:{name}", "check", text.encode(), status, answer.encode()
    for name, text, reduced, why in explained():
        for command, (status, answer) in (("reduce", reduced), ("explain", why), ("check", answer_of_check(why[1]))):
            yield f"chains:{name}", command, text.encode(), status, answer.encode()
