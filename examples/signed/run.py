#!/usr/bin/env python3
"""From new keys to decisions by `spki`, and the reason of each decision.

A service keeps packages. Alice may read and write all builds, and may delegate that. Bob may read manuals. Alice delegates the web
builds to her builders, and certifies that Bob is one. Bob lets Carol read. Carol signs her request (docs/SIGNATURES.md). Then the same with
something wrong: requests that prove no key, and cases with another answer.

The service verifies the certificates' signatures, and writes the question as a case for the program `spki`. A service that holds a guard writes
none: docs/GUIDE.md.

Needs Python (3.10) and `cryptography` (Debian: python3-cryptography). New keys are made at each run, and the private ones are thrown
away. The keys and signatures are those of `spki-cert`, whose code this example uses. Prints what it does. The last line, 'N passed, M failed',
counts the requests, sequences and answers that are as wanted: the tests read it. With a folder, which must exist, it keeps the texts of the
cases there.

Build the program first (`rt run` in crates/spki).
Usage: examples/signed/run.py [PROGRAM [FOLDER]]
"""
import base64
import os
import shutil
import sys
import tempfile
import urllib.parse

import tools
import spki_http
from spki_cert_tool import sexp
from spki_cert_tool.asking import Asked, case_of
from spki_cert_tool.certificates import headed, members
from spki_cert_tool.keys import ED25519, P256, RSA, FileSigner, hash_of, new_private, principal_of
from spki_cert_tool.places import read_text, refusal
from spki_cert_tool.sexp import laid_out, on_one_line, read
from tools import canonical, spki

NAME = "packages.example"
NOON = "2026-03-01_12:00:00"
METHODS = {"GET": "read", "PUT": "write"}
# The most octets and certificates of a sequence. README.md, "Limits", says why a service bounds them, and the time.
MOST_SHOWN, MOST_CERTIFICATES = 65536, 16
# The words of a request. What they hold is never read as anything but a string.
READ = ("packages", "read", "/builds/web/index.html")
WRITE = ("packages", "write", "/builds/web/index.html")
PASTED = ("packages", "read", '/manuals/cook.pdf")) (request (packages read "/builds/web/index.html')


class Pair(FileSigner):
    """A new key pair of a kind of `spki_cert_tool.keys`, such as ED25519. The private key stays in memory. `text` is the public key as an
    S-expression, and `principal` what certificates name it by: the key, or for one of RSA its hash."""

    def __init__(self, kind):
        super().__init__(new_private(kind))
        self.text, self.principal = laid_out(self.key), laid_out(principal_of(self.key))

    def sign(self, message):
        """The value of a signature of these octets, in canonical form."""
        return sexp.canonical(super().sign(message))


class Story:
    """The key pairs of Alice, Bob and Carol; and as texts of S-expressions the access list of the service, and the certificates that Alice and Bob
    sign, without their signatures."""

    def __init__(self):
        self.alice, self.bob, self.carol = Pair(RSA), Pair(ED25519), Pair(P256)
        alice, bob, carol = self.alice.principal, self.bob.principal, self.carol.principal
        self.access_list = f"""(acl
            (entry {alice} (propagate) (tag (packages (* set read write) (* prefix "/builds/"))))
            (entry {bob} (tag (packages read (* prefix "/manuals/")))))"""
        self.to_builders = f"""(cert (issuer {alice}) (subject (name builders)) (propagate)
            (tag (packages (* set read write) (* prefix "/builds/web/"))) (not-before "2026-01-01_00:00:00"))"""
        self.bob_is_builder = f'(cert (issuer (name {alice} builders)) (subject {bob}) (not-after "2026-12-31_23:59:59"))'
        self.to_carol = f'(cert (issuer {bob}) (subject {carol}) (tag (packages read)) (not-after "2026-06-30_23:59:59"))'

    def sequence(self, last, keys=True):
        """The text of a sequence: Alice's key, unless `keys` is false, her two certificates with their signatures, and `last`, a text with a
        certificate and its signature, as `signed` returns it."""
        key = self.alice.text if keys else ""
        return f"(sequence {key} {signed(self.to_builders, self.alice)} {signed(self.bob_is_builder, self.alice)} {last})"


def signed(certificate, pair, named=None, changed=None):
    """A certificate, a text, and its signature by a `Pair`, as one text: the octets that are signed are those of `spki canonical`.

    A forger says that the signature is by another pair (`named`), or shows another certificate than the one that was signed (`changed`, a text).
    """
    octets = canonical(certificate)
    digest, signer = laid_out(hash_of(read(octets))), (named or pair).principal
    return f"{changed or certificate} (signature {digest} {signer} {on_one_line(read(pair.sign(octets)))})"


def with_digest_of(other, item):
    """`item`, a certificate and its signature as `signed` returns them, but with the digest of the certificate `other` in the signature."""
    # (in parentheses both are one value, which can be read)
    certificate, signature = read(canonical(f"({item})"))
    # (a signature is `(signature HASH PRINCIPAL VALUE)`)
    signature[1] = hash_of(read(canonical(other)))
    return f"{laid_out(certificate)} {laid_out(signature)}"


def changed_bit(value):
    """The value of a signature in canonical form, with one bit of its last octet changed. Behind this octet is the end of three lists, `)))`."""
    return value[:-4] + bytes([value[-4] ^ 1]) + value[-3:]


def with_changed_bit(item):
    """`item`, a certificate and its signature as `signed` returns them, with one bit of the signature's value changed."""
    certificate, signature = read(canonical(f"({item})"))
    # (a signature is `(signature HASH PRINCIPAL VALUE)`)
    signature[3] = read(changed_bit(sexp.canonical(signature[3])))
    return f"{laid_out(certificate)} {laid_out(signature)}"


def in_braces(sequence):
    """A sequence in transport form, as a client sends it. It is given as a text, or as octets in canonical form."""
    octets = sequence if isinstance(sequence, bytes) else canonical(sequence)
    return f"{{{base64.b64encode(octets).decode()}}}"


def asked_by(pair, words, sequence="(sequence)", name=NAME, named=None):
    """The method, the target and the fields, a dictionary, of a request that the holder of `pair` signs. `words` are those of the request, such as
    READ. `sequence` is what is shown, as `in_braces` takes it, and `name` the host for which the request is signed. A forger says that it is by the
    key of another pair (`named`)."""
    method = next(method for method, action in METHODS.items() if action == words[1])
    target = urllib.parse.quote(words[2])
    signer = spki_http.Signer(sexp.canonical((named or pair).key), pair.sign, in_braces(sequence))
    return method, target, signer.fields(method, f"https://{name}{target}")


class Service:
    """A service with this access list. ONLY STATUS 0 IS A YES. A key that was only sent is not used: whoever sends Alice's would have her rights."""

    def __init__(self, access_list):
        self.access_list, self.verifier = read(canonical(access_list)), spki_http.Verifier(NAME)

    def ask(self, method, target, fields, moment):
        """The case (`sexp.Value`), and the status and the answer of `spki check` for it. The client sends the method, the target and the fields, and
        no body. `moment` is the time of the service, a date in the form of NOON.

        Raises `spki_http.Refused` if the request proves no key, and `ValueError` for another method and for a sequence that is too long, is none,
        or has too many certificates.
        """
        proof = self.verifier.check(spki_http.Message(method, NAME, target, fields.items(), b""))
        if method not in METHODS:
            raise ValueError(f"{method} is neither of {', '.join(METHODS)}")
        if len(proof.sequence) > MOST_SHOWN:
            raise ValueError(f"the sequence has more than {MOST_SHOWN} octets")
        # (`case_of` takes apart what can be read as a sequence, and nothing else. `fault` is None if it can be)
        (fault, _, places), node = read_text(canonical(proof.sequence), "refused sequence")
        if fault is not None:
            raise ValueError(refusal(fault, places))
        if sum(headed(item, b"cert") for item in members(node.value)) > MOST_CERTIFICATES:
            raise ValueError(f"the sequence has more than {MOST_CERTIFICATES} certificates")
        request = [b"packages", METHODS[method].encode(), urllib.parse.unquote_to_bytes(target)]
        # (labels are for answers in words, and a case has none)
        case = case_of(Asked(self.access_list, read(proof.key), request, moment.encode(), labels=None), node.value)
        status, answer = spki("check", sexp.canonical(case))
        if status == 0:
            self.verifier.take(proof)  # (only for a yes: strangers could fill the store of nonces)
        return case, status, answer


def requests(story):
    """Yields the requests that come, each as a remark; method, target and fields, as `asked_by` returns them; and the name of the refusal that the
    service must answer, or None if the request proves a key. All are by the key pairs of `story`, a `Story`."""
    alice, bob, carol = story.alice, story.bob, story.carol
    granted, denied = asked_by(carol, READ, story.sequence(signed(story.to_carol, bob))), asked_by(carol, READ)
    # (another one, with a nonce of its own, that is changed in what follows)
    method, target, fields = asked_by(carol, READ)
    yield "Carol signs her request, which is granted", granted, None
    yield "the same comes again, and its nonce is used up", granted, "nonce-seen"
    yield "Carol shows no certificates, and is denied", denied, None
    yield "the same comes again: a no uses up no nonce", denied, None
    yield "Alice signs one, by RSA", asked_by(alice, WRITE), None
    yield "Bob shows Carol's key and signs by his own", asked_by(bob, READ, named=carol), "invalid-signature"
    yield "Carol signed it for another service", asked_by(carol, READ, name="other.example"), "invalid-signature"
    yield "the path is another", (method, target + "x", fields), "invalid-signature"
    # (PUT may have a body, whose digest must be signed)
    yield "reading was signed, and writing is asked for", ("PUT", target, fields), "body-without-digest"
    yield "the certificates are others", (method, target, {**fields, "X-Spki-Sequence": in_braces("(sequence (key x))")}), "invalid-signature"
    without_sequence = {field: value for field, value in fields.items() if field != "X-Spki-Sequence"}
    yield "the certificates are left out", (method, target, without_sequence), "absent-field"
    of_certificate = base64.b64encode(spki_http.octets_of(carol.sign(canonical(story.to_carol)))).decode()
    signed_certificate = {**fields, "Signature": f"spki=:{of_certificate}:"}
    yield "the signature is Carol's, and of a certificate", (method, target, signed_certificate), "invalid-signature"
    yield "there is no signature", (method, target, {}), "absent"


def try_request(service, remark, request, wanted):
    """Asks a service, a `Service`, by what `requests` yields: the arguments behind it. Prints the name of the refusal, or that a key is proved, and
    returns whether that is as expected."""
    try:
        service.ask(*request, NOON)
        name = None
    except spki_http.Refused as why:
        name = why.name
    print(f"  {name or 'proves the key'}: {remark}{'' if name == wanted else '; WANTED OTHERWISE'}")
    return name == wanted


def refused_sequences(story):
    """Yields the sequences that the service refuses before it asks `spki check`: a remark, and the sequence as octets in canonical form."""
    good = signed(story.to_carol, story.bob)
    yield "the sequence is too long", sexp.canonical([b"sequence", bytes(MOST_SHOWN)])
    # (with the two of Alice it is one more than MOST_CERTIFICATES)
    yield "there are too many certificates", canonical(story.sequence(good * (MOST_CERTIFICATES - 1)))
    yield "there are two sequences", canonical(story.sequence(good)) + b"(8:sequence)"
    yield "the sequence is a string", b"3:abc"
    yield "an item of it is an empty list", b"(8:sequence())"
    yield "a certificate has no fields", b"(8:sequence(4:cert)(9:signature))"


def try_refused_sequence(story, remark, sequence):
    """Asks a new service with a sequence of `refused_sequences`, prints the refusal, and returns whether there was one."""
    try:
        Service(story.access_list).ask(*asked_by(story.carol, READ, sequence), NOON)
    except ValueError as why:
        print(f"  refused: {remark}: {why}")
        return True
    print(f"  WANTED OTHERWISE: {remark}")
    return False


def attempts(story):
    """Yields what is tried: a name, which becomes that of a file; a remark; the text of the sequence; the key pair that asks; the words of the
    request; the moment; and the line of `spki explain` that says what is wrong, or None if the request is to be granted. In the sequence Alice's key
    is item 1, and each certificate is in front of its signature: Alice's two are the items 2 and 4, and the last is 6."""
    bob, carol = story.bob, story.carol
    good = signed(story.to_carol, bob)
    longer = story.to_carol.replace("2026-06-30", "2027-06-30")
    changed = signed(story.to_carol, bob, changed=longer)
    yield "granted", "all is right", story.sequence(good), carol, READ, NOON, None
    yield ("changed-octet", "the last certificate has one octet changed: 2026 is 2027",
           story.sequence(changed), carol, READ, NOON, "item 6 DigestDiffers")
    yield ("changed-octet-and-digest", "and the digest in its signature is made to fit",
           story.sequence(with_digest_of(longer, changed)), carol, READ, NOON, "item 6 NotAccepted")
    yield ("other-key", "the last certificate is signed by Carol's key, and said to be signed by Bob's",
           story.sequence(signed(story.to_carol, carol, named=bob)), carol, READ, NOON, "item 6 NotAccepted")
    yield ("other-signer", "the last certificate is signed by Carol's key, and said to be",
           story.sequence(signed(story.to_carol, carol)), carol, READ, NOON, "item 6 SignerDiffers")
    yield ("key-not-shown", "Alice's key is left out, which her certificates name by its hash",
           story.sequence(good, keys=False), carol, READ, NOON, "item 1 KeyNotShown")
    yield "too-late", "July has begun", story.sequence(good), carol, READ, "2026-07-01_00:00:00", "entry 1 WindowLacks"
    yield "too-wide", "Carol wants to write", story.sequence(good), carol, WRITE, NOON, "entry 1 TagLacks"
    yield ("pasted", "Carol wants a file with parentheses and quotes in its name, which stay in its name",
           story.sequence(good), carol, PASTED, NOON, "entry 1 TagLacks")
    yield "other-holder", "Bob shows the certificate that he gave to Carol", story.sequence(good), bob, READ, NOON, "entry 1 NotTheKey"


def wanted_lines(wrong):
    """What `explain` should write. `wrong` is the line that names the fault, or None for a grant. If a certificate fails a test, that is the only
    line, and begins with `item`. Otherwise there is a line for each of the two entries.

    Entry 2 is Bob's. The first certificate, item 2, is by Alice, so the chain of Bob's entry always stops there.
    """
    if wrong is not None and wrong.startswith("item"):
        return f"{wrong}\n"
    return f"{wrong or 'entry 1 grants'}\nentry 2 item 2 NotIssuer\n"


def attempt(story, folder, name, remark, sequence, holder, words, moment, wrong):
    """Asks a new service by what `attempts` yields: the arguments behind `folder`. Prints the answers, writes the case to the file NAME.sexp of the
    folder, and returns whether the answers are as expected and this text is read as the case."""
    case, status, answer = Service(story.access_list).ask(*asked_by(holder, words, sequence), moment)
    answer, text = answer.decode(), laid_out(case) + "\n"
    explained = spki("explain", text)[1].decode()
    with open(os.path.join(folder, f"{name}.sexp"), "w", encoding="ascii") as file:
        file.write(text)
    print(f"\n{name}: {remark}")
    # (the part `accepted` of the case has a row for each valid signature, behind its head)
    print(f"  valid signatures: {len(case[2]) - 1} of 3")
    print(f"  spki check: {answer.strip()}")
    print("".join(f"  spki explain: {line}\n" for line in explained.splitlines()), end="")
    wanted = (1, "no\n", wanted_lines(wrong)) if wrong else (0, "yes entry 1\n", wanted_lines(wrong))
    if (status, answer, explained) != wanted:
        print(f"  WANTED: {wanted}")
    return (status, answer, explained) == wanted and read(canonical(text)) == case


def print_texts(story):
    """Prints the keys, the list and the certificates."""
    for name, pair in (("Alice", story.alice), ("Bob", story.bob), ("Carol", story.carol)):
        print(f"{name}'s key:\n{pair.text}\n")
    print("The access list of the service, and the three certificates:")
    for text in (story.access_list, story.to_builders, story.bob_is_builder, story.to_carol):
        print(laid_out(read(canonical(text))))


def main():
    """Runs the whole example. Returns the exit status: 0 if all is as wanted, 1 if not, 2 if the program or the folder is not there."""
    if len(sys.argv) > 1:
        tools.SPKI = os.path.abspath(sys.argv[1])
    missing = [] if shutil.which(tools.SPKI) else [tools.SPKI]
    missing += [folder for folder in sys.argv[2:3] if not os.path.isdir(folder)]
    if missing:
        print(f"{missing[0]} is not there", file=sys.stderr)
        return 2
    with tempfile.TemporaryDirectory() as room:
        folder = sys.argv[2] if len(sys.argv) > 2 else room
        story = Story()
        print_texts(story)
        print("\nRequests:")
        service = Service(story.access_list)
        results = [try_request(service, *each) for each in requests(story)]
        print("\nNot asked:")
        results += [try_refused_sequence(story, *each) for each in refused_sequences(story)]
        results += [attempt(story, folder, *each) for each in attempts(story)]
    print(f"\n{sum(results)} passed, {len(results) - sum(results)} failed")
    return 0 if all(results) else 1


if __name__ == "__main__":
    sys.exit(main())
