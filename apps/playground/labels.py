"""What keys are called on the page: by a list of labels, by a comment of an entry or a certificate, or by a short form of the key. A value is that
of an S-expression: a string is `bytes`, and a list a `list` whose first member is its head."""
import hashlib
import re

from engine import Refused
from spki_cert_tool.sexp import canonical, on_one_line

# A label, perhaps `=`, and a key as an S-expression.
LINE = re.compile(r"\s*(.*?)\s*=?\s*(\(.*)", re.DOTALL)
# The most lines of labels that are read, and the most letters of a label. What is more is left out.
MOST_LABELS, MOST_LETTERS = 64, 40
# What is shown of a key as it is: its only part, if that is at most 40 visible characters and spaces.
PLAIN = re.compile(rb"[ -~]{1,40}\Z")


class Labels:
    """Labels of keys, hashes and names: `of_values` has them by canonical texts, `hashes` the keys, as values, by algorithm and digest, and `faults`
    the lines that cannot be read, each as its number from 1 and why. `lines` is a text with a label and a key on each line, of which those after the
    first MOST_LABELS are left out. `engine` reads the keys."""

    def __init__(self, engine, lines):
        self.of_values, self.hashes, self.faults = {}, {}, []
        for number, line in enumerate(lines.split("\n")[:MOST_LABELS], 1):
            if line.strip():
                self.add_line(engine, number, line)

    def add_line(self, engine, number, line):
        """Reads a line `LABEL KEY`, or adds to `faults` its number, which counts from 1, and why it cannot be read. Cuts a label at MOST_LETTERS."""
        match = LINE.fullmatch(line)
        try:
            if not match or not match[1]:
                raise Refused("write a label and then a key, as in: Alice (public-key (test alice))")
            self.of_values[engine.canonical(match[2].strip().encode(errors="replace"))] = match[1][:MOST_LETTERS]
        except Refused as why:
            self.faults.append({"line": number, "why": why.line})

    def learn(self, value):
        """Adds the keys of a value to `hashes`, and the comments of its entries and certificates to the labels."""
        waiting = [value]
        while waiting:
            part = waiting.pop()
            if not isinstance(part, list) or not part:
                continue
            waiting += part[1:]
            if part[0] == b"public-key":
                self.hashes.setdefault((b"sha256", hashlib.sha256(canonical(part)).digest()), part)
                self.hashes.setdefault((b"sha512", hashlib.sha512(canonical(part)).digest()), part)
                self.hashes.setdefault((b"sha1", hashlib.sha1(canonical(part)).digest()), part)
            elif part[0] in (b"entry", b"cert"):
                self.learn_comment(part)

    def learn_comment(self, part):
        """Adds the comment of `part`, an entry or a certificate, cut at MOST_LETTERS, as a label of its subject, unless the subject has a label. In a
        tag or a key a list may begin with `entry` or `cert` and be none, so its form is tested too."""
        comment = field(part, b"comment")
        subject = part[1:2] if part[0] == b"entry" else (field(part, b"subject") or [])[1:2]
        if comment and len(comment) == 2 and isinstance(comment[1], bytes) and subject and isinstance(subject[0], list):
            self.of_values.setdefault(canonical(subject[0]), comment[1].decode(errors="replace")[:MOST_LETTERS])

    def key_named_by(self, principal):
        """The key, a value, that a principal, a key or a hash, names. For a hash whose key was not learned it is the principal itself."""
        return self.hashes.get((principal[1], principal[2]), principal) if principal[0] == b"hash" else principal

    def name_of(self, subject):
        """What `subject`, a principal or a name, is called: by its label, else for a hash by that of its key, else by a short form. A name without a
        label is called by its strings and by what its principal is called."""
        label = self.of_values.get(canonical(subject))
        if label:
            return label
        if subject[0] == b"name":
            names = [name.decode(errors="replace") for name in subject[2:]]
            return f"{' '.join(names)} of {self.name_of(subject[1])}"
        key = self.key_named_by(subject)
        return self.name_of(key) if key is not subject else short_form(subject)


def field(value, head):
    """The field of a certificate, an entry or a right that begins with the word `head`, as `(tag ..)` for b"tag". None if there is none."""
    return next((part for part in value[1:] if isinstance(part, list) and part[:1] == [head]), None)


def short_form(principal):
    """A short form of a key or a hash: the only part of a key if that is plain text, else its algorithm and the beginning of a digest in
    hexadecimal."""
    if principal[0] == b"hash":
        return f"{principal[1].decode()} {principal[2].hex()[:8]}.."
    parts = principal[1][1:]
    if len(parts) == 1 and isinstance(parts[0], bytes) and PLAIN.match(parts[0]):
        return parts[0].decode()
    algorithm = on_one_line(principal[1][0])[:MOST_LETTERS]
    return f"{algorithm} key {hashlib.sha256(canonical(principal)).hexdigest()[:8]}.."
