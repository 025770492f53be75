"""The chain of an answer as boxes and arrows, which the page draws as SVG: from the access list to the request, or to the certificate that stops it.
Where a signature stops the chains of all entries, it begins at the first issuer. Entries, certificates and rights are values of S-expressions: a
string is `bytes`, and a list a `list` whose first member is its head. A story is a question that was answered."""
from labels import field
from spki_cert_tool.sexp import on_one_line
from story import issuer_of, subject_after, moment_of, subject_of, tag_of, window

# What is written beside the arrow at which a chain stops, by the cause of the no, a word of `explain`.
SHORT = {
    "KeyNotShown": "the key of its issuer is not shown", "DigestDiffers": "its signature has another digest",
    "SignerDiffers": "it is signed by another key than its issuer's", "NotAccepted": "its signature does not count",
    "NotIssuer": "the next certificate is issued by another key", "NotTheName": "the next certificate defines another name",
    "NoDelegation": "the right must not be passed on", "NoValidity": "no moment is left", "NoTag": "no request is left",
    "NotTheKey": "the right ends at another key", "TagLacks": "the right does not contain the request",
    "WindowLacks": "the moment is not in the validity"}
# The causes for which two neighbours in the chain do not join.
APART = ("NotIssuer", "NotTheName", "NotTheKey")
# The steps of a picture: more would be no picture at a glance.
MOST_STEPS = 60


def arrow(state, *lines, whole=""):
    """The step of an arrow. `lines` are the texts beside it; one that is None or empty is left out. `state` is `plain`, `good`, `bad` (with a cross),
    `faint`, or `gap` where two neighbours do not join: page/chain.js draws by it. `whole` is the S-expression of the entry, certificate or right,
    which is shown under the pointer; empty if there is none."""
    return {"kind": "arrow", "state": state, "lines": [line for line in lines if line], "whole": whole}


def lines_beside(name, value):
    """The lines beside the arrow of an entry or a certificate: its name, tag, delegation and validity, or None for what it does not say."""
    passes = "may be passed on" if field(value, b"propagate") else None
    return [name, tag_of(value), passes, window(value)]


class Chain:
    """The boxes and arrows of a story, from above: `steps`, to which the methods add. `subject` is that of the last box of a subject, or None before
    the first."""

    def __init__(self, story):
        self.story, self.steps, self.subject = story, [], None

    def add_box(self, shape, label, whole, note="", state="plain"):
        """Adds a box with a label and a note below it. `whole` is its text in full, or for a list how many entries it has. `shape` is `list`,
        `subject` or `request`, and `state` is `plain`, `good`, `bad` or `faint`, by which the page colours it."""
        self.steps.append({"kind": "box", "shape": shape, "label": label, "note": note, "whole": whole, "state": state})

    def add_subject(self, subject, state="plain"):
        """Adds the box of a subject, if the last one is of another subject. `state` is as for `add_box`."""
        if subject != self.subject:
            self.add_box("subject", self.story.labels.name_of(subject), on_one_line(subject), state=state)
        self.subject = subject

    def add_entry(self, number):
        """Adds the box of the access list, and the arrow of one of its entries, by its number from 1, to the entry's subject."""
        entry = self.story.entries[number - 1]
        count = len(self.story.entries)
        self.add_box("list", "Access list", "1 entry" if count == 1 else f"{count} entries")
        self.steps.append(arrow("plain", *lines_beside(f"entry {number}", entry), whole=on_one_line(entry)))
        self.add_subject(entry[1])

    def add_certificates(self, reason):
        """Adds the certificates up to the one that stops the chain, whose number among all items is `reason.item`, or all if that is None."""
        for number, item in enumerate(self.story.items, 1):
            if item[0] != b"cert" or (reason.item and number > reason.item):
                continue
            is_last = number == reason.item
            self.add_certificate(number, item, reason.word if is_last else None, self.story.remaining_right(reason) if is_last else None)

    def add_certificate(self, number, item, word, before):
        """Adds a certificate, which is item `number` from 1: an arrow to its subject. If it does not stop the chain, `word` and `before` are None.
        Otherwise `word` is the cause, `before` the right before it, if that is known, and the arrow is red, or faint behind a red gap if the
        certificate does not join."""
        issuer = issuer_of(item)
        # (one that does not join comes behind a gap, from the box of its issuer, and is faint)
        if word in APART:
            self.steps.append(arrow("gap", word, SHORT[word]))
        if word in APART or self.subject is None:
            self.add_subject(issuer)
        lines = lines_beside(f"certificate {self.story.certificate_number(number)}", item)
        # (a certificate that defines a name has no tag; its second line is which name)
        if issuer[0] == b"name":
            lines[1] = f"defines {self.story.labels.name_of(issuer)}"
        state = "faint" if word in APART else "bad" if word else "plain"
        why = [f"{word}: {SHORT[word]}"] if state == "bad" else []
        if before and word in ("NoTag", "NoValidity"):
            lines.append(f"left before: {tag_of(before) if word == 'NoTag' else window(before)}")
        self.steps.append(arrow(state, *why, *lines, whole=on_one_line(item)))
        self.add_subject(subject_after(self.subject or issuer, item) if state == "plain" else subject_of(item), "faint" if word else "plain")

    def add_request(self, reason, right):
        """Adds the box of the request, and the arrow to it, which says whether the chain of `reason` grants it. For NotTheKey a gap says that
        it does not, and the box of the key that asks and the arrow come behind it. `right` is the right that remains at the end of the chain, or None
        if it is not known."""
        story, word = self.story, reason.word
        is_granted = word == "grants"
        if word == "NotTheKey":
            self.steps.append(arrow("gap", word, SHORT[word]))
            self.add_subject(story.key)
            self.steps.append(arrow("plain", "requests"))
        else:
            lines = [] if right is None else [f"left: {tag_of(right)}", window(right)]
            why = f"yes, entry {reason.entry}" if is_granted else f"{word}: {SHORT[word]}"
            self.steps.append(arrow("good" if is_granted else "bad", why, *lines, whole=on_one_line(right) if right else ""))
        state = "good" if is_granted else "plain" if word == "NotTheKey" else "bad"
        self.add_box("request", on_one_line(story.request), on_one_line(story.request), moment_of(story.at), state)


def chain(story, reason):
    """The chain of `reason`, a `Reason` of story.py, as a dictionary for the page: its `steps`, and `behind`, which is how many certificates behind
    the one that stops it are not drawn. It begins at the access list, or at the first issuer if `reason.entry` is None: then a signature stops the
    chains of all entries. It ends at the certificate that stops it, which is item `reason.item`, or at the request if that is None. The steps in the
    middle of a long chain are left out. If `reason` is None, the list has no entries, and only the list is drawn."""
    drawn = Chain(story)
    if reason is None:
        drawn.add_box("list", "Access list", "0 entries", "no entries", "bad")
        return {"steps": drawn.steps, "behind": 0}
    if reason.entry:
        drawn.add_entry(reason.entry)
    drawn.add_certificates(reason)
    if reason.item is None:
        drawn.add_request(reason, story.remaining_right(reason))
    behind = sum(item[0] == b"cert" for item in story.items[reason.item:]) if reason.item else 0
    return {"steps": without_middle(drawn.steps), "behind": behind}


def without_middle(steps):
    """The steps of a chain. If they are more than MOST_STEPS + 1, only those at both ends, with an arrow between that says how many certificates are
    left out."""
    half = MOST_STEPS // 2
    middle = steps[half:-half]
    # (a single step may be a box, so it is drawn)
    if len(middle) <= 1:
        return steps
    # (a certificate is an arrow, and a box if its subject is another one than before)
    count = sum(step["kind"] == "arrow" for step in middle)
    left_out = arrow("faint", "1 certificate is not drawn" if count == 1 else f"{count} certificates are not drawn")
    return [*steps[:half], left_out, *steps[-half:]]
