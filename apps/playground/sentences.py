"""The answer in words: a sentence for each line of `explain`, and what can be done about it. A line, as `entry 1 item 3 NoDelegation`, says which
entry of the access list grants the request, or which item of the sequence stops its chain of certificates, and for which cause. A story is a question
that was answered, with the labels of its keys."""
from labels import field
from story import issuer_of, moment_of, tag_of, window

# For `grants` and each cause of a no: what the page says, with fields of `sentence_of`, and what to do.
WORDS = {
    "grants": ("{holder} may do this, by entry {entry}{shown}.", ""),
    "NotTheKey": ("The right ends at {holder}. The client is {client}.",
                  "Show the certificate for the client's key, or the one that defines the name."),
    "TagLacks": ("{holder} has a right, but it does not contain this request.", "Request less, or get a wider tag."),
    "WindowLacks": ("{holder} has the right {window}. The moment is {moment}.", "Renew what has ended, or choose another moment."),
    "NotIssuer": ("The right is with {holder}. Certificate {number} is issued by {issuer}.",
                  "A certificate is missing, the order is wrong, or it is meant for another entry."),
    "NotTheName": ("The name to resolve is {holder}. Certificate {number} defines {issuer}.",
                   "A certificate is missing, or the order is wrong."),
    "NoDelegation": ("{holder} has the right, but must not pass it on.", "The entry or certificate before needs (propagate)."),
    "NoValidity": ("No moment is in the validity of certificate {number} and in all validities before it.", "Renew them."),
    "NoTag": ("Certificate {number} grants nothing that {holder} has.", "Its issuer must have the right that it grants."),
    "KeyNotShown": ("Certificate {number} names its issuer, {issuer}, by a hash, and no key shown has it.",
                    "Show the key, as an item of the sequence."),
    "DigestDiffers": ("The signature of certificate {number} has another digest than the certificate.",
                      "The certificate was changed after it was signed. Without its signature, the page makes one up."),
    "SignerDiffers": ("Certificate {number} is issued by {issuer}. Its signature names another key.", "Let the issuer sign it."),
    "NotAccepted": ("The signature of certificate {number} does not count.",
                    "A service accepts a signature that it has verified. Here a tick, or a row of the case, stands for that."),
}
# What the page says of a refusal with this line. Of any other it shows the remark at its place.
REFUSED = {
    "refused TooLarge": "The tags are too large to intersect.", "refused Memory": "There was not enough memory.",
    "refused question TooLong": "The certificates, key, request and moment have more than 65,536 octets together."}


# What is said where a request in one line was meant as several strings.
ONE_STRING = "The request is one string with spaces in it. If each word is meant as a string, write each on a line of its own; in a case, as (a b c)."


def is_one_string_of_words(request):
    """Whether a request is one string of several words."""
    return isinstance(request, bytes) and len(request.split()) > 1


def sentence_of(story, reason):
    """A line of `explain`, a `Reason`, as the page shows it: a dictionary with the line in words (`says`), what to do (`hint`), the line itself and
    its parts. `story` is the question that was answered, a `Story`. If the right that remains is not known, its window is only `in another time`."""
    says, hint = WORDS[reason.word]
    if reason.word == "TagLacks" and is_one_string_of_words(story.request):
        hint = ONE_STRING
    fields = {"entry": reason.entry, "number": story.certificate_number(reason.item) if reason.item else 0,
              "client": story.labels.name_of(story.key), "moment": moment_of(story.at),
              "holder": story.labels.name_of(story.holder(reason)) if reason.entry else "",
              "issuer": story.labels.name_of(issuer_of(story.certificate(reason.item))) if reason.item else "",
              "shown": phrase_on_certificates(story), "window": "in another time"}
    right = story.remaining_right(reason)
    if right:
        fields["window"] = window(right) or "at all times"
    return {"entry": reason.entry, "item": reason.item, "certificate": fields["number"] or None, "word": reason.word, "line": reason.line,
            "says": says.format(**fields), "hint": hint}


def phrase_on_certificates(story):
    """How many certificates are shown, as the end of a sentence. Empty if there are none."""
    count = sum(item[0] == b"cert" for item in story.items)
    return "" if not count else " and one certificate" if count == 1 else f" and {count} certificates"


def title(reasons, line):
    """The answer in one sentence: that of the first of `reasons`, dictionaries of `sentence_of`. Without reasons it is one by `line`, that of the
    decision."""
    if line.startswith("yes"):
        return reasons[0]["says"] if reasons else f"Entry {line.rsplit(' ', 1)[1]} grants the request."
    return reasons[0]["says"] if reasons else "The access list is empty."


def right_for_page(story, number, item, right):
    """A dictionary about `right`, a value `(five ..)` that remains of the entry with a number, as the page lists it. If `item` is the number of an
    item, it is the right before this item, which stops the chain. For None it is the right at the chain's end."""
    return {"entry": number, "before": story.certificate_number(item) if item else 0, "holder": story.labels.name_of(field(right, b"subject")[1]),
            "tag": tag_of(right), "window": window(right) or "at all times", "passes": field(right, b"propagate") is not None}
