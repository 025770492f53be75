"""What the page asks, and the answers as it shows them. A job is one kind of question, a function in JOBS. It yields its answer in parts, a decision
before its explanation: a part is a dictionary, and its fields replace those of earlier parts. `engine` is the `Engine` that decides, `sent` the
object that the page sent, and `sent_question` the question in it.

The server ends the process of a job that takes too long, and keeps the parts that were yielded.
"""
import moments
from chain import chain
from engine import PARTS, Question, Refused, string
from given import MOST_LETTERS, SentQuestion, SentCase, text, words_of
from labels import Labels
from place import places, places_for_page
from sentences import ONE_STRING, REFUSED, is_one_string_of_words, right_for_page, sentence_of, title
from spki_cert_tool.sexp import laid_out, read
from story import Story, reasons_of

# How many reasons are sent, and of how many entries the right that remains.
MOST_REASONS, MOST_LEFT = 100, 20


def refusal_part(sent_question, line):
    """The part of an answer that shows a refusal. `sent_question` is a `SentQuestion` or a `SentCase`, and `line` the line of the refusal, as
    `refused sequence 3 Shape`."""
    return {"kind": "refused", "line": line, "shown": sent_question.line_for_page(line), "title": REFUSED.get(line, ""),
            "faults": sent_question.faults_by_box(line)}


def labels_of(engine, sent):
    """The names of keys that the page sent, as `Labels`."""
    return Labels(engine, text(sent, "labels"))


# ---- the jobs


def question(engine, sent):
    """Yields the answer to the question that the page sent in several boxes, in parts: the faults of the labels, the decision and its explanation,
    the signatures, and the question as a case if the page wants it. If it is refused, the last part says why."""
    labels = labels_of(engine, sent)
    yield {"labelFaults": labels.faults}
    try:
        sent_question = SentQuestion(engine, sent)
    except Refused as why:
        # (what was sent has a field of a wrong type; the page itself sends none)
        yield {"kind": "refused", "line": why.line, "title": f"The question cannot be read: {why.line.removeprefix('refused: ')}.", "faults": {}}
        return
    try:
        signatures = sent_question.signatures(labels)
        yield from decision_parts(sent_question, labels)
        yield {"signatures": signatures}
        if sent.get("withCase") is True:
            yield {"case": laid_out(read(sent_question.case()))}
    except Refused as why:
        yield refusal_part(sent_question, why.line)


def case(engine, sent):
    """Yields the answer to the whole case that the page sent in one box, in parts: the faults of the labels, the decision and its explanation. If
    the case is refused, the last part says why."""
    sent_case, labels = SentCase(engine, sent), labels_of(engine, sent)
    yield {"labelFaults": labels.faults}
    try:
        yield from decision_parts(sent_case, labels)
    except Refused as why:
        yield refusal_part(sent_case, why.line)


def decision_parts(sent_question, labels):
    """Yields the decision of a question, then the reasons and the picture, then both again, now with the rights that remain. If the engine refuses
    to explain or to reduce, a notice is the last part. `sent_question` is a `SentQuestion` or a `SentCase`. Raises `Refused` if the engine refuses to
    decide."""
    line = sent_question.check()
    yield {"kind": "yes" if line.startswith("yes") else "no", "line": line}
    acl, sequence, key, request, at = sent_question.values()
    for value in (key, acl, sequence):
        labels.learn(value)
    # (a version of the list is no entry)
    entries = [member for member in acl[1:] if member[0] == b"entry"]
    story = Story(labels, entries, sequence[1:], key, request, at)
    try:
        reasons = sorted(reasons_of(sent_question.lines("explain")), key=lambda reason: reason.rank)
        yield reasons_part(story, reasons, line)
        add_rights_left(sent_question, story, reasons, sent_question.lines("reduce"))
    except Refused as why:
        yield {"notice": f"The decision has no explanation here: {why.line}."}
        return
    rights = [right_for_page(story, number, item, right) for (number, item), right in story.rights_left.items()]
    yield {"rights": rights, **reasons_part(story, reasons, line)}


def reasons_part(story, reasons, line):
    """The part of an answer that has a sentence for each of the first MOST_REASONS reasons, in their order, how many `more` there are, and the
    picture of the first. `line` is that of the decision."""
    sentences = [sentence_of(story, reason) for reason in reasons[:MOST_REASONS]]
    return {"reasons": sentences, "more": max(0, len(reasons) - MOST_REASONS), "title": title(sentences, line),
            "chain": chain(story, reasons[0] if reasons else None)}


def add_rights_left(sent_question, story, reasons, reduced):
    """Adds rights to `story.rights_left`, a dictionary by the number of an entry and that of an item or None. With None: the right that remains of
    the entry, for the entries of the first MOST_LEFT `reasons`, whose chains go furthest. `reduced` has the lines of `reduce`, one for each entry.
    With an item: the right before the item that stops the chain of the first reason, if one does. The engine is asked for it. Raises `Refused` if it
    refuses that: the rights that were added before stay."""
    value = sent_question.engine.value
    for reason in reasons[:MOST_LEFT]:
        # (a line without `(five ..)` says what stops the chain: then no right remains)
        if reason.entry and "(five" in reduced[reason.entry - 1]:
            story.rights_left[reason.entry, None] = value(right_text(reduced[reason.entry - 1]))
    first = reasons[0] if reasons else None
    if first and first.entry and first.item:
        # (the items before that item, and all keys behind it, which hashes in the items before may name)
        keys = [item for item in story.items[first.item:] if item[0] == b"public-key"]
        line_before = sent_question.reduce_items([*story.items[:first.item - 1], *keys])[first.entry - 1]
        if "(five" in line_before:
            story.rights_left[first.entry, first.item] = value(right_text(line_before))


def right_text(line):
    """The text `(five ..)` of the right in a line `entry N (five ..)` of `reduce`."""
    return line.split(" ", 2)[2].encode()


def times(engine, sent):
    """Yields one part: the spans of time in which the answer to the question that the page sent stays the same, each with this answer, as
    `moments.spans` returns them; or for a refusal `refused`, with its line."""
    try:
        sent_question = SentQuestion(engine, sent)
        acl, sequence, *_ = sent_question.values()
        # (the first line of `check` is its whole answer)
        yield moments.spans((acl, sequence), lambda date: engine.lines(sent_question.question._replace(at=string(date)), "check")[0])
    except Refused as why:
        yield {"refused": why.line}


def tags(engine, sent):
    """Yields for each of the two tags that the page sent, `first` and `second`, whether it contains the request that the page sent. Then a hint, if
    a tag does not contain it and it was probably meant as more than one string, and the intersection of the tags as `both`, if a guard accepts both.
    If the request is no list of strings, yields this, for each tag, and no more."""
    try:
        words = words_of(sent)
    except Refused as why:
        yield {name: {"requestLine": why.line} for name in ("first", "second")}
        return
    octets = {name: text(sent, name).encode(errors="replace") for name in ("first", "second")}
    answers = {name: containment(engine, octets[name], words) for name in octets}
    yield answers
    if len(words) == 1 and is_one_string_of_words(words[0]) and any(answer.get("contains") is False for answer in answers.values()):
        yield {"hint": ONE_STRING}
    if all("line" not in answer for answer in answers.values()):
        yield {"both": intersection(engine, octets.values(), words)}


def containment(engine, tag, words):
    """What a guard with one entry, which gives the tag to the key that asks, says of a request of these words: `contains`, which is a boolean, or the
    `line` of a refusal and its `places` in the tag, or the `requestLine` of one that is about the request."""
    try:
        acl = b"(3:acl(5:entry" + PARTS["key"] + b"(3:tag" + engine.canonical(tag) + b")))"
    except Refused as why:
        return {"line": why.line, "places": places_for_page(tag, places(tag, why.line))}
    try:
        # (PARTS has an empty sequence, the key of the entry, and some moment)
        answer = engine.lines(Question(acl, PARTS["sequence"], PARTS["key"], words, PARTS["at"]), "check")[0]
        return {"contains": answer != "no"}
    except Refused as why:
        return fault_of_tag(tag, why.line)


def fault_of_tag(tag, line):
    """What is shown of the refusal `line` by a guard whose one entry has the tag `tag`, octets as they were typed: if it is about the list, `line`
    and `places`, the places in the tag; otherwise `requestLine`."""
    # (`refused form TooDeep`: the tag alone can be read, and its lists are too deep in an access list)
    if line.split()[1] not in ("acl", "form"):
        return {"requestLine": line}
    # (the refusal as `intersect` has it of the first of two tags, which is here the one in question)
    line = line.replace("acl 1 Tag", "tag 1").replace("acl 1", "tag 1")
    # (`places` names faults of a tag only in a text `(intersect A B)`, so the tag is put into one)
    front = b"(intersect "
    in_tag = [(at - len(front), why) for at, why in places(front + tag + b" a)", line)]
    return {"line": line, "places": places_for_page(tag, [(at, why) for at, why in in_tag if 0 <= at <= len(tag)])}


def intersection(engine, tags, words):
    """The intersection of two tags, which are texts: the `text`, cut at MOST_LETTERS, `isWhole` if nothing is cut, and what `containment` says of it
    and of the request of these words. If the engine refuses them, only the `line` of the refusal."""
    try:
        tag = engine.command("intersect", b"(9:intersect" + b"".join(map(engine.canonical, tags)) + b")")
        return {"text": tag.decode()[:MOST_LETTERS], "isWhole": len(tag) <= MOST_LETTERS, **containment(engine, tag, words)}
    except Refused as why:
        return {"line": why.line}


def forms(engine, sent):
    """Yields the three forms of the value that the page sent, one by one, or the line of a refusal and its places."""
    octets = text(sent, "text").encode(errors="replace")
    try:
        for name in ("canonical", "advanced", "transport"):
            yield {name: printable(engine.command(name, octets))}
    except Refused as why:
        yield {"line": why.line, "places": places_for_page(octets, places(octets, why.line))}


def printable(octets):
    """Octets for people to read, as a string: as UTF-8 if they are that, with `\\x..` for each octet of what is no printable character. Otherwise as
    ASCII, with `\\x..` for each other octet. A canonical form may have any octets."""
    def escaped(some_octets):
        """Each of the octets as `\\x..`."""
        return "".join(f"\\x{octet:02x}" for octet in some_octets)

    try:
        return "".join(letter if letter.isprintable() else escaped(letter.encode()) for letter in octets.decode())
    except UnicodeDecodeError:
        return "".join(chr(octet) if 32 <= octet < 127 else escaped([octet]) for octet in octets)


# The jobs by the names under which the page asks for them.
JOBS = {"question": question, "case": case, "times": times, "tags": tags, "forms": forms}
