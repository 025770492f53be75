"""Asks a guard of the library, which holds an access list, whether a request is granted, and says in words why or why not.

The library decides. What is here finds the certificates that lead to the key among those that are given, verifies signatures, and names what the
library's reasons mean in these files. A `Reason` is a line of the library's `explain`, as `entry 1 item 3 NoDelegation`, taken apart: the entry, the
item of the sequence that stops the chain from this entry over all certificates, and as `word` the cause or `grants`. Its `item` is None if no item
does, and its `entry` if a signature that does not count stops the chains of all entries. An `Asked` is a question with the certificates that are at
hand, and an `Answer` the decision about one sequence of them. A case is one text with a whole question. A `Value` is an S-expression: `bytes`, a pair
of them with a display hint in front, or a list of values. `spki` is imported where it is used, because that loads the library.
"""
from __future__ import annotations

import hashlib
import itertools
import sys
from collections.abc import Iterator
from dataclasses import dataclass, field, replace
from functools import cached_property
from typing import TYPE_CHECKING

from .certificates import (Keys, Signed, Steps, Terms, accepted_by, certificates_in, chains, entries_of, fault_of_signature, first_member, keys_in,
                           members, sequence_of, string_of)
from .certificates import field as field_of
from .files import Refused, now
from .forms import Parser, suggestion
from .keys import hash_of, principal_of
from .making import sequence_with
from .sexp import Value, canonical, on_one_line
from .showing import FAULTS, Labels
from .tag_words import covers, fitting, lacks

if TYPE_CHECKING:
    from spki import Explanation, Guard, Question, Reason

# How many chains the library is asked about at most.
MOST_CHAINS = 64
# The most certificates and strings of a question. A service may allow fewer.
MOST_SHOWN = 65536
# The words of `explain` for a chain that joins to its end at the key that asks; and for one that lacks something else on the way.
AT_THE_KEY, ON_THE_WAY = ("grants", "TagLacks", "WindowLacks"), ("NoDelegation", "NoValidity", "NoTag")
# Those for a chain that joins to its end. Only then a right `(five ..)` is left of the entry.
JOINED = (*AT_THE_KEY, "NotTheKey")


@dataclass
class Asked:
    """What is asked, with all certificates that are at hand."""

    access_list: Value
    # The key that requests.
    key: Value
    request: Value
    # A date, as certificates have it.
    moment: bytes
    labels: Labels
    # The sequences that are given. A chain is searched among all their certificates.
    sequences: list[Value] = field(default_factory=list)
    # Whether the policy is strict, and a hash by SHA-1 names no key.
    is_strict: bool = True
    accepted: list[Value] | None = None
    """The rows of a case, which say what signatures are valid. None if signatures are verified."""
    unsigned: bytes | None = None
    """A certificate that is not signed yet, in canonical form. It counts as if it were."""
    paths: list[str] = field(default_factory=list)
    """The paths of the files of the sequences, or none if they are from no files."""
    left_out: list[str] = field(default_factory=list)
    """A line on each file that is perhaps a certificate, and from which no sequence is."""

    def verify(self, key: bytes, message: bytes, value: bytes) -> bool:
        """Whether a signature counts: by the rows of a case, or else because it is valid or its certificate is `unsigned`. The three texts are
        canonical: the key, the certificate, and the value of the signature."""
        # (here, because it takes a tenth of a second)
        from spki_verify import verify_texts
        if self.accepted is None:
            return message == self.unsigned or verify_texts(key=key, message=message, value=value)
        return (key, hashlib.sha256(message).digest(), value) in self.rows

    @cached_property
    def rows(self) -> set[tuple[bytes, bytes, bytes]]:
        """What the rows of a case accept, as `accepted_by` has it."""
        return accepted_by(self.accepted or [])

    @cached_property
    def fits(self) -> list[int]:
        """What `fits_of` returns."""
        return fits_of(self.access_list, self.request)


@dataclass
class Answer:
    """The decision about one sequence, and the library's reasons: the lines of `explain`. `entry` is the number of the entry that grants, or None.
    `reduced` has the lines of `reduce`: for each entry `entry N (five ..)`, which is the right that is left of it, or what stops its chain. It has
    only one line if a signature in the sequence does not count, or if there are no entries."""

    sequence: Value
    entry: int | None
    reasons: list[Reason]
    reduced: list[str]
    unused: int = 0
    """How many certificates are at hand, if they are in several sequences and no chain of them was found that leads from an entry to the key.
    Otherwise 0."""
    is_cut: bool = False
    """Whether the search for chains ended at its bound."""
    fits: list[int] = field(default_factory=list)
    """What `fits_with` returns, or nothing if it is granted."""

    @property
    def chosen(self) -> Reason | None:
        """The reason that is said in words. None if there is none: the list has no entries, and the signatures count."""
        return nearest(self.reasons, self.fits)

    def remaining_right(self, entry: int) -> Value:
        """The right `(five ..)` that is left of an entry, by its number from 1, at the end of the chain. The chain must join to its end."""
        # (its line is `entry N (five ..)`)
        return Parser(self.reduced[entry - 1].split(" ", 2)[2].encode()).whole().value


def fits_of(access_list: Value, request: Value) -> list[int]:
    """For each entry, how many members of a request its tag contains, as `fitting` counts them."""
    return [fitting(entry.tag or b"", request) for entry in entries_of(access_list)]


def fits_with(sequence: Value, request: Value, fits: list[int]) -> list[int]:
    """The same for the tags of each entry and of all certificates of a sequence. `fits` are those of `fits_of`."""
    tags = [signed.terms.tag for signed in certificates_in(sequence) if signed.terms.tag is not None]
    least = min((fitting(tag, request) for tag in tags), default=sys.maxsize)
    return [min(least, fit) for fit in fits]


def nearest(reasons: list[Reason], fits: list[int]) -> Reason | None:
    """The reason of the entry that comes nearest to granting: it grants; or its chain leads to the key that asks, and of several such its tags
    contain the most members of the request; or its chain ends last. One without an item goes to its end, and of equal ones the first entry is taken.
    `fits` are those of `fits_with`. None if there are no reasons."""
    # (entries that one certificate joins have one subject, so the rest of the chain joins for all of them or for none)
    first = min((reason.item or sys.maxsize for reason in reasons), default=0)
    misses = any(reason.word == "NotTheKey" or reason.word in ("NotIssuer", "NotTheName") and (reason.item or 0) > first for reason in reasons)
    leads = not misses or any(reason.word in AT_THE_KEY for reason in reasons)

    def rank_of(reason: Reason) -> tuple[bool, int, int, int, int]:
        fit = fits[reason.entry - 1] if fits and reason.entry else 0
        is_near = leads and reason.word in (*AT_THE_KEY, *ON_THE_WAY)
        return reason.word == "grants", fit if is_near else -1, reason.item or sys.maxsize, fit, -(reason.entry or 0)
    return max(reasons, key=rank_of) if reasons else None


def guard_of(asked: Asked) -> Guard:
    """The guard of the access list, an object of the module `spki` that answers questions by it. Raises Refused if the library cannot be loaded, or
    refuses the list."""
    try:
        import spki
    except (ImportError, OSError) as why:
        raise Refused(f"the library decides, and is not here: {why}; crates/spki_c/archive.py builds it, and SPKI_LIBRARY names it") from None
    try:
        limits = spki.Limits(octets=spki.Limits.highest().octets, certificates=MOST_SHOWN, words=MOST_SHOWN)
        return spki.Guard(canonical(asked.access_list), spki.Policy.STRICT if asked.is_strict else spki.Policy.ALLOW_SHA1, limits)
    except spki.Refused as why:
        raise Refused(f"a service would refuse the access list: {why.line}") from None


def answer_of(guard: Guard, asked: Asked, sequence: Value) -> Answer:
    """The decision about a sequence, and its reasons, as a service would decide. Raises Refused if it refuses the question, or cannot explain."""
    import spki
    # (nobody is let in here, so the key counts as proven)
    key = spki.ProvenKey.assume(canonical(asked.key))
    decided = ""
    question: Question = spki.Question(canonical(sequence), key, text=canonical(asked.request), moment=canonical(asked.moment))
    try:
        with guard.ask(question) as opened:
            opened.verify(lambda signature: asked.verify(signature.key, signature.message, signature.value))
            grant = opened.decide()
            decided = f"entry {grant.entry} grants it" if grant else "no entry grants it"
            explanation: Explanation = opened.explain()
            return Answer(sequence, grant.entry if grant else None, list(explanation.reasons()), opened.reduce().text.splitlines(),
                          fits=[] if grant else fits_with(sequence, asked.request, asked.fits))
    except spki.Refused as why:
        if decided:
            raise Refused(f"a service decides that {decided}, but cannot say why: {why.line}") from None
        raise Refused(f"a service would refuse the question: {why.line}") from None


def best_answer(asked: Asked) -> Answer:
    """The answer that the command `ask` prints: the first one that grants. The library is asked about the only sequence that is given, as it is, or
    about an empty one if none or several are given, and then about each chain that `sequences_to` finds. If none grants, the answer is that of the
    only sequence, if it has certificates, else that of the chain that comes nearest, or of the empty sequence if there is no chain. Raises Refused as
    `guard_of` and `answer_of` do."""
    with guard_of(asked) as guard:
        sequence_given = asked.sequences[0] if len(asked.sequences) == 1 else [b"sequence"]
        answer_as_given = answer_of(guard, asked, sequence_given)
        if answer_as_given.entry is not None or not asked.sequences:
            return answer_as_given
        steps, answers = Steps(), list[Answer]()
        for sequence in sequences_to(asked, steps):
            answers.append(answer_of(guard, asked, sequence))
            if answers[-1].entry is not None:
                return answers[-1]
    has_certificates = bool(certificates_in(sequence_given))
    unused = 0 if answers or has_certificates else sum(len(certificates_in(sequence)) for sequence in asked.sequences)
    best = answer_as_given if has_certificates or not answers else max(answers, key=rank)
    return replace(best, unused=unused, is_cut=steps.is_cut)


def rank(answer: Answer) -> tuple[int, bool, int]:
    """A key for `max` among answers that do not grant, whose chains lead to the key that asks: first how many members of the request the tags of the
    chain contain, then how far it goes. One that joins to its end goes furthest, else one that is stopped by a later item."""
    chosen = answer.chosen
    if chosen is None or chosen.entry is None:
        return -1, False, 0
    return answer.fits[chosen.entry - 1], chosen.word in AT_THE_KEY, chosen.item or sys.maxsize


def sequences_to(asked: Asked, steps: Steps) -> Iterator[Value]:
    """Yields the sequences of the chains that lead from an entry to the key, from the certificates at hand whose signatures are valid: at most
    MOST_CHAINS. If there is none, yields that of the first chain with invalid signatures, if there is one, so that it can be said what stops it.
    Sets `steps.is_cut` if some are left out."""
    keys = keys_at_hand(asked)
    certificates = [signed for sequence in asked.sequences for signed in certificates_in(sequence)]
    # (in a case the rows decide about signatures, and each certificate may be in a chain)
    valid = [signed for signed in certificates if asked.accepted is not None or fault_of_signature(signed, keys) is None]
    entries, count = entries_of(asked.access_list), 0
    for chain in chains(entries, valid, keys, asked.key, steps):
        if count == MOST_CHAINS:
            steps.is_cut = True
            return
        count += 1
        yield sequence_of(chain, keys)
    if not count and len(valid) < len(certificates):
        yield from (sequence_of(chain, keys) for chain in itertools.islice(chains(entries, certificates, keys, asked.key, steps), 1))


def keys_at_hand(asked: Asked) -> Keys:
    """The keys that hashes may name: the one that requests, those of the sequences that are given, and those that the labels know."""
    return Keys([asked.key, *(key for sequence in asked.sequences for key in keys_in(sequence)), *asked.labels.keys.by_hash.values()])


def case_of(asked: Asked, sequence: Value) -> Value:
    """The case of a question about one sequence, with a row for each signature that counts: a text that has all that is needed to decide again."""
    keys = Keys([asked.key, *keys_in(sequence)])
    rows: list[Value] = []
    for signed in certificates_in(sequence):
        issuer, value = signed.terms.issuer or b"", members(signed.signature)[2]
        key = keys.named(issuer)
        if key is not None and asked.verify(keys.text_of(issuer)[0], canonical(signed.terms.value), canonical(value)):
            rows.append([b"by", key, hash_of(signed.terms.value), value])
    policy: list[Value] = [[b"policy", b"strict"]] if asked.is_strict else []
    return [b"case", asked.access_list, [b"accepted", *rows], sequence, [b"key", asked.key], [b"request", asked.request], [b"at", asked.moment],
            *policy]


# ---- in words


class Words:
    """Says an answer in words, with the labels of keys and in the form in which the files have strings."""

    def __init__(self, asked: Asked, answer: Answer) -> None:
        """`answer` is that to the question `asked`."""
        self.asked, self.answer, self.labels = asked, answer, asked.labels
        self.entries, self.chain = entries_of(asked.access_list), certificates_in(answer.sequence)
        # (what the key that requests is called)
        self.asker = self.labels.label_of(asked.key)

    def lines(self) -> Iterator[str]:
        """Yields the lines that say the answer: the decision, the chain, what grants or stops the request, and what the search for chains did
        not find or left out."""
        chosen = self.answer.chosen
        wants = f"{self.asker} requests {on_one_line(self.asked.request)} at {self.asked.moment.decode()}"
        yield f"{'yes' if self.answer.entry is not None else 'no'}: {wants}"
        # (a signature that is not valid stops the chains of all entries, so its reason has no entry)
        if chosen is not None and chosen.entry is not None:
            yield from (f"  {name}: {self.statement_of(terms)}" for name, terms in self.links_of(chosen, with_stop=True))
        yield from self.lines_of_cause(chosen) if chosen is not None else ["the access list has no entries"]
        if self.answer.unused:
            leads = "no chain was found that leads" if self.answer.is_cut else "no chain leads"
            yield f"  of the {self.answer.unused} certificates at hand, {leads} from an entry to {self.asker}"
        if self.answer.is_cut:
            yield f"  the search for chains ended after {Steps.most:,} steps or {MOST_CHAINS} chains: give only the certificates of the chain"
        if self.answer.entry is None:
            yield from (f"  left out: {line}" for line in self.lines_left_out())

    def lines_left_out(self) -> Iterator[str]:
        """Yields a line for each file or certificate that is left out of the search, since it is damaged, or its signature is not valid. A sequence
        that is the only one is asked about as it is."""
        yield from self.asked.left_out
        keys = keys_at_hand(self.asked)
        for path, sequence in zip(self.asked.paths, self.asked.sequences) if len(self.asked.sequences) > 1 else []:
            faults = ((signed.number, fault_of_signature(signed, keys)) for signed in certificates_in(sequence))
            yield from (f"{path}, item {number}: {FAULTS[fault]} ({fault})" for number, fault in faults if fault)

    def links_of(self, chosen: Reason, with_stop: bool = False) -> list[tuple[str, Terms]]:
        """The entry of a reason, if it has one, and the certificates before the item that stops the chain, or all if none does: each as its name, as
        "entry 1" or "item 3", and its terms. With `with_stop` the item that stops the chain is there too."""
        stop = chosen.item or sys.maxsize
        joined = [signed for signed in self.chain if signed.number < stop or with_stop and signed.number == stop]
        entry = [(f"entry {chosen.entry}", self.entries[chosen.entry - 1])] if chosen.entry else []
        return entry + [(f"item {signed.number}", signed.terms) for signed in joined]

    def statement_of(self, terms: Terms) -> str:
        """What an entry or a certificate says, in one line."""
        subject = self.labels.label_of_subject(terms.subject)
        if terms.name is not None:
            return f"{self.labels.label_of(terms.issuer)} calls {subject} {on_one_line(terms.name)}, {terms.window}"
        delegates = ", and may delegate it" if terms.delegates else ""
        return f"{self.labels.label_of(terms.issuer)} lets {subject} {on_one_line(terms.tag or b'')}{delegates}, {terms.window}"

    def lines_of_cause(self, chosen: Reason) -> Iterator[str]:
        """Yields the lines that say what the word of a reason means in these files: that its entry grants the request, or why it does not."""
        if chosen.word == "grants":
            yield f"  so entry {chosen.entry} grants it"
            return
        item = next((signed for signed in self.chain if signed.number == chosen.item), None)
        lines_of = {"TagLacks": self.tag_lacks, "WindowLacks": self.window_lacks, "NotTheKey": self.not_the_key}.get(chosen.word)
        if lines_of is not None:
            yield from (f"  {line} ({chosen.word})" for line in lines_of(chosen))
        elif item is not None:
            yield f"  item {item.number}: {self.why_it_stops(item, chosen)} ({chosen.word})"

    def tag_lacks(self, chosen: Reason) -> Iterator[str]:
        """Yields for each tag of the chain that does not contain the request, why. `chosen` is the reason TagLacks."""
        for name, terms in self.links_of(chosen):
            why = lacks(terms.tag, self.asked.request) if terms.tag is not None else None
            if why:
                yield f"the tag of {name} does not contain the request: {why}"

    def window_lacks(self, chosen: Reason) -> Iterator[str]:
        """Yields for each window of the chain that does not contain the moment, when it ended or will begin. `chosen` is the reason WindowLacks."""
        for name, terms in self.links_of(chosen):
            if terms.ends is not None and terms.ends < self.asked.moment:
                yield f"{name} ended on {terms.ends.decode()}"
            if terms.begins is not None and terms.begins > self.asked.moment:
                yield f"{name} begins on {terms.begins.decode()}"

    def not_the_key(self, chosen: Reason) -> Iterator[str]:
        """Yields the line that says who has the right at the end of the chain, instead of the one who asks. If that is a name, the line also says for
        whom a certificate at hand defines it. If none does, it mentions one that defines the same string for another issuer, or else a string that
        is spelt nearly so: the name was perhaps mistyped. `chosen` is the reason NotTheKey."""
        principal, names = self.holder(chosen)
        holder = self.labels.label_of_subject(subject_of(principal, names))
        if not names:
            yield f"the right ends at {holder}, and {self.asker} is another key"
            return
        keys, name = keys_at_hand(self.asked), string_of(names[0])
        definitions = [signed.terms for sequence in self.asked.sequences for signed in certificates_in(sequence) if signed.terms.name is not None]
        same = [terms for terms in definitions if terms.name == name and keys.are_one(terms.issuer, principal)]
        if same:
            owner = self.labels.label_of_subject(same[0].subject)
            yield f"the right ends at {holder}, and that is a name, which a certificate at hand defines for {owner}"
            return
        similar = ([terms for terms in definitions if terms.name == name]
                   or [terms for terms in definitions if suggestion(name, [terms.name or b""]) != ""])
        other = "".join(f"; there is {on_one_line(terms.name or b'')} of {self.labels.label_of(terms.issuer)}, which is another name"
                        for terms in similar[:1])
        yield f"the right ends at {holder}, and that is a name, and no certificate says who it is{other}"

    def holder(self, chosen: Reason) -> tuple[Value, list[Value]]:
        """Who has the right where the chain of a reason stops: the principal of that subject, and those of its names which no certificate before has
        defined. The certificates before must join."""
        principal: Value = b""
        # (the names that are not defined yet, the last one first: at its end a list is changed without being copied)
        reversed_names: list[Value] = []
        for _, terms in self.links_of(chosen):
            # (an authorization gives the right to a new subject, and a definition replaces the first name of the subject before)
            if terms.name is None:
                reversed_names.clear()
            else:
                del reversed_names[-1:]
            reversed_names += reversed(terms.names)
            principal = terms.principal
        return principal, reversed_names[::-1]

    def why_it_stops(self, item: Signed, chosen: Reason) -> str:
        """Why a certificate stops the chain, in words, by the cause in a reason. A cause in FAULTS is about its signature alone."""
        if chosen.word in FAULTS:
            return FAULTS[chosen.word]
        issuer, (principal, names) = self.labels.label_of(item.terms.issuer), self.holder(chosen)
        holder = self.labels.label_of_subject(subject_of(principal, names))
        perhaps_meant = suggestion(item.terms.name, [string_of(name) or b"" for name in names[:1]])
        if chosen.word == "NoTag":
            tags = [terms.tag for _, terms in self.links_of(chosen)] + [item.terms.tag]
            return f"its tag and the tags before it have no request in common: {' and '.join(on_one_line(tag) for tag in tags if tag is not None)}"
        return {
            "NotIssuer": f"{issuer} issues it, and the right is with {holder} there",
            "NotTheName": f"it defines {on_one_line(item.terms.name or b'')} of {issuer}, and the right is with {holder} there{perhaps_meant}",
            "NoDelegation": f"{issuer} may not delegate the right: what comes before it has no (propagate)",
            "NoValidity": f"it is valid {item.terms.window}, and no moment of that is in the windows before it"}[chosen.word]


def subject_of(principal: Value, names: list[Value]) -> Value:
    """The subject of a principal with the names behind it, as a value: `(name PRINCIPAL NAME ..)`, or the principal if there are no names."""
    return [b"name", principal, *names] if names else principal


def asked_of_case(case: Value, labels: Labels) -> Asked:
    """The question of a case, a value that was read as one: its parts, whose rows `(accepted ROW ..)` say which signatures are valid."""
    # (a case may end with `(policy strict)`, and with no other policy)
    access_list, accepted, sequence, key, request, moment, *policy = members(case)
    date = members(moment)[0]
    assert isinstance(date, bytes)
    return Asked(access_list, members(key)[0], members(request)[0], date, labels, [sequence], is_strict=bool(policy), accepted=members(accepted))


# ---- what a chain gives


def what_cannot_be_given(chain: Value, certificate: Value, key: Value, label: str) -> list[str]:
    """What its issuer cannot give of a certificate that is to be signed, in words. The issuer has `key`, is called `label`, and has the right by a
    chain, which is a sequence. An empty list if all can be given. Raises Refused if the library refuses the chain, or cannot be loaded."""
    certificates = certificates_in(chain)
    if not certificates:
        return ["the chain has no certificate"]
    # (whom the chain begins with: the key that issues the first certificate, or the name that this defines)
    first = certificates[0].terms
    begin: Value = [b"name", first.issuer or b"", first.name] if first.name is not None else first.issuer or b""
    labels = Labels()
    labels.add(key, label)
    # (`-` is in place of the value of the signature, which is not made yet)
    tag_by_chain, why = tag_after(begin, sequence_with(chain, key, certificate, b"-"), certificate, key, labels)
    if why or field_of(certificate, b"tag") is None:
        return why
    # (the tag of the certificate in the form of the library, as it remains where the issuer has every right)
    own_tag, _ = tag_after(principal_of(key), sequence_with(None, key, certificate, b"-"), certificate, key, labels)
    return [] if covers(tag_by_chain, own_tag) else [f"of this tag the chain gives only `{on_one_line(tag_by_chain)}`: sign that"]


def tag_after(subject: Value, sequence: Value, certificate: Value, key: Value, labels: Labels) -> tuple[Value, list[str]]:
    """The tag that is left at the end of a sequence, if an access list gives everything to `subject`, and an empty list. If none is left: an empty
    string, and why, in the words of `ask`. The certificate, which `key` issues, counts as signed. Raises Refused as `guard_of` and `answer_of` do."""
    access_list: Value = [b"acl", [b"entry", subject, [b"propagate"], [b"tag", [b"*"]]]]
    # (any request and moment: the tag that remains does not depend on them)
    asked = Asked(access_list, key, b"", now(), labels, [sequence], unsigned=canonical(certificate))
    with guard_of(asked) as guard:
        answer = answer_of(guard, asked, sequence)
    if answer.chosen is not None and answer.chosen.word not in JOINED:
        return b"", [line.strip() for line in Words(asked, answer).lines_of_cause(answer.chosen)]
    return first_member(field_of(answer.remaining_right(1), b"tag")) or b"", []
