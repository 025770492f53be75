"""What an entry and the certificates become, joined from the left (section "Evidence and decision"; RFC 2693, 6.3 and 6.4).

What a join costs is the row "work" of section "Questions to a guard". `strict`: a hash by SHA-1 names no key."""
from .coverage import Rows  # (`X.count_use(row)` counts one use of a row of the table X)
from .evidence import Authorization, Definition, Tuple, names
from .intersection import counting_work, intersection, spend_work
from .structures import Entry, Subject, Window
from .tags import NOTHING, node_cost, nodes

CAUSES = Rows("reduction, cause", [
    "NotIssuer: names left", "NotIssuer: another key", "NotTheName: no name left", "NotTheName: another key", "NotTheName: another name",
    "NoDelegation", "NoValidity: an authorization", "NoValidity: a name", "NoTag"])
JOINS = Rows("reduction, join", ["an authorization", "a name, none left", "a name, more left"])


class NoJoin(Exception):
    """Why a certificate does not join what the entry and the certificates before it became: the first cause."""


class Stopped(Exception):
    """The number of the item at which a chain stops, and the cause."""

    def __init__(self, item: int, cause: str) -> None:
        super().__init__(item, cause)
        self.item = item
        self.cause = cause


def no_join(row: str) -> NoJoin:
    """The NoJoin to raise. Counts a row of CAUSES, whose first word is the cause."""
    CAUSES.count_use(row)
    return NoJoin(row.split(":")[0])


def entry_tuple(entry: Entry) -> Authorization:
    """The tuple of an entry, which the keeper of the list issues: Self."""
    return Authorization(None, entry.subject, entry.propagate, entry.tag, entry.window)


def fold(entry: Entry, steps: list[tuple[int, Tuple]], strict: bool) -> Authorization:
    """The authorization that an entry becomes with all steps (an item's number and tuple). Raises Stopped where one does not join, and TooLarge."""
    authorization = entry_tuple(entry)
    with counting_work(entry.tag, [step.tag if isinstance(step, Authorization) else None for _, step in steps]):
        for item, step in steps:
            try:
                authorization = joined(authorization, step, strict) if isinstance(step, Authorization) else resolved(authorization, step, strict)
            except NoJoin as cause:
                raise Stopped(item, str(cause)) from None
    return authorization


def joined(left: Authorization, right: Authorization, strict: bool) -> Authorization:
    """The authorization that follows from one and the next, which the subject of the first must have issued. Raises NoJoin and TooLarge."""
    assert right.issuer is not None
    if left.subject.names:
        raise no_join("NotIssuer: names left")
    if not names(left.subject.principal, right.issuer, strict):
        raise no_join("NotIssuer: another key")
    if not left.propagate:
        raise no_join("NoDelegation")
    window = common_window(left.window, right.window)
    if window is None:
        raise no_join("NoValidity: an authorization")
    spend_work(nodes(left.tag) * (32 + node_cost(right.tag)) + len(right.subject.names))
    tag = intersection(left.tag, right.tag)
    if tag == NOTHING:
        raise no_join("NoTag")
    JOINS.count_use("an authorization")
    return Authorization(left.issuer, right.subject, right.propagate, tag, window)


def resolved(left: Authorization, name: Definition, strict: bool) -> Authorization:
    """The authorization whose subject has its first name replaced by what the name means. Raises NoJoin, and TooLarge for the work."""
    if not left.subject.names:
        raise no_join("NotTheName: no name left")
    if not names(left.subject.principal, name.key, strict):
        raise no_join("NotTheName: another key")
    if left.subject.names[0] != name.name:
        raise no_join("NotTheName: another name")
    window = common_window(left.window, name.window)
    if window is None:
        raise no_join("NoValidity: a name")
    spend_work(1 + len(left.subject.names) + len(name.subject.names))
    rest = left.subject.names[1:]
    JOINS.count_use("a name, more left" if rest else "a name, none left")
    subject = Subject(name.subject.principal, name.subject.names + rest)
    return Authorization(left.issuer, subject, left.propagate, left.tag, window)


def common_window(a: Window, b: Window) -> Window | None:
    """The window of the moments within both windows, None if there are none. The later `not_before` and the earlier `not_after` hold."""
    not_before = max((date for date in (a.not_before, b.not_before) if date), default=None)
    not_after = min((date for date in (a.not_after, b.not_after) if date), default=None)
    if not_before and not_after and not_before > not_after:
        return None
    return Window(not_before, not_after)
