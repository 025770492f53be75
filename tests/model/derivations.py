"""Whether some derivation grants a request, by trying every bracketing (RFC 2693, sections 6.3 and 6.4).

This is the meaning of an answer, apart from how one is computed: a tree over the entry and all certificates in order, whose inner nodes are made by
the RFC's rules. A tag counts as the set of its requests, and a window as the set of its moments. So the request must be in every tag, and the moment
in every window. No tags are intersected, and there is no limit. The left fold of `reduction` must say the same. `strict`: SHA-1 names no key."""
import itertools
from collections.abc import Iterator
from dataclasses import dataclass

from .evidence import Authorization, Tuple, names
from .structures import Key, Subject
from .tags import contains
from .values import Value


@dataclass(frozen=True, slots=True)
class Node:
    """A node of a tree: who issued it (None: the list's keeper), the name that it defines or None, its subject, and whether it delegates."""

    issuer: Key | None
    name: bytes | None
    subject: Subject
    propagate: bool


def grants(leaves: list[Tuple], key: Key, request: Value, moment: bytes, strict: bool) -> bool:
    """Whether a tree over all leaves grants a request of a key at a moment. The first leaf is the entry's."""
    return all_contain(leaves, request, moment) and any(is_for(root, key, strict) for root in roots([node_of(leaf) for leaf in leaves], strict))


def grants_from_left(leaves: list[Tuple], key: Key, request: Value, moment: bytes, strict: bool) -> bool:
    """Whether the tree that joins all leaves from the left grants a request of a key at a moment. It grants if any tree does, so the answer is that
    of `grants`, and is quick for many leaves. The first leaf is the entry's."""
    if not all_contain(leaves, request, moment):
        return False
    root: Node | None = node_of(leaves[0])
    for leaf in leaves[1:]:
        root = next(joined_by_rule(root, node_of(leaf), strict), None) if root else None
    return root is not None and is_for(root, key, strict)


def all_contain(leaves: list[Tuple], request: Value, moment: bytes) -> bool:
    """Whether the request is in every tag and the moment in every window. A name's definition has no tag."""
    return all(leaf.window.holds(moment) and (not isinstance(leaf, Authorization) or contains(leaf.tag, request)) for leaf in leaves)


def is_for(root: Node, key: Key, strict: bool) -> bool:
    """Whether a root is an authorization of the key by the keeper of the list: it has no issuer, defines no name, and its subject names the key."""
    return root.issuer is None and root.name is None and not root.subject.names and names(root.subject.principal, key, strict)


def node_of(step: Tuple) -> Node:
    """The leaf of a tree for a tuple. A name's definition never delegates."""
    if isinstance(step, Authorization):
        return Node(step.issuer, name=None, subject=step.subject, propagate=step.propagate)
    return Node(step.key, step.name, step.subject, propagate=False)


def roots(leaves: list[Node], strict: bool) -> set[Node]:
    """The roots of all trees over the leaves in their order. `within[a, b]` has those over the leaves from a up to, and without, b."""
    count = len(leaves)
    within: dict[tuple[int, int], set[Node]] = {(at, at + 1): {leaf} for at, leaf in enumerate(leaves)}
    for length in range(2, count + 1):
        for begin in range(count - length + 1):
            end = begin + length
            halves = [(within[begin, middle], within[middle, end]) for middle in range(begin + 1, end)]
            pairs = itertools.chain.from_iterable(itertools.product(lefts, rights) for lefts, rights in halves)
            within[begin, end] = {root for left, right in pairs for root in joined_by_rule(left, right, strict)}
    return within[0, count]


def joined_by_rule(left: Node, right: Node, strict: bool) -> Iterator[Node]:
    """Yields the node that the RFC's rules make of two nodes, or nothing if no rule fits: at most one does."""
    if right.issuer is None or not names(left.subject.principal, right.issuer, strict):
        return
    if right.name is not None:
        # a name in front of the subject is replaced by its meaning, on the left of an authorization or of a name's definition
        if left.subject.names[:1] == (right.name,):
            subject = Subject(right.subject.principal, right.subject.names + left.subject.names[1:])
            yield Node(left.issuer, left.name, subject, left.propagate)
    elif left.name is None and not left.subject.names and left.propagate:
        yield Node(left.issuer, name=None, subject=right.subject, propagate=right.propagate)
