"""The ways from octets to an answer that docs/ARCHITECTURE.md has: tables of calls, with a column for the function in which each call stands."""
import re
from collections.abc import Iterable, Iterator

from harness.support import text_of
from merge_gate.bodies import HEAD, path_of

TABLE = re.compile(r"^\| In \| Call \|.*\n\|[-|]+\|\n((?:\|.*\n)+)", re.MULTILINE)
ROW = re.compile(r"^\| `([\w:]+)` \| `([\w:]+)`", re.MULTILINE)
# The most rows of a table: a longer way is not read. How the calls for C begin, from which a way leads too.
MOST_ROWS, EXPORTED = 25, "spki_c_"


def bodies_of(paths: Iterable[str]) -> dict[str, list[str]]:
    """The texts of the functions of these files, from the head on, each by its name and by its path, as `path_of` returns it: its type or module, and
    its name. A name has several texts if several functions have it."""
    bodies: dict[str, list[str]] = {}
    for path in paths:
        lines = text_of(path).split("\n")
        for at, line in enumerate(lines):
            head = HEAD.match(line)
            if head:
                end = next((n for n in range(at, len(lines)) if lines[n] == head[1] + "}"), at)
                for name in {head[2], path_of(path[path.index("src/"):], lines, at, head[2])}:
                    bodies.setdefault(name, []).append("\n".join(lines[at:end]))
    return bodies


def is_called(name: str, body: str) -> bool:
    """Whether a body calls a function of this name, which may have a type before it. The head `fn NAME(` of a function is no call."""
    return re.search(rf"(?<!fn )\b{name.split('::')[-1]}(?:::<.*?>)?\(", body) is not None


def faults(page: str, bodies: dict[str, list[str]]) -> Iterator[str]:
    """A line for each fault of the tables of calls on a page: no table, a table of another form or with over MOST_ROWS rows, a function that does not
    do its call, or a later row of a function that no row before calls and that C cannot call. `bodies` is what `bodies_of` returns."""
    tables = TABLE.findall(text_of(page))
    if not tables:
        yield f"{page} has no table of calls"
    for table in tables:
        rows = ROW.findall(table)
        reached = {rows[0][0]} if rows else set[str]()
        if len(rows) != table.count("\n") or len(rows) > MOST_ROWS:
            yield f"a table has {table.count(chr(10))} rows, of which {len(rows)} are calls, and at most {MOST_ROWS} may be there"
        for inside, call in rows:
            if inside not in reached and not inside.startswith(EXPORTED):
                yield f"no row before leads to {inside}"
            if not any(is_called(call, body) for body in bodies.get(inside, [])):
                yield f"{inside} does not call {call}"
            reached |= {call, call.split("::")[-1]}
