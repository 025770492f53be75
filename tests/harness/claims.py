"""What the rows of docs/PROOFS.md cite: functions, clauses of their contracts, and definitions that these clauses lead to.

A cell has phrases, one behind the other with `;`. A phrase names functions, then clauses, and in parentheses definitions, as in "`decide`, `exact`
(`IsDecision`)": each clause must be in the contract of one of the functions before it, and each definition must be cited by such a contract, or by a
definition that it leads to. A phrase that names no function, such as "the readers' `named`", is about all functions of the crates of its section."""
import re
from collections.abc import Iterable, Iterator

from harness.support import text_of

SECTION = re.compile(r"^## (.*)\n((?:(?!## ).*\n)*)", re.MULTILINE)
CLAIM = re.compile(r"^\| .* \| ([^|]*`[^|]*) \|$", re.MULTILINE)
# Names in rows that are no clauses: of the language, and the crate of tests. Sections whose rows name other things.
OF_LANGUAGE, OTHER_SECTIONS = {"Send", "Sync", "test_callers"}, {"How to read a contract", "Only tested"}
# The calls of a service of which docs/PERFORMANCE.md must say whether they have the clause `cost`.
COUNTED = ("open", "decide_by", "grant_by", "explain_by", "reduce_by", "reduce_into")
# A function with its contract, a block of functions of one type, and a type.
FUNCTION = re.compile(r"^( *)(?:pub(?:\([\w:]+\))? |const |unsafe |extern \"C\" )*fn (\w+)((?:.|\n)*?)(?:\n\1| )\{\}?$", re.MULTILINE)
BLOCK = re.compile(r"^impl\b[^{]*?(\w+)(?:<[^{]*>)? \{\n((?:.|\n)*?)^\}", re.MULTILINE)
TYPE = re.compile(r"\b(?:struct|enum|trait|mod) (\w+)")
CLAUSE = re.compile(r"\b(?:ensures|requires) (\w+) \{")
# A definition of a specification, from its first line to the next.
DEFINITION = re.compile(r"^ *(?:(?:abbrev|pub|record|data|unfoldable) )*([\w-]+)\b([^\n]*\n(?: +[^\n]*\n|\n)*)", re.MULTILINE)
WORD = re.compile(r"[\w-]+")


class Sources:
    """What sources have: `contracts` of functions by name, also with the name of a type before it, and [] for a type; the same contracts `of_crate`
    by crate; and which words each definition of the specifications has (`cited`). Both arguments are paths from the top, as `crates/NAME/..`."""

    def __init__(self, sources: Iterable[str], specs: Iterable[str]) -> None:
        self.contracts: dict[str, list[str]] = {}
        self.of_crate: dict[str, list[str]] = {}
        self.cited: dict[str, set[str]] = {}
        for path in sources:
            text = text_of(path)
            for _, name, contract in FUNCTION.findall(text):
                self.contracts.setdefault(name, []).append(contract)
                self.of_crate.setdefault(path.split("/")[1], []).append(contract)
            for kind, body in BLOCK.findall(text):
                for _, name, contract in FUNCTION.findall(body):
                    self.contracts.setdefault(f"{kind}::{name}", []).append(contract)
            for name in TYPE.findall(text):
                self.contracts.setdefault(name, [])
        for path in specs:
            for name, body in DEFINITION.findall(text_of(path)):
                self.cited.setdefault(name, set()).update(WORD.findall(body))

    def contracts_of(self, name: str) -> list[str] | None:
        """The contracts of the functions with a name, [] for a type. Where no function has the name with the type before it, those of all functions
        with the bare name. None if there is no such function and no such type."""
        return self.contracts.get(name, self.contracts.get(name.split("::")[-1]))

    def leads_to(self, contracts: list[str], wanted: str) -> bool:
        """Whether one of these contracts cites the definition `wanted`, or cites one that leads to it."""
        reached, followed = set(WORD.findall(" ".join(contracts))), set[str]()
        while reached - followed and wanted not in reached:
            followed |= reached
            reached = reached.union(*(self.cited.get(name, set()) for name in reached))
        return wanted in reached

    def faults_of(self, cell: str, default: list[str]) -> Iterator[str]:
        """A line for each name of a cell that is not where the cell says. A phrase, up to a semicolon, has functions and then names of their clauses;
        the definitions in parentheses are those to which these contracts lead. `default` are the contracts of the crates of its section: those of a
        phrase without a function. Behind the word `call`, `calls` or `readers` each name is a clause, up to the next phrase."""
        # `contracts` are those of the functions named last. Behind a clause (is_closed) the next function begins a new list of them.
        contracts, is_closed, is_in_parentheses, are_all_clauses = default, True, False, False
        for mark, word, name in re.findall(r"([();])|\b(calls?|readers)\b|`([\w:-]+)`", cell):
            of_function = None if are_all_clauses else self.contracts_of(name)
            if mark:
                is_in_parentheses = mark == "(" or is_in_parentheses and mark == ";"
                if mark == ";" and not is_in_parentheses:
                    contracts, is_closed, are_all_clauses = default, True, False
            elif word:
                are_all_clauses = True
            elif is_in_parentheses:
                if not self.leads_to(contracts, name):
                    yield f"no contract leads to {name}"
            elif of_function is not None and (contracts is default or not has_clause(contracts, name)):
                contracts, is_closed = (of_function if is_closed else [*contracts, *of_function]), False
            elif not has_clause(contracts, name) and name not in OF_LANGUAGE:
                yield f"no clause {name}"
            else:
                is_closed = True


def unclaimed(page: str, header: str, source: str) -> Iterator[str]:
    """A line for each function `spki_c_..` of a C source that no row of the page's section `spki_c` has; and for each call of a header that neither
    has such a function of its name nor is explained before the rows, by its name or by an ending such as `_close`. All three are paths."""
    section = next(rows for head, rows in SECTION.findall(text_of(page)) if head == "`spki_c`")
    introduction, _, rows = section.partition("\n|")
    exports = set(re.findall(r"^\w[\w *]*\b(spki_c_\w+)\(", text_of(source), re.MULTILINE))
    yield from (f"no row has {name}" for name in sorted(exports) if f"`{name}`" not in rows)
    explained = re.findall(r"`(\w+)`", introduction)
    for name in re.findall(r"^\w[\w *]*\b(spki_\w+)\(", text_of(header), re.MULTILINE):
        is_explained = any(name == part or part[0] == "_" and name.endswith(part) for part in explained)
        if name.replace("spki_", "spki_c_", 1) not in exports and not is_explained:
            yield f"nothing says what {name} calls"


def wrong_costs(page: str, sources: Sources) -> Iterator[str]:
    """A line for each function of which a page says in parentheses, as "(`f`, `g`, `cost`)" or "(`f`, no `cost`)", that its contract has the clause
    `cost`, or has none, and which is otherwise. And one for each call of COUNTED that it names in no such place."""
    named = []
    for cell, negation in re.findall(r"\(((?:`[\w:]+`,\s)+)(no )?`cost`\)", text_of(page)):
        for name in re.findall(r"`([\w:]+)`", cell):
            named.append(name.split("::")[-1])
            if has_clause(sources.contracts_of(name) or [], "cost") == bool(negation):
                yield f"{name}: {negation}cost"
    yield from (f"{name} is not named" for name in COUNTED if name not in named)


def has_clause(contracts: list[str], name: str) -> bool:
    """Whether one of these contracts has a clause of this name."""
    return any(name in CLAUSE.findall(contract) for contract in contracts)


def faults(page: str, sources: Sources) -> Iterator[str]:
    """A line for each name that a row of a page, a path, cites, and that is not in the sources where the row says. OTHER_SECTIONS are left out."""
    for head, rows in SECTION.findall(text_of(page)):
        crates = re.findall(r"`(\w+)`", head) or list(sources.of_crate)
        default = [contract for crate in crates for contract in sources.of_crate.get(crate, [])]
        for cell in CLAIM.findall(rows) if head not in OTHER_SECTIONS else []:
            yield from (f"{head}: {cell}: {fault}" for fault in sources.faults_of(cell, default))
