"""The table of wrong uses: what happens where a call of the bindings is held wrong. Each row is the body of a function in a file of `wrong_uses/`,
one for each language, behind the code that all its rows share. A row begins with `--- OUTCOME: NAME` or `--- OUTCOME, PATTERN OF COMPILER: NAME`."""
import os
import re
from collections.abc import Iterator
from dataclasses import dataclass

from harness.support import TESTS

FOLDER = os.path.join(TESTS, "wrong_uses")
HEAD = re.compile(r"^--- (does not compile|is refused|is denied|is granted)(?:, (.+?))?: (.*)$", re.MULTILINE)
LANGUAGES = ("c", "cpp", "rust", "go", "python")
# The head of the function of a row, what each line of it has in front, and its end.
FUNCTIONS = {"c": ("static const char *row_{}(void)\n{{", "    ", "}"), "cpp": ("static const char *row_{}()\n{{", "    ", "}"),
             "rust": ("fn row_{}() -> Outcome {{", "    ", "}"), "go": ("func row_{}() string {{", "\t", "}"),
             "python": ("\n\ndef row_{}() -> str:", "    ", "")}
# Of each language what begins the main function, one of its calls, which writes the number of a row and its outcome, and what ends it.
MAINS = {
    "c": ("int main(void)\n{\n", '    printf("%d %s\\n", {0}, row_{0}());\n', "    return 0;\n}\n"),
    "cpp": ("#include <cstdio>\nstatic void call(int place, const char *(*row)())\n{\n    const char *result = \"is refused\";\n    try {\n"
            "        result = row();\n    } catch (const std::exception &) {\n    }\n    std::printf(\"%d %s\\n\", place, result);\n}\n"
            "int main()\n{\n", "    call({0}, row_{0});\n", "    return 0;\n}\n"),
    "rust": ("fn main() {\n", '    println!("{0} {{}}", row_{0}().unwrap_or("is refused"));\n', "}\n"),
    "go": ("func main() {\n", "\tfmt.Println({0}, row_{0}())\n", "}\n"),
    "python": ("\n\nfor place, row in {\n", "    {0}: row_{0},\n", "}.items():\n    try:\n        print(place, row())\n"
               "    except (TypeError, ValueError, spki.Refused, spki.NotProved):\n        print(place, 'is refused')\n")}


@dataclass(frozen=True)
class Row:
    """A wrong use in a language: its place in the file, from 0, its outcome, the pattern for what the compiler prints (or ""), its name and code."""

    language: str
    place: int
    outcome: str
    pattern: str
    name: str
    code: str

    def function(self) -> str:
        """The source of a function `row_N` with the code of this row, N being its place."""
        head, indentation, end = FUNCTIONS[self.language]
        return "\n".join([head.format(self.place), *(indentation + line for line in self.code.splitlines()), end, ""])


def parts_of(language: str) -> tuple[str, list[Row]]:
    """The code that all rows of a language share, which ends at the line `ROWS`, and the rows."""
    with open(os.path.join(FOLDER, language), encoding="utf-8") as file:
        shared, _, rest = file.read().partition("ROWS\n")
    heads = list(HEAD.finditer(rest))  # (the groups of a head: outcome, pattern or None, name)
    ends = [*(head.start() for head in heads[1:]), len(rest)]
    rows = enumerate(zip(heads, ends))
    return shared, [Row(language, place, head[1], head[2] or "", head[3], rest[head.end() + 1:end]) for place, (head, end) in rows]


def program_of(shared: str, rows: list[Row]) -> tuple[str, dict[int, Row]]:
    """The program that does these rows, one or more of a language, and for the number, from 1, of each line in a row's function, that row."""
    text, lines = shared + "\n", {}
    for row in rows:
        first = text.count("\n") + 1
        text += row.function()
        lines.update(dict.fromkeys(range(first, text.count("\n") + 1), row))
    begin, call, end = MAINS[rows[0].language]
    return text + begin + "".join(call.format(row.place) for row in rows) + end, lines


def faults_in(output: str, path: str, lines: dict[int, Row]) -> Iterator[tuple[Row, str]]:
    """The row of each line that a compiler names in its output, as `FILE:LINE`, and what it says of it: the output from the name before this one up
    to the next. `path` is that of the source, and `lines` has the row of each line, as `program_of` returns it."""
    names = list(re.finditer(rf"{re.escape(os.path.basename(path))}:(\d+)", output))
    ends = [*(name.start() for name in names[1:]), len(output)]
    for place, (name, end) in enumerate(zip(names, ends)):
        if int(name[1]) in lines:
            # (a compiler reports the fault of a template before it names the line that uses it)
            begin = names[place - 1].start() if place else 0
            yield lines[int(name[1])], output[begin:end]
