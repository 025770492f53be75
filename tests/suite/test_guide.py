"""Does what README.md, docs/GUIDE.md and the examples of docs/spki.1 say, each in an empty folder, and compares the answers.

A fenced block `sexp NAME`, `sh NAME` or `python NAME` of README.md and the guide is a file. It is written at its place on the page, and cannot be
run until a command permits it. If examples/ has a file of this name, it must be the same. A block `c NAME`, `rust NAME` or `python NAME` is a
quotation if a folder of PROGRAMS has an example NAME: it must be a part of that.

In a block `console`, and in the manual's blocks, a line that begins with `$ ` is a command of the shell. A line with `> ` continues it. The lines up
to the next command are what it should write. The commands of a page run unchanged, one after the other in one shell, with the program as `spki`,
apps/locate as `locate` and apps/spki-cert/spki-cert as `spki-cert`, which has the built library. They run once in `sh`, and once in `bash`.

An indented block below a paragraph that begins with `**C.**`, `**Rust.**`, `**Python.**` or `**Go.**` is a snippet: snippets.py builds and runs it.

tests/harness/page_commands.py says which test runs the other commands and pages, and which commands no test runs."""
import itertools
import os
import re
import shlex
import tempfile
import textwrap
from collections.abc import Callable, Iterable

from harness import built, needs, snippets
from harness.support import TOP, output_of, text_of

BLOCK = re.compile(r"^```(\w+)(?: (\S+))?\n(.*?)^```$", re.MULTILINE | re.DOTALL)
SECONDS = 900
END = "---- end of command ----"  # (behind what each command writes: other tests split by it too)
# The folders of the examples that pages quote. test_bindings.py, test_service.py and test_cache.py run them.
PROGRAMS = ("examples/c", "bindings/rust/examples", "bindings/python/examples")
FENCED = re.compile(r"^```.*?^```$", re.MULTILINE | re.DOTALL)
SNIPPET_BELOW = re.compile(r"\*\*(C|Rust|Python|Go)\.\*\*")
PAGES = ("README.md", "docs/GUIDE.md", "docs/spki.1")
SHELLS = ("sh", "bash")


def steps_of_block(text):
    """Yields the steps of a block of commands: for each the word `command`, the command, and what it should write. Leaves out what is before."""
    for part in re.split(r"^\$ ", text, flags=re.MULTILINE)[1:]:
        first, *rest = part.splitlines()
        more = list(itertools.takewhile(lambda line: line.startswith("> "), rest))
        yield "command", "\n".join([first] + [line[2:] for line in more]), "\n".join(rest[len(more):])


def steps_of_markdown(page):
    """Yields the steps of the text of a page in order, each three texts: `file` or `quotation`, its name and its text; or `command`, the command,
    and what it should write. Raises ValueError if a block is none of these, but passes over one without a kind."""
    for kind, name, text in BLOCK.findall(page):
        if kind in ("c", "rust", "python") and name and program_of(name):
            yield "quotation", name, text
        elif kind in ("sexp", "sh", "python") and name:
            yield "file", name, text
        elif kind == "console":
            yield from steps_of_block(text)
        else:
            raise ValueError(f"a block of kind {kind} without a name is neither a file nor commands")


def program_of(name):
    """The path of the program with this name in the folders of PROGRAMS, None if there is none."""
    paths = [os.path.join(TOP, folder, name) for folder in PROGRAMS]
    return next(filter(os.path.exists, paths), None)


def steps_of_manual(page):
    """Yields the steps of the text of a manual page: those of its blocks from `.nf` to `.fi`, in which escapes become characters."""
    for block in re.findall(r"^\.nf\n(.*?)^\.fi$", page, re.MULTILINE | re.DOTALL):
        yield from steps_of_block(textwrap.dedent(block).replace("\\-", "-").replace("\\(aq", "'").replace("\\(ga", "`"))


def script(steps):
    """Yields the parts of a script that writes the files and runs the commands of steps, and writes END after each command. It omits quotations."""
    for kind, first, second in steps:
        if kind == "file":
            yield f"printf %s {shlex.quote(second)} > {shlex.quote(first)}\n"
        elif kind == "command":
            yield f"{first}\necho\necho '{END}'\n"


def outputs_of(shell, steps, program):
    """Runs steps in a shell, in an empty folder, with the program at this path as `spki`, and `locate` and `spki-cert`. Returns a list with what each
    command writes, and at its end what is written behind the last command. If the shell ends early, the list is shorter."""
    with tempfile.TemporaryDirectory() as room:
        for folder in ("bin", "work"):
            os.mkdir(os.path.join(room, folder))
        os.symlink(program, os.path.join(room, "bin", "spki"))
        for folder, name in (("apps", "locate"), ("apps/spki-cert", "spki-cert")):
            os.symlink(os.path.abspath(os.path.join(TOP, folder, name)), os.path.join(room, "bin", name))
        settings = {**os.environ, **settings_for_library(steps), "PATH": os.path.join(room, "bin") + os.pathsep + os.environ["PATH"]}
        output = output_of(shell, text="".join(script(steps)), cwd=os.path.join(room, "work"), env=settings, seconds=SECONDS)[1]
    return output.split(f"{END}\n")


def needs_library(commands_of_page: Iterable[str]) -> bool:
    """Whether one of these commands names `spki-cert`, which asks the library."""
    return any("spki-cert" in command for command in commands_of_page)


def settings_for_library(steps: Iterable[tuple[str, str, str]]) -> dict[str, str]:
    """The settings of the environment by which the commands of steps find the library and its module, none if they do not need it."""
    if not needs_library(first for kind, first, _ in steps if kind == "command"):
        return {}
    return {"SPKI_LIBRARY": built.shared(), "PYTHONPATH": os.path.join(TOP, "bindings", "python")}


def is_as_in_examples(kind, name, text):
    """Whether the file of examples/ with this name, if there is one, has just this text, or for the kind `quotation` the program has it inside."""
    path = program_of(name) if kind == "quotation" else os.path.join(TOP, "examples", name)
    if not os.path.exists(path):
        return True
    whole = text_of(path)
    return text in whole if kind == "quotation" else text == whole


def indented(page):
    """Yields the indented blocks of the text of a page, as pairs of the paragraph above and the block. An empty line is before each block, and ends
    it: what is indented behind that is a block of its own, and the first one is then the paragraph above it."""
    parts = re.split(r"\n{2,}", FENCED.sub("", page))
    for above, block in zip(parts, parts[1:]):
        if block and all(line.startswith("    ") for line in block.splitlines()):
            yield above, textwrap.dedent(block)


def snippets_of(page):
    """The snippets of the text of a page, as pairs of the language and the snippet."""
    return [(language[1], block) for above, block in indented(page) if (language := SNIPPET_BELOW.match(above))]


def lines_of_first_certificate(page: str) -> list[str]:
    """The lines of the indented blocks with `spki-cert` in the text of a page. They make the first certificate."""
    return [line for _, block in indented(page) if "spki-cert" in block for line in block.splitlines()]


# ---- the pages


class Pages(built.OfProgram):
    """The commands, files and quotations of the pages."""

    def steps(self, page: str) -> list[tuple[str, str, str]]:
        """The steps of a page, by its path, as `steps_of_markdown` or `steps_of_manual` yields them."""
        return list((steps_of_manual if page.endswith(".1") else steps_of_markdown)(text_of(page)))

    def check_commands(self, page: str, shell: str) -> None:
        """Each command of a page must write what the page says. Where the shell ended before a command, its output counts as the word `nothing`."""
        steps = self.steps(page)
        wanted = [(command, answer) for kind, command, answer in steps if kind == "command"]
        outputs = outputs_of(shell, steps, self.program)
        outputs += ["nothing"] * (len(wanted) + 1 - len(outputs))
        faults = [f"$ {command}\nwanted\n{answer}\ncame\n{output}" for (command, answer), output in zip(wanted, outputs)
                  if output.strip("\n") != answer.strip("\n")]
        self.assertEqual(faults, [], f"{page}, {shell}:\n" + "\n".join(faults))

    def check_files(self, page: str) -> None:
        """The files of a page must be those of examples/, and its quotations parts of programs."""
        others = [file for kind, file, text in self.steps(page) if kind != "command" and not is_as_in_examples(kind, file, text)]
        self.assertEqual(others, [], f"{page}: these are not as in examples/")


def files_test(page: str) -> Callable[[Pages], None]:
    """The test of a page's files and quotations."""
    return lambda self: self.check_files(page)


def commands_test(page: str, shell: str) -> Callable[[Pages], None]:
    """The test of a page's commands in a shell. It is skipped if a tool that the page uses, such as openssl, is missing."""
    test: Callable[[Pages], None] = lambda self: self.check_commands(page, shell)
    text = text_of(page)
    of_library = ["import cryptography", "ssh-keygen", *needs.LIBRARY] if needs_library(re.findall(r"^[$] .*$", text, re.MULTILINE)) else []
    return needs.needs(*(["openssl"] if "openssl" in text else []), *of_library)(test)


def add_pages() -> None:
    """Adds the tests of each page: of its files, and of its commands in each shell."""
    for page in PAGES:
        setattr(Pages, f"test_guide:{page}:files", files_test(page))
        for shell in SHELLS:
            setattr(Pages, f"test_guide:{page}:{shell}", commands_test(page, shell))


add_pages()


@needs.needs(*needs.LIBRARY)
class Snippets(built.OfLibrary):
    """The snippets of README.md and of the guide, by their languages."""

    def check_snippets(self, language: str) -> None:
        """Each snippet in a language must grant the request of delegation.sexp to its key, and deny it to another key."""
        texts = [text for page in PAGES[:2] for kind, text in snippets_of(text_of(page)) if kind == language]
        self.assertTrue(texts, f"the pages have no snippet in {language}")
        with tempfile.TemporaryDirectory() as room:
            for text in texts:
                self.assertIsNone(snippets.fault_of_snippet(language, text, room, self.program, self.library))

    def test_c(self) -> None:
        self.check_snippets("C")

    @needs.needs("cargo")
    def test_rust(self) -> None:
        self.check_snippets("Rust")

    def test_python(self) -> None:
        self.check_snippets("Python")

    @needs.needs("go")
    def test_go(self) -> None:
        self.check_snippets("Go")
