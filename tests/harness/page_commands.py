"""The commands that the pages and the help name, and what the tests do with each.

A command is a line after `$ ` in a block `console` and in a manual's block without filling, each line of an indented block of which one is a command,
a text in backticks that is a command with words after it, and an example of a help. `kind` says which. In blocks and backticks a text is a command if
its first word is one of `FIRST`, or a program of this repository.

`RUN` says which test runs the commands of a kind on a page. `NOT_RUN` names commands that no test runs as they are written, and why."""
from __future__ import annotations

import glob
import itertools
import os
import re
import subprocess
import sys
import textwrap
from collections.abc import Iterable, Iterator
from fnmatch import fnmatch
from typing import NamedTuple

from harness.support import TOP, text_of

PAGES = ("*.md", "docs/*.md", "docs/*.[1-8]", "examples/**/*.md", "apps/**/*.md", "apps/**/*.[1-8]", "bindings/**/*.md", "crates/*/CALLING.md")
FENCED = re.compile(r"^```(\w*)(?: (\S+))?\n(.*?)^```$", re.MULTILINE | re.DOTALL)  # (a block: its kind, a word behind it, its text)
UNFILLED = re.compile(r"^\.nf\n(.*?)^\.fi$", re.MULTILINE | re.DOTALL)  # (a block of the manual)
TICKS = re.compile(r"`([^`\n]+)`")
SNIPPET_BELOW = re.compile(r"\*\*(C|Rust|Python|Go)\.\*\*")
EXAMPLE = re.compile(r"^(?:example: | {2})(spki-cert .*)$", re.MULTILINE)  # (in a help)
SPKI_CERT = os.path.join(TOP, "apps", "spki-cert", "spki-cert")
FIRST = set("apt-get cc cd chmod chown cmake cp curl dot echo eval export for go install kill ldconfig ln locate mkdir mv openssl pip pkg-config "
            "printf python3 rm rt runuser sed spki spki-authd spki-cert ssh-keygen sudo systemctl timeout useradd usermod".split())


class Command(NamedTuple):
    """A command of a page, or of the help of a program. `kind` says where it is: `console`, `indented`, `inline` or `help`."""

    page: str
    kind: str
    line: str


class Run(NamedTuple):
    """The test that runs the commands of a kind on a page."""

    page: str
    kind: str
    test: str


RUN = [Run(*words.split()) for words in (
    "README.md console test_guide", "docs/GUIDE.md console test_guide", "docs/spki.1 console test_guide", "docs/spki-cert.1 console test_cert",
    "docs/OPERATING.md console test_operating", "docs/CERTIFICATES.md indented test_cert", "examples/README.md indented test_commands",
    "docs/PEERS.md indented test_commands", "help help test_commands")]
# A pattern of pages, a pattern of whole commands, and why no test runs them as they are written.
NOT_RUN = [
    ("apps/spki-authd/*", r" *(apt-get|a2ensite|install|sed|caddy|haproxy|nginx|curl|spki-authd -probe|openssl req|-keyout|chgrp) .*",
     "a server with a name of its own, by root: tests/suite/test_attacks.py and tests/suite/test_authd.py start each with such files"),
    ("apps/spki-authd/README.md", r"spki-cert request .*", "a site with a name of its own: tests/suite/test_signed_sites.py asks each web server so"),
    ("docs/OPERATING.md", r"cd /var/lib/prometheus/node-exporter .*", "a collector of Prometheus has the folder"),
    ("*", r"\(?(cd \S+ && )?rt .*|cd (\.\./|crates/)spki_\w+", "the toolchain, which no package has; proofs take minutes to "
     "hours. tests/suite/test_commands.py runs the first command of README in the long tests"),
    ("*", r"\.ci/(run|deep)( .*)?|tests/run( .*)?|python3 -m unittest .*|go test .*", "they run this test, and take minutes to hours"),
    ("*", r"bench/.*|examples/(peers|lsh|picture)\.py|tests/[\w/]+\.py", "files; `.ci/deep` or a person runs the measurements and comparisons"),
    ("*", r"crates/spki_c/archive\.py|\./(install|packages)\.sh( .*)?", "they prove the libraries for a quarter of an hour, or make packages: "
     "tests/suite/test_installed.py and tests/suite/test_packaged.py run them with the built library"),
    ("*", r"(spki|spki-cert|spki-authd|locate|rt|pip|cmake|pkg-config|go) ?(COMMAND|NAME|FILE|install|[a-z]+)?( -?-[a-z-]+)*", "they name a command "
     "and its options, and have nothing to work on: `test_names` looks for both in the help"),
    ("*", r"apps/(locate|spki-cert/spki-cert)|\S+ (\S+ )*[A-Z]{2,}( .*)?", "they name a program, or stand for any file"),
    ("*", r"timeout 2 spki check", "what bounds any command: it reads a case"),
    ("examples/README.md", r"\./service acl\.sexp packages\.example", "it serves until it is ended: tests/suite/test_service.py drives it"),
    ("*", r"python3 apps/playground", "it serves a page until it is ended: tests/suite/test_playground.py starts it so"),
    ("*", r"(python3 -m venv .* && env/bin/)?pip install --no-build-isolation .*", "tests/suite/test_bindings.py and test_cert.py install so, "
     "into a folder, and tests/suite/test_commands.py in a chroot, as it is written"),
    ("*", r"pkg-config --cflags --libs spki", "tests/suite/test_installed.py asks it of what is installed"),
    ("CONTRIBUTING.md", r"apt-get install .*", "it installs all that the tests use: tests/suite/test_needs.py compares the line"),
    ("*", r"examples/nginx/run\.sh( stay)?", "tests/suite/test_nginx.py runs it, and tests/suite/test_operating.py the page in its folder"),
    ("*", r"examples/signed/run\.py( .*)?|examples/database/story\.py .*", "tests/suite/test_examples.py runs them"),
    ("*", r"(sudo )?(systemctl|useradd|usermod|runuser|install -d|ldconfig|chown|cp \S+ /etc/\S+) .*", "a server's services, users and owners"),
    ("apps/spki-authd/*", r"\(cd apps/spki-authd && go build .*", "tests/suite/test_go.py builds the daemon"),
    ("apps/spki-store/*", r"\(cd apps/spki-authd && go build .*|ln -s .*|go mod edit .*|createdb .*|spki-store .*|pg_ctl promote|python3 -c .*",
     "tests/suite/test_store.py builds the daemon, runs the commands on servers and tables of its own, and promotes a replica")]


# ---- finding commands


def tracked() -> list[str]:
    """The files of the repository that git tracks and that are here, by their paths from the top."""
    done = subprocess.run(["git", "ls-files", "-z"], cwd=TOP, stdout=subprocess.PIPE, text=True, check=True)
    return [path for path in done.stdout.split("\0") if os.path.isfile(os.path.join(TOP, path))]


def pages() -> list[str]:
    """All pages, also of the manual, but none below a folder `out`, sorted, by their paths from the top."""
    paths = itertools.chain.from_iterable(glob.glob(pattern, root_dir=TOP, recursive=True) for pattern in PAGES)
    return sorted(path for path in set(paths) if f"{os.sep}out{os.sep}" not in path)


def is_command(line: str) -> bool:
    """Whether a line, behind any `(`, begins with a command of FIRST, a program of this repository, or one that is built into a folder `out`."""
    first = line.lstrip("( ").split(" ")[0]
    path = os.path.join(TOP, first.removeprefix("./"))
    return first in FIRST or "/out/" in first or "/" in first and os.path.isfile(path) and os.access(path, os.X_OK)


def after_prompts(block: str) -> Iterator[str]:
    """The commands after `$ ` in a block. A command of several lines has `> ` before the further ones."""
    for part in re.split(r"^\$ ", block, flags=re.MULTILINE)[1:]:
        first, *rest = part.splitlines()
        yield "\n".join([first, *(line[2:] for line in itertools.takewhile(lambda line: line.startswith("> "), rest))])


def indented_blocks(text: str) -> Iterator[str]:
    """The indented blocks of a page in which some line is a command. An empty line ends a block. One just below `**C.**` and so on is left out."""
    parts = re.split(r"\n{2,}", FENCED.sub("", text))
    for above, block in zip(parts, parts[1:]):
        lines = textwrap.dedent(block).splitlines()
        if block.startswith("    ") and not SNIPPET_BELOW.match(above) and any(map(is_command, lines)):
            yield "\n".join(lines)


def in_backticks(text: str) -> Iterator[str]:
    """The texts in backticks that are commands with words after them, or programs of this repository. Each is yielded once."""
    for quoted in dict.fromkeys(TICKS.findall(FENCED.sub("", text))):
        if is_command(quoted) and (" " in quoted or "/" in quoted):
            yield quoted


def commands_of(page: str) -> Iterator[Command]:
    """The commands of a page, of Markdown or of the manual. The escapes that stand for characters in a manual are replaced."""
    text = text_of(page)
    if not page.endswith(".md"):
        blocks = (textwrap.dedent(block).replace("\\-", "-").replace("\\(aq", "'").replace("\\(ga", "`") for block in UNFILLED.findall(text))
        yield from (Command(page, "console", line) for block in blocks for line in after_prompts(block))
        return
    yield from (Command(page, "console", line) for kind, _, block in FENCED.findall(text) if kind == "console" for line in after_prompts(block))
    yield from (Command(page, "indented", line) for block in indented_blocks(text) for line in block.splitlines())
    yield from (Command(page, "inline", line) for line in in_backticks(text))


def help_of(*words: str) -> str:
    """The help of `spki-cert`, or of one of its commands, without line breaks in sentences."""
    settings = {"PATH": os.environ["PATH"], "COLUMNS": "500", "LANG": "C.UTF-8"}
    return subprocess.run([sys.executable, SPKI_CERT, *words, "--help"], env=settings, stdout=subprocess.PIPE, text=True, check=True).stdout


def commands_of_help() -> Iterator[Command]:
    """The examples in the help of `spki-cert` and of its commands, but those of `key new`, which asks for a passphrase."""
    whole = help_of()
    for words in [[], *([word] for word in re.findall(r"^ {4}([a-z]+) {2,}", whole, re.MULTILINE))]:
        yield from (Command("help", "help", line) for line in EXAMPLE.findall(help_of(*words) if words else whole))


def all_commands() -> list[Command]:
    """The commands of all pages and of the help."""
    return [*itertools.chain.from_iterable(map(commands_of, pages())), *commands_of_help()]


def covers(row: tuple[str, str, str], command: Command) -> bool:
    """Whether a row of `NOT_RUN` names a command."""
    page, pattern, _ = row
    return fnmatch(command.page, page) and re.fullmatch(pattern, command.line) is not None


def is_covered(command: Command) -> bool:
    """Whether a test runs a command, or the list of those that are not run has it."""
    return any((command.page, command.kind) == (run.page, run.kind) for run in RUN) or any(covers(row, command) for row in NOT_RUN)


def uncovered(commands: Iterable[Command]) -> list[str]:
    """A line about each command that neither RUN nor NOT_RUN covers."""
    return [f"{command.page}, {command.kind}: {command.line}" for command in commands if not is_covered(command)]
