"""Runs the commands of pages and helps that no other test runs: harness/page_commands.py says which.

They run in or beside a copy of the repository with what is built at its place, an empty home, and no environment but HOME and PATH. In the long tests
each page of MACHINES runs on a machine of its own, a chroot that Debian's mmdebstrap makes (machines.py). It has the packages that the page names,
those of `Machine.packages`, and no other. The first command of README, which compiles the program, runs then in the repository itself."""
from __future__ import annotations

import os
import re
import shutil
import subprocess
import sys
import tempfile
import unittest
from collections.abc import Callable, Iterable
from typing import NamedTuple
from unittest import mock

from harness import built, machines, needs, page_commands
from harness.page_commands import NOT_RUN, Command, tracked
from harness.support import LIBRARY, PROGRAM, TOP, output_of, room_for, text_of
from suite import test_guide

SECONDS = 600
# What a script writes after each command, before its status; and a remark at the end of a command, which is what it must write.
END = "---- end of command, status"
STATUS = re.compile(END + r" (\d+)\n")
REMARK = re.compile(r" {2,}# (.*)$")
# Commands that end with another status than 0, because the answer is no or a refusal, or because `timeout` ends them.
STATUSES = {"crates/spki/out/spki explain < examples/signed/cases/too-wide.sexp": 1,
            "printf '4\"abc\"' | crates/spki/out/spki canonical                            # refused form Bad 5": 2,
            "timeout 2 ./service acl.sexp packages.example": 124}
# A command that serves until it is ended, and those that need proofs or a server.
SERVES = re.compile(r"\./service .*")
NOT_ON_MACHINES = re.compile(r".*archive\.py|examples/database/story\.py .*")
# Commands that run before those of a page, in the same folder: they make what the page presupposes in words.
KEYS = "for who in lead member robot alice bob; do spki-cert key new --no-passphrase $who; done\n"
BEFORE = {
    "docs/PEERS.md": KEYS, "help": KEYS + "spki-cert entry --to alice.pub --tag '(packages)' --propagate --acl acl.sexp\n"
    "spki-cert sign --by alice --to bob.pub --tag '(packages read)' --days 30 -o to-bob.sexp\nmkdir certificates && cp to-bob.sexp certificates\n"
    "spki-cert end --ended ended\n"}


def copy_files(folder: str, files: Iterable[str]) -> None:
    """Copies files of the repository, by their paths from its top, to the same paths in a folder."""
    for path in files:
        os.makedirs(os.path.dirname(os.path.join(folder, path)), exist_ok=True)
        shutil.copy(os.path.join(TOP, path), os.path.join(folder, path))


def put_built(folder: str) -> None:
    """Copies the program and the libraries into `folder`, a copy of the repository, to where the build (`rt run` and `archive.py`) leaves them."""
    for path, usual in ((built.program(), PROGRAM), (built.library(), LIBRARY), (built.shared(), LIBRARY.removesuffix(".a") + ".so")):
        place = os.path.join(folder, os.path.relpath(usual, TOP))
        os.makedirs(os.path.dirname(place), exist_ok=True)
        shutil.copy(path, place)


def script_of(lines: Iterable[str]) -> str:
    """A script of commands, which writes END and its status after each."""
    return "".join(f"{line}\nstatus=$?; echo; echo '{END}' $status\n" for line in lines)


def faults_in(lines: list[str], output: str) -> list[str]:
    """A text for each command whose status is not that of STATUSES, by default 0, or that wrote something else than the remark at its end. `lines`
    are the commands, and `output` is what `script_of(lines)` wrote. A command that was not reached has the status -1."""
    parts = STATUS.split(output)
    answers = list(zip(parts[::2], map(int, parts[1::2])))
    faults = []
    for number, line in enumerate(lines):
        answer, status = answers[number] if number < len(answers) else (parts[-1], -1)
        remark = REMARK.search(line)
        if status != STATUSES.get(line, 0) or (remark and remark[1] != answer.strip()):
            faults.append(f"$ {line}\nended with {status}, and wrote\n{answer}")
    return faults


# ---- the commands that no other test runs


@needs.needs("import cryptography", "ssh-keygen", "openssl/evp.h", "dot", *needs.LIBRARY)
class InACopy(built.OfLibrary):
    """Commands in or beside a copy of the parts of the repository that they need, with an empty home."""

    room: str

    @classmethod
    def setUpClass(cls) -> None:
        super().setUpClass()
        cls.room = room_for(cls)
        clone, folders = os.path.join(cls.room, "clone"), ("apps", "bindings/python", "examples", "crates/spki_c")
        copy_files(clone, (path for path in tracked() if path.startswith(folders)))
        put_built(clone)

    def output(self, folder: str, script: str) -> str:
        """Runs a script in a folder, with an empty home. Returns what it writes."""
        home = tempfile.mkdtemp(dir=self.room)
        folders = [os.path.dirname(sys.executable), os.path.join(self.room, "clone", "apps", "spki-cert"), "/usr/bin", "/bin"]
        return output_of("sh", text=script, cwd=folder, env={"HOME": home, "PATH": ":".join(folders)}, seconds=SECONDS)[1]

    def check_lines(self, folder: str, page: str, lines: list[str]) -> None:
        """Commands of a page must end with status 0, or that of STATUSES, and write what their remarks say. They run in a folder, after those that
        BEFORE has for the page. What these write precedes the first END, and is not looked at."""
        output = self.output(folder, BEFORE.get(page, "") + f"echo '{END}' 0\n" + script_of(lines))
        self.assertEqual(faults_in(lines, STATUS.split(output, maxsplit=1)[-1]), [])

    def test_examples(self) -> None:
        """The commands of examples/README.md that NOT_RUN does not leave out, each block in a shell of its own."""
        for block in page_commands.indented_blocks(text_of("examples/README.md")):
            commands = [Command("examples/README.md", "indented", line) for line in block.splitlines()]
            lines = [command.line for command in commands if not any(page_commands.covers(row, command) for row in NOT_RUN)]
            with self.subTest(block):
                self.check_lines(os.path.join(self.room, "clone"), "examples/README.md", lines)

    def test_peers(self) -> None:
        """The commands of docs/PEERS.md, in one shell."""
        lines = [line for block in page_commands.indented_blocks(text_of("docs/PEERS.md")) for line in block.splitlines()]
        self.check_lines(tempfile.mkdtemp(dir=self.room), "docs/PEERS.md", lines)

    def test_help(self) -> None:
        """Each example of the help of `spki-cert` ends with status 0, in a folder of its own that has what BEFORE makes, with a key of OpenSSH in
        ~/.ssh. The file that it writes by `-o`, or by `--acl` of `entry`, is removed first, so that it is made anew."""
        inputs = os.path.join(self.room, "inputs")
        os.mkdir(inputs)
        # (no command: this makes only what BEFORE makes)
        self.check_lines(inputs, "help", lines=[])
        for number, line in enumerate(command.line for command in page_commands.commands_of_help()):
            with self.subTest(line):
                folder, written = os.path.join(self.room, f"help-{number}"), re.search(r" (?:-o|entry .* --acl) (\S+)", line)
                shutil.copytree(inputs, folder)
                before = "mkdir ~/.ssh; ssh-keygen -q -t ed25519 -N '' -f ~/.ssh/id_ed25519" + (f"; rm -f {written[1]}" if written else "")
                self.check_lines(folder, page="", lines=[before, line])  # (without BEFORE, which `inputs` had)


# ---- on machines that have what a page names


class Machine(NamedTuple):
    """A page whose commands run on a machine of its own; the commands that root (`by_root`) and the user (`before`) run there first, as the page
    presupposes; and the Debian packages that the machine has beside those that the page names."""

    page: str
    by_root: str = ""
    before: str = ""
    packages: tuple[str, ...] = ()
    blocks: str = ""
    """How its indented blocks are run: each in the clone (`apart`), where the one before it ends (`on`), or not at all."""


INSTALL = "./install.sh /usr/local crates/spki/out/spki crates/spki_c/out/libspki_c.a > /dev/null\n"
MACHINES = [
    Machine("README.md", INSTALL), Machine("docs/spki.1", INSTALL), Machine("docs/spki-cert.1", INSTALL, packages=("python3-cryptography",)),
    Machine("docs/GUIDE.md", INSTALL, "export PYTHONPATH=~/clone/bindings/python PATH=$PATH:~/bin\nmkdir ~/bin && ln -s ~/clone/apps/locate ~/bin\n"),
    Machine("docs/CERTIFICATES.md", blocks="on"), Machine("examples/README.md", INSTALL, "mkdir ~/clone/FOLDER\n", blocks="apart"),
    Machine("apps/spki-authd/README.md")]
# The commands that root runs, and the others in backticks that run in the clone.
OF_ROOT = re.compile(r"(useradd|usermod|install -d) .*|\(cd apps/spki-authd && go build .*")
IN_CLONE = re.compile(r"python3 -m venv .*")


def put_key(room: str) -> str:
    """Makes a key of OpenSSH in a folder. Returns the commands that write it into ~/.ssh."""
    path = os.path.join(room, "id_ed25519")
    subprocess.run(["ssh-keygen", "-q", "-t", "ed25519", "-N", "", "-f", path], check=True)
    lines = ["mkdir -m 700 ~/.ssh", "umask 077"]
    for name in ("id_ed25519", "id_ed25519.pub"):
        lines.append(f"cat > ~/.ssh/{name} << 'end'\n{text_of(os.path.join(room, name))}end")
    return "\n".join(lines) + "\n"


@needs.needs("mmdebstrap", "ssh-keygen", *needs.LIBRARY)
class OnMachines(built.OfLibrary):
    """The commands of a page where there is what the page names, and nothing else."""

    def output(self, machine: Machine, by_root: str, script: str) -> str:
        """Runs `by_root`, a script of root, and then `script`, one of the user, on a new machine for a page. Returns what both write. The page's
        name, and END with the status 0, precede the output of the user's commands."""
        packages = sorted({*machines.packages_of(text_of(machine.page)), *machine.packages})
        with tempfile.TemporaryDirectory() as room:
            clone = os.path.join(room, "clone")
            copy_files(clone, tracked())
            put_built(clone)
            before = put_key(room) if "~/.ssh" in script else ""
            return machines.output_on_machine(packages, clone, machine.by_root + by_root,
                                              f"echo {machine.page}\n{machine.before}{before}echo '{END}' 0\n{script}")

    def check_page(self, machine: Machine) -> None:
        """The commands of a page must write what it says, or end with status 0 or by STATUSES if it says nothing. Those in blocks `console` show what
        they write. Others are in indented blocks, if `Machine.blocks` is set, but for NOT_ON_MACHINES; and in backticks, by OF_ROOT or IN_CLONE."""
        commands = list(page_commands.commands_of(machine.page))
        if any(command.kind == "console" for command in commands):
            steps = list((test_guide.steps_of_manual if machine.page.endswith(".1") else test_guide.steps_of_markdown)(text_of(machine.page)))
            output = STATUS.split(self.output(machine, "", "".join(test_guide.script(steps))), maxsplit=1)[-1]
            answers = [each.strip("\n") for each in output.split(f"{test_guide.END}\n")]
            self.assertEqual(answers, [*(answer.strip("\n") for kind, _, answer in steps if kind == "command"), ""])
        inline = [command.line for command in commands if command.kind == "inline"]
        by_root = [line for line in inline if OF_ROOT.fullmatch(line)]
        blocks = [block.splitlines() for block in page_commands.indented_blocks(text_of(machine.page))] if machine.blocks else []
        runnable = [[line for line in lines if not NOT_ON_MACHINES.fullmatch(line)] for lines in blocks]
        by_user = [[f"timeout 2 {line}" if SERVES.fullmatch(line) else line for line in lines] for lines in runnable]
        by_user += [[line] for line in inline if IN_CLONE.fullmatch(line)]
        if by_root or by_user:
            self.check_statuses(machine, by_root, by_user)

    def check_statuses(self, machine: Machine, by_root: list[str], by_user: list[list[str]]) -> None:
        """Commands of root, in one shell, then blocks of the user's, where `Machine.blocks` says, must end with status 0 or that of STATUSES. In the
        output the page's name divides the two."""
        begin = "" if machine.blocks == "on" else "cd ~/clone\n"
        script = "cd ~/clone\n" + "".join(begin + script_of(lines) for lines in by_user)
        output = self.output(machine, f"echo '{END}' 0\n" + script_of(by_root), script)
        of_root, of_user = STATUS.split(output, maxsplit=1)[-1].split(machine.page + "\n", maxsplit=1)
        self.assertEqual(faults_in(by_root, of_root), [])
        self.assertEqual(faults_in([line for lines in by_user for line in lines], STATUS.split(of_user, maxsplit=1)[-1]), [])


def machine_test(machine: Machine) -> Callable[[OnMachines], None]:
    """A test method for a page, which is added to OnMachines for the long tests."""
    return lambda self: self.check_page(machine)


class NoMachine(unittest.TestCase):
    def test_log_of_failed_mmdebstrap(self) -> None:
        """If mmdebstrap fails before it runs a script, its log is in the exception."""
        with mock.patch.object(machines, "output_of", return_value=(1, "no server")), self.assertRaises(subprocess.CalledProcessError) as caught:
            machines.output_on_machine([], clone="", by_root="", script="")
        self.assertIn("no server", caught.exception.output)


class OfToolchain(unittest.TestCase):
    """What the toolchain does that a page begins with."""

    def first_command(self) -> None:
        """The first command of README compiles the program, in over a minute, and prints the answer that the page says. It is a long test."""
        line = next(command.line for command in page_commands.commands_of("README.md") if command.kind == "indented")
        status, output = output_of("sh", "-c", line, cwd=TOP, seconds=3 * SECONDS)
        self.assertEqual((status, "yes entry 1" in output.splitlines()), (0, True), output)
        self.assertIn("prints `yes entry 1`", text_of("README.md"))


if built.IS_LONG:
    for each in MACHINES:
        setattr(OnMachines, f"test_machine:{each.page}", machine_test(each))
    setattr(OfToolchain, "test_first_command", OfToolchain.first_command)
