"""The parts of the gate (.ci/run and .ci/deep): what bash runs of its file, which functions a wrong body changes, which output of a check refuses it,
which contracts the deep run has tried, how logs are counted, what the gate runs, that all that a command writes is printed, and that one which takes
too long is ended. A wrong body is an edit of a function that its contract must refuse. Texts of the toolchain are those that it printed in runs."""
import contextlib
import io
import os
import pathlib
import subprocess
import sys
import tempfile
import unittest
from unittest import mock

from harness.support import TESTS, TOP, loaded, text_of, waits_for
from merge_gate import bodies, deep, landing, plan, records
from merge_gate.report import Counts
from merge_gate.run import run

SOURCE = """use std::alloc::Global;
const MOST: usize = 3;

/// Whether it is.
#[cycle(same)]
fn is_it(n: usize) -> bool
    ensures { result }
{
    n < MOST
}

impl<'a> Display for Name<'a> {
    ghost view = { λ n. n.octets };
    /// Its length.
    pub(crate) fn length(&self) -> usize {
        self.octets.len()
    }
}
"""


def functions_changed(old: str, new: str, file: str = "src/names.rt") -> set[str | None]:
    """The functions of SOURCE that an edit changes, which puts `new` in the place of `old`. What is in no function counts as None."""
    assert SOURCE.count(old) == 1
    return bodies.functions_changed(file, SOURCE, SOURCE.replace(old, new))


def is_gone(process: str) -> bool:
    """Whether a process, by its number as a text, has ended. A zombie (state Z), which nobody has waited for yet, has ended too."""
    with contextlib.suppress(FileNotFoundError, ProcessLookupError):
        return ") Z " in text_of(f"/proc/{process}/stat")
    return True


class Bodies(unittest.TestCase):
    """The functions that wrong bodies change."""

    def test_path_of_a_function(self) -> None:
        """The module, which is the name of the file, precedes the name of the function, except in lib.rt."""
        self.assertEqual(functions_changed("n < MOST", "n <= MOST"), {"names::is_it"})
        self.assertEqual(functions_changed("n < MOST", "n <= MOST", "src/lib.rt"), {"is_it"})

    def test_path_of_a_method(self) -> None:
        """The toolchain's name for a method of `impl Display for Name` begins with NameDisplay."""
        self.assertEqual(functions_changed("self.octets.len()", "0"), {"NameDisplay::length"})

    def test_change_outside_of_functions(self) -> None:
        self.assertEqual(functions_changed("usize = 3", "usize = 4"), {None})

    def test_batches(self) -> None:
        """Wrong bodies of functions with different names are tried by one check, of the text with all of them: here 0 and 1. Body 2 changes the
        function of body 0, so it is in the second batch. Body 3 changes no function, and is in none."""
        with tempfile.TemporaryDirectory() as folder:
            os.mkdir(os.path.join(folder, "src"))
            pathlib.Path(folder, "src/names.rt").write_text(SOURCE, encoding="utf-8")
            pairs = [("n < MOST", "n <= MOST"), ("self.octets.len()", "0"), ("n < MOST", "n == MOST"), ("= 3", "= 4")]
            texts = [{"src/names.rt": SOURCE.replace(old, new)} for old, new in pairs]
            all_bodies = [bodies.Body(str(place), text, bodies.functions_of(folder, text)) for place, text in enumerate(texts)]
            first, second = bodies.batches(all_bodies)
            self.assertEqual([body.path for body in first + second], ["0", "1", "2"])
            self.assertEqual(bodies.merged(folder, first), {"src/names.rt": texts[0]["src/names.rt"].replace("self.octets.len()", "0")})


class Records(unittest.TestCase):
    """What the deep run has recorded."""

    def test_what_a_record_covers(self) -> None:
        """The checksum of a record covers heads of functions with their contracts, and ghost members, such as views, but no other body and no remark:
        `heads` finds these in a text by the patterns of `records`."""
        def heads(text: str) -> list[str]:
            return [found[0] for pattern in (records.HEAD, records.GHOST) for found in pattern.finditer(records.REMARK.sub("", text))]

        self.assertEqual(heads(SOURCE), ["fn is_it(n: usize) -> bool\n    ensures { result }\n{", "    pub(crate) fn length(&self) -> usize {",
                                         "    ghost view = { λ n. n.octets };"])
        self.assertEqual(heads(SOURCE.replace("n < MOST", "true").replace("/// Its", "/// The")), heads(SOURCE))
        self.assertNotEqual(heads(SOURCE.replace("{ result }", "{ ⊤ }")), heads(SOURCE))


class Verdicts(unittest.TestCase):
    """Which output of a check refuses a wrong body."""

    def is_refused(self, *lines: str) -> bool:
        """Whether a check that writes these lines refuses a wrong body of the function names::tried in the crate `low`."""
        return bodies.refuses("low", "names::tried", "\n".join(lines))

    def test_refused(self) -> None:
        """A wrong body is refused if the line of the function that it changes says `not proved`, also if a goal of its proof file is open."""
        self.assertTrue(self.is_refused("fn low::names::other: proved", "fn low::names::tried: not proved"))
        self.assertTrue(self.is_refused("./proofs/names/tried/Answers.antt:10:29: error: `returns-then`: `search`: no proof of `⊥`",
                                        "fn low::names::tried: not proved"))

    def test_another_function(self) -> None:
        """It is not refused if only another function is not proved, even if its own proof needs that one."""
        self.assertFalse(self.is_refused("fn low::names::tried: proved", "fn low::names::other: not proved"))
        self.assertFalse(self.is_refused("fn low::names::tried: needs other, which is not proved"))

    def test_names_gone(self) -> None:
        """A proof that only names what the wrong body took away is no refusal. A second fault in the proof is one."""
        gone = "./proofs/names/tried/Answers.antt:4:1: error: `c` has no field `push-2`"
        self.assertFalse(self.is_refused(gone, "fn low::names::tried: not proved"))
        self.assertTrue(self.is_refused(gone, gone.replace("`c` has no field `push-2`", "`search`: no proof"), "fn low::names::tried: not proved"))


class Script(unittest.TestCase):
    """The file that CI runs."""

    def test_bash(self) -> None:
        """Bash runs the gate's module, and no command that a remark has in backticks. PATH has only stand-ins: for python3 one that prints its folder
        and its words, and one for dirname."""
        with tempfile.TemporaryDirectory() as folder:
            for name, line in ("python3", 'echo "$PWD" "$@"'), ("dirname", 'echo "${1%/*}"'):
                pathlib.Path(folder, name).write_text(f"#!/bin/sh\n{line}\n")
                os.chmod(os.path.join(folder, name), 0o755)
            done = subprocess.run(["/bin/bash", ".ci/run"], cwd=TOP, env={"PATH": folder}, capture_output=True, text=True)
        self.assertEqual((done.stdout, done.stderr, done.returncode), (f"{TOP}/.ci -m merge_gate.landing\n", "", 0))


class CommandLines(unittest.TestCase):
    """Command lines of the tests and of the deep run. One by which nothing would be tried must not pass."""

    def test_no_test(self) -> None:
        """A run fails if no test has the given word in its name, or if it may use no process (`--jobs 0`)."""
        for name, *words in ("run", "--pages", "-k", "no such test"), ("run", "--as-built", "--jobs", "0"), ("differential.py", "--jobs", "0"):
            self.assertNotEqual(subprocess.run([os.path.join(TESTS, name), *words, "--cases", "9"], capture_output=True).returncode, 0, words)

    def test_command_of_a_failed_test(self) -> None:
        """The command that `tests/run` prints with a failed test, to run it alone, has `--quick` and the number of cases if the run had them."""
        script = loaded(os.path.join(TESTS, "run"))
        for words in ("tests/run", "tests/run --quick --cases 9"):
            with mock.patch.object(sys, "argv", words.split()):
                self.assertEqual(script.command_of(script.arguments()), words)

    def test_no_wrong_body(self) -> None:
        """With `--alone` and no name the deep run fails. Where `rt ci` fails it tries no wrong body: in a crate without proof each is refused."""
        with contextlib.redirect_stderr(io.StringIO()), mock.patch.object(sys, "argv", ["deep", "--alone"]):
            self.assertRaises(SystemExit, deep.main, "")
        with contextlib.redirect_stdout(io.StringIO()), mock.patch.object(deep, "run", lambda *_: ("0 passed, 1 failed\n", 1)), \
                mock.patch.object(deep.toolchain, "remove_kept_libraries"), mock.patch.object(deep, "try_bodies") as tries:
            deep.try_all(["spki_words"], Counts())
        self.assertFalse(tries.called)


class Logs(unittest.TestCase):
    """How logs are counted."""

    def counts(self, output: str, status: int, has_counts: bool = True) -> tuple[int, int, list[str]]:
        """The tests that passed, those that failed, and what was left out, by the output and the status of a command. Without `has_counts` it is one
        that never writes a line of counts."""
        counts = Counts()
        counts.add_log(output, status, has_counts)
        return counts.passed, counts.failed, counts.left_out

    def test_counts(self) -> None:
        """The counts are those of the last line. Without such a line, or with a status other than 0 and no failure, one has failed. So has each wrong
        body that `rt ci` cannot read. A command that never writes counts is one test."""
        for output, status, wanted in [
                ("a\n3 passed, 0 failed\n", 0, (3, 0)), ("3 passed, 2 failed", 1, (3, 2)), ("3 passed, 0 failed (ok)\n", 0, (3, 0)),
                ("rt: must-fail low/x.edit: BAD EDIT: it did not reach the prover; ..\nrt: ok\n3 passed, 0 failed\n", 0, (3, 1)),
                ("3 passed, 0 failed\n", 1, (3, 1)), ("3 passed, 0 failed\nand more\n", 0, (0, 1)), ("", 0, (0, 1)), ("", -9, (0, 1))]:
            self.assertEqual(self.counts(output, status)[:2], wanted, output)
        self.assertEqual([self.counts("none", status, has_counts=False)[:2] for status in (0, 1)], [(1, 0), (0, 1)])

    def test_what_is_left_out(self) -> None:
        """Lines `skipped: WHAT` and `WHAT are left out` say what was left out."""
        output = "skipped: the page (Debian: chromium)\nthe pages in Chromium are left out\n1 passed, 0 failed\n"
        self.assertEqual(self.counts(output, 0)[2], ["the page (Debian: chromium)", "the pages in Chromium"])


class Commands(unittest.TestCase):
    """What `merge_gate.run` and the gate do with commands."""

    def run_bounded(self, *words: str, minutes: float = 1.0) -> tuple[str, int]:
        """Runs a command, which is ended after so many minutes. Returns what it writes, which must also be what is printed, and its status."""
        with contextlib.redirect_stdout(io.StringIO()) as printed:
            output, status = run([*words], minutes)
        self.assertEqual(printed.getvalue(), output)
        return output, status

    def test_both_outputs_and_status(self) -> None:
        self.assertEqual(self.run_bounded("sh", "-c", "echo one; sleep 0.1; echo two >&2; exit 3"), ("one\ntwo\n", 3))

    def test_ended_by_time(self) -> None:
        """A command that takes too long has failed, and is ended with what it began."""
        output, status = self.run_bounded("sh", "-c", "sleep 99 & echo $!; wait", minutes=0.01)
        waits_for("what it began has ended", lambda: is_gone(output.split("\n")[0]))
        self.assertNotEqual(status, 0)

    def test_ended_by_signal(self) -> None:
        """A signal that ends the gate ends the command that it runs."""
        begun = ["sh", "-c", "echo $$; exec sleep 99"]
        gate = subprocess.Popen([sys.executable, "-c", f"from merge_gate.run import run; run({begun}, 1)"], cwd=os.path.join(TOP, ".ci"),
                                stdout=subprocess.PIPE, stderr=subprocess.DEVNULL, text=True)
        with gate:
            assert gate.stdout is not None
            process = gate.stdout.readline().strip()
            gate.terminate()
            waits_for("the command has ended", lambda: is_gone(process))
        self.assertNotEqual(gate.returncode, 0)

    def test_gate(self) -> None:
        """The gate runs its parts, minutes and a command each, up to the first whose last line counts a failure, and adds up what they count."""
        parts = [(1, ["echo", line]) for line in ("2 passed, 0 failed", "1 passed, 3 failed", "4 passed, 0 failed")]
        with contextlib.redirect_stdout(io.StringIO()) as printed, mock.patch.object(plan, "GATE", parts), \
                mock.patch.object(landing, "remove_kept_libraries"):
            self.assertEqual(landing.main(), 1)
        self.assertEqual(printed.getvalue().split("\n")[-2], "3 passed, 3 failed")
