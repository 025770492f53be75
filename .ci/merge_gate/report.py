"""What commands passed and failed, by their outputs."""
import re

# The last line of a command, behind which `rt ci` may have a remark; and its line on a wrong body that it cannot apply or read, and does not count.
LAST, BAD = re.compile(r"^(\d+) passed, (\d+) failed(?:$| \()"), re.compile(r"^rt: .*: BAD EDIT: ", re.MULTILINE)
# A line about what was not run, since a tool is missing: of `tests/run`, and of a bench.
LEFT_OUT = re.compile(r"^(?:skipped: (.*)|(.*) (?:is|are) left out)$", re.MULTILINE)


class Counts:
    """What passed, what failed, and what was left out because a tool is missing."""

    def __init__(self) -> None:
        """All counts are 0."""
        self.passed = self.failed = 0
        self.left_out: list[str] = []

    def add(self, is_passed: bool, line: str) -> None:
        """Counts one trial, and prints the line about it."""
        print(line, flush=True)
        self.passed += is_passed
        self.failed += not is_passed

    def add_log(self, output: str, status: int, has_counts: bool = True) -> None:
        """Counts what a command passed and failed, by the last line of its output, 'N passed, M failed', and keeps its lines of what it left out. It
        failed if its status is not 0, this line is missing or one is of BAD. If it may be missing (not `has_counts`), the status says then."""
        counts = LAST.match(output.rstrip("\n").rpartition("\n")[2])
        passed, failed = (int(counts[1]), int(counts[2])) if counts else (int(not has_counts and status == 0), int(has_counts))
        self.passed += passed
        self.failed += (failed or int(status != 0)) + len(BAD.findall(output))
        self.left_out += [tests or part for tests, part in LEFT_OUT.findall(output)]

    def end(self) -> int:
        """Prints what was left out and the last line. Returns the exit status: 1 if something failed, else 0."""
        print(*(f"skipped: {part}" for part in self.left_out), f"{self.passed} passed, {self.failed} failed", sep="\n", flush=True)
        return 1 if self.failed else 0
