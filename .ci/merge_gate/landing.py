"""The gate: what must pass before a change lands."""
import sys

from merge_gate import plan
from merge_gate.report import Counts
from merge_gate.run import run
from merge_gate.toolchain import remove_kept_libraries


def main() -> int:
    """Removes old libraries, then runs the parts of the gate up to the first in which something fails. Returns 1 if something fails, else 0."""
    counts = Counts()
    remove_kept_libraries()
    for minutes, words in plan.GATE:
        counts.add_log(*run(words, minutes))
        if counts.failed:
            print(f"the gate ends here, since `{' '.join(words)}` failed")
            break
    return counts.end()


if __name__ == "__main__":
    sys.exit(main())
