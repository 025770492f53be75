"""Runs a command at the top of the repository, for no more than a bound of time."""
import signal
import subprocess
import sys
import tempfile
import time

from merge_gate.toolchain import TOP

SECONDS_BETWEEN, SECONDS_TO_END = 0.5, 20  # (between two looks at the output; from SIGTERM to SIGKILL)


def run(words: list[str], minutes: float) -> tuple[str, int]:
    """Runs a command, and prints what it writes on both outputs as it comes. One that takes more minutes than these is ended with its process group,
    and has failed: a line of `timeout` behind its output says so. It is ended too if SIGTERM, which raises SystemExit from here on, or SIGINT ends
    this process. Returns its whole output and its exit status, which is not 0 if it was ended."""
    signal.signal(signal.SIGTERM, lambda *_: sys.exit("ended by a signal"))
    bound = ["timeout", "--verbose", f"--kill-after={SECONDS_TO_END}", str(60 * minutes)]
    with tempfile.NamedTemporaryFile() as log, open(log.name, encoding="utf-8", errors="replace") as lines:
        process = subprocess.Popen([*bound, *words], cwd=TOP, stdin=subprocess.DEVNULL, stdout=log, stderr=subprocess.STDOUT)
        try:
            while process.poll() is None:
                time.sleep(SECONDS_BETWEEN)
                print(lines.read(), end="", flush=True)
        finally:
            process.terminate()
        print(lines.read(), end="", flush=True)
        lines.seek(0)
        return lines.read(), process.returncode
