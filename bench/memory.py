"""The processor time that a run of a program takes, and the most memory. Other programs on the machine disturb processor time less than
the time on the clock."""
import resource
import subprocess
import sys
import tempfile

# A process counts the memory that it had before it became the program, so a small one starts it. It writes the program's status, processor seconds
# and KiB. The status is negative for a signal, and 127 if the program cannot be executed.
STARTER = """
import os, sys
child = os.fork()
if child == 0:
    try:
        os.dup2(os.open(sys.argv[3], os.O_RDONLY), 0)
        os.dup2(os.open(os.devnull, os.O_WRONLY), 1)
        os.execv(sys.argv[1], sys.argv[1:3])
    finally:
        os._exit(127)
_, status, used = os.wait4(child, 0)
print(os.waitstatus_to_exitcode(status), used.ru_utime + used.ru_stime, used.ru_maxrss)
"""


def processor_seconds(words, **settings):
    """Runs a program by `subprocess.run`, with these settings. Returns how it ended, and its processor time in seconds. No other child of this
    process may end meanwhile."""
    before = resource.getrusage(resource.RUSAGE_CHILDREN)
    done = subprocess.run(words, **settings)
    after = resource.getrusage(resource.RUSAGE_CHILDREN)
    return done, after.ru_utime + after.ru_stime - before.ru_utime - before.ru_stime


def used(program, command, text):
    """The processor seconds and the most MiB of one run of a command of the program on a text. Raises ChildProcessError unless the program ends with
    a status from 0 to 2: a run that did nothing takes little. Status 2 is a refusal."""
    with tempfile.NamedTemporaryFile() as file:
        file.write(text)
        file.flush()
        words = [sys.executable, "-I", "-S", "-c", STARTER, program, command, file.name]
        status, seconds, kibibytes = subprocess.run(words, capture_output=True, check=True).stdout.split()
    if int(status) not in (0, 1, 2):
        raise ChildProcessError(f"{program} {command} ended with status {int(status)}")
    return float(seconds), int(kibibytes) / 1024


def peak(program, command, text):
    """The most memory of one run, in MiB. Raises ChildProcessError as `used` does."""
    return used(program, command, text)[1]
