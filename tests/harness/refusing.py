"""Runs a program under `refuse.c`, which refuses some requests for memory, reads and writes, or with an input or output that itself fails."""
import os
import resource
import signal
import subprocess
import tempfile
from dataclasses import dataclass, field, replace

from harness.support import TESTS

# A run takes at most so long, except one by `Program.run`, which refuse.c ends by SIGALRM after 30 seconds.
SECONDS = 600
# So many octets fit into a pipe.
PIPE = 65536
NAMES = ("memory", "read", "write")


@dataclass
class Ended:
    """How a run ended: its status (negative: the signal that ended it) and outputs. After `Program.run` also how many requests of each kind of NAMES
    it made (`asked`), how many of all were `refused`, and how many of those for memory came before the first read."""

    status: int
    out: bytes
    err: bytes
    asked: dict = field(default_factory=dict)
    refused: int = 0
    before_reads: int = 0

    @property
    def answer(self):
        """The status and both outputs."""
        return self.status, self.out, self.err

    def __str__(self):
        return f"status {self.status}, {self.out[:80]!r}, {self.err[:80]!r}"


def compiled(folder):
    """Compiles `refuse.c` into a folder. Returns the path of the library, which LD_PRELOAD puts before the libraries of a program."""
    library = os.path.join(folder, "refuse.so")
    source = os.path.join(TESTS, "programs", "refuse.c")
    subprocess.run(["cc", "-O1", "-Wall", "-shared", "-fPIC", "-o", library, source, "-ldl"], check=True)
    return library


def descriptor_of(text):
    """A descriptor from which a text, given as bytes, is read. The caller closes it. It is of a pipe if the text fits into one, so that writing does
    not wait for a reader, and otherwise of a file."""
    if len(text) <= PIPE:
        reader, writer = os.pipe()
        os.write(writer, text)
        os.close(writer)
        return reader
    with tempfile.NamedTemporaryFile() as file:
        file.write(text)
        file.flush()
        return os.open(file.name, os.O_RDONLY)


def wait_for_end(child, out=b""):
    """Waits for a run, a `subprocess.Popen`, and returns how it ended. It is killed after SECONDS. Its output is `out`, which was read already, and
    what its pipe still has, if it has one."""
    try:
        rest, err = child.communicate(timeout=SECONDS)
    except subprocess.TimeoutExpired:
        child.kill()
        rest, err = child.communicate()
    return Ended(child.returncode, out + (rest or b""), err)


def read_to_end(reader):
    """Reads a descriptor to its end and closes it. Returns the octets."""
    pieces = []
    while piece := os.read(reader, 1 << 20):
        pieces.append(piece)
    os.close(reader)
    return b"".join(pieces)


class Program:
    """A program, and the compiled `refuse.c` by whose path `run` preloads it. What runs a command to its end returns an `Ended`."""

    def __init__(self, path, library):
        self.path, self.library = path, library

    def run(self, command, text, before=(), **plan):
        """Runs a command on a text under refuse.c. The plan has the settings of refuse.c, in lower case: `memory=3` refuses the third request for
        memory, `memory="3.."` all from there on. `before` are the words of a program that starts the run, as valgrind."""
        environment = {"LD_PRELOAD": self.library, "REFUSE_IN": self.path, "PATH": os.environ["PATH"]}
        environment |= {f"REFUSE_{name.upper()}": str(value) for name, value in plan.items()}
        ends = [os.pipe() for _ in range(3)]  # (for both outputs, and on descriptor 3 for the report of refuse.c)
        places = [(descriptor_of(text), 0)] + [(writer, place) for place, (_, writer) in enumerate(ends, 1)]
        words = [*before, self.path, command]
        child = os.posix_spawnp(words[0], words, environment, file_actions=[(os.POSIX_SPAWN_DUP2, *place) for place in places])
        for end, _ in places:
            os.close(end)
        out, err, report = (read_to_end(reader) for reader, _ in ends)
        # (for each of NAMES how many requests there were and were refused, then those for memory before the first read; nothing if a signal ended it)
        *counts, before_reads = [int(word) for word in report.split()[:7]] or [0] * 7
        status = os.waitstatus_to_exitcode(os.waitpid(child, 0)[1])
        return Ended(status, out, err, dict(zip(NAMES, counts[::2])), sum(counts[1::2]), before_reads)

    def start(self, command, reader, writer, **settings):
        """Starts a command of the program, which reads from one descriptor and writes to another. Closes the first one here. `settings` are those of
        `subprocess.Popen`. Returns the process."""
        child = subprocess.Popen([self.path, command], stdin=reader, stdout=writer, stderr=subprocess.PIPE, **settings)
        os.close(reader)
        return child

    def limited(self, command, text, resource_number, most):
        """Runs a command with a resource, such as `resource.RLIMIT_AS`, limited to `most`, in the unit of setrlimit, and a file as its output."""
        with tempfile.TemporaryFile() as out:
            child = self.start(command, descriptor_of(text), out, preexec_fn=lambda: self.limit(resource_number, most))
            run = wait_for_end(child)
            out.seek(0)
            return replace(run, out=out.read())

    @staticmethod
    def limit(resource_number, most):
        """Limits a resource of this process. A write past the limit of a file's size is then an error: the signal that would end it is ignored."""
        signal.signal(signal.SIGXFSZ, signal.SIG_IGN)
        resource.setrlimit(resource_number, (most, most))

    def redirected(self, command, words):
        """Runs a command by the shell. `words` are the redirections behind the command, such as `>&-`. If none is of the input, that is empty."""
        shell = ["sh", "-c", f'exec "$0" "$1" {words}', self.path, command]
        return wait_for_end(subprocess.Popen(shell, stdin=subprocess.DEVNULL, stdout=subprocess.PIPE, stderr=subprocess.PIPE))

    def reader_gone(self, command, text, taken, dies):
        """Runs a command whose output is closed after `taken` octets, or at its end if there are fewer. `dies`: SIGPIPE, the signal of a closed pipe,
        ends it. Otherwise it is ignored there, as in this process, and the write is an error."""
        reader, writer = os.pipe()
        if taken == 0:
            os.close(reader)
        child = self.start(command, descriptor_of(text), writer, restore_signals=dies)
        os.close(writer)
        out = b""
        if taken:
            while len(out) < taken and (piece := os.read(reader, taken - len(out))):
                out += piece
            os.close(reader)
        return wait_for_end(child, out)

    def in_packets(self, command, text):
        """Runs a command that gets one octet at each read, from a pipe in which each octet is a packet. The text must fit into the pipe."""
        reader, writer = os.pipe2(os.O_DIRECT | os.O_CLOEXEC)
        child = self.start(command, reader, subprocess.PIPE)
        for place in range(len(text)):
            os.write(writer, text[place:place + 1])
        os.close(writer)
        return wait_for_end(child)

    def without_waiting(self, command, text):
        """Runs a command on a pipe that does not block: it writes to one that gets full, or if the text is empty reads from one without octets."""
        reader, writer = os.pipe()
        os.set_blocking(writer if text else reader, False)
        if text:
            child = self.start(command, descriptor_of(text), writer)
            os.close(writer)
            return replace(wait_for_end(child), out=read_to_end(reader))
        run = wait_for_end(self.start(command, reader, subprocess.PIPE))
        os.close(writer)
        return run
