"""Processes that answer: each job has a bound on its time, and a process that exceeds it is ended.

A text may be such that an explanation takes minutes. So every job runs in another process than the server. The parts of the answer that it
sent before it was ended are kept. A new job of a page ends the old one of the same kind, because only the newest answer is shown.
"""
import contextlib
import multiprocessing
import os
import resource
import signal
import threading
import time

from asking import JOBS
from engine import Failed, choose_engine

# The seconds that a job may take by default, the processes that answer at once at most, and the octets of memory that each may have.
SECONDS, MOST_WORKERS, MEMORY = 2, 6, 2 << 30
# The server ends a process that takes too long. One whose server is gone ends so many seconds later by itself.
GRACE = 3
TOO_LARGE = "The text is too large for this page."


def serve(pipe, wanted, seconds):
    """Runs in a process until `pipe`, a connection of multiprocessing, is closed: takes a job from it, its name in JOBS and the object that the page
    sent, and sends back the parts of its answer, which are dictionaries, then None. `wanted` is `library`, `program` or None, for `choose_engine`. If
    the text is too large or the program fails, the last part is a notice. A job that takes over `seconds` + GRACE ends the process."""
    # (so the programs that it runs can be ended with it, as a group, and ctrl-c in the terminal of the server does not reach them)
    os.setsid()
    signal.signal(signal.SIGINT, signal.SIG_IGN)
    engine = choose_engine(wanted)
    if engine.limits_memory:
        resource.setrlimit(resource.RLIMIT_AS, (MEMORY, MEMORY))
    while True:
        try:
            name, sent = pipe.recv()
        except EOFError:
            return
        signal.alarm(seconds + GRACE)
        try:
            for part in JOBS[name](engine, sent):
                pipe.send(part)
            pipe.send(None)
        except (RecursionError, MemoryError, Failed) as why:
            pipe.send({"notice": str(why) if isinstance(why, Failed) else TOO_LARGE})
            pipe.send(None)
        signal.alarm(0)


class Worker:
    """One process that runs `serve`, and the pipe to it."""

    def __init__(self, wanted, seconds):
        """Starts the process. The arguments are those of `serve`."""
        # (`spawn`, since a process that is forked from one with threads may hang)
        context = multiprocessing.get_context("spawn")
        self.pipe, far_end = context.Pipe()
        self.seconds = seconds
        # (`lock` guards `is_ended`: two threads may end a process)
        self.lock, self.is_ended = threading.Lock(), False
        self.process = context.Process(target=serve, args=(far_end, wanted, seconds), daemon=True)
        self.process.start()
        far_end.close()

    def answer(self, name, sent):
        """Sends a job, its name in JOBS and the object that the page sent, and waits for its answer, or for those parts that come within `seconds`.
        Returns them as one dictionary, and whether the process can be asked again. The field `notice` says what was left out, and why."""
        whole, ends = {}, time.monotonic() + self.seconds
        try:
            self.pipe.send((name, sent))
            while self.pipe.poll(max(0, ends - time.monotonic())):
                part = self.pipe.recv()
                if part is None:
                    return whole, True
                whole |= part
        except RecursionError:
            # (what the page sent is nested too deeply for the pipe, and nothing of it is sent)
            return {"notice": TOO_LARGE}, True
        except (EOFError, OSError):
            return whole | {"notice": "The answer was stopped."}, False
        # (an answer with the field `kind` has its decision)
        late = "The explanation" if "kind" in whole else "The answer"
        return whole | {"notice": f"{late} took longer than {self.seconds} seconds and was stopped. A shorter text takes less."}, False

    def end(self):
        """Ends the process and the programs that it runs, and waits for the process. Does nothing the second time, when another process may have its
        number."""
        with self.lock:
            if self.is_ended:
                return
            self.is_ended = True
            # (the group is not there yet, if the process has just been started; where it cannot be ended, the process alone is)
            with contextlib.suppress(ProcessLookupError, PermissionError):
                os.killpg(self.process.pid, signal.SIGKILL)
            self.process.kill()
            self.process.join()


class Workers:
    """All processes: those that wait for a job (`idle`), and by page and job those that have one (`busy`). `wanted` is `library`, `program` or None,
    for `choose_engine`, a job may take so many `seconds`, and about `spare` processes are kept waiting."""

    def __init__(self, wanted, seconds, spare=2):
        self.wanted, self.seconds, self.spare = wanted, seconds, spare
        # (`lock` guards `busy` and `idle`, and `room` has a place for each job that is under way)
        self.lock, self.room = threading.Lock(), threading.BoundedSemaphore(MOST_WORKERS)
        self.busy, self.idle = {}, [Worker(wanted, seconds) for _ in range(spare)]

    def answer(self, page, name, sent):
        """The answer to a job of a page, a dictionary. `page` is a name that the opened page has made up for itself, `name` that of the job, and
        `sent` the object that the page sent. Ends the job of the same name that the page has under way. Waits for a free process: if none is free
        within `seconds`, the answer is a notice."""
        with self.lock:
            replaced = self.busy.pop((page, name), None)
            if replaced is not None:
                replaced.end()
        if not self.room.acquire(timeout=self.seconds):
            return {"notice": "The page is busy with other questions. Change a letter to ask again."}
        try:
            return self.answer_by(self.take_worker(page, name), page, name, sent)
        finally:
            self.room.release()

    def take_worker(self, page, name):
        """A process for a job of a page, which is busy from now on."""
        with self.lock:
            worker = self.idle.pop() if self.idle else Worker(self.wanted, self.seconds)
            self.busy[page, name] = worker
        return worker

    def answer_by(self, worker, page, name, sent):
        """The answer of a process. Then the process is idle, or ended if there are enough idle ones, or if it cannot be asked again: then `refill`
        starts another one in its place."""
        whole, is_usable = worker.answer(name, sent)
        with self.lock:
            if self.busy.get((page, name)) is worker:
                del self.busy[page, name]
            # (a newer job of the page may have ended it just behind its answer)
            becomes_idle = is_usable and not worker.is_ended and len(self.idle) < self.spare
            if becomes_idle:
                self.idle.append(worker)
        if not becomes_idle:
            worker.end()
        if not is_usable:
            threading.Thread(target=self.refill, daemon=True).start()
        return whole

    def refill(self):
        """Starts a process ahead of the next job, in place of one that was ended, unless `spare` processes are idle."""
        with self.lock:
            if len(self.idle) < self.spare:
                self.idle.append(Worker(self.wanted, self.seconds))

    def end(self):
        """Ends all processes."""
        with self.lock:
            for worker in [*self.idle, *self.busy.values()]:
                worker.end()
