"""Shares of the processors: groups of Linux (cgroups, version 1) whose processes have so much of one processor together, and no more."""
import os
import secrets
import time

TOP = "/sys/fs/cgroup/cpu"
# The microseconds after which a share begins anew. A process that has used its share waits for the rest of them.
PERIOD = 10_000


class Share:
    """A group with a share of a processor: `cores` is 0.25 for a quarter. Its processes must have ended when its context ends."""

    def __init__(self, cores):
        """`cores` is the part of one processor. The group is not made yet; its name is that of no other."""
        self.path, self.cores = os.path.join(TOP, f"spki-{os.getpid()}-{secrets.token_hex(3)}"), cores

    def __enter__(self):
        """Makes the group. Raises OSError if it cannot be made, or its share not be set: then there is no group."""
        os.mkdir(self.path)
        try:
            self.write("cpu.cfs_period_us", PERIOD)
            self.write("cpu.cfs_quota_us", round(self.cores * PERIOD))
        except OSError:
            os.rmdir(self.path)
            raise
        return self

    def __exit__(self, *fault):
        """Removes the group. Raises OSError if that fails for 5 seconds, as while a process is in it."""
        # (the kernel may still count a process that has ended)
        for _ in range(100):
            try:
                return os.rmdir(self.path)
            except OSError:
                time.sleep(0.05)
        return os.rmdir(self.path)

    def write(self, name, value):
        """Writes a setting of the group."""
        with open(os.path.join(self.path, name), "w", encoding="ascii") as file:
            file.write(str(value))

    def take(self, process):
        """Puts a process, given by its number, and its threads into the group."""
        self.write("cgroup.procs", process)


def fault():
    """Why no shares can be made here, in words; None if they can."""
    try:
        with Share(0.5):
            return None
    except OSError as why:
        return f"{TOP}: {why.strerror}"
