"""Servers of PostgreSQL in temporary folders, for the tests and benches of stores: also replicas, and servers that can lose network or disk space."""
from __future__ import annotations

import contextlib
import glob
import os
import shutil
import signal
import subprocess
import sys
import tempfile
from collections.abc import Iterator
from typing import Any

from harness import needs, networks
from harness.support import TOP, waits_for

# (where another Python than Debian's is the first in the path, it does not look for Debian's modules)
sys.path[1:1] = [os.path.join(TOP, "apps", "spki-store"), os.path.join(TOP, "bindings", "python")]
sys.path.append(needs.DEBIAN)

# What a server with a store needs.
NEEDED = (needs.INITDB, f"{needs.DEBIAN}/psycopg")
# How long a program that `Server.run` runs may take, as one that makes the files of a server or of a replica.
SECONDS = 600
# The settings of each server: no address but its socket, no wait for the disk, and room for connections, replicas and the log that these lack.
SETTINGS = {"listen_addresses": "", "fsync": "off", "max_connections": "100", "wal_keep_size": "256MB", "hot_standby": "on", "max_wal_senders": "8"}


def program(name: str) -> str:
    """The path of a program of PostgreSQL, which Debian does not have in PATH: of the version that is last by name. Raises IndexError without one."""
    return sorted(glob.glob(f"/usr/lib/postgresql/*/bin/{name}"))[-1]


def mount(folder: str, mib: int) -> None:
    """Makes a folder a file system of its own, of so many MiB in memory, which a test can fill. Only root can."""
    subprocess.run(["mount", "-t", "tmpfs", "-o", f"size={mib}m", "tmpfs", folder], check=True)


def unmount(folder: str) -> None:
    """Waits until no process uses the file system of a folder, and unmounts it. Raises AssertionError after 600 seconds."""
    waits_for(f"nothing uses {folder}", lambda: subprocess.run(["umount", folder], stderr=subprocess.DEVNULL, check=False).returncode == 0)


# As whom a server is started: it refuses to run as root.
OWNER = ["setpriv", "--reuid=postgres", "--regid=postgres", "--clear-groups"]


class Server:
    """A server in a temporary folder, which trusts whoever reaches its socket there. It ends with its context. It may be `at` a node of a network,
    and then trusts the other nodes too, and on a disk of its own of `mib` MiB, if that is not 0. `settings` are those of PostgreSQL."""

    def __init__(self, at: networks.Node | None = None, mib: int = 0, **settings: str) -> None:
        self.folder = tempfile.mkdtemp(prefix="spki-pg-")
        self.at, self.mib = at, mib
        self.settings = {**SETTINGS, **settings}
        if at:
            self.settings["listen_addresses"] = at.address
        self.process: subprocess.Popen[Any] | None = None
        self.data = os.path.join(self.folder, "data")
        if mib:
            mount(self.folder, mib)
        if os.geteuid() == 0:
            shutil.chown(self.folder, "postgres", "postgres")
        os.chmod(self.folder, 0o755)  # (so that clients of other users reach its socket)

    def __enter__(self) -> Server:
        if not os.path.exists(self.data):  # (`replica` has copied the data of a replica already)
            self.run("initdb", "-D", self.data, "-U", "postgres", "-A", "trust", "-E", "UTF8", "--locale=C", "--no-sync")
            with open(os.path.join(self.data, "pg_hba.conf"), "a", encoding="utf-8") as file:
                file.write(f"host all,replication all {networks.ALL} trust\n")
        self.start()
        return self

    def __exit__(self, *fault: object) -> None:
        self.kill()
        if self.mib:
            unmount(self.folder)
        shutil.rmtree(self.folder)

    @property
    def words(self) -> list[str]:
        """The words before each command of the server: a command that runs it at its node, if it has one, and not as root."""
        return [*(self.at.words if self.at else []), *(OWNER if os.geteuid() == 0 else [])]

    @property
    def host(self) -> str:
        """The host, of libpq, by which other servers reach it: the address of its node, or the folder of its socket."""
        return self.at.address if self.at else self.folder

    @property
    def address(self) -> str:
        """The settings of libpq by which a client here reaches it."""
        return f"host={self.folder} user=postgres dbname=postgres"

    def run(self, name: str, *words: str) -> str:
        """Runs a program of PostgreSQL, and returns what it writes. Raises CalledProcessError if it fails, TimeoutExpired after SECONDS."""
        return subprocess.run([*self.words, program(name), *words], cwd=self.folder, check=True, stdout=subprocess.PIPE, stderr=subprocess.STDOUT,
                              text=True, timeout=SECONDS).stdout

    def start(self) -> None:
        """Starts the server, and waits until it answers. Raises AssertionError if it has ended, or does not answer after 600 seconds."""
        options = [word for name, value in self.settings.items() for word in ("-c", f"{name}={value}")]
        words = [*self.words, program("postgres"), "-D", self.data, "-k", self.folder, *options]
        with open(os.path.join(self.folder, "log"), "ab") as log:
            self.process = subprocess.Popen(words, cwd=self.folder, stdout=log, stderr=log)
        waits_for("the server answers", self.answers)

    def answers(self) -> bool:
        """Whether the server takes connections. Raises AssertionError if it has ended."""
        if self.process is not None and self.process.poll() is not None:
            raise AssertionError(f"the server ended with {self.process.returncode}: see {self.folder}/log")
        words = [program("pg_isready"), "-q", "-h", self.folder]
        return subprocess.run(words, stdout=subprocess.DEVNULL, stderr=subprocess.DEVNULL, check=False).returncode == 0

    def kill(self) -> None:
        """Ends the server at once, by SIGQUIT: so it finishes no statement, and closes no connection in good order."""
        if self.process is not None:
            self.process.send_signal(signal.SIGQUIT)
            self.process.wait()
            self.process = None

    def replica(self, at: networks.Node | None = None, mib: int = 0, **settings: str) -> Server:
        """A replica of this server, which is not started yet: at the node `at`, if any, on a disk of `mib` MiB, if that is not 0. It has the settings
        of this server, except for its address, if it has a node, and those that are given."""
        replica = Server(at, mib, **{**self.settings, **settings})
        replica.run("pg_basebackup", "-d", replica.source(self), "-D", replica.data, "-R", "-X", "stream", "-c", "fast", "--no-sync")
        return replica

    def source(self, primary: Server) -> str:
        """The settings of libpq by which this replica follows its primary. There the replica has the name of its folder."""
        return f"host={primary.host} user=postgres application_name={os.path.basename(self.folder)}"

    def promote(self) -> None:
        """Makes this replica a primary, and waits until it is. Raises CalledProcessError if it is not after the 60 seconds of `pg_ctl`."""
        self.run("pg_ctl", "promote", "-D", self.data, "-w")


@contextlib.contextmanager
def killed_at_end(process: subprocess.Popen[Any]) -> Iterator[subprocess.Popen[Any]]:
    """A context at whose end a process is killed. Yields the process."""
    try:
        yield process
    finally:
        process.kill()
        process.wait()
