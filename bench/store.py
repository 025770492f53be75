#!/usr/bin/env python3
"""Measures decisions by a store in PostgreSQL with so many entries, and ends with another status where a limit is passed.

Of 100 entries 95 are each for a key of its own. Five are for names under the keys of groups: each group has 50 of them. The server (`server`) is
started in a temporary folder, with a quarter of a GiB of its own memory. `count` is a number of entries, and `library` the path of the library for C.

- import: entries a second by `spki-store import`, from a file; the octets of the tables.
- hit, miss: the median and the 99th percentile of a decision, in µs, where its rows are kept, and where they are read. The library's part is in it,
  HTTP is not.
- cold: the same where PostgreSQL was started again, and the system was told to forget its files.
- load: decisions a second of two goroutines for each processor, nine of ten by rows that are kept.
- served: the same over HTTP, by 1, 2 and 4 daemons on this machine, each with 16 connections and a TLS certificate in each request: as many as they
  answer, and 10,000 a second of each. Decisions a second, median and 99th percentile in µs, the processor time of a decision in daemons, PostgreSQL
  and clients in µs, the octets that a daemon reads and writes for one, the processors that were busy, and the memory of a daemon and of PostgreSQL.
  Those who ask, 20,200 people, have entries in the store meanwhile.
- add: single entries a second, each in a transaction.

The medians of the last number of --entries must be at most 1.5 times those of the first for misses, and 3 times when cold.

One daemon and those who ask it can use all processors of a small machine, so that more daemons add nothing there. --share 0.25 measures what they add
where there are processors for them: each daemon has a quarter of one and no more (by a cgroup), and all the rest is for PostgreSQL and the clients.
Nothing else is measured then. The daemons must use at least 0.9 of their shares, and they, PostgreSQL and the clients together at most 0.9 of the
processors: otherwise something else was the limit. In each of --times runs four daemons must answer at least 3 times as many as one.

Build the library first. Needs PostgreSQL, psycopg, Go and its driver (Debian: postgresql, python3-psycopg, golang-go, golang-github-lib-pq-dev).
Usage: bench/store.py [--entries N ..] [--share PROCESSORS [--times N]] [LIBRARY]
"""
import argparse
import contextlib
import json
import os
import re
import subprocess
import sys
import tempfile
import time

sys.path.append(os.path.join(os.path.dirname(os.path.abspath(__file__)), "..", "tests"))
from shared import LIBRARY, TOP, golang, servers  # noqa: E402

import shares  # noqa: E402

databases = servers()

SCHEMA = "spki"
# How many entries each group has, all for its name `members`.
GROUP = 50
# By what factor the medians may grow from the first number of entries to the last: of misses, and when cold.
MOST_GROWTH, MOST_COLD = 1.5, 3.0
# How many daemons are asked, how often a second each (0: as often as it answers), and for how many seconds.
DAEMONS, RATES, SECONDS = (1, 2, 4), (0, 10_000), 8
# Of daemons with a share of a processor: how much of it they use, how much of the machine all that is measured uses, and how much more the last of
# DAEMONS answer than one.
LEAST_USED, MOST_USED, LEAST_MORE = 0.9, 0.9, 3.0
DRIVER = "-modfile=postgres.mod", "-tags", "spki_postgres"
# A line that a test of spki-authd prints: the name of a figure, and the rest, which is words and numbers in turn.
FIGURE = re.compile(r"^figure (\w+) (.*)$", re.M)
SERVER = {"fsync": "on", "shared_buffers": "256MB", "max_wal_size": "4GB", "checkpoint_timeout": "30min"}


def key(number):
    """A key by its number."""
    return b"(10:public-key(4:test40:k%039d))" % number


def entries(count):
    """Entries for keys, and of 100 entries five for names of groups. The keys of entries are numbered from 0 without a gap, and those of groups from
    10 ** 9."""
    for place in range(count):
        if place % 20 == 19:
            group = key(10 ** 9 + place // 20 // GROUP)
            yield b"(5:entry(4:name%s7:members)(3:tag(5:files(1:*3:set4:read5:write)(1:*6:prefix5:/web/))))" % group
        else:
            yield b"(5:entry%s(9:propagate)(3:tag(5:files4:read(1:*6:prefix5:/web/))))" % key(place - place // 20)


def arguments():
    """The parsed command line: the numbers of `entries`, the `share` of a processor and the `times`, and the path of the `library`."""
    parser = argparse.ArgumentParser(description=__doc__, formatter_class=argparse.RawDescriptionHelpFormatter)
    parser.add_argument("--entries", type=int, nargs="+", default=[1_000, 1_000_000])
    parser.add_argument("--share", type=float, default=0.0, help="measure daemons that have so much of a processor each")
    parser.add_argument("--times", type=int, default=3, help="how often daemons with a share are measured")
    parser.add_argument("library", nargs="?", default=LIBRARY)
    return parser.parse_args()


def restart_cold(server):
    """Starts the server again, with none of its files in the memory of the system."""
    server.kill()
    for folder, _, files in os.walk(server.data):
        for name in files:
            with open(os.path.join(folder, name), "rb") as file:
                os.fsync(file.fileno())
                os.posix_fadvise(file.fileno(), 0, 0, os.POSIX_FADV_DONTNEED)
    server.start()


def figures_of_test(server, what, count, library, **more):
    """Runs a test of the daemon on a store of so many entries: `what` is single, load, cold or served, and `more` are further variables of its
    environment. Returns the lines that it prints, by their names. Ends the script if it fails."""
    test = "TestStoreServed" if what == "served" else "TestStoreFigures"
    # (of 20 entries 19 are for keys, and one is for a name)
    done = golang.go(golang.DAEMON, ["test", *DRIVER, "-count=1", "-run", test, "-v", "."], library, SPKI_STORE_HOST=server.folder,
                     SPKI_STORE_SCHEMA=SCHEMA, SPKI_STORE_KEYS=str(count - count // 20), SPKI_STORE_WHAT=what, **more)
    text = done.stdout.decode()
    if done.returncode:
        sys.exit(text + done.stderr.decode())
    return dict(FIGURE.findall(text))


def resident(process):
    """The memory in MiB of a process, given by its number. Memory that n processes share counts by its nth part."""
    with open(f"/proc/{process}/smaps_rollup", encoding="ascii") as file:
        return int(re.search(r"^Pss: +(\d+)", file.read(), re.M).group(1)) / 1024


def processes_of(parent):
    """The numbers of a process and of its children, by its number."""
    words = ["ps", "-o", "pid=", "--ppid", str(parent)]
    return [parent, *map(int, subprocess.run(words, stdout=subprocess.PIPE, text=True, check=False).stdout.split())]


def heartbeat(address, *before):
    """A context in which `spki-store beat` runs. `before` are words before the command, as those that run it at a node of a network."""
    words = [*before, os.path.join(TOP, "apps", "spki-store", "spki-store"), "--database", address, "--schema", SCHEMA, "beat"]
    return databases.killed_at_end(subprocess.Popen(words, stderr=subprocess.DEVNULL))


def start_daemon(program, server, folder, number, **more):
    """Starts a daemon with the store of a server, and waits, however long, for the first line that it writes: it listens then, unless the line, which
    is not looked at, says why it ends. Returns its process and the path of its socket. `number` distinguishes its files in `folder`, and `more` are
    further settings of its store. Ends the script if the daemon ends without a line."""
    rules = [{"prefix": "/", "methods": {"GET": "read"}, "request": ["files", "{method}", "{path}"]}]
    path, config = os.path.join(folder, f"daemon-{number}"), os.path.join(folder, f"config-{number}")
    with open(config, "w", encoding="utf-8") as file:
        json.dump({"listen": f"unix:{path}", "socket_mode": "0600", "server": "nginx", "log": f"{path}.log", "requests": rules,
                   "list": {"postgres": {"host": server.folder, "database": "postgres", "user": "postgres", "schema": SCHEMA, **more}}}, file)
    process = subprocess.Popen([program, "-config", config], stdout=subprocess.DEVNULL, stderr=subprocess.PIPE)
    if not process.stderr.readline():
        sys.exit(f"{program} ended with status {process.wait()} and said nothing")
    return process, path


def ask_by_people(server, library, count, program, number, rate, share=0.0):
    """Has people ask `number` daemons with a store of `count` entries. Returns the line about what these answer, and the MiB of one and of
    PostgreSQL. `rate` is the number of questions to each in a second, 0 for as many as it answers, and `share` the part of a processor that each
    has, 0 for no limit."""
    with removing_added_entries(server), contextlib.ExitStack() as running:
        daemons, sockets, folder = [], [], running.enter_context(tempfile.TemporaryDirectory())
        for place in range(number):
            cgroup = running.enter_context(shares.Share(share)) if share else None
            process, socket = start_daemon(program, server, folder, place)
            running.enter_context(databases.killed_at_end(process))
            daemons.append(process.pid)
            sockets.append(socket)
            if cgroup:
                cgroup.take(process.pid)
        lines = figures_of_test(
            server, "served", count, library, SPKI_STORE_SOCKETS=",".join(sockets), SPKI_STORE_DAEMONS=",".join(map(str, daemons)),
            SPKI_STORE_RATE=str(rate), SPKI_STORE_SERVER=str(server.process.pid), SPKI_STORE_SECONDS=str(SECONDS))
        return lines["served"], resident(daemons[0]), sum(map(resident, processes_of(server.process.pid)))


@contextlib.contextmanager
def removing_added_entries(server):
    """A context that removes the entries that are added within it, unless it ends by an exception, which ends the bench. Some must be there."""
    # (imported here, once `main` has set SPKI_LIBRARY)
    from spki_store_tool.tables import Store
    with contextlib.closing(Store(server.address, SCHEMA)) as store:
        (last,), = store.rows("SELECT max(number) FROM {entries}")
        yield
        store.rows("DELETE FROM {entries} WHERE number > %s", last)


def print_served(server, library, count):
    """Prints what decisions over HTTP take."""
    with tempfile.TemporaryDirectory() as folder, heartbeat(server.address):
        program = golang.build_daemon(library, os.path.join(folder, "spki-authd"), *DRIVER)
        for number in DAEMONS:
            for rate in RATES:
                text, daemon, database = ask_by_people(server, library, count, program, number, rate)
                print(f"{count:>10,} entries, {number} daemons, {f'{rate} a second each' if rate else 'at most'}: {text}, memory {daemon:.0f} and "
                      f"{database:.0f} MiB", flush=True)


def faults_of_shares(server, library, count, share, times):
    """Prints what daemons answer of which each has a share of a processor. Returns a line for each limit that is passed."""
    faults = []
    with tempfile.TemporaryDirectory() as folder, heartbeat(server.address):
        program = golang.build_daemon(library, os.path.join(folder, "spki-authd"), *DRIVER)
        for _ in range(times):
            rates = []
            for number in DAEMONS:
                text, *_ = ask_by_people(server, library, count, program, number, 0, share)
                words = text.split()
                values = {name: float(value) for name, value in zip(words[::2], words[1::2])}
                # (µs of a processor for one decision, and decisions a second: how many processors each used)
                used = {name: values[name] * values["second"] / 1e6 for name in ("daemon", "server", "clients")}
                rates.append(values["second"])
                what = f"{count:>10,} entries, {number} daemons of {share} of a processor"
                print(f"{what}: {text}; processors used by daemons {used['daemon']:.2f}, PostgreSQL {used['server']:.2f}, clients "
                      f"{used['clients']:.2f}; {rates[-1] / rates[0]:.2f} times one", flush=True)
                if used["daemon"] < LEAST_USED * share * number:
                    faults.append(f"{what} used {used['daemon']:.2f} processors")
                if sum(used.values()) > MOST_USED * os.cpu_count():
                    faults.append(f"{what}, PostgreSQL and clients used {sum(used.values()):.2f} of {os.cpu_count()} processors")
            if rates[-1] < LEAST_MORE * rates[0]:
                faults.append(f"{count:>10,} entries: {DAEMONS[-1]} daemons answer {rates[-1] / rates[0]:.2f} times one, less than {LEAST_MORE}")
    return faults


def new_store(server):
    """Makes the tables of a store at a server. Returns the store, which the caller closes."""
    # (imported here, once `main` has set SPKI_LIBRARY)
    from spki_store_tool.tables import Store
    store = Store(server.address, SCHEMA)
    store.make()
    return store


def fill(store, count, folder):
    """Imports so many entries, from a file in `folder`, and prints what that took."""
    path = os.path.join(folder, "list")
    with open(path, "wb") as file:
        file.write(b"(3:acl")
        file.writelines(entries(count))
        file.write(b")")
    # (imported here, once `main` has set SPKI_LIBRARY)
    from spki_store_tool.transfer import import_list
    begun = time.monotonic()
    import_list(store, path, sys.stderr.isatty())
    seconds = time.monotonic() - begun
    store.connection.execute("VACUUM ANALYZE")
    (octets,), = store.rows("SELECT sum(pg_total_relation_size(oid))::bigint FROM pg_class WHERE relnamespace = %s::regnamespace AND relkind = 'r'",
                            SCHEMA)
    print(f"{count:>10,} entries: import {seconds:.1f} s, {count / seconds:.0f} a second; {octets / count:.0f} octets an entry in all tables",
          flush=True)


def adds_a_second(store):
    """How many entries a second can be added one after the other. They stay in the store."""
    # (they are equal, for a key that begins with `a`, which had no entry)
    begun, text = time.monotonic(), next(entries(1)).replace(b"k0", b"a0")
    for _ in range(500):
        store.add(text)
    return 500 / (time.monotonic() - begun)


@contextlib.contextmanager
def server_with_store(count):
    """A context with a server, and a store there with so many entries. Prints what their import took."""
    with databases.Server(**SERVER) as server, tempfile.TemporaryDirectory() as folder:
        with contextlib.closing(new_store(server)) as store:
            fill(store, count, folder)
            yield server, store


def measure(count, library):
    """Prints the figures of a store with so many entries. Returns the first number of each by its name: of hit, miss and cold that is the median
    in µs."""
    with server_with_store(count) as (server, store):
        lines = figures_of_test(server, "single", count, library) | figures_of_test(server, "load", count, library)
        print(f"{count:>10,} entries: {adds_a_second(store):.0f} adds a second", flush=True)
        # (the server is killed for `cold`, so the connection is closed before)
        store.close()
        print_served(server, library, count)
        restart_cold(server)
        lines |= figures_of_test(server, "cold", count, library)
        for name, text in lines.items():
            print(f"{count:>10,} entries: {name} {text}", flush=True)
        return {name: float(text.split()[1]) for name, text in lines.items()}


def faults_of_growth(counts, library):
    """Measures stores of these numbers of entries. Returns a line for each median that grows too much from the first to the last."""
    medians = [measure(count, library) for count in counts]
    return [f"{name} grows by {medians[-1][name] / medians[0][name]:.2f}" for name, most in (("miss", MOST_GROWTH), ("cold", MOST_COLD))
            if medians[-1][name] > most * medians[0][name]]


def faults_of_scaling(counts, library, share, times):
    """Measures daemons with shares of a processor, with stores of these numbers of entries. Returns a line for each limit that is passed.
    Where no shares can be made it says so, measures nothing, and returns no line."""
    if why := shares.fault():
        print(f"skipped: here no daemon can have a share of a processor: {why}")
        return []
    faults = []
    for count in counts:
        with server_with_store(count) as (server, _):
            faults += faults_of_shares(server, library, count, share, times)
    return faults


def main():
    """Measures all. Returns the exit status: 1 if a limit is passed."""
    options = arguments()
    library = os.path.abspath(options.library)
    # (the package `spki`, which `spki_store_tool` imports, reads this)
    os.environ["SPKI_LIBRARY"] = library.removesuffix(".a") + ".so"
    if options.share:
        faults = faults_of_scaling(options.entries, library, options.share, options.times)
    else:
        faults = faults_of_growth(options.entries, library)
    print("".join(f"{line}\n" for line in faults), end="")
    return 1 if faults else 0


if __name__ == "__main__":
    sys.exit(main())
