#!/usr/bin/env python3
"""Measures a failover of the servers of a store by the clock. The status is 1 if an answer is wrong or a promise broken.

A primary has two replicas, and a change is on two servers before it is acknowledged, also after the failover. Each replica has a daemon, which a
client asks for three people again and again. An entry is removed, and the primary and all its processes are killed by SIGKILL. With --cut it runs on,
and its network is cut: what is sent to it is lost, as if its machine had no power. After some seconds the replica that received most is promoted by
`pg_ctl promote`, and the other one is told to follow it. Each line has `stale_seconds`; the seconds since the failure at which the promotion began
and ended, and of each daemon, that of the promoted replica first, the first 503, the first answer after the last one, how long that took, and how
long it was after the promotion; the last grant by the removed entry; and how many answers there were, how many wrong, and how many broken promises.

An answer other than 503 is wrong if the removed entry grants in a request that began over `stale_seconds` after the removal, if the entry that stays
does not grant, if somebody without an entry is granted something, or if a denial is no 401. A promise is broken if there is a 503 though the
promotion ended at most `stale_seconds` - 2 after the failure, or if 503 lasts over `stale_seconds` though the promotion ended at most
2 * `stale_seconds` - 2 after it. The heartbeat leaves a primary that is cut off after 4 seconds, so that an earlier promotion counts as one after 4.
Without --wait promotions begin at once, as late as just keeps each promise, and between.

Build the library first. Needs PostgreSQL, psycopg, Go, its driver and `cryptography` (Debian: postgresql, python3-psycopg, golang-go,
golang-github-lib-pq-dev, python3-cryptography); with --cut also iproute2 and root.
Usage: bench/failover.py [LIBRARY] [--cut] [--stale N ..] [--wait N ..] [--times N]
"""
import argparse
import contextlib
import os
import random
import signal
import sys
import tempfile
import threading
import time
import urllib.parse

import store
from authd_site import connect, self_signed

sys.path.append(os.path.join(os.path.dirname(os.path.abspath(__file__)), "..", "tests"))
from shared import LIBRARY, canonical, golang, servers  # noqa: E402

from spki_cert_tool.keys import FileSigner, new_private  # noqa: E402

databases = servers()
STAYS, GOES, NEVER = "stays", "goes", "never"
# For how many seconds is asked before the failure, and up to one more, so that the failure is anywhere between two heartbeats; and for how many after
# the daemons answer again.
BEFORE, AFTER = 2.0, 3.0
# The seconds between two requests to a daemon.
PAUSE = 0.005
# The seconds that a promotion must be before the end of what it may take: the last heartbeat is up to one older than the failure, and the next one is
# found in up to one. And those after which the heartbeat leaves a primary that is cut off.
MARGIN, LEAVES = 2.0, 4.0
REQUEST = "GET /auth HTTP/1.1\r\nHost: d\r\nConnection: close\r\nX-Original-Method: GET\r\nX-Original-URI: /web/x\r\nX-Client-Cert: {}\r\n\r\n"


class Person:
    """Somebody with a key and a TLS certificate: the text of an entry, and a request."""

    def __init__(self):
        """Makes a new key. `entry` is for its public key and everything, and `request` has its certificate, as nginx passes one to a daemon."""
        private = new_private("ed25519")
        self.entry = b"(5:entry" + canonical(FileSigner(private).key) + b"(3:tag(1:*)))"
        self.request = REQUEST.format(urllib.parse.quote(self_signed(private))).encode()

    def status(self, socket):
        """The HTTP status of the answer to the request by the daemon whose socket is at the path `socket`."""
        with connect(socket) as connection:
            connection.sendall(self.request)
            return int(connection.makefile("rb").readline().split()[1])


class Asker(threading.Thread):
    """Asks a daemon for all people again and again. `answers` has, of each request, when it began and ended, for whom it was, and its status."""

    def __init__(self, socket, people):
        """`socket` is the path of that of the daemon, and `people` has each Person by a name."""
        super().__init__(daemon=True)
        self.socket, self.people, self.ends, self.answers = socket, list(people.items()), threading.Event(), []

    def run(self):
        """Asks until `end` is called. The people take turns. Ends at once, with a traceback, if a connection fails or has no answer."""
        while not self.ends.wait(PAUSE):
            name, person = self.people[len(self.answers) % len(self.people)]
            begun = time.monotonic()
            status = person.status(self.socket)
            self.answers.append((begun, time.monotonic(), name, status))

    def end(self):
        """Stops asking. Returns all answers."""
        self.ends.set()
        self.join()
        return self.answers

    def grants(self):
        """Whether the last answer for the entry that stays is a grant."""
        return next((status for _, _, name, status in reversed(self.answers) if name == STAYS), 0) == 200


def span_of_503(answers, failed):
    """When the first 503 was received, and the first answer to a request after the last 503, in seconds since the failure. None if there is no 503.
    `answers` are those of an Asker, and `failed` is the time of the failure. An Asker is ended once its daemon answers again, so an answer follows
    the last 503."""
    refused = [place for place, (_, _, _, status) in enumerate(answers) if status == 503]
    if not refused:
        return None
    _, first_end, *_ = answers[refused[0]]
    _, next_end, *_ = answers[refused[-1] + 1]
    return first_end - failed, next_end - failed


def span_in_words(span, promoted):
    """The span of 503 at a daemon (`span_of_503`) in words. `promoted` is when the promotion ended, in seconds since the failure."""
    if not span:
        return "no 503"
    begin, end = span
    return f"503 from {begin:.1f} to {end:.1f}, {end - begin:.1f} s, {end - promoted:.1f} after it"


def is_wrong(answer, removed, stale):
    """Whether an answer, as an Asker has it, is wrong: a grant by the removed entry, if the request began over `stale` seconds after `removed`, the
    time of the removal; and another status than 200 of the entry that stays, or than 401 of anybody else. A 503 is never wrong."""
    begun, _, name, status = answer
    if name == GOES and status == 200:
        return begun > removed + stale
    own_status = 200 if name == STAYS else 401
    return status not in (503, own_status)


class Site:
    """Servers, daemons, and those who ask them. `nodes` are those of a network at which the primary, the two replicas and the heartbeat run, in this
    order, if the primary is to be cut off; otherwise each is None. `number` is that of the entry that is removed."""

    def __init__(self, stack, folder, program, stale, is_cut):
        """Starts all but the askers, and waits until both daemons have the entries. `stack` is the context that ends all, `folder` is for files,
        `program` is the path of the daemon, `stale` its `stale_seconds`, and `is_cut` says whether the primary is to be cut off. Raises
        AssertionError, as `waits_for` does, if something that it waits for does not come."""
        self.nodes, self.stale = nodes_of(stack) if is_cut else [None] * 4, stale
        self.primary = stack.enter_context(databases.Server(at=self.nodes[0], fsync="on"))
        self.store = store.new_store(self.primary)
        execute(self.primary, "ALTER SYSTEM SET synchronous_standby_names = 'ANY 1 (*)'")
        self.replicas = [stack.enter_context(self.primary.replica(each)) for each in self.nodes[1:3]]
        execute(self.primary, "SELECT pg_reload_conf()")
        hosts = ",".join(each.host for each in (self.primary, *self.replicas))
        stack.enter_context(store.heartbeat(f"host={hosts} user=postgres dbname=postgres target_session_attrs=read-write",
                                            *(self.nodes[3].words if is_cut else [])))
        # (the state that `init` made may be stale before the first beat)
        databases.waits_for("the first beat", lambda: self.store.rows("SELECT number FROM {heartbeat}") > [(0,)])
        people = {name: Person() for name in (STAYS, GOES, NEVER)}
        _, self.number = (self.store.add(people[name].entry) for name in (STAYS, GOES))
        self.askers = []
        for place, each in enumerate(self.replicas):
            process, socket = store.start_daemon(program, each, folder, place, stale_seconds=stale)
            stack.enter_context(databases.killed_at_end(process))
            self.askers.append(Asker(socket, people))
            databases.waits_for("the daemon has the entries", lambda: people[GOES].status(self.askers[-1].socket) == 200)

    def fail(self):
        """Kills the primary and all its processes, or cuts it off."""
        if self.nodes[0]:
            self.nodes[0].cut()
            return
        for each in store.processes_of(self.primary.process.pid):
            os.kill(each, signal.SIGKILL)

    def fail_over(self, wait):
        """Removes an entry, has the primary fail, and promotes the replica that has received most after `wait` seconds. Returns four times of
        `time.monotonic`: when the entry was removed, the primary failed, the promotion began, and both replicas had been told."""
        self.store.remove(self.number)
        removed = time.monotonic()
        self.fail()
        failed = time.monotonic()
        time.sleep(wait)
        # (the first replica is promoted, and its asker is the first too)
        if octets_received(self.replicas[1]) > octets_received(self.replicas[0]):
            self.replicas.reverse()
            self.askers.reverse()
        begun = time.monotonic()
        self.replicas[0].promote()
        execute(self.replicas[1], f"ALTER SYSTEM SET primary_conninfo = '{self.replicas[1].source(self.replicas[0])}'", "SELECT pg_reload_conf()")
        return removed, failed, begun, time.monotonic()

    def measure(self, wait):
        """Measures a failover whose promotion begins after `wait` seconds, and prints it. Returns the sum of wrong answers and broken promises.
        Raises AssertionError if the daemons do not answer again."""
        for each in self.askers:
            each.start()
        time.sleep(BEFORE + random.random())
        removed, failed, begun, ended = self.fail_over(wait)
        # (a daemon finds its store stale up to `stale_seconds` after the failure, also if all seems well before: so this waits longer)
        time.sleep(AFTER + max(0.0, failed + self.stale - ended))
        databases.waits_for("the daemons answer again", lambda: all(each.grants() for each in self.askers))
        time.sleep(AFTER)
        by_daemon = [asker.end() for asker in self.askers]
        wrong = sum(is_wrong(answer, removed, self.stale) for answers in by_daemon for answer in answers)
        granted = max(end for answers in by_daemon for _, end, name, status in answers if name == GOES and status == 200)
        spans = [span_of_503(answers, failed) for answers in by_daemon]
        # (the heartbeat leaves a primary that is cut off after LEAVES seconds, so an earlier promotion counts as one then)
        counts_as = max(ended - failed, LEAVES if self.nodes[0] else 0.0)
        broken = sum(is_broken(span, self.stale, counts_as) for span in spans)
        texts = [span_in_words(span, ended - failed) for span in spans]
        print(f"stale_seconds {self.stale}, promoted from {begun - failed:.1f} to {ended - failed:.1f}: {'; '.join(texts)}; the last grant by the "
              f"removed entry {granted - removed:.2f} s after its removal; {sum(map(len, by_daemon))} answers, {wrong} wrong, "
              f"{broken} promises broken", flush=True)
        return wrong + broken


def nodes_of(stack):
    """Four nodes of a new network, which ends with the context `stack`."""
    network = stack.enter_context(databases.networks.Network())
    return [network.node() for _ in range(4)]


def is_broken(span, stale, ended):
    """Whether the span of 503 at a daemon (`span_of_503`) breaks a promise, where the promotion ended so many seconds after the failure. If these
    are at most `stale` - MARGIN, there is to be no 503. If they are at most 2 * `stale` - MARGIN, none is to last over `stale` seconds."""
    lasted = span[1] - span[0] if span else 0.0
    return ended <= stale - MARGIN and lasted > 0 or ended <= 2 * stale - MARGIN and lasted > stale


def waits_of(stale):
    """The seconds after the failure at which promotions begin: at once, as late as keeps each of the two promises, and between. A promotion takes
    up to half a second."""
    return [0.0, max(0.0, stale - MARGIN - 0.5), stale, 2 * stale - MARGIN - 0.5]


def execute(server, *statements):
    """Runs statements of SQL, each in a transaction of its own, as ALTER SYSTEM must be. Returns the first row of the last, None if that returns no
    rows."""
    # (imported here, so that --help works without it)
    import psycopg
    with psycopg.connect(server.address, autocommit=True) as connection:
        for statement in statements:
            rows = connection.execute(statement)
        return rows.fetchone() if rows.description else None


def octets_received(replica):
    """How many octets of the log of PostgreSQL a replica has received."""
    return execute(replica, "SELECT pg_wal_lsn_diff(pg_last_wal_receive_lsn(), '0/0')::bigint")[0]


def main():
    """Measures all failovers that are asked for. Returns the exit status: 1 if an answer is wrong or a promise broken."""
    parser = argparse.ArgumentParser(description=__doc__, formatter_class=argparse.RawDescriptionHelpFormatter)
    parser.add_argument("--cut", action="store_true", help="cut the primary off, in place of killing it")
    parser.add_argument("--stale", type=int, nargs="+", default=[3, 10], help="`stale_seconds` of the daemons")
    parser.add_argument("--wait", type=float, nargs="+", help="seconds from the failure to the promotion")
    parser.add_argument("--times", type=int, default=1, help="how often all is measured")
    parser.add_argument("library", nargs="?", default=LIBRARY)
    options, wrong = parser.parse_args(), 0
    with tempfile.TemporaryDirectory() as folder:
        program = golang.build_daemon(os.path.abspath(options.library), os.path.join(folder, "spki-authd"), *store.DRIVER)
        failovers = [(stale, wait) for stale in options.stale for wait in options.wait or waits_of(stale)]
        for stale, wait in failovers * options.times:
            with contextlib.ExitStack() as stack, tempfile.TemporaryDirectory(dir=folder) as own:
                wrong += Site(stack, own, program, stale, options.cut).measure(wait)
    return 1 if wrong else 0


if __name__ == "__main__":
    sys.exit(main())
