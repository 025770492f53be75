"""Tests `spki-authd` with an access list in PostgreSQL (the store) while servers die, are cut from each other, lag behind, have a wrong clock or a
full disk. The primary is written to, and replicas copy it. A heartbeat writes the time to the primary, so a daemon sees how old a server's state is.

Under each failure of `Questions` at least 20,000 questions get an answer while the list changes: failures are not counted. Each answer must be that
of the whole list's guard at a moment at most `stale_seconds` (STALE) ago. All are long tests. Those with a network or disk of their own need root."""
import contextlib
import os
import secrets
import subprocess
import tempfile
import time
from collections.abc import Callable
from typing import TypeVar

from harness import built, databases, golang, needs, networks
from harness.databases import Server
from harness.support import room_for, waits_for
from suite import test_store
from suite.test_store import STALE, Person, Store, StoreDaemon

import psycopg

# How many seconds something fails: longer than a state may be old.
FAILING = STALE + 2
# Settings of PostgreSQL: its defaults, short waits for a server that is gone, and a small log. And the MiB of a small disk.
DEFAULTS: dict[str, str] = {}
SHORT_WAITS = {"wal_receiver_timeout": "2s", "wal_sender_timeout": "2s", "wal_retrieve_retry_interval": "200ms"}
SMALL_LOG = {"min_wal_size": "32MB", "max_wal_size": "48MB", "wal_keep_size": "0"}
SMALL_DISK = 160


def execute(server: Server, *statements: str) -> None:
    """Runs statements of SQL at a server, each in a transaction of its own."""
    with psycopg.connect(server.address, autocommit=True) as connection:
        for each in statements:
            connection.execute(each.encode())


def make_synchronous(server: Server) -> None:
    """From now on the server acknowledges a change only once a replica has it."""
    execute(server, "ALTER SYSTEM SET synchronous_standby_names = 'ANY 1 (*)'", "SELECT pg_reload_conf()")


def fill(folder: str) -> str:
    """Fills the disk of a folder with a file, until the system refuses to write more. Returns the file's path."""
    path = os.path.join(folder, "filler")
    with contextlib.suppress(OSError), open(path, "wb", buffering=0) as file:
        while file.write(bytes(1 << 16)):
            pass
    return path


def kill_twice(server: Server) -> None:
    """Kills a server two times, and each time starts it again after FAILING seconds. Returns a second after the last start."""
    for _ in range(2):
        server.kill()
        time.sleep(FAILING)
        server.start()
        # (so that some questions are answered before the next time)
        time.sleep(1)


def cut_twice(node: networks.Node) -> None:
    """Cuts a node from its network two times, each time for FAILING seconds, and waits FAILING seconds after each."""
    for _ in range(2):
        node.cut()
        time.sleep(FAILING)
        node.mend()
        time.sleep(FAILING)


Entered = TypeVar("Entered", Server, networks.Network)


class WithOwnServers(test_store.OfServed):
    """The base of tests that start servers of PostgreSQL of their own, and make them fail."""

    def enter(self, context: Entered) -> Entered:
        """Enters the context of a server or a network, until the test ends. Returns it."""
        self.addCleanup(context.__exit__)
        context.__enter__()
        return context

    def primary(self, settings: dict[str, str] = DEFAULTS, at: networks.Node | None = None, mib: int = 0) -> Server:
        """Starts a server by settings of PostgreSQL, at the node `at` if any, on a disk of `mib` MiB or, for 0, on that of this machine. `self.store`
        is a new store there. Its table `error` says by how much its clock is wrong: the tests in Go add this to the moment of each heartbeat."""
        server = self.enter(Server(at, mib, **settings))
        self.store.close()
        self.store = Store(server.address, self.schema)
        self.addCleanup(self.store.close)
        self.store.make()
        execute(server, f"CREATE TABLE {self.schema}.error (by interval)", f"INSERT INTO {self.schema}.error VALUES ('0 s')")
        return server

    def replica(self, primary: Server, settings: dict[str, str] = DEFAULTS, at: networks.Node | None = None, mib: int = 0) -> Server:
        """Starts a replica of a server by settings of PostgreSQL. `at` and `mib` are as in `primary`: a node, and the size of a disk of its own."""
        return self.enter(primary.replica(at, mib, **settings))

    def make_nodes(self, count: int) -> list[networks.Node]:
        """Makes a network with so many nodes, and returns them."""
        network = self.enter(networks.Network())
        return [network.node() for _ in range(count)]

    def give_certificate(self, server: Server) -> str:
        """Gives a server a key and a certificate for TLS at its address. Returns the path of the certificate, which is self-signed."""
        key, certificate = (os.path.join(server.folder, name) for name in ("server.key", "server.crt"))
        subprocess.run(["openssl", "req", "-x509", "-newkey", "rsa:2048", "-nodes", "-days", "1", "-subj", "/CN=store", "-addext",
                        f"subjectAltName=IP:{server.host}", "-keyout", key, "-out", certificate], check=True, stderr=subprocess.DEVNULL)
        subprocess.run(["chown", "postgres:postgres", key, certificate], check=True)
        os.chmod(key, 0o600)
        execute(server, f"ALTER SYSTEM SET ssl_cert_file = '{certificate}'", f"ALTER SYSTEM SET ssl_key_file = '{key}'", "ALTER SYSTEM SET ssl = on",
                "SELECT pg_reload_conf()")
        return certificate


class Questions(WithOwnServers):
    """Generated questions are answered rightly while something fails. `questions` is the path of the daemon's compiled tests, which ask them."""

    questions: str

    @classmethod
    def setUpClass(cls) -> None:
        super().setUpClass()
        room = room_for(cls)
        cls.questions = os.path.join(room, "questions")
        golang.go(golang.DAEMON, ["test", *test_store.WITH_DRIVER, "-c", "-o", cls.questions, "."], cls.library).check_returncode()

    def ask_while(self, host: str, writers: list[Server], fail_and_mend: Callable[[], None], *before: str, root: str = "") -> None:
        """Runs the generated questions of the daemon's tests on the store at `host`: the folder of a server, which has its socket, or its address. A
        second later calls `fail_and_mend`. They go on at least until it returns, and must end within 600 seconds after that. All answers must be
        right. The list is changed on the one of `writers` that can be written to. `before` is a command that runs the questions, as words. `root` is
        the path of the certificate that TLS trusts, or empty for no TLS. Prints how many answers of each kind there were."""
        end = os.path.join(self.room, "end")
        settings = {**golang.settings(self.library), "SPKI_STORE_HOST": host, "SPKI_STORE_ROOT": root, "SPKI_STORE_SCHEMA": self.schema,
                    "SPKI_STORE_WRITERS": ",".join(each.folder for each in writers), "SPKI_STORE_SEED": str(secrets.randbelow(1 << 32)),
                    "SPKI_STORE_QUESTIONS": str(test_store.QUESTIONS), "SPKI_STORE_END": end}
        words = [*before, self.questions, "-test.run", "^TestQuestionsUnderFailures$", "-test.v", "-test.timeout", "30m"]
        with open(os.path.join(self.room, "output"), "w+b") as output:
            process = subprocess.Popen(words, cwd=golang.DAEMON, env=settings, stdout=output, stderr=output)
            with databases.killed_at_end(process):
                time.sleep(1)
                try:
                    fail_and_mend()
                finally:
                    self.file(b"", "end")  # (the questions end once this file is there)
                status = process.wait(databases.SECONDS)
            output.seek(0)
            text = output.read().decode()
        self.assertEqual(status, 0, text[-4000:])
        self.assertNotIn("SKIP", text)
        print("\n" + self.id().rpartition(".")[2] + ": " + next(line for line in text.splitlines() if "versions" in line).strip())

    def test_primary_that_dies(self) -> None:
        primary = self.primary()
        self.ask_while(primary.folder, [primary], lambda: kill_twice(primary))

    def test_replica_that_dies(self) -> None:
        primary = self.primary()
        replica = self.replica(primary)
        self.ask_while(replica.folder, [primary], lambda: kill_twice(replica))

    def test_failover(self) -> None:
        """The primary dies, and the replica that received most takes its place. The second one is asked. It follows the first if that is promoted."""
        primary = self.primary(SHORT_WAITS)
        replicas = [self.replica(primary) for _ in range(2)]
        make_synchronous(primary)

        def fail_and_mend() -> None:
            primary.kill()
            time.sleep(FAILING)
            promoted = replicas[1] if octets_received(replicas[1]) > octets_received(replicas[0]) else replicas[0]
            promoted.promote()
            if promoted is replicas[0]:
                test_store.follow(replicas[1], promoted)
        self.ask_while(replicas[1].folder, [primary, *replicas], fail_and_mend)

    def test_replica_that_lags(self) -> None:
        """A replica replays no change for FAILING seconds, and then each change with a delay: 1, 4, 2 and 0 seconds, each for FAILING seconds."""
        primary = self.primary()
        replica = self.replica(primary)

        def fail_and_mend() -> None:
            execute(replica, "SELECT pg_wal_replay_pause()")
            time.sleep(FAILING)
            execute(replica, "SELECT pg_wal_replay_resume()")
            for delay in ("1s", "4s", "2s", "0"):
                execute(replica, f"ALTER SYSTEM SET recovery_min_apply_delay = '{delay}'", "SELECT pg_reload_conf()")
                time.sleep(FAILING)
        self.ask_while(replica.folder, [primary], fail_and_mend)

    def test_wrong_clock(self) -> None:
        """The primary's clock is wrong by more and by less than STALE seconds, and jumps. To the daemon this is as if its own clock were wrong."""
        primary = self.primary()
        replica = self.replica(primary)

        def fail_and_mend() -> None:
            for seconds in (20, -20, 2, -2, 0.5, -3600, 3600, 0):
                execute(primary, f"UPDATE {self.schema}.error SET by = '{seconds} s'")
                time.sleep(FAILING)
        self.ask_while(replica.folder, [primary], fail_and_mend)

    @needs.needs("ip")
    def test_network_between_servers(self) -> None:
        first, second = self.make_nodes(2)
        primary = self.primary(SHORT_WAITS, first)
        replica = self.replica(primary, at=second)
        self.ask_while(replica.folder, [primary], lambda: cut_twice(second))

    @needs.needs("ip")
    def test_network_to_the_store(self) -> None:
        """The questions are asked at a second node, which reads the store over a network, by TLS. This node is cut off."""
        first, second = self.make_nodes(2)
        primary = self.primary(at=first)
        root = self.give_certificate(primary)
        self.ask_while(primary.host, [primary], lambda: cut_twice(second), *second.words, root=root)

    @needs.needs("ip")
    def test_full_disk_of_the_primary(self) -> None:
        primary = self.primary(SMALL_LOG, mib=SMALL_DISK)

        def fail_and_mend() -> None:
            filler = fill(primary.folder)
            write_until_it_ends(primary)
            time.sleep(FAILING)
            os.unlink(filler)
            primary.kill()  # (it has ended already: this forgets its process)
            primary.start()
        self.ask_while(primary.folder, [primary], fail_and_mend)

    @needs.needs("ip")
    def test_full_disk_of_a_replica(self) -> None:
        primary = self.primary()
        replica = self.replica(primary, SMALL_LOG, mib=2 * SMALL_DISK)

        def fail_and_mend() -> None:
            filler = fill(replica.folder)
            # (each switch begins a new file of the log, which the replica has no room for)
            execute(primary, *["SELECT pg_switch_wal()", f"UPDATE {self.schema}.error SET by = by"] * 4)
            time.sleep(FAILING)
            os.unlink(filler)
            replica.kill()  # (it may have ended, or wait for room)
            replica.start()
        self.ask_while(replica.folder, [primary], fail_and_mend)


class Daemons(WithOwnServers):
    """What running daemons and `spki-store` answer while something fails."""

    @needs.needs("ip")
    def test_cut_network_and_failover(self) -> None:
        """The daemon `old` reads the primary, `near` the first replica, `far` the second. The first replica is cut off, then `far`, then the primary,
        whose place the first replica takes. A change, also a beat, counts once a replica has it: so `old` grants nothing then, nor for 4 seconds when
        the old primary is back. No daemon may grant by Bob's entry STALE seconds after the new primary has removed it."""
        nodes = self.make_nodes(4)
        primary = self.primary(SHORT_WAITS, nodes[0])
        replicas = [self.replica(primary, at=each) for each in nodes[1:3]]
        make_synchronous(primary)
        root = self.give_certificate(replicas[1])
        self.start_beat(primary.address)
        hosts = ",".join(each.address for each in nodes[:3])
        self.start_beat(f"host={hosts} user=postgres dbname=postgres target_session_attrs=read-write", *nodes[3].words)  # (to whichever is primary)
        old, near, far = (self.start_daemon("old", primary), self.start_daemon("near", replicas[0]),
                          self.start_daemon("far", replicas[1], *nodes[3].words, host=nodes[2].address, root=root))
        alice, bob = self.people["alice"], self.people["bob"]
        asker = self.start_asker([old, near, far], bob)
        self.add_entry(alice)
        number_of_bob = self.add_entry(bob)
        test_store.wait_for_all((old, near, far), 200, alice, bob)
        self.check_cut(nodes[1], alice, near, others=(old, far))
        self.check_cut(nodes[3], alice, far, others=(old, near))
        nodes[0].cut()
        test_store.wait_for_all((old, near, far), 503, alice)
        replicas[0].promote()
        test_store.follow(replicas[1], replicas[0])
        test_store.wait_for_all((near, far), 200, alice)
        with contextlib.closing(Store(replicas[0].address, self.schema)) as store:
            store.remove(number_of_bob)
        removed = time.monotonic()
        test_store.wait_for_all((near, far), 401, bob)
        nodes[0].mend()
        for _ in range(20):
            self.assertEqual([old.status(alice), old.status(bob), near.status(alice), far.status(alice)], [503, 503, 200, 200])
            time.sleep(0.2)
        granted = asker.end()
        # (no daemon granted Bob's requests longer than STALE seconds after his entry was removed)
        self.assertEqual([begun for begun, _ in granted if begun > removed + STALE], [])
        self.assertTrue(granted)

    def check_cut(self, node: networks.Node, who: Person, daemon: StoreDaemon, others: tuple[StoreDaemon, ...]) -> None:
        """While a node is cut from its network, `daemon` must answer a person by 503, and the other daemons must grant the request. Once the node is
        back, `daemon` must grant it too. Each of its answers must change within 600 seconds."""
        node.cut()
        daemon.wait_for_status(503, who)
        self.assertEqual({each.status(who) for each in others}, {200})
        node.mend()
        daemon.wait_for_status(200, who)

    @needs.needs("ip")
    def test_full_disk_for_entries(self) -> None:
        """The disk of the tables of entries and of changes has 3 MiB. An import that fills it adds the batches that had room, and ends with status 3.
        Once removals find no room either, they end so too. The daemon decides by the entries that are there. On a larger disk a removal succeeds."""
        primary, room = self.primary(), tempfile.mkdtemp()
        self.addCleanup(os.rmdir, room)
        databases.mount(room, mib=3)
        self.addCleanup(databases.unmount, room)
        subprocess.run(["chown", "postgres:postgres", room], check=True)
        self.server = primary
        self.start_beat(primary.address)
        authd, alice, bob = self.start_daemon("full", primary), self.people["alice"], self.people["bob"]
        execute(primary, f"CREATE TABLESPACE small LOCATION '{room}'", f"ALTER TABLE {self.schema}.entries SET TABLESPACE small",
                f"ALTER TABLE {self.schema}.changes SET TABLESPACE small", f"ALTER INDEX {self.schema}.changes_pkey SET TABLESPACE small")
        self.addCleanup(execute, primary, f"DROP SCHEMA {self.schema} CASCADE", "DROP TABLESPACE small")
        number_of_alice = self.add_entry(alice)
        authd.wait_for_status(200, alice)
        listed = [test_store.key_entry(b"k%06d" % place, b"(1:*)") for place in range(20_000)]
        path = self.file(b"(3:acl" + b"".join(listed) + b")")
        self.assertIn("No space left on device", self.spki_store(3, "import", path))
        fill(room)
        # (an import adds entries in batches, and some of them had room)
        (count,), = self.store.rows("SELECT count(*) FROM {entries}")
        self.assertTrue(1 < count < len(listed))
        # (from the last entry on. Some changes still find room in pages of the database, so the disk counts as full after ten failures in a row)
        failed = 0
        while failed < 10:
            failed = 0 if self.is_removed(count) else failed + 1
            count -= 1
        self.spki_store(3, "remove", str(number_of_alice))
        self.assertEqual((authd.status(alice), authd.status(bob)), (200, 401))
        subprocess.run(["mount", "-o", "remount,size=16m", room], check=True)
        self.spki_store(0, "remove", str(number_of_alice))
        authd.wait_for_status(401, alice)

    def is_removed(self, number: int) -> bool:
        """Removes the entry of this number by a new connection. Returns whether it is removed: it is not if there is none, or the disk is full."""
        with contextlib.closing(Store(self.server.address, self.schema)) as store, contextlib.suppress(psycopg.errors.DiskFull):
            return store.remove(number)
        return False

    @needs.needs("ip")
    def test_full_disk_for_the_log(self) -> None:
        """A primary that has no room for its own log ends, and its daemon answers 503. What it acknowledged before is there after the next start."""
        self.server = primary = self.primary(SMALL_LOG, mib=SMALL_DISK)
        self.start_beat(primary.address)
        self.wait_for_beat()
        authd, alice, bob = self.start_daemon("full", primary), self.people["alice"], self.people["bob"]
        self.add_entry(alice)
        number_of_bob = self.add_entry(bob)
        authd.wait_for_status(200, bob)
        filler = fill(primary.folder)
        # (the log's last file, which has its full size from the beginning, still has room)
        self.spki_store(0, "remove", str(number_of_bob))
        write_until_it_ends(primary)
        authd.wait_for_status(503, alice)
        authd.wait_for_status(503, bob)
        os.unlink(filler)
        primary.kill()
        primary.start()
        authd.wait_for_status(200, alice)
        self.assertEqual(authd.status(bob), 401)


def octets_received(replica: Server) -> int:
    """How many octets of the log of PostgreSQL a replica has received, counted from the beginning of the log."""
    with psycopg.connect(replica.address) as connection:
        (octets,), = connection.execute("SELECT pg_wal_lsn_diff(pg_last_wal_receive_lsn(), '0/0')::bigint").fetchall()
        return int(octets)


def write_until_it_ends(server: Server) -> None:
    """Writes to a server whose disk is full, until it has no room for its log and ends. Raises AssertionError if it does not within 600 seconds. Each
    switch begins a new file of the log, if something was logged since the last one, as the number of a transaction is."""
    def is_over() -> bool:
        with contextlib.suppress(psycopg.Error):  # (the server that ends breaks the connection)
            execute(server, "SELECT pg_switch_wal()", "SELECT txid_current()")
        return server.process is None or server.process.poll() is not None
    waits_for("the server has no room and ends", is_over)


if not built.IS_LONG:
    del WithOwnServers, Questions, Daemons
