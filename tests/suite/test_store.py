"""Tests `spki-store` and `spki-authd` with a list in PostgreSQL, on a server in a temporary folder. While another client changes the store, 1,500
questions are asked, 20,000 in a long run. Only a long run asks daemons at replicas, while the primary is killed and a replica lags. A store has
tables: `entries`, `ended` certificates, `changes` (the log), `imports`, a `heartbeat`, `state`, and `chains`, the certificates that clients leave.
`Store.rows(STATEMENT, VALUE ..)` runs a statement in which `{entries}` is that table, and returns its rows. `self.spki_store(STATUS, WORD ..)` runs
the command, which must end with this status: 0 is done, 1 wrong, missing or different, 2 a refusal, 3 a fault of the database or a file. A daemon
answers a request with 200 to grant it, 401 or 403 to deny it, and 503 if the state of its store is stale. A wait fails the test after 600 seconds."""
import argparse
import concurrent.futures
import contextlib
import hashlib
import http.client
import io
import itertools
import os
import pathlib
import re
import secrets
import signal
import socket
import sqlite3
import subprocess
import threading
import time
import urllib.parse
from collections.abc import Iterable
from typing import Any
from unittest import mock

from harness import built, databases, golang, needs
from harness.support import TESTS, TOP, output_of, room_for, text_of, waits_for
from suite import test_go
from suite.test_go import Person, spki_cert

needs.required(*needs.LIBRARY, *databases.NEEDED)
os.environ["SPKI_LIBRARY"] = built.shared()
import psycopg  # noqa: E402
from psycopg import sql  # noqa: E402
from spki_store_tool import commands, tables, texts, transfer  # noqa: E402
from spki_store_tool.beats import Beats  # noqa: E402
from spki_store_tool.tables import Store  # noqa: E402

STORE = os.path.join(TOP, "apps", "spki-store", "spki-store")
# The driver of PostgreSQL for Go, and the options by which the daemon is built with it.
DRIVER = "/usr/share/gocode/src/github.com/lib/pq/conn.go"
WITH_DRIVER = ("-modfile=postgres.mod", "-tags", "spki_postgres")
QUESTIONS = 20_000 if built.IS_LONG else 1_500
# An entry for the key `(test a)`, and one that delegates, for a name that begins with a hash of zeros.
ENTRY = b"(5:entry(10:public-key(4:test1:a))(3:tag(1:*)))"
ENTRY_OF_ZEROS = b"(5:entry(4:name(4:hash6:sha25632:" + bytes(32) + b")3:bob)(9:propagate)(3:tag(1:a1:b)))"


def key_entry(name: bytes, tag: bytes = b"(1:*)") -> bytes:
    """An entry for the key `(test NAME)`, in canonical form. `tag` is what is inside its tag."""
    return b"(5:entry(10:public-key(4:test%d:%s))(3:tag%s))" % (len(name), name, tag)


class OfStore(built.OfLibrary):
    """Tests with a server. Each test has a schema of its own, with an empty store in it, and a folder `room`."""

    server: databases.Server

    @classmethod
    def setUpClass(cls) -> None:
        super().setUpClass()
        cls.server = databases.Server().__enter__()
        cls.addClassCleanup(cls.server.__exit__, None, None, None)

    def setUp(self) -> None:
        self.schema = f"spki_{secrets.token_hex(6)}"
        self.store = Store(self.server.address, self.schema)
        self.addCleanup(self.store.close)
        self.store.make()
        self.room = room_for(self)

    def file(self, octets: bytes, name: str = "list") -> str:
        """Writes a file with these octets into the test's folder, and returns its path."""
        path = os.path.join(self.room, name)
        pathlib.Path(path).write_bytes(octets)
        return path

    def spki_store(self, wanted: int, *words: str) -> str:
        """Runs `spki-store` in this process. It must end with the status `wanted`. Returns what it writes on both streams."""
        output, errors = io.StringIO(), io.StringIO()
        with contextlib.redirect_stdout(output), contextlib.redirect_stderr(errors):
            status = commands.main(["--database", self.server.address, "--schema", self.schema, *words])
        self.assertEqual(status, wanted, (words, output.getvalue(), errors.getvalue()))
        return output.getvalue() + errors.getvalue()

    def start_beat(self, address: str, *before: str) -> subprocess.Popen[bytes]:
        """Starts `spki-store beat`, which is killed after the test. `address` has settings of libpq. `before` is a command that runs it, as words."""
        process = subprocess.Popen([*before, STORE, "--database", address, "--schema", self.schema, "beat"], stderr=subprocess.DEVNULL)
        self.addCleanup(process.wait)
        self.addCleanup(process.kill)
        return process

    def make_account(self, name: str, role: str, *roles: str) -> Store:
        """Makes an account of PostgreSQL with a role of the store, `reader`, `writer`, `adder` or `keeper`, and with `roles` of the server. Returns
        the store as this account uses it."""
        account = f"{self.schema}_{name}"
        self.store.connection.execute(f"CREATE ROLE {account} LOGIN IN ROLE {', '.join([f'{self.schema}_{role}', *roles])}".encode())
        store = Store(f"host={self.server.folder} user={account} dbname=postgres", self.schema)
        self.addCleanup(store.close)
        return store

    def pass_all_rows(self, entry: bytes = ENTRY) -> None:
        """Has the database test no row any more, and take each for one of the key of an entry."""
        self.store.connection.execute(f"CREATE OR REPLACE FUNCTION {self.schema}.principal_of(text bytea) RETURNS bytea LANGUAGE sql IMMUTABLE"
                                      f" AS 'SELECT ''\\x{texts.principal_of(entry).hex()}''::bytea'".encode())

    def begin(self, store: Store, *texts: str) -> int:
        """Begins a transaction of a store's account with some statements, in which a table is written as `{entries}`. It stays open until the end of
        the test. Returns the process of the server that has it."""
        connection = psycopg.connect(store.settings)
        self.addCleanup(connection.close)
        for text in texts:
            connection.execute(store.statement(text))
        return connection.info.backend_pid

    def start_removal(self, number: int) -> "concurrent.futures.Future[bool]":
        """Starts to remove an entry, as a change that waits for ever. Returns what has the result of `Store.remove`."""
        store, pool = Store(self.server.address, self.schema), concurrent.futures.ThreadPoolExecutor(1)
        self.addCleanup(pool.shutdown)
        self.addCleanup(store.close)
        store.connection.execute("SET lock_timeout = 0")
        return pool.submit(store.remove, number)

    def wait_for_beat(self) -> None:
        """Waits for the first beat: before it the state that `init` made may be stale, and a test may stop the server before `beat` has begun."""
        waits_for("the first beat", lambda: bool(self.store.rows("SELECT 1 FROM {heartbeat} WHERE number > 0")))


class Command(OfStore):
    """The command `spki-store`, also as `spki-cert` runs it, and how the entries of an older store are taken over."""

    def test_commands_one_after_another(self) -> None:
        """Entries are imported, added, removed, compared, checked, listed in the log and exported."""
        path = self.file(b"(acl (entry (public-key (test a)) (tag (*))) " + ENTRY_OF_ZEROS + b")", "list.sexp")
        self.assertEqual(self.spki_store(0, "import", path), "entries added: 2\n")
        self.assertIn("imported before", self.spki_store(2, "import", path))
        self.assertEqual(self.spki_store(0, "diff", path), "entries that differ: 0\n")
        added = self.spki_store(0, "add", self.file(b"(entry (public-key (test b)) (tag (packages read)))", "entry"))
        self.assertEqual(added, "entry 3\n")
        # (a number that is given twice is one)
        self.assertEqual(self.spki_store(0, "remove", "1", "1"), "entries removed: 1\n")
        self.assertIn("entry 1 is not there", self.spki_store(1, "remove", "1"))
        self.assertEqual(self.spki_store(1, "diff", path).splitlines(),
                         ["- 3 (entry (public-key (test b)) (tag (packages read)))", "+ (entry (public-key (test a)) (tag (*)))",
                          "entries that differ: 2"])
        # (a line has the number, moment, account, change, entry and digest, and then the text of an entry that was removed)
        log = [line.split(" ", 6) for line in self.spki_store(0, "log").splitlines()]
        self.assertEqual([words[2] for words in log], ["'postgres'"] * 4)
        self.assertEqual([(words[0], *words[3:5]) for words in log], [("1", "add", "1"), ("2", "add", "2"), ("3", "add", "3"), ("4", "remove", "1")])
        self.assertEqual(log[3][6], "(entry (public-key (test a)) (tag (*)))")
        self.spki_store(0, "check")
        to = os.path.join(self.room, "exported")
        self.spki_store(0, "export", to)
        self.assertEqual(pathlib.Path(to).read_bytes(), b"(3:acl" + ENTRY_OF_ZEROS + key_entry(b"b", b"(8:packages4:read)") + b")")
        self.assertIn("not written over", self.spki_store(2, "export", to))

    def test_wrong_arguments_change_nothing(self) -> None:
        """A text that is no entry or list, and a wrong digest, remark, file, schema or server end the command with status 2 or 3 and change nothing.
        A server that only PGHOST names is found, and the name of a schema may be a reserved word of SQL."""
        for text in (b"(entry (public-key (test a)))", b"(entry (public-key (test a)) (tag (*))) x", b"", b"(acl)", b"(entry (tag (*)))"):
            self.spki_store(2, "add", self.file(text))
        with mock.patch.object(transfer, "MOST_AT_ONCE", 1):  # (so that a wrong list could be added in part)
            for text in (b"(3:acl" + ENTRY + b"(5:entry))", b"(3:acl(7:version1:1)" + ENTRY + b")"):
                self.spki_store(2, "import", self.file(text))
        self.spki_store(2, "end", "00")
        self.spki_store(2, "end", "00" * 32, "--remark", "\udcff")
        self.spki_store(3, "add", os.path.join(self.room, "none"))
        for schema, command, status in (('a"; DROP TABLE x', "log", 2), ("none", "log", 2), ("user", "init", 0), ("user", "log", 0)):
            self.spki_store(status, "--schema", schema, command)
        self.assertEqual(commands.main(["--database", "host=/none", "log"]), 3)
        with mock.patch.dict(os.environ, PGHOST=self.server.folder):
            self.assertEqual(commands.main(["--database", "user=postgres dbname=postgres", "--schema", self.schema, "log"]), 0)
        self.assertEqual(self.spki_store(0, "log"), "")

    @needs.needs("openssl", "import cryptography")
    def test_spki_cert_adds_an_entry(self) -> None:
        """`spki-cert entry --store` has `spki-store` add one entry: none without a server, if the tag lacks a request of `--try`, or with `--acl`."""
        store = Store(self.server.address)  # (in the schema `spki`, since `spki-cert` names none)
        self.addCleanup(store.close)
        store.make()
        self.addCleanup(store.connection.execute, "DROP SCHEMA spki CASCADE")
        alice = Person(self.room, "alice", "ed25519")
        words = ["entry", "--to", alice.public, "--tag", "(files read)", "--store"]
        self.assertEqual(spki_cert(*words, self.server.address), b"entry 1\n")
        wanted = texts.entry_of(f"(entry {alice.key} (tag (files read)))".encode())
        self.assertEqual([(row.number, row.text) for row in store.all()], [(1, wanted)])
        for status, more in ((3, ["host=/none"]), (4, [self.server.address, "--try", "files", "write"]), (2, [self.server.address, "--acl", "acl"])):
            done = subprocess.run([test_go.SPKI_CERT, *words, *more], cwd=self.room, stdin=subprocess.DEVNULL, capture_output=True)
            self.assertEqual((done.returncode, done.stdout), (status, b""), done.stderr)
        self.assertEqual(len(list(store.all())), 1)

    def test_import_goes_on_where_it_stopped(self) -> None:
        """An import of a list of over 1 MiB is stopped before its third transaction. The next import adds the rest, and nothing twice."""
        wanted = [key_entry(b"k%06d" % place, b"(8:packages4:read)") for place in range(23_000)]
        path = self.file(b"(3:acl" + b"".join(wanted) + b")")
        stopping = mock.Mock(wraps=transfer.add_noted, side_effect=[mock.DEFAULT, mock.DEFAULT, ZeroDivisionError])
        with mock.patch.object(transfer, "add_noted", stopping), self.assertRaises(ZeroDivisionError):
            transfer.import_list(self.store, path, is_shown=False)
        (count,), = self.store.rows("SELECT count(*) FROM {entries}")
        self.assertEqual(count, 2 * transfer.MOST_AT_ONCE)
        self.assertEqual(self.spki_store(0, "import", path), f"entries added: {len(wanted) - count}, and {count} before\n")
        self.assertEqual([row.text for row in self.store.all()], wanted)
        self.assertEqual(self.spki_store(0, "diff", path), "entries that differ: 0\n")
        self.assertIn("wrong 0", self.spki_store(0, "check"))

    def test_two_imports_at_once(self) -> None:
        """A part of a list that another import of the same list has added meanwhile is refused."""
        part = self.store, [ENTRY], bytes(32), 0, len(ENTRY), 1  # (one entry, of the list with a digest of zeros, from its beginning)
        transfer.add_noted(*part, is_done=False)
        self.assertRaises(texts.Wrong, transfer.add_noted, *part, is_done=False)
        self.assertEqual([row.text for row in self.store.all()], [ENTRY])

    def rows_of_older_store(self) -> tuple[list[bytes], list[tuple[int, bytes, bytes]]]:
        """Entries, one of them twice and one long, and the rows that the table of `examples/database` in version 0.1.0 had for them: a number, a
        principal and a text each. The numbers have gaps."""
        wanted = [key_entry(b"a\0\n'"), ENTRY_OF_ZEROS, ENTRY, key_entry(bytes(range(256))), ENTRY, ENTRY.replace(b"1:a", 100_000 * b"1:a")]
        return wanted, [(2 * place + 1, texts.principal_of(text), text) for place, text in enumerate(wanted)]

    def check_entries(self, wanted: list[bytes]) -> None:
        """The store must have exactly these entries, in their order and numbered from 1 on, each right, and as many changes in its log."""
        self.assertEqual([(row.number, row.text) for row in self.store.all()], list(enumerate(wanted, 1)))
        self.assertEqual(self.spki_store(0, "check"), f"entries checked: {len(wanted)}, wrong 0\n")
        self.assertEqual(self.store.rows("SELECT count(*) FROM {changes}"), [(len(wanted),)])

    def test_older_store_in_sqlite(self) -> None:
        """The entries of the example of version 0.1.0 are taken over from SQLite, by the command of the page."""
        wanted, rows = self.rows_of_older_store()
        old, exported = (os.path.join(self.room, name) for name in ("old", "list"))
        with contextlib.closing(sqlite3.connect(old)) as connection, connection:
            connection.execute("PRAGMA journal_mode = WAL")
            connection.execute("CREATE TABLE entries (number INTEGER PRIMARY KEY AUTOINCREMENT, principal BLOB NOT NULL, text BLOB NOT NULL)")
            connection.executemany("INSERT INTO entries VALUES (?, ?, ?)", reversed(rows))  # (the numbers say the order)
        command, = re.findall(r"^    (python3 -c .*) OLD > LIST$", text_of("apps/spki-store/README.md"), re.MULTILINE)
        subprocess.run(["sh", "-c", f'{command} "$0" > "$1"', old, exported], check=True)
        self.assertEqual(self.spki_store(0, "import", exported), f"entries added: {len(wanted)}\n")
        self.check_entries(wanted)

    def test_older_store_in_postgresql(self) -> None:
        """The entries of the example of version 0.1.0 are taken over from PostgreSQL, a long one too, by the statement of the page, in 10 seconds."""
        wanted, rows = self.rows_of_older_store()
        statement, = re.findall(r"`(INSERT INTO spki\.entries [^`]*)`", text_of("apps/spki-store/README.md"))
        old = f"{self.schema}_old"
        with self.store.connection.transaction():
            for text in (f"CREATE SCHEMA {old}", f"SET LOCAL search_path TO {old}", "SET LOCAL statement_timeout TO '10s'",
                         "CREATE TABLE entries (number bigserial PRIMARY KEY, principal bytea NOT NULL, text bytea NOT NULL)"):
                self.store.connection.execute(text.encode())
            # (reversed, since the numbers say the order)
            self.store.connection.cursor().executemany("INSERT INTO entries VALUES (%s, %s, %s)", list(reversed(rows)))
            self.store.connection.execute(statement.replace("spki.", f"{self.schema}.").encode())
        self.check_entries(wanted)

    def test_store_of_an_earlier_init(self) -> None:
        """A store without the newer columns and functions gets them as the page says. Then `beat` and keepers work, and others may not keep."""
        for text in ("ALTER TABLE {heartbeat} DROP waits, DROP holder, DROP ended", "ALTER TABLE {chains} DROP named",
                     f"DROP FUNCTION {self.schema}.keep"):
            self.store.rows(text)
        schema = pathlib.Path(tables.SCHEMA).read_text().replace("@SCHEMA@", self.schema)
        statements = re.findall(r"^    (ALTER TABLE spki\..*;)$", text_of("apps/spki-store/README.md"), re.MULTILINE)
        functions = re.findall(r"^CREATE FUNCTION (.*?^END \$\$;)$", schema, re.MULTILINE | re.DOTALL)
        self.assertEqual((len(statements), len(functions)), (2, 4))
        with self.store.connection.transaction():
            for text in (*[each.replace("spki.", f"{self.schema}.") for each in statements],
                         *[f"CREATE OR REPLACE FUNCTION {each}" for each in functions], schema[schema.index("\nREVOKE"):]):
                self.store.connection.execute(text.encode())
        kim, rob, wilma = (self.make_account(*words) for words in (("kim", "keeper"), ("rob", "reader"), ("wilma", "writer")))
        keep = f"SELECT {self.schema}.keep(sha256(''), '', now() + '1 h', 1, 1, true)"
        self.assertEqual(kim.rows(keep), [("kept",)])
        self.assertRaises(psycopg.errors.InsufficientPrivilege, rob.rows, keep)
        wilma.beat(3, "holder", 1)
        self.assertEqual(rob.rows("SELECT waits, holder, ended FROM {heartbeat}"), [(3, "holder", 1)])


class Schema(OfStore):
    """What the database itself refuses, what it lets pass, and what it notes."""

    def check_refused(self, fault: type[Exception], text: str, *values: Any, role: str = "") -> None:
        """The database must refuse a statement with these values by this exception. `role` is `reader` or `writer`, or empty for the owner."""
        with self.subTest(text), self.assertRaises(fault), self.store.connection.transaction():
            if role:
                self.store.connection.execute(f"SET LOCAL ROLE {self.schema}_{role}")
            self.store.rows(text, *values)

    def test_the_database_computes_principals(self) -> None:
        """The database computes the principal of a row from its text: the SHA-256 digest of a key, or the digest of a hash, also in a name. A text is
        refused that is not one list in canonical form that begins with `entry` and a principal."""
        key = b"(10:public-key(4:test1:a))"
        hinted = b"(5:entry(4:hash6:sha256[1:x]32:" + b"h" * 32 + b")(3:tag(1:*)))"  # (its digest has a display hint)
        for text, wanted in {ENTRY: hashlib.sha256(key).digest(), ENTRY_OF_ZEROS: bytes(32), hinted: b"h" * 32,
                             b"(5:entry(4:name" + key + b"1:n)(3:tag(1:*)))": hashlib.sha256(key).digest(),
                             b"(5:entry(4:hash6:sha51264:" + b"(" * 64 + b")(3:tag(1:*)))": b"(" * 64}.items():  # (a digest opens no list)
            number = self.store.add(text)
            self.assertEqual(self.store.rows("SELECT principal FROM {entries} WHERE number = %s", number), [(wanted,)])
            self.assertEqual(texts.principal_of(text), wanted)
        for bad in (ENTRY + ENTRY, ENTRY[:-1], ENTRY + b")", b" " + ENTRY, b"", b"x", b"(3:tag(1:*))", ENTRY.replace(b"10:public-key", b"4:mask"),
                    *(ENTRY.replace(b"1:a", octets) for octets in (b"9:a", b"a", b"99999999999:a")), ENTRY_OF_ZEROS.replace(b"32:", b"31:", 1),
                    b"(5:entry(4:hash6:sha2564:abcd)(3:tag(1:*)))", b"(5:entry(4:hash6:sha256)(3:tag(1:*)))"):
            self.check_refused(psycopg.Error, "INSERT INTO {entries} (text) VALUES (%s)", bad)

    def test_statements_in_values(self) -> None:
        """Text that looks like a statement of SQL is only a value: in a tag, in a remark, and as a principal that is looked for."""
        hostile = b"'); DROP SCHEMA public CASCADE; --"
        entry = key_entry(b"a", b"(%d:%s)" % (len(hostile), hostile))
        number = self.store.add(entry)
        self.store.end(bytes(32), hostile.decode())
        self.assertEqual([(row.number, row.text) for row in self.store.all()], [(number, entry)])
        self.assertEqual(self.store.rows("SELECT remark FROM {ended}"), [(hostile.decode(),)])
        self.assertEqual(self.spki_store(0, "diff", self.file(b"(3:acl" + entry + b")")), "entries that differ: 0\n")
        self.assertEqual(self.store.entries_for([hostile]), [])

    def test_functions_of_others(self) -> None:
        """A function of another schema that fits better than one of the system is not called: somebody else may have made it."""
        with self.store.connection.transaction(force_rollback=True):
            self.store.connection.execute("CREATE FUNCTION public.unnest(bytea[]) RETURNS SETOF bytea LANGUAGE sql AS 'SELECT NULL::bytea'")
            transfer.add_noted(self.store, [ENTRY], bytes(32), 0, 1, 1, is_done=False)
            self.assertEqual([row.text for row in self.store.all()], [ENTRY])

    def test_row_that_is_no_entry(self) -> None:
        """`check` finds an entry that the constraints of the database let pass: here one without its tag. It finds each row that is none also if they
        join into entries, as many as there are rows, where somebody has changed what the database tests."""
        self.store.rows("INSERT INTO {entries} (text) VALUES (%s), (%s)", ENTRY, ENTRY.replace(b"(3:tag(1:*))", b""))
        self.assertEqual(self.spki_store(1, "check").splitlines()[-1], "entries checked: 2, wrong 1")
        self.store.rows("DELETE FROM {entries}")
        self.pass_all_rows()
        self.store.rows("INSERT INTO {entries} (text) VALUES (%s), (%s), (%s)", ENTRY + ENTRY[:9], ENTRY[9:], ENTRY)
        self.assertEqual(self.spki_store(1, "check").splitlines()[-1], "entries checked: 3, wrong 2")

    def test_what_readers_and_writers_may_do(self) -> None:
        """A reader cannot write, or see a change's account or text. A writer adds, removes, ends and beats. The owner too edits no entry or log."""
        self.store.add(ENTRY)
        no_privilege = psycopg.errors.InsufficientPrivilege
        for role in ("reader", "writer"):
            for text in ("UPDATE {entries} SET text = text", "TRUNCATE {entries}", "UPDATE {changes} SET who = ''", "DELETE FROM {changes}",
                         "TRUNCATE {changes}", "INSERT INTO {changes} SELECT * FROM {changes}", "UPDATE {state} SET changes = 0",
                         "DELETE FROM {ended}", "UPDATE {ended} SET remark = ''", "DELETE FROM {heartbeat}", "DROP TABLE {entries}",
                         "INSERT INTO {entries} (number, text) OVERRIDING SYSTEM VALUE SELECT 9, text FROM {entries}"):
                self.check_refused(no_privilege, text, role=role)
        for text in ("INSERT INTO {entries} (text) SELECT text FROM {entries}", "DELETE FROM {entries}", "UPDATE {heartbeat} SET number = 9",
                     "INSERT INTO {ended} (certificate) VALUES ('x')", "SELECT who FROM {changes}", "SELECT text FROM {changes}",
                     "SELECT * FROM {imports}"):
            self.check_refused(no_privilege, text, role="reader")
        for text in ("UPDATE {entries} SET text = text", "DELETE FROM {changes}", "TRUNCATE {entries}", "TRUNCATE {changes}", "DELETE FROM {ended}"):
            self.check_refused(no_privilege, text)
        with self.store.connection.transaction():
            self.store.connection.execute(f"SET LOCAL ROLE {self.schema}_writer")
            number = self.store.add(ENTRY)
            self.assertTrue(self.store.remove(number) and self.store.end(bytes(32), "") and self.store.beat())
        with self.store.connection.transaction():
            self.store.connection.execute(f"SET LOCAL ROLE {self.schema}_reader")
            self.assertEqual(self.store.rows("SELECT number, what FROM {changes} ORDER BY number"),
                             [(1, "add"), (2, "add"), (3, "remove"), (4, "end")])

    def test_an_adder_removes_only_its_own_entries(self) -> None:
        """An `adder` can remove only what the same account has added, and a `writer` any entry. The log has the accounts."""
        ann, ben, carl = (self.make_account(*words) for words in (("ann", "adder"), ("ben", "adder"), ("carl", "writer")))
        first, second = ann.add(ENTRY), ben.add(ENTRY_OF_ZEROS)
        with contextlib.redirect_stdout(io.StringIO()), contextlib.redirect_stderr(io.StringIO()) as errors:
            self.assertEqual(commands.remove(ann, argparse.Namespace(numbers=[second])), 1)
        self.assertIn(f"entry {second} still counts", errors.getvalue())
        self.assertEqual([ann.remove(second), ben.remove(first), ben.remove(second), carl.remove(first)], [False, False, True, True])
        for text in ("INSERT INTO {ended} (certificate) VALUES (sha256(''))", "INSERT INTO {entries} (text, who) VALUES ('', '')",
                     "UPDATE {entries} SET who = ''", "SELECT * FROM {imports}", "SELECT text FROM {changes}"):
            with self.subTest(text), self.assertRaises(psycopg.errors.InsufficientPrivilege):
                ann.rows(text)
        transfer.add_noted(carl, [ENTRY, ENTRY_OF_ZEROS], bytes(32), 0, 1, 2, is_done=False)
        self.assertEqual([(who.rpartition("_")[2], change) for who, change in self.store.rows("SELECT who, what FROM {changes} ORDER BY number")],
                         [("ann", "add"), ("ben", "add"), ("ben", "remove"), ("carl", "remove"), ("carl", "add"), ("carl", "add")])

    def test_a_keeper_keeps_certificates_within_limits(self) -> None:
        """An account of the role `keeper`, which keeps certificates of clients, can do so by one function alone, within limits: here for at most 2
        keys, and at most 2 texts of each. A text whose time has ended is removed, and one that no list names where another one needs its room."""
        kim, reader = self.make_account("kim", "keeper"), self.make_account("rob", "reader")
        keep = f"SELECT {self.schema}.keep(%s, %s, now() + '1 h', 2, 2, %s)"

        def keep_text(key: int, text: bytes, is_named: bool = False) -> str:
            """What the function answers to a text of a client, the digest of whose key is 32 octets `key`: `kept`, `known` or `full`."""
            (word,), = kim.rows(keep, bytes([key]) * 32, text, is_named)
            return str(word)
        self.assertEqual([keep_text(1, b"a"), keep_text(1, b"a"), keep_text(1, b"b"), keep_text(1, b"c"), keep_text(2, b"a"), keep_text(3, b"a")],
                         ["kept", "known", "kept", "full", "kept", "full"])
        self.store.rows("UPDATE {chains} SET until = now() WHERE key = %s", bytes([2]) * 32)
        self.assertEqual(keep_text(3, b"a"), "kept")
        self.assertEqual(kim.rows("SELECT key, text FROM {chains} ORDER BY key, text"),
                         [(bytes([1]) * 32, b"a"), (bytes([1]) * 32, b"b"), (bytes([3]) * 32, b"a")])
        for store, text in ((kim, "INSERT INTO {chains} (key, until, text) VALUES (sha256(''), now(), '')"), (kim, "DELETE FROM {chains}"),
                            (kim, "SELECT * FROM {entries}"), (reader, "SELECT * FROM {chains}")):
            with self.subTest(text), self.assertRaises(psycopg.errors.InsufficientPrivilege):
                store.rows(text)
        with self.assertRaises(psycopg.errors.InsufficientPrivilege):
            reader.rows(keep, bytes(32), b"", False)
        self.assertRaises(psycopg.Error, keep_text, 3, bytes(8192 + 1))  # (the table has texts of at most 8,192 octets)
        # (what no list names gives way to what one names: a text of the same key, or a whole key, and never the reverse)
        for key, shown, is_named, word, kept in (
                (1, b"n", True, "kept", "1b 1n 3a"), (2, b"n", True, "kept", "1b 1n 2n"), (3, b"x", False, "full", "1b 1n 2n"),
                (3, b"n", True, "full", "1b 1n 2n"), (1, b"b", True, "known", "1b 1n 2n"), (1, b"m", True, "full", "1b 1n 2n"),
                (2, b"x", False, "kept", "1b 1n 2n 2x"), (2, b"m", True, "kept", "1b 1n 2m 2n"), (2, b"x", False, "full", "1b 1n 2m 2n")):
            self.assertEqual(keep_text(key, shown, is_named), word, (key, shown))
            rows = kim.rows("SELECT key, text FROM {chains} ORDER BY key, text")
            self.assertEqual(" ".join(f"{row[0][0]}{row[1].decode()}" for row in rows), kept, (key, shown))

    def test_changes_are_numbered_in_order(self) -> None:
        """A change waits for the end of another transaction with a change, so no lower number appears after a higher one. If that stays open, the
        change fails, and `spki-store` says which process holds the store."""
        words = ("end", "00" * 32)
        with self.store.connection.transaction(), mock.patch.object(tables, "WAITS", 50):
            self.store.add(ENTRY)
            self.assertIn(f"process {self.store.connection.info.backend_pid} of 'postgres'", self.spki_store(3, *words))
        self.spki_store(0, *words)
        self.assertEqual(self.store.rows("SELECT number, what FROM {changes} ORDER BY number"), [(1, "add"), (2, "end")])


# ---- the daemon


@needs.needs("go", DRIVER)
class OfDaemon(OfStore):
    """Tests of the daemon with the driver of PostgreSQL."""

    def go(self, *words: str, **more: str) -> str:
        """Runs a command of Go for the daemon, which must succeed. Returns what it writes. `more` are environment variables."""
        done = golang.go(golang.DAEMON, list(words), self.library, None, **more)
        output = (done.stdout + done.stderr).decode(errors="replace")
        self.assertEqual(done.returncode, 0, output[-4000:])
        return output


class WithDriver(OfDaemon):
    """The daemon's code in Go that is built with the driver."""

    def test_go_vet_finds_nothing(self) -> None:
        self.go("vet", *WITH_DRIVER, ".")

    @needs.needs("go-staticcheck")
    def test_staticcheck_finds_nothing(self) -> None:
        settings = {**golang.settings(self.library), "XDG_CACHE_HOME": os.path.join(TESTS, "out", "staticcheck")}
        settings["GOFLAGS"] += " -modfile=postgres.mod"
        output = output_of("go-staticcheck", "-tags", "spki_postgres", ".", cwd=golang.DAEMON, env=settings, seconds=golang.SECONDS)
        self.assertEqual(output, (0, ""))

    def test_answers_while_the_store_changes(self) -> None:
        """Generated questions are asked while another client changes the store. Each answer is that of the guard of the whole list."""
        output = self.go("test", *WITH_DRIVER, "-count=1", "-run", "ToStore|Transact|Pool|Quoted", "-v", ".", SPKI_STORE_HOST=self.server.folder,
                         SPKI_STORE_SEED=str(secrets.randbelow(1 << 32)), SPKI_STORE_SCHEMA=self.schema, SPKI_STORE_QUESTIONS=str(QUESTIONS))
        self.assertIn("--- PASS: TestQuestionsToStore", output)  # (it asks them; the others try parts of the client)


# `stale_seconds` of the daemons: the state of a store that is older decides nothing.
STALE = 3
SITE = "files.example.org"  # (to which clients sign requests)


class StoreDaemon:
    """A daemon with a list in PostgreSQL."""

    def __init__(self, room: str, program: str, server: databases.Server, schema: str, *before: str, chains: object = None, **more: str) -> None:
        """Starts the daemon, with its files in the folder `room`. `before` is a command that runs it, as words. `chains` is its setting of this name,
        with which clients can leave certificates. `more` are other settings of its list."""
        os.makedirs(room, exist_ok=True)
        store = {"host": server.folder, "database": "postgres", "user": "postgres", "schema": schema, "stale_seconds": STALE, **more}
        with_chains = {"signatures": {"names": [SITE]}, "chains": chains} if chains else {}
        self.daemon = test_go.Daemon(room, program, "(acl)", *before, list={"postgres": store}, **with_chains)
        self.room, self.process = room, self.daemon.process

    def status(self, who: Person, sequence: bytes = b"") -> int:
        """The status of the answer to a request of a person for /web/a, who shows a sequence or none."""
        return self.daemon.ask(who, "GET", "/web/a", sequence).status

    def wait_for_status(self, wanted: int, who: Person, sequence: bytes = b"") -> None:
        """Waits until a person's request is answered with this status. Fails as `waits_for` does if that takes too long."""
        waits_for(f"{wanted} for {os.path.basename(who.path)} from {self.room}", lambda: self.status(who, sequence) == wanted)

    def kill(self) -> None:
        """Ends the daemon at once, if it still runs."""
        if self.process.poll() is None:
            self.process.kill()
            self.process.communicate()


def wait_for_all(daemons: Iterable[StoreDaemon], wanted: int, *people: Person) -> None:
    """Waits until each daemon answers a request of each of these people with this status. The test fails if that takes too long."""
    for daemon, who in itertools.product(daemons, people):
        daemon.wait_for_status(wanted, who)


@needs.needs("openssl", "import cryptography")
class OfServed(OfDaemon):
    """Tests of the daemon as a program."""

    program: str
    people: dict[str, Person]

    @classmethod
    def setUpClass(cls) -> None:
        super().setUpClass()
        room = room_for(cls)
        cls.program = golang.build_daemon(cls.library, os.path.join(room, "spki-authd"), *WITH_DRIVER)
        cls.people = {name: Person(room, name, "ed25519") for name in ("alice", "bob", "mallory")}

    def start_daemon(self, name: str, server: databases.Server, *before: str, chains: object = None, **more: str) -> StoreDaemon:
        """Starts a daemon with the store of a server, in a folder of this name. It is killed after the test. `before` is a command that runs it, as
        words, `chains` its setting of this name, and `more` other settings of its list."""
        daemon = StoreDaemon(os.path.join(self.room, name), self.program, server, self.schema, *before, chains=chains, **more)
        self.addCleanup(daemon.kill)
        return daemon

    def start_asker(self, daemons: list[StoreDaemon], who: Person) -> "Asker":
        """Starts to ask daemons for a person, until `end` of the asker is called or the test ends."""
        asker = Asker(daemons, who)
        asker.start()
        self.addCleanup(asker.end)
        return asker

    def add_entry(self, who: Person, store: Store | None = None) -> int:
        """Adds an entry, by which a person reads below /web/ and delegates that, to a store, by default that of the test. Returns its number."""
        text = texts.entry_of(f"(entry {who.key} (propagate) (tag (files read (* prefix /web/))))".encode())
        return (store or self.store).add(text)


class Served(OfServed):
    """The daemon with the store of one server, which is also killed or hangs."""

    def test_the_daemon_follows_the_store(self) -> None:
        """An entry that is added grants. One that is removed and a certificate that has ended do not. If the state of the store is stale, since there
        is no heartbeat or no server, each answer is 503."""
        alice, bob, mallory = (self.people[name] for name in ("alice", "bob", "mallory"))
        beats, sequence = self.start_beat(self.server.address), alice.gives(bob, "(files read (* prefix /web/))")
        authd = self.start_daemon("one", self.server)
        authd.wait_for_status(401, alice)
        number = self.add_entry(alice)
        authd.wait_for_status(200, alice)
        answer = authd.daemon.ask(bob, "GET", "/web/a", sequence)
        self.assertEqual((answer.status, answer.headers["X-Spki-Entry"]), (200, str(number)))
        self.assertEqual(authd.daemon.last_grant()["list"], "change 1")
        self.assertEqual((authd.status(mallory), authd.status(mallory, sequence)), (401, 403))
        self.assertEqual([authd.daemon.run(word)[0] for word in ("-health", "-state")], [0, 0])
        digests = authd.daemon.last_grant()["certificates"]
        assert isinstance(digests, list)
        self.spki_store(0, "end", *digests)
        authd.wait_for_status(403, bob, sequence)
        self.assertEqual(authd.status(alice), 200)
        self.spki_store(0, "remove", str(number))
        authd.wait_for_status(401, alice)
        self.add_entry(alice)
        authd.wait_for_status(200, alice)
        beats.kill()
        authd.wait_for_status(503, alice)
        self.assertEqual((authd.status(bob, sequence), authd.status(mallory)), (503, 503))
        status, output, errors = authd.daemon.run("-health")
        self.assertEqual((status, "is stale" in errors), (1, True), output + errors)
        self.start_beat(self.server.address)
        authd.wait_for_status(200, alice)
        self.server.kill()
        authd.wait_for_status(503, alice)
        self.server.start()
        authd.wait_for_status(200, alice)

    def test_certificates_left_with_one_daemon_count_at_another(self) -> None:
        """Certificates that a client leaves with one daemon are used by another one."""
        self.start_beat(self.server.address)
        store = {"host": self.server.folder, "database": "postgres", "user": "postgres", "schema": self.schema}
        alice, bob = self.people["alice"], self.people["bob"]
        sequence = alice.gives(bob, "(files read (* prefix /web/))")
        self.add_entry(alice)
        one, other = (self.start_daemon(name, self.server, chains={"postgres": store}) for name in ("one", "other"))
        one.wait_for_status(200, alice)
        other.wait_for_status(401, bob)
        body, target = self.file(sequence, "sequence"), "/.well-known/spki-chain"
        fields = test_go.spki_cert("request", "--by", bob.path, "--body", body, f"https://{SITE}{target}").decode().splitlines()
        connection = test_go.OverSocket(one.daemon.socket)
        connection.request("PUT", target, sequence, {"Host": SITE, **dict(field.split(": ", 1) for field in fields)})
        answer = connection.getresponse()
        self.assertEqual((answer.status, answer.headers["X-Spki-Answer"]), (201, "kept"))
        connection.close()
        other.wait_for_status(200, bob)
        self.assertEqual(other.daemon.last_grant()["kept"], "used")

    def test_rows_that_are_no_entries(self) -> None:
        """Rows for Alice that are no entries, some of which join into what looks like some, are skipped, counted and logged. Her entry grants all the
        same."""
        self.start_beat(self.server.address)
        alice, authd = self.people["alice"], self.start_daemon("rows", self.server)
        entry = texts.entry_of(f"(entry {alice.key} (tag (files read (* prefix /web/))))".encode())
        self.pass_all_rows(entry)
        for text in (entry[:40], entry[40:], b"", entry + entry, entry.replace(b"(3:tag", b"(3:gat"), entry + entry[:40], entry, entry[40:],
                     b"(5:entry"):
            number = self.store.add(text)
        authd.wait_for_status(200, alice)
        self.assertEqual((authd.daemon.last_grant()["entry"], authd.daemon.last_grant()["skipped"]), (number - 2, 8))
        self.assertIn('\nspki_authd_store_rows_skipped_total{list="1"} 8\n', authd.daemon.run("-metrics")[1])
        self.assertEqual(self.spki_store(1, "check").splitlines()[-1], "entries checked: 9, wrong 8")

    def test_an_adder_that_holds_a_removal_off(self) -> None:
        """While a removal waits for an adder who has locked the table, the daemon's health and metrics say so. `spki-store beat` ends the adder after
        the usual time, and the removal is made."""
        alice, authd = self.people["alice"], self.start_daemon("held", self.server)
        beats = Beats(self.make_account("bea", "writer", "pg_signal_backend", "pg_read_all_stats"))
        number = self.add_entry(alice)
        holder = self.begin(self.make_account("ann", "adder"), "LOCK TABLE {entries} IN SHARE ROW EXCLUSIVE MODE")
        removal = self.start_removal(number)

        def is_said() -> bool:
            """Beats and looks, and says whether the daemon's health fails since a change waits."""
            beats.beat()
            self.assertEqual(beats.look(0), [])
            status, _, errors = authd.daemon.run("-health")
            return status == 1 and re.search(rf"a change of the store has waited [1-9]\d* s for process {holder} of ", errors) is not None
        waits_for("the daemon's health fails", is_said)
        self.assertRegex(authd.daemon.run("-metrics")[1], r'\nspki_authd_store_change_waits_seconds\{list="1"\} [1-9]')
        self.assertFalse(removal.done())
        self.start_beat(beats.store.settings)
        self.assertTrue(removal.result())
        authd.wait_for_status(401, alice)
        waits_for("the daemon's health is well", lambda: authd.daemon.run("-health")[0] == 0)
        self.assertIn('\nspki_authd_store_holders_ended_total{list="1"} 1\n', authd.daemon.run("-metrics")[1])

    def test_server_that_hangs(self) -> None:
        """If the server of PostgreSQL accepts statements and answers nothing, the daemon answers 503, and does not hang."""
        self.start_beat(self.server.address)
        self.wait_for_beat()
        alice, authd = self.people["alice"], self.start_daemon("hangs", self.server)
        self.add_entry(alice)
        authd.wait_for_status(200, alice)
        assert self.server.process is not None
        processes = [self.server.process.pid, *children_of(self.server.process.pid)]
        try:
            for each in processes:
                os.kill(each, signal.SIGSTOP)
            authd.wait_for_status(503, alice)
            self.assertEqual(authd.status(self.people["mallory"]), 503)
        finally:
            for each in processes:
                os.kill(each, signal.SIGCONT)
        authd.wait_for_status(200, alice)


def children_of(process: int) -> list[int]:
    """The numbers of the processes that a process has started and that still run. (ps has status 1 if there are none.)"""
    listed = subprocess.run(["ps", "-o", "pid=", "--ppid", str(process)], stdout=subprocess.PIPE, text=True, check=False).stdout
    return [int(each) for each in listed.split()]


class Asker(threading.Thread):
    """Asks daemons for a person again and again, whatever fails. `granted` has when each granted request began and ended, by `time.monotonic`."""

    def __init__(self, daemons: list[StoreDaemon], who: Person) -> None:
        super().__init__()
        self.daemons, self.who, self.ends = daemons, who, threading.Event()
        self.granted: list[tuple[float, float]] = []

    def run(self) -> None:
        while not self.ends.is_set():
            for each in self.daemons:
                begun = time.monotonic()
                with contextlib.suppress(OSError, http.client.HTTPException):  # (the tests kill daemons and servers)
                    if each.status(self.who) == 200:
                        self.granted.append((begun, time.monotonic()))

    def end(self) -> list[tuple[float, float]]:
        """Stops asking. Returns when each granted request began and ended. It may be called twice."""
        self.ends.set()
        self.join()
        return self.granted


class Heartbeat(OfStore):
    """The heartbeat, where another server takes the place of the primary, where a host does not answer, and where no server takes a beat."""

    def last_beat(self, server: databases.Server) -> int:
        """The number of the last heartbeat that a server has."""
        with contextlib.closing(Store(server.address, self.schema)) as store:
            (number,), = store.rows("SELECT number FROM {heartbeat}")
            return int(number)

    def test_primary_that_is_heard_by_no_replica(self) -> None:
        """A primary that waits for a replica, which does not hear it, acknowledges no beat and ends no connection. The heartbeat leaves it, finds the
        new primary within 5 seconds, and beats there."""
        with self.server.replica() as replica:
            change_setting(self.server, "synchronous_standby_names", "ANY 1 (*)")
            self.addCleanup(change_setting, self.server, "synchronous_standby_names", "")
            self.start_beat(f"host={self.server.folder},{replica.folder} user=postgres dbname=postgres target_session_attrs=read-write")
            waits_for("the replica has a beat", lambda: self.last_beat(replica) > 1)
            change_setting(replica, "primary_conninfo", "host=/none")
            # (in this time the heartbeat tries again and again: its first beat waits at the primary, and those behind that give up)
            time.sleep(STALE + 3)
            last = self.last_beat(replica)
            self.assertEqual(self.last_beat(self.server), last)
            with psycopg.connect(self.server.address) as connection:
                (waiting,), = connection.execute("SELECT count(*) FROM pg_stat_activity WHERE application_name = 'spki-store'").fetchall()
            self.assertLessEqual(waiting, 4, "the beats that are left do not wait for ever")  # (two beats, and connections that begin or end)
            replica.promote()
            promoted = time.monotonic()
            waits_for("the new primary has a beat", lambda: self.last_beat(replica) > last)
            self.assertLess(time.monotonic() - promoted, 5)

    def test_a_silent_host_does_not_delay_the_beat(self) -> None:
        """A host that accepts connections and answers nothing does not delay the beat to the other host by the 3 seconds that a connection may take,
        also if the other host is named twice. libpq looks for the socket by its name, `.s.PGSQL.5432`."""
        silent = socket.socket(socket.AF_UNIX)
        self.addCleanup(silent.close)
        silent.bind(os.path.join(self.room, ".s.PGSQL.5432"))
        silent.listen()
        store = Store(f"host={self.server.folder},{self.room},{self.server.folder} user=postgres dbname=postgres", self.schema)
        self.addCleanup(store.close)
        beats = Beats(store)
        # (the silent host becomes the first one)
        beats.hosts.reverse()
        store.close()

        def is_made() -> bool:
            """Makes a beat, and says whether that succeeded: on a busy machine the other host may take longer than one attempt waits."""
            with contextlib.suppress(psycopg.OperationalError):
                beats.beat()
                return True
            return False

        begun = time.monotonic()
        waits_for("a beat is made at the other host", is_made)
        self.assertLess(time.monotonic() - begun, 3)
        self.assertGreater(self.last_beat(self.server), 0)

    def test_a_beat_that_fails_waits(self) -> None:
        """If no server takes a first beat, the heartbeat tries again after a pause."""
        fails, pauses = mock.patch.object(Beats, "beat", side_effect=psycopg.OperationalError), mock.patch("time.sleep", side_effect=[None, EOFError])
        with fails, pauses as sleep, contextlib.redirect_stderr(io.StringIO()), self.assertRaises(EOFError):
            commands.beat(self.store, argparse.Namespace(times=0))  # (0: without end, so the second pause ends it)
        self.assertTrue(all(call.args[0] > 0 for call in sleep.call_args_list))


class Holders(OfStore):
    """Whom `beat` finds to hold changes up, and ends. A look is `Beats.look`, which ends those for whom a change has waited some seconds."""

    def setUp(self) -> None:
        super().setUp()
        self.ann = self.make_account("ann", "adder")
        self.number = self.store.add(ENTRY)

    def beats(self, name: str, *roles: str) -> Beats:
        """The heartbeat of a new account that is a writer, and has `roles` of the server."""
        return Beats(self.make_account(name, "writer", *roles))

    def look_until_told(self, beats: Beats, seconds: int) -> str:
        """Beats and looks, as `beat` does, until a look tells something. Returns that. Each holder is ended for whom a change has waited so long."""
        told: list[str] = []

        def is_told() -> bool:
            beats.beat()
            told.extend(beats.look(seconds))
            return bool(told)
        waits_for("something is told", is_told)
        return "\n".join(told)

    def test_an_adder_cannot_hold_a_removal_off(self) -> None:
        """An adder that has locked the table, waits to lock it behind somebody who reads, or has added and does not commit, is ended. The removal is
        made then, and who reads stays."""
        beats, rob = self.beats("bea", "pg_signal_backend", "pg_read_all_stats"), self.make_account("rob", "reader")
        added = f"INSERT INTO {{entries}} (text) VALUES ('\\x{ENTRY.hex()}')"
        for begun in ("LOCK TABLE {entries} IN SHARE ROW EXCLUSIVE MODE", "LOCK TABLE {entries}", added):
            with self.subTest(begun):
                holder = self.begin(self.ann, begun)
                removal = self.start_removal(self.number)
                self.assertEqual(self.look_until_told(beats, 1), f"process {holder} of '{self.schema}_ann' held changes up, and is ended")
                self.assertTrue(removal.result())
                self.number = self.store.add(ENTRY)
        reader = self.begin(rob, "SELECT * FROM {entries}")
        waiting = threading.Thread(target=self.assertRaises, args=(psycopg.OperationalError, self.begin, self.ann, "LOCK TABLE {entries}"))
        waiting.start()
        self.addCleanup(waiting.join)
        waits_for("the adder waits", lambda: bool(self.store.rows("SELECT 1 FROM pg_locks WHERE NOT granted")))
        removal = self.start_removal(self.number)
        self.assertIn("of '%s_ann' held changes up, and is ended" % self.schema, self.look_until_told(beats, 1))
        self.assertTrue(removal.result())
        self.assertEqual(self.store.rows("SELECT state FROM pg_stat_activity WHERE pid = %s", reader), [("idle in transaction",)])
        beats.beat()
        self.assertEqual(self.store.rows("SELECT ended FROM {heartbeat}"), [(4,)])

    def test_who_is_not_ended(self) -> None:
        """Nobody is ended by an account without the rights, after 0 seconds, or while nobody waits; and neither is a change that waits itself, nor a
        superuser. What the heartbeat notes says for whom a change waits."""
        weak, beats, off = self.beats("weak"), self.beats("bea", "pg_signal_backend", "pg_read_all_stats"), self.beats("off", "pg_read_all_stats")
        numbers = [self.number, self.store.add(ENTRY)]
        holder = self.begin(self.ann, f"INSERT INTO {{entries}} (text) VALUES ('\\x{ENTRY.hex()}')")
        time.sleep(1.1)  # (nobody is ended in the first second of a transaction)
        self.assertEqual((beats.store.awaited(), beats.look(1)), ([], []))
        removals = [self.start_removal(number) for number in numbers]
        self.assertIn("or this account lacks the role pg_read_all_stats", self.look_until_told(weak, 1))
        self.assertIn("pg_signal_backend", self.look_until_told(off, 1))
        beats.beat()
        self.assertEqual(beats.look(0), [])
        beats.beat()
        (waits, who, ended), = self.store.rows("SELECT waits, holder, ended FROM {heartbeat}")
        self.assertEqual((waits > 0, who, ended), (True, f"process {holder} of '{self.schema}_ann'", 0))
        self.assertEqual([removal.done() for removal in removals], [False, False])
        self.assertIn("is ended", self.look_until_told(beats, 1))
        self.assertEqual([removal.result() for removal in removals], [True, True])
        number = self.store.add(ENTRY)
        superuser = self.begin(self.store, "LOCK TABLE {entries}")
        removal = self.start_removal(number)
        self.assertIn("superuser", self.look_until_told(beats, 1))
        self.store.rows("SELECT pg_terminate_backend(%s)", superuser)
        self.assertTrue(removal.result())

    def test_who_waits_for_a_replica_is_not_ended(self) -> None:
        """An adder whose entry waits for a replica has changed the store already, and is not ended. The heartbeat waits for no replica here."""
        beats = self.beats("bea", "pg_signal_backend", "pg_read_all_stats")
        beats.store.rows("SET synchronous_commit = local")
        one_waits = threading.Event()

        def add() -> None:
            """Adds entries until one waits. (The server takes the setting a moment later, so the first ones may not wait.)"""
            while not one_waits.is_set():
                self.ann.add(ENTRY)
        adder = threading.Thread(target=add)
        self.addCleanup(adder.join)
        self.addCleanup(one_waits.set)
        self.addCleanup(change_setting, self.server, "synchronous_standby_names", "")
        change_setting(self.server, "synchronous_standby_names", "ANY 1 (*)")
        adder.start()
        waits_for("the adder waits for a replica", lambda: bool(self.store.rows("SELECT 1 FROM pg_stat_activity WHERE wait_event = 'SyncRep'")))
        one_waits.set()
        removal = self.start_removal(self.number)
        self.assertIn("is not ended: it waits for a replica", self.look_until_told(beats, 1))
        change_setting(self.server, "synchronous_standby_names", "")
        self.assertTrue(removal.result())


class Replicated(OfServed):
    """Daemons at replicas: one of two takes the place of a primary that is killed, and HAProxy asks no daemon whose replica is behind."""

    def test_a_removed_entry_grants_nothing_after_a_failover(self) -> None:
        """Nobody is granted anything by an entry whose removal is older than `stale_seconds`, whatever dies."""
        with contextlib.ExitStack() as stack:
            replicas = [stack.enter_context(self.server.replica()) for _ in range(2)]
            servers = [self.server, *replicas]
            anywhere = f"host={','.join(each.folder for each in servers)} user=postgres dbname=postgres target_session_attrs=read-write"
            self.start_beat(anywhere)
            self.wait_for_beat()
            alice, bob, mallory = (self.people[name] for name in ("alice", "bob", "mallory"))
            daemons = [self.start_daemon(f"on-{place}", each) for place, each in enumerate(replicas)]
            askers = [self.start_asker(daemons, each) for each in (bob, mallory)]
            self.add_entry(alice)
            number = self.add_entry(bob)
            wait_for_all(daemons, 200, alice, bob)
            self.check_lag(replicas[0], daemons)
            self.store.remove(number)
            removed = time.monotonic()
            wait_for_all(daemons, 401, bob)
            self.server.kill()
            self.addCleanup(self.server.start)
            wait_for_all(daemons, 503, alice)
            replicas[0].promote()
            daemons[0].wait_for_status(200, alice)
            self.assertEqual(daemons[1].status(alice), 503)
            follow(replicas[1], replicas[0])
            daemons[1].wait_for_status(200, alice)
            new_primary = Store(anywhere, self.schema)
            stack.callback(new_primary.close)
            added_again = time.monotonic()
            number = self.add_entry(bob, new_primary)
            wait_for_all(daemons, 200, bob)
            new_primary.remove(number)
            removed_again = time.monotonic()
            wait_for_all(daemons, 401, bob)
            bobs, mallorys = [each.end() for each in askers]
            self.assertEqual(mallorys, [])
            self.assertTrue(bobs)
            self.assertEqual([begun for begun, ended in bobs if begun > removed + STALE and ended < added_again], [])
            self.assertEqual([begun for begun, _ in bobs if begun > removed_again + STALE], [])

    def check_lag(self, replica: databases.Server, daemons: list[StoreDaemon]) -> None:
        """Has `replica`, which the first of two daemons asks, apply no changes for a while. This daemon must answer 503, and the other must grant."""
        alice = self.people["alice"]
        with psycopg.connect(replica.address, autocommit=True) as connection:
            connection.execute("SELECT pg_wal_replay_pause()")
            daemons[0].wait_for_status(503, alice)
            self.assertEqual(daemons[1].status(alice), 200)
            connection.execute("SELECT pg_wal_replay_resume()")
        daemons[0].wait_for_status(200, alice)

    @needs.needs("haproxy")
    def test_behind_haproxy(self) -> None:
        """HAProxy asks only daemons that decide: not one whose replica is behind, nor one that is gone. It checks them by requests of `checker`."""
        alice, checker = self.people["alice"], self.people["bob"]
        with self.server.replica() as replica, contextlib.ExitStack() as stack:
            self.start_beat(self.server.address)
            daemons = [self.start_daemon("behind", replica), self.start_daemon("direct", self.server)]
            front = os.path.join(self.room, "front")
            names = {"front": front, "one": daemons[0].daemon.socket, "other": daemons[1].daemon.socket}
            certificate = urllib.parse.quote(checker.certificate).replace("%", "%%")  # (HAProxy reads `%%` as `%`)
            config = self.file(PROXY.format(**names, certificate=certificate).encode(), "haproxy.cfg")
            process = subprocess.Popen(["haproxy", "-f", config], stdout=subprocess.DEVNULL, stderr=subprocess.DEVNULL)
            stack.enter_context(databases.killed_at_end(process))

            def are_all(wanted: int) -> bool:
                """Whether HAProxy answers ten requests with this status. It may not listen yet."""
                with contextlib.suppress(OSError):
                    return all(daemons[0].daemon.ask(alice, "GET", "/web/a", path=front).status == wanted for _ in range(10))
                return False
            self.add_entry(alice)
            waits_for("HAProxy asks nobody: the key of the check has no entry", lambda: are_all(503))
            self.add_entry(checker)
            waits_for("HAProxy asks both", lambda: are_all(200))
            with psycopg.connect(replica.address, autocommit=True) as connection:
                connection.execute("SELECT pg_wal_replay_pause()")
                daemons[0].wait_for_status(503, alice)
                waits_for("HAProxy asks the other daemon alone", lambda: are_all(200))
                connection.execute("SELECT pg_wal_replay_resume()")
            daemons[0].wait_for_status(200, alice)
            waits_for("HAProxy asks both again", lambda: are_all(200))
            daemons[1].kill()
            waits_for("HAProxy asks the daemon that is left", lambda: are_all(200))


# A configuration of HAProxy, which asks the daemons about /web/check for the key of `certificate`, and passes requests on to those that grant it.
PROXY = """
defaults
    mode http
    timeout client 60s
    timeout server 60s
    timeout connect 60s
frontend front
    bind unix@{front}
    default_backend daemons
backend daemons
    option httpchk
    http-check send meth GET uri / hdr X-Original-Method GET hdr X-Original-URI /web/check hdr X-Client-Cert '{certificate}'
    http-check expect status 200
    default-server check inter 200ms fall 1 rise 1
    server one unix@{one}
    server other unix@{other}
"""


def follow(replica: databases.Server, primary: databases.Server) -> None:
    """Has a replica follow another primary."""
    change_setting(replica, "primary_conninfo", replica.source(primary))


def change_setting(server: databases.Server, name: str, value: str) -> None:
    """Changes a setting of a server that runs, which reads it anew."""
    with psycopg.connect(server.address, autocommit=True) as connection:
        connection.execute(sql.SQL("ALTER SYSTEM SET {} = {}").format(sql.Identifier(name), sql.Literal(value)))
        connection.execute("SELECT pg_reload_conf()")


if not built.IS_LONG:
    del Replicated
