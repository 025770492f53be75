"""The tables of a store, through a connection of psycopg. Values are parameters of a statement and never a part of its text.

schema.sql makes the tables: a row of `entries` has an entry, its number, and its principal, the digest by which it is found. `heartbeat` has one row,
whose number `spki-store beat` increases, and `changes` is the log."""
from __future__ import annotations

import contextlib
import json
import os
import re
import select
import time
from collections.abc import Iterator
from dataclasses import dataclass
from typing import Any

import psycopg
from psycopg import sql
from psycopg.conninfo import conninfo_to_dict, make_conninfo
from psycopg.pq import ExecStatus, error_message
from psycopg.pq.abc import PGconn

from .texts import Wrong

SCHEMA = os.path.join(os.path.dirname(os.path.abspath(__file__)), "schema.sql")
# The name of a schema. schema.sql has it in quotes, since it may be a reserved word of SQL, and without quotes in the name of a role, with `_` and
# the word of the role behind it. `schemaName` of spki-authd is the same.
NAME = re.compile(r"[a-z_][a-z0-9_]{0,40}\Z")
# The version of schema.sql.
VERSION = 2
ROLES = ("reader", "writer", "adder", "keeper")
# The octets of a digest by SHA-1, SHA-256 and SHA-512.
LENGTHS = (20, 32, 64)
# How long a server may take to take a connection, in seconds, and to take what was sent, in milliseconds. These are settings of libpq.
PATIENCE: dict[str, Any] = {"connect_timeout": 3, "tcp_user_timeout": 3000, "keepalives_idle": 3, "keepalives_interval": 1, "keepalives_count": 3}
# How long a beat waits for another one, and each other command for a transaction that holds what it needs, in milliseconds.
BEAT_WAITS, WAITS = 500, 10_000
# The rows that a reader of all rows has in memory.
PAGE = 2000


def connect_to(settings: str) -> psycopg.Connection[Any]:
    """A new connection to one host, by its settings of libpq. Its statements call functions of the system alone: one of another schema that fits the
    arguments better may be of somebody who can only read, and would run with the rights of this account. A statement that waits longer than WAITS for
    another transaction raises LockNotAvailable. Raises `psycopg.Error`."""
    connection = psycopg.connect(settings, autocommit=True, fallback_application_name="spki-store")
    try:
        run_within(connection.pgconn, f"SET search_path = pg_catalog; SET lock_timeout = {WAITS}".encode(), PATIENCE["connect_timeout"])
    except psycopg.Error:
        connection.close()
        raise
    return connection


def run_within(connection: PGconn, text: bytes, seconds: float) -> bytes:
    """Runs the statements in `text`, and waits for at most so many seconds. Returns the first value in the first row of the last one that returns
    rows, as octets, or b"" if it is NULL or there is none. Raises OperationalError if one fails, or if the server does not answer in time. (psycopg
    alone would wait for ever.)"""
    end, value, fault = time.monotonic() + seconds, b"", ""
    connection.send_query(text)
    connection.flush()
    while True:
        while connection.is_busy():
            poller = select.poll()
            poller.register(connection.socket, select.POLLIN)
            if not poller.poll(max(0.0, end - time.monotonic()) * 1000):
                raise psycopg.OperationalError(f"the server has not answered for {seconds:.0f} seconds")
            connection.consume_input()
        result = connection.get_result()
        if result is None and fault:
            raise psycopg.OperationalError(fault)
        if result is None:
            return value
        if result.status not in (ExecStatus.COMMAND_OK, ExecStatus.TUPLES_OK):
            # (with the last result the connection is free again)
            fault = error_message(result)
        if result.status == ExecStatus.TUPLES_OK:
            value = result.get_value(0, 0) or b""


# The processes of the server for which a change of the store waits, or a read of it, as an array of JSON, first the one for which one has waited
# longest: the number, the account, how many seconds, and when the transaction began. Changes that wait themselves are not among them. Who waits to
# lock a whole table counts as one who holds up, and not as one who waits: otherwise an adder could have others' reads ended. The moment is null, so
# that nobody is ended by it, in the first second, if this account may not see it, or if the process waits for a replica: it has changed the store by
# then.
AWAITED = """WITH here AS (SELECT l.pid, l.mode, l.granted FROM pg_locks l JOIN pg_class c ON c.oid = l.relation
        WHERE l.database = (SELECT oid FROM pg_database WHERE datname = current_database()) AND c.relnamespace = to_regnamespace({schema})),
    waiting AS (SELECT w.pid, w.waitstart FROM pg_locks w WHERE NOT w.granted AND w.pid IN (SELECT pid FROM here)
        AND (w.locktype IN ('transactionid', 'tuple') OR w.mode IN ('AccessShareLock', 'RowShareLock', 'RowExclusiveLock'))),
    awaited AS (SELECT b.pid, floor(max(extract(epoch FROM clock_timestamp() - w.waitstart)))::integer AS seconds
        FROM waiting w CROSS JOIN LATERAL unnest(pg_blocking_pids(w.pid)) b (pid) WHERE b.pid NOT IN (SELECT pid FROM waiting)
        AND b.pid IN (SELECT pid FROM here WHERE mode NOT IN ('AccessShareLock', 'ShareUpdateExclusiveLock')) GROUP BY b.pid)
    SELECT json_agg(json_build_array(pid, a.usename, coalesce(seconds, 0), CASE WHEN a.wait_event IS DISTINCT FROM 'SyncRep'
        AND a.xact_start < clock_timestamp() - interval '1 s' THEN a.xact_start::text END) ORDER BY seconds DESC)
    FROM awaited JOIN pg_stat_activity a USING (pid)"""


@dataclass(frozen=True)
class Holder:
    """A process of the server for which a change of the store waits. `account` is whose it is, `seconds` how long the change has waited, and `began`
    when its transaction began, as the server writes it, or None if it must not be ended by that: see AWAITED."""

    process: int
    account: str
    seconds: int
    began: str | None

    def __str__(self) -> str:
        return f"process {self.process} of {self.account!r}"


@dataclass(frozen=True)
class Row:
    """An entry of the store. `number` is its number there, `principal` the digest by which it is found, and `text` the entry in canonical form."""

    number: int
    principal: bytes
    text: bytes


class Store:
    """A store in a schema of a database, with an open connection. What asks the database raises `psycopg.Error` if that fails."""

    def __init__(self, settings: str, schema: str = "spki") -> None:
        """Connects. `settings` are those of libpq, as `host=/run/postgresql dbname=acl`. Raises Wrong for a schema that is no plain name."""
        if not NAME.match(schema):
            raise Wrong(f"{schema!r} is no name of a schema: small letters, digits and _, at most 41")
        self.settings, self.schema = settings, schema
        self.connect()

    def each_host(self) -> list[str]:
        """The settings of libpq for each host of `settings` alone, in their order, once for each. What they do not say of PATIENCE is added."""
        settings = {**PATIENCE, **conninfo_to_dict(self.settings)}
        # (one port is for all hosts, otherwise each has its own)
        hosts, ports = (str(settings.get(name, "")).split(",") for name in ("host", "port"))
        addresses = [{"host": host, "port": ports[place % len(ports)]} for place, host in enumerate(hosts)]
        # (a host or port that is not given is left to libpq, which looks for a service and in the environment)
        given = [{name: value for name, value in address.items() if name in settings} for address in addresses]
        return list(dict.fromkeys(make_conninfo(**{**settings, **address}) for address in given))

    def connect(self) -> None:
        """Connects to the first of the hosts that accepts a connection, whose settings are then in `at`. A host that is cut off is given up after
        seconds, by PATIENCE: otherwise it would take minutes until the next one is asked. Raises the fault of the last host if none accepts one."""
        *others, last = self.each_host()
        for host in others:
            # (a host that accepts none is passed over)
            with contextlib.suppress(psycopg.OperationalError):
                self.at, self.connection = host, connect_to(host)
                return
        self.at, self.connection = last, connect_to(last)

    def close(self) -> None:
        """Closes the connection. `connect` makes another one, and so does `Beats.connect`."""
        self.connection.close()

    def statement(self, text: str, **values: Any) -> sql.Composed:
        """The statement `text`, in which a table is written as `{entries}`, with the table's name in the schema. `values` are written as literals in
        place of their names in braces, and so is the name of the schema in place of `{schema}`."""
        names = {table: sql.Identifier(self.schema, table) for table in ("entries", "ended", "chains", "changes", "state", "heartbeat", "imports")}
        return sql.SQL(text).format(**names, **{name: sql.Literal(value) for name, value in {"schema": self.schema, **values}.items()})

    def composed(self, text: str, **values: Any) -> bytes:
        """`statement`, as octets for `run_within`."""
        return self.statement(text, **values).as_string(self.connection).encode()

    def rows(self, text: str, *values: Any) -> list[Any]:
        """Runs one statement, in which a table is written as `{entries}`, with values for its `%s`. Returns its rows. It is a transaction of its own,
        unless one was begun."""
        cursor = self.connection.execute(self.statement(text), values, binary=True)
        return cursor.fetchall() if cursor.description else []

    def holders(self) -> list[tuple[int, str]]:
        """The processes of the server, with their accounts, that a change may wait for: each has a transaction that has locked what a change needs,
        and does not wait itself."""
        return self.rows("SELECT DISTINCT a.pid, a.usename::text FROM pg_locks l JOIN pg_class c ON c.oid = l.relation"
                         " JOIN pg_stat_activity a USING (pid) WHERE a.datname = current_database() AND a.pid <> pg_backend_pid()"
                         " AND c.relnamespace = to_regnamespace(%s) AND c.relname IN ('entries', 'ended', 'state', 'changes', 'imports')"
                         " AND l.mode NOT IN ('AccessShareLock', 'ShareUpdateExclusiveLock')"
                         " AND NOT EXISTS (SELECT FROM pg_locks w WHERE w.pid = l.pid AND NOT w.granted)", self.schema)

    def make(self) -> None:
        """Makes the schema, which must not be there yet, and those of its roles that are not there."""
        with open(SCHEMA, encoding="utf-8") as file:
            text = file.read().replace("@SCHEMA@_", f"{self.schema}_").replace("@SCHEMA@", f'"{self.schema}"')
        with self.connection.transaction():
            for role in ROLES:
                name = f"{self.schema}_{role}"
                if not self.connection.execute("SELECT 1 FROM pg_roles WHERE rolname = %s", (name,)).fetchall():
                    self.connection.execute(sql.SQL("CREATE ROLE {}").format(sql.Identifier(name)))
            self.connection.execute(text)

    def check_version(self) -> None:
        """Raises Wrong if the store is of another version than VERSION."""
        (version,), = self.rows("SELECT version FROM {state}")
        if version != VERSION:
            raise Wrong(f"the store has version {version}, and this program reads {VERSION}")

    def add(self, text: bytes) -> int:
        """Adds an entry in canonical form behind the others. Returns its number, which is never used again."""
        (number,), = self.rows("INSERT INTO {entries} (text) VALUES (%s) RETURNING number", text)
        return int(number)

    def remove(self, number: int) -> bool:
        """Removes an entry by its number. Returns whether it was there, and this account may remove it."""
        return bool(self.rows("DELETE FROM {entries} WHERE number = %s RETURNING number", number))

    def end(self, certificate: bytes, remark: str) -> bool:
        """Ends a certificate, by its SHA-256 digest. Returns whether it had not ended before."""
        return bool(self.rows("INSERT INTO {ended} (certificate, remark) VALUES (%s, %s) ON CONFLICT DO NOTHING RETURNING 1", certificate, remark))

    def has_ended(self, certificate: bytes) -> bool:
        """Whether a certificate has ended, by its SHA-256 digest."""
        return bool(self.rows("SELECT 1 FROM {ended} WHERE certificate = %s", certificate))

    def beat(self, waits: int = 0, holder: str = "", more: int = 0, seconds: float = 3.0) -> int:
        """Increases the number of the heartbeat, and returns it. Notes that a change has waited so many seconds (`waits`) for `holder`, and that so
        many more holders (`more`) were ended. Raises OperationalError if that fails, or takes longer than `seconds`. It is not cancelled then: a
        change that waits for a replica would be committed without the replica. Such a beat has the lock of the row, so further beats fail after
        BEAT_WAITS milliseconds."""
        text = self.composed(f"SET LOCAL lock_timeout = {BEAT_WAITS}; UPDATE {{heartbeat}} SET number = number + 1, moment = clock_timestamp(),"
                             " waits = {waits}, holder = {holder}, ended = ended + {more} RETURNING number", waits=waits, holder=holder, more=more)
        return int(run_within(self.connection.pgconn, text, seconds))

    def awaited(self, seconds: float = 3.0) -> list[Holder]:
        """For whom changes of the store wait, first for whom one has waited longest. Raises OperationalError if the server does not say that within
        so many seconds."""
        found = run_within(self.connection.pgconn, self.composed(AWAITED), seconds)
        return [Holder(*each) for each in json.loads(found or "[]")]

    def end_holder(self, holder: Holder, seconds: float = 3.0) -> bool:
        """Ends a process, unless its transaction has ended by now. Returns whether the server does that. Raises OperationalError if this account may
        not, or if the server does not answer within so many seconds."""
        text = self.composed("SELECT pg_terminate_backend(pid) FROM pg_stat_activity WHERE pid = {process} AND xact_start = {began}::timestamptz"
                             " AND wait_event IS DISTINCT FROM 'SyncRep'", process=holder.process, began=holder.began)
        return run_within(self.connection.pgconn, text, seconds) == b"t"

    def all(self) -> Iterator[Row]:
        """Yields all entries in the order of their numbers, of one state of the store."""
        for row in self.paged("SELECT number, principal, text FROM {entries} ORDER BY number"):
            yield Row(*row)

    def paged(self, text: str) -> Iterator[tuple[Any, ...]]:
        """Yields the rows of a statement, in which a table is written as `{entries}`, as of one moment. They are read in parts, so they may be more
        than fit into memory."""
        # (a cursor with a name keeps its rows at the server)
        with self.connection.transaction(), self.connection.cursor("all_rows", binary=True) as cursor:
            cursor.itersize = PAGE
            cursor.execute(self.statement(text))
            yield from cursor

    def entries_for(self, principals: list[bytes]) -> list[tuple[int, bytes]]:
        """The number and the text of each entry whose principal is one of these digests, which must differ, in the order of the numbers."""
        digests = [principal for principal in principals if len(principal) in LENGTHS]
        # (no principal has another length, and each length has an index of its own)
        query = " UNION ALL ".join(f"SELECT number, text FROM {{entries}} WHERE octet_length(principal) = {len(digest)} AND principal = %s"
                                   for digest in digests)
        return self.rows(f"{query} ORDER BY number", *digests) if digests else []
