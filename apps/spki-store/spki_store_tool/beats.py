"""The heartbeat: increases a number in the store each second, at whichever of several servers takes that, and ends who holds changes up there."""
from __future__ import annotations

from concurrent.futures import Future, ThreadPoolExecutor, wait
from typing import Any

import psycopg

from .tables import Holder, Store, connect_to

# The time between two beats, and between two attempts after a fault, in seconds.
EVERY, AGAIN = 1.0, 0.2
# After how many seconds that a change has waited for it a process is ended: `remove` and the other commands wait 10 seconds.
END_AFTER = 5


class Beats:
    """Makes the beats of the heartbeat, each of which increases its number, at one server while that takes them. After a fault it connects to all
    servers at once, since a machine that is gone keeps one waiting for seconds. Of those that answer the first in order is taken; a server where a
    beat failed becomes the last in order."""

    def __init__(self, store: Store) -> None:
        # (`hosts` are settings of libpq, each for one server, in the order in which they are taken)
        self.store, self.hosts = store, store.each_host()
        # (the connections that are being made, by the settings of their hosts)
        self.opening: dict[str, Future[psycopg.Connection[Any]]] = {}
        self.pool = ThreadPoolExecutor(len(self.hosts))
        # (what the next beat notes: who holds changes up, or None, and how many holders were ended since the last beat. And what `look` has said)
        self.holder: Holder | None = None
        self.ended, self.said = 0, set[str]()

    def beat(self) -> None:
        """Makes one beat. Raises `psycopg.Error` if that fails, and the next beat is then tried by another connection."""
        if self.store.connection.closed:
            self.connect()
        try:
            self.store.beat(self.holder.seconds if self.holder else 0, str(self.holder or ""), self.ended)
            self.ended = 0
        except psycopg.Error:
            self.store.close()
            # (`at` has the settings of the server where the beat failed, which becomes the last in order)
            self.hosts.remove(self.store.at)
            self.hosts.append(self.store.at)
            raise

    def look(self, end_after: int) -> list[str]:
        """Looks for whom changes wait, for the next beat to note, and ends those for whom one has waited `end_after` seconds, or nobody for 0.
        Returns what is to be told, each line once as long as it is true. A fault of the database is such a line: it must not stop the heartbeat."""
        lines = []
        try:
            # (a wait of less than a second is usual, and counts as none)
            awaited = [each for each in self.store.awaited() if each.seconds > 0]
            self.holder = awaited[0] if awaited else None
            lines = [self.end(each) for each in awaited if 0 < end_after <= each.seconds]
        except psycopg.Error as why:
            lines.append(f"who holds changes up is not known: {str(why).strip()}")
        told, self.said = [line for line in lines if line not in self.said], set(lines)
        return told

    def end(self, holder: Holder) -> str:
        """Ends a process for which a change waits, and returns what is to be told about it. Raises `psycopg.Error` if the server does not answer."""
        if holder.began is None:
            return f"{holder} holds changes up, and is not ended: it waits for a replica, or this account lacks the role pg_read_all_stats"
        try:
            is_ended = self.store.end_holder(holder)
        except psycopg.Error as why:
            return f"{holder} holds changes up, and is not ended: {str(why).strip()}"
        self.ended += is_ended
        return f"{holder} held changes up, and {'is ended' if is_ended else 'has gone on'}"

    def connect(self) -> None:
        """Connects to all servers, waits until all have answered, but at most AGAIN seconds, and uses the connection to the first in order that has
        accepted one. Closes the others, also those made later. Raises OperationalError if none has accepted one yet: then the next call waits on."""
        for host in self.hosts:
            if host not in self.opening:
                self.opening[host] = self.pool.submit(connect_to, host)
        wait(self.opening.values(), AGAIN)
        answers = {host: self.opening.pop(host) for host in self.hosts if self.opening[host].done()}
        connections = {host: answer.result() for host, answer in answers.items() if not answer.exception() and not answer.result().closed}
        if not connections:
            faults = [str(answer.exception() or "").strip().replace("\n", " ") for answer in answers.values()]
            raise psycopg.OperationalError("; ".join(faults) or "no server answers")
        (self.store.at, self.store.connection), *others = connections.items()
        for _, connection in others:
            connection.close()
        # (those that are still being made are closed when they come, and `closed` above leaves them out if they are here in the next call)
        for late in self.opening.values():
            late.add_done_callback(close_late)


def close_late(late: Future[psycopg.Connection[Any]]) -> None:
    """Closes a connection that was opened too late, and is not used."""
    if not late.exception():
        late.result().close()
