"""`LogDatabase`: the connections of a process that writes a log, and the transactions by which it does.

A connection is used by one thread at a time. An interrupt may come between any two statements: then the next call
finds a transaction open, or doesn't know whether the last one was made, and looks.
"""

from __future__ import annotations

import ctypes
import sqlite3
import time
from pathlib import Path
from typing import Any, NamedTuple

from .log_errors import LogError
from .log_rows import Head, head_of, summed

# How long SQLite itself waits for a lock. Who changes the log waits again, for as long as it takes.
BUSY_SECONDS = 5.0
_MOVE = "UPDATE log SET next_entry=?, sum=?, is_open=?, epoch=?, version=? WHERE epoch=? AND next_entry=? AND sum=?"
_EMPTIED = [("DELETE FROM batch", [()]), ("DELETE FROM opening", [()])]
# An object keeps the name that it has.
_OBJECT = (
    "INSERT INTO object (number, shape, base) VALUES (?, ?, ?)"
    " ON CONFLICT (number) DO UPDATE SET shape = excluded.shape, base = excluded.base"
)


class End(NamedTuple):
    """Where the log ends: the number of the next entry, and the chain's last sum."""

    next_entry: int
    sum: int


class Batch(NamedTuple):
    """Lines of the journal that are written together, without the last line feed."""

    first: int
    lines: bytes
    entries: int


def connected(path: Path, mode: str, seconds: float = BUSY_SECONDS) -> sqlite3.Connection:
    """A connection: `mode=ro`; `mode=rw`, which makes no file; `mode=rwc`; `immutable=1`, which sees no WAL."""
    # As a URI, since a name may have a question mark.
    uri = f"{path.as_uri()}?{mode}"
    return sqlite3.connect(uri, timeout=seconds, isolation_level=None, check_same_thread=False, uri=True)


def make_durable(database: sqlite3.Connection) -> None:
    """From now on each commit of this connection is on disk when it returns."""
    database.execute("PRAGMA synchronous=FULL")
    database.execute("PRAGMA fullfsync=1")
    # Debian's SQLite writes zeros over all that is deleted: a checkpoint would write the whole log once more.
    database.execute("PRAGMA secure_delete=FAST")
    # A WAL that a reader has kept from being moved becomes short again. It never becomes empty: that would be a loss.
    database.execute("PRAGMA journal_size_limit=16777216")


def is_busy(error: sqlite3.Error) -> bool:
    """Whether another connection has a lock. Before Python 3.11 only the words say so."""
    return str(error) == "database is locked"


def patiently(database: sqlite3.Connection, statement: str) -> None:
    """Carries it out when other processes have given up their locks: until then nothing has changed."""
    while True:
        try:
            database.execute(statement)
            return
        except sqlite3.OperationalError as error:
            if not is_busy(error):
                raise


class Connections:
    """Those of a process that has a log: one that writes; one that can't, so that SQLite leaves the WAL where it is if
    the first is closed in the midst of something; and the owner's, which has the lock. Each is None if there is none.
    """

    writing: sqlite3.Connection | None = None
    keeping: sqlite3.Connection | None = None
    owner: sqlite3.Connection | None = None

    def all(self) -> list[sqlite3.Connection]:
        """Those that there are, in the order in which they are closed."""
        return [it for it in (self.writing, self.keeping, self.owner) if it is not None]

    def close(self) -> None:
        """Closes all. It may be called more than once."""
        for it in self.all():
            it.close()

    def __del__(self) -> None:
        # Left to themselves they would be closed in any order.
        self.close()

    def leave_behind(self) -> None:
        """In a forked process: SQLite's connections are the parent's, and mustn't even be closed."""
        for it in self.all():
            ctypes.pythonapi.Py_IncRef(ctypes.py_object(it))
        self.writing = self.keeping = self.owner = None


class LogDatabase:
    """The database of a log that this process writes."""

    def __init__(self, head: Head, version: str, connections: Connections, writing: sqlite3.Connection) -> None:
        self._connections, self._writing = connections, writing
        self.name, self._version, self._epoch = head.name, version, head.epoch
        self._is_open = head.is_open
        # None while a transaction is under way.
        self._end: End | None = End(head.next_entry, head.sum)
        self.sync_seconds = 0.0

    @property
    def next_entry(self) -> int | None:
        """All entries before this one are in the log; None if that has to be looked up."""
        end = self._end
        return None if end is None else end.next_entry

    def _settled(self) -> End:
        """Where the log ends, also after an interrupt."""
        if self._end is None:
            if self._writing.in_transaction:
                self._writing.execute("ROLLBACK")
            head = head_of(self._writing)
            if head.epoch != self._epoch:
                raise LogError("another process has opened the log")
            self._end = End(head.next_entry, head.sum)
        return self._end

    def settled_entry(self) -> int:
        """The number of the next entry, also after an interrupt."""
        return self._settled().next_entry

    def take_over(self, is_open: int) -> None:
        """Makes the log this process's: from now on whoever had it before is refused."""
        end, self._is_open = self._settled(), is_open
        self._change(end, [], self._epoch + 1)
        self._epoch += 1

    def end_of(self, batches: list[Batch], begins: End) -> tuple[End, list[Any]]:
        """Where the log ends with these, and their rows."""
        total, entry, rows = begins.sum, begins.next_entry, []
        for it in batches:
            total = summed(self.name, it.first, total, it.lines)
            rows.append((it.first, it.lines, total))
            entry = it.first + it.entries
        return End(entry, total), rows

    def append(self, batches: list[Batch]) -> None:
        """Appends these batches."""
        end, rows = self.end_of(batches, self._settled())
        self._change(end, [_inserted(rows)])

    def replace(self, first: int, opening: list[str], batches: list[Batch]) -> None:
        """Puts an opening before this entry, and these batches, in place of all rows."""
        self._settled()
        text = "\n".join(opening).encode()
        end, rows = self.end_of(batches, End(first, summed(self.name, first, 0, text)))
        lines = ("INSERT INTO opening VALUES (?, ?)", list(enumerate(opening)))
        objects = (_OBJECT, _objects(opening))
        self._change(end, [*_EMPTIED, lines, objects, _inserted(rows)])

    def _change(self, end: End, deeds: list[tuple[str, list[Any]]], epoch: int | None = None) -> None:
        """Carries out statements and moves the log's end, in one transaction. Nothing is done if the end isn't ours."""
        before, self._end = self._settled(), None
        database, epoch = self._writing, self._epoch if epoch is None else epoch
        patiently(database, "BEGIN IMMEDIATE")
        moved = (*end, self._is_open, epoch, self._version, self._epoch, *before)
        if database.execute(_MOVE, moved).rowcount != 1:
            raise LogError("another process has opened the log")
        for statement, rows in deeds:
            database.executemany(statement, rows)
        started = time.perf_counter()
        patiently(database, "COMMIT")
        self.sync_seconds += time.perf_counter() - started
        self._end = end

    def give_up(self) -> None:
        """Rolls back what is under way, so that others may write: the log has failed."""
        try:
            if self._writing.in_transaction:
                self._writing.execute("ROLLBACK")
        except sqlite3.Error:
            pass

    def move_wal(self) -> None:
        """Moves the WAL into the file, as far as no reader is in the way: it waits for none."""
        self._writing.execute("PRAGMA wal_checkpoint(PASSIVE)").fetchall()

    def close(self, is_sound: bool) -> None:
        """Closes the connections; if all is well, the file then says that it has no WAL. The owner's comes last."""
        try:
            if is_sound:
                self._is_open = 0
                self._change(self._settled(), [])
                if self._connections.keeping is not None:
                    self._connections.keeping.close()
        except (sqlite3.Error, LogError):
            # As if the process had been killed: the WAL stays.
            self.give_up()
        finally:
            self._connections.close()


def _inserted(rows: list[Any]) -> tuple[str, list[Any]]:
    # A text that comes as bytes is neither decoded nor encoded on the way.
    return "INSERT INTO batch VALUES (?, CAST(? AS TEXT), ?)", rows


def _objects(opening: list[str]) -> list[tuple[int, str, str | None]]:
    """The rows of `object`, by the lines of an opening, as in `opening o0 atomic_record[balance:int] {5}`."""
    rows = []
    for number, line in enumerate(opening[1:]):
        shape, base = line.split(" ", 3)[2:]
        rows.append((number, shape, None if base == "absent" else base))
    return rows
