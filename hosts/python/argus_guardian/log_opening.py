"""`open_database`: opens a log. It is read first, and nothing is changed if anything is wrong with it."""

from __future__ import annotations

import sqlite3
import stat
from collections.abc import Iterator
from contextlib import contextmanager
from pathlib import Path
from typing import NamedTuple

from .archive import Archive
from .library import Question, Status
from .log_database import Connections, LogDatabase, connected, is_busy, make_durable
from .log_errors import (
    LogError,
    LogLocked,
    LogOld,
    NoLog,
    NotALog,
    OtherLog,
    OtherReply,
    PagesDamaged,
    WalMissing,
)
from .log_rows import Head, check_format, check_pages, head_of, is_name, read_rows
from .log_wal import HEADER, check_wal
from .resuming import _WHYS
from .telling import error_of


class Wanted(NamedTuple):
    """What is known of the log: its name, and how many entries it has at least. And where its journal will be."""

    name: str | None
    at_least: int
    has_wal: bool


class Found(NamedTuple):
    """What was in the log."""

    head: Head
    first_entry: int
    batches: int


@contextmanager
def _naming(path: Path) -> Iterator[None]:
    """Raises SQLite's errors by names of ours."""
    try:
        yield
    except sqlite3.Error as error:
        words = f"{path}: {error}"
        if str(error) == "file is not a database":
            raise NotALog(words) from error
        if "malformed" in str(error) or str(error).startswith("no such "):
            raise PagesDamaged(words) from error
        if is_busy(error):
            raise LogLocked(f"another process has locked {path}") from error
        raise LogError(f"the log can't be read: {words}") from error
    except UnicodeDecodeError as error:
        # Of SQLite's own words, which name what is no text any more.
        raise PagesDamaged(f"{path}: the database's schema isn't text") from error


def open_database(
    path: Path, archive: Archive, wanted: Wanted, version: str, connections: Connections
) -> tuple[LogDatabase, Found]:
    """Opens the log, which from then on is this process's, and has the archive take its lines.

    The caller closes the connections, also if an exception is raised.
    """
    if not path.exists():
        raise NoLog(f"no log is there: {path}")
    for suffix in "", "-wal", "-journal", "-owner":
        _refuse_others(Path(f"{path}{suffix}"))
    with _naming(path):
        connections.owner = connected(Path(f"{path}-owner"), "mode=rwc", seconds=0)
        _lock(path, connections.owner)
        if _is_hot(path):
            _roll_back(path)
        alone = _look_alone(path)
        _check_wal(path, alone)
        # What can't write doesn't move the WAL when it is closed, into a log that is refused.
        connections.keeping = connected(path, "mode=ro")
        found = _read(connections.keeping, archive, wanted, alone)
        return _taken_over(path, connections, found, wanted.has_wal, version), found


def _refuse_others(path: Path) -> None:
    """Refuses what isn't a file: a pipe would have SQLite wait."""
    if path.exists() and not stat.S_ISREG(path.stat().st_mode):
        raise NotALog(f"it isn't a file: {path}")


def _lock(path: Path, owner: sqlite3.Connection) -> None:
    """Locks a second database, which the process has until it ends. Who only reads the log doesn't need it."""
    try:
        # Nothing is ever written there.
        owner.execute("PRAGMA journal_mode=OFF")
        owner.execute("BEGIN EXCLUSIVE")
    except sqlite3.Error as error:
        if is_busy(error):
            raise LogLocked(f"another process has the log, or another part of this one: {path}") from error
        raise


def _look_alone(path: Path) -> Head | None:
    """What the file says without its WAL; None if it can't be read so, as in the midst of a move."""
    database = connected(path, "immutable=1")
    try:
        check_format(database)
        head = head_of(database)
        return head if is_name(head.name) else None
    except (sqlite3.Error, LogError, UnicodeDecodeError):
        return None
    finally:
        database.close()


def _check_wal(path: Path, alone: Head | None) -> None:
    """Whether the WAL of a log that wasn't closed is there, and whether it has rotted."""
    wal = Path(f"{path}-wal")
    is_open = alone is not None and alone.is_open != 0
    if wal.exists() and wal.stat().st_size >= HEADER:
        check_wal(wal, may_be_new=alone is not None and not is_open)
    elif is_open:
        raise WalMissing(
            f"the log wasn't closed, and {wal} isn't there, or is empty: what it had is gone. If nothing was in it,"
            " since sqlite3 has moved that, or this is a whole copy, `UPDATE log SET is_open = 0` says so"
        )


def _is_hot(path: Path) -> bool:
    """Whether a transaction without a WAL was broken off, so that its journal has to be rolled back."""
    journal = Path(f"{path}-journal")
    if Path(f"{path}-wal").exists() or not journal.exists():
        return False
    with open(journal, "rb") as opened:
        return any(opened.read(8))


def _roll_back(path: Path) -> None:
    """SQLite does this when it is opened by who can write."""
    database = connected(path, "mode=rw")
    try:
        head_of(database)
    finally:
        database.close()


def _read(database: sqlite3.Connection, archive: Archive, wanted: Wanted, alone: Head | None) -> Found:
    """Reads and compares everything, in one transaction."""
    database.text_factory = bytes
    database.execute("BEGIN")
    check_format(database)
    check_pages(database)
    head = head_of(database)
    _compare(head, wanted, alone)
    # All rows are compared before the first one is taken.
    first_entry, batches = read_rows(database, head, lambda *_: None)
    read_rows(database, head, lambda what, text: _take(archive, what, text))
    database.execute("COMMIT")
    _resume(archive)
    # An interrupt may come just as a line was taken.
    if archive.told(Question.ENTRIES) != head.next_entry:
        raise LogError("not all lines were taken: open the log again")
    return Found(head, first_entry, batches)


def _compare(head: Head, wanted: Wanted, alone: Head | None) -> None:
    """Whether it is the log that is wanted, and the WAL belongs to the file."""
    if wanted.name not in (None, head.name):
        raise OtherLog(f"the log's name is {head.name}, and that of the one that is wanted {wanted.name}")
    if head.next_entry < wanted.at_least:
        raise LogOld(f"the log has {head.next_entry} entries, and had {wanted.at_least}: it is an older copy")
    if alone is not None and alone.name != head.name:
        raise OtherLog(f"the file is the log {alone.name}, and the WAL beside it that of {head.name}")
    if alone is not None and (alone.epoch, alone.next_entry) > (head.epoch, head.next_entry):
        raise LogOld(f"the file has {alone.next_entry} entries, and with its WAL {head.next_entry}: that is older")


def _take(archive: Archive, what: str, text: bytes) -> None:
    """Has the archive take the lines of a row."""
    status, number, taken = archive.take(text + b"\n")
    if status == Status.NOT_THE_REPLY:
        line = text.split(b"\n")[taken].decode()
        raise OtherReply(f"{what}, `{line}`: the journal before it gives the reply {archive.kept()}")
    if status in _WHYS:
        raise OtherReply(f"{what}, line {taken}: {_WHYS[status].format(number)}")
    if status != Status.DONE:
        raise error_of(status, number)


def _resume(archive: Archive) -> None:
    status, dropped = archive.resumed()
    if status != Status.DONE:
        raise error_of(status)
    if dropped:
        raise OtherReply("the opening refers to objects that didn't come")


def _taken_over(path: Path, connections: Connections, found: Found, has_wal: bool, version: str) -> LogDatabase:
    """Makes the log this process's, which is the first change."""
    connections.writing = writing = connected(path, "mode=rw")
    make_durable(writing)
    database = LogDatabase(found.head, version, connections, writing)
    keeping = connections.keeping
    if has_wal and keeping is not None:
        _set_journal(writing, "WAL")
        # From here on this one, too, reads by way of the WAL, and so holds it.
        head_of(keeping)
        database.take_over(is_open=1)
        # What was read and isn't on disk, since whoever wrote it was killed, is on disk now; and the file says that
        # there is a WAL.
        database.move_wal()
    elif keeping is not None:
        database.take_over(is_open=0)
        keeping.close()
        connections.keeping = None
        _set_journal(writing, "PERSIST")
    return database


def _set_journal(database: sqlite3.Connection, mode: str) -> None:
    said = database.execute(f"PRAGMA journal_mode={mode}").fetchall()[0][0]
    if str(said).upper() != mode:
        raise LogError(f"the database can't have a journal of the kind {mode}: SQLite says {said}")
