"""The rows of a log: their tables, the chain of their sums, and how they are read and compared, one after another."""

from __future__ import annotations

import secrets
import sqlite3
import zlib
from collections.abc import Callable
from typing import NamedTuple

from .log_errors import LogCut, LogOld, NotALog, OtherFormat, PagesDamaged
from .log_errors import RowChanged, RowDoubled, RowMissing, RowSwapped

# "ARGU" in ASCII, and the number of the format.
APPLICATION, FORMAT = 0x41524755, 1
_TABLES = """
CREATE TABLE log     (id INTEGER PRIMARY KEY CHECK (id = 0), name TEXT NOT NULL, version TEXT NOT NULL,
                      epoch INTEGER NOT NULL, is_open INTEGER NOT NULL, next_entry INTEGER NOT NULL,
                      sum INTEGER NOT NULL){};
CREATE TABLE opening (line INTEGER PRIMARY KEY, text TEXT NOT NULL){};
CREATE TABLE batch   (first INTEGER PRIMARY KEY, lines TEXT NOT NULL, sum INTEGER NOT NULL){};
CREATE TABLE object  (number INTEGER PRIMARY KEY, name TEXT UNIQUE, shape TEXT NOT NULL, base TEXT){};
"""
TABLES = _TABLES.replace("{}", " STRICT" if sqlite3.sqlite_version_info >= (3, 37) else "")


class Head(NamedTuple):
    """The row of `log`: whose it is, who writes it, whether it is open, the next entry, and the chain's last sum."""

    name: str
    epoch: int
    is_open: int
    next_entry: int
    sum: int


def summed(name: str, first: int, before: int, text: bytes) -> int:
    """A link of the chain: of a batch after the sum before it; of the opening, whose sum before it is 0."""
    return zlib.crc32(text, zlib.crc32(f"{name} {first} {before}\n".encode()))


def new_name() -> str:
    """A random name for a log, of 32 hexadecimal digits."""
    return secrets.token_hex(16)


def is_name(name: str) -> bool:
    """Whether a log may have this name."""
    return len(name) == 32 and set(name) <= set("0123456789abcdef")


def check_format(database: sqlite3.Connection) -> None:
    """Raises NotALog or OtherFormat."""
    if _number(database, "application_id") != APPLICATION:
        raise NotALog("the file is no log of a guardian")
    number = _number(database, "user_version")
    if number != FORMAT:
        raise OtherFormat(f"it has format {number}, which isn't known")


def check_pages(database: sqlite3.Connection) -> None:
    """Raises PagesDamaged if SQLite finds that its pages aren't sound."""
    said = database.execute("PRAGMA quick_check(1)").fetchall()[0][0]
    words = said.decode(errors="replace") if isinstance(said, bytes) else said
    if words != "ok":
        raise PagesDamaged(f"the database isn't sound: {words}")


def _number(database: sqlite3.Connection, pragma: str) -> int:
    return int(database.execute(f"PRAGMA {pragma}").fetchall()[0][0])


def head_of(database: sqlite3.Connection) -> Head:
    """The row of `log`."""
    rows = database.execute("SELECT name, epoch, is_open, next_entry, sum FROM log").fetchall()
    if len(rows) != 1:
        raise RowMissing("`log` has no row")
    name, *numbers = rows[0]
    if not isinstance(name, (bytes, str)) or not all(isinstance(it, int) for it in numbers):
        raise RowChanged("the row of `log` hasn't the types that it should have")
    return Head(name.decode(errors="replace") if isinstance(name, bytes) else name, *numbers)


def read_rows(database: sqlite3.Connection, head: Head, take: Callable[[str, bytes], None]) -> tuple[int, int]:
    """Compares the opening and each batch, and then has them taken: `take(what it is, its lines)`.

    Returns the number of the first entry, and how many batches there are. The connection's texts are bytes.
    """
    opening = _opening(database)
    begins = entry = _entry_of(opening)
    if opening:
        take("the opening", opening)
    total, count = summed(head.name, entry, 0, opening), 0
    for first, lines, has in database.execute("SELECT first, lines, sum FROM batch ORDER BY first"):
        _check_place(first, entry, lines)
        total, count = summed(head.name, first, total, lines), count + 1
        if has != total:
            raise RowChanged(f"batch {first} hasn't the sum that it says: it was changed, or what is before it")
        take(f"batch {first}", lines)
        entry += lines.count(b"\n") + 1
    _check_end(head, entry, total)
    return begins, count


def _opening(database: sqlite3.Connection) -> bytes:
    lines: list[bytes] = []
    for number, text in database.execute("SELECT line, text FROM opening ORDER BY line"):
        if number != len(lines):
            raise RowMissing(f"line {len(lines)} of the opening isn't there")
        lines.append(text)
    return b"\n".join(lines)


def _entry_of(opening: bytes) -> int:
    """The number of the entry before which it stands, as in `opening entries 9 actions 2`."""
    if not opening:
        return 0
    words = opening.split(b"\n", 1)[0].split(b" ")
    number = _number_in(words[2]) if words[:2] == [b"opening", b"entries"] and len(words) > 2 else None
    if number is None:
        raise RowChanged("line 0 of the opening doesn't say before which entry it stands")
    return number


def _number_in(word: bytes) -> int | None:
    return int(word) if word.isdigit() and len(word) <= 20 else None


def _check_place(first: int, entry: int, lines: bytes) -> None:
    """Whether this batch comes next, and its lines are in their place."""
    if first > entry:
        raise RowMissing(f"the entries {entry} to {first - 1} aren't there: batch {first} comes next")
    if first < entry:
        raise RowDoubled(f"batch {first} comes where entry {entry} comes next")
    begins = _number_in(lines.split(b" ", 1)[0])
    if begins is not None and begins > first:
        raise RowSwapped(f"in the place of batch {first} are the lines of entry {begins} and those after it")
    if begins is not None and begins < first:
        raise RowDoubled(f"in the place of batch {first} are the lines of entry {begins} once more")


def _check_end(head: Head, entry: int, total: int) -> None:
    if entry < head.next_entry:
        raise LogCut(f"the log ends before entry {entry}, and `log` says that entry {head.next_entry} comes next")
    if entry > head.next_entry:
        raise LogOld(f"the row of `log` is older than the batches: it says {head.next_entry}, in place of {entry}")
    if total != head.sum:
        raise RowChanged("the row of `log` has another sum than the last batch, or the opening: one was changed")
