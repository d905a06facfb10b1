"""A journal as a log in a database, as docs/DURABLE.md has it and the hosts write it."""

import sqlite3
import zlib
from contextlib import closing
from pathlib import Path

NAME = 32 * "0"
TABLES = """
PRAGMA page_size = 512;
PRAGMA application_id = 0x41524755;
PRAGMA user_version = 1;
CREATE TABLE log (id INTEGER PRIMARY KEY CHECK (id = 0), name TEXT NOT NULL, version TEXT NOT NULL,
                  epoch INTEGER NOT NULL, is_open INTEGER NOT NULL, next_entry INTEGER NOT NULL, sum INTEGER NOT NULL)
             STRICT;
CREATE TABLE opening (line INTEGER PRIMARY KEY, text TEXT NOT NULL) STRICT;
CREATE TABLE batch (first INTEGER PRIMARY KEY, lines TEXT NOT NULL, sum INTEGER NOT NULL) STRICT;
CREATE TABLE object (number INTEGER PRIMARY KEY, name TEXT UNIQUE, shape TEXT NOT NULL, base TEXT) STRICT;
"""


def summed(first: int, before: int, lines: str) -> int:
    """The sum of a batch, or of the opening."""
    return zlib.crc32(f"{NAME} {first} {before}\n{lines}".encode())


def write_log(path: Path, listing: str, size: int = 8) -> None:
    """Makes a log of a journal's listing without an opening, in batches of so many lines."""
    lines, total = listing.splitlines(), summed(0, 0, "")
    with closing(sqlite3.connect(path)) as database:
        database.executescript(TABLES)
        for first in range(0, len(lines), size):
            batch = "\n".join(lines[first : first + size])
            total = summed(first, total, batch)
            database.execute("INSERT INTO batch VALUES (?, ?, ?)", (first, batch, total))
        database.execute("INSERT INTO log VALUES (0, ?, '', 1, 0, ?, ?)", (NAME, len(lines), total))
        database.commit()
