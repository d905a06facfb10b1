"""How a database is made that is whole before it has its name: a new log, and a copy of one."""

from __future__ import annotations

import os
import secrets
import sqlite3
from collections.abc import Callable
from pathlib import Path

from .log_database import connected, make_durable
from .log_errors import LogError
from .log_rows import APPLICATION, FORMAT, TABLES, check_pages, head_of, new_name, read_rows, summed


def make_log(path: Path, version: str) -> None:
    """Makes an empty log. FileExistsError if a file is there."""

    def fill(database: sqlite3.Connection) -> None:
        name = new_name()
        row = f"INSERT INTO log VALUES (0, '{name}', '{version}', 0, 0, 0, {summed(name, 0, 0, b'')});"
        pragmas = f"PRAGMA application_id={APPLICATION}; PRAGMA user_version={FORMAT};"
        database.executescript(f"BEGIN IMMEDIATE; {pragmas} {TABLES} {row} COMMIT;")

    _make(path, fill)


def copy_log(path: Path, into: Path) -> None:
    """Copies the log as it is at one moment, and compares the copy's rows. FileExistsError if a file is there."""

    def fill(copy: sqlite3.Connection) -> None:
        source = connected(path, "mode=ro")
        try:
            source.backup(copy)
        finally:
            source.close()
        copy.execute("PRAGMA journal_mode=DELETE")
        copy.execute("UPDATE log SET is_open=0")
        head = head_of(copy)
        check_pages(copy)
        copy.text_factory = bytes
        read_rows(copy, head, lambda *_: None)

    _make(into, fill)


def _make(path: Path, fill: Callable[[sqlite3.Connection], None]) -> None:
    if os.path.lexists(path):
        raise FileExistsError(f"a file is there: {path}")
    new = path.with_name(f"{path.name}-new-{secrets.token_hex(8)}")
    try:
        database = connected(new, "mode=rwc")
        try:
            make_durable(database)
            fill(database)
        finally:
            database.close()
        # Two that make it at once: one of them is refused.
        os.link(new, path)
    except sqlite3.Error as error:
        raise LogError(f"{path} can't be made: {error}") from error
    finally:
        new.unlink(missing_ok=True)
    _sync_folder(path.parent)


def _sync_folder(folder: Path) -> None:
    """So that the name outlives a power cut. Only some systems open folders."""
    if hasattr(os, "O_DIRECTORY"):
        opened = os.open(folder, os.O_DIRECTORY)
        try:
            os.fsync(opened)
        finally:
            os.close(opened)
