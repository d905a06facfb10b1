#!/usr/bin/env python3
"""Prints orders a second of a bank in Python: over a log, and by sqlite3 itself (WAL, synchronous FULL, under a mutex).

    [TIME=2] [REPS=3] [ROOM=FOLDER] [ARGUS_LIBRARY=FILE] bench/log_python.py

An order is 12 calls, in SQLite 10 statements: a payment in a subaction, and the number of the order. Medians of
interleaved runs, by 1, 4 and 16 threads. ROOM is a folder on the disk that is measured. Nothing is compared with a limit.
"""

from __future__ import annotations

import os
import sqlite3
import statistics
import sys
import tempfile
import threading
import time
from collections.abc import Callable
from pathlib import Path

sys.path.insert(0, str(Path(__file__).resolve().parents[1] / "hosts/python"))

from argus_guardian import Action, Log  # noqa: E402

ACCOUNTS = 1000
TIME = float(os.environ.get("TIME", "2"))
Carry = Callable[[int, int], None]


def drawn(client: int, number: int) -> tuple[int, int]:
    """Two accounts, the lower one first."""
    one = (client * 7919 + number * 104729) % ACCOUNTS
    other = (one + 1 + number % (ACCOUNTS - 1)) % ACCOUNTS
    return min(one, other), max(one, other)


def over_log(path: str, clients: int) -> Carry:
    log = Log.open_or_create(path)
    for _ in range(ACCOUNTS + clients):
        log.guardian.declare("atomic_record[n:int]")
    with log.topaction() as top:
        for number in range(ACCOUNTS + clients):
            top.create(number, (0,))

    def carry_out(client: int, number: int) -> None:
        one, other = drawn(client, number)

        def work(top: Action) -> None:
            top.lock(one)
            top.lock(other)
            with top.subaction() as sub:
                sub.set_field(one, 0, sub.field(one, 0) - 1)
                sub.set_field(other, 0, sub.field(other, 0) + 1)
            top.set_field(ACCOUNTS + client, 0, top.field(ACCOUNTS + client, 0) + 1)

        log.run(work)

    return carry_out


def by_sqlite(path: str, clients: int) -> Carry:
    turn = threading.Lock()

    def connect() -> sqlite3.Connection:
        made = sqlite3.connect(path, isolation_level=None, check_same_thread=False)
        made.executescript("PRAGMA journal_mode=WAL; PRAGMA synchronous=FULL")
        return made

    databases = [connect() for _ in range(clients)]
    databases[0].execute("CREATE TABLE account (id INTEGER PRIMARY KEY, n INTEGER NOT NULL)")
    databases[0].executemany("INSERT INTO account VALUES (?, 0)", [(it,) for it in range(ACCOUNTS + clients)])

    def add(database: sqlite3.Connection, account: int, amount: int) -> None:
        (held,) = database.execute("SELECT n FROM account WHERE id = ?", (account,)).fetchone()
        database.execute("UPDATE account SET n = ? WHERE id = ?", (held + amount, account))

    def carry_out(client: int, number: int) -> None:
        (one, other), database = drawn(client, number), databases[client]
        with turn:
            database.execute("BEGIN IMMEDIATE")
            database.execute("SAVEPOINT payment")
            add(database, one, -1)
            add(database, other, 1)
            database.execute("RELEASE payment")
            add(database, ACCOUNTS + client, 1)
            database.execute("COMMIT")

    return carry_out


def rate(make: Callable[[str, int], Carry], clients: int) -> float:
    """Orders a second by so many threads."""
    with tempfile.TemporaryDirectory(dir=os.environ.get("ROOM")) as room:
        carry_out, counts = make(f"{room}/bank.db", clients), [0] * clients
        began = time.monotonic()

        def serve(client: int) -> None:
            while time.monotonic() - began < TIME:
                carry_out(client, counts[client])
                counts[client] += 1

        threads = [threading.Thread(target=serve, args=(it,)) for it in range(clients)]
        for thread in threads:
            thread.start()
        for thread in threads:
            thread.join()
        return sum(counts) / (time.monotonic() - began)


def main() -> None:
    for clients in (1, 4, 16):
        runs = [(rate(over_log, clients), rate(by_sqlite, clients)) for _ in range(int(os.environ.get("REPS", "3")))]
        ours, theirs = (statistics.median(it) for it in zip(*runs))
        print(f"{clients} threads: {ours:.0f} over a log, {theirs:.0f} by sqlite3: {ours / theirs:.2f}")


if __name__ == "__main__":
    main()
