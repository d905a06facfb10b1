#!/usr/bin/env python3
"""Prints how many calls a second the Python package makes, by one thread, in processor time; and how
many transactions of the same work SQLite in memory.

    ARGUS_LIBRARY=dist/lib/libargus.so.0 bench/python.py [FOLDER]

Each figure is the best of 15 runs; a checkpoint behind each isn't in it. FOLDER is that of the package as pip
builds it, such as build/beside_sqlite/python, which bench/beside_sqlite.sh makes; else hosts/python, whose calls
go by ctypes.
"""

import sqlite3
import sys
import time
from pathlib import Path

sys.path.insert(0, sys.argv[1] if len(sys.argv) > 1 else str(Path(__file__).resolve().parents[1] / "hosts/python"))

import argus_guardian as argus  # noqa: E402

RUNS = 15
CALLS = 10_000
LONG = 8 << 20


def begun(guardian, work):
    """Does the work so many times in one topaction."""
    with guardian.topaction() as top:
        for number in range(CALLS):
            work(top, number)


def each(guardian, work):
    """Does the work in a topaction of its own, so many times."""
    for number in range(CALLS):
        with guardian.topaction() as top:
            work(top, number)


def show(name, work, tidy=lambda: None):
    """Prints how often a second the work is done, which does it so many times."""
    best = float("inf")
    for _ in range(RUNS):
        begin = time.process_time()
        work()
        best = min(best, time.process_time() - begin)
        tidy()
    print(f"{name}: {CALLS / best:,.0f} a second")


def transactions(database):
    """Reads a number and sets it, each time in a transaction of its own."""
    for _ in range(CALLS):
        database.execute("begin")
        (number,) = database.execute("select n from record").fetchone()
        database.execute("update record set n = ?", (number + 1,))
        database.execute("commit")


def main():
    with argus.Guardian() as guardian:
        record = guardian.declare("atomic_record[n:int,t:text]")
        long = guardian.declare("atomic_record[t:text]")
        with guardian.topaction() as top:
            top.create(record, (5, "x" * 40))
            top.create(long, ("y" * LONG,))
        for name, how, work in (
            ("field, an integer", begun, lambda top, _: top.field(record, 0)),
            ("field, a text of 40", begun, lambda top, _: top.field(record, 1)),
            ("set_field", begun, lambda top, number: top.set_field(record, 0, number)),
            ("topactions", each, lambda *_: None),
            ("topactions that read and set", each, lambda top, _: top.set_field(record, 0, top.field(record, 0) + 1)),
        ):
            show(name, lambda how=how, work=work: how(guardian, work), guardian.checkpoint)
        guardian.base(long)
        after = lambda: begun(guardian, lambda top, _: top.field(record, 0))
        show("field, after a text of 8 MB", after, guardian.checkpoint)
    database = sqlite3.connect(":memory:", isolation_level=None)
    database.execute("create table record(n integer)")
    database.execute("insert into record values(5)")
    show("SQLite in memory, transactions that read and set", lambda: transactions(database))


main()
