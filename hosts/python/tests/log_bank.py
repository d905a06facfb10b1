"""A bank over a log, for the tests of logs, and the processes in which they run it.

    log_bank.py WHAT PATH [WORD..]

WHAT is a function of `WORKS`, which has the rest.
"""

from __future__ import annotations

import resource
import signal
import subprocess
import sys
import tempfile
import threading
import time
import unittest
from pathlib import Path
from typing import Any

sys.path.insert(0, str(Path(__file__).resolve().parents[1]))

from argus_guardian import Action  # noqa: E402
from argus_guardian.log import InDoubt, Log, LogBroken, LogError  # noqa: E402

CLIENTS, MOST_CLIENTS = 3, 16
LEFT_OPEN: list[Log] = []


def open_bank(path: str, clients: int = CLIENTS, **options: Any) -> Log:
    """Accounts 0 to 2, which have 100 at first, and for each client the number of its last order."""
    log = Log.open_or_create(path, **options)
    for _ in range(log.guardian.objects, 3 + clients):
        log.guardian.declare("atomic_record[n:int]")
    if log.guardian.base(0) is None:
        with log.topaction() as top:
            for number in range(3 + clients):
                top.create(number, (100 if number < 3 else 0,))
    return log


def number_in(log: Log, obj: int) -> int:
    return int(log.guardian.base(obj)[0])


def carry_out(log: Log, client: int, number: int) -> None:
    """An order pays 1 from one account to the next; `number` says which."""

    def work(top: Action) -> None:
        top.lock(3 + client)
        for obj in sorted((number % 3, (number + 1) % 3)):
            top.lock(obj)
        with top.subaction() as sub:
            sub.set_field(number % 3, 0, sub.field(number % 3, 0) - 1)
            sub.set_field((number + 1) % 3, 0, sub.field((number + 1) % 3, 0) + 1)
        top.set_field(3 + client, 0, number)

    log.run(work)


def serve(path: str, clients: str) -> None:
    """The process that is killed: it says which orders are acknowledged. Checkpoints are made by themselves, too."""
    log, said = open_bank(path, MOST_CLIENTS, checkpoint_after=500), threading.Lock()

    def serve_client(client: int) -> None:
        number = number_in(log, 3 + client)
        while True:
            number += 1
            carry_out(log, client, number)
            with said:
                print(client, number, flush=True)

    for client in range(int(clients)):
        threading.Thread(target=serve_client, args=(client,), daemon=True).start()
    while True:
        time.sleep(0.05)
        log.checkpoint(patience=5)


def serve_without_a_wal(path: str) -> None:
    """The same, by one thread, and with SQLite's older kind of journal."""
    log = open_bank(path, journal="persist")
    number = number_in(log, 3)
    while True:
        number += 1
        carry_out(log, 0, number)
        print(number, flush=True)


def fill(log: Log) -> None:
    """Carries out orders until the log breaks, and says how many are acknowledged."""
    acknowledged = number_in(log, 3)
    try:
        while True:
            carry_out(log, 0, acknowledged + 1)
            acknowledged += 1
    except InDoubt as error:
        print(error)
    assert log.broken() is not None
    try:
        carry_out(log, 0, acknowledged + 2)
    except LogBroken:
        print(acknowledged, flush=True)
    log.close()


def serve_until_it_breaks(path: str) -> None:
    """The same, by one thread, until a write or a sync fails, or sixty orders are carried out."""
    try:
        log = open_bank(path)
        for number in range(number_in(log, 3) + 1, number_in(log, 3) + 61):
            carry_out(log, 0, number)
            print(number, flush=True)
    except LogError as error:
        print(type(error).__name__, file=sys.stderr)


def break_log(path: str) -> None:
    """A process whose files may have 128 KiB from now on, as if the disk were full."""
    log = open_bank(path)
    signal.signal(signal.SIGXFSZ, signal.SIG_IGN)
    resource.setrlimit(resource.RLIMIT_FSIZE, (131072, 131072))
    fill(log)


def fill_disk(path: str) -> None:
    """A process on a disk that is really full at some time."""
    fill(open_bank(path, checkpoint_after=None))


def leave_open(path: str) -> None:
    """A process that ends without closing its log, to which a module has a reference."""
    LEFT_OPEN.append(open_bank(path))
    carry_out(LEFT_OPEN[0], 0, 1)
    print("open", flush=True)


def hold(path: str) -> None:
    """A process that has the log until its input ends, and then carries out an order more."""
    log = open_bank(path)
    print("open", flush=True)
    sys.stdin.read()
    try:
        carry_out(log, 0, number_in(log, 3) + 1)
        print("done", flush=True)
    except InDoubt as error:
        print(error, flush=True)


WORKS = {
    "serve": serve,
    "persist": serve_without_a_wal,
    "sync": serve_until_it_breaks,
    "break": break_log,
    "fill": fill_disk,
    "leave": leave_open,
    "hold": hold,
}


class LogCase(unittest.TestCase):
    """A test with a path for a log."""

    def setUp(self) -> None:
        room = tempfile.TemporaryDirectory()
        self.addCleanup(room.cleanup)
        self.room = Path(room.name)
        self.path = str(self.room / "bank.db")

    def run_child(self, what: str, *rest: str, **streams: Any) -> subprocess.Popen[str]:
        words = [sys.executable, __file__, what, self.path, *rest]
        return subprocess.Popen(words, stdout=subprocess.PIPE, text=True, **streams)


if __name__ == "__main__":
    WORKS[sys.argv[1]](*sys.argv[2:])
