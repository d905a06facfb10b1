"""Logs under processes that are killed or interrupted, that want the same log, and whose disk is full.

ARGUS_LOG_KILLS says how often the bank is killed: six times where nothing is said.
"""

from __future__ import annotations

import os
import random
import shutil
import signal
import sqlite3
import subprocess
import sys
import tempfile
import threading
import time
import unittest
from collections.abc import Callable
from pathlib import Path

sys.path.insert(0, str(Path(__file__).resolve().parent))

from log_bank import CLIENTS, MOST_CLIENTS, LogCase, carry_out, number_in, open_bank  # noqa: E402

from argus_guardian.log import Log, LogLocked  # noqa: E402

KILLS = int(os.environ.get("ARGUS_LOG_KILLS", "6"))


class Killed(LogCase):
    """A bank of 1, 4 and 16 clients under load, with checkpoints under way."""

    def test_killed(self) -> None:
        last, acknowledged, began_with_an_opening = [0] * MOST_CLIENTS, 0, 0
        for number in range(KILLS):
            lines = self.kill((4, 16, 1)[number % 3])
            for client, number in (map(int, line.split()) for line in lines if line.endswith("\n") and line.strip()):
                acknowledged += number > last[client]
                last[client] = number
            with open_bank(self.path, MOST_CLIENTS) as log:
                began_with_an_opening += log.guardian.first_entry > 0
                last = self.check(log, last)
        self.assertTrue(any(last))
        said = f"{KILLS} kills, {acknowledged} orders acknowledged, {sum(last)} carried out"
        print(f"{said}; {began_with_an_opening} logs began with an opening", file=sys.stderr)

    def kill(self, clients: int) -> list[str]:
        """What a bank says until it is killed, in its opening or later."""
        child = self.run_child("serve", str(clients))
        assert child.stdout is not None
        lines = []
        if random.random() < 0.8:
            lines.append(child.stdout.readline())
        time.sleep(random.uniform(0, 0.3))
        child.kill()
        lines += child.stdout.readlines()
        child.wait()
        child.stdout.close()
        return lines

    def check(self, log: Log, last: list[int]) -> list[int]:
        """No acknowledged order is lost, and none is there in part or twice. What stands."""
        standing = [number_in(log, 3 + client) for client in range(MOST_CLIENTS)]
        wanted = [100] * 3
        for client, number in enumerate(standing):
            self.assertIn(number, (last[client], last[client] + 1))
            for order in range(1, number + 1):
                wanted[order % 3] -= 1
                wanted[(order + 1) % 3] += 1
        self.assertEqual([number_in(log, obj) for obj in range(3)], wanted)
        return standing

    def test_killed_without_a_wal(self) -> None:
        child = self.run_child("persist")
        assert child.stdout is not None
        last = 0
        for line in child.stdout:
            last = int(line)
            if last == 20:
                break
        child.kill()
        last = max([last, *(int(line) for line in child.stdout.readlines() if line.endswith("\n"))])
        child.wait()
        child.stdout.close()
        with Log.open(self.path, journal="persist") as log:
            self.assertIn(number_in(log, 3), (last, last + 1))


class Interrupted(LogCase):
    """What a handler raises, as at Ctrl-C, at any moment of orders, checkpoints and openings."""

    ROUNDS = 100

    def setUp(self) -> None:
        super().setUp()
        self.is_armed, self.interrupts = False, 0
        self.addCleanup(signal.signal, signal.SIGALRM, signal.signal(signal.SIGALRM, self.interrupt))
        # A timer that is left would end the process, once the handler is gone.
        self.addCleanup(signal.setitimer, signal.ITIMER_REAL, 0)

    def interrupt(self, *_: object) -> None:
        if self.is_armed:
            self.is_armed = False
            self.interrupts += 1
            raise KeyboardInterrupt

    def interrupted(self, work: Callable[[], None]) -> None:
        """Does this, with one interrupt at some moment of it."""
        try:
            self.is_armed = True
            signal.setitimer(signal.ITIMER_REAL, random.uniform(0.0002, 0.02))
            work()
        except KeyboardInterrupt:
            pass
        self.is_armed = False

    def test_interrupted(self) -> None:
        self.log, self.last = open_bank(self.path, checkpoint_after=60), 0
        for number in range(self.ROUNDS):
            self.interrupted(self.orders)
            self.assertIsNone(self.log.broken())
            self.assertIn(number_in(self.log, 3), (self.last, self.last + 1))
            self.last = number_in(self.log, 3)
            self.log.barrier()
            if number % 4 == 0:
                self.log.close()
                self.interrupted(self.open_again)
                self.log.close()
                self.log = Log.open(self.path, checkpoint_after=60)
                self.assertEqual(number_in(self.log, 3), self.last)
                self.assertEqual(sum(number_in(self.log, obj) for obj in range(3)), 300)
        self.log.close()
        self.assertGreater(self.interrupts, self.ROUNDS // 4)

    def orders(self) -> None:
        for number in range(self.last + 1, self.last + 30):
            carry_out(self.log, 0, number)
            self.last = number
            if number % 10 == 0:
                self.log.checkpoint()

    def open_again(self) -> None:
        self.log = Log.open(self.path)


class TwoProcesses(LogCase):
    """One of them has the log."""

    def test_the_second_one_is_refused(self) -> None:
        with open_bank(self.path) as log:
            words = [sys.executable, str(Path(__file__).parent / "log_bank.py"), "leave", self.path]
            done = subprocess.run(words, capture_output=True, text=True, check=False)
            self.assertIn("LogLocked: another process has the log", done.stderr)
            with self.assertRaises(LogLocked):
                Log.open(self.path)
            carry_out(log, 0, 1)

    def test_where_the_lock_was_removed_the_first_one_is_refused(self) -> None:
        child = self.run_child("hold", stdin=subprocess.PIPE)
        assert child.stdout is not None
        self.assertEqual(child.stdout.readline(), "open\n")
        os.remove(f"{self.path}-owner")
        with open_bank(self.path) as log:
            carry_out(log, 1, 1)
            said, _ = child.communicate("", timeout=60)
            self.assertEqual(said, "the log couldn't be written: another process has opened the log\n")
            carry_out(log, 1, 2)
        with open_bank(self.path) as log:
            self.assertEqual([number_in(log, obj) for obj in range(3, 6)], [0, 2, 0])

    def test_a_program_that_writes_is_waited_for(self) -> None:
        with open_bank(self.path) as log:
            other = sqlite3.connect(self.path, isolation_level=None, check_same_thread=False)
            self.addCleanup(other.close)
            other.execute("BEGIN IMMEDIATE")
            timer = threading.Timer(0.2, other.execute, ["ROLLBACK"])
            timer.start()
            carry_out(log, 0, 1)
            timer.join()
            other.execute("UPDATE log SET next_entry = next_entry + 1")
            with self.assertRaisesRegex(Exception, "another process has opened the log"):
                carry_out(log, 0, 2)

    def test_a_program_that_reads_sees_what_is_acknowledged(self) -> None:
        with open_bank(self.path) as log:
            other = sqlite3.connect(f"{Path(self.path).as_uri()}?mode=ro", uri=True)
            self.addCleanup(other.close)
            for number in range(1, 4):
                carry_out(log, 0, number)
                (text,) = other.execute("SELECT lines FROM batch ORDER BY first DESC LIMIT 1").fetchone()
                self.assertEqual(text.split("\n")[-1], log.guardian.lines(log.guardian.entries - 1)[0])
            # One that stays in a transaction keeps nobody from writing, or from opening.
            other.execute("BEGIN")
            other.execute("SELECT * FROM log").fetchall()
            log.checkpoint()
        with open_bank(self.path) as log:
            carry_out(log, 0, 4)
            self.assertEqual(other.execute("SELECT * FROM object").fetchall(), [])
            other.execute("COMMIT")
            self.assertEqual(other.execute("SELECT base FROM object WHERE number = 3").fetchall(), [("{3}",)])


class FailingSync(LogCase):
    """One sync of a bank fails, by a library under SQLite."""

    SOURCE = Path(__file__).resolve().parents[2] / "rust/tests/log/syncs.c"

    def setUp(self) -> None:
        super().setUp()
        if shutil.which("cc") is None or not self.SOURCE.exists():
            self.skipTest("no cc, or no hosts/rust beside this")
        self.library = str(self.room / "syncs.so")
        subprocess.run(["cc", "-shared", "-fPIC", "-O2", "-o", self.library, str(self.SOURCE)], check=True)

    def test_what_was_acknowledged_is_there(self) -> None:
        last, failures = 0, 0
        for sync in (1, 2, 3, 4, 5, 6, 8, 10, 15, 20, 30, 50):
            words = {**os.environ, "LD_PRELOAD": self.library, "ARGUS_SYNC": str(sync)}
            child = self.run_child("sync", env=words, stderr=subprocess.PIPE)
            said, error = child.communicate(timeout=120)
            self.assertEqual(child.returncode, 0, error)
            failures += error in ("InDoubt\n", "LogBroken\n")
            last = max([last, *map(int, said.split())])
            with open_bank(self.path) as log:
                self.assertIn(number_in(log, 3), (last, last + 1))
                self.assertEqual(sum(number_in(log, obj) for obj in range(3)), 300)
                last = number_in(log, 3)
        self.assertGreater(failures, 5)


class FullDisk(LogCase):
    """No room is left at some time."""

    def refill(self, what: str) -> None:
        child = self.run_child(what)
        said, _ = child.communicate(timeout=120)
        why, acknowledged = said.splitlines()
        self.assertRegex(why, "the log couldn't be written: .*(full|I/O error)")
        self.assertGreater(int(acknowledged), 3)
        self.acknowledged = int(acknowledged)

    def test_a_file_that_may_not_grow(self) -> None:
        self.refill("break")
        with open_bank(self.path) as log:
            self.assertIn(number_in(log, 3) - self.acknowledged, (0, 1))

    def test_a_disk(self) -> None:
        room = tempfile.mkdtemp(dir=self.room)
        mount = ["mount", "-t", "tmpfs", "-o", "size=1m", "tmpfs", room]
        if subprocess.run(mount, capture_output=True, check=False).returncode != 0:
            self.skipTest("no file system may be mounted here")
        self.addCleanup(subprocess.run, ["umount", room], check=True)
        spare = Path(room) / "spare"
        spare.write_bytes(bytes(1 << 17))
        self.path = f"{room}/bank.db"
        self.refill("fill")
        # The runbook's way: make room, open, make a checkpoint.
        spare.unlink()
        with open_bank(self.path) as log:
            number = number_in(log, 3)
            self.assertIn(number - self.acknowledged, (0, 1))
            log.checkpoint()
            carry_out(log, 0, number + 1)
        with open_bank(self.path) as log:
            self.assertEqual(number_in(log, 3), number + 1)


class Threads(LogCase):
    """Threads share a log."""

    def test_commits_wait_together(self) -> None:
        with open_bank(self.path) as log:
            records = [log.guardian.declare("atomic_record[n:int]") for _ in range(16)]
            for record in records:
                with log.guardian.topaction() as top:
                    top.create(record, (0,))
            log.barrier()
            before = log.counts()

            def serve(record: int) -> None:
                for number in range(1, 21):
                    with log.topaction() as top:
                        top.set_field(record, 0, number)

            threads = [threading.Thread(target=serve, args=(it,)) for it in records]
            for thread in threads:
                thread.start()
            for thread in threads:
                thread.join()
            counts, entries = log.counts(), log.guardian.entries
            self.assertEqual(counts.entries, entries)
            self.assertLess(counts.batches - before.batches, 16 * 20)
        with open_bank(self.path) as log:
            self.assertEqual([number_in(log, int(it)) for it in records], [20] * 16)

    def test_checkpoints_that_are_made_by_themselves(self) -> None:
        with open_bank(self.path, checkpoint_after=100) as log:
            threads = [threading.Thread(target=self.orders, args=(log, client)) for client in range(CLIENTS)]
            for thread in threads:
                thread.start()
            for thread in threads:
                thread.join()
            self.assertGreater(log.counts().checkpoints, 0)
            self.assertLess(log.guardian.entries - log.guardian.first_entry, 300)
        with open_bank(self.path, checkpoint_after=None) as log:
            self.assertEqual([number_in(log, 3 + client) for client in range(CLIENTS)], [20] * 3)
            for number in range(21, 41):
                carry_out(log, 0, number)
            self.assertEqual(log.counts().checkpoints, 0)
            log.guardian.MAX_ACTIONS = 10
            log.checkpoint_after = 1_000_000
            carry_out(log, 0, 41)
            self.assertEqual((log.counts().checkpoints, log.guardian.actions), (1, 0))

    def test_many_entries_at_once(self) -> None:
        with open_bank(self.path) as log:
            top = log.guardian.topaction()
            for number in range(20_000):
                top.set_field(3, 0, number)
            before = log.counts().batches
            top.commit()
            log.barrier()
            self.assertGreater(log.counts().batches - before, 1)
        with open_bank(self.path) as log:
            self.assertEqual(number_in(log, 3), 19_999)

    def test_two_that_make_it_at_once(self) -> None:
        names: list[str] = []

        def make() -> None:
            try:
                with Log.open_or_create(self.path) as log:
                    names.append(log.name)
            except LogLocked:
                pass

        threads = [threading.Thread(target=make) for _ in range(8)]
        for thread in threads:
            thread.start()
        for thread in threads:
            thread.join()
        with Log.open(self.path) as log:
            self.assertEqual(set(names), {log.name})

    def orders(self, log: Log, client: int) -> None:
        for number in range(1, 21):
            carry_out(log, client, number)

    def test_backups_beside_orders(self) -> None:
        with open_bank(self.path) as log:
            thread = threading.Thread(target=self.orders, args=(log, 0))
            thread.start()
            for number in range(4):
                log.backup(f"{self.path}.{number}")
            thread.join()
            with self.assertRaises(FileExistsError):
                log.backup(f"{self.path}.0")
        for number in range(4):
            with Log.open(f"{self.path}.{number}") as copy:
                self.assertEqual(sum(number_in(copy, obj) for obj in range(3)), 300)
        self.assertFalse(list(self.room.glob("*-new-*")))


if __name__ == "__main__":
    unittest.main()
