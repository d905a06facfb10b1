"""Logs that Python and C take over from each other: both write the same tables, and each goes on in what the other wrote.

ARGUS_C_LOG names the program of hosts/c/log_tests. Where nothing is said, these tests are left out.
"""

from __future__ import annotations

import os
import shutil
import sqlite3
import subprocess
import sys
import unittest
from pathlib import Path
from typing import Any

sys.path.insert(0, str(Path(__file__).resolve().parent))

from log_bank import LogCase, carry_out, number_in, open_bank  # noqa: E402

from argus_guardian.log import Log, LogLocked  # noqa: E402

PROGRAM = os.environ.get("ARGUS_C_LOG", "")


@unittest.skipUnless(PROGRAM, "ARGUS_C_LOG names no program")
class Exchanged(LogCase):
    """A log that one of them has written, killed or not, and the other one opens."""

    def in_c(self, last: int, path: str = "") -> list[int]:
        """C carries out orders up to this one: what the accounts have, and the last order."""
        words = [PROGRAM, "orders", path or self.path, str(last)]
        done = subprocess.run(words, capture_output=True, text=True, timeout=60, check=False)
        self.assertEqual(done.stderr, "")
        return [int(it) for it in done.stdout.split()]

    def in_python(self, last: int) -> list[int]:
        with open_bank(self.path) as log:
            for number in range(number_in(log, 3) + 1, last + 1):
                carry_out(log, 0, number)
            return [number_in(log, obj) for obj in range(4)]

    def rows(self, path: str, statement: str) -> list[Any]:
        database = sqlite3.connect(path)
        try:
            return database.execute(statement).fetchall()
        finally:
            database.close()

    def test_python_goes_on_in_c_log(self) -> None:
        self.assertEqual(self.in_c(5), [101, 99, 100, 5])
        self.assertEqual(self.in_python(7), [100, 99, 101, 7])
        self.assertEqual(self.in_c(9), [100, 100, 100, 9])

    def test_c_goes_on_in_python_log(self) -> None:
        self.assertEqual(self.in_python(5), [101, 99, 100, 5])
        self.assertEqual(self.in_c(7), [100, 99, 101, 7])
        self.assertEqual(self.in_python(9), [100, 100, 100, 9])

    def everything(self, path: str) -> list[Any]:
        """All that the database of a log has."""
        kinds = ["PRAGMA application_id", "PRAGMA user_version", "SELECT name, sql FROM sqlite_master"]
        tables = [f"SELECT * FROM {it}" for it in ("log", "opening", "batch", "object")]
        return [self.rows(path, it) for it in kinds + tables]

    def test_the_same_calls_make_the_same_rows(self) -> None:
        other = f"{self.path}.c"
        self.in_c(2)
        shutil.copy(self.path, other)
        for last in 5, 7:
            self.in_c(last, other)
            self.in_python(last)
            self.assertEqual(self.everything(self.path), self.everything(other))
            subprocess.run([PROGRAM, "fold", other], check=True)
            with Log.open(self.path) as log:
                log.checkpoint()
            self.assertEqual(self.everything(self.path), self.everything(other))

    def test_both_make_the_same_tables(self) -> None:
        other = f"{self.path}.c"
        Log.create(self.path).close()
        self.in_c(0, other)
        self.assertEqual(self.everything(self.path)[:3], self.everything(other)[:3])

    def test_a_checkpoint_keeps_names(self) -> None:
        self.in_c(1)
        names = self.rows(self.path, "SELECT number, name, shape FROM object")
        self.assertEqual([it[0] for it in names], list(range(7)))
        with Log.open(self.path) as log:
            log.checkpoint()
        self.assertEqual(self.rows(self.path, "SELECT number, name, shape FROM object"), names)
        self.assertEqual(self.rows(self.path, "SELECT base FROM object WHERE number = 3"), [("{1}",)])
        self.assertEqual(self.in_c(2)[3], 2)

    def test_a_process_that_was_killed(self) -> None:
        child = os.fork()
        if child == 0:
            try:
                log = open_bank(self.path)
                for number in range(1, 30):
                    carry_out(log, 0, number)
            finally:
                os.kill(os.getpid(), 9)
        os.waitpid(child, 0)
        self.assertEqual(self.in_c(29)[3], 29)

    def test_one_has_it(self) -> None:
        with open_bank(self.path):
            done = subprocess.run([PROGRAM, "orders", self.path, "1"], capture_output=True, text=True, check=False)
            self.assertIn("ARGUS_LOG_LOCKED: another process has the log", done.stderr)
        with subprocess.Popen([PROGRAM, "hold", self.path], stdin=subprocess.PIPE, stdout=subprocess.PIPE) as child:
            assert child.stdout is not None and child.stdin is not None
            self.assertEqual(child.stdout.readline(), b"open\n")
            with self.assertRaises(LogLocked):
                Log.open(self.path)
            child.stdin.close()


if __name__ == "__main__":
    unittest.main()
