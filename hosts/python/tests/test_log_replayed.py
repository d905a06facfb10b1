"""Logs that the proved program reads from their databases: `replay --database`. REPLAY names it, or .ci/run left it.

Where they are built, so are logs that C's host wrote and Rust's: hosts/run leaves the programs, or ARGUS_C_LOG and
ARGUS_RUST_ORDERS name them.
"""

from __future__ import annotations

import os
import shutil
import subprocess
import sys
import unittest
from pathlib import Path

sys.path.insert(0, str(Path(__file__).resolve().parent))

from log_bank import carry_out, open_bank  # noqa: E402
from log_replays import REPLAY, ReplayCase, replayed  # noqa: E402

from argus_guardian.log_rows import summed  # noqa: E402

TOP = Path(__file__).resolve().parents[3]
C_LOG = os.environ.get("ARGUS_C_LOG", str(TOP / "build/hosts/c/log_tests"))
RUST_ORDERS = os.environ.get("ARGUS_RUST_ORDERS", str(TOP / "build/hosts/rust/release/examples/orders"))


@unittest.skipUnless(os.access(REPLAY, os.X_OK), "no program replay")
class ReplayedTest(ReplayCase):
    def setUp(self) -> None:
        super().setUp()
        with open_bank(self.path) as log:
            carry_out(log, 0, 1)
            log.checkpoint()
            for number in range(2, 5):
                carry_out(log, 0, number)
        self.firsts = [first for (first,) in self.rows("SELECT first FROM batch ORDER BY first")]

    def says(self, status: int, words: str) -> None:
        """What it says of a database that is changed by hand."""
        self.assertEqual(replayed("--database", self.path), (status, "", words + "\n"))

    def test_it_lists_what_the_text_gives(self) -> None:
        self.lists(self.text())

    def written_by(self, *words: str, given: str = "") -> None:
        """Another host writes the log, in its own process."""
        Path(self.path).unlink()
        subprocess.run(words, input=given, capture_output=True, text=True, check=True, timeout=60)
        self.lists(self.text())

    @unittest.skipUnless(os.access(C_LOG, os.X_OK), "no log of C's host")
    def test_a_log_of_c(self) -> None:
        self.written_by(C_LOG, "orders", self.path, "5")

    @unittest.skipUnless(os.access(RUST_ORDERS, os.X_OK), "no log of Rust's host")
    def test_a_log_of_rust(self) -> None:
        self.written_by(RUST_ORDERS, self.path, given="3 1 70\n3 2 30\n5 1 900\n")

    def test_it_reads_the_wal_and_writes_nothing(self) -> None:
        with open_bank(self.path) as log:
            carry_out(log, 1, 1)
            copy = Path(self.path).with_name("copy.db")
            for suffix in "", "-wal":
                shutil.copy(f"{self.path}{suffix}", f"{copy}{suffix}")
        wanted = replayed("--list", "bases", given=self.text())
        before = {it.name: it.read_bytes() for it in copy.parent.glob("copy.db*")}
        self.assertEqual(replayed("--database", str(copy)), wanted)
        self.assertEqual({it.name: it.read_bytes() for it in copy.parent.glob("copy.db*")}, before)

    def test_rows_that_do_not_follow(self) -> None:
        shutil.copy(self.path, f"{self.path}-kept")
        first, second, third = self.firsts
        for change, words in (
            (f"UPDATE batch SET lines = lines || ' ' WHERE first = {second}", f"batch, row {second}: Sum"),
            (f"DELETE FROM batch WHERE first = {second}", f"batch, row {third}: Number"),
            (f"DELETE FROM batch WHERE first = {first}", f"batch, row {second}: Number"),
            (f"DELETE FROM batch WHERE first = {third}", "log, row 0: Number"),
            ("UPDATE log SET sum = sum - 1", "log, row 0: Sum"),
            ("DELETE FROM opening WHERE line = 1", "opening, row 2: Number"),
            ("UPDATE opening SET text = text || ' ' WHERE line = 1", f"batch, row {first}: Sum"),
        ):
            with self.subTest(change):
                shutil.copy(f"{self.path}-kept", self.path)
                self.rows(change)
                self.says(3, f"table {words}")

    def test_a_line_with_another_reply(self) -> None:
        last, name = self.firsts[-1], str(self.rows("SELECT name FROM log")[0][0])
        before = self.rows("SELECT sum FROM batch ORDER BY first DESC LIMIT 1 OFFSET 1")[0][0]
        lines = str(self.rows("SELECT lines FROM batch ORDER BY first DESC LIMIT 1")[0][0]).split("\n")
        number = next(at for at, line in enumerate(lines) if line.endswith(" -> done"))
        lines[number] = lines[number].removesuffix("done") + "refused Over"
        text = "\n".join(lines)
        total = summed(name, last, before, text.encode())
        self.rows(f"UPDATE log SET sum = {total}")
        self.rows(f"UPDATE batch SET lines = '{text}', sum = {total} WHERE first = {last}")
        self.says(3, f"table batch, row {last}, line {number + 1}: NotTheReply: done")

    def test_what_is_no_log(self) -> None:
        Path(self.path).unlink()
        self.says(5, "database: NoFile")
        Path(self.path).write_bytes(b"no database" * 1000)
        self.says(3, "database: Unsound")
        Path(self.path).unlink()
        self.rows("CREATE TABLE other (a INTEGER)")
        self.says(3, "database: NoLog")

    def test_a_log_of_another_time(self) -> None:
        for change, words in (
            ("UPDATE log SET is_open = 1", "WalMissing"),
            ("PRAGMA user_version = 2", "OtherFormat"),
            ("PRAGMA application_id = 1", "NoLog"),
        ):
            with self.subTest(change):
                self.rows(change)
                self.says(3, f"database: {words}")


if __name__ == "__main__":
    unittest.main()
