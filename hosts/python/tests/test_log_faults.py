"""What is wrong with a log's database: each fault is told by its own exception, and nothing is changed then."""

from __future__ import annotations

import os
import random
import shutil
import sqlite3
import subprocess
import sys
import tempfile
import unittest
from collections.abc import Callable
from pathlib import Path
from typing import Any

sys.path.insert(0, str(Path(__file__).resolve().parent))

from log_bank import LogCase, carry_out, number_in, open_bank  # noqa: E402

from argus_guardian import Guardian  # noqa: E402
from argus_guardian import log as logs  # noqa: E402
from argus_guardian.log import Log  # noqa: E402
from argus_guardian.log_rows import summed  # noqa: E402

FORGED = "UPDATE batch SET lines = replace(lines, '{100}', '{900}') WHERE first = 0"


class LogFaults(LogCase):
    """A database is changed by hand, and opened."""

    @classmethod
    def setUpClass(cls) -> None:
        room = tempfile.TemporaryDirectory()
        cls.addClassCleanup(room.cleanup)
        cls.made = f"{room.name}/bank.db"
        with open_bank(cls.made) as log:
            cls.name = log.name
            for number in range(1, 6):
                carry_out(log, 0, number)

    def setUp(self) -> None:
        super().setUp()
        shutil.copy(self.made, self.path)
        self.firsts = [row[0] for row in self.sql("SELECT first FROM batch ORDER BY first")]

    def sql(self, *statements: str) -> list[Any]:
        database = sqlite3.connect(self.path, isolation_level=None)
        try:
            return [row for it in statements for row in database.execute(it).fetchall()]
        finally:
            database.close()

    def files(self) -> dict[str, bytes]:
        """The files that are the log. SQLite makes an index of a WAL, and an empty WAL, for who only reads."""
        found = {it.name: it.read_bytes() for it in self.room.iterdir() if not it.name.endswith(("-shm", "-owner"))}
        return {name: content for name, content in found.items() if content}

    def refuse(self, error: type[Exception], words: str = "", **options: Any) -> None:
        """The log isn't opened, for this reason, and is as it was; so it is refused again."""
        before = self.files()
        for _ in range(2):
            with self.assertRaisesRegex(error, words) as caught:
                Log.open(self.path, **options).close()
            self.assertIs(type(caught.exception), error)
            self.assertEqual(self.files(), before)

    def crash(self, work: Callable[[Log], None]) -> None:
        """A process does this with the log, and is killed."""
        child = os.fork()
        if child == 0:
            try:
                log = open_bank(self.path)
                work(log)
            finally:
                os.kill(os.getpid(), 9)
        os.waitpid(child, 0)

    def orders(self, log: Log) -> None:
        for number in range(6, 30):
            carry_out(log, 0, number)

    def test_no_log(self) -> None:
        os.remove(self.path)
        self.refuse(logs.NoLog)
        with self.assertRaises(FileNotFoundError):
            Log(self.path)
        self.assertEqual(self.files(), {})

    def test_no_log_of_a_guardian(self) -> None:
        self.sql("PRAGMA application_id = 7")
        self.refuse(logs.NotALog)
        for content in b"", b"some text, and more of it than a head of a page has" * 30:
            Path(self.path).write_bytes(content)
            self.refuse(logs.NotALog)
        os.remove(self.path)
        os.mkfifo(self.path)
        with self.assertRaisesRegex(logs.NotALog, "isn't a file"):
            Log.open(self.path)

    def test_another_format(self) -> None:
        self.sql("PRAGMA user_version = 2")
        self.refuse(logs.OtherFormat, "format 2")

    def test_another_log(self) -> None:
        self.refuse(logs.OtherLog, name="0123")
        self.refuse(logs.LogOld, at_least=1000)
        with Log.open(self.path, name=self.name, at_least=20) as log:
            self.assertEqual(number_in(log, 3), 5)

    def test_rows_of_another_log(self) -> None:
        with open_bank(f"{self.path}.other") as log:
            carry_out(log, 0, 1)
        attach, taken = f"ATTACH '{self.path}.other' AS other", "FROM other.batch WHERE first = 0"
        self.sql(attach, f"UPDATE batch SET (lines, sum) = (SELECT lines, sum {taken}) WHERE first = 0")
        self.refuse(logs.RowChanged, "batch 0")

    def test_a_row_is_changed(self) -> None:
        self.sql(FORGED)
        self.refuse(logs.RowChanged, "batch 0")

    def test_the_last_row_is_changed(self) -> None:
        self.sql(f"UPDATE batch SET lines = lines || ' ' WHERE first = {self.firsts[-1]}")
        self.refuse(logs.RowChanged, f"batch {self.firsts[-1]}")

    def test_giving_up_what_comes_from_a_batch_on(self) -> None:
        number = self.firsts[-2]
        self.sql(f"UPDATE batch SET lines = lines || ' ' WHERE first = {number}")
        self.refuse(logs.RowChanged, f"batch {number}")
        last = "(SELECT sum FROM batch ORDER BY first DESC LIMIT 1)"
        give_up = f"UPDATE log SET next_entry = {number}, sum = {last}"
        self.sql(f"DELETE FROM batch WHERE first >= {number}", give_up)
        with Log.open(self.path) as log:
            self.assertEqual(number_in(log, 3), 3)
            carry_out(log, 0, 4)
        with Log.open(self.path) as log:
            self.assertEqual(number_in(log, 3), 4)

    def test_a_row_that_isnt_text(self) -> None:
        self.sql("UPDATE batch SET lines = CAST(x'30ff' AS TEXT) WHERE first = 0")
        self.refuse(logs.RowChanged)

    def test_the_row_of_log_is_changed(self) -> None:
        for change, error in (
            ("sum = sum + 1", logs.RowChanged),
            ("name = 'another'", logs.RowChanged),
            ("next_entry = next_entry + 1", logs.LogCut),
            ("next_entry = next_entry - 1", logs.LogOld),
        ):
            with self.subTest(change):
                before = self.sql("SELECT name, next_entry, sum FROM log")[0]
                self.sql(f"UPDATE log SET {change}")
                self.refuse(error)
                self.sql(f"UPDATE log SET (name, next_entry, sum) = ('{before[0]}', {before[1]}, {before[2]})")
        self.sql("DELETE FROM log")
        self.refuse(logs.RowMissing)

    def test_a_row_is_missing(self) -> None:
        self.sql(f"DELETE FROM batch WHERE first = {self.firsts[2]}")
        self.refuse(logs.RowMissing, f"the entries {self.firsts[2]} to {self.firsts[3] - 1}")

    def test_the_first_row_is_missing(self) -> None:
        self.sql("DELETE FROM batch WHERE first = 0")
        self.refuse(logs.RowMissing, "the entries 0 to")

    def test_a_row_is_doubled(self) -> None:
        at, later = self.firsts[2], self.firsts[3]
        of_the_row = f"FROM batch WHERE first = {at}"
        self.sql(f"INSERT INTO batch SELECT {at} + 1, lines, sum {of_the_row}")
        self.refuse(logs.RowDoubled)
        self.sql(f"DELETE FROM batch WHERE first = {at} + 1")
        self.sql(f"UPDATE batch SET (lines, sum) = (SELECT lines, sum {of_the_row}) WHERE first = {later}")
        self.refuse(logs.RowDoubled, f"in the place of batch {later}")

    def test_a_row_is_there_once_more_at_the_end(self) -> None:
        self.sql("INSERT INTO batch SELECT (SELECT next_entry FROM log), lines, sum FROM batch WHERE first = 0")
        self.refuse(logs.RowDoubled)

    def test_rows_are_swapped(self) -> None:
        one, other = self.firsts[1:3]
        self.sql(
            f"UPDATE batch SET first = -1 WHERE first = {one}",
            f"UPDATE batch SET first = {one} WHERE first = {other}",
            f"UPDATE batch SET first = {other} WHERE first = -1",
        )
        self.refuse(logs.RowSwapped, f"in the place of batch {one}")

    def test_the_last_rows_are_cut_off(self) -> None:
        self.sql(f"DELETE FROM batch WHERE first >= {self.firsts[-2]}")
        self.refuse(logs.LogCut, f"before entry {self.firsts[-2]}")
        self.sql("DELETE FROM batch")
        self.refuse(logs.LogCut, "before entry 0")

    def test_the_opening_is_changed(self) -> None:
        with Log.open(self.path) as log:
            log.checkpoint()
        content = self.files()
        for change, error in (
            ("UPDATE opening SET text = replace(text, '{5}', '{6}')", logs.RowChanged),
            ("DELETE FROM opening WHERE line = 2", logs.RowMissing),
            ("DELETE FROM opening WHERE line = 6", logs.RowChanged),
            ("DELETE FROM opening WHERE line = 0", logs.RowMissing),
            ("UPDATE opening SET text = 'opening' WHERE line = 0", logs.RowChanged),
            ("DELETE FROM opening", logs.LogCut),
        ):
            with self.subTest(change):
                self.sql(change)
                self.refuse(error)
                Path(self.path).write_bytes(content["bank.db"])
        with Log.open(self.path) as log:
            self.assertEqual(number_in(log, 3), 5)

    def test_another_reply(self) -> None:
        """The sums are right, and no guardian has such a journal."""
        self.sql(FORGED, "DELETE FROM batch WHERE first > 0")
        ((lines,),) = self.sql("SELECT lines FROM batch")
        forged = lines.replace(" -> o0", " -> o7", 1).encode()
        total, count = summed(self.name, 0, summed(self.name, 0, 0, b""), forged), forged.count(b"\n") + 1
        self.sql(f"UPDATE log SET next_entry = {count}, sum = {total}")
        database = sqlite3.connect(self.path)
        with database:
            database.execute("UPDATE batch SET lines = ?, sum = ?", (forged.decode(), total))
        database.close()
        self.refuse(logs.OtherReply, "batch 0, `0 declare .* -> o7`: the journal before it gives the reply")

    def test_a_page_has_rotted(self) -> None:
        content = bytearray(Path(self.path).read_bytes())
        # The root of `batch`, behind the schema, `log` and `opening`: what kind of page it is.
        root = self.sql("SELECT rootpage FROM sqlite_master WHERE name = 'batch'")[0][0]
        content[(root - 1) * 4096] = 77
        Path(self.path).write_bytes(content)
        self.refuse(logs.PagesDamaged)

    def test_any_byte_is_another_one(self) -> None:
        """It is told, or nothing is missing: pages have bytes that count for nothing."""
        content, chance, refused = self.files()["bank.db"], random.Random(1), 0
        for _ in range(150):
            at = chance.randrange(len(content))
            changed = bytes([content[at] ^ 1 << chance.randrange(8)])
            Path(self.path).write_bytes(content[:at] + changed + content[at + 1 :])
            try:
                with Log.open(self.path) as log:
                    self.assertEqual([number_in(log, obj) for obj in range(4)], [101, 99, 100, 5])
            except logs.LogError as error:
                self.assertIsNot(type(error), logs.LogError, error)
                refused += 1
        self.assertGreater(refused, 10)

    def test_the_wal_is_missing(self) -> None:
        self.crash(self.orders)
        kept = Path(f"{self.path}-wal").read_bytes()
        os.remove(f"{self.path}-wal")
        self.refuse(logs.WalMissing, "what it had is gone")
        Path(f"{self.path}-wal").write_bytes(b"")
        self.refuse(logs.WalMissing)
        Path(f"{self.path}-wal").write_bytes(kept)
        with Log.open(self.path) as log:
            self.assertEqual(number_in(log, 3), 29)

    def test_half_of_the_wal_is_gone(self) -> None:
        self.crash(self.orders)
        wal = Path(f"{self.path}-wal")
        kept = wal.read_bytes()
        # The frames behind the end of a file that is cut off can't be seen; those behind a hole can.
        wal.write_bytes(kept[: len(kept) // 4] + bytes(len(kept) // 4) + kept[len(kept) // 4 * 2 :])
        self.refuse(logs.WalDamaged, "has changed")
        wal.write_bytes(kept[:16])
        self.refuse(logs.WalMissing)

    def test_what_may_not_be_written(self) -> None:
        """The superuser may write everything, and so is another user meanwhile."""
        self.crash(self.orders)
        self.addCleanup(self.room.chmod, 0o700)
        if os.geteuid() == 0:
            self.addCleanup(os.seteuid, 0)
            self.look_for_the_library_as(65534)
        for owner in (True, False):
            if not owner:
                os.remove(f"{self.path}-owner")
            self.room.chmod(0o555)
            if os.getuid() == 0:
                os.seteuid(65534)
            self.refuse(logs.LogError, "unable to open|readonly|denied")
            if os.getuid() == 0:
                os.seteuid(0)
            self.room.chmod(0o700)
        with Log.open(self.path) as log:
            self.assertEqual(number_in(log, 3), 29)

    def look_for_the_library_as(self, user: int) -> None:
        """Skips the test where it isn't this user's to read, as in a folder of the superuser's own."""
        os.seteuid(user)
        try:
            Guardian().close()
        except OSError:
            self.skipTest("the library is the superuser's alone")
        finally:
            os.seteuid(0)

    def test_the_wal_was_moved_by_another_program(self) -> None:
        self.crash(self.orders)
        self.sql("SELECT * FROM log")
        self.refuse(logs.WalMissing, "UPDATE log SET is_open = 0")
        self.sql("UPDATE log SET is_open = 0")
        with Log.open(self.path) as log:
            self.assertEqual(number_in(log, 3), 29)

    def test_a_frame_of_the_wal_has_rotted(self) -> None:
        self.crash(self.orders)
        wal = Path(f"{self.path}-wal")
        kept, step = wal.read_bytes(), 24 + 4096
        frames = (len(kept) - 32) // step
        self.assertGreater(frames, 20)
        for frame in range(frames - 6):
            # In its page, and in its head.
            for at in 32 + frame * step + 1000, 32 + frame * step + 9:
                wal.write_bytes(kept[:at] + bytes([kept[at] ^ 1]) + kept[at + 1 :])
                with self.assertRaisesRegex(logs.WalDamaged, f"frame {frame + 1} has changed"):
                    Log.open(self.path)
        wal.write_bytes(kept[:20] + bytes([kept[20] ^ 1]) + kept[21:])
        self.refuse(logs.WalDamaged, "the header")
        wal.write_bytes(kept)
        with Log.open(self.path) as log:
            self.assertEqual(number_in(log, 3), 29)

    def test_the_last_commit_is_torn(self) -> None:
        """Nobody can tell that from a write that was never acknowledged: what is before it is there."""
        self.crash(self.orders)
        wal, step = Path(f"{self.path}-wal"), 24 + 4096
        file, kept = Path(self.path).read_bytes(), wal.read_bytes()
        heads = [kept[at : at + 24] for at in range(32, len(kept), step)]
        ends = [number for number, head in enumerate(heads) if head[4:8] != bytes(4)]
        self.assertEqual(ends[-1], len(heads) - 1)
        torn = [kept[:-100], kept[:-step]]
        for frame in range(ends[-2] + 1, len(heads)):
            # Of what wasn't on disk yet any part may be missing, also where later parts are there.
            at = 32 + frame * step
            torn += [kept[: at + 24] + bytes(4096) + kept[at + step :], kept[:at] + bytes(step) + kept[at + step :]]
        for content in torn:
            Path(self.path).write_bytes(file)
            wal.write_bytes(content)
            with Log.open(self.path) as log:
                self.assertEqual(number_in(log, 3), 28)

    def test_the_wal_of_another_log(self) -> None:
        self.crash(self.orders)
        other = f"{self.path}.other"
        shutil.copy(f"{self.path}-wal", f"{self.path}.kept")
        subprocess.run([sys.executable, "-c", OTHER, other, str(Path(__file__).parent)], check=False)
        shutil.copy(f"{other}-wal", f"{self.path}-wal")
        self.refuse(logs.OtherLog, "the WAL beside it")
        shutil.copy(f"{self.path}.kept", f"{self.path}-wal")
        with Log.open(self.path) as log:
            self.assertEqual(number_in(log, 3), 29)

    def test_an_older_wal(self) -> None:
        self.crash(self.orders)
        shutil.copy(f"{self.path}-wal", f"{self.path}.kept")
        self.crash(lambda log: log.checkpoint())
        os.remove(f"{self.path}-shm")
        shutil.copy(f"{self.path}.kept", f"{self.path}-wal")
        self.refuse(logs.LogOld, "that is older")

    def test_an_older_copy_of_all(self) -> None:
        """It is a log that once was: only who knows more can tell."""
        with Log.open(self.path) as log:
            log.backup(f"{self.path}.copy")
            carry_out(log, 0, 6)
            entries = log.guardian.entries
        os.replace(f"{self.path}.copy", self.path)
        self.refuse(logs.LogOld, at_least=entries)
        with Log.open(self.path) as log:
            self.assertEqual(number_in(log, 3), 5)

    def test_a_folder(self) -> None:
        with self.assertRaises(logs.NotALog):
            Log.open(self.room)


OTHER = """
import os, sys
sys.path.insert(0, sys.argv[2])
from log_bank import carry_out, open_bank
log = open_bank(sys.argv[1])
for number in range(1, 9):
    carry_out(log, 0, number)
os.kill(os.getpid(), 9)
"""


if __name__ == "__main__":
    unittest.main()
