"""A log that Rattle's own store writes: that of argus_store_example, a bank. Its allocations and its files' calls fail in
turn, and what a power cut may leave of its files is rebuilt.

REPLAY names the program, or .ci/run left it; ARGUS_STORE_EXAMPLE names the bank, which tools/kept.sh compiles.
tools/programs/failing.c stands before the C
library's calls, so it needs a compiler. With ARGUS_EACH_CALL set each allocation fails in turn, and a bit of each byte
is flipped, which takes an hour; else one of so many.
"""

from __future__ import annotations

import os
import random
import re
import shutil
import subprocess
import sys
import unittest
from itertools import count
from pathlib import Path
from tempfile import TemporaryDirectory

sys.path.insert(0, str(Path(__file__).resolve().parent))

from log_replays import REPLAY, TOP, ReplayCase  # noqa: E402
from power_cuts import Disk, events_of, make_tracer  # noqa: E402

from argus_guardian.log import Log  # noqa: E402

BANK = os.environ.get("ARGUS_STORE_EXAMPLE", "")
FAILING = TOP / "tools/programs/failing.c"
SUFFIXES = "", "-wal"

EACH = "ARGUS_EACH_CALL" in os.environ
# One of so many allocations fails, and a bit of one byte of so many is flipped. Reads and writes all fail in turn.
STEPS = {"m": 1 if EACH else 53, "p": 1, "s": 1}
FLIPPED = 1 if EACH else 1009
# Of each moment of a power cut so many states are drawn.
DRAWN = 200 if EACH else 4


def says(payments: int) -> str:
    """What the bank prints, three entries a payment and four for the account."""
    return f"{payments} payments and {4 + 3 * payments} entries are kept\n"


def has_programs() -> bool:
    return os.access(BANK, os.X_OK) and os.access(REPLAY, os.X_OK)


@unittest.skipUnless(has_programs(), "no program of Rattle")
class StoreTest(ReplayCase):
    def test_other_programs_read_its_log(self) -> None:
        """SQLite finds it sound, and Python's host goes on with it."""
        for _ in range(4):
            subprocess.run([BANK], cwd=self.room, capture_output=True, check=True, timeout=60)
        self.assertEqual(self.rows("PRAGMA integrity_check"), [("ok",)])
        opening = b"opening entries 13 actions 4\nopening o0 atomic_array[int] 1[70,70,70]\n"
        begun = b"13 begin_top -> a4\n14 alter a4 o0 addh 70 -> done\n15 commit a4 -> done\n"
        self.assertEqual(self.text(), opening + begun)
        self.lists(self.text())
        self.rows("PRAGMA application_id = 0x41524755")
        self.rows("PRAGMA user_version = 1")
        with Log.open(self.path) as log, log.topaction() as top:
            top.addh(0, 7)
        wanted = b"16 begin_top -> a5\n17 alter a5 o0 addh 7 -> done\n18 commit a5 -> done\n"
        self.assertEqual(self.text(), opening + begun + wanted)
        self.lists(self.text())


@unittest.skipUnless(has_programs(), "no program of Rattle")
class BankTest(unittest.TestCase):
    def setUp(self) -> None:
        folder = TemporaryDirectory()
        self.addCleanup(folder.cleanup)
        self.folder = Path(folder.name)
        self.kept = self.folder / "kept"
        self.failures = self.folder / "failures"

    def pay(self, settings: dict[str, str] | None = None) -> tuple[int, str]:
        """The status of the bank, and what it prints."""
        environment = {**os.environ, **(settings or {})}
        ended = subprocess.run(
            [BANK], cwd=self.folder, env=environment, capture_output=True, text=True, check=False, timeout=60
        )
        return ended.returncode, ended.stdout

    def payments(self) -> int | None:
        """How many payments the log has, by the proved replay; none if it refuses the log. Each third one folds it."""
        words = [REPLAY, "--database", "bank.db", "--list", "journal"]
        ended = subprocess.run(words, cwd=self.folder, capture_output=True, text=True, check=False, timeout=60)
        if ended.returncode != 0:
            return None
        folded = re.search(r"^opening o0 .*$", ended.stdout, re.MULTILINE)
        paid = re.findall(r"^\d+ alter (a\d+) o0 addh 70 -> done\n\d+ commit \1 -> done$", ended.stdout, re.MULTILINE)
        self.assertEqual(ended.stdout.count("addh"), len(paid), "a payment is there in part")
        return len(paid) + (len(re.findall(r"\b70\b", folded[0])) if folded else 0)

    def keep(self) -> None:
        self.kept.mkdir()
        for suffix in SUFFIXES:
            if (self.folder / f"bank.db{suffix}").exists():
                shutil.copy(self.folder / f"bank.db{suffix}", self.kept)

    def put_back(self) -> None:
        for suffix in SUFFIXES:
            (self.folder / f"bank.db{suffix}").unlink(missing_ok=True)
        for file in self.kept.iterdir():
            shutil.copy(file, self.folder)

    def test_each_run_pays_once(self) -> None:
        for payments in 1, 2, 3, 4, 5, 6:
            self.assertEqual(self.pay(), (0, says(payments)))
            self.assertEqual(self.payments(), payments)

    def fails_in_turn(self, kind: str) -> int:
        """From each call of a kind on all fail: what was acknowledged is there, or one payment more, and the next run
        goes on from there. Returns how often that was tried."""
        library = self.folder / "failing.so"
        subprocess.run(["cc", "-shared", "-O2", "-fPIC", "-o", str(library), str(FAILING)], check=True)
        before = self.payments() if (self.kept / "bank.db").exists() else 0
        self.assertIsNotNone(before)
        for done in count(0, STEPS[kind]):
            self.put_back()
            self.failures.write_bytes(bytes(8))
            status, printed = self.pay(
                {"LD_PRELOAD": str(library), "FAILING": f"{kind}{done}", "FAILING_COUNT": str(self.failures)}
            )
            acknowledged = status == 0 and printed == says((before or 0) + 1)
            if self.failures.read_bytes() == bytes(8):
                self.assertTrue(acknowledged, f"{done} calls: {status} {printed}")
                return done
            self.assertTrue(acknowledged or printed == "", f"{done} calls: {status} {printed}")
            status, printed = self.pay()
            least = (before or 0) + 1 + acknowledged
            self.assertIn((status, printed), [(0, says(least)), (0, says((before or 0) + 2))], f"{done} calls")
            self.assertEqual(says(self.payments() or 0), printed, f"{done} calls")
        raise AssertionError

    def test_each_call_fails_of_a_new_log(self) -> None:
        self.kept.mkdir()
        for kind, most in ("m", 50), ("p", 10), ("s", 20):
            with self.subTest(kind):
                self.assertGreater(self.fails_in_turn(kind), most)

    def test_each_call_fails_of_a_log(self) -> None:
        self.pay()
        self.pay()
        self.keep()
        for kind, most in ("m", 50), ("p", 10), ("s", 5):
            with self.subTest(kind):
                self.put_back()
                self.assertGreater(self.fails_in_turn(kind), most)

    def test_files_that_rot(self) -> None:
        """A log with a flipped bit is refused, or a front of it is there: as SQLite does, the store ends a WAL before
        the first frame that is broken."""
        for _ in range(4):
            self.pay()
        self.keep()
        refused = 0
        for file in sorted(self.kept.iterdir()):
            whole = file.read_bytes()
            for at in range(0, len(whole), FLIPPED):
                self.put_back()
                rotten = bytearray(whole)
                rotten[at] ^= 1 << at % 8
                (self.folder / file.name).write_bytes(rotten)
                found = self.payments()
                self.assertIn(found, (None, 0, 1, 2, 3, 4), f"{file.name}: byte {at}")
                refused += found is None
        self.assertGreater(refused, 0)

    def test_power_cuts(self) -> None:
        """Whatever a disk has kept of what wasn't synced: what was acknowledged is there, or one payment more."""
        library, trace = self.folder / "trace.so", self.folder / "trace"
        make_tracer(library)
        for payments in 1, 2, 3, 4:
            self.assertEqual(self.pay({"LD_PRELOAD": str(library), "ARGUS_TRACE": str(trace)}), (0, says(payments)))
        disk, chance, acknowledged, tried = Disk(), random.Random(1), 0, set()
        for event in events_of(trace):
            disk.take(event)
            acknowledged += event.kind == "said"
            for files in disk.states(chance, DRAWN):
                state = acknowledged, *(files.get(f"bank.db{suffix}") for suffix in SUFFIXES)
                if state not in tried:
                    self.assert_cut(*state)
                tried.add(state)
        self.assertEqual(acknowledged, 4)
        self.assertGreater(len(tried), 50)

    def assert_cut(self, acknowledged: int, *files: bytes | None) -> None:
        for suffix, content in zip(SUFFIXES, files):
            (self.folder / f"bank.db{suffix}").unlink(missing_ok=True)
            if content is not None:
                (self.folder / f"bank.db{suffix}").write_bytes(content)
        found = self.payments()
        self.assertIn(found, (acknowledged, acknowledged + 1) if acknowledged else (None, 0, 1))


if __name__ == "__main__":
    unittest.main()
