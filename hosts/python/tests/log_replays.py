"""Logs that the proved program reads: what tests of them have in common. REPLAY names it, or .ci/run left it."""

from __future__ import annotations

import os
import sqlite3
import subprocess
from pathlib import Path

from log_bank import LogCase

TOP = Path(__file__).resolve().parents[3]
REPLAY = os.environ.get("REPLAY", str(TOP / "crates/replay/out/replay"))


def replayed(*words: str, given: bytes = b"") -> tuple[int, str, str]:
    """The status of the program, and what it printed and said."""
    ended = subprocess.run([REPLAY, *words], input=given, capture_output=True, check=False, timeout=60)
    return ended.returncode, ended.stdout.decode(), ended.stderr.decode()


class ReplayCase(LogCase):
    """A test with a path for a log that is replayed."""

    def rows(self, statement: str) -> list[tuple[int, ...]]:
        database = sqlite3.connect(self.path)
        try:
            found = database.execute(statement).fetchall()
            database.commit()
            return found
        finally:
            database.close()

    def text(self) -> bytes:
        """The listing, as SQL has it."""
        database = sqlite3.connect(self.path)
        try:
            rows = database.execute("SELECT text FROM opening ORDER BY line").fetchall()
            rows += database.execute("SELECT lines FROM batch ORDER BY first").fetchall()
            return "".join(f"{lines}\n" for (lines,) in rows).encode()
        finally:
            database.close()

    def lists(self, text: bytes) -> None:
        for listing in "bases", "stacks", "journal", "audit":
            wanted = replayed("--list", listing, given=text)
            self.assertEqual((wanted[0], wanted[1] != ""), (0, True))
            self.assertEqual(replayed("--database", self.path, "--list", listing), wanted)
