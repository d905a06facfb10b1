#!/usr/bin/env python3
"""Kills banks with logs and breaks their files for a time, in Rust, Python and C, and counts what came of it.

    [MINUTES=60] [PROCESSORS=2] [ROOM=/var/tmp] hosts/log_faults.py

hosts/run has to have built the hosts, in build/hosts. One test runs at a time, on so many processors; it may take a
minute longer than that. ROOM is a folder on the disk that is tried. Each kind has a line at the end: how often it was run
and failed, and the sums of what its tests have counted. The status is 1 if any failed; what that printed is kept in
build/hosts/log_faults.
"""

from __future__ import annotations

import os
import re
import shutil
import subprocess
import sys
import time
from collections import Counter
from dataclasses import dataclass, field
from pathlib import Path

TOP = Path(__file__).resolve().parents[1]
BUILT = TOP / "build/hosts"
FAILED = BUILT / "log_faults"
LONG = 900

CARGO = ["cargo", "--config", "debian.toml", "test", "--offline", "--quiet", "--features", "sqlite", "--test", "log", "--"]
PYTHON = [sys.executable, "-m", "unittest"]
IN_C = [str(BUILT / "c/log_tests")]

# What the tests print of their counts.
COUNTED = re.compile(
    r"(\d+) (orders acknowledged|carried out|stand|kills|logs with an opening|logs began with an opening|aborts"
    r"|states|opened|backups|passed)\b"
)
NAMES = {"stand": "carried out", "logs began with an opening": "logs with an opening", "passed": "tests"}
RAN = re.compile(r"^Ran (\d+) tests?", re.MULTILINE)


@dataclass
class Kind:
    """Tests of one kind, and what came of them."""

    name: str
    folder: str
    words: list[str]
    kills: int = 0
    runs: int = 0
    failures: int = 0
    seconds: float = 0
    counts: Counter[str] = field(default_factory=Counter)

    def run(self, room: str) -> None:
        """Runs them once."""
        words = [it.replace("ROOM", room) for it in self.words]
        environment = {**os.environ, "ARGUS_LOG_KILLS": str(self.kills), "ARGUS_LOG_SCRATCH": room, "TMPDIR": room}
        began = time.monotonic()
        try:
            done = subprocess.run(
                words, cwd=TOP / self.folder, env=environment, timeout=LONG, stdout=subprocess.PIPE,
                stderr=subprocess.STDOUT, text=True, errors="replace", check=False,
            )  # fmt: skip
            printed, has_failed = done.stdout, done.returncode != 0
        except subprocess.TimeoutExpired as error:
            printed, has_failed = f"{error}\n", True
        self.seconds += time.monotonic() - began
        self.runs += 1
        self.failures += has_failed
        if has_failed:
            (FAILED / f"{self.name.replace(' ', '_')}_{self.runs}").write_text(printed)
        for number, what in COUNTED.findall(printed):
            self.counts[NAMES.get(what, what)] += int(number)
        if ran := RAN.search(printed):
            self.counts["tests"] += int(ran[1])

    def __str__(self) -> str:
        counts = ", ".join(f"{number:,} {what}" for what, number in self.counts.items())
        return f"{self.name}: {self.runs} runs in {self.seconds:.0f} s, {self.failures} failed: {counts or 'no counts'}"


def kinds() -> list[Kind]:
    """The kinds of faults, in the order in which they take turns."""
    tests = "hosts/python/tests"
    return [
        Kind("Rust, killed", "hosts/rust", [*CARGO, "kills", "--nocapture"], 60),
        Kind("Python, killed", tests, [*PYTHON, "test_log_kills.Killed"], 60),
        Kind("C, killed, one client", "hosts/c", [*IN_C, "kills", "ROOM/bank.db", "100", "1"]),
        Kind("C, killed, four clients", "hosts/c", [*IN_C, "kills", "ROOM/bank.db", "100", "4"]),
        Kind("Rust, power cuts", "hosts/rust", [*CARGO, "cuts", "--nocapture"]),
        Kind("Rust, syncs that fail", "hosts/rust", [*CARGO, "syncs", "--nocapture"]),
        Kind("Python, syncs that fail, full disks", tests, [*PYTHON, "test_log_kills.FailingSync", "test_log_kills.FullDisk"]),
        Kind("Python, interrupted", tests, [*PYTHON, "test_log_kills.Interrupted"]),
        Kind("Rust, files and rows changed", "hosts/rust", [*CARGO, "faults::", "wal::", "read_only::"]),
        Kind("Python, files and rows changed", tests, [*PYTHON, "test_log_faults"]),
        Kind("C, files and rows changed", "hosts/c", [*IN_C, "faults", "ROOM/bank.db"]),
        Kind("Rust, two processes", "hosts/rust", [*CARGO, "processes::"]),
    ]


def turns(all_kinds: list[Kind], room: Path, until: float) -> None:
    """Has them take turns until that time; each has one at least."""
    number = 0
    while number < len(all_kinds) or time.monotonic() < until:
        made = room / f"turn{number}"
        made.mkdir()
        kind = all_kinds[number % len(all_kinds)]
        kind.run(str(made))
        shutil.rmtree(made)
        print(kind, flush=True)
        number += 1


def main() -> int:
    """All of it. The status."""
    minutes, processors = float(os.environ.get("MINUTES", "60")), int(os.environ.get("PROCESSORS", "2"))
    os.sched_setaffinity(0, sorted(os.sched_getaffinity(0))[:processors])
    os.environ.update(
        CARGO_TARGET_DIR=str(BUILT / "rust"), ARGUS_LIB_DIR=str(BUILT / "dist/lib"), PYTHONDONTWRITEBYTECODE="1",
        ARGUS_LIBRARY=str(BUILT / "dist/lib/libargus.so.0"), LC_ALL="C.UTF-8",
    )  # fmt: skip
    FAILED.mkdir(parents=True, exist_ok=True)
    room = Path(os.environ.get("ROOM", "/var/tmp")) / f"argus-log-faults-{os.getpid()}"
    room.mkdir()
    all_kinds, began = kinds(), time.monotonic()
    try:
        turns(all_kinds, room, began + 60 * minutes)
    finally:
        shutil.rmtree(room)
        print(f"after {(time.monotonic() - began) / 60:.0f} minutes:")
        print(*all_kinds, sep="\n")
    return int(any(it.failures for it in all_kinds))


if __name__ == "__main__":
    sys.exit(main())
