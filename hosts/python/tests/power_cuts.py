"""What a disk may have of a program's files after a power cut, by what trace.c of hosts/rust/tests/log has noted."""

from __future__ import annotations

import io
import random
import subprocess
from collections.abc import Callable, Iterator
from dataclasses import dataclass
from pathlib import Path

SOURCE = Path(__file__).resolve().parents[2] / "rust/tests/log/trace.c"
SECTOR = 512

Files = dict[str, bytes]


@dataclass
class Event:
    """What the program has done with a file: `write`, `size` or `sync`; or `said`, that it has printed something."""

    kind: str
    at: int
    file: str
    content: bytes


def make_tracer(library: Path) -> None:
    """Makes what notes it: LD_PRELOAD names this library, and ARGUS_TRACE the file of its records."""
    subprocess.run(["cc", "-shared", "-O2", "-fPIC", "-o", str(library), str(SOURCE)], check=True)


def events_of(trace: Path) -> Iterator[Event]:
    """The records of a file, in their order."""
    records = io.BytesIO(trace.read_bytes())
    while head := records.readline():
        kind, at, size = head.split()
        file = Path(records.readline().decode().rstrip("\n")).name
        yield Event(kind.decode(), int(at), file, records.read(int(size)))


def placed(content: bytes, at: int, part: bytes) -> bytes:
    """A file's content with this part in its place; what is before that, and was never written, is zeros."""
    front = content[:at].ljust(at, b"\0")
    return front + part + content[at + len(part) :]


class Disk:
    """A sector is written whole. Until its file is synced, it is as it was at any time since the last sync, whatever the
    other sectors are. Files are there as soon as they are made."""

    def __init__(self) -> None:
        self.current: Files = {}
        self.durable: Files = {}
        # The contents of each sector since the last sync, by file and place.
        self.pending: dict[tuple[str, int], list[bytes]] = {}

    def take(self, event: Event) -> None:
        """What the program has done next."""
        if event.kind == "write":
            self.write(event.file, event.at, event.content)
        elif event.kind == "size":
            self.resize(event.file, event.at)
        elif event.kind == "sync":
            self.durable[event.file] = self.current.get(event.file, b"")
            self.pending = {it: parts for it, parts in self.pending.items() if it[0] != event.file}

    def write(self, file: str, at: int, part: bytes) -> None:
        was = self.current.get(file, b"")
        now = self.current[file] = placed(was, at, part)
        for place in range(min(at, len(was)) // SECTOR * SECTOR, at + len(part), SECTOR):
            self.pending.setdefault((file, place), []).append(now[place : place + SECTOR])

    def resize(self, file: str, size: int) -> None:
        """A file that becomes shorter is so for sure: then its sectors aren't looked at."""
        was = self.current.get(file, b"")
        if size > len(was):
            self.write(file, len(was), bytes(size - len(was)))
            return
        self.current[file] = was[:size]
        self.durable[file] = self.durable.get(file, b"")[:size]
        self.pending = {it: parts for it, parts in self.pending.items() if it[0] != file or it[1] < size}

    def states(self, chance: random.Random, count: int) -> Iterator[Files]:
        """What isn't sure is all there, or nothing of it is; and so many states by chance."""
        yield dict(self.current)
        yield self.state(lambda contents: 0)
        for _ in range(count):
            yield self.state(lambda contents: chance.randrange(len(contents) + 1))

    def state(self, choose: Callable[[list[bytes]], int]) -> Files:
        """Each sector that isn't sure has the content of this number, 0 for that which is."""
        files = {file: self.durable.get(file, b"") for file in self.current}
        for (file, place), contents in sorted(self.pending.items()):
            number = choose(contents)
            if number > 0:
                files[file] = placed(files[file], place, contents[number - 1])
        return files
