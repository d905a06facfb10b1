"""`check_wal`: whether a frame of SQLite's write-ahead log (WAL) that was once on disk has changed.

SQLite takes a WAL up to the first frame that doesn't verify, and drops what is behind it without a word. That is right
of a write that was torn, and wrong of a frame that rotted. Each commit is on disk before the next one's frames are
written, so they can be distinguished: behind the end of a torn commit there are no frames of this WAL.

The format is SQLite's (sqlite.org/fileformat2.html, "The WAL File Format").
"""

from __future__ import annotations

import struct
from pathlib import Path
from typing import BinaryIO

from .log_errors import WalDamaged

HEADER, _FRAME = 32, 24
_MAGIC, _VERSION, _MASK = 0x377F0682, 3007000, 0xFFFFFFFF


def check_wal(path: Path, may_be_new: bool) -> None:
    """Raises WalDamaged if a frame that was on disk has changed. It takes a second for some 10 MB.

    The header of a WAL that is new may be torn, and then nothing is in it.
    """
    with open(path, "rb") as wal:
        number = _damaged_frame(wal)
    if number is not None and not (may_be_new and number == 0):
        what = f"frame {number}" if number else "the header"
        raise WalDamaged(f"{path}: {what} has changed, and later work was written behind it")


def _damaged_frame(wal: BinaryIO) -> int | None:
    """The number of the first damaged frame, from 1 on; 0 for the header."""
    header = wal.read(HEADER)
    magic, version, size = struct.unpack_from(">3I", header)
    order, salts = (">" if magic & 1 else "<"), header[16:24]
    sums = _summed(order, header[:24], (0, 0))
    if (magic & ~1, version) != (_MAGIC, _VERSION) or struct.pack(">2I", *sums) != header[24:]:
        return 0
    number, damaged, is_ended = 0, None, False
    while len(frame := wal.read(_FRAME + size)) == _FRAME + size:
        number, is_own = number + 1, frame[8:16] == salts
        if damaged is None:
            sums = _summed(order, frame[_FRAME:], _summed(order, frame[:8], sums))
            if not is_own or struct.pack(">2I", *sums) != frame[16:_FRAME]:
                damaged = number
        if damaged is not None and is_own:
            if is_ended:
                return damaged
            # Of a commit that was torn, the frame with which it ends may be there.
            is_ended = frame[4:8] != bytes(4)
    return None


def _summed(order: str, data: bytes, sums: tuple[int, int]) -> tuple[int, int]:
    first, second = sums
    for one, other in struct.iter_unpack(f"{order}II", data):
        first = (first + one + second) & _MASK
        second = (second + other + first) & _MASK
    return first, second
