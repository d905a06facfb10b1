"""Commits in two steps, as rows ask for them: the line that can be logged in between, and then the commit, or none."""

from __future__ import annotations

import ctypes
from collections.abc import Callable

from argus_guardian.library import Status
from guardian import LIBRARY, Changed, Guardian, NoMemory


def made_ready(guardian: Guardian, row: str) -> str:
    """The size of the line, the room with it, and the status and the number of the commit, which takes no memory."""
    line = _readied(guardian, row)
    number = ctypes.c_int64(99)
    LIBRARY.allow(0)
    status = LIBRARY.argus_c_make_ready(guardian.ready, guardian.handle, number)
    LIBRARY.allow(-1)
    return f"{line} {status} {number.value}"


def cancelled(guardian: Guardian, row: str, picture: Callable[[str], object]) -> str:
    """The size of the line and the room with it. Nothing may have changed then."""
    before = picture(row)
    line = _readied(guardian, row)
    _cancel(guardian)
    if picture(row) != before:
        raise Changed
    return line


def _cancel(guardian: Guardian) -> None:
    LIBRARY.allow(0)
    status = LIBRARY.argus_c_cancel_ready(guardian.ready, guardian.handle)
    LIBRARY.allow(-1)
    if status != Status.DONE:
        raise Changed


def _readied(guardian: Guardian, row: str) -> str:
    """A commit that is ready, and its line in a room. At NoMemory there is none."""
    action, size = map(int, row.split(" "))
    guardian.tried(LIBRARY.argus_c_ready_commit, guardian.handle, guardian.ready, action)
    try:
        status, needed, room = guardian.written(LIBRARY.argus_c_ready_line, size, (guardian.ready,))
    except NoMemory:
        _cancel(guardian)
        raise
    told = f"{needed} {room.decode()}".replace("\n", "|")
    return told if status in (Status.DONE, Status.TOO_SMALL) else f"status {status}"
