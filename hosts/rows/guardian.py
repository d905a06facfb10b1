"""`Guardian`: a guardian of the library for rows. What is `tried` may be refused memory, all else has as much as it
takes."""

from __future__ import annotations

import ctypes
from typing import Any, NamedTuple, TypeAlias

from argus_guardian.library import Handle, ListedCall, Question, Ready, Status, load
from calls import Call

# More than a text or the lines that are asked for here have; limits.rows has longer ones, and doesn't ask for them.
ROOM = 1 << 16
LIBRARY = load()
LIBRARY.allow.argtypes, LIBRARY.allow.restype = (ctypes.c_int64,), None
LIBRARY.refused.argtypes, LIBRARY.refused.restype = (), ctypes.c_uint64


class NoMemory(Exception):
    """An allocation was refused, and the call says so."""


class Changed(Exception):
    """A room was written to by a call that doesn't say ARGUS_DONE."""


class Lines(NamedTuple):
    """What argus_c_lines writes."""

    status: int
    size: int
    entries: int
    room: bytes


# A status, a size, and the room.
Written: TypeAlias = "tuple[int, int, bytes]"


class Taken(NamedTuple):
    """What argus_c_resume writes."""

    bytes: int
    lines: int
    status: int
    number: int


def room_of(size: int) -> ctypes.Array[ctypes.c_char]:
    """A room of this size, with a `?` in each byte."""
    return ctypes.create_string_buffer(size * b"?", max(size, 1))


class Guardian:
    """A guardian of the library. `allowed`: how many allocations what is tried may make; below 0 any number."""

    def __init__(self) -> None:
        self.handle, self.ready, self.allowed = Handle(), Ready(), -1
        LIBRARY.argus_c_open(self.handle, Handle())

    def close(self) -> None:
        """Frees its memory. ValueError if it wasn't open."""
        if LIBRARY.argus_c_close(self.handle) != Status.DONE:
            raise ValueError("a guardian that is open isn't closed")

    def go_beside(self) -> None:
        """Goes on with a guardian that is made beside this one, which is closed. ValueError as `close`."""
        beside = Handle()
        LIBRARY.argus_c_open(beside, self.handle)
        self.close()
        self.handle = beside

    def tried(self, function: Any, *given: Any) -> int:
        """The status of a call. NoMemory where it found none, since an allocation was refused."""
        if self.allowed < 0:
            return int(function(*given))
        before = LIBRARY.refused()
        LIBRARY.allow(self.allowed)
        status = int(function(*given))
        LIBRARY.allow(-1)
        if status == Status.NO_MEMORY and LIBRARY.refused() > before:
            raise NoMemory
        return status

    def written(self, function: Any, size: int, first: tuple[Any, ...], last: tuple[Any, ...] = ()) -> Written:
        """Tries a call that writes to a room of `?` of this size: its status, the size that it tells, and the room.

        NoMemory as above; Changed if the call isn't done, and the room isn't as it was.
        """
        room, told = room_of(size), ctypes.c_size_t(99)
        status: int | None = None
        try:
            status = self.tried(function, *first, room, size, told, *last)
        finally:
            if status != Status.DONE and room.raw != room_of(size).raw:
                raise Changed
        return status, told.value, room.raw[:size]

    def call(self, call: Call) -> tuple[int, int]:
        """Tries a call (kind, action, object, first, second, text): its status and number."""
        number = ctypes.c_int64(99)
        status = self.tried(LIBRARY.argus_c_call, self.handle, *call, len(call[5]), number)
        return status, number.value

    def call_each(self, calls: ctypes.Array[ListedCall]) -> tuple[int, int]:
        """The status of a list of calls, so many of which were made. It never raises NoMemory: what was made stays."""
        made = ctypes.c_size_t(99)
        LIBRARY.allow(self.allowed)
        status = LIBRARY.argus_c_call_each(self.handle, calls, len(calls), made)
        LIBRARY.allow(-1)
        return status, made.value

    def ask(self, question: int, action: int = 0, obj: int = 0, entry: int = 0) -> tuple[int, int]:
        """Tries a question: its status and number."""
        number = ctypes.c_int64(99)
        status = self.tried(LIBRARY.argus_c_tell, self.handle, question, action, obj, entry, number)
        return status, number.value

    def number(self, question: int) -> int:
        """The answer to a question for a count."""
        number = ctypes.c_int64()
        LIBRARY.argus_c_tell(self.handle, question, 0, 0, 0, number)
        return number.value

    def text(self, question: int, obj: int = 0, entry: int = 0) -> bytes | None:
        """The answer to a question for a text, which is kept then; None where it isn't there."""
        status = LIBRARY.argus_c_tell(self.handle, question, 0, obj, entry, ctypes.c_int64())
        return self.kept() if status == Status.TEXT else None

    def kept(self) -> bytes | None:
        """The text that is kept, or None."""
        size, room = ctypes.c_size_t(), ctypes.create_string_buffer(ROOM)
        status = LIBRARY.argus_c_reply(self.handle, room, ROOM, size)
        if status == Status.TOO_SMALL:
            room = ctypes.create_string_buffer(size.value)
            status = LIBRARY.argus_c_reply(self.handle, room, size.value, size)
        return room.raw[: size.value] if status == Status.DONE else None

    def lines(self, entry: int, room_size: int) -> Lines:
        """Tries to put lines from this entry on into a room of `?`."""
        count = ctypes.c_uint64(99)
        status, size, room = self.written(LIBRARY.argus_c_lines, room_size, (self.handle, entry), (count,))
        return Lines(status, size, count.value, room)

    def reply(self, room_size: int) -> Written:
        """Tries to put the text that is kept into a room of `?`: the status, the size and the room."""
        return self.written(LIBRARY.argus_c_reply, room_size, (self.handle,))

    def resume(self, text: bytes) -> Taken:
        """Hands lines of a listing over. It never raises NoMemory: what was taken stays."""
        size, lines, number = ctypes.c_size_t(99), ctypes.c_size_t(99), ctypes.c_int64(99)
        LIBRARY.allow(self.allowed)
        status = LIBRARY.argus_c_resume(self.handle, text, len(text), size, lines, number)
        LIBRARY.allow(-1)
        return Taken(size.value, lines.value, status, number.value)

    def checkpoint(self) -> int:
        """Tries a checkpoint."""
        return self.tried(LIBRARY.argus_c_checkpoint, self.handle)

    def renew(self) -> int:
        """Tries to start over."""
        return self.tried(LIBRARY.argus_c_renew, self.handle)

    def abort_live(self) -> int:
        """Tries to abort all live actions. At NoMemory the first ones may have been aborted."""
        return self.tried(LIBRARY.argus_c_abort_live, self.handle)

    def resumed(self) -> tuple[int, int]:
        """Tries to put the guardian of what was taken in this one's place: the status, and how many bytes it drops."""
        dropped = ctypes.c_uint64(99)
        return self.tried(LIBRARY.argus_c_resumed, self.handle, dropped), dropped.value

    def listing(self) -> bytes:
        """The listing of its journal."""
        return self.text(Question.LIST_JOURNAL) or b""


def opened(listing: bytes) -> Guardian:
    """The guardian of a journal's listing. ValueError where not all of it is taken."""
    guardian = Guardian()
    taken = guardian.resume(listing)
    if taken.status != Status.DONE or taken.bytes != len(listing) or guardian.resumed() != (Status.DONE, 0):
        raise ValueError(f"a listing isn't taken whole: {taken}")
    return guardian
