"""Calls that are read by themselves, and then made, as rows ask for them."""

from __future__ import annotations

import ctypes

from argus_guardian.library import Handle, Parsed, Status
from calls import Call
from guardian import LIBRARY, Changed, Guardian, NoMemory


def parsed(guardian: Guardian, call: Call) -> tuple[int, int]:
    """Reads a call beside the guardian, which it doesn't touch, and makes it: the status and the number. NoMemory at
    either step, which leaves no call."""
    there, number = Parsed(), ctypes.c_int64(99)
    status = _read(guardian, there, call, number)
    if status != Status.DONE:
        return status, number.value
    try:
        status = guardian.tried(LIBRARY.argus_c_call_parsed, guardian.handle, there, number)
    finally:
        if LIBRARY.argus_c_drop_parsed(there) != Status.NOT_THERE:
            raise Changed
    return status, number.value


def _read(guardian: Guardian, there: Parsed, call: Call, number: ctypes.c_int64) -> int:
    """The status of reading a call with the heap of another guardian, which is gone before the call is made."""
    beside = Handle()
    LIBRARY.argus_c_open(beside, guardian.handle)
    try:
        return guardian.tried(LIBRARY.argus_c_parse, beside, there, *call, len(call[5]), number)
    except NoMemory:
        if LIBRARY.argus_c_drop_parsed(there) != Status.NOT_THERE:
            raise Changed from None
        raise
    finally:
        LIBRARY.argus_c_close(beside)
