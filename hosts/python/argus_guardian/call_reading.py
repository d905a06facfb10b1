"""`ReadCall`: a call with a long text, which is read while others use the guardian."""

from __future__ import annotations

import ctypes
from collections.abc import Callable

from .library import Answer, Handle, Parsed, Status
from .telling import Call, error_of, error_of_call

# Texts of so many bytes are read before their call: of shorter ones that costs more than it saves others. It is LONG of
# _call.h, too.
LONG_CALL = 1024


def is_long(call: Call) -> bool:
    """Whether a call has a long text."""
    return len(call) > 5 and len(call[5]) >= LONG_CALL


class ReadCall:
    """A call that the library has read, until it is made, or nobody has it any more."""

    def __init__(self, library: ctypes.CDLL, open_guardian: Callable[..., Answer], call: Call) -> None:
        """Raises why the call can't be made, if its numbers or its text say so."""
        self.handle, self._drop = Parsed(), library.argus_c_drop_parsed
        # The call is put into the memory of a guardian that nobody else has.
        beside, number = Handle(), ctypes.c_int64()
        status = open_guardian(ctypes.byref(beside)).status
        if status != Status.DONE:
            raise error_of(status)
        try:
            status = library.argus_c_parse(beside, self.handle, *call, len(call[5]), number)
        finally:
            library.argus_c_close(beside)
        if status != Status.DONE:
            raise error_of_call(status, number.value, call)

    def __del__(self) -> None:
        self._drop(self.handle)
