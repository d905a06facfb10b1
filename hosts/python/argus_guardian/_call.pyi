"""argus_c_call without ctypes: `_call.c`."""

from .library import QuickCall

def of(address: int, /) -> QuickCall: ...
