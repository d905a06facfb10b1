"""`Uses`: the calls of a log that are under way. A close waits for them, and a call inside a call is refused."""

from __future__ import annotations

import threading
import time
from collections.abc import Callable
from operator import methodcaller
from typing import TypeVar

from .errors import Closed, Reentered

_Outcome = TypeVar("_Outcome")


def _has_ended(use: threading.Lock, seconds: float = -1.0) -> bool:
    """Waits for the end of a use, at most so long. Whether it has ended.

    The lock is had and given back in one step: a handler in between might close the log, too, and wait for it.
    """
    had = filter(methodcaller("acquire", True, seconds), (use,))
    return next(map(methodcaller("release"), had), False) is None


class Uses:
    """What threads share and close. Once it is closed each call raises Closed, and `_free` is called when none is left.

    A call raises Reentered if its thread is inside one already.
    """

    def __init__(self) -> None:
        self._is_open = True
        # The uses, each with its thread. It is a lock that is held as long as the use is under way: an interrupt may
        # leave the entry here, but not the lock held. There is no other lock, since a handler might interrupt this
        # thread where it has that, and wait for another thread that wants it.
        self._uses: dict[threading.Lock, int] = {}

    def _free(self) -> None:
        """Gives up what is used; it may be called more than once."""
        raise NotImplementedError

    def _under_way(self) -> list[int]:
        """The threads that use it."""
        return [thread for use, thread in list(self._uses.items()) if use.locked()]

    def refuse_reentered(self) -> None:
        """Raises Reentered if this thread is inside a call of the log."""
        if self._uses and threading.get_ident() in self._under_way():
            raise Reentered

    def used(self, call: Callable[[], _Outcome]) -> _Outcome:
        """What the call returns. Nothing is freed before."""
        self.refuse_reentered()
        use = threading.Lock()
        try:
            with use:
                # In this order, since `close` says that it is closed, and then looks for uses.
                self._uses[use] = threading.get_ident()
                if not self._is_open:
                    raise Closed("the log is closed, or it is that of the process from which this one was forked")
                return call()
        finally:
            # If an interrupt comes in between, the entry stays, whose lock nobody has.
            self._uses.pop(use, None)
            self._free_closed()

    def close(self) -> None:
        """Closes it, when the calls of other threads have ended."""
        self.refuse_reentered()
        self._is_open = False
        # A use that comes later finds it closed.
        for use in list(self._uses):
            _has_ended(use)
        self._free()

    def close_within(self, seconds: float) -> bool:
        """`close`, which gives up after a while: False where threads use it still."""
        limit = time.monotonic() + seconds
        self._is_open = False
        if not all(_has_ended(use, max(0.0, limit - time.monotonic())) for use in list(self._uses)):
            return False
        self._free()
        return True

    def _free_closed(self) -> None:
        if not (self._is_open or self._under_way()):
            self._free()
