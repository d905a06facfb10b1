"""`Entering`: the mutex of a guardian, which refuses a call inside a call, and the wait for the end of an action."""

from __future__ import annotations

import functools
import threading
import time
from collections.abc import Callable, Iterator
from typing import TYPE_CHECKING, Any, TypeVar

from .errors import Reentered
from .quick import Gate
from .telling import Call

if TYPE_CHECKING:
    # Python 3.9 has none.
    from typing import Concatenate, ParamSpec

    _Given = ParamSpec("_Given")

_Self = TypeVar("_Self", bound="Entering")
_Result = TypeVar("_Result")

# After how many seconds a wait looks again, first and at most: an action that is dropped without an end wakes nobody.
LOOK_AFTER, LOOK_AT_LAST = 0.05, 1.0


def looks() -> Iterator[float]:
    """After how many seconds a wait looks again, each time after twice as many."""
    look = LOOK_AFTER
    while True:
        yield look
        look = min(2 * look, LOOK_AT_LAST)


class Entering(Gate):
    """The mutex that is held around each call with its reply.

    A signal handler, a `__del__` and a callback may run between any two steps of a call of their thread. The mutex
    would let that thread in once more, and a call made there would replace the reply that is kept. So each call
    begins and ends like this, or is `one_call`:

        if self._busy:
            self._refuse_reentered()
        with self._lock:
            self._busy = True
            ...
            self._busy = self._awaited

    What decides is who has the mutex, which no interrupt (Ctrl-C) leaves behind. `_busy` only saves that question: it
    is true from a call's first step to its last and while a thread waits, and may stay true after a call that
    raises. A call that comes before the first step, or after the last, does no harm.
    """

    def __init__(self) -> None:
        self._make_lock()

    def _make_lock(self) -> None:
        # The condition is notified when actions end. At the end of its wait no interrupt keeps it from having a lock
        # of this kind again.
        self._lock = threading.RLock()
        self._ended = threading.Condition(self._lock)
        # The threads that wait for that, by their identity, and whether there are any. Each holds its lock here as
        # long as it waits.
        self._waiting: dict[int, threading.Lock] = {}
        # What wakes the tasks of event loops that wait for it.
        self._wakers: dict[object, Callable[[], None]] = {}
        self._awaited = False
        self._busy = False

    def _has_lock(self) -> bool:
        """Whether this thread has the mutex."""
        return _has_lock_of(self._ended)

    def _refuse_reentered(self) -> None:
        """Raises Reentered if this thread is inside a call, or waits in one."""
        this = threading.get_ident()
        wait = self._waiting.get(this)
        if self._has_lock() or (wait is not None and wait.locked()):
            raise Reentered

    def _wait_until(self, limit: float, look: float = LOOK_AFTER) -> None:
        """Waits until an action ends, but not for long: one that is dropped notifies nobody."""
        ended = self._ended
        self._apart(lambda: ended.wait(min(limit - time.monotonic(), look)))

    def _read_apart(self, read: Callable[[Call], _Result], call: Call) -> _Result:
        """Reads a call while others may have the lock."""
        lock = self._lock

        def read_it() -> _Result:
            lock.release()
            return read(call)

        return self._apart(read_it)

    def _apart(self, do: Callable[[], _Result]) -> _Result:
        """Does what gives the lock back. This thread is inside its call all the while, and has the lock again then."""
        this, wait = threading.get_ident(), threading.Lock()
        # After a fork the guardian has others.
        lock, ended, waiting, wakers = self._lock, self._ended, self._waiting, self._wakers
        with wait:
            waiting[this] = wait
            self._awaited = True
            try:
                return do()
            finally:
                # An interrupt may have come just after it gave the lock back.
                if not _has_lock_of(ended):
                    lock.acquire()
                # No function is called, so no interrupt comes in between.
                self._busy = True
                del waiting[this]
                self._awaited = not not waiting or not not wakers

    def _wake(self) -> None:
        if self._awaited:
            self._ended.notify_all()
            for wake in list(self._wakers.values()):
                wake()

    def _wait_alone(self, limit: float, look: float) -> None:
        """`_wait_until`, which takes the lock itself."""
        with self._lock:
            self._busy = True
            self._wait_until(limit, look)

    def _wake_alone(self) -> None:
        """`_wake`, which takes the lock itself."""
        with self._lock:
            self._busy = True
            self._wake()


def _has_lock_of(condition: threading.Condition) -> bool:
    """Whether this thread has the condition's lock: only then it may notify anybody, and here it notifies nobody."""
    try:
        condition.notify(0)
    except RuntimeError:
        return False
    return True


def one_call(
    method: Callable[Concatenate[_Self, _Given], _Result],
) -> Callable[Concatenate[_Self, _Given], _Result]:
    """Makes the method one call: it has the mutex. Raises Reentered if this thread is inside a call already."""

    @functools.wraps(method)
    def call(self: _Self, /, *given: _Given.args, **named: _Given.kwargs) -> _Result:
        if self._busy:
            self._refuse_reentered()
        with self._lock:
            self._busy = True
            result = method(self, *given, **named)
            self._busy = self._awaited
            return result

    return call
