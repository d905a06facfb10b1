"""`ReadyCommit`: a prepared commit."""

from __future__ import annotations

from collections.abc import Callable
from typing import TYPE_CHECKING, Any

from . import errors
from .library import Kind, Status
from .telling import error_of

if TYPE_CHECKING:
    from .action import Action


class _GivingBack:
    """The end of a block: the lock's own `__exit__`, a function of the interpreter, which no interrupt can precede.

    So the mutex is never kept. The guardian's next call cancels the commit if it wasn't made.
    """

    def __get__(self, ready: ReadyCommit | None, kind: type[ReadyCommit]) -> Callable[..., None]:
        return self if ready is None else ready._lock.__exit__

    def __call__(self, ready: ReadyCommit, *error: Any) -> None:
        ready._lock.__exit__(*error)


class ReadyCommit:
    """A prepared commit, so that it is in a log before anybody can see what it leaves.

    `Action.ready_commit` makes one for a `with` block, in which the guardian's mutex is held. So any other call of
    this thread raises Reentered there, and the commit stays ready.
    """

    def __init__(self, action: Action) -> None:
        self._action, self._line = action, ""
        # After a fork the guardian has another one.
        self._lock: Any = action.guardian._lock

    def __enter__(self) -> ReadyCommit:
        guardian = self._action.guardian
        if guardian._busy:
            guardian._refuse_reentered()
        try:
            self._lock.acquire()
            guardian._busy = True
            self._prepare()
            return self
        except BaseException:
            # An interrupt may have come before it was had.
            if guardian._has_lock():
                guardian._archive.cancel_ready()
                self._lock.release()
            raise

    __exit__ = _GivingBack()

    def _prepare(self) -> None:
        action, guardian = self._action, self._action.guardian
        if guardian._dropped:
            guardian._abort_dropped()
        if action._renewals not in (None, guardian._renewals):
            raise errors.Over(f"{action}: {errors.Over.why}")
        # The next call opens the guardian again, however the block ends.
        guardian._owners.dropped.append(None)
        guardian._readying = id(self)
        guardian._note_read(0)
        status = guardian._archive.ready_commit(action._number)
        if status != Status.DONE:
            raise error_of(status)
        self._line = guardian._archive.ready_line()
        guardian._prepared = id(self)

    @property
    def line(self) -> str:
        """The line that the commit will have in the journal's listing, with its line feed. Closed after the block."""
        guardian = self._action.guardian
        if guardian._prepared != id(self) or not guardian._has_lock():
            raise errors.Closed("the commit isn't ready any more")
        return self._line

    def make(self) -> None:
        """Makes the commit, which takes no memory. If it is refused, raises that; the journal has the refusal.

        A second call raises Closed, and so does one after the block.
        """
        action, guardian = self._action, self._action.guardian
        if guardian._readying != id(self) or not guardian._has_lock():
            raise errors.Closed("the commit isn't ready any more")
        guardian._readying = None
        answer = guardian._archive.make_ready()
        guardian._note_end(Kind.COMMIT, action._number, answer)
        if answer[0] != Status.DONE:
            raise guardian._archive.error(*answer, (Kind.COMMIT, action._number))
        action._is_ended = True
