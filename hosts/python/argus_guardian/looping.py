"""`Looping`: accesses and topactions whose waits let an event loop of asyncio go on."""

from __future__ import annotations

import threading
import time
from collections.abc import Callable
from typing import TYPE_CHECKING, Any, TypeVar

from .archive import read_late
from .calling import _CONFLICT
from .circles import Wait
from .entering import looks, one_call
from .errors import Over
from .folding import Folding
from .telling import Call

if TYPE_CHECKING:
    from asyncio import AbstractEventLoop, TimerHandle

    from .action import Action

class Turn:
    """The turns of one task that waits: each ends when an action ends, or after a while."""

    def __init__(self, loop: AbstractEventLoop) -> None:
        self._loop, self._came, self._after = loop, loop.create_future(), looks()

    def wake(self) -> None:
        """Ends the turn. Any thread may call this, also when the loop is closed."""
        try:
            self._loop.call_soon_threadsafe(self._come)
        except RuntimeError:
            pass

    def _come(self) -> None:
        if not self._came.done():
            self._came.set_result(None)

    async def wait(self, limit: float) -> None:
        """Waits for the turn's end, at most until the limit. The next turn begins."""
        seconds = max(0.0, min(limit - time.monotonic(), next(self._after)))
        timer: TimerHandle = self._loop.call_later(seconds, self._come)
        try:
            await self._came
        finally:
            timer.cancel()
        self._came = self._loop.create_future()


class TaskAccess:
    """An access that waits in a task, and its result."""

    def __init__(self, wait: Wait, limit: float, turn: Turn) -> None:
        self.wait, self.limit, self.turn = wait, limit, turn
        self.result: Any = None


class ThreadWork:
    """The work of a topaction that runs in another thread than the task that waits for it."""

    def __init__(self, work: Callable[[Action], Any]) -> None:
        self._work, self._lock = work, threading.Lock()
        self._top: Action | None = None
        self._is_cancelled = False

    def __call__(self, top: Action) -> Any:
        with self._lock:
            if self._is_cancelled:
                raise Over("the task was cancelled")
            self._top = top
        return self._work(top)

    def cancel(self) -> None:
        """Aborts the topaction if it is under way. No other one is begun."""
        with self._lock:
            self._is_cancelled = True
        if self._top is not None and not self._top._is_ended:
            self._top._abort_quietly()


class Looping(Folding):
    """Accesses and topactions of tasks."""

    async def _access_soon(self, action: Action, call: Call) -> Any:
        """An access that waits for its object as others do, and lets the event loop go on meanwhile."""
        from asyncio import get_running_loop

        made = self._tried(action, call, get_running_loop())
        if not isinstance(made, TaskAccess):
            return read_late(made)
        try:
            while not self._tried_again(made):
                await made.turn.wait(made.limit)
        finally:
            self._give_up(made)
        return read_late(made.result)

    @one_call
    def _tried(self, action: Action, call: Call, loop: AbstractEventLoop) -> Any:
        """The result of an access, or what waits for it."""
        self._be_since(action, call[0], call[2])
        answer = self._make(call)
        if answer != _CONFLICT:
            return self._result(answer, call)
        wait = Wait(call, action._lineage(), self._renewals)
        if self.patience <= 0:
            raise self._conflict(call, wait)
        made = TaskAccess(wait, time.monotonic() + self.patience, Turn(loop))
        wait.lasts.acquire()
        try:
            self._waits.join(wait)
            self._be_woken(made, made.turn)
            self._break_circles(wait)
        except BaseException:
            self._give_up(made)
            raise
        return made

    @one_call
    def _tried_again(self, made: TaskAccess) -> bool:
        """Whether the access is made now: its lock is free, its action over, or it has waited long enough."""
        wait, is_late = made.wait, time.monotonic() >= made.limit
        if self._dropped:
            self._abort_dropped()
        if not is_late and not self._may_go_on(wait.call, wait):
            return False
        answer = self._make_since(wait.renewals, wait.call)
        if answer == _CONFLICT and not is_late and not wait.waits_for:
            return False
        if answer == _CONFLICT:
            raise self._conflict(wait.call, wait)
        made.result = self._result(answer, wait.call)
        return True

    def _give_up(self, made: TaskAccess) -> None:
        """It doesn't wait any more. A task may end at any moment, within a call of its thread, too."""
        with self._lock:
            self._waits.leave(made.wait)
            self._be_woken(made, None)
            if made.wait.lasts.locked():
                made.wait.lasts.release()

    def _be_woken(self, key: object, turn: Turn | None) -> None:
        """From now on the turn ends when an action does; with None it doesn't any more."""
        with self._lock:
            self._wakers.pop(key, None)
            if turn is not None:
                self._wakers[key] = turn.wake
            self._awaited = bool(self._waiting) or bool(self._wakers)

    async def _wait_for_folds_soon(self) -> None:
        """Waits until no checkpoint holds topactions back."""
        from asyncio import get_running_loop

        turn = Turn(get_running_loop())
        try:
            self._be_woken(turn, turn)
            while (limit := self._held_back_alone()) is not None:
                await turn.wait(limit)
        finally:
            self._be_woken(turn, None)
