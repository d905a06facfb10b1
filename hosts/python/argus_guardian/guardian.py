"""`Guardian`: atomic objects, and the actions that use them."""

from __future__ import annotations

import os
import random
import time
import warnings
from collections.abc import Awaitable, Callable, Iterable
from typing import Any, NoReturn, TypeVar

from . import errors, forking
from .action import Action
from .archive import read_late
from .call_reading import ReadCall
from .entering import one_call
from .library import Kind, Question, Status
from .lists import CallsMade, Listed, Part, array_of, calls_of, parts_of
from .looping import ThreadWork
from .naming import Naming
from .quick import AT_ONCE
from .ranges import MOST, U64, within
from .telling import Call, error_of
from .values import AnyObject

_Done = TypeVar("_Done")

_BEGIN_TOP = Kind.BEGIN_TOP
_BEGINS = (Kind.BEGIN_TOP, Kind.BEGIN_SUB, Kind.BEGIN_NESTED)
_ENDS = (Kind.COMMIT, Kind.ABORT, Kind.ABORT_OTHERS)


class Guardian(Naming):
    """Atomic objects, and the actions that use them. Threads may share it: each call takes its mutex.

    Each call raises Reentered, and does nothing, if its thread is inside another one: if a signal handler, a
    `__del__` or a callback makes it, which has interrupted that one. The other call goes on with its own reply. A
    thread that waits for an object, in a checkpoint or before a topaction is inside, and so is one in a block of
    `ready_commit`; one that only waits for the mutex isn't yet. Handlers that set a flag, or hand over to another
    thread, have nothing to catch.

    An access waits for its object at most `patience` seconds, and then raises Conflict: abort the
    topaction, and begin it again, as `run` does. If actions wait for one another in a circle, of whatever length, the
    youngest of them is refused with Conflict when the circle closes, and `waits_for` of that says for whom it would
    have waited. The youngest is the one whose topaction has the highest number. Circles come in two ways.

    - Both of two have read an object, and both want to write it. If you will write what you read, call `lock` before
      you read; then they take turns.
    - Each has locked what the next one wants. If all take locks in one order, such as by the number of the object,
      that doesn't happen.

    It isn't promised that a wait ends.

    The journal keeps each call with its reply, and so grows until a checkpoint. The guardian makes one by itself after
    `checkpoint_after` entries, as soon as a topaction ends and no action is live; None: never. A guardian begins at
    most MAX_ACTIONS actions until it is renewed, which a checkpoint does when half of these numbers are used, and
    declares at most 65,535 objects.
    """

    def __init__(self, patience: float = 1.0, *, checkpoint_after: int | None = 100_000) -> None:
        super().__init__(patience)
        self.checkpoint_after = checkpoint_after
        self._is_open = True
        forking.add(self)

    @one_call
    def close(self) -> None:
        """Frees its memory. Live actions leave nothing."""
        self._is_open = False
        self._archive.close()
        self._wake()

    def _leave_behind(self) -> None:
        """Closes it in a forked process. Its memory and its lock are the parent's."""
        self._is_open = False
        self._archive.leave_behind()
        self._make_lock()
        self._connect_archive()

    def __del__(self, warn: Callable[..., None] = warnings.warn) -> None:
        # No reference to it is left, so no thread has its lock.
        if getattr(self, "_is_open", False):
            said = repr(self)
            self._archive.close()
            warn(f"unclosed guardian {said}", ResourceWarning, source=self)

    def __repr__(self) -> str:
        """How many objects and entries it has. It waits for nobody, and may be called inside a call."""
        name = type(self).__name__
        if not self._is_open:
            return f"<{name}, closed>"
        if self._has_lock() or not self._lock.acquire(blocking=False):
            return f"<{name}, in a call>"
        try:
            self._busy = True
            told = [self._archive.ask(it)[1] for it in (Question.OBJECTS, Question.ENTRIES)]
            self._busy = self._awaited
        finally:
            self._lock.release()
        return f"<{name} of {told[0]} objects, {told[1]} entries, {len(self._owners.live)} live actions>"

    def __reduce__(self) -> NoReturn:
        raise TypeError("a guardian is neither pickled nor copied: it lives in one process")

    def __enter__(self) -> Guardian:
        return self

    def __exit__(self, *_: object) -> None:
        self.close()

    def topaction(self) -> Action:
        """Begins a topaction. While a thread waits in `checkpoint`, it waits for that thread."""
        return (AT_ONCE and self._begin_at_once(_BEGIN_TOP, None)) or self._begin(_BEGIN_TOP)

    def run(self, work: Callable[[Action], _Done], tries: int = 20) -> _Done:
        """Carries out `work(top)` as a topaction, and returns what it returns.

        At a Conflict it aborts the topaction, and tries again after a wait: up to a millisecond at first,
        up to twice as much each time, and no more than 100, `tries` times in all. Then it raises the
        Conflict. Any other exception aborts the topaction, and is raised at once.

        `work` may run more than once, so it must do nothing outside the guardian that mustn't be done
        twice.
        """
        for number in range(tries - 1):
            try:
                return self._run_once(work)
            except errors.Conflict:
                time.sleep(_pause(number))
        return self._run_once(work)

    def _run_once(self, work: Callable[[Action], _Done]) -> _Done:
        with self.topaction() as top:
            return work(top)

    async def arun(self, work: Callable[[Action], Any], tries: int = 20) -> Any:
        """`run` for asyncio.

        If `work` is a coroutine function, it runs in the event loop: `await work(top)`, within `async with`. Else it
        runs in a thread of asyncio's pool. If the task is cancelled, the topaction is aborted, unless it has committed.
        """
        # asyncio takes longer to load than the rest of the package, and most programs don't need it.
        import asyncio
        from inspect import iscoroutinefunction

        if iscoroutinefunction(work):
            return await self._arun_in_loop(work, tries)
        in_thread = ThreadWork(work)
        running = asyncio.create_task(asyncio.to_thread(lambda: self.run(in_thread, tries)))
        try:
            return await asyncio.shield(running)
        except asyncio.CancelledError:
            # What it raises then is nobody's.
            running.add_done_callback(lambda it: it.cancelled() or it.exception())
            in_thread.cancel()
            raise

    async def _arun_in_loop(self, work: Callable[[Action], Awaitable[_Done]], tries: int) -> _Done:
        from asyncio import sleep

        for number in range(tries - 1):
            try:
                return await self._arun_once(work)
            except errors.Conflict:
                await sleep(_pause(number))
        return await self._arun_once(work)

    async def _arun_once(self, work: Callable[[Action], Awaitable[_Done]]) -> _Done:
        async with self.topaction() as top:
            return await work(top)

    @one_call
    def abort_live(self) -> None:
        """Aborts all live actions, nested topactions too; later calls by these actions raise Over.

        For a program that has live actions left that nobody will end. At OutOfMemory some were aborted,
        from the first one on, and another call aborts the others.
        """
        if self._dropped:
            self._abort_dropped()
        status = self._archive.abort_live()
        self._wake()
        if status != Status.DONE:
            raise error_of(status)

    def call(
        self, kind: int, action: int = 0, obj: AnyObject = 0, first: int = 0, second: int = 0, text: str = ""
    ) -> Any:
        """Makes one call, of a Kind, and returns its result; raises Refused or Signal if that is the reply."""
        call, read = self._read_call(kind, action, obj, first, second, text)
        with self._lock:
            self._busy = True
            answer = self._make(call, read)
            if kind in _ENDS:
                self._note_end(kind, call[1], answer)
            if kind in _BEGINS and answer[0] == Status.ACTION:
                self._begun = answer[1] + 1
            result = self._result(answer, call)
            self._busy = self._awaited
        return read_late(result)

    def call_each(self, calls: Iterable[Listed]) -> CallsMade:
        """Makes these calls, each a `Listed`, up to the first whose reply isn't what its demand says.

        All of them are one call into the library. Each has its own entry in the journal, and none waits.
        A call that fails ends the list, too; the calls before it stay. Returns a `CallsMade`. A call with a text of
        1,024 bytes or more is one by itself: other threads may call while its text is read.

        If it raises an exception, an action that the list began is aborted if it is still live.
        OutOfMemory: calls were made, but there was no memory for their results. At Closed, and if a
        number isn't one that the library takes (OverflowError, TypeError), no call was made.
        """
        array, answers = array_of(list(calls), self._ids), []
        begun: list[int] = []
        try:
            for part in parts_of(array):
                part.name_actions()
                made = self._call_part(part, begun)
                answers += made.answers
                if made.end is not None:
                    return CallsMade(answers, made.end)
            return CallsMade(answers, None)
        except BaseException:
            if begun:
                self._abort_each(begun)
            raise

    def _call_part(self, part: Part, begun: list[int]) -> CallsMade:
        """Makes these calls of a list, and notes which actions they have begun."""
        if self._busy:
            self._refuse_reentered()
        try:
            read = self._archive.read(part.call()) if part.is_alone() else None
        except errors.ArgusError as error:
            return CallsMade([], error)
        return self._call_each(part.array, read, begun)

    @one_call
    def _call_each(self, array: Any, read: ReadCall | None, begun: list[int]) -> CallsMade:
        if self._dropped:
            self._abort_dropped()
        before = self._archive.told(Question.ACTIONS)
        try:
            made = self._make_each(array, read)
            self._begun = self._archive.told(Question.ACTIONS)
            begun += range(before, self._begun)
            return made
        except BaseException:
            self._abort_from(before)
            raise

    @one_call
    def _abort_each(self, numbers: list[int]) -> None:
        for number in numbers:
            self._archive.make(Kind.ABORT, number)

    def _make_each(self, array: Any, read: ReadCall | None) -> CallsMade:
        status, count = self._archive.make_each(array, read)
        self._left -= count
        made = array[:count]
        calls, outcomes = calls_of(made), [(it.status, it.number) for it in made]
        try:
            answers = self._archive.answers(outcomes, calls)
        finally:
            self._note_each(calls, outcomes)
        return CallsMade(answers, _end_of(status, answers, array))

    def _note_each(self, calls: list[Call], outcomes: list[tuple[int, int]]) -> None:
        """Notes what a list has ended, and the circles that it may have closed. The library's reply is gone then."""
        for call, outcome in zip(calls, outcomes):
            if call[0] in _ENDS:
                self._note_end(call[0], call[1], outcome)
        if self._awaited:
            # That of a begun subaction is its parent.
            for action in {call[1] for call in calls}:
                self._break_circles_within(action)

    @one_call
    def lines(self, entry: int, size: int = 65536) -> list[str]:
        """The lines of the journal's entries from this number on, as many as fit into `size` bytes.

        If there is a line, it returns at least one, however long it is; so `entry + len(lines)` is the
        next number to ask for. NotThere below `first_entry`, and above `entries`.
        """
        entry, size = within(entry, 0, U64, "entry"), within(size, 0, MOST, "size")
        if self._dropped:
            self._abort_dropped()
        lines = self._archive.lines(entry, size)
        self._note_read(entry + len(lines))
        return lines

    def show(self, path: str | os.PathLike[str], names: Iterable[str] = ()) -> None:
        """Writes a page to this file in which a browser shows what the journal says, objects under these names.

        The page has the journal's lines and a script that draws them, and needs no network. What that draws isn't
        proved. A later call writes the page anew, at once: who opens it meanwhile finds a whole one.
        """
        # Most programs don't need it.
        from .page import page_of, write_page

        write_page(path, page_of(self.list("journal"), names))


def _pause(number: int) -> float:
    """How many seconds a topaction waits after a Conflict before it is tried once more, the first time at 0."""
    return random.uniform(0, 0.001 * min(2**number, 100))


def _end_of(status: int, answers: list[Any], array: Any) -> errors.ArgusError | None:
    """Why no more calls of a list were made than there are answers, as an exception; None if all were."""
    if status == Status.DONE:
        return None
    return answers[-1] if status == Status.UNMET else error_of(status, array[len(answers)].number)
