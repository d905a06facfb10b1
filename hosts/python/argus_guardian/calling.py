"""`Calling`: the calls of actions, behind a guardian's mutex, and the waits for objects.

Begins, accesses and ends are most of a program's calls. Each passes its arguments to the library here,
in one function: another function, or an argument that ctypes has to convert, would cost as much as the
call.
"""

from __future__ import annotations

import logging
import time
from collections.abc import Callable
from typing import Any, NoReturn
from weakref import ref

from . import errors
from .action import Action
from .archive import Archive, LongAnswer, read_late
from .asked import Asked
from .call_reading import LONG_CALL, ReadCall, is_long
from .circles import Search, Wait, Waits, holders_of
from .entering import Entering, looks
from .ids import number_of
from .library import ActionStatus, Kind, Question, Status
from .lineage import Lineage
from .loops import running_loop
from .owners import Owners
from .quick import Acting
from .ranges import MOST, i64, seconds, u32
from .telling import Call, circle, deed, error_of
from .values import AnyObject, object_number, read_content, read_value, written
from .views import view_class

_DONE = Status.DONE, 0
_TRUE = Status.FLAG, 1
_LIVE = Status.NUMBER, ActionStatus.LIVE
_OVER = Status.REFUSED, errors.REFUSALS.index(errors.Over) + 1
_CONFLICT: tuple[int, int] = Status.REFUSED, errors.REFUSALS.index(errors.Conflict) + 1
# The most frequent ones, as globals, which are looked up faster than attributes.
_IS_ACTION, _BEGIN_NESTED = Status.ACTION, Kind.BEGIN_NESTED


# What a guardian does by itself is told here. Nobody has to listen.
LOGGER = logging.getLogger("argus_guardian")
LOGGER.addHandler(logging.NullHandler())


class Calling(Entering, Asked):
    """The calls of actions. What begins with `_` and doesn't take the lock itself is called with the lock held."""

    def __init__(self, patience: float) -> None:
        Asked.__init__(self)
        Entering.__init__(self)
        self.patience = patience
        self._archive: Archive = Archive()
        self._owners: Owners = Owners()
        # How many actions were begun that the program has, or had.
        self._begun = 0
        # How often the numbers of actions began at 0 again.
        self._renewals = 0
        # How many calls are left before it is looked whether there is much to fold.
        self._left = MOST
        # The identity of the commit that is ready and can be made; None if there is none.
        self._readying: int | None = None
        # That of the last one that was ready.
        self._prepared: int | None = None
        self._connect_archive()

    @property
    def patience(self) -> float:
        """How many seconds an access waits for its object, at most."""
        return self._patience

    @patience.setter
    def patience(self, patience: float) -> None:
        self._patience = seconds(patience, "patience")

    def _connect_archive(self) -> None:
        """Says what each call looks at, by the shortest way."""
        owners, ids = self._owners, self._ids
        call, reply, at = self._archive.addresses()
        self._connect(call, reply, at, owners.live, owners.drop, owners.dropped, ids, ids.objects, Action)

    def _make_lock(self) -> None:
        super()._make_lock()
        # The checkpoints and renewals that are under way, each with its thread: they hold topactions back.
        self._folds: dict[object, int] = {}
        self._waits = Waits()
        # What each access looks at while others wait, by the shortest way.
        self._within = self._waits.within

    def _begin(self, kind: int, parent: Action | None = None) -> Action:
        """Begins an action. If an interrupt comes before the caller has it, it is aborted. Takes the lock itself."""
        archive = self._archive
        if self._busy:
            self._refuse_reentered()
        with self._lock:
            self._busy = True
            self._left -= 1
            above = 0
            if parent is not None:
                above = parent._number
                if parent._renewals != self._renewals:
                    self._be_since(parent, kind)
            if self._folds and parent is None and running_loop() is None:
                self._wait_for_folds()
            owners = self._owners
            if self._dropped:
                self._abort_dropped()
            try:
                answer = archive.call(archive.at, kind, above, 0, 0, 0, b"")
                status, number = answer  # type: ignore[misc]
                if status != _IS_ACTION:
                    raise self._archive.error(status, number, (kind, above))
                # The number is the library's own, so nobody looks at it.
                action = Acting.__new__(Action, self, number, parent, kind == _BEGIN_NESTED, self._renewals)
                owners.live[number] = ref(action, owners.drop)
                self._begun = number + 1
                self._busy = self._awaited
                return action
            except BaseException:
                self._abort_from(self._begun)
                raise

    def _wait_for_folds(self) -> None:
        """Waits until no checkpoint holds topactions back."""

    def _abort_from(self, number: int) -> None:
        """Aborts the actions from this number on, which no caller has got."""
        self._begun = self._archive.told(Question.ACTIONS)
        for it in range(number, self._begun):
            self._archive.make(Kind.ABORT, it)

    def _be_since(self, action: Action, kind: int, obj: int = 0) -> None:
        """Raises Over for an action from before a renewal: its number now names another one or none."""
        if action._renewals not in (None, self._renewals):
            raise self._archive.error(*_OVER, (kind, action._number, obj))

    def _access_of(
        self, action: Action, kind: int, obj: Any, first: int = 0, second: int = 0, text: bytes = b""
    ) -> Any:
        """Makes an access of an `Action` to an `Object`, as `access` does. Takes the lock itself."""
        of = type(obj)
        if of is not self._object_id and of is not int:
            obj = object_number(obj, self._ids)
        if len(text) >= LONG_CALL:
            return self._long_access_of(action, (kind, action._number, obj, first, second, text))
        archive = self._archive
        make = archive.call
        if self._busy:
            self._refuse_reentered()
        with self._lock:
            self._busy = True
            if self._dropped:
                self._abort_dropped()
            if action._renewals != self._renewals:
                self._be_since(action, kind, obj)
            self._left -= 1
            answer: Any = make(archive.at, kind, action._number, obj, first, second, text)
            # An integer, or nothing; else its text is read, or the call is made again.
            if type(answer) is tuple:
                call = kind, action._number, obj, first, second, text
                told: tuple[int, int] = answer  # type: ignore[assignment]
                answer = self._answered(told, call, action._lineage, action._renewals, action._is_in_loop())
            elif self._awaited and action._number in self._within:
                self._break_circles_within(action._number)
            self._busy = self._awaited
        return answer if type(answer) is not LongAnswer else read_late(answer)

    def _long_access_of(self, action: Action, call: Call) -> Any:
        """The same with a long text, which is read before the lock is taken."""
        if self._busy:
            self._refuse_reentered()
        read = self._archive.read(call)
        with self._lock:
            self._busy = True
            self._be_since(action, call[0], call[2])
            told = self._make(call, read)
            answer = self._answered(told, call, action._lineage, action._renewals, action._is_in_loop())
            self._busy = self._awaited
        return read_late(answer)

    # What a call that is made at once asks of the guardian in Python, without the lock.

    def _written(self, value: Any) -> bytes:
        """The written form of a value."""
        return written(value, self._ids)

    def _read(self, status: int, text: str) -> Any:
        """The value or the content of a written form."""
        return read_content(text) if status == Status.CONTENT else read_value(text)

    def _fail(self, status: int) -> NoReturn:
        """Raises what a status means of the text of a call that was made."""
        raise error_of(status)

    def _view_of(self, action: Action, obj: AnyObject) -> Any:
        """An object within an action."""
        number = object_number(obj, self._ids)
        return view_class(self.shape_of(obj))(action, obj, int(number))

    def _late(self, action: Action, status: int, number: int, call: Call) -> Any:
        """What comes of an access that was made, and didn't end well: it waits for its object, or raises."""
        with self._lock:
            self._busy = True
            answer = self._answered((status, number), call, action._lineage, action._renewals, action._is_in_loop())
            self._busy = self._awaited
        return read_late(answer)

    def _end_refused(self, action: Action, kind: int, status: int, number: int) -> NoReturn:
        """Raises why an end of an action was refused."""
        with self._lock:
            self._busy = True
            self._note_end(kind, action._number, (status, number))
            raise self._archive.error(status, number, (kind, action._number))

    def _begin_refused(self, status: int, kind: int, above: int, number: int) -> NoReturn:
        """Raises why a begin was refused."""
        with self._lock:
            self._busy = True
            raise self._archive.error(status, number, (kind, above))

    def _end(self, action: Action, kind: int) -> None:
        """Ends an `Action` by a commit or an abort. Takes the lock itself."""
        archive, number = self._archive, action._number
        if self._busy:
            self._refuse_reentered()
        with self._lock:
            self._busy = True
            if self._dropped:
                self._abort_dropped()
            if action._renewals != self._renewals:
                self._be_since(action, kind)
            answer = archive.call(archive.at, kind, number, 0, 0, 0, b"")
            if type(answer) is tuple:
                self._note_end(kind, number, answer)
                raise archive.error(*answer, (kind, number))
            self._owners.live.pop(number, None)
            if self._awaited:
                self._wake_after(action._heir())
            self._left -= 1
            if self._left <= 0:
                self._fold_if_due()
            self._busy = self._awaited

    def _fold_if_due(self) -> None:
        """An action has ended, and there may be much to fold."""

    def _make_of(self, action: Action, kind: int, obj: AnyObject = 0) -> Any:
        """Makes another call of an `Action`: a test, or an abort of its siblings. Takes the lock itself."""
        call = kind, action._number, object_number(obj, self._ids)
        if self._busy:
            self._refuse_reentered()
        with self._lock:
            self._busy = True
            self._be_since(action, kind, call[2])
            answer = self._make(call)
            if kind == Kind.ABORT_OTHERS:
                self._note_end(kind, action._number, answer)
            result = self._result(answer, call)
            self._busy = self._awaited
            return result

    def _note_end(self, kind: int, action: int, answer: tuple[int, int]) -> None:
        if answer == _DONE:
            heir = self._heir_of(action) if self._awaited else None
            if kind != Kind.ABORT_OTHERS:
                self._owners.live.pop(action, None)
            if self._awaited:
                self._wake_after(heir)
        elif answer == _OVER and kind != Kind.ABORT_OTHERS:
            self._owners.live.pop(action, None)

    def _wake_after(self, heir: int | None) -> None:
        """Wakes who waits for the end of an action. If this is its parent, that has its locks now, or its own alone."""
        self._wake()
        if heir is not None:
            self._break_circles_within(heir)

    def _action_of(self, number: int) -> Action | None:
        """The live action of this number, if the program has it."""
        owner = self._owners.live.get(number)
        return None if owner is None else owner()

    def _heir_of(self, number: int) -> int | None:
        action = self._action_of(number)
        return None if action is None else action._heir()

    def _abort_dropped(self) -> None:
        """Aborts the actions to which no reference is left, and cancels a commit whose block has ended."""
        self._readying = None
        # If none is ready, this does nothing.
        self._archive.cancel_ready()
        waits: set[Wait] = set()
        for number in self._owners.take_dropped():
            # Nobody knows its parent, which may have its locks alone then.
            waits = self._waits.all() if self._awaited else waits
            LOGGER.warning("a%d was dropped without an end, and is aborted", number)
            answer = self._archive.make(Kind.ABORT, number)
            self._note_end(Kind.ABORT, number, answer)
            if answer[0] == Status.NO_MEMORY:
                # The next call tries again.
                break
        for wait in waits:
            self._break_circles(wait)

    def access(
        self,
        kind: int,
        action: int,
        obj: AnyObject,
        first: int = 0,
        second: int = 0,
        text: str = "",
        lineage: Callable[[], set[int]] | None = None,
        renewals: int | None = None,
    ) -> Any:
        """Makes an access, which waits for its object until the patience ends.

        It is made, with an entry of the journal, at first, when the lock is free, when its action is over,
        and when the patience is over. `lineage` returns the numbers of the action and its ancestors.
        `renewals` is how often the guardian had been renewed when the action was begun: if it was renewed
        since, the action is over.
        """
        call, read = self._read_call(kind, action, obj, first, second, text)
        with self._lock:
            self._busy = True
            if renewals is None:
                renewals = self._renewals
            answer = self._make_since(renewals, call, read)
            result = self._answered(answer, call, lambda: self._lineage_of(call[1], lineage), renewals)
            self._busy = self._awaited
        return read_late(result)

    def _read_call(
        self, kind: int, action: int, obj: AnyObject, first: int, second: int, text: str
    ) -> tuple[Call, ReadCall | None]:
        """A call as the library takes it; if its text is long, it is read."""
        named = u32(kind, "kind"), number_of(action, self._ids, "action"), object_number(obj, self._ids)
        call = *named, i64(first, "number"), i64(second, "number"), text.encode()
        if self._busy:
            self._refuse_reentered()
        return call, self._archive.read(call)

    def _lineage_of(self, number: int, numbers: Callable[[], set[int]] | None) -> Lineage:
        """That of an action that is named by its number, and maybe by the numbers of its ancestors."""
        if numbers is not None:
            # An ancestor has a lower number.
            line = sorted(numbers() | {number}, reverse=True)
            return Lineage(frozenset(line), tuple(line))
        action = self._action_of(number)
        return action._lineage() if action else Lineage(frozenset({number}), (number,), is_known=False)

    def _answered(
        self,
        answer: tuple[int, int],
        call: Call,
        lineage: Callable[[], Lineage],
        renewals: int | None,
        is_in_loop: bool = False,
    ) -> Any:
        """The result of an access. If it is refused with Conflict, it waits and is made again; not in an event loop."""
        if answer != _CONFLICT:
            return self._result(answer, call)
        renewals = self._renewals if renewals is None else renewals
        if is_in_loop:
            raise self._conflict(call, Wait(call, lineage(), renewals), "; `await top.alock(..)` would wait")
        return self._access_refused(call, lineage(), renewals)

    def _result(self, answer: tuple[int, int], call: Call) -> Any:
        """The result of a call. If it has got a lock for an action that also waits, that may close a circle."""
        try:
            return self._archive.answer(*answer, call)
        finally:
            if self._awaited:
                self._break_circles_within(call[1])

    def _access_refused(self, call: Call, lineage: Lineage, renewals: int) -> Any:
        """Waits for the object of a refused access, and makes it again."""
        wait, limit = Wait(call, lineage, renewals), time.monotonic() + self.patience
        answer = _CONFLICT
        if self.patience > 0:
            with wait.lasts:
                answer = self._make_once_had(call, wait, limit)
        if answer == _CONFLICT:
            raise self._conflict(call, wait)
        return self._result(answer, call)

    def _make_once_had(self, call: Call, wait: Wait, limit: float) -> tuple[int, int]:
        """Makes a refused access again each time that it may go on, until it is refused or the patience is over."""
        answer, after = _CONFLICT, looks()
        try:
            self._waits.join(wait)
            if self._awaited or wait.lineage.is_inside:
                self._break_circles(wait)
            while answer == _CONFLICT:
                read = self._read_apart(self._archive.read, call) if is_long(call) else None
                while time.monotonic() < limit and not self._may_go_on(call, wait):
                    self._wait_until(limit, next(after))
                answer = self._make_since(wait.renewals, call, read)
                if wait.waits_for or time.monotonic() >= limit:
                    break
            return answer
        finally:
            self._waits.leave(wait)

    def _may_go_on(self, call: Call, wait: Wait) -> bool:
        """Whether a refused access is made again: its lock is free, its action over, or it would wait in a circle."""
        question = Question.CAN_READ if wait.is_reading else Question.CAN_WRITE
        return (
            wait.waits_for != ()
            or self._ask(question, wait.action, wait.obj) == _TRUE
            or wait.renewals != self._renewals
            or self._ask(Question.ACTION_STATUS, wait.action, 0) != _LIVE
        )

    def _break_circles_within(self, action: int) -> None:
        """The action has got locks, or keeps its own alone. If it waits, or one inside it, others may wait for that."""
        for wait in list(self._within.get(action, ())):
            self._break_circles(wait)

    def _break_circles(self, wait: Wait) -> None:
        """Refuses the youngest of each circle that this one is in."""
        while True:
            search = Search(self._waits, self._archive, self._renewals)
            found = search.circle_with(wait)
            if not found:
                break
            found[0].waits_for = tuple(map(self._ids.actions, search.names(found)))
            LOGGER.info("refused in a circle: %s", circle(found[0].action, found[0].waits_for))
            if found[0] is not wait:
                self._wake()

    def _conflict(self, call: Call, wait: Wait, more: str = "") -> errors.Conflict:
        """Which actions hold the object that an access wants, as in `a7 wants to write o3, held by a5`."""
        readers, writers = (holders_of(self._archive, it, wait.obj) for it in (Question.READERS, Question.VERSIONS))
        named = ", ".join(f"a{number}" for number in sorted((readers | writers) - wait.lineage.own))
        text = f"{deed(call, self._archive.name)}, held by {named or 'another one'}"
        if not wait.waits_for:
            return errors.Conflict(text + more)
        conflict = errors.Conflict(f"{text}: {circle(wait.action, wait.waits_for)}")
        conflict.waits_for = wait.waits_for
        return conflict

    def _make(self, call: Call, read: ReadCall | None = None) -> tuple[int, int]:
        """The status and the number of a call, which maybe was read before."""
        self._left -= 1
        if self._dropped:
            self._abort_dropped()
        return self._archive.make(*call) if read is None else self._archive.make_read(read)

    def _make_since(self, renewals: int | None, call: Call, read: ReadCall | None = None) -> tuple[int, int]:
        """The same for an action that was begun after so many renewals. If there were more since, it is over."""
        return self._make(call, read) if renewals in (None, self._renewals) else _OVER

    def _ask(self, question: int, action: int, obj: int) -> tuple[int, int]:
        """The status and the number of a question."""
        if self._dropped:
            self._abort_dropped()
        return self._archive.ask(question, action, obj)

    def _tell(self, question: int, obj: int = 0, entry: int = 0, action: int = 0) -> Any:
        if self._busy:
            self._refuse_reentered()
        with self._lock:
            self._busy = True
            if self._dropped:
                self._abort_dropped()
            told = self._archive.told(question, action, obj, entry)
            self._busy = self._awaited
            return told
