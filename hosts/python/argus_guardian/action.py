"""`Action`: a live action of a guardian."""

from __future__ import annotations

import sys
from types import TracebackType
from typing import TYPE_CHECKING, Any, NoReturn

from .errors import ArgusError, NotThere, OutOfMemory
from .ids import ActionId, number_of
from .library import Kind
from .lineage import Lineage
from .loops import Entered, watch
from .quick import AT_ONCE, Acting
from .ranges import U32
from .ready_commit import ReadyCommit
from .values import AnyObject, Value, object_number, write_content

if TYPE_CHECKING:
    from .guardian import Guardian

_MODULES = sys.modules
# The most frequent kinds, as globals, which are looked up faster than attributes.
_FIELD, _SET_FIELD, _TOUCH, _CREATE = Kind.FIELD, Kind.SET_FIELD, Kind.TOUCH, Kind.CREATE
_BEGIN_SUB, _BEGIN_NESTED, _COMMIT, _ABORT = Kind.BEGIN_SUB, Kind.BEGIN_NESTED, Kind.COMMIT, Kind.ABORT


class Action(Acting):
    """An action. In a `with` block it commits at the block's end, and aborts if an exception leaves it.

    An access raises a Signal if the operation returns one, and a Refused if the guardian refuses it;
    both may be caught, and the action goes on.

    Each access takes its lock, and the action keeps it to its end: to read, a read lock, which others
    may have too; to change, the write lock. It waits for the lock until the guardian's patience ends,
    and then raises Conflict. If it would wait in a circle, the youngest there raises Conflict at once. Two that have
    both read an object and both want to write it wait for each other. So if you read and then write, take the
    write lock first:

        with guardian.topaction() as top:
            top.lock(seat)
            if not top.field(seat, 0):
                top.set_field(seat, 0, True)
    """

    __slots__ = ("__weakref__",)
    # It has objects, and none of them is the first.
    __iter__ = None
    __contains__ = None

    # The guardian, and the parent, or the creator of a nested topaction: neither ends before this one does.
    guardian: Guardian
    parent: Action | None

    def __new__(
        cls,
        guardian: Guardian,
        number: int,
        parent: Action | None = None,
        is_nested: bool = False,
        renewals: int | None = None,
    ) -> Action:
        if type(number) is not int or not 0 <= number <= U32:
            number = number_of(number, guardian._ids, "action")
        return super().__new__(cls, guardian, number, parent, is_nested, renewals)

    @property
    def number(self) -> ActionId:
        """Its number, which knows its guardian."""
        return self.guardian._ids.actions(self._number)

    def _lineage(self) -> Lineage:
        """Itself with those that can't end before it. Of one that has a number alone the ancestors aren't known."""
        line = [self]
        while line[-1].parent:
            line.append(line[-1].parent)
        numbers = tuple(it._number for it in line)
        own = next((place for place, it in enumerate(line, 1) if it._is_nested), len(line))
        top = line[own - 1]
        return Lineage(frozenset(numbers[:own]), numbers, top._is_nested or top._renewals is not None)

    def _heir(self) -> int | None:
        """Whose locks keep others out once it has ended: a subaction's parent's."""
        return None if self.parent is None or self._is_nested else self.parent._number

    def __repr__(self) -> str:
        return f"<Action a{self._number}>"

    def __reduce__(self) -> NoReturn:
        raise TypeError("an action is neither pickled nor copied: it belongs to its guardian")

    def __enter__(self) -> Action:
        if "asyncio" in _MODULES:
            watch(self)
        return self

    def __exit__(
        self,
        kind: type[BaseException] | None,
        error: BaseException | None = None,
        trace: TracebackType | None = None,
    ) -> None:
        if self._loop is not None:
            self._leave_loop()
        if self._is_ended:
            return
        if kind is None:
            self.commit()
        else:
            self._abort_quietly()

    def _leave_loop(self) -> None:
        """Its block has ended, so nobody warns of that any more."""
        if not isinstance(self._loop, Entered):
            self._loop.cancel()
            self._loop = None

    def _is_in_loop(self) -> bool:
        """Whether it is in an `async with` block: then waits are awaited, and nothing else waits."""
        action: Action | None = self
        while action is not None and not isinstance(action._loop, Entered):
            action = action.parent
        return action is not None

    async def __aenter__(self) -> Action:
        guardian, inner = self.guardian, self
        while guardian._folds and self.parent is None:
            # A checkpoint holds topactions back, and this one too. In a loop it had to begin all the same.
            inner.abort()
            await guardian._wait_for_folds_soon()
            inner = guardian.topaction()
        inner._loop = Entered()
        self._loop = Entered(None if inner is self else inner)
        return inner

    async def __aexit__(
        self, kind: type[BaseException] | None, error: BaseException | None, trace: TracebackType | None
    ) -> None:
        entered = self._loop
        (entered.inner or self).__exit__(kind, error, trace)

    def _abort_quietly(self) -> None:
        # A sibling or an ancestor may have ended it already, or the guardian may be closed.
        try:
            self.abort()
        except ArgusError:
            pass

    def commit(self) -> None:
        """Commits. After an error it aborts.

        If an interrupt (Ctrl-C) comes during the commit, it may have committed or not.
        """
        try:
            if not (AT_ONCE and self._end_at_once(_COMMIT)):
                self.guardian._end(self, _COMMIT)
        except BaseException:
            self._abort_quietly()
            raise
        self._is_ended = True

    def ready_commit(self) -> ReadyCommit:
        """Prepares its commit, for a `with` block that logs the commit and then makes it:

            with top.ready_commit() as ready:
                log.write(ready.line)
                log.flush()
                ready.make()

        If the block ends without `make`, by an exception too, nothing has changed, and the action is
        live. In the block the guardian's mutex is held: calls of other threads wait, and another call of this
        thread raises Reentered. May raise OutOfMemory or Closed.
        """
        return ReadyCommit(self)

    def abort(self) -> None:
        """Aborts it and all subactions under it."""
        if not (AT_ONCE and self._end_at_once(_ABORT)):
            self.guardian._end(self, _ABORT)
        self._is_ended = True

    def abort_others(self) -> None:
        """Aborts all live siblings: the first that is done ends the others."""
        self.guardian._make_of(self, Kind.ABORT_OTHERS)

    def subaction(self) -> Action:
        """Begins a subaction: what it leaves counts only if its ancestors commit."""
        guardian = self.guardian
        return (AT_ONCE and guardian._begin_at_once(_BEGIN_SUB, self)) or guardian._begin(_BEGIN_SUB, self)

    def nested(self) -> Action:
        """Begins a nested topaction: what it leaves stays, even if this action aborts.

        It has no privilege from this action, so it waits in vain for a lock that this one has.
        """
        guardian = self.guardian
        return (AT_ONCE and guardian._begin_at_once(_BEGIN_NESTED, self)) or guardian._begin(_BEGIN_NESTED, self)

    def test_read(self, obj: AnyObject) -> bool:
        """Takes a read lock; False if it isn't free. It doesn't wait."""
        return self.guardian._make_of(self, Kind.TEST_READ, obj)

    def test_write(self, obj: AnyObject) -> bool:
        """Takes a write lock; False if it isn't free. It doesn't wait."""
        return self.guardian._make_of(self, Kind.TEST_WRITE, obj)

    def whole(self, obj: AnyObject) -> Any:
        """The whole content."""
        return self._ask(Kind.WHOLE, obj)

    def field(self, obj: AnyObject, field: int) -> Any:
        """A field of a record."""
        return self._ask(_FIELD, obj, field)

    def get(self, obj: AnyObject, name: str | None = None) -> Any:
        """What the object has in it, by names: `top.get(seat).taken`; or one field or tag of it, by its name.

        A record is a named tuple, or an object of its dataclass; a variant a `Choice` whose tag is a name; an array an
        `Array`. AttributeError if the shape hasn't the name.
        """
        if name is None:
            return self.guardian.shape_of(obj).read(self.whole(obj))
        return self[obj][name]

    def set(self, obj: AnyObject, /, **fields: Any) -> None:
        """Sets fields of a record by their names: `top.set(seat, taken=True)`.

        If one can't be set, none is: AttributeError if the record's shape hasn't one of the names, IllTyped if a value
        is of another type. Of OutOfMemory `str` says which were set before.
        """
        shape = self.guardian.shape_of(obj)
        numbered = [shape.written_part(name, value) for name, value in fields.items()]
        # The guardian refuses the first value that is of another type, before any other is set.
        numbered = [it for it in numbered if not it.fits][:1] or numbered
        for place, it in enumerate(numbered):
            try:
                self.set_field(obj, it.number, it.value)
            except OutOfMemory as error:
                before = ", ".join(list(fields)[:place]) or "nothing"
                raise OutOfMemory(f"{error}; {before} was set before") from None

    def low(self, obj: AnyObject) -> int:
        """An array's low bound."""
        return self._ask(Kind.LOW, obj)

    def high(self, obj: AnyObject) -> int:
        """An array's high bound."""
        return self._ask(Kind.HIGH, obj)

    def size(self, obj: AnyObject) -> int:
        """How many elements an array has."""
        return self._ask(Kind.SIZE, obj)

    def fetch(self, obj: AnyObject, place: int) -> Any:
        """The element at this place, or Bounds."""
        return self._ask(Kind.FETCH, obj, place)

    def first(self, obj: AnyObject) -> Any:
        """The first element, or Bounds."""
        return self._ask(Kind.BOTTOM, obj)

    def last(self, obj: AnyObject) -> Any:
        """The last element, or Bounds."""
        return self._ask(Kind.TOP, obj)

    def is_tag(self, obj: AnyObject, tag: int) -> bool:
        """Whether a variant has this tag."""
        return self._ask(Kind.IS_TAG, obj, tag)

    def tag_value(self, obj: AnyObject, tag: int) -> Any:
        """The value that goes with this tag, or WrongTag."""
        return self._ask(Kind.TAG_VALUE, obj, tag)

    def create(self, obj: AnyObject, content: Any = None, /, **fields: Any) -> None:
        """Gives the object its first content, or raises Exists: `top.create(account, balance=5)`.

        The content may also be a tuple, a mapping or an object of a dataclass for a record, a list or an `Array` for an
        array, a `Choice` for a variant.
        """
        try:
            shape = self.guardian.shape_of(obj)
        except NotThere:
            # The guardian refuses it.
            shape = None
        if fields:
            if content is not None:
                raise TypeError("a content, or fields by their names: not both")
            content = fields
        plain = content if shape is None else shape.write(content)
        written = write_content(plain, self.guardian._ids).encode()
        self.guardian._access_of(self, _CREATE, obj, text=written)

    def set_field(self, obj: AnyObject, field: int, value: Value) -> None:
        """Sets a field of a record."""
        self._alter(_SET_FIELD, obj, field, value)

    def store(self, obj: AnyObject, place: int, value: Value) -> None:
        """Sets the element at this place, or raises Bounds."""
        self._alter(Kind.STORE, obj, place, value)

    def addh(self, obj: AnyObject, value: Value) -> None:
        """Adds the value after the last element, or raises Limits."""
        self._alter(Kind.ADDH, obj, 0, value)

    def addl(self, obj: AnyObject, value: Value) -> None:
        """Adds the value before the first element, or raises Limits."""
        self._alter(Kind.ADDL, obj, 0, value)

    def remh(self, obj: AnyObject) -> Any:
        """Removes the last element and returns it, or raises Bounds."""
        return self._ask(Kind.REMH, obj)

    def reml(self, obj: AnyObject) -> Any:
        """Removes the first element and returns it, or raises Bounds or Limits."""
        return self._ask(Kind.REML, obj)

    def set_low(self, obj: AnyObject, low: int) -> None:
        """Sets the low bound, or raises Limits."""
        self._ask(Kind.SET_LOW, obj, low)

    def trim(self, obj: AnyObject, low: int, count: int) -> None:
        """Keeps at most `count` elements, from the place `low` on, or raises NegativeSize, Bounds or Limits."""
        self._ask(Kind.TRIM, obj, low, count)

    def change_tag(self, obj: AnyObject, tag: int, value: Value) -> None:
        """Sets the tag, with its value."""
        self._alter(Kind.CHANGE_TAG, obj, tag, value)

    def lock(self, obj: AnyObject) -> None:
        """Takes the write lock, and changes nothing. Call it before you read what you will write."""
        self._ask(_TOUCH, obj)

    def locked(self, obj: AnyObject) -> Any:
        """Takes the write lock, and returns the object within this action: `account = top.locked(account)`."""
        self._ask(_TOUCH, obj)
        return self[obj]

    async def alock(self, obj: AnyObject) -> None:
        """`lock`, for a task: while it waits, the event loop goes on."""
        await self._access_soon(_TOUCH, obj)

    async def alocked(self, obj: AnyObject) -> Any:
        """`locked`, for a task."""
        await self._access_soon(_TOUCH, obj)
        return self[obj]

    async def aget(self, obj: AnyObject, name: str | None = None) -> Any:
        """`get`, for a task. From then on the action may read the object without a wait."""
        whole = self.guardian.shape_of(obj).read(await self._access_soon(Kind.WHOLE, obj))
        return whole if name is None else self[obj][name]

    async def _access_soon(self, kind: int, obj: AnyObject) -> Any:
        call = kind, self._number, object_number(obj, self.guardian._ids), 0, 0, b""
        return await self.guardian._access_soon(self, call)

    def touch(self, obj: AnyObject) -> None:
        """Another name of `lock`."""
        self.lock(obj)
