"""What `_call.c` has in C, in Python: what the classes of the package stand on where that isn't built.

Here no call is made at once: each takes the guardian's mutex.
"""

from __future__ import annotations

from collections.abc import Callable
from typing import Any, TypeVar

from .library import BY_BOOL, BY_INT
from .ranges import LEAST, MOST

_Acting = TypeVar("_Acting", bound="Acting")


class Gate:
    """What a guardian has in C. The guardian has the methods."""

    _busy: bool
    _awaited: bool
    _folds: dict[object, int]
    _renewals: int
    _begun: int
    _left: int
    _dropped: Any
    _object_id: type
    _access_of: Callable[..., Any]
    _view_of: Callable[..., Any]

    def _connect(
        self,
        call: int,
        reply: int,
        at: int,
        live: dict[int, Any],
        drop: Callable[..., None],
        dropped: Any,
        ids: object,
        object_id: type,
        action_class: type,
    ) -> None:
        self._dropped, self._object_id = dropped, object_id

    def _begin_at_once(self, kind: int, parent: Acting | None) -> Any:
        """An action that has begun; None if something has to come before."""
        return None


class Acting:
    """What an action has in C."""

    __slots__ = ("_is_ended", "_is_nested", "_loop", "_number", "_renewals", "guardian", "parent")

    guardian: Any
    parent: Any
    _number: int
    _is_nested: bool
    _is_ended: bool
    _renewals: int | None
    _loop: Any

    def __new__(
        cls: type[_Acting],
        guardian: Any,
        number: int,
        parent: Any = None,
        is_nested: bool = False,
        renewals: int | None = None,
    ) -> _Acting:
        self = object.__new__(cls)
        self.guardian = guardian
        # The parent, or the creator of a nested topaction: neither ends before this one does.
        self.parent = parent
        self._number, self._is_nested, self._is_ended = number, is_nested, False
        # How often the guardian had been renewed when it was begun; None if only its number counts.
        self._renewals = renewals
        # What it has in an event loop: looping.py.
        self._loop = None
        return self

    def _ask(self, kind: int, obj: Any, first: int = 0, second: int = 0) -> Any:
        """Makes a query, or another access without a value."""
        return self.guardian._access_of(self, kind, obj, first, second, b"")

    def _alter(self, kind: int, obj: Any, first: int, value: Any) -> Any:
        """Makes a change with a value. An integer and a truth value need no text."""
        if type(value) is int and LEAST <= value <= MOST:
            return self.guardian._access_of(self, BY_INT[kind], obj, first, value)
        if type(value) is bool:
            return self.guardian._access_of(self, BY_BOOL[kind], obj, first, int(value))
        return self.guardian._access_of(self, kind, obj, first, 0, self.guardian._written(value))

    def _end_at_once(self, kind: int) -> bool:
        """Commits or aborts, if nothing has to come before; whether it did."""
        return False

    def __getitem__(self, obj: Any) -> Any:
        """The object within this action, with its fields, its items or its tags."""
        return self.guardian._view_of(self, obj)


class Typed:
    """What an object with a type has in C."""

    __slots__ = ("_ids", "_number", "_view")

    def __init__(self, ids: object, number: int, view: type[View]) -> None:
        self._ids, self._number, self._view = ids, number, view


class View:
    """What an object within an action has in C. A field's name has no capital letter, so none hides these."""

    __slots__ = ("__action", "__number", "__object")

    def __init__(self, action: Any, object: Any, number: int) -> None:
        self.__action, self.__object, self.__number = action, object, number


class Place:
    """A field or a tag of a view."""

    def __init__(
        self,
        asking: int,
        changing: int,
        first: int,
        read: Callable[[Any], Any] | None = None,
        write: Callable[[Any], Any] | None = None,
    ) -> None:
        self._asking, self._changing, self._first = asking, changing, first
        self._read, self._write = read, write

    def __get__(self, view: Any, kind: Any = None) -> Any:
        if view is None:
            return self
        plain = view._View__action._ask(self._asking, view._View__number, self._first)
        return plain if self._read is None else self._read(plain)

    def __set__(self, view: Any, value: Any) -> None:
        plain = value if self._write is None else self._write(value)
        view._View__action._alter(self._changing, view._View__number, self._first, plain)
