"""The numbers of objects and actions, which know their guardian.

`Guardian.declare` returns an `ObjectId`, and `Action.number` is an `ActionId`. Both are ints, equal to the number
alone, and pickled and copied as that. Another guardian than their own raises OtherGuardian. A plain int, as logs and
listings have it, is taken for the guardian's own.
"""

from __future__ import annotations

from typing import Any, SupportsIndex

from .errors import OtherGuardian
from .ranges import U32, u32


class _Id(int):
    __slots__ = ()

    def __reduce__(self) -> Any:
        return int, (int(self),)

    def __copy__(self) -> int:
        return int(self)

    def __deepcopy__(self, _: object) -> int:
        return int(self)


class ObjectId(_Id):
    """The number of an object."""

    __slots__ = ()


class ActionId(_Id):
    """The number of an action. After a renewal of its guardian it is another action's, or none's."""

    __slots__ = ()


class Ids:
    """The types of one guardian's ids, by which it knows its own: nothing is compared as fast as a type."""

    def __init__(self) -> None:
        self.objects = type("ObjectId", (ObjectId,), {"__slots__": (), "__doc__": ObjectId.__doc__})
        self.actions = type("ActionId", (ActionId,), {"__slots__": (), "__doc__": ActionId.__doc__})

    def has(self, id: _Id) -> bool:
        """Whether it is one of this guardian."""
        return type(id) is self.objects or type(id) is self.actions


def number_of(it: SupportsIndex, ids: Ids | None, what: str) -> int:
    """The number of an object or an action, alone. OtherGuardian if it is an id, and none of these.

    TypeError if it isn't an integer, or is a bool; OverflowError if it has more than 32 bits. With None in place of
    a guardian's ids nobody asks whose it is.
    """
    if type(it) is int and 0 <= it <= U32:
        return it
    if isinstance(it, bool):
        raise TypeError(f"{what} {it} is a bool, and not a number")
    if isinstance(it, _Id) and ids is not None and not ids.has(it):
        raise OtherGuardian(f"{what} {int(it)}: {OtherGuardian.why}")
    return u32(it, what)
