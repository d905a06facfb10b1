"""`Object`: an object with a name and a type."""

from __future__ import annotations

from typing import Any, NoReturn

from .ids import Ids, ObjectId
from .quick import Typed
from .shapes import Shape
from .views import view_class


class Object(Typed):
    """An object that has a name in its guardian, and the names and types of its shape.

    `Guardian.object` makes it. Each call that takes an object takes it, and so does an action: `top[account].balance`.
    Objects are sorted by their numbers, so `sorted(seats)` is an order in which locks may be taken.
    """

    __slots__ = ("name", "shape")

    name: str
    shape: Shape

    def __repr__(self) -> str:
        return f"<Object {self.name}: {self.shape.text}>"

    def __int__(self) -> int:
        return self._number

    @property
    def number(self) -> ObjectId:
        """Its number, which knows its guardian."""
        ids: Any = self._ids
        return ids.objects(self._number)

    def __lt__(self, other: Object) -> bool:
        return self._number < other._number if isinstance(other, Object) else NotImplemented

    def __reduce__(self) -> NoReturn:
        raise TypeError("an object is neither pickled nor copied: it belongs to its guardian, which finds it by its name")


def object_of(ids: Ids, number: int, name: str, shape: Shape) -> Object:
    made = Object(ids, number, view_class(shape))
    made.name, made.shape = name, shape
    return made
