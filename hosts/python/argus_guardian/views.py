"""Views: an object within an action, by the names of its fields or tags, or as a sequence.

`top[account]` is a view of the class that the object's shape has, which is made once.
"""

from __future__ import annotations

import keyword
from collections.abc import Iterable, Iterator
from functools import lru_cache
from typing import Any

from .library import Kind
from .quick import Place, View
from .shapes import Shape, Type
from .values import Array


class ObjectView(View):
    """What all views have."""

    __slots__ = ()
    _SHAPE: Shape

    def __repr__(self) -> str:
        name = getattr(self._View__object, "name", None)  # type: ignore[attr-defined]
        return f"<{name or f'o{self._View__number}'} in {self._View__action!r}>"  # type: ignore[attr-defined]


class RecordView(ObjectView):
    """A record within an action: `top[account].balance`, `top[account].balance = 7`.

    A field whose name is a word of the language is `top[account]["class"]`. Each use of a field is an access.
    """

    __slots__ = ()

    def __getattr__(self, name: str) -> Any:
        # Called only if there is no such field.
        raise AttributeError(f"no {name!r} among {', '.join(self._SHAPE.names)}")

    def __getitem__(self, name: str) -> Any:
        return _place_of(self._SHAPE, name).__get__(self)

    def __setitem__(self, name: str, value: Any) -> None:
        _place_of(self._SHAPE, name).__set__(self, value)


class VariantView(RecordView):
    """A variant within an action: `top[state].ok` is the value of this tag, or raises WrongTag.

    `"ok" in top[state]` says whether the variant has this tag; `top[state].ok = 5` gives it the tag, with its value.
    """

    __slots__ = ()

    def __contains__(self, name: str) -> bool:
        tag = self._SHAPE.number(name)
        return self._View__action._ask(Kind.IS_TAG, self._View__number, tag)


class ArrayView(ObjectView):
    """An array within an action, as a sequence: the first item has index 0, and the last one -1.

    `low` and `high` are the array's own bounds. A loop, `list(..)` and a slice read the whole array at once. An index
    that no item has raises Bounds, which is an IndexError.
    """

    __slots__ = ()

    def _ask(self, kind: int, first: int = 0, second: int = 0) -> Any:
        return self._View__action._ask(kind, self._View__number, first, second)  # type: ignore[attr-defined]

    def _alter(self, kind: int, first: int, value: Any) -> None:
        plain = self._item.write(value)
        self._View__action._alter(kind, self._View__number, first, plain)  # type: ignore[attr-defined]

    @property
    def _item(self) -> Type:
        item = self._SHAPE.part(0)
        assert item is not None
        return item

    @property
    def low(self) -> int:
        """The array's low bound."""
        return self._ask(Kind.LOW)

    @property
    def high(self) -> int:
        """The array's high bound."""
        return self._ask(Kind.HIGH)

    def __len__(self) -> int:
        return self._ask(Kind.SIZE)

    def _whole(self) -> list[Any]:
        content: Array = self._SHAPE.read(self._ask(Kind.WHOLE))
        return content.items

    def __iter__(self) -> Iterator[Any]:
        return iter(self._whole())

    def __reversed__(self) -> Iterator[Any]:
        return reversed(self._whole())

    def __contains__(self, value: object) -> bool:
        return value in self._whole()

    def _place_of(self, index: int) -> int:
        """The place of the item with this index, of which the first is 0 and the last -1."""
        return index + (self.low if index >= 0 else self.high + 1)

    def __getitem__(self, index: Any) -> Any:
        if isinstance(index, slice):
            return self._whole()[index]
        return self._item.read(self._ask(Kind.FETCH, self._place_of(index)))

    def __setitem__(self, index: int, value: Any) -> None:
        self._alter(Kind.STORE, self._place_of(index), value)

    def append(self, value: Any) -> None:
        """Adds an item after the last one."""
        self._alter(Kind.ADDH, 0, value)

    def appendleft(self, value: Any) -> None:
        """Adds an item before the first one."""
        self._alter(Kind.ADDL, 0, value)

    def extend(self, values: Iterable[Any]) -> None:
        """Adds items after the last one, one after another."""
        for value in values:
            self.append(value)

    def pop(self) -> Any:
        """Removes the last item, and returns it."""
        return self._item.read(self._ask(Kind.REMH))

    def popleft(self) -> Any:
        """Removes the first item, and returns it."""
        return self._item.read(self._ask(Kind.REML))


_VIEWS: dict[str, type[ObjectView]] = {"record": RecordView, "array": ArrayView, "variant": VariantView}


@lru_cache(maxsize=1024)
def view_class(shape: Shape) -> type[Any]:
    """The class of the views of objects that have this shape."""
    base = _VIEWS[shape.kind]
    places = {name: _place_of(shape, name) for name in shape.names if not _is_pythons(name)}
    return type(base.__name__, (base,), {**places, "__slots__": (), "_SHAPE": shape})


def _is_pythons(name: str) -> bool:
    """Whether it is the language's own, and so no attribute's."""
    return keyword.iskeyword(name) or (name.startswith("__") and name.endswith("__"))


@lru_cache(maxsize=65536)
def _place_of(shape: Shape, name: str) -> Place:
    """The field or tag of this name. AttributeError if none has it."""
    number = shape.number(name)
    part = shape.part(number)
    kinds = (Kind.FIELD, Kind.SET_FIELD) if shape.kind == "record" else (Kind.TAG_VALUE, Kind.CHANGE_TAG)
    if part is None or part.is_plain:
        return Place(*kinds, number)
    return Place(*kinds, number, part.read, part.write)
