"""`Naming`: objects by their names, which are in objects of the guardian, too: its catalogues.

So a name outlives the process wherever the journal does, in a log or in lines of one's own. A change of an array copies
it, so each catalogue has few names, and there are many of them.
"""

from __future__ import annotations

from typing import Any

from . import errors
from .entering import one_call
from .ids import ObjectId
from .library import Kind, Question
from .looping import Looping
from .objects import Object, object_of
from .shapes import Shape, read_shape, shape_of_class
from .values import Ref, read_content, write_value

# Each object of this shape is a catalogue, of so many names.
CATALOGUE = "atomic_array[struct[name:text,object:atomic]]"
_NAMES = 64


class Naming(Looping):
    """Declarations of objects, with names and without."""

    def __init__(self, patience: float) -> None:
        super().__init__(patience)
        # The last catalogue, None if there is none or nobody has looked, and how many names it has; and the objects that
        # have a name.
        self._catalogue: int | None = None
        self._catalogued = 0
        self._numbers: dict[str, int] | None = None
        self._named: dict[str, Object] = {}

    def declare(self, shape: str | type) -> ObjectId:
        """Declares an object of this shape, such as `atomic_record[balance:int]`, and returns its number.

        A dataclass is the shape of a record that has its fields: then `get` returns objects of that. BadShape says
        where a text is no shape, and why.

        The number knows its guardian: another one raises OtherGuardian. A program that keeps it for another process
        keeps `int` of it; but it is simpler to give the object a name.
        """
        text, made_by = _text_of(shape)
        number = self._declare(text)
        if made_by is not None:
            self._shapes[number] = made_by
        return self._ids.objects(number)

    def object(self, name: str, shape: str | type | None = None) -> Object:
        """The object of this name, which is declared with this shape if there is none yet.

            account = guardian.object("account", "atomic_record[balance:int]")
            with guardian.topaction() as top:
                top.create(account, balance=5)
                top[account].balance += 2

        The shape may be a dataclass, as for `declare`. Without a shape NotThere is raised if there is no such object.
        BadShape if there is one of another shape.

        Names are in objects of the guardian, 64 in each, so they outlive the process where the journal does.
        """
        if not isinstance(name, str):
            raise TypeError(f"a name is a text: {name!r}")
        text, made_by = (None, None) if shape is None else _text_of(shape)
        number, found = self._find(name, text)
        if text is not None and found != text:
            raise errors.BadShape(f"{name} is of the shape {found}, and not {text}")
        known = self._named.get(name)
        if known is None or (shape is not None and known.shape is not (made_by or read_shape(found))):
            known = object_of(self._ids, number, name, made_by or read_shape(found))
            self._named[name], self._shapes[number] = known, known.shape
        return known

    @one_call
    def _declare(self, text: str) -> int:
        if self._dropped:
            self._abort_dropped()
        return self._declare_at_once(text)

    def _declare_at_once(self, text: str) -> int:
        try:
            return self._made(Kind.DECLARE, text=text.encode())
        except errors.BadShape:
            # Of the library's answer the place and the reason aren't known.
            read_shape(text)
            raise

    @one_call
    def _find(self, name: str, text: str | None) -> tuple[int, str]:
        """The number of the object with this name, and its shape."""
        if self._dropped:
            self._abort_dropped()
        if self._numbers is None:
            self._numbers = self._read_catalogue()
            self._archive.names.update({number: name for name, number in self._numbers.items()})
        if name not in self._numbers:
            if text is None:
                raise errors.NotThere(f"no object is called {name}")
            self._numbers[name] = self._register(name, text)
            self._archive.names[self._numbers[name]] = name
        number = self._numbers[name]
        return number, self._archive.told(Question.SHAPE, obj=number)

    def _read_catalogue(self) -> dict[str, int]:
        """The objects that have a name, by that."""
        found: dict[str, int] = {}
        for number in range(self._archive.told(Question.OBJECTS)):
            if self._archive.told(Question.SHAPE, obj=number) == CATALOGUE:
                base = read_content(self._archive.told(Question.BASE, obj=number)) or []
                self._catalogue, self._catalogued = number, len(base)
                found.update((name, ref.number) for name, ref in base)
        return found

    def _register(self, name: str, text: str) -> int:
        """Declares an object, and gives it this name."""
        number, begun = self._declare_at_once(text), self._archive.told(Question.ACTIONS)
        if self._catalogue is None or self._catalogued >= _NAMES:
            self._catalogue, self._catalogued = self._made(Kind.DECLARE, text=CATALOGUE.encode()), 0
        catalogue, item = int(self._catalogue or 0), write_value((name, Ref(number)))
        try:
            top = self._made(Kind.BEGIN_TOP)
            if self._catalogued == 0:
                self._made(Kind.CREATE, top, catalogue, text=f"0[{item}]".encode())
            else:
                self._made(Kind.ADDH, top, catalogue, text=item.encode())
            self._made(Kind.COMMIT, top)
            self._begun, self._catalogued = top + 1, self._catalogued + 1
            return number
        except BaseException:
            # The name may have got into the catalogue, so the next call reads that again.
            self._numbers = None
            self._abort_from(begun)
            raise

    def _made(self, kind: int, action: int = 0, obj: int = 0, text: bytes = b"") -> Any:
        """The result of a call, which doesn't wait."""
        call = kind, action, obj, 0, 0, text
        return self._archive.answer(*self._archive.make(*call), call)


def _text_of(shape: str | type) -> tuple[str, Shape | None]:
    """The written form of a shape, and the shape itself if it is a dataclass."""
    if isinstance(shape, str):
        return shape, None
    if not isinstance(shape, type):
        raise TypeError(f"a shape is a text, such as atomic_record[balance:int], or a dataclass: {shape!r}")
    made = shape_of_class(shape)
    return made.text, made
