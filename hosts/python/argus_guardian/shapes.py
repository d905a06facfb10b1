"""What the written form of an object's shape says: its kind, its names, and the types of its parts.

A value that the library returns has places in it: fields and tags are numbers. `read` of a type makes of it what a
program sees, with names; `write` makes the value for the library of that.
"""

from __future__ import annotations

import dataclasses
import typing
from collections import namedtuple
from collections.abc import Iterable, Mapping
from functools import lru_cache
from typing import Any, NamedTuple

from .errors import BadShape
from .quick import Typed
from .values import MAX_DEPTH, Array, Choice, Ref

_SCALARS = ("null", "bool", "int", "text", "atomic")
_WORDS: dict[Any, str] = {bool: "bool", int: "int", str: "text", type(None): "null", None: "null", Ref: "atomic"}
_CLASSES: dict[str, Any] = {"null": type(None), "bool": bool, "int": int, "text": str, "atomic": (Ref, Typed)}
# The words of shapes, by their kinds.
_KINDS = {"record": "struct", "array": "sequence", "variant": "oneof"}
_MOST_NAMES, _LONGEST_NAME = 64, 32
_LETTERS = frozenset("abcdefghijklmnopqrstuvwxyz0123456789_")


class Type:
    """The type of a part: this one of null, bool, int, text and atomic, whose values are what they are."""

    is_plain = True

    def __init__(self, text: str) -> None:
        self.text = text

    def read(self, value: Any) -> Any:
        """A value of the library, with names in place of numbers."""
        return value

    def write(self, value: Any) -> Any:
        """A value for the library, with numbers in place of names."""
        return value

    def fits(self, value: Any) -> bool:
        """Whether a value for the library is of this type."""
        return isinstance(value, _CLASSES[self.text]) and (self.text != "int" or not isinstance(value, bool))


class Sequence(Type):
    """A sequence, or what an array has in it."""

    def __init__(self, item: Type) -> None:
        super().__init__(f"sequence[{item.text}]")
        self.item, self.is_plain = item, item.is_plain

    def read(self, value: Any) -> Any:
        return value if self.is_plain else [self.item.read(it) for it in value]

    def write(self, value: Any) -> Any:
        if not isinstance(value, (list, tuple)) or isinstance(value, Choice):
            return value
        return list(value) if self.is_plain else [self.item.write(it) for it in value]

    def fits(self, value: Any) -> bool:
        return isinstance(value, list) and all(map(self.item.fits, value))


class Named(Type):
    """What has names: a struct or a oneof."""

    is_plain = False

    def __init__(self, word: str, parts: Iterable[tuple[str, Type]]) -> None:
        pairs = list(parts)
        self.names, self.types = tuple(name for name, _ in pairs), tuple(part for _, part in pairs)
        super().__init__(f"{word}[{','.join(f'{name}:{part.text}' for name, part in pairs)}]")

    def number(self, name: str) -> int:
        """The number of a field or tag. AttributeError if none has this name."""
        if name in self.names:
            return self.names.index(name)
        raise AttributeError(f"no {name!r} among {', '.join(self.names) or 'no names'}")


class Struct(Named):
    """A struct, or a record. With a dataclass its values are objects of that, else named tuples."""

    def __init__(self, parts: Iterable[tuple[str, Type]], made_by: type | None = None) -> None:
        super().__init__("struct", parts)
        self.made_by = made_by

    def read(self, value: Any) -> Any:
        values = [part.read(it) for part, it in zip(self.types, value)]
        if self.made_by is None:
            return record_class(self.names)(*values)
        return self.made_by(**dict(zip(self.names, values)))

    def write(self, value: Any) -> Any:
        if dataclasses.is_dataclass(value) and not isinstance(value, (type, Ref)):
            value = {field.name: getattr(value, field.name) for field in dataclasses.fields(value)}
        if isinstance(value, Mapping):
            return self._of_mapping(value)
        if not isinstance(value, tuple) or isinstance(value, Choice) or len(value) != len(self.types):
            # The library says what is wrong with it.
            return value
        return tuple(part.write(it) for part, it in zip(self.types, value))

    def fits(self, value: Any) -> bool:
        is_struct = isinstance(value, tuple) and not isinstance(value, Choice) and len(value) == len(self.types)
        return is_struct and all(part.fits(it) for part, it in zip(self.types, value))

    def _of_mapping(self, value: Mapping[str, Any]) -> tuple[Any, ...]:
        missing = [name for name in self.names if name not in value]
        for name in value:
            self.number(name)
        if missing:
            raise TypeError(f"no {', '.join(missing)} among {', '.join(value) or 'no names'}")
        return tuple(part.write(value[name]) for name, part in zip(self.names, self.types))


class Oneof(Named):
    """A oneof, or a variant: a `Choice`, whose tag is a name."""

    def __init__(self, parts: Iterable[tuple[str, Type]]) -> None:
        super().__init__("oneof", parts)

    def read(self, value: Any) -> Any:
        return Choice(self.names[value.tag], self.types[value.tag].read(value.value))

    def write(self, value: Any) -> Any:
        if not isinstance(value, Choice):
            return value
        tag = self.number(value.tag) if isinstance(value.tag, str) else value.tag
        known = type(tag) is int and 0 <= tag < len(self.types)
        return Choice(tag, self.types[tag].write(value.value) if known else value.value)

    def fits(self, value: Any) -> bool:
        is_one = isinstance(value, Choice) and type(value.tag) is int and 0 <= value.tag < len(self.types)
        return is_one and self.types[value.tag].fits(value.value)


class WrittenPart(NamedTuple):
    """A value for a field or a tag, as the library takes it, and whether it is of the type there."""

    number: int
    value: Any
    fits: bool


class Shape:
    """A `record`, an `array` or a `variant`: its kind, its written form, and the names of its fields or tags."""

    def __init__(self, kind: str, of: Type) -> None:
        self.kind, self.of = kind, of
        self.text = f"atomic_{kind}" + of.text[len(_KINDS[kind]) :]
        self.names: tuple[str, ...] = of.names if isinstance(of, Named) else ()

    def __repr__(self) -> str:
        return f"<Shape {self.text}>"

    def number(self, name: str) -> int:
        """The number of a field or tag. AttributeError if none has this name."""
        if isinstance(self.of, Named):
            return self.of.number(name)
        raise AttributeError(f"no {name!r}: an array has no names")

    def part(self, number: int) -> Type | None:
        """The type of a field, a tag or an item; None if no field or tag has this number."""
        if isinstance(self.of, Sequence):
            return self.of.item
        types = self.of.types if isinstance(self.of, Named) else ()
        return types[number] if 0 <= number < len(types) else None

    def written_part(self, name: str, value: Any) -> WrittenPart:
        """A value for the field or tag of this name. AttributeError if none has it."""
        number = self.number(name)
        part = self.part(number) or Type("null")
        plain = part.write(value)
        return WrittenPart(number, plain, part.fits(plain))

    def read(self, content: Any) -> Any:
        """A content of the library, with names in place of numbers."""
        if isinstance(content, Array):
            return Array(content.low, self.of.read(content.items))
        return content if content is None else self.of.read(content)

    def write(self, content: Any) -> Any:
        """A content for the library. A list is an array whose low bound is 0."""
        if self.kind != "array":
            return self.of.write(content)
        if isinstance(content, Array):
            return Array(content.low, self.of.write(list(content.items)))
        return Array(0, self.of.write(content)) if isinstance(content, list) else content


@lru_cache(maxsize=1024)
def record_class(names: tuple[str, ...]) -> Any:
    """The named tuple for a record or struct with these fields; its class is made once."""
    make: Any = namedtuple
    kind = make("Record", names, rename=True)
    # To pickle and to copy it, its names are enough.
    kind.__reduce__ = lambda record: (_record, (names, tuple(record)))
    return kind


def _record(names: tuple[str, ...], content: tuple[Any, ...]) -> Any:
    return record_class(names)(*content)


@lru_cache(maxsize=1024)
def read_shape(text: str) -> Shape:
    """The shape of a written form, such as `atomic_record[balance:int]`. BadShape says where it is none, and why."""
    return _Reader(text).shape()


@lru_cache(maxsize=256)
def shape_of_class(made_by: type) -> Shape:
    """The shape of a record that has the fields of a dataclass, and is read as objects of that."""
    if not (isinstance(made_by, type) and dataclasses.is_dataclass(made_by)):
        raise TypeError(f"neither the written form of a shape nor a dataclass: {made_by!r}")
    return Shape("record", _struct_of(made_by))


def _struct_of(made_by: type) -> Struct:
    hints = typing.get_type_hints(made_by)
    fields = dataclasses.fields(made_by)
    return Struct([(field.name, _type_of(hints[field.name])) for field in fields], made_by)


def _type_of(hint: Any) -> Type:
    """The type of a field of a dataclass."""
    if isinstance(hint, type) and dataclasses.is_dataclass(hint) and hint is not Ref:
        return _struct_of(hint)
    if typing.get_origin(hint) is list:
        return Sequence(_type_of(*typing.get_args(hint)))
    if hint in _WORDS:
        return Type(_WORDS[hint])
    raise TypeError(f"no type of a field: {hint!r}; int, bool, str, None, Ref, a list of one or a dataclass is")


class _Reader:
    """The rest of a shape's written form."""

    def __init__(self, text: str) -> None:
        self.text, self.at = text, 0

    def shape(self) -> Shape:
        self.want("atomic_")
        word = self.word("a kind: record, array or variant")
        if word not in _KINDS:
            raise self.bad("no kind: record, array or variant is one", len(word))
        shape = Shape(word, self.compound(_KINDS[word], 1))
        if self.at != len(self.text):
            raise self.bad("something follows the shape")
        return shape

    def type(self, depth: int) -> Type:
        word = self.word("a type")
        if depth > MAX_DEPTH:
            raise self.bad(f"deeper than {MAX_DEPTH}", len(word))
        if word in _SCALARS:
            return Type(word)
        if word not in _KINDS.values():
            raise self.bad(f"no type: {', '.join((*_SCALARS, *_KINDS.values()))} are", len(word))
        return self.compound(word, depth + 1)

    def compound(self, word: str, depth: int) -> Type:
        """What is in brackets."""
        self.want("[")
        if word == "sequence":
            made: Type = Sequence(self.type(depth))
        else:
            made = {"struct": Struct, "oneof": Oneof}[word](self.parts(depth))
        self.want("]")
        return made

    def parts(self, depth: int) -> list[tuple[str, Type]]:
        parts: dict[str, Type] = {}
        while not parts or self.text.startswith(",", self.at):
            self.at += bool(parts)
            name = self.word("a name")
            if name in parts or len(name) > _LONGEST_NAME or len(parts) == _MOST_NAMES:
                why = "twice the same name" if name in parts else f"longer than {_LONGEST_NAME} letters"
                why = why if len(parts) < _MOST_NAMES else f"more than {_MOST_NAMES} names"
                raise self.bad(why, len(name))
            self.want(":")
            parts[name] = self.type(depth)
        return list(parts.items())

    def word(self, what: str) -> str:
        end = self.at
        while end < len(self.text) and self.text[end] in _LETTERS:
            end += 1
        if end == self.at:
            raise self.bad(f"{what} is missing")
        word, self.at = self.text[self.at : end], end
        return word

    def want(self, word: str) -> None:
        if not self.text.startswith(word, self.at):
            raise self.bad(f"{word!r} is missing")
        self.at += len(word)

    def bad(self, why: str, back: int = 0) -> BadShape:
        at = len(self.text[: self.at - back].encode(errors="surrogatepass"))
        return BadShape(f"{BadShape.why}: at byte {at} {why}", at=at)
