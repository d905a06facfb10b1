"""Values and contents, and how they are written and read.

    null     None              a struct      a tuple
    bool     bool              a sequence    a list
    int      int               a oneof       Choice(tag, value)
    text     str               a reference   Ref(number)

A record's content is a tuple, an array's an Array(low, items), a variant's a Choice. Fields and tags
are numbered from 0, in the order in which their type has them.
"""

from __future__ import annotations

import re
from collections.abc import Callable, Iterable, Iterator
from dataclasses import dataclass
from typing import TYPE_CHECKING, Any, NamedTuple, TypeVar

from .errors import BadText, OtherGuardian
from .ids import Ids, number_of
from .quick import Typed
from .ranges import BYTE, LEAST, MOST, U32, i64, within

if TYPE_CHECKING:
    # Python 3.9 has none.
    from typing import TypeAlias

MAX_DEPTH = 16

# What is accepted as a value, a content and an object. What is returned is Any: its type depends on the shape.
Value: TypeAlias = "None | bool | int | str | Ref | Typed | Choice | tuple[Value, ...] | list[Any]"
Content: TypeAlias = "Choice | Array | tuple[Value, ...]"
AnyObject: TypeAlias = "int | Ref | Typed"
_Read = TypeVar("_Read")


@dataclass(frozen=True, order=True)
class Ref:
    """A reference to an object. A call accepts it in place of the object's number."""

    number: int


def _is_same(one: tuple[Any, ...], other: object) -> bool:
    """Whether both are of the same kind and equal. A tuple is a struct, not a choice or an array."""
    return type(one) is type(other) and tuple.__eq__(one, other)


class Choice(NamedTuple):
    """A tag of a oneof or of a variant, and its value. The tag is a number, or a name where the type is known."""

    tag: int | str
    value: Any = None

    def __eq__(self, other: object) -> bool:
        return _is_same(self, other)

    def __ne__(self, other: object) -> bool:
        return not _is_same(self, other)

    def __hash__(self) -> int:
        return hash((Choice, *self))


@dataclass(frozen=True)
class Array:
    """An array's low bound, and its items, over which it iterates."""

    low: int
    items: list[Any]

    def __iter__(self) -> Iterator[Any]:
        return iter(self.items)

    def __len__(self) -> int:
        return len(self.items)


def object_number(obj: AnyObject, ids: Ids | None = None) -> int:
    """The number of an object, which may be given as a Ref. Raises what `number_of` does."""
    if ids is not None and type(obj) is ids.objects:
        return obj  # type: ignore[return-value]
    if isinstance(obj, Typed):
        if ids is not None and obj._ids is not ids:
            raise OtherGuardian(f"{obj!r}: {OtherGuardian.why}")
        return obj._number
    return number_of(obj.number if isinstance(obj, Ref) else obj, ids, "object")


def write_value(value: Value, ids: Ids | None = None) -> str:
    """The written form of a value. TypeError if no value has its type.

    OverflowError if an integer has more than 64 bits, or if the number of a tag or an object is out of range. With
    a guardian's ids: OtherGuardian if a reference is to an object that is known to be another one's.
    """
    if value is None:
        return "null"
    if isinstance(value, bool):
        return "true" if value else "false"
    if isinstance(value, int):
        return str(i64(value, "integer"))
    if isinstance(value, str):
        return '"' + value.replace("\\", "\\\\").replace('"', '\\"').replace("\n", "\\n") + '"'
    if isinstance(value, (Ref, Typed)):
        return f"@{object_number(value, ids)}"
    if isinstance(value, Choice):
        return f"<{within(value.tag, 0, BYTE, 'tag')}:{write_value(value.value, ids)}>"  # type: ignore[arg-type]
    if isinstance(value, list):
        return "[" + _joined(value, ids) + "]"
    if isinstance(value, tuple):
        return "{" + _joined(value, ids) + "}"
    raise TypeError(f"no value: {value!r}")


def written(value: Value, ids: Ids) -> bytes:
    """The written form of a value for a guardian, in UTF-8. Integers are the most frequent."""
    if type(value) is int and LEAST <= value <= MOST:
        return b"%d" % value
    return write_value(value, ids).encode()


def write_content(content: Content, ids: Ids | None = None) -> str:
    """The written form of a content. Raises what `write_value` does."""
    if isinstance(content, Array):
        return f"{i64(content.low, 'low bound')}[{_joined(content.items, ids)}]"
    if isinstance(content, tuple):
        return write_value(content, ids)
    raise TypeError(f"no content: {content!r}")


def _joined(values: Iterable[Value], ids: Ids | None) -> str:
    return ",".join([write_value(value, ids) for value in values])


def read_value(text: str) -> Any:
    """The value of a written form. BadText if it isn't one."""
    return _Reader(text).whole(lambda it: it.value(1))


def read_content(text: str) -> Any:
    """The content of a written form, None for `absent`. BadText if it is neither."""
    return _Reader(text).whole(_Reader.content)


class _Reader:
    """The rest of a text that is being read. A method that can't go on raises _Stop."""

    INT = re.compile(r"0|-?[1-9][0-9]*")
    NAT = re.compile(r"0|[1-9][0-9]*")
    # Each character can be matched in one way only, so the match never backtracks.
    TEXT = re.compile(r'"[^"\\\n]*(?:\\["\\n][^"\\\n]*)*"')
    # No number of 64 bits has more, including its sign.
    DIGITS = 20
    ESCAPED = re.compile(r'\\(["\\n])')
    WORDS = {"null": None, "true": True, "false": False}
    # Values that are read at once: words, texts without escapes, and integers that surely have 64 bits.
    SCALAR = re.compile(r'0|-?[1-9][0-9]{0,17}|"[^"\\\n]*"|null|true|false')
    SCALARS = re.compile(rf"(?:{SCALAR.pattern})(?:,(?:{SCALAR.pattern}))*(?=[\]}}])")

    def __init__(self, text: str) -> None:
        self.text, self.at = text, 0

    def whole(self, read: Callable[[_Reader], _Read]) -> _Read:
        try:
            thing = read(self)
        except _Stop:
            pass
        else:
            if self.at == len(self.text):
                return thing
        raise BadText(len(self.text[: self.at].encode()))

    def take(self, word: str) -> bool:
        """Whether the rest begins with this word; if so, takes it."""
        is_there = self.text.startswith(word, self.at)
        self.at += len(word) * is_there
        return is_there

    def want(self, word: str) -> None:
        if not self.take(word):
            raise _Stop

    def match(self, pattern: re.Pattern[str]) -> str:
        found = pattern.match(self.text, self.at)
        if not found:
            raise _Stop
        self.at = found.end()
        return found.group()

    def number(self, pattern: re.Pattern[str], low: int, high: int) -> int:
        """An integer within these bounds. If it is beyond them, stops at the digit that makes it so."""
        written = self.match(pattern)
        kept = written[: self.DIGITS]
        while not low <= int(kept) <= high:
            kept = kept[:-1]
        if kept == written:
            return int(kept)
        self.at -= len(written) - len(kept)
        raise _Stop

    def value(self, level: int) -> Any:
        if level > MAX_DEPTH:
            raise _Stop
        first = self.text[self.at : self.at + 1]
        if first == '"':
            written = self.match(self.TEXT)[1:-1]
            if "\\" not in written:
                return written
            return self.ESCAPED.sub(lambda it: "\n" if it[1] == "n" else it[1], written)
        if first in "ntf":
            for word, value in self.WORDS.items():
                if self.take(word):
                    return value
        if self.take("@"):
            return Ref(self.number(self.NAT, 0, U32))
        if self.take("["):
            return self.values(level, "]")
        if self.take("{"):
            return tuple(self.values(level, "}"))
        if self.take("<"):
            return self.choice(level)
        return self.number(self.INT, LEAST, MOST)

    def values(self, level: int, close: str) -> list[Any]:
        """The values before the closing bracket, which is taken too."""
        if self.take(close):
            return []
        found = self.SCALARS.match(self.text, self.at) if level < MAX_DEPTH else None
        if found:
            self.at = found.end()
            values = _scalars(found.group())
        else:
            values = [self.value(level + 1)]
        while not self.take(close):
            self.want(",")
            values.append(self.value(level + 1))
        return values

    def choice(self, level: int) -> Choice:
        tag = self.number(self.NAT, 0, BYTE)
        self.want(":")
        value = self.value(level + 1)
        self.want(">")
        return Choice(tag, value)

    def content(self) -> Any:
        if self.take("absent"):
            return None
        if self.take("{"):
            return tuple(self.values(0, "}"))
        if self.take("<"):
            return self.choice(0)
        low = self.number(self.INT, LEAST, MOST)
        self.want("[")
        return Array(low, self.values(0, "]"))


def _scalars(text: str) -> list[Any]:
    """The values of this text, of which _Reader.SCALARS says that it is some. Most are integers."""
    try:
        return list(map(int, text.split(",")))
    except ValueError:
        return [_scalar(it) for it in _Reader.SCALAR.findall(text)]


def _scalar(text: str) -> Any:
    """The value of this text, which is one of _Reader.SCALAR."""
    if text[0] == '"':
        return text[1:-1]
    return _Reader.WORDS[text] if text[0] in "ntf" else int(text)


class _Stop(Exception):
    """The text can't be read further."""
