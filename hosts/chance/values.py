"""Values, contents, types and shapes, read from texts and written again. The texts are well formed."""

from __future__ import annotations

import re
from collections.abc import Iterable
from dataclasses import dataclass
from typing import Any, TypeAlias

# None, a bool, an int, a str, an Atomic, a tuple for a sequence, Fields or a Choice.
Value: TypeAlias = Any
# Fields for a record, an Array, a Choice for a variant; None is absent.
Content: TypeAlias = "Fields | Array | Choice | None"

LEAST, GREATEST, MOST_ITEMS = -(2**31), 2**31 - 1, 65_535
NAMED: dict[str, Value] = {"null": None, "true": True, "false": False}
SCALARS: dict[str, type] = {"null": type(None), "bool": bool, "int": int, "text": str}
TOKEN = re.compile(r'null|true|false|@\d+|-?\d+|"(?:[^"\\\n]|\\["\\n])*"|[]\[{}<>:,]')


@dataclass(frozen=True)
class Atomic:
    """A reference to an object."""

    number: int


@dataclass(frozen=True)
class Fields:
    """The fields of a struct or a record."""

    parts: tuple[Value, ...]


@dataclass(frozen=True)
class Choice:
    """A tag and its value, of a oneof or a variant."""

    tag: int
    value: Value


@dataclass(frozen=True)
class Array:
    """An array from its low bound on."""

    low: int
    items: tuple[Value, ...]


@dataclass(frozen=True)
class Form:
    """A type or a shape: its first word, and the types of its parts."""

    word: str
    parts: tuple[Form, ...]


def value_of(text: str) -> Value:
    """The value that a text spells."""
    return _value(TOKEN.findall(text)[::-1])


def content_of(text: str) -> Content:
    """The content that a text spells."""
    words = TOKEN.findall(text)[::-1]
    if words[-1] in "{<":
        content: Content = _value(words)
        return content
    low = int(words.pop())
    words.pop()
    return Array(low, _listed(words, "]"))


def _value(words: list[str]) -> Value:
    """The value that comes first; the last word is the next one."""
    word = words.pop()
    if word in NAMED:
        return NAMED[word]
    if word == "[":
        return _listed(words, "]")
    if word == "{":
        return Fields(_listed(words, "}"))
    if word == "<":
        return _choice(words)
    if word[0] == "@":
        return Atomic(int(word[1:]))
    if word[0] == '"':
        return re.sub(r"\\(.)", lambda it: "\n" if it[1] == "n" else it[1], word[1:-1])
    return int(word)


def _choice(words: list[str]) -> Choice:
    tag = int(words.pop())
    words.pop()
    value = _value(words)
    words.pop()
    return Choice(tag, value)


def _listed(words: list[str], end: str) -> tuple[Value, ...]:
    found = []
    while words[-1] != end:
        found.append(_value(words))
        if words[-1] == ",":
            words.pop()
    words.pop()
    return tuple(found)


def text_of(it: Value | Content) -> str:
    """The text that spells a value, or a content that isn't absent."""
    if isinstance(it, Fields):
        return f"{{{_joined(it.parts)}}}"
    if isinstance(it, Array):
        return f"{it.low}[{_joined(it.items)}]"
    if isinstance(it, Choice):
        return f"<{it.tag}:{text_of(it.value)}>"
    if isinstance(it, tuple):
        return f"[{_joined(it)}]"
    if isinstance(it, Atomic):
        return f"@{it.number}"
    if isinstance(it, str):
        return '"' + it.replace("\\", "\\\\").replace('"', '\\"').replace("\n", "\\n") + '"'
    return "null" if it is None else str(it).lower()


def content_text(content: Content) -> str:
    """The text of a content in a listing."""
    return "absent" if content is None else text_of(content)


def _joined(values: Iterable[Value]) -> str:
    return ",".join(map(text_of, values))


def form_of(text: str) -> Form:
    """The type or the shape that a text spells."""
    return _form(re.findall(r"[a-z0-9_]+|[][:,]", text)[::-1])


def _form(words: list[str]) -> Form:
    word, parts = words.pop(), []
    if not words or words[-1] != "[":
        return Form(word, ())
    while words.pop() != "]":
        if words[-2] == ":":
            del words[-2:]
        parts.append(_form(words))
    return Form(word, tuple(parts))


def is_typed(form: Form, declared: int, value: Value) -> bool:
    """Whether the value is of the type, where so many objects are declared."""
    if form.word == "atomic":
        return isinstance(value, Atomic) and value.number < declared
    if form.word == "sequence":
        return isinstance(value, tuple) and all(is_typed(form.parts[0], declared, it) for it in value)
    if form.word in ("struct", "atomic_record"):
        return isinstance(value, Fields) and _are_typed(form.parts, declared, value.parts)
    if form.word in ("oneof", "atomic_variant"):
        return isinstance(value, Choice) and _are_typed(form.parts[value.tag :][:1], declared, (value.value,))
    return type(value) is SCALARS[form.word]


def _are_typed(forms: tuple[Form, ...], declared: int, values: tuple[Value, ...]) -> bool:
    return len(forms) == len(values) and all(is_typed(form, declared, it) for form, it in zip(forms, values))


def fits(form: Form, declared: int, content: Content) -> bool:
    """Whether the content fits the shape. An array keeps its limits, too."""
    if form.word != "atomic_array":
        return is_typed(form, declared, content)
    if not isinstance(content, Array) or not is_typed(Form("sequence", form.parts), declared, content.items):
        return False
    high = content.low + len(content.items) - 1
    return LEAST <= content.low <= GREATEST and high <= GREATEST and len(content.items) <= MOST_ITEMS
