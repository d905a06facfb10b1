"""Contents of objects: read from their written forms, changed, and written again. Values stay texts."""

from __future__ import annotations

import re
from collections import deque
from dataclasses import dataclass
from itertools import islice

# A value's text, a bracket, or a comma; what is between them doesn't matter.
_PARTS = re.compile(r'"[^"\\]*(?:\\.[^"\\]*)*"|[\[{<\]}>,]')


@dataclass
class Record:
    fields: list[str]


@dataclass
class Array:
    low: int
    items: deque[str]


@dataclass
class Variant:
    tag: str
    value: str


Content = Record | Array | Variant | None


def values_of(text: str) -> list[str]:
    """The values of a list: what stands between commas that are in no inner brackets."""
    values, depth, begin = [], 0, 0
    for part in _PARTS.finditer(text):
        if part[0] in "[{<":
            depth += 1
        elif part[0] in "]}>":
            depth -= 1
        elif part[0] == "," and depth == 0:
            values.append(text[begin : part.start()])
            begin = part.end()
    return [*values, text[begin:]] if text else []


def content_of(text: str) -> Content:
    """The content that a text spells; None is absent."""
    if text == "absent":
        return None
    if text[0] == "{":
        return Record(values_of(text[1:-1]))
    if text[0] == "<":
        tag, _, value = text[1:-1].partition(":")
        return Variant(tag, value)
    low, _, items = text[:-1].partition("[")
    return Array(int(low), deque(values_of(items)))


def beginning_of(content: Content, letters: int) -> str:
    """The first letters of the written form, and an ellipsis if there are more."""
    # Each value has a letter at the least, so later ones don't show.
    if content is None:
        text = "absent"
    elif isinstance(content, Record):
        text = f"{{{','.join(content.fields)}}}"
    elif isinstance(content, Variant):
        text = f"<{content.tag}:{content.value}>"
    else:
        text = f"{content.low}[{','.join(islice(content.items, letters + 1))}]"
    return shortened(text, letters)


def shortened(text: str, letters: int) -> str:
    """The first letters of a text, and an ellipsis if there are more."""
    return text if len(text) <= letters else text[:letters] + "\u2026"


def changed(content: Content, change: str) -> Content:
    """What a change leaves that was done, which may be this content itself, altered."""
    verb, _, rest = change.partition(" ")
    first, _, value = rest.partition(" ")
    match content, verb:
        case _, "create":
            return content_of(rest)
        case Record(fields), "set_field":
            fields[int(first)] = value
        case Variant(), "change_tag":
            return Variant(first, value)
        case Array(low, items), "store":
            items[int(first) - low] = value
        case Array(_, items), "addh":
            items.append(rest)
        case Array(_, items), "remh":
            items.pop()
        case Array(low, items), "addl":
            items.appendleft(rest)
            return Array(low - 1, items)
        case Array(low, items), "reml":
            items.popleft()
            return Array(low + 1, items)
        case Array(_, items), "set_low":
            return Array(int(rest), items)
        case Array(low, items), "trim":
            begin = int(first)
            return Array(begin, deque(islice(items, begin - low, begin - low + int(value))))
    return content
