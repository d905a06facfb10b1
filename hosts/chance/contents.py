"""Operations on contents: which suit a shape, what each returns, and what it leaves.

The operations are those of Argus's built-in atomic records, arrays and variants (Argus Reference Manual, 1987, atomic
objects). A signal leaves the content as it was.
"""

from __future__ import annotations

from typing import NamedTuple

from values import (
    GREATEST, LEAST, MOST_ITEMS, Array, Choice, Content, Fields, Form, Value,
    content_of, fits, is_typed, text_of, value_of,
)  # fmt: skip

# How many numbers each operation has, by the shape that it suits.
OF_ALL = {"whole": 0, "create": 0, "touch": 0}
OF_SHAPE = {
    "atomic_record": {"field": 1, "set_field": 1},
    "atomic_array": {"low": 0, "high": 0, "size": 0, "fetch": 1, "bottom": 0, "top": 0, "store": 1, "addh": 0}
    | {"addl": 0, "remh": 0, "reml": 0, "set_low": 1, "trim": 2},
    "atomic_variant": {"is_tag": 1, "tag_value": 1, "change_tag": 1},
}
ALL = OF_ALL | OF_SHAPE["atomic_record"] | OF_SHAPE["atomic_array"] | OF_SHAPE["atomic_variant"]
WITH_VALUE = ("set_field", "store", "addh", "addl", "change_tag")


class Operation(NamedTuple):
    """An operation, with its numbers and the value or content that it brings."""

    name: str
    numbers: tuple[int, ...] = ()
    brought: Value = None


def operation_of(text: str) -> Operation:
    """The operation that a text spells."""
    name, _, rest = text.partition(" ")
    words = rest.split(" ", ALL[name])
    numbers = tuple(map(int, words[: ALL[name]]))
    if name == "create":
        return Operation(name, numbers, content_of(words[-1]))
    return Operation(name, numbers, value_of(words[-1]) if name in WITH_VALUE else None)


def suits(form: Form, declared: int, operation: Operation) -> bool:
    """Whether an operation suits a shape, where so many objects are declared."""
    name, numbers, brought = operation
    if name == "create":
        return fits(form, declared, brought)
    if name in OF_ALL or name not in OF_SHAPE[form.word]:
        return name in OF_ALL
    if form.word == "atomic_array":
        return name not in WITH_VALUE or is_typed(form.parts[0], declared, brought)
    parts = form.parts[numbers[0] :][:1]
    return bool(parts) and (name not in WITH_VALUE or is_typed(parts[0], declared, brought))


def carried_out(content: Content, operation: Operation) -> tuple[str, Content]:
    """What an operation that suits returns on a content, and what it leaves."""
    name, numbers, brought = operation
    if name == "touch":
        return "done", content
    if name == "create":
        return ("signal exists", content) if content else ("done", brought)
    if content is None:
        return "signal absent", None
    if name == "whole":
        return f"body {text_of(content)}", content
    if isinstance(content, Fields):
        return _of_record(content, name, numbers[0], brought)
    if isinstance(content, Choice):
        return _of_variant(content, name, numbers[0], brought)
    signal = _array_signal(content.low, len(content.items), name, numbers)
    return (f"signal {signal}", content) if signal else _of_array(content, name, numbers, brought)


def _of_record(record: Fields, name: str, place: int, brought: Value) -> tuple[str, Content]:
    if name == "field":
        return f"val {text_of(record.parts[place])}", record
    return "done", Fields((*record.parts[:place], brought, *record.parts[place + 1 :]))


def _of_variant(variant: Choice, name: str, tag: int, brought: Value) -> tuple[str, Content]:
    if name == "change_tag":
        return "done", Choice(tag, brought)
    if name == "is_tag":
        return f"flag {text_of(variant.tag == tag)}", variant
    return (f"val {text_of(variant.value)}" if variant.tag == tag else "signal wrong_tag"), variant


def _array_signal(low: int, size: int, name: str, numbers: tuple[int, ...]) -> str:
    """The first signal that applies to an array of this size from this low bound on, or nothing."""
    high = low + size - 1
    if name in ("fetch", "store"):
        return "" if low <= numbers[0] <= high else "bounds"
    if name in ("bottom", "top", "remh", "reml") and size == 0:
        return "bounds"
    if name == "trim":
        return _trim_signal(low, high, *numbers)
    beyond = {
        "addh": size == MOST_ITEMS or high == GREATEST,
        "addl": size == MOST_ITEMS or low == LEAST,
        "reml": low == GREATEST,
        "set_low": bool(numbers) and not LEAST <= numbers[0] <= min(GREATEST, GREATEST + 1 - size),
    }
    return "limits" if beyond.get(name) else ""


def _trim_signal(low: int, high: int, first: int, count: int) -> str:
    if count < 0:
        return "negative_size"
    if not low <= first <= high + 1:
        return "bounds"
    return "limits" if first > GREATEST else ""


def _of_array(array: Array, name: str, numbers: tuple[int, ...], brought: Value) -> tuple[str, Content]:
    """What an operation without a signal returns and leaves."""
    low, items = array.low, array.items
    counts = {"low": low, "high": low + len(items) - 1, "size": len(items)}
    if name in counts:
        return f"num {counts[name]}", array
    if name in ("fetch", "bottom", "top"):
        place = {"bottom": 0, "top": -1}.get(name, numbers[0] - low if numbers else 0)
        return f"val {text_of(items[place])}", array
    if name == "remh":
        return f"val {text_of(items[-1])}", Array(low, items[:-1])
    if name == "reml":
        return f"val {text_of(items[0])}", Array(low + 1, items[1:])
    return "done", _changed_array(array, name, numbers, brought)


def _changed_array(array: Array, name: str, numbers: tuple[int, ...], brought: Value) -> Array:
    low, items = array.low, array.items
    if name == "addh":
        return Array(low, (*items, brought))
    if name == "addl":
        return Array(low - 1, (brought, *items))
    place = numbers[0] - low
    if name == "store":
        return Array(low, (*items[:place], brought, *items[place + 1 :]))
    return Array(numbers[0], items if name == "set_low" else items[place:][: numbers[1]])
