"""Calls and replies, as a journal's lines spell them."""

from __future__ import annotations

from typing import TypeAlias

from argus_guardian.library import BY_BOOL, BY_INT, Kind, Status
from reading import as_bytes

# A kind, an action, an object, two numbers and a text.
Call: TypeAlias = "tuple[int, int, int, int, int, bytes]"

KINDS: dict[str, int] = {kind.name.lower(): kind for kind in Kind}
SIGNALS = ("absent", "exists", "bounds", "wrong_tag", "negative_size", "limits")
REFUSALS = ("NoAction", "Over", "Suspended", "NoObject", "IllTyped", "Conflict", "TooDeep", "TooMany", "NoSiblings")
# How many numbers come after an operation; the others have none.
NUMBERS = {"field": 1, "fetch": 1, "is_tag": 1, "tag_value": 1, "set_field": 1, "store": 1, "set_low": 1, "trim": 2}
NUMBERS["change_tag"] = 1


def call_of(asked: str) -> Call:
    """The call that the text spells. KeyError, ValueError or IndexError where it spells none."""
    word, *rest = asked.split(" ", 4)
    if word == "declare":
        return KINDS[word], 0, 0, 0, 0, as_bytes(rest[0])
    if word in ("ask", "alter"):
        return _access_of(*rest)
    action, obj = ([int(it[1:]) for it in rest] + [0, 0])[:2]
    return KINDS[word], action, obj, 0, 0, b""


def _access_of(action: str, obj: str, operation: str, behind: str = "") -> Call:
    count = NUMBERS.get(operation, 0)
    words = behind.split(" ", count)
    first, second = ([int(it) for it in words[:count]] + [0, 0])[:2]
    return KINDS[operation], int(action[1:]), int(obj[1:]), first, second, as_bytes("".join(words[count:]))


def in_numbers(call: Call) -> Call | None:
    """The same call with its value as its second number; None where that is no integer and no truth value."""
    kind, action, obj, first, _, text = call
    if kind not in BY_INT:
        return None
    if text in (b"false", b"true"):
        return BY_BOOL[kind], action, obj, first, int(text == b"true"), b""
    is_int = text.lstrip(b"-").isdigit() and -(1 << 63) <= int(text) < 1 << 63
    return (BY_INT[kind], action, obj, first, int(text), b"") if is_int else None


def reply_of(kind: int, status: int, number: int, text: bytes) -> str:
    """The reply to a call of this kind; any other status as it is."""
    if status in (Status.VALUE, Status.CONTENT):
        return ("val " if status == Status.VALUE else "body ") + text.decode("utf-8", "surrogateescape")
    if status == Status.NUMBER:
        return f"num {number}" if kind in (Kind.LOW, Kind.HIGH, Kind.SIZE) else f"val {number}"
    if status == Status.FLAG:
        mark = "flag" if kind in (Kind.TEST_READ, Kind.TEST_WRITE, Kind.IS_TAG) else "val"
        return f"{mark} {'true' if number == 1 else 'false'}" if number in (0, 1) else f"{mark} {number}"
    if status == Status.SIGNAL and 1 <= number <= len(SIGNALS):
        return f"signal {SIGNALS[number - 1]}"
    if status == Status.REFUSED and 1 <= number <= len(REFUSALS):
        return f"refused {REFUSALS[number - 1]}"
    marks = {Status.OBJECT: f"o{number}", Status.ACTION: f"a{number}", Status.DONE: "done"}
    return marks.get(status, f"status {status} {number}")
