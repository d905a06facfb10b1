"""What an exception says about the call that raised it."""

from __future__ import annotations

from collections.abc import Callable, Iterable
from typing import TYPE_CHECKING, Any

from . import errors
from .library import BY_TEXT, Kind, Question, Status
from .shapes import Shape

if TYPE_CHECKING:
    # Python 3.9 has none.
    from typing import TypeAlias

# A kind, and after it, in this order, as many as are needed of an action, an object, two numbers and a text.
Call: TypeAlias = "tuple[Any, ...]"

_NAMES: dict[int, str] = {kind: kind.name.lower() for kind in Kind}
_DEEDS: dict[int, str] = {
    Kind.DECLARE: "a declaration",
    Kind.BEGIN_TOP: "a topaction wants to begin",
    Kind.BEGIN_SUB: "a{} wants to begin a subaction",
    Kind.BEGIN_NESTED: "a{} wants to begin a nested topaction",
    Kind.COMMIT: "a{} wants to commit",
    Kind.ABORT: "a{} wants to abort",
    Kind.ABORT_OTHERS: "a{} wants to abort its siblings",
    Kind.TEST_READ: "a{} wants to read {}",
    Kind.TEST_WRITE: "a{} wants to write {}",
}
# The kinds that take an item of an array, and the kind of shape in which others take a field or a tag.
_ITEMS = (Kind.STORE, Kind.ADDH, Kind.ADDL)
_NAMED: dict[int, str] = {Kind.FIELD: "record", Kind.SET_FIELD: "record"}
_NAMED.update(dict.fromkeys((Kind.IS_TAG, Kind.TAG_VALUE, Kind.CHANGE_TAG), "variant"))
_NUMBERED: tuple[int, ...] = (Kind.FIELD, Kind.FETCH, Kind.IS_TAG, Kind.TAG_VALUE, Kind.SET_FIELD, Kind.STORE)
_NUMBERED += (Kind.SET_LOW, Kind.CHANGE_TAG)
_ERRORS: dict[int, type[errors.ArgusError]] = {
    Status.NO_MEMORY: errors.OutOfMemory,
    Status.NOT_OPEN: errors.Closed,
    Status.BAD_SHAPE: errors.BadShape,
    Status.BAD_NUMBER: errors.BadNumber,
    Status.BAD_KIND: errors.BadKind,
    Status.NOT_BEGUN: errors.NotBegun,
    Status.BAD_DEMAND: errors.BadDemand,
    Status.NOT_THERE: errors.NotThere,
    Status.BUSY: errors.Busy,
    Status.FULL: errors.Full,
}


def by_number(obj: int) -> str:
    """How an object is called that has no name."""
    return f"o{obj}"


def deed(call: Call, name: Callable[[int], str] = by_number) -> str:
    """What the call wants, as in `a7 wants to write o3`."""
    kind, action, obj = (*call, 0, 0)[:3]
    if kind > Kind.TEST_WRITE:
        kind = Kind.TEST_READ if kind < Kind.CREATE else Kind.TEST_WRITE
    return _DEEDS[kind].format(action, name(obj))


def circle(action: int, waits_for: Iterable[int]) -> str:
    """Who waits for whom in a circle, as in `a3 waits for a1, which waits for a3`."""
    return f"a{action} waits for " + ", which waits for ".join(f"a{it}" for it in (*waits_for, action))


def _operation(kind: int, action: int, obj: int, first: int = 0, second: int = 0, *_: object) -> str:
    """The operation of an access, as in `set_field 0`."""
    kind = BY_TEXT.get(kind, kind)
    if kind in _NUMBERED:
        return f"{_NAMES[kind]} {first}"
    return f"trim {first} {second}" if kind == Kind.TRIM else _NAMES[kind]


def error_of_call(
    status: int, number: int, call: Call, name: Callable[[int], str] = by_number, shape: Shape | None = None
) -> errors.ArgusError:
    """The exception for the status and the number of a call. IllTyped also says what the object's shape has there."""
    if status == Status.REFUSED and 1 <= number <= len(errors.REFUSALS):
        refused = errors.REFUSALS[number - 1]
        operation = f" by {_operation(*call)}" if refused is errors.IllTyped else ""
        return refused(f"{deed(call, name)}{operation}: {_why(refused, call, shape)}")
    if status == Status.SIGNAL and 1 <= number <= len(errors.SIGNALS):
        signal = errors.SIGNALS[number - 1]
        return signal(f"{deed(call, name)} by {_operation(*call)}: {signal.why}")
    return error_of(status, number)


def is_ill_typed(status: int, number: int) -> bool:
    """Whether a call was refused so."""
    return (status, number) == (Status.REFUSED, errors.REFUSALS.index(errors.IllTyped) + 1)


def _why(refused: type[errors.Refused], call: Call, shape: Shape | None) -> str:
    if refused is errors.TooMany:
        return errors.TooMany.OBJECTS if call[0] == Kind.DECLARE else errors.TooMany.ACTIONS
    return f"{refused.why}; {_typed(call, shape)}" if refused is errors.IllTyped and shape else refused.why


def _typed(call: Call, shape: Shape) -> str:
    """What the shape has where the call wants something, as in `field balance is int`."""
    kind, number = BY_TEXT.get(call[0], call[0]), (*call, 0, 0)[3]
    part = shape.part(number)
    if part is not None and shape.kind == "array" and kind in _ITEMS:
        return f"an item is {part.text}"
    if part is not None and shape.kind == _NAMED.get(kind):
        return f"{'field' if shape.kind == 'record' else 'tag'} {shape.names[number]} is {part.text}"
    return f"its shape is {shape.text}"


def error_of_question(
    status: int, number: int, question: int, entry: int = 0, obj: int = 0
) -> errors.ArgusError:
    """The exception for the status and the number of a question."""
    if status == Status.NOT_THERE and question == Question.ENTRY:
        return errors.NotThere(f"entry {entry} isn't there, or not any more")
    if status == Status.NOT_THERE:
        return errors.NotThere(f"o{obj}: {errors.NoObject.why}")
    return error_of(status, number)


def error_of(status: int, number: int = 0) -> errors.ArgusError:
    """The exception for a status and a number alone."""
    if status == Status.BAD_TEXT:
        return errors.BadText(number)
    if status in _ERRORS:
        return _ERRORS[status]()
    return errors.UnknownStatus(status, number)
