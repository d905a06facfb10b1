"""Lists of calls: several calls of a guardian at once."""

from __future__ import annotations

import ctypes
from collections.abc import Iterator
from typing import Any, NamedTuple

from .call_reading import LONG_CALL
from .errors import ArgusError
from .ids import Ids, number_of
from .library import Demand, ListedCall, Status
from .ranges import U32, i64, u32, within
from .telling import Call
from .values import AnyObject, object_number


class Listed(NamedTuple):
    """One call of a list: a Kind, and its arguments.

    With `begun_by` its action is the one that the call at this place of the list, from 0, began. The
    list goes on if the reply is what the demand says: by default, no refusal.
    """

    kind: int
    action: int = 0
    obj: AnyObject = 0
    first: int = 0
    second: int = 0
    text: str = ""
    begun_by: int | None = None
    demand: int = Demand.NO_REFUSAL


class CallsMade(NamedTuple):
    """The outcome of a list of calls.

    `answers` has the result of each call that was made; a Refused or a Signal is a result here. `end` is
    why no more were made: None if all were, otherwise the last answer, or the exception of the call that
    failed.
    """

    answers: list[Any]
    end: ArgusError | None


def array_of(calls: list[Listed], ids: Ids) -> Any:
    """The calls as the library takes them, each with its text. Of ids only these are taken. Raises what `Guardian.call` does."""
    array = (ListedCall * len(calls))()
    for place, call in enumerate(calls):
        array[place] = _listed_call(call, ids)
    return array


def _listed_call(call: Listed, ids: Ids) -> ListedCall:
    if not isinstance(call, Listed):
        raise TypeError(f"a call of a list is a Listed, and not {call!r}")
    text = call.text.encode()
    return ListedCall(
        kind=u32(call.kind, "kind"),
        demand=u32(call.demand, "demand"),
        action=number_of(call.action, ids, "action"),
        begun_by=0 if call.begun_by is None else within(call.begun_by, 0, U32 - 1, "place") + 1,
        object=object_number(call.obj, ids),
        first=i64(call.first, "number"),
        second=i64(call.second, "number"),
        text=text,
        text_size=len(text),
    )


class Part(NamedTuple):
    """Calls of a list that are made at once: those between two with long texts, or one of these alone."""

    array: Any
    # Where it begins in the whole list.
    begin: int
    whole: Any

    def call(self) -> Call:
        """Its only call, whose action has begun."""
        it = self.array[0]
        return it.kind, it.action, it.object, it.first, it.second, it.text

    def is_alone(self) -> bool:
        """Whether it is one call with a long text, of an action that has begun."""
        it = self.array[0] if len(self.array) == 1 else None
        return it is not None and it.text_size >= LONG_CALL and it.begun_by == 0 and it.demand <= Demand.NO_SIGNAL

    def name_actions(self) -> None:
        """Names the actions that earlier parts have begun by their numbers, and those of its own by their new places."""
        for it in self.array if self.begin else ():
            if it.begun_by > self.begin:
                it.begun_by -= self.begin
            elif it.begun_by:
                begin = self.whole[it.begun_by - 1]
                has_begun = begin.status == Status.ACTION
                # Of a call after it the library says that it hasn't begun the action.
                it.action, it.begun_by = (begin.number, 0) if has_begun else (0, len(self.array) + 1)


def parts_of(array: Any) -> Iterator[Part]:
    """The list in parts, in their order; at least one."""
    long = [place for place, it in enumerate(array) if it.text_size >= LONG_CALL]
    bounds = sorted({0, *long, *(place + 1 for place in long), len(array)})
    for begin, end in zip(bounds, bounds[1:] or bounds):
        part = (ListedCall * (end - begin)).from_buffer(array, begin * ctypes.sizeof(ListedCall))
        yield Part(part, begin, array)


def made_alone(listed: ListedCall, status: int, number: int) -> tuple[int, int]:
    """Notes the outcome of a list's only call. The status of the list, and how many calls of it were made."""
    listed.status, listed.number = status, number
    if status > Status.REFUSED:
        return status, 0
    is_refused, is_signal = status == Status.REFUSED, status == Status.SIGNAL
    is_unmet = listed.demand != Demand.NOTHING and is_refused or listed.demand == Demand.NO_SIGNAL and is_signal
    return Status.UNMET if is_unmet else Status.DONE, 1


def calls_of(made: Any) -> list[Call]:
    """The calls that were made, each with its action's number, as `Guardian.call` has them."""
    return [(it.kind, _action_of(it, made), it.object, it.first, it.second) for it in made]


def _action_of(call: Any, made: Any) -> int:
    return made[call.begun_by - 1].number if call.begun_by else call.action
