"""The exceptions: why a call failed."""

from __future__ import annotations


class ArgusError(Exception):
    """The base of all exceptions of this package. `str` says what the call wanted, and why it failed."""

    why = "not as wanted"

    def __str__(self) -> str:
        return str(self.args[0]) if self.args else self.why


class OutOfMemory(ArgusError, MemoryError):
    """Out of memory. Nothing has changed, and nothing was journalled; but of a call whose result is a text, a compound
    value or a content, and of a list, there may have been no memory for the result of a call that was made."""

    why = "out of memory"


class BadText(ArgusError, ValueError):
    """A text isn't a written form; `at` is how many of its bytes could be read. Nothing was journalled."""

    def __init__(self, at: int) -> None:
        super().__init__(at)
        self.at = at

    def __str__(self) -> str:
        return f"no written form: bad at byte {self.at}"


class BadShape(ArgusError, ValueError):
    """A text isn't the written form of a shape that can be made; `at` is how many of its bytes could be read. Or an
    object of this name has another shape. Nothing was journalled."""

    why = "no written form of a shape"

    def __init__(self, *why: str, at: int | None = None) -> None:
        super().__init__(*why)
        self.at = at


class BadNumber(ArgusError, ValueError):
    """The number of a field or a tag isn't within 0 to 255. Nothing was journalled."""

    why = "the number of a field or a tag is within 0 to 255"


class BadKind(ArgusError, ValueError):
    """No call and no question has this number. Nothing was journalled."""

    why = "no call has this kind"


class BadLine(ArgusError, ValueError):
    """A line isn't the next one of a guardian's journal; `line` is how many came before it, `reason` says why."""

    def __init__(self, line: int, reason: str) -> None:
        super().__init__(line, reason)
        self.line, self.reason = line, reason

    def __str__(self) -> str:
        return f"line {self.line}, counted from 0: {self.reason}"


class NotBegun(ArgusError, LookupError):
    """For a call of a list: `begun_by` names no earlier one, or one that began no action. It wasn't journalled."""

    why = "no earlier call of the list began this action"


class BadDemand(ArgusError, ValueError):
    """For a call of a list: no demand has this number. It wasn't journalled."""

    why = "no demand has this number"


class NotThere(ArgusError, LookupError):
    """No such object is declared, or no entry has this number."""

    why = "no such object or entry"


class OtherGuardian(ArgusError, ValueError):
    """The object or the action is another guardian's. No call was made. `int(obj)` is the number alone."""

    why = "it is another guardian's"


class Reentered(ArgusError, RuntimeError):
    """The thread is inside a call of the guardian or the log: a signal handler, a `__del__` or a callback, which has
    interrupted that one, wants to make this one. Nothing was done, and the other call goes on."""

    why = "this thread is inside a call of the guardian, or of its log, already"


class Closed(ArgusError):
    """The guardian or the log is closed, or was opened by a process that this one was forked from."""

    why = "the guardian is closed, or it is that of the process from which this one was forked"


class Busy(ArgusError):
    """No checkpoint: an action is live."""

    why = "an action is live"


class Full(ArgusError):
    """No checkpoint: no entry's number is left."""

    why = "no entry's number is left"


class UnknownStatus(ArgusError):
    """The library returned a status that this package doesn't know: their versions differ."""

    def __str__(self) -> str:
        return "the library answered {}".format(*self.args)


class Refused(ArgusError):
    """The guardian has refused the call: no lock was taken, nothing has changed. The journal keeps it."""

    why = "refused"


class NoAction(Refused):
    """The action isn't begun."""

    why = "no such action is begun"


class Over(Refused):
    """The action has committed or is aborted."""

    why = "it has committed or is aborted"


class Suspended(Refused):
    """The action has a live child."""

    why = "it has a live child"


class NoObject(Refused):
    """The object isn't declared."""

    why = "no such object is declared"


class IllTyped(Refused):
    """The operation doesn't suit the object's shape, or its value isn't of the type there."""

    why = "the operation doesn't suit the object's shape, or its value isn't of the type there"


class Conflict(Refused):
    """An action that isn't an ancestor holds a lock that conflicts with this one's.

    If this one would have waited in a circle, `waits_for` has the actions for which: each waits for the next one, or
    for an action around that, and the last one waits for this one. Else it is empty: the patience was over.
    """

    why = "another action holds the object"
    waits_for: tuple[int, ...] = ()


class TooDeep(Refused):
    """The parent has depth 64."""

    why = "it has depth 64"


class TooMany(Refused):
    """No more objects may be declared (65,535), or no more actions begun (1,000,000) until the guardian is renewed."""

    OBJECTS = "65,535 objects are declared, and no more can be"
    ACTIONS = "1,000,000 actions were begun: call checkpoint() or renew() when no action is live"
    why = "65,535 objects are declared, or 1,000,000 actions were begun"


class NoSiblings(Refused):
    """The action has neither parent nor creator."""

    why = "it has neither parent nor creator"


class Signal(ArgusError):
    """Why an operation changed nothing, in place of its answer. The lock was granted all the same."""

    why = "signalled"


class Absent(Signal):
    """The object has no content yet."""

    why = "there is no content yet"


class Exists(Signal):
    """The object has a content already."""

    why = "there is a content already"


class Bounds(Signal, IndexError):
    """No element has this place, or there is none at all."""

    why = "no element has this place, or there is none at all"


class WrongTag(Signal):
    """The variant has another tag."""

    why = "the variant has another tag"


class NegativeSize(Signal):
    """A count below zero."""

    why = "a count below zero"


class Limits(Signal):
    """A bound or the size of an array would leave its limits."""

    why = "a bound or the size of the array would leave its limits"


# By the library's numbers, from 1.
REFUSALS: tuple[type[Refused], ...]
REFUSALS = (NoAction, Over, Suspended, NoObject, IllTyped, Conflict, TooDeep, TooMany, NoSiblings)
SIGNALS: tuple[type[Signal], ...] = (Absent, Exists, Bounds, WrongTag, NegativeSize, Limits)
