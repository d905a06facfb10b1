"""`Owners`: which actions of a guardian the program still has a reference to."""

from __future__ import annotations

import collections
from collections.abc import Iterator
from typing import TYPE_CHECKING
from weakref import ref

if TYPE_CHECKING:
    from .action import Action


class Owners:
    """The live actions of a guardian, and those that were dropped without an end.

    The program may drop an `Action` without ending it: it forgot it, or an interrupt (Ctrl-C) came
    between its begin and its `with` block. Then the weak reference to it goes to `dropped`. A function of
    the interpreter puts it there, not a `__del__`, in which an interrupt would be lost.
    """

    def __init__(self) -> None:
        # By their numbers. `drop` is called for each weak reference when its action is dropped. A None is that of
        # a commit that was made ready: if it still is, the next call cancels it.
        self.live: dict[int, ref[Action]] = {}
        self.dropped: collections.deque[ref[Action] | None] = collections.deque()
        self.drop = self.dropped.append

    def take_dropped(self) -> Iterator[int]:
        """The numbers of the dropped actions. Each is yielded until it is removed."""
        numbers = {id(owner): number for number, owner in self.live.items()}
        while self.dropped:
            number = numbers.get(id(self.dropped[0]))
            if number is not None:
                yield number
                self.live.pop(number, None)
            self.dropped.popleft()
