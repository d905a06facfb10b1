"""Circles of accesses that wait for one another.

**An access waits for another one** if that one's action, an ancestor of it, or an action in which it is nested has a
lock that keeps the first one out. For that lock isn't free before the other access is made or refused: an action that
waits doesn't end, nor do those around it. Another thread could abort one of them, by its number or as a sibling; as in
most lock managers, that doesn't count. So a circle is looked for when an access begins to wait, when a subaction ends,
and when an action gets a lock while an access waits inside it.

- An access whose lock is free, or whose action is over, doesn't wait, though its thread hasn't looked yet. Nobody waits
  for a place in a queue: whoever comes gets a lock that is free.
- While an arm of a topaction runs that has written the object, too, its parent's lock counts for no other arm. These
  are looked at when that arm ends.
- Of an action that is known by its number alone the ancestors aren't known: it holds up none of them, and is taken to
  wait for a holder only if that can't be one of them.

**The youngest of a circle is refused**: the one whose outermost topaction has the highest number, and among those in
one topaction the one whose own number is the highest. So the oldest topaction goes on.
"""

from __future__ import annotations

import threading
from collections.abc import Iterator

from .archive import Archive
from .asked import actions_of
from .errors import OutOfMemory
from .library import ActionStatus, Kind, Question, Status
from .lineage import Lineage
from .telling import Call

_TRUE = Status.FLAG, 1
_LIVE = Status.NUMBER, ActionStatus.LIVE


class Wait:
    """An access that waits for its lock."""

    def __init__(self, call: Call, lineage: Lineage, renewals: int) -> None:
        self.call, self.is_reading = call, call[0] < Kind.CREATE
        self.action, self.obj = call[1:3]
        self.lineage = lineage
        # How often the guardian had been renewed when its action was begun.
        self.renewals = renewals
        # Locked as long as it waits. An interrupt (Ctrl-C) may leave it among the others, but not this.
        self.lasts = threading.Lock()
        # For which actions it would wait in a circle, each of which waits for the next one, and the last for this one:
        # then it is refused.
        self.waits_for: tuple[int, ...] = ()


class Waits:
    """The accesses that wait, each with the actions that can't end before it."""

    def __init__(self) -> None:
        # By the number of an action: those that wait in it, or inside it.
        self.within: dict[int, dict[Wait, None]] = {}

    def join(self, wait: Wait) -> None:
        for action in wait.lineage.all:
            self.within.setdefault(action, {})[wait] = None

    def leave(self, wait: Wait) -> None:
        for action in wait.lineage.all:
            others = self.within.get(action, {})
            others.pop(wait, None)
            if not others:
                self.within.pop(action, None)

    def all(self) -> set[Wait]:
        return {wait for waits in self.within.values() for wait in waits}


class Search:
    """One search for a circle. It looks at no accesses but those that the first one waits for, and asks once for the
    holders of each of their objects."""

    def __init__(self, waits: Waits, archive: Archive, renewals: int) -> None:
        self._within, self._archive, self._renewals = waits.within, archive, renewals
        self._told: dict[tuple[int, int], set[int]] = {}

    def circle_with(self, first: Wait) -> list[Wait]:
        """A shortest circle with this one, beginning with its youngest; empty if there is none.

        Each waits for the next one, and the last one for the first.
        """
        # Each with one that waits for it.
        reached, queue = {first: first}, [first] if self._is_stuck(first) else []
        # More come meanwhile.
        for wait in queue:
            for other in self._kept_by(wait):
                if other is first:
                    return _from_youngest(_way_to(wait, reached))
                if other not in reached and self._is_stuck(other):
                    reached[other] = wait
                    queue.append(other)
        return []

    def names(self, circle: list[Wait]) -> tuple[int, ...]:
        """The actions for which the first one of a circle would wait."""
        if len(circle) > 1:
            return tuple(it.action for it in circle[1:])
        # It is nested, and waits for an action around it, which waits for its end.
        in_way = self._in_way(circle[0])
        return tuple(it for it in circle[0].lineage.all if it in in_way)[:1]

    def _is_stuck(self, wait: Wait) -> bool:
        """Whether it waits, and neither is it refused nor its action over."""
        return (
            wait.lasts.locked()
            and not wait.waits_for
            and wait.renewals == self._renewals
            and self._archive.ask(Question.ACTION_STATUS, wait.action) == _LIVE
        )

    def _kept_by(self, wait: Wait) -> Iterator[Wait]:
        """Those that have to be made or refused before what keeps this one out can end."""
        for holder in sorted(self._in_way(wait)):
            yield from self._within.get(holder, ())

    def _in_way(self, wait: Wait) -> set[int]:
        """The actions whose locks keep it out: the innermost one that has written its object, else the readers.

        Those who read what another one has written are the writer's ancestors and descendants.
        """
        writers = self._holders(Question.VERSIONS, wait.obj)
        others = self._others({max(writers)} if writers else set(), wait)
        if others or wait.is_reading:
            return others
        return self._others(self._holders(Question.READERS, wait.obj), wait)

    def _others(self, holders: set[int], wait: Wait) -> set[int]:
        """Those of its object's holders that it waits for."""
        others = holders - wait.lineage.own
        if wait.lineage.is_known:
            return others
        return {it for it in others if not self._may_be_ancestor(it, wait)}

    def _may_be_ancestor(self, holder: int, wait: Wait) -> bool:
        """Whether this one may be its ancestor: that is older, and suspended, so it couldn't read what it holds."""
        return holder < wait.action and self._archive.ask(Question.CAN_READ, holder, wait.obj) != _TRUE

    def _holders(self, question: int, obj: int) -> set[int]:
        if (question, obj) not in self._told:
            self._told[question, obj] = holders_of(self._archive, question, obj)
        return self._told[question, obj]


def holders_of(archive: Archive, question: int, obj: int) -> set[int]:
    """The numbers of the actions that hold an object, by this question. Empty if there is no memory for them."""
    try:
        return set(actions_of(archive.told(question, obj=obj)))
    except OutOfMemory:
        return set()


def _way_to(last: Wait, reached: dict[Wait, Wait]) -> list[Wait]:
    """From the first one that was reached to the last one."""
    way = [last]
    while reached[way[-1]] is not way[-1]:
        way.append(reached[way[-1]])
    return way[::-1]


def _from_youngest(circle: list[Wait]) -> list[Wait]:
    """The same circle, beginning with its youngest."""
    place = max(range(len(circle)), key=lambda it: circle[it].lineage.age)
    return circle[place:] + circle[:place]
