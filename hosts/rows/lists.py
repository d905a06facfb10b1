"""Lists of calls, as rows spell them, and what came of them."""

from __future__ import annotations

from typing import NamedTuple

from argus_guardian.library import ListedCall, Question, Status
from guardian import Guardian
from reading import as_bytes

# What is in a call's status and number until it has an outcome.
UNTOLD = (99, 99)
ENDS = {Status.DONE: "whole:", Status.UNMET: "unmet:"}
WITHOUT_MEMORY = (Status.NO_MEMORY, 0)


class Made(NamedTuple):
    """How many calls were made, why no more, the outcome of each, the text that is kept, and how many entries came."""

    made: int
    end: str
    outcomes: list[tuple[int, int]]
    kept: bytes | None
    entries: int

    def __str__(self) -> str:
        told = ("-," if it == UNTOLD else f"{it[0]} {it[1]}," for it in self.outcomes)
        kept = "none" if self.kept is None else self.kept.decode().replace("\n", "|") or "nothing"
        return " ".join([str(self.made), self.end, *told, kept])

    def front(self, count: int, before: bytes | None) -> Made:
        """The same if there is no memory after so many calls; `before` is what was kept before the list."""
        made = self.outcomes[:count]
        texts = sum(status in (Status.VALUE, Status.CONTENT) for status, _ in made)
        lines = (self.kept or b"").splitlines(keepends=True)
        outcomes = [*made, WITHOUT_MEMORY, *[UNTOLD] * (len(self.outcomes) - count - 1)]
        return Made(count, "failed:", outcomes, b"".join(lines[:texts]) if made else before, count)


def called_each(guardian: Guardian, allowed: int, row: str) -> Made:
    """Makes the calls of a row with so many allocations; below 0 any number."""
    listed = [_call_of(it) for it in row.split(" ; ")]
    calls = (ListedCall * len(listed))(*listed)
    entries = guardian.number(Question.ENTRIES)
    guardian.allowed = allowed
    status, count = guardian.call_each(calls)
    guardian.allowed = -1
    outcomes = [(it.status, it.number) for it in calls]
    added = guardian.number(Question.ENTRIES) - entries
    return Made(count, ENDS.get(status, "failed:"), outcomes, guardian.kept(), added)


def _call_of(part: str) -> ListedCall:
    """A kind is `4`, or `4/1` with a demand; an action `7`, or `#1` for that of the first call."""
    head, action, obj, first, second, *text = part.split(" ", 5)
    kind, _, demand = head.partition("/")
    begun_by = int(action[1:]) if action.startswith("#") else 0
    words = as_bytes("".join(text))
    return ListedCall(
        int(kind), int(demand or "0"), 0 if begun_by else int(action), begun_by, int(obj), UNTOLD[0],
        int(first), int(second), UNTOLD[1], words, len(words),
    )  # fmt: skip
