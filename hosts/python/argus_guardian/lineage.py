"""`Lineage`: an action with those that can't end before it."""

from __future__ import annotations

from typing import NamedTuple


class Lineage(NamedTuple):
    """An action with those that can't end before it."""

    # The action itself and its ancestors, whose locks don't keep it out.
    own: frozenset[int]
    # From the inside: these, up to a topaction; if that is a nested one, then its creator with that one's ancestors,
    # and so on.
    all: tuple[int, ...]
    # Whether all its ancestors are known.
    is_known: bool = True

    @property
    def is_inside(self) -> bool:
        """Whether it is in a nested topaction."""
        return len(self.all) > len(self.own)

    @property
    def age(self) -> tuple[int, int]:
        """By which the youngest is found: its outermost topaction, and then the action itself."""
        return self.all[-1], self.all[0]
