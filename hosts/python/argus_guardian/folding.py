"""`Folding`: checkpoints and renewals, those that are asked for and those that a guardian makes by itself."""

from __future__ import annotations

import math
import threading
import time
from collections.abc import Callable

from . import errors
from .calling import LOGGER, Calling
from .entering import looks, one_call
from .library import Question, Status
from .ranges import MOST, seconds, within
from .telling import error_of

# For so many seconds a checkpoint that a guardian makes by itself holds topactions back, if there is no quiet moment.
_HELD = 0.1


class Folding(Calling):
    """Folds of the journal. `_left` is how many calls are left before it is looked whether one is due."""

    def __init__(self, patience: float) -> None:
        super().__init__(patience)
        self._after: int | None = None
        # What holds topactions back for one that is made by itself, and until when.
        self._by_itself, self._held_until = object(), 0.0
        # Up to which entry the program has read the journal, for a log of its own; None if it reads none.
        self._read_to: int | None = None
        # Whether a checkpoint is due as soon as it has read more.
        self._awaits_reader = False

    @property
    def checkpoint_after(self) -> int | None:
        """After how many entries the guardian makes a checkpoint by itself; None: never.

        It makes it when a topaction ends and no action is live. If there is no such moment within as many entries again,
        it holds topactions back, at most a tenth of a second at a time. Of a program that reads the lines of its journal
        it folds no entry that wasn't read, and renews nothing.
        """
        return self._after

    @checkpoint_after.setter
    def checkpoint_after(self, after: int | None) -> None:
        self._after = None if after is None else within(after, 1, MOST, "number of entries")
        # At the end of the next topaction it is looked how many there are.
        self._left = MOST if after is None else 0

    def _fold_if_due(self) -> None:
        """A topaction has ended: folds the journal if that is long and no action is live. Raises nothing."""
        after = self._after
        if after is None:
            self._left = MOST
        elif not self._owners.live or self._left <= -after:
            try:
                self._fold_after(after)
            except errors.ArgusError:
                # A later end tries again.
                self._left = after

    def _fold_after(self, after: int) -> None:
        entries = self._archive.told(Question.ENTRIES)
        self._left = after - (entries - self._archive.told(Question.FIRST_ENTRY))
        self._awaits_reader = self._left <= 0 and self._read_to is not None and self._read_to < entries
        if self._awaits_reader:
            self._left = after // 10 + 1
        elif self._left <= 0 and not self._owners.live:
            self._fold_by_itself(after)
        elif self._left <= -after and self._by_itself not in self._folds:
            self._folds[self._by_itself], self._held_until = 0, time.monotonic() + _HELD

    def _fold_by_itself(self, after: int) -> None:
        """Who reads the journal has the numbers of actions in it, so they don't begin anew."""
        status = self._fold_at_once() if self._read_to is None else self._archive.fold()
        # Busy, if an action is live that was begun by its number alone.
        self._left = after if status == Status.DONE else after // 10 + 1
        LOGGER.debug("a checkpoint by itself: %s", Status(status).name)
        self._let_go()

    def _let_go(self) -> None:
        """Holds topactions back no more."""
        if self._folds.pop(self._by_itself, None) is not None:
            self._wake()

    def _wait_for_folds(self) -> None:
        """Waits for checkpoints of other threads. One of this thread's log waits for this one, and so for ever."""
        after = looks()
        while (limit := self._held_back_until()) is not None:
            if threading.get_ident() in list(self._folds.values()):
                raise errors.Reentered
            self._wait_until(limit, next(after))

    def _held_back_until(self) -> float | None:
        """Until when topactions are held back at most; None if they aren't. Those of a checkpoint by itself are let go then."""
        if self._by_itself in self._folds and time.monotonic() >= self._held_until:
            self._left = (self._after or MOST) // 10 + 1
            self._let_go()
        if not self._folds:
            return None
        return self._held_until if self._by_itself in self._folds else math.inf

    @one_call
    def _held_back_alone(self) -> float | None:
        return self._held_back_until()

    def _note_read(self, entry: int) -> None:
        """The program has read the journal up to this entry."""
        self._read_to = max(self._read_to or 0, entry)
        if self._awaits_reader:
            self._fold_if_due()

    @one_call
    def _note_read_alone(self, entry: int) -> None:
        self._note_read(entry)

    def checkpoint(self, patience: float = 0.0) -> None:
        """Folds the journal's entries when no action is live.

        Until then it holds back each `topaction`, for at most `patience` seconds; then it raises Busy. So
        don't wait here in a thread that has a live action. When half of the numbers for actions are
        used, it also renews the guardian.
        """
        self._fold_waiting(patience, self._fold)

    def renew(self, patience: float = 0.0) -> None:
        """Numbers actions from 0 again, when no action is live; waits as `checkpoint` does.

        Objects keep their numbers, their shapes and their bases, and entries their numbers; the journal's
        entries are folded. From then on the number of an earlier action names another action or none, and
        an `Action` from before is over.
        """
        self._fold_waiting(patience, self._begin_anew)

    @one_call
    def _fold_waiting(self, patience: float, fold: Callable[[], int]) -> None:
        limit, this = time.monotonic() + seconds(patience, "patience"), object()
        after = looks()
        try:
            self._folds[this] = threading.get_ident()
            status = fold()
            while status == Status.BUSY and time.monotonic() < limit:
                self._wait_until(limit, next(after))
                status = fold()
        finally:
            self._folds.pop(this, None)
            self._wake()
        if status != Status.DONE:
            raise error_of(status)

    def _fold(self) -> int:
        self._abort_dropped()
        return self._fold_at_once()

    def _fold_at_once(self) -> int:
        """Folds the journal as it is: it makes no entry before."""
        if self._archive.told(Question.ACTIONS) >= self.MAX_ACTIONS // 2:
            return self._renew_at_once()
        return self._archive.fold()

    def _begin_anew(self) -> int:
        self._abort_dropped()
        return self._renew_at_once()

    def _renew_at_once(self) -> int:
        """Begins anew with the journal as it is: it makes no entry before."""
        try:
            return self._archive.renew()
        finally:
            # An interrupt may have lost the status.
            if self._archive.told(Question.ACTIONS) == 0:
                self._renewals += 1
                # All actions that were begun are over, and their numbers are used again.
                self._owners.live.clear()
                self._begun = 0

