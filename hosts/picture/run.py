"""What a listing says, in the form in which it is drawn: actions, locks, accesses, refused calls and commits."""

from __future__ import annotations

from collections.abc import Iterable
from dataclasses import dataclass, field
from enum import Enum

from contents import Content, beginning_of, changed, content_of
from listing import Entry, Listing, Lock

# How many actions have a row at a time, how many objects a lane, and how many locks in a lane are drawn at a time.
MOST_ROWS, MOST_LANES, MOST_STRIPS = 64, 64, 3

# The most letters of a content in the title of a commit: of the first entries, and of those behind them, so that a
# long run's picture stays small.
_EARLY, _EARLY_LETTERS, _LATE_LETTERS = 512, 500, 100


class Fate(Enum):
    """What has become of an action, by the name of its looks. One that committed, and was then undone with an
    ancestor, counts as aborted with it."""

    LIVE = "live"
    COMMITTED = "committed"
    ALONE = "self"
    WITH_ANCESTOR = "ancestor"
    BY_SIBLING = "sibling"


@dataclass(eq=False)
class Action:
    """An action: a subaction has a parent, which gets its locks and changes; a nested topaction only a creator."""

    number: int
    creator: Action | None
    parent: Action | None
    begin: int
    first_line: str
    # None: no row was free when it began, and it isn't drawn.
    row: int | None
    last_line: str = ""
    end: int | None = None
    fate: Fate = Fate.LIVE
    # The live actions that it began, the subactions that committed to it, and the locks that it holds, all in order.
    begun: dict[Action, None] = field(default_factory=dict)
    merged: list[Action] = field(default_factory=list)
    holds: dict[Lock, Hold] = field(default_factory=dict)

    def owner(self) -> Action:
        """The action that has the changes of this one: itself, or the topmost one that commits passed them to."""
        owner = self
        while owner.fate is Fate.COMMITTED and owner.parent:
            owner = owner.parent
        return owner

    def is_below(self, upper: Action) -> bool:
        """Whether the other is an ancestor. Each action is its own ancestor."""
        action: Action | None = self
        while action and action is not upper:
            action = action.parent
        return action is upper


@dataclass(eq=False)
class Hold:
    """A lock that an action held, or holds, and the line that got it."""

    action: Action
    lock: Lock
    line: str
    begin: int
    # None: no strip of the lane was free, and it isn't drawn.
    strip: int | None
    end: int | None = None


@dataclass(eq=False)
class Object:
    """An object: its base, and the changes that aren't in it, each with its action. Those that were undone stay
    until the next commit that changes the base."""

    line: str
    shape: str
    base: Content = None
    changes: list[tuple[Action, str]] = field(default_factory=list)
    strips: list[bool] = field(default_factory=lambda: [False] * MOST_STRIPS)
    holders: dict[Hold, None] = field(default_factory=dict)


@dataclass(frozen=True)
class Access:
    """A single access of an object with a lane."""

    place: int
    line: str
    action: Action
    lock: Lock


@dataclass(eq=False)
class Refused:
    """A refused call: its caller, if that is live; after a Conflict the first holder in the way; and the place of the
    next refused call in the same row."""

    entry: Entry
    caller: Action | None
    holder: Action | None
    next: int | None = None

    @property
    def row(self) -> int | None:
        return self.caller.row if self.caller else None

    @property
    def why(self) -> str:
        return self.entry.reply.removeprefix("refused ")


@dataclass(frozen=True)
class Settling:
    """A topaction's commit that left something in an object with a lane: its number in the serial order, and how
    the base begins then."""

    lane: int
    place: int
    line: str
    order: int
    base: str


class Run:
    """All that the lines of a listing say."""

    def __init__(self, listing: Listing) -> None:
        self.first_entry, self.first_action = listing.first_entry, listing.first_action
        self.entries = len(listing)
        self.objects = [Object(it.line, it.shape, content_of(it.content)) for it in listing.opened]
        self.actions: list[Action] = []
        self.holds: list[Hold] = []
        self.accesses: list[Access] = []
        self.refused: list[Refused] = []
        self.settlings: list[Settling] = []
        # The topactions that committed, nested ones too, in the order of their commits.
        self.serial: list[Action] = []
        # How many rows have actions; how many actions found no row, and how many locks no strip.
        self.rows, self.without_row, self.without_strip = 0, 0, 0
        self._rows = [False] * MOST_ROWS
        self._last_refused: dict[int | None, Refused] = {}
        for entry in listing:
            self._take(entry)

    def _take(self, entry: Entry) -> None:
        self._place, self._line = entry.place, entry.line
        caller = self._live(entry.action)
        if entry.is_refused:
            self._take_refused(entry, caller)
        elif entry.verb == "declare":
            self.objects.append(Object(entry.line, entry.rest))
        elif entry.verb.startswith("begin"):
            self._begin(caller, is_nested=entry.verb == "begin_nested")
        elif caller and entry.lock:
            self._access(caller, entry, entry.lock)
        elif caller and entry.verb == "commit":
            self._commit(caller)
        elif caller:
            self._abort(caller, others=entry.verb == "abort_others")

    def _live(self, number: int | None) -> Action | None:
        """The live action of this number."""
        if number is None or not 0 <= number - self.first_action < len(self.actions):
            return None
        action = self.actions[number - self.first_action]
        return action if action.end is None else None

    def _begin(self, creator: Action | None, is_nested: bool) -> None:
        """The new action's row is the first free one below that of its creator."""
        row = None
        if creator is None:
            row = _first_free(self._rows, 0)
        elif creator.row is not None:
            row = _first_free(self._rows, creator.row + 1)
        if row is None:
            self.without_row += 1
        else:
            self.rows = max(self.rows, row + 1)
            self._rows[row] = True
        number = self.first_action + len(self.actions)
        action = Action(number, creator, None if is_nested else creator, self._place, self._line, row, self._line)
        self.actions.append(action)
        if creator:
            creator.begun[action] = None

    def _access(self, action: Action, entry: Entry, lock: Lock) -> None:
        """An access or a test. A test got the lock only with `flag true`; only the others are drawn."""
        is_test = entry.verb.startswith("test_")
        if not is_test or entry.reply == "flag true":
            self._take_lock(action, lock)
        if not is_test and lock.object < MOST_LANES:
            self.accesses.append(Access(entry.place, entry.line, action, lock))
        if entry.verb == "alter" and not entry.is_signal:
            self.objects[lock.object].changes.append((action, entry.rest))

    def _take_lock(self, action: Action, lock: Lock) -> None:
        """Gives the action this lock, unless it has it already."""
        if lock in action.holds:
            return
        thing = self.objects[lock.object]
        strip = _first_free(thing.strips, 0)
        if strip is None:
            self.without_strip += 1
        else:
            thing.strips[strip] = True
        hold = Hold(action, lock, self._line, self._place, strip)
        action.holds[lock] = hold
        thing.holders[hold] = None
        if lock.object < MOST_LANES:
            self.holds.append(hold)

    def _release(self, hold: Hold) -> None:
        hold.end = self._place
        thing = self.objects[hold.lock.object]
        del hold.action.holds[hold.lock], thing.holders[hold]
        if hold.strip is not None:
            thing.strips[hold.strip] = False

    def _commit(self, action: Action) -> None:
        """The locks go to the parent. Without one they are released, and what the action wrote becomes the base."""
        for hold in list(action.holds.values()):
            self._release(hold)
            if action.parent:
                self._take_lock(action.parent, hold.lock)
            elif hold.lock.writes:
                self._settle(action, hold.lock.object)
        self._end(action, Fate.COMMITTED)
        if action.parent:
            action.parent.merged.append(action)
        else:
            self.serial.append(action)

    def _settle(self, action: Action, number: int) -> None:
        """Makes the changes that the action made, or got, and notes the commit. Those of other live actions wait."""
        thing, waiting = self.objects[number], []
        for change in thing.changes:
            owner = change[0].owner()
            if owner is action:
                thing.base = changed(thing.base, change[1])
            elif owner.fate is Fate.LIVE:
                waiting.append(change)
        thing.changes = waiting
        if number < MOST_LANES:
            letters = _EARLY_LETTERS if self._place < _EARLY else _LATE_LETTERS
            base = beginning_of(thing.base, letters)
            self.settlings.append(Settling(number, self._place, self._line, len(self.serial) + 1, base))

    def _end(self, action: Action, fate: Fate) -> None:
        """Ends the action with this fate. If it had committed before, that stays its end."""
        action.fate = fate
        if action.end is not None:
            return
        action.end, action.last_line = self._place, self._line
        if action.row is not None:
            self._rows[action.row] = False
        if action.creator:
            del action.creator.begun[action]

    def _abort(self, action: Action, others: bool) -> None:
        """Aborts the action, or its live siblings; each with its subactions, theirs, and so on, but not with nested
        topactions. All have their fate before any loses its locks."""
        doomed: list[Action] = []

        def doom(actions: Iterable[Action], fate: Fate) -> None:
            for it in list(actions):
                doomed.append(it)
                self._end(it, fate)

        if not others:
            doom([action], Fate.ALONE)
        elif action.creator:
            doom([it for it in action.creator.begun if it is not action], Fate.BY_SIBLING)
        # The list grows while it is walked.
        for upper in doomed:
            doom([it for it in (*upper.begun, *upper.merged) if it.parent], Fate.WITH_ANCESTOR)
        for it in doomed:
            for hold in list(it.holds.values()):
                self._release(hold)

    def _take_refused(self, entry: Entry, caller: Action | None) -> None:
        call = Refused(entry, caller, None)
        if call.why == "Conflict" and entry.lock and caller:
            call.holder = self._in_the_way(caller, entry.lock)
        if call.row in self._last_refused:
            self._last_refused[call.row].next = entry.place
        self._last_refused[call.row] = call
        self.refused.append(call)

    def _in_the_way(self, action: Action, lock: Lock) -> Action | None:
        """The first holder in the way of the action's lock. Its ancestors aren't in the way."""
        for hold in self.objects[lock.object].holders:
            if (lock.writes or hold.lock.writes) and not action.is_below(hold.action):
                return hold.action
        return None


def _first_free(taken: list[bool], begin: int) -> int | None:
    return next((it for it in range(begin, len(taken)) if not taken[it]), None)
