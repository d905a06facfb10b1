"""`Asked`: questions to a guardian, which make no entry in the journal."""

from __future__ import annotations

from typing import Any

from . import errors
from .ids import Ids, number_of
from .library import ActionStatus, Question
from .objects import Object
from .ranges import U64, within
from .shapes import Shape, read_shape
from .values import AnyObject, object_number, read_content

_LISTINGS = {
    "bases": Question.LIST_BASES,
    "stacks": Question.LIST_STACKS,
    "journal": Question.LIST_JOURNAL,
    "audit": Question.LIST_AUDIT,
}


class Asked:
    """Questions to a guardian, which make no entry in the journal. A `Guardian` implements `_tell`."""

    # How many actions a guardian begins until it is renewed.
    MAX_ACTIONS = 1_000_000

    def __init__(self) -> None:
        self._ids = Ids()
        # The shapes of objects, by their numbers; those that were asked for.
        self._shapes: dict[int, Shape] = {}

    def _note_read_alone(self, entry: int) -> None:
        """The program has read the journal up to this entry."""

    def _tell(self, question: int, obj: int = 0, entry: int = 0, action: int = 0) -> Any:
        """The result of a question."""
        raise NotImplementedError

    @property
    def objects(self) -> int:
        """How many objects are declared."""
        return self._tell(Question.OBJECTS)

    @property
    def actions(self) -> int:
        """How many actions are begun: the next one's number."""
        return self._tell(Question.ACTIONS)

    @property
    def actions_left(self) -> int:
        """How many actions can still be begun, before a renewal."""
        return self.MAX_ACTIONS - self.actions

    def status(self, action: int) -> str | None:
        """The state of an action: `live`, `committed`, `aborted` or `folded`; None if it isn't begun.

        One that was over at the last checkpoint is `folded`.
        """
        try:
            number = number_of(action, self._ids, "action")
            return ActionStatus(self._tell(Question.ACTION_STATUS, action=number)).name.lower()
        except errors.NotThere:
            return None

    def live(self, start: int = 0) -> int | None:
        """The first live action from this number on; None if there is none."""
        try:
            return self._tell(Question.FIRST_LIVE, action=number_of(start, self._ids, "action"))
        except errors.NotThere:
            return None

    @property
    def first_entry(self) -> int:
        """The number of the journal's first entry: the number that was next at the last checkpoint."""
        return self._tell(Question.FIRST_ENTRY)

    @property
    def entries(self) -> int:
        """How many entries the journal has had: the next one's number."""
        return self._tell(Question.ENTRIES)

    def base(self, obj: AnyObject) -> Any:
        """The object's base: what the committed topactions have left in it; None if it has no content yet."""
        return read_content(self._tell(Question.BASE, object_number(obj, self._ids)))

    def shape(self, obj: AnyObject) -> str:
        """The shape with which the object was declared."""
        return self._tell(Question.SHAPE, object_number(obj, self._ids))

    def shape_of(self, obj: AnyObject) -> Shape:
        """The same, parsed: its kind and its names. An object keeps its shape, so it is asked for once."""
        number = object_number(obj, self._ids)
        if isinstance(obj, Object):
            return obj.shape
        if number not in self._shapes:
            self._shapes[number] = read_shape(self.shape(number))
        return self._shapes[number]

    def get(self, obj: AnyObject) -> Any:
        """The object's base by names, as `Action.get` has it: `guardian.get(seat).taken`; None as for `base`."""
        return self.shape_of(obj).read(self.base(obj))

    def readers(self, obj: AnyObject) -> list[int]:
        """The actions that hold the object for reading, in increasing number."""
        return actions_of(self._tell(Question.READERS, object_number(obj, self._ids)))

    def versions(self, obj: AnyObject) -> list[tuple[int, Any]]:
        """The actions that hold the object for writing, from ancestor to descendant, each with what it sees."""
        lines = _lines(self._tell(Question.VERSIONS, object_number(obj, self._ids)))
        pairs = (line.split(" ", 1) for line in lines)
        return [(int(holder[1:]), read_content(content)) for holder, content in pairs]

    def entry(self, number: int) -> str:
        """The line of a journal's entry. NotThere if a checkpoint has folded it."""
        line: str = self._tell(Question.ENTRY, entry=within(number, 0, U64, "entry"))
        self._note_read_alone(number + 1)
        return line

    def list(self, listing: str) -> str:
        """A listing: of `bases`, `stacks`, `journal` or `audit`."""
        if listing not in _LISTINGS:
            raise errors.BadKind(f"no listing is called {listing!r}: {', '.join(_LISTINGS)} are")
        return self._tell(_LISTINGS[listing])


def actions_of(text: str) -> list[int]:
    """The numbers of the actions with which the lines begin, as in a7."""
    return [int(line.split(" ", 1)[0][1:]) for line in _lines(text)]


def _lines(text: str) -> list[str]:
    """The lines of a text. Only a line feed ends one: texts in values may have other ends of lines."""
    return [line for line in text.split("\n") if line]
