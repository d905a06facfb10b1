"""`Held`: a guardian as a host holds it, which answers rows of numbers and texts."""

from __future__ import annotations

from collections.abc import Callable

from argus_guardian.library import Question, Status
from calls import Call
from guardian import LIBRARY, ROOM, Changed, Guardian, NoMemory, Taken
from lists import called_each
from parsing import parsed
from reading import as_bytes
from readying import cancelled, made_ready

NOTHING_TAKEN = Taken(0, 0, 0, 0)
# More allocations than any list makes.
MOST = 1000
COUNTS = (Question.OBJECTS, Question.ACTIONS, Question.ENTRIES, Question.FIRST_ENTRY)


def lines_of(text: bytes) -> str:
    """The text with a bar for each line's end."""
    return text.decode("utf-8", "surrogateescape").replace("\n", "|")


def _call_of(rest: str) -> Call:
    """The call of a row."""
    kind, action, obj, first, second, *text = rest.split(" ", 5)
    return int(kind), int(action), int(obj), int(first), int(second), as_bytes("".join(text))


def barred(text: bytes | None) -> str:
    """The same; `nothing` if it is empty, `none` if there is none."""
    return "none" if text is None else lines_of(text) or "nothing"


class Held:
    """A guardian that a host holds."""

    def __init__(self) -> None:
        self.guardian = Guardian()
        self.taken = NOTHING_TAKEN
        self.asked_before: list[str] = []
        self.answers: dict[str, Callable[[str], str]] = {
            "call": lambda rest: self._told(*self.guardian.call(_call_of(rest))),
            "parsed": lambda rest: self._told(*parsed(self.guardian, _call_of(rest))),
            "tell": self._tell,
            "each": self._each,
            "room": self._room,
            "lines": self._lines,
            "resume": self._resume,
            "resumed": self._resumed,
            "beside": self._beside,
            "make_ready": lambda rest: made_ready(self.guardian, rest),
            "cancel_ready": lambda rest: cancelled(self.guardian, rest, self.picture),
            "checkpoint": lambda _: f"{self.guardian.checkpoint()} 0",
            "renew": lambda _: f"{self.guardian.renew()} 0",
            "abort_live": lambda _: f"{self.guardian.abort_live()} 0",
        }

    def answer(self, asked: str) -> str:
        """The answer to the text before a row's arrow."""
        word, _, rest = asked.partition(" ")
        answer = self.answers[word](rest)
        self.asked_before.append(asked)
        return answer

    def picture(self, asked: str) -> object:
        """What may not change where memory is refused: the text that is kept, and the journal with its counts."""
        guardian = self.guardian
        if asked == "abort_live":
            return guardian.kept()
        lines = guardian.lines(guardian.number(Question.FIRST_ENTRY), ROOM)
        return guardian.kept(), lines, [guardian.number(it) for it in COUNTS]

    def _told(self, status: int, number: int) -> str:
        if status in (Status.VALUE, Status.CONTENT, Status.TEXT):
            return f"{status} {number} {barred(self.guardian.kept())}"
        return f"{status} {number}"

    def _tell(self, rest: str) -> str:
        return self._told(*self.guardian.ask(*map(int, rest.split(" "))))

    def _each(self, rest: str) -> str:
        """Where memory is refused, each allocation of the list is, on copies of this guardian."""
        fault = self._each_refused(rest) if self.guardian.allowed >= 0 else None
        return fault or str(called_each(self.guardian, -1, rest))

    def _each_refused(self, rest: str) -> str | None:
        whole = called_each(self._again(), -1, rest)
        for allowed in range(MOST):
            copy = self._again()
            before, refused = copy.kept(), LIBRARY.refused()
            part = called_each(copy, allowed, rest)
            if LIBRARY.refused() == refused:
                return None if part == whole else f"with just enough memory {part}"
            if part != whole.front(part.made, before):
                return f"with {allowed} allocations {part}"
        return "the list is never made"

    def _again(self) -> Guardian:
        """A guardian that was asked the same."""
        copy = Held()
        for asked in self.asked_before:
            copy.answer(asked)
        return copy.guardian

    def _room(self, rest: str) -> str:
        status, needed, room = self.guardian.reply(int(rest))
        if status not in (Status.DONE, Status.TOO_SMALL):
            return "none" if status == Status.NOT_THERE else f"status {status}"
        return f"{needed} {'too small' if status == Status.TOO_SMALL else ''}{lines_of(room)}"

    def _lines(self, rest: str) -> str:
        lines = self.guardian.lines(*map(int, rest.split(" ")))
        if lines.status not in (Status.DONE, Status.TOO_SMALL):
            return f"{lines.status} {lines.size}"
        return f"{lines.entries} {lines.size}{' ' if lines.room else ''}{lines_of(lines.room)}"

    def _resume(self, rest: str) -> str:
        """Where memory was refused the same text goes on from there. The guardian that is held stays as it is."""
        text = as_bytes(rest.replace(" => ", " -> ").replace("|", "\n"))
        before = self.picture("resume")
        taken = self.guardian.resume(text[self.taken.bytes :])
        self.taken = Taken(self.taken.bytes + taken.bytes, self.taken.lines + taken.lines, *taken[2:])
        if taken.status != Status.NOT_THE_REPLY and self.picture("resume") != before:
            raise Changed
        if taken.status == Status.NO_MEMORY:
            raise NoMemory
        told, self.taken = self.taken, NOTHING_TAKEN
        return " ".join(map(str, told))

    def _resumed(self, _rest: str) -> str:
        status, dropped = self.guardian.resumed()
        return str(dropped) if status == Status.DONE else f"status {status}"

    def _beside(self, _rest: str) -> str:
        self.guardian.go_beside()
        return "0 0"
