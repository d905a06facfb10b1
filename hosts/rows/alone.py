"""`Alone`: a guardian by itself, which answers rows."""

from __future__ import annotations

from collections.abc import Callable

from argus_guardian.library import ActionStatus, Question, Status
from calls import Call, call_of, in_numbers, reply_of
from guardian import Guardian, opened
from parsing import parsed

LATER = b"opening entries 6 actions 3\nopening o0 atomic_record[balance:int] {7}\n"
COUNTS = {
    "objects": Question.OBJECTS,
    "actions": Question.ACTIONS,
    "length": Question.ENTRIES,
    "first_entry": Question.FIRST_ENTRY,
}
OF_OBJECT = {
    "shape": Question.SHAPE,
    "base": Question.BASE,
    "readers": Question.READERS,
    "versions": Question.VERSIONS,
}
LISTINGS = {
    "bases": Question.LIST_BASES,
    "stacks": Question.LIST_STACKS,
    "journal": Question.LIST_JOURNAL,
    "audit": Question.LIST_AUDIT,
}
OF_LOCK = {"can_read": Question.CAN_READ, "can_write": Question.CAN_WRITE}
STATUSES: dict[int, str] = {status: status.name.lower() for status in ActionStatus}
CHECKPOINTS = {Status.DONE: "done", Status.BUSY: "Busy", Status.FULL: "Full"}


def shown(text: bytes | None) -> str:
    """The text, for people and rows."""
    return "no text" if text is None else text.decode("utf-8", "surrogateescape")


def in_another_form(guardian: Guardian, call: Call) -> tuple[int, int]:
    """Makes a call with its value as a number, or else reads it before."""
    other = in_numbers(call)
    return parsed(guardian, call) if other is None else guardian.call(other)


class Alone:
    """A guardian by itself."""

    def __init__(self, make: Callable[[Guardian, Call], tuple[int, int]] = Guardian.call) -> None:
        self.guardian, self.make = Guardian(), make
        self.answers: dict[str, Callable[[str], str]] = {
            "checkpoint": self._checkpoint,
            "abort_live": self._abort_live,
            "later": self._later,
            "list": self._list,
            "entry": self._entry,
            "status": self._status,
            "live": self._live,
        }

    def answer(self, asked: str) -> str:
        """The answer to the text before a row's arrow."""
        word, _, rest = asked.partition(" ")
        if word in self.answers:
            return self.answers[word](rest)
        if word in COUNTS:
            return str(self.guardian.ask(COUNTS[word])[1])
        if word in OF_OBJECT:
            return self._of_object(word, int(rest[1:]))
        if word in OF_LOCK:
            action, obj = rest.split(" ")
            return ("false", "true")[self.guardian.ask(OF_LOCK[word], int(action[1:]), int(obj[1:]))[1]]
        return self._call(asked)

    def picture(self, _asked: str) -> object:
        """What may not change where memory is refused: all that there is."""
        guardian = self.guardian
        return guardian.listing(), guardian.text(Question.LIST_STACKS), guardian.number(Question.ACTIONS)

    def _call(self, asked: str) -> str:
        """The reply. Where memory is refused in turn, the entry's line has to have the call as the row does."""
        call = call_of(asked)
        status, number = self.make(self.guardian, call)
        text = self.guardian.kept() if status in (Status.VALUE, Status.CONTENT) else b""
        reply = reply_of(call[0], status, number, text or b"no text")
        if self.guardian.allowed >= 0:
            entry = self.guardian.number(Question.ENTRIES) - 1
            line = shown(self.guardian.text(Question.ENTRY, entry=entry))
            if line != f"{entry} {asked} -> {reply}":
                return f"{reply}, but its entry is {line}"
        return reply

    def _checkpoint(self, _rest: str) -> str:
        status = self.guardian.checkpoint()
        return CHECKPOINTS.get(status, f"status {status}")

    def _abort_live(self, _rest: str) -> str:
        status = self.guardian.abort_live()
        return "done" if status == Status.DONE else f"status {status}"

    def _later(self, _rest: str) -> str:
        """From here on it is another guardian, which goes on where one ended."""
        allowed, self.guardian = self.guardian.allowed, opened(LATER)
        self.guardian.allowed = allowed
        return "done"

    def _list(self, listing: str) -> str:
        status, _ = self.guardian.ask(LISTINGS[listing])
        text = shown(self.guardian.kept() if status == Status.TEXT else None)
        return text.replace("\n", " | ").rstrip() or "nothing"

    def _entry(self, entry: str) -> str:
        status, _ = self.guardian.ask(Question.ENTRY, entry=int(entry))
        return shown(self.guardian.kept()) if status == Status.TEXT else "none"

    def _status(self, action: str) -> str:
        status, number = self.guardian.ask(Question.ACTION_STATUS, action=int(action[1:]))
        return STATUSES.get(number, str(number)) if status == Status.NUMBER else "unbegun"

    def _live(self, action: str) -> str:
        status, number = self.guardian.ask(Question.FIRST_LIVE, action=int(action[1:]))
        return f"a{number}" if status == Status.ACTION else "none"

    def _of_object(self, word: str, obj: int) -> str:
        status, _ = self.guardian.ask(OF_OBJECT[word], obj=obj)
        if status != Status.TEXT:
            return "undeclared"
        return " ".join(shown(self.guardian.kept()).splitlines()) or "none"
