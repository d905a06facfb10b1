"""A journal's listing that `replay` has confirmed, in the parts that are drawn. So no line is checked here."""

from __future__ import annotations

import re
from collections.abc import Iterator
from dataclasses import dataclass

# A text value, in which an arrow is none; or the arrow between a call and its reply.
_TEXT_OR_ARROW = re.compile(r'"[^"\\]*(?:\\.[^"\\]*)*"| -> ')

_WRITING = {"ask": False, "test_read": False, "alter": True, "test_write": True}


@dataclass(frozen=True)
class Lock:
    """The lock that a call asks for."""

    object: int
    writes: bool


@dataclass(frozen=True)
class Entry:
    """A call with its reply. Its place counts from 0, whatever the journal's opening says.

    `action` is the action that makes the call, and `rest` what the call says behind action and object.
    """

    place: int
    line: str
    verb: str
    action: int | None
    lock: Lock | None
    rest: str
    reply: str

    @property
    def is_refused(self) -> bool:
        return self.reply.startswith("refused ")

    @property
    def is_signal(self) -> bool:
        return self.reply.startswith("signal ")


@dataclass(frozen=True)
class Opened:
    """An object of the opening."""

    line: str
    shape: str
    content: str


class Listing:
    """The lines of a listing: how many entries and actions its opening stands for, its objects, and its entries."""

    def __init__(self, text: str) -> None:
        lines = text.split("\n")[:-1]
        opening = [it for it in lines if it.startswith("opening ")]
        self.first_entry, self.first_action = 0, 0
        if opening:
            _, _, entries, _, actions = opening[0].split(" ")
            self.first_entry, self.first_action = int(entries), int(actions)
        self.opening_lines = len(opening)
        self.opened = [Opened(it, *it.split(" ", 3)[2:]) for it in opening[1:]]
        self._lines = lines[len(opening) :]

    def __len__(self) -> int:
        return len(self._lines)

    def __iter__(self) -> Iterator[Entry]:
        return (_entry(place, line) for place, line in enumerate(self._lines))


def _entry(place: int, line: str) -> Entry:
    arrow = next(it for it in _TEXT_OR_ARROW.finditer(line) if it[0] == " -> ")
    reply = line[arrow.end() :]
    _, verb, *words = line[: arrow.start()].split(" ", 2)
    rest = words[0] if words else ""
    if verb in ("declare", "begin_top"):
        return Entry(place, line, verb, None, None, rest, reply)
    action, _, rest = rest.partition(" ")
    if verb not in _WRITING:
        return Entry(place, line, verb, int(action[1:]), None, rest, reply)
    name, _, rest = rest.partition(" ")
    return Entry(place, line, verb, int(action[1:]), Lock(int(name[1:]), _WRITING[verb]), rest, reply)
