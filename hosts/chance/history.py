"""`History`: what the entries of a journal say, worked out from all of them by the definitions.

Sources: Moss, Nested Transactions, 1981 (ancestors, locks and their inheritance); Argus Reference Manual, 1987
(topactions and nested ones, versions of atomic objects).
"""

from __future__ import annotations

from collections.abc import Iterator
from typing import NamedTuple

from contents import Operation, carried_out, operation_of
from values import Content, Form, content_text, form_of

# The owner of what is there for good, and of what is undone.
BASE, GONE = -1, -2
TESTS, CHANGES = ("test_read", "test_write"), ("alter", "test_write")
ACCESSES = ("ask", "alter", *TESTS)
TOUCH = Operation("touch")


class Call(NamedTuple):
    """A call. A test has the operation that it stands for."""

    verb: str
    action: int = -1
    obj: int = -1
    operation: Operation = TOUCH
    form: Form | None = None


class Entry(NamedTuple):
    """A call of the journal, with its text and its reply."""

    text: str
    call: Call
    reply: str


def call_of(text: str) -> Call:
    """The call that a journal's line spells."""
    verb, *rest = text.split(" ", 3)
    if verb == "declare":
        return Call(verb, form=form_of(rest[0]))
    action, obj = ([int(it[1:]) for it in rest[:2]] + [-1, -1])[:2]
    return Call(verb, action, obj, operation_of(rest[2] if len(rest) > 2 else "touch"))


class History:
    """What entries say, all of them read anew."""

    def __init__(self, entries: list[Entry]) -> None:
        self.forms: list[Form] = []
        self.lineage: dict[int, list[int]] = {}
        self.begun_by: dict[int, int | None] = {}
        self.committed: set[int] = set()
        self.aborted: set[int] = set()
        self.accesses: list[Call] = []
        for entry in entries:
            if not entry.reply.startswith("refused"):
                self._happens(entry.call, entry.reply)
        self.owners = {it: self._owner(it) for it in self.lineage}

    def _happens(self, call: Call, reply: str) -> None:
        if call.verb == "declare" and call.form:
            self.forms.append(call.form)
        elif call.verb.startswith("begin"):
            self._begin(call)
        elif call.verb == "commit":
            self.committed.add(call.action)
        elif call.verb == "abort":
            self.aborted.add(call.action)
        elif call.verb == "abort_others":
            self.aborted.update(self.live_siblings(call.action))
        elif call.verb not in TESTS or reply == "flag true":
            self.accesses.append(call)

    def _begin(self, call: Call) -> None:
        number = len(self.lineage)
        self.begun_by[number] = None if call.verb == "begin_top" else call.action
        self.lineage[number] = [number, *(self.lineage[call.action] if call.verb == "begin_sub" else [])]

    def is_doomed(self, action: int) -> bool:
        """Whether it or an ancestor of it was aborted."""
        return not self.aborted.isdisjoint(self.lineage[action])

    def is_live(self, action: int) -> bool:
        """Whether it was begun, and neither committed nor was aborted."""
        return action in self.lineage and action not in self.committed and not self.is_doomed(action)

    def live(self) -> list[int]:
        """The live actions."""
        return [it for it in self.lineage if self.is_live(it)]

    def has_live_child(self, action: int) -> bool:
        """Whether a live action has it as its parent or its creator."""
        return any(by == action and self.is_live(it) for it, by in self.begun_by.items())

    def live_siblings(self, action: int) -> list[int]:
        """The other live actions that the same action began."""
        by = self.begun_by[action]
        return [it for it in self.live() if by is not None and it != action and self.begun_by[it] == by]

    def status(self, action: int) -> str:
        """The status of an action that is begun."""
        return "aborted" if self.is_doomed(action) else "committed" if action in self.committed else "live"

    def _owner(self, action: int) -> int:
        """Who has what an action did: the first of it and its ancestors that hasn't committed, or the base."""
        if self.is_doomed(action):
            return GONE
        return next((it for it in self.lineage[action] if it not in self.committed), BASE)

    def _holders(self, obj: int, is_writer: bool) -> list[int]:
        """The owners of the accesses that write, or of the others."""
        found = {self.owners[it.action] for it in self.accesses if it.obj == obj and (it.verb in CHANGES) == is_writer}
        return sorted(found - {BASE, GONE})

    def readers(self, obj: int) -> list[int]:
        """Who holds an object for reading."""
        return self._holders(obj, is_writer=False)

    def writers(self, obj: int) -> list[int]:
        """Who holds an object for writing; ancestors come before descendants, since they are begun before."""
        return self._holders(obj, is_writer=True)

    def may_lock(self, action: int, obj: int, is_writer: bool) -> bool:
        """Whether all that hold a lock in its way are ancestors of the action."""
        in_way = self.writers(obj) + (self.readers(obj) if is_writer else [])
        return set(in_way) <= set(self.lineage[action])

    def seen(self, obj: int, action: int | None = None) -> Content:
        """What an action sees in an object: the changes that are there for good, or whose owner is an ancestor.
        Without an action it is the base."""
        counting = {BASE, *(self.lineage[action] if action is not None else [])}
        content: Content = None
        for it in self.accesses:
            if it.obj == obj and it.verb in CHANGES and self.owners[it.action] in counting:
                _, content = carried_out(content, it.operation)
        return content

    def bases(self) -> Iterator[str]:
        """The text of each object's base."""
        return (content_text(self.seen(it)) for it in range(len(self.forms)))

    def versions(self, obj: int) -> list[tuple[int, str]]:
        """Each writer, with the text of what it sees."""
        return [(it, content_text(self.seen(obj, it))) for it in self.writers(obj)]
