"""`Sequence`: calls by chance, made to two guardians, of which each has to answer as the definitions say."""

from __future__ import annotations

from itertools import zip_longest
from random import Random
from typing import NamedTuple

from alone import Alone, in_another_form
from answers import answer, may_have
from any_call import DEEP, Maker, once_in
from guardian import NoMemory
from history import Entry, History, call_of
from resuming import Wrong, come_back, take_front

# A question of a row (hosts/rows), and the answer that is wanted.
Question = tuple[str, str]


class Opening(NamedTuple):
    """Where a folded journal begins: its lines, and how many entries and actions they stand for."""

    lines: list[str]
    entries: int = 0
    actions: int = 0


def listed(lines: list[str]) -> str:
    """Lines as a row has them."""
    return " ".join(f"{it} |" for it in lines) or "nothing"


def must_answer(alone: Alone, asked: str, wanted: str) -> None:
    """The guardian gives this answer. Wrong, with the first line that differs, if it gives another one; NoMemory as its
    call."""
    got = alone.answer(asked)
    if got != wanted:
        lines = zip_longest(wanted.split(" | "), got.split(" | "), fillvalue="no line")
        here, there = next((one, other) for one, other in lines if one != other)
        raise Wrong(f"{asked}\n  wanted {here}\n  got    {there}")


def states(history: History, length: int) -> list[Question]:
    """What is asked of a guardian that has so many entries, after each call."""
    lines = []
    for obj, base in enumerate(history.bases()):
        readers = " ".join(f"a{it}" for it in history.readers(obj)) or "none"
        lines += [f"o{obj} base {base}", f"o{obj} readers {readers}", *version_lines(history, obj)]
    return [("list stacks", listed(lines)), ("length", str(length)), ("actions", str(len(history.lineage)))]


def version_lines(history: History, obj: int) -> list[str]:
    """The lines of an object's versions."""
    return [f"o{obj} version a{holder} {content}" for holder, content in history.versions(obj)]


def audit(history: History, length: int) -> list[str]:
    """The lines of the listing `audit`."""
    lines = []
    for obj, base in enumerate(history.bases()):
        lines += [f"o{obj} base {base}", *version_lines(history, obj)]
    return [*lines, f"entries {length}"]


class Sequence:
    """Two guardians to which the same calls are made. The first one is left alone; the second one's journal is folded
    now and then, and now and then it is refused memory; its calls come in another form. Their replies and bases have to
    be the same."""

    def __init__(self, seed: int) -> None:
        self.chance = Random(seed)
        self.entries: list[Entry] = []
        self.history = History([])
        self.states = states(self.history, 0)
        self.whole, self.folding = Alone(), Alone(in_another_form)
        self.opening = Opening([])
        is_deep = once_in(self.chance, 50)
        self.length = 100 if is_deep else 20 + self.chance.randrange(50)
        self.maker = Maker(self.chance, DEEP if is_deep else 1 + self.chance.randrange(7))

    def run(self) -> None:
        """Makes its calls. Wrong at the first difference."""
        for _ in range(self.length):
            if once_in(self.chance, 8):
                self._checkpoint()
            self._make(self.maker.text(self.history))
        self._end(self.whole, Opening([]))
        self._end(self.folding, self.opening)

    def _make(self, text: str) -> None:
        """Makes a call, which gets the reply of the definitions, and leaves what they say."""
        call = call_of(text)
        wanted = answer(self.history, call)
        must_answer(self.whole, text, wanted)
        self._make_folding(text, wanted)
        self.entries.append(Entry(text, call, wanted))
        self.history = History(self.entries)
        self.states = states(self.history, len(self.entries))
        self._compare()

    def _make_folding(self, text: str, wanted: str) -> None:
        """Makes the call to the second guardian, perhaps first with few allocations; a refusal changes nothing."""
        if once_in(self.chance, 4):
            try:
                self.folding.guardian.allowed = self.chance.randrange(4)
                must_answer(self.folding, text, wanted)
                return
            except NoMemory:
                self.folding.guardian.allowed = -1
                self._compare_states(self.folding)
            finally:
                self.folding.guardian.allowed = -1
        must_answer(self.folding, text, wanted)

    def _checkpoint(self) -> None:
        """Folds the second one's journal, if no action is live."""
        must_answer(self.folding, "checkpoint", "Busy" if self.history.live() else "done")
        if self.entries and not self.history.live():
            entries, actions = len(self.entries), len(self.history.lineage)
            lines = [f"opening entries {entries} actions {actions}"]
            bases = enumerate(zip(self.maker.shapes, self.history.bases()))
            lines += [f"opening o{obj} {shape} {base}" for obj, (shape, base) in bases]
            self.opening = Opening(lines, entries, actions)
        self._compare_states(self.folding)

    def _compare(self) -> None:
        """Both have what the definitions say; of one of them it is asked of an object and an action in all ways."""
        self._compare_states(self.whole)
        self._compare_states(self.folding)
        alone, opening = self.chance.choice([(self.whole, Opening([])), (self.folding, self.opening)])
        obj = self.chance.randrange(len(self.history.forms) + 1)
        action = self.chance.randrange(len(self.history.lineage) + 1)
        for asked, wanted in [*self._of_object(obj), *self._of_action(action, opening), *self._locks(action, obj)]:
            must_answer(alone, asked, wanted)

    def _compare_states(self, alone: Alone) -> None:
        for asked, wanted in self.states:
            must_answer(alone, asked, wanted)

    def _of_object(self, obj: int) -> list[Question]:
        history = self.history
        words = ("shape", "base", "readers", "versions")
        if obj >= len(history.forms):
            return [(f"{it} o{obj}", "undeclared") for it in words]
        base = list(history.bases())[obj]
        readers = " ".join(f"a{it}" for it in history.readers(obj))
        versions = " ".join(f"a{holder} {content}" for holder, content in history.versions(obj))
        answers = (self.maker.shapes[obj], base, readers or "none", versions or "none")
        return [(f"{word} o{obj}", it) for word, it in zip(words, answers)]

    def _of_action(self, action: int, opening: Opening) -> list[Question]:
        """Its status, and the first live action from there on."""
        begun = action in self.history.lineage
        status = "folded" if action < opening.actions else self.history.status(action) if begun else "unbegun"
        later = [f"a{it}" for it in self.history.live() if it >= action]
        return [(f"status a{action}", status), (f"live a{action}", (later or ["none"])[0])]

    def _locks(self, action: int, obj: int) -> list[Question]:
        found = [(word, may_have(self.history, action, obj, word == "can_write")) for word in ("can_read", "can_write")]
        return [(f"{word} a{action} o{obj}", str(it).lower()) for word, it in found]

    def _end(self, alone: Alone, opening: Opening) -> None:
        """The statuses of all actions, the listings, and what comes back of them."""
        for action in range(len(self.history.lineage) + 1):
            for asked, wanted in self._of_action(action, opening):
                must_answer(alone, asked, wanted)
        entries = [f"{at} {it.text} -> {it.reply}" for at, it in enumerate(self.entries)]
        must_answer(alone, "first_entry", str(opening.entries))
        must_answer(alone, "list audit", listed(audit(self.history, len(entries))))
        must_answer(alone, "list journal", listed([*opening.lines, *entries[opening.entries :]]))
        listing = alone.guardian.listing()
        come_back(listing)
        take_front(listing, self.chance.randrange(len(listing)))
        alone.guardian.close()
