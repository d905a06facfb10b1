"""`Walk`: makes the calls of a script, as the rules of running say, and gives each the reply of the definitions."""

from __future__ import annotations

from typing import NamedTuple

from answers import answer
from draft import ACCESSES, OBJECTS
from history import Entry, History, call_of

ARMS = ("action", "topaction")


class Step(NamedTuple):
    """A line of a script, with the steps of its block, or the arms of its coenter."""

    line: str
    inside: list[Step]


class Left(Exception):
    """No further line of the innermost `enter` block or arm is run."""


def steps_of(lines: list[str]) -> list[Step]:
    """The steps of a whole script."""
    return _steps(lines[::-1], ends=())


def _steps(lines: list[str], ends: tuple[str, ...]) -> list[Step]:
    """The steps until one of these lines comes; the last of the lines is the next one."""
    found = []
    while lines and lines[-1] not in ends:
        line = lines.pop()
        if line.startswith(("enter", "if")):
            found.append(Step(line, _steps(lines, ("end",))))
            lines.pop()
        else:
            found.append(Step(line, _arms(lines) if line == "coenter" else []))
    return found


def _arms(lines: list[str]) -> list[Step]:
    found = []
    while (line := lines.pop()) != "end":
        found.append(Step(line, _steps(lines, ("end", *ARMS))))
    return found


class Walk:
    """The calls that were made, with their replies."""

    def __init__(self) -> None:
        self.entries: list[Entry] = []

    def lines(self) -> list[str]:
        """The journal's lines."""
        return [f"{at} {it.text} -> {it.reply}" for at, it in enumerate(self.entries)]

    def call(self, text: str) -> str:
        """Makes a call: its reply."""
        call = call_of(text)
        reply = answer(History(self.entries), call)
        self.entries.append(Entry(text, call, reply))
        return reply

    def run(self, steps: list[Step], action: int | None = None) -> None:
        """Runs the steps of a block, or of the whole script. Left where its block has ended before its last line."""
        for step in steps:
            first, _, rest = step.line.partition(" ")
            if first == "declare":
                self.call(f"declare {rest.partition(' ')[2]}")
            elif first == "enter":
                self._run_begun(step, self._begin(rest, action))
            elif first == "coenter":
                begun = [self._begin(arm.line, action) for arm in step.inside]
                for arm, number in zip(step.inside, begun):
                    self._run_begun(arm, number)
            elif action is not None:
                self._run_in(step, action)

    def _begin(self, kind: str, action: int | None) -> int | None:
        """Begins an action within this one, if there is one: its number, or None if that is refused."""
        nested = "begin_sub" if kind == "action" else "begin_nested"
        reply = self.call("begin_top" if action is None else f"{nested} a{action}")
        return None if reply.startswith("refused") else int(reply[1:])

    def _run_begun(self, step: Step, action: int | None) -> None:
        """Runs a block or an arm whose begin wasn't refused, which commits at its end."""
        if action is None:
            return
        try:
            self.run(step.inside, action)
            self._ask_for(f"commit a{action}", action)
        except Left:
            pass

    def _run_in(self, step: Step, action: int) -> None:
        """Runs a line of an action that begins none."""
        if step.line.startswith("if "):
            _, test, name = step.line.split()
            if self._ask_for(f"{test} a{action} o{OBJECTS.index(name)}", action) == "flag true":
                self.run(step.inside, action)
        elif step.line in ACCESSES:
            verb, rest = ACCESSES[step.line]
            self._ask_for(f"{verb} a{action} {rest}", action)
        else:
            if step.line == "leave all":
                self._ask_for(f"abort_others a{action}", action)
            self._ask_for(f"{'abort' if step.line == 'abort leave' else 'commit'} a{action}", action)
            raise Left

    def _ask_for(self, text: str, action: int) -> str:
        """Makes a call of an action: its reply. A refusal ends its block, by an abort unless the action is over or was
        never begun."""
        reply = self.call(text)
        if reply.startswith("refused"):
            if reply not in ("refused NoAction", "refused Over"):
                self.call(f"abort a{action}")
            raise Left
        return reply
