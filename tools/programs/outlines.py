"""Outlines of scripts, and whether a journal is that of a run of one by a single worker.

An outline has a line for each step, with two spaces for each block or arm around it; objects, fields and tags
are numbers:

| Line | Step |
|---|---|
| `declare o0 NAME SHAPE` | a declaration |
| `ask o0 QUERY`, `alter o0 CHANGE` | an access, its operation as in a journal's line |
| `leave`, `abort leave`, `leave all` | the end of an action |
| `enter topaction`, `enter action`, `if test_read o0`, `if test_write o0`, `coenter` | a block |
| `topaction`, `action` | an arm |
"""

from dataclasses import dataclass, field

# After these there is nothing to abort.
OVER = ("refused Over", "refused NoAction")


@dataclass
class Step:
    """A step, and for a block or an arm the steps in it."""

    text: str
    steps: list["Step"] = field(default_factory=list)


def outline_of(text: str) -> list[Step]:
    """The steps that an outline describes."""
    top = Step("")
    around = [top]
    for line in text.split("\n")[:-1]:
        words = line.lstrip(" ")
        depth = (len(line) - len(words)) // 2
        del around[depth + 1 :]
        step = Step(words)
        around[-1].steps.append(step)
        around.append(step)
    return top.steps


class Differs(Exception):
    """A journal isn't that of a run of the outline."""


class Follower:
    """Follows a journal, entry by entry, along an outline: each call has to be that of the next step, and
    which step comes next depends on the replies."""

    def __init__(self, journal: str) -> None:
        self.entries = journal.split("\n")[:-1]
        self.at = 0

    def follow(self, steps: list[Step]) -> None:
        """Follows the whole journal. Differs: it is that of another script."""
        self.run("", steps)
        if self.at != len(self.entries):
            raise Differs(f"no step has led to {self.entries[self.at]}")

    def reply_to(self, call: str) -> str:
        """The reply of the next entry, which has to be this call's."""
        entry = self.entries[self.at] if self.at < len(self.entries) else "the end"
        wanted = f"{self.at} {call} -> "
        if not entry.startswith(wanted):
            raise Differs(f"{entry} in place of {wanted}..")
        self.at += 1
        return entry.removeprefix(wanted)

    def run(self, action: str, steps: list[Step]) -> bool:
        """Follows these steps of an action. Whether it goes on behind them."""
        return all(self.goes_on(action, step) for step in steps)

    def goes_on(self, action: str, step: Step) -> bool:
        """Follows a step. Whether the action goes on behind it."""
        word, _, text = step.text.partition(" ")
        if word in ("ask", "alter"):
            return self.is_taken(action, self.reply_to(f"{word} {action} {text}"))
        if word == "if":
            test, _, item = text.partition(" ")
            reply = self.reply_to(f"{test} {action} {item}")
            return self.run(action, step.steps) if reply == "flag true" else self.is_taken(action, reply)
        if word in ("enter", "coenter"):
            arms = step.steps if word == "coenter" else [Step(text, step.steps)]
            begun = [(self.begin(action, arm.text), arm) for arm in arms]
            for child, arm in begun:
                self.perform(child, arm.steps)
            return True
        return self.declare(text) if word == "declare" else self.leave(action, step.text)

    def declare(self, text: str) -> bool:
        """Follows a declaration: it has the shape, and gets the number, that the step has."""
        number, _, shape = text.split(" ", 2)
        if self.reply_to(f"declare {shape}") != number:
            raise Differs(f"another number than {number}")
        return True

    def begin(self, parent: str, kind: str) -> str:
        """Follows the begin of an action: its number, or nothing where it is refused."""
        call = {"topaction": f"begin_nested {parent}", "action": f"begin_sub {parent}"}[kind]
        reply = self.reply_to(call if parent else "begin_top")
        return "" if reply.startswith("refused ") else reply

    def perform(self, action: str, steps: list[Step]) -> None:
        """Follows an action that was begun, up to its end."""
        if action and self.run(action, steps):
            self.reply_to(f"commit {action}")

    def is_taken(self, action: str, reply: str) -> bool:
        """Whether a reply is no refusal, which ends the action."""
        if not reply.startswith("refused "):
            return True
        if reply not in OVER:
            self.reply_to(f"abort {action}")
        return False

    def leave(self, action: str, text: str) -> bool:
        """Follows a step that ends the action."""
        if text == "abort leave":
            self.reply_to(f"abort {action}")
        elif text == "leave" or not self.reply_to(f"abort_others {action}").startswith("refused "):
            self.reply_to(f"commit {action}")
        return False
