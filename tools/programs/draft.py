"""`draft`: a script by chance, of blocks in blocks, arms, tests and all ways to leave, on two records."""

from __future__ import annotations

from random import Random

OBJECTS = ("x0", "x1")
SHAPE = "atomic_record[n:int,m:int]"
# What a line of a script says to its object, and how a journal spells the call, around the action.
ACCESSES = {
    "create x0 {1,10}": ("alter", "o0 create {1,10}"),
    "create x1 {2,20}": ("alter", "o1 create {2,20}"),
    "create x0 {3,30}": ("alter", "o0 create {3,30}"),
    "create x1 {4,40}": ("alter", "o1 create {4,40}"),
    "set x0 n 5": ("alter", "o0 set_field 0 5"),
    "set x1 m 6": ("alter", "o1 set_field 1 6"),
    "set x0 m 7": ("alter", "o0 set_field 1 7"),
    'set x1 n ""': ("alter", 'o1 set_field 0 ""'),
    "get x0 n": ("ask", "o0 field 0"),
    "get x1 m": ("ask", "o1 field 1"),
    "read x0": ("ask", "o0 whole"),
    "read x1": ("ask", "o1 whole"),
    "touch x0": ("alter", "o0 touch"),
    "touch x1": ("alter", "o1 touch"),
}
# What comes next in a block, each of these as often; the others are accesses.
STEPS = ["enter action", "enter topaction", "coenter", "if"] * 2 + ["leave", "abort leave", "leave all"]
STEPS += ["end"] * 4 + ["access"] * 16


def draft(seed: int) -> list[str]:
    """The lines of the script of this seed: its declarations, and ten to fifty lines and what ends their blocks."""
    drawn = Draft(Random(seed))
    return [f"declare {it} {SHAPE}" for it in OBJECTS] + drawn.whole()


class Draft:
    """A script that is drawn line by line, until as many lines are drawn as it gets."""

    def __init__(self, chance: Random) -> None:
        self.chance = chance
        self.left = chance.randint(10, 50)

    def whole(self) -> list[str]:
        """What stands in no block."""
        lines: list[str] = []
        while self.left > 0:
            lines += self._coenter(is_inside=False) if self.chance.randrange(3) == 0 else self._block("enter topaction")
        return lines

    def _block(self, opening: str, may_leave_all: bool = False) -> list[str]:
        """A block with its `end`, of which the opening line is given."""
        self.left -= 1
        return [opening, *self._steps(may_leave_all), "end"]

    def _coenter(self, is_inside: bool) -> list[str]:
        """A coenter with its arms. Outside of actions all arms are topactions."""
        self.left -= 1
        lines = ["coenter"]
        while self.left > 0 and (len(lines) == 1 or self.chance.randrange(2) == 0):
            self.left -= 1
            is_top = not is_inside or self.chance.randrange(4) == 0
            lines += ["topaction" if is_top else "action", *self._steps(may_leave_all=is_inside)]
        return [*lines, "end"]

    def _steps(self, may_leave_all: bool) -> list[str]:
        """The lines of a block or an arm. `leave all` may stand directly in an arm, and in an `if` there."""
        lines: list[str] = []
        while self.left > 0:
            step = self.chance.choice(STEPS)
            if step == "end":
                break
            lines += self._step(step, may_leave_all)
        return lines

    def _step(self, step: str, may_leave_all: bool) -> list[str]:
        if step == "coenter":
            return self._coenter(is_inside=True)
        if step.startswith("enter"):
            return self._block(step)
        if step == "if":
            test = self.chance.choice(["test_read", "test_write"])
            return self._block(f"if {test} {self.chance.choice(OBJECTS)}", may_leave_all)
        self.left -= 1
        if step == "access" or (step == "leave all" and not may_leave_all):
            return [self.chance.choice(list(ACCESSES))]
        return [step]
