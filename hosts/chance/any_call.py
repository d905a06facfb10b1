"""A call by chance: most may be granted, some of each kind may not."""

from __future__ import annotations

from random import Random

from history import History
from values import Form

# From this many live actions on, each is begun below the last one.
DEEP = 100

RECORD = "atomic_record[n:int,r:atomic]"
NESTED = "atomic_record[l:sequence[int],c:oneof[no:null,t:text],s:struct[b:bool,m:int]]"
ARRAY = "atomic_array[int]"
VARIANT = "atomic_variant[ok:int,bad:text]"

# What actions do with objects of each shape; some of it is ill typed or out of bounds.
OPERATIONS = {
    RECORD: """test_read | test_write | ask whole | ask field 0 | ask field 1 | ask field 2 | alter create {1,@0}
        | alter create {2,@1} | alter create {3} | alter create 1[1] | alter set_field 0 1 | alter set_field 0 2
        | alter set_field 1 @0 | alter set_field 1 @3 | alter set_field 0 null | alter set_field 2 1 | alter touch""",
    NESTED: r"""test_read | test_write | ask whole | ask field 0 | ask field 1 | alter touch
        | alter create {[],<0:null>,{true,-1}} | alter create {[1,2],<1:"a \"b\" \\">,{false,0}}
        | alter create {[true],<0:null>,{true,1}} | alter set_field 0 [3,-4] | alter set_field 0 {3}
        | alter set_field 1 <1:"two\nlines"> | alter set_field 1 <2:null> | alter set_field 1 <0:1>
        | alter set_field 2 {false,9223372036854775807} | alter set_field 2 {1,1}""",
    ARRAY: """test_read | test_write | ask whole | ask low | ask high | ask size | ask fetch 1 | ask fetch -1
        | ask bottom | ask top | alter create 1[10,20,30] | alter create 0[] | alter create 2147483647[9]
        | alter create -2147483648[] | alter create 2147483647[1,2] | alter store 1 5 | alter store 4 5 | alter addh 6
        | alter addh 7 | alter addh null | alter addl 8 | alter addl 9 | alter remh | alter reml
        | alter set_low 2147483647 | alter set_low -3 | alter trim 1 2 | alter trim 2 0 | alter trim 2 -1
        | alter trim 9 1 | alter trim 2147483648 1 | alter touch""",
    VARIANT: """test_read | test_write | ask whole | ask is_tag 0 | ask is_tag 2 | ask tag_value 0 | ask tag_value 1
        | alter create <0:5> | alter create <1:"no"> | alter create <2:1> | alter change_tag 0 7
        | alter change_tag 1 "yes" | alter change_tag 1 7 | alter change_tag 2 7 | alter touch""",
}
OF_SHAPES = [(shape, [" ".join(it.split()) for it in text.split(" | ")]) for shape, text in OPERATIONS.items()]
ENDS = ["abort", "abort_others", "commit", "commit"]
BEGINS = ["begin_nested", "begin_sub", "begin_sub", "begin_sub", "begin_top", "begin_top"]


def once_in(chance: Random, count: int) -> bool:
    """Whether it happens, once in so many times."""
    return chance.randrange(count) == 0


class Maker:
    """Makes calls by chance. At most `crowd` actions are live at once."""

    def __init__(self, chance: Random, crowd: int) -> None:
        self.chance, self.crowd = chance, crowd
        self.shapes: list[str] = []

    def text(self, history: History) -> str:
        """The text of a call after these entries."""
        chance, count = self.chance, len(history.forms)
        if count == 0 or (count < 4 and once_in(chance, 10)) or once_in(chance, 60):
            self.shapes.append(chance.choice(list(OPERATIONS)))
            return f"declare {self.shapes[-1]}"
        live = history.live()
        if not live and not once_in(chance, 6):
            return "begin_top"
        if self.crowd >= DEEP and not once_in(chance, 20):
            return f"begin_sub a{live[-1] if live else len(history.lineage)}"
        if once_in(chance, 2):
            return self._access(self._action(history, live, is_alone=True))
        verb = chance.choice([*ENDS, *(["commit"] * 6 if len(live) >= self.crowd else BEGINS)])
        action = self._action(history, live, is_alone=verb == "commit")
        return verb if verb == "begin_top" else f"{verb} a{action}"

    def _action(self, history: History, live: list[int], is_alone: bool) -> int:
        """A live action, without live children if that is asked for; rarely one that is over or was never begun, or
        that has live children all the same."""
        begun, rare = len(history.lineage), self.chance.randrange(24)
        if rare == 0:
            return begun + self.chance.randrange(2)
        if rare == 1:
            return self.chance.randrange(begun + 1)
        busy = {history.begun_by[it] for it in live} if is_alone and rare > 2 else set()
        return self.chance.choice([it for it in live if it not in busy] or [begun])

    def _access(self, action: int) -> str:
        """An access to one of the objects; rarely to one that isn't declared, or by an operation of another shape."""
        chance = self.chance
        obj = len(self.shapes) if once_in(chance, 30) else chance.randrange(len(self.shapes))
        shape, operations = chance.choice(OF_SHAPES)
        if obj < len(self.shapes) and not once_in(chance, 20):
            operations = next(found for shape, found in OF_SHAPES if shape == self.shapes[obj])
        verb, _, operation = chance.choice(operations).partition(" ")
        return f"{verb} a{action} o{obj} {operation}".rstrip()
