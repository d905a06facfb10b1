"""How objects are called: by the names that a script declares, and behind these by their numbers."""

from __future__ import annotations

from collections.abc import Sequence
from dataclasses import dataclass


@dataclass(frozen=True)
class Names:
    """The names of the first objects, and their shapes."""

    names: Sequence[str] = ()
    shapes: Sequence[str] = ()

    def __getitem__(self, number: int) -> str:
        return self.names[number] if number < len(self.names) else f"o{number}"

    def fault(self, shapes: Sequence[str]) -> str:
        """Which object isn't one of these, as the script says, and why; or nothing."""
        for number, shape in enumerate(self.shapes):
            if number >= len(shapes):
                return f"o{number}: NotDeclared"
            if shape != shapes[number]:
                return f"o{number}: OtherShape"
        return ""


def names_of(script: str) -> Names:
    """The names by a script's lines `declare NAME SHAPE`. Whether its other lines are a script's isn't looked at."""
    words = [it.split() for it in script.split("\n")]
    declared = [it[1:] for it in words if len(it) == 3 and it[0] == "declare"]
    return Names([name for name, _ in declared], [shape for _, shape in declared])
