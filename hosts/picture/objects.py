"""Draws the objects of a run: their lanes, and the locks, accesses and commits in them."""

from __future__ import annotations

from collections.abc import Iterator

import svg
from contents import shortened
from naming import Names
from run import Access, Fate, Hold, Object, Run, Settling
from svg import LANE, Frame, path, text, title

# The most letters of a shape, or of a content, that are written in a lane.
_MOST_LETTERS = 24

# How many pixels apart an object's name is repeated above its lane.
_NAME_DISTANCE = 800

_SQUARE, _CROSS = "m-3 -3h6v6h-6z", "m-3 -3l6 6m0 -6l-6 6"
_RING = "m-3 0a3 3 0 1 0 6 0a3 3 0 1 0 -6 0z"


def draw_objects(frame: Frame, run: Run, names: Names) -> Iterator[str]:
    """The lanes, then the locks, then the accesses, then the commits."""
    for lane, thing in enumerate(run.objects[: frame.lanes]):
        yield _lane(frame, lane, thing, names[lane])
    for hold in run.holds:
        if hold.strip is not None:
            yield _hold(frame, hold, hold.strip, names[hold.lock.object])
    for access in run.accesses:
        yield _access(frame, access, names[access.lock.object])
    # The last one first: a base is written if there is room up to the next commit in the lane.
    ends = [frame.width] * frame.lanes
    for settling in reversed(run.settlings):
        yield _settling(frame, settling, ends[settling.lane], names[settling.lane])
        ends[settling.lane] = frame.x(settling.place)


def _lane(frame: Frame, lane: int, thing: Object, name: str) -> str:
    """A lane with the object's name and shape. In a wide picture the name stands above it again and again."""
    top = frame.lane(lane)
    drawn = title(name, thing.line) + svg.rect("lane", 8, top, frame.width - 16, LANE)
    drawn += f'<text x="14" y="{top + 15}">{svg.escaped(name)}</text>'
    drawn += text("small", 14, top + 29, shortened(thing.shape, _MOST_LETTERS))
    places = range(_NAME_DISTANCE, frame.width // _NAME_DISTANCE * _NAME_DISTANCE, _NAME_DISTANCE)
    return f"<g>{drawn}{''.join(text('tiny', x, top - 1, name) for x in places)}</g>\n"


def _hold(frame: Frame, hold: Hold, strip: int, name: str) -> str:
    """A lock from the entry that got it to the one that ended it."""
    look, deed = ("write", "writing") if hold.lock.writes else ("read", "reading")
    x, end = frame.x(hold.begin), frame.x(frame.entries if hold.end is None else hold.end)
    y, wide, number = frame.lane(hold.lock.object) + 3 + 12 * strip, max(2, end - x), hold.action.number
    told = title(f"a{number} holds {name} for {deed}", hold.line)
    label = svg.action_name(f"tiny on-{look}", x + 3, y + 8, number, wide)
    return f"<g>{told}{svg.rect(look, x, y, wide, 9)}{label}</g>\n"


def _access(frame: Frame, access: Access, name: str) -> str:
    """A read as a ring, a write as a square, which is full once it is there for good. The title says what became of a
    change."""
    x, y = frame.x(access.place), frame.lane(access.lock.object) + 40
    number, owner = access.action.number, access.action.owner()
    if not access.lock.writes:
        told, look, sign = f"a{number} reads {name}", "look", _RING
    elif owner.fate is Fate.COMMITTED:
        told, look, sign = f"a{number} writes {name}, for good since a{owner.number} committed", "kept", _SQUARE
    elif owner.fate is Fate.LIVE:
        told, look, sign = f"a{number} writes {name}, in a version of a{owner.number}", "version", _SQUARE
    else:
        told, look, sign = f"a{number} writes {name}, undone", "undone", _CROSS
    return f"<g>{title(told, access.line)}{path(look, x, y, sign)}</g>\n"


def _settling(frame: Frame, settling: Settling, end: int, name: str) -> str:
    """A commit's sign. Beside it is the new base, if some of it has room; otherwise only the title has it."""
    x, top = frame.x(settling.place), frame.lane(settling.lane)
    told = title(f"{name} after number {settling.order} of the serial order", settling.line, settling.base)
    drawn = told + path("base", x, top, f"v{LANE}") + svg.circle("base", x, top + LANE - 8, 3)
    letters = min(_MOST_LETTERS, (end - x - 12) // 6)
    if letters >= 3:
        drawn += text("small", x + 6, top + LANE - 5, shortened(settling.base, letters))
    return f"<g>{drawn}</g>\n"
