"""The picture of a run: an SVG 1.1 document, without scripts and links."""

from __future__ import annotations

from collections.abc import Iterator

from actions import draw_actions, draw_order, draw_table
from naming import Names
from objects import draw_objects
from run import MOST_LANES, Run
from style import LEGEND, LOOKS
from svg import Frame, path, text

# A picture whose lanes end below this has the numbers of entries at the bottom, too.
_TALL = 866


def picture_of(run: Run, names: Names) -> str:
    """The picture, with objects called by these names."""
    frame = Frame(run.entries, run.rows, min(len(run.objects), MOST_LANES), len(run.serial))
    return "".join(_parts(frame, run, names))


def _parts(frame: Frame, run: Run, names: Names) -> Iterator[str]:
    size = f'width="{frame.width}" height="{frame.height}"'
    yield f'<svg xmlns="http://www.w3.org/2000/svg" version="1.1" {size} viewBox="0 0 {frame.width} {frame.height}">\n'
    yield f'<title>The run that a journal tells</title>\n{LOOKS}<rect class="page" {size}/>\n{LEGEND}'
    yield from _axis(frame, run)
    yield from draw_actions(frame, run, names)
    yield from draw_order(frame, run)
    yield from draw_objects(frame, run, names)
    yield from draw_table(frame, run)
    yield text("small", 14, frame.height - 14, _counts(frame, run)) + "\n</svg>\n"


def _axis(frame: Frame, run: Run) -> Iterator[str]:
    """The numbers of entries, each with a line from top to bottom; in a tall picture also at the bottom."""
    bottom = frame.lane(frame.lanes) + 6
    for entry in range(0, frame.entries, frame.tick):
        x, number = frame.x(entry), str(run.first_entry + entry)
        yield path("grid", x, 124, f"V{bottom}") + text("tick", x, 120, number) + "\n"
        if bottom > _TALL:
            yield text("tick", x, bottom + 9, number) + "\n"


def _counts(frame: Frame, run: Run) -> str:
    """How many entries, actions and objects there are, and how many found no room."""
    counts = (
        f"{_count(run.entries, 'entry', 'entries')}, {_count(len(run.actions), 'action', 'actions')}, "
        f"{_count(len(run.objects), 'object', 'objects')}. "
    )
    no_lane = len(run.objects) - frame.lanes
    if run.without_row or run.without_strip or no_lane:
        counts += (
            f"Without room, and not drawn: {_count(run.without_row, 'action', 'actions')}, "
            f"{_count(no_lane, 'object', 'objects')}, {_count(run.without_strip, 'lock', 'locks')}. "
        )
    return counts + "Point at a thing to read its entries. A name without room stands there alone."


def _count(count: int, one: str, several: str) -> str:
    return f"{count} {one if count == 1 else several}"
