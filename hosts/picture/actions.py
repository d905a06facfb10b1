"""Draws the actions of a run: their bars, the lines between bars, the refused calls, and the serial order."""

from __future__ import annotations

from collections import defaultdict
from collections.abc import Iterator

import svg
from naming import Names
from run import Action, Fate, Refused, Run
from svg import BAR, COMMITS_IN_LINE, MOST_COMMITS, ORDER, Frame, path, text, title

# The sign at the end of a bar: its looks and its shape.
_SIGNS = {
    Fate.LIVE: ("arrow", "l8 7l-8 7z"),
    Fate.ALONE: ("cross", "m-4 3l8 8m0 -8l-8 8"),
    Fate.WITH_ANCESTOR: ("cross", "m-4 7h8"),
    Fate.BY_SIBLING: ("cross", "m4 2l-8 5l8 5"),
}

# Where calls are drawn whose caller has no bar.
_ABOVE_BARS = 82


def draw_actions(frame: Frame, run: Run, names: Names) -> Iterator[str]:
    """The lines between bars, then the bars, then the refused calls."""
    for action in run.actions:
        yield from _tie(frame, action)
    for action in run.actions:
        if action.row is not None:
            yield _bar(frame, action, action.row)
    # Up to where each row has the names of refusals.
    taken: defaultdict[int | None, int] = defaultdict(int)
    for call in run.refused:
        x = frame.x(call.entry.place)
        why = ""
        if taken[call.row] <= x:
            why = _why(frame, call, names)
            taken[call.row] = x + _width_of_why(call)
        yield f"<g>{_told(call, names)}{_diamond(frame, call)}{why}</g>\n"


def _tie(frame: Frame, action: Action) -> Iterator[str]:
    """The line from the bar of the action that began this one."""
    if action.row is not None and action.creator and action.creator.row is not None:
        begin, end = frame.row(action.creator.row) + BAR, frame.row(action.row)
        yield path("stem" if action.parent else "tie", frame.x(action.begin), begin, f"V{end}") + "\n"


def _life(frame: Frame, action: Action) -> tuple[int, int]:
    return action.begin, frame.entries if action.end is None else action.end


def _bar(frame: Frame, action: Action, row: int) -> str:
    """The bar, within the parent's, with the sign at its end. The title has the first line and the last."""
    begin, end = _life(frame, action)
    if action.parent:
        outer_begin, outer_end = _life(frame, action.parent)
        begin = min(max(begin, outer_begin), outer_end)
        end = min(max(end, begin), outer_end)
    left, right, top = frame.x(begin), frame.x(end), frame.row(row)
    wide, fate = max(3, right - left), action.fate
    lines = dict.fromkeys((action.first_line, action.last_line))
    bar = title(*lines) + svg.rect(f"bar {fate.value}", left, top, wide, BAR)
    if fate in _SIGNS and wide >= 12:
        look, shape = _SIGNS[fate]
        bar += path(look, right, top, shape)
    return f"<g>{bar}{svg.action_name(f'name on-{fate.value}', left + 4, top + 11, action.number, wide)}</g>\n"


def _width_of_why(call: Refused) -> int:
    return 6 * len(call.why) + 10


def _told(call: Refused, names: Names) -> str:
    """The title: which object the call is about, and whose lock was in the way."""
    if not call.entry.lock:
        return title(call.entry.line)
    about = ("Conflict over " if call.why == "Conflict" else "call on ") + names[call.entry.lock.object]
    if call.holder:
        about += f", held by a{call.holder.number}"
    return title(about, call.entry.line)


def _top(frame: Frame, call: Refused) -> int:
    return _ABOVE_BARS if call.row is None else frame.row(call.row)


def _diamond(frame: Frame, call: Refused) -> str:
    """The call on its caller's bar, or above all bars if it has none, with a line to the bar of the holder whose lock
    was in the way."""
    x, y = frame.x(call.entry.place), _top(frame, call)
    diamond = path("mark", x, y + 1, "l6 6l-6 6l-6 -6z")
    if call.row is None or not call.holder or call.holder.row is None:
        return diamond
    end = frame.row(call.holder.row) + 7
    return path("against", x, y + 7, f"V{end}") + svg.circle("holder", x, end, 4) + diamond


def _why(frame: Frame, call: Refused, names: Names) -> str:
    """Why the call was refused; of a conflict also over which object, if the next refused call in the row leaves room
    for a name of ten letters."""
    x = frame.x(call.entry.place)
    has_room = call.next is None or frame.x(call.next) - x >= _width_of_why(call) + 66
    words = call.why
    if call.entry.lock and words == "Conflict" and has_room:
        words += f" {names[call.entry.lock.object]}"
    return text("small refusal", x - 4, _top(frame, call) + 24, words)


def draw_order(frame: Frame, run: Run) -> Iterator[str]:
    """Each topaction's commit as its number in the serial order, if the number before leaves room."""
    if not run.serial:
        return
    top, free = frame.order(), 0
    yield text("small", 14, top + 10, "serial order") + "\n"
    for order, action in enumerate(run.serial, 1):
        x, half = frame.x(_life(frame, action)[1]), 4 + 3 * len(str(order))
        if x - half >= free:
            told = title(f"a{action.number} is number {order} in the serial order", action.last_line)
            number = svg.rect("order", x - half, top, 2 * half, ORDER, ' rx="7"')
            yield f"<g>{told}{number}{text('tick place', x, top + 11, str(order))}</g>\n"
            free = x + half + 1


def draw_table(frame: Frame, run: Run) -> Iterator[str]:
    """The first commits of the serial order, five in a line, and how many more there are."""
    if not run.serial:
        return
    yield text("name plain", 14, frame.table(0), "Order") + "\n"
    for at, action in enumerate(run.serial[:MOST_COMMITS]):
        line, cell = divmod(at, COMMITS_IN_LINE)
        words = f"{at + 1}: a{action.number} at entry {run.first_entry + _life(frame, action)[1]}"
        yield text("small", 80 + 180 * cell, frame.table(line), words) + "\n"
    if len(run.serial) > MOST_COMMITS:
        yield text("small", 80, frame.table(4), f"and {len(run.serial) - MOST_COMMITS} more") + "\n"
