"""Where the parts of a picture are, and the elements that it is drawn of."""

from __future__ import annotations

from dataclasses import dataclass
from functools import cached_property

# The heights of an action's bar, of an object's lane, and of the numbers of the serial order.
BAR, LANE, ORDER = 14, 54, 14

# How many commits a line of the serial order's table has, and how many the table has.
COMMITS_IN_LINE, MOST_COMMITS = 5, 20

# Up to how many entries they are so many pixels apart, and every how many have their number.
_STEPS = ((64, 28, 1), (512, 12, 10), (65_536, 4, 50))

# No text is markup, and none has a character that XML excludes.
_MARKS = {"&": "&amp;", "<": "&lt;", ">": "&gt;", '"': "&quot;"}
_EXCLUDED = [*range(9), *range(11, 32), 0xFFFE, 0xFFFF]
_ESCAPES = str.maketrans(_MARKS | {chr(it): "\ufffd" for it in _EXCLUDED})


@dataclass(frozen=True)
class Frame:
    """A picture of so many entries, rows of actions, lanes of objects and commits of topactions. All coordinates
    follow from that, in pixels from the upper left corner."""

    entries: int
    rows: int
    lanes: int
    commits: int

    @cached_property
    def _step(self) -> tuple[int, int]:
        """How many pixels apart entries are, and how many there are from one number on the axis to the next."""
        return next((pixels, tick) for most, pixels, tick in _STEPS if self.entries <= most)

    @property
    def tick(self) -> int:
        return self._step[1]

    @cached_property
    def width(self) -> int:
        return max(980, self.x(self.entries) + 68)

    @property
    def height(self) -> int:
        lines = -(-min(self.commits, MOST_COMMITS + 1) // COMMITS_IN_LINE)
        return self.table(lines) + 12

    def x(self, entry: int) -> int:
        return 168 + self._step[0] * entry

    def row(self, row: int) -> int:
        """The top of the bars in this row."""
        return 132 + 30 * row

    def order(self) -> int:
        """The top of the numbers of the serial order, between rows and lanes."""
        return 134 + 30 * self.rows

    def lane(self, lane: int) -> int:
        """The top of this lane; behind the last one, where the lanes end."""
        return 158 + 30 * self.rows + 60 * lane

    def table(self, line: int) -> int:
        """The base line of the texts in this line of the serial order's table."""
        return self.lane(self.lanes) + 28 + 16 * line


def escaped(text: str) -> str:
    return text.translate(_ESCAPES)


def title(*lines: str) -> str:
    """What is shown of a group where one points at it."""
    return f"<title>{escaped(chr(10).join(lines))}</title>"


def text(look: str, x: int, y: int, words: str) -> str:
    return f'<text class="{look}" x="{x}" y="{y}">{escaped(words)}</text>'


def rect(look: str, x: int, y: int, wide: int, high: int, more: str = "") -> str:
    return f'<rect class="{look}" x="{x}" y="{y}" width="{wide}" height="{high}"{more}/>'


def circle(look: str, x: int, y: int, radius: int) -> str:
    return f'<circle class="{look}" cx="{x}" cy="{y}" r="{radius}"/>'


def path(look: str, x: int, y: int, shape: str) -> str:
    return f'<path class="{look}" d="M{x} {y}{shape}"/>'


def action_name(look: str, x: int, y: int, number: int, room: int) -> str:
    """The number of an action, if so many pixels are enough."""
    least = 24 if number < 10 else 31 if number < 100 else 45 if number < 10_000 else 90
    return text(look, x, y, f"a{number}") if room >= least else ""
