"""`Pages`: what the tests of pages stand on: the programs, the browser, and a folder; and what they ask of a page."""

from __future__ import annotations

import os
import subprocess
from collections.abc import Callable
from dataclasses import dataclass
from pathlib import Path
from typing import Any

from browser import Browser, Tab
from calling import Programs
from runs import make_launchers

# What the table of contents shows, as the lines of the listing `stacks`.
SHOWN = """[...document.querySelectorAll("#state tbody tr:not(.spacer)")].map((row) => {
    const [object, what, content] = [...row.cells].map((it) => it.textContent);
    return `${object.replace(/.*\\(|\\)/g, "")} ${what.replace("version of", "version")} ${content}`;
})"""


@dataclass
class Pages:
    """The programs, the browser and a folder."""

    programs: Programs
    browser: Browser
    folder: Path
    made: int = 0

    def __post_init__(self) -> None:
        self.top = self.folder / "launchers"
        make_launchers(self.top, self.programs)

    def page(self, listing: str, script: str = "") -> Path:
        """The page that `./picture --html` makes of a listing, with the names of a script's objects."""
        self.made += 1
        path, words = self.folder / f"run{self.made}.html", []
        if script:
            named = self.folder / f"run{self.made}.argus"
            named.write_text(script, encoding="utf-8")
            words = ["--script", str(named)]
        with path.open("wb") as file:
            command = [str(self.top / "picture"), "--html", *words]
            subprocess.run(command, input=listing.encode(), stdout=file, check=True)
        return path

    def open(self, listing: str, script: str = "", **size: int) -> Tab:
        """That page, opened."""
        return self.browser.open(self.page(listing, script), **size)


# A test by its name: it returns what is wrong, or nothing.
Test = tuple[str, Callable[[Pages], str]]


def shown(tab: Tab) -> list[str]:
    """The state that the page shows, as lines."""
    return tab.evaluate(SHOWN)


def rows_of(tab: Tab, table: str) -> list[list[str]]:
    """The cells of the rows of a table that can be seen."""
    rows = f'[...document.querySelectorAll("#{table} tbody tr:not(.spacer)")]'
    return tab.evaluate(f"{rows}.map((row) => [...row.cells].map((it) => it.textContent))")


def text_of(tab: Tab, place: str) -> str:
    """The text of an element."""
    return tab.evaluate(f'document.getElementById("{place}").textContent')


def move_to(tab: Tab, count: int) -> None:
    """Moves the slider behind so many entries."""
    tab.evaluate(f'byId("moment").value = {count}; byId("moment").dispatchEvent(new Event("input"))')


def on_canvas(tab: Tab, x: str, y: str) -> tuple[float, float]:
    """Where a point of the picture is in the window; x and y are expressions of the page."""
    box = 'document.getElementById("canvas").getBoundingClientRect()'
    found = tab.evaluate(f"[{box}.x + {x}, {box}.y + {y}]")
    return found[0], found[1]


def on_bar(tab: Tab, action: int, at: float) -> tuple[float, float]:
    """Where the bar of an action is, at an entry."""
    return on_canvas(tab, f"page.scene.view.x({at})", f"page.scene.view.rowTop(page.run.actions[{action}].row) + 7")


def unlike(what: str, wanted: Any, got: Any) -> str:
    """What is wrong where this is wanted, from a little before the first difference on."""
    if wanted == got:
        return ""
    texts = repr(wanted), repr(got)
    same = max(len(os.path.commonprefix(texts)) - 40, 0)
    return "{}: wanted .. {}\n  got .. {}\n".format(what, *(it[same : same + 200] for it in texts))
