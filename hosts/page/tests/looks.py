"""How a page looks: in light and dark, what is drawn, and what is heard of it. SHOTS names a folder for pictures."""

from __future__ import annotations

import os
from collections.abc import Iterator
from functools import partial
from pathlib import Path

from pages import Pages, Tab, Test, on_bar, unlike
from runs import bank, example

# What is seen where a pixel of the picture is, as red, green and blue.
PIXEL = "[...page.scene.context.getImageData({}, {}, 1, 1).data].slice(0, 3)"
# How many rows a table says that it has, and which one the first is, behind the heads.
ROWS = """[["table", "aria-rowcount"], ["tbody tr:not(.spacer)", "aria-rowindex"]].map(
    ([place, name]) => document.querySelector(`#entries ${place}`).getAttribute(name))"""
LIGHT, DARK = [255, 255, 255], [21, 24, 29]


def tests() -> Iterator[Test]:
    yield "light and dark", light_and_dark
    yield "a bar", colours_of_bars
    yield "what is heard", heard
    for entries in (14, 528, 5_000):
        yield f"seen, {entries} entries", partial(seen, entries)


def light_and_dark(pages: Pages) -> str:
    """The page and its picture follow what the user prefers, also while it is open."""
    tab = pages.open(example(pages.programs, "arms"))
    for is_dark, paper in ((True, DARK), (False, LIGHT)):
        tab.be_dark(is_dark)
        drawn = tab.evaluate(PIXEL.format("LEFT + 4", 4))
        page = tab.evaluate("getComputedStyle(document.body).backgroundColor")
        fault = unlike("picture", paper, drawn) or unlike("page", "rgb({}, {}, {})".format(*paper), page)
        if fault:
            return f"dark: {is_dark}: {fault}"
    return ""


def colours_of_bars(pages: Pages) -> str:
    """A committed action is a full bar, and one that aborted by itself a hollow one."""
    tab = pages.open(example(pages.programs, "transfer"))
    for action, at, colour in ((0, 4.4, [31, 95, 168]), (3, 11.4, LIGHT)):
        place = f"page.scene.view.x({at})", f"page.scene.view.rowTop(page.run.actions[{action}].row) + 3"
        if fault := unlike(f"a{action}", colour, tab.evaluate(PIXEL.format(*place))):
            return fault
    return ""


def heard(pages: Pages) -> str:
    """Each field has a name, the moment is told in words, and the tables have theirs."""
    tab = pages.open(example(pages.programs, "arms"))
    nodes = [it for it in tab.call("Accessibility.getFullAXTree")["nodes"] if not it["ignored"]]
    told = [(it["role"]["value"], it.get("name", {}).get("value", "")) for it in nodes]
    fields = {"slider", "textbox", "combobox", "button"}
    nameless = [role for role, name in told if role in fields and not name]
    tables = {name for role, name in told if role == "table"}
    wanted = {"Entries", "What the objects held", "Serial order", "Entries of the action"}
    text = tab.evaluate('byId("moment").getAttribute("aria-valuetext")')
    return (
        unlike("fields without a name", [], nameless)
        or unlike("tables", wanted, tables)
        or unlike("the moment", "Behind entry 13: 13 commit a0 -> done", text)
        or unlike("rows", ["15", "2"], tab.evaluate(ROWS))
    )


def seen(entries: int, pages: Pages) -> str:
    """The picture fills its place, near and far; where SHOTS says so, it is kept."""
    listing = example(pages.programs, "arms") if entries == 14 else bank(pages.programs, entries)
    tab = pages.open(listing)
    fault = colours_seen(tab)
    keep(tab, f"{entries}")
    tab.click(*on_bar(tab, 1, tab.evaluate("page.run.actions[1].begin + 0.4")))
    tab.press("+")
    tab.press("+")
    keep(tab, f"{entries}-near")
    tab.be_dark(True)
    keep(tab, f"{entries}-dark")
    return fault or colours_seen(tab)


def colours_seen(tab: Tab) -> str:
    """Whether there are as many colours as a picture of bars, lanes and names has at the least."""
    data = "new Uint32Array(page.scene.context.getImageData(0, 0, 1000, 200).data.buffer)"
    count = tab.evaluate(f"new Set({data}).size")
    return "" if count >= 10 else f"{count} colours\n"


def keep(tab: Tab, name: str) -> None:
    if "SHOTS" in os.environ:
        tab.screenshot(Path(os.environ["SHOTS"]) / f"{name}.png")
