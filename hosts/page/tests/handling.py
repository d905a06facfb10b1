"""What clicks, the slider, keys, the wheel and the filters of a page do."""

from __future__ import annotations

import re
from collections.abc import Callable, Iterator
from functools import partial

from calling import TOP
from pages import Pages, Tab, Test, move_to, on_bar, on_canvas, rows_of, shown, text_of, unlike
from runs import BY_HAND, CONFLICT, as_text, bank, example, front, stacks

SEAT = "declare seat atomic_record[n:int]\n"
# The entries of examples/transfer.argus by its third subaction, whose second access is refused.
THIRD = ["10", "11", "12", "13"]
# The texts of the picture.
DRAWN = """(() => {
    const drawn = [];
    page.scene.text = (_, text) => drawn.push(text);
    page.draw();
    delete page.scene.text;
    return drawn;
})()"""


def tests() -> Iterator[Test]:
    for tried in (bar, nothing, refusal, commit, nested, rows, late, slider, keys, zoom, drag, title):
        yield tried.__name__, tried
    yield "filter of objects", partial(filtered, {"objects": "bob"}, lambda line: " o1" in line)
    yield "filter of an action", partial(filtered, {"action": "a1"}, lambda line: re.search(r"\ba[1-4]\b", line))
    yield "filter of an action and what it began", partial(
        filtered, {"action": "a0"}, lambda line: re.search(r"\ba[0-3]\b", line), example_of="arms"
    )
    yield "filter of a status", partial(filtered, {"status": "ancestor"}, lambda line: re.search(r"\ba[67]\b", line))
    yield "filter of refused calls", partial(filtered, {"status": "refused"}, lambda line: "refused" in line)
    yield "filter of both", partial(
        filtered, {"objects": "o0 o1", "action": "a5"}, lambda line: re.search(r"alter a[67]\b", line)
    )
    yield "filter of an object and what was refused", partial(
        filtered, {"objects": "o1", "status": "alone"}, lambda line: re.search(r"a3 o1|a5 o1", line)
    )
    yield "filter of nothing that is there", faulty_filter


def opened(pages: Pages, name: str = "transfer") -> tuple[str, Tab]:
    """The listing of an example, and its page."""
    listing = example(pages.programs, name)
    return listing, pages.open(listing, (TOP / f"examples/{name}.argus").read_text(encoding="utf-8"))


def held(pages: Pages, tab: Tab, listing: str, count: int) -> str:
    """What is wrong with the moment, or with what objects hold then."""
    moment = f"Behind entry {count - 1}" if count else "Before the first entry"
    wanted = stacks(pages.programs, front(listing, count))
    return unlike("moment", moment, text_of(tab, "when")) or unlike("state", wanted, shown(tab))


def chosen(tab: Tab, life: str, entries: list[str]) -> str:
    """What is wrong with the action that is chosen, or with its entries."""
    numbers = [it[0] for it in rows_of(tab, "chosen")]
    return unlike("life", life, text_of(tab, "life")) or unlike("entries", entries, numbers)


def bar(pages: Pages) -> str:
    """A click on a bar chooses its action, and the moment that is there."""
    listing, tab = opened(pages)
    tab.click(*on_bar(tab, 3, 11.4))
    return chosen(tab, "a3: a subaction of a1, aborted by itself", THIRD) or held(pages, tab, listing, 12)


def nothing(pages: Pages) -> str:
    """A click where nothing is chooses the moment alone."""
    listing, tab = opened(pages)
    tab.click(*on_bar(tab, 3, 11.4))
    tab.click(*on_canvas(tab, "page.scene.view.x(9.6)", "page.scene.view.rowTop(1) + 7"))
    return held(pages, tab, listing, 10) or unlike("entries", [], rows_of(tab, "chosen"))


def refusal(pages: Pages) -> str:
    """A click on a refused call chooses its action, and the moment behind it."""
    listing, tab = opened(pages)
    tab.click(*on_bar(tab, 3, 12))
    return chosen(tab, "a3: a subaction of a1, aborted by itself", THIRD) or held(pages, tab, listing, 13)


def commit(pages: Pages) -> str:
    """A click on a number of the serial order chooses the topaction."""
    listing, tab = opened(pages)
    tab.click(*on_canvas(tab, "page.scene.view.x(18)", "33"))
    life = "a1: a topaction, committed, number 2 in the serial order"
    orders = [it[:3] for it in rows_of(tab, "serial")]
    return (
        unlike("serial order", [["1", "a0", "5"], ["2", "a1", "18"]], orders)
        or chosen(tab, life, ["6", "7", "10", "14", "15", "18"])
        or held(pages, tab, listing, 19)
    )


def nested(pages: Pages) -> str:
    """A nested topaction has its number in the serial order."""
    _, tab = opened(pages, "arms")
    return unlike("order", [["1", "a3", "12", ""], ["2", "a0", "13", "seat (o0)"]], rows_of(tab, "serial"))


def rows(pages: Pages) -> str:
    """Clicks on rows of tables."""
    listing, tab = opened(pages)
    click = 'document.querySelectorAll("#{} tbody tr:not(.spacer)")[{}].click()'
    tab.evaluate(click.format("serial", 0))
    fault = chosen(tab, "a0: a topaction, committed, number 1 in the serial order", ["2", "3", "4", "5"])
    tab.evaluate(click.format("chosen", 1))
    return fault or held(pages, tab, listing, 4)


def slider(pages: Pages) -> str:
    """The slider, drawn to the middle and moved by its own keys."""
    listing, tab = opened(pages)
    place = "(({x, y, width, height}) => [x, y + height / 2, width])"
    box = tab.evaluate(f'{place}(byId("moment").getBoundingClientRect())')
    tab.drag(box[0] + box[2] - 8, box[1], box[0] + box[2] / 2, box[1])
    count = tab.evaluate('Number(byId("moment").value)')
    fault = held(pages, tab, listing, count) or ("" if 12 <= count <= 15 else f"drawn to {count}\n")
    tab.press("ArrowLeft")
    return fault or held(pages, tab, listing, count - 1)


def keys(pages: Pages) -> str:
    """Keys where no field has the focus."""
    listing, tab = opened(pages)
    counts = {"Home": 0, "ArrowRight": 1, "End": 27, "ArrowLeft": 26}
    for key, count in counts.items():
        tab.press(key)
        if fault := held(pages, tab, listing, count):
            return f"{key}: {fault}"
    tab.press("Enter")
    fault = chosen(tab, "a7: a subaction of a5, undone with an ancestor", ["23", "24", "25"])
    tab.press("Escape")
    return fault or unlike("entries", [], rows_of(tab, "chosen"))


def names_drawn(tab: Tab) -> str:
    """The strip of the picture that has the names of objects, as a text."""
    data = "page.scene.context.getImageData(0, TOP, LEFT, 400).data"
    return tab.evaluate(f"String({data}.reduce((a, b) => (a * 31 + b) % 1e9))")


def zoom(pages: Pages) -> str:
    """Keys and the wheel zoom, at the pointer; names and legend stay."""
    tab = pages.open(bank(pages.programs, 528))
    scale, names = tab.evaluate("page.scene.view.scale"), names_drawn(tab)
    legend = tab.evaluate('JSON.stringify(byId("legend").getBoundingClientRect())')
    place = on_canvas(tab, "600", "100")
    before = tab.evaluate("page.scene.view.entryAt(600)")
    tab.call("Input.dispatchMouseEvent", type="mouseWheel", x=place[0], y=place[1], deltaX=0, deltaY=-400, modifiers=2)
    tab.settle()
    after = tab.evaluate("[page.scene.view.scale, page.scene.view.entryAt(600)]")
    tab.press("0")
    return (
        unlike("nearer", True, after[0] > 1.5 * scale)
        or unlike("the pointer's entry", round(before), round(after[1]))
        or unlike("names", names, names_drawn(tab))
        or unlike("legend", legend, tab.evaluate('JSON.stringify(byId("legend").getBoundingClientRect())'))
        or unlike("the whole again", scale, tab.evaluate("page.scene.view.scale"))
    )


def drag(pages: Pages) -> str:
    """Dragging moves the picture, and chooses nothing."""
    tab = pages.open(bank(pages.programs, 528))
    for key in ("Home", "+", "+"):
        tab.press(key)
    left, moment = tab.evaluate("page.scene.view.left"), text_of(tab, "when")
    one, other = on_canvas(tab, "900", "100"), on_canvas(tab, "500", "100")
    tab.drag(*one, *other)
    moved = (tab.evaluate("page.scene.view.left") - left) * tab.evaluate("page.scene.view.scale")
    return unlike("moved", 400, round(moved)) or unlike("moment", moment, text_of(tab, "when"))


def title(pages: Pages) -> str:
    """What is said where one points: a conflict names its object, and who holds it."""
    tab = pages.open(as_text(CONFLICT), SEAT)
    tab.move(*on_bar(tab, 2, 7))
    told = "a2 has a conflict over seat (o0), held by a1\n7 alter a2 o0 touch -> refused Conflict"
    hidden = tab.evaluate('byId("title").hidden')
    drawn = tab.evaluate(DRAWN)
    missing = [it for it in ("Conflict seat", "seat (o0)", "a0", "a1", "1", "2", "{1}") if it not in drawn]
    return unlike("title", (told, False), (text_of(tab, "title"), hidden)) or unlike("not drawn", [], missing)


def late(pages: Pages) -> str:
    """Calls of an action that is over, or was never begun, stand above all rows; an action has its own."""
    tab = pages.open(as_text(BY_HAND))
    told = []
    for at in (18, 19):
        tab.move(*on_canvas(tab, f"page.scene.view.x({at})", "page.scene.view.rowTop(-1) + 7"))
        told.append(text_of(tab, "title"))
    tab.evaluate("page.choose({ action: page.run.actions[1] })")
    life = "a1: a subaction of a0, undone with an ancestor"
    return unlike("titles", BY_HAND[18:], told) or chosen(tab, life, ["2", "3", "5", "18"])


def filtered(
    fields: dict[str, str], is_wanted: Callable[[str], object], pages: Pages, example_of: str = "transfer"
) -> str:
    """The entries that a filter leaves, those that are wanted; and that all are back without it."""
    listing, tab = opened(pages, example_of)
    for place, text in fields.items():
        tab.evaluate(f'byId("{place}").value = "{text}"; byId("{place}").dispatchEvent(new Event("input"))')
    wanted = [line for line in listing.splitlines() if is_wanted(line)]
    got = tab.evaluate("page.entries.map((it) => it.line)")
    count = tab.evaluate('document.querySelector("#entries table").ariaRowCount ?? byId("entries").ariaRowCount')
    told = f"{len(wanted)} entries shown"
    for place in fields:
        tab.evaluate(f'byId("{place}").value = ""; byId("{place}").dispatchEvent(new Event("input"))')
    return (
        unlike("entries", wanted, got)
        or unlike("rows", str(len(wanted) + 1), str(count))
        or unlike("all", listing.count("\n"), tab.evaluate("page.entries.length"))
        or ("" if wanted else f"nothing is wanted: {told}\n")
    )


def faulty_filter(pages: Pages) -> str:
    """What is said of names that aren't there."""
    _, tab = opened(pages)
    tab.evaluate('byId("objects").value = "eve"; byId("action").value = "a9"; page.applyFilter()')
    return unlike("faults", "no object eve, no action a9", text_of(tab, "faults"))
