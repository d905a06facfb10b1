"""The page's own work grows as the listing does: four times as many entries run at most five times as many blocks."""

from __future__ import annotations

import json
from collections.abc import Callable, Iterator
from functools import partial

from pages import Pages, Tab, Test

FEW, MANY = 16_000, 64_000
# Where work grew as the square, this would be sixteen.
MOST = 5
# The lengths of the arrays that these go through are counted as blocks are.
WALKS = ["concat", "fill", "filter", "find", "findIndex", "includes", "indexOf", "join", "map", "reverse"]
WALKS += ["shift", "slice", "sort", "splice", "unshift"]
COUNT_WALKS = f"""(() => {{
    window.walked = 0;
    for (const name of {json.dumps(WALKS)}) {{
        const plain = Array.prototype[name];
        Array.prototype[name] = function (...given) {{
            window.walked += this.length;
            return plain.apply(this, given);
        }};
    }}
}})()"""
WORK = """(() => {
    const run = new Run(window.listing, []);
    for (const part of [1, 2, 3]) stateAt(run, Math.floor(run.entries.length * part / 3)).slice(0, 40).map(stackLine);
    new Filter(run, "o0", "a0", "committed");
    new BaseTexts(run.objects[0]).of(run.objects[0].bases.length - 1);
    const scene = new Scene(document.createElement("canvas"), run);
    scene.view.resize(1400, 600);
    scene.draw(new Filter(run, "", "", ""), { count: run.entries.length, action: null });
})()"""
ARRAY = "0 declare atomic_array[int] -> o0"


def tests() -> Iterator[Test]:
    for shape in (live, readers, waiting, wanted, nested, queue, commits, objects):
        yield f"{shape.__name__}: {shape.__doc__}", partial(grows, shape)


def live(at: int) -> str:
    """Topactions that stay live."""
    return f"begin_top -> a{at - 1}"


def readers(at: int) -> str:
    """Each looks at one object, which all hold."""
    return f"begin_top -> a{at // 2}" if at % 2 else f"test_read a{at // 2 - 1} o0 -> flag true"


def waiting(at: int) -> str:
    """Each is refused a lock that another one has."""
    if at == 2:
        return "alter a0 o0 create 1[] -> done"
    return f"begin_top -> a{at // 2}" if at % 2 else f"alter a{at // 2 - 1} o0 touch -> refused Conflict"


def wanted(at: int) -> str:
    """An object that many read, and as many are refused."""
    number = (at - 1) // 2
    if at % 2:
        return f"begin_top -> a{number}"
    return f"alter a{number} o0 touch -> refused Conflict" if number % 2 else f"test_read a{number} o0 -> flag true"


def nested(at: int) -> str:
    """A nested topaction in each."""
    return "begin_top -> a0" if at == 1 else f"begin_nested a{at - 2} -> a{at - 1}"


def queue(at: int) -> str:
    """An array to whose one end is added, and from whose other end is taken."""
    first = ["", "begin_top -> a0", "alter a0 o0 create 1[] -> done"]
    if at < len(first):
        return first[at]
    return "alter a0 o0 reml -> val 5" if at % 3 == 0 and at > 5 else "alter a0 o0 addh 5 -> done"


def commits(at: int) -> str:
    """An array to which each topaction adds."""
    first = ["", "begin_top -> a0", "alter a0 o0 create 1[] -> done", "commit a0 -> done"]
    if at < len(first):
        return first[at]
    number, step = (at - 4) // 3 + 1, (at - 4) % 3
    return [f"begin_top -> a{number}", f"alter a{number} o0 addh 5 -> done", f"commit a{number} -> done"][step]


def objects(at: int) -> str:
    """Objects alone."""
    return f"declare atomic_array[int] -> o{at}"


def grows(entry: Callable[[int], str], pages: Pages) -> str:
    """What is wrong with how much a run of this shape takes, of whose first entries this says what the line is."""
    tab = pages.browser.open(pages.page(""))
    tab.call("Profiler.enable")
    tab.call("Profiler.startPreciseCoverage", callCount=True, detailed=True)
    tab.reopen(pages.page(""))  # What was compiled before isn't counted.
    tab.evaluate(COUNT_WALKS)
    few, many = (steps(tab, [ARRAY] + [f"{at} {entry(at)}" for at in range(1, it)]) for it in (FEW, MANY))
    return f"{few} blocks, and then {many}\n" if many > MOST * few else ""


def steps(tab: Tab, lines: list[str]) -> int:
    """How many blocks of the page's script the work over these lines runs, and how far its walks over arrays go."""
    tab.call("Profiler.takePreciseCoverage")
    tab.evaluate(f"window.listing = {json_of(lines)}; window.walked = 0; {WORK}; undefined")
    scripts = tab.call("Profiler.takePreciseCoverage")["result"]
    blocks = sum(it["count"] for script in scripts for one in script["functions"] for it in one["ranges"])
    return blocks + int(tab.evaluate("window.walked"))


def json_of(lines: list[str]) -> str:
    """The text of these lines, as a script spells it."""
    return json.dumps("".join(f"{it}\n" for it in lines))
