"""Pages that are opened: their lines, how long they take, that they ask for nothing, and who joins them."""

from __future__ import annotations

import subprocess
import time
from collections.abc import Iterator
from functools import partial

from argus_guardian.page import page_of
from calling import JOURNAL, TOP
from lines import lines_of
from pages import Pages, Tab, Test, rows_of, unlike
from runs import HOSTILE, as_text, bank, example

# So many entries have the pages whose time is printed.
SIZES = [528, 5_000, 65_536]
# Of a run with no more entries than this the page has the program's picture, too.
MOST_DRAWN = 64


def tests() -> Iterator[Test]:
    for entries in SIZES:
        yield f"a page of {entries} entries", partial(opened, entries)
    yield "a page of 14 entries", fourteen
    yield "a page without entries", lambda pages: with_lines(pages, "")
    yield "texts that would be markup", lambda pages: with_lines(pages, as_text(HOSTILE))
    for entries in (MOST_DRAWN, MOST_DRAWN + 1):
        yield f"the program's picture, of {entries} entries", partial(framed, entries)
    yield "the page of examples/bank.argus", recipe
    yield "a page without its scripts", unscripted
    yield "a page that Python joins", joined


def opened(entries: int, pages: Pages) -> str:
    """What is wrong with a page of a bank's run. How long it takes until it is drawn is printed."""
    listing = bank(pages.programs, entries)
    path = pages.page(listing)
    tab = pages.browser.open(pages.page(""))
    before = taken(tab)
    began = time.monotonic()
    tab.reopen(path)
    took = taken(tab) - before
    whole = time.monotonic() - began
    print(f"page: {entries} entries are drawn after {took:.2f} s of a processor, {whole:.2f} s in all")
    return of_tab(pages, tab, listing)


def taken(tab: Tab) -> float:
    """The seconds of a processor that the page's thread has taken."""
    tab.call("Performance.enable", timeDomain="threadTicks")
    metrics = tab.call("Performance.getMetrics")["metrics"]
    return next(it["value"] for it in metrics if it["name"] == "ThreadTime")


def fourteen(pages: Pages) -> str:
    """What is wrong with the page of an example."""
    listing = example(pages.programs, "arms")
    return unlike("entries", 14, listing.count("\n")) or with_lines(pages, listing)


def with_lines(pages: Pages, listing: str) -> str:
    """What is wrong with a page of these lines."""
    return of_tab(pages, pages.open(listing), listing)


def of_tab(pages: Pages, tab: Tab, listing: str) -> str:
    """What is wrong with a page that is open: it has the lines, a replay agrees, and it is drawn without a fault."""
    kept = lines_of(tab.path.read_bytes().decode())
    replayed = pages.programs.call("replay", JOURNAL, kept.encode()).output.decode()
    is_drawn = tab.evaluate("page.scene.places.length > 0") or not listing
    fault = (
        unlike("lines", listing, kept)
        or unlike("a replay", listing, replayed)
        or unlike("the browser's lines", listing, tab.evaluate('listingOf(byId("listing"))'))
        or unlike("entries", listing.count("\n"), tab.evaluate("page.run.entries.length"))
        or unlike("faults", [], tab.faults())
        or unlike("title", "A run of a guardian", tab.evaluate("document.title"))
    )
    return fault or ("" if is_drawn else "nothing is drawn\n")


def framed(entries: int, pages: Pages) -> str:
    """Whether the frame has the program's picture, as it is, and only of a small run."""
    listing = bank(pages.programs, entries)
    tab = pages.open(listing)
    frame = tab.evaluate('document.querySelector("#picture iframe")?.srcdoc ?? ""')
    picture = pages.programs.call("picture", (), listing.encode()).output.decode()
    wanted = picture if entries <= MOST_DRAWN else ""
    return unlike("the picture", wanted, frame[frame.index("<svg") :] if frame else "")


def recipe(pages: Pages) -> str:
    """Whether an example's page comes of the command line that it says, and has the serial order of its topactions."""
    script = (TOP / "examples/bank.argus").read_text(encoding="utf-8")
    command = next(line.removeprefix("#   ") for line in script.splitlines() if line.startswith("#   "))
    subprocess.run(["sh", "-c", command], cwd=pages.top, check=True)
    tab = pages.browser.open(pages.top / "run.html")
    order = [["1", "a0", "9"], ["2", "a1", "27"], ["3", "a3", "37"]]
    got = [it[:3] for it in rows_of(tab, "serial")]
    return unlike("serial order", order, got) or of_tab(pages, tab, example(pages.programs, "bank"))


def unscripted(pages: Pages) -> str:
    """Whether the lines can be read where no script runs."""
    listing = example(pages.programs, "arms")
    path = pages.page(listing)
    tab = pages.browser.open(pages.page(""))
    tab.call("Emulation.setScriptExecutionDisabled", value=True)
    tab.call("Page.navigate", url=path.as_uri())
    tab.wait_for("Page.loadEventFired")
    tree = tab.call("Accessibility.getFullAXTree")["nodes"]
    names = [it.get("name", {}).get("value", "") for it in tree if not it["ignored"]]
    return "" if any(listing.strip() in it for it in names) else f"no lines: {names}\n"


def joined(pages: Pages) -> str:
    """Whether Python joins the page that the launcher does, but for the program's picture."""
    listing, script = as_text(HOSTILE), "declare queue atomic_array[text]\n"
    theirs = pages.page(listing, script).read_bytes().decode()
    ours = page_of(listing, ["queue"])
    head, _, rest = theirs.partition('<section id="picture">\n')
    return unlike("the page", f'{head}<section id="picture">\n{rest[rest.index("</section>"):]}', ours)
