"""What the page shows of objects, behind entries of runs: it is what the listing `stacks` of that front shows."""

from __future__ import annotations

from collections.abc import Iterator
from functools import partial
from random import Random

from calling import TOP
from pages import Pages, Tab, Test, move_to, shown, unlike
from runs import BY_HAND, CONFLICT, HOSTILE, as_text, by_chance, example, front, stacks

# The bases that the picture has which aren't those of the table.
OTHER_BASES = """page.run.objects.flatMap((object) => {
    const texts = new BaseTexts(object);
    const isOther = (base, place) => texts.of(place) !== contentsAt(object, [], base.at + 1)[0].slice(0, LETTERS);
    return object.bases.filter(isOther).map((base) => base.at);
})"""
RUNS = 20
ENTRIES = 50


def tests() -> Iterator[Test]:
    for seed in range(1, RUNS + 1):
        yield f"run {seed} by chance", partial(by_chance_at, seed)
    for path in sorted((TOP / "examples").glob("*.argus")):
        if path.stem != "refused":
            yield f"{path.name}, each entry", partial(example_at, path.stem)
    for name, lines in {"markup": HOSTILE, "a conflict": CONFLICT, "what no script does": BY_HAND}.items():
        yield f"{name}, each entry", partial(each, as_text(lines))


def by_chance_at(seed: int, pages: Pages) -> str:
    """What is wrong behind some entries of a run."""
    listing = by_chance(pages.programs, seed)
    places = range(listing.count("\n") + 1)
    return at_each(pages, listing, sorted(Random(seed).sample(places, ENTRIES)))


def example_at(name: str, pages: Pages) -> str:
    """What is wrong behind each entry of an example's run."""
    return each(example(pages.programs, name), pages)


def each(listing: str, pages: Pages) -> str:
    """What is wrong behind each entry of a run."""
    return at_each(pages, listing, list(range(listing.count("\n") + 1)))


def at_each(pages: Pages, listing: str, counts: list[int]) -> str:
    """What is wrong behind the first of these counts of entries where anything is."""
    tab = pages.open(listing, height=4000)
    faults = (at(pages, tab, listing, count) for count in counts)
    fault = next((it for it in faults if it), "") or unlike("bases", [], tab.evaluate(OTHER_BASES))
    fault = fault or unlike("faults", [], tab.faults())
    return fault


def at(pages: Pages, tab: Tab, listing: str, count: int) -> str:
    """What is wrong behind so many entries."""
    move_to(tab, count)
    wanted = stacks(pages.programs, front(listing, count))
    return unlike(f"behind {count} entries", wanted, shown(tab))
