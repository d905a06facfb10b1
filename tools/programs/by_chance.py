"""Scripts by chance: their journals are those of a walk over their lines, in which the definitions give each reply.

The journal also comes back from a replay. One that several workers leave, with some patience or none, has its own
order; made again call by call, its calls have the same replies. Whatever waits for whatever, the run comes to its end.
"""

from __future__ import annotations

from collections.abc import Iterator
from functools import partial
from random import Random

from calling import JOURNAL, Programs, Trial, shortened
from coming_back import replayed
from draft import draft
from walk import Walk, steps_of

PATIENCES = [0, 1, 20, 1000]


def trials(count: int, first: int) -> Iterator[Trial]:
    """So many scripts, each with a seed of its own, from this one on."""
    for seed in range(first, first + count):
        yield f"script {seed}", partial(carried_out, draft(seed))
        by = Random(seed)
        yield f"script {seed}, by workers", partial(shared, draft(seed), by.randint(2, 8), by.choice(PATIENCES))


def carried_out(lines: list[str], programs: Programs) -> str:
    """What is wrong with a script's journal, or with what comes back of it."""
    script = as_text(lines)
    walk = Walk()
    walk.run(steps_of(lines))
    listed = programs.call("argus", JOURNAL, script)
    fault = difference(as_text(walk.lines()), listed.output) or replayed(listed, programs)
    return f"{fault}of\n{shortened(script)}" if fault else ""


def shared(lines: list[str], workers: int, patience: int, programs: Programs) -> str:
    """What is wrong with the journal that these workers leave of a script."""
    words = [b"--workers", b"%d" % workers, b"--patience", b"%d" % patience, *JOURNAL]
    listed = programs.call("argus", words, as_text(lines))
    fault = difference(as_text(made_again(listed.output)), listed.output) if listed.output else "nothing is listed\n"
    return f"{fault}by {workers} workers with patience {patience}, of\n{shortened(as_text(lines))}" if fault else ""


def made_again(listed: bytes) -> list[str]:
    """The lines of a journal, whose calls get the replies of the definitions, up to one that is no call."""
    walk = Walk()
    for line in listed.decode("utf-8", "replace").splitlines():
        try:
            walk.call(line.partition(" -> ")[0].partition(" ")[2])
        except (ValueError, KeyError, IndexError):
            break
    return walk.lines()


def as_text(lines: list[str]) -> bytes:
    """The bytes of lines."""
    return "".join(f"{it}\n" for it in lines).encode()


def difference(wanted: bytes, got: bytes) -> str:
    """The first line that isn't the one that is wanted, or nothing."""
    if wanted == got:
        return ""
    here, there = ([*it.decode("utf-8", "replace").splitlines(), "no line"] for it in (wanted, got))
    at = next(at for at, (one, other) in enumerate(zip(here, there)) if one != other or "no line" in (one, other))
    return f"call {at}: wanted {here[at]}\n  got {there[at]}\n"
