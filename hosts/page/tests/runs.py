"""Runs that are opened as pages: journals by the program argus, and a listing whose texts are markup."""

from __future__ import annotations

import shutil
from collections.abc import Iterator
from pathlib import Path
from random import Random

from calling import JOURNAL, TOP, Programs
from draft import OBJECTS, SHAPE, draft

ACCOUNTS = [f"account{number}" for number in range(16)]
# A text that would be markup, or isn't one that a page can have as it is.
STRANGE = r'"</pre><script>document.title = 1</script> &lt; -> ' + '\r \\"quoted\\" \0 \x85 \ufffe"'
HOSTILE = [
    "0 declare atomic_array[text] -> o0",
    "1 begin_top -> a0",
    f"2 alter a0 o0 create 1[{STRANGE},{STRANGE}] -> done",
    f"3 ask a0 o0 whole -> body 1[{STRANGE},{STRANGE}]",
    "4 commit a0 -> done",
]
# One action wants what another one holds; an earlier one held it, too.
CONFLICT = [
    "0 declare atomic_record[n:int] -> o0",
    "1 begin_top -> a0",
    "2 begin_top -> a1",
    "3 begin_top -> a2",
    "4 alter a0 o0 create {1} -> done",
    "5 commit a0 -> done",
    "6 ask a1 o0 whole -> body {1}",
    "7 alter a2 o0 touch -> refused Conflict",
    "8 abort a2 -> done",
    "9 commit a1 -> done",
]
# What no script does: a nested topaction outlives the action that began it. And arrays that don't begin at 0 or 1.
BY_HAND = [
    "0 declare atomic_array[text] -> o0",
    "1 begin_top -> a0",
    "2 begin_sub a0 -> a1",
    "3 begin_nested a1 -> a2",
    '4 alter a2 o0 create 3["a -> b","c,d","]","}","f"] -> done',
    "5 abort a0 -> done",
    "6 alter a2 o0 trim 4 3 -> done",
    "7 alter a2 o0 store 5 \"\\\"\" -> done",
    "8 alter a2 o0 set_low -7 -> done",
    "9 alter a2 o0 addl \"e\" -> done",
    '10 alter a2 o0 remh -> val "}"',
    '11 alter a2 o0 reml -> val "e"',
    "12 alter a2 o0 store 9 \"\" -> signal bounds",
    "13 commit a2 -> done",
    "14 begin_top -> a3",
    "15 begin_nested a3 -> a4",
    '16 alter a4 o0 addh "g" -> done',
    "17 abort a3 -> done",
    "18 commit a1 -> refused Over",
    "19 ask a9 o0 size -> refused NoAction",
]


def as_text(lines: list[str]) -> str:
    """The text of lines, each with its line feed."""
    return "".join(f"{it}\n" for it in lines)


def bank(programs: Programs, entries: int) -> str:
    """The first so many entries of a bank's journal: topactions side by side, some of which abort, and their
    subactions."""
    lines = [f"declare {it} atomic_record[balance:int]" for it in ACCOUNTS] + ["enter topaction"]
    lines += [f"create {it} {{100}}" for it in ACCOUNTS] + ["end"]
    chance = Random(entries)
    for _ in range(entries // 40 + 1):
        lines += ["coenter", *(line for _ in range(4) for line in _order(chance)), "end"]
    return front(journal(programs, as_text(lines)), entries)


def _order(chance: Random) -> Iterator[str]:
    """An arm: an order of some transfers."""
    yield "topaction"
    for _ in range(chance.randint(2, 3)):
        source, target = chance.sample(ACCOUNTS, 2)
        yield from ("enter action", f"get {source} balance", f"set {source} balance {chance.randint(0, 200)}")
        yield f"set {target} balance {chance.randint(0, 200)}"
        yield from ["abort leave", "end"] if chance.random() < 0.2 else ["end"]
    if chance.random() < 0.1:
        yield "abort leave"


def by_chance(programs: Programs, seed: int) -> str:
    """The journal of a script of some drafts, one behind the other."""
    lines = [f"declare {it} {SHAPE}" for it in OBJECTS]
    drafts = (draft(1000 * seed + number)[len(OBJECTS) :] for number in range(6))
    return journal(programs, as_text(lines + [line for it in drafts for line in it]))


def example(programs: Programs, name: str) -> str:
    """The journal of an example script."""
    return journal(programs, (TOP / f"examples/{name}.argus").read_text(encoding="utf-8"))


def journal(programs: Programs, script: str) -> str:
    """The journal of a script. ValueError if it has none."""
    ended = programs.call("argus", JOURNAL, script.encode())
    if ended.status or not ended.output:
        raise ValueError(f"no journal: {ended.errors.decode()}")
    return ended.output.decode()


def front(listing: str, entries: int) -> str:
    """The listing of the first so many entries, which has no opening."""
    return as_text(listing.split("\n")[:-1][:entries])


def stacks(programs: Programs, listing: str) -> list[str]:
    """The lines of the listing `stacks` of the guardian that a journal leaves."""
    ended = programs.call("replay", [b"--list", b"stacks"], listing.encode())
    if ended.status:
        raise ValueError(f"not replayed: {ended.errors.decode()}")
    return ended.output.decode().split("\n")[:-1]


def make_launchers(folder: Path, programs: Programs) -> None:
    """Makes a folder's `./argus` and `./picture`, whose programs are these. The replay is that of the environment."""
    for name in ("tools/program.sh", "hosts", "examples"):
        (folder / name).parent.mkdir(parents=True, exist_ok=True)
        (folder / name).symlink_to(TOP / name)
    (folder / "crates.txt").write_text("argus: argus_cli\n", encoding="utf-8")
    for name in ("argus", "picture"):
        shutil.copy(TOP / name, folder)
    (folder / "crates/argus/out").mkdir(parents=True)
    (folder / "crates/argus/out/argus").symlink_to(programs.paths["argus"])
