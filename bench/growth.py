#!/usr/bin/env python3
# SPDX-License-Identifier: MIT
"""Prints how the costs of argus and replay grow: a row for each input that makes one of them slow.

    bench/growth.py [--full] [ROW ..]      all rows, or those with these names
    taskset -c 3 bench/growth.py           on one processor

A row is measured at two lengths, the second twice the first. The ratio of both figures is 2 if a cost grows as its
input does, 4 if it is quadratic, 8 if it is cubic. A figure is the processor time (user's and system's) of the whole
program. Figures of runs under two seconds are medians of three. With --full the lengths are large: the programs'
limits, or what takes a minute. What is printed is a table in Markdown. Nothing is compared with a limit, since the
figures are the machine's.
--calls prints instead of what the time of each public call and listing depends.

The programs have to be built: .ci/run leaves them, and so do ./argus --prove and its like. ARGUS and REPLAY in the
environment name others.
"""

import argparse
import os
import statistics
import subprocess
import sys
import tempfile
from collections.abc import Callable, Iterator
from functools import wraps
from pathlib import Path
from typing import NamedTuple

TOP = Path(__file__).resolve().parents[1]

Lines = Iterator[str]
Input = Callable[[int], Lines]


class Row(NamedTuple):
    """A program with an input of any length, and what its cost should depend on."""

    name: str
    command: str
    input: Input
    lengths: tuple[int, int]
    full: tuple[int, int]
    unit: str
    depends: str


def program(name: str) -> str:
    """The path of a built program. SystemExit: it isn't there."""
    path = os.environ.get(name.upper(), str(TOP / f"crates/{name}/out/{name}"))
    if not os.access(path, os.X_OK):
        sys.exit(f"no program {path}: .ci/run leaves it, and ./{name} --prove")
    return path


def journal(entries: Input) -> Input:
    """Makes a journal's listing of entries: each gets its number."""

    @wraps(entries)
    def listing(count: int) -> Lines:
        return (f"{number} {entry}" for number, entry in enumerate(entries(count)))

    return listing


def aborts(count: int) -> Lines:
    """A script: a topaction creates 400 records, then so many of its subactions set one and are aborted."""
    yield from (f"declare r{record} atomic_record[n:int]" for record in range(400))
    yield "enter topaction"
    yield from (f"create r{record} {{0}}" for record in range(400))
    for number in range(count):
        yield from ("enter action", f"set r{number % 400} n {number}", "abort leave", "end")
    yield "end"


def aborts_journal(count: int) -> Lines:
    """The journal of this script's run."""
    script = "".join(f"{line}\n" for line in aborts(count))
    command = [program("argus"), "--list", "journal"]
    done = subprocess.run(command, input=script, stdout=subprocess.PIPE, text=True, check=True)
    yield from done.stdout.splitlines()


def declares(count: int) -> Lines:
    """A script that declares so many objects, and does no more."""
    return (f"declare r{record} atomic_record[n:int]" for record in range(count))


@journal
def held(count: int) -> Lines:
    """1,000 declares, and so many entries of a topaction that is live at the end. Of ten entries eight are its writes;
    after these, the others begin subactions and abort them."""
    yield from (f"declare atomic_record[n:int] -> o{record}" for record in range(1_000))
    yield "begin_top -> a0"
    yield from (f"alter a0 o{record} create {{0}} -> done" for record in range(1_000))
    yield from (f"alter a0 o{number % 1_000} set_field 0 {number} -> done" for number in range(1_001, count * 8 // 10))
    for action in range(1, count // 10 + 1):
        yield from (f"begin_sub a0 -> a{action}", f"abort a{action} -> done")


@journal
def readers(count: int) -> Lines:
    """So many topactions read one object. When all of them hold it, they commit, in the order in which they began."""
    yield "declare atomic_record[n:int] -> o0"
    for action in range(count):
        yield from (f"begin_top -> a{action}", f"ask a{action} o0 whole -> signal absent")
    yield from (f"commit a{action} -> done" for action in range(count))


@journal
def old_reader(count: int) -> Lines:
    """So many topactions read one object, and then the oldest of them reads it as often again."""
    yield "declare atomic_record[n:int] -> o0"
    for action in range(count):
        yield from (f"begin_top -> a{action}", f"ask a{action} o0 whole -> signal absent")
    yield from ("ask a0 o0 whole -> signal absent" for _ in range(count))


@journal
def aborted_readers(count: int) -> Lines:
    """So many topactions read one object. When all of them hold it, they abort, in the order in which they began."""
    yield "declare atomic_record[n:int] -> o0"
    for action in range(count):
        yield from (f"begin_top -> a{action}", f"ask a{action} o0 whole -> signal absent")
    yield from (f"abort a{action} -> done" for action in range(count))


def lines(count: int) -> Lines:
    """A script of so many lines (or one or two fewer): one record is set by block after block."""
    yield from ("declare acct atomic_record[balance:int]", "enter topaction", "create acct {0}", "end")
    for number in range((count - 4) // 3):
        yield from ("enter topaction", f"set acct balance {number}", "end")


ROWS = (
    Row(
        "aborts",
        "argus --list audit",
        aborts,
        (500, 1_000),
        (2_000, 4_000),
        "aborted subactions of a topaction that created 400 objects",
        "It should grow with the entries.",
    ),
    Row(
        "replayed",
        "replay --list audit",
        aborts_journal,
        (500, 1_000),
        (2_000, 4_000),
        "of them, in the journal of the same run",
        "It should grow with the entries.",
    ),
    Row(
        "declares",
        "argus --list audit",
        declares,
        (16_000, 32_000),
        (32_767, 65_535),
        "objects that are declared, and no more",
        "It should grow with the objects.",
    ),
    Row(
        "held",
        "replay --list audit",
        held,
        (3_000, 6_000),
        (3_000, 6_000),
        "entries of a live topaction that wrote 1,000 objects; every tenth aborts a subaction",
        "It should grow with the entries.",
    ),
    Row(
        "readers",
        "replay",
        readers,
        (5_000, 10_000),
        (20_000, 40_000),
        "live readers of one object, which then commit",
        "It should grow with the readers.",
    ),
    Row(
        "old_reader",
        "replay",
        old_reader,
        (5_000, 10_000),
        (20_000, 40_000),
        "live readers of one object, whose oldest then reads it as often",
        "It should grow with the readers.",
    ),
    Row(
        "aborted_readers",
        "replay",
        aborted_readers,
        (5_000, 10_000),
        (20_000, 40_000),
        "live readers of one object, which then abort",
        "It should grow with the readers.",
    ),
    Row(
        "lines",
        "argus",
        lines,
        (50_000, 100_000),
        (50_000, 100_000),
        "lines of a script, which is parsed and run",
        "It should grow with the lines, and does: this is a good ratio.",
    ),
)


def cost_once(command: list[str], path: Path) -> float:
    """The seconds of a run with this file as its input. SystemExit: its status isn't 0."""
    with path.open("rb") as given:
        process = subprocess.Popen(command, stdin=given, stdout=subprocess.DEVNULL)
        _, status, used = os.wait4(process.pid, 0)
    process.returncode = os.waitstatus_to_exitcode(status)
    if process.returncode != 0:
        sys.exit(f"{' '.join(command)}: status {process.returncode}")
    return used.ru_utime + used.ru_stime


def cost(command: list[str], path: Path) -> float:
    """The median of three runs, or a single one that takes two seconds."""
    costs = [cost_once(command, path)]
    while len(costs) < 3 and costs[0] < 2:
        costs.append(cost_once(command, path))
    return statistics.median(costs)


def cost_at(row: Row, length: int) -> float:
    """How many seconds the row takes at this length."""
    name, *words = row.command.split()
    with tempfile.TemporaryDirectory() as room:
        path = Path(room, "input")
        with path.open("w", encoding="utf-8") as file:
            file.writelines(f"{line}\n" for line in row.input(length))
        return cost([program(name), *words], path)


# Of what the time of public calls depends, beside the lengths of what they are given and of what they return.
CALLS = {
    "declare, begin_top, begin_sub, begin_nested": "nothing",
    "status, shape, base, holders, versions, objects, journal": "nothing",
    "ask, test_read, can_read": "how deep the action is; the logarithm of the object's readers",
    "alter, test_write, can_write, access_refusal": "the same; an action's first change copies the content",
    "commit, ready_commit, make, effect": "the objects that the action holds",
    "abort": "the actions begun under it, ended ones too, and the objects that they hold",
    "abort_others": "the siblings down to the oldest live one, and what an abort of each live one visits",
    "abort_live": "the actions since the opening, and what an abort of each live one visits",
    "live": "the actions from the given one to the next that is live",
    "checkpoint, starting_at": "the entries that are dropped; the objects with their contents",
    "owner_of, replay_for, replay_base": "the entries",
    "Shared: call, answer, call_each": "the call itself; with lookers, a commit makes its changes in two tables",
    "Shared: call_waiting, answer_waiting": "the same for each time that it is woken",
    "Shared: brief, refresh": "what isn't published yet",
    "Shared: checkpoint; settle, check": "the guardian's checkpoint; the receipts",
    "look": "the objects that are looked at",
    "listings Bases and Stacks": "the objects with their contents and holders",
    "listing Journal; resume": "the entries, and the opening's objects; each line as its call",
    "listing Audit": "the entries and the objects",
    "parse; runs of scripts": "the bytes, and the logarithm of the names; the calls",
}


def rounded(figure: float) -> str:
    """Two digits, or all of those before the point."""
    return f"{figure:,.0f}" if figure >= 10 else f"{figure:.2g}"


def table_line(row: Row, lengths: tuple[int, int], figures: tuple[float, float]) -> str:
    """A line of the table: what was measured, of what it should depend, and the figures."""
    few, many = (f"{length:,}" for length in lengths)
    first, second = (rounded(figure) for figure in figures)
    measured = f"{row.name}: `{row.command}` of {few} and {many} {row.unit}"
    return f"| {measured} | {row.depends} | {first} s | {second} s | {figures[1] / figures[0]:.1f} |"


def show(row: Row, lengths: tuple[int, int]) -> None:
    """Measures a row, and prints its time."""
    first, second = (cost_at(row, length) for length in lengths)
    print(table_line(row, lengths, (first, second)), flush=True)


def main() -> None:
    """Prints the rows that are asked for."""
    names = [row.name for row in ROWS]
    parser = argparse.ArgumentParser(description=(__doc__ or "").splitlines()[0])
    parser.add_argument("--full", action="store_true", help="the large lengths, which take some minutes")
    parser.add_argument("--calls", action="store_true", help="of what the time of each public call depends")
    parser.add_argument("rows", nargs="*", metavar="ROW", help=f"one of {', '.join(names)}; by default all")
    options = parser.parse_args()
    for name in options.rows:
        if name not in names:
            parser.error(f"no row {name}: {', '.join(names)}")
    if options.calls:
        print("| Call | Its time depends on |\n|---|---|")
        print("\n".join(f"| {call} | {what} |" for call, what in CALLS.items()))
        return
    print("| Row | It should depend on | First | Second | Ratio |\n|---|---|---|---|---|")
    for row in ROWS:
        if not options.rows or row.name in options.rows:
            show(row, row.full if options.full else row.lengths)


if __name__ == "__main__":
    main()
