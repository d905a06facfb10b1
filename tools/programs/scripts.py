"""Tests of scripts and listings: the words with which a program is called, its input, and what it prints.

| Line | What it is |
|---|---|
| `argus WORDS`, `replay WORDS`, `picture WORDS` | how the program is called; `argus` without words if the line is left out |
| `| TEXT` | a line of the input |
| `= TEXT` | a line of what is printed |
| `or TEXT` | a line of what may be printed in its place |
| `! TEXT` | the fault on standard error: with status 3, or with 0 beside the listing for `--prefix` |
| `workers 1 2 4` | it is called by each of these numbers of workers, with `--list journal`: the lines with `=` are the entries in script order, without their numbers. Each action's come in that order |
| `bases {1} {2}` | what is in the objects after each of these runs |
"""

import re
from collections import defaultdict
from collections.abc import Iterator
from dataclasses import dataclass, field
from functools import partial
from pathlib import Path

from calling import FULL, Programs, Trial, compared, shortened
from reading import Test
from spelling import lines_of, spelled, spelled_lines, tests_of, words_of


@dataclass
class Script:
    """A test as it is read."""

    program: str = "argus"
    words: list[bytes] = field(default_factory=list)
    given: bytes = b""
    listing: bytes = b""
    other: bytes = b""
    fault: bytes = b""
    workers: list[str] = field(default_factory=list)
    bases: bytes = b""

    def add(self, line: str) -> None:
        """Reads a line of the test. ValueError: there is none of this kind."""
        word, _, text = line.partition(" ")
        if word in ("argus", "replay", "picture"):
            self.program, self.words = word, words_of(text)
        elif word == "workers":
            self.workers = text.split()
        elif word == "bases":
            self.bases = spelled(text)
        elif word == "!":
            self.fault = spelled(text) + b"\n"
        elif word == "|":
            self.given += spelled_lines(text)
        elif word == "=":
            self.listing += spelled_lines(text)
        elif word == "or":
            self.other += spelled_lines(text)
        else:
            raise ValueError(f"no line of a test: {line}")


def script_of(test: Test) -> Script:
    """What the lines of a test say."""
    script = Script()
    for line in lines_of(test):
        script.add(line)
    return script


def trials(path: Path) -> Iterator[Trial]:
    """Each test of a file; and once more on a full device, if it prints something."""
    for test in tests_of(path):
        script = script_of(test)
        for number in script.workers:
            yield f"{test.name}, {number} workers", partial(by_workers, script, number.encode())
        if not script.workers:
            yield test.name, partial(listed, script)
            if script.listing and FULL.exists():
                yield f"{test.name}, on a full device", partial(on_full, script)


def listed(script: Script, programs: Programs) -> str:
    """What is wrong with what the program prints."""
    ended = programs.call(script.program, script.words, script.given)
    is_other = script.other and ended.output == script.other
    status = 3 if script.fault and b"--prefix" not in script.words else 0
    return compared(ended, status, script.other if is_other else script.listing, script.fault)


def on_full(script: Script, programs: Programs) -> str:
    """What is wrong where nothing can be printed."""
    ended = programs.call(script.program, script.words, script.given, output=FULL)
    return compared(ended, 5, b"", b"write fault\n")


def by_workers(script: Script, number: bytes, programs: Programs) -> str:
    """What is wrong where so many workers run the script."""
    team = [b"--workers", number]
    run = programs.call("argus", [*team, b"--list", b"journal"], script.given)
    if run.status != 0 or by_action(unnumbered(run.output)) != by_action(script.listing.decode().splitlines()):
        wanted = f"wanted, in whatever order of the arms:\n{shortened(script.listing)}"
        return f"status {run.status}\n{shortened(run.output)}{wanted}"
    listing = programs.call("argus", team, script.given).output.splitlines()
    bases = b" ".join(line.split(b" ", 1)[1] for line in listing)
    return "" if bases == script.bases else f"bases {shortened(bases)}, wanted {shortened(script.bases)}"


def unnumbered(journal: bytes) -> list[str]:
    """The entries of a journal without their numbers. One that hasn't the next number keeps it."""
    return [line.removeprefix(f"{at} ") for at, line in enumerate(journal.decode().splitlines())]


def by_action(entries: list[str]) -> dict[str, list[str]]:
    """The entries of each action, and those of none."""
    found = defaultdict(list)
    for entry in entries:
        actor = re.match(r"\w+ (a\d+)", entry)
        found[actor[1] if actor else ""].append(entry)
    return dict(found)
