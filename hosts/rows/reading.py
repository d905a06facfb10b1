"""Files of rows: their tests, rows that stand for many, and marks that stand for bytes.

This is what all rows have in common, here, in tools/programs, and in crates/guardian_tests, which reads them in Rattle and
has no marks and no rows that stand for many. A file says at its head what its own rows are. An empty line separates tests, and a line that begins with `#` is a
comment. What a row gets comes from the rules, never from a run.

| Line | What it is |
|---|---|
| `before each test` | at most once in a file: heads the rows that come first in each of the tests below it |
| `test NAME`, `large test NAME` | heads the rows of a test; a large one is run only with ample memory |
| `ASKED -> ANSWER` | a row; the first arrow splits it |
| `from 1 to 63: ROW` | 63 rows: in each, `%` is the number and `^` the one below it; `from 63 to 1` counts down |

| In a row | What it stands for |
|---|---|
| `<128 times TEXT>` | the text so many times |
| `<from 0 to 63: TEXT>` | the text for each number, as above |
| `<tab>`, `<space>`, `<return>`, `<feed>`, `<byte 255>` | this byte |

A test's rows go to what is tested twice: with ample memory; and, except in a large test, with each allocation refused
in turn. After a refusal nothing may have changed, and in the end a row gets the answer that it says.
"""

from __future__ import annotations

import re
from collections.abc import Iterator
from typing import NamedTuple

BEFORE = "before each test\n"
HEADING = re.compile(r"(large )?test (\w+)")
COUNTED = re.compile(r"from (\d+) to (\d+): ?(.*)", re.DOTALL)
# A variant's `<0:5>` isn't a mark.
MARK = re.compile(r"<(\d+ times [^<>]*|[a-z][^<>]*)>")
BYTES = {"tab": "\t", "space": " ", "return": "\r", "feed": "\n"}


class Test(NamedTuple):
    """A test of a file, with the lines that come before those of each test."""

    name: str
    is_large: bool
    lines: list[str]

    def rows(self) -> Iterator[str]:
        """Its rows one after another; those that a line stands for each by itself."""
        for line in self.lines:
            if line.startswith("#"):
                continue
            counted = COUNTED.fullmatch(line)
            if counted:
                yield from each_of(counted)
            else:
                yield line


def each_of(counted: re.Match[str]) -> Iterator[str]:
    """The texts for each number, up or down: `%` is the number, and `^` the one below it."""
    first, last, text = int(counted[1]), int(counted[2]), counted[3]
    step = 1 if first <= last else -1
    for number in range(first, last + step, step):
        yield text.replace("%", str(number)).replace("^", str(number - 1))


def tests_of(text: str) -> list[Test]:
    """The tests of a file's text. ValueError where lines stand in no test."""
    above, _, below = text.partition(BEFORE)
    before, _, tests = below.partition("\n\n")
    return [*_tests_in("", above), *_tests_in(before, tests)]


def _tests_in(before: str, text: str) -> Iterator[Test]:
    for block in text.split("\n\n"):
        heading, *lines = block.splitlines() or [""]
        found = HEADING.fullmatch(heading)
        if found:
            yield Test(found[2], bool(found[1]), [*before.splitlines(), *lines])
        elif any(not line.startswith("#") for line in (heading, *lines) if line):
            raise ValueError(f"lines stand in no test: {heading}")


def spelled(text: str) -> str:
    """The text with what its marks stand for. Bytes that are no UTF-8 stand as in names of files (surrogateescape)."""
    return MARK.sub(_bytes_of, text) if "<" in text else text


def _bytes_of(mark: re.Match[str]) -> str:
    name = mark[1]
    counted = COUNTED.fullmatch(name)
    if counted:
        return "".join(each_of(counted))
    if name.startswith("byte "):
        return bytes([int(name[5:])]).decode("utf-8", "surrogateescape")
    if " times " in name:
        times, _, text = name.partition(" times ")
        return int(times) * text
    return BYTES[name]


def as_bytes(text: str) -> bytes:
    """The bytes of a spelled text."""
    return text.encode("utf-8", "surrogateescape")
