"""Files of rows as bytes: their marks and counted lines are those of hosts/rows/reading.py."""

from collections.abc import Iterator
from pathlib import Path

import reading
from reading import COUNTED, Test, as_bytes, each_of


def tests_of(path: Path) -> list[Test]:
    """The tests of a file, which empty lines separate. ValueError: lines that are none."""
    return reading.tests_of(path.read_text(encoding="utf-8"))


def lines_of(test: Test) -> list[str]:
    """The lines of a test without its comments."""
    return [line for line in test.lines if not line.startswith("#")]


def rows_of(path: Path) -> Iterator[str]:
    """The rows of a file in which each line is one."""
    for line in path.read_text(encoding="utf-8").splitlines():
        if line and not line.startswith("#"):
            yield line


def spelled(text: str) -> bytes:
    """The bytes that a text stands for. KeyError: a mark that doesn't exist."""
    return as_bytes(reading.spelled(text))


def spelled_line(text: str) -> bytes:
    """The bytes of a line with its line feed, which `<cut>` at its end leaves out."""
    return spelled(text.removesuffix("<cut>")) if text.endswith("<cut>") else spelled(text) + b"\n"


def spelled_lines(text: str) -> bytes:
    """The bytes of all lines that a line stands for."""
    counted = COUNTED.fullmatch(text)
    return b"".join(map(spelled_line, each_of(counted) if counted else [text]))


def words_of(text: str) -> list[bytes]:
    """The words of a command line. One in quotes may have blanks in it, or nothing."""
    parts = text.split('"')
    return [spelled(it) for at, part in enumerate(parts) for it in ([part] if at % 2 else part.split())]
