"""Tests of scripts by what they say: a fault that is printed, or an outline that the journal of a run follows.

| Line | What it is |
|---|---|
| `| TEXT` | a line of the script |
| `= TEXT` | what has to come of it: a line of its outline, a fault, or `nothing` |
| `LINE -> STEP` | a row: one more script, with the row's line where the test has `| LINE`, and its step where it has `= STEP`; `nothing` if no step comes of it. A fault comes alone |

A test without rows is one script; a test with rows has one for each.
"""

from collections.abc import Iterator
from functools import partial
from pathlib import Path

from calling import Programs, Trial, compared, shortened
from outlines import Differs, Follower, outline_of
from reading import Test
from spelling import lines_of, spelled, spelled_line, spelled_lines, tests_of


def trials(path: Path) -> Iterator[Trial]:
    """Each script of a file."""
    for test in tests_of(path):
        rows = [line for line in lines_of(test) if line[0] not in "|="]
        for row in rows or [" -> "]:
            line, _, answer = row.partition(" -> ")
            yield f"{test.name}: {row}", partial(parsed, script_of(test, line), wanted_of(test, answer))


def script_of(test: Test, row: str) -> bytes:
    """The script of a test, with a row's line in it."""
    lines = [line[2:] for line in test.lines if line.startswith("|")]
    return b"".join(spelled_lines(row if line == "LINE" else line) for line in lines)


def wanted_of(test: Test, answer: str) -> bytes:
    """What has to come of it, with a row's answer in it."""
    if answer.startswith("line "):
        return spelled_line(answer)
    lines = [line[2:] for line in test.lines if line.startswith("=")]
    return b"".join(outlined(line, answer) for line in lines)


def outlined(line: str, answer: str) -> bytes:
    """The lines of an outline that a line of a test stands for."""
    if not line.endswith("STEP"):
        return b"" if line == "nothing" else spelled_lines(line)
    return b"" if answer == "nothing" else spelled(line.removesuffix("STEP")) + spelled_line(answer)


def parsed(script: bytes, wanted: bytes, programs: Programs) -> str:
    """What is wrong with what comes of a script."""
    if wanted.startswith(b"line "):
        return compared(programs.call("argus", (), script), 3, b"", wanted)
    outline = outline_of(wanted.decode())
    run = programs.call("argus", [b"--list", b"journal"], script)
    if run.status != 0:
        return compared(run, 0, wanted, b"")
    try:
        Follower(run.output.decode()).follow(outline)
    except Differs as differs:
        return str(differs)
    names = [step.text.split(" ")[2] for step in outline if step.text.startswith("declare ")]
    listed = [line.split(" ")[0] for line in programs.call("argus", (), script).output.decode().split("\n")[:-1]]
    return "" if listed == names else f"names {shortened(' '.join(listed).encode())}"
