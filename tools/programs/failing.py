"""The programs at their work, with each allocation refused in turn, each read failing, and a writer that is full.

A row's script is run by one worker and by two, listed and replayed, also from a log in a database. A library that is
laid before the C library's (failing.c, by LD_PRELOAD) has an allocation, a read or a write fail, and counts how often
one did. So it needs a compiler for C, and programs that are linked with the C library when they start, as the kit's
are.

    test NAME
    | TEXT                      a line of the script

What fails, and what has to come of it:

- All allocations; all but the first; all but the first two; and so on, on any thread, also those for the words of the
  command line: status 4, `out of memory`, and a prefix is written.
- Each read of standard input in turn, and each of a database's file, where a read returns at most seven bytes:
  status 5, `read fault`; nothing is written, and no read is tried again.
- A write, where there is room for 0 bytes, 1, 2, .. (in STEPS), by an error or since it accepts nothing, where a write
  accepts at most two bytes: status 5, `write fault`, exactly these bytes are written, and no write is tried again.

With ample memory each has status 0 and writes something.
"""

import atexit
import shutil
import subprocess
from collections.abc import Callable, Iterator
from contextlib import contextmanager
from dataclasses import dataclass
from functools import cache, partial
from pathlib import Path
from tempfile import NamedTemporaryFile, TemporaryDirectory

from calling import JOURNAL, Ended, Programs, Trial, shortened
from logs import write_log
from scripts import script_of
from spelling import tests_of

# More allocations, and more reads, than any call here makes.
MANY = 10_000

# A text of up to so many bytes is written to writers that are full after 0 bytes, 1, 2, ..; a longer one in steps.
STEPS = ((300, 1), (1_000, 7), (1_000_000, 97))


@dataclass(frozen=True)
class Work:
    """What is made of a script or, except by argus, of its journal: by which program, with which words, and whether the
    journal is in a database."""

    name: str
    program: str
    words: list[bytes]
    is_of_database: bool = False


WORKS = (
    Work("bases, by two workers", "argus", [b"--workers", b"2"]),
    Work("stacks", "argus", [b"--list", b"stacks"]),
    Work("journal", "argus", JOURNAL),
    Work("audit, behind a checkpoint", "argus", [b"--list", b"audit", b"--checkpoint"]),
    Work("a replay", "replay", [b"--list", b"stacks"]),
    Work("a log's replay", "replay", [b"--list", b"stacks"], is_of_database=True),
)

# It is called with a kind of failure and with how many are done before, as failing.c has them. How the program ended,
# and how many failed.
Attempt = Callable[[str, int], tuple[Ended, int]]


def trials(path: Path) -> Iterator[Trial]:
    """Each script and work: with too little memory, with reads that fail, and with writers that are full."""
    for test in tests_of(path):
        script = script_of(test).given
        for work in WORKS:
            reads = ("reads of the file", "f") if work.is_of_database else ("reads", "i")
            parts = [("memory", refused), (reads[0], partial(unread, reads[1]))]
            parts += [("a full writer", partial(full, "w")), ("a writer that accepts nothing", partial(full, "n"))]
            for part, check in parts:
                yield f"{test.name}, {work.name}: {part}", partial(tried, script, work, check)


def has_compiler() -> bool:
    """Whether failing.c can be compiled."""
    return shutil.which("cc") is not None


@cache
def library() -> Path:
    """What failing.c is compiled to, in a folder that is gone in the end."""
    folder = TemporaryDirectory()
    atexit.register(folder.cleanup)
    made = Path(folder.name) / "failing.so"
    words = ["-shared", "-std=c11", "-O2", "-fPIC", "-Wall", "-Wextra", "-Wpedantic", "-Werror", "-o", str(made)]
    subprocess.run(["cc", *words, str(Path(__file__).with_suffix(".c"))], check=True)
    return made


def tried(script: bytes, work: Work, check: Callable[[Attempt, bytes], str], programs: Programs) -> str:
    """What is wrong with a work, with ample memory or in one of the checks."""
    given = script if work.program == "argus" else programs.call("argus", JOURNAL, script).output
    with attempts(work, given, programs) as attempt:
        whole, _ = attempt("m", MANY)
        if (whole.status, whole.errors) != (0, b"") or not whole.output:
            return f"with ample memory: {told(whole)}"
        return check(attempt, whole.output)


@contextmanager
def attempts(work: Work, given: bytes, programs: Programs) -> Iterator[Attempt]:
    """The work with this input, for one thread."""
    with NamedTemporaryFile() as file, NamedTemporaryFile() as count:
        words = work.words
        if work.is_of_database:
            write_log(Path(file.name), given.decode())
            words = [*words, b"--database", file.name.encode()]

        def attempt(kind: str, done: int) -> tuple[Ended, int]:
            Path(count.name).write_bytes(bytes(8))
            settings = {"LD_PRELOAD": str(library()), "FAILING": f"{kind}{done}", "FAILING_COUNT": count.name}
            ended = programs.call(work.program, words, given, settings=settings)
            return ended, int.from_bytes(Path(count.name).read_bytes(), "little")

        yield attempt


def told(ended: Ended) -> str:
    """A run for a report."""
    return f"status {ended.status}\n{shortened(ended.errors)}{shortened(ended.output)}"


def refused(attempt: Attempt, wanted: bytes) -> str:
    """What is wrong where each allocation is refused in turn, on whichever thread: a prefix is written."""
    for done in range(MANY):
        ended, failures = attempt("m", done)
        if failures == 0:
            is_right = ended.status == 0 and ended.output == wanted and ended.errors == b""
            return "" if is_right and done > 10 else f"{done} allocations are enough: {told(ended)}"
        is_right = ended.status == 4 and ended.errors == b"out of memory\n" and wanted.startswith(ended.output)
        if not is_right:
            return f"{done} allocations, {failures} refused: {told(ended)}"
    return "there is never enough memory"


def unread(kind: str, attempt: Attempt, wanted: bytes) -> str:
    """What is wrong where each read fails in turn: nothing is written, and no read is tried again."""
    for done in range(MANY):
        ended, failures = attempt(kind, done)
        if failures == 0:
            is_right = ended.status == 0 and ended.output == wanted and ended.errors == b""
            return "" if is_right and done > 1 else f"{done} reads are enough: {told(ended)}"
        if (ended.status, ended.output, ended.errors, failures) != (5, b"", b"read fault\n", 1):
            return f"{done} reads, {failures} failed: {told(ended)}"
    return "there are too many reads"


def full(kind: str, attempt: Attempt, wanted: bytes) -> str:
    """What is wrong where the output has too little room: as much is written, and no write is tried again."""
    step = next(step for longest, step in STEPS if len(wanted) <= longest)
    for room in range(0, len(wanted), step):
        ended, failures = attempt(kind, room)
        if (ended.status, ended.output, ended.errors, failures) != (5, wanted[:room], b"write fault\n", 1):
            return f"room for {room} bytes, {failures} writes failed: {told(ended)}"
    return ""
