"""How the programs are called, and what is wrong with what they print."""

import os
import subprocess
from collections.abc import Callable, Iterator, Mapping, Sequence
from contextlib import contextmanager
from dataclasses import dataclass
from pathlib import Path
from tempfile import TemporaryFile
from typing import IO

TOP = Path(__file__).resolve().parent.parent.parent
ROWS = Path(__file__).resolve().parent / "rows"

# Whatever is written there finds no room.
FULL = Path("/dev/full")

# The words for the listing of a journal.
JOURNAL = [b"--list", b"journal"]

# No call here takes a second.
SECONDS = 60


@dataclass(frozen=True)
class Ended:
    """What a program left: its status, negative where a signal ended it, and what it printed."""

    status: int
    output: bytes
    errors: bytes


@dataclass(frozen=True)
class Programs:
    """The programs argus, replay and picture, each by its path."""

    paths: dict[str, Path]

    def call(
        self,
        name: str,
        words: Sequence[bytes] = (),
        given: bytes | Path = b"",
        output: Path | None = None,
        memory: int | None = None,
        settings: Mapping[str, str] | None = None,
    ) -> Ended:
        """Calls a program with these words. Its input are these bytes, or a file or a folder; its output may go
        to a file, its addresses may be limited to so many bytes, and its environment may have these settings, too.
        One that takes a minute is ended."""
        limits = [b"prlimit", b"--as=%d" % memory] if memory else []
        command = [*limits, os.fsencode(self.paths[name]), *words]
        variables = {**os.environ, **settings} if settings else None
        with source_of(given) as stdin, TemporaryFile() if output is None else open(output, "wb") as stdout:
            try:
                ran = subprocess.run(
                    command,
                    stdin=stdin,
                    stdout=stdout,
                    stderr=subprocess.PIPE,
                    timeout=SECONDS,
                    check=False,
                    env=variables,
                )
            except subprocess.TimeoutExpired:
                return Ended(-1, b"", b"it doesn't end")
            return Ended(ran.returncode, b"" if output else printed(stdout), ran.stderr)


def printed(file: IO[bytes]) -> bytes:
    """All that a file has."""
    file.seek(0)
    return file.read()


@contextmanager
def source_of(given: bytes | Path) -> Iterator[int]:
    """A file or a folder, opened; or a file of these bytes."""
    with TemporaryFile() as file:
        if isinstance(given, bytes):
            file.write(given)
            file.seek(0)
            yield file.fileno()
            return
        source = os.open(given, os.O_RDONLY)
        try:
            yield source
        finally:
            os.close(source)


# What is tried of the programs, by name: it returns what is wrong, or nothing.
Trial = tuple[str, Callable[[Programs], str]]


def shortened(text: bytes) -> str:
    """A text for a report, of which so much is shown."""
    shown = text.decode("utf-8", "backslashreplace")
    return shown if len(shown) <= 300 else shown[:300] + " .."


def compared(ended: Ended, status: int, output: bytes, errors: bytes) -> str:
    """What is wrong where exactly this is wanted."""
    if ended == Ended(status, output, errors):
        return ""
    wanted = f"wanted: status {status}\n{shortened(output)}{shortened(errors)}"
    return f"status {ended.status}\n{shortened(ended.output)}{shortened(ended.errors)}{wanted}"
