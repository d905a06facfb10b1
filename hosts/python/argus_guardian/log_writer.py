"""`LogWriter`: brings a guardian's journal into the log, for all threads that wait for it at once."""

from __future__ import annotations

import atexit
import sqlite3
import threading
import warnings
import weakref
from collections.abc import Callable
from pathlib import Path
from typing import NamedTuple, TypeVar

from . import forking
from .calling import LOGGER
from .entering import one_call
from .errors import ArgusError
from .guardian import Guardian
from .library import Question, Status
from .log_database import Batch, Connections, LogDatabase
from .log_errors import InDoubt, LogBroken
from .log_making import copy_log
from .log_opening import Found, Wanted, open_database
from .log_uses import Uses

_Outcome = TypeVar("_Outcome")

# The most bytes that a row has, if its first line isn't longer; and how many an entry is expected to have.
_PIECE, _LINE = 1 << 18, 64
# What breaks a log. Anything else is raised by what interrupts a call, and then the next one looks how far it came.
_FAULTS = sqlite3.Error, ArgusError, MemoryError
# So many seconds the interpreter's end waits for threads that use a log.
_AT_EXIT = 2.0


class LogCounts(NamedTuple):
    """What a log has done since it was opened."""

    batches: int
    entries: int
    bytes: int
    checkpoints: int
    # How long its commits took, which write and sync.
    sync_seconds: float
    # How many calls were in doubt at their end.
    in_doubt: int


class JournalOfLog(Guardian):
    """The guardian of a log, as far as the log reads its journal."""

    @one_call
    def _text_of(self, entry: int, size: int) -> tuple[bytes, int]:
        """The lines of the journal from an entry on, as many as fit into so many bytes; and how many these are."""
        if self._dropped:
            self._abort_dropped()
        return self._archive.text_of(entry, size)

    @one_call
    def _whole(self) -> tuple[int, list[str], list[str]]:
        """Before which entry the journal's opening stands, the lines of that, and those of all entries."""
        first, next_entry = self._archive.told(Question.FIRST_ENTRY), self._archive.told(Question.ENTRIES)
        lines = self._archive.told(Question.LIST_JOURNAL).split("\n")[:-1]
        count = len(lines) - (next_entry - first)
        return first, lines[:count], lines[count:]


class LogWriter(Uses):
    """The log of a guardian, which threads share and close. One of them writes, for all that wait by then."""

    def __init__(self, guardian: JournalOfLog, path: Path, wanted: Wanted, version: str) -> None:
        super().__init__()
        self._guardian, self._path = guardian, path
        self._make_turns()
        # Why the log is broken.
        self._why: BaseException | None = None
        # Whether the guardian's journal may be folded, and the log isn't.
        self._is_folding = False
        self._batches = self._entries = self._bytes = self._checkpoints = self._in_doubt = 0
        self._connections = Connections()
        try:
            self._database, self.found = open_database(path, guardian._archive, wanted, version, self._connections)
        except BaseException:
            self._connections.close()
            raise
        self.name = self._database.name
        forking.add(self)
        _OPEN.add(self)

    def _free(self) -> None:
        # For the first one who asks, in one step.
        database: LogDatabase | None = vars(self).pop("_database", None)
        if database is not None:
            database.close(self._why is None)

    def __del__(self, warn: Callable[..., None] = warnings.warn) -> None:
        # No reference to it is left, so no thread uses the log.
        if vars(self).get("_database") is not None:
            self._free()
            warn(f"unclosed log {self!r}", ResourceWarning, source=self)

    def _leave_behind(self) -> None:
        """Closes it in a forked process. Its memory and its connections are the parent's."""
        self._is_open, self._uses = False, {}
        self._make_turns()
        vars(self).pop("_database", None)
        self._connections.leave_behind()

    def _end_process(self) -> None:
        """Closes it as the interpreter ends. If a thread uses it still, it is left as a kill leaves it."""
        if not self.close_within(_AT_EXIT):
            self._leave_behind()

    def broken(self) -> str | None:
        """Why the log is broken; None if it isn't."""
        return self.used(self._broken)

    def _broken(self) -> str | None:
        return None if self._why is None else f"the log couldn't be written: {str(self._why) or repr(self._why)}"

    def counts(self) -> LogCounts:
        """What it has done since it was opened."""
        return self.used(
            lambda: LogCounts(
                self._batches,
                self._entries,
                self._bytes,
                self._checkpoints,
                self._database.sync_seconds,
                self._in_doubt,
            )
        )

    def backup(self, into: Path) -> None:
        """Makes a copy of the log as it is at one moment, while others go on."""
        self.used(lambda: copy_log(self._path, into))

    def wait(self, until: int) -> None:
        """Returns when all entries before this one are in the log. InDoubt if that isn't known."""
        self.used(lambda: self._wait(until))

    def _wait(self, until: int) -> None:
        def write() -> None:
            if self._why is not None:
                raise self.doubt() from self._why
            try:
                self._append()
            except _FAULTS as error:
                self._break(error)
                raise self.doubt() from error

        self._in_turn(lambda: self._has(until), write)

    def _make_turns(self) -> None:
        # The write that is under way, or was the last one, has the first lock. Who wants the next one waits for the
        # second, and the first of those for the write.
        self._writing, self._turn = threading.Lock(), threading.Lock()

    def _in_turn(self, is_done: Callable[[], bool], write: Callable[[], _Outcome]) -> _Outcome | None:
        """Writes when no other thread does, if it isn't done by then; what that returns.

        Those that come while a write is under way wait for the next one, which is made by the first of them, for all.
        Those that have waited for it go on at once. An interrupt leaves no lock behind, and there is no flag.
        """
        while not is_done():
            turn = self._turn
            with turn:
                if self._turn is turn and not is_done():
                    with self._writing:
                        pass
                    self._writing, self._turn = turn, threading.Lock()
                    return write()
        return None

    def _has(self, until: int) -> bool:
        next_entry = self._database.next_entry
        return next_entry is not None and until <= next_entry

    def doubt(self, why: str | None = None) -> InDoubt:
        """The exception of a call that is in doubt."""
        self._in_doubt += 1
        return InDoubt(why or self._broken())

    def _break(self, error: BaseException) -> None:
        self._why = error
        LOGGER.error("the log %s is broken: %s", self._path, error)
        self._database.give_up()

    def _append(self) -> None:
        """Writes all entries that there are, as one batch; as several if it would be long."""
        if self._is_folding:
            self._write_whole()
            return
        begins, until = self._database.settled_entry(), self._guardian.entries
        batches = []
        while begins < until:
            size = min(_LINE * (until - begins), _PIECE)
            text, count = self._guardian._text_of(begins, size)
            batches.append(Batch(begins, text[:-1], count))
            begins += count
        if batches:
            self._database.append(batches)
            self._count(batches)

    def _count(self, batches: list[Batch]) -> None:
        self._batches += len(batches)
        self._entries += sum(it.entries for it in batches)
        self._bytes += sum(len(it.lines) + 1 for it in batches)

    def checkpoint(self) -> int:
        """Folds the journal, and puts its opening in place of the log's rows: the status, BUSY if an action is live."""
        status = self.used(lambda: self._in_turn(lambda: False, self._checkpoint))
        return Status.BUSY if status is None else status

    def _checkpoint(self) -> int:
        if self._why is not None:
            raise LogBroken(self._broken()) from self._why
        status = self._fold()
        if status == Status.DONE:
            try:
                self._write_whole()
                self._checkpoints += 1
            except _FAULTS as error:
                self._break(error)
                raise LogBroken(self._broken()) from error
        return status

    def _fold(self) -> int:
        """Folds the journal in memory. If an interrupt comes after that, the next write is of the whole."""
        guardian = self._guardian
        with guardian._lock:
            guardian._busy = True
            guardian._abort_dropped()
            is_folding, self._is_folding = self._is_folding, True
            status = guardian._fold_at_once()
            if status != Status.DONE:
                self._is_folding = is_folding
            guardian._busy = guardian._awaited
            return status

    def _write_whole(self) -> None:
        """Puts the journal's listing in place of all rows: an opening, and the entries since then."""
        first, opening, lines = self._guardian._whole()
        batches = [Batch(first, "\n".join(lines).encode(), len(lines))] if lines else []
        self._database.replace(first, opening, batches)
        self._is_folding = False
        self._count(batches)


# Those of this process.
_OPEN: weakref.WeakSet[LogWriter] = weakref.WeakSet()


@atexit.register
def _close_all() -> None:
    for log in list(_OPEN):
        log._end_process()


__all__ = ["Found", "JournalOfLog", "LogCounts", "LogWriter", "Wanted"]
