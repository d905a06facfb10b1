"""`Log`: a guardian whose journal is in a SQLite database, so that it outlives its process.

It stands on the standard library's sqlite3 alone. None of this is proved; docs/DURABLE.md says what a log promises,
and what its tables are.
"""

from __future__ import annotations

import os
import threading
import time
from collections.abc import Callable
from pathlib import Path
from types import TracebackType
from typing import Any, NoReturn, TypeVar
from weakref import ref

from .action import Action
from .entering import looks
from .errors import Busy, Closed, Full, OutOfMemory
from .library import Status
from .log_errors import (
    InDoubt,
    LogBroken,
    LogCut,
    LogDamaged,
    LogError,
    LogLocked,
    LogOld,
    NoLog,
    NotALog,
    OtherFormat,
    OtherLog,
    OtherReply,
    PagesDamaged,
    RowChanged,
    RowDoubled,
    RowMissing,
    RowSwapped,
    WalDamaged,
    WalMissing,
)
from .log_making import make_log
from .log_writer import JournalOfLog, LogCounts, LogWriter, Wanted
from .ranges import seconds
from .telling import error_of

_Done = TypeVar("_Done")
_Log = TypeVar("_Log", bound="Log")

# The kinds of journal that SQLite keeps for a log, and whether that is a WAL.
_JOURNALS = {"wal": True, "persist": False}
# How long a checkpoint that a log makes by itself holds back topactions; and after how many entries it tries again.
_PATIENCE, _AGAIN = 0.1, 10_000


class LoggedGuardian(JournalOfLog):
    """The guardian of a log, which alone folds its journal."""

    def checkpoint(self, patience: float = 0.0) -> NoReturn:
        """Raises TypeError: call the log's `checkpoint`."""
        raise TypeError("the journal is in a log: call the log's checkpoint")

    def renew(self, patience: float = 0.0) -> NoReturn:
        """Raises TypeError: call the log's `checkpoint`, which renews when half of the numbers are used."""
        raise TypeError("the journal is in a log: call the log's checkpoint, which renews the guardian, too")


class Log:
    """A guardian whose journal is in a database.

        with Log.open_or_create("bank.db") as log:
            if log.guardian.objects == 0:
                log.guardian.declare("atomic_record[balance:int]")
            with log.topaction() as top:
                top.create(0, (5,))
            # here it is on disk

    It makes each call in the log again and compares its reply; actions that were live are aborted.
    `found` says what was there. A topaction of the log is acknowledged when its `with` block has ended
    without an exception: its commit, and all before it, are on disk. Threads may share the log; their
    commits wait together.

    A call raises Reentered, and does nothing, if its thread is inside a call of the log or of its guardian already:
    if a signal handler, a `__del__` or a callback makes it, which has interrupted that one.

    Other calls are the guardian's. Their results may come from commits that aren't on disk yet: `barrier`
    returns when all earlier ones are. `checkpoint` and `renew` of the guardian raise TypeError: call `checkpoint`
    of the log, which also makes one by itself after so many entries as `checkpoint_after` says, or when half of the
    numbers for actions are used; None: never. A log to which no reference is left is closed, with a ResourceWarning.

    `Log(path)` is `Log.open(path)`. What is wrong with a log is a LogError of its own class, and then the database is
    as it was. `journal="persist"` keeps SQLite's journal without a WAL: all is in one file, and a commit takes some
    three times as long. `name` and `at_least` say which log it has to be (`log.name`), and how many entries it has to
    have.
    """

    def __init__(
        self,
        path: str | os.PathLike[str],
        patience: float = 1.0,
        *,
        journal: str = "wal",
        checkpoint_after: int | None = 100_000,
        name: str | None = None,
        at_least: int = 0,
    ) -> None:
        wanted = Wanted(name, at_least, _JOURNALS[journal])
        self.checkpoint_after = checkpoint_after
        # Before this entry no checkpoint is tried again.
        self._again_at = 0
        self.guardian = LoggedGuardian(patience, checkpoint_after=None)
        try:
            self._writer = LogWriter(self.guardian, _resolved(path), wanted, _version())
        except BaseException:
            self.guardian.close()
            raise
        try:
            self._begin()
        except BaseException:
            self.close()
            raise

    @classmethod
    def open(cls: type[_Log], path: str | os.PathLike[str], patience: float = 1.0, **options: Any) -> _Log:
        """Opens the log that is there; NoLog if there is none."""
        return cls(path, patience, **options)

    @classmethod
    def create(cls: type[_Log], path: str | os.PathLike[str], patience: float = 1.0, **options: Any) -> _Log:
        """Makes a log, and opens it. FileExistsError if a file is there."""
        make_log(_resolved(path), _version())
        return cls(path, patience, **options)

    @classmethod
    def open_or_create(cls: type[_Log], path: str | os.PathLike[str], patience: float = 1.0, **options: Any) -> _Log:
        """Opens the log that is there; if there is none, makes one.

        Where there has to be one, `open` is safer: a disk that isn't mounted looks like a log that isn't there.
        """
        try:
            return cls.open(path, patience, **options)
        except NoLog:
            pass
        try:
            make_log(_resolved(path), _version())
        except FileExistsError:
            # Another process was quicker.
            pass
        return cls.open(path, patience, **options)

    def _begin(self) -> None:
        """Aborts what was live."""
        guardian, found = self.guardian, self._writer.found
        entries, next_entry = found.head.next_entry - found.first_entry, found.head.next_entry
        self.found = f"{entries} entries in {found.batches} batches, the next one is {next_entry}"
        guardian.abort_live()
        # Nobody has these; a begin that fails aborts what comes after them.
        guardian._begun = guardian.actions
        self.barrier()

    @property
    def name(self) -> str:
        """The log's name, which was drawn when it was made: its copies have the same."""
        return self._writer.name

    def close(self) -> None:
        """Closes the log and the guardian, when the log's calls of other threads have ended.

        What isn't on disk is lost. Later calls raise Closed.
        """
        self._refuse_reentered()
        try:
            self._writer.close()
        finally:
            self.guardian.close()

    def __enter__(self: _Log) -> _Log:
        return self

    def __exit__(self, *_: object) -> None:
        self.close()

    def _refuse_reentered(self) -> None:
        """Raises Reentered if this thread is inside a call of the log or of its guardian."""
        self.guardian._refuse_reentered()
        self._writer.refuse_reentered()

    def broken(self) -> str | None:
        """Why the log is broken; None if it isn't."""
        self._refuse_reentered()
        return self._writer.broken()

    def _refuse_broken(self) -> None:
        why = self.broken()
        if why is not None:
            raise LogBroken(why)

    def counts(self) -> LogCounts:
        """What the log has done since it was opened: batches, entries, bytes, checkpoints, seconds, doubts."""
        self._refuse_reentered()
        return self._writer.counts()

    def backup(self, path: str | os.PathLike[str]) -> None:
        """Makes a copy of the log as it is at one moment, whole and compared, while others go on.

        It is a log, too. FileExistsError if a file is there.
        """
        self._refuse_reentered()
        self._writer.backup(_resolved(path))

    def barrier(self) -> None:
        """Returns when all entries that the journal has now are on disk. InDoubt if that isn't known."""
        self._refuse_reentered()
        self._writer.wait(self.guardian.entries)

    def _acknowledge(self) -> None:
        """`barrier` after a commit: if the log is closed meanwhile, the commit is in doubt."""
        try:
            self.barrier()
        except Closed as error:
            raise self._writer.doubt("the log was closed before the commit was known to be on disk") from error
        self._checkpoint_if_due()

    def topaction(self) -> LoggedTopaction:
        """A topaction for a `with` block, which ends when the commit is on disk.

        LogBroken if the log had failed earlier: nothing is begun. InDoubt if the topaction has committed
        in this process, and then the log failed or was closed. After an interrupt (Ctrl-C) it may have
        committed or not. Any other exception is as without a log, and nothing is left of the topaction.
        """
        return LoggedTopaction(self)

    def run(self, work: Callable[[Action], _Done], tries: int = 20) -> _Done:
        """`Guardian.run`, which returns when the commit is on disk."""
        self._refuse_broken()
        done = self.guardian.run(work, tries)
        self._acknowledge()
        return done

    async def arun(self, work: Callable[[Action], Any], tries: int = 20) -> Any:
        """`Guardian.arun`, which returns when the commit is on disk. A thread waits for that."""
        from asyncio import to_thread

        self._refuse_broken()
        done = await self.guardian.arun(work, tries)
        await to_thread(self._acknowledge)
        return done

    def checkpoint(self, patience: float = 1.0) -> None:
        """Folds the journal when no action is live, and puts what the objects hold in place of the log's batches.

        Meanwhile it holds back each topaction, so don't wait here in a thread that has a live action; Busy when
        patience is over. When half of the numbers for actions are used, it also renews the guardian. OutOfMemory and
        Full are raised at once, and nothing is folded.
        """
        limit, guardian, this = time.monotonic() + seconds(patience, "patience"), self.guardian, object()
        self._refuse_reentered()
        after = looks()
        try:
            guardian._folds[this] = threading.get_ident()
            status = self._writer.checkpoint()
            while status == Status.BUSY and time.monotonic() < limit:
                guardian._wait_alone(limit, next(after))
                status = self._writer.checkpoint()
        finally:
            # If an interrupt comes in between, a topaction that waits finds out by itself.
            guardian._folds.pop(this, None)
            guardian._wake_alone()
        if status == Status.BUSY:
            raise Busy("an action is live")
        if status != Status.DONE:
            raise error_of(status)

    def _checkpoint_if_due(self) -> None:
        """After a commit that is on disk: so what comes of the checkpoint isn't raised. A later one tries again."""
        if self.checkpoint_after is None:
            return
        guardian = self.guardian
        try:
            entries = guardian.entries
            if entries < self._again_at or not self._is_due(entries, self.checkpoint_after):
                return
            self._again_at = entries + min(self.checkpoint_after, _AGAIN)
            self.checkpoint(_PATIENCE)
        except (Busy, Closed, Full, LogBroken, OutOfMemory):
            pass

    def _is_due(self, entries: int, after: int) -> bool:
        guardian = self.guardian
        return entries - guardian.first_entry >= after or guardian.actions >= guardian.MAX_ACTIONS // 2


class LoggedTopaction:
    """A topaction of a log, for one `with` block. If it is dropped within that, so is its `Action`, which aborts."""

    def __init__(self, log: Log) -> None:
        self._log = log
        self._top: Action | None = None
        self._dropped: ref[LoggedTopaction] | None = None

    def __enter__(self) -> Action:
        self._log._refuse_broken()
        guardian = self._log.guardian
        self._top = guardian.topaction()
        # An interrupt may come as the block ends, before `__exit__` has begun. Then the next call aborts it.
        drop, owner = guardian._owners.drop, guardian._owners.live[self._top._number]
        self._dropped = ref(self, lambda _: drop(owner))
        return self._top

    async def __aenter__(self) -> Action:
        self._log._refuse_broken()
        self._top = self._log.guardian.topaction()
        return await self._top.__aenter__()

    async def __aexit__(
        self, kind: type[BaseException] | None, error: BaseException | None, trace: TracebackType | None
    ) -> None:
        from asyncio import to_thread

        if self._top is not None:
            await self._top.__aexit__(kind, error, trace)
        if kind is None:
            await to_thread(self._log._acknowledge)

    def __exit__(
        self, kind: type[BaseException] | None, error: BaseException | None, trace: TracebackType | None
    ) -> None:
        if kind is None:
            # Before the commit, which nothing undoes.
            self._log._refuse_reentered()
        if self._top is not None:
            self._top.__exit__(kind, error, trace)
        self._dropped = None
        if kind is None:
            self._log._acknowledge()


def _resolved(path: str | os.PathLike[str]) -> Path:
    """The file itself: SQLite puts the WAL beside that, where the path is a link to it."""
    return Path(path).resolve()


def _version() -> str:
    from . import __version__

    return __version__


__all__ = [
    "InDoubt",
    "Log",
    "LogBroken",
    "LogCounts",
    "LogCut",
    "LogDamaged",
    "LogError",
    "LogLocked",
    "LogOld",
    "LoggedGuardian",
    "LoggedTopaction",
    "NoLog",
    "NotALog",
    "OtherFormat",
    "OtherLog",
    "OtherReply",
    "PagesDamaged",
    "RowChanged",
    "RowDoubled",
    "RowMissing",
    "RowSwapped",
    "WalDamaged",
    "WalMissing",
]
