"""The exceptions of a log: why it isn't opened, what is wrong with its database, and that it has failed."""

from __future__ import annotations

from .errors import ArgusError


class LogError(ArgusError):
    """The log isn't open, or has failed; `str` says why."""

    why = "the log isn't open, or has failed"


class NoLog(LogError, FileNotFoundError):
    """No file is there."""


class NotALog(LogError):
    """The file is no database, or one of another program."""


class OtherFormat(LogError):
    """Another version of the product has written the log, in a format that this one doesn't know."""


class LogLocked(LogError):
    """Another process has the log, or another part of this one."""


class LogDamaged(LogError):
    """The log isn't as it was written, or this guardian gives another reply. The database is unchanged."""


class OtherLog(LogDamaged):
    """It is another log than the one that was asked for, or the WAL beside the file is that of another one."""


class RowChanged(LogDamaged):
    """A row hasn't the sum that the chain has for it: that row was changed, or the one before it."""


class RowMissing(LogDamaged):
    """Rows aren't there, while later ones are."""


class RowDoubled(LogDamaged):
    """A row is there once more, in another place."""


class RowSwapped(LogDamaged):
    """The lines of a later row are in the place of an earlier one."""


class LogCut(LogDamaged):
    """The last rows aren't there."""


class LogOld(LogDamaged):
    """An older copy is in the place of the database, of its WAL or of a row; or the log is shorter than is known."""


class PagesDamaged(LogDamaged):
    """SQLite finds that the file isn't a sound database."""


class WalMissing(LogDamaged):
    """The log wasn't closed, and its WAL, the file that has the newest work, isn't there."""


class WalDamaged(LogDamaged):
    """A frame of the WAL has changed, and it was on disk before later ones were written."""


class OtherReply(LogDamaged):
    """The rows are as they were written, but no guardian of this version has such a journal."""


class LogBroken(LogError):
    """A write failed earlier, and nothing is tried again: end the process, and open the log again."""


class InDoubt(LogError):
    """The log failed or was closed during a wait: what was waited for is in the log, or it isn't."""
