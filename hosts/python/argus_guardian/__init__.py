"""Atomic objects under nested transactions, in Python over a proved library.

    with Guardian() as guardian:
        account = guardian.object("account", "atomic_record[balance:int]")
        with guardian.topaction() as top:
            top.create(account, balance=5)
        with guardian.topaction() as top:
            with top.subaction() as sub:
                sub[account].balance += 2
        guardian.get(account).balance         # 7

An action commits at the end of its `with` block, and aborts if an exception leaves it. The library is
proved: each reply follows from the journal before the call. This package isn't: it calls the library,
writes and reads its texts, and waits.

`Log` keeps a guardian's journal in a SQLite database, so that it outlives its process; its exceptions are in
`argus_guardian.log`.
"""

from typing import TYPE_CHECKING, Any

from .action import Action
from .errors import (
    Absent,
    ArgusError,
    BadDemand,
    BadKind,
    BadLine,
    BadNumber,
    BadShape,
    BadText,
    Bounds,
    Busy,
    Closed,
    Conflict,
    Exists,
    Full,
    IllTyped,
    Limits,
    NegativeSize,
    NoAction,
    NoObject,
    NoSiblings,
    NotBegun,
    NotThere,
    OtherGuardian,
    OutOfMemory,
    Over,
    Reentered,
    Refused,
    Signal,
    Suspended,
    TooDeep,
    TooMany,
    UnknownStatus,
    WrongTag,
)
from .guardian import Guardian
from .ids import ActionId, ObjectId
from .library import Demand, Kind
from .lists import CallsMade, Listed
from .objects import Object
from .ready_commit import ReadyCommit
from .resuming import resume
from .shapes import Shape
from .values import Array, Choice, Ref, read_content, read_value, write_content, write_value

if TYPE_CHECKING:
    from .log import Log as Log
else:

    def __getattr__(name: str) -> Any:
        """`Log`, which is loaded when it is asked for: guardians don't need sqlite3, and a Python may have none."""
        if name == "Log":
            from .log import Log

            return Log
        raise AttributeError(f"module {__name__!r} has no attribute {name!r}")


__version__ = "0.1.0"

__all__ = [
    "Absent",
    "Action",
    "ActionId",
    "ArgusError",
    "Array",
    "BadDemand",
    "BadKind",
    "BadLine",
    "BadNumber",
    "BadShape",
    "BadText",
    "Bounds",
    "Busy",
    "CallsMade",
    "Choice",
    "Closed",
    "Conflict",
    "Demand",
    "Exists",
    "Full",
    "Guardian",
    "IllTyped",
    "Kind",
    "Limits",
    "Listed",
    "NegativeSize",
    "NoAction",
    "NoObject",
    "NoSiblings",
    "NotBegun",
    "NotThere",
    "Object",
    "ObjectId",
    "OtherGuardian",
    "OutOfMemory",
    "Over",
    "ReadyCommit",
    "Reentered",
    "Ref",
    "Refused",
    "Shape",
    "Signal",
    "Suspended",
    "TooDeep",
    "TooMany",
    "UnknownStatus",
    "WrongTag",
    "read_content",
    "read_value",
    "resume",
    "write_content",
    "write_value",
]
