"""The library, as `argus.h` declares it: its exports, and the numbers of statuses, calls and questions."""

from __future__ import annotations

import ctypes
import os
from collections.abc import Callable
from enum import IntEnum
from pathlib import Path
from typing import TYPE_CHECKING, Any

from .ranges import U32, i64, u32

if TYPE_CHECKING:
    # Python 3.9 has none.
    from typing import TypeAlias

try:
    from . import _call
except ImportError:
    _call = None  # type: ignore[assignment]

QuickCall: TypeAlias = "Callable[[Any, int, int, int, int, int, bytes], int | tuple[int, int] | None]"

# Numbers and sizes as ctypes passes them: making one takes longer than finding it here.
_MANY = 256
_NUMBERS = tuple(map(ctypes.c_int64.from_param, range(_MANY)))
_SIZES = tuple(map(ctypes.c_size_t.from_param, range(_MANY)))

NAME = "libargus.so.0"
# The version of the library that belongs to this package, in one number.
VERSION_NUMBER = 100


class Handle(ctypes.Structure):
    """The handle of a guardian, which the library fills in. All zero: closed."""

    _fields_ = [("mark", ctypes.c_uint32), ("at", ctypes.c_void_p)]


class Answer(ctypes.Structure):
    """A status with its number."""

    _fields_ = [("status", ctypes.c_uint32), ("number", ctypes.c_int64)]


class Ready(ctypes.Structure):
    """The handle of a guardian whose commit is ready. All zero: none."""

    _fields_ = [("mark", ctypes.c_uint32), ("at", ctypes.c_void_p)]


class Parsed(ctypes.Structure):
    """The handle of a call that was read. All zero: none."""

    _fields_ = [("mark", ctypes.c_uint32), ("at", ctypes.c_void_p)]


class ListedCall(ctypes.Structure):
    """One call of a list, with its outcome."""

    _fields_ = [
        ("kind", ctypes.c_uint32),
        ("demand", ctypes.c_uint32),
        ("action", ctypes.c_uint32),
        ("begun_by", ctypes.c_uint32),
        ("object", ctypes.c_uint32),
        ("status", ctypes.c_uint32),
        ("first", ctypes.c_int64),
        ("second", ctypes.c_int64),
        ("number", ctypes.c_int64),
        ("text", ctypes.c_char_p),
        ("text_size", ctypes.c_size_t),
    ]


class Status(IntEnum):
    """The outcome of a call."""

    DONE = 0
    OBJECT = 1
    ACTION = 2
    NUMBER = 3
    FLAG = 4
    VALUE = 5
    CONTENT = 6
    TEXT = 7
    SIGNAL = 8
    REFUSED = 9
    NO_MEMORY = 10
    NOT_OPEN = 11
    NOT_UTF8 = 12
    BAD_TEXT = 13
    BAD_SHAPE = 14
    BAD_NUMBER = 15
    BAD_KIND = 16
    TOO_SMALL = 17
    NOT_THERE = 18
    BUSY = 19
    FULL = 20
    UNMET = 22
    NOT_BEGUN = 23
    BAD_DEMAND = 24
    NOT_AN_OPENING = 25
    NO_LINE = 26
    NOT_NEXT = 27
    NOT_SOUND = 28
    NOT_THE_REPLY = 29
    OCCUPIED = 30


class Demand(IntEnum):
    """What the reply to a call of a list must be for the list to go on."""

    NO_REFUSAL = 0
    NOTHING = 1
    NO_SIGNAL = 2


class Kind(IntEnum):
    """The journalled calls."""

    DECLARE = 0
    BEGIN_TOP = 1
    BEGIN_SUB = 2
    BEGIN_NESTED = 3
    COMMIT = 4
    ABORT = 5
    ABORT_OTHERS = 6
    TEST_READ = 7
    TEST_WRITE = 8
    WHOLE = 9
    FIELD = 10
    LOW = 11
    HIGH = 12
    SIZE = 13
    FETCH = 14
    BOTTOM = 15
    TOP = 16
    IS_TAG = 17
    TAG_VALUE = 18
    CREATE = 19
    SET_FIELD = 20
    STORE = 21
    ADDH = 22
    ADDL = 23
    REMH = 24
    REML = 25
    SET_LOW = 26
    TRIM = 27
    CHANGE_TAG = 28
    TOUCH = 29
    SET_FIELD_INT = 30
    STORE_INT = 31
    ADDH_INT = 32
    ADDL_INT = 33
    CHANGE_TAG_INT = 34
    SET_FIELD_BOOL = 35
    STORE_BOOL = 36
    ADDH_BOOL = 37
    ADDL_BOOL = 38
    CHANGE_TAG_BOOL = 39


# The kinds of changes whose value is a number of the call, an integer or a truth value, by those with a text.
_BY_TEXT = (Kind.SET_FIELD, Kind.STORE, Kind.ADDH, Kind.ADDL, Kind.CHANGE_TAG)
BY_INT: dict[int, Kind] = {kind: Kind[f"{kind.name}_INT"] for kind in _BY_TEXT}
BY_BOOL: dict[int, Kind] = {kind: Kind[f"{kind.name}_BOOL"] for kind in _BY_TEXT}
# The other way round.
BY_TEXT: dict[int, Kind] = {by: kind for kinds in (BY_INT, BY_BOOL) for kind, by in zip(_BY_TEXT, kinds.values())}


class Question(IntEnum):
    """The questions, which aren't journalled."""

    CAN_READ = 0
    CAN_WRITE = 1
    OBJECTS = 2
    ACTIONS = 3
    ENTRIES = 4
    BASE = 5
    READERS = 6
    VERSIONS = 7
    ENTRY = 8
    LIST_BASES = 9
    LIST_STACKS = 10
    LIST_JOURNAL = 11
    LIST_AUDIT = 12
    SHAPE = 13
    ACTION_STATUS = 14
    FIRST_LIVE = 15
    FIRST_ENTRY = 16


class ActionStatus(IntEnum):
    """The state of an action."""

    LIVE = 1
    COMMITTED = 2
    ABORTED = 3
    FOLDED = 4


def where() -> str:
    """The shared object that `ARGUS_LIBRARY` names; otherwise the one in this folder, where pip puts it, or in
    the repository's dist/, or the one that the system's loader finds."""
    here = Path(__file__).resolve().parent
    places = [here, *(above / "dist/lib" for above in list(here.parents)[2:3])]
    found = (str(place / NAME) for place in places if (place / NAME).is_file())
    return os.environ.get("ARGUS_LIBRARY", "") or next(found, NAME)


def load() -> ctypes.CDLL:
    """The library, with the types of its calls' arguments. OSError if it can't be loaded, or has another version."""
    try:
        library = ctypes.CDLL(where())
    except OSError as error:
        words = "tools/dist.sh makes it in dist/lib, pip puts it into the package, ARGUS_LIBRARY names another"
        raise OSError(f"no library {NAME} is to be had: {words} ({error})") from None
    handle, number = ctypes.POINTER(Handle), ctypes.POINTER(ctypes.c_int64)
    listed, made = ctypes.POINTER(ListedCall), ctypes.POINTER(ctypes.c_size_t)
    ready, parsed = ctypes.POINTER(Ready), ctypes.POINTER(Parsed)
    u32, u64, i64, size = ctypes.c_uint32, ctypes.c_uint64, ctypes.c_int64, ctypes.c_size_t
    calls = {
        "argus_c_open": (handle, handle),
        "argus_c_close": (handle,),
        "argus_c_call": (handle, u32, u32, u32, i64, i64, ctypes.c_char_p, size, number),
        "argus_c_call_each": (handle, listed, size, made),
        "argus_c_tell": (handle, u32, u32, u32, u64, number),
        "argus_c_abort_live": (handle,),
        "argus_c_checkpoint": (handle,),
        "argus_c_reply": (handle, ctypes.c_char_p, size, ctypes.POINTER(size)),
        "argus_c_renew": (handle,),
        "argus_c_resume": (handle, ctypes.c_char_p, size, ctypes.POINTER(size), ctypes.POINTER(size), number),
        "argus_c_resumed": (handle, ctypes.POINTER(u64)),
        "argus_c_lines": (handle, u64, ctypes.c_char_p, size, ctypes.POINTER(size), ctypes.POINTER(u64)),
        "argus_c_version": (),
        "argus_c_ready_commit": (handle, ready, u32),
        "argus_c_ready_line": (ready, ctypes.c_char_p, size, ctypes.POINTER(size)),
        "argus_c_make_ready": (ready, handle, number),
        "argus_c_cancel_ready": (ready, handle),
        "argus_c_parse": (handle, parsed, u32, u32, u32, i64, i64, ctypes.c_char_p, size, number),
        "argus_c_call_parsed": (handle, parsed, number),
        "argus_c_drop_parsed": (parsed,),
    }
    for name, given in calls.items():
        call = getattr(library, name)
        call.argtypes, call.restype = given, u32
    if library.argus_c_version() != VERSION_NUMBER:
        number = library.argus_c_version()
        raise OSError(f"{where()} is of version {number}, and this package needs {VERSION_NUMBER}")
    return library


def opening(library: ctypes.CDLL) -> Callable[..., Answer]:
    """argus_open. It keeps the interpreter's lock, so that no Python thread forks while it holds a mutex."""
    call = ctypes.PyDLL(library._name).argus_open
    call.argtypes, call.restype = (ctypes.POINTER(Handle),), Answer
    return call


def bare(library: ctypes.CDLL, name: str) -> Callable[..., Any]:
    """A call whose arguments ctypes passes on unchanged: the caller passes the declared types.

    Kinds, actions and objects are an int of 32 bits, all others are of a ctypes type. To convert each
    to its declared type would take longer than most calls.
    """
    call = library[name]
    call.restype = ctypes.c_uint32
    return call


def address_of(call: Callable[..., Any]) -> int:
    """Where a function of the library is."""
    return ctypes.cast(call, ctypes.c_void_p).value or 0  # type: ignore[arg-type]


def address(handle: Handle) -> Any:
    """The address of a handle, as the quick call takes it."""
    return ctypes.byref(handle) if _call is None else ctypes.addressof(handle)


def quick(library: ctypes.CDLL) -> QuickCall:
    """argus_c_call, fast: by `_call.c`, which pip builds if it can, otherwise by ctypes.

    It takes a guardian as `address` returns it, a kind, an action and an object, two numbers and a text.
    It returns None if the call is done, an integer if that is the reply, otherwise the status with its
    number. OverflowError and TypeError as in `u32` and `i64`: then no call was made.
    """
    if _call is None:
        return _by_ctypes(library)
    return _call.of(address_of(library.argus_c_call))


def _by_ctypes(library: ctypes.CDLL) -> QuickCall:
    """The same by ctypes. Other Python threads may go on during a call with a long text."""
    short, long = bare(ctypes.PyDLL(library._name), "argus_c_call"), bare(library, "argus_c_call")
    told = ctypes.c_int64()
    told_at, zero, done, number = ctypes.byref(told), _NUMBERS[0], Status.DONE, Status.NUMBER

    def call(guardian: Any, kind: int, action: int, obj: int, first: int, second: int, text: bytes) -> Any:
        if len(text) < _MANY and 0 <= obj <= U32 and type(first) is int and 0 <= first < _MANY:
            size, last = _SIZES[len(text)], zero if second == 0 else ctypes.c_int64(i64(second, "number"))
            status = short(guardian, kind, action, obj, _NUMBERS[first], last, text, size, told_at)
        else:
            numbers = ctypes.c_int64(i64(first, "number")), ctypes.c_int64(i64(second, "number"))
            size = ctypes.c_size_t(len(text))
            status = long(guardian, kind, action, u32(obj, "object"), *numbers, text, size, told_at)
        if status == done:
            return None
        return told.value if status == number else (status, told.value)

    return call
