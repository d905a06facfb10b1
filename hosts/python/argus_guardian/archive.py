"""`Archive`: one guardian of the library, for one call at a time."""

from __future__ import annotations

import ctypes
from collections.abc import Iterator
from typing import Any, NamedTuple

from .call_reading import ReadCall, is_long
from .errors import ArgusError, OutOfMemory, Refused, Signal
from .library import Handle, Question, Ready, Status, address, address_of, bare, load, opening, quick
from .lists import made_alone
from .shapes import read_shape
from .telling import Call, by_number, error_of, error_of_call, error_of_question, is_ill_typed
from .values import read_content, read_value

# The most frequent ones, as globals, which are looked up faster than attributes.
NUMBER, DONE, FLAG = Status.NUMBER, Status.DONE, Status.FLAG
VALUE, TOO_SMALL = Status.VALUE, Status.TOO_SMALL
# Texts of so many bytes are read after a call, when others may go on.
LONG = 4096
# The most bytes that the line of a commit has: two numbers of 20 and 10 digits, and the longest refusal.
LINE = 61


class Archive:
    """A guardian, its handle, and the buffers for its replies. Its owner makes one call at a time.

    The caller checks that numbers are in the library's range: ctypes would cut off what is beyond it.
    """

    def __init__(self) -> None:
        library = load()
        # The call in two forms; the quick one takes `at`.
        self.call, self._call = quick(library), bare(library, "argus_c_call")
        self._tell, self._reply = bare(library, "argus_c_tell"), bare(library, "argus_c_reply")
        self._checkpoint, self._close = library.argus_c_checkpoint, library.argus_c_close
        self._abort_live, self._renew = library.argus_c_abort_live, library.argus_c_renew
        self._lines, self._count = library.argus_c_lines, ctypes.c_uint64()
        self._call_each, self._call_parsed = library.argus_c_call_each, library.argus_c_call_parsed
        self._ready_commit, self._ready_line = library.argus_c_ready_commit, library.argus_c_ready_line
        self._make_ready, self._cancel_ready = library.argus_c_make_ready, library.argus_c_cancel_ready
        self._resume, self._resumed = library.argus_c_resume, library.argus_c_resumed
        # The names of objects, by their numbers.
        self.names: dict[int, str] = {}
        # What the calls take, of the types that library.py declares.
        self._handle, self._number, self._size = Handle(), ctypes.c_int64(), ctypes.c_size_t()
        self._ready = Ready()
        self.at, self._handle_at = address(self._handle), ctypes.byref(self._handle)
        self._number_at = ctypes.byref(self._number)
        self._size_at = ctypes.byref(self._size)
        self._first, self._second, self._entry = ctypes.c_int64(), ctypes.c_int64(), ctypes.c_uint64()
        self._text_size = ctypes.c_size_t()
        self._make_room(256)
        self._open, self._library = opening(library), library
        status = self._open(self._handle_at).status
        if status != Status.DONE:
            raise error_of(status)

    def close(self) -> None:
        # While a commit is ready, the library has the guardian closed.
        self.cancel_ready()
        self._close(self._handle_at)

    def addresses(self) -> tuple[int, int, int]:
        """Where the library's call and reply are, and its handle: for calls without ctypes."""
        return address_of(self._call), address_of(self._reply), ctypes.addressof(self._handle)

    def leave_behind(self) -> None:
        """Closes it without touching its memory."""
        self._handle, self._ready = Handle(), Ready()
        self.at, self._handle_at = address(self._handle), ctypes.byref(self._handle)

    def make(
        self, kind: int, action: int = 0, obj: int = 0, first: int = 0, second: int = 0, text: bytes = b""
    ) -> tuple[int, int]:
        """The status and the number of a call."""
        self._first.value, self._second.value = first, second
        self._text_size.value = len(text)
        given = self._first, self._second, text, self._text_size, self._number_at
        return self._call(self._handle_at, kind, action, obj, *given), self._number.value

    def read(self, call: Call) -> ReadCall | None:
        """A call with a long text, which is read and not made. It touches no guardian, so it takes no mutex."""
        return ReadCall(self._library, self._open, call) if is_long(call) else None

    def make_read(self, read: ReadCall) -> tuple[int, int]:
        """The status and the number of a call that was read, which is made."""
        return self._call_parsed(self._handle_at, read.handle, self._number_at), self._number.value

    def make_each(self, array: Any, read: ReadCall | None = None) -> tuple[int, int]:
        """The status of a list of calls, and how many of them were made. If one is given that was read, it is that alone."""
        if read is not None:
            return made_alone(array[0], *self.make_read(read))
        status = self._call_each(self._handle_at, array, len(array), self._size_at)
        return status, self._size.value

    def ask(self, question: int, action: int = 0, obj: int = 0, entry: int = 0) -> tuple[int, int]:
        """The status and the number of a question."""
        self._entry.value = entry
        given = question, action, obj, self._entry, self._number_at
        return self._tell(self._handle_at, *given), self._number.value

    def abort_live(self) -> int:
        """The status of aborting all live actions."""
        return self._abort_live(self._handle_at)

    def fold(self) -> int:
        """The status of a checkpoint."""
        return self._checkpoint(self._handle_at)

    def renew(self) -> int:
        """The status of a renewal."""
        return self._renew(self._handle_at)

    def ready_commit(self, action: int) -> int:
        """The status of preparing an action's commit. Until that is made or cancelled the guardian is closed."""
        return self._ready_commit(self._handle_at, self._ready, action)

    def ready_line(self) -> str:
        """The line that the commit will have, with its line feed."""
        room = ctypes.create_string_buffer(LINE)
        status = self._ready_line(self._ready, room, LINE, self._size_at)
        if status != Status.DONE:
            raise error_of(status)
        return room.raw[: self._size.value].decode()

    def make_ready(self) -> tuple[int, int]:
        """The status and the number of the commit that is ready."""
        return self._make_ready(self._ready, self._handle_at, self._number_at), self._number.value

    def cancel_ready(self) -> int:
        """The status of cancelling the commit that is ready; NOT_OPEN if none is."""
        return self._cancel_ready(self._ready, self._handle_at)

    def lines(self, entry: int, size: int) -> list[str]:
        """The journal's lines from an entry on, as many as fit into `size` bytes; at least one, if there is one."""
        return self.text_of(entry, size)[0].decode().split("\n")[:-1]

    def text_of(self, entry: int, size: int) -> tuple[bytes, int]:
        """The same as they are, with their line feeds; and how many there are."""
        while True:
            room = ctypes.create_string_buffer(size)
            status = self._lines(self._handle_at, entry, room, size, self._size_at, ctypes.byref(self._count))
            if status != Status.TOO_SMALL:
                break
            size = self._size.value
        if status != Status.DONE:
            raise error_of_question(status, 0, Question.ENTRY, entry)
        return ctypes.string_at(room, self._size.value), self._count.value

    def take(self, text: bytes) -> tuple[int, int, int]:
        """Takes lines of a journal: the status, its number, and how many lines were taken."""
        lines = ctypes.c_size_t()
        given = text, len(text), self._size_at, ctypes.byref(lines), self._number_at
        status = self._resume(self._handle_at, *given)
        return status, self._number.value, lines.value

    def resumed(self) -> tuple[int, int]:
        """Makes the guardian of these lines: the status, and how many bytes of them were dropped."""
        status = self._resumed(self._handle_at, ctypes.byref(self._count))
        return status, self._count.value

    def kept(self) -> str:
        """The text that the library keeps."""
        return self._text().decode()

    def answer(self, status: int, number: int, call: Call) -> Any:
        """The result of a call, from its status and its number. Raises the exception that they mean."""
        if status == NUMBER:
            return number
        if status == DONE:
            return None
        if status == FLAG:
            return number != 0
        if status in (VALUE, Status.CONTENT):
            text = self._text()
            return read_reply(status, text) if len(text) < LONG else LongAnswer(status, text)
        if status in (Status.OBJECT, Status.ACTION):
            return number
        raise self.error(status, number, call)

    def error(self, status: int, number: int, call: Call) -> ArgusError:
        """The exception for the status and the number of a call, in which objects have their names."""
        shape = None
        if is_ill_typed(status, number):
            try:
                shape = read_shape(self.told(Question.SHAPE, obj=call[2]))
            except ArgusError:
                # It says less without.
                pass
        return error_of_call(status, number, call, self.name, shape)

    def name(self, obj: int) -> str:
        """How an object is called."""
        return self.names.get(obj) or by_number(obj)

    def answers(self, outcomes: list[tuple[int, int]], calls: list[Call]) -> list[Any]:
        """The results of the calls of a list that were made; a Refused or a Signal is a result here.

        The outcomes are statuses with their numbers. The library keeps their texts until the next call.
        """
        has_text = any(status in (Status.VALUE, Status.CONTENT) for status, _ in outcomes)
        lines = iter(self._text().split(b"\n") if has_text else [])
        return [self._answer_in(lines, *it, call) for it, call in zip(outcomes, calls)]

    def _answer_in(self, lines: Iterator[bytes], status: int, number: int, call: Call) -> Any:
        """The result of a call of a list; its text, if it has one, is the next of these lines."""
        if status in (VALUE, Status.CONTENT):
            return read_reply(status, next(lines))
        try:
            return self.answer(status, number, call)
        except (Refused, Signal) as error:
            return error.with_traceback(None)

    def told(self, question: int, action: int = 0, obj: int = 0, entry: int = 0) -> Any:
        """The result of a question: a text, a number, an action or a flag. Raises the exception of its status."""
        status, number = self.ask(question, action, obj, entry)
        if status == Status.TEXT:
            return self._text().decode()
        if status == Status.FLAG:
            return number != 0
        if status in (Status.NUMBER, Status.ACTION):
            return number
        raise error_of_question(status, number, question, entry, obj)

    def _text(self) -> bytes:
        """The text that the library keeps. OutOfMemory here is raised after a call that was made."""
        status = self._reply(self._handle_at, self._room, self._room_size, self._size_at)
        if status == TOO_SMALL:
            self._make_room(self._size.value)
            status = self._reply(self._handle_at, self._room, self._room_size, self._size_at)
        if status != DONE:
            raise error_of(status)
        return self._room[: self._size.value]

    def _make_room(self, size: int) -> None:
        self._room: Any
        try:
            self._room, self._room_size = ctypes.create_string_buffer(size), ctypes.c_size_t(size)
        except MemoryError:
            raise OutOfMemory() from None


class LongAnswer(NamedTuple):
    """A long text of a reply, which is read once the guardian's mutex is free."""

    status: int
    text: bytes


def read_late(result: Any) -> Any:
    """The result of a call, of which a long text is read now."""
    return read_reply(*result) if type(result) is LongAnswer else result


def read_reply(status: int, text: bytes) -> Any:
    """The value or the content of a reply's text."""
    return _value(text) if status == VALUE else read_content(text.decode())


def _value(written: bytes) -> Any:
    """The value of this written form, which the library wrote. Most are short texts."""
    if written[:1] == b'"' and b"\\" not in written:
        return written[1:-1].decode()
    return None if written == b"null" else read_value(written.decode())
