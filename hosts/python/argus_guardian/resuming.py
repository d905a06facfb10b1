"""`resume`: restores a guardian from the lines of its journal."""

from __future__ import annotations

from collections.abc import Iterable, Iterator

from .archive import Archive
from .errors import BadLine
from .guardian import Guardian
from .library import Status
from .telling import error_of

# A piece ends with the line that reaches so many bytes.
_PIECE = 65536
_WHYS: dict[int, str] = {
    Status.NOT_UTF8: "not UTF-8 from byte {} on",
    Status.NOT_AN_OPENING: "not a line of the opening",
    Status.NO_LINE: "no entry from byte {} on",
    Status.NOT_NEXT: "not the number of the next entry, {}",
    Status.NOT_SOUND: "the opening refers to objects that aren't there",
}


def resume(lines: Iterable[str], patience: float = 1.0) -> Guardian:
    """The guardian whose journal's listing has these lines, with or without their line feeds.

        with open("bank.journal", encoding="utf-8", newline="\\n") as listing:
            guardian = resume(listing)

    The listing is that of `Guardian.list("journal")`: after a checkpoint it begins with lines that say what
    the objects hold, and then come the lines of the entries, which `Guardian.lines` returns. Each entry's
    call is made again, and its reply compared with the line's: so the guardian's journal has these lines.
    Actions that are live in it stay live until `abort_live`.

    Raises BadLine if a line isn't the next one of a guardian's journal, or has a line feed within it, or
    OutOfMemory. Then there is no guardian.
    """
    guardian = Guardian(patience)
    try:
        _take_all(guardian._archive, lines)
        guardian._begun = guardian.actions
        # The program has these lines.
        guardian._note_read(guardian.entries)
    except BaseException:
        guardian.close()
        raise
    return guardian


def _take_all(archive: Archive, lines: Iterable[str]) -> None:
    before = 0
    for piece in _pieces(lines):
        status, number, taken = archive.take(piece)
        before += taken
        if status in _WHYS:
            raise BadLine(before, _WHYS[status].format(number))
        if status == Status.NOT_THE_REPLY:
            raise BadLine(before, f"not the reply of the journal before it, {archive.kept()}")
        if status != Status.DONE:
            raise error_of(status, number)
    status, dropped = archive.resumed()
    if status != Status.DONE:
        raise error_of(status)
    if dropped:
        raise BadLine(before, "the opening refers to objects that didn't come")


def _pieces(lines: Iterable[str]) -> Iterator[bytes]:
    """The lines with their line feeds, many in each piece."""
    piece = bytearray()
    for number, line in enumerate(lines):
        text = line.removesuffix("\n")
        if "\n" in text:
            raise BadLine(number, "a line feed is in it")
        # The library says which line isn't UTF-8.
        piece += text.encode(errors="surrogatepass") + b"\n"
        if len(piece) >= _PIECE:
            yield bytes(piece)
            piece.clear()
    yield bytes(piece)
