"""The page of a run: the lines of a journal and the script that draws them, in one file that needs no network."""

from __future__ import annotations

import os
import threading
from collections.abc import Iterable
from pathlib import Path

# A character of number 0 is an element, since no page can have it. The ampersand comes first.
_MARKS = {"&": "&amp;", "<": "&lt;", "\r": "&#13;", "\0": "<wbr>"}


def page_of(listing: str, names: Iterable[str] = (), picture: str = "") -> str:
    """The page of a journal's listing, with its objects called by these names, in the order of their numbers, and with
    a picture that is drawn already, as HTML.

    ValueError if a line feed is in a name.
    """
    called = list(names)
    if any("\n" in it for it in called):
        raise ValueError("a line feed is in a name")
    data = {"listing": escaped(listing), "names": escaped("".join(f"{it}\n" for it in called)), "picture": picture}
    return "".join(_put(line, data) for line in _part("page.html").splitlines(keepends=True))


def write_page(path: str | os.PathLike[str], page: str) -> None:
    """Writes a page at once: who opens it meanwhile finds the whole page, or the one before."""
    whole = Path(path)
    new = whole.with_name(f"{whole.name}.{os.getpid()}.{threading.get_ident()}")
    try:
        new.write_bytes(page.encode())
        new.replace(whole)
    finally:
        new.unlink(missing_ok=True)


def _put(line: str, data: dict[str, str]) -> str:
    """A line of the template; one that begins with @ stands for a part of the page."""
    if not line.startswith("@"):
        return line
    name = line[1:].strip()
    return data[name] if name in data else _part(name)


def _part(name: str) -> str:
    """A part of the template, which a package has beside this file. In a clone it is one of hosts/page."""
    here = Path(__file__)
    parts = here.with_name("page_parts")
    return (parts if parts.exists() else here.parents[2] / "page/parts").joinpath(name).read_text(encoding="utf-8")


def escaped(text: str) -> str:
    """A text as a page has it."""
    for character, mark in _MARKS.items():
        text = text.replace(character, mark)
    return text
