#!/usr/bin/env python3
# SPDX-License-Identifier: MIT
"""Draws a journal's listing as SVG, once `replay` has confirmed it: each call made again, each reply the same."""

from __future__ import annotations

import argparse
import os
import signal
import subprocess
import sys
from contextlib import suppress
from pathlib import Path
from tempfile import TemporaryFile
from typing import NoReturn

from drawing import picture_of
from listing import Listing
from naming import Names, names_of
from paging import framed_page_of
from run import Run

VERSION = "0.1.0"

# The most entries that a listing may have.
MOST_ENTRIES = 65_536

MORE = """\
The picture goes to standard output. Of a script the lines `declare NAME SHAPE` count, and the first of them names
object o0. Each object that it declares has to be the journal's, with the same shape; objects past these are called by
their numbers. Whether its other lines are right isn't looked at.

The program that confirms the listing is the one that REPLAY in the environment names, or else ./replay.

Exit status:
  0  done
  2  a mistake in the command line
  3  the listing is refused: the words of `replay` on standard error, or `line N: TooLong`; or the names are:
     `script: oN: NotDeclared` where the journal hasn't the object, or `script: oN: OtherShape` where the journal has
     it with another shape
  4  out of memory
  5  a read or a write failed; of the script's file: `script: read fault`
Any other status is that of `replay`."""


class NotDrawn(Exception):
    """Why nothing is drawn, in words for standard error, and the status."""

    def __init__(self, status: int, words: str = "") -> None:
        super().__init__(words)
        self.status = status


def read(path: str | None, words: str) -> bytes:
    """All that a file or standard input has. The words say what failed, if it does."""
    try:
        with open(0 if path is None else path, "rb", closefd=path is not None) as file:
            return file.read()
    except OSError:
        raise NotDrawn(5, words) from None


def write(text: str) -> None:
    """Writes to standard output without a buffer, which Python would try to write once more at its end."""
    rest = memoryview(text.encode())
    try:
        while rest:
            rest = rest[os.write(1, rest) :]
    except OSError:
        raise NotDrawn(5, "write fault") from None


def say(words: str) -> None:
    """If standard error can't be written, only the status tells."""
    with suppress(OSError):
        os.write(2, os.fsencode(words + "\n"))


def confirm(listing: bytes, name: str) -> None:
    """Has the listing confirmed. What is said of a line then names the file, if there is one, too."""
    replay = os.environ.get("REPLAY") or str(Path(__file__).resolve().parents[2] / "replay")
    with TemporaryFile() as file:
        file.write(listing)
        file.seek(0)
        try:
            called = subprocess.Popen([replay], stdin=file, stdout=subprocess.DEVNULL, stderr=subprocess.PIPE)
        except OSError:
            raise NotDrawn(1, f"picture: no program {replay}, which confirms a listing") from None
    # Line by line, since a launcher that compiles says how far it is.
    with called:
        for line in called.stderr or ():
            words = os.fsdecode(line.removesuffix(b"\n"))
            say(f"{name}: {words}" if name and words.startswith("line ") else words)
    if called.returncode:
        raise NotDrawn(called.returncode)


def checked(text: bytes, name: str) -> Listing:
    """The listing, confirmed, and no longer than a picture may be."""
    confirm(text, name)
    listing = Listing(text.decode())
    if len(listing) > MOST_ENTRIES:
        at = f"{name}: " if name else ""
        raise NotDrawn(3, f"{at}line {listing.opening_lines + MOST_ENTRIES + 1}: TooLong")
    return listing


class Words(argparse.ArgumentParser):
    """A command line, whose texts are written as all others are."""

    def print_help(self, _: object = None) -> None:
        write(self.format_help())

    def error(self, message: str) -> NoReturn:
        raise NotDrawn(2, f"error: {message}\n\n{self.format_usage()}\nFor more information, try '--help'.")


def words_given() -> argparse.Namespace:
    layout = argparse.RawDescriptionHelpFormatter
    words = Words("picture", description=__doc__, epilog=MORE, formatter_class=layout, allow_abbrev=False)
    script = "calls objects by the names that this script declares, not by their numbers"
    words.add_argument("--script", metavar="FILE", help=script)
    words.add_argument("--html", action="store_true", help="makes a page for a browser of the listing and its picture")
    words.add_argument("-V", "--version", action="store_true", help="prints the version")
    words.add_argument("listing", metavar="LISTING", nargs="?", help="the file with it [default: standard input]")
    return words.parse_args()


def draw() -> None:
    """Does what the command line asks for."""
    asked = words_given()
    if asked.version:
        write(f"picture {VERSION}\n")
        return
    names = Names()
    if asked.script is not None:
        names = names_of(read(asked.script, "script: read fault").decode(errors="replace"))
    prefix = f"{asked.listing}: " if asked.listing else ""
    text = read(asked.listing, f"{prefix}read fault")
    run = Run(checked(text, asked.listing or ""))
    fault = names.fault([it.shape for it in run.objects])
    if fault:
        raise NotDrawn(3, f"script: {fault}")
    picture = picture_of(run, names)
    write(framed_page_of(text.decode(), names, picture, run.entries) if asked.html else picture)


def main() -> int:
    signal.signal(signal.SIGINT, signal.SIG_DFL)
    try:
        draw()
    except NotDrawn as why:
        if str(why):
            say(str(why))
        return why.status
    except OSError:
        # No room for the copy that replay reads.
        say("write fault")
        return 5
    except MemoryError:
        say("out of memory")
        return 4
    return 0


if __name__ == "__main__":
    sys.exit(main())
