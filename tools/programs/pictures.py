"""Listings by rows, and what comes of their pictures.

    LISTING => drawn
    LISTING => replayed
    LISTING => line 2: NotNext
    LISTING with SCRIPT => seat o1
    LISTING with SCRIPT => script: o0: OtherShape

The lines of a listing and of a script are apart by ` / `; a listing that ends in two dots is torn there: its
last line has no line feed. With a script, the result is how the objects are called, in the order of their
numbers. The picture is then the one without names, in which each number is replaced.

Where a listing is only replayed, no picture is asked for.

A test of a size has the listing in lines with `|`, then `size WIDTH HEIGHT`, and `says TEXT`: so the last line
of the picture begins.
"""

import re
import tempfile
from collections.abc import Iterator
from functools import partial
from pathlib import Path

from calling import FULL, JOURNAL, Ended, Programs, Trial, compared, shortened
from spelling import lines_of, rows_of, spelled, spelled_lines, tests_of

# How each tag of a picture begins.
TAGS = re.compile(rb"</?(svg[ >]|title>|style>|rect |text|path |g>|circle |defs>|pattern)")

# What a picture tells of objects: its texts, and the first line of each title that isn't the listing's.
TOLD = re.compile(rb"(?<=>)[^<>]*(?=</text>)|(?<=<title>)(?!\d+ |opening )[^\n<]*")


def listing_of(text: str) -> bytes:
    """The lines of a row, with a line feed each."""
    lines = spelled(text.removesuffix("..").replace(" / ", "\n"))
    return lines if text.endswith("..") else lines + b"\n"


def drawings(path: Path) -> Iterator[Trial]:
    """Each row of a listing alone; and one that is drawn once more on a full device."""
    for row in rows_of(path):
        listing, _, wanted = row.rpartition(" => ")
        yield row, partial(drawn, listing_of(listing), wanted)
        if wanted == "drawn" and FULL.exists():
            yield f"{row}, on a full device", partial(on_full, listing_of(listing))


def replays(path: Path) -> Iterator[Trial]:
    """Each row of a listing that is only replayed."""
    for row in rows_of(path):
        listing, _, wanted = row.rpartition(" => ")
        yield row, partial(replayed, listing_of(listing), wanted)


def namings(path: Path) -> Iterator[Trial]:
    """Each row of a listing with a script."""
    for row in rows_of(path):
        both, _, wanted = row.rpartition(" => ")
        listing, _, script = both.partition(" with ")
        for form in (b"--script=%s", b"--script %s"):
            yield f"{row}, by {form.decode()}", partial(named, listing_of(listing), listing_of(script), form, wanted)


def sizes(path: Path) -> Iterator[Trial]:
    """Each test of a size."""
    for test in tests_of(path):
        found: dict[str, list[str]] = {"|": [], "size": [], "says": []}
        for line in lines_of(test):
            word, _, text = line.partition(" ")
            found[word].append(text)
        listing = b"".join(spelled_lines(text) for text in found["|"])
        yield test.name, partial(measured, listing, found["size"][0].split(), found["says"][0])


def drawn(listing: bytes, wanted: str, programs: Programs) -> str:
    """What is wrong with a picture, or with the fault in its place."""
    ended = programs.call("picture", (), listing)
    return told(ended, wanted) if wanted != "drawn" else faults_of(ended)


def replayed(listing: bytes, wanted: str, programs: Programs) -> str:
    """What is wrong with a replay, or with the fault in its place."""
    ended = programs.call("replay", JOURNAL, listing)
    return told(ended, wanted) if wanted != "replayed" else compared(ended, 0, listing, b"")


def told(ended: Ended, wanted: str) -> str:
    """What is wrong where a fault is wanted."""
    return compared(ended, 3, b"", f"{wanted}\n".encode())


def faults_of(ended: Ended) -> str:
    """What is wrong with a picture: no text of a listing may be markup."""
    if ended.status or ended.errors or not ended.output.endswith(b"</svg>\n"):
        return f"no picture: status {ended.status}, {shortened(ended.errors)}"
    strange = [part for part in ended.output.split(b"<")[1:] if not TAGS.match(b"<" + part)]
    return f"no tag of a picture: <{shortened(strange[0])}" if strange else ""


def on_full(listing: bytes, programs: Programs) -> str:
    """What is wrong where nothing can be written."""
    return compared(programs.call("picture", (), listing, output=FULL), 5, b"", b"write fault\n")


def named(listing: bytes, script: bytes, form: bytes, wanted: str, programs: Programs) -> str:
    """What is wrong with a picture with names, or with the fault in its place."""
    with tempfile.NamedTemporaryFile() as file:
        file.write(script)
        file.flush()
        ended = programs.call("picture", (form % file.name.encode()).split(b" "), listing)
    if ": " in wanted:
        return told(ended, wanted)
    names = wanted.encode().split(b" ")
    text = programs.call("picture", (), listing).output
    if set(re.findall(rb">o(\d+)</text>", text)) != {b"%d" % at for at in range(len(names))}:
        return "other objects"
    return compared(ended, 0, TOLD.sub(partial(renamed, names), text), b"")


def renamed(names: list[bytes], told: re.Match[bytes]) -> bytes:
    """What is told of objects, with these names in place of their numbers."""
    return re.sub(rb"\bo(\d+)\b", lambda it: names[int(it[1])], told[0])


def measured(listing: bytes, size: list[str], says: str, programs: Programs) -> str:
    """What is wrong with the size of a picture, or with what its last line counts."""
    ended = programs.call("picture", [b"--"], listing)
    head = f'<svg xmlns="http://www.w3.org/2000/svg" version="1.1" width="{size[0]}" height="{size[1]}"'
    last = re.sub(rb"<[^>]*>", b"", b"".join(ended.output.splitlines(keepends=True)[-2:]))
    if ended.output.startswith(head.encode()) and last.startswith(says.encode()):
        return faults_of(ended)
    return f"{shortened(ended.output[:120])}, {shortened(last)}"
