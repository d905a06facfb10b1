"""Listings by rows, and what their pictures show.

A test has the listing in lines with `|`, and a script in lines with `&` where objects have names. Then comes what the
picture has to show, for each word that the test has all of it, as it is drawn: refused calls, the serial order, lanes,
locks, accesses and bases.

| Line | What is shown |
|---|---|
| `order 1 a0 at 7; 2 a3 at 9` | the numbers of the serial order: whose commit, and at which entry each is drawn |
| `table 1: a0 at entry 7; and 3 more` | the texts of the serial order's table |
| `marks 2 o0 kept; 4 o0 undone` | the single accesses, in which lane: `look` for a read; a write is `kept`, a `version` or `undone` |
| `why 4 Conflict seat` | the names of refusals that are drawn |
| `told a0 holds seat for writing` | the first line of each title, if it isn't the listing's |

They are apart by semicolons, and may go on in lines with the same word.
"""

import re
import tempfile
import xml.etree.ElementTree as xml
from collections.abc import Iterator
from functools import partial
from pathlib import Path

from calling import Programs, Trial, shortened
from spelling import lines_of, spelled_lines, tests_of

# Where the first entry is; and up to how many entries they are so many pixels apart.
FIRST, STEPS = 168, {64: 28, 512: 12, 65536: 4}
# What comes before an entry's number or an opening in a line of a listing.
OF_LISTING = re.compile(r"(\d+|opening) ")
NUMBERED = re.compile(r"(a\d+) is number (\d+) in the serial order")


def trials(path: Path) -> Iterator[Trial]:
    """Each test."""
    for test in tests_of(path):
        found: dict[str, list[str]] = {"|": [], "&": []}
        for line in lines_of(test):
            word, _, text = line.partition(" ")
            found.setdefault(word, []).append(text)
        listing, script = (b"".join(map(spelled_lines, found.pop(it))) for it in "|&")
        wanted = {word: "; ".join(texts) for word, texts in found.items()}
        yield test.name, partial(shown, listing, script, wanted)


def shown(listing: bytes, script: bytes, wanted: dict[str, str], programs: Programs) -> str:
    """What is wrong with what a picture shows."""
    with tempfile.NamedTemporaryFile() as file:
        file.write(script)
        file.flush()
        words = [b"--script", file.name.encode()] if script else []
        ended = programs.call("picture", words, listing)
    if ended.status:
        return f"no picture: {shortened(ended.errors)}"
    picture = Picture(ended.output, sum(not it.startswith(b"opening ") for it in listing.splitlines()))
    faults = [f"{it} {picture.texts(it)}, wanted: {text}" for it, text in wanted.items() if picture.texts(it) != text]
    return "\n".join(faults)


class Picture:
    """What a picture shows, in the words of the rows."""

    def __init__(self, text: bytes, entries: int) -> None:
        self.step = next(step for most, step in STEPS.items() if entries <= most)
        self.root = xml.fromstring(text)
        for it in self.root.iter():
            it.tag = it.tag.rpartition("}")[2]
        self.groups = [it for it in self.root if it.tag == "g"]
        self.lanes = [self.place(it, "y") for it in self.root.iterfind("g/rect[@class='lane']")]

    def texts(self, word: str) -> str:
        """What is shown of this kind."""
        return "; ".join(getattr(self, word)())

    def place(self, shape: xml.Element, name: str) -> int:
        """A coordinate of a shape, or of the begin of a path."""
        of_path = re.match(r"M(\d+) (\d+)", shape.get("d", ""))
        return int(of_path["xy".index(name) + 1] if of_path else shape.get(name, "0"))

    def entry(self, x: int) -> int:
        """The entry that is there."""
        assert (x - FIRST) % self.step == 0, f"no entry at {x}"
        return (x - FIRST) // self.step

    def order(self) -> Iterator[str]:
        """The numbers of the serial order, whose title has to say the same."""
        for group in self.groups:
            if group.find("rect[@class='order']") is not None:
                text = group.find("text")
                told = NUMBERED.match(group.findtext("title") or "")
                assert told and text is not None and told[2] == text.text, "a number that isn't its title's"
                yield f"{told[2]} {told[1]} at {self.entry(self.place(text, 'x'))}"

    def table(self) -> Iterator[str]:
        """The texts below the lanes, from the table's name on."""
        texts = list(self.root.iterfind("text"))
        names = [at for at, it in enumerate(texts) if it.text == "Order"]
        for it in texts[names[0] + 1 : -1] if names else []:
            yield it.text or ""

    def marks(self) -> Iterator[str]:
        """The single accesses."""
        for group in self.groups:
            for kind in ("look", "kept", "version", "undone"):
                sign = group.find(f"path[@class='{kind}']")
                if sign is not None:
                    lane = sum(it < self.place(sign, "y") for it in self.lanes) - 1
                    yield f"{self.entry(self.place(sign, 'x'))} o{lane} {kind}"

    def why(self) -> Iterator[str]:
        """The names of refusals."""
        for it in self.root.iterfind("g/text[@class='small refusal']"):
            yield f"{self.entry(self.place(it, 'x') + 4)} {it.text}"

    def told(self) -> Iterator[str]:
        """The first line of each title that the listing doesn't have."""
        for group in self.groups:
            line = (group.findtext("title") or "").split("\n")[0]
            if not OF_LISTING.match(line):
                yield line
