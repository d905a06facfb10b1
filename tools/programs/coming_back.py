"""Journals that come back: what `argus` lists, `replay` checks and lists again, byte for byte."""

from collections.abc import Iterator
from functools import partial

from calling import JOURNAL, TOP, Ended, Programs, Trial, shortened


def trials() -> Iterator[Trial]:
    """The journals of the examples, also behind a checkpoint."""
    for path in sorted((TOP / "examples").glob("*.argus")):
        if path.stem != "refused":
            folded = [*JOURNAL, b"--checkpoint"]
            yield path.name, partial(comes_back, path.read_bytes(), JOURNAL)
            yield f"{path.name}, behind a checkpoint", partial(comes_back, path.read_bytes(), folded)


def comes_back(script: bytes, words: list[bytes], programs: Programs) -> str:
    """What is wrong with a script's journal that is replayed."""
    return replayed(programs.call("argus", words, script), programs)


def replayed(listed: Ended, programs: Programs) -> str:
    """What is wrong with a journal that was listed, once it is replayed."""
    again = programs.call("replay", JOURNAL, listed.output)
    is_same = listed.status == again.status == 0 and listed.output == again.output != b""
    return "" if is_same else f"{shortened(again.errors)}{shortened(again.output)}of\n{shortened(listed.output)}"
