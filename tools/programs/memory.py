"""The programs with little memory: each says so with status 4, and prints nothing that it wouldn't with enough.

Their addresses are limited, in steps, from too few to start with to as many as are enough. A program that doesn't
even start prints nothing.
"""

from collections.abc import Iterator
from functools import partial

from calling import Programs, Trial, shortened

KIB = 1024
LIMITS = range(1024 * KIB, 64 * 1024 * KIB, 256 * KIB)
TOLD = b"out of memory\n"


def trials() -> Iterator[Trial]:
    """Words for which there is no memory, for each program; then its input, and what it prints of it."""
    for name in ("argus", "replay"):
        yield f"{name}: words without memory", partial(without_words, name)
    journal = [b"--list", b"journal"]
    yield "argus: a run without memory", partial(without_memory, "argus", journal, script())
    by_two = [*journal, b"--workers", b"2"]
    yield "argus: a run by two workers without memory", partial(without_memory, "argus", by_two, script())
    yield "replay: a replay without memory", partial(without_memory, "replay", journal, listing())


def script() -> bytes:
    """A script whose run takes some MiB."""
    block = b"enter topaction\naddh x 1\nread x\nend\n"
    return b"declare x atomic_array[int]\nenter topaction\ncreate x 1[]\nend\n" + 300 * block


def listing() -> bytes:
    """A journal's listing that takes some MiB to check."""
    lines = [b"%d declare atomic_array[int] -> o%d\n" % (at, at) for at in range(30000)]
    return b"".join(lines)


def without_words(name: str, programs: Programs) -> str:
    """What is wrong where a program starts, and has no memory for its words."""
    for limit in LIMITS:
        ended = programs.call(name, 8 * [100_000 * b"0"], memory=limit)
        if ended.status in (2, 4):
            is_told = (ended.status, ended.output, ended.errors) == (4, b"", TOLD)
            return "" if is_told else f"status {ended.status}, {shortened(ended.errors)}"
    return "it never starts"


def without_memory(name: str, words: list[bytes], given: bytes, programs: Programs) -> str:
    """What is wrong in any of the runs with too little memory. Some of them have to be told."""
    wanted = programs.call(name, words, given).output
    told = 0
    for limit in LIMITS:
        ended = programs.call(name, words, given, memory=limit)
        if ended.status == 0:
            return "" if told > 2 and ended.output == wanted else f"{told} runs are told"
        is_started = ended.status not in (126, 127) and ended.status > 0
        if is_started and (ended.status != 4 or ended.errors != TOLD or not wanted.startswith(ended.output)):
            return f"{limit} bytes: status {ended.status}, {shortened(ended.errors)}{shortened(ended.output)}"
        told += is_started
    return "there is never enough memory"
