#!/usr/bin/env python3
# SPDX-License-Identifier: MIT
"""Prints how long a guardian's mutex is held for a content of 60,000 ints: milliseconds of processor time, the best of 15.

    [ARGUS_LIBRARY=dist/lib/libargus.so.0] bench/long_texts.py

Before the mutex is taken the content is written and read; then the call is made. *Whole* is the call as it was without that.
"""

import sys
import time
from pathlib import Path

sys.path.insert(0, str(Path(__file__).resolve().parents[1] / "hosts/python"))

from argus_guardian import Array, Guardian, Kind  # noqa: E402
from argus_guardian.values import write_content  # noqa: E402

MANY = Array(1, list(range(60_000)))


def main():
    best = {}

    def timed(name, do):
        begin = time.process_time()
        result = do()
        best[name] = min(best.get(name, 1e9), (time.process_time() - begin) * 1000)
        return result

    with Guardian() as guardian:
        archive = guardian._archive
        for _ in range(15):
            text = timed("written", lambda: write_content(MANY).encode())
            for whole in False, True:
                top, array = guardian.topaction(), guardian.declare("atomic_array[int]")
                call = Kind.CREATE, int(top.number), int(array), 0, 0, text
                if whole:
                    timed("whole", lambda: archive.make(*call))
                else:
                    read = timed("read", lambda: archive.read(call))
                    timed("made", lambda: archive.make_read(read))
                top.commit()
    for name, milliseconds in best.items():
        print(f"{name:<8} {milliseconds:6.2f} ms")


main()
