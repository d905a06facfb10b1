#!/usr/bin/env python3
# SPDX-License-Identifier: MIT
"""Tells in which functions the time of a crate's proof went.

    rm -rf crates/CRATE/out/incremental
    (cd crates/CRATE && rt check --jobs 1)
    tools/slow.py CRATE [MOST]

A check saves each module when it is done, so the time between two files is the later one's. These are seconds on the
clock: run nothing beside. Where a function is slow, count its locals that own memory: each way out of it drops them.
One with six parts took 197 seconds, and as six functions 20. What has a large type that isn't generic, such as a
connection to a database, is handed to a generic function at once: 106 seconds, and then 27. A method that lends a
field, and may return early, puts all fields together again at each way out: 30 seconds, and 7 as a function of two
fields.
"""

import collections
import pathlib
import re
import sys

TOP = pathlib.Path(__file__).resolve().parent.parent


def function_of(name):
    """The function, or else the module, that a saved file is about."""
    found = re.fullmatch(r"Rattle-\w+-(?:proofs|specs)\.(?:contracts\.)?(.*?)(?:\.decls)?\.oantt", name)
    # The parts of a function's proof are modules below it, such as `Code` and `Lts-drop`.
    return re.sub(r"\.[A-Z]\w*(-\w+)?$", "", found[1]) if found else name


def seconds_by_function(folder):
    """How long each function took, by the times of the files that the check saved."""
    saved = sorted((it.stat().st_mtime, it.name) for it in folder.rglob("*") if it.is_file())
    seconds = collections.Counter()
    for (before, _), (time, name) in zip(saved, saved[1:]):
        seconds[function_of(name)] += time - before
    return seconds


def main():
    if len(sys.argv) not in (2, 3):
        sys.exit(__doc__)
    seconds = seconds_by_function(TOP / "crates" / sys.argv[1] / "out" / "incremental")
    print(f"{sum(seconds.values()):8.1f} in all")
    for name, taken in seconds.most_common(int(sys.argv[2]) if len(sys.argv) == 3 else 20):
        print(f"{taken:8.1f} {name}")


if __name__ == "__main__":
    main()
