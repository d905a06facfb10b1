#!/usr/bin/env python3
# SPDX-License-Identifier: MIT
"""Checks that the code that pages show stands in files that are built and run.

    tools/shown.py

Each block of a language in a page of SHOWN has to stand, as it is, in a file beside it, or in the documentation at
such a file's head. It prints a line for each that doesn't, or where there are more or fewer blocks, and the status tells
whether there is such a line. Python 3 is all that it needs.
"""

import pathlib
import re
import sys

TOP = pathlib.Path(__file__).resolve().parent.parent
# The page, the language of the blocks, how many there are, and the files in which they stand.
SHOWN = [
    ("docs/DURABLE.md", "python", 1, "hosts/python/durable_shop.py"),
    ("docs/DURABLE.md", "rust", 1, "hosts/rust/examples/orders.rs"),
    ("docs/ETCD.md", "rust", 1, "hosts/rust/etcd/src/lib.rs"),
    (
        "docs/RATTLE.md",
        "rust",
        4,
        "crates/guardian_tests/src/two_threads.rt",
        "crates/argus_store_example/src/lib.rt",
    ),
]
HEAD = re.compile(r"^//! ?", re.MULTILINE)


def faults(page, language, count, *files):
    """What is wrong with a page's blocks of a language."""
    text = (TOP / page).read_text(encoding="utf-8")
    blocks = re.findall(rf"^```{language}\n(.*?)^```$", text, re.MULTILINE | re.DOTALL)
    sources = [(TOP / file).read_text(encoding="utf-8") for file in files]
    if len(blocks) != count:
        yield f"{page}: {len(blocks)} blocks in {language}, and {count} in tools/shown.py"
    for block in blocks:
        if not any(block in source or block in HEAD.sub("", source) for source in sources):
            yield f"{page}: a block in {language} doesn't stand in {' or '.join(files)}: {block.splitlines()[0]}"


def main():
    found = [fault for shown in SHOWN for fault in faults(*shown)]
    print("".join(f"{fault}\n" for fault in found), end="")
    return 1 if found else 0


if __name__ == "__main__":
    sys.exit(main())
