#!/usr/bin/env python3
# SPDX-License-Identifier: MIT
"""Prints the lines that a page of a run has: hosts/page/lines.py run.html | ./replay --list audit"""

import re
import sys
from pathlib import Path

# What stands for characters that a page can't have as they are; the ampersand comes last.
MARKS = {"<wbr>": "\0", "&#13;": "\r", "&lt;": "<", "&amp;": "&"}


def lines_of(page: str) -> str:
    """The listing that is in a page, as it was. ValueError where there is none."""
    found = re.search(r'^<pre id="listing">\n(.*?)^</pre>$', page, re.DOTALL | re.MULTILINE)
    if not found:
        raise ValueError("no lines of a run")
    listing = found[1]
    for mark, character in MARKS.items():
        listing = listing.replace(mark, character)
    return listing


def main() -> None:
    if len(sys.argv) != 2:
        sys.exit("usage: hosts/page/lines.py PAGE")
    try:
        page = Path(sys.argv[1]).read_bytes().decode()
        sys.stdout.buffer.write(lines_of(page).encode())
    except (OSError, ValueError) as error:
        sys.exit(f"{sys.argv[1]}: {error}")


if __name__ == "__main__":
    main()
