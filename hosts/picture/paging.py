"""The page of a listing with its picture, which hosts/python joins of the parts in hosts/page."""

from __future__ import annotations

import sys
from pathlib import Path

from naming import Names

# The module stands on nothing of its package; a release has it beside this one.
sys.path.append(str(Path(__file__).resolve().parent.parent / "python/argus_guardian"))

from page import escaped, page_of  # noqa: E402

# The most entries of which a page has the picture, too: of more, these stand closer together.
_MOST_DRAWN = 64


def framed_page_of(listing: str, names: Names, picture: str, entries: int) -> str:
    """The page, with the picture in a frame that keeps it apart."""
    framed = f"<p>The picture of the program isn't in this page: that has more than {_MOST_DRAWN} entries.</p>\n"
    if entries <= _MOST_DRAWN:
        quoted = escaped(picture).replace('"', "&quot;")
        framed = f"""\
<details><summary>The picture that the program draws</summary>
<iframe title="The picture that the program draws" sandbox srcdoc="
<meta name='color-scheme' content='light dark'><style>body{{margin:0}}</style>
{quoted}"></iframe></details>
"""
    return page_of(listing, names.names, framed)
