#!/usr/bin/env python3
# SPDX-License-Identifier: MIT
"""Draws docs/design.svg: the crates of the surface, the inner crates behind them, and the crates of laws.

    tools/design.py            writes the picture
    tools/design.py --check    writes nothing, and says whether the picture is as it would be written, and
                               has each crate of crates.txt but tests, benchmarks and the example

Python 3 and its own library are all that it needs.
"""

import pathlib
import re
import sys

TOP = pathlib.Path(__file__).resolve().parent.parent
PICTURE = TOP / "docs/design.svg"
WIDTH, MARGIN, GAP = 960, 20, 14
TITLE, INNER, PAD = 40, 46, 10
NOT_DRAWN = re.compile(r".*_(tests|bench|example)")

# From the top down: layers of boxes. A box has a kind, a name, what it is for, and its inner crates with theirs.
LAYERS = [
    [
        ("program", "argus", "runs a script and lists", []),
        ("program", "replay", "checks a journal", []),
        ("program", "hosts", "programs in C, Rust and Python", []),
    ],
    [
        ("surface", "argus_cli", "what argus and replay do", []),
        ("surface", "argus_embed", "calls by numbers and texts", []),
        ("surface", "argus_c", "a static library for C", []),
    ],
    [
        ("surface", "argus_commands", "scripts, parsed and run", [
            ("argus_language", "parses"),
            ("argus_runs", "runs on a guardian"),
            ("argus_workers", "runs by threads"),
        ]),
    ],
    [
        ("surface", "argus_guardian", "the guardian, of one thread and shared", [
            ("argus_core", "of one thread"),
            ("argus_sharing", "one lock, seats"),
            ("argus_board", "readers, no lock"),
            ("argus_listings", "written as text"),
            ("argus_audit", "writes, run again"),
            ("argus_resume", "from its journal"),
            ("argus_streams", "reads and writes"),
        ]),
    ],
    [
        ("surface", "argus_journal", "calls, replies, what a legal journal is", [
            ("argus_entries", "entries and their lines"),
            ("argus_reading", "lines, read back"),
        ]),
        ("laws", "argus_refinement", "trees and cells are what the journal says", []),
        ("laws", "argus_model", "nested transactions: definitions and laws", []),
    ],
    [
        ("surface", "argus_objects", "locks and versions of one object", []),
        ("surface", "argus_actions", "who stands under whom, and its fate", []),
        ("surface", "argus_store", "a log in a database", []),
    ],
    [
        ("surface", "argus_values", "values, contents, texts, the heap", [
            ("argus_contents", "what operations do"),
            ("argus_texts", "written forms"),
            ("argus_memory", "the heap, with a budget"),
        ]),
    ],
]

STYLE = """text { font: 12px sans-serif; fill: #1d2a35 }
.name { font-weight: bold }
.small { font-size: 11px; fill: #4d5b66 }
rect { stroke-width: 1.2; rx: 5px }
.surface { fill: #e3eefb; stroke: #3d76b8 }
.program { fill: #f2f2f2; stroke: #8a949c }
.laws { fill: #fbf3df; stroke: #a9802a; stroke-dasharray: 5 3 }
.inner { fill: #ffffff; stroke: #9bb7d6 }
@media (prefers-color-scheme: dark) {
text { fill: #e6edf3 }
.small { fill: #aab6c0 }
.surface { fill: #17314d; stroke: #6aa3e0 }
.program { fill: #2a2f34; stroke: #8a949c }
.laws { fill: #3a3015; stroke: #d2a84b }
.inner { fill: #0f2033; stroke: #4f7099 }
}"""


def box(kind, x, y, width, height):
    """A rectangle."""
    return f'<rect class="{kind}" x="{x}" y="{y}" width="{width}" height="{height}"/>'


def words(x, y, text, style):
    """A line of text."""
    return f'<text class="{style}" x="{x}" y="{y}">{text}</text>'


def draw_inner(inner, x, y, width):
    """The inner crates of a crate, side by side."""
    each = (width - 2 * PAD - (len(inner) - 1) * PAD) // max(len(inner), 1)
    for place, (name, what) in enumerate(inner):
        left = x + PAD + place * (each + PAD)
        yield box("inner", left, y + TITLE, each, INNER - PAD)
        yield words(left + 8, y + TITLE + 15, name, "name")
        yield words(left + 8, y + TITLE + 29, what, "small")


def draw_layer(layer, y):
    """A layer of boxes, side by side: how high it is, and its lines."""
    high = TITLE + (INNER if any(inner for _, _, _, inner in layer) else 0)
    each = (WIDTH - 2 * MARGIN - (len(layer) - 1) * GAP) // len(layer)
    lines = []
    for place, (kind, name, what, inner) in enumerate(layer):
        x = MARGIN + place * (each + GAP)
        lines.append(box(kind, x, y, each, high))
        lines.append(words(x + PAD, y + 17, name, "name"))
        lines.append(words(x + PAD, y + 32, what, "small"))
        lines += draw_inner(inner, x, y, each)
    return high, lines


def drawn():
    """The picture, as text."""
    y, lines = MARGIN, []
    for layer in LAYERS:
        high, more = draw_layer(layer, y)
        lines += more
        y += high + GAP
    y += 8
    for place, (kind, what) in enumerate([
        ("surface", "surface: the crates that users name"),
        ("inner", "inner crate: behind it, proved by itself"),
        ("laws", "laws: proofs, no code that runs"),
    ]):
        x = MARGIN + place * 310
        lines += [box(kind, x, y - 11, 18, 14), words(x + 26, y, what, "small")]
    head = f'<svg xmlns="http://www.w3.org/2000/svg" viewBox="0 0 {WIDTH} {y + MARGIN}" width="{WIDTH}" height="{y + MARGIN}">'
    title = "<title>The crates, from programs down to the heap. Each knows only contracts of crates below.</title>"
    return "\n".join([head, title, f"<style>{STYLE}</style>", *lines, "</svg>", ""])


def crates_not_drawn():
    """The crates of crates.txt that the picture lacks."""
    lines = (TOP / "crates.txt").read_text(encoding="utf-8").splitlines()
    names = [re.split(r"[ :]", line)[0] for line in lines if line and not line.startswith("#")]
    has = {name for layer in LAYERS for _, name, _, _ in layer}
    has |= {name for layer in LAYERS for _, _, _, inner in layer for name, _ in inner}
    return [name for name in names if name not in has and not NOT_DRAWN.fullmatch(name)]


def main():
    if sys.argv[1:] != ["--check"]:
        PICTURE.write_text(drawn(), encoding="utf-8")
        return 0
    faults = [f"docs/design.svg lacks {name}: tools/design.py has the crates" for name in crates_not_drawn()]
    if not PICTURE.exists() or PICTURE.read_text(encoding="utf-8") != drawn():
        faults.append("docs/design.svg is stale: tools/design.py writes it anew")
    print("".join(fault + "\n" for fault in faults), end="")
    return 1 if faults else 0


if __name__ == "__main__":
    sys.exit(main())
