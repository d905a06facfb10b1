"""Runs the tests of pages in chromium: hosts/page/run calls it, and says which programs it needs."""

from __future__ import annotations

import os
import sys
import tempfile
from collections.abc import Callable
from pathlib import Path

TOP = Path(__file__).resolve().parents[3]
FOLDERS = ["hosts/page", "hosts/python", "tools/programs", "hosts/rows", "hosts/chance"]
sys.path[1:1] = [str(TOP / it) for it in FOLDERS]

import growth  # noqa: E402
import handling  # noqa: E402
import looks  # noqa: E402
import opening  # noqa: E402
import states  # noqa: E402
from browser import Browser  # noqa: E402
from calling import Programs  # noqa: E402
from pages import Pages  # noqa: E402

TOPICS = {it.__name__: it.tests for it in (opening, handling, looks, states, growth)}


def carried_out(test: Callable[[Pages], str], pages: Pages) -> str:
    """What a test finds wrong. The pages that it opened are closed then."""
    try:
        return test(pages)
    finally:
        pages.browser.close_tabs()


def main() -> int:
    programs = Programs({name: Path(os.environ[name.upper()]) for name in ("argus", "replay")})
    programs.paths["picture"] = TOP / "picture"
    passed, failed = 0, 0
    with tempfile.TemporaryDirectory() as folder, Browser() as browser:
        pages = Pages(programs, browser, Path(folder))
        for topic in sys.argv[1:] or TOPICS:
            faults = [(name, carried_out(test, pages)) for name, test in TOPICS[topic]()]
            wrong = [f"page: FAILED: {topic}: {name}\n{fault}" for name, fault in faults if fault]
            print(*wrong, f"page: {topic}: {len(faults)} tests, {len(wrong)} wrong", sep="\n", flush=True)
            passed, failed = passed + len(faults) - len(wrong), failed + len(wrong)
    print(f"{passed} passed, {failed} failed")
    return 1 if failed else 0


if __name__ == "__main__":
    sys.exit(main())
