"""Runs the rows of guardians that stand by themselves or are held by a host, over the library for rows.

    ARGUS_LIBRARY=librows.so run.py        (hosts/rows/run makes it)

Each test has two guardians. Each row goes to one with ample memory; then, except in large tests, to the other one with
each allocation refused in turn: none is allowed, one, two, until none is refused. After a refusal nothing may have
changed. A wrong answer is printed, and ends its test. Then there is a line a file, and the last line is 'N passed,
M failed', which counts tests; the status is 1 if any failed.
"""

from __future__ import annotations

import sys
from collections.abc import Callable
from pathlib import Path
from typing import TypeAlias

TOP = Path(__file__).resolve().parents[2]
sys.path.insert(0, str(TOP / "hosts/python"))

from alone import Alone  # noqa: E402
from guardian import LIBRARY, Changed, NoMemory  # noqa: E402
from held import Held  # noqa: E402
from reading import Test, spelled, tests_of  # noqa: E402
from resuming import Wrong, come_back, try_all  # noqa: E402

Subject: TypeAlias = "Alone | Held"
# A file of rows, what its tests begin with, and what is done with the journal's listing after each that isn't large.
File: TypeAlias = "tuple[Path, Callable[[], Subject], Callable[[bytes], None]]"
OWN, SHARED = TOP / "hosts/rows/data", TOP / "crates/guardian_tests/data"
# Those in SHARED are made by a seat of a shared guardian, too.
ALONE = [SHARED / name for name in ("locks.rows", "ends.rows", "contents.rows", "questions.rows")]
ALONE += [OWN / name for name in ("listings.rows", "checkpoints.rows", "outliving.rows", "limits.rows", "memory.rows")]
ALONE += [OWN / name for name in ("operations.rows", "fitting.rows")]
# After each of these tests the journal's listing is made into a guardian again in all ways that resuming.py has.
RESUMED = [OWN / "resuming.rows"]
HELD = sorted(OWN.glob("host_*.rows"))
# No row takes this many allocations.
MOST = 10_000


def answered(subject: Subject, asked: str) -> str:
    """The answer to a row, or why there is none."""
    try:
        return subject.answer(asked)
    except Changed:
        return "what may not change has changed"
    except NoMemory:
        if subject.guardian.allowed < 0:
            return "no memory"
        raise
    except (KeyError, ValueError, IndexError) as fault:
        return f"no answer to what is spelled like this: {fault!r}"


def tight_answer(subject: Subject, asked: str) -> tuple[str, int]:
    """The answer once no allocation is refused any more, and how often one was."""
    before = subject.picture(asked)
    for allowed in range(MOST):
        subject.guardian.allowed = allowed
        try:
            return answered(subject, asked), allowed
        except NoMemory:
            pass
        finally:
            subject.guardian.allowed = -1
        if subject.picture(asked) != before:
            return f"with {allowed} allocations it changes something", allowed
    return "there is never memory", MOST


def fault_of(row: str, ample: Subject, tight: Subject | None) -> str | None:
    """What the row gets instead of the answer that it says. Without a second guardian no memory is refused."""
    request, _, wanted = row.partition(" -> ")
    asked = spelled(request.removeprefix("allocations "))
    wanted = spelled(wanted)
    answer = answered(ample, asked)
    if tight is not None and (answer == wanted or request.startswith("allocations ")):
        answer, refused = tight_answer(tight, asked)
        if request.startswith("allocations "):
            answer = str(refused)
    return None if answer == wanted else f"{row[:500]}\n  got {answer[:500]}"


def run_test(test: Test, form: Callable[[], Subject], last: Callable[[bytes], None]) -> tuple[int, str | None]:
    """How many rows were run, and the first wrong answer."""
    ample, tight = form(), None if test.is_large else form()
    count = 0
    for row in test.rows():
        count += 1
        fault = fault_of(row, ample, tight)
        if fault:
            return count, fault
    try:
        if tight:
            last(tight.guardian.listing())
            tight.guardian.close()
        ample.guardian.close()
    except (Wrong, ValueError) as wrong:
        return count, str(wrong)
    return count, None


def run_file(file: File) -> tuple[int, int]:
    """How many tests of a file passed, and how many failed."""
    path, form, last = file
    tests, rows, failed = tests_of(path.read_text(encoding="utf-8")), 0, 0
    for test in tests:
        count, fault = run_test(test, form, last)
        rows += count
        if fault:
            failed += 1
            print(f"rows: {path.name}, {test.name}: row {count}: {fault}", flush=True)
    print(f"rows: {path.name}: {len(tests)} tests, {rows} rows", flush=True)
    return len(tests) - failed, failed


def main() -> int:
    """All files. The status."""
    files: list[File] = [(path, Alone, come_back) for path in ALONE]
    files += [(path, Alone, try_all) for path in RESUMED]
    files += [(path, Held, come_back) for path in HELD]
    counts = [run_file(file) for file in files]
    passed, failed = map(sum, zip(*counts))
    print(f"rows: {LIBRARY.refused()} allocations were refused, {failed} answers were wrong")
    print(f"{passed} passed, {failed} failed")
    return min(failed, 1)


if __name__ == "__main__":
    sys.exit(main())
