"""Makes sequences of calls by chance to guardians of the library for rows, and compares them with the definitions.

    ARGUS_LIBRARY=librows.so run.py [SEQUENCES [SEED]]        (hosts/chance/run makes the library)

Each sequence has a seed of its own, the next number. A difference is printed with its seed and the number of its call.
The last line is 'N passed, M failed', which counts sequences; the status is 1 if any failed.
"""

from __future__ import annotations

import sys
from pathlib import Path

TOP = Path(__file__).resolve().parents[2]
sys.path[1:1] = [str(TOP / "hosts/rows"), str(TOP / "hosts/python")]

from resuming import Wrong  # noqa: E402
from sequence import Sequence  # noqa: E402

SEQUENCES = 300


def fault_of(seed: int) -> str:
    """The first difference in the sequence of this seed, or nothing."""
    sequence = Sequence(seed)
    try:
        sequence.run()
    except (Wrong, ValueError) as why:
        return f"sequence {seed}, after {len(sequence.entries)} of {sequence.length} calls: {why}"
    return ""


def main() -> int:
    """All sequences. The status."""
    given = [int(it) for it in sys.argv[1:]]
    count, first = given + [SEQUENCES, 1][len(given) :]
    failed = 0
    for seed in range(first, first + count):
        fault = fault_of(seed)
        if fault:
            failed += 1
            print(f"chance: {fault}", flush=True)
    print(f"chance: {count} sequences from seed {first} on, {failed} with a difference")
    print(f"{count - failed} passed, {failed} failed")
    return min(failed, 1)


if __name__ == "__main__":
    sys.exit(main())
