#!/usr/bin/env python3
# SPDX-License-Identifier: MIT
"""Runs the rows of the programs argus, replay and picture: each as a process, and what it prints is compared.

    tools/programs/run.py [--jobs N] [--first] [--scripts N] [--seed N] [NAME ..]

A NAME is a file of rows/, or one of memory, journals, chance, streams and threads; without one all are run. Of
chance there are N scripts, each with a seed of its own, the next number. The programs have to be built: .ci/run
leaves them, and so do ./argus --prove and its like. ARGUS, REPLAY and PICTURE in the environment name others. A
line for each file has the number of its trials; each wrong answer is printed before it. The last line is 'N passed,
M failed', and the status tells whether any failed. With --first it ends at the first file with a wrong answer.
"""

import argparse
import os
import shutil
import subprocess
import sys
from collections.abc import Callable, Iterator
from concurrent.futures import ThreadPoolExecutor
from functools import partial
from pathlib import Path

TOP = Path(__file__).resolve().parents[2]
sys.path[1:1] = [str(TOP / "hosts/rows"), str(TOP / "hosts/chance")]

import by_chance  # noqa: E402
import coming_back  # noqa: E402
import command_lines  # noqa: E402
import drawn  # noqa: E402
import examples  # noqa: E402
import failing  # noqa: E402
import memory  # noqa: E402
import parsed  # noqa: E402
import pictures  # noqa: E402
import scripts  # noqa: E402
from calling import FULL, ROWS, Programs, Trial, shortened  # noqa: E402

Topics = dict[str, Callable[[], Iterator[Trial]]]

SCRIPTS = ("listings", "faults", "program_limits", "workers", "runs", "arms", "replays")
PARSED = ("scripts", "lines", "places", "accesses", "words", "order", "limits")
OTHERS = {
    "examples.txt": examples.trials,
    "pictures.rows": pictures.drawings,
    "entries.rows": pictures.replays,
    "names.rows": pictures.namings,
    "sizes.rows": pictures.sizes,
    "drawn.rows": drawn.trials,
    "command_lines.rows": command_lines.trials,
    "failing.rows": failing.trials,
}


def built() -> Programs:
    """The programs that are tried; the one for pictures has listings confirmed by this replay. SystemExit: one isn't
    there."""
    paths = {}
    for name in ("argus", "replay", "picture"):
        usual = TOP / (name if name == "picture" else f"crates/{name}/out/{name}")
        path = Path(os.environ.get(name.upper(), usual))
        if not os.access(path, os.X_OK):
            sys.exit(f"no program {path}: .ci/run leaves it, and ./{name} --prove\n0 passed, 1 failed")
        paths[name] = path
    os.environ["REPLAY"] = str(paths["replay"])
    return Programs(paths)


def by_script(name: str) -> Iterator[Trial]:
    """A script of tools/ that tries the programs, too."""

    def carried_out(programs: Programs) -> str:
        settings = {it.upper(): str(path) for it, path in programs.paths.items()}
        command = [str(TOP / "tools" / name)]
        ran = subprocess.run(command, env={**os.environ, **settings}, capture_output=True, check=False)
        return shortened(ran.stdout + ran.stderr) if ran.returncode else ""

    yield f"tools/{name}", carried_out


def topics(scripts_by_chance: int, seed: int) -> Topics:
    """All that is tried, by name; so many scripts by chance, from this seed on."""
    found: Topics = {f"{it}.rows": partial(scripts.trials, ROWS / f"{it}.rows") for it in SCRIPTS}
    found |= {f"{it}.rows": partial(parsed.trials, ROWS / f"{it}.rows") for it in PARSED}
    found |= {name: partial(trials, ROWS / name) for name, trials in OTHERS.items()}
    found |= {"memory": memory.trials, "journals": coming_back.trials}
    found["chance"] = partial(by_chance.trials, scripts_by_chance, seed)
    for name in ("streams", "threads"):
        found[name] = partial(by_script, f"{name}.sh")
    return found


def left_out() -> Iterator[str]:
    """What can't be tried on this machine."""
    if not FULL.exists():
        yield "streams"
    if not failing.has_compiler():
        yield "failing.rows"
    if os.getuid() == 0 and not shutil.which("setpriv"):
        yield "threads"


def run_topic(name: str, trials: Iterator[Trial], programs: Programs, jobs: int) -> tuple[int, int]:
    """Carries out the trials of a topic. How many passed, and how many failed."""
    tried = list(trials)
    with ThreadPoolExecutor(jobs) as pool:
        answers = [it.result() for it in [pool.submit(trial, programs) for _, trial in tried]]
    failed = [(row, answer) for (row, _), answer in zip(tried, answers, strict=True) if answer]
    for row, answer in failed:
        print(f"{name}: FAILED: {row}\n{answer}")
    print(f"{name}: {len(tried)} trials, {len(failed)} wrong", flush=True)
    return len(tried) - len(failed), len(failed)


def main() -> int:
    given = argparse.ArgumentParser(usage="tools/programs/run.py [OPTION ..] [NAME ..]")
    given.add_argument("--jobs", type=int, default=2)
    given.add_argument("--first", action="store_true")
    given.add_argument("--scripts", type=int, default=400)
    given.add_argument("--seed", type=int, default=1)
    given.add_argument("names", nargs="*")
    asked = given.parse_args()
    found, programs, missing = topics(asked.scripts, asked.seed), built(), set(left_out())
    passed, failed = 0, 0
    for name in asked.names or found:
        if name in missing:
            print(f"{name}: LEFT OUT")
            continue
        good, wrong = run_topic(name, found[name](), programs, asked.jobs)
        passed, failed = passed + good, failed + wrong
        if asked.first and failed:
            break
    print(f"{passed} passed, {failed} failed")
    return 1 if failed else 0


if __name__ == "__main__":
    sys.exit(main())
