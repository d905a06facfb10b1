#!/usr/bin/env python3
# SPDX-License-Identifier: MIT
"""Runs the merge gate from nothing, in a fresh clone with an empty home, and tells where its time goes.

    bench/gate.py [COMMIT] > FILE                        on all processors
    taskset -c 0,1 bench/gate.py [COMMIT] > FILE         on two

What `rt ci` keeps between runs lies in a folder beside the kit; an empty one is mounted over it for this run
alone, which takes root. Each line that the gate prints goes to standard error, with the minutes since its
start. The summary goes to standard output: the gate's last lines, the processor minutes of all of it, of its
checks, and of each crate's proof, tests and must-fail edits, as sampled every three seconds, and how many
times the proof of argus_texts that is. Checks that others run meanwhile aren't counted. Nothing is compared
with a limit. Run it alone: the figures are the machine's.
"""

import collections
import os
import resource
import shutil
import subprocess
import sys
import tempfile
import threading
import time

TICK = os.sysconf("SC_CLK_TCK")


def kind_of(words, folder):
    """What a check of the gate is for."""
    if "/mistakes-" in folder:
        return "edits"
    return "tests" if "--test" in words else "proof"


def parent_of(pid):
    """The process that started this one; 0 if it has ended."""
    try:
        with open(f"/proc/{pid}/stat", encoding="utf-8") as it:
            return int(it.read().rsplit(")", 1)[1].split()[1])
    except (OSError, IndexError):
        return 0


def is_below(pid, top):
    """Whether the process is this one, or was started below it."""
    while pid not in (0, top):
        pid = parent_of(pid)
    return pid == top


def sample(top, seen, peak):
    """Notes the processor time of each check of the gate that runs now."""
    for pid in filter(str.isdigit, os.listdir("/proc")):
        try:
            if not is_below(int(pid), top):
                continue
            with open(f"/proc/{pid}/cmdline", encoding="utf-8", errors="replace") as it:
                words = it.read().split("\0")
            if not words[0].endswith("/rattle") or "--crate-name" not in words:
                continue
            with open(f"/proc/{pid}/stat", encoding="utf-8") as it:
                fields = it.read().rsplit(")", 1)[1].split()
            what = words[words.index("--crate-name") + 1], kind_of(words, os.readlink(f"/proc/{pid}/cwd"))
        except (OSError, IndexError):
            continue
        seen[pid, fields[19]] = what, (int(fields[11]) + int(fields[12])) / TICK
        peak[what] = max(peak[what], int(fields[21]) * os.sysconf("SC_PAGESIZE"))


def results():
    """The folder beside the kit in which `rt ci` keeps results."""
    kit = os.path.dirname(subprocess.check_output(["rt", "doc"], text=True).strip())
    return os.path.join(os.path.dirname(kit), "rattle-kept")


def command_over(kept):
    """The gate's command, with this empty folder in place of the one with kept results."""
    os.makedirs(results(), exist_ok=True)
    os.mkdir(kept, 0o700)
    steps = 'mount --bind "$1" "$2" && exec bash .ci/run'
    return ["unshare", "--mount", "sh", "-c", steps, "gate", kept, results()]


def keep(kept):
    """Moves what the run kept to the other kept results, so that the next `rt ci` begins with it."""
    for name in os.listdir(kept):
        if not os.path.exists(f"{results()}/{name}"):
            shutil.move(f"{kept}/{name}", f"{results()}/{name}")


def run(gate, start):
    """Passes on what the gate prints, and returns its last lines."""
    last = collections.deque(maxlen=2)
    for line in gate.stdout:
        print(f"{(time.time() - start) / 60:7.2f} {line}", end="", file=sys.stderr, flush=True)
        last.append(line)
    return last


def tell(seen, peak, all_minutes):
    """Prints the processor minutes, by crate and kind."""
    sums = collections.defaultdict(float)
    for what, seconds in seen.values():
        sums[what] += seconds / 60
    measure = sums["argus_texts", "proof"]
    print(f"processors: {len(os.sched_getaffinity(0))}")
    print(f"processor minutes: {all_minutes:.0f} in all, {sum(sums.values()):.0f} of them checks")
    if measure:
        print(f"times the proof of argus_texts, {measure:.1f} minutes: {all_minutes / measure:.1f}")
    for what, minutes in sorted(sums.items(), key=lambda it: -it[1]):
        print(f"{what[0]:24} {what[1]:6} {minutes:6.1f}   at most {peak[what] / 1e9:.1f} GB a process")


def main():
    top = subprocess.check_output(["git", "rev-parse", "--show-toplevel"], text=True).strip()
    commit = sys.argv[1] if len(sys.argv) > 1 else "HEAD"
    with tempfile.TemporaryDirectory(prefix="gate-") as room:
        os.mkdir(f"{room}/home")
        subprocess.check_call(["git", "clone", "-q", top, f"{room}/clone"])
        subprocess.check_call(["git", "-C", f"{room}/clone", "checkout", "-q", commit])
        seen, peak, ended = {}, collections.defaultdict(int), threading.Event()

        def watch(top):
            while not ended.wait(3):
                sample(top, seen, peak)

        start = time.time()
        gate = subprocess.Popen(
            command_over(f"{room}/kept"),
            cwd=f"{room}/clone",
            env={"HOME": f"{room}/home", "PATH": os.environ["PATH"], "CI": "true"},
            stdin=subprocess.DEVNULL,
            stdout=subprocess.PIPE,
            stderr=subprocess.STDOUT,
            text=True,
            errors="replace",
        )
        threading.Thread(target=watch, args=(gate.pid,)).start()
        last = run(gate, start)
        status = gate.wait()
        ended.set()
        keep(f"{room}/kept")
    used = resource.getrusage(resource.RUSAGE_CHILDREN)
    print("".join(last), end="")
    print(f"status: {status}, minutes: {(time.time() - start) / 60:.1f}")
    tell(seen, peak, (used.ru_utime + used.ru_stime) / 60)
    return status


if __name__ == "__main__":
    sys.exit(main())
