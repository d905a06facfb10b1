"""A program whose calls are interrupted by calls of their own thread. Its status is 1 if one of them has another's reply.

    calls_inside.py KIND INTERRUPTER SECONDS [LOG]

KIND says which calls are interrupted: a function of `OUTER`, or `mixed` for all. INTERRUPTER says by what: `signal`, a
handler each half millisecond; `del`, a `__del__`; `weakref`, a weak reference's callback. The last two are run by the
garbage collector, whose threshold is 3. The kind `logged` needs a path, LOG. A line says how many rounds were made, how many
calls inside, how many of those were refused with Reentered, and what was wrong.
"""

from __future__ import annotations

import gc
import itertools
import signal
import sys
import threading
import time
import weakref
from collections.abc import Callable, Iterator
from pathlib import Path
from typing import Any

sys.path.insert(0, sys.argv[5] if len(sys.argv) > 5 else str(Path(__file__).resolve().parents[1]))

import argus_guardian as argus  # noqa: E402
from argus_guardian import Guardian, Kind, Listed  # noqa: E402

PERIOD = 0.0005
SHAPE = "atomic_record[n:int,t:text,l:sequence[int]]"
# A tree before the refusal has none.
REENTERED = getattr(argus, "Reentered", ())


class Wrong(Exception):
    """A call has another's reply."""


def same(got: Any, wanted: Any) -> None:
    if got != wanted:
        raise Wrong(f"{got!r} in place of {wanted!r}")


class Owned:
    """A record that one of the parties alone uses, and how often its number was committed one higher."""

    def __init__(self, guardian: Guardian, name: str, start: int) -> None:
        self.guardian, self.number, self.text, self.items = guardian, start, name * 20, [start] * 3
        self.record = guardian.declare(SHAPE)
        with guardian.topaction() as top:
            top.create(self.record, (start, self.text, self.items))

    @property
    def content(self) -> tuple[Any, ...]:
        return self.number, self.text, self.items

    def increment(self) -> None:
        with self.guardian.topaction() as top:
            same(top.field(self.record, 0), self.number)
            top.set_field(self.record, 0, self.number + 1)
        self.number += 1

    def see(self) -> None:
        same(self.guardian.base(self.record), self.content)


class Inside:
    """What interrupts: one call after another on a record of its own. Those that aren't refused have to be right."""

    def __init__(self, guardian: Guardian, log: Any = None) -> None:
        self.guardian, self.log, self.mine = guardian, log, Owned(guardian, "b", 1000)
        self.thread, self.made, self.refused = threading.get_ident(), 0, 0
        self.wrong: list[str] = []
        self.is_under_way = self.is_over = False
        self.watched: Any = None
        self.calls: Iterator[Callable[[], Any]] = itertools.cycle(
            (self.mine.see, self.mine.increment, self.read, self.listed, self.dropped, self.ready, self.ask, self.fold)
        )

    def __call__(self, *_: object) -> None:
        if self.is_under_way:
            return
        self.is_under_way = True
        try:
            self.made += 1
            # The collector also runs in threads that have a live action: these mustn't wait for a checkpoint.
            call = next(self.calls) if threading.get_ident() == self.thread else self.mine.see
            call()
        except REENTERED:
            self.refused += 1
        except argus.Busy:
            pass
        except BaseException as error:
            self.wrong.append(f"inside: {error!r}")
        finally:
            self.is_under_way = False

    def read(self) -> None:
        with self.guardian.topaction() as top:
            same(top.whole(self.mine.record), self.mine.content)
            same(top.get(self.mine.record, "t"), self.mine.text)
            same(top.test_read(self.mine.record), True)

    def listed(self) -> None:
        made = self.guardian.call_each(
            [
                Listed(Kind.BEGIN_TOP),
                Listed(Kind.FIELD, obj=self.mine.record, first=1, begun_by=0),
                Listed(Kind.COMMIT, begun_by=0),
            ]
        )
        same((made.answers[1:], made.end), ([self.mine.text, None], None))

    def dropped(self) -> None:
        self.guardian.topaction().subaction().lock(self.mine.record)

    def ready(self) -> None:
        top = self.guardian.topaction()
        top.set_field(self.mine.record, 0, self.mine.number + 1)
        with top.ready_commit() as ready:
            same(ready.line.split(" ", 1)[1], f"commit a{top.number} -> done\n")
            ready.make()
        self.mine.number += 1

    def ask(self) -> None:
        same(self.guardian.shape(self.mine.record), SHAPE)
        same(self.guardian.readers(self.mine.record), [])
        same(self.guardian.list("bases").split("\n")[self.mine.record].startswith(f"o{int(self.mine.record)} "), True)
        first = self.guardian.entries
        numbers = [int(line.split(" ", 1)[0]) for line in self.guardian.lines(first)]
        same(numbers, list(range(first, first + len(numbers))))

    def fold(self) -> None:
        if self.log is None:
            self.guardian.checkpoint()
            self.guardian.renew()
        else:
            same(self.log.broken(), None)
            self.log.barrier()
            self.log.checkpoint(0)


class Outer:
    """What is interrupted, each a round of calls."""

    def __init__(self, guardian: Guardian, log: Any = None) -> None:
        self.guardian, self.log, self.mine = guardian, log, Owned(guardian, "a", 0)
        self.array = guardian.declare("atomic_array[int]")
        self.variant = guardian.declare("atomic_variant[no:null,yes:text]")
        with guardian.topaction() as top:
            top.create(self.array, argus.Array(5, [50, 60, 70]))
            top.create(self.variant, argus.Choice(1, "yes"))

    def accesses(self) -> None:
        record, top = self.mine.record, self.guardian.topaction()
        for _ in range(50):
            same(top.field(record, 0), self.mine.number)
            same(top.field(record, 1), self.mine.text)
            same(top.field(record, 2), self.mine.items)
            same(top.whole(record), self.mine.content)
            same([top.low(self.array), top.high(self.array), top.size(self.array)], [5, 7, 3])
            same([top.fetch(self.array, 6), top.first(self.array), top.last(self.array)], [60, 50, 70])
            same([top.is_tag(self.variant, 0), top.tag_value(self.variant, 1)], [False, "yes"])
            same(self.guardian.access(Kind.FIELD, top.number, record, 1), self.mine.text)
            try:
                top.fetch(self.array, 9)
            except argus.Bounds:
                continue
            raise Wrong("no Bounds")
        top.abort()

    def changes(self) -> None:
        record, top = self.mine.record, self.guardian.topaction()
        for number in range(50):
            top.set(record, n=number, t=f"{number} of a", l=[number])
            same(top.whole(record), (number, f"{number} of a", [number]))
            top.addh(self.array, number)
            same(top.remh(self.array), number)
        top.abort()
        for _ in range(10):
            self.mine.increment()
        self.mine.see()

    def actions(self) -> None:
        record, top = self.mine.record, self.guardian.topaction()
        for _ in range(10):
            with top.subaction() as sub:
                same(sub.field(record, 0), self.mine.number)
                same((sub.test_read(record), sub.test_write(record)), (True, True))
            with top.nested() as nested:
                same(nested.test_write(record), False)
            first, second = top.subaction(), top.subaction()
            first.abort_others()
            same((self.guardian.status(first.number), self.guardian.status(second.number)), ("live", "aborted"))
            first.commit()
            same(self.guardian.status(top.number), "live")
        top.commit()

    def lists(self) -> None:
        change = argus.write_value(self.mine.number + 1)
        made = self.guardian.call_each(
            [
                Listed(Kind.BEGIN_TOP),
                *[Listed(Kind.FIELD, obj=self.mine.record, first=1, begun_by=0)] * 20,
                Listed(Kind.SET_FIELD, obj=self.mine.record, text=change, begun_by=0),
                Listed(Kind.COMMIT, begun_by=0),
            ]
        )
        self.mine.number += 1
        same((made.answers[1:], made.end), ([self.mine.text] * 20 + [None, None], None))

    def questions(self) -> None:
        self.mine.see()
        same(self.guardian.get(self.mine.record).t, self.mine.text)
        same(self.guardian.shape(self.mine.record), SHAPE)
        top = self.guardian.topaction()
        top.set_field(self.mine.record, 0, -1)
        number, entries = int(top.number), self.guardian.entries
        same(self.guardian.versions(self.mine.record), [(number, (-1, self.mine.text, self.mine.items))])
        same([self.guardian.live(number), self.guardian.status(number)], [number, "live"])
        same(self.guardian.entry(entries - 1), self.guardian.lines(entries - 1)[0])
        same(self.guardian.list("stacks").count(f"a{number} {{-1,"), 1)
        top.abort()

    def waits(self) -> None:
        """Another thread has the record for two milliseconds, and this one waits for it."""
        started = threading.Event()

        def hold() -> None:
            with self.guardian.topaction() as top:
                top.lock(self.mine.record)
                started.set()
                time.sleep(0.002)
                top.set_field(self.mine.record, 0, self.mine.number + 1)

        thread = threading.Thread(target=hold)
        thread.start()
        started.wait()
        with self.guardian.topaction() as top:
            same(top.field(self.mine.record, 0), self.mine.number + 1)
            self.mine.number += 1
            same(top.field(self.mine.record, 1), self.mine.text)
        thread.join()

    def ready_commits(self) -> None:
        top = self.guardian.topaction()
        top.set_field(self.mine.record, 0, self.mine.number + 1)
        with top.ready_commit() as ready:
            same(ready.line.split(" ", 1)[1], f"commit a{top.number} -> done\n")
            time.sleep(0.001)
            ready.make()
        self.mine.number += 1
        self.mine.see()

    def folds(self) -> None:
        """Another thread has a live action for two milliseconds, and this one waits for its end."""
        if self.log is not None:
            return
        for fold in self.guardian.checkpoint, self.guardian.renew:
            thread = threading.Thread(target=self.live_for_a_while)
            thread.start()
            fold(60)
            thread.join()
            self.mine.see()

    def live_for_a_while(self) -> None:
        with self.guardian.topaction():
            time.sleep(0.002)

    def logged(self) -> None:
        if self.log is not None:
            with self.log.topaction() as top:
                same(top.field(self.mine.record, 1), self.mine.text)
                top.set_field(self.mine.record, 0, self.mine.number + 1)
            self.mine.number += 1
            self.mine.see()
            self.log.checkpoint(60)


OUTER = ("accesses", "changes", "actions", "lists", "questions", "waits", "ready_commits", "folds", "logged")


class Garbage:
    """A cycle that the collector finds during some later call. Its `__del__` interrupts that, and leaves another one."""

    def __init__(self, inside: Inside) -> None:
        self.cycle, self.inside = self, inside

    def __del__(self) -> None:
        self.inside()
        if not self.inside.is_over:
            Garbage(self.inside)


class Cycle:
    """The same without a `__del__`, for a weak reference."""

    def __init__(self) -> None:
        self.cycle = self


def watch(inside: Inside) -> None:
    """Leaves a cycle, with a weak reference whose callback interrupts, and leaves another one."""

    def callback(_: object) -> None:
        inside()
        if not inside.is_over:
            watch(inside)

    inside.watched = weakref.ref(Cycle(), callback)


def beside(owned: Owned, is_over: threading.Event, wrong: list[str]) -> None:
    """Another thread, with a record of its own."""
    try:
        while not is_over.is_set():
            owned.increment()
            owned.see()
            time.sleep(0.0005)
    except BaseException as error:
        wrong.append(f"beside: {error!r}")


def work(outer: Outer, kinds: Iterator[str], seconds: float) -> int:
    """Makes rounds for so long. Returns how many; raises what is wrong."""
    rounds, limit = 0, time.monotonic() + seconds
    while time.monotonic() < limit:
        getattr(outer, next(kinds))()
        rounds += 1
        if rounds % 20 == 0 and outer.log is None:
            outer.guardian.checkpoint(60)
    return rounds


def interrupt_by(interrupter: str, inside: Inside) -> None:
    if interrupter == "signal":
        signal.signal(signal.SIGALRM, inside)
        signal.setitimer(signal.ITIMER_REAL, PERIOD, PERIOD)
        return
    gc.set_threshold(3)
    if interrupter == "del":
        Garbage(inside)
    else:
        watch(inside)


def main(kind: str, interrupter: str, seconds: str, path: str = "", *_: str) -> int:
    log: Any = None
    if path:
        from argus_guardian.log import Log

        log = Log.open_or_create(path, patience=60)
    guardian = log.guardian if log else Guardian(patience=60)
    outer, inside, is_over = Outer(guardian, log), Inside(guardian, log), threading.Event()
    others = [Owned(guardian, "c", 2000), Owned(guardian, "d", 3000)]
    wrong, rounds = inside.wrong, 0
    threads = [threading.Thread(target=beside, args=(it, is_over, wrong)) for it in others]
    for thread in threads:
        thread.start()
    interrupt_by(interrupter, inside)
    try:
        kinds = itertools.cycle(OUTER if kind == "mixed" else [kind])
        rounds = work(outer, kinds, float(seconds))
    except BaseException as error:
        wrong.append(f"outer: {error!r}")
    signal.setitimer(signal.ITIMER_REAL, 0)
    inside.is_over = True
    is_over.set()
    for thread in threads:
        thread.join()
    for owned in outer.mine, inside.mine, *others:
        if guardian.base(owned.record) != owned.content:
            wrong.append(f"committed: {guardian.base(owned.record)!r} in place of {owned.content!r}")
    (log or guardian).close()
    print(f"rounds {rounds}, inside {inside.made}, refused {inside.refused}, wrong {len(wrong)} {wrong[:3]}")
    return int(bool(wrong))


if __name__ == "__main__":
    sys.exit(main(*sys.argv[1:]))
