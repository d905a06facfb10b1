"""What is left of actions that an exception or Ctrl-C ends, or that nobody has any more."""

import gc
import random
import signal
import sys
import threading
import time
import unittest
from pathlib import Path
from unittest import mock

sys.path.insert(0, str(Path(__file__).resolve().parents[1]))

import argus_guardian as argus  # noqa: E402
from argus_guardian.library import _call  # noqa: E402


def with_record(patience=1.0):
    guardian = argus.Guardian(patience=patience)
    record = guardian.declare("atomic_record[n:int]")
    with guardian.topaction() as top:
        top.create(record, (0,))
    return guardian, record


def interrupt(*_):
    raise KeyboardInterrupt


class Interrupts(unittest.TestCase):
    """Ctrl-C, at any moment."""

    TIMES = 1000

    def setUp(self):
        self.guardian, self.record = with_record()
        self.addCleanup(self.guardian.close)
        self.addCleanup(signal.signal, signal.SIGALRM, signal.signal(signal.SIGALRM, interrupt))
        # A timer that is left would end the process, once the handler is gone.
        self.addCleanup(signal.setitimer, signal.ITIMER_REAL, 0)
        self.draws = random.Random(1)
        self.interrupted = 0

    def order(self):
        with self.guardian.topaction() as top:
            with top.subaction() as sub:
                sub.set_field(self.record, 0, sub.field(self.record, 0) + 1)

    def work_until_interrupted(self):
        try:
            signal.setitimer(signal.ITIMER_REAL, self.draws.uniform(20e-6, 400e-6))
            for _ in range(100_000):
                self.order()
        except KeyboardInterrupt:
            self.interrupted += 1

    def test_none_leaves_a_live_action(self):
        for _ in range(self.TIMES):
            self.work_until_interrupted()
            # Busy, where an action is live.
            self.guardian.checkpoint()
        self.assertEqual(self.interrupted, self.TIMES)
        # A commit that was interrupted may have been made; else each counts once.
        self.order()
        self.assertGreater(self.guardian.base(self.record)[0], 0)

    def test_none_keeps_the_mutex_where_a_commit_is_ready(self):
        def order():
            with self.guardian.topaction() as top:
                with top.ready_commit() as ready:
                    ready.make()

        self.order = order
        for _ in range(self.TIMES):
            self.work_until_interrupted()
            self.assertFalse(self.guardian._has_lock())
            self.guardian.checkpoint()

    def test_none_leaves_its_thread_inside_a_wait(self):
        holder = self.guardian.topaction()
        holder.lock(self.record)
        for _ in range(100):
            with self.assertRaises(KeyboardInterrupt), self.guardian.topaction() as top:
                signal.setitimer(signal.ITIMER_REAL, self.draws.uniform(20e-6, 1e-3))
                while True:
                    try:
                        top.field(self.record, 0)
                    except argus.Conflict:
                        pass
            # Reentered, where it were inside.
            self.assertEqual(self.guardian.live(), holder.number)
            self.assertEqual((self.guardian._waiting, self.guardian._awaited), ({}, False))

    @unittest.skipIf(_call is not None, "_call.c makes the call at once, and nothing comes in between")
    def test_where_the_begin_alone_is_interrupted(self):
        for begin in self.guardian.topaction, self.guardian.topaction().subaction:
            archive, call = self.guardian._archive, self.guardian._archive.call

            def interrupted_after(*given, archive=archive, call=call):
                archive.call = call
                call(*given)
                raise KeyboardInterrupt

            archive.call = interrupted_after
            with self.assertRaises(KeyboardInterrupt):
                begin()
            entries = self.guardian.entries
            self.assertIn("abort", self.guardian.entry(entries - 1))

    @unittest.skipIf(_call is not None, "_call.c makes the call at once, and nothing comes in between")
    def test_others_stay_where_a_begin_is_interrupted(self):
        # One of a guardian that is made again, one that has a number alone, one of a list, and one that somebody has.
        guardian = argus.resume(["0 begin_top -> a0"])
        self.addCleanup(guardian.close)
        guardian.call(argus.Kind.BEGIN_TOP)
        guardian.call_each([argus.Listed(argus.Kind.BEGIN_TOP)])
        top, call = guardian.topaction(), guardian._archive.call

        def interrupted_after(*given):
            guardian._archive.call = call
            call(*given)
            raise KeyboardInterrupt

        guardian._archive.call = interrupted_after
        with self.assertRaises(KeyboardInterrupt):
            guardian.topaction()
        statuses = [guardian.status(number) for number in range(top.number + 2)]
        self.assertEqual(statuses, 4 * ["live"] + ["aborted"])

    @unittest.skipIf(_call is not None, "_call.c makes the call at once, and nothing comes in between")
    def test_where_the_commit_is_interrupted(self):
        end = self.guardian._end

        def interrupted_before(*_):
            self.guardian._end = end
            raise KeyboardInterrupt

        with self.assertRaises(KeyboardInterrupt):
            with self.guardian.topaction() as top:
                top.set_field(self.record, 0, 7)
                self.guardian._end = interrupted_before
        self.guardian.checkpoint()
        self.assertEqual(self.guardian.base(self.record), (0,))


class Waits(unittest.TestCase):
    """Ctrl-C while the main thread waits for an object, and another thread has the mutex."""

    def test_the_mutex_stays_with_the_other_thread(self):
        guardian, record = with_record(patience=60)
        self.addCleanup(guardian.close)
        self.addCleanup(signal.signal, signal.SIGALRM, signal.signal(signal.SIGALRM, interrupt))
        # A timer that is left would end the process, once the handler is gone.
        self.addCleanup(signal.setitimer, signal.ITIMER_REAL, 0)
        holder, main, found = guardian.topaction(), threading.main_thread().ident, []
        holder.lock(record)

        def hold():
            while not guardian._waiting:
                time.sleep(0.001)
            with guardian._lock:
                # Meanwhile the main thread's wait ends, and it wants the mutex again.
                time.sleep(0.2)
                signal.pthread_kill(main, signal.SIGALRM)
                time.sleep(0.1)
                found.append(guardian._has_lock())

        thread = threading.Thread(target=hold)
        with self.assertRaises(KeyboardInterrupt), guardian.topaction() as top:
            thread.start()
            top.set_field(record, 0, 7)
        thread.join()
        self.assertEqual((found, guardian.live()), ([True], holder.number))

    def test_the_mutex_is_had_again_where_the_begin_of_the_wait_is_interrupted(self):
        guardian, record = with_record()
        self.addCleanup(guardian.close)
        holder = guardian.topaction()
        holder.lock(record)

        def interrupted(_):
            guardian._lock.release()
            raise KeyboardInterrupt

        with mock.patch.object(guardian._ended, "wait", interrupted), self.assertRaises(KeyboardInterrupt):
            with guardian.topaction() as top:
                top.lock(record)
        self.assertEqual((guardian.live(), guardian._waiting), (holder.number, {}))
        self.assertIsNone(guardian.live(holder.number + 1))
        self.assertFalse(guardian._has_lock())


class Forgotten(unittest.TestCase):
    """Actions that nobody has any more."""

    def with_record(self, patience=1.0):
        guardian, record = with_record(patience)
        self.addCleanup(guardian.close)
        return guardian, record

    def test_the_next_call_aborts_it(self):
        guardian, record = self.with_record()
        guardian.topaction().lock(record)
        gc.collect()
        with guardian.topaction() as top:
            top.set_field(record, 0, 7)
        guardian.checkpoint()
        self.assertEqual(guardian.base(record), (7,))

    def test_who_waits_for_it_goes_on(self):
        guardian, record = self.with_record(patience=60)
        holder, started = guardian.topaction(), threading.Event()
        holder.lock(record)

        def wait():
            with guardian.topaction() as top:
                started.set()
                top.set_field(record, 0, 7)

        thread = threading.Thread(target=wait)
        thread.start()
        started.wait()
        del holder
        gc.collect()
        thread.join(30)
        self.assertEqual(guardian.base(record), (7,))

    def test_a_subaction_keeps_its_parent(self):
        guardian, record = self.with_record()
        sub = guardian.topaction().subaction()
        gc.collect()
        sub.set_field(record, 0, 7)
        sub.commit()
        sub.parent.commit()
        self.assertEqual(guardian.base(record), (7,))

    def test_one_that_is_named_by_number_is_nobodys(self):
        guardian, record = self.with_record()
        top = guardian.topaction()
        argus.Action(guardian, top.number).lock(record)
        gc.collect()
        top.set_field(record, 0, 7)
        top.commit()


if __name__ == "__main__":
    unittest.main()
