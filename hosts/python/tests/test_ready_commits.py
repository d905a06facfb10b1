"""Tests of commits in two steps: ready, and then made or cancelled."""

import contextlib
import gc
import io
import threading
import types
import unittest

from argus_guardian import Action, Busy, Closed, Guardian, Kind, Listed, NoAction, Over, Reentered, Suspended


class ReadyCommits(unittest.TestCase):
    """What is logged is what the journal then has; what is cancelled leaves all as it was."""

    def setUp(self):
        self.guardian = Guardian(patience=0)
        self.addCleanup(self.guardian.close)
        self.record = self.guardian.declare("atomic_record[n:int]")
        self.top = self.guardian.topaction()
        self.top.create(self.record, (5,))

    def test_logged_and_then_made(self):
        log = io.StringIO()
        with self.top:
            with self.top.ready_commit() as ready:
                log.write(ready.line)
                ready.make()
        self.assertEqual(log.getvalue(), "3 commit a0 -> done\n")
        self.assertEqual(self.guardian.lines(3), ["3 commit a0 -> done"])
        self.assertEqual(self.guardian.base(self.record), (5,))

    def test_cancelled(self):
        with self.top.ready_commit() as ready:
            self.assertEqual(ready.line, "3 commit a0 -> done\n")
        self.assertEqual((self.guardian.entries, self.guardian.status(0)), (3, "live"))
        self.assertIsNone(self.guardian.base(self.record))
        with self.assertRaises(Closed):
            ready.make()
        with self.assertRaises(Closed):
            ready.line
        self.top.commit()
        self.assertEqual(self.guardian.base(self.record), (5,))

    def test_a_log_that_fails_cancels(self):
        with self.assertRaises(OSError), self.top, self.top.ready_commit():
            raise OSError("the disk is full")
        self.assertEqual(self.guardian.lines(3), ["3 abort a0 -> done"])
        self.assertIsNone(self.guardian.base(self.record))

    def test_a_refused_one_is_ready_too(self):
        for action, error, line in (
            (Action(self.guardian, 7), NoAction, "5 commit a7 -> refused NoAction\n"),
            (self.top, Suspended, "6 commit a0 -> refused Suspended\n"),
        ):
            if action.number == 7:
                sub = self.top.subaction()
                sub.lock(self.record)
            with action.ready_commit() as ready:
                self.assertEqual(ready.line, line)
                with self.assertRaises(error):
                    ready.make()
        self.assertEqual(self.guardian.entries, 7)
        sub.commit()
        self.top.commit()

    def test_children_that_nobody_has_are_aborted_before(self):
        self.top.subaction().lock(self.record)
        gc.collect()
        with self.top.ready_commit() as ready:
            self.assertEqual(ready.line, "6 commit a0 -> done\n")
            ready.make()
        self.assertEqual(self.guardian.lines(5), ["5 abort a1 -> done", "6 commit a0 -> done"])
        self.assertEqual(self.guardian.base(self.record), (5,))

    def test_once(self):
        with self.top.ready_commit() as ready:
            ready.make()
            with self.assertRaises(Closed):
                ready.make()
        self.assertEqual(self.guardian.entries, 4)

    def test_other_threads_wait(self):
        found = []
        thread = threading.Thread(target=lambda: found.append(self.guardian.base(self.record)))
        with self.top.ready_commit() as ready:
            thread.start()
            thread.join(0.05)
            self.assertEqual(found, [])
            ready.make()
        thread.join()
        self.assertEqual(found, [(5,)])

    def test_a_closed_guardian_has_none(self):
        guardian = Guardian()
        top = guardian.topaction()
        guardian.close()
        with self.assertRaises(Closed), top.ready_commit():
            pass

    def test_what_was_begun_before_a_renewal_is_over(self):
        self.top.commit()
        self.guardian.renew()
        with self.assertRaises(Over), self.top.ready_commit():
            pass
        self.assertEqual(self.guardian.actions, 0)

    def test_one_whose_block_has_ended_makes_no_other(self):
        with self.top.ready_commit() as ready:
            pass
        with self.assertRaises(Closed):
            ready.make()
        other = self.guardian.topaction()
        with self.top.ready_commit() as ready:
            pass
        with other.ready_commit():
            with self.assertRaises(Closed):
                ready.make()
        self.assertEqual([self.guardian.status(it.number) for it in (self.top, other)], ["live", "live"])

    def test_each_call_comes_after_a_block(self):
        for call in (
            self.guardian.checkpoint,
            self.guardian.renew,
            lambda: self.guardian.lines(0),
            lambda: self.guardian.call_each([Listed(Kind.TEST_READ, 0, self.record)]),
            self.top.subaction,
            self.guardian.abort_live,
            self.guardian.close,
        ):
            with self.subTest(call=call):
                with self.top.ready_commit():
                    pass
                try:
                    call()
                except Busy:
                    pass

    def test_an_action_that_was_ready_may_be_forgotten(self):
        with self.top.ready_commit() as ready:
            pass
        del self.top, ready
        gc.collect()
        self.assertIsNone(self.guardian.live())

    def test_another_call_in_the_block_is_refused(self):
        with self.top.ready_commit() as ready:
            for call in (
                lambda: self.guardian.entries,
                self.guardian.topaction,
                self.top.subaction,
                self.top.commit,
                self.top.abort,
                self.guardian.close,
                self.top.ready_commit().__enter__,
                lambda: self.top.field(self.record, 0),
            ):
                with self.subTest(call=call), self.assertRaises(Reentered):
                    call()
            ready.make()
        self.assertEqual((self.guardian.entries, self.guardian.base(self.record)), (4, (5,)))

    def test_an_interrupt_before_the_block_leaves_the_guardian_open(self):
        archive = self.guardian._archive
        for name in "ready_commit", "ready_line":
            function = getattr(archive, name)

            def interrupted_after(*given, name=name, function=function):
                setattr(archive, name, function)
                function(*given)
                raise KeyboardInterrupt

            setattr(archive, name, interrupted_after)
            with self.assertRaises(KeyboardInterrupt), self.top.ready_commit():
                pass
            self.assertFalse(self.guardian._has_lock())
            self.assertEqual(self.guardian.entries, 3)

    def test_no_interrupt_keeps_the_mutex_after_the_block(self):
        # An interrupt comes at the earliest at the begin of a function of Python.
        self.assertIsInstance(self.top.ready_commit().__exit__, types.BuiltinMethodType)
        with contextlib.ExitStack() as stack:
            stack.enter_context(self.top.ready_commit())
            self.assertTrue(self.guardian._has_lock())
        self.assertFalse(self.guardian._has_lock())


if __name__ == "__main__":
    unittest.main()
