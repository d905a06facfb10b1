"""Checkpoints that a guardian makes by itself, and the limits that it says."""

import asyncio
import sys
import threading
import time
import unittest
from pathlib import Path
from unittest import mock

sys.path.insert(0, str(Path(__file__).resolve().parents[1]))

import argus_guardian as argus  # noqa: E402
from argus_guardian import Kind, Listed  # noqa: E402
from argus_guardian.lists import array_of  # noqa: E402


class ByItself(unittest.TestCase):
    """Checkpoints after so many entries."""

    AFTER = 20

    def setUp(self):
        self.guardian = argus.Guardian(patience=20, checkpoint_after=self.AFTER)
        self.addCleanup(self.guardian.close)
        self.record = self.guardian.declare("atomic_record[n:int]")
        self.guardian.run(lambda top: top.create(self.record, (0,)))

    def kept(self):
        return self.guardian.entries - self.guardian.first_entry

    def add(self):
        """Four entries."""
        with self.guardian.topaction() as top:
            top.set_field(self.record, 0, top.field(self.record, 0) + 1)

    def test_after_so_many_entries(self):
        most = 0
        for _ in range(100):
            self.add()
            most = max(most, self.kept())
        self.assertEqual(self.guardian.base(self.record), (100,))
        self.assertLess(most, self.AFTER)
        self.assertGreaterEqual(most, self.AFTER - 4)

    def test_calls_of_other_kinds_count(self):
        for _ in range(10):
            self.guardian.call_each([Listed(Kind.BEGIN_TOP), Listed(Kind.COMMIT, begun_by=0)])
            self.guardian.call(Kind.ABORT, self.guardian.call(Kind.BEGIN_TOP))
            self.assertTrue(self.guardian.topaction().test_read(self.record))
            self.add()
        self.assertLess(self.kept(), self.AFTER + 12)

    def test_it_may_be_turned_off_and_set(self):
        self.guardian.checkpoint_after = None
        for _ in range(20):
            self.add()
        self.assertEqual(self.guardian.first_entry, 0)
        self.guardian.checkpoint_after = 40
        self.add()
        self.assertEqual((self.kept(), self.guardian.checkpoint_after), (0, 40))
        for wrong, error in (0, OverflowError), (-1, OverflowError), ("x", TypeError):
            with self.assertRaises(error):
                self.guardian.checkpoint_after = wrong
        with argus.Guardian(checkpoint_after=None) as other:
            self.assertIsNone(other.checkpoint_after)
        with argus.Guardian() as other:
            self.assertEqual(other.checkpoint_after, 100_000)

    def test_not_while_an_action_is_live(self):
        holder = self.guardian.topaction()
        for _ in range(6):
            self.add()
        self.assertEqual(self.guardian.first_entry, 0)
        holder.commit()
        self.assertEqual(self.kept(), 0)

    def test_it_holds_topactions_back_and_lets_them_go(self):
        holder = self.guardian.topaction()
        # The entry with which there are twice as many is an end's.
        while not self.guardian._folds:
            self.add()
        self.assertGreaterEqual(self.kept(), 2 * self.AFTER)
        self.assertLess(self.kept(), 3 * self.AFTER)
        begin = time.monotonic()
        self.add()
        self.assertGreater(time.monotonic() - begin, 0.05)
        self.assertEqual((self.guardian.first_entry, self.guardian._folds), (0, {}))
        # While topactions are held back the last one that is live ends.
        while not self.guardian._folds:
            self.add()
        threading.Timer(0.01, holder.commit).start()
        self.add()
        self.assertLess(self.kept(), self.AFTER)

    def test_who_is_held_back_looks_seldom(self):
        top, looks = self.guardian.topaction(), []
        wait = self.guardian._ended.wait

        def counted(timeout):
            looks.append(threading.get_ident())
            return wait(timeout)

        begin = threading.Thread(target=lambda: self.guardian.topaction().commit())
        with mock.patch.object(self.guardian._ended, "wait", counted):
            holding = threading.Thread(target=lambda: self.assertRaises(argus.Busy, self.guardian.checkpoint, 1))
            holding.start()
            while holding.ident not in looks:
                time.sleep(0.001)
            begin.start()
            holding.join()
            begin.join()
        # After 0.05 seconds, twice as many, and so on, in one second.
        self.assertIn(looks.count(begin.ident), range(1, 7))
        top.commit()

    def test_threads_without_a_quiet_moment(self):
        stop = threading.Event()

        def work(number):
            record = self.guardian.declare("atomic_record[n:int]")
            self.guardian.run(lambda top: top.create(record, (0,)))
            while not stop.is_set():
                with self.guardian.topaction() as top:
                    top.set_field(record, 0, number)
                    time.sleep(0.001)

        threads = [threading.Thread(target=work, args=(number,)) for number in range(4)]
        for thread in threads:
            thread.start()
        limit = time.monotonic() + 30
        while self.guardian.first_entry < 500 and time.monotonic() < limit:
            time.sleep(0.01)
        stop.set()
        for thread in threads:
            thread.join()
        self.assertGreaterEqual(self.guardian.first_entry, 500)

    def test_tasks_without_a_quiet_moment(self):
        async def work():
            while self.guardian.first_entry < 500:
                async with self.guardian.topaction() as top:
                    (await top.alocked(self.record)).n += 1
                    await asyncio.sleep(0)

        async def all_of_them():
            await asyncio.wait_for(asyncio.gather(*(work() for _ in range(4))), 30)

        asyncio.run(all_of_them())

    def test_it_renews_when_half_of_the_numbers_are_used(self):
        self.guardian.MAX_ACTIONS = 20
        for _ in range(100):
            self.add()
        self.assertLessEqual(self.guardian.actions, 20)
        self.assertEqual(self.guardian.base(self.record), (100,))

    def test_what_a_program_reads_isnt_folded_before(self):
        self.guardian.MAX_ACTIONS = 20
        lines = self.guardian.lines(0)
        for _ in range(30):
            self.add()
        self.assertEqual(self.guardian.first_entry, 0)
        for _ in range(30):
            self.add()
            lines += self.guardian.lines(len(lines))
        self.assertGreater(self.guardian.first_entry, 100)
        # And actions don't begin anew, so all lines belong to one listing.
        with argus.resume(lines) as again:
            self.assertEqual((again.base(int(self.record)), again.actions), ((60,), 61))

    def test_nothing_is_folded_of_who_writes_commits_out(self):
        with self.guardian.topaction() as top:
            with top.ready_commit() as ready:
                ready.make()
        for _ in range(30):
            self.add()
        self.assertEqual(self.guardian.first_entry, 0)
        self.guardian.entry(self.guardian.entries - 1)
        for _ in range(30):
            self.add()
            self.guardian.entry(self.guardian.entries - 1)
        self.assertGreater(self.guardian.first_entry, 0)

    def test_a_guardian_that_is_made_again_waits_for_its_reader(self):
        lines = self.guardian.list("journal").splitlines()
        again = argus.resume(lines)
        self.addCleanup(again.close)
        again.checkpoint_after = 10
        for _ in range(10):
            with again.topaction() as top:
                top.set_field(int(self.record), 0, 5)
        self.assertEqual(again.first_entry, 0)
        again.lines(len(lines))
        self.assertEqual(again.first_entry, again.entries)


class TooManyOfThem(unittest.TestCase):
    """What a refusal at a limit says."""

    def test_objects(self):
        with argus.Guardian() as guardian:
            declare = array_of([Listed(Kind.DECLARE, text="atomic_array[int]")] * 65_535, guardian._ids)
            self.assertEqual(guardian._archive.make_each(declare)[1], 65_535)
            shape = "atomic_array[int]"
            for more in lambda: guardian.declare(shape), lambda: guardian.object("it", shape):
                with self.assertRaisesRegex(argus.TooMany, "65,535 objects are declared, and no more can be"):
                    more()

    def test_actions(self):
        with argus.Guardian() as guardian:
            pair = [Listed(Kind.BEGIN_TOP), Listed(Kind.ABORT)]
            begin = array_of(pair * 10_000, guardian._ids)
            for number in range(10_000):
                begin[2 * number + 1].begun_by = 2 * number + 1
            for _ in range(100):
                guardian._archive.make_each(begin)
                # A checkpoint alone frees no numbers.
                guardian._archive.fold()
            self.assertEqual(guardian.actions_left, 0)
            with self.assertRaisesRegex(argus.TooMany, r"1,000,000 actions were begun: call checkpoint\(\) or renew\(\)"):
                guardian.topaction()
            guardian.checkpoint()
            self.assertEqual(guardian.topaction().number, 0)


if __name__ == "__main__":
    unittest.main()
