"""Topactions that are tried again."""

import asyncio
import sys
import threading
import time
import unittest
from concurrent.futures import ThreadPoolExecutor
from pathlib import Path

sys.path.insert(0, str(Path(__file__).resolve().parents[1]))

import argus_guardian as argus  # noqa: E402


class SoldOut(Exception):
    """There is no seat left."""


class Retries(unittest.TestCase):
    """`run` and `arun`."""

    def setUp(self):
        self.guardian = argus.Guardian()
        self.addCleanup(self.guardian.close)
        self.record = self.guardian.declare("atomic_record[n:int]")
        self.guardian.run(lambda top: top.create(self.record, (0,)))

    def count(self, top):
        """Reads and then writes, which two that do it at once can't both."""
        number = top.field(self.record, 0) + 1
        time.sleep(0.0005)
        top.set_field(self.record, 0, number)
        return number

    def test_what_it_returns(self):
        self.assertEqual([self.guardian.run(self.count) for _ in range(3)], [1, 2, 3])

    def test_threads_that_read_and_then_write(self):
        with ThreadPoolExecutor(8) as pool:
            numbers = list(pool.map(lambda _: self.guardian.run(self.count, tries=1000), range(80)))
        self.assertEqual(sorted(numbers), list(range(1, 81)))
        self.assertEqual(self.guardian.base(self.record), (80,))

    def test_tasks_that_read_and_then_write(self):
        async def all_of_them():
            work = [self.guardian.arun(self.count, tries=1000) for _ in range(20)]
            return await asyncio.gather(*work)

        self.assertEqual(sorted(asyncio.run(all_of_them())), list(range(1, 21)))

    def test_the_event_loop_goes_on(self):
        async def both():
            running = asyncio.create_task(self.guardian.arun(wait))
            await asyncio.sleep(0)
            event.set()
            return await running

        event = threading.Event()

        def wait(top):
            return event.wait(30)

        self.assertTrue(asyncio.run(both()))

    def test_tries_come_to_an_end(self):
        self.guardian.patience = 0
        holder, tried = self.guardian.topaction(), []
        holder.lock(self.record)

        def work(top):
            tried.append(top.number)
            self.count(top)

        begin = time.monotonic()
        with self.assertRaises(argus.Conflict):
            self.guardian.run(work, tries=4)
        self.assertEqual(len(set(tried)), 4)
        self.assertLess(time.monotonic() - begin, 30)
        holder.abort()
        self.guardian.checkpoint()

    def test_other_exceptions_are_raised_at_once(self):
        tried = []

        def work(top):
            tried.append(self.count(top))
            raise SoldOut

        with self.assertRaises(SoldOut):
            self.guardian.run(work)
        self.assertEqual(tried, [1])
        self.assertEqual(self.guardian.base(self.record), (0,))


if __name__ == "__main__":
    unittest.main()
