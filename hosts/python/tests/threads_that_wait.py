"""What tests of circles stand on: records, and threads whose accesses wait."""

import sys
import time
import unittest
from concurrent.futures import ThreadPoolExecutor
from pathlib import Path

sys.path.insert(0, str(Path(__file__).resolve().parents[1]))

import argus_guardian as argus  # noqa: E402

# Who isn't refused at once waits for so long.
PATIENCE = 60


class Circle(unittest.TestCase):
    """Records, a guardian, and threads. Action 0 has made the records."""

    SECONDS = 20

    def setUp(self):
        self.start = time.monotonic()
        self.guardian = argus.Guardian(patience=PATIENCE)
        self.addCleanup(self.guardian.close)
        self.records = [self.guardian.declare("atomic_record[n:int]") for _ in range(12)]
        with self.guardian.topaction() as top:
            for record in self.records:
                top.create(record, (0,))
        self.pool = ThreadPoolExecutor(12)

    def tearDown(self):
        # Else it would wait for its threads as long as their patience lasts.
        self.guardian.close()
        self.pool.shutdown()
        self.assertEqual(self.guardian._waits.within, {})
        self.assertLess(time.monotonic() - self.start, self.SECONDS)

    def tops(self, count):
        return [self.guardian.topaction() for _ in range(count)]

    def waits(self, work, *given):
        """Does that in a thread until it waits: it makes a call before."""
        before = self.guardian.entries
        thread = self.pool.submit(work, *given)
        while self.guardian.entries == before:
            time.sleep(0.0005)
        return thread

    def lock(self, action, place):
        """Locks the record there in a thread and commits, or aborts if that is refused."""
        return self.waits(self.made_by, action, lambda: action.lock(self.records[place]))

    def read(self, action, place):
        return self.waits(self.made_by, action, lambda: action.field(self.records[place], 0))

    @staticmethod
    def made_by(action, access):
        with action:
            access()

    def assert_refused(self, thread, text, waits_for):
        error = thread.exception(self.SECONDS)
        self.assertIsInstance(error, argus.Conflict)
        self.assertEqual((str(error), error.waits_for), (text, waits_for))

    def assert_go_on(self, *threads):
        for thread in threads:
            self.assertIsNone(thread.exception(self.SECONDS))
