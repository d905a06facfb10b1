"""Guardians and the process that they live in: fork, pickling, exit, a forgotten close."""

import copy
import gc
import os
import pickle
import subprocess
import sys
import unittest
import warnings
from pathlib import Path

sys.path.insert(0, str(Path(__file__).resolve().parents[1]))

import argus_guardian as argus  # noqa: E402

# That of the package, which may be installed elsewhere.
FOLDER = str(Path(argus.__file__).resolve().parents[1])


def in_child(work):
    """The status with which a forked process ends after this work: 0 where it returns."""
    child = os.fork()
    if child == 0:
        try:
            work()
            os._exit(0)
        except BaseException as error:
            print(repr(error), file=sys.stderr, flush=True)
            os._exit(1)
    return os.waitstatus_to_exitcode(os.waitpid(child, 0)[1])


def run(program, *options):
    """What the interpreter prints to standard error for this program, and its status."""
    environment = {**os.environ, "PYTHONPATH": FOLDER}
    words = [sys.executable, *options, "-c", program]
    done = subprocess.run(words, env=environment, capture_output=True, text=True, timeout=60, check=False)
    return done.stderr, done.returncode


class Processes(unittest.TestCase):
    """What leaves the process, and what doesn't."""

    def setUp(self):
        self.guardian = argus.Guardian()
        self.addCleanup(self.guardian.close)
        self.record = self.guardian.declare("atomic_record[n:int]")

    @unittest.skipUnless(hasattr(os, "fork"), "no fork")
    def test_in_a_forked_process_it_is_closed(self):
        top = self.guardian.topaction()

        def work():
            for call in (lambda: self.guardian.entries, self.guardian.topaction, top.commit):
                with self.assertRaises(argus.Closed):
                    call()
            self.guardian.close()
            with argus.Guardian() as other:
                self.assertEqual(other.declare("atomic_array[int]"), 0)

        self.assertEqual(in_child(work), 0)
        top.create(self.record, (5,))
        top.commit()
        self.assertEqual(self.guardian.base(self.record), (5,))

    @unittest.skipUnless(hasattr(os, "fork"), "no fork")
    def test_where_a_thread_was_in_a_call(self):
        def work():
            with self.assertRaises(argus.Closed):
                self.guardian.topaction()

        # As where another thread is in a call while this one forks.
        with self.guardian._lock:
            self.assertEqual(in_child(work), 0)
        self.assertEqual(self.guardian.objects, 1)

    def test_what_is_pickled_and_copied(self):
        for it in (self.guardian, self.guardian.topaction()):
            for make in (pickle.dumps, copy.copy, copy.deepcopy):
                with self.assertRaisesRegex(TypeError, "neither pickled nor copied"):
                    make(it)
        for value in (argus.Ref(3), argus.Choice(0, "a"), argus.Array(1, [1, None])):
            self.assertEqual(pickle.loads(pickle.dumps(value)), value)

    def test_a_forgotten_close_is_told(self):
        with warnings.catch_warnings(record=True) as told:
            warnings.simplefilter("always")
            argus.Guardian().declare("atomic_array[int]")
            gc.collect()
        self.assertEqual([it.category for it in told], [ResourceWarning])
        with warnings.catch_warnings():
            warnings.simplefilter("error")
            argus.Guardian().close()
            gc.collect()


class Exits(unittest.TestCase):
    """The interpreter's end."""

    BEGIN = "import argus_guardian as argus\nguardian = argus.Guardian(patience=float('inf'))\n"
    BEGIN += "array = guardian.declare('atomic_array[int]')\n"

    def test_with_live_actions(self):
        text = self.BEGIN + "top = guardian.topaction()\ntop.lock(array)\nsub = top.subaction()\n"
        self.assertEqual(run(text), ("", 0))

    def test_while_a_thread_waits(self):
        text = self.BEGIN + (
            "import threading, time\n"
            "top, other = guardian.topaction(), guardian.topaction()\n"
            "top.lock(array)\n"
            "threading.Thread(target=lambda: other.lock(array), daemon=True).start()\n"
            "time.sleep(0.1)\n"
        )
        self.assertEqual(run(text), ("", 0))

    def test_a_guardian_in_a_cycle(self):
        text = self.BEGIN + "guardian.itself = guardian\ntop = guardian.topaction()\n"
        self.assertEqual(run(text), ("", 0))

    def test_a_library_that_isnt_there(self):
        told, status = run("import os\nos.environ['ARGUS_LIBRARY'] = '/nothing'\n" + self.BEGIN)
        self.assertEqual(status, 1)
        self.assertIn("no library libargus.so.0 is to be had", told)
        self.assertNotIn("Exception ignored", told)


if __name__ == "__main__":
    unittest.main()
