"""Calls that are made while their thread is inside a call: each is refused, and the other one has its own reply."""

import gc
import os
import shutil
import signal
import subprocess
import sys
import sysconfig
import tempfile
import threading
import time
import unittest
import weakref
from concurrent.futures import ThreadPoolExecutor
from pathlib import Path
from unittest import mock

sys.path.insert(0, str(Path(__file__).resolve().parents[1]))

import argus_guardian as argus  # noqa: E402
from argus_guardian import Kind, Listed, Reentered  # noqa: E402
from argus_guardian.library import _call  # noqa: E402

# How long each program of calls_inside.py runs. hosts/run says 20.
SECONDS = os.environ.get("ARGUS_REENTERED_SECONDS", "1")
# How many of them at once.
AT_ONCE = 4
PROGRAM = Path(__file__).resolve().parent / "calls_inside.py"
PACKAGE = Path(argus.__file__).resolve().parent
KINDS = "accesses", "changes", "actions", "lists", "questions", "waits", "ready_commits", "folds"


class Refused(unittest.TestCase):
    """Each call, inside each kind of call."""

    def setUp(self):
        self.guardian = argus.Guardian(patience=60)
        self.addCleanup(self.guardian.close)
        self.record = self.guardian.declare("atomic_record[n:int,t:text]")
        self.other = self.guardian.declare("atomic_record[n:int,t:text]")
        with self.guardian.topaction() as top:
            top.create(self.record, (5, "a"))
            top.create(self.other, (6, "b"))
        self.top = self.guardian.topaction()
        self.refused = 0

    def refuse_each(self):
        """Makes each call that there is: none is made, as the journal shows after it."""
        guardian, top, other = self.guardian, self.top, self.other
        for call in (
            guardian.topaction,
            top.subaction,
            top.nested,
            top.commit,
            top.abort,
            top.abort_others,
            top.ready_commit().__enter__,
            lambda: top.field(other, 1),
            lambda: top.set_field(other, 0, 7),
            lambda: top.get(other),
            lambda: top.test_read(other),
            lambda: guardian.access(Kind.FIELD, top.number, other),
            lambda: guardian.call(Kind.COMMIT, top.number),
            lambda: guardian.call_each([Listed(Kind.BEGIN_TOP)]),
            lambda: guardian.declare("atomic_array[int]"),
            lambda: guardian.run(lambda it: it.field(other, 0)),
            lambda: guardian.base(other),
            lambda: guardian.readers(other),
            lambda: guardian.versions(other),
            lambda: guardian.shape(other),
            lambda: guardian.status(top.number),
            lambda: guardian.list("journal"),
            lambda: guardian.lines(0),
            lambda: guardian.entries,
            guardian.live,
            guardian.checkpoint,
            guardian.renew,
            guardian.abort_live,
            guardian.close,
        ):
            with self.subTest(call=call), self.assertRaises(Reentered):
                call()
        self.refused += 1

    def inside(self, name):
        """From now on the calls are made within this function of the archive, once it has called the library."""
        archive, function = self.guardian._archive, getattr(self.guardian._archive, name)

        def refusing(*given):
            made = function(*given)
            self.refuse_each()
            return made

        setattr(archive, name, refusing)
        self.addCleanup(setattr, archive, name, function)

    @unittest.skipIf(_call is not None, "_call.c makes the call at once, and nothing comes in between")
    def test_inside_an_access(self):
        self.inside("call")
        self.assertEqual(self.top.field(self.record, 1), "a")
        with self.assertRaises(argus.IllTyped):
            self.top.field(self.record, 7)
        self.assertEqual(self.refused, 2)
        said = ['7 ask a1 o0 field 1 -> val "a"', "8 ask a1 o0 field 7 -> refused IllTyped"]
        self.assertEqual(self.guardian.lines(7), said)

    @unittest.skipIf(_call is not None, "_call.c makes the call at once, and nothing comes in between")
    def test_inside_a_begin_and_an_end(self):
        self.inside("call")
        with self.top.subaction() as sub:
            pass
        self.top.commit()
        said = [f"7 begin_sub a1 -> a{sub.number}", "8 commit a2 -> done", "9 commit a1 -> done"]
        self.assertEqual((self.guardian.lines(7), self.refused), (said, 3))

    def test_inside_a_question(self):
        self.inside("ask")
        self.assertEqual(self.guardian.base(self.record), (5, "a"))
        said = ['o0 {5,"a"}', 'o1 {6,"b"}']
        self.assertEqual((self.guardian.entries, self.guardian.list("bases").splitlines()), (7, said))
        self.assertEqual(self.refused, 3)

    def test_inside_a_list(self):
        self.inside("make_each")
        made = self.guardian.call_each([Listed(Kind.FIELD, 1, self.record, 1), Listed(Kind.FIELD, 1, self.record)])
        self.assertEqual((made.answers, made.end, self.refused), (["a", 5], None, 1))

    def test_inside_a_test_and_a_call(self):
        self.inside("make")
        self.assertTrue(self.top.test_read(self.record))
        self.assertEqual(self.guardian.call(Kind.FIELD, 1, self.record, 1), "a")
        self.assertEqual(self.refused, 2)

    def test_inside_folds_and_lines(self):
        self.top.commit()
        for name, call in (
            ("fold", self.guardian.checkpoint),
            ("renew", self.guardian.renew),
            ("lines", lambda: self.guardian.lines(self.guardian.first_entry)),
            ("abort_live", self.guardian.abort_live),
        ):
            self.inside(name)
            call()
        self.assertEqual(self.refused, 4)

    def test_inside_a_commit_that_is_ready(self):
        self.top.set_field(self.record, 0, 7)
        self.inside("ready_line")
        with self.top.ready_commit() as ready:
            self.refuse_each()
            ready.make()
        self.assertEqual((self.guardian.base(self.record), self.refused), ((7, "a"), 2))

    def by_signal(self):
        """From now on a handler makes the calls, half a tenth of a second later."""
        self.addCleanup(signal.signal, signal.SIGALRM, signal.signal(signal.SIGALRM, lambda *_: self.refuse_each()))
        # A timer that is left would end the process, once the handler is gone.
        self.addCleanup(signal.setitimer, signal.ITIMER_REAL, 0)
        signal.setitimer(signal.ITIMER_REAL, 0.05)

    def after_a_while(self, call):
        """A thread that makes the call, when the handler has made its own."""

        def wait_and_call():
            while not self.refused:
                time.sleep(0.001)
            call()

        thread = threading.Thread(target=wait_and_call)
        self.addCleanup(thread.join)
        thread.start()

    def test_while_it_waits_for_an_object(self):
        holder = self.guardian.topaction()
        holder.lock(self.record)
        self.after_a_while(holder.abort)
        self.by_signal()
        self.assertEqual(self.top.field(self.record, 1), "a")
        self.assertEqual(self.refused, 1)

    def test_while_it_waits_for_a_fold(self):
        self.after_a_while(self.top.commit)
        self.by_signal()
        self.guardian.checkpoint(patience=60)
        self.assertEqual(self.refused, 1)

    @unittest.skipIf(_call is not None, "_call.c makes the call at once, and nothing comes in between")
    def test_other_threads_go_on_meanwhile(self):
        found = []
        with ThreadPoolExecutor(1) as pool:
            make = self.guardian._archive.call

            def beside(*given):
                made = make(*given)
                found.append(pool.submit(self.guardian.base, self.other))
                time.sleep(0.01)
                found.append(found[0].done())
                return made

            self.guardian._archive.call = beside
            self.assertEqual(self.top.field(self.record, 1), "a")
            # It waits for the mutex, and isn't inside.
            self.assertEqual((found[0].result(), found[1]), ((6, "b"), False))

    def test_a_long_text_is_read_when_the_mutex_is_free(self):
        array = self.guardian.declare("atomic_array[int]")
        self.top.create(array, list(range(3000)))
        free, read = [], argus.archive.read_content

        def reading(text):
            # Another thread is in at once, though this one hasn't its result yet.
            with ThreadPoolExecutor(1) as pool:
                free.append(pool.submit(lambda: self.guardian.entries).result(10) > 0)
            return read(text)

        patched = [mock.patch.object(it, "read_content", reading) for it in (argus.archive, argus.calling)]
        with patched[0], patched[1]:
            for result in (
                self.top.whole(array),
                self.top.get(array),
                self.guardian.access(Kind.WHOLE, self.top.number, array),
                self.guardian.call(Kind.WHOLE, self.top.number, array),
            ):
                self.assertEqual(list(result), list(range(3000)))
        self.assertEqual(free, [True] * 4)

    @unittest.skipIf(_call is not None, "_call.c makes the call at once, and nothing comes in between")
    def test_what_is_dropped_inside_is_aborted_afterwards(self):
        dropped = [self.guardian.topaction()]
        dropped[0].lock(self.other)
        make = self.guardian._archive.call

        def dropping(*given):
            dropped.clear()
            gc.collect()
            return make(*given)

        self.guardian._archive.call = dropping
        self.assertEqual(self.top.field(self.record, 1), "a")
        self.guardian._archive.call = make
        self.assertEqual(self.guardian.lines(9), ['9 ask a1 o0 field 1 -> val "a"', "10 abort a2 -> done"])

    @unittest.skipIf(_call is not None, "_call.c makes the call at once, and nothing comes in between")
    def test_what_a_finalizer_and_a_callback_get(self):
        raised, called = [], []
        self.addCleanup(setattr, sys, "unraisablehook", sys.unraisablehook)
        sys.unraisablehook = lambda it: raised.append(it.exc_type)

        class Dropped:
            def __init__(self, guardian, record):
                self.call = lambda: guardian.base(record)

            def __del__(self):
                called.append(self.call())

        alive = [Dropped(self.guardian, self.other), Dropped(self.guardian, self.other)]
        watched = weakref.ref(alive[1], lambda _: called.append(self.guardian.base(self.other)))
        make = self.guardian._archive.call

        def dropping(*given):
            alive.clear()
            return make(*given)

        self.guardian._archive.call = dropping
        self.assertEqual(self.top.field(self.record, 1), "a")
        self.assertEqual((called, raised, watched()), ([], [Reentered] * 3, None))


def interrupts():
    """What interrupts which calls; of a package with `_call.c` too, if it can be built here."""
    yield from ((kind, "signal", "") for kind in KINDS)
    yield from (("mixed", interrupter, "") for interrupter in ("signal", "del", "weakref"))
    yield from (("logged", interrupter, "") for interrupter in ("signal", "del"))


class CallsInside(unittest.TestCase):
    """A program whose calls are interrupted all the time, with other threads beside it."""

    def setUp(self):
        room = tempfile.TemporaryDirectory()
        self.addCleanup(room.cleanup)
        self.room = Path(room.name)

    def package_with_quick_call(self):
        """The folder of a copy of the package with `_call.c`; None if it can't be built, or is there anyway."""
        headers = sysconfig.get_path("include")
        compiler = shutil.which("cc")
        can_build = compiler is not None and Path(headers, "Python.h").is_file() and sys.version_info >= (3, 10)
        if _call is not None or not can_build:
            return None
        copy = self.room / "package"
        shutil.copytree(PACKAGE, copy / PACKAGE.name, ignore=shutil.ignore_patterns("__pycache__"))
        into = copy / PACKAGE.name / "_call.abi3.so"
        words = [compiler, "-shared", "-fPIC", "-O2", "-fvisibility=hidden", f"-I{headers}"]
        words += [*map(str, PACKAGE.glob("_*.c")), "-o", str(into)]
        subprocess.run(words, check=True)
        return copy

    def run_one(self, case):
        """What the program says: how many rounds there were, and calls inside, and how many of them were refused."""
        number, (kind, interrupter, package) = case
        log = str(self.room / f"log{number}") if kind == "logged" else ""
        words = [sys.executable, str(PROGRAM), kind, interrupter, SECONDS, log, package or str(PACKAGE.parent)]
        done = subprocess.run(words, capture_output=True, text=True, timeout=90 + 3 * float(SECONDS), check=False)
        return f"{kind}, {interrupter}: {done.stdout}{done.stderr}", done.returncode

    def test_none_has_the_reply_of_another(self):
        cases = list(interrupts())
        quick = self.package_with_quick_call()
        if quick is not None:
            cases += [("mixed", interrupter, str(quick)) for interrupter in ("signal", "del")]
        with ThreadPoolExecutor(AT_ONCE) as pool:
            for said, status in pool.map(self.run_one, enumerate(cases)):
                with self.subTest(said):
                    self.assertEqual(status, 0)
                    # Calls that are made at once let none in.
                    refused = r"[1-9]\d*" if _call is None else r"\d+"
                    self.assertRegex(said, rf"rounds [1-9]\d*, inside [1-9]\d*, refused {refused}, wrong 0")
                print(said, end="", file=sys.stderr)


if __name__ == "__main__":
    unittest.main()
