"""Tasks of asyncio: topactions whose waits let the event loop go on, and what comes of a task that is cancelled."""

import asyncio
import gc
import sys
import tempfile
import threading
import time
import unittest
import warnings
from pathlib import Path

sys.path.insert(0, str(Path(__file__).resolve().parents[1]))

import argus_guardian as argus  # noqa: E402
from argus_guardian import Log  # noqa: E402


class Accounts(unittest.IsolatedAsyncioTestCase):
    """A guardian of two accounts, and tasks."""

    PATIENCE = 30

    def setUp(self):
        self.guardian = argus.Guardian(patience=self.PATIENCE)
        self.addCleanup(self.guardian.close)
        self.one, self.other = (self.guardian.object(name, "atomic_record[n:int]") for name in ("one", "other"))
        with self.guardian.topaction() as top:
            for account in self.one, self.other:
                top.create(account, n=0)
        # Each test ends long before a patience does.
        self.begin = time.monotonic()

    def tearDown(self):
        self.assertLess(time.monotonic() - self.begin, self.PATIENCE - 5)
        self.assertEqual((self.guardian._waits.within, self.guardian._wakers, self.guardian.live()), ({}, {}, None))

    async def add(self, account=None, pause=0.001):
        async with self.guardian.topaction() as top:
            place = await top.alocked(account or self.one)
            number = place.n
            await asyncio.sleep(pause)
            place.n = number + 1
            return number


class Tasks(Accounts):
    """`async with`, and accesses that are awaited."""

    async def test_a_block_commits_and_aborts(self):
        async with self.guardian.topaction() as top:
            top[self.one].n = 5
        self.assertEqual(self.guardian.get(self.one).n, 5)
        with self.assertRaises(KeyError):
            async with self.guardian.topaction() as top:
                top[self.one].n = 6
                raise KeyError
        self.assertEqual(self.guardian.get(self.one).n, 5)

    async def test_tasks_take_turns(self):
        numbers = await asyncio.gather(*(self.add() for _ in range(50)))
        self.assertEqual(sorted(numbers), list(range(50)))

    async def test_the_loop_goes_on_while_a_task_waits(self):
        holder = self.guardian.topaction()
        holder.lock(self.one)
        waiting = asyncio.create_task(self.add())
        ticks = 0
        while ticks < 20:
            await asyncio.sleep(0.005)
            ticks += 1
        self.assertFalse(waiting.done())
        holder.commit()
        self.assertEqual(await waiting, 0)

    async def test_a_thread_wakes_a_task_and_a_task_a_thread(self):
        holder = self.guardian.topaction()
        holder.lock(self.one)
        threading.Timer(0.05, holder.commit).start()
        self.assertEqual(await self.add(), 0)
        async with self.guardian.topaction() as top:
            await top.alock(self.one)
            thread = asyncio.create_task(asyncio.to_thread(self.guardian.run, lambda it: it[self.one].n))
            await asyncio.sleep(0.05)
            self.assertFalse(thread.done())
        self.assertEqual(await thread, 1)

    async def test_what_would_wait_otherwise_is_refused_at_once(self):
        async with self.guardian.topaction() as holder:
            await holder.alock(self.one)
            async with self.guardian.topaction() as top:
                for access in lambda: top[self.one].n, lambda: top.lock(self.one), lambda: top.set(self.one, n=5):
                    with self.assertRaisesRegex(argus.Conflict, "await top.alock"):
                        access()
                with top.subaction() as sub:
                    with self.assertRaisesRegex(argus.Conflict, "await top.alock"):
                        sub.lock(self.one)

    async def test_who_waits_for_a_lock_may_read(self):
        async with self.guardian.topaction() as top:
            self.assertEqual((await top.aget(self.one), await top.aget(self.one, "n")), ((0,), 0))
            async with self.guardian.topaction() as other:
                self.assertEqual((await other.aget(self.one)).n, 0)
                async with other.subaction() as sub:
                    self.assertEqual(sub[self.one].n, 0)

    async def test_patience_ends(self):
        self.guardian.patience = 0.05
        holder = self.guardian.topaction()
        holder.lock(self.one)
        with self.assertRaisesRegex(argus.Conflict, "wants to write one, held by a"):
            await self.add()
        self.guardian.patience = 0
        with self.assertRaises(argus.Conflict):
            await self.add()
        holder.abort()

    async def test_circles_are_found(self):
        async def both(first, second, barrier):
            async with self.guardian.topaction() as top:
                await top.alock(first)
                await barrier()
                await top.alock(second)

        arrived, all_there = [], asyncio.Event()

        async def barrier():
            arrived.append(None)
            if len(arrived) == 2:
                all_there.set()
            await all_there.wait()

        outcomes = await asyncio.gather(
            both(self.one, self.other, barrier), both(self.other, self.one, barrier), return_exceptions=True
        )
        conflicts = [it for it in outcomes if it is not None]
        self.assertEqual([type(it) for it in conflicts], [argus.Conflict])
        self.assertEqual(len(conflicts[0].waits_for), 1)

    async def test_an_action_that_is_aborted_stops_waiting(self):
        holder, top = self.guardian.topaction(), self.guardian.topaction()
        holder.lock(self.one)
        waiting = asyncio.create_task(top.alock(self.one))
        await asyncio.sleep(0.01)
        top.abort()
        with self.assertRaises(argus.Over):
            await waiting
        holder.abort()

    async def test_what_is_dropped_is_no_hindrance(self):
        holder = self.guardian.topaction()
        holder.lock(self.one)
        waiting = asyncio.create_task(self.add())
        await asyncio.sleep(0.01)
        del holder
        gc.collect()
        self.assertEqual(await waiting, 0)

    async def test_a_task_that_is_cancelled_leaves_nothing(self):
        holder = self.guardian.topaction()
        holder.lock(self.one)
        waiting = [asyncio.create_task(self.add()) for _ in range(3)]
        await asyncio.sleep(0.01)
        for task in waiting:
            task.cancel()
        for task in waiting:
            with self.assertRaises(asyncio.CancelledError):
                await task
        self.assertEqual(self.guardian._wakers, {})
        holder.abort()
        self.guardian.checkpoint()
        self.assertEqual(self.guardian.get(self.one).n, 0)

    async def test_a_checkpoint_holds_tasks_back(self):
        held = self.guardian.topaction()
        folding = asyncio.create_task(asyncio.to_thread(self.guardian.checkpoint, 20))
        while not self.guardian._folds:
            await asyncio.sleep(0.001)
        adding = asyncio.create_task(self.add())
        await asyncio.sleep(0.05)
        self.assertFalse(adding.done() or folding.done())
        held.commit()
        await folding
        self.assertEqual(await adding, 0)

    async def test_a_with_block_over_an_await_is_warned_of(self):
        with self.assertWarnsRegex(RuntimeWarning, "held over an `await`"):
            with self.guardian.topaction() as top:
                await asyncio.sleep(0)
                top[self.one].n = 5
        with warnings.catch_warnings():
            warnings.simplefilter("error")
            with self.guardian.topaction() as top:
                top[self.one].n = 6
            await asyncio.sleep(0)
            async with self.guardian.topaction() as top:
                await asyncio.sleep(0)
                with top.subaction() as sub:
                    sub[self.one].n = 7
        self.assertEqual(self.guardian.get(self.one).n, 7)


class Runs(Accounts):
    """`arun`, of functions and of coroutines."""

    async def test_coroutines_that_read_and_then_write(self):
        async def count(top):
            number = (await top.aget(self.one)).n
            await asyncio.sleep(0.0005)
            # Who reads and then writes may be refused, and is tried again.
            await top.alock(self.one)
            top[self.one].n = number + 1
            return number

        numbers = await asyncio.gather(*(self.guardian.arun(count, tries=1000) for _ in range(10)))
        self.assertEqual(sorted(numbers), list(range(10)))

    async def test_tries_come_to_an_end(self):
        tried = []

        async def refused(top):
            tried.append(top)
            raise argus.Conflict("no")

        with self.assertRaises(argus.Conflict):
            await self.guardian.arun(refused, tries=3)
        self.assertEqual(len(tried), 3)

    async def test_a_cancelled_coroutine_leaves_nothing(self):
        async def forever(top):
            top[self.one].n = 5
            await asyncio.sleep(1000)

        task = asyncio.create_task(self.guardian.arun(forever))
        await asyncio.sleep(0.01)
        task.cancel()
        with self.assertRaises(asyncio.CancelledError):
            await task
        self.assertEqual(self.guardian.get(self.one).n, 0)

    async def test_a_cancelled_function_leaves_nothing(self):
        holder, event, ended = self.guardian.topaction(), threading.Event(), threading.Event()
        holder.lock(self.other)

        def wait(top):
            try:
                top[self.one].n = 5
                event.set()
                top.lock(self.other)
            finally:
                ended.set()

        task = asyncio.create_task(self.guardian.arun(wait))
        while not event.is_set():
            await asyncio.sleep(0.001)
        task.cancel()
        with self.assertRaises(asyncio.CancelledError):
            await task
        # It has been aborted, so its locks are free before its thread has noticed.
        self.assertEqual(await self.add(), 0)
        self.assertTrue(await asyncio.to_thread(ended.wait, 20))
        holder.abort()

    async def test_a_function_that_was_cancelled_before_it_began(self):
        ran = []
        task = asyncio.create_task(self.guardian.arun(ran.append))
        task.cancel()
        with self.assertRaises(asyncio.CancelledError):
            await task
        self.assertEqual(ran, [])


class Logged(unittest.IsolatedAsyncioTestCase):
    """Tasks over a log."""

    async def test_a_block_and_a_run_end_on_disk(self):
        with tempfile.TemporaryDirectory() as room, Log.create(Path(room) / "log.db") as log:
            account = log.guardian.object("account", "atomic_record[n:int]")
            async with log.topaction() as top:
                top.create(account, n=5)

            async def add(top):
                place = await top.alocked(account)
                place.n += 1

            await asyncio.gather(log.arun(add), log.arun(add), log.arun(lambda top: top[account].n))
            entries = log.counts().entries
            self.assertEqual(entries, log.guardian.entries)
            log.close()
            with Log.open(Path(room) / "log.db") as again:
                self.assertEqual(again.guardian.get(again.guardian.object("account")).n, 7)


if __name__ == "__main__":
    unittest.main()
