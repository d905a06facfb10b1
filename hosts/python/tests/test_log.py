"""A guardian that outlives its process: what a log does, with its calls interrupted, closed, forgotten and forked."""

from __future__ import annotations

import gc
import os
import signal
import subprocess
import sys
import threading
import time
import unittest
import warnings
from collections.abc import Callable, Iterator
from contextlib import contextmanager
from pathlib import Path
from typing import Any
from unittest import mock

sys.path.insert(0, str(Path(__file__).resolve().parent))

from log_bank import LogCase, carry_out, number_in, open_bank  # noqa: E402
from test_processes import in_child  # noqa: E402

from argus_guardian import Action, Busy, Closed, Full, NoAction, OutOfMemory, Reentered  # noqa: E402
from argus_guardian.archive import Archive  # noqa: E402
from argus_guardian.library import Question, Status  # noqa: E402
from argus_guardian.log import InDoubt, Log, LogBroken, LogError, LogLocked, NoLog  # noqa: E402

HOST = Path(__file__).resolve().parents[1]


class LogTest(LogCase):
    def test_opened_again(self) -> None:
        with open_bank(self.path) as log:
            carry_out(log, 1, 1)
            top = log.guardian.topaction()
            top.set_field(0, 0, 7)
            log.barrier()
        with open_bank(self.path) as log:
            # What was live is aborted.
            self.assertEqual([number_in(log, obj) for obj in range(6)], [100, 99, 101, 0, 1, 0])
            self.assertTrue(log.found.endswith(f"the next one is {log.guardian.entries - 1}"), log.found)

    def test_a_begin_that_is_refused_makes_one_entry(self) -> None:
        with open_bank(self.path) as log:
            carry_out(log, 0, 1)
        with open_bank(self.path) as log:
            entries = log.guardian.entries
            with self.assertRaises(NoAction):
                Action(log.guardian, 99).subaction()
            self.assertEqual(log.guardian.entries, entries + 1)

    def test_made_and_opened(self) -> None:
        with self.assertRaises(NoLog):
            Log.open(self.path)
        with Log.create(self.path) as log:
            self.assertEqual(log.found, "0 entries in 0 batches, the next one is 0")
            with self.assertRaises(LogLocked):
                Log(self.path)
        with self.assertRaises(FileExistsError):
            Log.create(self.path)
        for make in Log.open_or_create, Log.open, Log:
            with make(self.path) as again:
                self.assertEqual(again.name, log.name)
        with self.assertRaisesRegex(LogError, "nowhere/bank.db can't be made"):
            Log.create(self.room / "nowhere" / "bank.db")
        with Log.open_or_create(f"{self.path}?mode=memory#%20") as other:
            self.assertNotEqual(other.name, log.name)
        wanted = ["bank.db", "bank.db-owner", "bank.db?mode=memory#%20", "bank.db?mode=memory#%20-owner"]
        self.assertEqual(sorted(it.name for it in self.room.iterdir()), wanted)

    def test_a_link_to_a_log_is_the_log(self) -> None:
        link = self.room / "link"
        link.symlink_to(self.path)
        with open_bank(str(link)):
            with self.assertRaises(LogLocked):
                Log.open(self.path)

    def test_closed(self) -> None:
        log = open_bank(self.path)
        log.close()
        log.close()
        calls = [log.broken, log.barrier, log.checkpoint, log.topaction().__enter__, lambda: log.run(lambda _: None)]
        for call in calls:
            with self.assertRaises(Closed):
                call()

    def test_a_forgotten_close_is_told(self) -> None:
        with warnings.catch_warnings(record=True) as told:
            warnings.simplefilter("always")
            Log.create(self.path)
            gc.collect()
            # A warning has the log as its source.
            said = [it.category for it in told]
            told.clear()
            gc.collect()
            said += [it.category for it in told]
        self.assertEqual(said, [ResourceWarning, ResourceWarning])
        # It isn't locked any more.
        with open_bank(self.path) as log:
            carry_out(log, 0, 1)

    def test_a_forgotten_close_at_the_end_of_the_process(self) -> None:
        child = self.run_child("leave", stderr=subprocess.STDOUT)
        said, _ = child.communicate(timeout=60)
        self.assertEqual((said, child.returncode), ("open\n", 0))
        with open_bank(self.path) as log:
            self.assertEqual(number_in(log, 3), 1)

    @contextmanager
    def order_under_way(self, log: Log) -> Iterator[None]:
        """An order of another thread is in the library until the block ends, and is acknowledged then."""
        lines, begun, go_on = log.guardian._text_of, threading.Event(), threading.Event()
        done: list[None] = []

        def lines_later(entry: int, size: int) -> tuple[bytes, int]:
            begun.set()
            go_on.wait()
            return lines(entry, size)

        thread = threading.Thread(target=lambda: done.append(carry_out(log, 0, 1)))
        with mock.patch.object(log.guardian, "_text_of", lines_later):
            thread.start()
            begun.wait()
            try:
                yield
            finally:
                go_on.set()
                thread.join()
        self.assertEqual(done, [None])

    def test_a_close_waits_for_other_threads(self) -> None:
        log = open_bank(self.path)
        closing = threading.Thread(target=log.close)
        with self.order_under_way(log):
            closing.start()
            closing.join(0.1)
            self.assertTrue(closing.is_alive())
        closing.join()
        with open_bank(self.path) as log:
            self.assertEqual(number_in(log, 3), 1)

    def test_a_close_within_a_call(self) -> None:
        with open_bank(self.path) as log:
            lines = log.guardian._text_of

            def lines_once_refused(entry: int, size: int) -> tuple[bytes, int]:
                for call in log.close, log.barrier, log.checkpoint, log.broken:
                    with self.assertRaises(Reentered):
                        call()
                return lines(entry, size)

            with mock.patch.object(log.guardian, "_text_of", lines_once_refused):
                carry_out(log, 0, 1)
        with open_bank(self.path) as log:
            self.assertEqual(number_in(log, 3), 1)

    def test_a_close_after_the_commit(self) -> None:
        log = open_bank(self.path)
        with self.assertRaises(InDoubt) as caught, log.topaction() as top:
            top.commit()
            log.close()
        self.assertIsInstance(caught.exception.__cause__, Closed)

    def test_in_a_forked_process_it_is_closed(self) -> None:
        def work() -> None:
            for call in log.broken, log.barrier, log.checkpoint:
                with self.assertRaises(Closed):
                    call()
            log.close()

        with open_bank(self.path) as log:
            with self.order_under_way(log):
                self.assertEqual(in_child(work), 0)
            self.assertEqual(in_child(work), 0)
            with self.assertRaises(LogLocked):
                Log(self.path)
            carry_out(log, 0, 2)
        with open_bank(self.path) as log:
            self.assertEqual(number_in(log, 3), 2)

    def test_checkpoint(self) -> None:
        with open_bank(self.path) as log:
            carry_out(log, 0, 1)
            entries = log.guardian.entries
            log.checkpoint()
            with log.guardian.topaction(), self.assertRaises(Busy):
                log.checkpoint(patience=0)
            log.barrier()
        with open_bank(self.path) as log:
            self.assertEqual([number_in(log, obj) for obj in range(3)], [100, 99, 101])
            self.assertEqual(log.found, f"2 entries in 1 batches, the next one is {entries + 2}")

    def test_a_checkpoint_aborts_what_nobody_has(self) -> None:
        with open_bank(self.path) as log:
            top = log.guardian.topaction()
            log.barrier()
            del top
            gc.collect()
            log.checkpoint()
            entries = log.guardian.entries
            carry_out(log, 0, 1)
        with open_bank(self.path) as log:
            self.assertEqual([number_in(log, obj) for obj in range(6)], [100, 99, 101, 1, 0, 0])
            self.assertEqual(log.guardian.first_entry, entries)

    def test_a_checkpoint_that_fails_at_once(self) -> None:
        with open_bank(self.path) as log:
            carry_out(log, 0, 1)
            for status, error in (Status.NO_MEMORY, OutOfMemory), (Status.FULL, Full):
                with mock.patch.object(Archive, "fold", return_value=status), self.assertRaises(error):
                    log.checkpoint(patience=float("inf"))
            with mock.patch.object(log.guardian, "_abort_dropped", side_effect=KeyboardInterrupt):
                with self.assertRaises(KeyboardInterrupt):
                    log.checkpoint()
            self.assertIsNone(log.broken())
            log.checkpoint()
            entries = log.guardian.entries
        with open_bank(self.path) as log:
            self.assertEqual((log.guardian.first_entry, number_in(log, 3)), (entries, 1))

    def test_topactions_go_on_where_the_end_of_a_checkpoint_is_interrupted(self) -> None:
        interrupt = self.interrupts()
        with open_bank(self.path) as log:
            has_mutex = threading.Event()

            def hold() -> None:
                with log.guardian._lock:
                    has_mutex.set()
                    # Meanwhile the checkpoint ends, and wants the mutex.
                    time.sleep(0.1)
                    interrupt()
                    time.sleep(0.1)

            thread = threading.Thread(target=hold)

            def fold() -> int:
                thread.start()
                has_mutex.wait()
                return Status.DONE

            with mock.patch.object(log._writer, "checkpoint", fold), self.assertRaises(KeyboardInterrupt):
                log.checkpoint()
            thread.join()
            self.assertEqual(log.guardian._folds, {})
            carry_out(log, 0, 1)

    def test_a_journal_that_is_folded_and_cant_be_listed(self) -> None:
        told = Archive.told

        def without_listing(archive: Archive, question: int, *given: int, **named: int) -> Any:
            if question == Question.LIST_JOURNAL:
                raise MemoryError
            return told(archive, question, *given, **named)

        with open_bank(self.path) as log:
            carry_out(log, 0, 1)
            with mock.patch.object(Archive, "told", without_listing), self.assertRaises(LogBroken) as caught:
                log.checkpoint()
            self.assertIsInstance(caught.exception.__cause__, MemoryError)
            with self.assertRaises(LogBroken):
                carry_out(log, 0, 2)
        with open_bank(self.path) as log:
            self.assertEqual(number_in(log, 3), 1)

    def test_lines_that_cant_be_given(self) -> None:
        with open_bank(self.path) as log:
            with mock.patch.object(log.guardian, "_text_of", side_effect=MemoryError):
                with self.assertRaises(InDoubt) as caught:
                    carry_out(log, 0, 1)
            self.assertIsInstance(caught.exception.__cause__, MemoryError)
            with self.assertRaises(LogBroken):
                carry_out(log, 0, 2)
        with open_bank(self.path) as log:
            self.assertEqual(number_in(log, 3), 0)

    def test_the_guardian_is_folded_by_the_log_alone(self) -> None:
        with open_bank(self.path) as log:
            for fold in log.guardian.checkpoint, log.guardian.renew:
                with self.assertRaisesRegex(TypeError, "call the log's checkpoint"):
                    fold()
            carry_out(log, 0, 1)
            log.guardian.MAX_ACTIONS = 2
            log.checkpoint()
            self.assertEqual(log.guardian.actions, 0)
        with open_bank(self.path) as log:
            self.assertEqual(number_in(log, 3), 1)

    def test_nothing_is_left_of_what_nobody_has(self) -> None:
        with open_bank(self.path) as log:
            block = log.topaction()
            top = block.__enter__()
            top.lock(0)
            # Whoever drops it may be in a call.
            with log.guardian._lock:
                del block, top
                gc.collect()
            carry_out(log, 0, 1)
            self.assertIsNone(log.guardian.live())

    def test_nothing_is_left_of_what_raises(self) -> None:
        with open_bank(self.path) as log, self.assertRaises(KeyError):
            with log.topaction() as top:
                top.set_field(0, 0, 7)
                raise KeyError
        with open_bank(self.path) as log:
            self.assertEqual(number_in(log, 0), 100)

    def open_while(self, name: str, outcome: Any) -> None:
        """Opens the log while a call of the archive does this, and closes it."""
        with mock.patch.object(Archive, name, side_effect=outcome):
            Log(self.path).close()

    def test_an_opening_that_ends_early(self) -> None:
        with open_bank(self.path) as log:
            carry_out(log, 0, 1)
        no_memory = Status.NO_MEMORY
        faults: list[tuple[str, Any, type[BaseException]]] = [
            ("take", KeyboardInterrupt, KeyboardInterrupt),
            ("take", [(no_memory, 0, 0)], OutOfMemory),
            ("resumed", [(no_memory, 0)], OutOfMemory),
            ("abort_live", [no_memory], OutOfMemory),
        ]
        for name, outcome, error in faults:
            with self.subTest(name, error=error), self.assertRaises(error):
                self.open_while(name, outcome)
        with open_bank(self.path) as log:
            self.assertEqual(number_in(log, 3), 1)

    def test_lines_that_werent_taken(self) -> None:
        with open_bank(self.path):
            pass
        with self.assertRaisesRegex(LogError, "not all lines were taken"):
            self.open_while("take", lambda _: (Status.DONE, 0, 0))
        with open_bank(self.path) as log:
            self.assertEqual(number_in(log, 0), 100)

    def interrupts(self) -> Callable[[], None]:
        """What interrupts once, as Ctrl-C does, which the shell may have switched off."""
        numbers = [signal.SIGUSR1]

        def interrupted(*_: object) -> None:
            raise KeyboardInterrupt

        def interrupt() -> None:
            while numbers:
                os.kill(os.getpid(), numbers.pop())

        self.addCleanup(signal.signal, signal.SIGUSR1, signal.signal(signal.SIGUSR1, interrupted))
        return interrupt

    def test_an_interrupt_during_a_wait(self) -> None:
        interrupt = self.interrupts()
        with open_bank(self.path) as log:
            lines = log.guardian._text_of

            def lines_interrupted(entry: int, size: int) -> tuple[bytes, int]:
                interrupt()
                return lines(entry, size)

            with mock.patch.object(log.guardian, "_text_of", lines_interrupted), self.assertRaises(KeyboardInterrupt):
                carry_out(log, 0, 1)
            # It ended the wait alone.
            log.barrier()
            carry_out(log, 0, 2)
        with open_bank(self.path) as log:
            self.assertEqual([number_in(log, obj) for obj in range(6)], [101, 99, 100, 2, 0, 0])

    def test_an_interrupt_during_an_opening(self) -> None:
        interrupt = self.interrupts()
        with open_bank(self.path) as log:
            carry_out(log, 0, 1)
        take = Archive.take

        def take_interrupted(archive: Archive, text: bytes) -> tuple[int, int, int]:
            interrupt()
            return take(archive, text)

        with mock.patch.object(Archive, "take", take_interrupted), self.assertRaises(KeyboardInterrupt):
            Log(self.path)
        with open_bank(self.path) as log:
            self.assertEqual(number_in(log, 3), 1)

    @unittest.skipUnless((HOST / "durable_shop.py").is_file(), "the tests alone are here")
    def test_the_shop_of_the_page(self) -> None:
        shop = HOST / "durable_shop.py"
        self.assertLessEqual(len(shop.read_text().splitlines()), 25)
        for order, said in ("ann 3 4", "sold\n"), ("bob 5 4", "taken\n"), ("bob 5", "sold\n"):
            words = [sys.executable, str(shop), self.path, *order.split(" ")]
            self.assertEqual(subprocess.run(words, capture_output=True, text=True, check=True).stdout, said)
        with Log.open(self.path) as log:
            seats = [log.guardian.object(f"seat {it}") for it in range(3, 7)]
            self.assertEqual([log.guardian.get(seat).holder for seat in seats], ["ann", "ann", "bob", ""])


if __name__ == "__main__":
    unittest.main()
