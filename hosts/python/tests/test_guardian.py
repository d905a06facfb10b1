"""What the package makes of the library: each call once, and what it raises."""

import ctypes
import random
import sys
import threading
import time
import unittest
from concurrent.futures import ThreadPoolExecutor
from pathlib import Path
from unittest import mock

sys.path.insert(0, str(Path(__file__).resolve().parents[1]))

import argus_guardian as argus  # noqa: E402
from argus_guardian import Array, Choice, Ref  # noqa: E402
from argus_guardian.library import _call  # noqa: E402


class Texts(unittest.TestCase):
    """Written forms."""

    # A value and its written form, as docs/LANGUAGE.md has them.
    ROWS = (
        (-5, "-5"),
        ('a"b', '"a\\"b"'),
        ("\\\n", '"\\\\\\n"'),
        ([], "[]"),
        ((1, True), "{1,true}"),
        (Choice(1, "no"), '<1:"no">'),
        ([1, (None, Choice(0, "a\n")), Ref(3)], '[1,{null,<0:"a\\n">},@3]'),
    )

    def test_values(self):
        for value, text in self.ROWS:
            self.assertEqual(argus.write_value(value), text)
            self.assertEqual(argus.read_value(text), value)

    def test_true_is_no_integer(self):
        self.assertIs(argus.read_value("true"), True)
        self.assertEqual(argus.write_value(True), "true")

    def test_contents(self):
        for content, text in (((5,), "{5}"), (Array(1, []), "1[]"), (Choice(0, 5), "<0:5>")):
            self.assertEqual(argus.write_content(content), text)
            self.assertEqual(argus.read_content(text), content)
        self.assertIsNone(argus.read_content("absent"))

    def test_values_that_are_read_at_once_are_as_others(self):
        for value in (
            [0, -1, 10**17, 10**18 - 1, 10**18, 2**63 - 1, -(2**63)],
            [1, 'a,"b"', "c,d]", "}", ""],
            (1, True, None, False, "x", [], (), [1, [2, 3], 4]),
            [[[[1, 2], 3], "a"], "b"],
            list(range(10_000)),
        ):
            self.assertEqual(argus.read_value(argus.write_value(value)), value)
        deep = "[" * 15 + "1,2" + "]" * 15
        self.assertEqual(argus.write_value(argus.read_value(deep)), deep)

    def test_what_is_none(self):
        bad = ("[1,2", 4), ("[1,2}", 4), ("{1,2]", 4), ("[1,02]", 4), ("[1,,2]", 3), ("[1, 2]", 3), ("[1,2,]", 5)
        bad += (("[" * 16 + "1,2" + "]" * 16, 16), ("[1,9999999999999999999]", 21), ("[1_0]", 2), ("[１]", 1))
        for text, at in bad:
            with self.assertRaises(argus.BadText) as raised:
                argus.read_value(text)
            self.assertEqual((text, raised.exception.at), (text, at))
        for text, at in (("", 0), (" 1", 0), ("1 ", 1), ("007", 1), ("[1,]", 3), ("[" * 17 + "]" * 17, 16)):
            with self.assertRaises(argus.BadText) as raised:
                argus.read_value(text)
            self.assertEqual(raised.exception.at, at)
        with self.assertRaises(TypeError):
            argus.write_value(1.5)
        with self.assertRaises(TypeError):
            argus.write_content(5)


class Calls(unittest.TestCase):
    """Calls on a guardian of a record and an array."""

    def setUp(self):
        self.guardian = argus.Guardian(patience=0.01)
        self.addCleanup(self.guardian.close)
        self.record = self.guardian.declare("atomic_record[n:int,t:text]")
        self.array = self.guardian.declare("atomic_array[int]")
        with self.guardian.topaction() as top:
            top.create(self.record, (5, "a"))
            top.create(self.array, Array(1, [10, 20, 30]))

    def test_a_block_commits(self):
        with self.guardian.topaction() as top:
            top.set_field(self.record, 0, 7)
        self.assertEqual(self.guardian.base(self.record), (7, "a"))

    def test_an_exception_aborts(self):
        with self.assertRaises(KeyError), self.guardian.topaction() as top:
            top.set_field(self.record, 0, 7)
            raise KeyError
        self.assertEqual(self.guardian.base(self.record), (5, "a"))

    def test_a_subaction_aborts_alone(self):
        with self.guardian.topaction() as top:
            with top.subaction() as sub:
                sub.set_field(self.record, 0, 6)
            sub = top.subaction()
            sub.set_field(self.record, 0, 9)
            self.assertEqual(self.guardian.versions(self.record), [(1, (6, "a")), (3, (9, "a"))])
            sub.abort()
            self.assertEqual(top.field(self.record, 0), 6)
        self.assertEqual(self.guardian.base(self.record), (6, "a"))

    def test_a_nested_topaction_counts_for_itself(self):
        with self.assertRaises(KeyError), self.guardian.topaction() as top:
            top.touch(self.record)
            with top.nested() as nested:
                with self.assertRaises(argus.Conflict):
                    nested.field(self.record, 0)
                nested.addh(self.array, 40)
            raise KeyError
        self.assertEqual(self.guardian.base(self.array), Array(1, [10, 20, 30, 40]))

    def test_queries_and_changes_of_arrays(self):
        with self.guardian.topaction() as top:
            self.assertEqual((top.low(self.array), top.high(self.array), top.size(self.array)), (1, 3, 3))
            self.assertEqual((top.first(self.array), top.fetch(self.array, 2), top.last(self.array)), (10, 20, 30))
            top.store(self.array, 2, 21)
            top.addl(self.array, 0)
            top.addh(self.array, 40)
            self.assertEqual(top.whole(self.array), Array(0, [0, 10, 21, 30, 40]))
            self.assertEqual((top.remh(self.array), top.reml(self.array)), (40, 0))
            top.set_low(self.array, 5)
            top.trim(self.array, 6, 1)
            self.assertEqual(top.whole(self.array), Array(6, [21]))

    def test_variants(self):
        variant = self.guardian.declare("atomic_variant[ok:int,bad:text]")
        with self.guardian.topaction() as top:
            top.create(variant, Choice(0, 5))
            self.assertTrue(top.is_tag(variant, 0))
            with self.assertRaises(argus.WrongTag):
                top.tag_value(variant, 1)
            top.change_tag(variant, 1, "no")
            self.assertEqual(top.tag_value(variant, 1), "no")

    def test_signals_leave_the_action_going(self):
        with self.guardian.topaction() as top:
            with self.assertRaises(argus.Bounds):
                top.fetch(self.array, 4)
            with self.assertRaises(argus.Exists):
                top.create(self.array, Array(1, []))
            with self.assertRaises(argus.NegativeSize):
                top.trim(self.array, 1, -1)
            with self.assertRaises(argus.Limits):
                top.set_low(self.array, 2**31)
        self.assertEqual(self.guardian.base(self.array), Array(1, [10, 20, 30]))

    def test_refusals(self):
        top = self.guardian.topaction()
        with self.assertRaises(argus.NoObject):
            top.touch(9)
        with self.assertRaises(argus.IllTyped):
            top.set_field(self.record, 0, "text")
        sub = top.subaction()
        with self.assertRaises(argus.Suspended):
            top.touch(self.record)
        with self.assertRaises(argus.NoSiblings):
            self.guardian.topaction().abort_others()
        top.abort()
        with self.assertRaises(argus.Over):
            sub.commit()
        with self.assertRaises(argus.NoAction):
            argus.Action(self.guardian, 99).commit()

    def test_siblings_are_ended(self):
        with self.guardian.topaction() as top:
            with top.subaction() as first:
                second = top.subaction()
                first.abort_others()
                with self.assertRaises(argus.Over):
                    second.touch(self.record)

    def test_locks_are_tested(self):
        with self.guardian.topaction() as first, self.guardian.topaction() as second:
            self.assertTrue(first.test_read(self.record))
            self.assertTrue(second.test_read(self.record))
            self.assertFalse(second.test_write(self.record))
            self.assertEqual(self.guardian.readers(self.record), [first.number, second.number])

    def test_bad_texts(self):
        with self.assertRaises(argus.BadShape):
            self.guardian.declare("atomic_record[]")
        with self.guardian.topaction() as top:
            before = self.guardian.entries
            with self.assertRaises(argus.BadText):
                top.create(self.record, ([[[[[[[[[[[[[[[[[1]]]]]]]]]]]]]]]]],))
            self.assertEqual(self.guardian.entries, before)

    def test_numbers_that_are_too_large(self):
        with self.guardian.topaction() as top:
            before, guardian = self.guardian.entries, self.guardian
            for wrong in (
                lambda: top.whole(2**32),
                lambda: top.whole(-1),
                lambda: top.set_field(self.record, 2**64, 99),
                lambda: top.set_field(self.record, 0, 2**63),
                lambda: top.set_field(self.record, 0, -(2**63) - 1),
                lambda: top.store(self.array, 2**64 + 1, 99),
                lambda: top.trim(self.array, 1, 2**64),
                lambda: top.set_low(self.array, 2**63),
                lambda: top.fetch(self.array, 2**64 + 1),
                lambda: top.addh(self.array, Ref(2**32)),
                lambda: top.addh(self.array, Choice(256, 1)),
                lambda: top.create(self.array, Array(2**63, [])),
                lambda: top.test_read(2**32),
                lambda: argus.Action(guardian, 2**32 + top.number).commit(),
                lambda: guardian.base(2**32),
                lambda: guardian.readers(2**32),
                lambda: guardian.versions(-1),
                lambda: guardian.entry(2**64),
                lambda: guardian.entry(-1),
                lambda: guardian.call(2**32 + 1),
                lambda: guardian.access(2**32 + argus.Kind.SET_FIELD, top.number, self.record, text="7"),
                lambda: guardian.access(argus.Kind.SET_FIELD, 2**32 + top.number, self.record, text="7"),
                lambda: guardian.access(argus.Kind.SET_FIELD, -1, self.record, text="7"),
            ):
                with self.assertRaises(OverflowError):
                    wrong()
            self.assertEqual(guardian.entries, before)
        self.assertEqual(guardian.base(self.record), (5, "a"))

    @unittest.skipIf(_call is not None, "_call.c has a buffer for each reply")
    def test_no_memory_for_a_result(self):
        with self.guardian.topaction() as top:
            top.set_field(self.record, 1, 300 * "a")
            before = self.guardian.entries
            with mock.patch.object(ctypes, "create_string_buffer", side_effect=MemoryError):
                with self.assertRaises(argus.OutOfMemory):
                    top.whole(self.record)
            # The call was made.
            self.assertEqual(self.guardian.entries, before + 1)
            self.assertEqual(top.field(self.record, 1), 300 * "a")

    def test_what_is_no_number(self):
        with self.guardian.topaction() as top:
            before = self.guardian.entries
            for wrong in (lambda: top.whole("0"), lambda: top.fetch(self.array, 1.0), lambda: top.whole(None)):
                with self.assertRaises(TypeError):
                    wrong()
            self.assertEqual(self.guardian.entries, before)

    def test_listings_and_entries(self):
        self.assertEqual(self.guardian.list("bases"), 'o0 {5,"a"}\no1 1[10,20,30]\n')
        self.assertEqual(self.guardian.entry(2), "2 begin_top -> a0")
        with self.assertRaises(argus.NotThere):
            self.guardian.entry(99)
        with self.assertRaises(argus.NotThere):
            self.guardian.base(9)
        self.assertEqual((self.guardian.objects, self.guardian.actions, self.guardian.entries), (2, 1, 6))

    def test_long_texts(self):
        long = "x" * 10_000
        with self.guardian.topaction() as top:
            top.set_field(self.record, 1, long)
            self.assertEqual(top.field(self.record, 1), long)

    def test_checkpoints(self):
        with self.guardian.topaction():
            with self.assertRaises(argus.Busy):
                self.guardian.checkpoint()
        self.guardian.checkpoint()
        self.assertEqual(self.guardian.entries, 8)
        self.assertEqual(self.guardian.base(self.record), (5, "a"))
        with self.assertRaises(argus.NotThere):
            self.guardian.entry(0)

    def test_a_closed_guardian(self):
        self.guardian.close()
        with self.assertRaises(argus.Closed):
            self.guardian.declare("atomic_array[int]")
        self.guardian.close()


class Waits(unittest.TestCase):
    """Accesses that wait for another thread."""

    def test_a_commit_wakes(self):
        with argus.Guardian(patience=30) as guardian:
            array = guardian.declare("atomic_array[int]")
            first, second = guardian.topaction(), guardian.topaction()
            first.create(array, Array(1, [1]))
            seen = []
            thread = threading.Thread(target=lambda: seen.append(second.whole(array)))
            thread.start()
            first.commit()
            thread.join()
            self.assertEqual(seen, [Array(1, [1])])

    def test_an_abort_of_the_waiter_wakes(self):
        with argus.Guardian(patience=30) as guardian:
            array = guardian.declare("atomic_array[int]")
            holder, other = guardian.topaction(), guardian.topaction()
            holder.touch(array)
            waiter, raised = other.subaction(), []

            def wait():
                try:
                    waiter.touch(array)
                except argus.Over as error:
                    raised.append(error)

            thread = threading.Thread(target=wait)
            thread.start()
            other.abort()
            thread.join()
            self.assertEqual(len(raised), 1)

    def test_ends_of_others_make_no_entries_of_who_waits(self):
        with argus.Guardian(patience=60) as guardian:
            seat = created(guardian, "atomic_record[n:int]", (5,))
            holder, waiter = guardian.topaction(), guardian.topaction()
            holder.touch(seat)
            thread = threading.Thread(target=lambda: waiter.touch(seat))
            thread.start()
            wait_for(lambda: guardian._waiting)
            before = guardian.entries
            for _ in range(20):
                guardian.topaction().abort()
                guardian.topaction().commit()
            # It is woken meanwhile, and looks.
            time.sleep(0.1)
            self.assertEqual(guardian.entries, before + 80)
            holder.commit()
            thread.join()
            self.assertEqual(guardian.entries, before + 82)

    def test_of_two_that_read_and_write_the_second_is_refused_at_once(self):
        with argus.Guardian(patience=60) as guardian:
            seat = created(guardian, "atomic_record[n:int]", (5,))
            first, second = guardian.topaction(), guardian.topaction()
            first.field(seat, 0)
            # By a subaction it is the same: its parent keeps the read lock.
            second.field(seat, 0)
            thread = threading.Thread(target=lambda: first.set_field(seat, 0, 6))
            thread.start()
            wait_for(lambda: guardian._waiting)
            begin, sub = time.monotonic(), second.subaction()
            text = "a3 wants to write o0, held by a1: a3 waits for a1, which waits for a3"
            with self.assertRaisesRegex(argus.Conflict, text):
                sub.set_field(seat, 0, 7)
            self.assertLess(time.monotonic() - begin, 30)
            second.abort()
            thread.join()
            first.commit()
            self.assertEqual(guardian.base(seat), (6,))

    def test_who_hasnt_read_waits_behind_who_wants_to_write(self):
        with argus.Guardian(patience=60) as guardian:
            seat = created(guardian, "atomic_record[n:int]", (5,))
            reader, first, second = (guardian.topaction() for _ in range(3))
            reader.field(seat, 0)
            first.field(seat, 0)
            with ThreadPoolExecutor(2) as pool:
                one = pool.submit(lambda: (first.set_field(seat, 0, 6), first.commit()))
                wait_for(lambda: guardian._waiting)
                two = pool.submit(lambda: (second.set_field(seat, 0, 7), second.commit()))
                wait_for(lambda: len(guardian._waiting) == 2)
                reader.commit()
                one.result(), two.result()
            self.assertEqual(guardian.base(seat), (7,))
            self.assertEqual(guardian._waits.within, {})

    def test_siblings_dont_wait_for_what_their_parent_reads(self):
        with argus.Guardian(patience=60) as guardian:
            seat = created(guardian, "atomic_record[n:int]", (5,))
            top, reader = guardian.topaction(), guardian.topaction()
            top.field(seat, 0)
            reader.field(seat, 0)
            arms = top.subaction(), top.subaction()
            with ThreadPoolExecutor(2) as pool:
                work = [pool.submit(lambda arm=arm: (arm.set_field(seat, 0, 6), arm.commit())) for arm in arms]
                wait_for(lambda: len(guardian._waiting) == 2)
                reader.commit()
                for it in work:
                    it.result()
            top.commit()

    def test_a_shop_that_reads_and_then_sets(self):
        sold = shop(lambda top, seat: top.field(seat, 0), threads=8, seats=4, orders=4)
        # Two that waited for each other would do so as long as their patience lasts.
        self.assertLess(sold, 60)

    def test_a_shop_that_locks_before_it_reads_is_never_refused(self):
        def look(top, seat):
            top.lock(seat)
            return top.field(seat, 0)

        shop(look, threads=8, seats=4, orders=4, tries=1)


def created(guardian, shape, content):
    """An object of this content."""
    obj = guardian.declare(shape)
    with guardian.topaction() as top:
        top.create(obj, content)
    return obj


def wait_for(fact, seconds=30):
    """Waits until it is so."""
    limit = time.monotonic() + seconds
    while not fact():
        if time.monotonic() >= limit:
            raise AssertionError("it never came to be")
        time.sleep(0.001)


def shop(look, threads, seats, orders, tries=1000):
    """Threads sell seats, each the one with its order's number; the seconds that it takes."""
    with argus.Guardian(patience=60) as guardian:
        all_seats = [created(guardian, "atomic_record[sold:int]", (0,)) for _ in range(seats)]

        def sell(order):
            seat = all_seats[order % seats]
            for _ in range(tries):
                try:
                    with guardian.topaction() as top:
                        sold = look(top, seat)
                        time.sleep(0.0005)
                        top.set_field(seat, 0, sold + 1)
                        return
                except argus.Conflict:
                    time.sleep(random.random() / 1000)
            raise AssertionError("refused too often")

        begin = time.monotonic()
        with ThreadPoolExecutor(threads) as pool:
            for it in [pool.submit(sell, order) for order in range(threads * orders)]:
                it.result()
        seconds = time.monotonic() - begin
        assert sum(guardian.base(seat)[0] for seat in all_seats) == threads * orders
        return seconds


if __name__ == "__main__":
    unittest.main()
