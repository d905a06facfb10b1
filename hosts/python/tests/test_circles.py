"""Actions that wait for one another in a circle: the youngest is refused at once, and the others go on."""

import itertools
import pickle
import random
import sys
import time
import unittest
from pathlib import Path

sys.path.insert(0, str(Path(__file__).resolve().parents[1]))

from threads_that_wait import PATIENCE, Circle  # noqa: E402

import argus_guardian as argus  # noqa: E402
from argus_guardian import Kind, Listed  # noqa: E402
from argus_guardian.circles import Search, Wait  # noqa: E402


class Rings(Circle):
    """Each topaction has locked the record of its place, and wants that of the next one."""

    def ring(self, order):
        """The threads, by their places. They ask in this order."""
        tops = self.tops(len(order))
        for place, top in enumerate(tops):
            top.lock(self.records[place])
        threads = {place: self.lock(tops[place], (place + 1) % len(order)) for place in order}
        return [threads[place] for place in range(len(order))]

    def test_of_two_the_younger_is_refused_whoever_comes_last(self):
        for order, number in (((0, 1), 1), ((1, 0), 3)):
            older, younger = self.ring(order)
            old, young = f"a{number}", f"a{number + 1}"
            text = f"{young} wants to write o0, held by {old}: {young} waits for {old}, which waits for {young}"
            self.assert_refused(younger, text, (number,))
            self.assert_go_on(older)

    def test_of_three_the_youngest_is_refused_whoever_comes_last(self):
        for count, order in enumerate(itertools.permutations(range(3))):
            first, second, third = (f"a{3 * count + it}" for it in (1, 2, 3))
            oldest, other, youngest = self.ring(order)
            text = f"{third} wants to write o0, held by {first}: "
            text += f"{third} waits for {first}, which waits for {second}, which waits for {third}"
            self.assert_refused(youngest, text, (3 * count + 1, 3 * count + 2))
            self.assert_go_on(oldest, other)

    def test_of_twelve_the_youngest_is_refused(self):
        threads = self.ring((5, 11, 0, 7, 2, 9, 4, 1, 6, 3, 8, 10))
        error = threads[11].exception(self.SECONDS)
        self.assertEqual(error.waits_for, tuple(range(1, 12)))
        self.assert_go_on(*threads[:11])

    def test_the_refusal_is_the_guardians(self):
        older, younger = self.tops(2)
        older.lock(self.records[0])
        younger.lock(self.records[1])
        first = self.waits(older.lock, self.records[1])
        with self.assertRaises(argus.Conflict):
            younger.lock(self.records[0])
        # It was refused, found the circle, and was made once more.
        lines = self.guardian.lines(self.guardian.entries - 2)
        self.assertEqual([line.split(" ", 1)[1] for line in lines], 2 * ["alter a2 o0 touch -> refused Conflict"])
        # It may go on with something else; the older one waits until it ends.
        younger.set_field(self.records[2], 0, 7)
        younger.commit()
        self.assert_go_on(first)
        older.commit()
        self.assertEqual(self.guardian.base(self.records[2]), (7,))


class Chains(Circle):
    """Who waits for somebody that goes on is never refused."""

    def test_who_waits_in_a_chain(self):
        holder, *tops = self.tops(6)
        holder.lock(self.records[0])
        for place, top in enumerate(tops, 1):
            top.lock(self.records[place])
        threads = [self.lock(top, place) for place, top in enumerate(tops)]
        # Two more wait for what others wait for, too, and one of them only reads.
        last, reader = self.tops(2)
        threads += [self.lock(last, 0), self.read(reader, 3)]
        time.sleep(0.1)
        entries = self.guardian.entries
        holder.commit()
        self.assert_go_on(*threads)
        # After the holder's commit each locks and commits, and nobody was refused meanwhile.
        self.assertEqual(self.guardian.entries, entries + 1 + 2 * len(threads))

    def test_whose_action_is_over(self):
        older, younger = self.tops(2)
        first, second = older.subaction(), older.subaction()
        younger.lock(self.records[1])
        second.lock(self.records[2])
        within, beside = self.lock(first, 1), self.lock(younger, 2)
        with self.guardian._lock:
            for kind in (Kind.ABORT_OTHERS, Kind.COMMIT):
                self.guardian._archive.make(kind, second._number)
            # The older one has the record now, and the thread of its subaction hasn't looked yet.
            self.guardian._break_circles_within(older._number)
        self.assertIsInstance(within.exception(self.SECONDS), argus.Over)
        older.commit()
        self.assert_go_on(beside)

    def test_whose_lock_is_free(self):
        older, younger, third = self.tops(3)
        third.lock(self.records[0])
        younger.lock(self.records[1])
        beside = self.read(younger, 0)
        with self.guardian._lock:
            make, waits = self.guardian._archive.make, self.guardian._waits
            make(Kind.COMMIT, third._number)
            make(Kind.FIELD, older._number, self.records[0])
            # The thread of the younger one hasn't looked yet.
            wait = Wait((Kind.TOUCH, older._number, self.records[1]), older._lineage(), 0)
            waits.join(wait)
            with wait.lasts:
                self.assertEqual(Search(waits, self.guardian._archive, 0).circle_with(wait), [])
            waits.leave(wait)
        self.assert_go_on(beside)
        older.commit()

    def test_whose_patience_is_over(self):
        self.guardian.patience = 0.01
        older, younger = self.tops(2)
        older.lock(self.records[0])
        with self.assertRaises(argus.Conflict) as raised:
            younger.lock(self.records[0])
        self.assertEqual((str(raised.exception), raised.exception.waits_for), ("a2 wants to write o0, held by a1", ()))

    def test_what_an_interrupt_has_left_doesnt_wait(self):
        older, younger, third = self.tops(3)
        older.lock(self.records[0])
        younger.lock(self.records[1])
        last = self.lock(third, 1)
        left = Wait((Kind.TOUCH, older._number, self.records[1]), older._lineage(), 0)
        self.guardian._waits.join(left)
        beside = self.lock(younger, 0)
        older.commit()
        self.assert_go_on(beside, last)
        self.guardian._waits.leave(left)


class Families(Circle):
    """Subactions and nested topactions."""

    def test_a_subaction_that_waits_keeps_its_topaction_from_ending(self):
        for number, is_first in ((1, True), (4, False)):
            older, younger = self.tops(2)
            older.lock(self.records[0])
            younger.lock(self.records[1])
            sub = older.subaction()
            within = self.lock(sub, 1) if is_first else None
            beside = self.lock(younger, 0)
            within = within or self.lock(sub, 1)
            # The subaction has the highest number, but it is in the older topaction.
            top, young, low = (f"a{number + it}" for it in range(3))
            text = f"{young} wants to write o0, held by {top}: {young} waits for {low}, which waits for {young}"
            self.assert_refused(beside, text, (number + 2,))
            self.assert_go_on(within)
            older.commit()

    def test_a_subaction_of_the_younger_is_refused(self):
        older, younger = self.tops(2)
        older.lock(self.records[0])
        younger.lock(self.records[1])
        sub = younger.subaction()
        within, beside = self.lock(sub, 0), self.lock(older, 1)
        text = "a3 wants to write o0, held by a1: a3 waits for a1, which waits for a3"
        self.assert_refused(within, text, (1,))
        younger.abort()
        self.assert_go_on(beside)

    def arm_ends(self, end, has_parent_written=False):
        older, younger = self.tops(2)
        if has_parent_written:
            older.lock(self.records[0])
        younger.lock(self.records[1])
        arm, other = older.subaction(), older.subaction()
        arm.lock(self.records[0])
        beside, within = self.lock(younger, 0), self.lock(other, 1)
        time.sleep(0.05)
        self.assertFalse(beside.done() or within.done())
        end(arm)
        del arm
        text = f"a2 wants to write o0, held by a1: a2 waits for a{other.number}, which waits for a2"
        self.assert_refused(beside, text, (other.number,))
        self.assert_go_on(within)
        older.commit()

    def test_an_arm_that_commits_closes_a_circle(self):
        self.arm_ends(lambda arm: arm.commit())

    def test_an_arm_that_aborts_closes_a_circle_with_what_its_parent_has(self):
        self.arm_ends(lambda arm: arm.abort(), has_parent_written=True)

    def test_an_arm_that_is_aborted_by_its_number_does_so(self):
        def end(arm):
            self.guardian.call(Kind.ABORT, arm.number)

        self.arm_ends(end, has_parent_written=True)

    def test_an_arm_that_was_dropped_does_so(self):
        self.arm_ends(lambda arm: None, has_parent_written=True)

    def test_an_arm_whose_commit_was_ready_closes_a_circle(self):
        def end(arm):
            with arm.ready_commit() as ready:
                ready.make()

        self.arm_ends(end)

    def test_an_arm_that_is_committed_by_its_number_closes_a_circle(self):
        self.arm_ends(lambda arm: self.guardian.call(Kind.COMMIT, arm.number))

    def test_an_arm_that_is_committed_in_a_list_closes_a_circle(self):
        self.arm_ends(lambda arm: self.guardian.call_each([Listed(Kind.COMMIT, arm.number)]))

    def test_an_arm_that_aborts_closes_none(self):
        older, younger = self.tops(2)
        younger.lock(self.records[1])
        arm, other = older.subaction(), older.subaction()
        arm.lock(self.records[0])
        beside, within = self.lock(younger, 0), self.lock(other, 1)
        arm.abort()
        self.assert_go_on(beside, within)
        older.commit()

    def test_of_two_arms_the_younger_is_refused(self):
        (top,) = self.tops(1)
        first, second = top.subaction(), top.subaction()
        first.lock(self.records[0])
        second.lock(self.records[1])
        younger, older = self.lock(second, 0), self.lock(first, 1)
        text = "a3 wants to write o0, held by a2: a3 waits for a2, which waits for a3"
        self.assert_refused(younger, text, (2,))
        self.assert_go_on(older)
        top.commit()

    def test_a_nested_topaction_waits_for_no_action_around_it(self):
        (top,) = self.tops(1)
        sub = top.subaction()
        sub.lock(self.records[0])
        deepest = sub.nested().subaction()
        text = "a4 wants to write o0, held by a2: a4 waits for a2, which waits for a4"
        self.assert_refused(self.lock(deepest, 0), text, (2,))

    def test_a_nested_topaction_keeps_those_around_it_from_ending(self):
        older, younger = self.tops(2)
        older.lock(self.records[0])
        younger.lock(self.records[1])
        nested = older.nested()
        beside, within = self.lock(younger, 0), self.read(nested, 1)
        text = "a2 wants to write o0, held by a1: a2 waits for a3, which waits for a2"
        self.assert_refused(beside, text, (3,))
        self.assert_go_on(within)
        older.commit()


class Readers(Circle):
    """Readers are in circles, too."""

    def test_readers(self):
        older, younger = self.tops(2)
        older.field(self.records[0], 0)
        younger.lock(self.records[1])
        writes = self.lock(younger, 0)
        # It gets the lock that the writer waits for, and is waited for from then on.
        (newcomer,) = self.tops(1)
        newcomer.field(self.records[0], 0)
        text = "a3 wants to read o1, held by a2: a3 waits for a2, which waits for a3"
        self.assert_refused(self.read(newcomer, 1), text, (2,))
        reads = self.read(older, 1)
        text = "a2 wants to write o0, held by a1: a2 waits for a1, which waits for a2"
        self.assert_refused(writes, text, (1,))
        self.assert_go_on(reads)

    def test_readers_dont_wait_for_readers(self):
        older, younger = self.tops(2)
        older.field(self.records[0], 0)
        younger.lock(self.records[1])
        reads = self.read(older, 1)
        self.assertEqual(younger.field(self.records[0], 0), 0)
        younger.commit()
        self.assert_go_on(reads)

    def with_arms(self, beside):
        """One arm has written what its parent has read, and another one waits for the younger topaction.

        So nobody is refused while the first arm runs.
        """
        older, younger = self.tops(2)
        older.field(self.records[0], 0)
        younger.lock(self.records[1])
        arm, other = older.subaction(), older.subaction()
        arm.lock(self.records[0])
        within, beside = self.lock(other, 1), beside(younger, 0)
        time.sleep(0.05)
        self.assertFalse(beside.done() or within.done())
        arm.abort()
        self.assertIsNone(within.exception(self.SECONDS))
        older.commit()
        return beside

    def test_a_reader_isnt_kept_out_by_readers(self):
        self.assert_go_on(self.with_arms(self.read))

    def test_a_writer_is_kept_out_by_readers(self):
        text = "a2 wants to write o0, held by a1: a2 waits for a4, which waits for a2"
        self.assert_refused(self.with_arms(self.lock), text, (4,))

    def test_of_two_that_have_read_the_younger_is_refused(self):
        older, younger = self.tops(2)
        older.field(self.records[0], 0)
        younger.field(self.records[0], 0)
        first, second = self.lock(younger, 0), self.lock(older, 0)
        text = "a2 wants to write o0, held by a1: a2 waits for a1, which waits for a2"
        self.assert_refused(first, text, (1,))
        self.assert_go_on(second)

    def test_who_closes_two_circles_refuses_two(self):
        oldest, first, second = self.tops(3)
        oldest.lock(self.records[0])
        first.field(self.records[1], 0)
        second.field(self.records[1], 0)
        threads = self.read(first, 0), self.lock(second, 0)
        last = self.lock(oldest, 1)
        text = "a2 wants to read o0, held by a1: a2 waits for a1, which waits for a2"
        self.assert_refused(threads[0], text, (1,))
        text = "a3 wants to write o0, held by a1: a3 waits for a1, which waits for a3"
        self.assert_refused(threads[1], text, (1,))
        self.assert_go_on(last)


class Others(Circle):
    """Actions of several threads, and those that are known by their number alone."""

    def closed_by(self, get):
        """A lock for an action that waits in another thread closes a circle."""
        older, younger, reader = self.tops(3)
        younger.lock(self.records[1])
        reader.field(self.records[0], 0)
        within = self.waits(older.lock, self.records[1])
        beside = self.lock(younger, 0)
        get(older, self.records[0])
        self.assertEqual(beside.exception(self.SECONDS).waits_for, (1,))
        self.assert_go_on(within)
        older.commit()
        reader.commit()

    def test_a_test_of_another_thread_closes_a_circle(self):
        self.closed_by(lambda action, record: self.assertTrue(action.test_read(record)))

    def test_an_access_of_another_thread_closes_a_circle(self):
        self.closed_by(lambda action, record: action.field(record, 0))

    def test_a_content_is_returned_all_the_same(self):
        self.closed_by(lambda action, record: self.assertEqual(action.whole(record), (0,)))

    def test_a_signal_closes_a_circle(self):
        def get(action, record):
            with self.assertRaises(argus.Exists):
                action.create(record, (1,))

        older, younger = self.tops(2)
        younger.lock(self.records[1])
        within = self.waits(older.lock, self.records[1])
        get(older, self.records[0])
        beside = self.lock(younger, 0)
        self.assertEqual(beside.exception(self.SECONDS).waits_for, (1,))
        self.assert_go_on(within)
        older.commit()

    def test_a_list_closes_a_circle(self):
        def get(action, record):
            made = self.guardian.call_each([Listed(Kind.WHOLE, action.number, obj=record)])
            self.assertEqual(made.answers, [(0,)])

        self.closed_by(get)

    def test_actions_that_are_named_by_number(self):
        numbers = [self.guardian.call(Kind.BEGIN_TOP) for _ in range(2)]
        for number, record in zip(numbers, self.records):
            self.guardian.access(Kind.TOUCH, number, record)
        younger = self.waits(self.guardian.access, Kind.TOUCH, numbers[1], self.records[0])
        older = self.waits(self.guardian.access, Kind.TOUCH, numbers[0], self.records[1])
        self.assertEqual(younger.exception(self.SECONDS).waits_for, (1,))
        self.guardian.call(Kind.ABORT, numbers[1])
        self.assert_go_on(older)
        self.guardian.call(Kind.ABORT, numbers[0])

    def test_who_may_be_an_ancestor_closes_no_circle(self):
        top, reader = self.tops(2)
        top.field(self.records[0], 0)
        reader.field(self.records[0], 0)
        first = top.subaction()
        # By its number alone nobody knows that the topaction's read lock doesn't keep it out.
        second = self.guardian.call(Kind.BEGIN_SUB, top.number)
        self.guardian.access(Kind.TOUCH, second, self.records[1])
        beside = self.lock(first, 1)
        within = self.waits(self.guardian.access, Kind.TOUCH, second, self.records[0])
        time.sleep(0.05)
        reader.commit()
        self.assert_go_on(within)
        self.guardian.call(Kind.COMMIT, second)
        self.assert_go_on(beside)
        top.commit()

    def test_it_survives_pickling(self):
        older, younger = self.tops(2)
        older.lock(self.records[0])
        younger.lock(self.records[1])
        error = self.lock(younger, 0)
        over = self.lock(older, 1)
        error = error.exception(self.SECONDS)
        again = pickle.loads(pickle.dumps(error))
        self.assertEqual((str(again), again.waits_for), (str(error), (1,)))
        self.assert_go_on(over)


class Many(Circle):
    """Orders take some locks in any order."""

    SECONDS = PATIENCE

    def order(self, top, draws):
        for record in draws.sample(self.records[:5], 3):
            how = draws.randrange(5)
            if how == 0:
                top.field(record, 0)
            elif how == 1:
                with top.subaction() as sub:
                    sub.lock(record)
            elif how == 2:
                with top.nested() as nested:
                    nested.field(record, 0)
            else:
                top.set_field(record, 0, top.field(record, 0) + 1)
            time.sleep(0)

    def test_no_circle_is_left_to_patience(self):
        refused = []

        def client(number):
            draws, left = random.Random(number), 40
            while left:
                try:
                    with self.guardian.topaction() as top:
                        self.order(top, draws)
                    left -= 1
                except argus.Conflict as error:
                    self.assertTrue(error.waits_for)
                    refused.append(error)

        interval = sys.getswitchinterval()
        self.addCleanup(sys.setswitchinterval, interval)
        sys.setswitchinterval(1e-5)
        self.assert_go_on(*[self.pool.submit(client, number) for number in range(8)])
        self.assertTrue(refused)
        self.guardian.checkpoint()


if __name__ == "__main__":
    unittest.main()
