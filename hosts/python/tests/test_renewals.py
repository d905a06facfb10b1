"""Tests of lines of the journal, of what is told of actions and shapes, and of a guardian that begins anew."""

import unittest

from argus_guardian import Busy, Closed, Guardian, NotThere, Over


class Told(unittest.TestCase):
    """What is told of the journal, of shapes and of actions."""

    def setUp(self):
        self.guardian = Guardian()
        self.addCleanup(self.guardian.close)

    def test_lines(self):
        with self.guardian.topaction():
            pass
        wanted = ["0 begin_top -> a0", "1 commit a0 -> done"]
        self.assertEqual(self.guardian.lines(0), wanted)
        self.assertEqual(self.guardian.lines(1), wanted[1:])
        self.assertEqual(self.guardian.lines(2), [])
        # 18 and 20 bytes with their line feeds; one comes, however long it is.
        for size, count in (0, 1), (18, 1), (37, 1), (38, 2):
            self.assertEqual(self.guardian.lines(0, size), wanted[:count])
        with self.assertRaises(NotThere):
            self.guardian.lines(3)
        self.guardian.checkpoint()
        self.assertEqual(self.guardian.first_entry, 2)
        with self.assertRaises(NotThere):
            self.guardian.lines(1)

    def test_a_line_with_other_ends_of_lines_in_it_is_one(self):
        text = self.guardian.declare("atomic_record[t:text]")
        with self.guardian.topaction() as top:
            top.create(text, ("a\r\u2028\n",))
        self.assertEqual(self.guardian.lines(2)[0], '2 alter a0 o0 create {"a\r\u2028\\n"} -> done')

    def test_shapes(self):
        record = self.guardian.declare("atomic_record[n:int,t:text]")
        self.assertEqual(self.guardian.shape(record), "atomic_record[n:int,t:text]")
        with self.assertRaises(NotThere):
            self.guardian.shape(record + 1)

    def test_what_has_become_of_actions(self):
        first, second = self.guardian.topaction(), self.guardian.topaction()
        self.assertEqual(self.guardian.status(first.number), "live")
        first.commit()
        self.assertEqual(self.guardian.status(first.number), "committed")
        self.assertEqual(self.guardian.live(), second.number)
        second.abort()
        self.assertEqual(self.guardian.status(second.number), "aborted")
        self.assertIsNone(self.guardian.live())
        self.assertIsNone(self.guardian.status(2))
        self.guardian.checkpoint()
        self.assertEqual(self.guardian.status(second.number), "folded")


class Renewals(unittest.TestCase):
    """A guardian that begins anew with the numbers of its actions."""

    def setUp(self):
        self.guardian = Guardian(patience=0)
        self.addCleanup(self.guardian.close)
        self.record = self.guardian.declare("atomic_record[n:int]")
        with self.guardian.topaction() as top:
            top.create(self.record, (5,))

    def test_objects_and_entries_go_on(self):
        with self.guardian.topaction():
            with self.assertRaises(Busy):
                self.guardian.renew()
        self.guardian.renew()
        self.assertEqual(self.guardian.base(self.record), (5,))
        self.assertEqual(self.guardian.shape(self.record), "atomic_record[n:int]")
        self.assertEqual((self.guardian.actions, self.guardian.entries), (0, 6))
        self.assertEqual(self.guardian.actions_left, 1_000_000)
        with self.guardian.topaction() as top:
            self.assertEqual(top.number, 0)
        self.assertEqual(self.guardian.lines(6), ["6 begin_top -> a0", "7 commit a0 -> done"])

    def test_what_was_begun_before_is_over(self):
        top = self.guardian.topaction()
        sub = top.subaction()
        self.guardian.abort_live()
        self.guardian.renew()
        # Others have these numbers now.
        others = [self.guardian.topaction() for _ in range(sub.number + 1)]
        for do in sub.commit, sub.abort, sub.subaction, lambda: sub.lock(self.record):
            with self.assertRaises(Over):
                do()
        with self.assertRaises(Over):
            top.test_write(self.record)
        del top, sub
        self.assertEqual(self.guardian.live(), 0)
        others[-1].lock(self.record)
        for other in others:
            self.assertEqual(self.guardian.status(other.number), "live")
            other.commit()

    def test_what_was_begun_before_is_over_where_the_renewal_is_interrupted(self):
        top, renew = self.guardian.topaction(), self.guardian._archive.renew
        self.guardian.abort_live()

        def interrupted_after():
            self.guardian._archive.renew = renew
            renew()
            raise KeyboardInterrupt

        self.guardian._archive.renew = interrupted_after
        with self.assertRaises(KeyboardInterrupt):
            self.guardian.renew()
        others = [self.guardian.topaction() for _ in range(top.number + 1)]
        with self.assertRaises(Over):
            top.commit()
        del top
        self.assertEqual([self.guardian.status(other.number) for other in others], ["live", "live"])

    def test_a_renewal_that_fails_changes_nothing(self):
        top = self.guardian.topaction()
        with self.assertRaises(Busy):
            self.guardian.renew()
        top.set_field(self.record, 0, 7)
        top.commit()
        self.guardian.close()
        with self.assertRaises(Closed):
            self.guardian.renew()

    def test_a_checkpoint_renews_once_half_of_the_numbers_are_gone(self):
        self.guardian.MAX_ACTIONS = 6
        for left in 4, 3:
            self.guardian.checkpoint()
            with self.guardian.topaction():
                pass
            self.assertEqual(self.guardian.actions_left, left)
        self.guardian.checkpoint()
        self.assertEqual(self.guardian.actions_left, 6)
        self.assertEqual(self.guardian.base(self.record), (5,))


if __name__ == "__main__":
    unittest.main()
