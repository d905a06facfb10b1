"""Tests of guardians that are made again from the lines of their journals."""

import io
import unittest

from argus_guardian import BadLine, Guardian, resume

# Two topactions, of which the second one is live.
LINES = [
    "0 declare atomic_record[n:int] -> o0",
    "1 begin_top -> a0",
    "2 alter a0 o0 create {5} -> done",
    "3 commit a0 -> done",
    "4 begin_top -> a1",
    "5 alter a1 o0 set_field 0 7 -> done",
]

# What is in the objects for good, where the second object refers to a third one.
OPENING = [
    "opening entries 4 actions 1",
    "opening o0 atomic_record[n:int] {5}",
    "opening o1 atomic_array[atomic] 1[@2]",
]


class Resumed(unittest.TestCase):
    """Guardians of lines, and lines that are none of a guardian's."""

    def resumed(self, lines):
        guardian = resume(lines)
        self.addCleanup(guardian.close)
        return guardian

    def test_a_guardian_goes_on_where_the_lines_end(self):
        guardian = self.resumed(LINES)
        self.assertEqual(guardian.lines(0), LINES)
        guardian.abort_live()
        self.assertEqual(guardian.base(0), (5,))
        with guardian.topaction() as top:
            self.assertEqual(top.number, 2)
            top.set_field(0, 0, 6)
        self.assertEqual(guardian.base(0), (6,))

    def test_of_no_line(self):
        self.assertEqual(self.resumed([]).entries, 0)

    def test_of_a_listing_with_its_line_feeds(self):
        # A text may have other ends of lines in it.
        with Guardian() as guardian:
            text = guardian.declare("atomic_record[t:text]")
            with guardian.topaction() as top:
                top.create(text, ("a\r\u2028\n",))
            guardian.checkpoint()
            guardian.topaction().commit()
            listing = guardian.list("journal")
        again = self.resumed(io.StringIO(listing, newline="\n"))
        self.assertEqual(again.list("journal"), listing)
        self.assertEqual(again.base(0), ("a\r\u2028\n",))

    def test_of_an_opening(self):
        whole = [*OPENING, "opening o2 atomic_array[int] absent"]
        guardian = self.resumed([*whole, "4 begin_top -> a1"])
        self.assertEqual(guardian.first_entry, 4)
        self.assertEqual(guardian.lines(4), ["4 begin_top -> a1"])
        self.assertEqual(guardian.base(0), (5,))

    def test_of_more_lines_than_are_handed_over_at_once(self):
        with Guardian() as guardian:
            for _ in range(2000):
                guardian.topaction().commit()
            lines = guardian.lines(0, 1 << 20)
        self.assertGreater(sum(map(len, lines)), 1 << 16)
        self.assertEqual(self.resumed(lines).lines(0, 1 << 20), lines)

    def test_each_fault(self):
        begun = "0 begin_top -> a0"
        faults = [
            ([begun, "opening entries 1 actions 0"], 1, "not a line of the opening"),
            ([begun, "1 comit a0 -> done"], 1, "no entry from byte 5 on"),
            ([begun, "1 commit a0 \ud800-> done"], 1, "not UTF-8 from byte 12 on"),
            ([begun, "2 commit a0 -> done"], 1, "not the number of the next entry, 1"),
            ([*OPENING, "4 begin_top -> a1"], 3, "the opening refers to objects that aren't there"),
            ([begun, "1 commit a0 -> refused Over"], 1, "not the reply of the journal before it, done"),
            (OPENING, 3, "the opening refers to objects that didn't come"),
            ([begun, "1 commit a0 -> done\n2 begin_top -> a1"], 1, "a line feed is in it"),
        ]
        for lines, line, reason in faults:
            with self.subTest(reason), self.assertRaises(BadLine) as raised:
                resume(lines)
            self.assertEqual((raised.exception.line, raised.exception.reason), (line, reason))
        self.assertEqual(str(BadLine(3, "none")), "line 3, counted from 0: none")
