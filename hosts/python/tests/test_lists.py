"""Lists of calls, and integers and truth values as answers."""

import sys
import unittest
from pathlib import Path

sys.path.insert(0, str(Path(__file__).resolve().parents[1]))

import argus_guardian as argus  # noqa: E402
from argus_guardian import Kind, Listed  # noqa: E402


class Lists(unittest.TestCase):
    """`Guardian.call_each`."""

    def setUp(self):
        self.guardian = argus.Guardian(patience=0.05)
        self.addCleanup(self.guardian.close)
        self.record = self.guardian.declare("atomic_record[n:int,is:bool,t:text]")
        self.guardian.run(lambda top: top.create(self.record, (5, True, "a")))

    def listed(self, kind, *numbers, **more):
        """A call by the action that the list's first call began."""
        return Listed(kind, 0, self.record, *numbers, begun_by=0, **more)

    def test_a_topaction_at_once(self):
        made = self.guardian.call_each([
            Listed(Kind.BEGIN_TOP),
            self.listed(Kind.FIELD, 0),
            self.listed(Kind.FIELD, 1),
            self.listed(Kind.FIELD, 2),
            self.listed(Kind.SET_FIELD, 0, text="-9223372036854775808"),
            self.listed(Kind.WHOLE),
            self.listed(Kind.COMMIT),
        ])
        self.assertEqual(made.answers, [1, 5, True, "a", None, (-(2**63), True, "a"), None])
        self.assertIs(made.answers[2], True)
        self.assertIsNone(made.end)
        self.assertEqual(self.guardian.base(self.record), (-(2**63), True, "a"))

    def test_a_conflict_ends_it(self):
        with self.guardian.topaction() as holder:
            holder.lock(self.record)
            entries = self.guardian.entries
            made = self.guardian.call_each([
                Listed(Kind.BEGIN_TOP),
                self.listed(Kind.SET_FIELD, 0, text="7"),
                self.listed(Kind.COMMIT),
            ])
            self.assertEqual(made.answers[0], 2)
            self.assertIsInstance(made.answers[1], argus.Conflict)
            self.assertIs(made.end, made.answers[1])
            self.assertEqual(self.guardian.entries, entries + 2)
            self.guardian.call(Kind.ABORT, made.answers[0])
        self.assertEqual(self.guardian.base(self.record), (5, True, "a"))

    def test_where_nothing_is_demanded_it_goes_on(self):
        made = self.guardian.call_each([
            Listed(Kind.COMMIT, 7, demand=argus.Demand.NOTHING),
            Listed(Kind.BEGIN_TOP),
            Listed(Kind.ABORT, begun_by=1),
        ])
        self.assertIsInstance(made.answers[0], argus.NoAction)
        self.assertEqual(made.answers[1:], [1, None])
        self.assertIsNone(made.end)

    def test_a_call_that_fails_ends_it(self):
        for call, error in (
            (self.listed(Kind.SET_FIELD, 0, text="[1,"), argus.BadText),
            (self.listed(Kind.FIELD, 256), argus.BadNumber),
            (Listed(Kind.COMMIT, begun_by=1), argus.NotBegun),
            (Listed(Kind.COMMIT, demand=3), argus.BadDemand),
            (Listed(40), argus.BadKind),
        ):
            with self.subTest(call=call):
                made = self.guardian.call_each([Listed(Kind.BEGIN_TOP), call, self.listed(Kind.ABORT)])
                self.assertEqual(len(made.answers), 1)
                self.assertIsInstance(made.end, error)
                self.guardian.call(Kind.ABORT, made.answers[0])

    def test_numbers_that_the_library_does_not_take(self):
        entries = self.guardian.entries
        for call in (Listed(Kind.FIELD, first=2**63), Listed(2**32), Listed(Kind.COMMIT, begun_by=-1)):
            with self.assertRaises(OverflowError):
                self.guardian.call_each([Listed(Kind.BEGIN_TOP), call])
        self.assertEqual(self.guardian.entries, entries)

    def test_all_that_is_live_is_aborted(self):
        top = self.guardian.topaction()
        top.nested().set_field(self.record, 0, 9)
        self.guardian.abort_live()
        with self.assertRaises(argus.Over):
            top.commit()
        self.guardian.checkpoint()
        self.assertEqual(self.guardian.base(self.record), (5, True, "a"))
        self.guardian.abort_live()

    def test_no_call_at_all(self):
        self.assertEqual(self.guardian.call_each([]), ([], None))


if __name__ == "__main__":
    unittest.main()
