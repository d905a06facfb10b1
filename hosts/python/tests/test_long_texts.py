"""Long texts: they are read while others use the guardian."""

import sys
import threading
import unittest
from pathlib import Path
from unittest import mock

sys.path.insert(0, str(Path(__file__).resolve().parents[1]))

import argus_guardian as argus  # noqa: E402
from argus_guardian import Array, Demand, Kind, Listed  # noqa: E402
from argus_guardian.call_reading import LONG_CALL  # noqa: E402
from argus_guardian.values import write_content  # noqa: E402

MANY = Array(1, list(range(60_000)))


def beside(do):
    """Does something in another thread. Whether it ends."""
    thread = threading.Thread(target=do, daemon=True)
    thread.start()
    thread.join(30)
    return not thread.is_alive()


class LongTexts(unittest.TestCase):
    """Contents whose written form is long."""

    def setUp(self):
        self.guardian = argus.Guardian(patience=30)
        self.addCleanup(self.guardian.close)
        self.record = self.guardian.declare("atomic_record[n:int]")
        self.array = self.guardian.declare("atomic_array[int]")
        with self.guardian.topaction() as top:
            top.create(self.record, (0,))

    def parsing(self, meanwhile):
        """What the guardian calls to have a text read: before it is read, this happens."""
        library = self.guardian._archive._library
        read = library.argus_c_parse

        def parse(*given):
            meanwhile()
            return read(*given)

        return mock.patch.object(library, "argus_c_parse", side_effect=parse)

    def test_a_small_topaction_doesnt_wait_for_a_long_text(self):
        _, read = self.reads_apart(lambda: self.guardian.run(lambda top: top.create(self.array, MANY)))
        self.assertEqual(read, 1)
        self.assertEqual(self.guardian.base(self.array), MANY)

    def reads_apart(self, make):
        """Makes calls with long texts, of which each is read while another thread's topaction ends. How many were read."""
        ended = []

        def small(top):
            top.set_field(self.record, 0, top.field(self.record, 0) + 1)

        with self.parsing(lambda: ended.append(beside(lambda: self.guardian.run(small)))):
            made = make()
        self.assertEqual(set(ended), {True})
        self.assertEqual(self.guardian.base(self.record), (len(ended),))
        return made, len(ended)

    def test_calls_by_numbers(self):
        top = self.guardian.call(Kind.BEGIN_TOP)
        text = write_content(MANY)
        for make in self.guardian.call, self.guardian.access:
            with self.subTest(make=make):
                array = self.guardian.declare("atomic_array[int]")
                self.assertEqual(self.reads_apart(lambda: make(Kind.CREATE, top, array, text=text))[1], 1)
                self.assertEqual(self.guardian.call(Kind.SIZE, top, array), 60_000)
                self.guardian.access(Kind.SET_FIELD_INT, top, self.record, 0, 0)
                self.guardian.call(Kind.COMMIT, top)
                top = self.guardian.call(Kind.BEGIN_TOP)

    def test_a_list(self):
        text = write_content(MANY)
        calls = [
            Listed(Kind.BEGIN_TOP),
            Listed(Kind.BEGIN_SUB, begun_by=0),
            Listed(Kind.CREATE, 0, self.array, text=text, begun_by=1),
            Listed(Kind.SIZE, 0, self.array, begun_by=1),
            Listed(Kind.CREATE, 0, self.array, text=text, begun_by=1),
            Listed(Kind.COMMIT, begun_by=1),
            Listed(Kind.COMMIT, begun_by=0),
        ]
        made, read = self.reads_apart(lambda: self.guardian.call_each(calls))
        self.assertEqual(read, 2)
        self.assertIsNone(made.end)
        self.assertIsInstance(made.answers[4], argus.Exists)
        self.assertEqual(made.answers[2:4] + made.answers[5:], [None, 60_000, None, None])
        self.assertEqual(self.guardian.base(self.array), MANY)

    def test_a_list_ends_at_a_long_text(self):
        text, deep = write_content(MANY), "[" * 2000
        for call, error in (
            (Listed(Kind.CREATE, 0, self.array, text=text, begun_by=0, demand=Demand.NO_SIGNAL), argus.Exists),
            (Listed(Kind.CREATE, 0, 99, text=text, begun_by=0), argus.NoObject),
            (Listed(Kind.CREATE, 0, self.array, text=deep, begun_by=0), argus.BadText),
            (Listed(Kind.CREATE, 0, self.array, text=text, begun_by=1), argus.NotBegun),
            (Listed(Kind.CREATE, 0, self.array, text=text, begun_by=3), argus.NotBegun),
            (Listed(Kind.CREATE, 0, self.array, text=text, demand=3), argus.BadDemand),
        ):
            with self.subTest(error=error):
                create = Listed(Kind.CREATE, 0, self.array, text=text, begun_by=0)
                made = self.guardian.call_each([Listed(Kind.BEGIN_TOP), create, call, Listed(Kind.COMMIT, begun_by=0)])
                self.assertIsInstance(made.end, error)
                self.assertEqual(len(made.answers), 3 if isinstance(made.end, (argus.Signal, argus.Refused)) else 2)
                self.guardian.call(Kind.ABORT, made.answers[0])

    def test_a_list_that_raises_leaves_no_action(self):
        calls = [Listed(Kind.BEGIN_TOP), Listed(Kind.CREATE, 0, self.array, text=write_content(MANY), begun_by=0)]
        other = self.guardian.topaction()
        with self.parsing(lambda: 1 / 0), self.assertRaises(ZeroDivisionError):
            self.guardian.call_each(calls)
        self.assertEqual(self.guardian.status(int(other.number) + 1), "aborted")
        other.commit()

    def test_only_a_long_text_is_read_before(self):
        texts = self.guardian.declare("atomic_array[text]")
        with self.parsing(lambda: None) as parse, self.guardian.topaction() as top:
            top.create(texts, Array(0, []))
            # With its quotes a text has two bytes more.
            top.addh(texts, "x" * (LONG_CALL - 3))
            self.assertEqual(parse.call_count, 0)
            top.addh(texts, "x" * (LONG_CALL - 2))
            self.assertEqual(parse.call_count, 1)
            self.assertEqual([len(it) for it in top.whole(texts)], [LONG_CALL - 3, LONG_CALL - 2])

    def test_refusals_are_those_of_any_call(self):
        top = self.guardian.topaction()
        with self.assertRaisesRegex(argus.IllTyped, "o1 by create: .*its shape is atomic_array.int."):
            top.create(self.array, Array(1, ["text"] * LONG_CALL))
        with self.assertRaises(argus.NoObject):
            top.create(9, MANY)
        top.create(self.array, MANY)
        with self.assertRaises(argus.Exists):
            top.create(self.array, MANY)
        with self.assertRaises(argus.BadText):
            top.addh(self.array, [[[[[[[[[[[[[[[["deep" * LONG_CALL]]]]]]]]]]]]]]]])
        top.abort()
        with self.assertRaises(argus.Over):
            top.create(self.array, MANY)

    def test_it_waits_for_its_object(self):
        holder, reads = self.guardian.topaction(), []
        holder.lock(self.array)

        def meanwhile():
            reads.append(None)
            if len(reads) == 2:
                # It was refused once, and is read once more.
                self.assertTrue(beside(holder.abort))

        with self.parsing(meanwhile):
            self.guardian.run(lambda top: top.create(self.array, MANY))
        self.assertEqual(len(reads), 2)
        self.assertEqual(self.guardian.base(self.array), MANY)

    def test_a_closed_guardian_says_so(self):
        top = self.guardian.topaction()
        self.guardian.close()
        with self.assertRaises(argus.Closed):
            top.create(self.array, MANY)


if __name__ == "__main__":
    unittest.main()
