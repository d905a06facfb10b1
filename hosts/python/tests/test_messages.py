"""What exceptions say, and how they travel."""

import gc
import pickle
import sys
import threading
import unittest
from pathlib import Path

sys.path.insert(0, str(Path(__file__).resolve().parents[1]))

import argus_guardian as argus  # noqa: E402
from argus_guardian import Array, Choice, Ref  # noqa: E402
from argus_guardian.library import Kind, _call  # noqa: E402


class Messages(unittest.TestCase):
    """What went wrong, and where."""

    def setUp(self):
        self.guardian = argus.Guardian(patience=0)
        self.addCleanup(self.guardian.close)
        self.record = self.guardian.declare("atomic_record[n:int]")
        self.array = self.guardian.declare("atomic_array[int]")
        with self.guardian.topaction() as top:
            top.create(self.record, (5,))
            top.create(self.array, Array(1, [10]))

    def assert_says(self, error, text, call, *given):
        with self.assertRaises(error) as raised:
            call(*given)
        self.assertEqual(str(raised.exception), text)

    def test_conflicts(self):
        first, second, third = (self.guardian.topaction() for _ in range(3))
        first.field(self.record, 0)
        second.field(self.record, 0)
        text = "a3 wants to write o0, held by a1, a2"
        self.assert_says(argus.Conflict, text, third.set_field, self.record, 0, 7)
        third.lock(self.array)
        text = "a1 wants to read o1, held by a3"
        self.assert_says(argus.Conflict, text, first.whole, self.array)

    def test_refusals(self):
        top = self.guardian.topaction()
        text = "a1 wants to read o9: no such object is declared"
        self.assert_says(argus.NoObject, text, top.whole, 9)
        text = f"a1 wants to write o0 by set_field 0: {argus.IllTyped.why}; field n is int"
        self.assert_says(argus.IllTyped, text, top.set_field, self.record, 0, "text")
        text = "a1 wants to abort its siblings: it has neither parent nor creator"
        self.assert_says(argus.NoSiblings, text, top.abort_others)
        sub = top.subaction()
        text = "a1 wants to read o0: it has a live child"
        self.assert_says(argus.Suspended, text, top.whole, self.record)
        top.abort()
        text = "a2 wants to commit: it has committed or is aborted"
        self.assert_says(argus.Over, text, sub.commit)

    def test_what_is_ill_typed(self):
        top, variant = self.guardian.topaction(), self.guardian.declare("atomic_variant[no:null,yes:int]")
        for call, given, told in (
            (top.set_field, (self.record, 1, 5), "its shape is atomic_record[n:int]"),
            (top.set_field, (self.record, 0, True), "field n is int"),
            (top.addh, (self.array, "text"), "an item is int"),
            (top.addh, (self.array, True), "an item is int"),
            (top.fetch, (self.record, 0), "its shape is atomic_record[n:int]"),
            (top.change_tag, (variant, 1, None), "tag yes is int"),
            (top.create, (self.record, ("text",)), "its shape is atomic_record[n:int]"),
        ):
            with self.assertRaises(argus.IllTyped) as raised:
                call(*given)
            self.assertTrue(str(raised.exception).endswith(f"{argus.IllTyped.why}; {told}"), raised.exception)

    def test_objects_have_their_names(self):
        account = self.guardian.object("account", "atomic_record[n:int]")
        first, second = self.guardian.topaction(), self.guardian.topaction()
        first.create(account, n=5)
        text = f"a{second.number} wants to read account, held by a{first.number}"
        self.assert_says(argus.Conflict, text, second.whole, account)
        self.assert_says(argus.Conflict, text, second.whole, account.number)
        text = f"a{first.number} wants to write account by create: there is a content already"
        self.assert_says(argus.Exists, text, first.create, account, (6,))
        self.assertEqual(repr(first[account]), f"<account in <Action a{first.number}>>")
        self.assertEqual(repr(first[self.record]), f"<o0 in <Action a{first.number}>>")

    def test_shapes(self):
        for text, at, why in (
            ("", 0, "'atomic_' is missing"),
            ("record[n:int]", 0, "'atomic_' is missing"),
            ("atomic_set[int]", 7, "no kind"),
            ("atomic_record[]", 14, "a name is missing"),
            ("atomic_record[n:in]", 16, "no type"),
            ("atomic_record[n:int,n:int]", 20, "twice the same name"),
            ("atomic_record[n:int", 19, "']' is missing"),
            ("atomic_array[int] ", 17, "something follows"),
            (f"atomic_record[{'n' * 33}:int]", 14, "longer than 32"),
            (f"atomic_record[{','.join(f'n{it}:int' for it in range(65))}]", 516, "more than 64"),
            ("atomic_array[" + "sequence[" * 16 + "int" + "]" * 17, 157, "deeper than 16"),
        ):
            for declare in self.guardian.declare, lambda text: self.guardian.object("it", text):
                with self.assertRaises(argus.BadShape) as raised:
                    declare(text)
                self.assertIn(f"at byte {at} {why}", str(raised.exception))
                self.assertEqual(raised.exception.at, at)

    def test_signals(self):
        top = self.guardian.topaction()
        text = "a1 wants to read o1 by fetch 4: no element has this place, or there is none at all"
        self.assert_says(argus.Bounds, text, top.fetch, self.array, 4)
        text = "a1 wants to write o1 by trim 1 -1: a count below zero"
        self.assert_says(argus.NegativeSize, text, top.trim, self.array, 1, -1)

    def test_numbers_and_questions(self):
        top = self.guardian.topaction()
        text = "the number of a field or a tag is within 0 to 255"
        self.assert_says(argus.BadNumber, text, top.field, self.record, 256)
        self.assert_says(argus.BadKind, "no call has this kind", self.guardian.call, 99)
        self.assert_says(argus.NotThere, "o9: no such object is declared", self.guardian.base, 9)
        self.assert_says(argus.NotThere, "entry 99 isn't there, or not any more", self.guardian.entry, 99)
        self.assert_says(argus.Busy, "an action is live", self.guardian.checkpoint)

    def test_all_say_something(self):
        for error in (*argus.errors.REFUSALS, *argus.errors.SIGNALS, argus.OutOfMemory, argus.Closed):
            self.assertTrue(str(error()))

    def test_they_survive_pickling(self):
        for error in (argus.BadText(3), argus.Conflict("a7 wants to write o3"), argus.OutOfMemory()):
            again = pickle.loads(pickle.dumps(error))
            self.assertEqual((type(again), str(again), vars(again)), (type(error), str(error), vars(error)))

    def test_a_closed_guardian_doesnt_hide_an_exception(self):
        with self.assertRaises(KeyError):
            with self.guardian.topaction():
                self.guardian.close()
                raise KeyError

    def test_a_closed_guardian_tells_a_block(self):
        with self.assertRaises(argus.Closed):
            with self.guardian.topaction():
                self.guardian.close()


class Arguments(unittest.TestCase):
    """What is wrong with an argument is said when it is given."""

    def setUp(self):
        self.guardian = argus.Guardian()
        self.addCleanup(self.guardian.close)

    def test_patience(self):
        for wrong, error in ("x", TypeError), (None, TypeError), (True, TypeError), (float("nan"), ValueError):
            for give in (
                lambda: argus.Guardian(patience=wrong),
                lambda: setattr(self.guardian, "patience", wrong),
                lambda: self.guardian.checkpoint(wrong),
                lambda: self.guardian.renew(wrong),
            ):
                with self.assertRaisesRegex(error, "patience"):
                    give()
        self.guardian.patience = 2
        self.assertEqual((self.guardian.patience, self.guardian._folds), (2, {}))

    def test_calls_of_a_list_and_listings(self):
        with self.assertRaisesRegex(TypeError, "Listed, and not 1"):
            self.guardian.call_each([1])
        for wrong in "x", None, 3:
            with self.assertRaisesRegex(argus.BadKind, "bases, stacks, journal, audit"):
                self.guardian.list(wrong)
        self.assertEqual(self.guardian.entries, 0)


class Told(unittest.TestCase):
    """What a guardian says of itself."""

    def test_its_representation(self):
        guardian = argus.Guardian()
        guardian.declare("atomic_record[n:int]")
        top = guardian.topaction()
        self.assertEqual(repr(guardian), "<Guardian of 1 objects, 2 entries, 1 live actions>")
        with top.ready_commit():
            self.assertEqual(repr(guardian), "<Guardian, in a call>")
        self.assertEqual(guardian.entries, 2)
        guardian.close()
        self.assertEqual(repr(guardian), "<Guardian, closed>")

    def test_what_is_logged(self):
        with argus.Guardian(checkpoint_after=4) as guardian, self.assertLogs("argus_guardian", "DEBUG") as logs:
            guardian.topaction()
            gc.collect()
            for _ in range(3):
                guardian.topaction().commit()
        said = [f"{it.levelname} {it.getMessage()}" for it in logs.records]
        self.assertIn("WARNING a0 was dropped without an end, and is aborted", said)
        self.assertIn("DEBUG a checkpoint by itself: DONE", said)


class Places(unittest.TestCase):
    """References, and what is equal to what."""

    def test_a_reference_is_taken_where_an_object_is(self):
        with argus.Guardian() as guardian:
            record = guardian.declare("atomic_record[n:int]")
            holder = guardian.declare("atomic_record[of:atomic]")
            with guardian.topaction() as top:
                top.create(record, (5,))
                top.create(holder, (Ref(record),))
                found = top.field(holder, 0)
                self.assertEqual(found, Ref(record))
                top.set_field(found, 0, 6)
                self.assertTrue(top.test_write(found))
            self.assertEqual(guardian.base(found), (6,))
            self.assertEqual(guardian.versions(found), [])

    def test_what_is_equal(self):
        self.assertNotEqual(Ref(3), (3,))
        self.assertNotEqual(Choice(0, 5), (0, 5))
        self.assertNotEqual((0, 5), Choice(0, 5))
        self.assertNotEqual((1, [5]), Array(1, [5]))
        self.assertEqual(Array(1, [5]), Array(1, [5]))
        self.assertEqual(Choice(0, 5), Choice(0, 5))
        self.assertEqual(len({Ref(3), Ref(3), Choice(0, 5), Choice(0, 5), (0, 5)}), 3)

    def test_numbers_past_64_bits_are_no_written_form(self):
        for text, at in ((str(2**63), 18), (f"[1,@{2**32}]", 13), ("<256:1>", 3), ("-" + "9" * 9999, 19)):
            with self.assertRaises(argus.BadText) as raised:
                argus.read_value(text)
            self.assertEqual(raised.exception.at, at)


class Patience(unittest.TestCase):
    """How long an access waits."""

    def test_infinity_waits_for_ever(self):
        with argus.Guardian(patience=float("inf")) as guardian:
            array = guardian.declare("atomic_array[int]")
            holder, waiter = guardian.topaction(), guardian.topaction()
            holder.create(array, Array(1, []))
            done = []
            thread = threading.Thread(target=lambda: done.append(waiter.whole(array)))
            thread.start()
            thread.join(0.2)
            self.assertEqual(done, [])
            holder.commit()
            thread.join(30)
            self.assertEqual(done, [Array(1, [])])

    def test_of_a_checkpoint_too(self):
        with argus.Guardian() as guardian:
            top = guardian.topaction()
            timer = threading.Timer(0.05, top.commit)
            timer.start()
            guardian.checkpoint(patience=float("inf"))


class Costs(unittest.TestCase):
    """What once was slow."""

    @unittest.skipIf(_call is not None, "_call.c has a buffer for each reply")
    def test_a_long_text_makes_later_calls_no_slower(self):
        with argus.Guardian() as guardian:
            short = guardian.declare("atomic_record[t:text]")
            long = guardian.declare("atomic_record[t:text]")
            with guardian.topaction() as top:
                top.create(short, ("a",))
                top.create(long, ("x" * (8 << 20),))
            with guardian.topaction() as top:
                top.field(long, 0)
                copied = len(guardian._archive._room)
                self.assertGreater(copied, 8 << 20)
                self.assertEqual(top.field(short, 0), "a")
                self.assertEqual(guardian._archive._text(), b'"a"')

    def test_texts_are_read_without_trying_again(self):
        for text in ('"' + "x" * 1_000_000 + '"', '"' + "\\n" * 500_000 + '"'):
            self.assertEqual(argus.write_value(argus.read_value(text)), text)
        with self.assertRaises(argus.BadText):
            argus.read_value('"' + "x" * 1_000_000)


if __name__ == "__main__":
    unittest.main()
