"""Tests of fields by their names, which come from the shapes of objects."""

import copy
import pickle
import unittest
from unittest import mock

from argus_guardian import Absent, Action, Array, Choice, Guardian, IllTyped, NotThere, OutOfMemory


class Names(unittest.TestCase):
    """Fields by name."""

    def setUp(self):
        self.guardian = Guardian(patience=0)
        self.addCleanup(self.guardian.close)
        self.seat = self.guardian.declare("atomic_record[taken:bool,by:text]")

    def test_fields_are_got_and_set(self):
        with self.guardian.topaction() as top:
            top.create(self.seat, (False, ""))
            top.set(self.seat, by="Ann", taken=True)
            self.assertEqual(top.get(self.seat), (True, "Ann"))
            self.assertTrue(top.get(self.seat).taken)
            self.assertEqual(top.get(self.seat, "by"), "Ann")
        self.assertEqual(self.guardian.get(self.seat).by, "Ann")
        # Each field that is set is an entry of its own, in the order in which they are named.
        self.assertEqual(self.guardian.entry(3), '3 alter a0 o0 set_field 1 "Ann" -> done')

    def test_what_is_got_is_pickled_and_copied(self):
        with self.guardian.topaction() as top:
            top.create(self.seat, (True, "Ann"))
            got = top.get(self.seat)
        for make in copy.copy, copy.deepcopy, lambda it: pickle.loads(pickle.dumps(it)):
            made = make(got)
            self.assertEqual((made, made.by, repr(made)), ((True, "Ann"), "Ann", "Record(taken=True, by='Ann')"))

    def test_variants_and_arrays_are_got_by_names_too(self):
        variant = self.guardian.declare("atomic_variant[no:null,yes:struct[n:int]]")
        array = self.guardian.declare("atomic_array[struct[n:int]]")
        with self.guardian.topaction() as top:
            top.create(variant, Choice(1, (5,)))
            top.create(array, Array(1, [(3,), (4,)]))
            self.assertEqual(top.get(variant, "yes").n, 5)
            for get in top.get, self.guardian.get:
                if get == self.guardian.get:
                    top.commit()
                self.assertEqual((get(variant).tag, get(variant).value.n), ("yes", 5))
                self.assertEqual((get(array).low, [it.n for it in get(array)]), (1, [3, 4]))
        for obj in variant, array:
            with self.assertRaises(AttributeError):
                self.guardian.get(obj).n

    def test_fields_may_have_the_names_of_parameters(self):
        record = self.guardian.declare("atomic_record[obj:int,self:int]")
        with self.guardian.topaction() as top:
            top.create(record, (0, 0))
            top.set(record, obj=1, self=2)
        self.assertEqual(self.guardian.base(record), (1, 2))

    def test_a_name_that_is_none(self):
        entries = self.guardian.entries
        with self.guardian.topaction() as top:
            for do in lambda: top.get(self.seat, "free"), lambda: top.set(self.seat, taken=True, free=1):
                with self.assertRaises(AttributeError):
                    do()
        self.assertEqual(self.guardian.entries, entries + 2)

    def test_a_record_without_content(self):
        self.assertIsNone(self.guardian.get(self.seat))
        with self.guardian.topaction() as top:
            with self.assertRaises(Absent):
                top.get(self.seat)

    def test_a_value_of_another_type(self):
        with self.guardian.topaction() as top:
            top.create(self.seat, (False, ""))
            with self.assertRaises(IllTyped):
                top.set(self.seat, taken=1)
            # None is set, and the entry is the refusal's.
            entries = self.guardian.entries
            for fields in {"taken": True, "by": 1}, {"by": "Ann", "taken": "x"}:
                with self.assertRaises(IllTyped):
                    top.set(self.seat, **fields)
            self.assertEqual((top.get(self.seat), self.guardian.entries), ((False, ""), entries + 3))

    def test_what_was_set_where_there_is_no_memory(self):
        with self.guardian.topaction() as top:
            top.create(self.seat, (False, ""))
            set_field = Action.set_field

            def refused(action, obj, field, value):
                if field == 1:
                    raise OutOfMemory
                set_field(action, obj, field, value)

            with mock.patch.object(Action, "set_field", refused):
                with self.assertRaisesRegex(OutOfMemory, "; taken was set before"):
                    top.set(self.seat, taken=True, by="Ann")
            self.assertEqual(top.get(self.seat), (True, ""))

    def test_names_of_each_kind(self):
        shapes = {
            "atomic_record[a:struct[x:int,y:oneof[no:null,yes:int]],b:sequence[struct[z:int]]]": ("record", ("a", "b")),
            "atomic_array[struct[a:int,b:int]]": ("array", ()),
            "atomic_variant[no:null,yes:struct[a:int,b:int]]": ("variant", ("no", "yes")),
            "atomic_record[class:int,_1:int]": ("record", ("class", "_1")),
        }
        for text, wanted in shapes.items():
            shape = self.guardian.shape_of(self.guardian.declare(text))
            self.assertEqual((shape.kind, shape.names, shape.text), (*wanted, text))
        with self.assertRaises(NotThere):
            self.guardian.shape_of(99)

    def test_a_field_named_as_a_word_of_the_language(self):
        record = self.guardian.declare("atomic_record[class:int]")
        with self.guardian.topaction() as top:
            top.create(record, (5,))
            top.set(record, **{"class": 6})
            self.assertEqual(top.get(record, "class"), 6)
            self.assertEqual(top.get(record), (6,))


if __name__ == "__main__":
    unittest.main()
