"""The numbers of objects and actions, which know their guardian."""

import copy
import gc
import pickle
import sys
import unittest
import weakref
from pathlib import Path

sys.path.insert(0, str(Path(__file__).resolve().parents[1]))

import argus_guardian as argus  # noqa: E402
from argus_guardian import Array, Choice, Kind, Listed, ObjectId, OtherGuardian, Ref  # noqa: E402


class Ids(unittest.TestCase):
    """Two guardians, of which one wants what is the other's."""

    def setUp(self):
        self.guardian, self.other = argus.Guardian(patience=0), argus.Guardian(patience=0)
        self.addCleanup(self.guardian.close)
        self.addCleanup(self.other.close)
        self.mine, self.others = (it.declare("atomic_record[n:int,r:atomic]") for it in (self.guardian, self.other))
        for guardian, record, number in (self.guardian, self.mine, 5), (self.other, self.others, 6):
            with guardian.topaction() as top:
                top.create(record, (number, Ref(record)))
        self.top = self.guardian.topaction()

    def refused(self, *calls):
        entries = self.guardian.entries
        for call in calls:
            with self.subTest(call=call), self.assertRaises(OtherGuardian) as caught:
                call()
            self.assertIsInstance(caught.exception, ValueError)
            self.assertRegex(str(caught.exception), "^(object|action) [0-9]+: it is another guardian's$")
        self.assertEqual(self.guardian.entries, entries)

    def test_an_object_of_another_guardian(self):
        guardian, top, others = self.guardian, self.top, self.others
        for obj in others, Ref(others):
            self.refused(
                lambda obj=obj: top.field(obj, 0),
                lambda obj=obj: top.set_field(obj, 0, 7),
                lambda obj=obj: top.get(obj, "n"),
                lambda obj=obj: top.set(obj, n=7),
                lambda obj=obj: top.lock(obj),
                lambda obj=obj: top.test_read(obj),
                lambda obj=obj: guardian.access(Kind.FIELD, top.number, obj),
                lambda obj=obj: guardian.call(Kind.FIELD, top.number, obj),
                lambda obj=obj: guardian.call_each([Listed(Kind.BEGIN_TOP), Listed(Kind.FIELD, top.number, obj)]),
                lambda obj=obj: guardian.base(obj),
                lambda obj=obj: guardian.get(obj),
                lambda obj=obj: guardian.shape(obj),
                lambda obj=obj: guardian.shape_of(obj),
                lambda obj=obj: guardian.readers(obj),
                lambda obj=obj: guardian.versions(obj),
            )

    def test_a_reference_to_one(self):
        boxes = self.guardian.declare("atomic_array[sequence[atomic]]")
        one = self.guardian.declare("atomic_variant[one:struct[r:atomic]]")
        self.refused(
            lambda: self.top.set_field(self.mine, 1, Ref(self.others)),
            lambda: self.top.create(boxes, Array(0, [[Ref(self.mine), Ref(self.others)]])),
            lambda: self.top.create(one, Choice(0, (Ref(self.others),))),
        )

    def test_an_action_of_another_guardian(self):
        guardian, top = self.guardian, self.other.topaction()
        self.refused(
            lambda: argus.Action(guardian, top.number),
            lambda: guardian.access(Kind.FIELD, top.number, self.mine),
            lambda: guardian.call(Kind.COMMIT, top.number),
            lambda: guardian.call_each([Listed(Kind.ABORT, top.number)]),
            lambda: guardian.status(top.number),
            lambda: guardian.live(top.number),
        )

    def test_a_bool_is_neither(self):
        self.assertEqual(self.guardian.declare("atomic_record[n:int]"), 1)
        for call in (
            lambda: self.top.create(True, (5,)),
            lambda: self.top.field(False, 0),
            lambda: self.top.field(Ref(True), 0),
            lambda: self.top.set_field(self.mine, 1, Ref(True)),
            lambda: self.guardian.base(True),
            lambda: self.guardian.status(True),
            lambda: argus.Action(self.guardian, True),
            lambda: self.guardian.call_each([Listed(Kind.TEST_READ, True, self.mine)]),
        ):
            with self.subTest(call=call), self.assertRaisesRegex(TypeError, "is a bool, and not a number$"):
                call()

    def test_numbers_alone_are_taken(self):
        for obj in int(self.others), Ref(int(self.others)), self.top.field(self.mine, 1):
            self.assertEqual(self.top.field(obj, 0), 5)
        self.assertEqual(self.guardian.status(int(self.top.number)), "live")
        self.assertEqual(argus.Action(self.guardian, 1).field(self.mine, 0), 5)

    def test_they_are_ints(self):
        number = self.top.number
        self.assertEqual((self.mine, number, {0: "o"}[self.mine], f"o{self.mine} a{number}"), (0, 1, "o", "o0 a1"))
        self.assertIsInstance(self.mine, ObjectId)
        self.assertIsInstance(number, argus.ActionId)
        for it in self.mine, number:
            for again in pickle.loads(pickle.dumps(it)), copy.copy(it), copy.deepcopy(it), int(it):
                self.assertEqual((again, type(again)), (it, int))

    def test_they_keep_no_guardian(self):
        guardian = argus.Guardian()
        record = guardian.declare("atomic_array[int]")
        guardian.close()
        gone = weakref.ref(guardian)
        del guardian
        gc.collect()
        self.assertEqual((gone(), record), (None, 0))


if __name__ == "__main__":
    unittest.main()
