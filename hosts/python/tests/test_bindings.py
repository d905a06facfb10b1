"""What a binding gets of the library beside the proved calls: the functions of its headers, by their names."""

import contextlib
import ctypes
import sys
import unittest
from pathlib import Path
from unittest import mock

sys.path.insert(0, str(Path(__file__).resolve().parents[1]))

import argus_guardian as argus  # noqa: E402
from argus_guardian.library import Answer, Handle, Kind, Status, _call, address_of, load, quick  # noqa: E402

# What argus.h has and no answer of this package can be.
NULL = 21


@contextlib.contextmanager
def crossing(guardian):
    """The texts with which calls reach the library."""
    texts = []
    archive, (call, reply, at) = guardian._archive, guardian._archive.addresses()
    made = ctypes.CFUNCTYPE(ctypes.c_uint32, *archive._library.argus_c_call.argtypes)

    @made
    def noted(*given):
        texts.append(ctypes.string_at(given[6], given[7]))
        return made(call)(*given)

    plain = archive.call

    def noted_plain(at, *given):
        texts.append(given[-1])
        return plain(at, *given)

    with mock.patch.object(archive, "call", noted_plain):
        with mock.patch.object(archive, "addresses", lambda: (address_of(noted), reply, at)):
            guardian._connect_archive()
        yield texts
    guardian._connect_archive()


class Bindings(unittest.TestCase):
    """Functions of the headers that are no exports of the archive."""

    def setUp(self):
        self.library = load()

    def answer(self, name, *given):
        call = self.library[name]
        call.restype = Answer
        answer = call(*given)
        return answer.status, answer.number

    def name(self, name, number):
        call = self.library[name]
        call.restype = ctypes.c_char_p
        return call(ctypes.c_int64(number))

    def test_null_pointers(self):
        for name in "open", "close", "begin_top", "objects", "checkpoint", "renew", "abort_live", "resumed":
            self.assertEqual(self.answer(f"argus_{name}", None), (NULL, 0), name)
        handle = Handle()
        self.assertEqual(self.answer("argus_declare", ctypes.byref(handle), None), (NULL, 0))
        self.assertEqual(self.answer("argus_begin_top", ctypes.byref(handle)), (Status.NOT_OPEN, 0))

    def test_calls(self):
        handle = Handle()
        at = ctypes.byref(handle)
        self.assertEqual(self.answer("argus_open", at), (Status.DONE, 0))
        self.assertEqual(self.answer("argus_declare", at, b"atomic_record[n:int]"), (Status.OBJECT, 0))
        self.assertEqual(self.answer("argus_begin_top", at), (Status.ACTION, 0))
        zero, room = ctypes.c_int64(0), ctypes.create_string_buffer(21)
        self.assertEqual(self.answer("argus_alter", at, 0, 0, Kind.CREATE, zero, zero, b"{5}"), (Status.DONE, 0))
        self.assertEqual(self.library.argus_value_int(room, ctypes.c_size_t(21), ctypes.c_int64(-7)), 2)
        self.assertEqual(self.answer("argus_alter", at, 0, 0, Kind.SET_FIELD, zero, zero, room), (Status.DONE, 0))
        self.assertEqual(self.answer("argus_ask", at, 0, 0, Kind.FIELD, zero), (Status.NUMBER, -7))
        self.assertEqual(self.answer("argus_commit", at, 0), (Status.DONE, 0))
        self.assertEqual(self.answer("argus_close", at), (Status.DONE, 0))

    @unittest.skipIf(_call is None, "_call.c isn't built")
    def test_after_a_wrong_argument_none_is_converted(self):
        converted = []

        class Number:
            def __index__(self):
                converted.append(self)
                return 0

        handle = Handle()
        call = quick(self.library)
        number = Number()
        for wrong in (2**32, 0, 0, 0), (0, -1, 0, 0), (0, 0, "0", 0), (0, 0, 0, 2**63):
            with self.subTest(wrong=wrong), self.assertRaises((OverflowError, TypeError)):
                call(ctypes.addressof(handle), *wrong, number, b"")
        self.assertEqual(converted, [])
        self.assertEqual(call(ctypes.addressof(handle), 0, 0, 0, number, -1, b"")[0], Status.NOT_OPEN)

    def test_numbers_cross_without_a_text(self):
        with argus.Guardian() as guardian:
            record = guardian.object("record", "atomic_record[n:int,is:bool]")
            array = guardian.object("array", "atomic_array[int]")
            state = guardian.object("state", "atomic_variant[n:int,is:bool]")
            with guardian.topaction() as top:
                top.create(record, (5, False))
                top.create(array, [1])
                top.create(state, argus.Choice("n", 1))
                with crossing(guardian) as texts:
                    top[record].n = -(2**63)
                    top[record]["is"] = True
                    top[record].n += 1
                    top.set(record, n=7)
                    top.set_field(record, 0, 8)
                    top[array].append(2)
                    top[array].appendleft(0)
                    top[array][1] = 2**63 - 1
                    top[state].n = 5
                    top[state]["is"] = True
                self.assertEqual(set(texts), {b""})
                self.assertEqual(len(texts), 12)
                with crossing(guardian) as texts:
                    top.create(guardian.declare("atomic_array[text]"), ["a"])
                self.assertEqual(texts, [b'0["a"]'])
                self.assertEqual(top.whole(record), (8, True))
                self.assertEqual(top.whole(array).items, [0, 2**63 - 1, 2])

    def test_names(self):
        self.assertEqual(self.name("argus_status_name", NULL), b"ARGUS_NULL")
        self.assertEqual(self.name("argus_refusal_name", 6), b"ARGUS_CONFLICT")
        self.assertEqual(self.name("argus_signal_name", 0), b"?")


if __name__ == "__main__":
    unittest.main()
