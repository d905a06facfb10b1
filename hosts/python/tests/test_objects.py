"""Objects with names and types: how they are found, and what actions do with them by the names of their parts."""

import copy
import dataclasses
import gc
import importlib
import pickle
import sys
import unittest
import weakref
from pathlib import Path

HOST = Path(__file__).resolve().parents[1]
sys.path.insert(0, str(HOST))

import argus_guardian as argus  # noqa: E402
from argus_guardian import Array, Choice, Kind, Object, Ref  # noqa: E402


@dataclasses.dataclass
class Row:
    """A part of a seat."""

    number: int
    letters: "list[str]"


@dataclasses.dataclass(frozen=True)
class Seat:
    """A record of a hall."""

    holder: str
    paid: bool
    row: Row
    beside: Ref
    nothing: None


class Found(unittest.TestCase):
    """Objects by their names."""

    def setUp(self):
        self.guardian = argus.Guardian(patience=0)
        self.addCleanup(self.guardian.close)

    def test_a_name_is_an_object(self):
        account = self.guardian.object("account", "atomic_record[balance:int]")
        self.assertIsInstance(account, Object)
        self.assertEqual((account.name, account.shape.names), ("account", ("balance",)))
        self.assertIs(self.guardian.object("account"), account)
        self.assertIs(self.guardian.object("account", "atomic_record[balance:int]"), account)
        other = self.guardian.object("other", "atomic_array[int]")
        self.assertNotEqual(account, other)
        self.assertEqual(sorted([other, account]), [account, other])
        self.assertEqual(repr(other), "<Object other: atomic_array[int]>")

    def test_a_name_that_isnt_there_or_is_another_shapes(self):
        entries = self.guardian.entries
        with self.assertRaisesRegex(argus.NotThere, "account"):
            self.guardian.object("account")
        self.assertEqual(self.guardian.entries, entries)
        self.guardian.object("account", "atomic_record[balance:int]")
        entries = self.guardian.entries
        with self.assertRaisesRegex(argus.BadShape, r"account is of the shape atomic_record\[balance:int\]"):
            self.guardian.object("account", "atomic_record[balance:text]")
        with self.assertRaisesRegex(argus.BadShape, "at byte 14"):
            self.guardian.object("new", "atomic_record[]")
        find, declare = self.guardian.object, self.guardian.declare
        for wrong in lambda: find(5), lambda: find("it", 5), lambda: declare(None):
            with self.assertRaises(TypeError):
                wrong()
        self.assertEqual(self.guardian.entries, entries)
        with self.assertRaises(argus.NotThere):
            self.guardian.object("new")

    def test_names_are_in_the_journal(self):
        account = self.guardian.object("account", "atomic_record[balance:int]")
        text = 'an "odd"\\name\n'
        self.guardian.object(text, "atomic_array[int]")
        self.guardian.run(lambda top: top.create(account, balance=5))
        for fold in lambda: None, self.guardian.checkpoint, self.guardian.renew:
            fold()
            again = argus.resume(self.guardian.list("journal").split("\n")[:-1])
            self.addCleanup(again.close)
            found = again.object("account", "atomic_record[balance:int]")
            self.assertEqual((int(found), again.get(found).balance), (int(account), 5))
            self.assertEqual(again.object(text).shape.kind, "array")
            entries = again.entries
            with self.assertRaises(argus.OtherGuardian):
                again.base(account)
            self.assertEqual(again.entries, entries)
            more = again.object("more", "atomic_array[int]")
            self.assertNotIn(int(more), (int(found), int(again.object(text))))

    def test_many_names(self):
        names = [f"object {number}" for number in range(300)]
        numbers = [int(self.guardian.object(name, "atomic_array[int]")) for name in names]
        self.assertEqual(len(set(numbers)), 300)
        again = argus.resume(self.guardian.list("journal").splitlines())
        self.addCleanup(again.close)
        self.assertEqual([int(again.object(name)) for name in names], numbers)
        more = int(again.object("more", "atomic_array[int]"))
        self.assertNotIn(more, numbers)
        # Few of the objects are catalogues, and each name takes three entries and that of its object.
        self.assertLess(again.objects, 310)
        self.assertLess(self.guardian.entries, 4 * 300 + 10)

    def test_a_name_whose_commit_is_interrupted(self):
        made = self.guardian._made
        # The first name of a catalogue is in its first content, and so Kind.CREATE comes first.
        for kind in Kind.CREATE, Kind.COMMIT, Kind.ADDH, Kind.BEGIN_TOP:

            def interrupted_after(which, *given, kind=kind, **named):
                done = made(which, *given, **named)
                if which == kind:
                    raise KeyboardInterrupt
                return done

            name = f"after {kind.name}"
            self.guardian._made = interrupted_after
            with self.assertRaises(KeyboardInterrupt):
                self.guardian.object(name, "atomic_array[int]")
            del self.guardian._made
            found = self.guardian.object(name, "atomic_array[int]")
            self.guardian.checkpoint()
            with argus.resume(self.guardian.list("journal").splitlines()) as again:
                self.assertEqual(int(again.object(name)), int(found))

    def test_what_knows_its_guardian(self):
        account = self.guardian.object("account", "atomic_record[balance:int]")
        with argus.Guardian() as other:
            other.object("account", "atomic_record[balance:int]")
            with other.topaction() as top:
                for wrong in (
                    lambda: top[account],
                    lambda: top.lock(account),
                    lambda: top.get(account),
                    lambda: top.create(account, balance=5),
                    lambda: top.test_read(account),
                    lambda: other.call(Kind.TOUCH, top.number, account),
                ):
                    with self.assertRaises(argus.OtherGuardian):
                        wrong()
        self.assertEqual(account.number, int(account))
        self.assertIsInstance(account.number, argus.ObjectId)
        for make in copy.copy, copy.deepcopy, pickle.dumps:
            with self.assertRaises(TypeError):
                make(account)

    def test_a_catalogue_that_an_action_has_locked(self):
        self.guardian.object("account", "atomic_record[balance:int]")
        top = self.guardian.topaction()
        top.lock(1)
        with self.assertRaises(argus.Conflict):
            self.guardian.object("other", "atomic_array[int]")
        top.abort()
        # The action in which it would have got its name is aborted.
        self.guardian.checkpoint()
        self.assertEqual(self.guardian.object("other", "atomic_array[int]").name, "other")

    def test_objects_keep_no_guardian(self):
        guardian = argus.Guardian()
        account = guardian.object("account", "atomic_record[balance:int]")
        gone = weakref.ref(guardian)
        guardian.close()
        del guardian
        self.assertIsNone(gone())
        self.assertEqual(account.name, "account")


class Records(unittest.TestCase):
    """Records within an action."""

    def setUp(self):
        self.guardian = argus.Guardian(patience=0)
        self.addCleanup(self.guardian.close)
        self.account = self.guardian.object("account", "atomic_record[balance:int,owner:text,open:bool,next:atomic]")
        self.top = self.guardian.topaction()
        self.top.create(self.account, balance=5, owner="Ann", open=True, next=self.account)

    def test_fields(self):
        account = self.top[self.account]
        account.balance += 2
        account.owner, account.open = 'a "quoted"\\text\n', False
        self.assertEqual((account.balance, account.owner, account.open), (7, 'a "quoted"\\text\n', False))
        self.assertEqual(account.next, Ref(int(self.account)))
        self.assertEqual(self.top[account.next].balance, 7)
        for value in -(2**63), 2**63 - 1, 0, -1:
            account.balance = value
            self.assertEqual(account.balance, value)
        for value in "", "é", "x" * 509, "x" * 510, "x" * 511, "x" * 5000, "\0":
            account.owner = value
            self.assertEqual(account.owner, value)

    def test_each_use_is_an_access(self):
        number = self.guardian.entries
        self.top[self.account].balance += 2
        said = ["ask a1 o0 field 0 -> val 5", "alter a1 o0 set_field 0 7 -> done"]
        self.assertEqual(self.guardian.lines(number), [f"{number + it} {line}" for it, line in enumerate(said)])

    def test_what_is_no_field(self):
        entries, account = self.guardian.entries, self.top[self.account]
        with self.assertRaisesRegex(AttributeError, "no 'balanse' among balance, owner, open, next"):
            account.balanse
        wrongs = lambda: setattr(account, "balanse", 5), lambda: account["balanse"]
        for wrong in *wrongs, lambda: delattr(account, "balance"):
            with self.assertRaises(AttributeError):
                wrong()
        for value in 2**63, 1.5:
            with self.assertRaises((OverflowError, TypeError)):
                account.balance = value
        with self.assertRaises(UnicodeEncodeError):
            account.owner = "\ud800"
        self.assertEqual(self.guardian.entries, entries)
        with self.assertRaises(TypeError):
            iter(self.top)
        with self.assertRaises(argus.IllTyped):
            account.balance = "text"

    def test_locked(self):
        account = self.top.locked(self.account)
        last = self.guardian.entries - 1
        self.assertEqual(self.guardian.entry(last), f"{last} alter a1 o0 touch -> done")
        self.assertEqual(account.balance, 5)

    def test_what_has_no_content_and_what_is_over(self):
        empty = self.guardian.object("empty", "atomic_record[n:int]")
        with self.assertRaises(argus.Absent):
            self.top[empty].n
        account = self.top[self.account]
        self.top.commit()
        with self.assertRaises(argus.Over):
            account.balance
        with self.assertRaises(argus.Over):
            account.balance = 5

    def test_objects_by_numbers_have_views_too(self):
        for obj in int(self.account), self.account.number, Ref(int(self.account)):
            self.top[obj].balance = 6
            self.assertEqual(self.top[obj]["balance"], 6)
        with self.assertRaises(argus.NotThere):
            self.top[99]

    def test_names_that_are_pythons(self):
        names = "class", "__class__", "__init__", "_shape", "count", "_1"
        odd = self.guardian.object("odd", f"atomic_record[{','.join(f'{it}:int' for it in names)}]")
        self.top.create(odd, (1, 2, 3, 4, 5, 6))
        view = self.top[odd]
        for value, name in enumerate(odd.shape.names, 1):
            self.assertEqual((view[name], self.top.get(odd, name)), (value, value))
            view[name] = -value
        self.assertEqual(self.top.whole(odd), (-1, -2, -3, -4, -5, -6))
        self.assertEqual((view._shape, view.count, view._1), (-4, -5, -6))

    def test_contents_by_names(self):
        for number, content in enumerate(((5, "Ann"), {"n": 5, "t": "Ann"}, {"t": "Ann", "n": 5})):
            record = self.guardian.object(f"record {number}", "atomic_record[n:int,t:text]")
            self.top.create(record, content)
            self.assertEqual(self.top.whole(record), (5, "Ann"))
        record = self.guardian.object("another", "atomic_record[n:int,t:text]")
        entries = self.guardian.entries
        for wrong, error in ({"n": 5}, TypeError), ({"n": 5, "t": "", "x": 1}, AttributeError), (None, TypeError):
            with self.assertRaises(error):
                self.top.create(record, wrong)
        with self.assertRaises(TypeError):
            self.top.create(record, (5, "Ann"), n=5, t="Ann")
        self.assertEqual(self.guardian.entries, entries)

    def test_classes_are_made_once(self):
        again = self.guardian.object("again", self.account.shape.text)
        self.assertIs(type(self.top[self.account]), type(self.top[again]))
        self.top.create(again, self.top.get(self.account))
        self.assertIs(type(self.top.get(self.account)), type(self.top.get(again)))


class OfDataclasses(unittest.TestCase):
    """Records that are objects of a dataclass."""

    ROW = "struct[number:int,letters:sequence[text]]"
    SHAPE = f"atomic_record[holder:text,paid:bool,row:{ROW},beside:atomic,nothing:null]"

    def setUp(self):
        self.guardian = argus.Guardian(patience=0)
        self.addCleanup(self.guardian.close)

    def test_what_is_written_is_read(self):
        seat = self.guardian.object("seat", Seat)
        self.assertEqual(seat.shape.text, self.SHAPE)
        content = Seat("Ann", False, Row(3, ["a", "b"]), Ref(int(seat)), None)
        with self.guardian.topaction() as top:
            top.create(seat, content)
            self.assertEqual(top.get(seat), content)
            self.assertEqual(top[seat].row, Row(3, ["a", "b"]))
            top[seat].row = Row(4, [])
            top.set(seat, holder="Bob", row={"number": 5, "letters": ["c"]})
        wanted = Seat("Bob", False, Row(5, ["c"]), Ref(int(seat)), None)
        self.assertEqual(self.guardian.get(seat), wanted)
        self.assertEqual(self.guardian.base(seat), ("Bob", False, (5, ["c"]), Ref(int(seat)), None))

    def test_it_may_be_a_dataclass_for_a_shape_that_is_there(self):
        plain = self.guardian.object("seat", self.SHAPE)
        seat = self.guardian.object("seat", Seat)
        self.assertEqual(int(plain), int(seat))
        number = self.guardian.declare(Seat)
        for obj in seat, number:
            with self.guardian.topaction() as top:
                top.create(obj, Seat("", True, Row(0, []), plain, None))
            self.assertIsInstance(self.guardian.get(obj), Seat)

    def test_what_is_no_field(self):
        @dataclasses.dataclass
        class Wrong:
            n: float

        for wrong in Wrong, int:
            with self.assertRaises(TypeError):
                self.guardian.object("wrong", wrong)
        self.assertEqual(self.guardian.entries, 0)


class Arrays(unittest.TestCase):
    """Arrays within an action."""

    def setUp(self):
        self.guardian = argus.Guardian(patience=0)
        self.addCleanup(self.guardian.close)
        self.numbers = self.guardian.object("numbers", "atomic_array[int]")
        self.top = self.guardian.topaction()

    def test_as_a_sequence(self):
        self.top.create(self.numbers, [10, 20])
        numbers = self.top[self.numbers]
        numbers.append(30)
        numbers.extend([40, 50])
        numbers.appendleft(0)
        self.assertEqual((len(numbers), list(numbers), numbers[0], numbers[-1]), (6, [0, 10, 20, 30, 40, 50], 0, 50))
        self.assertEqual((numbers[1:3], numbers[::-1][0], 30 in numbers), ([10, 20], 50, True))
        self.assertEqual(list(reversed(numbers))[0], 50)
        numbers[1], numbers[-1] = 11, 51
        self.assertEqual((numbers.pop(), numbers.popleft(), list(numbers)), (51, 0, [11, 20, 30, 40]))

    def test_bounds(self):
        for low in 0, 1, -7:
            numbers = self.guardian.object(f"numbers from {low}", "atomic_array[int]")
            self.top.create(numbers, Array(low, [10, 20, 30]))
            view = self.top[numbers]
            self.assertEqual((view.low, view.high, view[0], view[2], view[-3]), (low, low + 2, 10, 30, 10))
            for index in 3, -4:
                for wrong in lambda: view[index], lambda: view.__setitem__(index, 5):
                    with self.assertRaises(IndexError) as raised:
                        wrong()
                    self.assertIsInstance(raised.exception, argus.Bounds)

    def test_what_is_empty(self):
        self.top.create(self.numbers, [])
        numbers = self.top[self.numbers]
        self.assertEqual((len(numbers), list(numbers), bool(numbers)), (0, [], False))
        for wrong in lambda: numbers[0], lambda: numbers[-1], numbers.pop, numbers.popleft:
            with self.assertRaises(argus.Bounds):
                wrong()

    def test_items_with_names(self):
        item = "struct[who:text,of:oneof[no:null,yes:sequence[struct[n:int]]]]"
        queue = self.guardian.object("queue", f"atomic_array[{item}]")
        self.top.create(queue, [("Ann", Choice("no", None))])
        view = self.top[queue]
        view.append({"who": "Bob", "of": Choice("yes", [{"n": 1}, (2,)])})
        self.assertEqual([it.who for it in view], ["Ann", "Bob"])
        self.assertEqual((view[1].of.tag, [it.n for it in view[1].of.value]), ("yes", [1, 2]))
        self.assertEqual(view[0].of, Choice("no", None))
        self.assertEqual(self.top.whole(queue).items[1], ("Bob", Choice(1, [(1,), (2,)])))
        self.assertEqual((view.pop().who, self.guardian.get(queue)), ("Bob", None))

    def test_whole_iterates_over_items(self):
        self.top.create(self.numbers, Array(5, [10, 20]))
        whole = self.top.whole(self.numbers)
        self.assertEqual((list(whole), len(whole), whole.low), ([10, 20], 2, 5))


class Variants(unittest.TestCase):
    """Variants within an action."""

    def test_tags(self):
        with argus.Guardian(patience=0) as guardian:
            state = guardian.object("state", "atomic_variant[free:null,sold:struct[who:text,price:int],tag:int]")
            with guardian.topaction() as top:
                top.create(state, Choice("free"))
                view = top[state]
                self.assertEqual(("free" in view, "sold" in view, top.get(state)), (True, False, Choice("free", None)))
                view.sold = {"who": "Ann", "price": 30}
                self.assertEqual((view.sold.who, view.sold.price, top.get(state).tag), ("Ann", 30, "sold"))
                with self.assertRaises(argus.WrongTag):
                    view.tag
                view.tag = 5
                self.assertEqual((view.tag, top.whole(state)), (5, Choice(2, 5)))
                with self.assertRaises(AttributeError):
                    "lost" in view
                with self.assertRaises(AttributeError):
                    top.create(state, Choice("lost", None))
                with self.assertRaises(argus.IllTyped):
                    view.tag = "text"
            self.assertEqual(guardian.get(state), Choice("tag", 5))


class Tickets(unittest.TestCase):
    """The shop of docs/GUIDE.md, and its twin."""

    @unittest.skipUnless((HOST / "tickets.py").is_file(), "the tests alone are here")
    def test_both_sell_the_same(self):
        outcomes = []
        for name in "tickets", "tickets_in_sqlite":
            shop = importlib.import_module(name).Tickets(2, 3, 2)
            bought = [shop.buy(*order, lambda: None) for order in ((0, 0, 1), (1, 0, 1), (1, 1, 5))]
            with self.assertRaises(KeyError):
                shop.buy(0, 1, 4, {}.popitem)
            outcomes.append((bought, shop.buy(1, 1, 4, lambda: None)))
            (shop.guardian if name == "tickets" else shop.database).close()
        self.assertEqual(outcomes, 2 * [([True, False, True], True)])


class Costs(unittest.TestCase):
    """What once was slow, or was kept."""

    def test_nothing_is_kept_of_what_was_read(self):
        with argus.Guardian() as guardian:
            account = guardian.object("account", "atomic_record[balance:int,of:struct[n:int]]")
            with guardian.topaction() as top:
                top.create(account, (5, (6,)))
                for make in lambda: top[account].of, lambda: top.get(account), lambda: top[account]:
                    make()
                    gc.collect()
                    before = len(gc.get_objects())
                    kept = [make() for _ in range(100)]
                    classes = {type(it) for it in kept}
                    del kept
                    gc.collect()
                    self.assertLess(len(gc.get_objects()) - before, 50)
                    self.assertEqual(len(classes), 1)


if __name__ == "__main__":
    unittest.main()
