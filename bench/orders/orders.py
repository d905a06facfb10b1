"""The orders of guardian_orders.c in Python, and those of sqlite_orders.c; each prints the same.

    orders.py guardian|sqlite ORDERS
"""

from __future__ import annotations

import sqlite3
import sys
import time
from collections.abc import Callable

from argus_guardian import Action, Guardian

SEATS, EACH, FOLD_AFTER = 1000, 2, 1000


def seat_of(order: int, at: int) -> int:
    first = order * 7919 % 2**32 % SEATS
    return first if at == 0 else (first + 1 + order % (SEATS - 1)) % SEATS


class GuardianShop:
    """The seats, as records that have the number of the order that holds them."""

    def __init__(self) -> None:
        self.guardian = Guardian()
        for _ in range(SEATS):
            seat = self.guardian.declare("atomic_record[holder:int]")
            with self.guardian.topaction() as top:
                top.create(seat, (0,))

    def take(self, top: Action, seat: int, order: int) -> None:
        """Takes a seat over for an order, from an earlier one."""
        with top.subaction() as sub:
            sub.lock(seat)
            if sub.field(seat, 0) < order:
                sub.set_field(seat, 0, order)

    def carry_out(self, order: int) -> None:
        with self.guardian.topaction() as top:
            for at in range(EACH):
                self.take(top, seat_of(order, at), order)
        if order % FOLD_AFTER == 0:
            self.guardian.checkpoint()

    def holder(self, seat: int) -> int:
        number: int = self.guardian.base(seat)[0]
        return number

    def close(self) -> None:
        self.guardian.close()


class SqliteShop:
    """The same over SQLite in memory."""

    def __init__(self) -> None:
        self.database = sqlite3.connect(":memory:", isolation_level=None)
        self.database.execute("create table seat (number integer primary key, holder integer not null)")
        self.database.executemany("insert into seat values (?, 0)", ((seat,) for seat in range(SEATS)))

    def take(self, seat: int, order: int) -> None:
        self.database.execute("savepoint seat")
        if self.holder(seat) < order:
            self.database.execute("update seat set holder = ? where number = ?", (order, seat))
        self.database.execute("release seat")

    def carry_out(self, order: int) -> None:
        self.database.execute("begin")
        for at in range(EACH):
            self.take(seat_of(order, at), order)
        self.database.execute("commit")

    def holder(self, seat: int) -> int:
        number: int = self.database.execute("select holder from seat where number = ?", (seat,)).fetchone()[0]
        return number

    def close(self) -> None:
        self.database.close()


SHOPS: dict[str, Callable[[], GuardianShop | SqliteShop]] = {"guardian": GuardianShop, "sqlite": SqliteShop}


def main(name: str, orders: int) -> None:
    shop = SHOPS[name]()
    begin = time.process_time()
    for order in range(1, orders + 1):
        shop.carry_out(order)
    taken = time.process_time() - begin
    print(f"{orders / taken:.0f} {sum(shop.holder(seat) * (seat + 1) for seat in range(SEATS))}")
    shop.close()


if len(sys.argv) != 3 or sys.argv[1] not in SHOPS:
    sys.exit("usage: orders.py guardian|sqlite ORDERS")
main(sys.argv[1], int(sys.argv[2]))
