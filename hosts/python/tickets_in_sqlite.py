"""Sells seats of events to customers over SQLite; tickets.py is the same over a guardian."""

import sqlite3
from collections.abc import Callable

PRICE = 30


class Tickets:
    def __init__(self, events: int, seats: int, customers: int) -> None:
        self.database = database = sqlite3.connect(":memory:", isolation_level=None)
        database.execute("CREATE TABLE event (number INTEGER PRIMARY KEY, left INTEGER NOT NULL)")
        database.execute("CREATE TABLE seat (number INTEGER PRIMARY KEY, holder TEXT NOT NULL)")
        database.execute("CREATE TABLE customer (number INTEGER PRIMARY KEY, spent INTEGER NOT NULL)")
        database.executemany("INSERT INTO event VALUES (?, ?)", ((it, seats) for it in range(events)))
        database.executemany("INSERT INTO seat VALUES (?, '')", ((it,) for it in range(events * seats)))
        database.executemany("INSERT INTO customer VALUES (?, 0)", ((it,) for it in range(customers)))

    def buy(self, customer: int, event: int, seat: int, pay: Callable[[], None]) -> bool:
        self.database.execute("BEGIN IMMEDIATE")
        with self.database:
            (holder,) = self.database.execute("SELECT holder FROM seat WHERE number = ?", (seat,)).fetchone()
            if holder:
                return False
            self.database.execute("UPDATE seat SET holder = ? WHERE number = ?", (f"customer {customer}", seat))
            self.database.execute("UPDATE event SET left = left - 1 WHERE number = ?", (event,))
            self.database.execute("UPDATE customer SET spent = spent + ? WHERE number = ?", (PRICE, customer))
            pay()  # an exception leaves nothing of the order
            return True
