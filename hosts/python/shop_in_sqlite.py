"""The shop of shop.py over SQLite: each order is two transactions, between which its seats are held.

    python3 shop_in_sqlite.py [PORT]

A transaction that stayed open while the card is charged would have all other orders wait, also those for other
seats. So the hold is a column of its own: an order writes it, looks at it again from time to time where another has
it, and takes it away again where it isn't paid. The database is in memory, as a guardian is; over a file a hold
would need an end by the clock, too, for orders that a crash leaves behind.
"""

from __future__ import annotations

import asyncio
import sqlite3
import threading
import time
from collections.abc import Iterator
from contextlib import contextmanager

from shop_service import PATIENCE, SEATS, Card, Order, Taken, serve

LOOK_AGAIN = 0.002


class SqliteShop:
    """The seats, as rows with the holder's name and the number of the order that is being paid."""

    def __init__(self, card: Card) -> None:
        self._card, self._lock = card, threading.Lock()
        self._database = sqlite3.connect(":memory:", check_same_thread=False, isolation_level=None)
        columns = "number INTEGER PRIMARY KEY, holder TEXT NOT NULL DEFAULT '', held_by INTEGER"
        self._database.execute(f"CREATE TABLE seat ({columns})")
        self._database.executemany("INSERT INTO seat (number) VALUES (?)", ((seat,) for seat in range(SEATS)))

    @contextmanager
    def _transaction(self) -> Iterator[sqlite3.Connection]:
        with self._lock:
            self._database.execute("BEGIN IMMEDIATE")
            try:
                yield self._database
            except BaseException:
                self._database.execute("ROLLBACK")
                raise
            self._database.execute("COMMIT")

    async def sell(self, order: Order) -> list[int]:
        # A thread waits for the database, for seats that are held and for the card.
        return await asyncio.to_thread(self._sell, order)

    def _sell(self, order: Order) -> list[int]:
        try:
            wish = self._hold_first(order)
            self._card.charge(order, len(wish))
            with self._transaction() as database:
                change = "UPDATE seat SET holder = ?, held_by = NULL WHERE held_by = ?"
                database.execute(change, (order.customer, order.number))
            return wish
        except BaseException:
            self._card.refund(order)
            with self._transaction() as database:
                database.execute("UPDATE seat SET held_by = NULL WHERE held_by = ?", (order.number,))
            raise

    def _hold_first(self, order: Order) -> list[int]:
        """Holds all seats of the earliest wish that can be had."""
        for wish in order.wishes:
            limit = time.monotonic() + PATIENCE
            state = self._hold(order, wish)
            while state == "held" and time.monotonic() < limit:
                time.sleep(LOOK_AGAIN)
                state = self._hold(order, wish)
            if state == "free":
                return wish
        raise Taken

    def _hold(self, order: Order, wish: list[int]) -> str:
        """Holds the seats of a wish, if all are free; else says what one of them is."""
        among = f"number IN ({','.join('?' * len(wish))})"
        with self._transaction() as database:
            rows = database.execute(f"SELECT holder, held_by FROM seat WHERE {among}", wish).fetchall()
            if any(holder for holder, _ in rows):
                return "sold"
            if any(held_by is not None for _, held_by in rows):
                return "held"
            database.execute(f"UPDATE seat SET held_by = ? WHERE {among}", (order.number, *wish))
            return "free"

    def states(self) -> list[str]:
        with self._transaction() as database:
            rows = database.execute("SELECT holder, held_by FROM seat ORDER BY number").fetchall()
        return ["held" if held_by is not None else "sold" if holder else "free" for holder, held_by in rows]

    def sold(self) -> int:
        with self._transaction() as database:
            count: int = database.execute("SELECT count(*) FROM seat WHERE holder != ''").fetchone()[0]
        return count

    def journal(self) -> str | None:
        return None

    def close(self) -> None:
        self._database.close()


if __name__ == "__main__":
    serve(SqliteShop)
