"""Sells seats of events to customers, by names; tickets_in_sqlite.py is the same over SQLite."""

from collections.abc import Callable

from argus_guardian import Guardian

PRICE = 30


class Tickets:
    def __init__(self, events: int, seats: int, customers: int) -> None:
        self.guardian = guardian = Guardian()
        event, seat, customer = (f"atomic_record[{it}]" for it in ("left:int", "holder:text", "spent:int"))
        self.events = [guardian.object(f"event {it}", event) for it in range(events)]
        self.seats = [guardian.object(f"seat {it}", seat) for it in range(events * seats)]
        self.customers = [guardian.object(f"customer {it}", customer) for it in range(customers)]
        with guardian.topaction() as top:
            for objects, content in (self.events, (seats,)), (self.seats, ("",)), (self.customers, (0,)):
                for it in objects:
                    top.create(it, content)

    def buy(self, customer: int, event: int, seat: int, pay: Callable[[], None]) -> bool:
        with self.guardian.topaction() as top:
            place = top.locked(self.seats[seat])
            if place.holder:
                return False
            place.holder = f"customer {customer}"
            top.locked(self.events[event]).left -= 1
            top.locked(self.customers[customer]).spent += PRICE
            pay()  # an exception leaves nothing of the order
            return True
