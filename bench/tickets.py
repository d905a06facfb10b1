#!/usr/bin/env python3
# SPDX-License-Identifier: MIT
"""Prints how long an order takes in the ticket shop of hosts/python, by names and by numbers, beside its twin over
SQLite in memory: microseconds of processor time in one thread, and the ratios.

    [ARGUS_LIBRARY=dist/lib/libargus.so.0] bench/tickets.py [FOLDER] [RUNS]

20 events have 400 seats each; 8,000 orders of 500 customers come for seats by chance, and of each ten cards one is
declined. A figure is the median of 5 runs, which take turns; a ratio is the median of those within a run. All three have
to sell the same. FOLDER is that of the package as pip builds it, such as build/beside_sqlite/python; else hosts/python,
whose calls go by ctypes.
"""

import random
import statistics
import sys
import time
from pathlib import Path

sys.path.insert(0, sys.argv[1] if len(sys.argv) > 1 else str(Path(__file__).resolve().parents[1] / "hosts/python"))

import tickets  # noqa: E402
import tickets_in_sqlite  # noqa: E402

RUNS = int(sys.argv[2]) if len(sys.argv) > 2 else 5
EVENTS, SEATS, CUSTOMERS, ORDERS, DECLINED = 20, 400, 500, 8000, 0.1
HOLDER, LEFT, SPENT = 0, 0, 0


class Declined(Exception):
    """The card isn't charged."""


class ByNumbers(tickets.Tickets):
    """The same shop, whose objects and fields are numbers."""

    def __init__(self, *sizes):
        super().__init__(*sizes)
        self.events, self.seats, self.customers = (
            [it.number for it in kind] for kind in (self.events, self.seats, self.customers)
        )

    def buy(self, customer, event, seat, pay):
        event, seat, number = self.events[event], self.seats[seat], self.customers[customer]
        with self.guardian.topaction() as top:
            top.lock(seat)
            if top.field(seat, HOLDER):
                return False
            top.set_field(seat, HOLDER, f"customer {customer}")
            top.lock(event)
            top.set_field(event, LEFT, top.field(event, LEFT) - 1)
            top.lock(number)
            top.set_field(number, SPENT, top.field(number, SPENT) + tickets.PRICE)
            pay()
            return True


SHOPS = {"by names": tickets.Tickets, "by numbers": ByNumbers, "SQLite": tickets_in_sqlite.Tickets}


def decline():
    raise Declined


def drawn_orders():
    draws = random.Random(1)
    for _ in range(ORDERS):
        event = draws.randrange(EVENTS)
        pay = decline if draws.random() < DECLINED else lambda: None
        yield draws.randrange(CUSTOMERS), event, event * SEATS + draws.randrange(SEATS), pay


def sold_by(shop, orders):
    """Which orders got a seat, and the microseconds for each order."""
    sold, begin = [], time.process_time()
    for order in orders:
        try:
            sold.append(shop.buy(*order))
        except Declined:
            sold.append(None)
    return sold, (time.process_time() - begin) / len(orders) * 1e6


def main():
    orders, taken, sold = list(drawn_orders()), {name: [] for name in SHOPS}, []
    for _ in range(RUNS):
        for name, shop in SHOPS.items():
            outcome, time_of_order = sold_by(shop(EVENTS, SEATS, CUSTOMERS), orders)
            taken[name].append(time_of_order)
            sold.append(outcome)
    if any(it != sold[0] for it in sold):
        sys.exit("tickets.py: they don't sell the same")
    print(f"{sold[0].count(True)} sold, {sold[0].count(False)} taken before, {sold[0].count(None)} declined")
    for name, times in taken.items():
        ratio = statistics.median(one / other for one, other in zip(times, taken["SQLite"]))
        print(f"{name:<10} {statistics.median(times):6.2f} microseconds, {ratio:.2f} of SQLite's")


main()
