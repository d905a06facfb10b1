"""A bank: orders of four transfers each, carried out by many threads.

An order is a topaction and each of its transfers a subaction, which pays in before it pays out. The
last transfer of each order asks for more than the whole bank has: it is refused, and aborts alone.
Each tenth order is cancelled at its end, and takes its committed transfers with it. One more thread
audits: all that one topaction reads is of one moment, so the sum is always the same.

    python3 bank.py [ORDERS]

What is printed on standard output doesn't depend on time. ORDERS is how many each thread carries out.
"""

from __future__ import annotations

import sys
import time
from concurrent.futures import ThreadPoolExecutor

from argus_guardian import Action, Busy, Guardian

ACCOUNTS = 16
BALANCE = 1_000_000_000
THREADS = 4
ORDERS = 250
AUDITS = 20
TRANSFERS = 4
FOLD_AFTER = 100
Transfer = tuple[int, int, int]
ALL = ACCOUNTS * BALANCE
WORD = 2**64


class TooLittle(Exception):
    """An account has less than a transfer asks for."""


class Cancelled(Exception):
    """An order is cancelled at its end."""


class Draws:
    """Numbers as if by chance, the same at each run: a linear congruential generator."""

    def __init__(self, state: int) -> None:
        self.state = state

    def below(self, count: int) -> int:
        self.state = (self.state * 6364136223846793005 + 1442695040888963407) % WORD
        return (self.state >> 33) % count


def drawn_order(draws: Draws) -> list[Transfer]:
    """Four transfers (from, to, amount), of which the last can't be made."""
    order = []
    for _ in range(TRANSFERS):
        source = draws.below(ACCOUNTS)
        target = (source + 1 + draws.below(ACCOUNTS - 1)) % ACCOUNTS
        order.append((source, target, 1 + draws.below(10)))
    source, target, _ = order.pop()
    return [*order, (source, target, ALL + 1)]


def make(top: Action, source: int, target: int, amount: int) -> None:
    """Makes the transfer in a subaction. TooLittle: nothing is left of it."""
    with top.subaction() as sub:
        sub.set_field(target, 0, sub.field(target, 0) + amount)
        balance = sub.field(source, 0)
        if balance < amount:
            raise TooLittle
        sub.set_field(source, 0, balance - amount)


class Clerk:
    """What one thread does, and what came of it."""

    def __init__(self, bank: Guardian, number: int) -> None:
        self.bank, self.draws = bank, Draws(number)
        self.carried_out = self.cancelled = self.made = self.refused = self.made_in_vain = 0

    def carry_out(self, order: list[Transfer], is_cancelled: bool) -> None:
        made = 0
        try:
            with self.bank.topaction() as top:
                # In one order, so that no two threads wait for each other.
                for account in sorted({it for transfer in order for it in transfer[:2]}):
                    top.lock(account)
                for transfer in order:
                    try:
                        make(top, *transfer)
                        made += 1
                    except TooLittle:
                        self.refused += 1
                if is_cancelled:
                    raise Cancelled
        except Cancelled:
            self.cancelled += 1
            self.made_in_vain += made
        else:
            self.carried_out += 1
            self.made += made

    def work(self, orders: int) -> Clerk:
        for number in range(orders):
            self.carry_out(drawn_order(self.draws), number % 10 == 9)
            if number % FOLD_AFTER == FOLD_AFTER - 1:
                self.fold()
        return self

    def fold(self) -> None:
        # Where an audit takes its time, the next fold does it.
        try:
            self.bank.checkpoint(patience=1)
        except Busy:
            pass


def audit(bank: Guardian) -> int:
    """How many audits find what the bank began with."""
    right = 0
    for _ in range(AUDITS):
        with bank.topaction() as top:
            right += sum(top.field(account, 0) for account in range(ACCOUNTS)) == ALL
    return right


def open_bank(bank: Guardian) -> None:
    for _ in range(ACCOUNTS):
        account = bank.declare("atomic_record[balance:int]")
        with bank.topaction() as top:
            top.create(account, (BALANCE,))


def run(bank: Guardian, orders: int) -> tuple[list[Clerk], int]:
    """Has all threads work; what the clerks did, and how many audits were right."""
    with ThreadPoolExecutor(THREADS + 1) as pool:
        audits = pool.submit(audit, bank)
        clerks = [pool.submit(Clerk(bank, number).work, orders) for number in range(THREADS)]
        return [it.result() for it in clerks], audits.result()


def main(orders: int) -> None:
    with Guardian(patience=100) as bank:
        open_bank(bank)
        before, begin = bank.entries, time.monotonic()
        clerks, right = run(bank, orders)
        taken, calls = time.monotonic() - begin, bank.entries - before
        print(f"{calls} calls in {taken:.2f} s, {calls / taken:.0f} a second", file=sys.stderr)

        def total(name: str) -> int:
            return sum(getattr(clerk, name) for clerk in clerks)

        print(f"accounts {ACCOUNTS}, threads {THREADS}")
        print(f"orders {THREADS * orders}: {total('carried_out')} carried out, {total('cancelled')} cancelled")
        print(
            f"transfers {THREADS * orders * TRANSFERS}: {total('made')} made, {total('refused')} refused,"
            f" {total('made_in_vain')} cancelled with their order"
        )
        print(f"audits {AUDITS}, {right} of them find {ALL}")
        balances = [bank.base(account)[0] for account in range(ACCOUNTS)]
        print(f"sum {sum(balances)}")
        print(f"weighed {sum(place * balance for place, balance in enumerate(balances, 1))}")
        bank.checkpoint()
        print("nothing is live")


if __name__ == "__main__":
    main(int(sys.argv[1]) if len(sys.argv) > 1 else ORDERS)
