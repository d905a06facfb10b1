"""A shop that sells the seats of a hall: each order is a topaction, each seat a record.

    python3 shop.py [PORT]

The seats of an order are locked while it is paid. Who wants one of them waits for what comes of that; who wants
others doesn't. shop_in_sqlite.py is the same over SQLite, shop_service.py what both have in common.
"""

from __future__ import annotations

from argus_guardian import Action, Conflict, Guardian, write_content
from shop_service import PATIENCE, SEATS, Card, Order, Taken, serve

FREE = write_content(("",))
FOLD_AFTER = 20_000


class GuardianShop:
    """The seats, as records that have the holder's name; an empty one of a seat that is free."""

    def __init__(self, card: Card) -> None:
        self._card, self._guardian = card, Guardian(patience=PATIENCE, checkpoint_after=FOLD_AFTER)
        self._seats = [self._guardian.declare("atomic_record[holder:text]") for _ in range(SEATS)]
        with self._guardian.topaction() as top:
            for seat in self._seats:
                top.create(seat, holder="")

    async def sell(self, order: Order) -> list[int]:
        try:
            async with self._guardian.topaction() as top:
                wish = await self._take_first(top, order)
                await self._card.acharge(order, len(wish))
                return wish
        except BaseException:
            self._card.refund(order)
            raise

    async def _take_first(self, top: Action, order: Order) -> list[int]:
        """Takes all seats of the earliest wish that can be had."""
        for wish in order.wishes:
            try:
                async with top.subaction() as sub:
                    for seat in sorted(wish):
                        place = await sub.alocked(seat)
                        if place.holder:
                            raise Taken
                        place.holder = order.customer
                return wish
            except (Taken, Conflict):
                pass
        raise Taken

    def states(self) -> list[str]:
        states = {}
        # A listing is of one moment. It has the base of each object, and then who holds it.
        for line in self._guardian.list("stacks").split("\n")[:-1]:
            seat, what, content = line.split(" ", 2)
            if what == "base":
                states[seat] = "free" if content == FREE else "sold"
            elif what == "version":
                states[seat] = "held"
        return list(states.values())

    def sold(self) -> int:
        def work(top: Action) -> int:
            return sum(top[seat].holder != "" for seat in self._seats)

        return self._guardian.run(work)

    def journal(self) -> str | None:
        return self._guardian.list("journal")

    def close(self) -> None:
        self._guardian.close()


if __name__ == "__main__":
    serve(GuardianShop)
