"""Sends orders to a shop, many at once, and looks whether what came of them fits together.

    python3 shop_load.py guardian|sqlite|URL [ORDERS] [AT_ONCE]

`guardian` and `sqlite` name the shops of shop.py and shop_in_sqlite.py, which are then served here. Each seat that
was sold has to be one order's, and to be paid; those that weren't are free; the page was shown each change. What is
printed on standard output doesn't depend on time; how many orders a second there were goes to standard error.
"""

from __future__ import annotations

import asyncio
import json
import random
import sys
import time
from collections import Counter
from collections.abc import AsyncIterator, Callable
from contextlib import asynccontextmanager

import aiohttp
from aiohttp import web

from shop import GuardianShop
from shop_in_sqlite import SqliteShop
from shop_service import SEATS, Card, Shop, application

SHOPS: dict[str, Callable[[Card], Shop]] = {"guardian": GuardianShop, "sqlite": SqliteShop}
ORDERS = 300
AT_ONCE = 24
# In seconds.
SHOWN_WITHIN = 10
CUSTOMERS = ("Ann", "Bob", "Carol", "Dora", "Emil")


def drawn_order(draws: random.Random) -> tuple[str, list[list[int]]]:
    """The customer and the wishes of an order: three times one to three seats beside one another."""
    count = draws.randint(1, 3)
    begins = (draws.randint(0, SEATS - count) for _ in range(3))
    return draws.choice(CUSTOMERS), [list(range(it, it + count)) for it in begins]


@asynccontextmanager
async def shop_at(name: str) -> AsyncIterator[str]:
    """Where the shop is. One that is named is served here meanwhile."""
    if name not in SHOPS:
        yield name.rstrip("/")
        return
    runner = web.AppRunner(application(SHOPS[name]))
    await runner.setup()
    try:
        site = web.TCPSite(runner, "127.0.0.1", 0)
        await site.start()
        host, port = runner.addresses[0][:2]
        yield f"http://{host}:{port}"
    finally:
        await runner.cleanup()


class Load:
    """The orders that are sent, and what is told of them."""

    def __init__(self, session: aiohttp.ClientSession, url: str, orders: int) -> None:
        self.session, self.url = session, url
        self.draws = random.Random(1)
        self.left = orders
        self.sold: list[int] = []
        self.answers: Counter[int] = Counter()
        self.times: list[float] = []
        self.shown: list[str] = []
        self.faults: list[str] = []

    async def get(self, path: str) -> str:
        async with self.session.get(self.url + path) as answer:
            return await answer.text()

    async def watch(self) -> None:
        """Keeps what the page is shown of the seats."""
        async with self.session.get(self.url + "/live") as answer:
            async for line in answer.content:
                if line.startswith(b"data: "):
                    self.shown = json.loads(line[6:])

    async def send(self) -> None:
        """Sends one order after another."""
        while self.left:
            self.left -= 1
            customer, wishes = drawn_order(self.draws)
            begin, order = time.monotonic(), {"customer": customer, "wishes": wishes}
            async with self.session.post(self.url + "/orders", json=order) as answer:
                told = await answer.json()
            self.times.append(time.monotonic() - begin)
            self.answers[answer.status] += 1
            if answer.status == 200:
                self.sold += told["seats"]
                self.expect(told["seats"] in wishes, f"seats that weren't wished for: {told}, {order}")
                self.expect(customer != "Dora", f"an order that wasn't paid: {told}, {order}")

    def expect(self, is_so: bool, fault: str) -> None:
        if not is_so:
            self.faults.append(fault)

    async def look(self) -> None:
        """Looks whether all fits together, now that no order is under way."""
        states, audit = json.loads(await self.get("/seats")), json.loads(await self.get("/audit"))
        wanted = ["sold" if seat in self.sold else "free" for seat in range(SEATS)]
        self.expect(len(self.sold) == len(set(self.sold)), f"a seat was sold twice: {sorted(self.sold)}")
        self.expect(states == wanted, f"the seats are {states}, and were sold so: {wanted}")
        self.expect(audit == {"sold": len(self.sold), "charged": len(self.sold)}, f"the audit says {audit}")
        self.expect(self.answers.keys() <= {200, 402, 409}, f"answers {dict(self.answers)}")
        # The page is shown the last change within some looks.
        limit = time.monotonic() + SHOWN_WITHIN
        while self.shown != wanted and time.monotonic() < limit:
            await asyncio.sleep(0.01)
        self.expect(self.shown == wanted, f"the page was shown {self.shown} at last")
        self.expect("<title>Seats</title>" in await self.get("/"), "there is no page")
        await self.look_at_picture()

    async def look_at_picture(self) -> None:
        """Looks whether the journal is drawn, if it may be: a program draws it that needn't be there."""
        async with self.session.get(self.url + "/picture") as answer:
            text = await answer.text()
            is_drawn = answer.status == 200 and text.startswith("<svg ")
            self.expect(is_drawn or answer.status == 404, f"the picture is {answer.status}: {text[:80]}")
            print("the journal is drawn" if is_drawn else text, file=sys.stderr)


def tell(load: Load, taken: float) -> None:
    """Prints what depends on time, on standard error."""
    times = sorted(load.times)
    rates = f"{len(times) / taken:.0f} orders a second, half of them within {times[len(times) // 2] * 1000:.0f} ms"
    counts = f"{load.answers[200]} sold, {load.answers[402]} not paid, {load.answers[409]} of seats that were taken"
    print(f"{rates}; {counts}; {len(load.sold)} of {SEATS} seats sold", file=sys.stderr)


async def main(name: str, orders: int, at_once: int) -> int:
    async with shop_at(name) as url, aiohttp.ClientSession() as session:
        load = Load(session, url, orders)
        watching = asyncio.create_task(load.watch())
        begin = time.monotonic()
        await asyncio.gather(*(load.send() for _ in range(at_once)))
        tell(load, time.monotonic() - begin)
        await load.look()
        watching.cancel()
        await asyncio.wait([watching])
    print(*load.faults, f"{orders} orders: {len(load.faults)} faults", sep="\n")
    return 1 if load.faults else 0


if __name__ == "__main__":
    if len(sys.argv) < 2:
        sys.exit("usage: shop_load.py guardian|sqlite|URL [ORDERS] [AT_ONCE]")
    sizes = [int(it) for it in sys.argv[2:4]] + [ORDERS, AT_ONCE][len(sys.argv) - 2 :]
    sys.exit(asyncio.run(main(sys.argv[1], *sizes)))
