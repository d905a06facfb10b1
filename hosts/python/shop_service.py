"""What the shops have in common: orders, the card, and the service that a browser and shop_load.py talk to.

    GET /            the page, which shows the seats live
    GET /live        the seats as events, one at each change
    GET /seats       the seats as they are
    POST /orders     {"customer": "Ann", "wishes": [[4, 5], [11, 12]]}: the first wish that can be had
    GET /audit       how many seats are sold, and for how many the card was charged
    GET /picture     what happened since the journal was folded, drawn: where there is a journal

It stands on aiohttp (Debian: python3-aiohttp). The picture is drawn by ./picture of the repository, once the program
has confirmed the journal that REPLAY names, or else the one that `./replay --prove` leaves.

A seat is free, or held by an order that is being paid, or sold.
"""

from __future__ import annotations

import asyncio
import itertools
import json
import os
import sys
import threading
import time
from collections.abc import AsyncIterator, Callable
from concurrent.futures import ThreadPoolExecutor
from dataclasses import dataclass
from pathlib import Path
from typing import Protocol

from aiohttp import web

SEATS = int(os.environ.get("SHOP_SEATS", "60"))
PORT = 8080
# How long an order waits for a seat that another one is paying for, and how long paying takes, in seconds.
PATIENCE = 0.5
PAYING = 0.01
# So many orders are carried out at once; each is a thread, which mostly waits for the card.
THREADS = 32
LOOK_EVERY = 0.05
# The program that draws a journal, the one that confirms it before, and how long a journal they are handed, in bytes of
# its listing.
TOP = Path(__file__).resolve().parents[2]
PICTURE = str(TOP / "picture")
REPLAY = os.environ.get("REPLAY", str(TOP / "crates/replay/out/replay"))
MOST_DRAWN = 1 << 18


class Taken(Exception):
    """No wish of an order can be had."""


class Declined(Exception):
    """The card doesn't pay."""


@dataclass(frozen=True)
class Order:
    """Who wants which seats: one of the wishes, the earliest that can be had."""

    number: int
    customer: str
    wishes: list[list[int]]


class Card:
    """Stands for a bank elsewhere: it takes its time, and Dora's card doesn't pay."""

    def __init__(self) -> None:
        self._lock = threading.Lock()
        self._charged: dict[int, int] = {}

    def charge(self, order: Order, seats: int) -> None:
        """Charges it, for a thread. Declined if that can't be."""
        time.sleep(PAYING)
        self._note(order, seats)

    async def acharge(self, order: Order, seats: int) -> None:
        """The same for a task."""
        await asyncio.sleep(PAYING)
        self._note(order, seats)

    def _note(self, order: Order, seats: int) -> None:
        if order.customer == "Dora":
            raise Declined
        with self._lock:
            self._charged[order.number] = seats

    def refund(self, order: Order) -> None:
        """Gives back what the order was charged, if anything."""
        with self._lock:
            self._charged.pop(order.number, None)

    def seats(self) -> int:
        """For how many seats it was charged."""
        with self._lock:
            return sum(self._charged.values())


class Shop(Protocol):
    """What sells the seats."""

    async def sell(self, order: Order) -> list[int]:
        """The seats that the order gets, all of a wish. Taken or Declined: it has none, and pays nothing."""

    def states(self) -> list[str]:
        """Of each seat whether it is free, held or sold."""

    def sold(self) -> int:
        """How many seats are sold."""

    def journal(self) -> str | None:
        """The listing of its journal, if it has one."""

    def close(self) -> None:
        """Is called once, after the last order."""


PAGE = """<!doctype html>
<meta charset="utf-8"><title>Seats</title>
<style>
body { font-family: sans-serif } div { display: grid; grid-template-columns: repeat(10, 3em); gap: .4em }
span { padding: .6em 0; text-align: center; border-radius: .3em }
.free { background: #cde8cf } .held { background: #f5dd9b } .sold { background: #c9c9c9; color: #777 }
</style>
<h1>Seats</h1><div id="seats"></div>
<p><span class="free"> free </span> <span class="held"> being paid </span> <span class="sold"> sold </span></p>
<p><input id="customer" value="Ann"> buys the seat that is clicked. <b id="told"></b></p>
<p><a href="/picture">What happened</a></p>
<script>
const byId = name => document.getElementById(name)
new EventSource("/live").onmessage = event => byId("seats").replaceChildren(
  ...JSON.parse(event.data).map((state, seat) => {
    const it = document.createElement("span")
    it.className = state; it.textContent = seat; it.onclick = () => buy(seat)
    return it
  }))
async function buy(seat) {
  const order = JSON.stringify({ customer: byId("customer").value, wishes: [[seat]] })
  const told = await (await fetch("/orders", { method: "POST", body: order })).json()
  byId("told").textContent = told.why || "Seat " + told.seats.join(", ")
}
</script>
"""


def is_wish(given: object) -> bool:
    """Whether it is a list of seats, none of them twice."""
    if not isinstance(given, list) or not given or len(given) > SEATS:
        return False
    return all(type(it) is int and 0 <= it < SEATS for it in given) and len(set(given)) == len(given)


def read_order(number: int, given: object) -> Order:
    """The order that a request has. ValueError where it has none."""
    if isinstance(given, dict):
        customer, wishes = given.get("customer"), given.get("wishes")
        if isinstance(customer, str) and customer and isinstance(wishes, list) and wishes:
            if all(map(is_wish, wishes)):
                return Order(number, customer, wishes)
    raise ValueError("an order has a customer and wishes, which are lists of seats, none twice")


class Service:
    """The requests, over a shop."""

    def __init__(self, shop: Shop, card: Card) -> None:
        self._shop, self._card, self._numbers = shop, card, itertools.count()

    async def page(self, _: web.Request) -> web.Response:
        return web.Response(text=PAGE, content_type="text/html")

    async def seats(self, _: web.Request) -> web.Response:
        return web.json_response(self._shop.states())

    async def order(self, request: web.Request) -> web.Response:
        """Answers an order, which may wait for seats and for the card."""
        try:
            order = read_order(next(self._numbers), await request.json())
        except ValueError as error:
            return web.json_response({"why": str(error)}, status=400)
        try:
            return web.json_response({"seats": await self._shop.sell(order)})
        except Taken:
            return web.json_response({"why": "taken"}, status=409)
        except Declined:
            return web.json_response({"why": "declined"}, status=402)

    async def live(self, request: web.Request) -> web.StreamResponse:
        """Sends the seats, and again at each change, until the page is closed."""
        answer = web.StreamResponse(headers={"Content-Type": "text/event-stream", "Cache-Control": "no-store"})
        await answer.prepare(request)
        sent = None
        while request.transport and not request.transport.is_closing():
            states = json.dumps(self._shop.states())
            if states != sent:
                await answer.write(f"data: {states}\n\n".encode())
                sent = states
            await asyncio.sleep(LOOK_EVERY)
        return answer

    async def picture(self, _: web.Request) -> web.Response:
        """Draws the journal."""
        journal = await asyncio.to_thread(self._shop.journal)
        if journal is None or not all(os.access(it, os.X_OK) for it in (PICTURE, REPLAY)):
            return web.Response(status=404, text="there is no journal, or no program that confirms or draws it")
        if len(journal) > MOST_DRAWN:
            return web.Response(status=404, text="the journal is too long to be drawn")
        pipe, settings = asyncio.subprocess.PIPE, {**os.environ, "REPLAY": REPLAY}
        program = await asyncio.create_subprocess_exec(PICTURE, stdin=pipe, stdout=pipe, env=settings)
        drawn = (await program.communicate(journal.encode()))[0]
        if program.returncode != 0:
            return web.Response(status=500, text=f"the program that draws it has ended by {program.returncode}")
        return web.Response(body=drawn, content_type="image/svg+xml")

    async def audit(self, _: web.Request) -> web.Response:
        sold = await asyncio.to_thread(self._shop.sold)
        return web.json_response({"sold": sold, "charged": self._card.seats()})


def application(make: Callable[[Card], Shop]) -> web.Application:
    """The service, over a new shop."""
    card = Card()
    shop = make(card)
    service = Service(shop, card)

    async def open_and_close(_: web.Application) -> AsyncIterator[None]:
        asyncio.get_running_loop().set_default_executor(ThreadPoolExecutor(THREADS))
        yield
        shop.close()

    app = web.Application()
    app.cleanup_ctx.append(open_and_close)
    routes = [web.get("/", service.page), web.get("/seats", service.seats), web.get("/live", service.live)]
    routes += [web.get("/audit", service.audit), web.get("/picture", service.picture)]
    app.add_routes([*routes, web.post("/orders", service.order)])
    return app


def serve(make: Callable[[Card], Shop]) -> None:
    """Serves the shop until it is stopped, on the port that the command line names."""
    port = int(sys.argv[1]) if len(sys.argv) > 1 else PORT
    web.run_app(application(make), host="127.0.0.1", port=port)
