"""A shop whose orders outlive its process: python3 durable_shop.py shop.db CUSTOMER SEAT.."""

import sys

from argus_guardian import Action, Log

path, customer, seats = sys.argv[1], sys.argv[2], sorted(map(int, sys.argv[3:]))

with Log.open_or_create(path) as shop:
    hall = [shop.guardian.object(f"seat {it}", "atomic_record[holder:text]") for it in range(40)]

    def sell(top: Action) -> str:
        places = [top.locked(hall[seat]) for seat in seats]
        if any(place.holder for place in places):
            return "taken"
        for place in places:
            place.holder = customer
        return "sold"

    with shop.topaction() as top:
        for seat in (it for it in hall if shop.guardian.get(it) is None):
            top.create(seat, holder="")
    print(shop.run(sell))  # here it is on disk
