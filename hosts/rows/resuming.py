"""Listings of journals, made into guardians again: whole, each front of them, with each bit changed, and with each
allocation refused in turn."""

from __future__ import annotations

from argus_guardian.library import Question, Status
from guardian import Guardian, NoMemory, opened

# More allocations than the longest listing takes.
MOST = 5000
FAULTS = range(Status.NOT_UTF8, Status.NOT_THE_REPLY + 1)


class Wrong(Exception):
    """What isn't as it has to be."""


def come_back(listing: bytes) -> None:
    """The guardian of a listing has the same one. Wrong if it hasn't."""
    guardian = opened(listing)
    if guardian.listing() != listing:
        raise Wrong("a listing comes back as another one")
    guardian.close()


def try_all(listing: bytes) -> None:
    """All of these with one listing. Wrong at the first that isn't as it has to be."""
    come_back(listing)
    for size in range(len(listing)):
        take_front(listing, size)
        change_byte(listing, size)
    take_at_last(listing)
    open_at_last(listing)


def take_front(listing: bytes, size: int) -> None:
    """A front of a listing gives its whole lines, and goes on to the whole listing. Objects of the opening are dropped
    only where others are still to come, which they may refer to."""
    guardian, front = Guardian(), listing[:size]
    taken = guardian.resume(front)
    whole = front.rfind(b"\n") + 1
    if (taken.status, taken.bytes, taken.lines) != (Status.DONE, whole, front.count(b"\n")):
        raise Wrong(f"of {size} bytes is taken {taken}")
    dropped = be_opened(guardian, listing, taken.bytes)
    if dropped and not listing[whole:].startswith(b"opening "):
        raise Wrong(f"after {size} bytes {dropped} are dropped, but all of its opening is there")
    guardian.resume(front)
    if guardian.resume(listing[whole:]).status != Status.DONE:
        raise Wrong(f"after {size} bytes a listing doesn't go on")
    be_opened(guardian, listing, len(listing))
    guardian.close()


def be_opened(guardian: Guardian, listing: bytes, taken: int) -> int:
    """The guardian of what was taken has these lines in its listing, but for those that were dropped: so many bytes."""
    status, dropped = guardian.resumed()
    if status != Status.DONE or guardian.listing() != listing[: taken - dropped]:
        raise Wrong(f"of {taken} bytes comes another guardian, and {dropped} are dropped")
    return dropped


def change_byte(listing: bytes, at: int) -> None:
    """Each bit of a byte is changed: no line before it is at fault, and what is taken is a listing."""
    guardian = Guardian()
    for bit in range(8):
        changed = listing[:at] + bytes([listing[at] ^ 1 << bit]) + listing[at + 1 :]
        taken = guardian.resume(changed)
        left = changed[taken.bytes :]
        is_told = b"\n" not in left if taken.status == Status.DONE else taken.status in FAULTS and b"\n" in left
        if not is_told or b"\n" in changed[taken.bytes : at]:
            raise Wrong(f"with bit {bit} of byte {at} changed is taken {taken}")
        dropped = be_opened(guardian, changed, taken.bytes)
        if not left and not dropped:
            come_back(changed)
    guardian.close()


def take_at_last(listing: bytes) -> None:
    """Each allocation is refused in turn; from there the rest is taken."""
    for allowed in range(MOST):
        guardian = Guardian()
        guardian.allowed = allowed
        taken = guardian.resume(listing)
        guardian.allowed = -1
        rest = guardian.resume(listing[taken.bytes :])
        if taken.status not in (Status.DONE, Status.NO_MEMORY) or rest.status != Status.DONE:
            raise Wrong(f"with {allowed} allocations is taken {taken}, and then {rest}")
        be_opened(guardian, listing, len(listing))
        guardian.close()
        if taken.status == Status.DONE:
            return
    raise Wrong("a listing is never taken")


def open_at_last(listing: bytes) -> None:
    """The guardian is made with each allocation refused in turn, and nothing is lost until it is. Before that comes a
    line with another reply, of which nothing stays."""
    guardian = Guardian()
    guardian.resume(listing)
    line = f"{opened(listing).number(Question.ENTRIES)} begin_top -> a99\n".encode()
    if guardian.resume(line).status != Status.NOT_THE_REPLY:
        raise Wrong("another reply isn't told")
    for allowed in range(MOST):
        guardian.allowed = allowed
        try:
            be_opened_with(guardian, listing)
            return
        except NoMemory:
            if guardian.number(Question.ENTRIES) != 0:
                raise Wrong("the guardian that is held has changed") from None
    raise Wrong("a guardian is never opened")


def be_opened_with(guardian: Guardian, listing: bytes) -> None:
    """As `be_opened`, of all of it. NoMemory if an allocation was refused."""
    if guardian.resumed() != (Status.DONE, 0) or guardian.listing() != listing:
        raise Wrong("another guardian is opened at last")
