"""What an action has to do with an event loop of asyncio: whether its block is in one, and whether it may be."""

from __future__ import annotations

import sys
import warnings
from collections.abc import Callable
from typing import TYPE_CHECKING
from weakref import ref

if TYPE_CHECKING:
    from asyncio import AbstractEventLoop

    from .action import Action

_HELD = (
    "a{}: a `with` block is held over an `await`. Other tasks may come to wait for its locks, and nothing would wake them"
    " in this thread: use `async with guardian.topaction()`"
)


def running_loop() -> AbstractEventLoop | None:
    """The event loop that runs in this thread, if one does. Who hasn't loaded asyncio has none."""
    asyncio = sys.modules.get("asyncio")
    if asyncio is None:
        return None
    try:
        loop: AbstractEventLoop = asyncio.get_running_loop()
        return loop
    except RuntimeError:
        return None


class Entered:
    """What an action has whose `async with` block is under way: `inner` is the one that the block has."""

    def __init__(self, inner: Action | None = None) -> None:
        self.inner = inner


def watch(action: Action) -> None:
    """Warns if a `with` block of the action is still under way when the event loop, if one runs, goes on."""
    loop = running_loop()
    if loop is not None:
        action._loop = loop.call_soon(_warn_if_live, ref(action))


def _warn_if_live(action: Callable[[], Action | None]) -> None:
    held = action()
    if held is not None and not held._is_ended:
        warnings.warn(_HELD.format(held._number), RuntimeWarning, stacklevel=1, source=held)
