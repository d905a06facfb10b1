"""Guardians and logs in a forked process.

The child has a copy of each, maybe in the middle of a call of a thread that the child hasn't got. So
they are closed there, and their memory isn't touched.
"""

from __future__ import annotations

import os
import weakref
from typing import Protocol


class _Opened(Protocol):
    def _leave_behind(self) -> None: ...


_OPEN: weakref.WeakSet[_Opened] = weakref.WeakSet()


def add(opened: _Opened) -> None:
    """From now on each forked process closes the guardian, or the log."""
    _OPEN.add(opened)


def _close_all() -> None:
    for opened in list(_OPEN):
        opened._leave_behind()


# Without fork, there is nothing to do.
if hasattr(os, "register_at_fork"):
    os.register_at_fork(after_in_child=_close_all)
