"""The classes on which the package's own stand: those of `_call.c`, which pip builds if it can, else those of plain.py."""

from __future__ import annotations

from typing import TYPE_CHECKING

if TYPE_CHECKING:
    from .plain import Acting, Gate, Place, Typed, View
else:
    try:
        from ._call import Acting, Gate, Place, Typed, View
    except ImportError:
        from .plain import Acting, Gate, Place, Typed, View

# Whether calls are made at once.
AT_ONCE = Gate.__module__ != f"{__package__}.plain"

__all__ = ["AT_ONCE", "Acting", "Gate", "Place", "Typed", "View"]
