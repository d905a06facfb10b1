"""Which numbers the library takes. ctypes would cut off what is beyond them."""

from operator import index
from typing import SupportsIndex

U32 = 2**32 - 1
U64 = 2**64 - 1
LEAST = -(2**63)
MOST = 2**63 - 1
# Of fields and tags.
BYTE = 2**8 - 1


def within(number: SupportsIndex, low: int, high: int, what: str) -> int:
    """The number as an int. OverflowError if it isn't within these bounds, TypeError if it isn't an integer."""
    plain = index(number)
    if low <= plain <= high:
        return plain
    raise OverflowError(f"{what} {plain} is not within {low} to {high}")


def seconds(number: float, what: str) -> float:
    """The number, for how long something waits. TypeError if it is no number, ValueError if it is NaN."""
    if isinstance(number, bool) or not isinstance(number, (int, float)):
        raise TypeError(f"{what} {number!r} is no number of seconds")
    if number != number:
        raise ValueError(f"{what} is not a number")
    return number


def i64(number: SupportsIndex, what: str) -> int:
    return within(number, LEAST, MOST, what)


def u32(number: SupportsIndex, what: str) -> int:
    return within(number, 0, U32, what)
