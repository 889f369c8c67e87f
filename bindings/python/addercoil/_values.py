"""What the package hands out in the place of numbers: a refusal, a value that is over, and the readings of an array."""
from __future__ import annotations

from collections.abc import Sequence
from dataclasses import dataclass
from typing import Any, Union

from . import _names

TURN = 2**32  # units of a circle


@dataclass(frozen=True)
class Refusal:
    """Why the library refused: its number, and what that means in words."""

    number: int

    @property
    def name(self) -> str:
        """The name in the C header, without ADDERCOIL_REFUSED_ before it."""
        return _names.REFUSALS.get(self.number, "")

    @property
    def words(self) -> str:
        """What the number means."""
        return _names.WORDS.get(self.number, "")

    def __str__(self) -> str:
        return f"refused with {self.number}: {self.words}"


class Refused(ValueError):
    """A table that cannot be made, since a constructor has no other way to refuse; or two listings that cannot become one."""

    def __init__(self, refusal: Refusal) -> None:
        super().__init__(str(refusal))
        self.refusal = refusal


@dataclass(frozen=True)
class Over:
    """Above what the code can say. It is no number, and no arithmetic takes it; `least` is where it begins, if the standard says that."""

    least: float | None = None

    def __str__(self) -> str:
        return "over"


Value = Union[int, float, str, bool, Over, None]


def refusal(number: int) -> Refusal | None:
    """What an answer of the library is."""
    return Refusal(number) if number else None


FIELD = Refusal(next(number for number, name in _names.REFUSALS.items() if name == "FIELD"))  # a number out of its range
LOG = Refusal(next(number for number, name in _names.REFUSALS.items() if name == "LOG"))


def signed(entry: int) -> int:
    """A number that can be below zero stands in two's complement."""
    return entry - 2**64 if entry >= 2**63 else entry


def degrees_of(units: int) -> float:
    """Units of a turn in degrees; exact for every code, since these have few bits."""
    return units * 360 / TURN


def text_of(entry: int) -> str:
    """Eight bytes of ASCII as one number, without the spaces behind them."""
    return entry.to_bytes(8, "big").decode("ascii").rstrip(" ")


def reading(entries: Sequence[int], at: int, least: Any = None) -> int | Over | None:
    """The reading of two entries: a number; 0 of one that is stopped; over; None if it is unknown or its code is reserved.

    `least` makes of the value of one that is over where that begins.
    """
    what, value = entries[at], signed(entries[at + 1])
    if what == _names.KNOWN:
        return value
    if what == _names.STOPPED:
        return 0
    return Over(least(value) if least else None) if what == _names.OVER else None
