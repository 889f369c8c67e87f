"""Places in degrees and in the library's units, 2^-32 of a turn."""
from __future__ import annotations

import math
from typing import Any

from . import calls
from ._names import DEGREES
from ._values import FIELD, TURN, Refusal


def units(latitude: float, longitude: float) -> tuple[int, int] | Refusal:
    """The spot nearest to a latitude, -90 to 90 degrees, and a longitude, -180 to 360; as addercoil_easy_site_in_degrees has it.

    Half a unit goes away from zero. What is beyond is refused with 8, as not-a-number is.
    """
    try:
        north, east = calls.real(latitude), calls.real(longitude)
    except OverflowError:
        return FIELD
    if not (-90 <= north <= 90 and -180 <= east <= 360):
        return FIELD
    return nearest(north), nearest(east) % TURN


def nearest(degrees: float) -> int:
    """The whole number nearest to an angle in units."""
    exact = degrees * float(TURN) / 360
    return math.trunc(exact - 0.5 if exact < 0 else exact + 0.5)


def degrees(latitude: int, longitude: int) -> tuple[float, float] | Refusal:
    """A spot in degrees, exactly: addercoil_degrees. The way back is `units`."""
    made = calls.doubles(DEGREES)
    try:
        number = calls.degrees(latitude, longitude, made)
    except OverflowError:
        return FIELD
    return Refusal(number) if number else (float(made[0]), float(made[1]))


def pair_of(site: Any) -> tuple[Any, Any]:
    """The two figures of a site."""
    if not isinstance(site, (tuple, list)) or len(site) != 2:
        raise TypeError("a site is a latitude and a longitude")
    return site[0], site[1]
