"""RULES 15: a place in degrees as two doubles, told by their bit patterns, and the way back. Values are exact fractions."""

import struct
from fractions import Fraction
from math import isfinite

from positions import latitude_test
from refusals import Refused

UNITS = 4_294_967_296
DEGREE = Fraction(360, UNITS)  # a figure is its whole number times this
MINUS_ZERO = 2**63


def pattern_of(value):
    """The bit pattern of the double that is exactly this fraction: there is no rounding anywhere, and zero is positive zero."""
    double = float(value)
    assert Fraction(double) == value, value
    return int.from_bytes(struct.pack(">d", double), "big")


def value_of(pattern):
    """What a double is; None for not-a-number, infinities and negative zero."""
    (double,) = struct.unpack(">d", pattern.to_bytes(8, "big"))
    return Fraction(double) if isfinite(double) and pattern != MINUS_ZERO else None


def to_degrees(latitude, longitude):
    """Both figures, or 8. Longitude is first taken into -2^31 up to 2^31 - 1."""
    latitude_test(latitude)
    east = longitude if longitude < 2**31 else longitude - UNITS
    return pattern_of(latitude * DEGREE), pattern_of(east * DEGREE)


def number_of(pattern, least, most):
    """The whole number of a figure, or 15 for a double that is no such multiple within range."""
    value = value_of(pattern)
    if value is None or (value / DEGREE).denominator != 1 or not least <= value / DEGREE <= most:
        raise Refused(15)
    return (value / DEGREE).numerator


def from_degrees(latitude, longitude):
    """The place, or 15."""
    return number_of(latitude, -(2**30), 2**30), number_of(longitude, -(2**31), 2**31 - 1) % UNITS
