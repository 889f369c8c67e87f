"""Cases of position_vectors in degrees: places there and back, and doubles that are no place's.

A case is there, of a latitude and a longitude, or back, of two bit patterns.
"""

import struct
from fractions import Fraction

from degrees import DEGREE, pattern_of, to_degrees

POLE, HALF, TURN = 2**30, 2**31, 2**32
THERE, BACK = 5, 6
SIGN, NAN, INFINITY, LARGEST = 2**63, 0x7FF8 << 48, 0x7FF0 << 48, (0x7FF0 << 48) - 1

# Not a number, infinities, zeros, the smallest and the largest; whole degrees, the ranges' ends, and what comes near to a unit
ODD = [0, SIGN, NAN, NAN | SIGN, NAN + 1, INFINITY + 1, LARGEST, INFINITY, INFINITY | SIGN, LARGEST | SIGN, 1, SIGN | 1, 2**52, SIGN | 2**52]
WHOLE = [90, -90, 180, -180, 270, -270, 360, -360, 720, 45, -22.5, 1, -1, 0.1, 1e300, -1e300, 1e-7, 90.00000008381903, 89.99999991618097]


def bits(double):
    """The bit pattern of a double."""
    return int.from_bytes(struct.pack(">d", double), "big")


def figure(number):
    """The bit pattern of a number's figure, which may be out of range, and of a half too."""
    return pattern_of(Fraction(number) * DEGREE)


def there(latitude, longitude):
    """The degrees of this place."""
    return THERE, 0, latitude, longitude, 0, 0


def back(latitude, longitude):
    """The place of these patterns."""
    return BACK, 0, latitude // 2**32, latitude % 2**32, longitude // 2**32, longitude % 2**32


def about(latitude, longitude):
    """There and back; then back from the neighbours by one bit pattern, and from half a unit on, of either figure."""
    yield there(latitude, longitude)
    if abs(latitude) > POLE:
        return
    north, east = to_degrees(latitude, longitude)
    yield back(north, east)
    for step in (-1, 1):
        yield back((north + step) % 2**64, east)
        yield back(north, (east + step) % 2**64)
    half = Fraction(1, 2)
    yield back(figure(latitude + half), east)
    yield back(north, figure((longitude if longitude < HALF else longitude - TURN) + half))
    yield back(north ^ SIGN, east ^ SIGN)


def edges():
    """Latitudes and longitudes at the ends of their ranges and beside them."""
    latitudes = [0, 1, -1, 2**29, -(2**29), POLE - 1, POLE, POLE + 1, 1 - POLE, -POLE, -POLE - 1, HALF - 1, -HALF]
    longitudes = [0, 1, POLE, HALF - 1, HALF, HALF + 1, 3 * POLE, TURN - 1]
    for at, latitude in enumerate(latitudes):
        yield from about(latitude, longitudes[at % len(longitudes)])
    for longitude in longitudes:
        yield from about(0, longitude)
        yield from about(-POLE, longitude)


def out_of_range():
    """Multiples that are out of either range, or of that of a latitude alone."""
    for number in (POLE + 1, HALF - 1, HALF, HALF + 1, TURN - 1, TURN, TURN + 1, 3 * POLE, 2**40, 2**45 - 1):
        for sign in (1, -1):
            yield back(figure(sign * number), 0)
            yield back(0, figure(sign * number))


def odd_ones():
    """Doubles of every sort, as either figure and as both."""
    for pattern in [*ODD, *map(bits, WHOLE), figure(1), figure(-1), figure(Fraction(1, 2)), figure(Fraction(-1, 2))]:
        yield back(pattern, 0)
        yield back(0, pattern)
        yield back(pattern, pattern)


def flipped():
    """Each bit of three figures."""
    for number in (1, 123_456_789, -POLE):
        for bit in range(64):
            yield back(figure(number) ^ 1 << bit, figure(HALF - 1))
            yield back(figure(-1), figure(number) ^ 1 << bit)


def cases(chance):
    """All of them."""
    yield from edges()
    yield from out_of_range()
    yield from odd_ones()
    yield from flipped()
    for _ in range(100):
        yield from about(chance.randrange(-POLE - 2**24, POLE + 2**24), chance.getrandbits(32))
    for _ in range(100):
        yield back(chance.getrandbits(64), 0)
        yield back(0, chance.getrandbits(64))
