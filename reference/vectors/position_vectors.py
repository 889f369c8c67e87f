"""Cases of position_vectors.

A record of 18 bytes: question, F (for a pair that of the later message) and 2 more for coarse counts, four numbers of
4 bytes, high byte first; from degrees two numbers are a bit pattern. A line: two numbers, in degrees two bit
patterns in hex, or `refused N`.
"""

import struct
from fractions import Fraction
from math import floor
from random import Random

import degrees
import published
from positions import (
    AIRBORNE,
    COARSE,
    COUNTS,
    EVEN,
    FIGURES,
    ODD,
    STEP,
    SURFACE,
    UNIT,
    angle_of,
    encode,
    nearest,
    pair,
    rounded,
    single,
    zones,
)
from refusals import answer
from vectors import figures

PAIR = 2
ENCODE = {AIRBORNE: 0, SURFACE: 1}
SINGLE = {AIRBORNE: 3, SURFACE: 4}
BOTH_TURNS = (AIRBORNE, SURFACE)
BOTH = (EVEN, ODD)
POLE = 2**30
LAST = 2**32 - 1
MARK = {COUNTS: 0, COARSE: 2}  # beside F


def asks_encode(turn, i, latitude, longitude, size=COUNTS):
    """Encode this place."""
    return ENCODE[turn], i + MARK[size], latitude, longitude, 0, 0


def asks_pair(later, counts, size=COUNTS):
    """Pair these four counts."""
    return PAIR, later + MARK[size], *counts


def asks_single(turn, i, counts, reference, size=COUNTS):
    """Read these two counts against this reference."""
    return SINGLE[turn], i + MARK[size], *counts, *reference


def random_latitude(chance):
    """From -90 to 90 degrees."""
    return chance.randrange(-POLE, POLE + 1)


def random_longitude(chance):
    """Anywhere on the circle."""
    return chance.getrandbits(32)


def random_counts(chance, how_many, size=COUNTS):
    """Counts of 17 bits, or of 12."""
    return [chance.randrange(size) for _ in range(how_many)]


def both_ways(latitude, longitude, size=COUNTS):
    """The four counts of one place, even and odd."""
    return [count for i in BOTH for count in encode(AIRBORNE, i, latitude, longitude, size)]


def band(nl):
    """The latitude, in 2^-32 of a turn, amid those of this NL."""
    edges = [0, *FIGURES, 90 * 10**8]
    return nearest(Fraction(edges[59 - nl] + edges[60 - nl], 2 * 10**8) / UNIT)


def amid(chance, nl):
    """The same, north or south."""
    return chance.choice((1, -1)) * band(nl)


def published_cases():
    """The public rows that RULES 7 covers, the published positions and the examples of RULES 7.21."""
    for row in published.public_rows():
        i = ODD if row["latest"] == "odd" else EVEN
        if row["kind"] == "global_air":
            yield asks_pair(i, [int(row[name]) for name in ("even_lat", "even_lon", "odd_lat", "odd_lon")])
        else:
            turn = AIRBORNE if row["kind"] == "rel_air" else SURFACE
            counts = [int(row[f"{row['latest']}_{axis}"]) for axis in ("lat", "lon")]
            yield asks_single(turn, i, counts, published.units(row["reflat"], row["reflon"]))
    for counts, later, _, _ in published.PAIR_ROWS:
        yield asks_pair(later, counts)
    for turn, i, counts, reference, _ in published.SINGLE_DEGREES:
        yield asks_single(turn, i, counts, published.units(*reference))
    for later in BOTH:
        yield asks_pair(later, (0, 0, 65536, 0))  # 9
    for latitude in (2**29, -(2**29)):
        for i in BOTH:
            yield asks_encode(AIRBORNE, i, latitude, 2**30)


def transitions(chance, size=COUNTS):
    """All 58 transitions from both sides and both hemispheres."""
    for figure in FIGURES:
        entry = Fraction(figure, 10**8)
        for sign in (1, -1):
            last = {}
            for turn in BOTH_TURNS:
                for i in BOTH:
                    below = floor(entry * zones(i) / turn * size)  # the last not above the entry
                    last[turn, i] = below
                    exactly = [sign * angle_of(whole, zones(i), turn, size) for whole in (below, below + 1)]
                    halfway = sum(exactly) / 2
                    latitudes = [nearest(latitude / UNIT) for latitude in exactly]
                    for edge in (halfway, sign * entry):
                        latitudes += [floor(edge / UNIT), floor(edge / UNIT) + 1]
                    for latitude in latitudes:
                        yield asks_encode(turn, i, latitude, random_longitude(chance), size)
                    for whole, latitude in zip((below, below + 1), latitudes):
                        aside = chance.randrange(-(2**22), 2**22)  # a third of a degree
                        reference = max(-POLE, min(POLE, latitude + aside)), random_longitude(chance)
                        yield asks_single(turn, i, (sign * whole % size, *random_counts(chance, 1, size)), reference, size)
            for even in (0, 1):
                for odd in (0, 1):
                    for later in BOTH:
                        counts = random_counts(chance, 4, size)
                        counts[0] = sign * (last[AIRBORNE, EVEN] + even) % size
                        counts[2] = sign * (last[AIRBORNE, ODD] + odd) % size
                        yield asks_pair(later, counts, size)
            latitude = nearest(sign * entry / UNIT)
            for more in (-40, -10, 0, 10, 40):
                counts = both_ways(latitude + more * (COUNTS // size), random_longitude(chance), size)
                yield from (asks_pair(later, counts, size) for later in BOTH)


def zone_ends(chance, size=COUNTS):
    """For each NL the least and greatest m: m = -NL needs 0 even and 131071 odd."""
    for nl in range(1, 60):
        for sign in (1, -1):
            latitude = sign * band(nl)
            even, _, odd, _ = both_ways(latitude, 0, size)
            for longitudes in ((0, size - 1), (size - 1, 0), (0, 0), (size - 1, size - 1), (1, size - 1)):
                for later in BOTH:
                    yield asks_pair(later, (even, longitudes[0], odd, longitudes[1]), size)
            for turn in BOTH_TURNS:
                for i in BOTH:
                    yield asks_encode(turn, i, latitude, LAST, size)
                    counts = encode(turn, i, latitude, random_longitude(chance), size)
                    for longitude in (0, LAST) if sign == 1 else (2**31 - 1, 2**31):
                        yield asks_single(turn, i, counts, (latitude, longitude), size)


def latitude_ends(chance, size=COUNTS):
    """j of -60 and 59 and those beside them."""
    for even in (0, 1, size - 2, size - 1, size // 2 - 1, size // 2):
        for odd in (0, 1, size - 2, size - 1, size // 2 - 1, size // 2):
            for later in BOTH:
                yield asks_pair(later, (even, *random_counts(chance, 1, size), odd, *random_counts(chance, 1, size)), size)


def power_of_two(z):
    """The greatest power of two that divides z."""
    return z & -z


def half_counts(chance, size=COUNTS):
    """Latitudes and longitudes whose product with the zones lies halfway between whole numbers."""
    for turn in BOTH_TURNS:
        half = (2**31 if turn == AIRBORNE else 2**29) // size  # this angle x Z is half a count
        for i in BOTH:
            step = half // power_of_two(zones(i))
            for _ in range(12):
                latitude = step * (2 * chance.randrange(-POLE // step // 2, POLE // step // 2) + 1)
                assert (latitude * UNIT * zones(i) / turn * size).denominator == 2
                for aside in (-1, 0, 1):
                    yield asks_encode(turn, i, latitude + aside, random_longitude(chance), size)
            for n in range(1, 60 - i):
                latitude = amid(chance, n + i)
                step = half // power_of_two(n)
                longitude = step * (2 * chance.randrange(2**31 // step) + 1)
                assert (longitude * UNIT * n / turn * size).denominator == 2
                for aside in (-1, 0, 1):
                    yield asks_encode(turn, i, latitude, longitude + aside, size)


def half_zones(chance, size=COUNTS):
    """Pairs whose j or m lies halfway between whole numbers before it is rounded down."""
    for _ in range(40):
        _, even_longitude, odd, odd_longitude = random_counts(chance, 4, size)
        even = pow(59, -1, size) * (60 * odd + size // 2) % size
        assert (59 * even - 60 * odd) % size == size // 2
        for aside in (-1, 0, 1):
            for later in BOTH:
                yield asks_pair(later, ((even + aside) % size, even_longitude, odd, odd_longitude), size)
    for nl in range(1, 60):
        even, _, odd, _ = both_ways(amid(chance, nl), 0, size)
        west = chance.randrange(size)
        if nl % 2 == 1:
            longitudes = west, pow(nl, -1, size) * (west * (nl - 1) + size // 2) % size
        else:
            longitudes = pow(nl - 1, -1, size) * (west * nl + size // 2) % size, west
        assert (longitudes[0] * (nl - 1) - longitudes[1] * nl) % size == size // 2
        for aside in (-1, 0, 1):
            for later in BOTH:
                yield asks_pair(later, (even, longitudes[0], odd, (longitudes[1] + aside) % size), size)


def marked_places(chance, size=COUNTS):
    """The equator, 87 and 90 degrees, longitudes 0 and 2^32-1; just over the poles."""
    degrees_87 = nearest(87 / UNIT)
    one_count = nearest(angle_of(1, 60, AIRBORNE, size) / UNIT)
    latitudes = [0, 1, degrees_87, degrees_87 + one_count, degrees_87 - one_count, POLE, POLE - 1, POLE - one_count]
    longitudes = [0, LAST, 2**31, 2**31 - 1, random_longitude(chance)]
    for latitude in [*latitudes, *(-latitude for latitude in latitudes)]:
        for longitude in longitudes:
            counts = both_ways(latitude, longitude, size)
            yield from (asks_pair(later, counts, size) for later in BOTH)
            for turn in BOTH_TURNS:
                for i in BOTH:
                    yield asks_encode(turn, i, latitude, longitude, size)
                    yield asks_single(turn, i, encode(turn, i, latitude, longitude, size), (latitude, longitude), size)
    # 90 and -90 degrees exactly, and one count more or less of either message: 9 from 90 up, and below 270
    for even, odd in ((0, 3 * size // 4), (0, size // 4)):
        for more_even in (-2, -1, 0, 1, 2):
            for more_odd in (-2, -1, 0, 1, 2):
                for later in BOTH:
                    counts = random_counts(chance, 4, size)
                    counts[0], counts[2] = (even + more_even) % size, (odd + more_odd) % size
                    yield asks_pair(later, counts, size)
    # 9 from a single reading: a count that lies beyond the pole
    far = 20000 * size // COUNTS
    for turn in BOTH_TURNS:
        for i in BOTH:
            for sign in (1, -1):
                pole = rounded(Fraction(sign * 90), zones(i), turn, size)
                for more in (-far, -2, -1, 0, 1, 2, far):
                    reference = sign * chance.randrange(POLE - 2**19, POLE), random_longitude(chance)
                    yield asks_single(turn, i, ((pole + more) % size, *random_counts(chance, 1, size)), reference, size)
                    yield asks_single(turn, i, ((pole + more) % size, 0), (sign * POLE, 0), size)


def boundary(chance, z, turn, least, greatest, size):
    """A reference within these bounds and a count just half a zone from it."""
    step = (2**32 if turn == AIRBORNE else 2**30) // size // power_of_two(z)  # this angle is z' counts, z' odd
    times = chance.randrange(-(-least // step), greatest // step + 1)
    count = (times * (z // power_of_two(z)) + size // 2) % size
    assert (times * step * UNIT * z / turn - Fraction(count, size)) % 1 == Fraction(1, 2)
    return times * step, count


def boundaries(chance, size=COUNTS):
    """References on cell boundaries, half a zone from the place, in latitude and in longitude."""
    for turn in BOTH_TURNS:
        for i in BOTH:
            for _ in range(20):
                latitude, count = boundary(chance, zones(i), turn, -POLE + 1, POLE - 1, size)
                for aside in (-1, 0, 1):
                    reference = latitude + aside, random_longitude(chance)
                    yield asks_single(turn, i, (count, *random_counts(chance, 1, size)), reference, size)
            for n in range(1, 60 - i):
                latitude = amid(chance, n + i)
                latitude_count, _ = encode(turn, i, latitude, 0, size)
                longitude, count = boundary(chance, n, turn, 1, LAST - 1, size)
                for aside in (-1, 0, 1):
                    yield asks_single(turn, i, (latitude_count, count), (latitude, longitude + aside), size)


def across(chance, size=COUNTS):
    """References and places on either side of 180 degrees and of 0."""
    for middle in (2**31, 0):
        for turn in BOTH_TURNS:
            for i in BOTH:
                for _ in range(40):
                    latitude = random_latitude(chance)
                    place = (middle + chance.choice((-1, 1)) * chance.randrange(2**22)) % 2**32
                    reference = (middle + chance.choice((-1, 1)) * chance.randrange(2**22)) % 2**32
                    yield asks_single(turn, i, encode(turn, i, latitude, place, size), (latitude, reference), size)


def refused(chance, size=COUNTS):
    """8: latitudes outside the range, counts above 131,071, or above 4,095; 8 before 9 and 10."""
    outside = [POLE + 1, -POLE - 1, 2**31 - 1, -(2**31), POLE + 2**20, -POLE - 2**20]
    above = [size, size + 1, 2 * size, 2**24, 2**31, LAST]
    if size == COARSE:
        above += [COUNTS - 1, COUNTS, 2**27, 2**27 + 1]  # of which 32 bits times 32 leave 0 and 32
    for turn in BOTH_TURNS:
        for i in BOTH:
            for latitude in outside:
                for longitude in (0, LAST, random_longitude(chance)):
                    yield asks_encode(turn, i, latitude, longitude, size)
                    yield asks_single(turn, i, random_counts(chance, 2, size), (latitude, longitude), size)
                    yield asks_single(turn, i, (size, 0), (latitude, longitude), size)
            for count in above:
                for counts in ((count, 0), (0, count), (count, count), (*random_counts(chance, 1, size), count)):
                    spot = random_latitude(chance), random_longitude(chance)
                    yield asks_single(turn, i, counts, spot, size)
                    yield asks_single(turn, i, counts, (POLE, 0), size)
    even, odd = straddling(size)
    for later in BOTH:
        for four in ((size // 2, size // 2, 3 * size // 8, size // 4), (0, 0, size // 2, 0), (even, 0, odd, 0)):
            yield asks_pair(later, four, size)  # taken, 9, 10
            for place in range(4):
                for count in above:
                    yield asks_pair(later, (*four[:place], count, *four[place + 1 :]), size)


def straddling(size):
    """An even and an odd latitude count on either side of the first transition."""
    entry = Fraction(FIGURES[0], 10**8)
    even = floor(entry * zones(EVEN) / AIRBORNE * size)
    odd = floor(entry * zones(ODD) / AIRBORNE * size) + 1
    return even % size, odd % size


def random_cases(chance, size=COUNTS, many=100):
    """Random places, counts and references; places encoded both ways and paired."""
    for turn in BOTH_TURNS:
        for i in BOTH:
            for _ in range(many):
                yield asks_encode(turn, i, random_latitude(chance), random_longitude(chance), size)
                spot = random_latitude(chance), random_longitude(chance)
                yield asks_single(turn, i, random_counts(chance, 2, size), spot, size)
    for _ in range(3 * many):
        counts = both_ways(random_latitude(chance), random_longitude(chance), size)
        yield from (asks_pair(later, counts, size) for later in BOTH)
        counts = random_counts(chance, 4, size)
        yield from (asks_pair(later, counts, size) for later in BOTH)


def other_roundings(chance):
    """RULES 7.5: the latitudes for which a table in STEPs would answer otherwise if it were not rounded down.

    Such a latitude is the first multiple of STEP above an entry: rounded up the entry would reach it, and to nearest
    if it lies nearer than the multiple below. An entry that is a multiple itself, 87 degrees, must be reached. Each
    with the counts on either side of it, which lie on either side of the entry.
    """
    for figure in FIGURES:
        entry = Fraction(figure, 10**8)
        first = floor(entry / STEP) + (entry % STEP != 0)  # the first multiple of STEP not below the entry
        for turn in BOTH_TURNS:
            for i in BOTH:
                whole = first * STEP / angle_of(1, zones(i), turn)
                if whole.denominator == 1:
                    yield from either_side(chance, turn, i, whole.numerator)


def either_side(chance, turn, i, whole):
    """Places, single messages and airborne pairs at this whole number of counts and those beside it, north and south."""
    for sign in (1, -1):
        for at in (whole - 1, whole, whole + 1):
            latitude = nearest(sign * angle_of(at, zones(i), turn) / UNIT)
            assert rounded(latitude * UNIT, zones(i), turn) == sign * at
            for _ in range(3):
                yield asks_encode(turn, i, latitude, random_longitude(chance))
                reference = latitude + chance.randrange(-(2**22), 2**22), random_longitude(chance)
                yield asks_single(turn, i, (sign * at % COUNTS, *random_counts(chance, 1)), reference)
            if turn == AIRBORNE:
                for later in BOTH:
                    even, _, odd, _ = both_ways(latitude, 0)
                    own = [even, odd]
                    own[i] = sign * at % COUNTS
                    yield asks_pair(later, (own[EVEN], *random_counts(chance, 1), own[ODD], *random_counts(chance, 1)))


def last_longitudes(size=COUNTS):
    """RULES 7.15: the longitudes nearest below a turn, of every n: the last counts of the last zone, paired, and read from either side of 0."""
    for nl in range(1, 60):
        latitude = band(nl)
        even, _, odd, _ = both_ways(latitude, 0, size)
        for count in (size - 1, size - 2):
            yield from (asks_pair(later, (even, count, odd, count), size) for later in BOTH)
            for turn in BOTH_TURNS:
                for i in BOTH:
                    latitude_count, _ = encode(turn, i, latitude, 0, size)
                    for longitude in (0, LAST):
                        yield asks_single(turn, i, (latitude_count, count), (latitude, longitude), size)


EDGES = [
    transitions,
    zone_ends,
    latitude_ends,
    half_counts,
    half_zones,
    marked_places,
    boundaries,
    across,
    refused,
]


def coarse_cases():
    """RULES 7.19: the same of coarse counts, and more at random; 45 degrees north and 90 east first."""
    chance = Random(12)
    for i in BOTH:
        yield asks_encode(AIRBORNE, i, 2**29, 2**30, COARSE)
        yield asks_pair(i, both_ways(2**29, 2**30, COARSE), COARSE)
        yield asks_single(AIRBORNE, i, encode(AIRBORNE, i, 2**29, 2**30, COARSE), (2**29, 2**30), COARSE)
    for family in EDGES:
        yield from family(chance, COARSE)
    yield from last_longitudes(COARSE)
    yield from random_cases(chance, COARSE, 950)


def asked():
    """The questions asked, each once."""
    chance = Random(4)
    families = [
        published_cases(),
        *(family(chance) for family in EDGES),
        random_cases(chance),
        other_roundings(chance),
        figures.cases(chance),
        last_longitudes(),
        coarse_cases(),
    ]
    return dict.fromkeys(tuple(question) for family in families for question in family)


def answered(question, i_and_size, first, second, third, fourth):
    """The answer of the model."""
    size, i = (COARSE if i_and_size >= MARK[COARSE] else COUNTS), i_and_size % 2
    if question in ENCODE.values():
        return encode(AIRBORNE if question == ENCODE[AIRBORNE] else SURFACE, i, first, second, size)
    if question == PAIR:
        return pair(i, first, second, third, fourth, size=size)
    if question == figures.THERE:
        return [f"{pattern:016x}" for pattern in degrees.to_degrees(first, second)]
    if question == figures.BACK:
        return degrees.from_degrees(first << 32 | second, third << 32 | fourth)
    return single(AIRBORNE if question == SINGLE[AIRBORNE] else SURFACE, i, first, second, third, fourth, size=size)


def noted(records):
    """Of these records: how many ask for a coarse pair, or for a coarse message read singly from the air. There are to be 20,000."""
    coarse = sum(record[0] in (PAIR, SINGLE[AIRBORNE]) and record[1] >= MARK[COARSE] for record in records)
    assert coarse >= 20_000
    return f"{coarse} of them coarse pairs and singles"


def cases():
    """Records and their lines."""
    for question in asked():
        numbers = [number % 2**32 for number in question[2:]]
        yield struct.pack(">BB4I", *question[:2], *numbers), answer(answered, *question)
