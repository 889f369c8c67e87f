"""RULES 7: positions. Angles are exact fractions of degrees until they are handed out.

The size of a count, P in RULES 7.2, is 2^17 unless another is said.
"""

from decimal import Decimal, localcontext
from fractions import Fraction
from math import floor

from refusals import Refused

EVEN, ODD = 0, 1  # F is 0 for even, 1 for odd; call it i
AIRBORNE, SURFACE = 360, 90  # an airborne turn is 360 degrees, a surface turn 90
COUNTS = 2**17  # a zone's, the size that is meant where none is said
COARSE = 2**12  # RULES 7.2: those of a coarse message, whose counts have 12 bits
HALF = Fraction(1, 2)
UNIT = Fraction(360, 2**32)  # places are in 2^-32 of a turn of 360 degrees
STEP = Fraction(360, 1855979520)  # RULES 7.5: all decoded latitudes are multiples of 1/1,855,979,520 of a turn

# The 58 latitudes in units of 10^-8 degree, for NL 59 down to 2. This table decides.
FIGURES = [
    1047047130, 1482817437, 1818626357, 2102939493, 2354504487, 2582924707, 2793898710, 2991135686,
    3177209708, 3353993436, 3522899598, 3685025108, 3841241892, 3992256684, 4138651832, 4280914012,
    4419454951, 4554626723, 4686733252, 4816039128, 4942776439, 5067150166, 5189342469, 5309516153,
    5427817472, 5544378444, 5659318756, 5772747354, 5884763776, 5995459277, 6104917774, 6213216659,
    6320427479, 6426616523, 6531845310, 6636171008, 6739646774, 6842322022, 6944242631, 7045451075,
    7145986473, 7245884545, 7345177442, 7443893416, 7542056257, 7639684391, 7736789461, 7833374083,
    7929428225, 8024923213, 8119801349, 8213956981, 8307199445, 8399173563, 8489166191, 8575541621,
    8653536998, 8700000000,
]


def zones(i):
    """Z is 60-i zones of latitude."""
    return 60 - i


def zone_count(latitude):
    """NL is that of the first entry not below the absolute latitude, and 1 above 87 degrees."""
    for nl, figure in zip(range(59, 1, -1), FIGURES):
        if figure >= abs(latitude) * 10**8:
            return nl
    return 1


def longitude_zones(nl, i):
    """n is the larger of NL-i and 1."""
    return max(nl - i, 1)


def nearest(value):
    """Round to nearest, half up."""
    return floor(value + HALF)


def latitude_test(latitude):
    """Number 8: a latitude outside -2^30..2^30."""
    if not -(2**30) <= latitude <= 2**30:
        raise Refused(8)


def count_test(size, *counts):
    """RULES 7.16: pair and single decoding refuse counts above 131,071 with 8, coarse ones above 4,095."""
    if any(not 0 <= count <= size - 1 for count in counts):
        raise Refused(8)


def pole_test(latitude):
    """Number 9: decoded latitude outside -90..90 degrees."""
    if not -90 <= latitude <= 90:
        raise Refused(9)


def hand_out(latitude, longitude):
    """RULES 7.14: exact results round to nearest, half up. RULES 7.15: no longitude of a zone and a count rounds to 2^32."""
    return nearest(latitude / UNIT), nearest(longitude / UNIT)


# Encode


def rounded(angle, z, turn, size=COUNTS):
    """Take angle x Z / turn x 2^17 and round the product to nearest, half up."""
    return nearest(angle * z / turn * size)


def angle_of(whole, z, turn, size=COUNTS):
    """The whole number before the modulo x turn / Z / 2^17."""
    return Fraction(whole * turn, z * size)


def rounded_place(turn, i, latitude, longitude, size=COUNTS):
    """The rounded place in degrees, with the two whole numbers before the modulo and NL."""
    whole_latitude = rounded(latitude, zones(i), turn, size)
    rounded_latitude = angle_of(whole_latitude, zones(i), turn, size)
    nl = zone_count(rounded_latitude)
    n = longitude_zones(nl, i)
    whole_longitude = rounded(longitude, n, turn, size)
    return rounded_latitude, angle_of(whole_longitude, n, turn, size), whole_latitude, whole_longitude, nl


def encode(turn, i, latitude, longitude, size=COUNTS):
    """The two counts of a place: the whole numbers modulo 2^17."""
    latitude_test(latitude)
    place = rounded_place(turn, i, latitude * UNIT, longitude * UNIT, size)
    _, _, whole_latitude, whole_longitude, _ = place
    return whole_latitude % size, whole_longitude % size


# Pair, airborne only


def latitude_zone(even, odd, size=COUNTS):
    """j is (59 x even - 60 x odd)/2^17 + 1/2, rounded down."""
    return floor(Fraction(59 * even - 60 * odd, size) + HALF)


def longitude_zone(even, odd, nl, size=COUNTS):
    """m is (even longitude x (NL-1) - odd longitude x NL)/2^17 + 1/2, rounded down."""
    return floor(Fraction(even * (nl - 1) - odd * nl, size) + HALF)


def in_zone(zone, count, z, turn=AIRBORNE, size=COUNTS):
    """turn/Z x (zone + count/2^17)."""
    return Fraction(turn, z) * (zone + Fraction(count, size))


def paired_latitude(j, count, i, size=COUNTS):
    """360/Z x (j mod Z + count/2^17), less 360 from 270 up."""
    latitude = in_zone(j % zones(i), count, zones(i), AIRBORNE, size)
    return latitude - 360 if latitude >= 270 else latitude


def paired_place(later, even_latitude, even_longitude, odd_latitude, odd_longitude, size=COUNTS):
    """The place of the later message in degrees; both latitudes are tested for 9, then 10."""
    count_test(size, even_latitude, even_longitude, odd_latitude, odd_longitude)
    j = latitude_zone(even_latitude, odd_latitude, size)
    latitudes = paired_latitude(j, even_latitude, EVEN, size), paired_latitude(j, odd_latitude, ODD, size)
    for latitude in latitudes:
        pole_test(latitude)
    nl = zone_count(latitudes[EVEN])
    if nl != zone_count(latitudes[ODD]):
        raise Refused(10)
    m = longitude_zone(even_longitude, odd_longitude, nl, size)
    n = longitude_zones(nl, later)
    count = (even_longitude, odd_longitude)[later]
    return latitudes[later], in_zone(m % n, count, n, AIRBORNE, size)


def pair(later, *four_counts, size=COUNTS):
    """The place of the later message, given by its F, handed out."""
    return hand_out(*paired_place(later, *four_counts, size))


# Single


def nearby(count, reference, z, turn, size=COUNTS):
    """The zone is 1/2 + reference x Z/turn - count/2^17, rounded down."""
    zone = floor(HALF + reference * z / turn - Fraction(count, size))
    return in_zone(zone, count, z, turn, size)


def single_place(turn, i, latitude_count, longitude_count, reference_latitude, reference_longitude, size=COUNTS):
    """The place in degrees; longitude with n, NL being the decoded latitude's, modulo 360."""
    latitude_test(reference_latitude)
    count_test(size, latitude_count, longitude_count)
    latitude = nearby(latitude_count, reference_latitude * UNIT, zones(i), turn, size)
    pole_test(latitude)
    n = longitude_zones(zone_count(latitude), i)
    return latitude, nearby(longitude_count, reference_longitude * UNIT, n, turn, size) % 360


def single(turn, i, *counts_and_reference, size=COUNTS):
    """The place of one message near the reference, handed out."""
    return hand_out(*single_place(turn, i, *counts_and_reference, size))


# The published formula: a test compares the table with it

DIGITS = 50


def arctangent(x):
    """By halving the angle until it is small, then its series."""
    halvings = 0
    while abs(x) > Decimal("0.01"):
        x = x / (1 + (1 + x * x).sqrt())
        halvings += 1
    total, power, k = Decimal(0), x, 1
    while abs(power) > Decimal(10) ** -(DIGITS + 15):
        total += power / k
        power, k = -power * x * x, k + 2
    return total * 2**halvings


def cosine(x):
    """By its series."""
    total, term, k = Decimal(0), Decimal(1), 0
    while abs(term) > Decimal(10) ** -(DIGITS + 15):
        total += term
        k += 2
        term = -term * x * x / (k * (k - 1))
    return total


def published_latitude(nl):
    """acos(sqrt((1 - cos(pi/30)) / (1 - cos(2 pi/NL)))) in degrees, good to 50 digits."""
    with localcontext() as context:
        context.prec = DIGITS + 20
        pi = 4 * arctangent(Decimal(1))
        ratio = ((1 - cosine(pi / 30)) / (1 - cosine(2 * pi / nl))).sqrt()
        arccosine = 2 * arctangent(((1 - ratio) / (1 + ratio)).sqrt())
        return arccosine * 180 / pi


def check_table(figures=FIGURES):
    """Each figure is the published latitude rounded to 10^-8 degree; raises if any differs.

    Also: no latitude that a count can give (a multiple of STEP) lies between a figure and the exact
    latitude, so table and formula have the same NL everywhere.
    """
    slack = Fraction(1, 10 ** (DIGITS - 3))  # far above the error of the series
    if len(figures) != 58:
        raise ValueError(f"{len(figures)} latitudes, not 58")
    for nl, figure in zip(range(59, 1, -1), figures):
        exact = Fraction(published_latitude(nl))
        if nl == 2:
            if abs(exact - 87) > slack or figure != 87 * 10**8:
                raise ValueError("NL 2: not 87 degrees")
            continue
        if not abs(exact * 10**8 - figure) < HALF - slack:
            raise ValueError(f"NL {nl}: the figure {figure} is not the published latitude")
        edges = exact - slack, exact + slack, Fraction(figure, 10**8)
        if len({floor(edge / STEP) for edge in edges}) > 1:
            raise ValueError(f"NL {nl}: a latitude lies between figure and formula")


def check_steps(steps):
    """Each is the last multiple of STEP not above the published latitude, counted in STEPs; raises if any differs.

    So a multiple of STEP is above a latitude of the table just when its number is above the one here.
    """
    if len(steps) != 58:
        raise ValueError(f"{len(steps)} latitudes, not 58")
    for nl, step in zip(range(59, 1, -1), steps):
        exact = Fraction(87) if nl == 2 else Fraction(published_latitude(nl))
        if step != floor(exact / STEP):
            raise ValueError(f"NL {nl}: {step} is not the published latitude in 1/1,855,979,520 of a turn, rounded down")
