"""Published vectors, and the examples of docs/RULES.md, as data.

The coding rows stand in the draft of DO-260B; the messages and positions are the well-known public
ones. Rows that RULES 7 leaves out (surface pairs) are not here; those of integrity are in integrity.py. Of coarse messages
none is published: the bits of two are set out by the figure of source 002.
"""

import csv
from fractions import Fraction
from pathlib import Path

import positions
from positions import AIRBORNE, EVEN, ODD, SURFACE

# Readings: question, subtype, direction or sign, code, answer

DEGREE = Fraction(2**32, 360)  # in 2^-32 of a turn

CODING_ROWS = [
    # east-west speed, subtype 1, then 2; airspeed, subtype 4
    ("speed", 1, 0, 0, "unknown"),
    ("speed", 1, 0, 1, 0),
    ("speed", 1, 0, 2, 1),
    ("speed", 1, 0, 1022, 1021),
    ("speed", 1, 0, 1023, "over"),
    ("speed", 2, 0, 2, 4),
    ("speed", 2, 0, 3, 8),
    ("speed", 2, 0, 1022, 4084),
    ("speed", 4, 0, 3, 8),
    # vertical rate
    ("rate", 0, 0, 2, 64),
    ("rate", 0, 0, 3, 128),
    ("rate", 0, 0, 510, 32576),
    ("rate", 0, 0, 511, "over"),
    # difference
    ("difference", 0, 0, 1, 0),
    ("difference", 0, 0, 2, 25),
    ("difference", 0, 0, 3, 50),
    ("difference", 0, 0, 126, 3125),
    # heading
    ("heading", 0, 0, 1, Fraction("0.3515625") * DEGREE),
    ("heading", 0, 0, 511, Fraction("179.6484375") * DEGREE),
    ("heading", 0, 0, 513, Fraction("180.3515625") * DEGREE),
    ("heading", 0, 0, 1023, Fraction("359.6484375") * DEGREE),
    # surface heading
    ("surface heading", 0, 0, 1, Fraction("2.8125") * DEGREE),
    ("surface heading", 0, 0, 63, Fraction("177.1875") * DEGREE),
    ("surface heading", 0, 0, 65, Fraction("182.8125") * DEGREE),
    ("surface heading", 0, 0, 127, Fraction("357.1875") * DEGREE),
    # movement, lower edges of 0.125, 1, 2, 15, 70, 100, 175 knots
    ("movement", 0, 0, 3, "from 6"),
    ("movement", 0, 0, 9, "from 48"),
    ("movement", 0, 0, 13, "from 96"),
    ("movement", 0, 0, 39, "from 720"),
    ("movement", 0, 0, 94, "from 3360"),
    ("movement", 0, 0, 109, "from 4800"),
    ("movement", 0, 0, 124, "8400 and up"),
]

# D2 D4 A1 A2 A4 B1 B2 B4, C1 C2 C4, the code of 12 bits, feet
GILLHAM_ROWS = [
    ("00000000", "010", 512, -1000),
    ("00000000", "110", 2560, -900),
    ("00000000", "100", 2048, -800),
    ("00000001", "100", 2050, -700),
    ("00000011", "010", 522, 0),
    ("10000000", "001", 132, 126700),
]

# The examples that RULES 1.10 names
ALTITUDE_EXAMPLES = [(128, -1200), (2050, -700), (16, -1000), (888, 10000), (2688, "unknown")]

# Messages: the remainder and the number that refuses it, 0 where it is taken

PARITY_ROWS = [
    ("8D406B902015A678D4D220AA4BDA", 0x000000, 0),
    ("8D4840D6202CC371C32CE0576098", 0x000000, 0),
    ("8D4CA251204994B1C36E60A5343D", 0x000010, 3),
    ("C80B2DCA34AA21DD821A04CB64D4", 0xA392B4, 3),
    ("A800089D8094E33A6004E4B8A522", 0x4953D4, 3),
    ("A8000614A50B6D32BED000BBE0ED", 0x565D57, 3),
    ("A0000410BC900010A40000F5F477", 0xB2F342, 3),
    ("B0001718C65632B0A82040715B65", 0x056435, 3),
]

# Messages with remainder 0 and some of their fields
FIELD_ROWS = [
    ("8D406B902015A678D4D220AA4BDA", {"DF": 17, "AA": 0x406B90, "TYPE": 4}),
    ("8D4840D6202CC371C32CE0576098", {"DF": 17, "CA or CF": 5, "AA": 0x4840D6, "TYPE": 4, "category": 0}),
    ("8D40621D58C382D690C8AC2863A7", {"TYPE": 11, "altitude": 3128, "F": 0, "latitude": 93000, "longitude": 51372}),
    ("8D40621D58C386435CC412692AD6", {"TYPE": 11, "altitude": 3128, "F": 1, "latitude": 74158, "longitude": 50194}),
    ("8D75804B580FF2CF7E9BA6F701D0", {"TYPE": 11, "altitude": 255, "F": 0, "latitude": 92095, "longitude": 39846}),
    ("8D75804B580FF6B283EB7A157117", {"TYPE": 11, "altitude": 255, "F": 1, "latitude": 88385, "longitude": 125818}),
    (
        "8C4841753AAB238733C8CD4020B1",
        {"TYPE": 7, "movement": 42, "heading": 50, "F": 0, "latitude": 115609, "longitude": 116941},
    ),
    (
        "8C4841753A8A35323FAEBDAC702D",
        {"TYPE": 7, "movement": 40, "heading": 35, "F": 1, "latitude": 39199, "longitude": 110269},
    ),
    (
        "8FC8200A3AB8F5F893096B22B4A8",
        {"TYPE": 7, "movement": 43, "heading": 15, "F": 1, "latitude": 64585, "longitude": 67947},
    ),
    (
        "8D485020994409940838175B284F",
        {
            "subtype": 1,
            "east-west direction": 1,
            "east-west speed": 9,
            "north-south direction": 1,
            "north-south speed": 160,
            "rate source": 0,
            "rate sign": 1,
            "rate": 14,
            "difference sign": 0,
            "difference": 23,
        },
    ),
    (
        "8DA05F219B06B6AF189400CBC33F",
        {
            "subtype": 3,
            "status": 1,
            "heading": 694,
            "airspeed kind": 1,
            "airspeed": 376,
            "rate source": 1,
            "rate sign": 1,
            "rate": 37,
            "difference": 0,
        },
    ),
    # the listing of RULES 12.9: 45 N 90 E, 10,000 feet
    (
        "8DABCDEF58378200010000300279",
        {"AA": 0xABCDEF, "TYPE": 11, "altitude": 888, "F": 0, "latitude": 65536, "longitude": 65536},
    ),
    (
        "8DABCDEF58378580008000CC7711",
        {"AA": 0xABCDEF, "TYPE": 11, "altitude": 888, "F": 1, "latitude": 49152, "longitude": 32768},
    ),
]

# TYPE 0, by source 003, note 3 to its tables of TYPE: the pressure altitude in bits 9 to 20, and all zeros if there is none
NO_POSITION_ROWS = [
    ("8DABCDEF00378000000000006F9E", {"AA": 0xABCDEF, "TYPE": 0, "altitude": 888, "F": 0, "latitude": 0, "longitude": 0}),
    ("8DABCDEF00000000000000B8A543", {"AA": 0xABCDEF, "TYPE": 0, "altitude": 0, "F": 0, "latitude": 0, "longitude": 0}),
]

# The TYPEs with an altitude, by source 003's table A: whether it is a GNSS height
GNSS_HEIGHTS = {0: False, **dict.fromkeys(range(9, 19), False), **dict.fromkeys(range(20, 23), True)}

# Operational status, TYPE 31, by source 000's figure 2-11: subtype, version, supplement A, and ME bit 20, C of subtype 1
STATUS_ROWS = [
    ("8DABCDEFF8000000004000B0CA3C", {"subtype": 0, "version": 2, "supplement A": 0, "bit 20": 0}),
    ("8DABCDEFF800000000500050123C", {"subtype": 0, "version": 2, "supplement A": 1, "bit 20": 0}),
    ("8DABCDEFF9001000005000BCC42B", {"subtype": 1, "version": 2, "supplement A": 1, "bit 20": 1}),
    ("8DABCDEFF800000000300012DE27", {"subtype": 0, "version": 1, "supplement A": 1, "bit 20": 0}),
    ("8DABCDEFF80000000060008E8E35", {"subtype": 0, "version": 3, "supplement A": 0, "bit 20": 0}),
]

# Coarse messages, by source 002, 2.2.17.3.5: figure 2-30, field by field, the example of 45 N 90 E with 10,000 feet, even and odd,
# sent by station 3; and its table of speeds, in knots, lower edge
COARSE_BITS = [
    "10010 011 101010111100110111101111 0 00 0011 001101111000 0 00000 000000 0 100000000000 100000000000",
    "10010 011 101010111100110111101111 0 00 0011 001101111000 0 00000 000000 1 011000000000 010000000000",
]
COARSE_SPEEDS = [(0, "unknown"), (1, "from 0"), (2, "from 16"), (3, "from 48"), (62, "from 1936"), (63, "1968 and up")]

TEXTS = [("8D406B902015A678D4D220AA4BDA", "EZY85MH "), ("8D4840D6202CC371C32CE0576098", "KLM1023 ")]


def messages():
    """Every published message, once."""
    texts = [row[0] for row in PARITY_ROWS + FIELD_ROWS + STATUS_ROWS]
    return [bytes.fromhex(text) for text in dict.fromkeys(texts)]


# Positions: even and odd counts, later, latitude and longitude in 2^-32 of a turn

PAIR_ROWS = [
    ((93000, 51372, 74158, 50194), EVEN, 623452706, 46759936),
    ((93000, 51372, 74158, 50194), ODD, 623555046, 46993057),
    ((92095, 39846, 88385, 125818), EVEN, 121878938, 1478051180),
    ((92095, 39846, 88385, 125818), ODD, 121884186, 1478054877),
    ((80536, 9432, 61720, 9192), EVEN, 616645700, 8353183),
    ((80536, 9432, 61720, 9192), ODD, 616647107, 8366763),
    ((80534, 9413, 61714, 9144), EVEN, 616644608, 8336356),
    ((80534, 9413, 61714, 9144), ODD, 616643775, 8323072),
    # RULES 8.16: 45 N, 90 E
    ((65536, 65536, 49152, 32768), EVEN, 2**29, 2**30),
    ((65536, 65536, 49152, 32768), ODD, 2**29, 2**30),
]

# The same in degrees, as printed
PAIR_DEGREES = [
    ((93000, 51372, 74158, 50194), EVEN, "52.2572021484375", "3.91937255859375"),
    ((93000, 51372, 74158, 50194), ODD, "52.265780174", "3.938912528"),
    ((92095, 39846, 88385, 125818), EVEN, "10.215774536", "123.888818773"),
    ((92095, 39846, 88385, 125818), ODD, "10.216214455", "123.889128586"),
    ((80536, 9432, 61720, 9192), EVEN, "51.6866455", "0.7001557"),
    ((80536, 9432, 61720, 9192), ODD, "51.6867634", "0.7012939"),
]

# turn, F, counts, reference and place in degrees, as printed
SINGLE_DEGREES = [
    (AIRBORNE, EVEN, (93000, 51372), ("52.258", "3.918"), ("52.2572021484375", "3.91937255859375")),
    (SURFACE, EVEN, (105730, 9259), ("52", "0"), ("52.2099838", "0.1766014")),
    (SURFACE, ODD, (29693, 8997), ("52", "0"), ("52.2099757", "0.1765071")),
    (SURFACE, EVEN, (115609, 116941), ("51.990", "4.375"), ("52.323040", "4.730473")),
    (SURFACE, ODD, (39199, 110269), ("51.990", "4.375"), ("52.320607", "4.734735")),
    (SURFACE, ODD, (64585, 67947), ("-43.5", "172.5"), ("-43.485644", "172.539417")),
    # RULES 8.16: the site
    (SURFACE, EVEN, (0, 0), ("45", "90"), ("45", "90")),
]

SINGLE_UNITS = [
    (AIRBORNE, EVEN, (93000, 51372), ("52.258", "3.918"), (623452706, 46759936)),
    (SURFACE, EVEN, (105730, 9259), ("52", "0"), (622889370, 2106937)),
    (SURFACE, ODD, (29693, 8997), ("52", "0"), (622889272, 2105812)),
    (SURFACE, EVEN, (0, 0), ("45", "90"), (2**29, 2**30)),
]


def units(latitude, longitude):
    """A place given in degrees, in 2^-32 of a turn."""
    return positions.hand_out(Fraction(latitude), Fraction(longitude) % 360)


def close(place, latitude, longitude, bound):
    """Is the place within the bound, in degrees, of this one; longitude around the circle?"""
    east = (place[1] * positions.UNIT - Fraction(longitude)) % 360
    north = place[0] * positions.UNIT - Fraction(latitude)
    return abs(north) <= bound and min(east, 360 - east) <= bound


def printed(text):
    """The bound for a printed figure: half its last digit, and half a unit of 2^-32 of a turn."""
    digits = len(text.partition(".")[2])
    return Fraction(1, 2 * 10**digits) + positions.UNIT / 2


def public_rows():
    """The rows of cpr_public.csv that RULES 7 covers.

    In scope: global_air (airborne pairs), rel_air and rel_sfc (singles). Out of scope: global_sfc,
    since RULES 7.9 pairs airborne messages only.
    """
    with open(Path(__file__).with_name("cpr_public.csv"), newline="") as file:
        for row in csv.DictReader(file):
            if row["kind"] != "global_sfc":
                yield row
