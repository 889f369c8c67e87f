"""RULES 16: which version of the standard a key's messages are of, and what the TYPE of a position message says then.
RULES 16.6: of kind C the version is that of the other traffic kinds, and the integrity is unknown.

The tables are data, a row for each that the sources print: version 0 by source 001, table 2-11, whose slips of 380.4 m and
7.704 km are lower bounds and not here; version 1 by the published DO-260A; version 2 by source 000, table 2-70, the published
DO-260B. The radius is not handed out.
"""

import messages
from readings import UNKNOWN
from refusals import fits
from tracks import C, I, O

# Version 0: TYPE, NUC, the horizontal protection limit
NUC = [
    (5, 9, "< 7.5 m"),
    (6, 8, "< 25 m"),
    (7, 7, "< 185.2 m"),
    (8, 6, ">= 185.2 m"),
    (9, 9, "< 7.5 m"),
    (10, 8, "< 25 m"),
    (11, 7, "< 185.2 m"),
    (12, 6, "< 370.4 m"),
    (13, 5, "< 926 m"),
    (14, 4, "< 1,852 m"),
    (15, 3, "< 3,704 m"),
    (16, 2, "< 18.52 km"),
    (17, 1, "< 37.04 km"),
    (18, 0, ">= 37.04 km"),
    (20, 9, "< 7.5 m"),
    (21, 8, "< 25 m"),
    (22, 0, ">= 25 m"),
]

# Version 1: TYPE, supplement A, NIC, the radius of containment
NIC_1 = [
    (5, 0, 11, "< 7.5 m"),
    (6, 0, 10, "< 25 m"),
    (7, 1, 9, "< 75 m"),
    (7, 0, 8, "< 0.1 NM"),
    (8, 0, 0, ">= 0.1 NM or unknown"),
    (9, 0, 11, "< 7.5 m"),
    (10, 0, 10, "< 25 m"),
    (11, 1, 9, "< 75 m"),
    (11, 0, 8, "< 0.1 NM"),
    (12, 0, 7, "< 0.2 NM"),
    (13, 0, 6, "< 0.5 NM"),
    (13, 1, 6, "< 0.6 NM"),
    (14, 0, 5, "< 1 NM"),
    (15, 0, 4, "< 2 NM"),
    (16, 1, 3, "< 4 NM"),
    (16, 0, 2, "< 8 NM"),
    (17, 0, 1, "< 20 NM"),
    (18, 0, 0, ">= 20 NM or unknown"),
    (20, 0, 11, "< 7.5 m"),
    (21, 0, 10, "< 25 m"),
    (22, 0, 0, ">= 25 m or unknown"),
]

# Version 2, airborne: TYPE, supplements A and B, NIC, the radius of containment
NIC_2_AIRBORNE = [
    (18, 0, 0, 0, ">= 20 NM or unknown"),
    (22, 0, 0, 0, ">= 25 m or unknown"),
    (17, 0, 0, 1, "< 20 NM"),
    (16, 0, 0, 2, "< 8 NM"),
    (16, 1, 1, 3, "< 4 NM"),
    (15, 0, 0, 4, "< 2 NM"),
    (14, 0, 0, 5, "< 1 NM"),
    (13, 1, 1, 6, "< 0.6 NM"),
    (13, 0, 0, 6, "< 0.5 NM"),
    (13, 0, 1, 6, "< 0.3 NM"),
    (12, 0, 0, 7, "< 0.2 NM"),
    (11, 0, 0, 8, "< 0.1 NM"),
    (11, 1, 1, 9, "< 75 m"),
    (10, 0, 0, 10, "< 25 m"),
    (21, 0, 0, 10, "< 25 m"),
    (9, 0, 0, 11, "< 7.5 m"),
    (20, 0, 0, 11, "< 7.5 m"),
]

# Version 2, on the surface: TYPE, supplements A and C, NIC, the radius of containment
NIC_2_SURFACE = [
    (8, 0, 0, 0, ">= 0.6 NM or unknown"),
    (8, 0, 1, 6, "< 0.6 NM"),
    (8, 1, 0, 6, "< 0.3 NM"),
    (8, 1, 1, 7, "< 0.2 NM"),
    (7, 0, 0, 8, "< 0.1 NM"),
    (7, 1, 0, 9, "< 75 m"),
    (6, 0, 0, 10, "< 25 m"),
    (5, 0, 0, 11, "< 7.5 m"),
]

TYPES = sorted(row[0] for row in NUC)  # the 17 of position messages


def status_of(me):
    """The fields of the status that a track keeps, or None: none was heard, or it is no status."""
    string = me.to_bytes(7, "big")
    if messages.layout(messages.field(string, 1, 5), messages.field(string, 6, 8)) is not messages.STATUS:
        return None
    return {name: messages.field(string, first, last) for name, first, last in messages.STATUS}


def version(kind, status):
    """The version of a key's messages: 1 of T, M, N and C; without a status 0, else what that says, 0 to 7. 8 for an ME of more than 56 bits."""
    fits(status, 56)
    if kind not in (I, O):
        return 1
    said = status_of(status)
    return said["version"] if said else 0


def supplements(kind, status, bit8):
    """A, B and C, as the version has them: A in 1 and 2; B, ME bit 8 of the latest airborne position, and C, of subtype 1, in 2; else 0."""
    number, said = version(kind, status), status_of(status)
    if kind not in (I, O) or number not in (1, 2):
        return 0, 0, 0
    if number == 1:
        return said["supplement A"], 0, 0
    return said["supplement A"], int(bit8), said["bit 20"] if said["subtype"] == 1 else 0


def nic(rows, type_code, *named):
    """That of the row that has these supplements; where none has, of the larger radius, which is the lower NIC."""
    of_type = {row[1:-2]: row[-2] for row in rows if row[0] == type_code}
    return of_type.get(named, min(of_type.values()))


def integrity(kind, status, type_code, bit8):
    """NUC or NIC and its number, or unknown: kind C, a version above 2, or no position message heard. 8 for what is wider than its bits."""
    fits(status, 56)
    fits(type_code, 5)
    number, (a, b, c) = version(kind, status), supplements(kind, status, bit8)
    if kind == C or type_code not in TYPES or number > 2:
        return UNKNOWN
    if number == 0:
        return "NUC", {row[0]: row[1] for row in NUC}[type_code]
    if number == 1:
        return "NIC", nic(NIC_1, type_code, a)
    return "NIC", nic(NIC_2_SURFACE, type_code, a, c) if type_code <= 8 else nic(NIC_2_AIRBORNE, type_code, a, b)
