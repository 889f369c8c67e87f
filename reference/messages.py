"""RULES 2: messages and their fields. DF 18 with CF 2, 3 and 5 is a ground station's traffic service, RULES 17.

A message is its fields by name, in the order of their bits; those that RULES 2 leaves without a
name are called by their bit numbers. All bits, reserved ones included, are kept.
"""

from parity import remainder, sealed
from refusals import Refused, fits

# name, first bit, last bit: of the message; a coarse one has no TYPE
SENDER = [("DF", 1, 5), ("CA or CF", 6, 8), ("AA", 9, 32)]
HEAD = [*SENDER, ("TYPE", 33, 37)]

# and of ME, after TYPE
IDENTIFICATION = [("category", 6, 8), ("characters", 9, 56)]
PLACE = [("T", 21, 21), ("F", 22, 22), ("latitude", 23, 39), ("longitude", 40, 56)]
SURFACE = [("movement", 6, 12), ("status", 13, 13), ("heading", 14, 20), *PLACE]
AIRBORNE = [("surveillance status", 6, 7), ("bit 8", 8, 8), ("altitude", 9, 20), *PLACE]
VELOCITY_HEAD = [("subtype", 6, 8), ("bit 9", 9, 9), ("bit 10", 10, 10), ("NACv", 11, 13)]
VELOCITY_TAIL = [
    ("rate source", 36, 36),
    ("rate sign", 37, 37),
    ("rate", 38, 46),
    ("bits 47-48", 47, 48),
    ("difference sign", 49, 49),
    ("difference", 50, 56),
]
OVER_GROUND = [
    *VELOCITY_HEAD,
    ("east-west direction", 14, 14),
    ("east-west speed", 15, 24),
    ("north-south direction", 25, 25),
    ("north-south speed", 26, 35),
    *VELOCITY_TAIL,
]
THROUGH_AIR = [
    *VELOCITY_HEAD,
    ("status", 14, 14),
    ("heading", 15, 24),
    ("airspeed kind", 25, 25),
    ("airspeed", 26, 35),
    *VELOCITY_TAIL,
]
# Operational status: source 000, figure 2-11. Its capability class and mode are kept whole
STATUS = [
    ("subtype", 6, 8),
    ("class", 9, 19),
    ("bit 20", 20, 20),
    ("width", 21, 24),
    ("mode", 25, 40),
    ("version", 41, 43),
    ("supplement A", 44, 44),
    ("NACp", 45, 48),
    ("bits 49-50", 49, 50),
    ("SIL", 51, 52),
    ("bit 53", 53, 53),
    ("bit 54", 54, 54),
    ("bits 55-56", 55, 56),
]
# A coarse message, all of ME: source 002, 2.2.17.3.5, figure 2-30
COARSE = [
    ("flag", 1, 1),
    ("surveillance status", 2, 3),
    ("station", 4, 7),
    ("altitude", 8, 19),
    ("track status", 20, 20),
    ("track angle", 21, 25),
    ("speed", 26, 31),
    ("F", 32, 32),
    ("latitude", 33, 44),
    ("longitude", 45, 56),
]


def field(string, first, last):
    """Bits first to last of a byte string, bit 1 the top bit of byte 0."""
    whole = int.from_bytes(string, "big")
    return whole >> 8 * len(string) - last & (1 << last - first + 1) - 1


def df_taken(df, ca_or_cf):
    """Taken: DF 17 with any CA, and DF 18 with CF 0, 1, 2, 3 or 5."""
    return df == 17 or df == 18 and ca_or_cf in (0, 1, 2, 3, 5)


def is_coarse(message):
    """Whether it is a coarse message: DF 18 with CF 3."""
    return message["DF"] == 18 and message["CA or CF"] == 3


def is_traffic(message):
    """Whether a ground station's traffic service sent it: DF 18 with CF 2, 3 or 5."""
    return message["DF"] == 18 and message["CA or CF"] in (2, 3, 5)


def layout(type_code, subtype):
    """The fields of ME after TYPE, or none: TYPE 23-30, 19 but for subtypes 1-4, 31 but for 0 and 1. TYPE 0 has the airborne layout."""
    if 1 <= type_code <= 4:
        return IDENTIFICATION
    if 5 <= type_code <= 8:
        return SURFACE
    if type_code == 0 or 9 <= type_code <= 18 or 20 <= type_code <= 22:
        return AIRBORNE
    if type_code == 19 and subtype in (1, 2):
        return OVER_GROUND
    if type_code == 19 and subtype in (3, 4):
        return THROUGH_AIR
    if type_code == 31 and subtype in (0, 1):
        return STATUS
    return None


def layout_of(message):
    """The layout of a message: by CF if it is coarse, whatever its bits, else by TYPE; none where that is missing."""
    if is_coarse(message):
        return COARSE
    return layout(message["TYPE"], message.get("subtype")) if "TYPE" in message else None


def fields_of(fields):
    """Every field of a message of this layout."""
    return (SENDER if fields is COARSE else HEAD) + fields


def flag_name(fields):
    """What says which address AA is: ME bit 21 on the surface, 8 airborne, 9 of a velocity, 1 if coarse; what names or tells a status has none."""
    if fields is COARSE:
        return "flag"
    if fields is SURFACE:
        return "T"
    if fields is AIRBORNE:
        return "bit 8"
    return None if fields in (IDENTIFICATION, STATUS) else "bit 9"


def flag(message):
    """The flag of a message; it counts as 0 where there is none."""
    return message.get(flag_name(layout_of(message)), 0)


def is_reserved(message):
    """CF 5 with the flag set."""
    return message["DF"] == 18 and message["CA or CF"] == 5 and flag(message) == 1


def is_ground_status(message):
    """TYPE 31 under CF 2 and 5, whatever its subtype: a ground station sends none. A coarse message has no TYPE."""
    return message.get("TYPE") == 31 and is_traffic(message)


def decode(string):
    """The decoded message, or 1, 3, 4, 5 in that order."""
    if len(string) != 14:
        raise Refused(1)
    if remainder(string) != 0:
        raise Refused(3)
    message = {name: field(string, first, last) for name, first, last in SENDER}
    if not df_taken(message["DF"], message["CA or CF"]):
        raise Refused(4)
    me = string[4:11]  # ME is bits 33-88
    if not is_coarse(message):
        message["TYPE"] = field(me, 1, 5)
    fields = layout_of(message | {"subtype": field(me, 6, 8)})
    if fields is None:
        raise Refused(5)
    message |= {name: field(me, first, last) for name, first, last in fields}
    if is_reserved(message) or is_ground_status(message):
        raise Refused(5)
    return message


def encode(message):
    """The same 14 bytes; 8 for a field wider than its bits or a message that would earn 4 or 5.

    So it is for coarse fields without CF 3, and for others with it.
    """
    if not df_taken(message["DF"], message["CA or CF"]):
        raise Refused(8)
    fields = layout_of(message)
    if fields is None or list(message) != [name for name, _, _ in fields_of(fields)]:
        raise Refused(8)
    if is_reserved(message) or is_ground_status(message):
        raise Refused(8)
    whole = 0
    for name, first, last in fields_of(fields):
        width = last - first + 1
        fits(message[name], width)
        whole = whole << width | message[name]
    return sealed(whole.to_bytes(11, "big"))
