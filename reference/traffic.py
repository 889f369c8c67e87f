"""Messages of aircraft, for runs of the table and for captures."""

from messages import COARSE, HEAD, SENDER, encode, flag_name, layout
from parity import sealed
from positions import AIRBORNE, SURFACE
from positions import COARSE as COARSE_COUNTS
from positions import encode as counts_of
from readings import altitude as altitude_of

TRANSPONDER, NO_TRANSPONDER, OTHER = (17, 5), (18, 0), (18, 1)  # DF, and CA or CF: kinds I, I and O
# of a ground station's traffic service the flag too: kinds T, M and N
ICAO, MODE_A, ANOTHER = GROUND = (18, 2, 0), (18, 2, 1), (18, 5, 0)
OF_STATION = 18, 3  # and coarse messages, kind C, whose flag and station stand in them


def message(head, aa, type_code, **fields):
    """14 bytes of remainder 0; the fields of ME by name, 0 where none is given. The flag is the head's, where there is one."""
    rows = layout(type_code, fields.get("subtype"))
    names = [name for name, _, _ in rows]
    assert set(fields) <= set(names)
    if len(head) == 3 and flag_name(rows):
        fields[flag_name(rows)] = head[2]
    values = [*head[:2], aa, type_code, *(fields.get(name, 0) for name in names)]
    return encode(dict(zip([name for name, _, _ in HEAD] + names, values)))


def altitude_code(feet):
    """The code with Q 1 of an altitude: N is seven bits, Q and four bits more."""
    n = (feet + 1000) // 25
    return n >> 4 << 5 | 1 << 4 | n & 15


def hundreds_code(feet):
    """The code with Q 0 of an altitude in hundreds of feet."""
    return next(code for code in range(4096) if not code & 16 and altitude_of(code) == feet)


def airborne(head, aa, i, place, type_code=11, altitude=888, bit8=0):
    """An airborne message from a place, in 2^-32 of a turn. Where the head has a flag, that is bit 8."""
    latitude, longitude = counts_of(AIRBORNE, i, *place)
    return message(head, aa, type_code, altitude=altitude, F=i, latitude=latitude, longitude=longitude, **{"bit 8": bit8})


def airborne_counts(head, aa, i, counts, type_code=11, altitude=888):
    """An airborne message of these two counts."""
    return message(head, aa, type_code, altitude=altitude, F=i, latitude=counts[0], longitude=counts[1])


def no_position(head, aa, altitude=888, **fields):
    """TYPE 0: the altitude of an aircraft that does not know its position. A sender that conforms leaves the other fields 0."""
    return message(head, aa, 0, altitude=altitude, **fields)


def surface(head, aa, i, place, type_code=7, movement=42, heading=50):
    """A surface message from a place."""
    latitude, longitude = counts_of(SURFACE, i, *place)
    fields = {"movement": movement, "status": 1, "heading": heading}
    return message(head, aa, type_code, **fields, F=i, latitude=latitude, longitude=longitude)


def code_of(letter):
    """The code of a letter, a digit or a space."""
    if letter.isalpha():
        return ord(letter) - ord("A") + 1
    return ord(letter)  # 32 space, 48-57 digits


def identification(head, aa, text, type_code=4, category=3):
    """An identification; the text is padded with spaces to eight characters."""
    characters = 0
    for letter in text.ljust(8):
        characters = characters << 6 | code_of(letter)
    return message(head, aa, type_code, category=category, characters=characters)


def status(head, aa, version, subtype=0, a=0, c=0):
    """An operational status; in version 2, subtype 1, bit 20 is supplement C."""
    return message(head, aa, 31, **{"subtype": subtype, "version": version, "supplement A": a, "bit 20": c})


def velocity(head, aa, east, north, rate=0):
    """A velocity over ground of these knots, and a rate in ft/min; east, north and up are above zero."""
    speeds = {"east-west direction": int(east < 0), "east-west speed": abs(east) + 1}
    speeds |= {"north-south direction": int(north < 0), "north-south speed": abs(north) + 1}
    rates = {"rate source": 1, "rate sign": int(rate < 0), "rate": abs(rate) // 64 + 1}
    return message(head, aa, 19, subtype=1, NACv=2, **speeds, **rates)


# Coarse messages


def coarse_counts(aa, i, counts, station=3, flag=0, altitude=888, **fields):
    """A coarse message of these two counts; the other fields of ME by name, 0 where none is given."""
    fields |= {"flag": flag, "station": station, "altitude": altitude, "F": i, "latitude": counts[0], "longitude": counts[1]}
    assert set(fields) <= {name for name, _, _ in COARSE}
    values = [*OF_STATION, aa, *(fields.get(name, 0) for name, _, _ in COARSE)]
    return encode(dict(zip([name for name, _, _ in SENDER + COARSE], values)))


def coarse(aa, i, place, station=3, flag=0, altitude=888, **fields):
    """A coarse message from a place, in 2^-32 of a turn."""
    return coarse_counts(aa, i, counts_of(AIRBORNE, i, *place, COARSE_COUNTS), station, flag, altitude, **fields)


def coarse_bits(aa, me):
    """A coarse message of any 56 bits: every ME is legal."""
    df, cf = OF_STATION
    return sealed(((df << 3 | cf) << 80 | aa << 56 | me).to_bytes(11, "big"))
