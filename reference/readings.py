"""What codes mean: RULES 5 and 6, and of traffic RULES 17.5 and 17.8.

A reading is a number, or a word if RULES 5.1 has one: unknown, over, stopped, reserved.
A code wider than its bits is refused with 8, before everything else; so is a body with such a field, as a whole.
"""

import messages
from refusals import Refused, fits

UNKNOWN = "unknown"
OVER = "over"
TURN = 2**32  # places and headings are handed out in 2^-32 of a turn


def bits(code, width):
    """The bits of a code, the highest first."""
    return [code >> place & 1 for place in range(width - 1, -1, -1)]


def number(bits_of_it):
    """The number of these bits, the highest first."""
    result = 0
    for bit in bits_of_it:
        result = result << 1 | bit
    return result


def gray(bits_of_it):
    """Gray-decode: each bit of the number is the exclusive-or of the bits down to it."""
    decoded, last = [], 0
    for bit in bits_of_it:
        last ^= bit
        decoded.append(last)
    return number(decoded)


def altitude(code):
    """ "Altitude", in feet. The bits are C1 A1 C2 A2 C4 A4 B1 Q B2 D2 B4 D4."""
    fits(code, 12)
    if code == 0:
        return UNKNOWN
    c1, a1, c2, a2, c4, a4, b1, q, b2, d2, b4, d4 = bits(code, 12)
    if q == 1:
        n = number([c1, a1, c2, a2, c4, a4, b1, b2, d2, b4, d4])
        return 25 * n - 1000
    f = gray([d2, d4, a1, a2, a4, b1, b2, b4])
    h = gray([c1, c2, c4])
    if h in (0, 5, 6):
        return UNKNOWN
    if h == 7:
        h = 5
    if f % 2 == 1:
        h = 6 - h
    return 500 * f + 100 * h - 1300


def step(code):
    """RULES 6.5: how coarse an altitude is, in feet: 25 with Q 1, 100 with Q 0. Unknown has no step, which is unknown too."""
    if altitude(code) == UNKNOWN:
        return UNKNOWN
    q = bits(code, 12)[7]
    return 25 if q == 1 else 100


def category_set(type_code):
    """TYPE 4, 3, 2, 1 is category set A, B, C, D; any other TYPE has none."""
    fits(type_code, 5)
    return {4: "A", 3: "B", 2: "C", 1: "D"}.get(type_code, "none")


def stepped(sign, code, step, last):
    """Code 0 is unknown, n is step x (n-1), the last code is over; sign 1 is below zero."""
    if code == 0:
        return UNKNOWN
    if code == last:
        return OVER
    size = step * (code - 1)
    return -size if sign == 1 else size


def speed(subtype, direction, code):
    """Speed code 0 is unknown, n is n-1 knots, times 4 in subtypes 2 and 4; 1023 is over.

    Direction 1 (west, south) is below zero; code 1 with either direction is zero.
    """
    fits(subtype, 3)
    fits(direction, 1)
    fits(code, 10)
    return stepped(direction, code, 4 if subtype in (2, 4) else 1, 1023)


def rate(sign, code):
    """Rate 0 is unknown, n is 64(n-1) ft/min, 511 over; sign 1 is down."""
    fits(sign, 1)
    fits(code, 9)
    return stepped(sign, code, 64, 511)


def difference(sign, code):
    """Difference 0 is unknown, n is 25(n-1) ft, 127 over; sign 1 is below."""
    fits(sign, 1)
    fits(code, 7)
    return stepped(sign, code, 25, 127)


def heading(code):
    """Headings are n/1024 of a turn in TYPE 19."""
    fits(code, 10)
    return code * TURN // 1024


def surface_heading(code):
    """Headings are n/128 of a turn on the surface."""
    fits(code, 7)
    return code * TURN // 128


def track_angle(code):
    """Of a coarse message: n/32 of a turn from true north, clockwise."""
    fits(code, 5)
    return code * TURN // 32


def coarse_speed(code):
    """Of a coarse message, in knots, lower edge: source 002, 2.2.17.3.5."""
    fits(code, 6)
    if code == 0:
        return UNKNOWN
    if code == 1:
        return "from 0"
    if code == 63:
        return "1968 and up"
    return f"from {32 * code - 48}"


def movement(code):
    """Movement in 48ths of a knot, lower edge."""
    fits(code, 7)
    if code == 0:
        return UNKNOWN
    if code == 1:
        return "stopped"
    if code == 2:
        return "from 0"
    if code <= 8:
        return f"from {6 + 7 * (code - 3)}"
    if code <= 12:
        return f"from {48 + 12 * (code - 9)}"
    if code <= 38:
        return f"from {96 + 24 * (code - 13)}"
    if code <= 93:
        return f"from {720 + 48 * (code - 39)}"
    if code <= 108:
        return f"from {3360 + 96 * (code - 94)}"
    if code <= 123:
        return f"from {4800 + 240 * (code - 109)}"
    if code == 124:
        return "8400 and up"
    return "reserved"


def character(code):
    """Codes 1-26 are A-Z, 32 space, 48-57 digits; the rest show as "?". Its ASCII number."""
    fits(code, 6)
    if 1 <= code <= 26:
        return ord("A") + code - 1
    if code == 32:
        return ord(" ")
    if 48 <= code <= 57:
        return ord("0") + code - 48
    return ord("?")


def text(characters):
    """The eight characters of an identification, of 6 bits each, as they show."""
    fits(characters, 48)
    return "".join(chr(character(characters >> place & 63)) for place in range(42, -1, -6))


def version(code):
    """Codes 0, 1 and 2 are DO-260, DO-260A and DO-260B; 3 to 7 are reserved."""
    fits(code, 3)
    return code if code <= 2 else "reserved"


def status(message):
    """The version, and the supplements that it has: A from version 1 on; C in version 2, in subtype 1, so that subtype 0 says 0."""
    said = version(message["version"])
    a = message["supplement A"] if said in (1, 2) else UNKNOWN
    c = message["bit 20"] * message["subtype"] if said == 2 else UNKNOWN
    return {"version": said, "supplement A": a, "supplement C": c}


def coarse(message):
    """The altitude and its step, the angle, whatever the track status says, and the speed."""
    code = message["altitude"]
    said = {"altitude": altitude(code), "step": step(code)}
    return said | {"angle": track_angle(message["track angle"]), "speed": coarse_speed(message["speed"])}


def body(fields, message, traffic=False):
    """What the fields of a layout mean, by name, in a message of a ground station's traffic service or another one.

    Of traffic the height difference is unknown unless ME bit 36, where others have the rate source, is set: RULES 17.5.
    8 for the whole of it where one field is wider than its bits, or TYPE and subtype are not those of the layout. A coarse
    one has none, and every one is legal.
    """
    for name, first, last in [*([] if fields is messages.COARSE else [("TYPE", 1, 5)]), *fields]:
        fits(message[name], last - first + 1)
    if fields is messages.COARSE:
        return coarse(message)
    if messages.layout(message["TYPE"], message.get("subtype")) is not fields:
        raise Refused(8)
    if fields is messages.IDENTIFICATION:
        return {"set": category_set(message["TYPE"]), "text": text(message["characters"])}
    if fields is messages.SURFACE:
        return {"movement": movement(message["movement"]), "heading": surface_heading(message["heading"])}
    if fields is messages.AIRBORNE:
        code = message["altitude"]
        return {"altitude": altitude(code), "GNSS": message["TYPE"] in (20, 21, 22), "step": step(code)}
    if fields is messages.STATUS:
        return status(message)
    subtype = message["subtype"]
    if fields is messages.OVER_GROUND:
        east = speed(subtype, message["east-west direction"], message["east-west speed"])
        north = speed(subtype, message["north-south direction"], message["north-south speed"])
        first = {"east": east, "north": north}
    else:
        first = {"heading": heading(message["heading"]), "airspeed": speed(subtype, 0, message["airspeed"])}
    no_difference = traffic and message["rate source"] == 0
    return first | {
        "rate": rate(message["rate sign"], message["rate"]),
        "difference": UNKNOWN if no_difference else difference(message["difference sign"], message["difference"]),
    }
