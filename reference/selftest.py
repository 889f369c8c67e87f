"""Holds the model to the examples of docs/RULES.md, to the published vectors and to the laws of docs/RULES.md.

    python3 reference/selftest.py
"""

import subprocess
import sys
from decimal import Decimal
from fractions import Fraction
from itertools import product
from math import ceil, floor
from pathlib import Path
from random import Random

import captures
import degrees
import embedding
import integrity
import make_samples
import messages
import positions
import published
import readings
import replay as plain_method
import run_calls
import run_captures
import stamps as short_clock
import table as lent_table
import tracks
import traffic
from listings import merge as merge_listings
from parity import GENERATOR, remainder, seal, sealed
from positions import AIRBORNE, COARSE, COUNTS, EVEN, FIGURES, ODD, STEP, SURFACE, UNIT, zone_count, zones
from refusals import Refused, answer
from tracks import Position, Saved, Track
from traffic import ANOTHER, GROUND, ICAO, MODE_A, OTHER, TRANSPONDER
from vectors import figures, message_vectors, position_vectors, readings_vectors, replays, table_vectors

assertions = 0
failures = []


def equal(what, found, due):
    """One assertion."""
    global assertions
    assertions += 1
    if found != due:
        failures.append(f"{what}: found {found}, due {due}")


def true(what, found):
    """One assertion."""
    equal(what, bool(found), True)


def refused(number, question, *arguments):
    """One assertion: the question is refused with this number."""
    equal(f"{question.__name__}{arguments}", answer(question, *arguments), f"refused {number}")


# Parity


def parity_rows():
    """Published remainders and the examples of RULES 4.7."""
    for text, due, _ in published.PARITY_ROWS:
        equal(f"remainder of {text}", remainder(bytes.fromhex(text)), due)
    for text, _ in published.FIELD_ROWS + published.STATUS_ROWS:
        equal(f"remainder of {text}", remainder(bytes.fromhex(text)), 0)
        equal(f"seal of {text}", seal(bytes.fromhex(text)[:11]), int(text[22:], 16))
    equal("remainder of 14 zero bytes", remainder(bytes(14)), 0)
    equal("remainder of bit 88", remainder((1 << 24).to_bytes(14, "big")), 0xFFF409)
    wrong = bytes.fromhex("8D4CA251204994B1C36E60A5343D")
    equal("one bit, bit 108", remainder(message_vectors.flipped(wrong, 108)), 0)
    terms = [24, 23, 22, 21, 20, 19, 18, 17, 16, 15, 14, 13, 12, 10, 3, 0]
    equal("the generator's terms", sum(1 << term for term in terms), GENERATOR)


def parity_laws():
    """Linear; the division leaves a remainder; the seal and no other three bytes."""
    chance = Random(11)
    for length in [*range(40), 512]:
        one, other = chance.randbytes(length), chance.randbytes(length)
        both = bytes(x ^ y for x, y in zip(one, other))
        equal("linear", remainder(both), remainder(one) ^ remainder(other))
        equal("sealed", remainder(sealed(one)), 0)
        three = chance.randbytes(3)
        equal("three bytes", remainder(one + three) == 0, int.from_bytes(three, "big") == seal(one))
        quotient, product = chance.getrandbits(8 * length), 0
        for place in range(8 * length):
            if quotient >> place & 1:
                product ^= GENERATOR << place
        rest = chance.getrandbits(24)
        whole = (product ^ rest).to_bytes(length + 4, "big")
        equal("quotient x generator + rest", remainder(whole), rest)
        equal("zero bytes", remainder(bytes(length)), 0)
        for cut in range(length + 1):
            equal("in halves", remainder(one[:cut] + bytes(length - cut)) ^ remainder(one[cut:]), remainder(one))


def flipped_bits():
    """An acceptable message with any one of its 112 bits flipped is refused with 3."""
    for text, _ in published.FIELD_ROWS + published.STATUS_ROWS:
        message = bytes.fromhex(text)
        for bit in range(1, 113):
            refused(3, messages.decode, (int.from_bytes(message, "big") ^ 1 << 112 - bit).to_bytes(14, "big"))


# Readings


def coding_rows():
    """Published codings."""
    for name, a, b, code, due in published.CODING_ROWS:
        reading = readings_vectors.QUESTIONS[readings_vectors.NUMBER[name]][3]
        equal(f"{name} {code}", reading(a, b, code), due)
    edges = [("0.125", 3), ("1", 9), ("2", 13), ("15", 39), ("70", 94), ("100", 109)]
    for knots, code in edges:
        equal(f"movement {code}", readings.movement(code), f"from {Fraction(knots) * 48}")
    equal("movement 124", readings.movement(124), f"{175 * 48} and up")
    equal("movement", [readings.movement(code) for code in (0, 1, 2)], ["unknown", "stopped", "from 0"])
    equal("movement", [readings.movement(code) for code in (125, 126, 127)], ["reserved"] * 3)
    ends = {8: 41, 12: 84, 38: 696, 93: 3312, 108: 4704, 123: 8160}
    for code, edge in ends.items():
        equal(f"movement {code}", readings.movement(code), f"from {edge}")
    for code, due in published.COARSE_SPEEDS:
        equal(f"coarse speed {code}", readings.coarse_speed(code), due)
    edges = [int(readings.coarse_speed(code).removeprefix("from ")) for code in range(1, 63)]
    equal("32 knots apart, the first two 16", {high - low for low, high in zip(edges[1:], edges[2:])} | {edges[1] - edges[0]}, {16, 32})
    equal("11.25 degrees", [readings.track_angle(code) * UNIT for code in range(32)], [code * Fraction("11.25") for code in range(32)])
    refused(8, readings.coarse_speed, 64)
    refused(8, readings.track_angle, 32)
    equal("west, code 1", readings.speed(1, 1, 1), 0)
    equal("speed 1023 west", readings.speed(1, 1, 1023), "over")
    equal("speed 0 west", readings.speed(1, 1, 0), "unknown")
    equal("rate 510", readings.rate(0, 510), 32576)
    equal("rate 1 down", readings.rate(1, 1), 0)
    equal("difference 127", readings.difference(0, 127), "over")
    sets = [readings.category_set(code) for code in range(32)]
    equal("category sets", sets, ["none", "D", "C", "B", "A"] + ["none"] * 27)
    shown = "?ABCDEFGHIJKLMNOPQRSTUVWXYZ????? ???????????????0123456789??????"
    equal("characters", "".join(chr(readings.character(code)) for code in range(64)), shown)


def altitudes():
    """The examples, Gillham rows, and what is known of all 2,048 codes with Q 0; the step of each code."""
    for code, due in published.ALTITUDE_EXAMPLES:
        equal(f"altitude {code}", readings.altitude(code), due)
    for front, back, code, feet in published.GILLHAM_ROWS:
        d2, d4, a1, a2, a4, b1, b2, b4 = front
        c1, c2, c4 = back
        equal(f"Gillham {front} {back}", int("".join([c1, a1, c2, a2, c4, a4, b1, "0", b2, d2, b4, d4]), 2), code)
        equal(f"altitude {code}", readings.altitude(code), feet)
    q_0 = [code for code in range(4096) if not code & 16]
    known = {readings.altitude(code): code for code in q_0 if readings.altitude(code) != "unknown"}
    unknown = [code for code in q_0 if readings.altitude(code) == "unknown"]
    equal("Gillham altitudes", sorted(known), list(range(-1200, 126701, 100)))
    equal("unknown besides 0", len(unknown) - 1, 767)
    for feet in range(-1200, 126700, 100):
        equal(f"{feet} and the next", (known[feet] ^ known[feet + 100]).bit_count(), 1)
    q_1 = [readings.altitude(code) for code in range(4096) if code & 16]
    equal("25-foot altitudes", q_1, list(range(-1000, 50176, 25)))
    equal("altitude 3128", readings.altitude(3128), 38000)
    equal("altitude 255", readings.altitude(255), 2175)
    equal("steps of the examples", [readings.step(code) for code, _ in published.ALTITUDE_EXAMPLES], [100, 100, 25, 25, "unknown"])
    for code in range(4096):
        due = "unknown" if readings.altitude(code) == "unknown" else 25 if code & 16 else 100
        equal(f"step {code}", readings.step(code), due)
    equal("a step divides its altitude", {readings.altitude(code) % readings.step(code) for code in range(4096) if readings.step(code) != "unknown"}, {0})


def wide_codes():
    """A code wider than its bits: 8, and nothing else is."""
    for name, width, _, reading in readings_vectors.QUESTIONS:
        wide = [code for code in range(1 << 16) if answer(reading, 0, 0, code) == "refused 8"]
        equal(f"{name}: 8 just when wider than {width} bits", wide, list(range(1 << width, 1 << 16)))
    for question, arguments in ((readings.speed, (8, 0, 0)), (readings.speed, (1, 2, 0)), (readings.rate, (2, 0))):
        refused(8, question, *arguments)
    refused(8, readings.difference, 2, 0)


def whole_bodies():
    """A body is refused as a whole, with 8, just when a field is too wide or TYPE or subtype is another layout's."""
    for _, fields, kinds in readings_vectors.LAYOUTS:
        widths = readings_vectors.widths(fields)
        for type_code, subtype in kinds:
            good = dict.fromkeys(widths, 0) | {"TYPE": type_code} | ({"subtype": subtype} if subtype else {})
            readings.body(fields, good)
            for name, width in widths.items():
                refused(8, readings.body, fields, good | {name: 1 << width})
            own = [code for code, _ in kinds]
            taken = [code for code in range(256) if answer(readings.body, fields, good | {"TYPE": code}) != "refused 8"]
            true(f"TYPE {own}", set(own) <= set(taken) and all(messages.layout(code, subtype) is fields for code in taken))
    airborne = [code for code in range(32) if messages.layout(code, 0) is messages.AIRBORNE]
    blank = dict.fromkeys(readings_vectors.widths(messages.AIRBORNE), 0)
    heights = {code: readings.body(messages.AIRBORNE, blank | {"TYPE": code})["GNSS"] for code in airborne}
    equal("TYPEs with GNSS height", heights, published.GNSS_HEIGHTS)
    for code in range(4096):
        meant = readings.body(messages.AIRBORNE, blank | {"altitude": code})
        due = {"altitude": readings.altitude(code), "GNSS": False, "step": readings.step(code)}
        equal(f"TYPE 0, altitude {code}", meant, due)


# Messages


def message_rows():
    """Published messages, their fields and their meaning."""
    for text, _, number in published.PARITY_ROWS:
        string = bytes.fromhex(text)
        if number:
            refused(number, messages.decode, string)
        else:
            equal(text, messages.encode(messages.decode(string)), string)
    for text, fields in published.FIELD_ROWS + published.NO_POSITION_ROWS + published.STATUS_ROWS:
        message = messages.decode(bytes.fromhex(text))
        for name, due in fields.items():
            equal(f"{text} {name}", message[name], due)
        equal(text, messages.encode(message).hex().upper(), text)
    for text, due in published.TEXTS:
        equal(text, readings.text(messages.decode(bytes.fromhex(text))["characters"]), due)
    refused(4, messages.decode, bytes(14))
    refused(3, messages.decode, (1 << 24).to_bytes(14, "big"))

    ground = messages.decode(bytes.fromhex("8D485020994409940838175B284F"))
    west = readings.speed(1, ground["east-west direction"], ground["east-west speed"])
    south = readings.speed(1, ground["north-south direction"], ground["north-south speed"])
    equal("west 8, south 159 knots", (west, south), (-8, -159))
    true("159.20 knots", Fraction("159.195") ** 2 <= west**2 + south**2 < Fraction("159.205") ** 2)
    track = 180 + positions.arctangent(Decimal(8) / Decimal(159)) * 45 / positions.arctangent(Decimal(1))
    equal("182.88 degrees", round(track, 2), Decimal("182.88"))
    equal("-832 ft/min", readings.rate(ground["rate sign"], ground["rate"]), -832)
    equal("+550 feet", readings.difference(ground["difference sign"], ground["difference"]), 550)
    air = messages.decode(bytes.fromhex("8DA05F219B06B6AF189400CBC33F"))
    equal("243.984375 degrees", readings.heading(air["heading"]) * UNIT, Fraction("243.984375"))
    equal("375 knots", readings.speed(air["subtype"], 0, air["airspeed"]), 375)
    equal("-2,304 ft/min", readings.rate(air["rate sign"], air["rate"]), -2304)
    equal("difference unknown", readings.difference(air["difference sign"], air["difference"]), "unknown")
    equal("140.625 degrees", readings.surface_heading(50) * UNIT, Fraction("140.625"))
    equal("98.4375 degrees", readings.surface_heading(35) * UNIT, Fraction("98.4375"))


def layouts():
    """Each layout has bits 6 to 56 of ME, a coarse one 1 to 56, each once, in order; each TYPE its layout."""
    of_type = {}
    for type_code in range(32):
        for subtype in range(8):
            of_type[type_code, subtype] = messages.layout(type_code, subtype)
    for fields in [messages.COARSE, *(fields for fields in of_type.values() if fields)]:
        ends = [0 if fields is messages.COARSE else 5] + [last for _, _, last in fields]
        equal("bits in order", [first for _, first, _ in fields], [last + 1 for last in ends[:-1]])
        equal("last bit", ends[-1], 56)
    true("no TYPE is coarse", messages.COARSE not in of_type.values())
    taken = {type_code for (type_code, _), fields in of_type.items() if fields}
    equal("TYPEs taken", taken, {*range(23), 31})
    equal("TYPE 0, whatever bits 6-8 are", {id(of_type[0, subtype]) for subtype in range(8)}, {id(messages.AIRBORNE)})
    equal("subtypes taken", [s for s in range(8) if of_type[19, s]], [1, 2, 3, 4])
    equal("subtypes of status", [s for s in range(8) if of_type[31, s]], [0, 1])
    places = {name: (first, last) for name, first, last in messages.STATUS}
    equal("version and A, as source 000 has them", (places["version"], places["supplement A"]), ((41, 43), (44, 44)))
    equal("C, and the rest", (places["bit 20"], places["NACp"], places["SIL"]), ((20, 20), (45, 48), (51, 52)))


def flag_in(bits):
    """The flag, by the bit numbers of a message: ME bits 8, 21 and 9 are its bits 40, 53 and 41. None counts as 0."""
    type_code = int(bits[32:37], 2)
    if type_code == 0 or 9 <= type_code <= 18 or 20 <= type_code <= 22:
        return bits[40 - 1]
    return {**dict.fromkeys((5, 6, 7, 8), bits[53 - 1]), 19: bits[41 - 1]}.get(type_code, "0")


def message_laws():
    """The order 1, 3, 4, 5, bit by bit; both round trips; what the encoder refuses."""
    chance = Random(12)
    for string in message_vectors.strings():
        bits = f"{int.from_bytes(string, 'big'):0{8 * len(string)}b}" if string else ""
        if len(string) != 14:
            due = 1
        elif remainder(string) != 0:
            due = 3
        elif bits[:5] != "10001" and bits[:8] not in ("10010000", "10010001", "10010010", "10010011", "10010101"):
            due = 4
        elif bits[:8] == "10010011":
            due = 0
        elif "10110" < bits[32:37] < "11111":
            due = 5
        elif bits[32:37] == "11111" and (bits[37:40] > "001" or bits[:8] in ("10010010", "10010101")):
            due = 5
        elif bits[32:37] == "10011" and not "001" <= bits[37:40] <= "100":
            due = 5
        elif bits[:8] == "10010101" and flag_in(bits) == "1":
            due = 5
        else:
            due = 0
        if due:
            refused(due, messages.decode, string)
            continue
        message = messages.decode(string)
        equal(string.hex(), messages.encode(message), string)
        equal("decode of encode", messages.decode(messages.encode(message)), message)
        equal("the bits", "".join(f"{value:b}" for value in message.values()).count("1"), bits[:88].count("1"))
        fields = messages.fields_of(messages.layout_of(message))
        name, first, last = chance.choice(fields)
        refused(8, messages.encode, message | {name: message[name] + (1 << last - first + 1)})
        refused(8, messages.encode, message | {"DF": 18, "CA or CF": chance.choice((4, 6, 7))})
        if messages.is_coarse(message):
            of_another_sender(message)
            continue
        refused(8, messages.encode, message | {"DF": 18, "CA or CF": 3})
        is_status = fields[4:] == messages.STATUS
        reserved = answer(messages.encode, message | {"DF": 18, "CA or CF": 5}) == "refused 8"
        equal("CF 5 encoded, unless the flag is set or it is a status", reserved, flag_in(bits) == "1" or is_status)
        refused(8, messages.encode, message | {"TYPE": chance.choice(range(23, 31))})
        refused(8, messages.encode, message | {"TYPE": 4 if message["TYPE"] > 4 else 5})
        equal("TYPE 31 of a status alone", answer(messages.encode, message | {"TYPE": 31}) != "refused 8", is_status)
        if is_status:
            refused(8, messages.encode, message | {"subtype": chance.randrange(2, 8)})
            refused(8, messages.encode, message | {"DF": 18, "CA or CF": 2})
        if fields[4:] == messages.AIRBORNE:
            equal("TYPE 0 encoded", messages.decode(messages.encode(message | {"TYPE": 0})), message | {"TYPE": 0})
        else:
            refused(8, messages.encode, message | {"TYPE": 0})


def of_another_sender(message):
    """The fields of a coarse message are encoded with DF 18 and CF 3, and with no other."""
    for df, ca_or_cf in ((17, 3), (17, 5), (18, 0), (18, 1), (18, 2), (18, 5), (19, 3)):
        refused(8, messages.encode, message | {"DF": df, "CA or CF": ca_or_cf})
    refused(8, messages.encode, message | {"TYPE": 11})
    refused(8, messages.encode, {name: value for name, value in message.items() if name != "flag"})


def coarse_messages():
    """RULES 2.10: the example field by field; 10,000 random MEs under CF 3, each accepted, and back as the same 14 bytes."""
    for string, bits in zip((traffic.coarse(ONE, i, HERE) for i in (EVEN, ODD)), published.COARSE_BITS):
        equal("the bits of the figure", f"{int.from_bytes(string[:11], 'big'):088b}", bits.replace(" ", ""))
        equal("as it stands there", [*messages.decode(string).values()], [int(field, 2) for field in bits.split()])
    chance = Random(121)
    for me in (0, 2**56 - 1, *(1 << place for place in range(56)), *(chance.getrandbits(56) for _ in range(10_000))):
        string = traffic.coarse_bits(chance.getrandbits(24), me)
        message = messages.decode(string)
        equal("the same 14 bytes", messages.encode(message), string)
        equal("it starts a track of kind C", (tracks.starts(message), tracks.kind_of(message)), (True, tracks.C))


# Positions


def table():
    """NL: the table against the published formula, and its edges."""
    try:
        positions.check_table()
        true("the table is the published one", True)
    except ValueError as wrong:
        true(f"the table is the published one: {wrong}", False)
    equal("58 figures", len(FIGURES), 58)
    equal("strictly rising", FIGURES, sorted(set(FIGURES)))
    for nl, figure in zip(range(59, 1, -1), FIGURES):
        for sign in (1, -1):
            at = Fraction(sign * figure, 10**8)
            equal(f"NL at {figure}", zone_count(at), nl)
            equal(f"NL above {figure}", zone_count(at + sign * Fraction(1, 10**12)), nl - 1)
        on_grid = Fraction(figure * 60 * 59 * COUNTS, 90 * 10**8).denominator == 1
        equal(f"{figure} is the latitude of a count", on_grid, nl == 2)
    equal("NL at 0 and 90", (zone_count(0), zone_count(90), zone_count(-90)), (59, 1, 1))
    equal("87 exactly", zone_count(Fraction(87)), 2)
    equal("one even count more", zone_count(87 + positions.angle_of(1, 60, AIRBORNE)), 1)


def steps():
    """RULES 7.5: latitudes are multiples of STEP, and a table in STEPs, rounded down, has the same NL everywhere."""
    counts = [positions.angle_of(1, zones(i), turn) for turn in (AIRBORNE, SURFACE) for i in (EVEN, ODD)]
    equal("STEPs in a count", [count / STEP for count in counts], [236, 240, 59, 60])
    exact = [Fraction(figure, 10**8) / STEP for figure in FIGURES]
    down, to_nearest, up = [[rounding(step) for step in exact] for rounding in (floor, positions.nearest, ceil)]
    equal("rounded down is as published", positions.check_steps(down), None)
    others = {"down": down, "to nearest": to_nearest, "up": up}
    wrong = {name: set() for name in others}
    for nl, entry in zip(range(59, 1, -1), exact):
        for count in counts:
            last = floor(entry / (count / STEP))
            for whole in range(last - 1, last + 3):
                k = whole * (count / STEP)
                for name, table in others.items():
                    if next((59 - at for at, step in enumerate(table) if k <= step), 1) != zone_count(whole * count):
                        wrong[name].add(nl)
    equal("other roundings have another NL", wrong, {"down": set(), "to nearest": {42, 23}, "up": {42, 23, 17}})


def position_rows():
    """Published positions, the public rows and the examples of RULES 7.21."""
    for counts, later, latitude, longitude in published.PAIR_ROWS:
        equal(f"pair {counts} {later}", positions.pair(later, *counts), (latitude, longitude))
    for counts, later, latitude, longitude in published.PAIR_DEGREES:
        place = positions.pair(later, *counts)
        true(f"pair {counts}", published.close(place, latitude, longitude, published.printed(latitude)))
    exactly = positions.paired_place(EVEN, 93000, 51372, 74158, 50194)
    equal("52.2572021484375", exactly, (Fraction("52.2572021484375"), Fraction("3.91937255859375")))
    for turn, i, counts, reference, (latitude, longitude) in published.SINGLE_DEGREES:
        place = positions.single(turn, i, *counts, *published.units(*reference))
        true(f"single {counts}", published.close(place, latitude, longitude, published.printed(latitude)))
    for turn, i, counts, reference, due in published.SINGLE_UNITS:
        equal(f"single {counts}", positions.single(turn, i, *counts, *published.units(*reference)), due)

    rows = list(published.public_rows())
    equal("public rows in scope", len(rows), 34)
    for row in rows:
        later = ODD if row["latest"] == "odd" else EVEN
        even, odd = ((row[f"{f}_lat"], row[f"{f}_lon"]) for f in ("even", "odd"))
        if row["kind"] == "global_air":
            place = positions.pair(later, *map(int, even + odd))
        else:
            turn = AIRBORNE if row["kind"] == "rel_air" else SURFACE
            counts = map(int, odd if later == ODD else even)
            place = positions.single(turn, later, *counts, *published.units(row["reflat"], row["reflon"]))
        # six digits are printed: half of the last, and half a unit of 2^-32 of a turn
        true(f"public row {row}", published.close(place, row["lat"], row["lon"], published.printed(row["lat"])))
        equal("public row's result", row["result"], "0")

    north, south, east = 2**29, -(2**29), 2**30
    equal("45 N 90 E", position_vectors.both_ways(north, east), [65536, 65536, 49152, 32768])
    equal("45 S", position_vectors.both_ways(south, east)[::2], [65536, 81920])
    for later in (EVEN, ODD):
        refused(9, positions.pair, later, 0, 0, 65536, 0)
        equal("90 N", positions.pair(later, 0, 0, 98304, 0)[0], 2**30)
        equal("270 exactly is 90 S", positions.pair(later, 0, 0, 32768, 0)[0], -(2**30))
        refused(9, positions.pair, later, 0, 0, 98305, 0)
        refused(9, positions.pair, later, COUNTS - 1, 0, 32768, 0)
    equal("the site", positions.single(SURFACE, EVEN, 0, 0, north, east), (north, east))
    equal("short of a turn by more than half a unit", positions.hand_out(0, 360 - UNIT * 51 / 100), (0, 2**32 - 1))
    equal("half up, also under zero", positions.hand_out(-UNIT / 2, UNIT / 2), (0, 1))
    equal("j", (positions.latitude_zone(0, COUNTS - 1), positions.latitude_zone(COUNTS - 1, 0)), (-60, 59))
    for nl in range(1, 60):
        equal("m", positions.longitude_zone(0, COUNTS - 1, nl), -nl)
        even, _, odd, _ = position_vectors.both_ways(position_vectors.band(nl), 0)
        _, longitude = positions.paired_place(ODD, even, 0, odd, COUNTS - 1)
        due = 360 - Fraction(360, max(nl - 1, 1) * COUNTS)
        equal("m of -NL, odd later: one count below a turn", longitude, due)


def last_longitudes():
    """RULES 7.15: every longitude is short of a turn by more than half a unit: every n, zone by zone, the outermost counts."""
    figures = (AIRBORNE, COUNTS, 555, 555), (SURFACE, COUNTS, 138, 139), (AIRBORNE, COARSE, 17772, 17772), (SURFACE, COARSE, 4443, 4443)
    for turn, size, shortfall, handed in figures:
        least, last = Fraction(360), 0
        for n in range(1, 60):
            for zone in range(n * 360 // turn):
                for count in (0, 1, size - 2, size - 1):
                    longitude = positions.in_zone(zone, count, n, turn, size)
                    least, last = min(least, 360 - longitude), max(last, positions.hand_out(0, longitude)[1])
            equal(f"the last of n = {n}", 360 - longitude, Fraction(turn, n * size))
        true("more than half a unit", least > UNIT / 2)
        equal("the least shortfall, whole units", floor(least / UNIT), shortfall)
        equal("the last longitude handed out", last, 2**32 - handed)
    for m in (2**33 - 1, 2**33):
        equal(f"the last of {m} counts", positions.hand_out(0, 360 * Fraction(m - 1, m))[1], 2**32 - (m < 2**33))


def published_encode(turn, i, latitude, longitude, size):
    """Encoding as the standard prints it: YZ = floor(2^17 MOD(lat, D)/D + 1/2), Rlat, XZ; modulo 2^17."""
    scale = size * AIRBORNE // turn  # 2^17, on the surface 2^19; 2^12 and 2^14 of coarse counts
    step = Fraction(360, 60 - i)
    yz = floor(scale * (latitude % step) / step + Fraction(1, 2))
    rlat = step * (Fraction(yz, scale) + floor(latitude / step))
    step = Fraction(360, max(zone_count(rlat) - i, 1))
    xz = floor(scale * (longitude % step) / step + Fraction(1, 2))
    return yz % size, xz % size


def published_single(turn, i, latitude_count, longitude_count, latitude, longitude, size):
    """Reading near a reference as the standard prints it, with MOD."""

    def near(count, reference, step):
        zone = floor(reference / step) + floor(Fraction(1, 2) + reference % step / step - Fraction(count, size))
        return step * (zone + Fraction(count, size))

    rlat = near(latitude_count, latitude, Fraction(turn, 60 - i))
    if abs(rlat) > 90:
        return None
    return rlat, near(longitude_count, longitude, Fraction(turn, max(zone_count(rlat) - i, 1))) % 360


def places(chance):
    """Places all over, near the transitions and at the ends."""
    for _ in range(600):
        yield position_vectors.random_latitude(chance), chance.getrandbits(32)
    for figure in FIGURES:
        for sign in (1, -1):
            edge = positions.nearest(sign * Fraction(figure, 10**8) / UNIT)
            for aside in (0, chance.randrange(-300, 300)):
                yield edge + aside, chance.getrandbits(32)
    for latitude in (0, 1, -1, 2**30, -(2**30), 2**30 - 1):
        for longitude in (0, 1, 2**31, 2**32 - 1):
            yield latitude, longitude


def around(one, other):
    """The distance of two longitudes around the circle."""
    return min((one - other) % 360, (other - one) % 360)


def position_laws(size):
    """Encoding one place both ways and pairing; half a count; single; the standard's own forms."""
    chance = Random(13)
    both = {AIRBORNE: 0, SURFACE: 0}
    for latitude, longitude in places(chance):
        true_place = latitude * UNIT, longitude * UNIT
        for turn in (AIRBORNE, SURFACE):
            nls, rounded_places, counts = [], [], []
            for i in (EVEN, ODD):
                rlat, rlon, _, _, nl = positions.rounded_place(turn, i, *true_place, size)
                nls.append(nl)
                rounded_places.append((rlat, rlon % 360))
                mine = positions.encode(turn, i, latitude, longitude, size)
                counts += mine
                equal("as the standard encodes", mine, published_encode(turn, i, *true_place, size))
                n = max(nl - i, 1)
                half_counts = Fraction(turn, 2 * zones(i) * size), Fraction(turn, 2 * n * size)
                true("half a count of latitude", abs(rlat - true_place[0]) <= half_counts[0])
                true("half a count of longitude", around(rlon, true_place[1]) <= half_counts[1])
                place = positions.single_place(turn, i, *mine, latitude, longitude, size)
                equal("single at the place", place, rounded_places[-1])
            if turn == SURFACE:
                continue
            for later in (EVEN, ODD):
                if nls[EVEN] != nls[ODD]:
                    both[turn] += 1
                    refused(10, positions.paired_place, later, *counts, size)
                else:
                    equal("paired", positions.paired_place(later, *counts, size), rounded_places[later])
    true("some places differ in NL", both[AIRBORNE] > 20)
    for _ in range(600):
        turn, i = chance.choice((AIRBORNE, SURFACE)), chance.choice((EVEN, ODD))
        counts = position_vectors.random_counts(chance, 2, size)
        reference = position_vectors.random_latitude(chance), chance.getrandbits(32)
        due = published_single(turn, i, *counts, reference[0] * UNIT, reference[1] * UNIT, size)
        if due is None:
            refused(9, positions.single_place, turn, i, *counts, *reference, size)
            continue
        place = positions.single_place(turn, i, *counts, *reference, size)
        equal("as the standard reads it", place, due)
        half = Fraction(turn, 2 * zones(i))
        true("within half a zone", -half < place[0] - reference[0] * UNIT <= half)


def position_ties(size):
    """Halves: j and m go up, a reference half a zone below the place still gives it."""
    chance = Random(15)
    for _, _, even, even_longitude, odd, odd_longitude in position_vectors.half_zones(chance, size):
        j = positions.latitude_zone(even, odd, size)
        exactly = 59 * even - 60 * odd
        if exactly % size == size // 2:
            equal("halfway j", j * size, exactly + size // 2)
        nl = zone_count(positions.paired_latitude(j, even, EVEN, size))
        m = positions.longitude_zone(even_longitude, odd_longitude, nl, size)
        exactly = even_longitude * (nl - 1) - odd_longitude * nl
        if exactly % size == size // 2:
            equal("halfway m", m * size, exactly + size // 2)
    for turn in (AIRBORNE, SURFACE):
        for i in (EVEN, ODD):
            for _ in range(50):
                reference, count = position_vectors.boundary(chance, zones(i), turn, -(2**30), 2**30, size)
                place = positions.nearby(count, reference * UNIT, zones(i), turn, size)
                equal("half a zone ahead", place - reference * UNIT, Fraction(turn, 2 * zones(i)))


def refusals_of_positions(size):
    """8 before 9 and 10; and 9 never meets 10, since the two latitudes lie within 360/7080 degrees."""
    chance = Random(14)
    for question in position_vectors.refused(chance, size):
        wide_count = any(count >= size for count in question[2 : 6 if question[0] == 2 else 4])
        if question[0] in (0, 1):
            due = abs(question[2]) > 2**30
        elif question[0] == 2:
            due = wide_count
        else:
            due = wide_count or abs(question[4]) > 2**30
        equal(f"8 for {question}", answer(position_vectors.answered, *question) == "refused 8", due)
    for _ in range(2000):
        even, odd = position_vectors.random_counts(chance, 2, size)
        j = positions.latitude_zone(even, odd, size)
        latitudes = positions.paired_latitude(j, even, EVEN, size), positions.paired_latitude(j, odd, ODD, size)
        true("-90 and up, below 270", all(-90 <= latitude < 270 for latitude in latitudes))
        true("within half a step", around(*latitudes) <= Fraction(360, 60 * 59 * 2))
        if max(latitudes) > 90:
            equal("NL beyond the pole", [zone_count(latitude) for latitude in latitudes], [1, 1])


def positions_by_size():
    """Fine counts, and the coarse ones of RULES 7.19."""
    for size in (COUNTS, COARSE):
        position_laws(size)
        position_ties(size)
        refusals_of_positions(size)


# Tracks


HERE = 2**29, 2**30  # 45 N 90 E
NEAR = 2**29 + 2**20, 2**30 + 2**20
ONE, TWO = 0xABCDEF, 0x4840D6
KEY = 1 << 24 | ONE


def new_table(places, site=None):
    """A table that is set up."""
    made = bytearray(lent_table.length_of(places))
    lent_table.set_up(made, site)
    return made


def heard(made, *rows):
    """Receives the messages, each with its time; the table."""
    for string, time in rows:
        answer(lent_table.receive, made, string, time)
    return made


def from_air(i, place=HERE, aa=ONE, head=TRANSPONDER):
    """An airborne message at 10,000 feet."""
    return traffic.airborne(head, aa, i, place)


def track_edges():
    """Each paragraph of RULES 8 at its edge."""
    first, second = (bytes.fromhex(text) for text, fields in published.FIELD_ROWS if fields.get("AA") == ONE)
    equal("the listing's messages", (first, second), (from_air(EVEN), from_air(ODD)))
    for gap, found in ((0, 1), (400, 1), (10_000, 1), (10_001, 0)):
        track = lent_table.look_up(heard(new_table(1), (first, 1_000), (second, 1_000 + gap)), KEY)
        due = Position(1, *HERE, 1_000 + gap) if found else Position()
        equal(f"partner age {gap}", track.position, due)
        equal("both are saved", [saved.known for saved in track.saved], [1, 1])
    for clock, held in ((125_999, True), (126_000, False)):
        other = traffic.identification(TRANSPONDER, TWO, "KLM1023")
        made = heard(new_table(2), (first, 1_000), (other, clock))
        equal(f"heard at 1,000, clock {clock}", lent_table.look_up(made, KEY) is not None, held)
        equal("the other is held", lent_table.look_up(made, 1 << 24 | TWO).heard, clock)
        full = heard(new_table(1), (first, 1_000))
        equal("a place freed by the very call", answer(lent_table.receive, full, other, clock) == "refused 6", held)
        damaged = message_vectors.flipped(second, 60)
        made = heard(new_table(2), (first, 1_000), (damaged, 100_000), (other, clock))
        equal("bad parity refreshes nothing", lent_table.look_up(made, KEY) is not None, held)
    for gap, found in ((120_000, 1), (120_001, 0)):
        kept = traffic.velocity(TRANSPONDER, ONE, 1, 1)
        for made_message in (traffic.airborne, traffic.surface):
            last = made_message(TRANSPONDER, ONE, EVEN, NEAR), 1_400 + gap
            made = heard(new_table(1), (first, 1_000), (second, 1_400), (kept, 100_000), last)
            equal(f"reference age {gap}", lent_table.look_up(made, KEY).position.time, 1_400 + gap * found)


def track_rules():
    """Surface, site, groups and kinds."""
    still = traffic.message(TRANSPONDER, ONE, 7)  # counts 0 and 0, even
    equal("the site", lent_table.look_up(heard(new_table(1, HERE), (still, 5)), KEY).position, Position(1, *HERE, 5))
    equal("no site", lent_table.look_up(heard(new_table(1), (still, 5)), KEY).position, Position())
    alone = lent_table.look_up(heard(new_table(1, HERE), (from_air(EVEN), 5)), KEY)
    equal("no site for an airborne message", alone.position, Position())
    flown = heard(new_table(2, (0, 0)), (from_air(EVEN), 1_000), (from_air(ODD), 1_400))
    down = lent_table.look_up(heard(flown, (traffic.surface(TRANSPONDER, ONE, ODD, HERE), 2_000)), KEY)
    equal("the two saved are cleared", down.saved, (Saved(), Saved()))
    equal("read against the track's position", down.position, Position(1, *HERE, 2_000))
    equal("the altitude stays", (down.pressure, down.height), (888, 0))
    for type_code, due in ((9, (0, 77)), (18, (0, 77)), (20, (888, 0)), (22, (888, 0))):
        track = Track(pressure=888, height=77)
        after = tracks.step(track, traffic.airborne(TRANSPONDER, ONE, EVEN, HERE, type_code, 0), None, 9)
        equal("unknown replaces known, in its own group", (after.pressure, after.height), due)
    for head, kind in ((TRANSPONDER, 1), (traffic.NO_TRANSPONDER, 1), (OTHER, 2)):
        message = messages.decode(from_air(EVEN, head=head))
        equal("kind", tracks.key_of(message), kind << 24 | ONE)
    beyond = traffic.message(TRANSPONDER, ONE, 7, latitude=9_000)  # half a zone above the pole
    old = Position(1, 2**30, 0, 90)
    equal("on 9 the position stays", tracks.step(Track(position=old), beyond, HERE, 100).position, old)
    far = Position(1, 0, 0, 100)
    partner = Track(position=far, saved=(Saved(1, 0, 0, 90), Saved()))
    after = tracks.step(partner, traffic.airborne_counts(TRANSPONDER, ONE, ODD, (65536, 0)), None, 100)
    equal("on 9 the pair is read singly", after.position.known and after.position != far, True)
    wide = Track(position=far, saved=(Saved(1, 131_072, 0, 90), Saved()))
    after = tracks.step(wide, traffic.airborne_counts(TRANSPONDER, ONE, ODD, (0, 0)), None, 100)
    equal("on 8 the position stays", (after.position, after.saved[ODD]), (far, Saved(1, 0, 0, 100)))
    for latitude in (2**30 + 1, -(2**30) - 1):
        past = Position(1, latitude, 0, 90)
        equal("a latitude past a pole", answer(tracks.surface_position, past, HERE, EVEN, (0, 0), 100), "refused 8")
        unread = past._replace(known=0)
        equal("one that is not read", tracks.surface_position(unread, None, EVEN, (0, 0), 100), unread)


MES = 1 << 51, 19 << 51 | 1 << 48, 5 << 51, 31 << 51 | 5 << 12  # of each group
FULL = Track(5, *MES, 888, 77, 12, 1, Position(1, *HERE, 3), (Saved(1, 1, 2, 3), Saved(1, 4, 5, 4)))


def lost_positions():
    """RULES 8.7: what TYPE 0 does to a track that is held, and that it starts none."""
    for head in (TRANSPONDER, traffic.NO_TRANSPONDER, OTHER):
        for code in range(4096):
            lost = traffic.no_position(head, ONE, code, F=code % 2, latitude=code, longitude=65536, T=1)
            after = tracks.step(FULL, lost, HERE, 9)
            equal("last heard and the altitude, nothing else", after, FULL._replace(heard=9, pressure=code or 888))
    first, second = from_air(EVEN), from_air(ODD)
    lost, none = traffic.no_position(TRANSPONDER, ONE, 2688), traffic.no_position(TRANSPONDER, ONE, 0)
    fine, coarse = (traffic.no_position(TRANSPONDER, ONE, code) for code in (16, 128))
    for string, listed in ((lost, "- -"), (none, "10000 25"), (fine, "-1000 25"), (coarse, "-1200 100")):
        made = heard(new_table(1), (first, 1_000), (string, 1_200), (second, 1_400), (string, 1_500))
        line = f"I ABCDEF 1500 536870912 1073741824 {listed}"
        equal("paired across it, and listed", captures.line(KEY, lent_table.look_up(made, KEY)), line)
    for gap, held in ((124_999, True), (125_000, False)):
        made = heard(new_table(2), (first, 1_000), (none, 100_000), (from_air(EVEN, aa=TWO), 100_000 + gap))
        equal("it refreshes", lent_table.look_up(made, KEY) is not None, held)
        made = heard(new_table(2), (first, 1_000))
        given = answer(lent_table.receive, made, lost, 1_000 + gap)
        equal("held, or made stale by this very call", given == "refused 12", not held)
        equal("the clock is moved", lent_table.clock_of(made), 1_000 + gap)
    strangers = [(head, ONE) for head in (TRANSPONDER, traffic.NO_TRANSPONDER, OTHER)] + [(OTHER, TWO)]
    for places, (head, aa) in ((places, one) for places in (1, 2) for one in strangers):
        made = heard(new_table(places), (from_air(EVEN, aa=TWO), 1_000))
        before = dict(lent_table.walk(made))
        refused(12, lent_table.receive, made, traffic.no_position(head, aa), 2_000)
        equal("12 leaves the tracks", dict(lent_table.walk(made)), before)
        equal("a newcomer", answer(lent_table.receive, made, from_air(ODD, aa=aa, head=head), 2_000) == "refused 6", places == 1)
    refused(2, lent_table.receive, made, lost, 1_999)
    refused(3, lent_table.receive, made, message_vectors.flipped(lost, 60), 2_000)


def kinds():
    """RULES 2.13: the kind by DF, CF and flag; of DF 17 neither CA nor a bit of ME decides."""
    due = {(18, 0, 0): 1, (18, 0, 1): 1, (18, 1, 0): 2, (18, 1, 1): 2, (18, 2, 0): 3, (18, 2, 1): 4, (18, 5, 0): 5}
    due |= {(17, ca, flag): 1 for ca in range(8) for flag in (0, 1)}
    due |= {(18, cf, flag): "refused 4" for cf in (4, 6, 7) for flag in (0, 1)} | {(18, 5, 1): "refused 5"}
    for (df, ca_or_cf, flag), kind in due.items():
        for type_code, bit in ((0, 8), (5, 21), (8, 21), (9, 8), (18, 8), (20, 8), (22, 8), (19, 9)):
            for others in (0, sum(message_vectors.FLAGS)):  # the flags of the other layouts
                rest = others & ~(1 << 56 - bit) | flag << 56 - bit
                rest = rest & ~(7 << 48) | 3 << 48 if type_code == 19 else rest
                string = message_vectors.sealed_message(df, ca_or_cf, ONE, type_code, rest)
                found = answer(lambda: tracks.key_of(messages.decode(string)))
                equal(f"DF {df}, {ca_or_cf}, flag {flag}", found, kind if isinstance(kind, str) else str(kind << 24 | ONE))
        for rest in (0, 2**51 - 1):
            name = message_vectors.sealed_message(df, ca_or_cf, ONE, 4, rest)
            plain = due[df, ca_or_cf, 0]
            found = answer(lambda: tracks.key_of(messages.decode(name)))
            equal("an identification has no flag", found, plain if isinstance(plain, str) else str(plain << 24 | ONE))


def coarse_keys():
    """RULES 2.14: the key by its parts, and back; their order is the listing's; every number of the range is a key."""
    parts = [(aa, flag, station) for aa in (0, 1, ONE, 2**24 - 1) for flag in (0, 1) for station in range(16)]
    keys = [tracks.key_for(tracks.C, *one) for one in parts]
    equal("in order of address, flag, station, behind all others", sorted([*keys, tracks.key_for(tracks.N, 2**24 - 1)])[1:], keys)
    equal("the ends of the range", (keys[0], keys[-1], len({*keys})), (2**31, 2**31 + 2**29 - 1, len(parts)))
    for key, (aa, flag, station) in zip(keys, parts):
        found = tracks.kind_in(key), tracks.address_in(key), *tracks.sender_in(key)
        equal("and back", found, (tracks.C, aa, flag, station))
        me = flag << 55 | station << 49
        for others in (0, 2**56 - 1 & ~(1 << 55) & ~(15 << 49)):
            equal("of a message", tracks.key_of(messages.decode(traffic.coarse_bits(aa, me | others))), key)
    for key in (0, 2**24 - 1, 6 * 2**24, 2**31 - 1, 2**31 + 2**29, 2**32 - 1):
        equal("no key", tracks.kind_in(key), None)


def begun():
    """RULES 17.3: of T, M and N a position message starts a track, whether or not a position comes out of it; nothing else does."""
    for head in (TRANSPONDER, OTHER, *GROUND):
        for type_code, subtype in table_vectors.EVERY_TYPE:
            string = table_vectors.of_type(head, ONE, type_code, subtype)
            position = type_code in (5, 6, 7, 8, *range(9, 19), 20, 21, 22)
            may = position if head in GROUND else type_code != 0
            key = tracks.key_of(messages.decode(string))
            made, full = new_table(1), heard(new_table(1), (from_air(EVEN, aa=TWO), 1_000))
            given = answer(lent_table.receive, made, string, 1_000)
            equal("starts, or 12", given == "refused 12", not may)
            equal("it is held", lent_table.look_up(made, key) is not None, may)
            equal("6, or 12", answer(lent_table.receive, full, string, 1_000), "refused 6" if may else "refused 12")
    pairs = [(one, other) for one in (TRANSPONDER, OTHER, *GROUND) for other in (TRANSPONDER, OTHER, *GROUND)]
    for one, other in pairs:
        made = heard(new_table(2), (from_air(EVEN, head=one), 1_000), (from_air(ODD, head=other), 1_400))
        found = [track.position.known for _, track in lent_table.walk(made)]
        equal("one address, two kinds: not paired", found, [1] if one == other else [0, 0])
    letters = [captures.key_text(tracks.key_for(kind, ONE, 1, 10)) for kind in tracks.KINDS]
    equal("the letters", letters, ["I ABCDEF", "O ABCDEF", "T ABCDEF", "M ABCDEF", "N ABCDEF", "C ABCDEF 1 10"])


def from_station(i, place=HERE, aa=ONE, station=3, flag=0, altitude=888):
    """A coarse message at 10,000 feet."""
    return traffic.coarse(aa, i, place, station, flag, altitude)


COARSE_KEY = 2**31 + 32 * ONE + 3


def coarse_tracks():
    """RULES 17.7: saved and paired as an airborne message, by the same ages; its groups; no site; what else a track holds stays."""
    for gap, found in ((0, 1), (10_000, 1), (10_001, 0)):
        for first in (EVEN, ODD):
            made = heard(new_table(1), (from_station(first), 1_000), (from_station(1 - first), 1_000 + gap))
            track = lent_table.look_up(made, COARSE_KEY)
            equal(f"partner age {gap}", track.position, Position(1, *HERE, 1_000 + gap) if found else Position())
            equal("coarse counts of 45 N 90 E", [saved[:3] + saved[4:] for saved in track.saved], [(1, 2048, 2048, 1), (1, 1536, 1024, 1)])
    for gap, found in ((120_000, 1), (120_001, 0)):
        rows = (from_station(EVEN), 1_000), (from_station(ODD), 1_400), (from_station(ODD, NEAR), 1_400 + gap)
        equal(f"reference age {gap}", lent_table.look_up(heard(new_table(1), *rows), COARSE_KEY).position.time, 1_400 + gap * found)
    equal("no site", lent_table.look_up(heard(new_table(1, HERE), (from_station(EVEN), 5)), COARSE_KEY).position, Position())
    chance = Random(122)
    for me in (0, 2**56 - 1, 19 << 51 | 1 << 48, *(chance.getrandbits(56) for _ in range(200))):
        after = tracks.step(FULL, traffic.coarse_bits(ONE, me), HERE, 9)
        pressure = me >> 37 & 4095
        left = after._replace(saved=FULL.saved, position=FULL.position)
        equal("altitude and velocity, and no other group", left, FULL._replace(heard=9, velocity=me, coarse=1, pressure=pressure))
        i, counts = me >> 24 & 1, (me >> 12 & 4095, me & 4095)
        equal("saved by its F", (after.saved[i], after.saved[1 - i]), (Saved(1, *counts, 9, 1), FULL.saved[1 - i]))
    fine = traffic.velocity(TRANSPONDER, ONE, 1, 1)
    equal("TYPE 19 is no coarse message", tracks.step(after, fine, None, 9).coarse, 0)


def two_stations():
    """RULES 17.6: an aircraft of two stations, or of two flags, is two tracks and two lines; none is paired with the other."""
    for one, other in ((dict(station=3), dict(station=4)), (dict(flag=0), dict(flag=1)), (dict(aa=ONE), dict(aa=TWO))):
        made = heard(new_table(2), (from_station(EVEN, **one), 1_000), (from_station(ODD, **other), 1_400))
        equal("two tracks, unpaired", [track.position.known for _, track in lent_table.walk(made)], [0, 0])
    rows = [(1_000 + 400 * i + station, from_station(i, station=station)) for i in (EVEN, ODD) for station in (3, 12)]
    lines = captures.listing(captures.capture(rows), False).splitlines()
    due = [f"C ABCDEF 0 {station} {1_400 + station} 536870912 1073741824 10000 25" for station in (3, 12)]
    equal("two lines", lines, ["clock 1412 tracks 2 bad-blocks 0", *due])


def never_paired():
    """RULES 17.7: a partner of the other size changes nothing, whatever its counts and its time are."""
    chance = Random(123)
    for _ in range(400):
        i, time, place = chance.randrange(2), chance.randrange(20_000), chance.choice((Position(), Position(1, *NEAR, 9_000)))
        counts = position_vectors.random_counts(chance, 2, COARSE)
        fine, coarse = traffic.airborne_counts(TRANSPONDER, ONE, i, counts), traffic.coarse_counts(ONE, i, counts)
        for string, size in ((fine, 1), (coarse, 0)):  # the mark of the other size
            partner = Saved(1, *position_vectors.random_counts(chance, 2, COARSE), chance.randrange(20_000), size)
            with_one, without = ((one, Saved()) if i == ODD else (Saved(), one) for one in (partner, Saved()))
            positions_of = [tracks.step(Track(position=place, saved=saved), string, None, time).position for saved in (with_one, without)]
            equal("as if there were none", *positions_of)
    lone = Saved(1, 5, 5, 9_000)
    for size, counts in ((COUNTS, (4096, 0)), (COARSE, (4095, 0))):
        partner = lone._replace(latitude=2**32 - 1, coarse=int(size == COUNTS))
        found = tracks.airborne_position(Position(), partner, EVEN, counts, 9_000, size)
        equal("a partner of the other size is not looked at", found, Position())
    refused(8, tracks.airborne_position, Position(), lone._replace(coarse=1), EVEN, (4096, 0), 9_000, COARSE)
    refused(8, tracks.airborne_position, Position(), lone._replace(latitude=4096, coarse=1), EVEN, (0, 0), 9_000, COARSE)


def coarse_rows():
    """RULES 17.8: what C is told of kind C: angle, its status and speed by the kind, whatever the first bits are; of others nothing of it."""
    names = "ANGLE_IS ANGLE ANGLE_STATUS_IS ANGLE_STATUS SPEED_IS SPEED".split()
    of_nineteen = [f"TRACK_{name}" for name in ("EAST_IS", "NORTH_IS", "HEADING_IS", "AIRSPEED_IS", "RATE_IS", "RATE_SOURCE_IS")]
    known, unknown, over = (embedding.AT[name] for name in ("KNOWN", "UNKNOWN", "OVER"))
    for first in (0, 19 << 51 | 1 << 48):  # TYPE 19, subtype 1, if it were a TYPE
        for status, angle, (speed, due) in product((0, 1), (0, 8, 31), ((0, (unknown, 0)), (1, (known, 0)), (2, (known, 16)), (63, (over, 1968)))):
            me = first | status << 36 | angle << 31 | speed << 25
            track = Track(velocity=me, coarse=1)
            told = embedding.row(72, embedding.track_row(track, tracks.C))
            equal("of kind C", [told[embedding.AT[f"TRACK_{name}"]] for name in names], [known, angle * 2**27, known, status, *due])
            equal("and nothing of TYPE 19", [told[embedding.AT[name]] for name in of_nineteen], [unknown] * 6)
            plain = embedding.row(72, embedding.track_row(track, tracks.T))
            equal("of another kind", [plain[embedding.AT[f"TRACK_{name}"]] for name in names], [0] * 6)
            equal("an ME by the kind", embedding.me(me, COARSE_KEY)[:15], [7, 0, 0, 0, 0, me >> 55, me >> 53 & 3, me >> 49 & 15, me >> 37 & 4095, status, angle, speed, 0, 0, 0])


def differences():
    """RULES 17.5: of a velocity under CF 2 and 5 the height difference is unknown unless ME bit 36 is set; the rest is as it was."""
    for subtype in (1, 2, 3, 4):
        fields = messages.layout(19, subtype)
        for source, sign, code in ((source, sign, code) for source in (0, 1) for sign in (0, 1) for code in (0, 1, 23, 127)):
            body = dict.fromkeys(readings_vectors.widths(fields), 1) | {"TYPE": 19, "subtype": subtype, "rate source": source}
            body |= {"difference sign": sign, "difference": code}
            plain, of_ground = readings.body(fields, body), readings.body(fields, body, True)
            equal("plain", plain["difference"], readings.difference(sign, code))
            equal("the rest", of_ground | {"difference": 0}, plain | {"difference": 0})
            equal("difference", of_ground["difference"], plain["difference"] if source else "unknown")
    for head, cf in ((ICAO, 2), (MODE_A, 2), (ANOTHER, 5), (OTHER, 1)):
        message = messages.decode(traffic.message(head, ONE, 19, subtype=1, difference=23))
        equal("CF", (message["CA or CF"], messages.is_traffic(message)), (cf, cf != 1))


def on_the_ground():
    """What C is told of it: the last position message was a surface position, an airborne one, or there was none; no other counts."""
    chance, sorts = Random(25), {None: {}, "air": {"IS": 1, "": 0}, "surface": {"IS": 1, "": 1}}
    for _ in range(400):
        track, last = Track(), None
        for time in range(1, 12):
            string = message_vectors.random_acceptable(chance)
            type_code = 11 if string[0] == 0x93 else string[4] >> 3  # a coarse message is from the air
            track = tracks.step(track, string, HERE, time)
            last = "surface" if 5 <= type_code <= 8 else "air" if 9 <= type_code <= 22 and type_code != 19 else last
            told = embedding.shown(track, tracks.I)
            due = {f"TRACK_ON_GROUND{'_' if name else ''}{name}": value for name, value in sorts[last].items()}
            equal("on the ground", {name: told[name] for name in told if "ON_GROUND" in name}, due)


def bytes_of_tracks():
    """A body of a track, read again; the layout's offsets; a table that no set-up made."""
    chance = Random(16)
    for _ in range(500):
        track = table_vectors.with_status(chance, table_vectors.random_track(chance, 10**6))
        body = lent_table.body_of(track)
        equal("82 bytes", len(body), 82)
        read = lent_table.track_of(body)
        equal("read again", lent_table.track_of(lent_table.body_of(read)), read)
        for value, due in zip((read.position, *read.saved), (track.position, *track.saved)):
            equal("none without its mark", value, due if due.known else type(due)())
        for name, types in (("identification", (1, 2, 3, 4)), ("surface", (5, 6, 7, 8))):
            me = getattr(track, name)
            equal(f"{name} of its TYPE", getattr(read, name), me if me >> 51 in types else 0)
        of_velocity = [19 << 3 | subtype for subtype in (1, 2, 3, 4)]
        equal("velocity of its TYPE", read.velocity, track.velocity if track.velocity >> 48 in of_velocity else 0)
        equal("status of its TYPE", read.status, track.status if track.status >> 48 in (0xF8, 0xF9) else 0)
        equal("any TYPE and bit 8", (read.typecode, read.bit8), (track.typecode, track.bit8))
    offsets = {"heard": 0, "identification": 8, "velocity": 15, "surface": 22, "status": 29}
    for name, offset in offsets.items():
        due, size = 2**55 + 7, 8 if name == "heard" else 7
        equal(name, lent_table.get(lent_table.body_of(Track(**{name: due})), offset, size), due)
    for name, bit, width in (("pressure", 0, 12), ("height", 12, 12), ("typecode", 25, 5), ("bit8", 30, 1)):
        marks = lent_table.get(lent_table.body_of(Track(**{name: 2**width - 1})), 36, 4)
        equal(f"{name} in the marks", marks, (2**width - 1) << bit)
    equal("coarse in the marks", lent_table.get(lent_table.body_of(Track(coarse=1)), 36, 4), 1 << 31)
    for counts in ((0, 0), (4095, 4095), (4096, 5), (5, 4096), (131_071, 131_071)):
        body = lent_table.body_of(Track(saved=(Saved(1, *counts, 7, 1), Saved(1, *counts, 8))))
        equal("bit 35", [lent_table.get(body, at, 5) >> 34 for at in (56, 69)], [3, 1])
        due = Saved(1, *(count % 4096 for count in counts), 7, 1), Saved(1, *counts, 8)
        equal("12 bits of a coarse count", lent_table.track_of(body).saved, due)
    for me in (0, 1, 2**56 - 1, 19 << 51 | 1 << 48, 7 << 51):
        for mark in (0, 1):
            read = lent_table.track_of(lent_table.body_of(Track(velocity=me, coarse=mark)))
            equal("any ME as a coarse velocity", (read.velocity, read.coarse), (me if mark or me >> 51 == 19 else 0, mark))
    equal("a new track's latitude", lent_table.get(lent_table.body_of(Track()), 40, 4), 2**30)
    for length in range(400):
        made = answer(lent_table.places, bytearray(length))
        equal(f"length {length}", made, {102: "1", 188: "2", 274: "3", 360: "4"}.get(length, "refused 7"))
    for length, due in ((88_080, "1024"), (88_166, "refused 7"), (88_079, "refused 7"), (80_912, "refused 7")):
        equal(f"length {length}", answer(lent_table.places, bytearray(length)), due)
    made = heard(new_table(3), (from_air(EVEN), 1_000), (from_air(EVEN, aa=TWO), 1_000))
    equal("order of the walk", [key for key, _ in lent_table.walk(made)], [1 << 24 | TWO, KEY])
    lent_table.put(made, lent_table.key_at(1), 4, KEY)
    equal("twins show once", [key for key, _ in lent_table.walk(made)], [KEY])
    lent_table.put(made, lent_table.body_at(made, 0) + lent_table.LATITUDE, 4, 2**31 + 1)
    heard(made, (from_air(EVEN), 1_500))
    equal("the lowest held twin", lent_table.get(made, lent_table.body_at(made, 1), 8), 1_500)
    lent_table.put(made, lent_table.body_at(made, 1), 8, 2**64 - 1)
    heard(made, (from_air(ODD, aa=TWO), 10**9))
    equal("heard after the clock: age 0", lent_table.look_up(made, KEY).heard, 2**64 - 1)
    for number, due in ((0, None), (1, -(2**30)), (2**31 + 1, 2**30), (2**31 + 2, None), (2**32 - 1, None)):
        lent_table.put(made, 8, 4, number)
        site = lent_table.site_of(made)
        equal("the site's number", site and site[0], due)
    refused(7, lent_table.set_up, bytearray(101), (2**30 + 1, 0))
    refused(8, lent_table.set_up, bytearray(102), (2**30 + 1, 0))


class Swept:
    """The same rules told otherwise: places that hold a key and a track, or nothing; stale ones are emptied."""

    def __init__(self, places, site):
        self.clock, self.site, self.places = 0, site, [None] * places

    def receive(self, string, time):
        """Receives one message of 14 bytes."""
        if time < self.clock:
            raise Refused(2)
        self.clock = time
        self.places = [at if at and time - at[1].heard < 125_000 else None for at in self.places]
        key = tracks.key_of(messages.decode(string))
        mine = [at[0] if at else None for at in self.places]
        type_code, of_ground = 11 if string[0] == 0x93 else string[4] >> 3, string[0] in (0x92, 0x95)  # DF 18 with CF 3; 2 or 5
        if key not in mine and (type_code == 0 or of_ground and type_code in (1, 2, 3, 4, 19)):
            raise Refused(12)
        if key not in mine and None not in mine:
            raise Refused(6)
        place = mine.index(key) if key in mine else mine.index(None)
        track = self.places[place][1] if self.places[place] else Track()
        self.places[place] = key, tracks.step(track, string, self.site, time)

    def held(self):
        """The keys and their tracks, in order."""
        return sorted(at for at in self.places if at)


def swept_tables():
    """Random traffic: the bytes against the places that are swept; a message touches no other key."""
    chance, answers = Random(17), set()
    for places in (1, 2, 3, 6):
        site = chance.choice((None, HERE))
        made, swept, time = new_table(places, site), Swept(places, site), 0
        addresses = chance.sample(range(2**24), places + 1)
        for _ in range(150):
            time += chance.choices(table_vectors.STEPS, table_vectors.WEIGHTS)[0]
            head, aa = chance.choice((TRANSPONDER, OTHER, *GROUND)), chance.choice(addresses)
            string = table_vectors.random_message(chance, head, aa, table_vectors.moved(chance, HERE))
            if chance.randrange(4) == 0:
                string = message_vectors.random_no_position(chance, head, aa)
            if chance.randrange(6) == 0:
                string = message_vectors.random_status(chance, head, aa)
            if chance.randrange(5) == 0:
                string = traffic.coarse(aa, chance.randrange(2), table_vectors.moved(chance, HERE), chance.choice((0, 3)), chance.randrange(2))
            if chance.randrange(12) == 0:
                string = message_vectors.flipped(string, chance.randrange(1, 113))
            now = time - chance.randrange(2) * chance.randrange(2) if time else 0
            before = dict(lent_table.walk(made))
            given = answer(lent_table.receive, made, string, now)
            due = answer(swept.receive, string, now)
            equal("refused or not", given if given.startswith("refused") else "None", due)
            sort = "TYPE 0" if string[4] < 8 else "position" if string[4] >> 3 not in (1, 2, 3, 4, 19, 31) else "other"
            answers.add((string[0] in (0x92, 0x95), "coarse" if string[0] == 0x93 else sort, due))
            equal("the tracks held", lent_table.walk(made), swept.held())
            mine = int.from_bytes(string[1:4], "big") if not given.startswith("refused") else -1
            for key, track in lent_table.walk(made):
                if tracks.address_in(key) != mine:
                    equal("a stranger's message does nothing", track, before[key])
            equal("the first key", lent_table.next_key(made, 0), min(dict(swept.held()), default=None))
    full = {(ground, "position", "refused 6") for ground in (False, True)} | {(False, "other", "refused 6"), (False, "coarse", "refused 6")}
    unheld = {(ground, "TYPE 0", "refused 12") for ground in (False, True)} | {(True, "other", "refused 12")}
    equal("6 and 12", {row for row in answers if row[2][-2:] in (" 6", "12")}, full | unheld)
    accepted = {(ground, sort, "None") for ground in (False, True) for sort in ("TYPE 0", "position", "other")} | {(False, "coarse", "None")}
    equal("accepted", accepted - answers, set())


# Versions and integrity

# By TYPE: NUC of version 0; NIC of version 1 with A 0 and 1; NIC of version 2 with A B, or A C for TYPE 5-8, of 00, 01, 10 and 11
INTEGRITY = {
    5: (9, (11, 11), (11, 11, 11, 11)),
    6: (8, (10, 10), (10, 10, 10, 10)),
    7: (7, (8, 9), (8, 8, 9, 8)),
    8: (6, (0, 0), (0, 6, 6, 7)),
    9: (9, (11, 11), (11, 11, 11, 11)),
    10: (8, (10, 10), (10, 10, 10, 10)),
    11: (7, (8, 9), (8, 8, 8, 9)),
    12: (6, (7, 7), (7, 7, 7, 7)),
    13: (5, (6, 6), (6, 6, 6, 6)),
    14: (4, (5, 5), (5, 5, 5, 5)),
    15: (3, (4, 4), (4, 4, 4, 4)),
    16: (2, (2, 3), (2, 2, 2, 3)),
    17: (1, (1, 1), (1, 1, 1, 1)),
    18: (0, (0, 0), (0, 0, 0, 0)),
    20: (9, (11, 11), (11, 11, 11, 11)),
    21: (8, (10, 10), (10, 10, 10, 10)),
    22: (0, (0, 0), (0, 0, 0, 0)),
}


def me_of_status(version, subtype=0, a=0, c=0):
    """The ME of a status."""
    return int.from_bytes(traffic.status(TRANSPONDER, ONE, version, subtype, a, c)[4:11], "big")


def integrity_rows():
    """RULES 16.5 to 16.8: each TYPE by each version and each set of supplements, of both subtypes; what is unknown; T, M and N."""
    for (type_code, (nuc, by_a, by_two)), subtype in product(INTEGRITY.items(), (0, 1)):
        for a, b, c in product((0, 1), repeat=3):
            told = [integrity.integrity(tracks.O, me_of_status(version, subtype, a, c), type_code, b) for version in range(8)]
            second = c * subtype if type_code <= 8 else b
            due = [("NUC", nuc), ("NIC", by_a[a]), ("NIC", by_two[2 * a + second])]
            equal(f"TYPE {type_code}, A {a} B {b} C {c}, subtype {subtype}", told, due + ["unknown"] * 5)
            for kind, version in product((tracks.T, tracks.M, tracks.N), range(8)):
                found = integrity.integrity(kind, me_of_status(version, subtype, a, c), type_code, b)
                equal("of traffic as version 1 with A 0", found, ("NIC", by_a[0]))
            for version in range(8):
                found = integrity.integrity(tracks.C, me_of_status(version, subtype, a, c), type_code, b)
                equal("of coarse messages unknown, whatever else is held", found, "unknown")
    for kind, version, type_code in product(tracks.KINDS, range(8), {*range(32)} - {*INTEGRITY}):
        equal("no position message heard", integrity.integrity(kind, me_of_status(version), type_code, 1), "unknown")
    for wide in ((2**56, 11), (0, 32), (2**64 - 1, 255)):
        refused(8, integrity.integrity, tracks.I, *wide, 0)
    refused(8, integrity.version, tracks.T, 2**56)


def published_rows():
    """The tables as data: their rows are the published ones, each once; the radius falls as NUC and NIC rise."""
    equal("the 17 TYPEs", [*integrity.TYPES], [*INTEGRITY])
    tables = integrity.NUC, integrity.NIC_1, integrity.NIC_2_AIRBORNE, integrity.NIC_2_SURFACE
    equal("rows", [len(table) for table in tables], [17, 21, 17, 8])
    for table in tables:
        equal("no row twice", len({row[:-2] for row in table}), len(table))
    for type_code, *named, nic, radius in integrity.NIC_1 + integrity.NIC_2_AIRBORNE + integrity.NIC_2_SURFACE:
        miles = {"m": Fraction(1, 1852), "NM": Fraction(1), "km": Fraction(1000, 1852)}
        sign, size, unit = radius.replace(",", "").split()[:3]
        bounds = {11: "7.5 m", 10: "25 m", 9: "75 m", 8: "0.1 NM", 7: "0.2 NM", 6: "0.6 NM", 5: "1 NM", 4: "2 NM", 3: "4 NM", 2: "8 NM", 1: "20 NM"}
        if sign == "<":
            most, of = bounds[nic].split()
            true(f"TYPE {type_code}, {named}: {radius}", Fraction(size) * miles[unit] <= Fraction(most) * miles[of])
        else:
            equal(f"TYPE {type_code}: {radius}", nic, 0)
    sixteen = [integrity.integrity(tracks.I, me_of_status(1, 0, a), 16, 0) for a in (0, 1)]
    equal("TYPE 16, not as source 003 has it", sixteen, [("NIC", 2), ("NIC", 3)])
    for text, said in published.STATUS_ROWS:
        me = int.from_bytes(bytes.fromhex(text)[4:11], "big")
        equal(text, integrity.version(tracks.I, me), said["version"])
        a, _, c = integrity.supplements(tracks.I, me, 1)
        has = said["version"] in (1, 2)
        equal(text, (a, c), (said["supplement A"] * has, said["bit 20"] * (said["version"] == 2)))


def versions():
    """RULES 16.2: none heard is version 0, and so is what is no status; T, M, N and C are 1; the supplements that a version has."""
    for kind, due in zip(tracks.KINDS, (0, 0, 1, 1, 1, 1), strict=True):
        for me in (0, 31 << 51 | 2 << 48 | 7 << 13, 30 << 51 | 2 << 13):
            equal(f"kind {kind}, none heard", integrity.version(kind, me), due)
        for version, subtype, bit in product(range(8), (0, 1), (0, 1)):
            me = me_of_status(version, subtype, bit, bit)
            equal("the version", integrity.version(kind, me), 1 if due else version)
            has = {1: (bit, 0, 0), 2: (bit, 1, bit * subtype)}.get(version, (0, 0, 0))
            equal("the supplements", integrity.supplements(kind, me, 1), (0, 0, 0) if due else has)
    for place in range(1, 57):
        changed = me_of_status(2, 1, 1, 1) ^ 1 << 56 - place
        found = [integrity.version(tracks.I, changed), integrity.supplements(tracks.I, changed, 1), integrity.integrity(tracks.I, changed, 8, 0)]
        same = found == [2, (1, 1, 1), ("NIC", 7)]
        equal(f"ME bit {place} decides", not same, place <= 8 or place in (20, 41, 42, 43, 44))


def statuses():
    """RULES 16.1: a status starts a track of I and O, replaces its group whole, and leaves all else; 5 for the others."""
    for head, kind in ((TRANSPONDER, tracks.I), (traffic.NO_TRANSPONDER, tracks.I), (OTHER, tracks.O)):
        for version, subtype, bit in product(range(8), (0, 1), (0, 1)):
            told = traffic.status(head, ONE, version, subtype, bit, bit)
            me = int.from_bytes(told[4:11], "big")
            equal("encoded back", messages.encode(messages.decode(told)), told)
            made = heard(new_table(1), (told, 1_000))
            equal("a status alone", dict(lent_table.walk(made)), {kind << 24 | ONE: Track(heard=1_000, status=me)})
            equal("its group and last heard", tracks.step(FULL, told, HERE, 9), FULL._replace(heard=9, status=me))
            refused(6, lent_table.receive, made, traffic.status(head, TWO, version), 1_000)
    for (df, cf), subtype, rest in product(((17, 5), (18, 0), (18, 1), (18, 2), (18, 5)), range(8), (0, 2**48 - 1)):
        string = message_vectors.sealed_message(df, cf, ONE, 31, subtype << 48 | rest)
        given = answer(lent_table.receive, new_table(1), string, 5)
        equal("5", given == "refused 5", subtype >= 2 or cf in (2, 5) and df == 18)


def latest_positions():
    """RULES 16.4: TYPE and ME bit 8 are the latest position message's, which a surface one does not have; TYPE 0 leaves both."""
    for head, type_code, bit in product((TRANSPONDER, OTHER), INTEGRITY, (0, 1)):
        string = message_vectors.of_head(head, ONE, type_code, bit << 48 | 12345)
        after = tracks.step(Track(typecode=30, bit8=1, status=7), string, None, 9)
        equal(f"TYPE {type_code}, bit {bit}", (after.typecode, after.bit8, after.status), (type_code, bit * (type_code > 8), 7))
    for string in (traffic.no_position(TRANSPONDER, ONE), message_vectors.sealed_message(17, 5, ONE, 0, 2**51 - 1)):
        after = tracks.step(FULL, string, None, 9)
        equal("TYPE 0 leaves both", (after.typecode, after.bit8), (FULL.typecode, FULL.bit8))
    told = [traffic.status(TRANSPONDER, ONE, *row) for row in ((2, 1, 1, 1), (2, 0, 1, 0), (1, 0, 0, 0), (3, 0, 0, 0))]
    track, due = Track(), ["unknown", ("NUC", 7), ("NIC", 9), ("NIC", 9), ("NIC", 8), "unknown", "unknown"]
    found = [integrity.integrity(tracks.I, track.status, track.typecode, track.bit8)]
    for string in (message_vectors.sealed_message(17, 5, ONE, 11, 1 << 48), *told, traffic.no_position(TRANSPONDER, ONE)):
        track = tracks.step(track, string, None, 9)
        found.append(integrity.integrity(tracks.I, track.status, track.typecode, track.bit8))
    equal("a status changes it at once", found, due)
    down = tracks.step(tracks.step(track, told[0], None, 9), traffic.surface(TRANSPONDER, ONE, EVEN, HERE, 8), None, 9)
    equal("down, B is 0", integrity.supplements(tracks.I, down.status, down.bit8), (1, 0, 1))
    equal("down", integrity.integrity(tracks.I, down.status, down.typecode, down.bit8), ("NIC", 7))
    after = tracks.step(down, told[1], None, 9)
    equal("after subtype 0, C is 0", integrity.integrity(tracks.I, after.status, after.typecode, after.bit8), ("NIC", 6))


def rows_of_tracks():
    """RULES 20.5: what C is told of a track: 72 entries, the new ones where they stand; of an ME by itself, version, A and C."""
    entries = embedding.AT["TRACK"]
    equal("entries", entries, 72)
    names = "STATUS POSITION_TYPE POSITION_BIT8 ANGLE_IS SPEED VERSION SUPPLEMENT_A SUPPLEMENT_B SUPPLEMENT_C INTEGRITY_IS INTEGRITY".split()
    equal("where they stand", [embedding.AT[f"TRACK_{name}"] for name in names], [5, 8, 9, 60, 65, 66, 67, 68, 69, 70, 71])
    track = Track(status=me_of_status(2, 1, 1, 1), typecode=11, bit8=1)
    due = {tracks.I: [2, 1, 1, 1, 2, 9], tracks.O: [2, 1, 1, 1, 2, 9], **dict.fromkeys((3, 4, 5), [1, 0, 0, 0, 2, 8]), tracks.C: [1, 0, 0, 0, 0, 0]}
    for kind, last in due.items():
        made = embedding.row(entries, embedding.track_row(track, kind))
        equal(f"kind {kind}", [made[5], *made[8:10], *made[66:]], [track.status, 11, 1, *last])
    equal("NUC 0 is a number", embedding.row(entries, embedding.track_row(Track(typecode=18), tracks.I))[66:], [0, 0, 0, 0, 1, 0])
    equal("unknown", embedding.row(entries, embedding.track_row(Track(status=me_of_status(7)), tracks.I))[66:], [7, 0, 0, 0, 0, 0])
    known, unknown, none = (embedding.AT[name] for name in ("KNOWN", "UNKNOWN", "NONE"))
    for version, subtype in product(range(8), (0, 1)):
        made = embedding.me(me_of_status(version, subtype, 1, 1), KEY)
        first = [known, version] if version <= 2 else [none, 0]
        a = [known, 1] if version in (1, 2) else [unknown, 0]
        c = [known, subtype] if version == 2 else [unknown, 0]
        equal(f"version {version}, subtype {subtype}", made[20:26], first + a + c)


# Captures and the listing


LISTED = "clock 1400 tracks 1 bad-blocks 0\nI ABCDEF 1400 536870912 1073741824 10000 25\n"


def listings():
    """The listing of RULES 12.9; order, unknown values, bad blocks, refused records."""
    for every in (False, True):
        equal("the listing of RULES 12.9", captures.listing(make_samples.example(), every), LISTED)
        equal("an empty capture", captures.listing(b"", every), "clock 0 tracks 0 bad-blocks 0\n")
        equal("zeros", captures.listing(bytes(512), every), "clock 0 tracks 0 bad-blocks 1\n")
        part = captures.listing(make_samples.example() + bytes(3), every)
        equal("a part block", part, LISTED.replace("blocks 0", "blocks 1"))
    rows = [(5, from_air(EVEN, aa=7, head=OTHER)), (6, from_air(EVEN)), (7, from_air(EVEN, aa=7))]
    rows += [(8, traffic.airborne(TRANSPONDER, 0xA, EVEN, HERE, 20)), (7, from_air(ODD)), (9, bytes(14))]
    due = ["clock 9 tracks 4 bad-blocks 0", "I 000007 7 - - 10000 25", "I 00000A 8 - - - -"]
    due += ["I ABCDEF 6 - - 10000 25", "O 000007 5 - - 10000 25"]
    equal("order and unknown", captures.listing(captures.capture(rows), True).splitlines(), due)
    equal("none has a position", captures.listing(captures.capture(rows), False), "clock 9 tracks 0 bad-blocks 0\n")
    last = 2**64 - 1, message_vectors.flipped(from_air(EVEN), 60)
    emptied = captures.listing(captures.capture([*rows, last]), True)
    equal("bad parity at the last time", emptied, f"clock {2**64 - 1} tracks 0 bad-blocks 0\n")
    south = -(2**29), 2**32 - 2**29
    low = [(time, traffic.airborne(TRANSPONDER, 1, i, south, 11, 16)) for time, i in ((1, ODD), (2, EVEN))]
    lines = captures.listing(captures.capture(low), False).splitlines()
    equal("below zero", lines[1], "I 000001 2 -536870912 3758096384 -1000 25")
    both = [(time, from_station(i)) for time, i in ((1_000, EVEN), (1_400, ODD))]
    for whole in (captures.capture(both), make_samples.stations()):
        lines = captures.listing(whole, False).splitlines()
        true("the coarse example", "C ABCDEF 0 3 1400 536870912 1073741824 10000 25" in lines)
    for feet in range(-1000, 50176, 25):
        equal("the code of an altitude", readings.altitude(traffic.altitude_code(feet)), feet)


def positioned():
    """RULES 12.2: what has a position is shown, whatever its age, until the track is dropped, at 125,000 since last heard."""
    pair = [(1_000, from_air(EVEN)), (1_400, from_air(ODD))]
    stranger = 1_400, traffic.identification(TRANSPONDER, 7, "ADDER7")
    for age in (120_000, 120_001, 10**6):
        times = [*range(1_400, 1_400 + age, 60_000), 1_400 + age]
        calls = [(time, traffic.identification(TRANSPONDER, 0xABCDEF, "ADDER1")) for time in times]
        due = f"clock {times[-1]} tracks 1 bad-blocks 0\nI ABCDEF {times[-1]} 536870912 1073741824 10000 25\n"
        equal(f"a position {age} old", captures.listing(captures.capture([*pair, *calls]), False), due)
    for silent, due in ((124_999, 1), (125_000, 0)):
        clock = 1_400 + silent
        lines = captures.listing(captures.capture([*pair, stranger, (clock, bytes(14))]), False).splitlines()
        equal(f"silent for {silent}", (lines[0], len(lines)), (f"clock {clock} tracks {due} bad-blocks 0", 1 + due))
    both = [captures.listing(captures.capture([*pair, stranger]), every).splitlines() for every in (False, True)]
    equal("the lines shown are counted", [len(lines) - int(lines[0].split()[3]) for lines in both], [1, 1])
    equal("all asked for", both[1][1:], ["I 000007 1400 - - - -", *both[0][1:]])


def listings_lent():
    """The listing as C has it: the text, its length, and zeros behind it; a key of two places once, by the lowest. 7 precedes 8."""
    made, bad = captures.fold(make_samples.example())
    for every in (0, 1):
        equal("the listing of RULES 12.9, lent", embedding.listing(made, bad, every), (LISTED.encode("ascii").ljust(128 * 257, b"\0"), [len(LISTED)]))
    doubled = bytearray(lent_table.length_of(3))
    lent_table.put(doubled, 0, 8, 9)
    for place, (key, heard) in enumerate(((2**25 + 7, 5), (2**24 + 7, 6), (2**25 + 7, 8))):
        lent_table.put(doubled, lent_table.key_at(place), 4, key)
        lent_table.put(doubled, lent_table.body_at(doubled, place), 8, heard)
    due = b"clock 9 tracks 2 bad-blocks 3\nI 000007 6 - - - -\nO 000007 5 - - - -\n"
    equal("a key twice", embedding.listing(doubled, 3, 1), (due.ljust(128 * 4, b"\0"), [len(due)]))
    none = b"clock 9 tracks 0 bad-blocks 3\n"
    equal("none with a position", embedding.listing(doubled, 3, 0), (none.ljust(128 * 4, b"\0"), [len(none)]))
    refused(8, embedding.listing, doubled, 3, 2)
    refused(7, embedding.listing, doubled[1:], 3, 2)
    equal("places", [embedding.places_in(bytes(length)) for length in (0, 15, 16, 101, 102, 187, 188, 88_080, 88_166)], [0, 0, 0, 0, 1, 1, 2, 1_024, 1_025])


def two_as_one():
    """Two listings as one: the order of the keys, the sums, and each reason why they cannot be one."""
    one = b"clock 9 tracks 2 bad-blocks 1\nI 0000FF 5 - - - -\nC 000001 1 2 4 0 0 - -\n"
    other = b"clock 9 tracks 2 bad-blocks 2\nO 000001 5 - - - -\nC 000001 0 15 4 0 0 - -\n"
    due = b"clock 9 tracks 4 bad-blocks 3\nI 0000FF 5 - - - -\nO 000001 5 - - - -\nC 000001 0 15 4 0 0 - -\nC 000001 1 2 4 0 0 - -\n"
    none = b"clock 9 tracks 0 bad-blocks 0\n"
    equal("two listings", [merge_listings(one, other), merge_listings(other, one)], [due, due])
    equal("with none", [merge_listings(one, none), merge_listings(none, none)], [one, none])
    most = none.replace(b"blocks 0", b"blocks %d" % (2**64 - 1))
    equal("the largest number", merge_listings(most, none), most)
    turned = b"clock 9 tracks 2 bad-blocks 1\nC 000001 1 2 4 0 0 - -\nI 0000FF 5 - - - -\n"
    for wrong in (b"", one[:-1], one + b"\n", turned, one.replace(b"tracks 2", b"tracks 3"), one.replace(b" 1 2 4", b" 2 2 4"), one.replace(b" 1 2 4", b" 1 16 4")):
        refused(16, merge_listings, wrong, none)
        refused(16, merge_listings, none, wrong)
    for figure in (b"-", b"-9", b"%d" % 2**64):
        refused(16, merge_listings, none.replace(b"clock 9", b"clock " + figure), none.replace(b"clock 9", b"clock " + figure))
    refused(16, merge_listings, one, none.replace(b"clock 9", b"clock 8"))
    refused(16, merge_listings, one, one)
    refused(16, merge_listings, most, one)


def random_captures():
    """Among the records of the random captures are TYPE 0s, status, and CF 2, 3 and 5, that are accepted, and some that earn 12 or 5."""
    chance, seen = Random(11), set()
    for whole in [run_captures.random_capture(chance) for _ in range(20)]:
        made = new_table(captures.PLACES)
        for one in captures.blocks(whole):
            records = [] if answer(captures.records_of, one) == "refused 11" else captures.records_of(one)
            for time, string in records:
                given = answer(lent_table.receive, made, string, time)
                given = given if given.startswith("refused") else "accepted"
                seen |= {given} if string[4] < 8 and string[0] != 0x93 else set()
                seen |= {("status", given)} if string[4] >> 3 == 31 and string[0] != 0x93 else set()
                seen |= {(string[0] & 7, given)} if string[0] == 0x93 or string[0] in (0x92, 0x95) and string[4] >= 8 else set()
    due = {"accepted", "refused 12", "refused 2", (5, "refused 5"), ("status", "accepted"), ("status", "refused 5")}
    due |= {(cf, given) for cf in (2, 5) for given in ("accepted", "refused 12")} | {(3, "accepted")}
    equal("TYPE 0, status and traffic in captures", due - seen, set())


def blocks():
    """A block's rules, each broken: 11. The serial isn't tested."""
    chance = Random(18)
    for count in (1, 2, 22, 23):
        records = [(chance.getrandbits(64), chance.randbytes(14)) for _ in range(count)]
        for serial in (0, 1, 65535):
            good = captures.block(serial, records)
            equal("512 bytes", (len(good), good[0], good[1:3]), (512, count, serial.to_bytes(2, "big")))
            equal("parity", remainder(good), 0)
            equal("read again", captures.records_of(good), records)
            found = [captures.record_at(good, number) for number in range(count)]
            equal("one by one", [(time, good[start : start + 14]) for time, start in found], records)
            equal("past the last", captures.record_at(good, count), None)
        for _ in range(60):
            refused(11, captures.records_of, message_vectors.flipped(good, chance.randrange(1, 4097)))
        for wrong in [0, *range(24, 256, 11), 255, count - 1]:
            refused(11, captures.records_of, make_samples.resealed(good, 0, wrong))
        for at in {*range(3 + 22 * count, 509, 7), *([508] if count < 23 else [])}:
            refused(11, captures.records_of, make_samples.resealed(good, at, 1))
        for length in (0, 1, 3, 511, 513, 1024):
            refused(11, captures.records_of, (good + good)[:length])
    many = [(time, bytes(14)) for time in range(50)]
    whole = captures.capture(many)
    read = [row for one in captures.blocks(whole) for row in captures.records_of(one)]
    equal("three blocks", (len(whole), read), (3 * 512, many))
    equal("serials", [one[1:3] for one in captures.blocks(whole)], [b"\0\0", b"\0\1", b"\0\2"])


def made_capture(text, *words):
    """What the script make-capture makes of these lines: its records, and what it says."""
    command = [sys.executable, "-B", Path(__file__).with_name("make-capture"), *words]
    ran = subprocess.run(command, input=text.encode("latin-1"), capture_output=True, check=True)
    records = [row for one in captures.blocks(ran.stdout) for row in captures.records_of(one)]
    return records, ran.stderr.decode().strip()


def receiver_lines():
    """The script make-capture: three forms of lines, their times, and what it skips."""
    one, other = from_air(EVEN), from_air(ODD)
    first, second = one.hex().upper(), other.hex()
    plain = f"*{first};\n*{second};\r\n *{first}; \n"
    equal("no times", made_capture(plain), ([(0, one), (1, other), (2, one)], "3 taken, 0 short, 0 other lines"))
    timed = [(1_000, one), (1_400, other), (1_800, one)]
    equal("start and step", made_capture(plain, "--start", "1000", "--step", "400")[0], timed)
    equal("the listing of RULES 12.9", captures.listing(captures.capture(timed[:2]), False), LISTED)
    stamps = {0: 0, 12_000 * 1_400 - 1: 1_399, 12_000 * 1_400: 1_400, 2**48 - 1: (2**48 - 1) // 12_000}
    counted = "".join(f"@{stamp:012X}{second};\n" for stamp in stamps)
    equal("a counter", made_capture(counted)[0], [(time, other) for time in stamps.values()])
    equal("a counter in lower case", made_capture(counted.lower())[0], made_capture(counted)[0])
    given = f"5 {first}\n3 {second}\n{2**64 - 1} {first}\n{2**64} {first}\n"
    due = [(5, one), (3, other), (2**64 - 1, one)], "3 taken, 0 short, 1 other lines"
    equal("times as they are, also late ones", made_capture(given), due)
    skipped = ["*02E197B0F70AF6;", "@00000000000102E197B0F70AF6;", "7 02E197B0F70AF6"]
    skipped += ["", "hello", f"*{first}", f"{first};", f"*{first}00;", f"*{first[:-1]};"]
    skipped += [f"@{first};", f"-1 {first}", "*;", "\xff"]
    due = [(20, one), (9, other)], "2 taken, 3 short, 10 other lines"  # eleven lines before the first have no time
    equal("what is skipped", made_capture("\n".join([*skipped, f"*{first};", f"9 {second}"]), "--start", "9"), due)
    equal("nothing", made_capture(""), ([], "0 taken, 0 short, 0 other lines"))
    strings, step = list(make_samples.minute()), make_samples.STEP
    records = made_capture(make_samples.hex_lines(strings).decode("ascii"), "--step", str(step))[0]
    due = make_samples.hex_listing(strings, step, True)[0]
    equal("the clock of the C example", captures.listing(captures.capture(records), True).encode("ascii"), due)
    damaged = message_vectors.flipped(one, 7)
    equal("nothing is judged", made_capture(f"8 {damaged.hex()}")[0], [(8, damaged)])


# Stamps


def stamp_edges():
    """RULES 10.2 to 10.4: taken as it is at first; then a distance below 2^31, around the circle; 2, or 13."""
    fresh, last = short_clock.Stamps(), 2**64 - 1
    equal("the first as it is", short_clock.extend(fresh, 0, 2**32 - 1), 2**32 - 1)
    refused(2, short_clock.extend, fresh, 8, 7)
    for stamp, clock in product((0, 5, 2**31, 2**32 - 1), (0, 77, 2**32, 2**63)):
        state = short_clock.Stamps(True, stamp)
        for distance in (0, 1, 2**31 - 1):
            equal("a distance", short_clock.extend(state, clock, (stamp + distance) % 2**32), clock + distance)
        for distance in (2**31, 2**32 - 1):
            refused(2, short_clock.extend, state, clock, (stamp + distance) % 2**32)
            refused(2, short_clock.extend, state, last, (stamp + distance) % 2**32)
        equal("the last time", short_clock.extend(state, last - 1, (stamp + 1) % 2**32), last)
        refused(13, short_clock.extend, state, last, (stamp + 1) % 2**32)


def true_times():
    """RULES 10.7: the times are right, whatever the messages are, if the first stamp is the true time, and no step is back or of 2^31."""
    chance = Random(61)
    for _ in range(20):
        table, state, time = bytearray(lent_table.length_of(2)), short_clock.Stamps(), chance.randrange(2**32)
        for _ in range(30):
            string = chance.choice((run_captures.message(chance), chance.randbytes(14), chance.randbytes(9)))
            answer, state = short_clock.receive(table, state, string, time % 2**32)
            if len(string) == 14:
                equal("the clock", lent_table.clock_of(table), time)
                equal("the state", state, (True, time % 2**32))
            true("never 2 or 13", not isinstance(answer, Refused) or answer.number not in (2, 13))
            time += chance.choice((0, 400, 2**31 - 1, chance.randrange(2**31))) if len(string) == 14 else 0


# Replays


def replay_edges():
    """RULES 13: 14, then 8; a track goes at 125,000, by any record in time; a late one changes nothing; flag and station."""
    mine, other = traffic.velocity(TRANSPONDER, 5, 1, 2), traffic.velocity(OTHER, 5, 3, 4)
    log = replays.log_of([(1_000, mine), (1_400, other)])
    equal("an empty log", plain_method.replay(b"", tracks.I, 5), None)
    for length in (1, 21, 43, 22 * 2_901):
        refused(14, plain_method.replay, log.ljust(length, b"\0")[:length], tracks.I, 2**24)
    refused(8, plain_method.replay, log, tracks.I, 2**24)
    refused(8, plain_method.replay, log, tracks.I, 5, (2**30 + 1, 0))
    equal("2,900 records", plain_method.replay(log.ljust(22 * 2_900, b"\0"), tracks.I, 5).heard, 1_000)
    equal("kinds apart", plain_method.replay(log, tracks.O, 5).heard, 1_400)
    told = replays.log_of([(1_000, from_station(EVEN, aa=5)), (1_400, from_station(EVEN, aa=5, station=4)), (1_500, from_station(ODD, aa=5, flag=1))])
    found = [plain_method.replay(told, tracks.C, 5, None, flag, station) for flag, station in ((0, 3), (0, 4), (1, 3), (1, 4))]
    equal("stations and flags apart", [track and track.heard for track in found], [1_000, 1_400, 1_500, None])
    for flag, station in ((2, 3), (0, 16), (2**32 - 1, 0), (0, 2**32 - 1)):
        refused(8, plain_method.replay, told, tracks.C, 5, None, flag, station)
        refused(14, plain_method.replay, told[:-1], tracks.C, 5, None, flag, station)
    damaged = message_vectors.flipped(mine, 60)
    for time, heard in ((125_999, 1_000), (126_000, None), (2**64 - 1, None)):
        track = plain_method.replay(log + replays.log_of([(time, damaged)]), tracks.I, 5)
        equal("dropped by a damaged record", track and track.heard, heard)
    late = plain_method.replay(log + replays.log_of([(126_000, damaged), (125_999, mine)]), tracks.I, 5)
    equal("late, so not started again", late, None)


def replay_is_the_table():
    """RULES 13.3: what the plain method gives is what the table has, for each key to which 6 was not answered; for others it may not be."""
    chance, differ = Random(88), 0
    for _ in range(120):
        table, site, records, full = bytearray(lent_table.length_of(chance.choice((1, 3, 12)))), chance.choice((None, (2**29, 7))), [], set()
        lent_table.set_up(table, site)
        time = 0
        for _ in range(chance.randrange(30)):
            time = max(0, time + chance.choice((0, 400, 10_001, 120_001, 125_000, -1)))
            string = run_captures.message(chance)
            records.append((time, string))
            try:
                lent_table.receive(table, string, time)
            except Refused as refusal:
                full |= {tracks.key_of(messages.decode(string))} if refusal.number == 6 else set()
        for key in run_calls.KEYS:
            asked = tracks.kind_in(key), tracks.address_in(key), site, *tracks.sender_in(key)
            same = plain_method.replay(replays.log_of(records), *asked) == lent_table.look_up(table, key)
            true("the table's track", same or key in full)
            differ += not same
    true("and with 6 another", differ)


# Degrees


def degree_edges():
    """RULES 15.1 and 15.3: the ends of both ranges, zero, and the doubles that are no place's."""
    known = {(0, 0): (0.0, 0.0), (2**30, 2**31): (90.0, -180.0), (-(2**30), 2**30): (-90.0, 90.0), (2**29, 3 * 2**30): (45.0, -90.0)}
    for place, due in known.items():
        equal(f"{place} in degrees", degrees.to_degrees(*place), tuple(map(figures.bits, due)))
        equal(f"{due} as a place", degrees.from_degrees(*map(figures.bits, due)), place)
    for latitude in (2**30 + 1, -(2**30) - 1, 2**31 - 1, -(2**31)):
        refused(8, degrees.to_degrees, latitude, 0)
    past = figures.bits(90.00000008381903)
    equal("a unit past 90 degrees", degrees.from_degrees(0, past), (0, 2**30 + 1))
    for latitude, longitude in ((past, 0), (0, figures.bits(180.0)), (0, figures.bits(270.0)), (0, figures.bits(0.1)), (0, 1), (2**63, 0)):
        refused(15, degrees.from_degrees, latitude, longitude)
    for pattern in (figures.NAN, figures.NAN | 1, figures.INFINITY, figures.INFINITY | figures.SIGN, figures.SIGN):
        refused(15, degrees.from_degrees, pattern, 0)
        refused(15, degrees.from_degrees, 0, pattern)


def degree_laws():
    """RULES 15.2 and 15.3: there and back, different doubles for neighbours, and none between two of them."""
    chance = Random(91)
    for _ in range(500):
        place = chance.randint(-(2**30), 2**30), chance.getrandbits(32)
        north, east = degrees.to_degrees(*place)
        equal("there and back", degrees.from_degrees(north, east), place)
        true("different doubles", degrees.to_degrees(place[0], place[1] ^ 1)[1] != east)
        for step in (-1, 1):
            refused(15, degrees.from_degrees, north, (east + step) % 2**64)


TESTS = [
    parity_rows,
    parity_laws,
    flipped_bits,
    coding_rows,
    altitudes,
    wide_codes,
    whole_bodies,
    message_rows,
    layouts,
    message_laws,
    coarse_messages,
    table,
    steps,
    position_rows,
    last_longitudes,
    positions_by_size,
    track_edges,
    track_rules,
    lost_positions,
    kinds,
    coarse_keys,
    begun,
    coarse_tracks,
    two_stations,
    never_paired,
    coarse_rows,
    differences,
    on_the_ground,
    integrity_rows,
    published_rows,
    versions,
    statuses,
    latest_positions,
    rows_of_tracks,
    bytes_of_tracks,
    swept_tables,
    listings,
    positioned,
    listings_lent,
    two_as_one,
    random_captures,
    blocks,
    receiver_lines,
    stamp_edges,
    true_times,
    replay_edges,
    replay_is_the_table,
    degree_edges,
    degree_laws,
]


def main():
    for test in TESTS:
        test()
    for failure in failures:
        print(failure)
    print(f"{assertions} assertions, {len(failures)} failed")
    return 1 if failures else 0


if __name__ == "__main__":
    sys.exit(main())
