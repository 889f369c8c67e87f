"""Cases of readings_vectors.

A record: question, a, b, code high byte, code low byte. A line: the reading, or `refused 8`.
One question is of a whole body: a is its layout, b is 1 if a ground station's traffic service sent it, else 0, and 15 fields
of eight bytes follow, in the order of their bits, then zeros. A line: the layout and its readings, or `refused 8`.
"""

from itertools import product
from random import Random

import messages
import published
import readings
from refusals import answer
from vectors.message_vectors import altitude_codes


def altitude(code):
    """An altitude with its step."""
    feet = readings.altitude(code)
    return feet if feet == readings.UNKNOWN else f"{feet} step {readings.step(code)}"


# question: its name, the code's bits, the bits that a record can carry, the reading of (a, b, code)
QUESTIONS = [
    ("altitude", 12, 16, lambda a, b, code: altitude(code)),
    ("category set", 5, 8, lambda a, b, code: readings.category_set(code)),
    ("speed", 10, 16, readings.speed),
    ("rate", 9, 16, lambda a, b, code: readings.rate(b, code)),
    ("difference", 7, 8, lambda a, b, code: readings.difference(b, code)),
    ("heading", 10, 16, lambda a, b, code: readings.heading(code)),
    ("surface heading", 7, 8, lambda a, b, code: readings.surface_heading(code)),
    ("movement", 7, 8, lambda a, b, code: readings.movement(code)),
    ("character", 6, 8, lambda a, b, code: readings.character(code)),
]
BODY = len(QUESTIONS)
# .. and behind the question of a body those of a coarse message
COARSE_QUESTIONS = [
    ("track angle", 5, 8, lambda a, b, code: readings.track_angle(code)),
    ("coarse speed", 6, 8, lambda a, b, code: readings.coarse_speed(code)),
]
ASKED = dict(enumerate(QUESTIONS)) | dict(enumerate(COARSE_QUESTIONS, BODY + 1))
NUMBER = {name: question for question, (name, _, _, _) in ASKED.items()}
# layout: its name, its fields after TYPE, and the TYPEs with their subtypes that it has
LAYOUTS = [
    ("identification", messages.IDENTIFICATION, [(code, None) for code in (1, 2, 3, 4)]),
    ("surface", messages.SURFACE, [(code, None) for code in (5, 6, 7, 8)]),
    ("airborne", messages.AIRBORNE, [(code, None) for code in (9, 10, 17, 18, 20, 21, 22)]),
    ("ground", messages.OVER_GROUND, [(19, 1), (19, 2)]),
    ("air", messages.THROUGH_AIR, [(19, 3), (19, 4)]),
]
STATUS, COARSE = len(LAYOUTS), len(LAYOUTS) + 1  # layouts more, whose bodies stand behind all others
FIELDS = 15  # that a record carries


def wide(width):
    """Codes of 16 bits wider than this: the first ones, each power of two, some valid below, the last."""
    powers = [1 << place for place in range(width, 16)]
    return sorted({power | low for power in powers for low in (0, 1, 2, (1 << width) - 1)} | {65535})


def asked():
    """The questions asked: name, a, b, code."""
    chance = Random(2)
    yield from ((name, a, b, code) for name, a, b, code, _ in published.CODING_ROWS)
    yield from (("altitude", 0, 0, code) for _, _, code, _ in published.GILLHAM_ROWS)
    yield from (("altitude", 0, 0, code) for code, _ in published.ALTITUDE_EXAMPLES)
    yield "speed", 1, 1, 1  # west, code 1: 0

    yield from (("coarse speed", 0, 0, code) for code, _ in published.COARSE_SPEEDS)
    for name, width, carried, _ in ASKED.values():
        every = range(256) if carried == 8 else [*range(1 << width), *wide(width)]
        if name == "speed":
            for subtype in (1, 2, 3, 4):
                for direction in (0, 1):
                    yield from ((name, subtype, direction, code) for code in every)
            for subtype in (0, 5, 6, 7):
                for direction in (0, 1):
                    some = [0, 1, 2, 3, 511, 512, 513, 1022, 1023, 1024, 65535]
                    some += [chance.randrange(1024) for _ in range(40)]
                    yield from ((name, subtype, direction, code) for code in some)
            for subtype in (8, 9, 10, 12, 16, 32, 64, 128, 129, 130, 132, 255):
                for direction in (0, 1, 2):
                    yield from ((name, subtype, direction, code) for code in (0, 1, 2, 1023, 1024))
            for direction in (2, 3, 4, 128, 129, 254, 255):
                for subtype in range(8):
                    yield from ((name, subtype, direction, code) for code in (0, 1, 2, 1023, 1024))
        elif name in ("rate", "difference"):
            for sign in (0, 1):
                yield from ((name, 0, sign, code) for code in every)
            for sign in (2, 3, 4, 128, 129, 254, 255):
                last = (1 << width) - 1
                yield from ((name, 0, sign, code) for code in (0, 1, 2, last))
        else:
            yield from ((name, 0, 0, code) for code in every)


def widths(fields):
    """How many bits each field of a layout has, TYPE the first where it has one."""
    return ({} if fields is messages.COARSE else {"TYPE": 5}) | {name: last - first + 1 for name, first, last in fields}


def random_body(chance, fields, type_code, subtype):
    """A body of this layout, each code now and then at an end of its range."""
    made = {}
    for name, width in widths(fields).items():
        last = (1 << width) - 1
        made[name] = chance.choice([0, 1, 2, last - 1, last, *(chance.randint(0, last) for _ in range(5))])
    return made | {"TYPE": type_code} | ({} if subtype is None else {"subtype": subtype})


def bodies():
    """The bodies asked for: layout and fields. Each kind that there is, published ones, then one field wrong."""
    chance = Random(3)
    for text, _ in [*published.FIELD_ROWS, *published.TEXTS]:
        message = messages.decode(bytes.fromhex(text))
        fields = messages.layout(message["TYPE"], message.get("subtype"))
        number = next(number for number, (_, one, _) in enumerate(LAYOUTS) if one is fields)
        yield number, {name: message[name] for name in widths(fields)}
    for number, (_, fields, kinds) in enumerate(LAYOUTS):
        for type_code, subtype in kinds:
            for _ in range(8):
                yield number, random_body(chance, fields, type_code, subtype)
            good = random_body(chance, fields, type_code, subtype)
            for name, width in widths(fields).items():
                yield number, good | {name: 1 << width}  # one too wide
                yield number, good | {name: (1 << width) - 1}
        for wrong in (*range(32), 33, 51, 200, 255):
            yield number, good | {"TYPE": wrong}
        for wrong in (*range(8), 9, 10, 200, 255) if subtype else ():
            yield number, good | {"subtype": wrong}


def fitting_body(chance, fields, type_code, subtype):
    """The same, each field within its bits."""
    made = random_body(chance, fields, type_code, subtype)
    return {name: made[name] % (1 << width) for name, width in widths(fields).items()}


def bodies_without_position():
    """Of TYPE 0 each class of altitude, and each field too wide; then of each layout a body that fits with every TYPE."""
    chance = Random(4)
    number, (_, fields, _) = next(row for row in enumerate(LAYOUTS) if row[1][1] is messages.AIRBORNE)
    for code in altitude_codes():
        yield number, fitting_body(chance, fields, 0, None) | {"altitude": code}
    good = fitting_body(chance, fields, 0, None)
    for name, width in widths(fields).items():
        yield number, good | {name: 1 << width}
    for other, (_, fields, kinds) in enumerate(LAYOUTS):
        good = fitting_body(chance, fields, *kinds[0])
        yield from ((other, good | {"TYPE": type_code}) for type_code in range(32))


def bodies_of_traffic():
    """Of CF 2 and 5, and of others: each difference with ME bit 36 set and not; each field too wide; any body of any layout."""
    chance = Random(5)
    of_velocity = [(number, fields, kind) for number, (_, fields, kinds) in enumerate(LAYOUTS) for kind in kinds if kind[1]]
    for (number, fields, kind), source, sign in product(of_velocity, (0, 1), (0, 1)):
        good = fitting_body(chance, fields, *kind) | {"rate source": source, "difference sign": sign}
        for code in (0, 1, 2, 126, 127, *chance.sample(range(3, 126), 8)):
            yield number, good | {"difference": code}, True
            yield number, good | {"difference": code}, False
        for name, width in widths(fields).items():
            yield number, good | {name: 1 << width}, True
        yield from ((number, good | {"rate source": wide}, True) for wide in (2, 3, 255))
    for number, (_, fields, kinds) in enumerate(LAYOUTS):
        for type_code, subtype in [*kinds, *([(0, None)] if fields is messages.AIRBORNE else [])]:
            for _ in range(6):
                body = fitting_body(chance, fields, type_code, subtype)
                yield number, body, True
                yield number, body, False
        yield from ((number, body | {"TYPE": wrong}, True) for wrong in (0, 4, 8, 11, 19, 22, 23, 31))


def bodies_of_status():
    """Each version with both subtypes and both bits; each field at its last value and past it; other TYPEs and subtypes; any.

    The mode cannot be past it: a struct has 16 bits for it.
    """
    chance = Random(6)
    for version, subtype, bit_20, a in product(range(8), (0, 1), (0, 1), (0, 1)):
        chosen = {"version": version, "bit 20": bit_20, "supplement A": a}
        yield fitting_body(chance, messages.STATUS, 31, subtype) | chosen, False
    for subtype, traffic in product((0, 1), (False, True)):
        good = fitting_body(chance, messages.STATUS, 31, subtype)
        for name, width in widths(messages.STATUS).items():
            yield good | {name: (1 << width) - 1}, traffic
            if name != "mode":
                yield good | {name: 1 << width}, traffic
        yield from ((good | {"TYPE": wrong}, traffic) for wrong in (*range(33), 63, 255))
        yield from ((good | {"subtype": wrong}, traffic) for wrong in (*range(10), 255))
    for _ in range(60):
        yield fitting_body(chance, messages.STATUS, 31, chance.randrange(2)), chance.choice((False, True))


def bodies_of_coarse():
    """Each class of altitude, angle and speed, with either track status; each field at its last value and past it; any."""
    chance = Random(7)

    def any_body(**chosen):
        drawn = {name: chance.getrandbits(width) for name, width in widths(messages.COARSE).items()}
        return drawn | {name.replace("_", " "): value for name, value in chosen.items()}

    yield from ((any_body(altitude=code), True) for code in altitude_codes())
    yield from ((any_body(track_angle=code, track_status=status), True) for code, status in product(range(32), (0, 1)))
    yield from ((any_body(speed=code), True) for code in range(64))
    for traffic in (False, True):
        good = any_body()
        for name, width in widths(messages.COARSE).items():
            yield good | {name: (1 << width) - 1}, traffic
            yield good | {name: 1 << width}, traffic
    for _ in range(100):
        yield any_body(), chance.choice((False, True))


def body_reading(number, message, traffic):
    """The layout's name, and its readings with a comma after each but the last."""
    name, fields, _ = [*LAYOUTS, ("status", messages.STATUS, None), ("coarse", messages.COARSE, None)][number]
    meant = readings.body(fields, message, traffic)
    if "text" in meant:
        meant["text"] = int.from_bytes(meant["text"].encode("ascii"), "big")
    if fields is messages.AIRBORNE:
        meant = {"altitude": altitude(message["altitude"]), "GNSS": "GNSS" if meant["GNSS"] else "pressure"}
    if fields is messages.COARSE:
        meant = {"altitude": altitude(message["altitude"])} | {part: meant[part] for part in ("angle", "speed")}
    return f"{name} {', '.join(str(value) for value in meant.values())}"


def cases():
    """Records and their lines."""
    for name, a, b, code in asked():
        question = NUMBER[name]
        record = bytes([question, a, b]) + code.to_bytes(2, "big")
        yield record, answer(ASKED[question][3], a, b, code)
    others = [(number, message, False) for number, message in (*bodies(), *bodies_without_position())]
    later = [(STATUS, message, traffic) for message, traffic in bodies_of_status()]
    later += [(COARSE, message, traffic) for message, traffic in bodies_of_coarse()]
    for number, message, traffic in (*others, *bodies_of_traffic(), *later):
        fields = [*message.values(), *[0] * (FIELDS - len(message))]
        record = bytes([BODY, number, traffic, 0, 0]) + b"".join(value.to_bytes(8, "big") for value in fields)
        yield record, answer(body_reading, number, message, traffic)
