"""Writes the samples, each with the listings that it must give, or compares them with those that stand: captures, one of
which the program listing is run on, and lines in hex for the example in C. NAME.listing has all tracks, NAME.positioned
those with a position.

    python3 reference/make_samples.py [--check] [--root FOLDER]

With --check nothing is written; the first file that differs is named and the status is 1.
"""

import argparse
import sys
from pathlib import Path
from random import Random

import traffic
import table
from captures import BLOCK, MOST_RECORDS, PLACES, SEAL, block, capture, listing, listing_of, offer
from parity import sealed
from positions import EVEN, ODD
from traffic import ANOTHER, ICAO, MODE_A, NO_TRANSPONDER, OTHER, TRANSPONDER
from vectors.message_vectors import FLAGS, flipped, sealed_message

STRANGE = (3, 3, 4, 4, 6, 7)  # CFs of DF 18, for a draw; of these 3 is taken
MINUTE = 60_000
HOUR = 60 * MINUTE
DEGREE = 2**32 // 360


def example():
    """The capture of RULES 12.9: I ABCDEF at 45 N 90 E, 10,000 feet, even at 1,000, odd at 1,400."""
    place = 2**29, 2**30
    rows = (1_000, EVEN), (1_400, ODD)
    return capture([(time, traffic.airborne(TRANSPONDER, 0xABCDEF, i, place)) for time, i in rows])


# A busy hour


class Flight:
    """An aircraft: who it is, where it starts and how it moves, when it is heard, and when on the surface."""

    def __init__(self, chance, head, aa):
        self.head, self.aa = head, aa
        self.name = "".join(chance.choice("ABCDEFGHKLMN") for _ in range(3)) + str(chance.randrange(10, 9999))
        self.start = chance.randrange(44 * DEGREE, 56 * DEGREE), chance.randrange(-8 * DEGREE, 8 * DEGREE)
        self.knots = chance.randrange(-450, 450), chance.randrange(-450, 450)
        self.feet = chance.randrange(0, 1600) * 25
        length = chance.randrange(4 * MINUTE, 10 * MINUTE)
        self.first = HOUR - length if chance.randrange(2) else chance.randrange(HOUR - length)
        self.last = self.first + length
        middle = self.first + length // 2
        end = 2 * HOUR
        self.airborne = chance.choices([(0, end), (0, middle), (middle, end), (0, 0)], (20, 4, 4, 2))[0]  # from, until
        self.type_code = chance.choices([11, 18, 9, 20], (20, 3, 1, 2))[0]
        self.unknown = chance.randrange(25) == 0

    def place(self, time):
        """Where it is: a knot is some 55 units of 2^-32 of a turn in a second."""
        east, north = self.knots
        moved = [55 * knots * (time - self.first) // 1000 for knots in (north, east)]
        return self.start[0] + moved[0], (self.start[1] + moved[1]) % 2**32

    def position(self, time, i):
        """Its position message."""
        spot = self.place(time)
        first, last = self.airborne
        if not first <= time < last:
            return traffic.surface(self.head, self.aa, i, spot, movement=time // 1000 % 60 + 1, heading=self.aa % 128)
        code = 0 if self.unknown else traffic.altitude_code(self.feet)
        return traffic.airborne(self.head, self.aa, i, spot, self.type_code, code)

    def heard(self, chance):
        """Its messages: now and then a pair half a second apart, and often another beside it."""
        for _ in range(chance.randrange(10, 14)):
            time = chance.randrange(self.first, self.last)
            yield time, self.position(time, EVEN)
            if chance.randrange(8):
                yield time + 500, self.position(time + 500, ODD)
            if chance.randrange(2):
                yield time + 700, traffic.velocity(self.head, self.aa, *self.knots, chance.randrange(-9, 9) * 64)
            elif chance.randrange(4) == 0:
                yield time + 900, traffic.identification(self.head, self.aa, self.name)


def flights(chance):
    """300 aircraft, some without a transponder, some of the other kind; some addresses are both."""
    addresses = chance.sample(range(2**24), 285)
    for aa in addresses[:270]:
        yield Flight(chance, chance.choices((TRANSPONDER, NO_TRANSPONDER, OTHER), (20, 1, 2))[0], aa)
    for aa in addresses[270:]:
        yield Flight(chance, TRANSPONDER, aa)
        yield Flight(chance, OTHER, aa)


def roll_call(chance, all_flights):
    """In the middle of the hour every one is heard within 100 seconds: more than there are places."""
    for flight in all_flights:
        time = 30 * MINUTE + chance.randrange(100_000)
        yield time, traffic.identification(flight.head, flight.aa, flight.name)


def with_faults(chance, records):
    """Some messages damaged, some that are not taken, some of status, some coarse, some records late."""
    for place in chance.sample(range(len(records)), 100):
        time, string = records[place]
        records[place] = time, flipped(string, chance.randrange(1, 113))
    for _ in range(60):
        place = chance.randrange(len(records))
        aa = int.from_bytes(records[place][1][1:4], "big")
        strange = sealed_message(18, chance.choice(STRANGE), aa, 11, 0), sealed_message(17, 5, aa, 31, 0), bytes(14)
        records.insert(place, (records[place][0], chance.choice(strange)))
    for _ in range(60):
        place = chance.randrange(len(records) - 40)
        records.insert(place + chance.randrange(2, 30), records.pop(place))
    return records


def resealed(good, at, value):
    """The block with another byte at an offset, its parity made right again."""
    changed = bytearray(good[: BLOCK - SEAL])
    changed[at] = value
    return sealed(bytes(changed))


def blocks_of(chance, records):
    """The blocks; now and then one that is not full."""
    made, at = [], 0
    while at < len(records):
        count = MOST_RECORDS if chance.randrange(12) else chance.randrange(1, MOST_RECORDS)
        made.append(block(len(made), records[at : at + count]))
        at += count
    return made


def with_bad_blocks(chance, made):
    """Wrong bits; counts of 0 and 24; an unused record that is not zero; zeros; a part block at the end: 11."""
    no_count, high_count = 60, 120
    unused = next(place for place, one in enumerate(made) if one[0] < MOST_RECORDS)
    sound = [place for place in range(len(made)) if place not in (no_count, high_count, unused)]
    for place in chance.sample(sound, 6):
        made[place] = flipped(made[place], chance.randrange(1, 8 * BLOCK + 1))
    made[no_count] = resealed(made[no_count], 0, 0)
    made[high_count] = resealed(made[high_count], 0, MOST_RECORDS + 1)
    made[unused] = resealed(made[unused], BLOCK - SEAL - 1, 1)
    part = made[-1][:300]
    return b"".join([*made[:200], bytes(BLOCK), *made[200:], part])


def busy_hour():
    """300 aircraft in an hour, on the surface and airborne, with faults of every sort."""
    chance = Random(71)
    all_flights = list(flights(chance))
    records = [row for flight in all_flights for row in flight.heard(chance)]
    records += roll_call(chance, all_flights)
    records.sort()
    return with_bad_blocks(chance, blocks_of(chance, with_faults(chance, records)))


def crowd():
    """Two aircraft more than the program has places, each heard once: the last two find none free."""
    return capture([(time, traffic.identification(TRANSPONDER, time, "CROWD")) for time in range(1, PLACES + 3)])


# Gliders whose GPS drops out


def glider(head, aa, spot, back=4 * MINUTE):
    """Climbs 100 feet every 5 seconds, for 4 minutes. It knows its position in the first, and once its GPS is back."""
    for time in range(0, 4 * MINUTE, 5_000):
        code = traffic.altitude_code(3_000 + time // 50)
        if MINUTE <= time < back:
            yield time, traffic.no_position(head, aa, code)
        else:
            yield time, traffic.airborne(head, aa, time // 5_000 % 2, spot, 11, code)


def once_placed(head, aa, spot, code, type_code=11):
    """A pair of messages with its position and 10,000 feet; then TYPE 0 with this code, every minute."""
    for time, i in ((100, EVEN), (600, ODD)):
        yield time, traffic.airborne(head, aa, i, spot, type_code)
    for time in range(MINUTE, 4 * MINUTE, MINUTE):
        yield time, traffic.no_position(head, aa, code)


def gliders():
    """TYPE 0: without it all would be dropped but the one whose GPS is back. Who sends nothing else is not listed."""
    north, east, high = 47 * DEGREE, 12 * DEGREE, traffic.altitude_code(7_800)
    rows = [*glider(TRANSPONDER, 0x3D2A41, (north, east)), *glider(OTHER, 0x3D2A41, (north, 2 * east), back=3 * MINUTE)]
    rows += once_placed(TRANSPONDER, 0x3D0000, (north, 3 * east), 0)  # a field of zeros: 10,000 feet stays
    rows += once_placed(NO_TRANSPONDER, 0x3D0001, (north, 4 * east), 2688)  # a code that reads unknown
    rows += once_placed(OTHER, 0x3D0002, (north, 5 * east), high, 20)  # GNSS height, then pressure altitude
    rows += [(time, traffic.no_position(TRANSPONDER, 0x3D0003, high)) for time in range(0, 4 * MINUTE, MINUTE)]
    return capture(sorted(rows))


# Near an airport, where a ground station sends what its radar sees


def seen_by_radar(head, aa, spot, feet, first=0):
    """An aircraft of a ground station's traffic service: a position every 2 seconds, velocities between them, and its name."""
    for k, time in enumerate(range(first, first + MINUTE, 2_000)):
        here = spot[0] + 20_000 * k, (spot[1] - 30_000 * k) % 2**32
        code = traffic.hundreds_code(feet + k // 4 * 100) if head == MODE_A else traffic.altitude_code(feet + 25 * k)
        yield time, traffic.airborne(head, aa, k % 2, here, 11, code)
        yield time + 700, traffic.velocity(head, aa, -150, 90, 640)
    yield first + 5_300, traffic.identification(head, aa, "TRAFFIC")


def taxiing(head, aa, spot):
    """One that lands: two messages from the air, then a minute on the surface."""
    for time, i in ((200, EVEN), (900, ODD)):
        yield time, traffic.airborne(head, aa, i, spot, 12)
    for k, time in enumerate(range(2_000, MINUTE, 5_000)):
        yield time, traffic.surface(head, aa, k % 2, (spot[0] + 300 * k, spot[1]), movement=20 + k)


def not_begun(head, aa):
    """All but a position message: of kinds T, M and N this starts no track."""
    yield 3_000, traffic.identification(head, aa, "NOBODY")
    yield 4_000, traffic.velocity(head, aa, 100, 100)
    yield 5_000, traffic.no_position(head, aa)


def strange_traffic(aa):
    """CF 5 with the flag set in each layout, which is refused with 5; CF 4, 6 and 7, with 4; of CF 3 one message without a partner."""
    for time, (type_code, flag) in enumerate(((7, FLAGS[0]), (11, FLAGS[1]), (0, FLAGS[1]), (19, FLAGS[2] | 1 << 48)), 50):
        yield 1_000 * time, sealed_message(18, 5, aa, type_code, flag)
    for cf in sorted({*STRANGE}):
        yield 55_000 + cf, sealed_message(18, cf, aa, 11, 888 << 36)


def airport():
    """Kinds T, M and N beside I and O: one address of all five, a Mode A code, one that lands, and what starts no track."""
    north, east, both = 51 * DEGREE, 4 * DEGREE, 0x484412
    code = 0o1200 << 12 | 7  # Mode A code 1200, track number 7
    rows = []
    for k, head in enumerate((TRANSPONDER, OTHER, ICAO, MODE_A, ANOTHER)):
        rows += seen_by_radar(head, both, (north, (k - 2) * east % 2**32), 3_000 + 1_000 * k, 100 * k)
    rows += seen_by_radar(MODE_A, code, (north + DEGREE, east), 1_500, 50)
    rows += taxiing(ICAO, 0x484413, (north, east))
    rows += taxiing(MODE_A, 0o7000 << 12 | 4095, (north, -east % 2**32))
    for head in (ICAO, MODE_A, ANOTHER):
        rows += not_begun(head, 0x484414)
    place = north, 2 * east
    rows += [(6_000, traffic.airborne(ICAO, 0x484415, EVEN, place)), (6_400, traffic.airborne(MODE_A, 0x484415, ODD, place))]
    rows += [(6_800, traffic.airborne(ANOTHER, 0x484415, EVEN, place, 20)), *strange_traffic(0x484415)]
    return capture(sorted(rows))


# Far from an airport, where stations send coarsely what they see


def told_by(station, aa, spot, feet, flag=0, first=0, step=3_000):
    """What a station tells of an aircraft for a minute: its position, angle and speed, every few seconds."""
    for k, time in enumerate(range(first, first + MINUTE, step)):
        here = spot[0] + 15_000 * k, (spot[1] + 40_000 * k) % 2**32
        code = traffic.hundreds_code(feet + k // 4 * 100) if flag else traffic.altitude_code(feet + 25 * k)
        yield time, traffic.coarse(aa, k % 2, here, station, flag, code, **{"track status": 1, "track angle": 6, "speed": 10})


def stations():
    """Kind C. The example of RULES 17.10, told by station 3, then by station 4; an aircraft between two stations, which sends itself and is
    sent finely too; a Mode A code that is an address as well; one of a third station, heard once; any bits."""
    place, north, east, both = (2**29, 2**30), 47 * DEGREE, 9 * DEGREE, 0x3C6481
    code = 0o1200 << 12 | 7  # Mode A code 1200, track number 7
    rows = [(1_000, traffic.coarse(0xABCDEF, EVEN, place)), (1_400, traffic.coarse(0xABCDEF, ODD, place))]
    rows += [(1_500 + time, traffic.coarse(0xABCDEF, i, place, 4)) for time, i in ((0, EVEN), (9_999, ODD))]
    rows += told_by(0, both, (north, east), 9_000, first=200)
    rows += told_by(15, both, (north + DEGREE // 9, east), 9_000, first=1_700, step=7_000)
    for time, i in ((300, EVEN), (900, ODD)):
        rows += [(time, traffic.airborne(TRANSPONDER, both, i, (north, east))), (time, traffic.airborne(ICAO, both, i, (north, east)))]
    rows += [*told_by(2, code, (-north, east), 2_000, 1, 400), *told_by(2, code, (north, 2 * east), 3_000, 0, 500)]
    rows += [(9_000 + 400 * i, traffic.coarse(code, i, (north, 2 * east), 9)) for i in (EVEN, ODD)]  # in order before its flag 1
    rows += [(7_000, traffic.coarse_bits(0, 0)), (7_100, traffic.coarse_bits(2**24 - 1, 2**56 - 1))]
    rows += [(8_000, traffic.coarse(both, EVEN, (north, east), 7)), (8_200, traffic.airborne(ICAO, both, ODD, (north, east)))]
    return capture(sorted(rows))


# A minute, in hex


STEP = 100  # milliseconds from line to line


def said(chance, flight, time, i):
    """A message of an aircraft: 45 in 100 a position, 40 a velocity, 15 an identification."""
    kind = chance.randrange(100)
    if kind < 45:
        return flight.position(time, i)
    if kind < 85:
        return traffic.velocity(flight.head, flight.aa, *flight.knots, chance.randrange(-9, 9) * 64)
    return traffic.identification(flight.head, flight.aa, flight.name)


def minute():
    """The messages of 24 aircraft; every 50th is damaged, and every 50th is one of the short ones of 56 bits."""
    chance = Random(72)
    heads = TRANSPONDER, NO_TRANSPONDER, OTHER
    all_flights = [Flight(chance, chance.choices(heads, (20, 1, 2))[0], aa) for aa in chance.sample(range(2**24), 24)]
    for k in range(MINUTE // STEP):
        string = said(chance, chance.choice(all_flights), k * STEP, chance.choice((EVEN, ODD)))
        if k % 50 == 20:
            string = flipped(string, chance.randrange(1, 113))
        yield string if k % 50 != 40 else chance.randbytes(7)


def hex_lines(strings):
    """A line for each message, as receivers print them."""
    return "".join(f"*{string.hex().upper()};\n" for string in strings).encode("ascii")


def hex_listing(strings, step, every):
    """The listing of messages, message k, from 0, arriving at k times the step; and how many are refused."""
    made, refused = bytearray(table.length_of(PLACES)), 0
    for k, string in enumerate(strings):
        refused += not offer(made, string, k * step)
    return listing_of(made, 0, every).encode("ascii"), refused


SAMPLES = {"example": example, "busy-hour": busy_hour, "crowd": crowd, "gliders": gliders, "airport": airport, "stations": stations}
RUN = "stations"  # what the crate is run on: its two listings differ, so that the default is seen
LISTINGS = {"listing": True, "positioned": False}  # the ending of a sample's listing, and whether all are asked for


def files():
    """Every file, by its path in the repository, with what it holds."""
    for name, made in SAMPLES.items():
        whole = made()
        yield f"samples/{name}.capture", whole
        for ending, every in LISTINGS.items():
            yield f"samples/{name}.{ending}", listing(whole, every).encode("ascii")
        if name == RUN:
            if listing(whole, False) == listing(whole, True):
                sys.exit(f"the two listings of {name} are the same")
            yield "crates/listing/stdin", whole
            yield "crates/listing/stdout", listing(whole, False).encode("ascii")
    strings = list(minute())
    yield "samples/minute.hex", hex_lines(strings)
    for ending, every in LISTINGS.items():
        yield f"samples/minute.{ending}", hex_listing(strings, STEP, every)[0]


def main():
    parser = argparse.ArgumentParser(description="The samples and their listings.")
    parser.add_argument("--check", action="store_true", help="write nothing, compare")
    parser.add_argument("--root", type=Path, default=Path(__file__).resolve().parent.parent)
    arguments = parser.parse_args()
    for name, content in files():
        path = arguments.root / name
        if not arguments.check:
            path.parent.mkdir(parents=True, exist_ok=True)
            path.write_bytes(content)
        elif not path.is_file() or path.read_bytes() != content:
            print(f"{name}: {'differs' if path.is_file() else 'missing'}")
            return 1
        print(f"{name}: {len(content)} bytes {'as made' if arguments.check else 'written'}")
    return 0


if __name__ == "__main__":
    sys.exit(main())
