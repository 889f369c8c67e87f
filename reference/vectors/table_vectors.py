"""Cases of table_vectors: scripted runs of the lent table. vectors/bench.py has the records and the answers."""

from fractions import Fraction
from itertools import product
from math import floor
from random import Random

import published
from positions import AIRBORNE, COARSE, COUNTS, EVEN, FIGURES, ODD, SURFACE, zones
from table import BODY, HEARD, KEY, LATITUDE, MARKS, POLE, SAVED, TIME, body_of, key_at, length_of
from tracks import C, Position, Saved, Track, key_for
from traffic import (
    ANOTHER,
    GROUND,
    ICAO,
    MODE_A,
    NO_TRANSPONDER,
    OTHER,
    TRANSPONDER,
    airborne,
    airborne_counts,
    coarse,
    coarse_bits,
    coarse_counts,
    identification,
    message,
    no_position,
    status,
    surface,
    velocity,
)
from vectors import replays
from vectors.bench import SPACE, Bench
from vectors.message_vectors import (
    FLAGS,
    NOT_TAKEN,
    altitude_codes,
    flipped,
    of_head,
    random_no_position,
    random_status,
    random_valid,
    sealed_message,
)
from vectors.position_vectors import random_counts, random_latitude, random_longitude

I, O, T, M, N, END = (kind << 24 for kind in range(1, 7))  # the kinds, above the address, and what is above them
ONE, TWO, THREE = 0xABCDEF, 0x4840D6, 0x000001  # addresses
HEADS = [TRANSPONDER, NO_TRANSPONDER, OTHER]
FIVE = {TRANSPONDER: I, OTHER: O, ICAO: T, MODE_A: M, ANOTHER: N}  # a head of each kind, in the order of the listing
HERE = 2**29, 2**30  # 45 N 90 E
NEAR = 2**29 + 2**20, 2**30 + 2**20  # a tenth of a degree away
LAST = 2**64 - 1
BOTH = (EVEN, ODD)
GROUPS = (range(1, 5), [19], range(5, 9))  # the TYPEs of identification, velocity and surface fields


def new(bench, places, site):
    """A table that is set up, with a site or without."""
    if site is None:
        bench.set_up(places)
    else:
        bench.set_up_at(places, site)


def both(bench, aa, place, time, head=TRANSPONDER):
    """An even and an odd message from a place, 400 apart: the pair gives a position."""
    bench.receive(airborne(head, aa, EVEN, place), time)
    bench.receive(airborne(head, aa, ODD, place), time + 400)


def kept(bench, aa, start, end, head=TRANSPONDER):
    """Velocity messages that keep the track, every 50,000."""
    for time in range(start, end, 50_000):
        bench.receive(velocity(head, aa, 100, -50), time)


def seen(bench):
    """All that can be seen of a small table."""
    bench.walk()
    bench.whole()


def damaged(string):
    """The same message with a wrong bit."""
    return flipped(string, 60)


# Ages


def listing_example(bench):
    """The listing of RULES 12.9: I ABCDEF, even at 1,000, odd at 1,400."""
    bench.set_up(256)
    both(bench, ONE, HERE, 1_000)
    bench.look_up(I | ONE, O | ONE, ONE)
    seen(bench)


def partner_ages(bench):
    """Partner age 10,000 pairs, 10,001 doesn't; then the single reading, if there is a position."""
    for first, gap in product(BOTH, (0, 1, 400, 9_999, 10_000, 10_001, 10_002, 60_000)):
        bench.set_up(1)
        bench.receive(airborne(TRANSPONDER, ONE, first, HERE), 1_000)
        bench.receive(airborne(TRANSPONDER, ONE, 1 - first, HERE), 1_000 + gap)
        seen(bench)
        bench.set_up(2)
        both(bench, ONE, HERE, 1_000)
        bench.receive(airborne(TRANSPONDER, ONE, first, NEAR), 50_000)
        bench.receive(airborne(TRANSPONDER, ONE, 1 - first, NEAR), 50_000 + gap)
        seen(bench)


def reference_ages(bench):
    """A reference at 120,000 and not at 120,001: airborne, and on the surface with and without a site."""
    gaps = (0, 10_001, 119_999, 120_000, 120_001, 120_002, 200_000)
    for gap, site, ground in product(gaps, (None, NEAR), (False, True)):
        new(bench, 1, site)
        both(bench, ONE, HERE, 1_000)
        kept(bench, ONE, 1_400, 1_400 + gap)
        made = surface if ground else airborne
        bench.receive(made(TRANSPONDER, ONE, EVEN, NEAR), 1_400 + gap)
        seen(bench)


def holding_ages(bench):
    """Heard at 1,000: held at 125,999, gone at 126,000."""
    for gap in (0, 124_998, 124_999, 125_000, 125_001, 10**9):
        bench.set_up(2)
        both(bench, ONE, HERE, 600)
        bench.receive(identification(TRANSPONDER, TWO, "KLM1023"), 1_000 + gap)
        bench.look_up(I | ONE, I | TWO)
        bench.next(0, I | TWO, I | ONE)
        seen(bench)
        bench.receive(velocity(TRANSPONDER, ONE, 0, 0), 1_000 + gap)
        seen(bench)


def nothing_refreshes(bench):
    """A refused message refreshes no track: bad parity, DF, TYPE, length, late."""
    good = airborne(TRANSPONDER, ONE, EVEN, NEAR)
    bad = [damaged(good), sealed_message(18, 4, ONE, 11, 0), sealed_message(17, 5, ONE, 31, 2 << 48)]
    bad += [sealed_message(17, 5, ONE, 23, 0), sealed_message(17, 5, ONE, 19, 5 << 48), good[:13], good + b"\0"]
    for string, end in product(bad, (125_999, 126_000)):
        bench.set_up(2)
        both(bench, ONE, HERE, 600)
        bench.receive(string, 100_000)
        bench.receive(good, 999)
        bench.walk()
        bench.receive(string, end)
        seen(bench)
        bench.receive(velocity(TRANSPONDER, TWO, 1, 1), end)
        bench.receive(velocity(TRANSPONDER, THREE, 1, 1), end)
        seen(bench)


def late_messages(bench):
    """A time below the clock leaves everything; an equal time is not late."""
    bench.set_up(2)
    both(bench, ONE, HERE, 5_000)
    for time in (5_399, 0, 5_400, 5_399, 5_401, 5_400, LAST, LAST - 1, LAST):
        bench.receive(airborne(TRANSPONDER, ONE, EVEN, NEAR), time)
        bench.receive(damaged(airborne(TRANSPONDER, ONE, EVEN, NEAR)), time)
        seen(bench)


def clock_of_a_stranger(bench):
    """A damaged message of the last time moves the clock, and so empties the table."""
    bench.set_up(2)
    both(bench, ONE, HERE, 5_000)
    bench.receive(damaged(airborne(TRANSPONDER, TWO, EVEN, NEAR)), LAST)
    seen(bench)
    bench.receive(airborne(TRANSPONDER, ONE, EVEN, NEAR), LAST - 1)
    bench.receive(airborne(TRANSPONDER, ONE, EVEN, NEAR), LAST)
    seen(bench)


# Groups and positions


def surface_and_back(bench):
    """Airborne, surface and airborne again, with and without a site."""
    for site in (None, HERE, (-HERE[0], 0)):
        new(bench, 3, site)
        bench.receive(surface(TRANSPONDER, ONE, EVEN, NEAR), 1_000)
        bench.receive(surface(TRANSPONDER, ONE, ODD, NEAR), 2_000)
        both(bench, ONE, NEAR, 3_000)
        bench.receive(surface(TRANSPONDER, ONE, ODD, HERE), 4_000)
        bench.receive(airborne(TRANSPONDER, ONE, ODD, HERE), 5_000)
        bench.receive(airborne(TRANSPONDER, ONE, EVEN, HERE), 5_000)
        bench.receive(surface(OTHER, ONE, ODD, HERE), 6_000)
        bench.receive(surface(NO_TRANSPONDER, TWO, EVEN, HERE, type_code=5), 6_000)
        bench.receive(airborne(NO_TRANSPONDER, TWO, EVEN, HERE, type_code=18), 7_000)
        bench.receive(surface(NO_TRANSPONDER, TWO, EVEN, HERE, type_code=8, movement=0), 7_500)
        bench.receive(airborne(NO_TRANSPONDER, TWO, ODD, HERE, type_code=18), 8_000)
        seen(bench)


def surface_beyond_the_pole(bench):
    """On 9 the position stays, and the site is not tried instead."""
    high = POLE - 2**18, 2**30
    for site, turn, i, more in product((None, HERE), (SURFACE, AIRBORNE), BOTH, (-1, 0, 1, 9_000)):
        new(bench, 1, site)
        both(bench, ONE, high, 1_000)
        pole = (Fraction(90 * zones(i) * COUNTS, turn) + more) % COUNTS
        fields = {"F": i, "latitude": floor(pole), "longitude": 77}
        bench.receive(message(TRANSPONDER, ONE, 6 if turn == SURFACE else 12, **fields), 20_000)
        seen(bench)


def one_site(bench):
    """Sites at the edges, used by a first surface message; 8 outside, and the table stays."""
    for latitude, longitude in product((0, 1, -1, POLE, -POLE, HERE[0]), (0, 2**31, 2**32 - 1, 12345)):
        bench.set_up_at(2, (latitude, longitude))
        bench.whole()
        bench.receive(surface(TRANSPONDER, ONE, EVEN, (latitude, longitude)), 1)
        bench.receive(surface(TRANSPONDER, TWO, ODD, (latitude // 2, 0)), 1)
        seen(bench)
    for latitude, length in product((POLE + 1, -POLE - 1, 2**31 - 1, -(2**31)), (length_of(2), length_of(2) - 1)):
        bench.set_up_bytes_at(length, (latitude, 7))
        bench.lend(length_of(2))
        seen(bench)


def site_not_used(bench):
    """The site is no reference for an airborne message, nor while the track's position can be used."""
    bench.set_up_at(2, HERE)
    bench.receive(airborne(TRANSPONDER, ONE, EVEN, NEAR), 1_000)
    bench.walk()
    far = -HERE[0], 3 * 2**30
    both(bench, ONE, far, 20_000)
    bench.receive(surface(TRANSPONDER, ONE, EVEN, far), 30_000)
    kept(bench, ONE, 30_000, 160_000)
    bench.receive(surface(TRANSPONDER, ONE, EVEN, far), 160_000)
    seen(bench)


def every_group(bench):
    """Each TYPE in one track, in several orders: a message replaces its own group whole, and no other."""
    chance = Random(21)
    for _ in range(4):
        bench.set_up(1)
        types, time = [*range(1, 23)] * 2, 0
        chance.shuffle(types)
        for type_code in types:
            rest = chance.getrandbits(51)
            if type_code == 19:
                rest = rest % 2**48 | chance.randrange(1, 5) << 48
            time += chance.randrange(3_000)
            bench.receive(sealed_message(17, 5, ONE, type_code, rest), time)
        seen(bench)


def unknown_heights(bench):
    """Code 0 replaces a known height, pressure and GNSS, each its own; so do codes of unknown meaning."""
    bench.set_up(1)
    time, codes = 0, [(11, 888), (20, 1), (11, 0), (20, 4095), (9, 4095), (22, 0), (18, 16), (21, 2688), (10, 0)]
    for type_code, altitude in codes:
        time += 500
        bench.receive(airborne(TRANSPONDER, ONE, time // 500 % 2, HERE, type_code, altitude), time)
        bench.walk()
    bench.receive(surface(TRANSPONDER, ONE, EVEN, HERE, movement=0, heading=0), time)
    bench.receive(message(TRANSPONDER, ONE, 19, subtype=3), time)
    bench.receive(message(TRANSPONDER, ONE, 1), time)
    seen(bench)


def both_kinds(bench):
    """One address of both kinds is two tracks; DF 18 CF 0 is the kind of DF 17."""
    bench.set_up(3)
    for time, head in enumerate([OTHER, TRANSPONDER, NO_TRANSPONDER, OTHER, (17, 0), (17, 7)]):
        bench.receive(airborne(head, ONE, time % 2, HERE, altitude=16 + time), 1_000 * time)
        bench.look_up(I | ONE, O | ONE)
    for aa in (0, 2**24 - 1):
        bench.receive(airborne(OTHER, aa, EVEN, HERE), 7_000)
    seen(bench)
    bench.next(0, I, I | ONE, I | 2**24 - 1, O - 1, O, O | ONE, O | 2**24 - 1, 2**32 - 1)


def zone_edges(bench):
    """Pairs on either side of each transition: refused with 10, they are read singly if they can be."""
    chance = Random(22)
    for figure, sign in product(FIGURES, (1, -1)):
        entry = Fraction(figure, 10**8)
        below = [floor(entry * zones(i) / AIRBORNE * COUNTS) for i in BOTH]
        longitudes = random_counts(chance, 2)
        counts = [[(sign * (below[i] + more) % COUNTS, longitudes[i]) for more in (0, 1)] for i in BOTH]
        bench.set_up(1)
        steps = [(EVEN, 0), (ODD, 1), (ODD, 0), (EVEN, 1), (ODD, 1), (EVEN, 0), (ODD, 0)]
        for time, (i, more) in enumerate(steps[chance.randrange(3) :]):
            bench.receive(airborne_counts(TRANSPONDER, ONE, i, counts[i][more]), 1_000 * time)
    seen(bench)


def refused_pairs(bench):
    """Pairs of random counts, many of them refused with 9 or 10, with a position and without."""
    chance = Random(23)
    for start in (None, HERE, (POLE - 5, 0), (-POLE, 2**31)):
        bench.set_up(1)
        if start:
            both(bench, ONE, start, 0)
        time = 20_000
        for _ in range(40):
            time += chance.choice((10, 400, 9_999, 10_000, 10_001))
            i = chance.choice(BOTH)
            latitude = chance.choice([0, 32768, 65536, 98304, 98305, chance.randrange(COUNTS)])
            bench.receive(airborne_counts(TRANSPONDER, ONE, i, (latitude, chance.randrange(COUNTS))), time)
        seen(bench)


def published_runs(bench):
    """The published messages in order, each twice, a second apart."""
    bench.set_up_at(8, published.units("51.99", "4.375"))
    for time, string in enumerate(published.messages() * 2):
        bench.receive(string, 1_000 * time)
    seen(bench)


# Refusals


def refused_message(bad_length, bad_parity, bad_df, bad_type):
    """A message with some of these faults."""
    string = sealed_message(*((18, 4) if bad_df else (17, 2)), TWO, 30 if bad_type else 11, 12345)
    if bad_parity:
        string = damaged(string)
    return string[:13] if bad_length else string


def order(bench):
    """Every set of faults: 1, 7, 2, 3, 4, 5, 6 in that order, and what each leaves."""
    for faults in product((False, True), repeat=7):
        bad_length, bad_table, late, bad_parity, bad_df, bad_type, full = faults
        bench.set_up(1)
        bench.receive(identification(TRANSPONDER, ONE, "EZY85MH"), 1_000 if full else 0)
        bench.receive(damaged(bytes(14)), 125_000)
        if bad_table:
            bench.lend(length_of(1) - 1)
        string = refused_message(bad_length, bad_parity, bad_df, bad_type)
        bench.receive(string, 124_999 if late else 125_999)
        bench.lend(length_of(1))
        seen(bench)


def lengths(bench):
    """Tables of whole places and just off them; every call earns 7 for the latter."""
    whole = [length_of(count) for count in (1, 2, 3, 255, 256, 257, 1023, 1024)]
    off = [0, 1, 8, 15, 16, 17, KEY + BODY - 1, KEY + BODY, length_of(2) - 16, length_of(1025), SPACE]
    for length in sorted({*off, *whole, *(size + more for size in whole for more in (-1, 1))}):
        bench.set_up_bytes(length)
        bench.set_up_bytes_at(length, HERE)
        if length < 2**15 or length % 2 == 0:
            bench.whole()
        bench.receive(identification(OTHER, TWO, "KLM1023"), 77)
        bench.receive(b"", 77)
        bench.look_up(O | TWO, I | TWO)
        bench.next(0, O | TWO)
        bench.walk()
        bench.set_up_bytes_at(length, (POLE + 1, 0))
        bench.set_up_bytes(length)
        bench.walk()


def message_lengths(bench):
    """1 for every length but 14, and nothing changed."""
    bench.set_up(1)
    for length in (*range(21), 28, 255):
        bench.receive((airborne(TRANSPONDER, ONE, EVEN, HERE) * 20)[:length], 1_000 + length)
    seen(bench)


# Full tables


def newcomer(head, aa):
    """A short message that starts a track."""
    return message(head, aa, 19, subtype=1)


def full_small(bench):
    """1 and 2 places: full, freed by time, refilled at the lowest place."""
    for places in (1, 2):
        bench.set_up(places)
        for aa in range(places):
            both(bench, aa, HERE, 1_000 * aa)
        for time in (2_000, 125_399, 125_400, 126_399, 126_400, 250_398, 250_399, 251_400):
            for head, aa in ((OTHER, 0), (TRANSPONDER, 7), (TRANSPONDER, 0)):
                bench.receive(airborne(head, aa, EVEN, NEAR), time)
            seen(bench)


def full_large(bench, places, seed):
    """256 and 1,024 places, filled to the last; freed here and there by time, the lowest taken first."""
    chance = Random(seed)
    bench.set_up(places)
    addresses = chance.sample(range(2**24), places // 2)
    names = [(head, aa) for aa in addresses for head in (TRANSPONDER, OTHER)]
    chance.shuffle(names)
    for time, (head, aa) in enumerate(names):
        bench.receive(newcomer(head, aa), time)
    bench.whole()
    for aa in (1, 2):
        bench.receive(newcomer(TRANSPONDER, aa), places)
    time = places
    for head, aa in chance.sample(names, places // 8):  # these stay
        time += chance.randrange(100)
        bench.receive(identification(head, aa, "STAYS"), time)
    bench.walk()
    bench.whole()
    for place in (0, places // 2, places - 1):  # the first is stale, the rest one after the other
        bench.receive(newcomer(TRANSPONDER, 3), 124_999 + place)
        bench.receive(newcomer(NO_TRANSPONDER, 4 + place), 125_000 + place)
        bench.receive(newcomer(OTHER, 5 + place), 125_000 + place)
        bench.whole()
    for aa in range(10_000, 10_000 + places // 4):
        bench.receive(newcomer(OTHER, aa), 125_000 + places)
    for _, aa in names[: places // 16]:
        bench.look_up(I | aa, O | aa)
        bench.next(I | aa)
    bench.whole()


# Random traffic


STEPS = (0, 1, 7, 400, 500, 1_000, 4_000, 9_999, 10_000, 10_001, 119_999, 120_000, 120_001, 124_999, 125_000, 125_001)
WEIGHTS = (6, 3, 3, 9, 9, 9, 6, 3, 3, 3, 1, 1, 1, 1, 1, 1)


def random_message(chance, head, aa, place):
    """A message of any layout, now and then one with random fields."""
    i, kind = chance.choice(BOTH), chance.randrange(12)
    if kind < 5:
        type_code = chance.choice([*range(9, 19), 20, 21, 22])
        return airborne(head, aa, i, place, type_code, chance.choice((0, 888, chance.randrange(4096))))
    if kind < 8:
        return surface(head, aa, i, place, chance.randrange(5, 9), chance.randrange(128), chance.randrange(128))
    if kind == 8:
        return identification(head, aa, chance.choice(("KLM1023", "EZY85MH", "")), chance.randrange(1, 5))
    if kind == 9:
        east, north = chance.randrange(-500, 500), chance.randrange(-500, 500)
        return velocity(head, aa, east, north, chance.randrange(-9, 9) * 64)
    if kind == 10:
        return airborne_counts(head, aa, i, random_counts(chance, 2))
    string = random_valid(chance)
    return of_head(head, aa, string[4] >> 3, int.from_bytes(string[4:11], "big") % 2**51)


def moved(chance, place):
    """A place up to a tenth of a degree further on."""
    latitude = place[0] + chance.randrange(-(2**20), 2**20)
    return max(-POLE, min(POLE, latitude)), (place[1] + chance.randrange(-(2**20), 2**20)) % 2**32


def random_run(bench, seed, places, steps, lost=False, heads=HEADS, weights=(6, 1, 2), told=False):
    """A few aircraft and fewer places; times that step by the edges; faults now and then; TYPE 0 if positions get lost; status if told."""
    chance = Random(seed)
    spots = {}
    for aa in chance.sample(range(2**24), places + 1):
        spots[aa] = random_latitude(chance), random_longitude(chance)
    if chance.randrange(2):
        bench.set_up_at(places, moved(chance, chance.choice([*spots.values()])))
    else:
        bench.set_up(places)
    time = chance.choice((0, 10**12, 2**63))
    for step in range(steps):
        time += chance.choices(STEPS, WEIGHTS)[0]
        aa, head = chance.choice([*spots]), chance.choices(heads, weights)[0]
        spots[aa] = moved(chance, spots[aa])
        string, now, fault = random_message(chance, head, aa, spots[aa]), time, chance.randrange(30)
        if fault == 0:
            string = flipped(string, chance.randrange(1, 113))
        elif fault == 1 and time:
            now = max(0, time - chance.choice((1, 500, 10_000)))
        elif fault == 2:
            string = sealed_message(18, chance.choice(NOT_TAKEN), aa, 11, 0)
        elif fault == 3:
            string = sealed_message(17, 0, aa, chance.randrange(23, 32), 0)
        elif lost and fault < 14:
            string = random_no_position(chance, head, aa)
        elif fault == 14 and ANOTHER in heads:
            string = sealed_message(18, 5, aa, chance.choice((0, 7, 11, 19)), sum(FLAGS))
        elif told and fault < 22:
            string = random_status(chance, head, aa) if head in HEADS else sealed_message(*head[:2], aa, 31, chance.getrandbits(51))
        bench.receive(string, now)
        if step % 8 == 7:
            bench.whole()
    seen(bench)


# Tables that no set-up made


def poke_number(bench, at, size, number):
    """A number, low byte first."""
    bench.poke(at, number.to_bytes(size, "little"))


def body_start(places, place):
    """Where the body of a place stands."""
    return key_at(places) + BODY * place


def poke_place(bench, places, place, key, track):
    """A key and a track, into a place."""
    poke_number(bench, key_at(place), 4, key)
    bench.poke(body_start(places, place), bytes(body_of(track)))


def random_time(chance, clock):
    """A time at an edge before the clock, or after it."""
    back = chance.choice((0, 1, 9_999, 10_000, 10_001, 119_999, 120_000, 120_001, 124_999, 125_000, 200_000))
    time = chance.choice((clock - back, clock - back, clock - back, clock + 1, clock + back, LAST, 0))
    return max(0, min(LAST, time))


def random_me(chance, types):
    """An ME of any bits: mostly its TYPE is one of these, and a subtype of TYPE 19 one that is taken."""
    me = chance.getrandbits(56)
    if chance.randrange(4):
        me = me % 2**51 | chance.choice(types) << 51
    if me >> 51 == 19 and chance.randrange(4):
        me = me & ~(7 << 48) | chance.randrange(1, 5) << 48
    return me


def random_track(chance, clock):
    """A track of any values, its times about the clock; with an ME of another group, or values without a mark."""
    latitude = chance.choice((-POLE, POLE, 0, random_latitude(chance), random_latitude(chance)))
    saved = [Saved(chance.randrange(4) > 0, *random_counts(chance, 2), random_time(chance, clock)) for _ in BOTH]
    heard, (identification, velocity, surface) = random_time(chance, clock), [random_me(chance, types) for types in GROUPS]
    pressure, height = chance.getrandbits(12), chance.getrandbits(12)
    position = Position(chance.randrange(4) > 0, latitude, random_longitude(chance), random_time(chance, clock))
    return Track(heard, identification, velocity, surface, 0, pressure, height, 0, 0, position, tuple(saved))


def with_status(chance, track):
    """The same with any status, now and then an ME of another TYPE or subtype; of the latest position message any TYPE and bit 8."""
    me = chance.choice((0, chance.getrandbits(56), *[31 << 51 | chance.randrange(2) << 48 | chance.getrandbits(48)] * 6))
    assigned = me & ~(7 << 13) | chance.randrange(3) << 13  # version 0, 1 or 2
    type_code = chance.choice((*range(5, 19), 20, 21, 22, chance.randrange(32)))
    return track._replace(status=chance.choice((me, assigned, assigned)), typecode=type_code, bit8=chance.randrange(2))


def any_track_stepped(bench):
    """Tracks of any values, each stepped by one message, with and without a site."""
    chance = Random(31)
    for _ in range(350):
        clock = chance.choice((0, 5, 130_000, 10**9, 2**40 + 7, LAST - 5))
        if chance.randrange(3):
            bench.set_up_at(1, (random_latitude(chance), random_longitude(chance)))
        else:
            bench.set_up(1)
        time = min(LAST, clock + chance.choice((0, 0, 1, 5)))
        poke_number(bench, 0, 8, clock)
        track = random_track(chance, time)
        poke_place(bench, 1, 0, I | ONE, track)
        spot = moved(chance, (track.position.latitude, track.position.longitude))
        bench.look_up(I | ONE)
        bench.receive(random_message(chance, TRANSPONDER, ONE, spot), time)
        bench.whole()


def three(bench):
    """A table of three places, each held, at clock 5,400: two keys of one address, and another."""
    bench.set_up(3)
    for i, time in ((EVEN, 5_000), (ODD, 5_400)):
        for head, aa in ((TRANSPONDER, ONE), (OTHER, ONE), (TRANSPONDER, TWO)):
            bench.receive(airborne(head, aa, i, HERE), time)


def used(bench):
    """Walks, then hears each of the three and a newcomer, and walks again."""
    seen(bench)
    bench.look_up(I | ONE, O | ONE, I | TWO)
    for head, aa in ((TRANSPONDER, TWO), (TRANSPONDER, THREE), (OTHER, ONE), (TRANSPONDER, ONE)):
        bench.receive(airborne(head, aa, EVEN, NEAR), 6_000)
    seen(bench)


def one_value_off(bench):
    """A table of three places with one value out of its range, or just in it."""
    for place in range(3):
        for key in (ONE, I | ONE, O | ONE, T | ONE, 255 << 24 | ONE, I - 1, I, T, T - 1):
            three(bench)
            poke_number(bench, key_at(place), 4, key)
            used(bench)
            bench.look_up(key)
        for number in (0, 1, 2**31 - 1, 2**31, 2**31 + 1, 2**32 - 1):
            three(bench)
            poke_number(bench, body_start(3, place) + LATITUDE, 4, number)
            used(bench)


def off_and_unknown(bench):
    """A latitude out of its range frees the place also where no position is known."""
    for number in (2**31, 2**31 + 1):
        three(bench)
        at = body_start(3, 1)
        poke_number(bench, at + MARKS, 4, 888)
        poke_number(bench, at + LATITUDE, 4, number)
        used(bench)


def bits_without_value(bench):
    """Bits that no value has are ignored when read, and 0 when written."""
    for offset, size in ((MARKS, 4), *((at, 5) for at in SAVED)):
        three(bench)
        at = body_start(3, 1) + offset
        old = int.from_bytes(bench.buffer[at : at + size], "little")
        free = 0x80000000 if size == 4 else 0xF800000000
        poke_number(bench, at, size, old | free)
        used(bench)
    three(bench)
    bench.poke(body_start(3, 1) + MARKS, bytes([255] * 4))
    bench.poke(body_start(3, 1) + SAVED[0], bytes([255] * 26))
    used(bench)


def values_that_nobody_has(bench):
    """A position, or a saved one, whose mark says that there is none: it reads as zeros, and a step writes it so."""
    for at, size, bit in ((MARKS, 4, 24), *((at, 5, 34) for at in SAVED)):
        three(bench)
        start = body_start(3, 0) + at
        old = int.from_bytes(bench.buffer[start : start + size], "little")
        poke_number(bench, start, size, old & ~(1 << bit))
        bench.look_up(I | ONE)
        bench.receive(velocity(TRANSPONDER, ONE, 5, 5), 5_400)
        bench.whole()
        bench.receive(airborne(TRANSPONDER, ONE, ODD, NEAR), 5_500)
        bench.receive(surface(TRANSPONDER, ONE, ODD, NEAR), 5_600)
        seen(bench)


def foreign_types(bench):
    """An ME of each TYPE and subtype in each group: if not of the group it is 'none heard', and a step writes it so."""
    bench.set_up(1)
    poke_number(bench, key_at(0), 4, I | 1)
    poke_number(bench, body_start(1, 0) + 8, 7, 0x9F000000123456)
    bench.look_up(I | 1)
    for top in range(256):
        me = top << 48 | 0x123456
        bench.set_up(1)
        poke_place(bench, 1, 0, I | ONE, Track(identification=me, velocity=me, surface=me, status=me))
        bench.look_up(I | ONE)
        bench.receive(airborne(TRANSPONDER, ONE, EVEN, HERE), 1_000)
        bench.whole()


def twins(bench):
    """Twins of a key: the lowest held one is the track; a free place below it is not taken."""
    for first, second in ((5_000, 5_001), (5_001, 5_000), (0, 130_000), (130_000, 0), (0, 0), (LAST, 130_000)):
        for places in (2, 3, 4):
            bench.set_up(places)
            poke_number(bench, 0, 8, 130_000)
            one = Track(heard=first, identification=1 << 51, position=Position(1, *HERE, 129_000))
            two = Track(heard=second, identification=2 << 51, position=Position(1, *NEAR, 129_000))
            poke_place(bench, places, places - 2, I | ONE, one)
            poke_place(bench, places, places - 1, I | ONE, two)
            seen(bench)
            bench.look_up(I | ONE)
            bench.next(0, I | ONE, (I | ONE) - 1)
            bench.receive(airborne(TRANSPONDER, ONE, ODD, NEAR), 130_000)
            bench.receive(airborne(TRANSPONDER, TWO, ODD, NEAR), 130_000)
            seen(bench)
            bench.receive(airborne(TRANSPONDER, ONE, EVEN, NEAR), 254_999)
            bench.receive(airborne(TRANSPONDER, ONE, EVEN, NEAR), 255_000)
            seen(bench)


def times_after_the_clock(bench):
    """A time after the clock has age 0: last heard, position, partner."""
    for later in (5_401, 10**6, 2**63, LAST):
        for offset in (HEARD, TIME, *(at + 5 for at in SAVED)):
            three(bench)
            poke_number(bench, body_start(3, 0) + offset, 8, later)
            bench.look_up(I | ONE)
            bench.receive(airborne(TRANSPONDER, ONE, EVEN, NEAR), 130_500)
            bench.receive(airborne(TRANSPONDER, ONE, ODD, NEAR), 200_000)
            bench.receive(surface(TRANSPONDER, ONE, ODD, NEAR), 320_001)
            seen(bench)


def odd_sites(bench):
    """The site's number at the edges of its range; above it there is none."""
    numbers = (0, 1, 2, POLE, POLE + 1, 2**31, 2**31 + 1, 2**31 + 2, 2**32 - 1)
    for number, longitude in product(numbers, (0, 2**32 - 1)):
        bench.set_up(1)
        poke_number(bench, 8, 4, number)
        poke_number(bench, 12, 4, longitude)
        bench.receive(surface(TRANSPONDER, ONE, EVEN, HERE), 9)
        bench.receive(surface(TRANSPONDER, ONE, ODD, HERE), 9)
        seen(bench)


def late_clocks(bench):
    """A clock at its last value."""
    three(bench)
    poke_number(bench, 0, 8, LAST)
    seen(bench)
    for time in (0, LAST - 1, LAST):
        bench.receive(airborne(TRANSPONDER, ONE, EVEN, NEAR), time)
    seen(bench)


def random_bytes(bench):
    """Tables of random bytes; then with keys that are in range, and a clock that has not passed."""
    chance = Random(41)
    for places in (1, 1, 1, 2, 2, 3, 5, 16, 40, 256, 1024):
        bench.fill(length_of(places), chance.getrandbits(32))
        bench.walk()
        bench.whole()
        clock = int.from_bytes(bench.buffer[:8], "little")
        for _ in range(6):
            bench.receive(random_valid(chance), chance.choice((clock, clock - 1, min(LAST, clock + 5))))
        bench.walk()
        bench.whole()
        poke_number(bench, 0, 8, chance.choice((0, 2**62)))
        keys = b"".join(chance.randrange(I, T).to_bytes(4, "little") for _ in range(min(places, 48)))
        bench.poke(key_at(0), keys)
        bench.walk()
        for at in range(0, min(len(keys), 80), 4):
            key = int.from_bytes(keys[at : at + 4], "little")
            head = OTHER if key >= O else TRANSPONDER
            bench.look_up(key)
            bench.receive(random_message(chance, head, key % 2**24, moved(chance, HERE)), 2**62 + at)
        bench.walk()
        bench.whole()
    for length in (length_of(1) - 1, length_of(1) + 1, length_of(256) + 1):
        bench.fill(length, chance.getrandbits(32))
        bench.walk()
        bench.receive(random_valid(chance), LAST)
        bench.whole()


# TYPE 0: an aircraft that does not know its position


def every_value(bench, head, aa, place, time):
    """A track that has every value: each group, a height, a position and both saved ones. It ends 600 later."""
    bench.receive(surface(head, aa, EVEN, place), time)
    bench.receive(identification(head, aa, "GLIDER"), time)
    bench.receive(velocity(head, aa, 40, -30, 128), time)
    bench.receive(airborne(head, aa, EVEN, place, 20, 1234), time + 100)
    bench.receive(airborne(head, aa, ODD, place, 11, 888), time + 600)


def every_altitude(bench):
    """Each class of altitude after a known one, after an unknown one and after all zeros: of a field that is zero it stays."""
    for head in HEADS:
        bench.set_up_at(2, NEAR)
        every_value(bench, OTHER if head != OTHER else TRANSPONDER, ONE, NEAR, 0)
        every_value(bench, head, ONE, HERE, 1_000)
        time = 2_000
        for before, code in product((888, 2688, 0), altitude_codes()):
            bench.receive(airborne(head, ONE, time // 400 % 2, HERE, 12, before), time)
            bench.receive(no_position(head, ONE, code), time + 200)
            time += 400
        seen(bench)
    bench.set_up(1)
    every_value(bench, TRANSPONDER, ONE, HERE, 0)
    for time, code in enumerate((0, 16, 0, 2688, 0, 4095, 5, 0, 888, 0), 10):
        bench.receive(no_position(TRANSPONDER, ONE, code), 100 * time)
        seen(bench)


def nothing_else(bench):
    """Each bit of TYPE 0, and all of them, in a track that has every value: but for last heard and the altitude all stays."""
    bench.set_up_at(1, NEAR)
    every_value(bench, TRANSPONDER, ONE, HERE, 0)
    for place, rest in enumerate((0, 2**51 - 1, *(1 << bit for bit in range(51))), 1):
        bench.receive(sealed_message(17, 5, ONE, 0, rest), 1_000 * place)
        bench.whole()
    bench.walk()


def pairs_across(bench):
    """An even and an odd message pair across a TYPE 0, which is itself neither: whatever its F, its counts and its time."""
    counts = [(0, 0), (65536, 65536), (49152, 32768), (131_071, 131_071)]
    for first, i, (latitude, longitude), altitude in product(BOTH, BOTH, counts, (0, 888)):
        lost = no_position(TRANSPONDER, ONE, altitude, F=i, latitude=latitude, longitude=longitude)
        for gap in (10_000, 10_001):
            bench.set_up(1)
            bench.receive(airborne(TRANSPONDER, ONE, first, HERE), 1_000)
            bench.receive(lost, 5_000)
            bench.receive(airborne(TRANSPONDER, ONE, 1 - first, HERE), 1_000 + gap)
            bench.receive(lost, 1_000 + gap)
            seen(bench)
    for first in BOTH:  # nor does it pair with what was sent at another time, or with another TYPE 0
        bench.set_up(1)
        bench.receive(identification(TRANSPONDER, ONE, "GLIDER"), 500)
        for i, (latitude, longitude) in enumerate(counts[1:3]):
            bench.receive(no_position(TRANSPONDER, ONE, 888, F=first ^ i, latitude=latitude, longitude=longitude), 1_000)
        bench.walk()
        bench.receive(airborne(TRANSPONDER, ONE, first, HERE), 1_400)
        seen(bench)


def never_read_singly(bench):
    """A position and its time stay, with a site and without; and they grow old, however often TYPE 0 refreshes the track."""
    for site, i, gap in product((None, NEAR), BOTH, (0, 119_999, 120_000, 120_001)):
        new(bench, 1, site)
        both(bench, ONE, HERE, 1_000)
        for time in range(1_400, 1_400 + gap + 1, 40_000):
            bench.receive(no_position(TRANSPONDER, ONE, 900, F=i, latitude=5, longitude=6), time)
        bench.receive(no_position(TRANSPONDER, ONE, 0, F=1 - i), 1_400 + gap)
        bench.walk()
        made = surface if i else airborne
        bench.receive(made(TRANSPONDER, ONE, EVEN, NEAR), 1_400 + gap)
        seen(bench)


def it_refreshes(bench):
    """TYPE 0 refreshes its track, altitude or not, and that alone: held at 124,999 after it, gone at 125,000."""
    for altitude, gap in product((0, 888, 2688), (124_998, 124_999, 125_000, 125_001)):
        bench.set_up(3)
        both(bench, TWO, HERE, 0)
        both(bench, ONE, HERE, 600)
        bench.receive(no_position(TRANSPONDER, ONE, altitude), 100_000)
        bench.walk()
        bench.receive(no_position(OTHER, THREE, 0), 100_000 + gap)  # 12, of nobody
        bench.look_up(I | ONE, I | TWO, O | THREE)
        bench.receive(no_position(TRANSPONDER, ONE, altitude), 100_000 + gap)
        seen(bench)
        bench.receive(identification(OTHER, THREE, "NEW"), 100_000 + gap)
        seen(bench)


def it_starts_nothing(bench):
    """12 for a key that is not held: in an empty table, beside others, in a full one, and of the other kind."""
    for places, held in ((1, 0), (1, 1), (2, 1), (2, 2), (3, 2)):
        for head, aa, altitude in product(HEADS, (ONE, TWO), (0, 888)):
            bench.set_up(places)
            for who in range(held):
                both(bench, ONE, (-HERE[0], who), 1_000 * who, (TRANSPONDER, OTHER)[who])
            bench.receive(no_position(head, aa, altitude), 5_000)
            bench.look_up(I | ONE, O | ONE, I | TWO, O | TWO)
            seen(bench)
            bench.receive(airborne(head, aa, ODD, HERE), 6_000)  # a newcomer still finds the lowest place, or 6
            bench.receive(no_position(head, aa, altitude, F=EVEN), 6_000)
            seen(bench)


def twelve_refreshes_nothing(bench):
    """12 moves the clock, so that stale tracks go; its own that this very call makes stale is not held. It refreshes none."""
    for places, gap in product((1, 2), (124_999, 125_000, 125_001)):
        bench.set_up(places)
        both(bench, ONE, HERE, 600)
        bench.receive(no_position(OTHER, ONE), 100_000)
        bench.receive(no_position(TRANSPONDER, TWO), 100_000)
        bench.receive(no_position(TRANSPONDER, ONE, 16), 99_999)  # late: 2
        bench.walk()
        bench.receive(no_position(TRANSPONDER, ONE, 16), 1_000 + gap)
        seen(bench)
        bench.receive(no_position(TRANSPONDER, ONE, 0), 1_000 + gap)
        bench.receive(newcomer(OTHER, THREE), 1_000 + gap)
        seen(bench)


def order_of_twelve(bench):
    """Every set of faults of a TYPE 0 whose key is not held: 1, 7, 2, 3, 4, then 12, full or not; and held it is accepted."""
    for faults in product((False, True), repeat=7):
        bad_length, bad_table, late, bad_parity, bad_df, full, held = faults
        bench.set_up(1)
        bench.receive(identification(TRANSPONDER, TWO if held else ONE, "EZY85MH"), 1_000 if full else 0)
        bench.receive(damaged(bytes(14)), 125_000)
        if bad_table:
            bench.lend(length_of(1) - 1)
        string = sealed_message(*((18, 4) if bad_df else (17, 2)), TWO, 0, 888 << 36)
        string = damaged(string) if bad_parity else string
        bench.receive(string[:13] if bad_length else string, 124_999 if late else 125_999)
        bench.lend(length_of(1))
        seen(bench)


def lost_in_a_crowd(bench):
    """256 and 1,024 places, all held by keys that were poked: TYPE 0 of the first, the last, and of strangers."""
    for places in (256, 1024):
        bench.set_up(places)
        keys = b"".join((I | place + 1).to_bytes(4, "little") for place in range(places))
        for at in range(0, len(keys), 128):
            bench.poke(key_at(0) + at, keys[at : at + 128])
        for time, aa in enumerate((0, 1, places // 2, places, places + 1)):
            bench.receive(no_position(TRANSPONDER, aa, 888), time)
            bench.receive(no_position(OTHER, aa, 888), time)
        bench.receive(newcomer(OTHER, 1), 9)
        bench.whole()
        poke_number(bench, key_at(places - 1), 4, 0)  # the last place is free, and stays so
        bench.receive(no_position(TRANSPONDER, places, 888), 9)
        bench.receive(no_position(OTHER, 1, 888), 9)
        bench.whole()
        bench.look_up(I | places, O | 1)


def lost_in_any_table(bench):
    """TYPE 0 in tables that no set-up made: any tracks, stepped; twins; a free twin; a place with a value out of its range."""
    chance = Random(32)
    for _ in range(120):
        clock = chance.choice((0, 5, 130_000, 10**9, LAST - 5))
        new(bench, 1, chance.choice((None, HERE)))
        time = min(LAST, clock + chance.choice((0, 0, 1, 5)))
        poke_number(bench, 0, 8, clock)
        poke_place(bench, 1, 0, I | ONE, random_track(chance, time))
        bench.look_up(I | ONE)
        bench.receive(random_no_position(chance, TRANSPONDER, ONE), time)
        bench.whole()
    for first, second in ((5_000, 5_001), (0, 130_000), (130_000, 0), (0, 0), (LAST, 130_000)):
        bench.set_up(3)
        poke_number(bench, 0, 8, 130_000)
        for place, heard_at in ((1, first), (2, second)):
            poke_place(bench, 3, place, I | ONE, Track(heard=heard_at, pressure=77, position=Position(1, *HERE, 129_000)))
        bench.receive(no_position(TRANSPONDER, ONE, 888), 130_000)
        bench.receive(no_position(TRANSPONDER, ONE, 0), 130_001)
        seen(bench)
    for at, size, number in ((key_at(0), 4, ONE), (body_start(3, 0) + LATITUDE, 4, 2**31 + 1)):
        three(bench)
        poke_number(bench, at, size, number)
        bench.receive(no_position(TRANSPONDER, ONE, 16), 6_000)
        seen(bench)


# A ground station's traffic service

EVERY_TYPE = [*((type_code, 0) for type_code in range(23) if type_code != 19), *((19, subtype) for subtype in (1, 2, 3, 4))]


def of_type(head, aa, type_code, subtype, rest=12345):
    """A message of a TYPE, and of TYPE 19 of a subtype."""
    return of_head(head, aa, type_code, subtype << 48 | rest)


def not_positions(head, aa):
    """A message of each sort that is no position message."""
    yield identification(head, aa, "KLM1023")
    yield velocity(head, aa, 40, -30, 128)
    yield message(head, aa, 19, subtype=3)
    yield from (no_position(head, aa, code) for code in (0, 888))


def every_kind(bench):
    """One address of each kind is five tracks, in the order I O T M N whatever the order in which they come."""
    heads = [*FIVE]
    for order in (heads, heads[::-1], [ICAO, TRANSPONDER, ANOTHER, MODE_A, OTHER]):
        bench.set_up_at(7, HERE)
        for time, head in enumerate(order):
            both(bench, ONE, (HERE[0] + time * 2**24, HERE[1]), 1_000 * time, head)
            bench.look_up(*(kind | ONE for kind in FIVE.values()))
        for head, aa in ((MODE_A, 0), (ANOTHER, 2**24 - 1), (ICAO, 0)):
            bench.receive(surface(head, aa, EVEN, NEAR), 9_000)
        seen(bench)
        bench.next(0, *(key for kind in (*FIVE.values(), END) for key in (kind - 1, kind, kind | ONE)), 2**32 - 1)


def kinds_apart(bench):
    """An even and an odd message of one address pair just where their kinds are one; nor is one read by another's position."""
    for first, one, other in product(BOTH, FIVE, FIVE):
        bench.set_up(2)
        bench.receive(airborne(one, ONE, first, HERE), 1_000)
        bench.receive(airborne(other, ONE, 1 - first, HERE), 1_400)
        seen(bench)
        if first == EVEN:
            both(bench, ONE, HERE, 20_000, one)
            bench.receive(airborne(other, ONE, EVEN, NEAR), 40_000)
            bench.receive(surface(other, ONE, ODD, NEAR), 41_000)
            seen(bench)


def flag_of_each_layout(bench):
    """ME bits 21, 8 and 9, set or not: that of the layout makes M of CF 2 and earns 5 under CF 5; of DF 17 none counts."""
    some = [(1, 0), (4, 0), (5, 0), (8, 0), (0, 0), (9, 0), (18, 0), (20, 0), (22, 0), (19, 1), (19, 2), (19, 3), (19, 4)]
    for head, (type_code, subtype) in product(((18, 2), (18, 5), (17, 2), (17, 5)), some):
        bench.set_up(5)
        for kind in FIVE:
            bench.receive(airborne(kind, ONE, EVEN, HERE), 1_000)
        for bits in product((0, 1), repeat=3):
            rest = sum(bit * flag for bit, flag in zip(bits, FLAGS))
            rest = rest % 2**48 | subtype << 48 if subtype else rest
            bench.receive(sealed_message(*head, ONE, type_code, rest), 2_000)
        bench.whole()


def what_starts(bench):
    """Each TYPE of each kind for a key that is not held, in an empty table and in a full one: starts, 12 or 6."""
    for head, (type_code, subtype), full in product(FIVE, EVERY_TYPE, (False, True)):
        bench.set_up(1)
        if full:
            bench.receive(airborne(TRANSPONDER, TWO, EVEN, HERE), 500)
        bench.receive(of_type(head, ONE, type_code, subtype), 1_000)
        bench.whole()


def beside_its_twins(bench):
    """What starts a track beside four of the same address, with a place left or none; and once it is held, all is taken."""
    for head, places in product(FIVE, (4, 5)):
        bench.set_up(places)
        for other in FIVE:
            if other != head:
                bench.receive(airborne(other, ONE, EVEN, HERE), 1_000)
        strings = [*not_positions(head, ONE), airborne(head, ONE, ODD, HERE), *not_positions(head, ONE)]
        for time, string in enumerate(strings if head in GROUND else strings[3:]):
            bench.receive(string, 2_000 + time)
            bench.walk()
        bench.whole()


def traffic_refreshes(bench):
    """Every message of its kind refreshes a track that is held; 5 and 12 refresh none, an identification none of kind M."""
    for head, gap in product(GROUND, (124_999, 125_000)):
        positions = [airborne(head, ONE, EVEN, NEAR), surface(head, ONE, ODD, NEAR)]
        reserved = sealed_message(18, 5, ONE, 11, FLAGS[1])
        for string in (*not_positions(head, ONE), *positions, reserved, *not_positions(OTHER, ONE)):
            bench.set_up(3)
            both(bench, ONE, HERE, 600, head)
            bench.receive(string, 100_000)
            bench.walk()
            bench.receive(airborne(TRANSPONDER, TWO, EVEN, HERE), 100_000 + gap)
            bench.look_up(FIVE[head] | ONE)
            bench.receive(string, 100_000 + gap)
            seen(bench)


def order_of_traffic(bench):
    """Every set of faults of a message with CF 5: 2, 3, 4, 5, then 12, or 6 for a position message, and what each leaves."""
    for faults in product((False, True), repeat=7):
        late, bad_parity, bad_cf, reserved, position, full, held = faults
        bench.set_up(1)
        bench.receive(airborne(ANOTHER, TWO if held else ONE, EVEN, HERE), 1_000 if full else 0)
        bench.receive(damaged(bytes(14)), 125_000)
        rest = (FLAGS[1] if position else FLAGS[2]) * reserved
        type_code, rest = (11, rest | 12345) if position else (19, rest | 1 << 48)
        string = sealed_message(18, 6 if bad_cf else 5, TWO, type_code, rest)
        bench.receive(damaged(string) if bad_parity else string, 124_999 if late else 125_999)
        seen(bench)


def traffic_ages(bench):
    """The ages of a partner and of a reference are those of other kinds: 10,000, and 120,000 with a site and without."""
    for head, first, gap in product(GROUND, BOTH, (0, 10_000, 10_001)):
        bench.set_up(1)
        bench.receive(airborne(head, ONE, first, HERE), 1_000)
        bench.receive(airborne(head, ONE, 1 - first, HERE), 1_000 + gap)
        seen(bench)
    for head, gap, site, made in product(GROUND, (120_000, 120_001), (None, NEAR), (airborne, surface)):
        new(bench, 1, site)
        both(bench, ONE, HERE, 1_000, head)
        kept(bench, ONE, 1_400, 1_400 + gap, head)
        bench.receive(made(head, ONE, EVEN, NEAR), 1_400 + gap)
        seen(bench)


def groups_of_traffic(bench):
    """Each TYPE in one track of each kind, in several orders; then TYPE 0 with any bits, which leaves all but the altitude."""
    chance = Random(24)
    for head in GROUND:
        bench.set_up_at(2, NEAR)
        types, time = [*EVERY_TYPE] * 2, 0
        chance.shuffle(types)
        for type_code, subtype in ((11, 0), *types):
            time += chance.randrange(3_000)
            rest = chance.getrandbits(48 if type_code == 19 else 51)
            bench.receive(of_type(head, ONE, type_code, subtype, rest), time)
        seen(bench)
        every_value(bench, head, ONE, HERE, time)
        for code in altitude_codes():
            time += 1_000
            bench.receive(of_head(head, ONE, 0, chance.getrandbits(51) & ~(4095 << 36) | code << 36), time)
        seen(bench)


def crowd_of_traffic(bench):
    """256 and 1,024 places, all held by keys of T, M and N that were poked: who is held, and strangers, 6 and 12."""
    for places in (256, 1024):
        bench.set_up(places)
        keys = b"".join((FIVE[GROUND[place % 3]] | place).to_bytes(4, "little") for place in range(places))
        for at in range(0, len(keys), 128):
            bench.poke(key_at(0) + at, keys[at : at + 128])
        for head, aa in product(GROUND, (0, 1, 2, places - 1, places)):
            bench.receive(velocity(head, aa, 1, 1), 5)
            bench.receive(airborne(head, aa, EVEN, HERE), 5)
        bench.whole()
        poke_number(bench, key_at(places - 1), 4, 0)  # the last place is free
        for string in (*not_positions(ICAO, places), surface(ICAO, places, EVEN, HERE), *not_positions(ICAO, places)):
            bench.receive(string, 9)
        bench.whole()
        bench.next(0, I, T - 1, T, T | places - 3, M, N, N | places, END - 1)


def edges_of_kinds(bench):
    """A table of three places with one key at an edge of a kind; from 6 x 2^24 on it is out of its range."""
    for place, key in product(range(3), (M | ONE, N | ONE, END | ONE, T, M - 1, M, N - 1, N, END - 1, END)):
        three(bench)
        poke_number(bench, key_at(place), 4, key)
        seen(bench)
        bench.look_up(key)
        for head in FIVE:
            bench.receive(velocity(head, key % 2**24, 5, 5), 6_000)
        seen(bench)


def any_traffic_stepped(bench):
    """Tracks of any values, of kinds T, M and N, each stepped by one message."""
    chance = Random(33)
    for _ in range(120):
        clock, head = chance.choice((0, 130_000, 10**9, LAST - 5)), chance.choice(GROUND)
        new(bench, 1, chance.choice((None, HERE)))
        poke_number(bench, 0, 8, clock)
        track = random_track(chance, clock)
        poke_place(bench, 1, 0, FIVE[head] | ONE, track)
        spot = moved(chance, (track.position.latitude, track.position.longitude))
        string = random_message(chance, head, ONE, spot) if chance.randrange(4) else random_no_position(chance, head, ONE)
        bench.receive(string, min(LAST, clock + chance.choice((0, 1, 5))))
        bench.whole()


# Operational status


def every_status(head, aa):
    """A status of each version and subtype, with supplements and without; and the published ones, under DF 17."""
    for version, subtype, bit in product(range(8), (0, 1), (0, 1)):
        yield status(head, aa, version, subtype, bit, bit)
    if (head, aa) == (TRANSPONDER, ONE):
        yield from (bytes.fromhex(text) for text, _ in published.STATUS_ROWS)


def status_starts(bench):
    """A status alone starts a track of kind I or O, and is written again to its 14 bytes; in a full table it earns 6."""
    for head in HEADS:
        for string in every_status(head, ONE):
            bench.set_up(1)
            bench.receive(string, 1_000)
            bench.look_up(I | ONE, O | ONE)
            bench.whole()
            bench.receive(status(OTHER, TWO, 2), 1_000)
        seen(bench)


def status_not_taken(bench):
    """5 for subtypes 2-7, and under CF 2 and 5 for any: the clock moves, so that stale tracks go, and no track is started or refreshed."""
    heads = [*HEADS, (18, 2), (18, 5), (18, 3)]  # the last earns 4
    for head, subtype, end in product(heads, range(8), (125_599, 125_600)):
        bench.set_up(2)
        both(bench, ONE, HERE, 200, ICAO)
        bench.receive(airborne(OTHER, ONE, EVEN, HERE), 600)
        for rest in (0, 2**48 - 1):
            bench.receive(sealed_message(*head, ONE, 31, subtype << 48 | rest), end)
        seen(bench)


def status_and_nothing_else(bench):
    """Each bit of a status in a track that has every value: the status is replaced whole, and but for last heard all else stays."""
    for head in HEADS:
        bench.set_up_at(1, NEAR)
        every_value(bench, head, ONE, HERE, 0)
        for place, subtype in product(range(48), (0, 1)):
            bench.receive(sealed_message(*head, ONE, 31, subtype << 48 | 1 << place), 1_000 + 400 * place)
        bench.whole()
        for string in every_status(head, ONE):
            bench.receive(string, 30_000)
        seen(bench)


def type_of_the_latest(bench):
    """Each TYPE of a position message with ME bit 8 set and not, whether it gives a position or not; no other message changes either."""
    for head, site in product(HEADS, (None, NEAR)):
        new(bench, 1, site)
        time = 0
        for type_code, bit in product((*range(5, 19), 20, 21, 22), (0, 1)):
            time += 12_000
            bench.receive(of_head(head, ONE, type_code, bit << 48 | 12345), time)
            others = identification(head, ONE, "TYPES"), velocity(head, ONE, 1, 2), status(head, ONE, 2, 1, 1, 1)
            for string in (*others, no_position(head, ONE, 888), of_head(head, ONE, 0, 2**51 - 1)):
                bench.receive(string, time)
        seen(bench)
        bench.receive(of_head(head, ONE, 11, 1 << 48), time)
        bench.receive(surface(head, ONE, EVEN, NEAR), time)
        seen(bench)


def type_of_traffic(bench):
    """Of T, M and N too, where ME bit 8 is the flag; a status is none of theirs."""
    for head in GROUND:
        bench.set_up(2)
        for time, type_code in enumerate((*range(9, 19), 20, 21, 22, *range(5, 9))):
            bench.receive(of_head(head, ONE, type_code, 12345), time)
        for subtype in range(8):
            bench.receive(sealed_message(*head[:2], ONE, 31, subtype << 48), 20)
        seen(bench)


def versions_apart(bench):
    """A status is of its key alone: of the other kinds of its address, and of others, nothing changes."""
    bench.set_up_at(7, HERE)
    for head in FIVE:
        both(bench, ONE, HERE, 1_000, head)
    both(bench, TWO, NEAR, 1_400)
    for time, (head, aa) in enumerate(product(HEADS, (ONE, TWO))):
        bench.receive(status(head, aa, 1 + time % 2, time % 2, 1, 1), 2_000 + time)
        seen(bench)


def pairs_across_status(bench):
    """An even and an odd message pair across a status, which is no position message; nor does it refresh a position."""
    for first, subtype, gap in product(BOTH, (0, 1), (10_000, 10_001)):
        bench.set_up_at(1, NEAR)
        bench.receive(airborne(TRANSPONDER, ONE, first, HERE), 1_000)
        bench.receive(status(TRANSPONDER, ONE, 2, subtype, 1, 1), 5_000)
        bench.receive(airborne(TRANSPONDER, ONE, 1 - first, HERE), 1_000 + gap)
        seen(bench)
    for site, gap, made in product((None, NEAR), (120_000, 120_001), (airborne, surface)):
        new(bench, 1, site)
        both(bench, ONE, HERE, 1_000)
        for time in range(1_400, 1_400 + gap + 1, 40_000):
            bench.receive(status(TRANSPONDER, ONE, 2, a=1), time)
        bench.receive(made(TRANSPONDER, ONE, EVEN, NEAR), 1_400 + gap)
        seen(bench)


def status_refreshes(bench):
    """It refreshes its own track, as any other: held at 124,999 after it, gone at 125,000, and then it starts anew."""
    for head, gap in product((TRANSPONDER, OTHER), (124_999, 125_000)):
        bench.set_up(3)
        every_value(bench, head, ONE, HERE, 0)
        bench.receive(status(head, ONE, 1, 1, 1, 1), 100_000)
        bench.receive(status(head, TWO, 2), 100_000 + gap)
        bench.look_up(I | ONE, O | ONE)
        bench.receive(status(head, ONE, 0), 100_000 + gap)
        seen(bench)


def order_of_status(bench):
    """Every set of faults of a status: 1, 7, 2, 3, 4, 5, then 6 for a key that is not held; and what each leaves."""
    for faults in product((False, True), repeat=8):
        bad_length, bad_table, late, bad_parity, bad_cf, bad_subtype, full, held = faults
        bench.set_up(1)
        bench.receive(identification(OTHER, TWO if held else ONE, "EZY85MH"), 1_000 if full else 0)
        bench.receive(damaged(bytes(14)), 125_000)
        if bad_table:
            bench.lend(length_of(1) - 1)
        string = sealed_message(18, 4 if bad_cf else 1, TWO, 31, (2 if bad_subtype else 1) << 48 | 0b0101 << 12)
        string = damaged(string) if bad_parity else string
        bench.receive(string[:13] if bad_length else string, 124_999 if late else 125_999)
        bench.lend(length_of(1))
        seen(bench)


def types_in_the_marks(bench):
    """Each TYPE and bit 8 in the bytes, also a TYPE that no position has: they are read and written again as they are."""
    for type_code, bit, known in product(range(32), (0, 1), (0, 1)):
        bench.set_up(1)
        track = Track(status=31 << 51 | 0b0101 << 12, pressure=4095, height=0, typecode=type_code, bit8=bit, position=Position(known, *HERE, 5))
        poke_place(bench, 1, 0, O | ONE, track)
        bench.look_up(O | ONE)
        for string in (velocity(OTHER, ONE, 5, 5), status(OTHER, ONE, 1), airborne(OTHER, ONE, EVEN, NEAR), surface(OTHER, ONE, EVEN, NEAR)):
            bench.receive(string, 1_000)
            bench.whole()


def earlier_lengths(bench):
    """7 for the lengths that tables of 1, 2, 256 and 1,024 places had before a track kept its status: 79 bytes a place."""
    for places in (1, 2, 256, 1024):
        bench.set_up_bytes(16 + 79 * places)
        bench.receive(status(OTHER, TWO, 2), 77)
        bench.look_up(O | TWO)
        bench.walk()


def any_status_stepped(bench):
    """Tracks of any values, a status among them, each stepped by one message of any sort."""
    chance = Random(34)
    for _ in range(250):
        clock, head = chance.choice((0, 130_000, 10**9, LAST - 5)), chance.choice([*FIVE])
        new(bench, 1, chance.choice((None, HERE)))
        poke_number(bench, 0, 8, clock)
        track = with_status(chance, random_track(chance, clock))
        poke_place(bench, 1, 0, FIVE[head] | ONE, track)
        bench.look_up(FIVE[head] | ONE)
        spot = moved(chance, (track.position.latitude, track.position.longitude))
        told = chance.randrange(3) == 0 and head in HEADS
        string = random_status(chance, head, ONE) if told else random_message(chance, head, ONE, spot)
        bench.receive(string, min(LAST, clock + chance.choice((0, 1, 5))))
        bench.whole()


# Coarse messages

C_ONE = key_for(C, ONE, 0, 3)  # the key of a coarse message where nothing else is said
SENDERS = (0, 0), (0, 3), (0, 15), (1, 0), (1, 3), (1, 15)  # flag and station


def coarse_pair(bench, aa, place, time, **sender):
    """An even and an odd coarse message from a place, 400 apart."""
    bench.receive(coarse(aa, EVEN, place, **sender), time)
    bench.receive(coarse(aa, ODD, place, **sender), time + 400)


def coarse_ages(bench):
    """The partner at 10,000 and 10,001, the reference at 120,000 and 120,001, the track at 124,999 and 125,000; no site is used."""
    for first, gap in product(BOTH, (0, 1, 9_999, 10_000, 10_001, 60_000)):
        bench.set_up_at(1, NEAR)
        bench.receive(coarse(ONE, first, HERE), 1_000)
        bench.receive(coarse(ONE, 1 - first, HERE), 1_000 + gap)
        bench.receive(coarse(ONE, first, NEAR), 20_000 + gap)
        seen(bench)
    for gap, site in product((119_999, 120_000, 120_001, 124_999, 125_000), (None, NEAR)):
        new(bench, 1, site)
        coarse_pair(bench, ONE, HERE, 1_000)
        bench.receive(coarse(ONE, EVEN, NEAR), 1_400 + gap)
        bench.look_up(C_ONE)
        seen(bench)


def stations_apart(bench):
    """One address of two stations, of two flags, and of each other kind: a track each, none paired with another; all walked in order."""
    for one, other in product(SENDERS, SENDERS):
        bench.set_up(2)
        bench.receive(coarse(ONE, EVEN, HERE, one[1], one[0]), 1_000)
        bench.receive(coarse(ONE, ODD, HERE, other[1], other[0]), 1_400)
        seen(bench)
    bench.set_up(24)
    for k, (flag, station) in enumerate(reversed(SENDERS)):
        coarse_pair(bench, ONE, HERE, 1_000 + 500 * k, station=station, flag=flag)
        coarse_pair(bench, THREE, NEAR, 1_000 + 500 * k, station=station, flag=flag)
    for head in FIVE:
        bench.receive(airborne(head, ONE, EVEN, HERE), 9_000)
    keys = [key_for(C, aa, *sender) for aa in (THREE, ONE) for sender in SENDERS]
    bench.next(0, I | ONE, N | ONE, END - 1, END, 2**31 - 1, *keys, 2**31 + 2**29 - 1, 2**31 + 2**29, 2**32 - 1)
    bench.look_up(*keys, *(key + 1 for key in keys), C_ONE & ~(1 << 31))
    seen(bench)


def coarse_bits_alone(bench):
    """Each bit of ME alone, and all but it, in a track that has every value that a coarse message gives; its first bits as TYPE 19 and others."""
    for place in range(56):
        for me in (1 << place, 2**56 - 1 ^ 1 << place):
            bench.set_up(4)
            coarse_pair(bench, ONE, HERE, 1_000)
            bench.receive(coarse_bits(ONE, me), 2_000)
            bench.receive(coarse_bits(ONE, me ^ 1 << 24), 2_400)
            seen(bench)
    for type_code, subtype in product(range(32), (0, 1, 2)):
        bench.set_up(2)
        bench.receive(coarse_bits(ONE, type_code << 51 | subtype << 48 | 888 << 30 | 12345), 1_000)
        seen(bench)


def coarse_in_a_full_table(bench):
    """6 where no place is free, never 12; what is damaged or late, as for others."""
    for faults in product((False, True), repeat=6):
        bad_length, bad_table, late, bad_parity, full, held = faults
        bench.set_up(1)
        bench.receive(coarse(TWO if held else ONE, EVEN, HERE), 1_000 if full else 0)
        bench.receive(damaged(bytes(14)), 125_000)
        if bad_table:
            bench.lend(length_of(1) - 1)
        string = damaged(coarse(TWO, ODD, HERE)) if bad_parity else coarse(TWO, ODD, HERE)
        bench.receive(string[:13] if bad_length else string, 124_999 if late else 125_999)
        bench.lend(length_of(1))
        seen(bench)


def sizes_apart(bench):
    """Saved positions of either size, poked: a partner of the other size is none, and of a coarse count 12 bits are read."""
    for (key, head), coarse_one, wide, i in product(((C_ONE, None), (I | ONE, TRANSPONDER)), (0, 1), (0, 1), BOTH):
        counts = [4096 * wide + count for count in (5, 77)] if coarse_one or wide else [5, 77]
        saved = [Saved(1, *counts, 900, coarse_one), Saved(1, *counts, 950, coarse_one)]
        for position in (Position(), Position(1, *NEAR, 800)):
            bench.set_up(1)
            poke_place(bench, 1, 0, key, Track(heard=1_000, position=position, saved=tuple(saved)))
            bench.look_up(key)
            string = airborne(head, ONE, i, HERE) if head else coarse(ONE, i, HERE)
            bench.receive(string, 1_200)
            seen(bench)


def coarse_marks(bench):
    """Bit 31 of the marks, with any ME as velocity, under each kind; a velocity of TYPE 19 clears it, and other messages leave it."""
    for mark, me in product((0, 1), (0, 1, 7 << 51 | 5, 19 << 51, 19 << 51 | 1 << 48, 2**56 - 1)):
        for key, string in ((C_ONE, coarse(ONE, EVEN, NEAR)), *((FIVE[head] | ONE, airborne(head, ONE, EVEN, NEAR)) for head in FIVE)):
            bench.set_up(1)
            poke_place(bench, 1, 0, key, Track(heard=1_000, velocity=me, coarse=mark, position=Position(1, *HERE, 900)))
            bench.look_up(key)
            bench.receive(string, 1_100)
            seen(bench)
    bench.set_up(1)
    poke_place(bench, 1, 0, I | ONE, Track(heard=1_000, velocity=5, coarse=1))
    bench.receive(velocity(TRANSPONDER, ONE, 3, 4), 1_100)
    seen(bench)


def edges_of_coarse_keys(bench):
    """The first and the last key of each range, and their neighbours, which are none, in a table of three places."""
    keys = [END - 1, END, END + ONE, 2**31 - 1, 2**31, 2**31 + 1, C_ONE, 2**31 + 2**29 - 1, 2**31 + 2**29, 3 * 2**30, 2**32 - 1]
    for place, key in product(range(3), keys):
        three(bench)
        poke_number(bench, key_at(place), 4, key)
        used(bench)
        bench.look_up(key)
        bench.next(key - 1, key)


def any_coarse_stepped(bench):
    """Tracks of any values, coarse or in part, each stepped by a coarse message or another of its kind."""
    chance = Random(35)
    for _ in range(350):
        clock, head = chance.choice((0, 130_000, 10**9, LAST - 5)), chance.choice((None, None, *FIVE))
        new(bench, 1, chance.choice((None, HERE)))
        poke_number(bench, 0, 8, clock)
        track = with_status(chance, random_track(chance, clock))
        for half in BOTH:
            if chance.randrange(3):
                saved = [*track.saved]
                saved[half] = saved[half]._replace(coarse=1, **dict(zip(("latitude", "longitude"), random_counts(chance, 2, COARSE))))
                track = track._replace(saved=tuple(saved))
        track = track._replace(velocity=chance.getrandbits(56), coarse=1) if chance.randrange(3) else track
        key = FIVE[head] | ONE if head else C_ONE
        poke_place(bench, 1, 0, key, track)
        bench.look_up(key)
        spot = moved(chance, (track.position.latitude, track.position.longitude))
        i = chance.choice(BOTH)
        sorts = coarse(ONE, i, spot, speed=chance.getrandbits(6)), coarse_counts(ONE, i, random_counts(chance, 2, COARSE), altitude=chance.getrandbits(12))
        string = random_message(chance, head, ONE, spot) if head else chance.choice(sorts)
        bench.receive(string, min(LAST, clock + chance.choice((0, 1, 5))))
        bench.whole()


def coarse_run(bench, seed, places, steps):
    """Random runs of a few aircraft, of three stations and the other kinds, with faults."""
    chance = Random(seed)
    spots = {aa: (random_latitude(chance), random_longitude(chance)) for aa in chance.sample(range(2**24), places)}
    new(bench, places, chance.choice((None, HERE)))
    time = chance.choice((0, 10**12, 2**63))
    for step in range(steps):
        time += chance.choices(STEPS, WEIGHTS)[0]
        aa, (flag, station) = chance.choice([*spots]), chance.choice(((0, 3), (0, 3), (0, 4), (1, 3)))
        spots[aa] = moved(chance, spots[aa])
        string, fault = coarse(aa, chance.choice(BOTH), spots[aa], station, flag, chance.getrandbits(12)), chance.randrange(12)
        if fault == 0:
            string = flipped(string, chance.randrange(1, 113))
        elif fault == 1:
            string = coarse_bits(aa, chance.getrandbits(56))
        elif fault < 5:
            string = random_message(chance, chance.choice([*FIVE]), aa, spots[aa])
        bench.receive(string, time)
        if step % 8 == 7:
            bench.whole()
    seen(bench)


SCRIPTS = [
    listing_example,
    partner_ages,
    reference_ages,
    holding_ages,
    nothing_refreshes,
    late_messages,
    clock_of_a_stranger,
    surface_and_back,
    surface_beyond_the_pole,
    one_site,
    site_not_used,
    every_group,
    unknown_heights,
    both_kinds,
    zone_edges,
    refused_pairs,
    published_runs,
    order,
    lengths,
    message_lengths,
    full_small,
    any_track_stepped,
    one_value_off,
    off_and_unknown,
    bits_without_value,
    values_that_nobody_has,
    foreign_types,
    twins,
    times_after_the_clock,
    odd_sites,
    late_clocks,
    random_bytes,
]
RANDOM_RUNS = [(51, 1, 100), (52, 2, 150), (53, 3, 150), (54, 4, 150), (55, 8, 200), (56, 2, 150), (57, 5, 150)]
LOST = [
    every_altitude,
    nothing_else,
    pairs_across,
    never_read_singly,
    it_refreshes,
    it_starts_nothing,
    twelve_refreshes_nothing,
    order_of_twelve,
    lost_in_a_crowd,
    lost_in_any_table,
]
LOST_RUNS = [(58, 1, 150), (59, 2, 200), (60, 5, 250)]
TRAFFIC = [
    every_kind,
    kinds_apart,
    flag_of_each_layout,
    what_starts,
    beside_its_twins,
    traffic_refreshes,
    order_of_traffic,
    traffic_ages,
    groups_of_traffic,
    crowd_of_traffic,
    edges_of_kinds,
    any_traffic_stepped,
]
TRAFFIC_RUNS = [(63, 1, 150), (64, 3, 250), (65, 8, 300)]
TOLD = [
    status_starts,
    status_not_taken,
    status_and_nothing_else,
    type_of_the_latest,
    type_of_traffic,
    versions_apart,
    pairs_across_status,
    status_refreshes,
    order_of_status,
    types_in_the_marks,
    earlier_lengths,
    any_status_stepped,
]
TOLD_RUNS = [(66, 1, 150), (67, 3, 250), (68, 8, 300)]
OF_STATIONS = [
    coarse_ages,
    stations_apart,
    coarse_bits_alone,
    coarse_in_a_full_table,
    sizes_apart,
    coarse_marks,
    edges_of_coarse_keys,
    any_coarse_stepped,
]
COARSE_RUNS = [(69, 1, 150), (70, 3, 250), (71, 8, 300)]
EVERY_HEAD, EVERY_WEIGHT = [*HEADS, *GROUND], (3, 1, 2, 4, 4, 4)


def run(bench):
    """All scripts, one after the other, over one buffer."""
    for script in SCRIPTS:
        script(bench)
    for seed, places, steps in RANDOM_RUNS:
        random_run(bench, seed, places, steps)
    full_large(bench, 256, 61)
    full_large(bench, 1024, 62)
    for script in LOST:
        script(bench)
    for seed, places, steps in LOST_RUNS:
        random_run(bench, seed, places, steps, lost=True)
    for script in TRAFFIC:
        script(bench)
    for seed, places, steps in TRAFFIC_RUNS:
        random_run(bench, seed, places, steps, lost=True, heads=EVERY_HEAD, weights=EVERY_WEIGHT)
    return bench


def run_told(bench):
    """The scripts of status, over the same buffer."""
    for script in TOLD:
        script(bench)
    for seed, places, steps in TOLD_RUNS:
        random_run(bench, seed, places, steps, lost=True, heads=EVERY_HEAD, weights=EVERY_WEIGHT, told=True)
    return bench


def run_coarse(bench):
    """The scripts of coarse messages, over the same buffer."""
    for script in OF_STATIONS:
        script(bench)
    for seed, places, steps in COARSE_RUNS:
        coarse_run(bench, seed, places, steps)
    return bench


def cases():
    """Records and their lines; behind those of the table the logs that are replayed, then status in both, then coarse messages in both."""
    bench = run(Bench())
    replays.run(bench)
    run_told(bench)
    replays.status_in_logs(bench)
    run_coarse(bench)
    replays.coarse_in_logs(bench)
    return bench.cases
