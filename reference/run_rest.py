"""Runs what no proved program calls, and compares with the model: the slice form of the table, the reader of a block, a
capture fed as a whole, an identification of any TYPE, a position and a track made by hand.

    python3 reference/run_rest.py

The program is tests/rattle/rest.rattle, which says what the records are that it reads. Nothing proves it; it is built here,
in seconds. The slice form makes every call of table_vectors. Where those lend bytes that are not of whole places, it is
lent 0 places or 1,025, which earn the same 7; where they ask for the remainder of a table's bytes, it says every value
of its head and of its places. Then come values that a struct has room for and bytes have not. The first difference is
named, and the status is 1; so it is if a function never gave an answer that it can give.
"""

import subprocess
import sys
import tempfile
from itertools import product
from pathlib import Path
from random import Random

import captures
import table
import tracks
import unproved
from captures import BLOCK, MOST_RECORDS, block, record_at, records_of
from make_samples import resealed
from messages import encode
from parity import remainder, sealed
from positions import AIRBORNE, COARSE, COUNTS, EVEN, ODD, SURFACE
from positions import encode as counts_of
from programs import ROOT
from refusals import Refused, answer
from run_captures import damaged, random_capture
from table import BODY, KEY, LATITUDE, LONGITUDE, MARKS, POLE, SAVED, TIME, bits, get
from tracks import Position, Saved, Track
from traffic import OTHER, TRANSPONDER, airborne, coarse_bits
from vectors import table_vectors
from vectors.bench import Bench, filling, fours, track_text
from vectors.table_vectors import HERE, LAST, NEAR, ONE, THREE, TWO, I, O, three

MOST = 1025  # the places of the program
NOBODY = bytes(KEY + BODY)
TURNS = 25  # of a reader
RANDOM_CAPTURES = 40
RANDOM_HANDS = 300  # of each kind of call with values made by hand


def eights(*numbers):
    """Numbers of 8 bytes."""
    return b"".join(number.to_bytes(8, "big") for number in numbers)


def site_bytes(known, latitude, longitude):
    """A site, known or not."""
    return bytes([known]) + fours(latitude, longitude)


# A place as a struct, of the bytes of one in a table: every bit that a value has, whatever it means


def signed(number):
    """The number of 32 bits in two's complement. Beyond a pole it stays beyond one."""
    return (number + 2**31) % 2**32 - 2**31


def saved_in(body, at):
    """An encoded position, with its mark or without; of coarse counts 12 bits each, as a struct has to have them."""
    number = get(body, at, 5)
    coarse = bits(number, 35, 35)
    last = 11 if coarse else 16
    return Saved(bits(number, 34, 34), bits(number, 0, last), bits(number, 17, 17 + last), get(body, at + 5, 8), coarse)


def place_in(string):
    """The key and the track of a place. One of zeros is as set-up leaves it."""
    key, body = get(string, 0, KEY), string[KEY:]
    if string == NOBODY:
        return key, Track()
    marks, latitude = get(body, MARKS, 4), signed(get(body, LATITUDE, 4) - POLE)
    position = Position(bits(marks, 24, 24), latitude, get(body, LONGITUDE, 4), get(body, TIME, 8))
    groups = get(body, 0, 8), *(get(body, at, 7) for at in (8, 15, 22, 29))
    of_marks = (bits(marks, first, last) for first, last in ((0, 11), (12, 23), (25, 29), (30, 30)))
    return key, Track(*groups, *of_marks, position, tuple(saved_in(body, at) for at in SAVED), bits(marks, 31, 31))


def timed_bytes(found):
    """A position, or an encoded one, which says its size too."""
    size = bytes([found.coarse]) if isinstance(found, Saved) else b""
    return bytes([found.known]) + size + fours(found.latitude, found.longitude) + eights(found.time)


def track_bytes(track):
    """All values of a track in their order."""
    halves = fours(track.pressure << 16 | track.height) + bytes([track.typecode, track.bit8, track.coarse])
    return eights(*track[:5]) + halves + b"".join(map(timed_bytes, (track.position, *track.saved)))


def place_bytes(key, track):
    """The argument of P."""
    return fours(key) + track_bytes(track)


def head_in(string):
    """The clock and the site of a head: known, latitude, longitude."""
    number = get(string, 8, 4)
    return get(string, 0, 8), (int(number > 0), signed(number - POLE - 1) if number else 0, get(string, 12, 4))


# The calls of table_vectors


class Slices(Bench):
    """The buffer is moved by the model, as in table_vectors; the program holds what its bytes say, as structs."""

    def __init__(self):
        super().__init__()
        self.head, self.places = bytes(table.HEAD), [NOBODY] * MOST  # the bytes of what the program holds, if it is right
        self.known = 0, b""  # what is lent, and the buffer, when that was last looked at
        self.tried = set()

    def say(self, record, line):
        """A record and its answer, which is remembered."""
        words = line.split()
        kind = words[0] if words[0].isalpha() else "a value"
        self.tried.add((record[:1].decode(), f"refused {words[1]}" if kind == "refused" else kind))
        super().say(record, line)

    def count(self):
        """How many places are lent."""
        count, rest = divmod(self.length - table.HEAD, KEY + BODY)
        return count if rest == 0 else MOST * (self.length % 2)

    def lent(self):
        """The bytes of each place that is lent; none where these are not 1 to 1,024."""
        count = self.count() if 1 <= self.count() < MOST else 0
        bodies = table.key_at(count)
        for place in range(count):
            key, body = table.key_at(place), bodies + BODY * place
            yield place, bytes(self.buffer[key : key + KEY] + self.buffer[body : body + BODY])

    def others(self):
        """Those that are not as the program holds them; from now on they are."""
        if self.known == (self.length, self.buffer):
            return
        self.known = self.length, bytes(self.buffer)
        for place, string in self.lent():
            if self.places[place] != string:
                self.places[place] = string
                yield place, string

    def tell(self):
        """Tells the program what has changed in the buffer but by a call."""
        if self.head != self.buffer[: table.HEAD]:
            self.head = bytes(self.buffer[: table.HEAD])
            clock, site = head_in(self.head)
            self.note(b"H" + eights(clock) + site_bytes(*site))
        for place, string in self.others():
            self.note(b"P" + fours(place) + place_bytes(*place_in(string)))

    def ask(self, question, *arguments):
        """Asks the model; what a call changes the program must change itself."""
        self.tell()
        try:
            return super().ask(question, *arguments)
        finally:
            self.head = bytes(self.buffer[: table.HEAD])
            list(self.others())

    def set_up_bytes(self, length, site=None):
        """A set-up; without a site it is one that is not known."""
        self.length = length
        line = self.done(site)
        self.say(b"S" + fours(self.count()) + site_bytes(site is not None, *(site or (0, 0))), line)

    set_up_bytes_at = set_up_bytes

    def lend(self, length):
        """The first places, as they are."""
        self.length = length
        self.note(b"L" + fours(self.count()))

    def poke(self, offset, string):
        """Other bytes, of which the program is told before its next call."""
        self.buffer[offset : offset + len(string)] = string

    def fill(self, length, seed):
        """So many bytes, likewise."""
        self.buffer[:length] = filling(length, seed)
        self.lend(length)

    def walk(self):
        """The clock and the site of the head, which is by value; each key held with its track, and how the walk ends."""
        head = self.buffer[: table.length_of(1)]
        end = self.following(2**32 - 1)
        held = [] if end.startswith("refused") else self.ask(table.walk)
        lines = [f"{table.clock_of(head)} {answer(lambda: table.site_of(head) or '-')}"]
        lines += [f"{key} held {track_text(track)}" for key, track in held]
        self.say(b"W", "\n".join([*lines, end]))

    def whole(self):
        """Every value of the head and of the places."""
        self.tell()
        clock, site = head_in(self.head)
        lines = [" ".join(map(str, (clock, *site)))]
        for key, track in map(place_in, self.places[: self.count()]):
            lines.append(f"{key} {track_text(track)}")
        self.say(b"V", "\n".join(lines))

    # What bytes have no room for

    def put(self, place, key, track, fits):
        """A struct at a place. One with a value out of its range is free, which to the model is a place that nobody has."""
        string = key.to_bytes(KEY, "little") + bytes(table.body_of(track)) if fits else NOBODY
        at, bodies = table.key_at(place), table.key_at(self.count())
        self.tell()
        self.buffer[at : at + KEY] = string[:KEY]
        self.buffer[bodies + BODY * place : bodies + BODY * (place + 1)] = string[KEY:]
        self.places[place] = string
        self.note(b"P" + fours(place) + place_bytes(key, track))

    def set_up_unknown(self, places, site):
        """A site that is not known is not looked at."""
        self.length = table.length_of(places)
        line = self.done()
        self.say(b"S" + fours(places) + site_bytes(0, *site), line)


BEYOND = (POLE + 1, -POLE - 1, 2**31 - 1, -(2**31))
RANGES = [  # the value, those that are in its range, those that are not
    *((name, (0, 1, 2**56 - 1), (2**56, 2**63, 2**64 - 1)) for name in ("identification", "velocity", "surface", "status")),
    *((name, (0, 1, 4095), (4096, 65535)) for name in ("pressure", "height")),
    ("typecode", (0, 1, 31), (32, 255)),
    ("heard", (0, 5_400, 5_401, LAST), ()),
]


def odd_tracks(track):
    """A track with each value in turn at an edge of its range or out of it, and whether it is in it."""
    for name, fitting, others in RANGES:
        for number in (*fitting, *others):
            yield track._replace(**{name: number}), number in fitting
    for known in (0, 1):
        for latitude in (POLE, -POLE, *BEYOND):
            position = track.position._replace(known=known, latitude=latitude)
            yield track._replace(position=position), latitude not in BEYOND
        for half, name, number in product((0, 1), ("latitude", "longitude"), (4_095, 4_096, 131_071, 131_072, 2**32 - 1)):
            for coarse, others in ((0, {}), (1, {"latitude": 5, "longitude": 6})):
                saved = [*track.saved]
                saved[half] = saved[half]._replace(known=known, coarse=coarse, **(others | {name: number}))
                yield track._replace(saved=tuple(saved)), number < (COARSE if coarse else COUNTS)
    for me in (0, 1, 19 << 51 | 1 << 48, 2**56 - 1):
        yield track._replace(velocity=me, coarse=1), True


def odd_places(bench):
    """Three places that are held, one of them with a value at an edge; then a newcomer, and each aircraft again."""
    three(bench)
    first = place_in(dict(bench.lent())[0])[1]
    for place in range(3):
        for track, fits in odd_tracks(first):
            three(bench)
            bench.put(place, I | THREE, track, fits)
            bench.look_up(I | THREE, I | ONE, O | ONE, I | TWO)
            bench.next(0, I | THREE)
            bench.walk()
            for head, aa in ((TRANSPONDER, 7), (TRANSPONDER, THREE), (OTHER, ONE), (TRANSPONDER, ONE), (TRANSPONDER, TWO)):
                bench.receive(airborne(head, aa, EVEN, NEAR), 6_000)
            bench.walk()


def refused_set_ups(bench):
    """7 and 8 leave the places and the head as they were, clock and site too; a site that is not known may be anywhere."""
    for latitude in BEYOND:
        bench.set_up_at(2, HERE)
        bench.receive(airborne(TRANSPONDER, ONE, EVEN, NEAR), 1_000)
        bench.set_up_at(2, (latitude, 5))
        bench.whole()
        for places in (0, MOST):
            bench.set_up(places)
            bench.set_up_at(places, (latitude, 5))
            bench.walk()
            bench.whole()
        bench.lend(table.length_of(2))
        bench.whole()
        bench.walk()
        bench.set_up_unknown(2, (latitude, 5))
        bench.walk()


# Blocks


def hostile_blocks(chance):
    """Blocks that break a rule each, and strings of other lengths."""
    rows = [(chance.getrandbits(64), chance.randbytes(14)) for _ in range(MOST_RECORDS)]
    good = [block(7, rows[:count]) for count in (1, 2, 22, MOST_RECORDS)]
    yield from good
    for one in good:
        for count in (0, one[0] - 1, one[0] + 1, 23, 24, 255):
            yield resealed(one, 0, count)
            yield bytes([count]) + one[1:]
        yield resealed(one, 1, 255)
        yield from (one[:at] + bytes([one[at] ^ 1]) + one[at + 1 :] for at in (0, 3, 10, 11, 508, 509, 511))
        yield from (resealed(one, at, one[at] ^ 1) for at in (3, 10, 11, 24, 25, 486, 487, 508))
        for length in (0, 1, 3, 25, BLOCK - 1, BLOCK + 1, 2 * BLOCK):
            yield (one + one)[:length]
    yield bytes(BLOCK)
    yield from (damaged(chance, block(0, [(5, bytes(14))])) for _ in range(100))
    yield from (chance.randbytes(BLOCK) for _ in range(20))


def record_text(string, number):
    """A record: its time, where its message starts, and its message."""
    found = record_at(string, number)
    return "ended" if found is None else f"{found[0]} {found[1]} {message_text(string, number)}"


def message_text(string, number):
    """The message of a record, in hex; past the last no bytes."""
    found = record_at(string, number)
    return "" if found is None else string[found[1] :][:14].hex().upper()


def read_block(bench, string):
    """A block: whether it is good, what a reader gives turn by turn, and its records by their numbers."""
    good = answer(lambda: f"good {len(records_of(string))}")
    count = string[0] if string else 0
    numbers = [0, 1, max(0, count - 1), count, count + 1, 22, 23, 24, 2**32, 2**63, LAST]
    lines = [good, *(record_text(string, turn) for turn in range(TURNS))]
    lines += [f"{record_text(string, number)} {message_text(string, number)}" for number in numbers]
    bench.tried |= {("advance", line.split()[0] == "ended") for line in lines[1 : TURNS + 1]}
    bench.tried |= {("nth", line.split()[0] == "ended") for line in lines[TURNS + 1 :]}
    bench.say(b"C" + fours(len(string)) + string + bytes([len(numbers)]) + eights(*numbers), "\n".join(lines))


def feed(bench, size, whole):
    """A capture, fed as a whole to a table of so many bytes."""
    made = bytearray(size)
    try:
        table.set_up(made)
        bad = f"bad {captures.feed(made, whole)}"
    except Refused as refusal:
        bad = str(refusal)
    bench.say(b"F" + fours(size, len(whole)) + whole, f"{bad} {remainder(made):06x}")


def blocks_and_captures(bench):
    """Those of the samples, random ones and hostile ones."""
    chance = Random(17)
    samples = [path.read_bytes() for path in sorted((ROOT / "samples").glob("*.capture"))]
    wholes = samples + [random_capture(chance) for _ in range(RANDOM_CAPTURES)]
    for whole in wholes:
        for string in captures.blocks(whole):
            read_block(bench, string)
    for string in hostile_blocks(chance):
        read_block(bench, string)
    for whole in (*wholes, b"", bytes(700)):
        feed(bench, table.length_of(4), whole)
    for size in (0, table.length_of(1) - 1, table.length_of(1)):
        feed(bench, size, wholes[-1])


# Layouts


def identifications(bench):
    """An identification of every TYPE, and fields that are too wide."""
    for type_code in range(256):
        for category, characters in ((0, 0), (7, 2**48 - 1), (8, 0), (0, 2**48)):
            fields = {"DF": 17, "CA or CF": 0, "AA": 0, "TYPE": type_code, "category": category, "characters": characters}
            line = answer(lambda: int.from_bytes(encode(fields)[4:11], "big"))
            bench.say(b"I" + bytes([type_code, category]) + eights(characters), line)


# Positions and tracks made by hand

NOW = 500_000  # the time of a message


def timed(make, places, ages):
    """Known and not, each place at each age."""
    return [make(known, *place, NOW - age) for known in (1, 0) for place in places for age in ages]


POSITIONS = timed(Position, [NEAR, *((latitude, 7) for latitude in (POLE, -POLE, *BEYOND))], (120_000, 120_001))
SITES = [(known, latitude, 9) for known in (1, 0) for latitude in (HERE[0], POLE, -POLE, *BEYOND)]


def counts_by(turn, i, size=COUNTS):
    """Those of a place, and others at the edge of their range and out of it."""
    latitude, longitude = counts_of(turn, i, *NEAR, size)
    wide = [(size, longitude), (latitude, size), (2**32 - 1, 2**32 - 1)]
    return [(latitude, longitude), (size - 1, size - 1), (size // 2, 0), *wide]


def partners(i, size=COUNTS):
    """Encoded positions of the other F: of the size, of the other size, and some that say the other."""
    other = COARSE if size == COUNTS else COUNTS
    own = [one._replace(coarse=int(size == COARSE)) for one in timed(Saved, counts_by(AIRBORNE, 1 - i, size), (10_000, 10_001))]
    others = [one._replace(coarse=int(other == COARSE)) for one in timed(Saved, counts_by(AIRBORNE, 1 - i, other)[:2], (10_000,))]
    return own + others + [own[0]._replace(coarse=int(other == COARSE))]


def how(question, position, *arguments):
    """What a question answers as text, and what that is: 8, the position as it was, or a new one."""
    text = answer(lambda: ("at", *question(position, *arguments)))
    was = "at " + " ".join(map(str, position))
    return text, text if text.startswith("refused") else "as it was" if text == was else "new"


def fresh(found, most, time):
    """Known, and at most so old."""
    return bool(found.known) and time - found.time <= most


def put_airborne(bench, position, partner, i, counts, time=NOW, size=COUNTS):
    """Where a message from the air is put, of this size."""
    text, kind = how(tracks.airborne_position, position, partner, i, counts, time, size)
    alike = fresh(partner, 10_000, time) and tracks.size_of(partner) == size
    bench.tried.add(("coarse" if size == COARSE else "airborne", (alike, fresh(position, 120_000, time), kind)))
    given = timed_bytes(position) + timed_bytes(partner) + bytes([size == COARSE])
    bench.say(b"A" + given + fours(*counts) + bytes([i]) + eights(time), text)


def put_on_surface(bench, position, site, i, counts, time=NOW):
    """Where a surface message is put."""
    text, kind = how(tracks.surface_position, position, site[1:] if site[0] else None, i, counts, time)
    bench.tried.add(("surface", (fresh(position, 120_000, time), bool(site[0]), kind)))
    bench.say(b"G" + timed_bytes(position) + site_bytes(*site) + fours(*counts) + bytes([i]) + eights(time), text)


def step_me(bench, track, me, site, time=NOW, coarse=0):
    """A track after an ME, of which 56 bits are read; one that is not taken leaves it, which no coarse one is."""
    string = coarse_bits(0, me % 2**56) if coarse else sealed(bytes([17 << 3, 0, 0, 0]) + (me % 2**56).to_bytes(7, "big"))
    try:
        after = tracks.step(track, string, site[1:] if site[0] else None, time)
    except Refused as refusal:
        assert refusal.number == 5
        after = track
        bench.tried.add(("step", "not taken"))
    bench.say(b"T" + track_bytes(track) + bytes([coarse]) + eights(me) + site_bytes(*site) + eights(time), f"track {track_text(after)}")


def me_of(type_code, i, counts):
    """The ME of a message with a place."""
    return type_code << 51 | i << 34 | counts[0] << 17 | counts[1]


def coarse_me(i, counts, altitude=888):
    """The ME of a coarse message, its first five bits 19."""
    return 19 << 51 | altitude << 37 | i << 24 | counts[0] << 12 | counts[1]


def hand_made(position, saved, coarse=0):
    """A track whose other values are all different."""
    return Track(1, 2, 3, 4, 5, 6, 7, 8, 1, position, saved, coarse)


def step_airborne(bench, position, partner, i):
    """A track after an airborne message; on 8 its position is as it was."""
    track, counts = hand_made(position, saved_of(i, partner)), counts_by(AIRBORNE, i)[0]
    bench.tried.add(("step", ("airborne", how(tracks.airborne_position, position, partner, i, counts, NOW)[1])))
    step_me(bench, track, me_of(11, i, counts), SITES[0])


def step_coarse(bench, position, partner, i, site=SITES[0]):
    """The same of a coarse message; what of its track is out of range leaves the position too."""
    track, counts = hand_made(position, saved_of(i, partner)), counts_by(AIRBORNE, i, COARSE)[0]
    bench.tried.add(("step", ("coarse", how(tracks.airborne_position, position, partner, i, counts, NOW, COARSE)[1])))
    step_me(bench, track, coarse_me(i, counts), site, coarse=1)


def step_on_surface(bench, position, site, i):
    """The same of a surface message."""
    track, counts = hand_made(position, saved_of(i, Saved(1, 5, 6, NOW))), counts_by(SURFACE, i)[0]
    place = site[1:] if site[0] else None
    bench.tried.add(("step", ("surface", how(tracks.surface_position, position, place, i, counts, NOW)[1])))
    step_me(bench, track, me_of(7, i, counts), site)


def step_lost(bench, position, site, i, code):
    """The same of TYPE 0 with an altitude code: no value of a place is read, so none is out of its range."""
    track = hand_made(position, saved_of(i, Saved(1, 2**32 - 1, 6, NOW)))
    bench.tried.add(("step", ("lost", code)))
    step_me(bench, track, me_of(0, i, counts_by(AIRBORNE, i)[0]) | code << 36, site)


def saved_of(i, partner):
    """The two saved ones of a track: the partner of F, and what F itself replaces."""
    mine = Saved(1, 2**32 - 1, 5, NOW)
    return (mine, partner) if i == EVEN else (partner, mine)


def hand_made_edges(bench):
    """Each value at an edge of its range and out of it, at each age that decides."""
    for i, position in product((EVEN, ODD), POSITIONS):
        for size in (COUNTS, COARSE):
            for partner, counts in product(partners(i, size), counts_by(AIRBORNE, i, size)):
                put_airborne(bench, position, partner, i, counts, size=size)
        for partner in partners(i, COARSE):
            step_coarse(bench, position, partner, i)
        for site, counts in product(SITES, counts_by(SURFACE, i)):
            put_on_surface(bench, position, site, i, counts)
        for partner in partners(i):
            step_airborne(bench, position, partner, i)
        for site in SITES:
            step_on_surface(bench, position, site, i)
    for position, site, i, code in product(POSITIONS, SITES, (EVEN, ODD), (0, 888, 2688)):
        step_lost(bench, position, site, i, code)
    for type_code, beyond, coarse in product(range(32), (0, 2**56, 2**63), (0, 1)):
        step_me(bench, Track(position=POSITIONS[0], coarse=1 - coarse), beyond + me_of(type_code, ODD, (5, 6)), SITES[0], coarse=coarse)
    for subtype, beyond in product(range(8), (0, 2**48 - 1, 2**56, 2**63)):
        step_me(bench, hand_made(POSITIONS[0], saved_of(ODD, Saved())), beyond | 31 << 51 | subtype << 48, SITES[0])


def any_of(chance, values, bits):
    """One of these, or any number of so many bits."""
    return chance.choice((*values, chance.getrandbits(bits)))


def any_timed(chance, make, edges, age):
    """A position, or an encoded one, any or of the edges."""
    numbers = chance.getrandbits(1), signed(chance.getrandbits(32)), chance.getrandbits(32)
    if make is Saved:
        numbers = numbers[0], chance.getrandbits(chance.choice((12, 17, 18, 32))), chance.getrandbits(chance.choice((12, 17)))
    other = make(*numbers, any_of(chance, (0, NOW - age, NOW - age - 1, NOW, NOW + 1, LAST), 64))
    other = other._replace(coarse=chance.getrandbits(1)) if make is Saved else other
    return chance.choice((other, chance.choice(edges)))


def hand_made_at_random(bench):
    """Any values, the edges among them."""
    chance = Random(8)
    for _ in range(RANDOM_HANDS):
        i, time = chance.getrandbits(1), any_of(chance, (NOW, NOW, NOW + 1, 0, LAST), 64)
        position = any_timed(chance, Position, POSITIONS, 120_000)
        size = chance.choice((COUNTS, COARSE))
        partner = any_timed(chance, Saved, partners(i, size), 10_000)
        site = chance.choice((chance.choice(SITES), (1, signed(chance.getrandbits(32)), chance.getrandbits(32))))
        counts = chance.randrange(size), chance.choice((chance.randrange(size), chance.randrange(size), chance.getrandbits(32)))
        put_airborne(bench, position, partner, i, counts, time, size)
        put_on_surface(bench, position, site, i, counts, time)
        groups = time, *(chance.getrandbits(64) for _ in range(4)), chance.getrandbits(16), chance.getrandbits(16)
        latest = chance.getrandbits(8), chance.getrandbits(1)
        me = chance.choice((chance.getrandbits(64), 31 << 51 | chance.randrange(2) << 48 | chance.getrandbits(48)))
        step_me(bench, Track(*groups, *latest, position, saved_of(i, partner), chance.getrandbits(1)), me, site, time, chance.getrandbits(1))


# The run


def run():
    """All scripts."""
    bench = table_vectors.run_coarse(table_vectors.run_told(table_vectors.run(Slices())))
    for script in (refused_set_ups, odd_places, blocks_and_captures, identifications, hand_made_edges, hand_made_at_random):
        script(bench)
    return bench


def texts(bench):
    """What the program reads, and what it must write."""
    return b"".join(record for record, _ in bench.cases), "".join(f"{line}\n" for _, line in bench.cases).encode("ascii")


def made():
    """The same of all scripts."""
    return texts(run())


PUT = "new", "as it was", "refused 8"
# By whether there is a partner and a position to read an airborne message by, or a position and a site for a surface one.
READ = {*product((True,), (False, True), PUT), *product((False,), (True,), PUT), (False, False, "as it was")}
ANSWERS = {
    "S": {"done", "refused 7", "refused 8"},
    "R": {"a value", *(f"refused {number}" for number in (*range(1, 8), 12))},
    "K": {"held", "unheld", "refused 7"},
    "N": {"a value", "end", "refused 7"},
    "C": {"good", "refused 11"},
    "advance": {False, True},
    "nth": {False, True},
    "F": {"bad", "refused 7"},
    "I": {"a value", "refused 8"},
    "A": {"at", "refused 8"},
    "G": {"at", "refused 8"},
    "airborne": READ,
    "coarse": READ,
    "surface": READ,
    "step": {*product(("airborne", "surface", "coarse"), PUT), *product(("lost",), (0, 888, 2688)), "not taken"},
}


def difference(cases, written):
    """The first case that the program answers otherwise than the model, or None."""
    lines, at = written.decode("ascii", "replace").splitlines(), 0
    for record, due in cases:
        for line in due.split("\n"):
            now = lines[at] if at < len(lines) else "nothing"
            if now != line:
                return f"line {at + 1}, of the record ..{record[-40:].hex()}\nthe model:   {line}\nthe program: {now}"
            at += 1
    return None if at == len(lines) else "the program writes more lines than the model"


def built_and_run(given):
    """Builds the program from the sources as they are, and runs it."""
    with tempfile.TemporaryDirectory() as name:
        folder = Path(name)
        (folder / "crates").symlink_to(ROOT / "crates")
        program = unproved.build(folder, unproved.REST)
        return subprocess.run([ROOT / "tools/run", program], input=given, capture_output=True, timeout=600, check=False)


def main():
    bench = run()
    done = built_and_run(texts(bench)[0])
    found = difference(bench.cases, done.stdout)
    if done.returncode != 0 or found:
        print(f"status {done.returncode} {done.stderr.decode()}\n{found}")
        return 1
    untried = {(name, one) for name, answers in ANSWERS.items() for one in answers} - bench.tried
    if untried:
        print(f"these were never tried: {untried}")
        return 1
    print(f"{len(bench.cases)} calls of what no proved program calls: the answers, and what they leave, are the model's")
    return 0


if __name__ == "__main__":
    sys.exit(main())
