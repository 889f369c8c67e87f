"""Calls every function of the C interface with random arguments, through C, and compares with the model.

    python3 reference/run_calls.py

tools/build-c must have built target/c/PROCESSOR/calls, and for Linux easy, which makes the same calls by the second header, with
structs, and of which there is one in C++ too for x86-64. For wasm32 node calls the module. Two more run on older or smaller processors:
calls-arm1176, and calls-microbit with the calls that fit. The calls and what the model answers are made once, for all targets. Among
the arguments are wrong lengths, damaged messages, tables of random bytes, and tables whose values are just out of their ranges. The
first difference is named, and the status is 1.
"""

import sys
from itertools import product
from random import Random

import checker
import listings
import messages
import table as tables
import traffic
from captures import BLOCK, MOST_RECORDS, block, listing
from captures import line as line_of
from captures import KINDS as LETTERS
from embedding import AT, BYTES, FUNCTIONS, WORDS, WRITES, array_of, call_text, lengths_due, message_from, message_row, outcome_text, places_in, row
from positions import AIRBORNE, COARSE, COUNTS, EVEN, ODD
from positions import encode as counts_of
from once import once
from programs import C, built, ran
from readings import UNKNOWN, altitude
from refusals import Refused
from replay import MOST_RECORDS as MOST_LOGGED
from replay import RECORD
from run_captures import SENDERS, damaged, message, random_capture
from tracks import KINDS as KIND_NUMBERS
from tracks import C as OF_COARSE
from tracks import I, N, Track, key_for, kind_in
from traffic import GROUND, OTHER, TRANSPONDER
from vectors import figures
from vectors.message_vectors import random_acceptable, random_reserved, random_status, sealed_message
from vectors.position_vectors import random_counts, random_latitude, random_longitude
from vectors.table_vectors import random_track, with_status

CALLS = 1_000  # of each function
RECEIVED = 20  # times as many of receive, so that tracks grow; and more of decode, me and look_up, for the sorts of message
LISTED = ["listing", "header", "next", "line"]  # what shows a table line by line, or as a whole
DOUBLED = 150  # of each of these, on tables that hold keys twice
OTHERWISE = -1, 1  # by how much each array of a listing is too short, and too long
OLD_LENGTHS = [("header", 97), ("line", 97), *(("look_up", length) for length in (23, 27, 57, 66))]  # of older headers, refused with 1
REPLAYS = "replay", "replay_at", "replay_coarse"
LATER = {"receive_stamp": 4_000, "degrees": 1_000, "from_degrees": 3_000, "version": 1}  # so many of these, behind all others
LATER |= dict.fromkeys(REPLAYS, 1_500) | {"encode_position_coarse": 1_000, "pair_coarse": 3_000, "single_coarse": 2_000}
LATER |= {"check": 200}
MERGES = 3_000  # behind these
COARSE_MES = 10_000  # so many random MEs under CF 3, each decoded and encoded again
LAST = 2**64 - 1
FIRST_READING = 20  # from this entry on fields are readings
AAS = 0, 1, 0xABCDEF, 2**24 - 1  # those of run_captures.message; and of their keys most
KEYS = [key_for(kind, aa) for kind in range(I, N + 1) for aa in AAS]
KEYS += [key_for(OF_COARSE, aa, *sender) for aa in AAS[2:] for sender in SENDERS]


def number(chance):
    """Any number of 64 bits: small, at a power of two, or whatever."""
    power = 1 << chance.randrange(64)
    return chance.choice((chance.randrange(8), power, power - 1, LAST, chance.getrandbits(64), chance.getrandbits(32)))


def about(chance, length):
    """The length, or now and then a wrong one."""
    return length if chance.randrange(10) else chance.choice((0, 1, length - 1, length + 1, chance.randrange(200)))


# Tables


def random_bytes(chance):
    """A table of random bytes, in half of them with keys that can be held."""
    places = chance.randrange(1, 7)
    made = bytearray(chance.randbytes(tables.length_of(places)))
    if chance.randrange(2):
        tables.put(made, 0, 8, chance.choice((0, 10**6, LAST)))
        for place in range(places):
            tables.put(made, tables.key_at(place), 4, chance.choice(KEYS))
    return made


def with_coarse(chance, track):
    """The track, in half of the cases as coarse messages leave it, or in part: counts of 12 bits, any ME as velocity."""
    if chance.randrange(2):
        return track
    whole = chance.randrange(3) > 0
    saved = [one._replace(coarse=1, **dict(zip(("latitude", "longitude"), random_counts(chance, 2, COARSE)))) for one in track.saved]
    track = track._replace(saved=tuple(saved)) if whole or chance.randrange(2) else track
    return track._replace(velocity=chance.getrandbits(56), coarse=1) if whole or chance.randrange(2) else track


def random_tracks(chance, least=1, most=6):
    """A table of any tracks about its clock, with twins, a site or none, and now and then a value out of its range."""
    places, clock = chance.randint(least, most), chance.choice((0, 130_000, 10**9, LAST - 5))
    made = bytearray(tables.length_of(places))
    if chance.randrange(2):
        tables.set_up(made, (random_latitude(chance), random_longitude(chance)))
    tables.put(made, 0, 8, clock)
    for place in range(places):
        tables.put(made, tables.key_at(place), 4, chance.choice(KEYS))
        at = tables.body_at(made, place)
        made[at : at + tables.BODY] = tables.body_of(with_coarse(chance, with_status(chance, random_track(chance, clock))))
        if chance.randrange(6) == 0:
            tables.put(made, at + tables.LATITUDE, 4, chance.choice((2**31, 2**31 + 1, 2**32 - 1)))
    return made


def wrong_length(chance):
    """Bytes of a length that no table has."""
    near = tables.length_of(chance.choice((1, 2, 3, 1024))) + chance.choice((-1, 1))
    return bytearray(chance.choice((0, 1, 15, 16, 17, near, tables.length_of(1025), chance.randrange(tables.length_of(1) - 17) + 17)))


def full(places):
    """A table whose places are all held: its aircraft are 1, 2, and so on."""
    made = bytearray(tables.length_of(places))
    for place in range(places):
        tables.put(made, tables.key_at(place), 4, key_for(I, place + 1))
        at = tables.body_at(made, place)
        made[at : at + tables.BODY] = tables.body_of(Track())
    return made


class Tables:
    """Tables that live on from call to call, so that tracks grow in them; and others for one call."""

    def __init__(self, chance):
        self.chance = chance
        self.live = [bytearray(tables.length_of(places)) for places in (1, 2, 3, 4, 8, 8, 8, 24)]
        self.large = [bytearray(tables.length_of(places)) for places in (256, 1024)]
        self.full = [full(places) for places in (256, 1024)]

    def choose(self):
        """A table. What a call leaves in one that lives on stays there."""
        kind = self.chance.randrange(200)
        if kind < 130:
            return self.chance.choice(self.live)
        if kind < 132:
            return self.chance.choice(self.large)
        if kind < 134:
            return bytearray(self.chance.choice(self.full))
        return self.chance.choice((random_bytes, random_tracks, random_tracks, wrong_length))(self.chance)


def time_for(chance, table):
    """A time about the clock of a table, or any."""
    if len(table) < 8 or chance.randrange(40) == 0:
        return number(chance)
    step = chance.choice((0, 1, 400, 400, 400, 5_000, 10_001, 120_001, 125_000, -1))
    return (tables.get(table, 0, 8) + step) % 2**64


def stamp_for(chance, table):
    """A stamp about a distance from the last one, and the state before it: as a rule the clock's low 32 bits, or none, or any."""
    clock = tables.get(table, 0, 8) if len(table) >= 8 else 0
    last = chance.choice((clock % 2**32, clock % 2**32, 0, 2**32 - 1, chance.getrandbits(32)))
    step = chance.choice((0, 1, 400, 400, 5_000, 125_000, 2**31 - 1, 2**31, 2**31 + 1, -1))
    started = chance.choice((0, *[1] * 6))
    if chance.randrange(12) == 0:
        started, last = chance.choice(((2, last), (number(chance), last), (started, 2**32), (started, number(chance))))
    return [(last + step) % 2**32, started, last]


# What a call is given


def key(chance, table):
    """A key that is held, if there is one; or that may be; or any number."""
    try:
        held = [one for one in tables.held_keys(table) if one is not None]
    except Refused:
        held = []
    return chance.choice((chance.choice(held or KEYS), chance.choice(KEYS), number(chance) % 2**32))


def some_block(chance, table):
    """A block of records at times about the clock, now and then one that breaks a rule, or of a wrong length."""
    count = chance.randrange(1, MOST_RECORDS + 1)
    made = damaged(chance, block(0, [(time_for(chance, table), message(chance)) for _ in range(count)]))
    return made.ljust(about(chance, BLOCK), b"\0") if chance.randrange(8) else made[: about(chance, BLOCK)]


def placed(chance):
    """An airborne message of one place and one AA, even or odd, so that two of a kind pair; of any TYPE and bit 8."""
    head, i, type_code = chance.choice((TRANSPONDER, OTHER, *GROUND)), chance.choice((EVEN, ODD)), chance.choice((*range(9, 19), 20, 21, 22))
    return traffic.airborne(head, 0xABCDEF, i, (2**29, 2**30), type_code, bit8=chance.randrange(2))


def told(chance):
    """A status of the same AA."""
    return random_status(chance, chance.choice((TRANSPONDER, OTHER)), 0xABCDEF)


def placed_coarsely(chance):
    """A coarse message of the same place and AA, of one of the stations."""
    flag, station = chance.choice(SENDERS)
    return traffic.coarse(0xABCDEF, chance.choice((EVEN, ODD)), (2**29, 2**30), station, flag, speed=edge(chance, 6))


def some_log(chance):
    """A log of a few records, at times about a drop, or of positions close behind each other; rarely not of whole ones, or too long."""
    time, log, close = chance.choice((0, 0, 10**6, LAST - 10**6)), b"", chance.randrange(3) == 0
    for _ in range(chance.randrange(24)):
        step = chance.choice((0, 1, 400) if close else (0, 1, 400, 400, 5_000, 10_001, 120_001, 124_999, 125_000, -1))
        time = min(LAST, max(0, time + step))
        sorts = (placed, placed, told, placed_coarsely, placed_coarsely) if close else (message, message, edge_message)
        log += time.to_bytes(8, "big") + chance.choice(sorts)(chance)
    most = MOST_LOGGED * RECORD
    return log.ljust(chance.choice((*[len(log)] * 40, len(log) + 1, len(log) + 21, most, most + RECORD)), b"\0")


def some_aa(chance):
    """An address, rarely of more than 24 bits."""
    return chance.choice((*AAS * 5, *[0xABCDEF] * 20, 2**24, number(chance) % 2**32))


def of_log(chance):
    """A kind, rarely none, or that which is asked for otherwise, and an address."""
    return [chance.choice((*[*range(I, N + 1)] * 8, 0, OF_COARSE, number(chance) % 2**32)), some_aa(chance)]


def of_station(chance):
    """An address, a flag and a station, rarely above their ranges."""
    flag, station = chance.choice(SENDERS)
    wide, rare = number(chance) % 2**32, chance.randrange(30)
    flags, stations = (2, 256 + flag, wide), (16, 256 + station, wide)  # of 8 bits the second would be one that is taken
    return [some_aa(chance), flags[rare] if rare < 3 else flag, stations[rare - 3] if 3 <= rare < 6 else station]


def some_capture(chance):
    """A capture of a few blocks, in the place of a table; rarely one of too many records."""
    blank = block(0, [(0, bytes(14))] * MOST_RECORDS)
    return bytearray(chance.choice((*[random_capture(chance)] * 40, blank * (MOST_LOGGED // MOST_RECORDS + 1))))


def some_listing(chance, whole):
    """Its own listing, or with a byte changed, or one that is not in the form."""
    text = listing(whole, True).encode("ascii")
    at = chance.randrange(len(text))
    return chance.choice((text, text, text[:at] + chance.choice((b"0", b"1", b"-", b" ")) + text[at + 1 :], text[:at], listing(whole, False).encode("ascii")))


def listing_text(clock, lines, bad, tracks=None):
    """A listing of lines; its header may say another number of them."""
    return "".join(f"{line}\n" for line in (f"clock {clock} tracks {len(lines) if tracks is None else tracks} bad-blocks {bad}", *lines)).encode("ascii")


def some_lines(chance):
    """Lines of tracks in the order of their keys, of every kind."""
    held = chance.sample(KEYS, chance.randrange(len(KEYS) + 1))
    return [line_of(one, random_track(chance, 2**40)) for one in sorted(held)]


def some_clock(chance):
    """A clock, now and then one at an end."""
    return chance.choice((0, LAST, number(chance), number(chance)))


def two_listings(chance):
    """Two listings that can become one: lines dealt out, a clock, and bad blocks whose sum is below 2^64."""
    lines, clock, bad = some_lines(chance), some_clock(chance), chance.choice((0, 9, number(chance)))
    first = [line for line in lines if chance.randrange(2)]
    return [clock, first, bad], [clock, [line for line in lines if line not in first], chance.choice((0, 1, LAST - bad))]


def spoilt(chance, one, other):
    """Two listings, of which something is wrong: a text for each."""
    texts = [listing_text(*one), listing_text(*other)]
    which = chance.randrange(2)
    clock, lines, bad = (one, other)[which]
    station = "C ABCDEF 0 15 1 - - - -"
    texts[which] = chance.choice(
        (
            listing_text((clock + 1) % 2**64, lines, bad),
            listing_text(clock, lines, bad, len(lines) + chance.choice((1, -1) if lines else (1,))),
            texts[1 - which],
            b"",
            listing_text(clock, lines[::-1], bad),
            listing_text(clock, lines + lines[-1:], bad),
            listing_text(clock, sorted([*one[1], *other[1]], key=listings.key_in), bad),
            listing_text(clock, lines, LAST),
            listing_text(*chance.choice((("-", lines, bad), (-1, lines, bad), (2**64 + clock, lines, bad)))),
            listing_text(clock, lines, chance.choice(("-", -1, 2**64))),
            listing_text(clock, [station.replace(" 0 15 ", f" {chance.choice(('0', '1', '2', '-', '-1', '10'))} {chance.choice(('0', '9', '10', '15', '16', '20', '-', '-1', '150'))} ")], bad),
            texts[which][: chance.randrange(len(texts[which]))],
            damaged_text(chance, texts[which]),
        )
    )
    return texts


def damaged_text(chance, text):
    """A text with a byte changed."""
    at = chance.randrange(len(text))
    return text[:at] + bytes([chance.choice((*b"0123456789ABC- \n", chance.randrange(256)))]) + text[at + 1 :]


def some_texts(chance):
    """Two texts for a merge: half of them can become one."""
    one, other = two_listings(chance)
    return [listing_text(*one), listing_text(*other)] if chance.randrange(2) else spoilt(chance, one, other)


def edge(chance, bits):
    """A code of so many bits, mostly at an end of its range, where readings change their kind."""
    last = 2**bits - 1
    return max(0, chance.choice((0, 1, last - 3, last - 1, last, chance.getrandbits(bits))))


LAYOUTS = [(0, None), (1, None), (4, None), (5, None), (11, None), (21, None), (19, 1), (19, 2), (19, 3), (19, 4), (31, 0), (31, 1)]


def edge_coarse(chance):
    """A coarse message of one of a few aircraft and stations, its codes mostly at the ends of their ranges."""
    fields = {name: edge(chance, last - first + 1) for name, first, last in messages.COARSE}
    fields["flag"], fields["station"] = chance.choice(SENDERS)
    counts = fields.pop("latitude"), fields.pop("longitude")
    return traffic.coarse_counts(chance.choice(AAS), fields.pop("F"), counts, **fields)


def edge_message(chance):
    """A message of one of a few aircraft, its codes mostly at the ends of their ranges."""
    if chance.randrange(8) == 0:
        return edge_coarse(chance)
    type_code, subtype = chance.choice(LAYOUTS)
    fields = {name: edge(chance, last - first + 1) for name, first, last in messages.layout(type_code, subtype)}
    fields |= {} if subtype is None else {"subtype": subtype}
    heads = TRANSPONDER, OTHER, *(GROUND if type_code != 31 else ())
    return traffic.message(chance.choice(heads), chance.choice(AAS), type_code, **fields)


def some_message(chance):
    """A message, one in ten of any DF, CF and TYPE, or with the reserved flag, or of TYPE 31; one in ten of another length than 14."""
    length, made = about(chance, 14), chance.choice((message, edge_message))(chance)
    if chance.randrange(20) == 0:
        made = random_reserved(chance, chance.choice(AAS))
    if chance.randrange(20) == 0:
        head = chance.choice(((17, 5), *((18, cf) for cf in (0, 1, 2, 5))))
        made = sealed_message(*head, chance.choice(AAS), 31, chance.choice((0, chance.randrange(8))) << 48 | chance.getrandbits(48))
    if chance.randrange(10) == 0:
        head = chance.choice((17, 18, chance.randrange(32))), chance.randrange(8)
        made = sealed_message(*head, chance.choice(AAS), chance.randrange(32), chance.getrandbits(51))
    return made.ljust(length, b"\0")[:length]


def some_me(chance):
    """The ME of a message, or any number of 56 bits, rarely of more."""
    of_message = int.from_bytes(edge_message(chance)[4:11], "big")
    return chance.choice((*[of_message] * 8, chance.getrandbits(56), 2**56 + of_message, number(chance)))


FLAGS = {"SURFACE": "SURFACE_T", "AIRBORNE": "AIRBORNE_BIT8", "GROUND": "GROUND_BIT9", "AIR": "AIR_BIT9"}
FLAG = {AT[f"LAYOUT_{layout}"]: AT[flag] for layout, flag in FLAGS.items()}  # the entry of the flag by the layout


def some_fields(chance):
    """The fields of a message, often with one changed, or a wrong length. What the encoder does not read is anything."""
    made = random_acceptable(chance) if chance.randrange(5) else edge_coarse(chance)
    entries = row(AT["FIELDS"], message_row(messages.decode(made)))
    if chance.randrange(8) == 0:
        entries[AT["DF"]], entries[AT["CA"]] = chance.choice(((18, 3), (18, 3), (17, 3), (18, 2)))  # CF 3 goes with coarse fields alone
    if entries[AT["CA"]] == 5 and entries[AT["LAYOUT"]] in FLAG and chance.randrange(2):
        entries[FLAG[entries[AT["LAYOUT"]]]] = 1  # reserved under DF 18
    if entries[AT["LAYOUT"]] == AT["LAYOUT_STATUS"] and chance.randrange(2):
        entries[AT["DF"]], entries[AT["CA"]] = 18, chance.choice((0, 1, 2, 5))  # not sent under CF 2 and 5
    for at in (AT["KEY"], *range(FIRST_READING, AT["FIELDS"])):
        entries[at] = number(chance)
    if chance.randrange(2):
        entries[chance.randrange(AT["FIELDS"])] = number(chance)
    length = about(chance, AT["FIELDS"])
    return [*entries, *[0] * length][:length]


def latitude(chance):
    """A latitude of 32 bits, rarely beyond a pole."""
    return chance.choice((*[random_latitude(chance)] * 8, 2**30, -(2**30), 2**30 + 1, -(2**30) - 1, number(chance))) % 2**32


def bit(chance):
    """0 or 1, rarely more."""
    return chance.choice((*[0, 1] * 20, 2, number(chance) % 2**32))


def count(chance, size=COUNTS):
    """A count of 17 bits, or of 12, rarely a wider one."""
    return chance.choice((*random_counts(chance, 20, size), 0, size - 1, size, number(chance) % 2**32))


def pair_counts(chance, size=COUNTS):
    """The counts of two messages, half of the time from one place."""
    if chance.randrange(2):
        return [count(chance, size) for _ in range(4)]
    place = random_latitude(chance), random_longitude(chance)
    return [*counts_of(AIRBORNE, EVEN, *place, size), *counts_of(AIRBORNE, ODD, *place, size)]


def some_figure(chance, whole):
    """The bit pattern of a number's figure, rarely one of its neighbours, of another sort, or any."""
    near = figures.figure(whole) + chance.choice((-1, 1, 2**63))
    odd = chance.choice((*figures.ODD, *map(figures.bits, figures.WHOLE)))
    return chance.choice((*[figures.figure(whole)] * 12, near, odd, chance.getrandbits(64))) % 2**64


def numbers_for(name, chance, table):
    """The plain numbers of a call."""
    if name in ("next", "look_up"):
        return [key(chance, table)]
    if name == "line":
        return [key(chance, table), bit(chance)]
    if name == "receive":
        return [time_for(chance, table)]
    if name == "receive_stamp":
        return stamp_for(chance, table)
    if name in ("listing", "header"):
        return [number(chance), bit(chance)]
    if name == "feed_block":
        return [number(chance)]
    if name == "table_bytes":
        return [chance.choice((chance.randrange(1_100), 1, 1_024, 1_025, number(chance)))]
    if name in ("set_up_at", "degrees"):
        return [latitude(chance), random_longitude(chance)]
    if name == "replay":
        return of_log(chance)
    if name == "replay_at":
        return [*of_log(chance), latitude(chance), random_longitude(chance)]
    if name == "replay_coarse":
        return of_station(chance)
    if name == "encode_position":
        return [latitude(chance), random_longitude(chance), bit(chance), bit(chance)]
    if name == "encode_position_coarse":
        return [latitude(chance), random_longitude(chance), bit(chance)]
    if name == "from_degrees":
        return [some_figure(chance, random_latitude(chance)), some_figure(chance, chance.getrandbits(32) - 2**31)]
    if name == "me":
        return [some_me(chance), key(chance, table)]
    if name in ("pair", "pair_coarse"):
        return [*pair_counts(chance, COARSE if name == "pair_coarse" else COUNTS), bit(chance)]
    if name == "single":
        place = latitude(chance), random_longitude(chance)
        return [*place, count(chance), count(chance), bit(chance), bit(chance)]
    if name == "single_coarse":
        place = latitude(chance), random_longitude(chance)
        return [*place, count(chance, COARSE), count(chance, COARSE), bit(chance)]
    return []


def given_for(name, chance, table):
    """The array of a call."""
    if name in ("receive", "receive_stamp", "decode", "key"):
        return some_message(chance)
    if name == "feed_block":
        return some_block(chance, table)
    if name in REPLAYS:
        return some_log(chance)
    if name == "check":
        return some_listing(chance, bytes(table))
    return some_fields(chance) if name == "encode" else b""


# The run


def named(chance):
    """The functions, in any order, each with a table; then those of a listing, with tables of many places and few keys; then the later ones."""
    pool = Tables(chance)
    names = [*(name for name in FUNCTIONS if name not in LATER and name != "merge"), "decode", "me", *["look_up"] * 3, *["receive"] * RECEIVED] * CALLS
    chance.shuffle(names)
    yield from ((name, pool.choose()) for name in names)
    yield from ((name, random_tracks(chance, 9, 40)) for name in LISTED * DOUBLED)
    yield from ((name, some_capture(chance) if name == "check" else pool.choose()) for name, count in LATER.items() for _ in range(count))


def answered(chance, name, table, length, *besides):
    """A call with a result array of this length, and what the model makes of it. What it leaves stays in the table."""
    given, numbers = given_for(name, chance, table), numbers_for(name, chance, table)
    call = call_text(name, table=table, given=given, length=length, besides=besides, numbers=numbers)
    outcome = outcome_text(call)
    if FUNCTIONS[name].table == WRITES:
        table[:] = array_of(outcome.split()[-1], BYTES)
    return call, outcome


def merges(chance):
    """Two texts as one, in arrays of the right lengths, and now and then of others."""
    for _ in range(MERGES):
        one, other = some_texts(chance)
        due = lengths_due(FUNCTIONS["merge"], one, other)
        at, more = chance.randrange(10 * len(due)), chance.choice(OTHERWISE)
        length, *besides = [max(0, one_due + more) if at == place else one_due for place, one_due in enumerate(due)]
        call = call_text("merge", table=one, given=other, length=length, besides=besides)
        yield call, outcome_text(call)


def there_and_back(chance):
    """Any ME under CF 3, decoded, and its fields encoded: the same 14 bytes."""
    string = traffic.coarse_bits(chance.getrandbits(24), chance.getrandbits(56))
    decode = call_text("decode", given=string, length=AT["FIELDS"])
    outcome = outcome_text(decode)
    yield decode, outcome
    encode = call_text("encode", given=array_of(outcome.split()[2], WORDS), length=len(string))
    due = f"= 0 {string.hex()}"
    assert outcome_text(encode) == due
    yield encode, due


def about_due(chance, name, table):
    """The lengths of the arrays that a call writes; now and then one is wrong, of a listing 0, or too short or too long by one."""
    due = lengths_due(FUNCTIONS[name], table)
    if len(due) == 1:
        return [about(chance, due[0])]
    at = chance.randrange(10 * len(due))
    return [max(0, length + chance.choice((-length, *OTHERWISE))) if at == place else length for place, length in enumerate(due)]


def other_lengths(chance):
    """Listings whose arrays are each too short and too long by one, of tables and of what is none, which gets 1 too; then with all as they must be."""
    for made, place, more in product(listed_tables(chance), range(3), OTHERWISE):
        lengths = lengths_due(FUNCTIONS["listing"], made)
        lengths[place] = max(0, lengths[place] + more)
        yield answered(chance, "listing", made, *lengths)
    for made in listed_tables(chance):
        yield answered(chance, "listing", made, *lengths_due(FUNCTIONS["listing"], made))


def listed_tables(chance):
    """Tables of 1, of some and of 1,024 places, of random bytes, and bytes that are none: empty, too short, not whole, of 1,025 places."""
    yield from (random_tracks(chance, 1, 1), random_tracks(chance, 9, 12), random_bytes(chance), full(256), full(1024))
    yield from (bytearray(length) for length in (0, 16, 101, 103, tables.length_of(1025)))


def calls(chance):
    """The calls, each with what the model makes of it."""
    for name, table in named(chance):
        yield answered(chance, name, table, *about_due(chance, name, table))
    yield from other_lengths(chance)
    yield from merges(chance)
    for name, length in OLD_LENGTHS:
        yield answered(chance, name, random_tracks(chance), length)
    for _ in range(COARSE_MES):
        yield from there_and_back(chance)


def difference(asked, given):
    """The first call that C answers otherwise than the model, or None."""
    for at, (call, outcome) in enumerate(asked):
        answer = given[at] if at < len(given) else "nothing"
        if answer != outcome:
            return f"{call}\nthe model: {outcome}\nC:         {answer}"
    return None


# What must have been tried

PAPER = dict(enumerate("LENGTH LATE PARITY FORMAT TYPE FULL PLACES FIELD LATITUDE ZONES".split(), 1))  # by the header's names
PAPER |= {12: "NO_TRACK", 13: "OVERRUN", 14: "LOG", 15: "DEGREES", 16: "FORM"}
READS = {0, 1, 7}
NUMBERS = {
    **{name: READS for name in ("clock", "site", "next", "look_up", "feed_block")},
    **{name: {*READS, 8} for name in ("listing", "header", "line")},
    **{"set_up": {0, 7}, "set_up_at": {0, 7, 8}, "receive": {0, 1, 2, 3, 4, 5, 6, 7, 12}},
    **{"receive_stamp": {0, 1, 2, 3, 4, 5, 6, 7, 8, 12, 13}},
    **{name: {0, 1, 8, 14} for name in REPLAYS},
    **{"check": {0, 1, 14, 16}, "merge": {0, 1, 16}},
    **{"encode_position": {0, 1, 8}, "pair": {0, 1, 8, 9, 10}, "single": {0, 1, 8, 9}},
    **{"encode_position_coarse": {0, 1, 8}, "pair_coarse": {0, 1, 8, 9, 10}, "single_coarse": {0, 1, 8, 9}},
    **{"degrees": {0, 1, 8}, "from_degrees": {0, 1, 15}},
    **{"decode": {0, 1, 3, 4, 5}, "key": {0, 1, 3, 4, 5}, "encode": {0, 1, 8}, "me": {0, 1, 5, 8}},
}
STEPPED = {"UNKNOWN", "KNOWN", "OVER"}
KINDS = {
    ("SURFACE", "SURFACE_SPEED_IS"): {"UNKNOWN", "KNOWN", "OVER", "NONE", "STOPPED"},
    ("AIRBORNE", "AIRBORNE_ALTITUDE_IS"): {"UNKNOWN", "KNOWN"},
    ("AIRBORNE", "AIRBORNE_STEP_IS"): {"UNKNOWN", "KNOWN"},
    ("GROUND", "GROUND_EAST_IS"): STEPPED,
    ("GROUND", "GROUND_NORTH_IS"): STEPPED,
    ("AIR", "AIR_SPEED_IS"): STEPPED,
    ("AIR", "VERTICAL_RATE_IS"): STEPPED,
    ("GROUND", "VERTICAL_DIFFERENCE_IS"): STEPPED,
    ("STATUS", "STATUS_VERSION_IS"): {"KNOWN", "NONE"},
    ("STATUS", "STATUS_SUPPLEMENT_A_IS"): {"UNKNOWN", "KNOWN"},
    ("STATUS", "STATUS_SUPPLEMENT_C_IS"): {"UNKNOWN", "KNOWN"},
    ("COARSE", "COARSE_ALTITUDE_IS"): {"UNKNOWN", "KNOWN"},
    ("COARSE", "COARSE_STEP_IS"): {"UNKNOWN", "KNOWN"},
    ("COARSE", "COARSE_SPEED_IS"): STEPPED,
}


def header_faults():
    """The header's numbers that are not those of RULES 3.2."""
    wrong = [name for number, name in PAPER.items() if AT[f"REFUSED_{name}"] != number]
    wrong += [name for number, name in LETTERS.items() if AT[f"KIND_{name}"] != number]
    sizes = ("BLOCK", BLOCK), ("MESSAGE", 14), ("RECORD", RECORD), ("RECORDS", MOST_LOGGED)
    return wrong + [name for name, size in sizes if AT[name] != size]


def numbers_missing(asked):
    """The numbers that a function can answer, and never did."""
    seen = {(call.split()[0], int(outcome.split()[1])) for call, outcome in asked}
    return {(name, number) for name, numbers in NUMBERS.items() for number in numbers} - seen


def kinds_missing(asked):
    """What a reading can be, and never was."""
    outcomes = [outcome.split() for call, outcome in asked if call.startswith("decode ")]
    rows = [array_of(words[2], WORDS) for words in outcomes if words[1] == "0"]
    promised = {(layout, name, kind) for (layout, name), kinds in KINDS.items() for kind in kinds}
    return {
        (layout, name, kind)
        for layout, name, kind in promised
        if not any(one[AT["LAYOUT"]] == AT[f"LAYOUT_{layout}"] and one[AT[name]] == AT[kind] for one in rows)
    }


def lost_missing(asked):
    """What was never tried of TYPE 0: accepted and 12, with the altitude zero, one that reads unknown, and a known one."""
    seen = set()
    for call, outcome in asked:
        if not call.startswith("receive "):
            continue
        string = array_of(call.split()[2], BYTES)
        if len(string) == 14 and string[4] >> 3 == 0 and string[0] != 18 << 3 | 3:
            code = messages.field(string[4:11], 9, 20)
            seen.add((outcome.split()[1], "zero" if code == 0 else "unknown" if altitude(code) == UNKNOWN else "known"))
    return {(number, code) for number in ("0", "12") for code in ("zero", "unknown", "known")} - seen


def sort_of(string):
    """Of what a ground station's traffic service sends its kind, or that its flag is reserved, and what it carries; else None."""
    if len(string) != 14 or string[0] not in (18 << 3 | 2, 18 << 3 | 5):
        return None
    type_code, me = string[4] >> 3, string[4:11]
    sorts = {"lost": [0], "name": range(1, 5), "surface": range(5, 9), "velocity": [19], "airborne": [*range(9, 19), 20, 21, 22]}
    sort = next((sort for sort, types in sorts.items() if type_code in types), "none")
    place = {"lost": 8, "surface": 21, "velocity": 9, "airborne": 8}.get(sort)
    flag = messages.field(me, place, place) if place else 0
    return "TM"[flag] if string[0] % 8 == 2 else ("N", "reserved")[flag], sort


def sort_of_fields(entries):
    """Whether the encoder would take these fields but for their flag, which is reserved."""
    try:
        made = message_from(entries)
        messages.encode(made | {"CA or CF": 0})
        return messages.is_reserved(made)
    except (Refused, IndexError):
        return False


def of_traffic(name, words, outcome):
    """What one call tried of a ground station's traffic."""
    if name == "receive":
        return sort_of(array_of(words[1], BYTES)), outcome[1]
    if name == "decode" and outcome[1] == "0" and len(outcome[2]) == 2 * WORDS * AT["FIELDS"]:
        entries = array_of(outcome[2], WORDS)
        said = sort_of(array_of(words[0], BYTES))
        if said and said[1] == "velocity":
            return "difference", entries[AT["VERTICAL_SOURCE"]], entries[AT["VERTICAL_DIFFERENCE_IS"]]
    if name == "encode" and outcome[1] == "8" and sort_of_fields(array_of(words[0], WORDS)):
        return "encode", "8"
    if name == "look_up" and outcome[1] == "0" and len(outcome[2]) == 2 * WORDS * AT["TRACK"]:
        return "look_up", kind_in(int(words[-1])), array_of(outcome[2], WORDS)[0]
    return None


def traffic_missing(asked):
    """What was never tried of it: each sort of message taken, 12 and 6; the reserved flag of each layout; the difference."""
    seen = {of_traffic(call.split()[0], call.split()[1:], outcome.split()) for call, outcome in asked}
    due = {((kind, sort), number) for kind in "TMN" for sort in ("lost", "velocity") for number in ("0", "12")}
    due |= {((kind, "name"), number) for kind in "TN" for number in ("0", "12")}
    due |= {((kind, sort), number) for kind in "TMN" for sort in ("surface", "airborne") for number in ("0", "6")}
    due |= {(("reserved", sort), "5") for sort in ("lost", "surface", "velocity", "airborne")}
    due |= {("difference", 0, AT["UNKNOWN"]), *(("difference", 1, AT[kind]) for kind in STEPPED)}
    due |= {("encode", "8"), *(("look_up", kind, held) for kind in KIND_NUMBERS for held in (0, 1))}
    return due - seen


def steps_missing(asked):
    """The steps that were never seen, of a message or a track with a pressure altitude or a GNSS height; old lengths never refused."""
    seen = set()
    for call, outcome in asked:
        name, (_, number, *arrays) = call.split()[0], outcome.split()
        if name in dict(OLD_LENGTHS) and number == "1":
            seen.add((name, len(arrays[0]) // 2 // (WORDS if name == "look_up" else BYTES)))
        elif name == "look_up" and number == "0":
            entries = array_of(arrays[0], WORDS)
            held = entries[AT["TRACK_HELD"]]
            seen |= {(name, sort, entries[AT[f"TRACK_{sort}_STEP"]]) for sort in ("ALTITUDE", "GNSS_HEIGHT") if held}
        elif name == "decode" and number == "0":
            entries = array_of(arrays[0], WORDS)
            if entries[AT["LAYOUT"]] == AT["LAYOUT_AIRBORNE"]:
                seen.add((name, ("ALTITUDE", "GNSS_HEIGHT")[entries[AT["AIRBORNE_GNSS"]]], entries[AT["AIRBORNE_STEP"]]))
    due = {(name, sort, step) for name in ("look_up", "decode") for sort in ("ALTITUDE", "GNSS_HEIGHT") for step in (0, 25, 100)}
    return (due | set(OLD_LENGTHS)) - seen


# What people are shown of a track, and what each reading can be besides known and unknown
SHOWN = dict.fromkeys("CALLSIGN CATEGORY_SET CATEGORY HEADING HEADING_STATUS AIRSPEED_KIND".split(), set())
SHOWN |= dict.fromkeys("RATE_SOURCE ON_GROUND SURFACE_HEADING SURFACE_STATUS".split(), set())
SHOWN |= dict.fromkeys("EAST NORTH AIRSPEED RATE SPEED".split(), {"OVER"}) | {"MOVEMENT": {"OVER", "NONE", "STOPPED"}}
SHOWN |= dict.fromkeys("ANGLE ANGLE_STATUS".split(), set())


def shown_missing(asked):
    """What was never seen of it: each reading as all that it can be, in the air and on the ground, a rate of traffic without its source."""
    seen = set()
    for call, outcome in asked:
        words = outcome.split()
        entries = array_of(words[2], WORDS) if call.startswith("look_up ") and words[1] == "0" else [0]
        if entries[AT["TRACK_HELD"]]:
            seen |= {(name, entries[AT[f"TRACK_{name}_IS"]]) for name in SHOWN} | {("ground", entries[AT["TRACK_ON_GROUND"]])}
            traffic = kind_in(int(call.split()[-1])) > 2
            seen.add(("rate", traffic, entries[AT["TRACK_RATE_IS"]], entries[AT["TRACK_RATE_SOURCE_IS"]]))
    due = {(name, AT[kind]) for name, kinds in SHOWN.items() for kind in {"KNOWN", "UNKNOWN", *kinds}} | {("ground", 0), ("ground", 1)}
    return (due | {("rate", traffic, AT["KNOWN"], AT["UNKNOWN" if traffic else "KNOWN"]) for traffic in (False, True)}) - seen


def me_missing(asked):
    """Which layouts were never read of an ME by itself; and the height difference, with ME bit 36 set and not, of traffic and of others."""
    seen = set()
    for call, outcome in asked:
        words = outcome.split()
        if call.startswith("me ") and words[1] == "0":
            entries = array_of(words[2], WORDS)
            seen.add(entries[AT["LAYOUT"]])
            if entries[AT["LAYOUT"]] in (AT["LAYOUT_GROUND"], AT["LAYOUT_AIR"]):
                traffic = kind_in(int(call.split()[-1])) > 2
                seen.add((traffic, entries[AT["VERTICAL_SOURCE"]], entries[AT["VERTICAL_DIFFERENCE_IS"]]))
    due = {AT[f"LAYOUT_{name}"] for name in ("IDENTIFICATION", "SURFACE", "AIRBORNE", "GROUND", "AIR", "STATUS", "COARSE")}
    due |= {(traffic, 1, AT[kind]) for traffic in (False, True) for kind in STEPPED}
    return (due | {(True, 0, AT["UNKNOWN"])} | {(False, 0, AT[kind]) for kind in STEPPED}) - seen


def status_sort(string):
    """Of a status its DF and CF, by the kind or CF 2 or 5, and whether its subtype is taken; else None."""
    if len(string) != 14 or string[4] >> 3 != 31 or string[0] >> 3 not in (17, 18):
        return None
    sender = "I" if string[0] >> 3 == 17 else {0: "I", 1: "O", 2: "CF 2", 5: "CF 5"}.get(string[0] % 8)
    return sender, string[4] % 8 < 2


def of_status(name, words, outcome):
    """What one call tried of a status, and of what a track says of its version and its integrity."""
    if name in ("receive", "decode"):
        return {(name, status_sort(array_of(words[name == "receive"], BYTES)), outcome[1])}
    if name == "encode" and len(array_of(words[0], WORDS)) == AT["FIELDS"]:
        entries = array_of(words[0], WORDS)
        return {(name, entries[AT["DF"]], entries[AT["CA"]], outcome[1])} if entries[AT["LAYOUT"]] == AT["LAYOUT_STATUS"] else set()
    if name not in ("look_up", *REPLAYS) or outcome[1] != "0" or not array_of(outcome[2], WORDS)[AT["TRACK_HELD"]]:
        return set()
    entries = array_of(outcome[2], WORDS)
    kind = kind_in(int(words[-1])) if name == "look_up" else asked_kind(name, words)
    said = {(name, kind > 2, "integrity", entries[AT["TRACK_VERSION"]], entries[AT["TRACK_INTEGRITY_IS"]])}
    return said | {(name, letter, entries[AT["TRACK_VERSION"]]) for letter in "ABC" if entries[AT[f"TRACK_SUPPLEMENT_{letter}"]]}


def status_missing(asked):
    """What was never tried of it: taken, 6 and 5; encoded or not, by CF; each version, supplement and sort of integrity of a track."""
    seen = set().union(*(of_status(call.split()[0], call.split()[1:], outcome.split()) for call, outcome in asked))
    due = {("receive", (kind, True), number) for kind in "IO" for number in ("0", "6")}
    due |= {(name, (kind, False), "5") for name in ("receive", "decode") for kind in "IO"} | {("decode", (kind, True), "0") for kind in "IO"}
    due |= {(name, (cf, taken), "5") for name in ("receive", "decode") for cf in ("CF 2", "CF 5") for taken in (False, True)}
    due |= {("encode", 18, cf, "8" if cf in (2, 5) else "0") for cf in (0, 1, 2, 5)}
    unknown, nuc, nic = (AT[f"INTEGRITY_{name}"] for name in ("UNKNOWN", "NUC", "NIC"))
    of_version = {0: (unknown, nuc), 1: (unknown, nic), 2: (unknown, nic), **dict.fromkeys(range(3, 8), (unknown,))}
    due |= {("look_up", False, "integrity", version, sort) for version, sorts in of_version.items() for sort in sorts}
    due |= {("look_up", True, "integrity", 1, sort) for sort in (unknown, nic)}
    named = "look_up", "replay", "replay_at"
    due |= {(name, letter, version) for name in named for letter, version in (("A", 1), ("A", 2), ("B", 2), ("C", 2))}
    return due - seen


def of_coarse(name, words, outcome):
    """What one call tried of coarse messages: received, by the flag; encoded or not, by layout and CF; held, by the station."""
    if name == "receive":
        string = array_of(words[1], BYTES)
        return ("receive", string[4] >> 7, outcome[1]) if len(string) == 14 and string[0] == 18 << 3 | 3 else None
    if name == "encode" and len(array_of(words[0], WORDS)) == AT["FIELDS"]:
        entries = array_of(words[0], WORDS)
        return "encode", entries[AT["LAYOUT"]] == AT["LAYOUT_COARSE"], (entries[AT["DF"]], entries[AT["CA"]]) == (18, 3), outcome[1]
    if name in ("look_up", "line") and outcome[1] == "0" and kind_in(int(words[2])) == OF_COARSE:
        return name, int(words[2]) % 32, any(array_of(outcome[2], BYTES))
    return None


def coarse_missing(asked):
    """What was never tried of it: taken and 6, damaged and late; 8 for coarse fields without CF 3, and for others with it; a line of each."""
    seen = {of_coarse(call.split()[0], call.split()[1:], outcome.split()) for call, outcome in asked}
    due = {("receive", flag, number) for flag in (0, 1) for number in ("0", "2", "3", "6")}
    due |= {("encode", True, True, "0"), ("encode", True, False, "8"), ("encode", False, True, "8"), ("encode", False, False, "0")}
    due |= {(name, 16 * flag + station, held) for name in ("look_up", "line") for flag, station in SENDERS for held in (False, True)}
    never = {("receive", flag, number) for flag in (0, 1) for number in ("4", "5", "12")} & seen
    return due - seen | never


def asked_kind(name, words):
    """The kind that a replay is asked for."""
    return OF_COARSE if name == "replay_coarse" else int(words[2])


def replays_missing(asked):
    """Which kinds were never held, or never absent, after a log; with a position, too, with a site and without."""
    seen = set()
    for call, outcome in asked:
        (name, *words), (_, answer, *arrays) = call.split(), outcome.split()
        if name in REPLAYS and answer == "0":
            entries, kind = array_of(arrays[0], WORDS), asked_kind(name, words)
            seen |= {(name, kind, held) for held in ("held", "placed") if entries[AT[{"held": "TRACK_HELD", "placed": "TRACK_POSITION_KNOWN"}[held]]]}
            seen |= {(name, kind, "absent")} if not entries[AT["TRACK_HELD"]] else set()
    due = {*product(("replay", "replay_at"), range(I, N + 1)), ("replay_coarse", OF_COARSE)}
    return {(*one, what) for one in due for what in ("held", "placed", "absent")} - seen


def full_missing(asked):
    """Whether a table of 1,024 places was never full for a stranger."""
    length = 2 * tables.length_of(1024)
    return not any(
        outcome.startswith("= 6 ") and len(call.split()[1]) == length for call, outcome in asked if call.startswith("receive ")
    )


def doubled_missing(asked):
    """For which choice no header, or no listing, was asked of a table in which a key is held twice."""
    names, seen = ("header", "listing"), set()
    for call, outcome in asked:
        words = call.split()
        if words[0] in names and outcome.startswith("= 0 "):
            held = [one for one in tables.held_keys(array_of(words[1], BYTES)) if one is not None]
            seen |= {(words[0], words[-1])} if len(set(held)) < len(held) else set()
    return {*product(names, ("0", "1"))} - seen


def of_lengths(call, outcome):
    """Of a listing: whether its table is one, by how much each of its three lengths is wrong, and its answer."""
    _, hexed, *words = call.split()
    made = array_of(hexed, BYTES)
    wrong = tuple(int(word) - due for word, due in zip(words, lengths_due(FUNCTIONS["listing"], made)))
    is_table = tables.length_of(1) <= len(made) <= tables.length_of(1024) and len(made) == tables.length_of(places_in(made))
    return is_table, wrong, outcome.split()[1]


def listings_missing(asked):
    """Which array of a listing was never one too short, or too long, of a table or of what is none; what else it answers; all lines and none."""
    listings = [(call, outcome) for call, outcome in asked if call.startswith("listing ")]
    seen = {of_lengths(call, outcome) for call, outcome in listings}
    seen |= {array_of(outcome.split()[2], BYTES).count(b"\n") for _, outcome in listings if outcome.startswith("= 0 ")}
    wrong = [tuple(more if at == place else 0 for at in range(3)) for place in range(3) for more in OTHERWISE]
    due = {(is_table, one, "1") for is_table in (False, True) for one in wrong}
    due |= {(False, (0, 0, 0), "7"), (True, (0, 0, 0), "0"), (True, (0, 0, 0), "8")}
    return (due | {1, 2, 257, 1_025}) - seen


def merges_missing(asked):
    """What was never tried: a kind among the lines of two listings that became one, a listing of so few lines, a reason why two could not."""
    seen, why = set(), set()
    for call, outcome in asked:
        if not call.startswith("merge "):
            continue
        one, other = (array_of(word, BYTES) for word in call.split()[1:3])
        if outcome.startswith("= 0 "):
            seen |= {chr(line[0]) for text in (one, other) for line in text.splitlines()[1:]}
            seen |= {min(text.count(b"\n") for text in (one, other))}
        elif outcome.startswith("= 16 "):
            why.add(reason(one, other))
    return ({*LETTERS.values(), 1, 2, 3} - seen) | (REASONS - why)


REASONS = {"form", "number", "tracks", "order", "sender", "clocks", "keys", "sum"}


def fault_of(text):
    """Why a text is no listing, or nothing."""
    why = "form"
    try:
        header, *lines = checker.lines_of(text)
        why = "number"
        tracks = listings.numbers_of(header)[1]
        why = "sender"
        keys = [listings.key_in(line) for line in lines]
    except Refused:
        return why
    if tracks != len(lines):
        return "tracks"
    return "" if keys == sorted(set(keys)) else "order"


def reason(one, other):
    """Why two texts cannot become one listing."""
    fault = fault_of(one) or fault_of(other)
    if fault:
        return fault
    (clock, lines, bad), (other_clock, other_lines, other_bad) = listings.read(one), listings.read(other)
    if clock != other_clock:
        return "clocks"
    return "keys" if lines.keys() & other_lines.keys() else "sum" if bad + other_bad > LAST else "none"


def for_structs(call):
    """Can structs say a call? The result array has its own length, a state 32 bits, and what is replayed makes a key."""
    name, *words = call.split()
    function = FUNCTIONS[name]
    lent = len([one for one in (function.table, function.given) if one])
    if function.given == WORDS and len(array_of(words[lent - 1], WORDS)) != AT["FIELDS"]:
        return False
    if name == "receive_stamp" and any(int(word) >= 2**32 for word in words[-AT["STAMPS"] :]):
        return False
    if name == "replay_coarse" and not all(int(word) < 2**bits for word, bits in zip(words[lent + 1 :], (24, 1, 4), strict=True)):
        return False
    if name in ("replay", "replay_at") and not (int(words[lent + 1]) < 2**7 and int(words[lent + 2]) < 2**24):
        return False
    due = lengths_due(function, array_of(words[0], BYTES) if function.table else b"", array_of(words[1], BYTES) if name == "merge" else b"")
    return not function.result or [int(word) for word in words[lent : lent + len(due)]] == due


def answers_otherwise(program, asked):
    """What a program of C does that the model does not: a fault, or the first difference. None if there is nothing."""
    done = ran(f"{C}/{program}", given="".join(f"{call}\n" for call, _ in asked).encode("ascii"))
    found = difference(asked, done.stdout.decode("ascii").splitlines())
    return f"{program}: status {done.returncode} {done.stderr.decode()}\n{found}" if done.returncode != 0 or found else None


def fits_microbit(call):
    """Does a board with 16 KiB have room for a call? An array has 2,048 bytes at most, and a check has a table of its own on the stack."""
    name, *words = call.split()
    if name == "check" or any(len(word) > 2 * 2_048 for word in words):
        return False
    if name == "merge":
        return int(words[2]) <= 2_048
    return name != "listing" or (int(words[1]) <= 2_048 and int(words[2]) <= 2_048 // 128)


def tried():
    """The calls, in which all is tried that must be."""
    asked = list(calls(Random(12)))
    untried = [numbers_missing(asked), kinds_missing(asked), lost_missing(asked), traffic_missing(asked)]
    untried += [steps_missing(asked), shown_missing(asked), me_missing(asked), full_missing(asked), doubled_missing(asked)]
    untried += [replays_missing(asked), status_missing(asked), coarse_missing(asked), listings_missing(asked), merges_missing(asked)]
    if header_faults() or any(untried):
        sys.exit(f"the header has other numbers than RULES 3.2, or these were never tried: {header_faults()} {untried}")
    return asked


def main():
    asked = once("calls", tried)
    with_structs = {"easy", "easy-cpp"} & built()
    said = [(call, outcome) for call, outcome in asked if for_structs(call)] if with_structs else []
    programs = {"calls": asked} | dict.fromkeys(sorted(with_structs), said)
    programs |= {program: asked for program in built() if program == "calls-arm1176"}
    programs |= {program: [row for row in asked if fits_microbit(row[0])] for program in built() if program == "calls-microbit"}
    for program, lines in programs.items():
        fault = answers_otherwise(program, lines)
        if fault:
            print(fault)
            return 1
    counts = ", ".join(f"{program} {len(lines)}" for program, lines in programs.items())
    print(f"{len(FUNCTIONS)} functions, calls by {counts}: the library answers and leaves what the model does")
    print(f"{COARSE_MES} random MEs under CF 3: each comes back as the same 14 bytes")
    return 0


if __name__ == "__main__":
    sys.exit(main())
