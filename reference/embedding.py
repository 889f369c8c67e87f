"""The C interface: what each function of include/addercoil.h answers, and what it leaves, by the model.

Entries of an array stand where the header's enums say: the header is read for them, so a wrong index is a difference.
A call is a line, as tests/c/call.h says: NAME [TABLE] [GIVEN] [LENGTH] [ORDER WRITTEN] NUMBER.. = ANSWER [RESULT] [WRITTEN] [TABLE].
"""

import re
from collections.abc import Callable
from pathlib import Path
from typing import NamedTuple

import captures
import checker
import degrees
import integrity
import listings
import messages
import positions
import readings
import replay as plain_method
import stamps
import table as tables
from refusals import Refused, fits
from tracks import KINDS, C, M, N, T, key_of, kind_in

HEADER = Path(__file__).resolve().parent.parent / "include/addercoil.h"
FRESH = 0xA5  # what each byte of a result array holds before the call
BYTES, WORDS = 1, 8  # the size of an element
GROUND_KINDS = T, M, N, C  # what a ground station's traffic service sends


def header_numbers():
    """Every constant of the header's enums and every plain #define, by its name without the prefix."""
    text = re.sub(r"/\*.*?\*/", "", HEADER.read_text(), flags=re.S)
    found = {name: int(value) for name, value in re.findall(r"#define ADDERCOIL_(\w+) (\d+)$", text, flags=re.M)}
    for inside in re.findall(r"enum \{(.*?)\}", text, flags=re.S):
        value = -1
        for name, given in re.findall(r"ADDERCOIL_(\w+)(?: = (\d+))?", inside):
            value = int(given) if given else value + 1
            found[name] = value
    return found


AT = header_numbers()


# Numbers


def signed(number):
    """The number, from -2^31 to below 2^31, of 32 bits."""
    return number - 2**32 if number >= 2**31 else number


def twos(number):
    """A number in two's complement, of 64 bits."""
    return number % 2**64


def row(length, entries):
    """An array of words: the named entries, the others 0."""
    made = [0] * length
    for name, value in entries.items():
        made[AT[name]] = twos(value)
    return made


def reading(name, value):
    """What a reading is, and its value."""
    words = {readings.UNKNOWN: "UNKNOWN", readings.OVER: "OVER", "reserved": "NONE", "stopped": "STOPPED"}
    if value in words:
        return {f"{name}_IS": AT[words[value]]}
    return {f"{name}_IS": AT["KNOWN"], name: value}


# Tracks


def track_row(track, kind):
    """The entries of a track that is held, of this kind."""
    entries = {"TRACK_HELD": 1, "TRACK_HEARD": track.heard, "TRACK_IDENTIFICATION": track.identification}
    entries |= {"TRACK_VELOCITY": track.velocity, "TRACK_SURFACE": track.surface, "TRACK_STATUS": track.status}
    entries |= {"TRACK_PRESSURE_CODE": track.pressure, "TRACK_HEIGHT_CODE": track.height}
    entries |= {"TRACK_POSITION_TYPE": track.typecode, "TRACK_POSITION_BIT8": track.bit8}
    entries |= {"TRACK_POSITION_KNOWN": track.position.known, "TRACK_POSITION_TIME": track.position.time}
    entries |= {"TRACK_LATITUDE": track.position.latitude, "TRACK_LONGITUDE": track.position.longitude}
    for name, saved in zip(("EVEN", "ODD"), track.saved):
        entries |= {f"TRACK_{name}_KNOWN": saved.known, f"TRACK_{name}_TIME": saved.time}
        entries |= {f"TRACK_{name}_LATITUDE_COUNT": saved.latitude, f"TRACK_{name}_LONGITUDE_COUNT": saved.longitude}
    for name, code in (("TRACK_ALTITUDE", track.pressure), ("TRACK_GNSS_HEIGHT", track.height)):
        entries |= reading(name, readings.altitude(code)) | reading(f"{name}_STEP", readings.step(code))
    return entries | shown(track, kind) | integrity_row(track, kind)


def integrity_row(track, kind):
    """The version of a key's messages, the supplements that it has, and the integrity of the latest position message."""
    entries = {"TRACK_VERSION": integrity.version(kind, track.status)}
    for name, bit in zip("ABC", integrity.supplements(kind, track.status, track.bit8)):
        entries[f"TRACK_SUPPLEMENT_{name}"] = bit
    said = integrity.integrity(kind, track.status, track.typecode, track.bit8)
    if said == readings.UNKNOWN:
        return entries | {"TRACK_INTEGRITY_IS": AT["INTEGRITY_UNKNOWN"]}
    return entries | {"TRACK_INTEGRITY_IS": AT[f"INTEGRITY_{said[0]}"], "TRACK_INTEGRITY": said[1]}


# What people are shown of a track, by the header's names: of a layout its readings, and fields as readings that are known
RATE = {"RATE": "VERTICAL_RATE", "RATE_SOURCE": "VERTICAL_SOURCE"}
SHOWN = {
    "IDENTIFICATION": {"CALLSIGN": "IDENTIFICATION_TEXT", "CATEGORY_SET": "IDENTIFICATION_SET", "CATEGORY": "IDENTIFICATION_CATEGORY"},
    "GROUND": {"EAST": "GROUND_EAST", "NORTH": "GROUND_NORTH", **RATE},
    "AIR": {"HEADING": "AIR_TURN", "HEADING_STATUS": "AIR_STATUS", "AIRSPEED": "AIR_SPEED", "AIRSPEED_KIND": "AIR_AIRSPEED_KIND", **RATE},
    "SURFACE": {"MOVEMENT": "SURFACE_SPEED", "SURFACE_HEADING": "SURFACE_TURN", "SURFACE_STATUS": "SURFACE_STATUS"},
    "COARSE": {"ANGLE": "COARSE_ANGLE", "ANGLE_STATUS": "COARSE_STATUS", "SPEED": "COARSE_SPEED"},
}


def last_said(track, kind):
    """The last ME of each group, and the layout that it is read by; of kind C the velocity is a coarse message, whatever its bits."""
    velocity = "COARSE" if kind == C else layout_in(track.velocity)
    groups = (track.identification, layout_in(track.identification), {"IDENTIFICATION"}), (track.surface, layout_in(track.surface), {"SURFACE"})
    for number, layout, own in (*groups, (track.velocity, velocity, {"GROUND", "AIR", "COARSE"})):
        if layout in own:  # else none was heard
            yield number, layout


def shown(track, kind):
    """What people are shown: of the last ME of each group, and whether the last position came from the ground."""
    entries, traffic = {}, kind in GROUND_KINDS
    for number, layout in last_said(track, kind):
        said = me_row(number, layout, traffic)
        for name, of in SHOWN[layout].items():
            if traffic and name == "RATE_SOURCE":
                continue  # not sent
            entries[f"TRACK_{name}_IS"] = said.get(f"{of}_IS", AT["KNOWN"])
            entries[f"TRACK_{name}"] = said.get(of, 0)
    if any(saved.known for saved in track.saved):  # an airborne position is saved, and a surface position clears both
        return entries | reading("TRACK_ON_GROUND", 0)
    return entries | (reading("TRACK_ON_GROUND", 1) if track.surface else {})


# Messages

# The entries of ME after TYPE, in the order of their bits; the header's names in the order of RULES 2. A coarse one has no TYPE
PLACE = ["T", "F", "LATITUDE_COUNT", "LONGITUDE_COUNT"]
VERTICAL = ["SOURCE", "DOWN", "RATE_CODE", "RESERVED", "BELOW", "DIFFERENCE_CODE"]
VELOCITY = ["SUBTYPE", "BIT9", "BIT10", "NACV"]
STATUS = ["SUBTYPE", "CLASS", "BIT20", "WIDTH", "MODE", "VERSION_CODE", "SUPPLEMENT_A_CODE", "NACP"]
STATUS += ["BITS49", "SIL", "BIT53", "BIT54", "BITS55"]
COARSE = ["FLAG", "SURVEILLANCE", "STATION", "ALTITUDE_CODE", "STATUS", "ANGLE_CODE", "SPEED_CODE", "F", "LATITUDE_COUNT", "LONGITUDE_COUNT"]
LAYOUTS = {
    "IDENTIFICATION": (messages.IDENTIFICATION, ["CATEGORY", "CHARACTERS"]),
    "SURFACE": (messages.SURFACE, ["MOVEMENT_CODE", "STATUS", "HEADING_CODE", *PLACE]),
    "AIRBORNE": (messages.AIRBORNE, ["SURVEILLANCE", "BIT8", "ALTITUDE_CODE", *PLACE]),
    "GROUND": (messages.OVER_GROUND, [*VELOCITY, "WEST", "EASTWARD_CODE", "SOUTH", "NORTHWARD_CODE"]),
    "AIR": (messages.THROUGH_AIR, [*VELOCITY, "STATUS", "HEADING_CODE", "AIRSPEED_KIND", "AIRSPEED_CODE"]),
    "STATUS": (messages.STATUS, STATUS),
    "COARSE": (messages.COARSE, COARSE),
}


def entry_names(layout):
    """Of each field of ME after TYPE its name in the model and in the header."""
    fields, own = LAYOUTS[layout]
    names = [f"{layout}_{name}" for name in own]
    if layout in ("GROUND", "AIR"):
        names += [f"VERTICAL_{name}" for name in VERTICAL]
    return list(zip([name for name, _, _ in fields], names, strict=True))


def layout_of(message):
    """The header's name for the layout of a message."""
    fields = messages.layout_of(message)
    return next(name for name, (one, _) in LAYOUTS.items() if one is fields)


def layout_in(number):
    """The header's name for the layout of an ME by its TYPE and subtype, or None."""
    fields = messages.layout(number >> 51, number >> 48 & 7)
    return next((name for name, (one, _) in LAYOUTS.items() if one is fields), None)


def number_of_text(text):
    """A text as one number, the first character the highest byte."""
    return int.from_bytes(text.encode("ascii"), "big")


def edge_reading(name, value):
    """The lower edge of a movement, or of a coarse speed; of the last range, over."""
    if value.startswith("from "):
        return reading(name, int(value.removeprefix("from ")))
    if value.endswith(" and up"):
        return {f"{name}_IS": AT["OVER"], name: int(value.removesuffix(" and up"))}
    return reading(name, value)


# The header's names for the readings of each layout, in the model's order
READINGS = {
    "IDENTIFICATION": ["IDENTIFICATION_SET", "IDENTIFICATION_TEXT"],
    "SURFACE": ["SURFACE_SPEED", "SURFACE_TURN"],
    "AIRBORNE": ["AIRBORNE_ALTITUDE", "AIRBORNE_GNSS", "AIRBORNE_STEP"],
    "GROUND": ["GROUND_EAST", "GROUND_NORTH", "VERTICAL_RATE", "VERTICAL_DIFFERENCE"],
    "AIR": ["AIR_TURN", "AIR_SPEED", "VERTICAL_RATE", "VERTICAL_DIFFERENCE"],
    "STATUS": ["STATUS_VERSION", "STATUS_SUPPLEMENT_A", "STATUS_SUPPLEMENT_C"],
    "COARSE": ["COARSE_ALTITUDE", "COARSE_STEP", "COARSE_ANGLE", "COARSE_SPEED"],
}


def layout_readings(layout, message, traffic):
    """What the codes of a message mean, in a ground station's traffic or elsewhere."""
    meant = readings.body(LAYOUTS[layout][0], message, traffic)
    if layout == "IDENTIFICATION":
        meant |= {"set": ord(meant["set"]), "text": number_of_text(meant["text"])}
    entries = {}
    for name, (of, value) in zip(READINGS[layout], meant.items(), strict=True):
        entries |= edge_reading(name, value) if of in ("movement", "speed") else reading(name, value)
    return entries


HEAD = {"DF": "DF", "CA or CF": "CA", "AA": "AA", "TYPE": "TYPECODE"}  # the model's names, and the header's


def message_row(message):
    """The entries of a decoded message."""
    layout = layout_of(message)
    entries = {"LAYOUT": AT[f"LAYOUT_{layout}"], "KEY": key_of(message)}
    entries |= {ours: message[name] for name, ours in HEAD.items() if name in message}
    entries |= {ours: message[name] for name, ours in entry_names(layout)}
    return entries | layout_readings(layout, message, messages.is_traffic(message))


def me_row(number, layout, traffic):
    """The entries of an ME by itself, by its layout, of a ground station's traffic or not."""
    string = number.to_bytes(7, "big")
    said = {name: messages.field(string, first, last) for name, first, last in LAYOUTS[layout][0]}
    said |= {} if layout == "COARSE" else {"TYPE": messages.field(string, 1, 5)}
    entries = {"LAYOUT": AT[f"LAYOUT_{layout}"]} | ({"TYPECODE": said["TYPE"]} if "TYPE" in said else {})
    return entries | {ours: said[name] for name, ours in entry_names(layout)} | layout_readings(layout, said, traffic)


def message_from(fields):
    """The message that an array of fields says, by its layout; 8 for a layout that is none."""
    layout = next((name for name in LAYOUTS if AT[f"LAYOUT_{name}"] == fields[AT["LAYOUT"]]), None)
    if layout is None:
        raise Refused(8)
    message = {name: fields[AT[ours]] for name, ours in HEAD.items() if layout != "COARSE" or name != "TYPE"}
    return message | {name: fields[AT[ours]] for name, ours in entry_names(layout)}


# Calls: each gives its result array, as numbers or as bytes, or raises Refused


def version():
    """That of the header: a program whose header and archive differ can see it."""
    return AT["VERSION"]


def table_bytes(places):
    """The one answer that is no number of RULES 3.2."""
    return tables.length_of(places) if 1 <= places <= tables.MOST_PLACES else 0


def set_up(table):
    """Empties the table."""
    tables.set_up(table)


def set_up_at(table, latitude, longitude):
    """Empties the table, and takes a site."""
    tables.set_up(table, (signed(latitude % 2**32), longitude % 2**32))


def receive(table, message, time):
    """A message at a time."""
    tables.receive(table, message, time)


class Wrote(Exception):
    """A refusal that leaves its result array written: of a message whose stamp was accepted."""

    def __init__(self, number, result):
        super().__init__(number)
        self.number, self.result = number, result


def stamps_row(state):
    """The entries of a state."""
    return row(AT["STAMPS"], {"STAMP_STARTED": state.started, "STAMP_LAST": state.last})


def receive_stamp(table, message, stamp, started, last):
    """A message with a stamp, and the state before it: 1, 7, then 8 for a state that is none."""
    if len(message) != 14:
        raise Refused(1)
    tables.places(table)
    fits(started, 1)
    fits(last, 32)
    before = stamps.Stamps(started == 1, last)
    answer, after = stamps.receive(table, before, message, stamp % 2**32)
    if not isinstance(answer, Refused):
        return stamps_row(after)
    if answer.number in stamps.NOT_ACCEPTED:
        raise answer
    raise Wrote(answer.number, stamps_row(after))


def clock(table):
    """The clock, at entry 0."""
    return [tables.clock_of(table)]


def site(table):
    """Whether there is one, and where."""
    found = tables.site_of(table)
    if found is None:
        return row(AT["SITE"], {})
    return row(AT["SITE"], {"SITE_KNOWN": 1, "SITE_LATITUDE": found[0], "SITE_LONGITUDE": found[1]})


def next_key(table, key):
    """The next key, or 0."""
    return [tables.next_key(table, key % 2**32) or 0]


def look_up(table, key):
    """The track of a key, all 0 if it is not held."""
    key %= 2**32
    track = tables.look_up(table, key)
    return row(AT["TRACK"], {} if track is None else track_row(track, kind_in(key)))


def replayed(log, kind, address, site=None, flag=0, station=0):
    """The track of a key worked out again, all 0 if it is not held."""
    track = plain_method.replay(log, kind, address, site, flag, station)
    return row(AT["TRACK"], {} if track is None else track_row(track, kind))


def by_number(log, kind, address, site):
    """The same by the number of a kind, I to N; 14, then 8 for one that is none too."""
    kind, address = kind % 2**32, address % 2**32
    return replayed(log, kind, address if kind in KINDS and kind != C else 2**24, site)


def replay(log, kind, address):
    """Without a site."""
    return by_number(log, kind, address, None)


def replay_at(log, kind, address, latitude, longitude):
    """With one."""
    return by_number(log, kind, address, (signed(latitude % 2**32), longitude % 2**32))


def replay_coarse(log, address, flag, station):
    """Of kind C, with a flag and a station."""
    return replayed(log, C, address % 2**32, None, flag % 2**32, station % 2**32)


def check(capture, listing):
    """0 for yes, else the line at fault; 14, then 16."""
    return [checker.check(bytes(capture), listing)]


def text_bytes(text):
    """A line and its newline, then zeros."""
    return text.encode("ascii").ljust(AT["LINE"], b"\0")


def asks_for_all(table, every):
    """Whether all tracks are asked for; 7, then 8 for a number that is neither 0 nor 1."""
    tables.places(table)
    fits(every % 2**32, 1)
    return every % 2**32 == 1


LISTED = 128  # bytes that a listing has room for, of each line and of the header


def places_in(table, _given=b""):
    """How many places bytes have room for behind the head, whether they are a table or not."""
    return max(0, len(table) - tables.HEAD) // (tables.KEY + tables.BODY)


def listing_bytes(table, _given=b""):
    """How many bytes the listing of a table is given."""
    return LISTED * (places_in(table) + 1)


def listing(table, bad, every):
    """The whole listing, then zeros; and the length of the text."""
    text = captures.listing_of(table, bad, asks_for_all(table, every)).encode("ascii")
    return text.ljust(listing_bytes(table), b"\0"), [len(text)]


def merged_bytes(one, other):
    """How many bytes the listing of both is given."""
    return len(one) + len(other)


def merge(one, other):
    """Two listings as one, then zeros; and the length of the text."""
    text = listings.merge(bytes(one), bytes(other))
    return text.ljust(merged_bytes(one, other), b"\0"), [len(text)]


def header(table, bad, every):
    """The listing's first line."""
    return text_bytes(captures.header(table, bad, asks_for_all(table, every)) + "\n")


def line(table, key, every):
    """The line of a key, empty if it is not held or not shown."""
    every, key = asks_for_all(table, every), key % 2**32
    track = tables.look_up(table, key)
    has_line = track is not None and captures.is_shown(track, every)
    return text_bytes(captures.line(key, track) + "\n" if has_line else "")


def feed_block(table, block, bad):
    """The records of a block, or one more bad block."""
    tables.places(table)
    try:
        records = captures.records_of(block)
    except Refused:
        return [min(bad + 1, 2**64 - 1)]
    for time, string in records:
        captures.offer(table, string, time)
    return [bad]


TURNS = {0: positions.AIRBORNE, 1: positions.SURFACE}


def turn_and_i(surface, odd):
    """The turn and i; 8 where one of the two is above 1."""
    surface, odd = surface % 2**32, odd % 2**32
    fits(surface, 1)
    fits(odd, 1)
    return TURNS[surface], odd


def place_row(place):
    """A latitude and a longitude."""
    return row(AT["SPOT"], {"SPOT_LATITUDE": place[0], "SPOT_LONGITUDE": place[1]})


def encode_position(latitude, longitude, surface, odd, size=positions.COUNTS):
    """The two counts of a place."""
    counts = positions.encode(*turn_and_i(surface, odd), signed(latitude % 2**32), longitude % 2**32, size)
    return row(AT["COUNTS"], {"COUNT_LATITUDE": counts[0], "COUNT_LONGITUDE": counts[1]})


def encode_position_coarse(latitude, longitude, odd):
    """The two coarse counts of a place; a coarse message is airborne."""
    return encode_position(latitude, longitude, 0, odd, positions.COARSE)


def pair(even_latitude, even_longitude, odd_latitude, odd_longitude, later_odd, size=positions.COUNTS):
    """The place of two messages."""
    counts = [count % 2**32 for count in (even_latitude, even_longitude, odd_latitude, odd_longitude)]
    fits(later_odd % 2**32, 1)
    return place_row(positions.pair(later_odd % 2**32, *counts, size=size))


def pair_coarse(*numbers):
    """The place of two coarse messages."""
    return pair(*numbers, positions.COARSE)


def single(latitude, longitude, count_latitude, count_longitude, surface, odd, size=positions.COUNTS):
    """The place of one message near a reference."""
    reference = signed(latitude % 2**32), longitude % 2**32
    counts = count_latitude % 2**32, count_longitude % 2**32
    return place_row(positions.single(*turn_and_i(surface, odd), *counts, *reference, size=size))


def single_coarse(latitude, longitude, count_latitude, count_longitude, odd):
    """The place of one coarse message."""
    return single(latitude, longitude, count_latitude, count_longitude, 0, odd, positions.COARSE)


def to_degrees(latitude, longitude):
    """The bit patterns of both figures."""
    figures = degrees.to_degrees(signed(latitude % 2**32), longitude % 2**32)
    return row(AT["DEGREES"], {"DEGREES_LATITUDE": figures[0], "DEGREES_LONGITUDE": figures[1]})


def from_degrees(latitude, longitude):
    """The place of two bit patterns."""
    return place_row(degrees.from_degrees(latitude, longitude))


def decode(message):
    """What a message says."""
    return row(AT["FIELDS"], message_row(messages.decode(message)))


def key(message):
    """The key of a message."""
    return [key_of(messages.decode(message))]


def me(number, key):
    """What an ME of a key says; 8 for more than 56 bits or what is no key, then 5. Of kind C every ME is a coarse message's."""
    fits(number, 56)
    kind = kind_in(key % 2**32)
    if kind is None:
        raise Refused(8)
    layout = "COARSE" if kind == C else layout_in(number)
    if layout is None:
        raise Refused(5)
    return row(AT["FIELDS"], me_row(number, layout, kind in GROUND_KINDS))


def encode(fields):
    """The message that says the fields."""
    if len(fields) != AT["FIELDS"]:
        raise Refused(1)
    return messages.encode(message_from(fields))


READS, WRITES = "reads", "writes"


class Function(NamedTuple):
    """A function of the header."""

    answer: Callable
    table: str | None = None  # what it does with the table that it is lent
    given: int | None = None  # the size of an element of the array that it is given
    length: int | Callable = 0  # how many elements its result array has, or how many by the table and the array that it is given
    result: int | None = None  # and of what size
    besides: tuple = ()  # of what it is lent besides, words: how many, or how many by these two


FUNCTIONS = {
    "version": Function(version),
    "table_bytes": Function(table_bytes),
    "set_up": Function(set_up, WRITES),
    "set_up_at": Function(set_up_at, WRITES),
    "receive": Function(receive, WRITES, BYTES),
    "receive_stamp": Function(receive_stamp, WRITES, BYTES, AT["STAMPS"], WORDS),
    "clock": Function(clock, READS, None, 1, WORDS),
    "site": Function(site, READS, None, AT["SITE"], WORDS),
    "next": Function(next_key, READS, None, 1, WORDS),
    "look_up": Function(look_up, READS, None, AT["TRACK"], WORDS),
    "replay": Function(replay, None, BYTES, AT["TRACK"], WORDS),
    "replay_at": Function(replay_at, None, BYTES, AT["TRACK"], WORDS),
    "replay_coarse": Function(replay_coarse, None, BYTES, AT["TRACK"], WORDS),
    "check": Function(check, READS, BYTES, 1, WORDS),  # it reads a capture in place of a table
    "merge": Function(merge, READS, BYTES, merged_bytes, BYTES, (1,)),  # it reads a listing in place of a table
    "listing": Function(listing, READS, None, listing_bytes, BYTES, (places_in, 1)),  # order and written
    "header": Function(header, READS, None, AT["LINE"], BYTES),
    "line": Function(line, READS, None, AT["LINE"], BYTES),
    "feed_block": Function(feed_block, WRITES, BYTES, 1, WORDS),
    "encode_position": Function(encode_position, None, None, AT["COUNTS"], WORDS),
    "pair": Function(pair, None, None, AT["SPOT"], WORDS),
    "single": Function(single, None, None, AT["SPOT"], WORDS),
    "encode_position_coarse": Function(encode_position_coarse, None, None, AT["COUNTS"], WORDS),
    "pair_coarse": Function(pair_coarse, None, None, AT["SPOT"], WORDS),
    "single_coarse": Function(single_coarse, None, None, AT["SPOT"], WORDS),
    "degrees": Function(to_degrees, None, None, AT["DEGREES"], WORDS),
    "from_degrees": Function(from_degrees, None, None, AT["SPOT"], WORDS),
    "decode": Function(decode, None, BYTES, AT["FIELDS"], WORDS),
    "key": Function(key, None, BYTES, 1, WORDS),
    "encode": Function(encode, None, WORDS, AT["MESSAGE"], BYTES),
    "me": Function(me, None, None, AT["FIELDS"], WORDS),
}
NUMBERS = "version", "table_bytes"  # whose answer is no refusal, but a number


# Lines


def array_text(array, element):
    """An array in hex, "-" if it is empty."""
    whole = bytes(array) if element == BYTES else b"".join(number.to_bytes(element, "big") for number in array)
    return whole.hex() or "-"


def array_of(word, element):
    """The bytes of an array in hex, or its numbers."""
    whole = bytes.fromhex("" if word == "-" else word)
    if element == BYTES:
        return whole
    return [int.from_bytes(whole[at : at + element], "big") for at in range(0, len(whole), element)]


def lengths_due(function, table, given=b""):
    """How many elements its result array has, and what it is lent besides."""
    return [due(table, given) if callable(due) else due for due in (function.length, *function.besides)]


def call_text(name, *, table=b"", given=(), length=0, besides=(), numbers=()):
    """The first half of a line: the call. The length is that of its result array; besides are those of what it is lent besides."""
    function = FUNCTIONS[name]
    words = [name]
    words += [array_text(table, BYTES)] if function.table else []
    words += [array_text(given, function.given)] if function.given else []
    words += [str(length)] if function.result else []
    return " ".join([*words, *map(str, (*besides, *numbers))])


def fresh(length, element):
    """An array before the call."""
    return [int.from_bytes(bytes([FRESH]) * element, "big")] * length


def arrays_left(function, left):
    """The arrays of a call that is not refused, each with the size of an element: the result, and of a listing or of two as one what was written."""
    return [*zip(left, (function.result, WORDS))] if function.besides else [(left, function.result)] if function.result else []


def answered(function, lengths, arguments):
    """The answer, and each array of the outcome after the call, with the size of an element."""
    try:
        if function.result and lengths != lengths_due(function, arguments[0] if function.table else b"", arguments[1] if function.given and function.table else b""):
            raise Refused(1)
        return 0, arrays_left(function, function.answer(*arguments))
    except Wrote as refusal:
        return refusal.number, arrays_left(function, refusal.result)
    except Refused as refusal:
        before = arguments[-AT["STAMPS"] :] if function.answer is receive_stamp else []  # the array that is read too
        left = [([*before, *fresh(length, function.result)][:length], function.result) for length in lengths[:1]]
        return refusal.number, left + [(fresh(length, WORDS), WORDS) for length in lengths[1:][-1:]]  # of order nothing is said


def outcome_text(call):
    """The second half: what the model answers to a call, and what it leaves."""
    name, *words = call.split()
    function, words = FUNCTIONS[name], iter(words)
    table = bytearray(array_of(next(words), BYTES)) if function.table else None
    arguments = [table] if function.table else []
    arguments += [array_of(next(words), function.given)] if function.given else []
    lengths = [int(next(words)) for _ in (lengths_due(function, table or b"") if function.result else ())]
    arguments += map(int, words)
    if name in NUMBERS:
        return f"= {function.answer(*arguments)}"
    answer, left = answered(function, lengths, arguments)
    words = ["=", str(answer), *(array_text(array, element) for array, element in left)]
    words += [array_text(table, BYTES)] if function.table == WRITES else []
    return " ".join(words)
