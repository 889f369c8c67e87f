"""Compares the package for Python, bindings/python, with the model.

    python3 reference/run_python.py

The calls of tests/c are made by its lower half, addercoil.calls, with guards around what is lent. All samples go through its upper half
and its commands: listings, csv, tracks, messages, replays, checks, and lines that come live. Speed, direction and site are held to the
model in the second C header too, by tests/c/ground.c. 100,000 hostile calls run in a process of their own. Last, pip installs the package
in a plain environment, where nobody answers for a network, and its csv is the same. The first difference is named, and the status is 1.
"""

import ctypes
import math
import operator
import os
import pty
import shutil
import struct
import subprocess
import sys
from collections import Counter
from decimal import Decimal
from fractions import Fraction
from functools import cache
from pathlib import Path
from random import Random
from tempfile import TemporaryDirectory

import captures
import messages
import survey
import tracks
from degrees import DEGREE
from embedding import AT, FRESH, READINGS, entry_names, layout_of, message_row, track_row
from listings import merge as model_merge
from once import once
from programs import ROOT
from refusals import Refused
from replay import replay
from run_calls import MERGES, some_texts, tried
from run_captures import message
from run_check import due as check_due
from run_check import for_people
from run_live import chunk, counted, damaged_lines, listings
from run_live import model as live_model
from vectors.message_vectors import random_acceptable, sealed_message

PACKAGE = ROOT / "bindings/python"
sys.path.insert(0, str(PACKAGE))
import addercoil  # noqa: E402  built from dist/ now, if it is not yet

HOSTILE = 100_000
GUARD, GUARDS = 0x5C, 64
SITE = 52.31, 4.76
MOST = 1024
SAMPLES = sorted((ROOT / "samples").glob("*.capture"))
NOBODY = "http://127.0.0.1:9/"  # where no package can be had


def due(what, found, expected):
    """Ends the test where something else was found."""
    if found != expected:
        sys.exit(f"run_python: {what}: found\n{str(found)[:2000]}\nand expected\n{str(expected)[:2000]}")


def command(*words, given=b"", python=sys.executable, environment=None, folder=ROOT):
    """What came of a command of the package."""
    environment = os.environ | {"PYTHONPATH": str(PACKAGE)} if environment is None else environment
    words = [python, "-B", "-m", "addercoil", *map(str, words)]
    return subprocess.run(words, input=given, env=environment, cwd=folder, capture_output=True, timeout=300, check=False)


# The calls of tests/c

SIZES = {"u8": 1, "u64": 8, "f64": 8}
LATER = "order", "written"  # of a listing: behind the result array
TABLES = "table", "capture", "a"  # what comes first in a line; of two listings a


def role_of(name, use):
    """What an array is in the line of a call."""
    if name in TABLES:
        return "table"
    return "given" if use == "reads" else name if name in LATER else "result"


def turned(whole, size):
    """Elements of 64 bits stand high byte first in a line, and low byte first in memory."""
    return b"".join(whole[at : at + size][::-1] for at in range(0, len(whole), size)) if size > 1 else whole


class Lent:
    """An array between guards."""

    def __init__(self, kind, content):
        self.kind, self.size, self.content = kind, len(content), content
        self.memory = bytearray([GUARD]) * GUARDS + bytearray(content) + bytearray([GUARD]) * GUARDS
        count = self.size // SIZES[kind]
        self.array = (addercoil.calls.ELEMENTS[kind] * count).from_buffer(self.memory, GUARDS)

    def now(self):
        """What it holds."""
        return bytes(self.memory[GUARDS : GUARDS + self.size])

    def is_guarded(self):
        """Whether nothing beside it was written."""
        return self.memory[:GUARDS] == self.memory[GUARDS + self.size :] == bytearray([GUARD]) * GUARDS


def lent_for(parameters, words):
    """The arrays of a call by their roles, from the words of its line; and the words that are left, its numbers."""
    kinds = {role_of(name, use): kind for name, kind, use in parameters if use}
    lent = {}
    for role in ("table", "given"):
        if role in kinds:
            word = words.pop(0)
            lent[role] = Lent(kinds[role], turned(bytes.fromhex("" if word == "-" else word), SIZES[kinds[role]]))
    lengths = {role: int(words.pop(0)) for role in ("result", *LATER) if role in kinds}
    before = b"".join(struct.pack("<Q", int(word)) for word in words[sum(not use for _, _, use in parameters) :])
    for role, length in lengths.items():
        fresh = bytes([FRESH]) * (length * SIZES[kinds[role]])
        lent[role] = Lent(kinds[role], (before + fresh[len(before) :])[: len(fresh)])
    return lent


def number_for(kind, word):
    """A number as its parameter has it: cut as C does, since the lines of C have more bits; a double by its bit pattern."""
    number = int(word)
    if kind == "f64":
        return struct.unpack("<d", struct.pack("<Q", number))[0]
    if kind == "i32":
        return ctypes.c_int32(number).value
    return number % 2 ** int(kind[1:])


def answered(line):
    """What the package answers to the line of a call."""
    name, *words = line.split()
    _, parameters = addercoil.calls.FUNCTIONS[name]
    lent = lent_for(parameters, words)
    given = [lent[role_of(one, use)].array if use else number_for(kind, words.pop(0)) for one, kind, use in parameters]
    number = getattr(addercoil.calls, name)(*given)
    uses = {role_of(one, use): use for one, _, use in parameters if use}
    for role, one in lent.items():
        if not one.is_guarded() or ((uses[role] == "reads" or (role == "order" and number)) and one.now() != one.content):
            sys.exit(f"run_python: {name}: what was lent to be read, or lies beside it, was written: {line[:200]}")
    left = [role for role in ("result", "written", "table") if uses.get(role) == "writes"]
    texts = [turned(lent[role].now(), SIZES[lent[role].kind]).hex() or "-" for role in left]
    return " ".join(["=", str(number), *texts])


def every_call():
    """The calls of tests/c, and that every function of the header is among them."""
    rows = once("calls", tried)
    due("the functions called", {call.split()[0] for call, _ in rows}, set(addercoil.calls.FUNCTIONS))
    for call, outcome in rows:
        found = answered(call)
        if found != outcome:
            due(call[:300], found, outcome)
    return len(rows)


# Tracks


def is_root(value, square):
    """Is a double the nearest to the root of a whole number?"""
    below, above = (Fraction(math.nextafter(value, end)) for end in (0.0, 1e9))
    exact = Fraction(value)
    return ((below + exact) / 2) ** 2 <= square <= ((exact + above) / 2) ** 2 or (square == 0 and value == 0)


def same_speed(what, found, expected):
    """A speed is the exact one, or the nearest double to it."""
    if isinstance(expected, survey.Root):
        due(f"{what}: a root", isinstance(found, float) and is_root(found, expected.square), True)
    elif isinstance(expected, tuple):
        due(f"{what}: over", found, addercoil.Over(None if expected[1] is None else float(expected[1])))
    else:
        due(what, found, None if expected is None else float(expected))


def same_direction(what, found, expected):
    """A direction is within a millionth of a millionth of a turn of the exact one."""
    due(f"{what}: known", (found is None, expected is None), (expected is None,) * 2)
    if found is not None:
        due(f"{what} {found} {expected}", abs(Decimal(found) - expected) < Decimal("1e-12") and 0 <= found < 360, True)


@cache
def ground():
    """The functions of tests/c/ground.c."""
    made = ROOT / "target/python/ground.so"
    made.parent.mkdir(parents=True, exist_ok=True)
    with TemporaryDirectory(dir=made.parent) as folder:
        part = Path(folder) / "ground.so"
        words = ["-std=c99", "-Wall", "-Wextra", "-Werror", "-shared", "-fPIC", f"-I{ROOT}/include", ROOT / "tests/c/ground.c", *sorted((ROOT / "dist").glob("*.S")), "-lm"]
        subprocess.run(["gcc", *words, "-o", part], check=True)
        part.replace(made)
    return ctypes.CDLL(str(made))


def by_header(name, entries):
    """A speed or a direction by the second C header, as the package has it."""
    value = ctypes.c_double(-1)
    what = getattr(ground(), name)((ctypes.c_uint64 * AT["TRACK"])(*entries), ctypes.byref(value))
    due(f"{name}: 0 if it is unknown", what != AT["UNKNOWN"] or value.value == 0, True)
    due(f"{name}: what it is", what in (AT["KNOWN"], AT["OVER"], AT["UNKNOWN"]), True)
    return {AT["KNOWN"]: value.value, AT["OVER"]: addercoil.Over(value.value or None)}.get(what)


def value_of(entries, name):
    """A reading of the model as the package has it."""
    what, value = survey.told(entries, name)
    return {AT["KNOWN"]: value, AT["STOPPED"]: 0, AT["OVER"]: addercoil.Over()}.get(what)


def plain_of(key, track):
    """What the model says of a track, by the names of the package."""
    kind = tracks.kind_in(key)
    entries = track_row(track, kind)
    sender = tracks.sender_in(key) or (None, None)
    position = track.position
    latitude, longitude = survey.degrees_in(position)
    set_, number = value_of(entries, "CATEGORY_SET"), value_of(entries, "CATEGORY")
    said = {"kind": captures.KINDS[kind], "address": tracks.address_in(key), "flag": sender[0], "station": sender[1], "heard": track.heard}
    said |= {"callsign": survey.callsign(entries) if value_of(entries, "CALLSIGN") is not None else None}
    said |= {"category": None if set_ is None else f"{chr(set_)}{number}", "latitude": latitude, "longitude": longitude}
    said |= {"units": (position.latitude, position.longitude) if position.known else None, "position_time": position.time if position.known else None}
    ground = value_of(entries, "ON_GROUND")
    said |= {"on_ground": None if ground is None else ground == 1, "version": entries["TRACK_VERSION"]}
    for name in ("altitude", "altitude_step", "gnss_height", "gnss_height_step", "east", "north", "rate", "airspeed"):
        said[name] = value_of(entries, name.upper())
    for name, words in {"rate_source": ("geometric", "barometric"), "airspeed_kind": ("indicated", "true")}.items():
        number = value_of(entries, name.upper())
        said[name] = None if number is None else words[number]
    heading = survey.valid_turn(entries, "HEADING", "HEADING_STATUS")
    said["heading"] = None if heading is None else float(heading)
    for name in ("NUC", "NIC"):
        said[name.lower()] = entries.get("TRACK_INTEGRITY", 0) if entries["TRACK_INTEGRITY_IS"] == AT[f"INTEGRITY_{name}"] else None
    return said


def same_track(what, found, key, track):
    """Every name of a track, as the model has it."""
    entries = track_row(track, tracks.kind_in(key))
    expected = plain_of(key, track)
    due(what, {name: getattr(found, name) for name in expected}, expected)
    speed, direction = (of(entries, tracks.kind_in(key)) for of in (survey.ground_speed, survey.ground_direction))
    for how, knots, degrees in (("Python", found.speed, found.direction), ("C", *(by_header(name, found.entries) for name in ("ground_speed", "ground_direction")))):
        same_speed(f"{what}: speed by {how}", knots, speed)
        same_direction(f"{what}: direction by {how}", degrees, direction)


class Beside:
    """A table of the package and the model's tracks, which receive the same."""

    def __init__(self, site=None):
        self.ours = addercoil.Table(MOST, site)
        self.held = survey.Held(MOST, None if site is None else tuple(round(Fraction(one) / DEGREE) for one in site))
        self.count, self.seen = 0, Counter()

    def receive(self, string, time, as_hex):
        """The same message for both: as bytes or as hex."""
        self.ours.receive(string.hex() if as_hex else string, time)
        self.held.receive(string, time)

    def compare(self, what):
        """Every track of both."""
        keys = sorted(key for key in self.held.tracks if self.held.track(key) is not None)
        due(f"{what}: the keys", [track.key for track in self.ours], keys)
        for track in self.ours:
            same_track(f"{what}: {track}", track, track.key, self.held.track(track.key))
            self.seen[type(track.speed).__name__, "C" if track.kind == "C" else track.on_ground] += 1
        self.ours = addercoil.Table.from_bytes(self.ours.to_bytes())  # which goes on as the one that was saved
        due(f"{what}: the clock", (self.ours.clock, self.ours.site is None), (self.held.clock, self.held.site is None))
        self.count += len(keys)


def sample_tracks():
    """The tracks of each sample now and then, with a site and without; how many."""
    count = 0
    for path in SAMPLES:
        capture = addercoil.read_capture(path)
        due(f"{path.name}: its records", [tuple(one) for one in capture.records], list(survey.records_of(path.read_bytes())))
        for both in (Beside(), Beside(SITE)):
            for number, (time, string) in enumerate(capture.records, 1):
                both.receive(string, time, number % 2)
                if number % 1_000 == 0 or number == len(capture.records):
                    both.compare(f"{path.name}, record {number}")
            count += both.count
    return count


SORTS = {(speed, where) for speed in ("float", "Over", "NoneType") for where in (True, False, None)} | {("int", "C"), ("Over", "C"), ("NoneType", "C")}


def random_tracks():
    """Tracks of random messages of a few aircraft, looked at after each ten; all that a speed can be came, and of a direction."""
    chance, both, time = Random(50), Beside(SITE), 0
    for number in range(6_000):
        string = chance.choice((message, random_velocity, random_movement))(chance)
        time += chance.choice((0, 1, 400, 5_000, 60_000))
        both.receive(string, time, number % 2)
        if number % 10 == 0:
            both.compare(f"random message {number}")
    missing = SORTS - set(both.seen)
    due("sorts of speed that never came", missing, set())
    return both.count


def raised(function, *given):
    """The name of what a call raises, and if it refuses its number."""
    try:
        function(*given)
    except Exception as why:
        return type(why).__name__, why.refusal.number if isinstance(why, addercoil.Refused) else None
    return None


def no_table():
    """What cannot be taken up: bytes of a wrong length, and no bytes. A table that is closed, or takes stamps, is not saved."""
    for size in (0, 15, 16, 101, 103, 16 + 86 * 1_025):
        due(f"a table of {size} bytes", raised(addercoil.Table.from_bytes, bytes(size)), ("Refused", 7))
    due("a text", raised(addercoil.Table.from_bytes, "0" * 102), ("TypeError", None))
    for size in (102, 16 + 86 * MOST):
        due(f"a table of {size} bytes", len(addercoil.Table.from_bytes(bytes(size)).to_bytes()), size)
    stamped, closed = addercoil.Table(1), addercoil.Table(1)
    stamped.receive_stamp(bytes(14), 7)
    closed.close()
    for table in (stamped, closed):
        due("a table that is not saved", raised(table.to_bytes), ("ValueError", None))


def random_velocity(chance):
    """A velocity over ground or through air of one of a few aircraft, with codes at their ends more often than not."""
    codes = [chance.choice((0, 1, 2, 1022, 1023, chance.getrandbits(10))) for _ in range(2)]
    rest = chance.choice((1, 1, 1, 2, 3, 4)) << 48 | chance.getrandbits(8) << 43 | chance.getrandbits(1) << 42 | codes[0] << 32
    rest |= chance.getrandbits(1) << 31 | codes[1] << 21 | chance.getrandbits(21)
    return sealed_message(17, 5, chance.choice((0, 1, 0xABCDEF, 7)), 19, rest)


def random_movement(chance):
    """A surface position of one of a few aircraft, with any movement, those at the ends more often."""
    code = chance.choice((0, 1, 2, 123, 124, 125, chance.getrandbits(7)))
    return sealed_message(17, 5, chance.choice((0, 1, 0xABCDEF, 8)), chance.randrange(5, 9), code << 44 | chance.getrandbits(44))


# What is no number


def over_is_no_number():
    """No arithmetic takes an Over, no order, and no conversion; and what is unknown is None, of which the same holds."""
    binary = operator.add, operator.sub, operator.mul, operator.truediv, operator.floordiv, operator.mod, operator.pow, operator.lt, operator.ge
    tries = [(one, pair) for one in binary for pair in ((addercoil.Over(), 1), (1.5, addercoil.Over(175.0)))]
    tries += [(one, (addercoil.Over(175.0),)) for one in (operator.neg, abs, int, float, round, math.sqrt, operator.index, str.upper)]
    for function, given in tries:
        try:
            sys.exit(f"run_python: {function.__name__} of {given} is {function(*given)}")
        except TypeError:
            continue
    due("an Over as text", (str(addercoil.Over()), addercoil.Over() == addercoil.Over(1.0)), ("over", False))


# Sites

FIGURES = [0.0, -0.0, 45.0, 89.99999999, 90.0, -90.0, 90.00000001, 179.99999999, 180.0, -180.0, -180.00000001, 359.99999999, 360.0, 360.1]
FIGURES += [float("nan"), float("inf"), -float("inf"), 1e300, 5e-324, *(sign * float(part * DEGREE / 2) for part in (1, 2, 3, 2**31 + 1) for sign in (1, -1))]


def unit_due(degrees):
    """The unit nearest to an angle, a half away from zero; exactly."""
    exact = Fraction(degrees) / DEGREE
    nearest = int(abs(exact) + Fraction(1, 2))
    return nearest if exact >= 0 else -nearest


def every_site():
    """Degrees as people type them, in Python and in C: the nearest unit; and every spot of degrees comes back."""
    function, chance = ground().ground_site, Random(52)
    function.argtypes = [ctypes.c_double, ctypes.c_double, ctypes.c_void_p, ctypes.c_void_p]
    pairs = [(one, two) for one in FIGURES for two in FIGURES]
    pairs += [(round(chance.uniform(-91, 91), chance.randrange(2, 15)), round(chance.uniform(-181, 361), chance.randrange(2, 15))) for _ in range(20_000)]
    for latitude, longitude in pairs:
        expected = addercoil.Refusal(8)
        if -90 <= latitude <= 90 and -180 <= longitude <= 360:
            expected = unit_due(latitude), unit_due(longitude) % 2**32
        north, east = ctypes.c_int32(7), ctypes.c_uint32(7)
        number = function(latitude, longitude, ctypes.byref(north), ctypes.byref(east))
        by_c = addercoil.Refusal(number) if number and (north.value, east.value) == (7, 7) else (north.value, east.value)
        due(f"the site {latitude} {longitude}", (addercoil.units(latitude, longitude), by_c), (expected, expected))
    for _ in range(5_000):
        spot = chance.randrange(-(2**30), 2**30 + 1), chance.randrange(2**32)
        due(f"the spot {spot} in degrees and back", addercoil.units(*addercoil.degrees(*spot)), spot)
    due("a spot beyond", [addercoil.degrees(*one) for one in ((2**30 + 1, 0), (2**31, 0), (0, -1))], [addercoil.Refusal(8)] * 3)
    return len(pairs)


# Messages

UNITS_OF = {"turn": lambda value: float(value * DEGREE), "angle": lambda value: float(value * DEGREE), "set": chr, "gnss": bool}


def reading_due(layout, entries, name):
    """What a reading of a message is in the package, by the model."""
    what, value = entries.get(f"{name}_IS", 0), entries.get(name, 0)
    own = name.removeprefix(f"{layout}_").removeprefix("VERTICAL_").lower()
    parts = 48 if name == "SURFACE_SPEED" else 1
    if what == AT["OVER"]:
        return own, addercoil.Over(value / parts if name in ("SURFACE_SPEED", "COARSE_SPEED") else None)
    if what == AT["STOPPED"]:
        return own, 0
    if what != AT["KNOWN"]:
        return own, None
    if own == "text":
        return own, value.to_bytes(8, "big").decode("ascii").rstrip()
    return own, UNITS_OF.get(own, lambda one: one / parts if parts > 1 else one)(value)


def same_message(string):
    """A message, by the package and by the model; the layout that it has."""
    try:
        said = messages.decode(string)
    except Refused as refusal:
        due(f"{string.hex()} is refused", addercoil.decode(string), addercoil.Refusal(refusal.number))
        return refusal.number
    found, entries, layout = addercoil.decode(string.hex()), message_row(said), layout_of(said)
    heads = found.layout, found.df, found.ca, found.address, found.key, found.type, found.kind
    kind = captures.KINDS[tracks.kind_of(said)]
    due(string.hex(), heads, (layout, said["DF"], said["CA or CF"], said["AA"], tracks.key_of(said), said.get("TYPE"), kind))
    fields = {name.removeprefix(f"{layout}_").removeprefix("VERTICAL_").lower(): said[one] for one, name in entry_names(layout)}
    due(f"{string.hex()}: fields", dict(found.fields), fields)
    due(f"{string.hex()}: readings", dict(found.readings), dict(reading_due(layout, entries, name) for name in READINGS[layout]))
    due(f"{string.hex()}: encoded", addercoil.encode(found), string)
    return layout


def every_message():
    """The messages of all samples, and random ones of each layout."""
    strings = {string for path in SAMPLES for _, string in survey.records_of(path.read_bytes())}
    chance = Random(51)
    strings |= {one(chance) for one in (message, random_velocity, random_movement, random_acceptable) for _ in range(3_000)}
    seen = Counter(map(same_message, sorted(strings)))
    due("layouts and refusals that never came", {*READINGS, 3, 4, 5} - set(seen), set())
    return len(strings)


# Replays and checks


def every_replay():
    """Some 60 aircraft of each sample, or all, worked out again by the package and by the model; and what is refused."""
    count = 0
    for path in SAMPLES:
        records = list(survey.records_of(path.read_bytes()))[:2_900]
        log = b"".join(captures.record(*one) for one in records)
        keys = sorted({key for key in map(key_in, records) if key is not None})
        for number, key in enumerate(keys[:: 1 + len(keys) // 60]):
            asked = captures.KINDS[tracks.kind_in(key)], tracks.address_in(key), *tracks.sender_in(key)
            track = replay(log, tracks.kind_in(key), tracks.address_in(key), None, *tracks.sender_in(key))
            found = addercoil.replay(log if number % 2 else [addercoil.Record(*one) for one in records], *asked)
            due(f"{path.name}: {asked} is held", found is None, track is None)
            if track is not None:
                same_track(f"{path.name}: {asked}", found, key, track)
            count += 1
    due("a log that is too long", addercoil.replay(bytes(22 * 2_901), "I", 1), addercoil.Refusal(14))
    due("a log that is not whole, and no kind", addercoil.replay(bytes(23), "X", 1), addercoil.Refusal(14))
    for wrong in ({"kind": "X"}, {"address": 2**24}, {"kind": "C", "flag": 2}, {"kind": "C", "station": 16}, {"site": (91, 0)}):
        due(f"a replay of {wrong}", addercoil.replay(b"", **({"kind": "I", "address": 1} | wrong)), addercoil.Refusal(8))
    return count


def key_in(record):
    """The key of a record's message, if it decodes."""
    try:
        return tracks.key_of(messages.decode(record[1]))
    except Refused:
        return None


def every_check(folder):
    """Listings of others: by the function, with bytes and with files, and by the command."""
    count, paths = 0, [Path(folder) / name for name in ("capture", "listing")]
    for name, whole, text in for_people():
        for path, given in zip(paths, (whole, text)):
            path.write_bytes(given)
        status, printed, error = check_due(whole, text)
        found = addercoil.check(whole, text)
        due(f"check {name}", (2 if found.refusal else 0 if found else 1, found == addercoil.check(*paths)), (status, True))
        done = command("check", *paths)
        due(f"check {name}", (done.returncode, done.stdout, done.stderr.startswith(error)), (status, printed, True))
        count += 1
    return count


def merge_of(merge, one, other):
    """What becomes of two texts, or the number that refuses them."""
    try:
        return merge(one, other)
    except addercoil.Refused as refused:
        return refused.refusal.number
    except Refused as refused:
        return refused.number


def every_merge():
    """Two listings as one."""
    chance = Random(10)
    for _ in range(MERGES):
        texts = some_texts(chance)
        due("merge", merge_of(addercoil.merge, *texts), merge_of(model_merge, *texts))
    return MERGES


# The commands


def every_listing():
    """The listings of all samples, both ways."""
    for path in SAMPLES:
        for words, ending in ((["--all"], ".listing"), ([], ".positioned")):
            done = command("listing", path, *words)
            due(f"listing {path.name} {words}", (done.returncode, done.stdout), (0, path.with_suffix(ending).read_bytes()))
    return 2 * len(SAMPLES)


def every_csv():
    """csv of all samples: every position, the last ones, with a site, and with few places; how many lines."""
    count, site = 0, tuple(round(Fraction(one) / DEGREE) for one in SITE)
    for path in SAMPLES:
        whole = path.read_bytes()
        for words, places, spot in (([], MOST, None), (["--site", *SITE], MOST, site), (["--places", 20], 20, None)):
            found = list(survey.positions(whole, places, spot))
            for last in (False, True):
                done = command("csv", path, *words, *(["--last"] if last else []))
                due(f"csv {path.name} {words}", (done.returncode, done.stdout.decode()), (0, survey.csv(found, last)))
            count += len(found)
    progress()
    refused = command("csv", ROOT / "samples/busy-hour.capture", "--places", 20).stderr.decode()
    due("what csv says of a full table", " refused with 6, a new aircraft, and no place is free" in refused, True)
    return count


def progress():
    """A terminal is told how far a large capture is read; nobody else is, and of a small one nobody."""
    sample = (ROOT / "samples/gliders.capture").read_bytes()
    with TemporaryDirectory() as folder:
        path = Path(folder) / "large"
        path.write_bytes(sample * (2**20 // len(sample) + 1))
        for capture, terminal in ((path, True), (path, False), (ROOT / "samples/gliders.capture", True)):
            due(f"progress of {capture.name}, {terminal}", b" 50 %" in said_by_csv(capture, terminal), capture == path and terminal)


def said_by_csv(capture, terminal):
    """What csv says on standard error, which is a terminal or is none."""
    ours, theirs = pty.openpty() if terminal else os.pipe()
    words = [sys.executable, "-B", "-m", "addercoil", "csv", capture]
    with subprocess.Popen(words, stdout=subprocess.DEVNULL, stderr=theirs, env=os.environ | {"PYTHONPATH": str(PACKAGE)}):
        os.close(theirs)
        said = b""
        while more := chunk(ours):
            said += more
    os.close(ours)
    return said


def wrong_words():
    """What the commands cannot do has status 2, and says why."""
    for words in ([], ["nothing"], ["csv"], ["csv", "/nowhere"], ["csv", "/"], ["csv", SAMPLES[0], "--places", "0"], ["csv", SAMPLES[0], "--site", "91", "0"],
                  ["listing", "/nowhere"], ["check", SAMPLES[0]], ["check", SAMPLES[0], "/nowhere"], ["live", "--seconds", "0"]):
        done = command(*words)
        due(f"{words}", (done.returncode, done.stdout.replace(f"{survey.COLUMNS}\n".encode(), b""), bool(done.stderr)), (2, b"", True))


def no_capture():
    """A receiver's lines in the place of a capture: what there is of one, a hint, and status 1."""
    for word, said in (("listing", b"bad-blocks 36"), ("csv", b"36 bad blocks")):
        done = command(word, ROOT / "samples/minute.hex")
        due(f"{word} of lines", (done.returncode, said in done.stdout + done.stderr, b"no capture" in done.stderr), (1, True, True))


def unwritten():
    """What cannot be written, or read, has status 2 and says so in one line, whether it fails at once or at the end."""
    environment = os.environ | {"PYTHONPATH": str(PACKAGE)}
    for words in (["listing", SAMPLES[0]], ["csv", ROOT / "samples/busy-hour.capture"], ["live"]):
        line = " ".join(map(str, [sys.executable, "-B", "-m", "addercoil", *words]))
        for ending in ("> /dev/full", ">&-", *(["<&-"] if words == ["live"] else [])):
            done = subprocess.run(f"{line} {ending}", shell=True, env=environment, cwd=ROOT, input=b"", capture_output=True, timeout=300, check=False)
            lines = [one for one in done.stderr.splitlines() if one.startswith(b"addercoil: ")]
            due(f"{words} {ending}", (done.returncode, len(lines), b"Traceback" in done.stderr), (2, 1, False))


# Live


def every_live():
    """The minute of samples/minute.hex and damaged lines, at once: what the model shows, but for the clock, and the counts."""
    sample = (ROOT / "samples/minute.hex").read_bytes()
    for given in (sample, sample + b"\n".join(line for line, _ in damaged_lines())):
        for words, every in ((["--all"], True), ([], False)):
            expected, counts = live_model(given, every=every)
            done = command("live", *words, given=given)
            found = listings(done.stdout.decode())[-1]
            due(f"live {words}: the counts", (done.returncode, done.stderr.decode()), (0, counted(counts)))
            due(f"live {words}", found.rows, expected.rows)
            due(f"live {words}: the ages", max(found.ages) <= found.clock // 1000, True)


# Hostile calls, and an installation


def hostile():
    """Random hostile calls in a process of their own, which must live to its end."""
    script, environment = ROOT / "tests/python/hostile.py", os.environ | {"PYTHONPATH": str(PACKAGE)}
    done = subprocess.run([sys.executable, "-B", "-X", "faulthandler", script, "1", str(HOSTILE)], env=environment, capture_output=True, text=True, timeout=600, check=False)
    due("hostile calls", (done.returncode, done.stderr), (0, ""))
    return done.stdout.strip()


def installed(folder):
    """pip installs a copy of the package in a plain environment, with nothing in the environment and nobody to ask; its csv is ours."""
    top = Path(folder) / "clone"
    for name in ("bindings", "dist"):
        shutil.copytree(ROOT / name, top / name, ignore=shutil.ignore_patterns("__pycache__"))
    plain = {"PATH": os.defpath, "HOME": str(folder), "PIP_INDEX_URL": NOBODY, "PIP_CONFIG_FILE": os.devnull, "PIP_DISABLE_PIP_VERSION_CHECK": "1"}
    for words in ([sys.executable, "-m", "venv", "plain"], ["plain/bin/pip", "install", "--quiet", "./clone/bindings/python"]):
        done = subprocess.run(words, cwd=folder, env=plain, capture_output=True, text=True, timeout=300, check=False)
        due(" ".join(map(str, words)), (done.returncode, done.stderr), (0, ""))
    shutil.rmtree(top)  # what is installed needs none of it
    python = Path(folder) / "plain/bin/python"
    sample = ROOT / "samples/busy-hour.capture"
    done = command("csv", sample, python=python, environment=plain, folder=folder)
    due("csv of what was installed", (done.returncode, done.stdout), (0, command("csv", sample).stdout))
    asked = "import addercoil; print(addercoil.__file__, addercoil.__version__, addercoil.calls.version())"
    where, said, number = subprocess.run([python, "-c", asked], cwd=folder, env=plain, capture_output=True, text=True, check=True).stdout.split()
    due("where it is", Path(where).is_relative_to(Path(folder) / "plain"), True)
    due("its version", (said, number), (f"{AT['VERSION'] // 10_000}.{AT['VERSION'] // 100 % 100}.{AT['VERSION'] % 100}", str(AT["VERSION"])))


def main():
    print(f"{every_call()} calls of {len(addercoil.calls.FUNCTIONS)} functions by addercoil.calls: what the model does")
    print(f"{sample_tracks()} tracks of samples and {random_tracks()} of random messages, in C too, {every_message()} messages: as the model has them")
    over_is_no_number()
    no_table()
    print(f"{every_site()} sites in degrees, in Python and in C: the nearest unit")
    with TemporaryDirectory() as folder:
        print(f"{every_replay()} replays, {every_check(folder)} checks, {every_merge()} merges, {every_listing()} listings, {every_csv()} lines of csv: the same")
        every_live()
        wrong_words()
        no_capture()
        unwritten()
        print(hostile())
        installed(folder)
    print("pip installs it in a plain environment, without a network")
    return 0


if __name__ == "__main__":
    sys.exit(main())
