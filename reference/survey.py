"""What scripts are given of a track: speed and direction over ground, exactly, and the lines of csv and live.

Speed is a fraction, or the square of it where it is the root of two parts: no double is in it. Direction comes of a series, to 30 digits.
"""

from decimal import ROUND_HALF_EVEN, Decimal, localcontext
from fractions import Fraction
from functools import cache
from math import isqrt
from typing import NamedTuple

import captures
import messages
import tracks
from degrees import DEGREE, UNITS
from embedding import AT, track_row
from messages import AIRBORNE, COARSE, SURFACE, layout_of
from refusals import Refused

OVER = "over"
DIGITS = 40
COLUMNS = "time,kind,address,callsign,latitude,longitude,altitude,step,speed,direction,nuc,nic,flag,station"
TITLES = "              callsign   latitude   longitude          feet knots  age"


class Root(NamedTuple):
    """A number by its square, a whole one."""

    square: int


# Over ground


def told(entries, name):
    """What a reading is, and its value below zero too."""
    value = entries.get(f"TRACK_{name}", 0)
    return entries.get(f"TRACK_{name}_IS", AT["UNKNOWN"]), value


def ground_speed(entries, kind):
    """In knots: a fraction, a Root, over with the fraction where that begins or None, or None."""
    if kind == tracks.C or told(entries, "ON_GROUND") == (AT["KNOWN"], 1):
        what, value = told(entries, "SPEED" if kind == tracks.C else "MOVEMENT")
        knots = Fraction(value, 1 if kind == tracks.C else 48)
        return {AT["KNOWN"]: knots, AT["STOPPED"]: Fraction(0), AT["OVER"]: (OVER, knots)}.get(what)
    parts = told(entries, "EAST"), told(entries, "NORTH")
    if AT["UNKNOWN"] in (parts[0][0], parts[1][0]):
        return None
    return (OVER, None) if AT["OVER"] in (parts[0][0], parts[1][0]) else Root(parts[0][1] ** 2 + parts[1][1] ** 2)


def ground_direction(entries, kind):
    """In degrees from north, clockwise: a Decimal from 0 to below 360, or None."""
    if kind == tracks.C:
        return valid_turn(entries, "ANGLE", "ANGLE_STATUS")
    if told(entries, "ON_GROUND") == (AT["KNOWN"], 1):
        return valid_turn(entries, "SURFACE_HEADING", "SURFACE_STATUS")
    (east_is, east), (north_is, north) = told(entries, "EAST"), told(entries, "NORTH")
    if (east_is, north_is) != (AT["KNOWN"], AT["KNOWN"]) or (east, north) == (0, 0):
        return None
    return bearing(east, north)


def valid_turn(entries, name, status):
    """A turn in degrees, if its status is 1."""
    if told(entries, name)[0] != AT["KNOWN"] or told(entries, status) != (AT["KNOWN"], 1):
        return None
    return Decimal(told(entries, name)[1] * 360) / Decimal(UNITS)


@cache
def arctangent(part, whole):
    """Of part over whole, from 0 to 1, in radians: a series, after the angle was halved four times."""
    with localcontext() as context:
        context.prec = DIGITS
        x = Decimal(part) / Decimal(whole)
        for _ in range(4):
            x = x / (1 + (1 + x * x).sqrt())
        term, total, n = x, x, 1
        while abs(term) > Decimal(10) ** -DIGITS:
            n, term = n + 2, -term * x * x
            total += term / n
        return 16 * total


@cache
def bearing(east, north):
    """The direction of two parts, one of them not 0."""
    with localcontext() as context:
        context.prec = DIGITS
        eighth = arctangent(1, 1)
        a, b = abs(east), abs(north)
        off_north = arctangent(a, b) if a <= b else 2 * eighth - arctangent(b, a)  # in the quarter between north and east
        degrees = 45 * off_north / eighth
        degrees = degrees if north >= 0 else 180 - degrees
        return (degrees if east >= 0 else 360 - degrees) % 360


# Figures as text


def rounded(value, places):
    """A speed or a direction with so many decimals: over as a word, nothing for None. Half goes to the even digit."""
    if value is None:
        return ""
    if isinstance(value, tuple) and value[0] == OVER:
        return OVER
    scale = 10**places
    if isinstance(value, Root):
        count = (isqrt(4 * value.square * scale * scale) + 1) // 2  # no root of a whole number lies half way
    elif isinstance(value, Fraction):
        count = round(value * scale)
    else:
        count = int((value * scale).to_integral_value(ROUND_HALF_EVEN))
    return f"{count // scale}.{count % scale:0{places}}" if places else str(count)


def degrees_in(position):
    """Latitude and longitude as doubles, which they exactly are; None if they are unknown."""
    if not position.known:
        return None, None
    east = position.longitude if position.longitude < 2**31 else position.longitude - UNITS
    return float(position.latitude * DEGREE), float(east * DEGREE)


def callsign(entries):
    """Without the spaces behind it; empty if it is unknown."""
    what, value = told(entries, "CALLSIGN")
    return value.to_bytes(8, "big").decode("ascii").rstrip(" ") if what == AT["KNOWN"] else ""


def shown(value):
    """A number, or nothing for None."""
    return "" if value is None else str(value)


# csv


def csv_line(key, track):
    """The line of a position."""
    kind = tracks.kind_in(key)
    entries = track_row(track, kind)
    altitude, step = ([value] if what == AT["KNOWN"] else [None] for what, value in (told(entries, "ALTITUDE"), told(entries, "ALTITUDE_STEP")))
    columns = [track.heard, captures.KINDS[kind], f"{tracks.address_in(key):06X}", callsign(entries), *map(shown, degrees_in(track.position))]
    columns += [*map(shown, altitude + step), rounded(ground_speed(entries, kind), 2), rounded(ground_direction(entries, kind), 2)]
    what, number = entries["TRACK_INTEGRITY_IS"], entries.get("TRACK_INTEGRITY")
    columns += [shown(number if what == AT[f"INTEGRITY_{name}"] else None) for name in ("NUC", "NIC")]
    return ",".join(map(str, [*columns, *(tracks.sender_in(key) or ("", ""))]))


def is_position(message):
    """A position message: on the surface, in the air but for TYPE 0, or a coarse one."""
    fields = layout_of(message)
    return fields in (SURFACE, COARSE) or (fields is AIRBORNE and message["TYPE"] != 0)


class Held:
    """The tracks of a table by their keys, without its bytes: of so many places, or of None: one for every key."""

    def __init__(self, places, site=None):
        self.places, self.site, self.clock, self.tracks = places, site, 0, {}

    def track(self, key):
        """The track of a key, None if it is not held."""
        found = self.tracks.get(key)
        return None if found is None or tracks.is_stale(found.heard, self.clock) else found

    def receive(self, string, time):
        """A message at a time: the key of its track if it was taken, else None."""
        if time < self.clock:
            return None
        self.clock = time
        try:
            message = messages.decode(string)
        except Refused:
            return None
        key = tracks.key_of(message)
        before = self.track(key)
        full = before is None and self.places is not None and sum(self.track(one) is not None for one in self.tracks) >= self.places
        if full or (before is None and not tracks.starts(message)):
            return None
        self.tracks[key] = tracks.step(before or tracks.Track(), string, self.site, time)
        return key

    def listing(self, every):
        """What a table with these tracks lists."""
        held = [(key, self.track(key)) for key in sorted(self.tracks)]
        lines = [captures.line(key, track) for key, track in held if track is not None and captures.is_shown(track, every)]
        return "".join(f"{text}\n" for text in (f"clock {self.clock} tracks {len(lines)} bad-blocks 0", *lines))


def records_of(whole):
    """The records of every good block."""
    for one_block in captures.blocks(whole):
        try:
            yield from captures.records_of(one_block)
        except Refused:
            continue


def positions(whole, places, site=None):
    """Each position of a capture as it comes: its key and its line."""
    held = Held(places, site)
    for time, string in records_of(whole):
        key = held.receive(string, time)
        if key is not None and is_position(messages.decode(string)):
            track = held.track(key)
            if track.position.known and track.position.time == time:
                yield key, csv_line(key, track)


def csv(found, last=False):
    """What csv writes of positions: a line for each, or the last of each aircraft by its key."""
    lines = [line for _, line in sorted(dict(found).items())] if last else [line for _, line in found]
    return "".join(f"{line}\n" for line in (COLUMNS, *lines))


# live


def live_line(key, track, clock):
    """An aircraft for people to watch."""
    kind = tracks.kind_in(key)
    entries = track_row(track, kind)
    what, altitude = told(entries, "ALTITUDE")
    feet = f"{altitude} by {entries['TRACK_ALTITUDE_STEP']}" if what == AT["KNOWN"] else "-"
    places = ["-" if value is None else f"{value:.5f}" for value in degrees_in(track.position)]
    knots = rounded(ground_speed(entries, kind), 0) or "-"
    age = max(clock - track.heard, 0) // 1000
    columns = [captures.key_text(key).ljust(13), (callsign(entries) or "-").ljust(8), places[0].rjust(10), places[1].rjust(11)]
    return " ".join([*columns, feet.rjust(13), knots.rjust(5), str(age).rjust(4)])
