"""The lent table as bytes: RULES 9, in the layout of docs/TABLE.md.

A table of n places has 16 + 86 n bytes: the clock, the site, a column of n keys, n bodies of 82 bytes.
Numbers are low byte first. A call changes the table in place, or raises Refused.
"""

from messages import IDENTIFICATION, OVER_GROUND, STATUS, SURFACE, THROUGH_AIR, decode, layout
from positions import latitude_test
from refusals import Refused
from tracks import Position, Saved, Track, is_stale, key_of, kind_in, starts, step

HEAD, KEY, BODY = 16, 4, 82
HEARD, MARKS, LATITUDE, LONGITUDE, TIME, SAVED = 0, 36, 40, 44, 48, (56, 69)  # in a body; of its values only the latitude has a range
MOST_PLACES = 1024
POLE = 2**30


def get(string, at, size):
    """The number of this many bytes from an offset on."""
    return int.from_bytes(string[at : at + size], "little")


def put(string, at, size, number):
    """Writes a number as this many bytes."""
    string[at : at + size] = number.to_bytes(size, "little")


def bits(number, first, last):
    """Bits first to last of a number, bit 0 the lowest."""
    return number >> first & (1 << last - first + 1) - 1


# One body


def group_of(body, at, *layouts):
    """The ME that gave a group; one whose TYPE, or subtype, is not of the group is read as 'none heard'."""
    me = get(body, at, 7)
    return me if layout(bits(me, 51, 55), bits(me, 48, 50)) in layouts else 0


def velocity_of(body, coarse):
    """The ME that gave the velocity: any, if the marks say that it is a coarse message's."""
    return get(body, 15, 7) if coarse else group_of(body, 15, OVER_GROUND, THROUGH_AIR)


def saved_of(body, at):
    """An encoded position: bits 0-16 and 17-33 its counts, bit 34 whether there is one, bit 35 whether it is coarse; then its time.

    Of a coarse count the lowest 12 bits count.
    """
    number = get(body, at, 5)
    if not bits(number, 34, 34):
        return Saved()
    width = 12 if bits(number, 35, 35) else 17
    return Saved(1, bits(number, 0, width - 1), bits(number, 17, 16 + width), get(body, at + 5, 8), bits(number, 35, 35))


def position_of(body):
    """The position, if bit 24 of its marks says that it is known."""
    if not bits(get(body, MARKS, 4), 24, 24):
        return Position()
    return Position(1, get(body, LATITUDE, 4) - POLE, get(body, LONGITUDE, 4), get(body, TIME, 8))


def track_of(body):
    """The track of a body that is in range. Bits that no value has are ignored, and so is what has no mark."""
    marks = get(body, MARKS, 4)
    coarse = bits(marks, 31, 31)
    return Track(
        heard=get(body, HEARD, 8),
        identification=group_of(body, 8, IDENTIFICATION),
        velocity=velocity_of(body, coarse),
        surface=group_of(body, 22, SURFACE),
        status=group_of(body, 29, STATUS),
        pressure=bits(marks, 0, 11),
        height=bits(marks, 12, 23),
        typecode=bits(marks, 25, 29),
        bit8=bits(marks, 30, 30),
        position=position_of(body),
        saved=tuple(saved_of(body, at) for at in SAVED),
        coarse=coarse,
    )


def put_saved(body, at, saved):
    """An encoded position and its time."""
    put(body, at, 5, saved.latitude | saved.longitude << 17 | saved.known << 34 | saved.coarse << 35)
    put(body, at + 5, 8, saved.time)


def body_of(track):
    """The 82 bytes of a track. Bits that no value has are 0."""
    body = bytearray(BODY)
    put(body, HEARD, 8, track.heard)
    put(body, 8, 7, track.identification)
    put(body, 15, 7, track.velocity)
    put(body, 22, 7, track.surface)
    put(body, 29, 7, track.status)
    latest = track.position.known << 24 | track.typecode << 25 | track.bit8 << 30 | track.coarse << 31
    put(body, MARKS, 4, track.pressure | track.height << 12 | latest)
    put(body, LATITUDE, 4, track.position.latitude + POLE)
    put(body, LONGITUDE, 4, track.position.longitude)
    put(body, TIME, 8, track.position.time)
    for at, saved in zip(SAVED, track.saved):
        put_saved(body, at, saved)
    return body


# The whole table


def places(table):
    """How many places; 7 for 0 or more than 1,024 places, or not of whole places."""
    count, rest = divmod(len(table) - HEAD, KEY + BODY)
    if rest != 0 or not 1 <= count <= MOST_PLACES:
        raise Refused(7)
    return count


def length_of(count):
    """The length of a table of so many places."""
    return HEAD + (KEY + BODY) * count


def key_at(place):
    """Where the key of a place stands."""
    return HEAD + KEY * place


def body_at(table, place):
    """Where the body of a place stands."""
    return HEAD + KEY * places(table) + BODY * place


def body_in(table, place):
    """The body of a place."""
    at = body_at(table, place)
    return table[at : at + BODY]


def clock_of(table):
    """The clock."""
    places(table)
    return get(table, 0, 8)


def site_of(table):
    """The site's latitude and longitude, or None; a site out of its range counts as none."""
    places(table)
    number = get(table, 8, 4)
    if not 1 <= number <= 2 * POLE + 1:
        return None
    return number - POLE - 1, get(table, 12, 4)


def held_keys(table):
    """Of each place its key, or None where it is free: any value out of its range, or stale."""
    clock, keys = clock_of(table), []
    for place, at in enumerate(range(body_at(table, 0), len(table), BODY)):
        key, heard = get(table, key_at(place), KEY), get(table, at + HEARD, 8)
        in_range = kind_in(key) is not None and get(table, at + LATITUDE, 4) <= 2 * POLE
        keys.append(key if in_range and not is_stale(heard, clock) else None)
    return keys


def set_up(table, site=None):
    """Empties the table, sets the clock to 0 and may take a site. 7 precedes 8."""
    places(table)
    if site is not None:
        latitude_test(site[0])
    table[:] = bytes(len(table))
    if site is not None:
        put(table, 8, 4, site[0] + POLE + 1)
        put(table, 12, 4, site[1])


def place_for(keys, key, may_start):
    """The lowest place with the key; else the lowest free place, 6 if there is none, or 12 if the message starts no track."""
    if key in keys:
        return keys.index(key)
    if not may_start:
        raise Refused(12)
    if None not in keys:
        raise Refused(6)
    return keys.index(None)


def receive(table, string, time):
    """The decoded message, its track updated or started; or 1, 7, 2, 3, 4, 5 in that order, then 6 or 12."""
    if len(string) != 14:
        raise Refused(1)
    if time < clock_of(table):
        raise Refused(2)
    put(table, 0, 8, time)  # between 2 and 3 the clock takes the time and stale tracks go
    message = decode(string)
    key, keys = key_of(message), held_keys(table)
    place = place_for(keys, key, starts(message))
    track = Track() if keys[place] is None else track_of(body_in(table, place))
    put(table, key_at(place), KEY, key)
    at = body_at(table, place)
    table[at : at + BODY] = body_of(step(track, string, site_of(table), time))
    return message


def look_up(table, key):
    """The key's track, or None if it is not held."""
    keys = held_keys(table)
    return track_of(body_in(table, keys.index(key))) if key in keys else None


def next_key(table, above):
    """The smallest key held above this one, or None."""
    return min((key for key in held_keys(table) if key is not None and key > above), default=None)


def walk(table):
    """Every key held, in order, each once, with its track."""
    keys = held_keys(table)
    return [(key, track_of(body_in(table, keys.index(key)))) for key in sorted({*keys} - {None})]
