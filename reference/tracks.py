"""RULES 8: one track, and its step by one message; of keys RULES 2.14, of status RULES 16.1, of kinds T, M, N and C RULES 17.

Times are whole milliseconds.
"""

from typing import NamedTuple

from messages import AIRBORNE as AIRBORNE_FIELDS
from messages import IDENTIFICATION, STATUS, decode, flag, is_coarse, is_traffic, layout_of
from messages import SURFACE as SURFACE_FIELDS
from positions import AIRBORNE, COARSE, COUNTS, EVEN, ODD, SURFACE, pair, single
from refusals import Refused

STALE = 125_000  # a track goes when clock minus last heard is this or more
PARTNER = 10_000  # paired with the other one if that is at most this old
REFERENCE = 120_000  # read against the track's position if at most this old

I, O, T, M, N, C = KINDS = 1, 2, 3, 4, 5, 6  # in the order of the listing


class Saved(NamedTuple):
    """An encoded position, airborne: its counts, its time, and whether they are coarse, of 12 bits each and not of 17."""

    known: int = 0
    latitude: int = 0
    longitude: int = 0
    time: int = 0
    coarse: int = 0


class Position(NamedTuple):
    """A position in 2^-32 of a turn, with its time."""

    known: int = 0
    latitude: int = 0
    longitude: int = 0
    time: int = 0


class Track(NamedTuple):
    """What a track holds. Of four groups the ME that gave it, 0 for none; of two heights the code.

    Of the latest position message its TYPE, 0 if none was heard, and ME bit 8 if it was an airborne one, else 0; neither is a
    coarse one's. Last, whether the ME kept as velocity is a coarse message's: its bits do not tell.
    """

    heard: int = 0
    identification: int = 0
    velocity: int = 0
    surface: int = 0
    status: int = 0
    pressure: int = 0
    height: int = 0
    typecode: int = 0
    bit8: int = 0
    position: Position = Position()
    saved: tuple = (Saved(), Saved())  # the latest even and the latest odd one, by F
    coarse: int = 0


# Keys


def kind_of(message):
    """I for DF 17, and for DF 18 with CF 0; O for CF 1. CF 2 is T, or M with the flag set; CF 5 is N; CF 3 is C."""
    if message["DF"] == 17:
        return I
    return {0: I, 1: O, 2: M if flag(message) else T, 3: C, 5: N}[message["CA or CF"]]


FIRST_COARSE, LAST_COARSE = 2**31, 2**31 + 2**29 - 1  # the keys of kind C: every number between them is one


def key_for(kind, address, its_flag=0, station=0):
    """A track's key is an address with its kind, and of kind C also with the flag and the station."""
    if kind == C:
        return FIRST_COARSE + 32 * address + 16 * its_flag + station
    return kind << 24 | address


def key_of(message):
    """The key of a message's track."""
    return key_for(kind_of(message), message["AA"], flag(message), message.get("station", 0))


def kind_in(key):
    """The kind of a key, or None: it is no key."""
    if FIRST_COARSE <= key <= LAST_COARSE:
        return C
    kind = key >> 24
    return kind if I <= kind <= N else None


def address_in(key):
    """The address of a key."""
    return key // 32 % 2**24 if kind_in(key) == C else key % 2**24


def sender_in(key):
    """Of a key of kind C the flag and the station; of others there is none."""
    return (key // 16 % 2, key % 16) if kind_in(key) == C else ()


# What starts a track, and when it goes


def starts(message):
    """Whether a message may start a track: TYPE 0 never does; of a ground station's traffic only a position message does.

    A coarse message is one, whatever its bits.
    """
    if is_coarse(message):
        return True
    if is_traffic(message):
        return 5 <= message["TYPE"] <= 18 or 20 <= message["TYPE"] <= 22
    return message["TYPE"] != 0


def age(time, clock):
    """A time after the clock has age 0."""
    return max(clock - time, 0)


def is_stale(heard, clock):
    """A track goes when clock minus last heard is 125,000 or more."""
    return age(heard, clock) >= STALE


# Where a message puts its aircraft: a latitude and a longitude, or None


def unless_refused(numbers, question, *arguments):
    """What the question gives, or None on these numbers."""
    try:
        return question(*arguments)
    except Refused as refusal:
        if refusal.number not in numbers:
            raise
        return None


def size_of(saved):
    """The size of its counts."""
    return COARSE if saved.coarse else COUNTS


def paired(partner, i, counts, time, size=COUNTS):
    """Paired with the other one if that is at most 10,000 old; the message is the later one. Coarse and fine counts never are."""
    if not partner.known or age(partner.time, time) > PARTNER or size_of(partner) != size:
        return None
    other = partner.latitude, partner.longitude
    even, odd = (counts, other) if i == EVEN else (other, counts)
    return unless_refused((9, 10), lambda: pair(i, *even, *odd, size=size))


def usable(position, time):
    """The track's position if at most 120,000 old, else None."""
    if position.known and age(position.time, time) <= REFERENCE:
        return position.latitude, position.longitude
    return None


def read_singly(turn, i, counts, reference, size=COUNTS):
    """Read singly against the reference, if there is one."""
    if reference is None:
        return None
    return unless_refused((9,), lambda: single(turn, i, *counts, *reference, size=size))


def settled(position, place, time):
    """A position found takes the message's time; otherwise the position stays."""
    return position if place is None else Position(1, *place, time)


def airborne_position(position, partner, i, counts, time, size=COUNTS):
    """Paired; failing that, or on 9 or 10, read singly. 8 if what is paired or read singly is out of its range."""
    place = paired(partner, i, counts, time, size)
    if place is None:
        place = read_singly(AIRBORNE, i, counts, usable(position, time), size)
    return settled(position, place, time)


def surface_position(position, site, i, counts, time):
    """Read against the track's position within 120,000, else the site. 8 if what is read is out of its range."""
    reference = usable(position, time)
    return settled(position, read_singly(SURFACE, i, counts, site if reference is None else reference), time)


# The step


def unless_out_of_range(position, question, *arguments):
    """The new position; on 8, which only a track or a site made by hand can earn, the one that was."""
    return unless_refused((8,), question, position, *arguments) or position


def from_air(track, message, time, size):
    """Saved by its F, then paired; failing that, or on 9 or 10, read singly."""
    i, counts = message["F"], (message["latitude"], message["longitude"])
    mine = Saved(1, *counts, time, int(size == COARSE))
    saved = (mine, track.saved[ODD]) if i == EVEN else (track.saved[EVEN], mine)
    position = unless_out_of_range(track.position, airborne_position, track.saved[1 - i], i, counts, time, size)
    return track._replace(saved=saved, position=position)


def airborne(track, message, time):
    """A position from the air, with an altitude: its TYPE and bit 8 are the latest."""
    group = {"pressure": message["altitude"]} if message["TYPE"] <= 18 else {"height": message["altitude"]}
    return from_air(track, message, time, COUNTS)._replace(typecode=message["TYPE"], bit8=message["bit 8"], **group)


def coarse(track, message, me, time):
    """A coarse position, read by the airborne rules; it replaces pressure altitude and, as its velocity, its own ME. No site is used."""
    return from_air(track, message, time, COARSE)._replace(pressure=message["altitude"], velocity=me, coarse=1)


def without_position(track, message):
    """TYPE 0: unless the altitude field is zero, the pressure altitude; nothing else."""
    return track if message["altitude"] == 0 else track._replace(pressure=message["altitude"])


def on_surface(track, message, me, site, time):
    """Clears the two saved ones; read against the track's position within 120,000, else the site."""
    counts = message["latitude"], message["longitude"]
    position = unless_out_of_range(track.position, surface_position, site, message["F"], counts, time)
    return track._replace(saved=(Saved(), Saved()), position=position, surface=me, typecode=message["TYPE"], bit8=0)


def step(track, string, site, time):
    """The track after an acceptable message, of 14 bytes; site is a latitude and a longitude, or None."""
    message = decode(string)
    me = int.from_bytes(string[4:11], "big")  # ME is bits 33-88
    track = track._replace(heard=time)
    if is_coarse(message):
        return coarse(track, message, me, time)
    fields = layout_of(message)
    if message["TYPE"] == 0:
        return without_position(track, message)
    if fields is AIRBORNE_FIELDS:
        return airborne(track, message, time)
    if fields is SURFACE_FIELDS:
        return on_surface(track, message, me, site, time)
    if fields is IDENTIFICATION:
        return track._replace(identification=me)
    if fields is STATUS:
        return track._replace(status=me)
    return track._replace(velocity=me, coarse=0)
