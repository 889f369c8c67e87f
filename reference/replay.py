"""RULES 13: the track of one key, worked out again from a log. The plain method: the records in order, and no table.
A key of kind C is asked for with its flag and its station.
"""

import tracks
from messages import decode
from positions import latitude_test
from refusals import Refused, fits

RECORD, TIME = 22, 8  # bytes: a time, high byte first, and the message behind it
MOST_RECORDS = 2_900


def records_of(log):
    """The records, each a time and a message; 14 for a log over 2,900 records or not of whole ones."""
    count, rest = divmod(len(log), RECORD)
    if rest != 0 or count > MOST_RECORDS:
        raise Refused(14)
    for at in range(0, len(log), RECORD):
        yield int.from_bytes(log[at : at + TIME], "big"), log[at + TIME : at + RECORD]


def message_of(key, string):
    """The decoded message if it is an acceptable one of the key, else None."""
    try:
        message = decode(string)
    except Refused:
        return None
    return message if tracks.key_of(message) == key else None


def replay(log, kind, address, site=None, flag=0, station=0):
    """The track of the key after all records, or None where it is not held; 14, then 8 for an address over 24 bits or a bad site.

    Of kind C also for a flag above 1 or a station above 15; of others neither is looked at.
    """
    records = list(records_of(log))
    fits(address, 24)
    if kind == tracks.C:
        fits(flag, 1)
        fits(station, 4)
    if site is not None:
        latitude_test(site[0])
    key, clock, track = tracks.key_for(kind, address, flag, station), 0, None
    for time, string in records:
        if time < clock:
            continue  # late: nothing changes
        clock = time  # whatever the message is
        if track is not None and tracks.is_stale(track.heard, clock):
            track = None
        message = message_of(key, string)
        if message is not None and (track is not None or tracks.starts(message)):
            track = tracks.step(track or tracks.Track(), string, site, time)
    return track
