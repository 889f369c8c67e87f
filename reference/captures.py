"""RULES 11 and 12: captures and the listing."""

import readings
import table
import tracks
from parity import remainder, sealed
from refusals import Refused

BLOCK, RECORD, MOST_RECORDS = 512, 22, 23
HEAD, SEAL = 3, 3  # count and serial; the three bytes that make the remainder 0
PLACES = 256  # the program "listing" has 256 places and no site
KINDS = {1: "I", 2: "O", 3: "T", 4: "M", 5: "N", 6: "C"}
UNKNOWN = "-"

# Writing


def record(time, string):
    """8-byte time, high byte first, and message."""
    assert len(string) == 14
    return time.to_bytes(8, "big") + string


def block(serial, records):
    """Count 1-23; serial, two bytes, high first; 23 records, unused ones zero; three bytes of parity."""
    assert 1 <= len(records) <= MOST_RECORDS
    head = bytes([len(records)]) + (serial % 2**16).to_bytes(2, "big")
    used = head + b"".join(record(time, string) for time, string in records)
    return sealed(used.ljust(BLOCK - SEAL, b"\0"))


def capture(records):
    """As many blocks as the records need, each but the last one full."""
    starts = range(0, len(records), MOST_RECORDS)
    return b"".join(block(serial, records[at : at + MOST_RECORDS]) for serial, at in enumerate(starts))


# Reading


def blocks(whole):
    """A capture is blocks of 512 bytes; there may be a part of one at the end."""
    return [whole[at : at + BLOCK] for at in range(0, len(whole), BLOCK)]


def records_of(one_block):
    """The records, each a time and a message; 11 for a block that fails its rules. The serial isn't tested."""
    if len(one_block) != BLOCK or remainder(one_block) != 0:
        raise Refused(11)
    count = one_block[0]
    if not 1 <= count <= MOST_RECORDS:
        raise Refused(11)
    end = HEAD + RECORD * count
    if any(one_block[end : BLOCK - SEAL]):
        raise Refused(11)
    used = [one_block[at : at + RECORD] for at in range(HEAD, end, RECORD)]
    return [(int.from_bytes(one[:8], "big"), one[8:]) for one in used]


def record_at(one_block, number):
    """Of a block, good or not: the time of a record, counted from 0, and where its message starts; None past the last."""
    if len(one_block) != BLOCK or number >= min(one_block[0], MOST_RECORDS):
        return None
    start = HEAD + RECORD * number
    return int.from_bytes(one_block[start : start + 8], "big"), start + 8


def fold(whole):
    """The listing's table after every record of every good block, and the number of bad blocks."""
    made = bytearray(table.length_of(PLACES))
    table.set_up(made)
    return made, feed(made, whole)


def feed(made, whole):
    """Receives every record of every good block in a table; the number of bad blocks."""
    bad = 0
    for one_block in blocks(whole):
        try:
            records = records_of(one_block)
        except Refused:
            bad += 1
            continue
        for time, string in records:
            offer(made, string, time)
    return bad


def offer(made, string, time):
    """Receives one record; a refusal prints nothing. Whether it was accepted."""
    try:
        table.receive(made, string, time)
        return True
    except Refused:
        return False


# The listing


def key_text(key):
    """Kind, address in six hex digits, and of kind C the flag and the station."""
    return " ".join([KINDS[tracks.kind_in(key)], f"{tracks.address_in(key):06X}", *map(str, tracks.sender_in(key))])


def line(key, track):
    """The key, last heard, latitude, longitude, pressure altitude and its step."""
    position = track.position
    place = f"{position.latitude} {position.longitude}" if position.known else f"{UNKNOWN} {UNKNOWN}"
    known = readings.altitude(track.pressure) != readings.UNKNOWN
    altitude = f"{readings.altitude(track.pressure)} {readings.step(track.pressure)}" if known else f"{UNKNOWN} {UNKNOWN}"
    return f"{key_text(key)} {track.heard} {place} {altitude}"


def is_shown(track, every):
    """Positioned tracks are shown unless all are asked for; one that was positioned and is silent, until it is dropped."""
    return every or track.position.known


def shown(made, every):
    """The keys and tracks that the listing of a table shows, by kind, I O T M N C, then address, then of C flag and station."""
    return [(key, track) for key, track in table.walk(made) if is_shown(track, every)]


def header(made, bad, every):
    """The clock; "tracks" counts the lines shown."""
    return f"clock {table.clock_of(made)} tracks {len(shown(made, every))} bad-blocks {bad}"


def listing_of(made, bad, every):
    """The lines of a table."""
    lines = [header(made, bad, every), *(line(key, track) for key, track in shown(made, every))]
    return "".join(f"{text}\n" for text in lines)


def listing(whole, every):
    """What the program "listing" prints, with all tracks asked for or not."""
    return listing_of(*fold(whole), every)
