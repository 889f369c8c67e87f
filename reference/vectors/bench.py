"""The buffer of table_vectors, moved by the model: every operation with its record and its answer.

A record is a letter and its arguments, numbers high byte first; an answer is a line or more:

    S length                 set up without a site             done, refused 7
    A length latitude longitude   set up with a site           done, refused 7, refused 8
    L length                 lend the first bytes as they are  (none)
    P offset count bytes     poke bytes into the buffer        (none)
    F length seed            lend the first bytes, filled      (none)
    R time count bytes       receive                           MESSAGE KEY LOOK-UP, refused N
    K key                    look up                           held TRACK, unheld TRACK, refused 7 TRACK
    N key                    the next key above                KEY, end, refused 7
    W                        walk: clock and site, then a line KEY LOOK-UP for each key, then as N
    B                        parity remainder of the whole table, six hex digits
    J length kind flag station address known latitude longitude   the first bytes as a log, replayed   as K, refused 8, refused 14

Lengths, offsets, seeds, keys, an address, latitude (two's complement) and longitude have 4 bytes, a time 8, a count, a kind, a flag,
a station and "known" 1. Flag and station are asked of kind C, 6, alone.
MESSAGE is the decoded message encoded again, in hex. TRACK is every value of the track; that of a key which is
not held is a new track's.
"""

import table
from messages import encode
from parity import remainder
from refusals import Refused, answer
from replay import replay
from tracks import Track, key_of

SPACE = 88_200


def fours(*numbers):
    """Numbers of 4 bytes."""
    return b"".join((number % 2**32).to_bytes(4, "big") for number in numbers)


def filling(length, seed):
    """Bytes that both sides compute: the top byte of each step of a small generator of 32 bits."""
    made, state = bytearray(), seed
    for _ in range(length):
        state = (state * 1664525 + 1013904223) % 2**32
        made.append(state >> 24)
    return made


def track_text(track):
    """Every value of a track; those of status and of coarse messages stand behind the others."""
    groups = track.heard, track.identification, track.velocity, track.surface, track.pressure, track.height
    status = track.status, track.typecode, track.bit8, track.coarse
    return " ".join(str(value) for value in (*groups, *track.position, *track.saved[0], *track.saved[1], *status))


def found_text(question, *arguments):
    """The answer of what is asked for a track: whether it is held, and its values, a new track's where it is not."""
    try:
        track = question(*arguments)
    except Refused as refusal:
        return f"{refusal} {track_text(Track())}"
    return f"unheld {track_text(Track())}" if track is None else f"held {track_text(track)}"


class Bench:
    """The buffer and the length lent of it; the cases so far."""

    def __init__(self):
        self.buffer = bytearray(SPACE)
        self.length = 0
        self.cases = []
        self.silent = b""  # records since the last answer
        self.counts = {}

    # What is recorded

    def note(self, record):
        """A record that has no answer."""
        self.silent += record
        self.counts[record[:1].decode()] = self.counts.get(record[:1].decode(), 0) + 1

    def say(self, record, line):
        """A record and its answer."""
        self.note(record)
        self.cases.append((self.silent, line))
        self.silent = b""

    def ask(self, question, *arguments):
        """Asks the model about the lent bytes, and keeps what it makes of them."""
        lent = self.buffer[: self.length]
        try:
            return question(lent, *arguments)
        finally:
            self.buffer[: self.length] = lent

    # The operations

    def set_up(self, places):
        """A table of so many places, empty, without a site."""
        self.set_up_bytes(table.length_of(places))

    def set_up_bytes(self, length):
        """The same of so many bytes."""
        self.length = length
        self.say(b"S" + fours(length), self.done())

    def set_up_at(self, places, site):
        """A table of so many places, empty, with a site."""
        self.set_up_bytes_at(table.length_of(places), site)

    def set_up_bytes_at(self, length, site):
        """The same of so many bytes."""
        self.length = length
        self.say(b"A" + fours(length, *site), self.done(site))

    def done(self, site=None):
        """The answer of a set-up."""
        return answer(lambda: self.ask(table.set_up, site) or "done")

    def lend(self, length):
        """The table is the first bytes, as they are."""
        self.length = length
        self.note(b"L" + fours(length))

    def poke(self, offset, string):
        """Other bytes from an offset on."""
        assert len(string) < 256 and offset + len(string) <= SPACE
        self.buffer[offset : offset + len(string)] = string
        self.note(b"P" + fours(offset) + bytes([len(string)]) + string)

    def fill(self, length, seed):
        """The table is the first bytes, filled."""
        self.length = length
        self.buffer[:length] = filling(length, seed)
        self.note(b"F" + fours(length, seed))

    def receive(self, string, time):
        """Receive; True if the message was accepted."""
        record = b"R" + time.to_bytes(8, "big") + bytes([len(string)]) + string
        try:
            message = self.ask(table.receive, string, time)
        except Refused as refusal:
            self.say(record, str(refusal))
            return False
        key = key_of(message)
        self.say(record, f"{encode(message).hex().upper()} {key} {self.looked(key)}")
        return True

    def looked(self, key):
        """The answer of a look-up."""
        return found_text(self.ask, table.look_up, key)

    def look_up(self, *keys):
        """Look up each."""
        for key in keys:
            self.say(b"K" + fours(key), self.looked(key))

    def replay(self, length, kind, address, site=None, spot=(0, 0), sender=(0, 0)):
        """The first bytes as a log; where there is no site, a spot that is not looked at. A sender is a flag and a station."""
        given = fours(length) + bytes([kind, *sender]) + fours(address) + bytes([site is not None]) + fours(*(site or spot))
        self.say(b"J" + given, found_text(replay, bytes(self.buffer[:length]), kind, address, site, *sender))

    def following(self, above):
        """The answer of next."""
        return answer(lambda: self.ask(table.next_key, above) or "end")

    def next(self, *keys):
        """The next key above each."""
        for key in keys:
            self.say(b"N" + fours(key), self.following(key))

    def walk(self):
        """The clock and the site, each key held with its track, and how the walk ends."""
        lines = [f"{answer(self.ask, table.clock_of)} {answer(self.sited)}"]
        try:
            lines += [f"{key} held {track_text(track)}" for key, track in self.ask(table.walk)]
        except Refused:
            pass
        self.say(b"W", "\n".join([*lines, self.following(2**32 - 1)]))

    def sited(self):
        """The site as text."""
        return self.ask(table.site_of) or "-"

    def whole(self):
        """The parity remainder of all bytes of the table."""
        self.say(b"B", f"{remainder(self.buffer[: self.length]):06x}")
