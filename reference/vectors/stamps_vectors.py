"""Cases of stamps_vectors: messages received with stamps of 32 bits, among calls with 64-bit times.

A record is a letter and its arguments, numbers high byte first; an answer is a line:

    S length             set up, with a fresh state    done, refused 7
    L length             lend the first bytes          (none)
    K flag last          another state                 (none)
    T stamp count bytes  receive with the stamp        KEY CLOCK LAST REMAINDER, refused N CLOCK LAST REMAINDER
    R time count bytes   receive at the time           as T
    E clock stamp        extend                        TIME, refused 2, refused 13

A time and a clock have 8 bytes, a flag and a count 1, the others 4. LAST is the last accepted stamp, "-" if there is none.
CLOCK is "refused 7" where the table has none. REMAINDER is the parity remainder of the whole table, six hex digits.
"""

from itertools import product
from random import Random

import table
from parity import remainder
from positions import EVEN
from refusals import Refused, answer
from stamps import Stamps, extend, receive
from tracks import key_of
from traffic import OTHER, TRANSPONDER, airborne, identification, no_position, velocity
from vectors.bench import fours
from vectors.message_vectors import flipped, sealed_message

SPACE = 1_000
TURN, HALF, LAST = 2**32, 2**31, 2**64 - 1
ONE, TWO = 0xABCDEF, 0x4840D6
HERE = 2**29, 2**30
EDGES = (0, 1, HALF - 1, HALF, HALF + 1, TURN - 2, TURN - 1)
NOISE = flipped(sealed_message(17, 5, ONE, 11, 12345), 60)  # earns 3
OF_RADAR = bytes(14)  # 4
NOT_TAKEN = sealed_message(17, 5, ONE, 30, 0)  # 5
SILENT = no_position(TRANSPONDER, TWO, 888)  # 12 where TWO is not held


class Bench:
    """The buffer, the length lent of it and the state; the cases so far."""

    def __init__(self):
        self.buffer, self.length, self.state = bytearray(SPACE), 0, Stamps()
        self.cases, self.silent, self.answers = [], b"", set()

    def say(self, record, line):
        """A record and its answer."""
        self.cases.append((self.silent + record, line))
        self.silent = b""
        self.answers.add(line.split()[1] if line.startswith("refused") else "0")

    def set_up(self, places=1):
        """A table of so many places, and a fresh state."""
        self.length, self.state = table.length_of(places), Stamps()
        self.buffer[: self.length] = bytes(self.length)
        self.say(b"S" + fours(self.length), "done")

    def lend(self, length):
        """The table is the first bytes, as they are."""
        self.length = length
        self.silent += b"L" + fours(length)

    def put(self, state):
        """Another state."""
        self.state = state
        self.silent += b"K" + bytes([state.started]) + fours(state.last)

    def left(self):
        """The clock, the state, and the whole table."""
        lent = self.buffer[: self.length]
        last = self.state.last if self.state.started else "-"
        return f"{answer(table.clock_of, lent)} {last} {remainder(lent):06x}"

    def told(self, record, said):
        """A call that was made, and what it leaves."""
        self.say(record, f"{said if isinstance(said, Refused) else key_of(said)} {self.left()}")

    def stamp(self, string, stamp):
        """A message with a stamp."""
        lent = self.buffer[: self.length]
        said, self.state = receive(lent, self.state, string, stamp)
        self.buffer[: self.length] = lent
        self.told(b"T" + fours(stamp) + bytes([len(string)]) + string, said)

    def time(self, string, time):
        """A message at a time of 64 bits."""
        lent = self.buffer[: self.length]
        try:
            said = table.receive(lent, string, time)
        except Refused as refusal:
            said = refusal
        self.buffer[: self.length] = lent
        self.told(b"R" + time.to_bytes(8, "big") + bytes([len(string)]) + string, said)

    def extend(self, clock, stamp):
        """The time of a stamp alone."""
        self.say(b"E" + clock.to_bytes(8, "big") + fours(stamp), answer(extend, self.state, clock, stamp))


def mine(aa=ONE):
    """A message that starts a track."""
    return velocity(TRANSPONDER, aa, 100, -50)


def edges(bench):
    """Every distance at an edge from every stamp at one, at clocks up to the last; and of a state that has not started."""
    clocks = (0, 1, 1_000, HALF, TURN - 1, TURN, LAST - HALF, LAST - HALF + 1, LAST - 1, LAST)
    for last, distance, clock in product(EDGES, EDGES, clocks):
        bench.put(Stamps(True, last))
        bench.extend(clock, (last + distance) % TURN)
    for stamp, clock, last in product(EDGES, (0, 1, HALF, TURN - 1, TURN, LAST), (0, 7)):
        bench.put(Stamps(False, last))
        bench.extend(clock, stamp)


def wraps(bench):
    """True times of many turns of the counter, each less than 2^31 past the last: the clock is the true time."""
    chance = Random(31)
    for start in (0, 5, TURN - 1):
        bench.set_up(2)
        time = start
        for _ in range(24):
            string = chance.choice((mine(), mine(TWO), identification(OTHER, ONE, "KLM1023"), NOISE, OF_RADAR, NOT_TAKEN))
            bench.stamp(string, time % TURN)
            time += chance.choice((0, 1, 400, 124_999, 125_000, HALF - 1, HALF - 1, chance.randrange(HALF)))


def half_turn(bench):
    """2^31 - 1 on is taken and 2^31 is late, which changes nothing: the same distance again from the same last stamp."""
    for last in (0, 1, HALF, TURN - 1):
        bench.set_up()
        bench.stamp(mine(), last)
        for distance in (HALF, TURN - 1, HALF + 1, HALF - 1, 0, HALF, 1):
            bench.stamp(mine(), (last + distance) % TURN)


def accepted(bench):
    """3, 4, 5, 6 and 12 are accepted stamps, and 1, 7, 2 and 13 are none: after each a stamp 2^31 - 1 past the one before it."""
    full, short = table.length_of(1), mine()[:13]
    wrong = [(NOISE, 5), (OF_RADAR, 5), (NOT_TAKEN, 5), (mine(TWO), 5), (SILENT, 5), (short, 5), (mine(), HALF + 5), (mine(), 5)]
    for string, more in wrong:
        for second in (HALF - 1, HALF, HALF + 4, HALF + 5):
            bench.set_up()
            bench.stamp(mine(), 1_000)
            bench.stamp(string, 1_000 + more)
            bench.stamp(NOISE, (1_000 + second) % TURN)
    bench.set_up()
    bench.stamp(mine(), 1_000)
    bench.lend(full - 1)
    for string, stamp in ((mine(), 1_005), (short, 1_005), (mine(), 999)):
        bench.stamp(string, stamp)
    bench.lend(full)
    bench.stamp(NOISE, 1_000 + HALF)
    bench.stamp(NOISE, 999 + HALF)


def first_stamps(bench):
    """A first stamp is taken as it is, however far; one below the clock of earlier 64-bit calls is late, and is not accepted."""
    for stamp in EDGES:
        bench.set_up()
        bench.stamp(NOISE, stamp)
        bench.stamp(mine(), (stamp + 7) % TURN)
    for clock in (1, 1_000, HALF, TURN - 1, TURN, TURN + 5, LAST):
        bench.set_up()
        bench.time(mine(), clock)
        for stamp in (0, 999, 1_000, HALF, TURN - 1):
            bench.stamp(mine(), stamp)
    bench.set_up()
    bench.stamp(mine()[:13], 77)
    bench.stamp(mine(), 5)


def last_times(bench):
    """13 where the time would pass 2^64 - 1, after 1 and 7, and nothing changed; 2 for a distance of 2^31 or more even there."""
    for clock in (LAST, LAST - 1, LAST - 5, LAST - HALF + 1, LAST - HALF):
        bench.set_up()
        bench.stamp(mine(), 1_000)
        bench.time(NOISE, clock)
        for distance in (6, 5, HALF - 1, HALF, TURN - 1, 0, 1):
            bench.stamp(mine(), (1_000 + distance) % TURN)
        bench.stamp(mine()[:13], 1_007)
        bench.lend(table.length_of(1) - 1)
        bench.stamp(mine(), 1_007)
        bench.lend(table.length_of(1))
        bench.stamp(mine(), 1_007)


def mixed(bench):
    """Calls with 64-bit times between: the distance is added to the clock, wherever that is."""
    chance = Random(32)
    for _ in range(6):
        bench.set_up(2)
        stamp, clock = chance.randrange(TURN), 0
        for _ in range(12):
            stamp = (stamp + chance.choice((0, 400, 5_000, HALF - 1))) % TURN
            bench.stamp(chance.choice((mine(), mine(TWO), airborne(TRANSPONDER, ONE, EVEN, HERE), NOISE)), stamp)
            clock += chance.choice((0, 10**6, TURN, 2**40))
            bench.time(chance.choice((mine(), NOISE, mine()[:3])), clock)


def any_state(bench):
    """States that no call left, one kept across a set-up among them."""
    chance = Random(33)
    for _ in range(40):
        if chance.randrange(3) == 0:
            bench.set_up(chance.randrange(1, 4))
        bench.put(Stamps(chance.random() < 0.7, chance.choice((*EDGES, chance.randrange(TURN)))))
        for _ in range(3):
            bench.stamp(chance.choice((mine(), mine(TWO), NOISE, mine()[:9])), chance.choice((*EDGES, chance.randrange(TURN))))


def cases():
    """All, in one run; every number that a stamp or its message can earn is among the answers."""
    bench = Bench()
    for script in (edges, wraps, half_turn, accepted, first_stamps, last_times, mixed, any_state):
        script(bench)
    missing = {*map(str, (0, 1, 2, 3, 4, 5, 6, 7, 12, 13))} - bench.answers
    assert not missing, missing
    return bench.cases
