"""Runs the example `fleet` in C with 1 to 32 tables, and compares with one table that has a place for every aircraft.

    python3 reference/run_fleet.py

tools/build-c must have built target/c/PROCESSOR/fleet. The traffic has every kind of aircraft, late, damaged and short messages, and
silences after which aircraft go. What is listed, and how many messages got which number, must be the model's for every number of tables,
byte for byte. A table that is full must be said to be. On an emulated processor there are four numbers of tables, and that is all.

For this machine's processor there are 20,000 aircraft besides. ThreadSanitizer looks for races, and AddressSanitizer for what is not freed.
Dealers that are wrong must be seen to be: each is examples/c/fleet.c with short queues, and with one text in the place of another.
"""

import platform
import subprocess
import sys
from collections import Counter
from pathlib import Path
from random import Random
from tempfile import TemporaryDirectory

import messages
import traffic
from captures import is_shown, line
from make_samples import DEGREE, STEP, hex_lines, minute
from positions import EVEN, ODD
from programs import C, ROOT
from refusals import Refused
from run_example import GOOD, odd_lines
from tracks import Track, is_stale, key_of, kind_in, starts, step
from traffic import ANOTHER, ICAO, MODE_A, NO_TRANSPONDER, OTHER, TRANSPONDER
from vectors.message_vectors import flipped, sealed_message

sys.path.insert(0, str(ROOT / "tools"))
from targets import runner

PROGRAM = ROOT / "target" / C / "fleet"
NATIVE = Path(C).name == platform.machine()
TABLES = range(1, 33) if NATIVE else (1, 2, 7, 32)
CROWD, CROWDED = 20_000, (24, 25, 32, 500)  # aircraft, and how many tables follow them
PLACES = 1024  # of each table
TICKS = 12_000  # of a receiver's counter, in a millisecond
LATEST = 2**64 - 1  # as a step it makes the second line the last that is not late
SOURCE = ROOT / "examples/c/fleet.c"
GCC = ["gcc", "-std=c99", "-O2", "-g", "-pthread", f"-I{ROOT / 'dist'}"]
LIBRARY = sorted((ROOT / "dist").glob("*.S"))
FULL = "fleet: a table was full, so that aircraft, or what they said, may be missing: take more tables\n"
FOUND_RACE = 66  # the status of a program in which ThreadSanitizer found something
COMMAND = [*runner(Path(C).name, PROGRAM), PROGRAM]  # as tools/run has it, which would be asked for each run anew


def due(what, found, expected):
    """Ends the test if something else was found."""
    if found != expected:
        sys.exit(f"{what}: found\n{found}\nand expected\n{expected}")


# The model: one table, by the rules of tracks


class Roomy:
    """A table with a place for every key, or with so many places; no bytes, and no site."""

    def __init__(self, places=None):
        self.clock, self.tracks, self.places = 0, {}, places

    def held(self):
        """The tracks that are in date."""
        return {key: track for key, track in self.tracks.items() if not is_stale(track.heard, self.clock)}

    def target(self, key, may_start):
        """The track of a key, or a new one; 12 if the message starts none, 6 if there is no place for it."""
        track = self.tracks.get(key)
        if track and not is_stale(track.heard, self.clock):
            return track
        if not may_start:
            raise Refused(12)
        if self.places and len(self.held()) >= self.places:
            raise Refused(6)
        return Track()

    def receive(self, time, string):
        """A message at a time, or the number that refuses it."""
        if len(string) != 14:
            raise Refused(1)
        if time < self.clock:
            raise Refused(2)
        self.clock = time
        message = messages.decode(string)
        key = key_of(message)
        self.tracks[key] = step(self.target(key, starts(message)), string, None, time)

    def listing(self, every):
        """The listing of all tracks, or of those with a position."""
        lines = [line(key, track) for key, track in sorted(self.held().items()) if is_shown(track, every)]
        return "".join(f"{text}\n" for text in [f"clock {self.clock} tracks {len(lines)} bad-blocks 0", *lines]).encode("ascii")


class Outcome:
    """What the model says of records, each a time and a message: how many got each number, and the table."""

    def __init__(self, records, places=None):
        self.table, self.counts = Roomy(places), Counter()
        for time, string in records:
            self.counts[number_of(self.table, time, string)] += 1

    def said(self):
        """What the program says on standard error."""
        refused = "".join(f", {self.counts[number]} refused with {number}" for number in range(1, 17) if self.counts[number])
        return f"{self.counts[0]} taken{refused}\n"


def number_of(table, time, string):
    """What the table answers to a message."""
    try:
        table.receive(time, string)
    except Refused as refusal:
        return refusal.number
    return 0


# Traffic

HEADS = TRANSPONDER, TRANSPONDER, NO_TRANSPONDER, OTHER, ICAO, MODE_A, ANOTHER, None  # None: coarsely, by a station


class Aircraft:
    """Who it is, where it is, and what it sends."""

    def __init__(self, chance, aa):
        self.chance, self.aa, self.head = chance, aa, chance.choice(HEADS)
        self.flag, self.station = chance.randrange(2), chance.randrange(16)
        self.place = chance.randrange(-60 * DEGREE, 60 * DEGREE), chance.randrange(2**32)
        self.next = EVEN

    def position(self):
        """Even and odd by turns, in the air, coarsely or on the ground."""
        self.place = self.place[0] + self.chance.randrange(-2000, 2000), (self.place[1] + self.chance.randrange(2000)) % 2**32
        i, self.next = self.next, ODD if self.next == EVEN else EVEN
        altitude = traffic.altitude_code(self.chance.randrange(0, 43_000, 25))
        if self.head is None:
            return traffic.coarse(self.aa, i, self.place, self.station, self.flag, altitude)
        if self.chance.randrange(8) == 0:
            return traffic.surface(self.head, self.aa, i, self.place)
        return traffic.airborne(self.head, self.aa, i, self.place, self.chance.choice((9, 11, 18, 20)), altitude)

    def message(self):
        """A position, or one of the others that it has."""
        lot = self.chance.randrange(20) if self.head else 0
        if lot < 12:
            return self.position()
        if lot < 15:
            return traffic.velocity(self.head, self.aa, self.chance.randrange(-400, 400), self.chance.randrange(-400, 400))
        if lot < 17:
            return traffic.identification(self.head, self.aa, "FLEET")
        if lot < 19:
            return traffic.no_position(self.head, self.aa, traffic.altitude_code(self.chance.randrange(0, 43_000, 25)))
        return sealed_message(*self.head[:2], self.aa, 31, 2 << 13)  # a status of version 2, which from a ground station gets 5


def other_message(chance, string):
    """A message that is not taken: damaged, of another format or type, or of another length."""
    lot = chance.randrange(8)
    if lot < 3:
        return flipped(string, chance.randrange(1, 113))
    if lot == 3:
        return chance.choice((bytes(14), sealed_message(18, 6, 0xABCDEF, 11, 0), sealed_message(17, 5, 0xABCDEF, 30, 0)))
    return chance.choice((string[:7], string[:7], string[:13], string + b"\0", b""))


def stream(chance, aircraft, count):
    """Messages of aircraft, each with its time. Half of them fall silent for a while, and now and then all do."""
    known = [Aircraft(chance, aa) for aa in chance.sample(range(2**24), aircraft)]
    time, heard = 1_000, known
    for k in range(count):
        if k % (count // 12) == 0:
            heard = chance.sample(known, aircraft // 2)
            time += chance.choice((0, 60_000, 124_990, 125_000, 130_000, 400_000))
        time += chance.choice((0, 0, 1, 5, 40, 200))
        string = chance.choice(heard).message()
        lot = chance.randrange(20)
        if lot < 2:
            yield max(time - chance.choice((1, 10, 300, 5_000, 200_000)), 0), string  # late
        elif lot < 5:
            # One of another length may have any time: it does not move the clock. A damaged one moves it
            other = other_message(chance, string)
            yield time + (chance.choice((0, 90_000)) if len(other) != 14 else 0), other
        else:
            yield time, string


def last_words(time):
    """The end of a stream: the clock is moved by a damaged message, so that aircraft go; then a short one at a later time."""
    return [(time + 100_000, flipped(traffic.identification(TRANSPONDER, 0xABCDEF, "LAST"), 50)), (time + 300_000, bytes(7))]


def timed_line(chance, time, string):
    """A line with the time of a receiver's counter."""
    text = f"@{time * TICKS + chance.randrange(TICKS):012X}{string.hex()};"
    return chance.choice((text, text.upper(), f"{text}\r", text[:-1]))


# The program


def ran(*words, given=b"", command=COMMAND):
    """What came of the program, or of another one."""
    return subprocess.run([str(word) for word in (*command, *words)], input=given, capture_output=True, timeout=300, check=False)


def compare(what, done, outcome, every, status=0):
    """What a run printed, and the model's."""
    due(f"{what}: the listing", done.stdout.decode("ascii"), outcome.table.listing(every).decode("ascii"))
    said = outcome.said() + (FULL if status else "")
    due(f"{what}: what it says", (done.returncode, done.stderr.decode("ascii")), (status, said))


def mixed(chance):
    """The lines of a stream, some of them without a time of their own; and its records."""
    lines, records = [], []
    for k, (time, string) in enumerate(stream(chance, 120, 3_000 if NATIVE else 800)):
        if chance.randrange(4):
            lines.append(timed_line(chance, time, string))
        else:
            lines.append(f"*{string.hex()};")
            time = k * STEP
        records.append((time, string))
    return "\n".join(lines).encode("ascii"), records


def broken():
    """Lines that no receiver prints, and their records: a time cut short, half a byte, nothing, something else, white space."""
    whole = bytes.fromhex(GOOD)
    spaced = f" \t*{GOOD}; ", f" {GOOD}\t\r", f"{GOOD}; \r"
    rows = [*odd_lines(), *((text, whole) for text in spaced)]
    junk = [f"*{GOOD};x", f"{GOOD}x", f"{GOOD} 00", f"*{GOOD} ;", f"*{GOOD};;", f"**{GOOD};", f"x{GOOD}", f"@{'0' * 12}{GOOD};x"]
    none = [*junk, "@", "@;", "@00", "@00000000000", "@000000000000", "@FFFFFFFFFFFF;", "@0000000000008D", "@@", "*", "@*"]
    records = [(k * 400, string) for k, (_, string) in enumerate(rows)] + [(0, b"")] * len(none)
    return "\n".join([*(text for text, _ in rows), *none]).encode("ascii"), records


def cases():
    """Each case by its name: the step, its lines and its records."""
    chance = Random(24)
    records = list(stream(chance, 500, 6_000 if NATIVE else 1_500))
    records += last_words(max(time for time, string in records if len(string) == 14))
    given = "".join(f"{timed_line(chance, *record)}\n" for record in records).encode("ascii")
    strings = list(minute())
    return {
        "traffic": (1, given, records),
        "lines with and without a time": (STEP, *mixed(chance)),
        "lines that no receiver prints": (400, *broken()),
        "the minute": (STEP, hex_lines(strings), [(k * STEP, string) for k, string in enumerate(strings)]),
        "the latest times": (LATEST, hex_lines(strings), [(k * LATEST % 2**64, string) for k, string in enumerate(strings)]),
        "nothing": (1, b"", []),
    }


def check_traffic(outcome):
    """Has the traffic all that could go wrong?"""
    counts, held = outcome.counts, outcome.table.held()
    few = [number for number in (0, 1, 2, 3, 4, 5, 12) if counts[number] < 10]
    gone = len(outcome.table.tracks) - len(held)
    kinds = {kind_in(key) for key in held}
    unplaced = sum(not track.position.known for track in held.values())
    if few or len(kinds) < 6 or not gone or not unplaced:
        sys.exit(f"too little traffic: {counts}, kinds {kinds}, {gone} aircraft gone, {unplaced} without a position")


def every_number(all_cases):
    """Every case with every number of tables, and with those that have a position alone; how many runs."""
    runs = 0
    for name, (every_ms, given, records) in all_cases.items():
        outcome = Outcome(records)
        for tables in TABLES:
            for every in (1, 0) if tables in (1, 7) else (1,):
                done = ran(tables, every_ms, every, given=given)
                compare(f"{name}, {tables} tables, {every}", done, outcome, bool(every))
                runs += 1
    return runs


def default_step():
    """Lines without a time, and no word for the step: line k arrives at k."""
    strings = list(minute())
    outcome = Outcome(list(enumerate(strings)))
    for tables in (1, 7):
        compare(f"no word for the step, {tables} tables", ran(tables, given=hex_lines(strings)), outcome, True)


def positions(chance, count):
    """Two positions of each of so many aircraft: the lines and the records."""
    known = [Aircraft(chance, aa) for aa in chance.sample(range(2**24), count)]
    records = [(k // 2, one.position()) for k, one in enumerate(2 * known)]
    return [timed_line(chance, *record) for record in records], records


def full_table():
    """In one table there are aircraft too many, and that is said; in two there are not."""
    lines, records = positions(Random(21), PLACES + 76)
    given = "\n".join(lines).encode("ascii")
    outcome = Outcome(records, PLACES)
    due("a full table: messages that get 6", outcome.counts[6] > 0, True)
    compare("a full table", ran(1, given=given), outcome, True, status=1)
    compare("the same in two", ran(2, given=given), Outcome(records), True)


def crowd():
    """More aircraft than 19 tables could hold, each with two positions."""
    lines, records = positions(Random(20), CROWD)
    given, outcome = "\n".join(lines).encode("ascii"), Outcome(records)
    due("the crowd", (outcome.counts, len(outcome.table.held())), (Counter({0: 2 * CROWD}), CROWD))
    for tables in CROWDED:
        compare(f"{CROWD} aircraft, {tables} tables", ran(tables, given=given), outcome, True)


# Words and files that it cannot do with

WRONG = [], [""], ["0"], ["-1"], ["x"], ["1x"], [" 1"], [2**64], [1, "x"], [1, -1], [1, 2**64], [1, 1, 2], [1, 1, ""], [1, 1, 1, 1]


def failures():
    """Words that it does not take, an input that cannot be read, an output that cannot be written: each is said."""
    for words in WRONG:
        done = ran(*words)
        due(f"fleet {words}", (done.returncode, done.stdout, done.stderr[:12]), (2, b"", b"usage: fleet"))
    for words, said in {"< /": b"the input cannot be read to its end", "< /dev/null > /dev/full": b"the output cannot be written"}.items():
        done = subprocess.run(["sh", "-c", f"exec tools/run {PROGRAM} 3 {words}"], cwd=ROOT, capture_output=True, timeout=60, check=False)
        due(f"fleet {words}", (done.returncode, done.stdout, done.stderr), (1, b"", b"0 taken\nfleet: " + said + b"\n"))


# Programs that gcc builds here of examples/c/fleet.c, or of what a slip makes of it


def built(program, source, *flags):
    """Builds a program of a source; what the compiler says if it cannot."""
    words = [*GCC, *flags, "-x", "c", "-", "-x", "none", *LIBRARY, "-o", program]
    done = subprocess.run(words, input=source, text=True, capture_output=True, check=False)
    return "" if done.returncode == 0 else done.stderr


def no_memory(folder):
    """More tables than there is memory or threads for: that is said."""
    program = folder / "fleet"
    due("gcc", built(program, SOURCE.read_text(encoding="ascii")), "")
    limited = ["sh", "-c", 'ulimit -v 100000 && exec "$@"', "sh"]  # KiB, of which a thread takes thousands
    for tables, before, said in ((2**44, [], b"memory for so many tables"), (64, limited, b"thread for each table")):
        done = ran(tables, command=[*before, program])
        due(f"fleet {tables}", (done.returncode, done.stdout, done.stderr), (1, b"", b"fleet: there is no " + said + b": take fewer\n"))


# What a dealer must not do: its name, a text of the source, and what stands for it
SLIPS = {
    "late messages are handed over": (
        "    if (time < dealer->clock) {\n        return ADDERCOIL_REFUSED_LATE;\n    }\n"
        "    /* Premise `ticked`: every call that is not late moves the clock, a damaged one too */\n    dealer->clock = time;\n",
        "    dealer->clock = time > dealer->clock ? time : dealer->clock;\n",
    ),
    "no tick": ("receive(shard, nothing, shard->end) != ADDERCOIL_REFUSED_FORMAT", "nothing[0] != 0"),
    "a tick ahead of the clock": ("close_queue(dealer->shards + i, dealer->clock)", "close_queue(dealer->shards + i, dealer->clock + 1)"),
    "short messages move the clock": (
        "    if (count != ADDERCOIL_MESSAGE) {\n",
        "    if (count != ADDERCOIL_MESSAGE) {\n        dealer->clock = time > dealer->clock ? time : dealer->clock;\n",
    ),
    "damaged messages leave the clock": (
        "    dealer->clock = time;\n    number = addercoil_key(message, count, key, 1);\n",
        "    number = addercoil_key(message, count, key, 1);\n    dealer->clock = number == ADDERCOIL_OK ? time : dealer->clock;\n",
    ),
    "a table by more than the key": ("key % dealer->tables", "(key + time) % dealer->tables"),
    "the last batch is left out": ("    hand_over(shard);\n    pthread_mutex_lock", "    pthread_mutex_lock"),
}
SLIPPED = 7  # tables
NOT_MERGED = "fleet: two listings are not of one clock, or have a key in common"
# The third thread cannot be had; and then the listings are not freed
THIRD_FAILS = (
    ("static int start_thread(struct shard *shard) {\n", "static int start_thread(struct shard *shard) {\n    static int asked;\n"),
    ("            if (pthread_create(", "            if (++asked < 3 && pthread_create("),
)
LEAK = "            free(dealer->shards[i].listing.text);\n", "            (void)0;\n"
FEW = "BATCH = 1024,", "BATCH = 3,"  # so that threads wait for each other all the time
# The dealer counts where the thread of the first table does
RACE = (
    "        if (number != ADDERCOIL_OK) {\n            dealer->answered[number]++;\n        }\n",
    "        dealer->shards->answered[number]++;\n",
)


def replaced(source, old, new):
    """The source with one text in the place of another, which stands there once."""
    due(f"how often it stands in the source: {old}", source.count(old), 1)
    return source.replace(old, new)


def first_difference(found, expected):
    """The first line in which two texts differ."""
    pairs = list(zip(found.splitlines() + [""], expected.splitlines() + [""]))
    return next(f"{one!r} for {other!r}" for one, other in pairs if one != other)


def slips(folder, given, records):
    """Each slip must be seen in the listing, or the listings cannot be merged. What is printed for its first other line, by its name.

    Before that the source without a slip, with short queues as all of them have, must print what the model says.
    """
    outcome, source = Outcome(records), replaced(SOURCE.read_text(encoding="ascii"), *FEW)
    due("gcc", built(folder / "few", source), "")
    for tables in (1, 2, SLIPPED, 32):
        compare(f"short queues, {tables} tables", ran(tables, given=given, command=[folder / "few"]), outcome, True)
    expected = outcome.table.listing(True).decode("ascii")
    for name, slip in SLIPS.items():
        due("gcc", built(folder / "slip", replaced(source, *slip)), "")
        done = ran(SLIPPED, given=given, command=[folder / "slip"])
        found, said = done.stdout.decode("ascii"), done.stderr.decode("ascii").splitlines()[-1]
        if found == expected or done.returncode != (0 if found else 1) or not (found or said == NOT_MERGED):
            sys.exit(f"{name}: it is not seen, or for another reason: status {done.returncode}, {said}")
        print(f"   {name}: {first_difference(found, expected) if found else said}")


def no_leak(folder, given):
    """All is freed: by a run to the end, and by one whose third thread cannot be had. Why it could not be looked at, or ''."""
    source = SOURCE.read_text(encoding="ascii")
    fault = built(folder / "freed", source, "-fsanitize=address")
    if fault:
        return fault.splitlines()[0]
    done = ran(4, given=given, command=[folder / "freed"])
    if b"LeakSanitizer has encountered a fatal error" in done.stderr:
        return "LeakSanitizer cannot look"
    due("a run to the end, AddressSanitizer", (done.returncode, b"Sanitizer" in done.stderr), (0, False))
    for slip in THIRD_FAILS:
        source = replaced(source, *slip)
    due("gcc", built(folder / "freed", source, "-fsanitize=address"), "")
    done = ran(4, given=given, command=[folder / "freed"])
    due("no third thread", (done.returncode, done.stdout, done.stderr), (1, b"", b"fleet: there is no thread for each table: take fewer\n"))
    due("gcc", built(folder / "freed", replaced(source, *LEAK), "-fsanitize=address"), "")
    done = ran(4, given=given, command=[folder / "freed"])
    due("listings that are not freed", b"LeakSanitizer: detected memory leaks" in done.stderr, True)
    return ""


def watched(program, tables, given):
    """A run under ThreadSanitizer; if it cannot place its memory, with addresses that are not random."""
    done = ran(tables, given=given, command=[program])
    if b"unexpected memory mapping" in done.stderr:
        done = ran(tables, given=given, command=["setarch", platform.machine(), "-R", program])
    return done


def sanitized(folder, given, records):
    """ThreadSanitizer finds nothing in the program with short queues, and finds a race that is put into it. Why it could not look, or ''.

    It does not see what the library reads and writes, which is assembler: that is each thread's own table.
    """
    outcome, source = Outcome(records), replaced(SOURCE.read_text(encoding="ascii"), *FEW)
    fault = built(folder / "watched", source, "-fsanitize=thread")
    if fault:
        return fault.splitlines()[0]
    for tables in (1, 2, 8, 32):
        done = watched(folder / "watched", tables, given)
        if b"FATAL: ThreadSanitizer" in done.stderr or b"setarch: " in done.stderr:
            return done.stderr.decode("ascii").splitlines()[0]
        compare(f"ThreadSanitizer, {tables} tables", done, outcome, True)
    due("gcc", built(folder / "watched", replaced(source, *RACE), "-fsanitize=thread"), "")
    done = watched(folder / "watched", 2, given)
    due("a counter of two threads", (done.returncode, b"data race" in done.stderr), (FOUND_RACE, True))
    return ""


def main():
    all_cases = cases()
    _, given, records = all_cases["traffic"]
    check_traffic(Outcome(records))
    runs = every_number(all_cases)
    default_step()
    full_table()
    failures()
    numbers = "1 to 32" if NATIVE else ", ".join(map(str, TABLES))
    print(f"{runs} runs with {numbers} tables, of up to {len(records)} messages: each lists what one table would")
    print("A table that is full is said to be; in two there is a place for each aircraft")
    if not NATIVE:
        return 0
    crowd()
    print(f"{CROWD} aircraft in {', '.join(map(str, CROWDED))} tables")
    with TemporaryDirectory() as name:
        folder = Path(name)
        no_memory(folder)
        print(f"{len(SLIPS)} slips of the dealer, each of which is seen:")
        slips(folder, given, records)
        leak = no_leak(folder, given)
        why = sanitized(folder, given, records)
    print(f"NOT RUN: AddressSanitizer: {leak}" if leak else "All is freed, also if a thread cannot be had")
    print(f"NOT RUN: ThreadSanitizer: {why}" if why else "ThreadSanitizer found nothing, and the race of a counter that two threads share")
    return 0


if __name__ == "__main__":
    sys.exit(main())
