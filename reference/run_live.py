"""Runs the live example in C on the lines of a receiver, real and damaged, by a pipe, and compares with the model.

    python3 reference/run_live.py

tools/build-c must have built target/c/PROCESSOR/live. Its clock is the machine's, so that two things of what it shows differ from run to
run: the clock, and the age of each track. All else must be what the model says, which hears line k at k ms: times decide on a track only
by 10, 120 and 125 seconds, and here as there all lines come within 10. The ages are held to the clock.
"""

import pty
import re
import signal
import subprocess
import sys
from collections import Counter
from contextlib import contextmanager
from os import close, read
from random import Random
from threading import Timer
from time import sleep
from typing import NamedTuple

import table
import traffic
from captures import listing_of, shown
from make_samples import STEP, hex_lines, minute
from programs import C, ROOT, ran
from positions import EVEN, ODD
from refusals import Refused
from survey import TITLES, live_line
from traffic import OTHER, TRANSPONDER
from vectors.message_vectors import flipped, sealed_message

PROGRAM = f"{C}/live"
FORM = re.compile(rb"\s*(?:\*|@[0-9A-Fa-f]{12})((?:[0-9A-Fa-f]{2})+);\s*")
LONGEST = 63  # bytes of a line that can have a message
HEADER = re.compile(r"clock (\d+) aircraft (\d+)")
TIMES = re.compile(r"^(clock |[A-Z] [0-9A-F]{6} )\d+", flags=re.M)
AGE = 5  # characters of a line
LATITUDE = slice(23, 33)  # where it stands in a line
AT_ONCE = 10_000  # ms, the least age that changes a track
PLACES = 64  # of the model's table: slow to search, and no case that it answers fills it
MOST = 1024  # of the program's
CLEAR = "\x1b[H\x1b[J"
GOOD = traffic.airborne(TRANSPONDER, 0xABCDEF, EVEN, (2**29, 2**30))
LATER = traffic.airborne(TRANSPONDER, 0xABCDEF, ODD, (2**29, 2**30))
NO_MESSAGE = None  # in the place of a number


class Listing(NamedTuple):
    """The clock; of each track how many seconds ago it was heard; and the line before that."""

    clock: int
    ages: list
    rows: list


def due(what, found, expected):
    """Ends the test where something else was found."""
    if found != expected:
        sys.exit(f"{what}: found\n{found}\nand expected\n{expected}")


def listings(text):
    """What is shown in a text, one after the other; each has as many lines as its header says, below the titles."""
    lines, made = text.splitlines(), []
    while lines:
        header = HEADER.fullmatch(lines[0])
        if not header or len(lines) <= int(header[2]) + 1 or lines[1] != TITLES:
            sys.exit(f"nothing is shown: {lines}")
        shown, lines = lines[2 : 2 + int(header[2])], lines[2 + int(header[2]) :]
        made.append(Listing(int(header[1]), [int(line[-AGE:]) for line in shown], [line[:-AGE] for line in shown]))
    return made


def last_listing(out):
    """The last of what the program wrote."""
    made = listings(out.decode("ascii"))
    return made[-1] if made else sys.exit("there is no listing")


def lines_of(given):
    """Lines end in a newline, but for the last, which may."""
    lines = given.split(b"\n")
    return lines if lines[-1] else lines[:-1]


def number_of(made, line, time):
    """What comes of a line: the number of its message, or that it has none."""
    form = FORM.fullmatch(line)
    if not form or len(line) > LONGEST:
        return NO_MESSAGE
    try:
        table.receive(made, bytes.fromhex(form[1].decode("ascii")), time)
    except Refused as refusal:
        return refusal.number
    return 0


def received(given, site=None):
    """The model's table after lines, and how many got each number."""
    made = bytearray(table.length_of(PLACES))
    table.set_up(made, site)
    return made, Counter(number_of(made, line, time) for time, line in enumerate(lines_of(given)))


def model(given, site=None, every=True):
    """What is shown of lines, all tracks or those with a position, and how many got each number."""
    made, counts = received(given, site)
    rows = [live_line(key, track, track.heard)[:-AGE] for key, track in shown(made, every)]
    return Listing(0, [0] * len(rows), rows), counts


def is_placed(row):
    """Has a line a position?"""
    return row[LATITUDE].strip() != "-"


def counted(counts):
    """What the program says at its end."""
    refused = "".join(f", {counts[number]} refused with {number}" for number in range(1, 17) if counts[number])
    return f"{counts[0]} taken{refused}, {counts[NO_MESSAGE]} lines without a message\n"


def compare(what, found, expected):
    """What is shown, and the model's: all columns, and no age above the clock."""
    due(f"{what}: the tracks", found.rows, expected.rows)
    due(f"{what}: the ages, all within 10 seconds", max([0, *found.ages]) <= found.clock // 1000 < AT_ONCE // 1000, True)


def try_at_once(what, given, *words, site=None):
    """Lines that come at once, with all tracks asked for and without: the last listing and the counts. How many got each number."""
    for asked in (["all"], []):
        expected, counts = model(given, site, bool(asked))
        done = ran(PROGRAM, *asked, *words, given=given, seconds=60)
        due(f"{what}: its end", (done.returncode, done.stderr.decode()), (0, counted(counts)))
        compare(f"{what} {asked}", last_listing(done.stdout), expected)
    return counts


# Lines


def stamped(string, time):
    """A line with the time of a 12 MHz counter."""
    return f"@{time * 12_000:012X}{string.hex().upper()};".encode("ascii")


def forms(strings):
    """The same messages in each form that a receiver prints, with the name of the form."""
    plain = hex_lines(strings)
    timed = b"\n".join(stamped(string, k * STEP) for k, string in enumerate(strings)) + b"\n"
    yield "*", plain
    yield "@", timed
    yield "* in lower case, each line ended by CR LF", plain.lower().replace(b"\n", b"\r\n")
    yield "@ with space around, no newline at the end", timed.replace(b"\n", b" \n\t").rstrip()


def damaged_lines():
    """Lines, each with what becomes of it."""
    good, later = GOOD.hex().encode(), LATER.hex().encode()
    stamp = b"0123456789aB"
    yield from [(b"*%b;" % good, 0), (b"@%b%b;" % (stamp, later), 0), (b"  *%b; \r" % later, 0)]
    yield from [(b"*%b;" % good[:14], 1), (b"*0000;", 1), (b"*%b00;" % good, 1), (b"@%b%b;" % (stamp, good[:26]), 1)]
    yield b"*%b;" % flipped(GOOD, 50).hex().encode(), 3
    yield b"*%b;" % bytes(14).hex().encode(), 4
    yield b"*%b;" % sealed_message(17, 5, 0xABCDEF, 30, 0).hex().encode(), 5
    yield b"*%b;" % traffic.no_position(TRANSPONDER, 0x123456).hex().encode(), 12
    none = [b"", b" ", b"\r", b"*", b"@", b";", b"*;", b"@;", b"**", b"@%b;" % stamp, b"@%b;" % stamp[:10], b"hello", b"*hello;"]
    none += [good, b"%b;" % good, b"*%b" % good, b"*%b0;" % good, b"*%b;;" % good, b"**%b;" % good, b"*%b;*%b;" % (good, good)]
    none += [b"@%b%b;" % (stamp[:11], good), b"@%bg%b;" % (stamp[:11], good), b"*%b;x" % good, b"x*%b;" % good, b"#%b;" % good]
    none += [b"*%b ;" % good, b"* %b;" % good, b"*%b\0;" % good[:26], b"*%b;\0" % good, b"\0*%b;" % good, b"\0", b"\xff" * 30]
    none += [b"*%b0" % good, b"*%b:" % good, b"*%b\0%b;" % (good[:13], good[14:]), b"*%b\0" % good]
    none += [b"*%bg%b;" % (good[:13], good[14:]), b"*%b;" % good.replace(b"8d", b"\xb8\xb9"), b"*0x%b;" % good[2:], b"*-%b;" % good[1:]]
    none += [b"*%b;" % (good * 3), b"*%b;" % (good * 1000), b" " * 5000 + b"*%b;" % good, b"*%b;" % good + b" " * 5000, b"\0" * 100_000]
    yield from ((line, NO_MESSAGE) for line in none)
    yield from [(b"*%b;" % (b"00" * 30), 1), (b"*%b;" % (b"00" * 31), NO_MESSAGE)]  # 62 and 64 bytes
    yield from [(b" *%b;" % (b"00" * 30), 1), (b"  *%b;" % (b"00" * 30), NO_MESSAGE)]  # 63 and 64


def with_damage(chance, line):
    """The line, or with bytes changed, put in or taken out, once or more; a newline among them cuts it in two."""
    made = bytearray(line)
    for _ in range(chance.choice((0, 1, 1, 1, 2, 5))):
        at, byte = chance.randrange(len(made) + 1), chance.choice((chance.randrange(256), *b"09aF*@;\0\r\n g"))
        made[at : at + chance.choice((0, 1, 1, 2, 2, chance.randrange(50)))] = bytes([byte]) * chance.choice((0, 1, 1, 2, 2, 40))
    return bytes(made)


def random_lines(chance):
    """The minute's lines in both forms, most of them damaged, and noise."""
    for k, string in enumerate(minute()):
        line = stamped(string, k) if chance.randrange(2) else f"*{string.hex()};".encode("ascii")
        yield with_damage(chance, line)
        if chance.randrange(10) == 0:
            yield chance.randbytes(chance.randrange(100))


# The parts of the test


def real_lines():
    """The sample in all forms; the tracks are those of its listing, and each form has the same counts."""
    strings = list(minute())
    sample = TIMES.sub(r"\1", (ROOT / "samples/minute.listing").read_text(encoding="ascii"))
    if model(hex_lines(strings), every=False)[0].rows == model(hex_lines(strings))[0].rows:
        sys.exit("the minute's tracks all have a position: the choice is not seen")
    for form, given in forms(strings):
        due(f"{form}: the model and the sample", TIMES.sub(r"\1", listing_of(received(given)[0], 0, True)), sample)
        counts = try_at_once(f"the minute, {form}", given)
        due(f"{form}: every line has a message", (counts.total(), counts[NO_MESSAGE]), (len(strings), 0))
    return len(strings)


def damage():
    """Each damaged line is counted as what it is; then random ones, as the model says."""
    rows = list(damaged_lines())
    given = b"\n".join(line for line, _ in rows)
    due("damaged lines", try_at_once("damaged lines", given), Counter(number for _, number in rows))
    for line, number in rows:
        if line:
            done = ran(PROGRAM, given=line)
            due(f"the line {line[:80]} alone", done.stderr.decode(), counted(Counter([number])))
    chance = Random(25)
    given = b"\n".join(random_lines(chance)) + b"\n"
    counts = try_at_once("random damage", given)
    if not all(counts[number] > 15 for number in (0, 1, 3, NO_MESSAGE)):
        sys.exit(f"too little damage: {counts}")
    return counts.total()


def crowd():
    """One aircraft more than there are places; none has a position."""
    strings = [traffic.identification(TRANSPONDER, aa, "CROWD") for aa in range(1, MOST + 2)]
    for asked, shown in ((["all"], MOST), ([], 0)):
        done = ran(PROGRAM, *asked, given=hex_lines(strings))
        due("a full table", done.stderr.decode(), counted(Counter({0: MOST, 6: 1})))
        due("a full table: its tracks", len(last_listing(done.stdout).rows), shown)


def sites():
    """A position on the ground is read against the receiver's, in degrees, west and south below zero; without it there is none."""
    for words, site in {("45", "90"): (2**29, 2**30), ("-45", "-90"): (-(2**29), 3 * 2**30), ("-22.5", "180"): (-(2**28), 2**31)}.items():
        given = hex_lines([traffic.surface(OTHER, 0xABCDEF, EVEN, (site[0] + 40_000, site[1] + 70_000))])
        try_at_once(f"the site {words}", given, 1, *words, site=site)
        if model(given, site)[0].rows == model(given)[0].rows:
            sys.exit(f"the site {words} makes no difference")
    try_at_once("no site", given, 1)


@contextmanager
def running(*words, output=subprocess.PIPE):
    """The program, its input open. It is ended after a minute."""
    command = [ROOT / "tools/run", ROOT / "target" / PROGRAM, *words]
    with subprocess.Popen(command, stdin=subprocess.PIPE, stdout=output, stderr=subprocess.PIPE) as process:
        watch = Timer(60, process.kill)
        watch.start()
        try:
            yield process
        finally:
            watch.cancel()
            process.kill()


def send(process, given):
    process.stdin.write(given)
    process.stdin.flush()


def next_listing(process):
    """Waits for a listing."""
    header = process.stdout.readline().decode("ascii")
    count = HEADER.fullmatch(header.rstrip("\n"))
    if not count:
        sys.exit(f"no header of a listing: {header!r}")
    return listings(header + "".join(process.stdout.readline().decode("ascii") for _ in range(1 + int(count[2]))))[0]


def pieces():
    """Lines that come in pieces, cut anywhere, with pauses: the same as at once."""
    given = b"*%b;\n\nno message\n@%b%b;\n" % (GOOD.hex().encode(), b"0" * 12, LATER.hex().encode())
    expected, counts = model(given)
    with running() as process:
        for at in range(0, len(given), 9):
            send(process, given[at : at + 9])
            sleep(0.02)
        out, said = process.communicate()
    due("pieces", said.decode(), counted(counts))
    compare("pieces", last_listing(out), expected)
    due("pieces: both messages and the position", (counts[0], is_placed(expected.rows[0])), (2, True))


def silence():
    """Listings come while no line does, each a second or more after the last; the last comes at the end of the input."""
    with running("all", "1") as process:
        send(process, b"*%b;\n" % GOOD.hex().encode())
        found = [next_listing(process) for _ in range(3)]
        send(process, b"*%b;\n" % LATER.hex().encode())
        out, said = process.communicate()
    found += listings(out.decode())
    due("silence: the counts", (process.returncode, said), (0, b"2 taken, 0 lines without a message\n"))
    due("silence: a second or more between", all(b.clock - a.clock >= 1000 for a, b in zip(found[:2], found[1:3])), True)
    due("silence: not much more", found[2].clock < 30_000, True)
    last = [(one.clock - 1000 * one.ages[0] - 999, one.clock - 1000 * one.ages[0]) for one in found[:3]]  # between these it was heard
    due("silence: the age grows with the clock", max(least for least, _ in last) <= min(most for _, most in last), True)
    due("silence: heard anew", (found[2].ages[0] > 0, found[-1].ages[0]), (True, 0))
    due("silence: and its position", [is_placed(one.rows[0]) for one in (found[2], found[-1])], [False, True])
    return len(found)


def interrupted():
    """An interrupt is an end too; a line that has not ended is none."""
    with running("all", "1") as process:
        send(process, b"*%b;\n*8D" % GOOD.hex().encode())
        next_listing(process)
        process.send_signal(signal.SIGINT)
        last, said = next_listing(process), process.stderr.read()
        due("interrupted", (process.wait(), said, len(last.rows)), (0, b"1 taken, 0 lines without a message\n", 1))


def chunk(terminal_end):
    """What comes next from a terminal; nothing, once nobody holds its other end."""
    try:
        return read(terminal_end, 4096)
    except OSError:
        return b""


def terminal():
    """On a terminal each listing takes the place of the last one; elsewhere nothing is cleared."""
    ours, theirs = pty.openpty()
    seen = b""
    with running("1", output=theirs) as process:
        close(theirs)
        send(process, b"*%b;\n" % GOOD.hex().encode())
        while more := chunk(ours):
            seen += more
            if seen.count(b"clock") >= 2:
                process.stdin.close()
    close(ours)
    first, *shown = seen.replace(b"\r\n", b"\n").decode("ascii").split(CLEAR)
    due("a terminal: a listing after each clear", (first, {len(listings(one)) for one in shown}, len(shown) > 2), ("", {1}, True))
    due("no terminal", CLEAR in ran(PROGRAM, given=hex_lines([GOOD])).stdout.decode("ascii"), False)


# Words that ask for nothing that there is
WRONG = [""], ["0"], ["0.9"], ["-1"], ["x"], ["1x"], ["nan"], ["inf"], ["86401"], ["1", "45"], ["1", "90.001", "0"], ["1", "0", "180.1"]
WRONG += ["1", "nan", "0"], ["1", "0", "x"], ["1", "0", ""], ["1", "0", "0", "0"], ["All"], ["1", "all"], ["all", "all"], ["all", "0"]


def failures():
    """Words that it does not take, an input that cannot be read, an output that cannot be written: each is said."""
    for words in WRONG:
        done = ran(PROGRAM, *words)
        due(f"live {words}", (done.returncode, done.stdout, done.stderr[:11]), (2, b"", b"usage: live"))
    none = b"0 taken, 0 lines without a message\n"
    for words, said in {"< /": b"live: the input cannot be read to its end\n", "<&-": b"live: the input cannot be read to its end\n",
                        "< /dev/null > /dev/full": b"live: the output cannot be written\n"}.items():
        done = subprocess.run(["sh", "-c", f"exec tools/run target/{PROGRAM} {words}"], cwd=ROOT, capture_output=True, timeout=60, check=False)
        due(f"live {words}", (done.returncode, done.stderr), (1, none + said))


def main():
    lines, hurt = real_lines(), damage()
    crowd()
    sites()
    pieces()
    count = silence()
    interrupted()
    terminal()
    failures()
    print(f"{lines} lines in each form and {hurt} damaged ones: the tracks and numbers of the model; {count} listings of one run")
    return 0


if __name__ == "__main__":
    sys.exit(main())
