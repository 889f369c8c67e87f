"""Checks listings, ours and damaged ones, through C, and compares with the model, which goes by their numbers.

    python3 reference/run_check.py

tools/build-c must have built target/c/PROCESSOR/calls and check. Of 500 random captures each has its listing damaged in some of
the ways below; each way is taken at least 20 times. Then the program for people: the samples' own listings get yes, and each of
its other answers comes. The first difference is named, and the status is 1.
"""

import sys
from collections import Counter
from pathlib import Path
from random import Random
from tempfile import TemporaryDirectory

import captures
import traffic
from captures import MOST_RECORDS as IN_BLOCK
from captures import block, listing
from checker import MOST_RECORDS, check
from embedding import call_text, outcome_text
from make_samples import SAMPLES
from positions import EVEN, ODD
from once import once
from programs import C, ROOT, ran
from refusals import Refused
from run_captures import damaged, random_capture
from traffic import GROUND, OTHER, TRANSPONDER

CAPTURES = 500
WAYS_EACH = 6  # of a capture
LEAST = 20  # times that a way is taken
HEARD, LATITUDE, LONGITUDE, ALTITUDE, STEP = range(-5, 0)  # where the columns stand, from the end of a line
TURN = 2**32
UNKNOWN = captures.UNKNOWN


# Captures


def pair(chance, head, aa, place, time):
    """An even and an odd message of a place, close behind each other."""
    code = chance.choice((0, 888, 3_000, chance.getrandbits(12)))
    return [(time + at, traffic.airborne(head, aa, i, place, chance.choice((9, 11, 18)), code)) for at, i in ((0, EVEN), (400, ODD))]


def located(chance):
    """A capture of some aircraft at the ends of latitude and longitude, or anywhere, one of them without a position."""
    rows, time = [], chance.choice((0, 5_000, 2**63))
    for aa in range(chance.randrange(1, 9)):
        place = chance.choice((0, 2**29, -(2**29), 2**30 - 2**20, 1)), chance.choice((0, 0, 2**31, TURN - 1, chance.randrange(TURN)))
        rows += pair(chance, chance.choice((TRANSPONDER, OTHER, *GROUND)), chance.choice((aa, 0xABCDE0 + aa)), place, time)
        time += 1_000
    rows.append((time, traffic.identification(TRANSPONDER, 0xFFFFF0, "NOWHERE")))
    made = [damaged(chance, block(at, rows[at : at + IN_BLOCK])) for at in range(0, len(rows), IN_BLOCK)]
    return b"".join(made) + bytes(chance.choice((0, 0, 100)))


# Ways to damage the lines of a listing. Each gives a text, or None where it does not apply.


def text_of(lines):
    """The text of some lines."""
    return "".join(f"{line}\n" for line in lines)


def changed(lines, at, column, figure):
    """The text with another figure in a column of a line."""
    words = lines[at].split(" ")
    words[column] = str(figure)
    return text_of([*lines[:at], " ".join(words), *lines[at + 1 :]])


def some(chance, lines, column=None, known=True):
    """A line below the header, in which a column is known, or is not; None if there is none."""
    fits = [at for at in range(1, len(lines)) if column is None or (lines[at].split(" ")[column] != UNKNOWN) is known]
    return chance.choice(fits) if fits else None


def figure_by(column, change):
    """A known figure of some line changed."""

    def way(chance, lines):
        at = some(chance, lines, column)
        return None if at is None else changed(lines, at, column, change(int(lines[at].split(" ")[column])))

    return way


def figure_to(column, known, figure):
    """A figure of some line that is known, or is not, replaced."""

    def way(chance, lines):
        at = some(chance, lines, column, known)
        return None if at is None else changed(lines, at, column, figure)

    return way


def line_by(change):
    """Some line below the header changed."""

    def way(chance, lines):
        at = some(chance, lines)
        if at is None:
            return None
        made = change(lines[at])
        return None if made is None else text_of([*lines[:at], made, *lines[at + 1 :]])

    return way


def header_by(column, change):
    """A number of the header changed."""
    return lambda chance, lines: changed(lines, 0, column, change(int(lines[0].split(" ")[column])))


def dropped(chance, lines):
    """Some line left out."""
    at = some(chance, lines)
    return None if at is None else text_of([*lines[:at], *lines[at + 1 :]])


def doubled(chance, lines):
    """Some line twice."""
    at = some(chance, lines)
    return None if at is None else text_of([*lines[: at + 1], *lines[at:]])


def swapped(chance, lines):
    """Two neighbours the other way round."""
    if len(lines) < 3:
        return None
    at = chance.randrange(1, len(lines) - 1)
    return text_of([*lines[:at], lines[at + 1], lines[at], *lines[at + 2 :]])


def moved(chance, lines):
    """Some line moved to the end."""
    at = some(chance, lines)
    return None if at is None else text_of([*lines[:at], *lines[at + 1 :], lines[at]])


def lowered(line):
    """A letter of the address in lower case."""
    words = line.split(" ")
    return None if words[1] == words[1].lower() else " ".join([words[0], words[1].lower(), *words[2:]])


def fault_then_no_form(chance, lines):
    """A line at fault, and behind it one that is not in the form."""
    return None if len(lines) < 3 else changed(lines, 1, HEARD, 10**18 + 7) + "I 00000G 0 - - - -\n"


def byte_put(chance, lines):
    """Any byte anywhere."""
    text = text_of(lines).encode("ascii")
    at = chance.randrange(len(text))
    return (text[:at] + chance.randbytes(1) + text[at + 1 :]).decode("latin-1")


def spelt(word):
    """Last heard of some line spelt so that it is no figure."""
    return line_by(lambda line: " ".join([*line.split(" ")[:HEARD], word(line.split(" ")[HEARD]), *line.split(" ")[HEARD + 1 :]]))


WAYS = {
    # in the form: places
    "ours": lambda chance, lines: text_of(lines),
    "latitude one up": figure_by(LATITUDE, lambda n: n + 1),
    "latitude one down": figure_by(LATITUDE, lambda n: n - 1),
    "latitude two up": figure_by(LATITUDE, lambda n: n + 2),
    "latitude two down": figure_by(LATITUDE, lambda n: n - 2),
    "latitude of the other sign": figure_by(LATITUDE, lambda n: -n),
    "longitude one east": figure_by(LONGITUDE, lambda n: (n + 1) % TURN),
    "longitude one west": figure_by(LONGITUDE, lambda n: (n - 1) % TURN),
    "longitude two east": figure_by(LONGITUDE, lambda n: (n + 2) % TURN),
    "longitude two west": figure_by(LONGITUDE, lambda n: (n - 2) % TURN),
    "longitude a turn more": figure_by(LONGITUDE, lambda n: n + TURN),
    "longitude a turn less": figure_by(LONGITUDE, lambda n: n - TURN),
    "longitude one west and not around": figure_by(LONGITUDE, lambda n: n - 1),
    "longitude 4294967296": figure_to(LONGITUDE, True, TURN),
    "longitude 4294967295": figure_to(LONGITUDE, True, TURN - 1),
    "longitude 0": figure_to(LONGITUDE, True, 0),
    "both one away": lambda chance, lines: None if some(chance, lines, LATITUDE) is None else text_of([lines[0], *map(beside, lines[1:])]),
    "latitude unknown": figure_to(LATITUDE, True, UNKNOWN),
    "longitude unknown": figure_to(LONGITUDE, True, UNKNOWN),
    "an unknown latitude 0": figure_to(LATITUDE, False, 0),
    "an unknown longitude 0": figure_to(LONGITUDE, False, 0),
    # .. other columns
    "last heard one later": figure_by(HEARD, lambda n: n + 1),
    "last heard unknown": figure_to(HEARD, True, UNKNOWN),
    "altitude one foot more": figure_by(ALTITUDE, lambda n: n + 1),
    "altitude unknown": figure_to(ALTITUDE, True, UNKNOWN),
    "an unknown altitude 0": figure_to(ALTITUDE, False, 0),
    "the other step": figure_by(STEP, lambda n: 125 - n),
    "step unknown": figure_to(STEP, True, UNKNOWN),
    "20 digits": figure_to(HEARD, True, 10**20 - 1),
    "minus 20 digits": figure_to(LATITUDE, True, 1 - 10**20),
    "2^64 more": figure_by(LATITUDE, lambda n: n + 2**64),
    "another kind": line_by(lambda line: ("O" if line[0] == "I" else "I") + line[1:] if line[0] != "C" else None),
    "another address": line_by(lambda line: line[:7] + ("1" if line[7] == "0" else "0") + line[8:]),
    # .. lines
    "a line dropped": dropped,
    "a line doubled": doubled,
    "two lines swapped": swapped,
    "a line moved": moved,
    "the last dropped": lambda chance, lines: text_of(lines[:-1]) if len(lines) > 1 else None,
    "the header alone": lambda chance, lines: text_of(lines[:1]),
    "a surplus line": lambda chance, lines: text_of([*lines, "N FFFFFF 0 - - - -"]),
    "a surplus line of C": lambda chance, lines: text_of([*lines, "C FFFFFF 1 15 0 - - - -"]),
    "the clock one later": header_by(1, lambda n: n + 1),
    "a track more": header_by(3, lambda n: n + 1),
    "a bad block more": header_by(5, lambda n: n + 1),
    "the clock unknown": header_by(1, lambda n: UNKNOWN),
    # out of the form
    "no last newline": lambda chance, lines: text_of(lines)[:-1],
    "an empty line": lambda chance, lines: text_of([*lines, ""]),
    "a double space": line_by(lambda line: line.replace(" ", "  ", 1)),
    "a space at the end": line_by(lambda line: f"{line} "),
    "a space in front": line_by(lambda line: f" {line}"),
    "a tab": line_by(lambda line: line.replace(" ", "\t", 1)),
    "a carriage return": line_by(lambda line: f"{line}\r"),
    "a digit in lower case": line_by(lowered),
    "five digits of an address": line_by(lambda line: line[:7] + line[8:]),
    "seven digits of an address": line_by(lambda line: f"{line[:8]}0{line[8:]}"),
    "a plus": spelt(lambda word: f"+{word}"),
    "a leading zero": spelt(lambda word: f"0{word}"),
    "minus 0": spelt(lambda word: "-0"),
    "two minus": spelt(lambda word: f"--{word}"),
    "21 digits": spelt(lambda word: "1" * 21),
    "minus 21 digits": spelt(lambda word: "-" + "1" * 21),
    "no figure": spelt(lambda word: ""),
    "a fraction": spelt(lambda word: f"{word}.0"),
    "a column cut": line_by(lambda line: line.rsplit(" ", 1)[0]),
    "a column more": line_by(lambda line: f"{line} 0"),
    "two columns more": line_by(lambda line: f"{line} 0 0"),
    "C with five columns": line_by(lambda line: f"C{line[1:]}" if line[0] != "C" else None),
    "a kind that is none": line_by(lambda line: f"X{line[1:]}"),
    "no header": lambda chance, lines: text_of(lines[1:]),
    "the header twice": lambda chance, lines: text_of([lines[0], *lines]),
    "another word in the header": lambda chance, lines: text_of(lines).replace("tracks", "Tracks", 1),
    "nothing": lambda chance, lines: "",
    "a fault, and then no form": fault_then_no_form,
    "any byte": byte_put,
}
POSITIONED = "the listing of those with a position"  # which is not ours


def beside(line):
    """A line whose place, if it has one, is one unit to the north and to the east."""
    words = line.split(" ")
    if words[LATITUDE] != UNKNOWN:
        words[LATITUDE], words[LONGITUDE] = str(int(words[LATITUDE]) + 1), str((int(words[LONGITUDE]) + 1) % TURN)
    return " ".join(words)


def damages(chance, whole, turn):
    """Some texts for a capture, each with the name of its way: the next ones in turn that apply."""
    lines, names = listing(whole, True).splitlines(), list(WAYS)
    for step in range(WAYS_EACH):
        name = names[(turn * WAYS_EACH + step) % len(names)]
        text = WAYS[name](chance, lines)
        if text is not None:
            yield name, text.encode("latin-1")
    yield POSITIONED, listing(whole, False).encode("ascii")


def too_many():
    """Captures about the bound, each with a name."""
    row = (1, bytes(14))
    full = [block(at, [row] * IN_BLOCK) for at in range(MOST_RECORDS // IN_BLOCK)]
    rest = MOST_RECORDS - IN_BLOCK * len(full)
    most = b"".join([*full, block(0, [row] * rest)])
    more = b"".join([*full, block(0, [row] * (rest + 1))])
    bad = bytes(captures.BLOCK)
    return {"2,900": most, "2,901": more, "2,900 and bad blocks": most + 9 * bad, "2,901 among bad ones": bad + more + bad}


def asked():
    """Each call, with the name of its way."""
    chance = Random(13)
    for turn in range(CAPTURES):
        whole = located(chance) if turn % 3 else random_capture(chance)
        for name, text in damages(chance, whole, turn):
            yield name, call_text("check", table=whole, given=text, length=1)
    samples = {name: first_records(made(), MOST_RECORDS) for name, made in SAMPLES.items()}
    for name, whole in (too_many() | samples).items():
        for text in (listing(whole, True), "no form", ""):
            yield name, call_text("check", table=whole, given=text.encode("ascii"), length=1)


def answered():
    """Each call with the name of its way, and what the model makes of it."""
    return once("checks", lambda: ((name, call, outcome_text(call)) for name, call in asked()))


def differences():
    """What C answers otherwise than the model, or what was never tried; None if there is nothing."""
    calls = list(answered())
    done = ran(f"{C}/calls", given="".join(f"{call}\n" for _, call, _ in calls).encode("ascii"))
    answers = done.stdout.decode("ascii").splitlines()
    for at, (name, call, outcome) in enumerate(calls):
        answer = answers[at] if at < len(answers) else f"nothing, status {done.returncode} {done.stderr.decode()}"
        if answer != outcome:
            return f"{name}: {call}\nthe model: {outcome}\nC:         {answer}"
    counts = Counter(name for name, _, _ in calls)
    rare = {name for name in (*WAYS, POSITIONED) if counts[name] < LEAST}
    said = Counter(outcome for _, _, outcome in calls)
    kinds = {"yes": "= 0 " + "0" * 16, "line 1": "= 0 " + "1".rjust(16, "0"), "line 2": "= 0 " + "2".rjust(16, "0")}
    missing = {kind for kind, outcome in kinds.items() if said[outcome] < LEAST}
    missing |= {number for number in ("14", "16") if not any(outcome.startswith(f"= {number} ") for outcome in said)}
    if rare or missing:
        return f"too rare: {rare or missing}"
    yes = said[kinds["yes"]]
    refused = sum(count for outcome, count in said.items() if not outcome.startswith("= 0 "))
    print(f"{len(calls)} listings of {CAPTURES} captures, damaged in {len(WAYS)} ways: {yes} yes, {refused} refused, the others a line; C says what the model does")
    return None


# The program for people


def due(whole, text):
    """Its status, and what it prints on standard output; on standard error the number with words."""
    try:
        line = check(whole, text)
    except Refused as refusal:
        return 2, b"", str(refusal.number).encode("ascii") + b": "
    return (1, f"line {line}\n".encode("ascii"), b"") if line else (0, b"yes\n", b"")


def first_records(whole, most):
    """The blocks of a capture up to so many records."""
    made, count = [], 0
    for one in captures.blocks(whole):
        try:
            count += len(captures.records_of(one))
        except Refused:
            pass
        if count > most:
            break
        made.append(one)
    return b"".join(made)


def for_people():
    """Captures and texts, each with a name: the samples with their own listings, and one of each other answer."""
    for name in SAMPLES:
        whole = (ROOT / f"samples/{name}.capture").read_bytes()
        yield f"{name}, its own", whole, (ROOT / f"samples/{name}.listing").read_bytes()
        yield f"{name}, of those with a position", whole, (ROOT / f"samples/{name}.positioned").read_bytes()
        part = first_records(whole, MOST_RECORDS)
        yield f"{name}, its first records", part, listing(part, True).encode("ascii")
    whole = (ROOT / "samples/airport.capture").read_bytes()
    yield "nothing", whole, b""
    lines = listing(whole, True).splitlines()
    yield "one unit away", whole, text_of([lines[0], *map(beside, lines[1:])]).encode("ascii")
    yield "no capture", b"", b"clock 0 tracks 0 bad-blocks 0\n"


def program_faults(folder):
    """What the program says otherwise than it is due; None if there is nothing."""
    said = Counter()
    paths = [Path(folder) / name for name in ("capture", "listing")]
    for name, whole, text in for_people():
        for path, given in zip(paths, (whole, text)):
            path.write_bytes(given)
        done = ran(f"{C}/check", *paths)
        status, printed, error = due(whole, text)
        if (done.returncode, done.stdout) != (status, printed) or not done.stderr.startswith(error) or bool(done.stderr) != bool(error):
            return f"{name}: status {done.returncode}, {done.stdout + done.stderr}; due are {status}, {printed + error}"
        said[printed.split(b" ")[0].strip() or error] += 1
    for words in ((), paths[:1], (*paths, "more"), (paths[0], paths[1].with_name("none"))):
        done = ran(f"{C}/check", *words)
        if (done.returncode, done.stdout) != (2, b"") or not done.stderr:
            return f"check {words}: status {done.returncode}, {done.stdout + done.stderr}"
    if set(said) != {b"yes", b"line", b"14: ", b"16: "}:
        return f"not every answer came: {said}"
    print(f"the program check: {dict(said)}")
    return None


def main():
    fault = differences()
    if fault is None:
        with TemporaryDirectory() as folder:
            fault = program_faults(folder)
    if fault is not None:
        print(fault)
        return 1
    return 0


if __name__ == "__main__":
    sys.exit(main())
