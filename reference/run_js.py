"""Compares the module for JavaScript, bindings/js, with the model, by node.

    python3 reference/run_js.py

The calls of tests/c are made by its lower half, `calls`. All samples go through its upper half: tracks, messages, listings, replays,
checks and degrees, with tests/js/scripted.mjs; tracks and messages as JSON too. The module is loaded from each sort of source. A million
calls leave its memory as it was. addercoil.d.ts has every name that there is and no other; if there is a compiler of TypeScript, it takes
tests/js/types.ts. The first difference is named, and the status is 1.
"""

import json
import re
import shutil
import subprocess
import sys
from fractions import Fraction
from random import Random
from types import SimpleNamespace

import captures
import messages
import survey
import tracks
from degrees import DEGREE, to_degrees, value_of
from embedding import AT, FUNCTIONS, READINGS, entry_names, layout_of, message_row
from once import once
from programs import MODULE, ROOT
from refusals import Refused
from replay import replay
from run_calls import tried
from run_captures import message
from run_check import due as check_due
from run_check import for_people
from run_python import FIGURES, SAMPLES, SITE, key_in, random_movement, random_velocity, reading_due, same_track, unit_due
from run_python import addercoil as package
from vectors.message_vectors import random_acceptable

MOST = 1024
EVERY = 1_000  # records of a sample between two looks at its tracks
BINDING = ROOT / "bindings/js"


def due(what, found, expected):
    """Ends the test if something else was found."""
    if found != expected:
        sys.exit(f"run_js: {what}: found\n{str(found)[:2000]}\nand expected\n{str(expected)[:2000]}")


def node(script, *words, given=""):
    """What a script of tests/js prints."""
    command = ["node", "--expose-gc", ROOT / "tests/js" / script, MODULE, *words]
    done = subprocess.run(command, input=given, capture_output=True, text=True, timeout=600, check=False)
    due(f"{script}: its end", (done.returncode, done.stderr), (0, ""))
    return done.stdout


def asked(lines):
    """What comes of lines of tests/js/scripted.mjs, each as Python has it."""
    printed = node("scripted.mjs", given="".join(f"{json.dumps(line)}\n" for line in lines)).splitlines()
    due("how many answers", len(printed), len(lines))
    return list(map(json.loads, printed))


def octets(string):
    return {"hex": string.hex()}


def refused(number):
    return {"refused": number}


def value(found):
    """An Over as the package for Python has it, which the comparison with the model is written for."""
    return package.Over(None if found["over"] is None else float(found["over"])) if isinstance(found, dict) else found


# The calls of tests/c


def every_call():
    """The calls of tests/c, and that every function of the header is among them."""
    rows = once("calls", tried)
    due("the functions called", {call.split()[0] for call, _ in rows}, set(FUNCTIONS))
    printed = node("bound.mjs", given="".join(f"{call}\n" for call, _ in rows)).splitlines()
    for (call, outcome), found in zip(rows, printed, strict=True):
        if found != outcome:
            due(call[:300], found, outcome)
    return len(rows)


# Tracks


def python_name(name):
    """positionTime is position_time."""
    return re.sub(r"[A-Z]", lambda letter: f"_{letter[0].lower()}", name)


def track_of(found):
    """A track of the module by the names of the package for Python."""
    made = SimpleNamespace(**{python_name(name): value(one) for name, one in found.items()})
    made.entries = [int(entry) for entry in found["entries"]]
    made.units = made.units and tuple(made.units)
    made.speed = float(made.speed) if isinstance(made.speed, int) else made.speed
    due("whether it is coarse", made.is_coarse, made.kind == "C")
    return made


class Beside:
    """A table of the module and the model's tracks, which receive the same. What is asked of the module is asked at the end, at once."""

    def __init__(self, site=None):
        self.held = survey.Held(MOST, None if site is None else tuple(round(Fraction(one) / DEGREE) for one in site))
        self.lines, self.looks = [["=t", {"places": MOST, "site": site}]], []

    def receive(self, string, time, as_hex):
        """The same message for both: as bytes or as hex."""
        self.held.receive(string, time)
        self.lines.append(["t.tryReceive", string.hex() if as_hex else octets(string), time])

    def look(self, what):
        """Every track of both, now."""
        keys = sorted(key for key in self.held.tracks if self.held.track(key) is not None)
        self.looks.append((what, len(self.lines), self.held.clock, {key: self.held.track(key) for key in keys}))
        self.lines += [["t.tracks"], ["t.clock"]]

    def compare(self):
        """All looks; how many tracks."""
        answers = asked(self.lines)
        for what, at, clock, held in self.looks:
            due(f"{what}: the clock", answers[at + 1], clock)
            due(f"{what}: the keys", [found["key"] for found in answers[at]], list(held))
            for found in map(track_of, answers[at]):
                same_track(f"{what}: {found.key}", found, found.key, held[found.key])
        return sum(len(held) for *_, held in self.looks)


def sample_tracks():
    """The tracks of each sample now and then, with a site and without; how many."""
    count = 0
    for path in SAMPLES:
        records = list(survey.records_of(path.read_bytes()))
        for both in (Beside(), Beside(SITE)):
            for number, (time, string) in enumerate(records, 1):
                both.receive(string, time, number % 2)
                if number % EVERY == 0 or number == len(records):
                    both.look(f"{path.name}, record {number}")
            count += both.compare()
    return count


def random_tracks():
    """Tracks of random messages of a few aircraft, looked at after each ten."""
    chance, both, time = Random(50), Beside(SITE), 0
    for number in range(3_000):
        string = chance.choice((message, random_velocity, random_movement))(chance)
        time += chance.choice((0, 1, 400, 5_000, 60_000))
        both.receive(string, time, number % 2)
        if number % 10 == 0:
            both.look(f"random message {number}")
    return both.compare()


# Messages


def camel(name):
    """A name of Python as JavaScript has it."""
    return re.sub(r"_(\w)", lambda letter: letter[1].upper(), name)


def message_due(string):
    """What a message says, by the model, as the module has it; or why it is refused."""
    try:
        said = messages.decode(string)
    except Refused as refusal:
        return refused(refusal.number)
    layout, entries = layout_of(said), message_row(said)
    fields = {camel(name.removeprefix(f"{layout}_").removeprefix("VERTICAL_").lower()): said[one] for one, name in entry_names(layout)}
    readings = {camel(name): one for name, one in (reading_due(layout, entries, name) for name in READINGS[layout])}
    heads = {
        "layout": layout,
        "df": said["DF"],
        "ca": said["CA or CF"],
        "address": said["AA"],
        "key": tracks.key_of(said),
        "type": said.get("TYPE"),
    }
    return heads | {"kind": captures.KINDS[tracks.kind_of(said)], "fields": fields, "readings": readings}


def same_message(string, found, again, key):
    """A message, what it is encoded as, and its key."""
    expected = message_due(string)
    if "refused" in expected:
        due(f"{string.hex()} is refused", (found, again, key), (expected,) * 3)
        return
    found["readings"] = {name: value(one) for name, one in found["readings"].items()}
    due(string.hex(), {name: one for name, one in found.items() if name != "entries"}, expected)
    due(f"{string.hex()}: encoded, and its key", (again, key), (octets(string), expected["key"]))


def every_message():
    """The messages of all samples, and random ones of each layout."""
    chance = Random(51)
    strings = {string for path in SAMPLES for _, string in survey.records_of(path.read_bytes())}
    strings |= {one(chance) for one in (message, random_velocity, random_movement, random_acceptable) for _ in range(2_000)}
    strings = sorted(strings)
    answers = asked([[name, string.hex()] for string in strings for name in ("decode", "again", "key")])
    for number, string in enumerate(strings):
        same_message(string, *answers[3 * number : 3 * number + 3])
    return len(strings)


# Captures, replays, checks and degrees


def every_capture():
    """Listings of each sample, fed block by block, and its records; a stamp's way; what a time above 2^53 is."""
    for path in SAMPLES:
        whole = path.read_bytes()
        blocks = [["t.feed", octets(one)] for one in captures.blocks(whole)]
        *fed, every, shown, bad, read = asked(
            [["=t"], *blocks, ["t.listing", True], ["t.listing"], ["t.badBlocks"], ["readCapture", octets(whole)]]
        )
        due(
            f"{path.name}: its listings",
            (every, shown),
            tuple(path.with_suffix(ending).read_text(encoding="ascii") for ending in (".listing", ".positioned")),
        )
        records = [(one["time"], bytes.fromhex(one["message"]["hex"])) for one in read["records"]]
        due(f"{path.name}: its records", records, list(survey.records_of(whole)))
        due(f"{path.name}: its bad blocks", (bad, read["badBlocks"]), (fed.count(False),) * 2)
    string = bytes.fromhex("8DABCDEF58378200010000300279")
    late = captures.capture([(2**53 - 1, string), (2**64 - 1, string)])
    last = {"big": str(2**64 - 1)}
    read, _, taken, clock, listing = asked(
        [["readCapture", octets(late)], ["=t"], ["t.receive", octets(string), last], ["t.clock"], ["t.listing", True]]
    )
    due("times above 2^53", ([one["time"] for one in read["records"]], taken, float(clock)), ([2**53 - 1, last], None, float(2**64)))
    due("an exact clock", listing.split()[1], str(2**64 - 1))


def every_stamp():
    """A counter that starts again from 0, and what is refused of it."""
    string = "8DABCDEF58378200010000300279"
    steps = [
        (2**32 - 10, 0, 2**32 - 10),
        (5, 0, 2**32 + 5),
        (2**31 + 6, 2, 2**32 + 5),
        (2**32, 8, 2**32 + 5),
        (-1, 8, 2**32 + 5),
    ]
    answers = asked([["=t"], *(line for stamp, _, _ in steps for line in (["t.tryReceiveStamp", string, stamp], ["t.clock"]))])[1:]
    due("stamps", [*zip(answers[::2], answers[1::2])], [(number, clock) for _, number, clock in steps])


def every_replay():
    """Some 60 aircraft of each sample worked out again, of bytes and of records; and what is refused."""
    count = 0
    for path in SAMPLES:
        records = list(survey.records_of(path.read_bytes()))[:2_900]
        log = b"".join(captures.record(*one) for one in records)
        keys = sorted({key for key in map(key_in, records) if key is not None})
        keys = keys[:: 1 + len(keys) // 60]
        wanted = [
            {
                "kind": captures.KINDS[tracks.kind_in(key)],
                "address": tracks.address_in(key),
                **dict(zip(("flag", "station"), tracks.sender_in(key))),
            }
            for key in keys
        ]
        forms = octets(log), [{"time": time, "message": string.hex()} for time, string in records]
        answers = asked([["replay", forms[number % 20 == 1], one] for number, one in enumerate(wanted)])
        for key, one, found in zip(keys, wanted, answers):
            track = replay(log, tracks.kind_in(key), tracks.address_in(key), None, *tracks.sender_in(key))
            due(f"{path.name}: {one} is held", found is None, track is None)
            if track is not None:
                same_track(f"{path.name}: {one}", track_of(found), key, track)
        count += len(keys)
    wrong = [{"kind": "X"}, {"address": 2**24}, {"kind": "C", "flag": 2}, {"kind": "C", "station": 16}, {"site": [91, 0]}]
    answers = asked(
        [["replay", octets(b""), {"kind": "I", "address": 1} | one] for one in wrong]
        + [["replay", octets(bytes(size)), {"kind": "X", "address": 1}] for size in (22 * 2_901, 23)]
    )
    due("replays that are refused", answers, [refused(8)] * len(wrong) + [refused(14)] * 2)
    return count


def every_check():
    """Listings of others: yes, the first line at fault, or why it is refused."""
    cases = list(for_people())
    for (name, whole, text), found in zip(cases, asked([["check", octets(whole), octets(text)] for _, whole, text in cases])):
        status, printed, error = check_due(whole, text)  # yes, line N, or on standard error the number that it is refused with
        due(f"check {name}", found, 0 if status == 0 else int(printed.split()[1]) if status == 1 else refused(int(error.split(b":")[0])))
    return len(cases)


def every_merge():
    """The aircraft of each sample in two listings, by turns, become its listing again; and what is refused."""
    for path in SAMPLES:
        header, *lines = path.with_suffix(".listing").read_text(encoding="ascii").splitlines(keepends=True)
        clock, bad = header.split()[1], header.split()[5]
        parts = (lines[::2], bad), (lines[1::2], "0")
        one, other = (f"clock {clock} tracks {len(half)} bad-blocks {count}\n{''.join(half)}" for half, count in parts)
        found = asked([["merge", one, other], ["merge", one, octets(other.encode("ascii"))], ["merge", one, "x"]])
        due(f"{path.name}: two listings as one", found, [header + "".join(lines)] * 2 + [refused(16)])
    twin = "clock 1 tracks 1 bad-blocks 0\nI 000001 1 - - - -\n"
    due("a key in both, and a wrong type", asked([["merge", twin, twin], ["merge", 5, ""]]), [refused(16), {"thrown": "TypeError"}])


def every_degree():
    """Spots in degrees, exactly; degrees as people type them, to the nearest unit; and what is refused."""
    chance = Random(52)
    spots = [(chance.randrange(-(2**30), 2**30 + 1), chance.randrange(2**32)) for _ in range(5_000)] + [
        (2**30, 2**31),
        (-(2**30), 0),
        (0, 2**32 - 1),
    ]
    for spot, found in zip(spots, asked([["degrees", *spot] for spot in spots])):
        due(f"the spot {spot}", [Fraction(one) for one in found], [value_of(pattern) for pattern in to_degrees(*spot)])
    back = asked([["fromDegrees", *(float(value_of(pattern)) for pattern in to_degrees(*spot))] for spot in spots])
    due("the way back", back, [list(spot) for spot in spots])
    figures = [one for one in FIGURES if one == one and abs(one) < float("inf")]
    pairs = [(one, two) for one in figures for two in figures] + [
        (chance.uniform(-91, 91), chance.uniform(-181, 361)) for _ in range(5_000)
    ]
    inside = [-90 <= north <= 90 and -180 <= east <= 360 for north, east in pairs]
    expected = [[unit_due(north), unit_due(east) % 2**32] if one else refused(8) for (north, east), one in zip(pairs, inside)]
    due("the nearest units", asked([["units", *pair] for pair in pairs]), expected)
    wrong = [["degrees", 2**30 + 1, 0], ["degrees", 2**31, 0], ["degrees", 0, -1], ["fromDegrees", 0.1, 0], ["fromDegrees", 0, 180]]
    due("degrees that are refused", asked(wrong), [refused(8)] * 3 + [refused(15)] * 2)
    return len(spots) + len(pairs)


# What is wrong

GOOD = "8D4840D6202CC371C32CE0576098"
WRONG = [
    (["t.receive", None, 1], "TypeError"),
    (["t.receive", 5, 1], "TypeError"),
    (["t.receive", [1], 1], "TypeError"),
    (["t.receive", GOOD, 0.5], "TypeError"),
    (["t.receive", GOOD, "1"], "TypeError"),
    (["t.receive", GOOD], "TypeError"),
    (["t.receive", GOOD, -1], 8),
    (["t.receive", GOOD, {"big": str(2**64)}], 8),
    (["t.receive", GOOD[:-1], 1], 1),
    (["t.receive", "", 1], 1),
    (["t.receive", f"{GOOD}00", 1], 1),
    (["t.receive", "8D4840D6202CC371C32CE05760zz", 1], 1),
    (["t.receive", "8D4840D6202CC371C32CE0576099", 1], 3),
    (["t.feed", "x"], "TypeError"),
    (["t.track", "X", 1], 8),
    (["t.track", 1, 1], "TypeError"),
    (["=u", {"places": 0}], 7),
    (["=u", {"places": 1025}], 7),
    (["=u", {"places": -1}], 7),
    (["=u", {"places": 1.5}], "TypeError"),
    (["=u", {"site": [91, 0]}], 8),
    (["=u", {"site": 5}], "TypeError"),
    (["decode", {}], "TypeError"),
    (["decode", "00"], 1),
    (["key", "00"], 1),
    (["encode", 5], "TypeError"),
    (["check", "x", "y"], "TypeError"),
    (["replay", 5, {"kind": "I", "address": 1}], "TypeError"),
    (["degrees", "1", 2], "TypeError"),
    (["units", "1", 2], "TypeError"),
]


def every_fault():
    """Wrong types throw a TypeError; what the library refuses is a Refused; and the table is as it was."""
    answers = asked(
        [
            ["=t", {"places": 4}],
            ["t.receive", GOOD, 0],
            *(line for line, _ in WRONG),
            ["t.listing", True],
            ["t.close"],
            ["t.receive", GOOD, 1],
            ["t.closed"],
        ]
    )
    for (line, expected), found in zip(WRONG, answers[2:]):
        due(f"{line}", found, refused(expected) if isinstance(expected, int) else {"thrown": expected})
    due("the table after that", answers[-4:], ["clock 1 tracks 1 bad-blocks 0\nI 4840D6 0 - - - -\n", None, {"thrown": "Error"}, True])
    return len(WRONG)


# JSON, and where a module comes from


def plain(found):
    """What a script shows, as JSON has it: without entries, and an Over with its least."""
    if isinstance(found, list):
        return list(map(plain, found))
    if not isinstance(found, dict):
        return found
    return {"least": found["over"]} if "over" in found else {name: plain(one) for name, one in found.items() if name != "entries"}


def every_json():
    """The tracks and messages of each sample as JSON have what their names give; how many."""
    count = 0
    for path in SAMPLES:
        records = list(survey.records_of(path.read_bytes()))[:EVERY]
        received = [["t.tryReceive", string.hex(), time] for time, string in records]
        held, as_json = asked([["=t", {"places": MOST}], *received, ["t.tracks"], ["json", "t.tracks"]])[-2:]
        due(f"{path.name}: tracks as JSON", as_json, plain(held))
        strings = sorted({string.hex() for _, string in records})
        said = asked([line for one in strings for line in (["decode", one], ["json", "decode", one])])
        due(f"{path.name}: messages as JSON", said[1::2], list(map(plain, said[::2])))
        count += len(held) + len(strings)
    return count


def every_source():
    """The module comes from bytes, a compiled module, a path, a URL, and URLs as strings."""
    version = f"{AT['VERSION'] // 10_000}.{AT['VERSION'] // 100 % 100}.{AT['VERSION'] % 100}"
    due("where the module comes from", node("sources.mjs").splitlines(), [version] * 6)


# Types


def every_type():
    """addercoil.d.ts has each name of each class and no other. With a compiler: a program that uses them, and lines that must not pass."""
    text = (BINDING / "addercoil.d.ts").read_text(encoding="ascii")
    listing = (
        "import * as all from '../../bindings/js/addercoil.js';"
        " console.log(JSON.stringify(Object.fromEntries(Object.entries(all).map(([name, one]) => [name,"
        " Reflect.ownKeys(one.prototype ?? {}).map((key) => key === Symbol.dispose ? 'Symbol.dispose' : key.description ?? key)"
        " .filter((key) => key !== 'constructor')]))))"
    )
    done = subprocess.run(
        ["node", "--input-type=module", "-e", listing], cwd=ROOT / "tests/js", capture_output=True, text=True, check=True
    )
    for name, methods in json.loads(done.stdout).items():
        found = re.search(rf"export (?:class|function) {name}\b([^{{]*\{{.*?^\}})?", text, flags=re.S | re.M)
        due(f"addercoil.d.ts: {name}", bool(found), True)
        told = set(re.findall(r"^    (?:get )?\[?([\w.]+)\]?\(", found[1] or "", flags=re.M)) - {"constructor"}
        older = {"Symbol.dispose"} if name == "Table" else set()  # an older node does not have it
        due(f"addercoil.d.ts: the names of {name}", told, set(methods) | older)
    if not shutil.which("tsc"):
        return "no tsc is here to try them"
    words = ["--noEmit", "--strict", "--target", "es2022", "--module", "es2022", "--moduleResolution", "node", "--lib", "es2022,dom"]
    done = subprocess.run(["tsc", *words, ROOT / "tests/js/types.ts"], capture_output=True, text=True, check=False)
    due("tsc of tests/js/types.ts", (done.returncode, done.stdout), (0, ""))
    return "tsc takes them"


def main():
    if not shutil.which("node"):
        sys.exit("run_js: there is no node, package nodejs")
    due("the header of the model", AT["RECORD"], captures.RECORD)
    print(f"{every_call()} calls of {len(FUNCTIONS)} functions by calls of bindings/js: what the model does", flush=True)
    print(
        f"{sample_tracks()} tracks of samples, {random_tracks()} of random messages, {every_message()} messages: as the model has them",
        flush=True,
    )
    every_capture()
    every_stamp()
    every_merge()
    print(
        f"{every_replay()} replays, {every_check()} checks, {every_degree()} places in degrees, {every_fault()} faults: the same",
        flush=True,
    )
    every_source()
    print(f"{every_json()} tracks and messages as JSON; types: {every_type()}")
    print(node("leak.mjs", ROOT / "samples/airport.capture"), end="")
    return 0


if __name__ == "__main__":
    sys.exit(main())
