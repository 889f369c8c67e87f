"""Runs the program "listing", in Rattle and in C, on the samples and on 200 random captures, with all tracks asked for and without, and
compares with the model; then where its input or its output fails, and with words that it does not know, which it has to say. Then the script
./listing both ways, without the kit too.

    python3 reference/run_captures.py

The program in Rattle must have been built: crates/listing/out/listing. The script builds that in C, with dist/. The first difference is named, and the
status is 1.
"""

import os
import shutil
import subprocess
import sys
from itertools import product
from pathlib import Path
from random import Random
from tempfile import TemporaryDirectory

import traffic
from captures import BLOCK, MOST_RECORDS, SEAL, block, listing
from make_samples import SAMPLES, resealed
from positions import EVEN, ODD
from programs import ROOT, ran
from traffic import GROUND, NO_TRANSPONDER, OTHER, TRANSPONDER
from vectors.message_vectors import flipped, random_acceptable, random_no_position, random_reserved, random_status

RANDOM_CAPTURES = 200
SENDERS = (0, 0), (0, 3), (1, 15)  # flag and station of coarse messages


def message(chance):
    """A message: of one of a few aircraft, of anybody, damaged, or noise."""
    head, aa = chance.choice((TRANSPONDER, NO_TRANSPONDER, OTHER, *GROUND)), chance.choice((0, 1, 0xABCDEF, 2**24 - 1))
    place = chance.randrange(-(2**30), 2**30), chance.randrange(2**32)
    near = 2**29 + chance.randrange(10**6), 2**30 + chance.randrange(10**6)
    flag, station = chance.choice(SENDERS)
    return chance.choice((
        lambda: traffic.airborne(head, aa, chance.choice((EVEN, ODD)), near),
        lambda: traffic.airborne(head, aa, chance.choice((EVEN, ODD)), place, chance.choice((9, 18, 20)), chance.getrandbits(12)),
        lambda: traffic.surface(head, aa, chance.choice((EVEN, ODD)), near),
        lambda: traffic.identification(head, aa, "ADDER1"),
        lambda: chance.choice((traffic.velocity(head, aa, 9, 9), random_reserved(chance, aa))),
        lambda: random_no_position(chance, head, aa),
        lambda: random_status(chance, head, aa),  # of a ground station 5
        lambda: traffic.coarse(aa, chance.choice((EVEN, ODD)), near, station, flag, speed=chance.getrandbits(6)),
        lambda: chance.choice((traffic.coarse(aa, chance.choice((EVEN, ODD)), place, station, flag), traffic.coarse_bits(aa, chance.getrandbits(56)))),
        lambda: random_acceptable(chance),
        lambda: flipped(chance.choice((random_acceptable(chance), traffic.coarse(aa, EVEN, near, station, flag))), chance.randrange(1, 113)),
        lambda: chance.randbytes(14),
    ))()


def records(chance):
    """Up to 200 records; the clock moves by steps around the ages that matter, and now and then back."""
    time = chance.choice((0, 1_000, 2**63, 2**64 - 10**6))
    for _ in range(chance.randrange(200)):
        time += chance.choice((0, 1, 400, 9_999, 10_001, 120_001, 125_000, -5_000))
        time = max(0, min(time, 2**64 - 1))
        yield time, message(chance)


def damaged(chance, whole):
    """The block, or one that breaks a rule."""
    kind = chance.randrange(20)
    if kind == 0:
        return flipped(whole, chance.randrange(1, 8 * BLOCK + 1))
    if kind == 1:
        return resealed(whole, 0, chance.choice((0, 24, 255, chance.randrange(256))))
    if kind == 2:
        return resealed(whole, chance.randrange(3, BLOCK - SEAL), chance.randrange(256))
    if kind == 3:
        return chance.choice((bytes(BLOCK), chance.randbytes(BLOCK)))
    return whole


def random_capture(chance):
    """Blocks of any count, some of them bad, and often a part of one at the end."""
    rows, made = list(records(chance)), []
    while rows:
        count = chance.randrange(1, MOST_RECORDS + 1)
        made.append(damaged(chance, block(len(made), rows[:count])))
        rows = rows[count:]
    if chance.randrange(2):
        made.append(chance.randbytes(chance.randrange(BLOCK)))
    return b"".join(made)


def captures():
    """Every capture, with its name."""
    for name, made in SAMPLES.items():
        yield name, made()
    chance = Random(11)
    for number in range(RANDOM_CAPTURES):
        yield f"random capture {number}", random_capture(chance)


# With all tracks asked for or not: the words of the program
ASKED = {True: ["all"], False: []}

IN_RATTLE = ROOT / "crates/listing/out/listing"  # where `rt` builds it
IN_C = ROOT / "target/dist/listing"  # where the script ./listing builds it
WAYS = [], ["--prove"]  # of the script

# How a shell makes the input or the output fail, and what the program then says on standard error.
FAILURES = {
    "< /": b"listing: the input cannot be read to its end\n",
    "<&-": b"listing: the input cannot be read to its end\n",
    "< samples/example.capture > /dev/full": b"listing: the output cannot be written\n",
}


def failures_are_said():
    """The program prints no listing that is not whole, and says why; the script has a status besides, both ways."""
    for command, due in {"tools/run crates/listing/out/listing": 0, "./listing": 1, "./listing --prove": 1}.items():
        for words, said in FAILURES.items():
            done = subprocess.run(["sh", "-c", f"exec {command} {words}"], cwd=ROOT, capture_output=True, timeout=600, check=False)
            if (done.returncode, done.stdout, done.stderr) != (due, b"", said):
                print(f"{command} {words}: status {done.returncode}, {done.stdout + done.stderr}, and not {due} and {said}")
                return False
    return True


# Words that ask for nothing: misspelt, too many, empty, too long for any room.
UNKNOWN = ["al"], ["ALL"], ["alL"], ["all "], [" all"], ["alla"], [""], ["--all"], ["-"], ["0"], ["1"], ["a" * 5000]
UNKNOWN += ["all", "all"], ["all", ""], ["", "all"], ["al", "all"], ["samples/example.capture"], ["all", "samples/example.capture"]


def unknown_words_are_said():
    """A usage line, nothing on standard output, and the input is not read; in C the status is 2."""
    for words, (program, due) in product(UNKNOWN, (([ROOT / "tools/run", IN_RATTLE], 0), ([IN_C], 2))):
        with (ROOT / "samples/example.capture").open("rb", buffering=0) as given:
            done = subprocess.run([*program, *words], stdin=given, capture_output=True, timeout=60, check=False)
            found = done.returncode, done.stdout, done.stderr, given.tell()
        if found != (due, b"", b"usage: listing [all]\n", 0):
            print(f"{program[-1]} {words}: {found}")
            return False
    return True


# Words that the script ./listing does not take: it ends before it builds or proves anything. None of the first can be read.
NO_FILE = ["nofile"], ["all", "samples/nofile"], ["al"], ["ALL"], [""], ["all", "al"], ["samples"]
TOO_MANY = ["samples/example.capture", "all"], ["all", "samples/example.capture", "all"], ["nofile", "nofile"]


def script_says_usage():
    """The script ends with 2, prints nothing on standard output, and says which file it cannot read."""
    for way, words in product(WAYS, (*NO_FILE, *TOO_MANY)):
        done = scripted(*way, *words)
        said = f"./listing: '{words[-1]}' cannot be read\n" if words in NO_FILE else ""
        if (done.returncode, done.stdout, done.stderr.decode()) != (2, b"", f"{said}usage: ./listing [--prove] [all] [CAPTURE]\n"):
            print(f"./listing {way} {words}: status {done.returncode}, {done.stdout + done.stderr}")
            return False
    return True


def scripted(*words, **environment):
    """What came of the script ./listing."""
    command = [ROOT / "listing", *words]
    return subprocess.run(command, stdin=subprocess.DEVNULL, capture_output=True, timeout=600, env=os.environ | environment, check=False)


def samples_both_ways():
    """The script prints the listing of each sample, the same both ways, with status 0."""
    for given, asked, way in product(sorted((ROOT / "samples").glob("*.capture")), ASKED.items(), WAYS):
        done = scripted(*way, *asked[1], given)
        expected = given.with_suffix(".listing" if asked[0] else ".positioned").read_bytes()
        if (done.returncode, done.stdout, done.stderr) != (0, expected, b""):
            print(f"./listing {way} {asked[1]} {given.name}: status {done.returncode}, {done.stdout + done.stderr}")
            return False
    return True


LINES = ["*8D4840D6202CC371C32CE0576098;\n" * 30, "@00112233445502E197B00179C3;\r\n", "1400 8D4840D6202CC371C32CE0576098\n", "8d4840d6202cc371c32ce0576098"]
NO_LINES = ["", "*hello;\n", "*8D4840D6;\n", "MSG,3,1,1,4840D6,1\n", "\n"]


def lines_get_a_hint():
    """Lines of a receiver are no capture: the listing is as in Rattle, and a hint and the status say so. Another input gets none."""
    for text in (*LINES, *NO_LINES):
        done = subprocess.run([IN_C], input=text.encode("ascii"), capture_output=True, timeout=60, check=False)
        hinted = done.returncode == 1 and b"reference/make-capture < LINES > CAPTURE\n" in done.stderr
        if hinted != (text in LINES) or done.stdout != listing(text.encode("ascii"), False).encode("ascii") or not (hinted or done.returncode == 0):
            print(f"listing of {text!r}: status {done.returncode}, {done.stdout + done.stderr}")
            return False
    return True


def kit_is_not_needed():
    """Each C compiler that is here builds and runs it, and nobody calls rt."""
    with TemporaryDirectory() as folder:
        called = Path(folder) / "called"
        (Path(folder) / "rt").write_text(f"#!/bin/sh\n>'{called}'\nexit 1\n", encoding="utf-8")
        (Path(folder) / "rt").chmod(0o755)
        for compiler in filter(shutil.which, ("cc", "gcc", "clang")):
            done = scripted("samples/example.capture", PATH=f"{folder}:{os.environ['PATH']}", CC=compiler)
            if (done.returncode, done.stdout) != (0, (ROOT / "samples/example.positioned").read_bytes()) or called.exists():
                print(f"./listing with {compiler}: status {done.returncode}, {done.stdout + done.stderr}")
                return False
    return True


def main():
    if not kit_is_not_needed():
        return 1
    count = differ = 0
    for name, whole in captures():
        texts = [listing(whole, every).encode("ascii") for every in ASKED]
        for words, expected in zip(ASKED.values(), texts):
            in_c = subprocess.run([IN_C, *words], input=whole, capture_output=True, timeout=60, check=False)
            for language, done in (("Rattle", ran(IN_RATTLE, *words, given=whole, seconds=60)), ("C", in_c)):
                if done.returncode != 0 or done.stdout != expected:
                    print(f"{name}, {words}: status {done.returncode}; the model says\n{expected.decode()}and the program in {language}")
                    print((done.stdout + done.stderr).decode("ascii", errors="replace"))
                    return 1
        count += 1
        differ += texts[0] != texts[1]
    print(f"{count} captures, {differ} with tracks that have no position: the program prints what the model says, both ways, in Rattle and in C")
    said = failures_are_said() and unknown_words_are_said() and script_says_usage()
    return 0 if differ and said and samples_both_ways() and lines_get_a_hint() else 1


if __name__ == "__main__":
    sys.exit(main())
