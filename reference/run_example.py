"""Runs the example `hex` in C on its sample, and on lines that no receiver prints, and compares with the model: of all tracks,
with and without being asked, and of those with a position. Words that it does not take are a usage line; an input that
cannot be read and an output that cannot be written are said. Then the example `capture`, on the captures of samples/.

    python3 reference/run_example.py

tools/build-c must have built target/c/PROCESSOR/hex and capture; or for a board without a system minute, which takes the sample alone. For wasm32 it
is the example for node.
"""

import subprocess
import sys
from itertools import product

from make_samples import STEP, hex_lines, hex_listing, minute
from programs import C, ROOT, built, ran

GOOD = "8DABCDEF58378200010000300279"


def odd_lines():
    """Lines, each with the bytes that it says: bare and lower case, empty, too long, cut short, not hex. Half a byte is one."""
    whole = bytes.fromhex(GOOD)
    return [
        (GOOD.lower(), whole),
        ("", b""),
        (f"*{GOOD}00;", whole + b"\0"),
        (f"*{GOOD * 40};", (whole * 2)[:15]),
        (f"*{GOOD[:26]};", whole[:13]),
        (f"*{GOOD[:27]};", whole[:13] + b"\x70" + b"\0"),
        (f"*{GOOD}0;", whole + b"\0"),
        ("*hello;", b""),
        ("8DABCDEF58378580008000CC7711", bytes.fromhex("8DABCDEF58378580008000CC7711")),
    ]


CHOICES = {(): True, (1,): True, (0,): False}  # the word for the choice, and whether all are listed


def cases():
    """Each case: its input, the bytes of its lines, and the step."""
    strings = list(minute())
    yield hex_lines(strings), strings, STEP
    rows = odd_lines()
    yield "\n".join(line for line, _ in rows).encode("ascii"), [string for _, string in rows], 400
    yield b"", [], 1


WRONG = [1, 2], ["x"], [""], ["-1"], ["1x"], [" 1"], [2**64], [1, "x"], [1, ""], [1, -1], [1, 2**32], [1, 1, 1]


def failures():
    """What it does otherwise than it must with such words, or such an input or output."""
    for words in WRONG:
        done = ran(f"{C}/hex", *words, given=GOOD.encode("ascii"))
        if (done.returncode, done.stdout, done.stderr[:6]) != (2, b"", b"usage:"):
            yield f"hex {words}: status {done.returncode}, {done.stdout}, {done.stderr}"
    if "hex" not in built():
        return  # for node, which says such things in its own words
    for words, said in {"< /": b"the input cannot be read to its end", "< /dev/null > /dev/full": b"the output cannot be written"}.items():
        done = subprocess.run(["sh", "-c", f"exec tools/run target/{C}/hex {words}"], cwd=ROOT, capture_output=True, timeout=60, check=False)
        if (done.returncode, done.stdout, done.stderr) != (1, b"", b"0 refused\nhex: " + said + b"\n"):
            yield f"hex {words}: status {done.returncode}, {done.stdout}, {done.stderr}"


ENDINGS = {"listing": ["all"], "positioned": []}  # of what a capture's listings are named, and the words that ask for each


def captures():
    """What the example `capture` prints otherwise than samples/ has it."""
    for given, (ending, words) in product(sorted((ROOT / "samples").glob("*.capture")), ENDINGS.items()):
        done = ran(f"{C}/capture", *words, given=given.read_bytes())
        if (done.returncode, done.stdout, done.stderr) != (0, given.with_suffix(f".{ending}").read_bytes(), b""):
            yield f"capture {words} of {given.name}: status {done.returncode}, {done.stdout}, {done.stderr}"


def on_board():
    """What a board prints of the sample, and what it must."""
    strings = list(minute())
    runs = [ran(f"{C}/{program}", given=hex_lines(strings)) for program in built() if program.startswith("minute")]
    listing, refused = hex_listing(strings, STEP, True)
    return {(done.returncode, done.stdout) for done in runs}, {(0, f"{refused} refused\n".encode("ascii") + listing)}


def main():
    if "minute" in built() and "hex" not in built():
        found, due = on_board()
        print("a board prints what the model says" if found == due else f"found {found}\nand expected {due}")
        return 0 if found == due else 1
    for (given, strings, step), (words, every) in product(cases(), CHOICES.items()):
        done = ran(f"{C}/hex", step, *words, given=given)
        listing, refused = hex_listing(strings, step, every)
        if (done.returncode, done.stdout, done.stderr) != (0, listing, f"{refused} refused\n".encode("ascii")):
            print(f"status {done.returncode}; the model says {refused} refused and\n{listing.decode()}and the example")
            print((done.stderr + done.stdout).decode())
            return 1
    wrong = [*failures(), *(captures() if "capture" in built() else [])]
    print("\n".join(wrong) if wrong else "the examples print what the model says, both ways, and say what they cannot do")
    return 1 if wrong else 0


if __name__ == "__main__":
    sys.exit(main())
