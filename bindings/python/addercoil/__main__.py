"""The commands: python -m addercoil csv, listing, check or live."""
from __future__ import annotations

import argparse
import os
import re
import select
import sys
import time
from collections import Counter
from typing import IO

from . import Positions, Refused, Table, Track, check
from ._captures import Reader, blocks_of, opened
from ._lines import NAMES, TITLES, csv_line, live_line
from ._names import BLOCK, MESSAGE, WORDS

LARGE = 2**20  # bytes of a capture that takes some seconds
LISTED = 256  # places of the program listing
MOST = 1024
LONGEST = 63  # bytes of a line that can have a message
AVR = re.compile(rb"\s*(?:\*|@[0-9A-Fa-f]{12})((?:[0-9A-Fa-f]{2})+);\s*")
CLEAR = "\x1b[H\x1b[J"  # home, and clear
TEXT = re.compile(rb"[*@0-9A-Fa-f][*@; \t\r0-9A-Fa-f]*")
DIGIT = re.compile(rb"[0-9A-Fa-f]")


# Lines in the place of a capture


def is_text(block: bytes) -> bool:
    """Whether a block is the beginning of a receiver's lines, in hex. No good block begins so: its first byte is at most 23."""
    line = block.split(b"\n", 1)[0]
    return TEXT.fullmatch(line) is not None and len(DIGIT.findall(line)) >= MESSAGE


def no_capture(text: bool) -> int:
    """The status of a command that read a capture, with a hint if it read a receiver's lines."""
    if text:
        print("addercoil: these are lines of a receiver and no capture: live reads them, and reference/make-capture makes a capture of them", file=sys.stderr)
    return int(text)


# csv


class Progress:
    """Says on a terminal how far a large capture is read, unless the lines go to one too."""

    def __init__(self, file: IO[bytes]) -> None:
        size = os.fstat(file.fileno()).st_size
        self.size = size if size >= LARGE and sys.stderr.isatty() and not sys.stdout.isatty() else 0
        self.read = self.said = 0

    def block(self) -> None:
        """One block more."""
        self.read += BLOCK
        if self.size and 100 * self.read // self.size > self.said:
            self.said = 100 * self.read // self.size
            print(f"\r{min(self.said, 100):3} %", end="", file=sys.stderr, flush=True)

    def end(self) -> None:
        """Takes it away."""
        if self.size:
            print("\r     \r", end="", file=sys.stderr, flush=True)


def csv(words: argparse.Namespace) -> int:
    """Every position as it comes, or the last of each aircraft."""
    positions, reader, last, text = Positions(Table(words.places, words.site)), Reader(), dict[int, str](), False
    with opened(words.capture) as file:
        print(NAMES)
        progress = Progress(file)
        for block in blocks_of(file):
            text = text or (progress.read == 0 and is_text(block))
            for record in reader.records(block) or []:
                track = positions.receive(record)
                if track is not None and words.last:
                    last[track.key] = csv_line(track)
                elif track is not None:
                    print(csv_line(track))
            progress.block()
        progress.end()
    for key in sorted(last):
        print(last[key])
    say_refused(positions.refused, reader.table.bad_blocks)
    return no_capture(text)


def say_refused(refused: dict[int, int], bad: int) -> None:
    """On standard error: bad blocks, and how many messages were refused with which number."""
    said = [f"{bad} bad blocks"] if bad else []
    said += [f"{count} messages refused with {number}, {WORDS[number]}" for number, count in sorted(refused.items())]
    if said:
        print("\n".join(said), file=sys.stderr)


# listing and check


def listing(words: argparse.Namespace) -> int:
    """What the program listing prints of a capture."""
    table, text = Table(LISTED), False
    with opened(words.capture) as file:
        for number, block in enumerate(blocks_of(file)):
            text = text or (number == 0 and is_text(block))
            table.feed(block)
    print(table.listing(words.all), end="")
    return no_capture(text)


def checked(words: argparse.Namespace) -> int:
    """Whether another decoder's listing is ours, or the first line at fault."""
    found = check(words.capture, words.listing)
    if found.refusal:
        print(f"{found.refusal.number}: {found.refusal.words}", file=sys.stderr)
        return 2
    print(found)
    return 0 if found else 1


# live


class Live:
    """The lines of a receiver, and what became of them. A message arrives when its line does."""

    def __init__(self, table: Table) -> None:
        self.table, self.start = table, time.monotonic()
        self.answers: Counter[int | None] = Counter()
        self.rest = b""  # of a line that has not ended

    def clock(self) -> int:
        """Milliseconds since the start."""
        return int((time.monotonic() - self.start) * 1000)

    def line(self, line: bytes) -> None:
        """A whole line, which has a message or none."""
        form = AVR.fullmatch(line) if len(line) <= LONGEST else None
        if form is None:
            self.answers[None] += 1
            return
        refusal = self.table.receive(bytes.fromhex(form[1].decode("ascii")), self.clock())
        self.answers[0 if refusal is None else refusal.number] += 1

    def take(self, more: bytes) -> None:
        """More of the input, which may end anywhere in a line. Of a line that is too long the first bytes are kept."""
        *lines, rest = (self.rest + more).split(b"\n")
        for line in lines:
            self.line(line)
        self.rest = rest[: LONGEST + 1]

    def show(self, every: bool) -> None:
        """The aircraft now, on a terminal in place of the last ones."""
        now = self.clock()
        self.table.receive(bytes(MESSAGE), now)  # is refused, and moves the clock
        tracks: list[Track] = [track for track in self.table if every or track.units is not None]
        lines = [f"clock {now} aircraft {len(tracks)}", TITLES, *(live_line(track, now) for track in tracks)]
        print(("" if not sys.stdout.isatty() else CLEAR) + "\n".join(lines), flush=True)

    def say(self) -> None:
        """What came of the lines."""
        refused = [f"{self.answers[number]} refused with {number}" for number in WORDS if number and self.answers[number]]
        print(", ".join([f"{self.answers[0]} taken", *refused, f"{self.answers[None]} lines without a message"]), file=sys.stderr)


def live(words: argparse.Namespace) -> int:
    """The aircraft of a receiver while its lines come on standard input."""
    run, source = Live(Table(MOST, words.site)), sys.stdin.fileno()
    due = time.monotonic() + words.seconds
    try:
        while True:
            ready, _, _ = select.select([source], [], [], max(due - time.monotonic(), 0))
            more = os.read(source, 2**16) if ready else None
            if more == b"":
                break
            run.take(more or b"")
            if time.monotonic() >= due:
                run.show(words.all)
                due = time.monotonic() + words.seconds
        if run.rest:
            run.line(run.rest)  # the last line, without a newline
    except KeyboardInterrupt:
        pass
    run.show(words.all)
    run.say()
    return 0


# The words


def seconds(text: str) -> float:
    """How often live shows the aircraft."""
    number = float(text)
    if not 1 <= number <= 86_400:
        raise ValueError(text)
    return number


def parsed() -> argparse.Namespace:
    """The command and its words."""
    parser = argparse.ArgumentParser(prog="python -m addercoil", description="Captures and receivers' lines, by the verified decoder.")
    commands = parser.add_subparsers(required=True, metavar="COMMAND")
    one = commands.add_parser("csv", help="every position of a capture as it comes, a line each", description=csv.__doc__)
    one.add_argument("capture")
    one.add_argument("--last", action="store_true", help="only the last line of each aircraft")
    one.add_argument("--places", type=int, default=MOST, help="of the table, 1 to 1,024")
    with_site(one)
    one.set_defaults(run=csv)
    one = commands.add_parser("listing", help="the listing of a capture", description=listing.__doc__)
    one.add_argument("capture")
    one.add_argument("--all", action="store_true", help="aircraft without a position too")
    one.set_defaults(run=listing)
    one = commands.add_parser("check", help="another decoder's listing of a capture against ours", description=checked.__doc__)
    one.add_argument("capture")
    one.add_argument("listing")
    one.set_defaults(run=checked)
    one = commands.add_parser("live", help="the aircraft of a receiver, whose AVR lines come on standard input", description=live.__doc__)
    one.add_argument("--all", action="store_true", help="aircraft without a position too")
    one.add_argument("--seconds", type=seconds, default=1, help="how often they are shown")
    with_site(one)
    one.set_defaults(run=live)
    return parser.parse_args()


def with_site(parser: argparse.ArgumentParser) -> None:
    """The site of the receiver, which positions on the ground are read against."""
    parser.add_argument("--site", type=float, nargs=2, metavar=("LATITUDE", "LONGITUDE"), help="of the receiver, in degrees")


def main() -> int:
    """Runs a command; its status is 2 if it cannot."""
    words = parsed()
    if sys.stdout is None or (words.run is live and sys.stdin is None):
        print("addercoil: the input or the output is closed", file=sys.stderr)
        return 2
    try:
        status: int = words.run(words)
        sys.stdout.flush()
        return status
    except (OSError, Refused) as why:
        if isinstance(why, OSError):
            os.dup2(os.open(os.devnull, os.O_WRONLY), sys.stdout.fileno())  # so that nothing is said at the end
        if isinstance(why, BrokenPipeError):
            return 1
        print(f"addercoil: {why}", file=sys.stderr)
        return 2


if __name__ == "__main__":
    sys.exit(main())
