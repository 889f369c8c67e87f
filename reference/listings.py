"""Two listings as one, by their numbers: for tables side by side."""

import re

import captures
import checker
from refusals import Refused
from tracks import key_for

MOST = 2**64 - 1
NUMBERS = re.compile("clock ([0-9]+) tracks ([0-9]+) bad-blocks ([0-9]+)")
KIND_OF = {letter: kind for kind, letter in captures.KINDS.items()}
FLAG, STATION = ("0", "1"), tuple(map(str, range(16)))


def numbers_of(header):
    """The three numbers of a header, each below 2^64; 16 for any other."""
    found = NUMBERS.fullmatch(header)
    numbers = [int(word) for word in found.groups()] if found else []
    if not numbers or max(numbers) > MOST:
        raise Refused(16)
    return numbers


def key_in(line):
    """The key of a line; 16 for a flag or a station that no key has."""
    letter, address, *columns = line.split(" ")
    if letter != "C":
        return key_for(KIND_OF[letter], int(address, 16))
    flag, station = columns[:2]
    if flag not in FLAG or station not in STATION:
        raise Refused(16)
    return key_for(KIND_OF[letter], int(address, 16), int(flag), int(station))


def read(text):
    """What a listing says: its clock, its lines by their keys, and its bad blocks. 16 for a text that is none."""
    header, *lines = checker.lines_of(text)
    clock, tracks, bad = numbers_of(header)
    keys = [key_in(line) for line in lines]
    if tracks != len(lines) or any(low >= high for low, high in zip(keys, keys[1:])):
        raise Refused(16)
    return clock, dict(zip(keys, lines)), bad


def merge(one, other):
    """The listing of both; 16 if one is none, or if they have two clocks, a key in common, or too many bad blocks."""
    (clock, lines, bad), (other_clock, other_lines, other_bad) = read(one), read(other)
    if clock != other_clock or lines.keys() & other_lines.keys() or bad + other_bad > MOST:
        raise Refused(16)
    both = lines | other_lines
    header = f"clock {clock} tracks {len(both)} bad-blocks {bad + other_bad}"
    return "".join(f"{line}\n" for line in (header, *(both[key] for key in sorted(both)))).encode("ascii")
