"""RULES 14: another decoder's listing against ours, by its numbers."""

import re

import captures
from refusals import Refused

MOST_RECORDS = 2_900
CIRCLE = 2**32  # longitudes of a turn
UNIT = 1

# The form: "-", or a decimal of at most 20 digits without leading zeros, minus only before a nonzero one
FIGURE = "(?:-|0|-?[1-9][0-9]{0,19})"
HEADER = re.compile(f"clock {FIGURE} tracks {FIGURE} bad-blocks {FIGURE}")
COLUMNS = {5: "[IOTMN]", 7: "C"}  # last heard, latitude, longitude, altitude, step; of C flag and station before them
LINES = [re.compile(f"{kinds} [0-9A-F]{{6}}(?: {FIGURE}){{{count}}}") for count, kinds in COLUMNS.items()]
PLACE = slice(-4, -2)  # latitude and longitude among the columns


def records_in(whole):
    """How many records the good blocks of a capture have."""
    count = 0
    for one_block in captures.blocks(whole):
        try:
            count += len(captures.records_of(one_block))
        except Refused:
            continue
    return count


def lines_of(text):
    """The lines of a text in the form, the header's first; 16 for any other."""
    *lines, rest = text.decode("latin-1").split("\n")
    header, others = lines[:1], lines[1:]
    if rest or not header or not HEADER.fullmatch(header[0]):
        raise Refused(16)
    if not all(any(form.fullmatch(line) for form in LINES) for line in others):
        raise Refused(16)
    return lines


def columns_of(line):
    """What a line says: its kind, its address, and its figures, None for what is unknown."""
    kind, address, *figures = line.split(" ")
    return kind, int(address, 16), [None if figure == captures.UNKNOWN else int(figure) for figure in figures]


def latitudes_agree(theirs, ours):
    """Within one unit, or unknown in both."""
    if theirs is None or ours is None:
        return theirs is ours
    return abs(theirs - ours) <= UNIT


def longitudes_agree(theirs, ours):
    """The same around the circle; one of 2^32 or more, or below 0, is a fault."""
    if theirs is None or ours is None:
        return theirs is ours
    return 0 <= theirs < CIRCLE and min((theirs - ours) % CIRCLE, (ours - theirs) % CIRCLE) <= UNIT


def agree(theirs, ours):
    """A line against ours: latitude and longitude within one unit, every other column equal."""
    (kind, address, figures), (our_kind, our_address, our_figures) = columns_of(theirs), columns_of(ours)
    if (kind, address, len(figures)) != (our_kind, our_address, len(our_figures)):
        return False
    places = [*zip(figures[PLACE], our_figures[PLACE])]
    figures[PLACE], our_figures[PLACE] = [], []
    return figures == our_figures and latitudes_agree(*places[0]) and longitudes_agree(*places[1])


def check(whole, text):
    """0 for yes, else the first line at fault, counted from 1; 14 for a capture of too many records, then 16."""
    if records_in(whole) > MOST_RECORDS:
        raise Refused(14)
    theirs = lines_of(text)
    ours = captures.listing(whole, True).splitlines()
    for number in range(1, max(len(theirs), len(ours)) + 1):
        if number > min(len(theirs), len(ours)):
            return number  # missing, or surplus
        mine, yours = ours[number - 1], theirs[number - 1]
        if not (mine == yours if number == 1 else agree(yours, mine)):
            return number
    return 0
