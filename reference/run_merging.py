"""Offers two messages at one time to a table in either order, through C: two antennas, one instant (RULES 9.12).

    python3 reference/run_merging.py

tools/build-c must have built target/c/PROCESSOR/calls. Of 2,000 random pairs and more, none of them two acceptable messages of one
key, and to none of which either order answers 6, both orders must give the same clock, the same answer to each and the same
listing, of all tracks and of those with a position. The tables have grown by messages, or are random bytes, or no tables;
places in them may differ, and in some do. The first pair that does not is named, and the status is 1.
"""

import sys
from random import Random
from typing import NamedTuple

import messages
import table as tables
from embedding import AT, BYTES, WORDS, array_of, call_text
from programs import C, ran
from refusals import Refused
from run_calls import answered, number, random_bytes, random_tracks, some_message, time_for, wrong_length
from tracks import key_of
from vectors.message_vectors import flipped

PAIRS, DRAWN = 2_000, 2_800  # so many at least are granted, of so many
GROWN = 3  # messages that a table has received between two pairs
FULL = "6"
ANSWERS = {*"0123457", "12"}  # that must come back to a pair that is granted


class Pair(NamedTuple):
    """A table, two messages, and their time; and a number of bad blocks for the listing."""

    table: bytes
    one: bytes
    other: bytes
    time: int
    bad: int


class Order(NamedTuple):
    """What an order gives: the answer to the first message and to the second, the table, and its listing."""

    first: str
    second: str
    table: bytes
    listing: list


# Pairs


def key(message):
    """The key of an acceptable message, else None."""
    try:
        return key_of(messages.decode(message))
    except Refused:
        return None


def two_messages(chance):
    """Two messages that are not both acceptable ones of one key, now and then the second a damaged copy of the first."""
    while True:
        one = some_message(chance)
        copied = one and chance.randrange(8) == 0
        other = flipped(one, chance.randrange(1, 8 * len(one) + 1)) if copied else some_message(chance)
        if key(one) is None or key(one) != key(other):
            return one, other


def pairs(chance):
    """The pairs, most of them for tables that live on and grow."""
    live = [bytearray(tables.length_of(places)) for places in (1, 2, 3, 4, 8, 8, 8, 24)]
    for _ in range(DRAWN):
        grown = chance.choice(live)
        for _ in range(GROWN):
            answered(chance, "receive", grown, 0)
        table = chance.choice((*[grown] * 5, random_bytes(chance), random_tracks(chance), wrong_length(chance)))
        yield Pair(bytes(table), *two_messages(chance), time_for(chance, table), number(chance))


# Calls of C, many at once


def told(calls):
    """The words that C answers to each call."""
    done = ran(f"{C}/calls", given="".join(f"{call}\n" for call in calls).encode("ascii"))
    lines = done.stdout.decode("ascii").splitlines()
    if done.returncode != 0 or len(lines) != len(calls):
        raise SystemExit(f"calls: status {done.returncode} {done.stderr.decode()}")
    return [line.split()[1:] for line in lines]


def received(offers):
    """The answer to each message that is offered to a table at a time, and the table that is left."""
    words = told([call_text("receive", table=table, given=message, numbers=[time]) for table, message, time in offers])
    return [(answer, array_of(table, BYTES)) for answer, table in words]


def walked(listed):
    """The keys of each table, one after the other."""
    keys, going = [[] for _ in listed], range(len(listed))
    while going:
        words = told([call_text("next", table=listed[at], length=1, numbers=[keys[at][-1] if keys[at] else 0]) for at in going])
        found = {at: array_of(result, WORDS)[0] for at, (answer, result) in zip(going, words) if answer == "0"}
        going = [at for at, above in found.items() if above]
        for at in going:
            keys[at].append(found[at])
    return keys


def listings(listed, bads):
    """What C says of each table: its clock, and the header and the lines of all its keys, with all asked for or not."""
    calls = []
    for table, bad, keys in zip(listed, bads, walked(listed)):
        said = [call_text("clock", table=table, length=1)]
        for every in (0, 1):
            said.append(call_text("header", table=table, length=AT["LINE"], numbers=[bad, every]))
            said += [call_text("line", table=table, length=AT["LINE"], numbers=[one, every]) for one in keys]
        calls.append(said)
    words = iter(told([call for said in calls for call in said]))
    return [[next(words) for _ in said] for said in calls]


def orders(offered):
    """What comes of each pair whose messages are offered in this order."""
    firsts = received([(pair.table, pair.one, pair.time) for pair in offered])
    seconds = received([(table, pair.other, pair.time) for pair, (_, table) in zip(offered, firsts)])
    lists = listings([table for _, table in seconds], [pair.bad for pair in offered])
    return [Order(first, second, table, listing) for (first, _), (second, table), listing in zip(firsts, seconds, lists)]


# The run


def same(order, turned):
    """Do both orders give the same?"""
    return (order.first, order.second, order.listing) == (turned.second, turned.first, turned.listing)


def main():
    drawn = list(pairs(Random(14)))
    found = list(zip(drawn, orders(drawn), orders([pair._replace(one=pair.other, other=pair.one) for pair in drawn])))
    granted = [row for row in found if FULL not in {row[1].first, row[1].second, row[2].first, row[2].second}]
    for pair, order, turned in granted:
        if not same(order, turned):
            print(f"{pair.table.hex()} {pair.one.hex()} {pair.other.hex()} {pair.time}\n{order}\n{turned}")
            return 1
    elsewhere = sum(order.table != turned.table for _, order, turned in granted)
    decided = sum(order.listing != turned.listing for _, order, turned in found)
    missing = ANSWERS - {answer for _, order, _ in granted for answer in (order.first, order.second)}
    if len(granted) < PAIRS or not elsewhere or not decided or missing:
        print(f"{len(granted)} pairs, {elsewhere} with other places, {decided} decided by their order; never answered: {missing}")
        return 1
    print(f"{len(granted)} pairs of messages at one time, in either order: C gives the same clock, answers and listing, in {elsewhere} of them at other places")
    print(f"where 6 is answered the order decides: the listings of {decided} more differ")
    return 0


if __name__ == "__main__":
    sys.exit(main())
