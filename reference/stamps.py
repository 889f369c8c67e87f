"""RULES 10: a millisecond counter of 32 bits that starts again from 0, extended to 64-bit times."""

from typing import NamedTuple

import table as tables
from refusals import Refused

CIRCLE = 2**32
LATE = 2**31  # a distance from here on
LAST_TIME = 2**64 - 1
NOT_ACCEPTED = 1, 7, 2, 13  # an accepted stamp is one not refused with these


class Stamps(NamedTuple):
    """Whether a stamp has been accepted, and the last one that was."""

    started: bool = False
    last: int = 0


def extend(state, clock, stamp):
    """The time of a stamp, or 2, or 13."""
    if not state.started:  # until one is accepted, a stamp is taken as it is
        if stamp < clock:
            raise Refused(2)
        return stamp
    distance = (stamp - state.last) % CIRCLE  # counted around the circle
    if distance >= LATE:
        raise Refused(2)
    if clock + distance > LAST_TIME:
        raise Refused(13)
    return clock + distance


def at_stamp(table, state, string, stamp):
    """The message, received at the time of its stamp; 2 and 13 come after 1 and 7."""
    if len(string) != 14:
        raise Refused(1)
    return tables.receive(table, string, extend(state, tables.clock_of(table), stamp))


def receive(table, state, string, stamp):
    """The message, or the refusal, and the state afterwards."""
    try:
        answer = at_stamp(table, state, string, stamp)
    except Refused as refusal:
        answer = refusal
    accepted = not (isinstance(answer, Refused) and answer.number in NOT_ACCEPTED)
    return answer, Stamps(True, stamp) if accepted else state
