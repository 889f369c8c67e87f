"""Cases of integrity_vectors.

A record: a kind, and of C above its three bits the flag and the station, a TYPE, whether bit 8 is set, each of a byte, and a
status ME of eight bytes. A line: the version, the supplements A, B and C, and the integrity, each of which may be `refused 8`.
"""

from itertools import product
from random import Random

import integrity
import published
from refusals import answer
from tracks import KINDS, C, I, O

NO_POSITION = (0, 1, 4, 19, 23, 30, 31)  # TYPEs, none of a position message
STATUS = 31 << 51
BIT_A, BIT_C = 1 << 12, 1 << 36  # ME bits 44 and 20


def status(version, subtype, a, c):
    """The ME of a status; c is bit 20, whatever the subtype."""
    return STATUS | subtype << 48 | version << 13 | a * BIT_A | c * BIT_C


def every_row():
    """Every TYPE of a position, and others, by every version, kind and set of supplements, of both subtypes."""
    types = *integrity.TYPES, *NO_POSITION
    for kind, version, subtype, type_code in product(KINDS, range(8), (0, 1), types):
        for a, b, c in product((0, 1), repeat=3):
            yield kind, type_code, b, status(version, subtype, a, c)


def other_statuses(chance):
    """None heard; an ME of another TYPE or subtype, which says none; each bit of a status alone, and all but it; any bits."""
    bits = status(2, 1, 1, 1) & (1 << 48) - 1
    others = [0, *(type_code << 51 | subtype << 48 | bits for type_code, subtype in product((0, 5, 15, 19, 29, 30), (0, 1)))]
    others += [STATUS | subtype << 48 | bits for subtype in range(8)]
    others += [STATUS | subtype << 48 | 1 << place for subtype, place in product((0, 1), range(48))]
    others += [STATUS | subtype << 48 | (2**48 - 1) ^ 1 << place for subtype, place in product((0, 1), range(48))]
    others += [int.from_bytes(bytes.fromhex(text)[4:11], "big") for text, _ in published.STATUS_ROWS]
    others += [STATUS | chance.randrange(2) << 48 | chance.getrandbits(48) for _ in range(300)]
    for me in others:
        for type_code in (0, 8, 11, chance.choice(integrity.TYPES)):
            yield chance.choice((I, O, I, O, chance.choice(KINDS))), type_code, chance.randrange(2), me


def too_wide(chance):
    """A TYPE of more than 5 bits, an ME of more than 56, or both: 8, whatever the rest is."""
    for kind, type_code in product(KINDS, (31, 32, 33, 32 + 11, 64, 128 + 11, 255)):
        for me in (0, status(2, 1, 1, 1), status(5, 0, 0, 0), 2**56 - 1, 2**56, 2**56 | status(2, 1, 1, 1), 2**63, 2**64 - 1):
            yield kind, type_code, chance.randrange(2), me
    for kind, me in product(KINDS, (2**56, 2**63 | STATUS)):
        yield kind, 11, 1, me


def answered(kind, type_code, bit8, me):
    """What is said of all three."""
    three = (integrity.version, kind, me), (integrity.supplements, kind, me, bit8), (integrity.integrity, kind, me, type_code, bit8)
    return ", ".join(answer(*question) for question in three)


def cases():
    """Records and their lines."""
    chance = Random(10)
    for kind, type_code, bit8, me in (*every_row(), *other_statuses(chance), *too_wide(chance)):
        sender = chance.randrange(32) if kind == C else 0
        yield bytes([sender << 3 | kind, type_code, bit8]) + me.to_bytes(8, "big"), answered(kind, type_code, bit8, me)
