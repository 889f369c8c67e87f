"""Cases of message_vectors.

A record: one byte n, then n bytes. A line: `refused N`; or the fields in the order of their bits,
then the message encoded again, in hex.
Where n is 254 a status made by hand follows, its 17 fields of eight bytes each, and where it is 253 a coarse message, its 13
fields. A line: `refused 8`, or what it is encoded to.
"""

from itertools import product
from random import Random

import published
from messages import AIRBORNE, COARSE, HEAD, IDENTIFICATION, SENDER, STATUS, SURFACE, decode, encode, layout
from parity import GENERATOR, sealed
from refusals import answer
from traffic import GROUND, NO_TRANSPONDER, OF_STATION, OTHER, TRANSPONDER, coarse_bits

STARTING_TYPES = [*range(1, 23)]  # those that may start a track of kind I or O: all that are taken but TYPE 0, and but for status
BY_HAND, COARSE_BY_HAND = 254, 253  # in the place of a length
NOT_TAKEN = (4, 4, 6, 7)  # CFs of DF 18, for a draw
FLAGS = 1 << 35, 1 << 48, 1 << 47  # ME bits 21, 8 and 9 in the last 51 bits of ME


def sealed_message(df, ca_or_cf, aa, type_code, rest):
    """14 bytes of remainder 0 with these fields; rest is the last 51 bits of ME."""
    whole = ((df << 3 | ca_or_cf) << 24 | aa) << 56 | type_code << 51 | rest
    return sealed(whole.to_bytes(11, "big"))


def flag_bit(type_code):
    """Where a TYPE has the flag, in the last 51 bits of ME: on the surface, airborne, of a velocity; 0 where it has none."""
    fields = layout(type_code, 1)
    if fields in (None, IDENTIFICATION, STATUS):
        return 0
    return FLAGS[0] if fields is SURFACE else FLAGS[1] if fields is AIRBORNE else FLAGS[2]


def of_head(head, aa, type_code, rest):
    """The message of a head; where that has a flag, it stands where the TYPE has it."""
    bit = flag_bit(type_code) if len(head) == 3 else 0
    return sealed_message(*head[:2], aa, type_code, rest & ~bit | bit * head[-1])


def random_rest(chance, type_code):
    """51 bits; for TYPE 19 with one of the subtypes 1-4."""
    rest = chance.getrandbits(51)
    if type_code == 19:
        rest = rest % 2**48 | chance.randrange(1, 5) << 48
    return rest


def random_valid(chance):
    """An acceptable message of a TYPE that may start a track."""
    df, ca_or_cf = chance.choice([(17, chance.randrange(8)), (18, 0), (18, 1)])
    type_code = chance.choice([*STARTING_TYPES, 19, 19, 19])
    return sealed_message(df, ca_or_cf, chance.getrandbits(24), type_code, random_rest(chance, type_code))


def altitude_codes():
    """The first and the last code of each class: all zeros, Q 1, and with Q 0 each of C1 C2 C4 with F even and odd."""
    ends = {}
    for code in range(4096):
        hundreds = code & 0b101010000000
        of_class = ("Q",) if code & 16 else (code == 0, hundreds, (code ^ hundreds).bit_count() % 2)
        ends[of_class] = ends.get(of_class, (code,))[0], code
    return sorted({code for both in ends.values() for code in both})


def random_no_position(chance, head, aa):
    """A message of TYPE 0: as a sender should make it, or with any bits."""
    altitude = chance.choice((0, 888, *altitude_codes(), chance.getrandbits(12)))
    rest = chance.choice((0, chance.getrandbits(51)))
    return of_head(head, aa, 0, rest & ~(4095 << 36) | altitude << 36)


def random_traffic(chance):
    """An acceptable message of a ground station's traffic service, of any TYPE but 0."""
    type_code = chance.choice([*STARTING_TYPES, 19, 19, 19])
    return of_head(chance.choice(GROUND), chance.getrandbits(24), type_code, random_rest(chance, type_code))


def random_reserved(chance, aa):
    """CF 5 with the flag set: good parity, and refused with 5."""
    type_code = chance.choice((0, 5, 8, 11, 22, 19, 19))
    return of_head((18, 5, 1), aa, type_code, random_rest(chance, type_code))


def random_status(chance, head, aa):
    """A status with any bits, of subtype 0 or 1, its version often one of those that are assigned."""
    rest = chance.getrandbits(48) & ~(7 << 13) | chance.choice((0, 1, 2, 2, 2, chance.randrange(8))) << 13
    return of_head(head, aa, 31, chance.randrange(2) << 48 | rest)


def random_acceptable(chance):
    """An acceptable message of any kind and TYPE, often of TYPE 0 or 31."""
    kind, own = chance.randrange(9), [(17, chance.randrange(8)), NO_TRANSPONDER, OTHER]
    if kind < 5:
        return random_valid(chance) if kind < 3 else random_traffic(chance)
    if kind == 5:
        return random_status(chance, chance.choice(own), chance.getrandbits(24))
    return random_no_position(chance, chance.choice([*own, *GROUND]), chance.getrandbits(24))


def flipped(string, *places):
    """The string with these bits the other way; bit 1 is the top bit of byte 0."""
    whole = int.from_bytes(string, "big")
    for place in places:
        whole ^= 1 << 8 * len(string) - place
    return whole.to_bytes(len(string), "big")


def every_number(chance):
    """Every TYPE, DF, CF, CA and subtype, with parity right."""
    for type_code in range(32):
        for df, ca_or_cf in ((17, 5), (18, 0), (18, 1), (18, 2), (17, 0)):
            rest = random_rest(chance, type_code)
            yield sealed_message(df, ca_or_cf, chance.getrandbits(24), type_code, rest)
        yield sealed_message(17, 5, 0xABCDEF, type_code, 0)
        yield sealed_message(17, 5, 0xABCDEF, type_code, 2**51 - 1)
    for df in range(32):
        for ca_or_cf in range(8):
            yield sealed_message(df, ca_or_cf, chance.getrandbits(24), 11, chance.getrandbits(51))
            yield sealed_message(df, ca_or_cf, chance.getrandbits(24), 0, chance.getrandbits(51))
    for subtype in range(8):
        for df, ca_or_cf in ((17, 5), (17, 3), (18, 0), (18, 1), (18, 6)):
            rest = subtype << 48 | chance.getrandbits(48)
            yield sealed_message(df, ca_or_cf, chance.getrandbits(24), 19, rest)
        yield sealed_message(17, 5, 0xABCDEF, 19, subtype << 48)
        yield sealed_message(17, 5, 0xABCDEF, 19, subtype << 48 | 2**48 - 1)


def every_bit():
    """Each bit alone, in each layout and in the address, with parity right."""
    for type_code, subtype in ((4, 0), (7, 0), (11, 0), (20, 0), (19, 1), (19, 2), (19, 3), (19, 4)):
        for place in range(48 if type_code == 19 else 51):
            yield sealed_message(17, 5, 0, type_code, subtype << 48 | 1 << place)
    for place in range(24):
        yield sealed_message(18, 1, 1 << place, 11, 0)
    yield sealed_message(17, 7, 0, 1, 0)
    yield sealed_message(17, 0, 2**24 - 1, 1, 0)


def damaged(chance):
    """One bit wrong at each place of two messages; then several bits wrong, some beyond parity's sight."""
    airborne = bytes.fromhex("8D40621D58C382D690C8AC2863A7")
    velocity = sealed_message(18, 1, 0x123456, 19, random_rest(chance, 19))
    for message in (airborne, velocity):
        yield message
        yield from (flipped(message, place) for place in range(1, 113))
    for _ in range(200):
        places = [chance.randrange(1, 113) for _ in range(chance.randrange(2, 6))]
        yield flipped(random_valid(chance), *places)
    for _ in range(60):
        unseen = GENERATOR << chance.randrange(88)
        whole = int.from_bytes(random_valid(chance), "big") ^ unseen
        yield whole.to_bytes(14, "big")
    for _ in range(60):
        yield chance.randbytes(14)


def of_any_length(chance):
    """Lengths 0..20 and 255: zeros, random, and the front of an acceptable message or more."""
    for length in [*range(21), 255]:
        yield bytes(length)
        yield chance.randbytes(length)
        yield sealed(chance.randbytes(length - 3)) if length >= 3 else bytes([255]) * length
        yield (random_valid(chance) + bytes(241))[:length]
        yield (bytes(241) + random_valid(chance))[-length:] if length else b""


def no_position(chance):
    """TYPE 0: published ones, each class of altitude, each bit alone; a bit wrong at each place; random ones, all DFs and CFs."""
    yield from (bytes.fromhex(text) for text, _ in published.NO_POSITION_ROWS)
    for code in altitude_codes():
        for rest in (0, chance.getrandbits(51)):
            yield sealed_message(*chance.choice(((17, 5), (18, 0), (18, 1))), 0xABCDEF, 0, rest & ~(4095 << 36) | code << 36)
    yield from (sealed_message(17, 5, 0, 0, 1 << place) for place in range(51))
    good = sealed_message(18, 1, 0x123456, 0, 888 << 36)
    yield from (flipped(good, place) for place in range(1, 113))
    for _ in range(100):
        yield random_no_position(chance, (chance.choice((17, 18, chance.randrange(32))), chance.randrange(8)), chance.getrandbits(24))


def each_flag(chance):
    """Bits 21, 8 and 9 of ME, in each TYPE and subtype: under CF 5 that of its layout decides, elsewhere none does."""
    for type_code, subtype in product(range(32), range(8)):
        if subtype and type_code != 19:
            continue
        for head in ((18, 2), (18, 5), (17, 2), (17, 5), *((18, cf) for cf in (0, 1, 3, 4, 6, 7))):
            for bits in product((0, 1), repeat=3) if head in ((18, 2), (18, 5)) else ((0, 0, 0), (1, 1, 1)):
                flags = sum(bit * flag for bit, flag in zip(bits, FLAGS))
                rest = chance.choice((0, chance.getrandbits(51))) & ~sum(FLAGS) | flags
                rest = rest & ~(7 << 48) | subtype << 48 if type_code == 19 else rest
                yield sealed_message(*head, chance.getrandbits(24), type_code, rest)


def each_traffic_bit():
    """Each bit alone under CF 2 and CF 5, in each layout and in AA; all of them; and each wrong in a message of kind M."""
    layouts = (4, 0), (7, 0), (0, 0), (11, 0), (22, 0), (19, 1), (19, 2), (19, 3), (19, 4)
    for cf, (type_code, subtype) in product((2, 5), layouts):
        places = range(48 if type_code == 19 else 51)
        yield from (sealed_message(18, cf, 0, type_code, subtype << 48 | 1 << place) for place in places)
        yield sealed_message(18, cf, 2**24 - 1, type_code, subtype << 48 | 2 ** len(places) - 1)
        yield from (sealed_message(18, cf, 1 << place, type_code, subtype << 48) for place in range(0, 24, 23))
    good = of_head(GROUND[1], 0x123456, 11, 888 << 36)
    yield good
    yield from (flipped(good, place) for place in range(1, 113))


def of_ground_stations(chance):
    """CF 2 and 5: the flag of each layout; each bit; 3 and 4 before the 5 of the reserved flag; random ones."""
    yield from each_flag(chance)
    yield from each_traffic_bit()
    for type_code, cf, wrong in product((0, 7, 11, 19, 31), (3, 4, 5, 6, 7), (False, True)):
        string = sealed_message(18, cf, 0xABCDEF, type_code, sum(FLAGS))  # of TYPE 19 this is subtype 1
        yield flipped(string, 100) if wrong else string
    for _ in range(300):
        yield random_traffic(chance)
        yield random_no_position(chance, chance.choice(GROUND), chance.getrandbits(24))


STATUS_BITS = 1 << 36, 1 << 12  # ME bits 20 and 44 in the last 48 bits


def each_status(chance):
    """Each subtype under each DF, CA and CF; each version with bits 20 and 44, set or not."""
    heads = [(17, ca) for ca in range(8)] + [(18, cf) for cf in range(8)] + [(11, 0), (19, 2)]
    for head, subtype in product(heads, range(8)):
        for rest in (0, 2**48 - 1, chance.getrandbits(48)):
            yield sealed_message(*head, chance.getrandbits(24), 31, subtype << 48 | rest)
    for head, subtype, version in product((TRANSPONDER, NO_TRANSPONDER, OTHER), (0, 1), range(8)):
        for bits in product((0, 1), repeat=2):
            rest = version << 13 | sum(bit * place for bit, place in zip(bits, STATUS_BITS))
            yield sealed_message(*head, 0xABCDEF, 31, subtype << 48 | rest)


def of_status(chance):
    """TYPE 31: each subtype, version and bit; 3 and 4 before 5; a bit wrong at each place; random ones."""
    yield from each_status(chance)
    for (head, subtype), place in product(((TRANSPONDER, 0), (TRANSPONDER, 1), (OTHER, 0), ((18, 2), 0), ((18, 5), 1)), range(48)):
        yield sealed_message(*head, 0, 31, subtype << 48 | 1 << place)
    for cf, subtype, wrong in product(range(8), (0, 1, 2, 7), (False, True)):
        string = sealed_message(18, cf, 0xABCDEF, 31, subtype << 48)
        yield flipped(string, 100) if wrong else string
    good = sealed_message(*OTHER, 0x123456, 31, 1 << 48 | 0b010_1 << 12)
    yield from (flipped(good, place) for place in range(1, 113))
    for _ in range(200):
        yield random_status(chance, chance.choice((TRANSPONDER, NO_TRANSPONDER, OTHER)), chance.getrandbits(24))


def of_coarse(chance):
    """CF 3, whose every ME is legal: each first byte, where TYPE and subtype would stand; each bit alone; a bit wrong at each place; 10,000 random ones."""
    for first in range(256):
        yield coarse_bits(0xABCDEF, first << 48)
        yield coarse_bits(chance.getrandbits(24), first << 48 | chance.getrandbits(48))
    yield from (coarse_bits(1 << place % 24, 1 << place) for place in range(56))
    good = coarse_bits(0x123456, chance.getrandbits(56))
    yield from (flipped(good, place) for place in range(1, 113))
    for _ in range(10000):
        yield coarse_bits(chance.getrandbits(24), chance.getrandbits(56))


def coarse_by_hand():
    """Coarse messages as fields: under each DF and CF, then each field at its last value and past it."""
    fields = SENDER + COARSE
    good = dict.fromkeys((name for name, _, _ in fields), 1)
    for df, control in ((17, 0), (17, 3), *((18, cf) for cf in range(9)), (16, 3), (19, 3)):
        yield good | {"DF": df, "CA or CF": control}
    for name, first, last in fields:
        for value in (2 ** (last - first + 1) - 1, 2 ** (last - first + 1)):
            yield good | dict(zip(("DF", "CA or CF"), OF_STATION)) | {name: value}


def by_hand():
    """Statuses as fields: each that is taken or not by DF, CF and subtype, then each field at its last value and past it.

    The mode cannot be past it: a struct has 16 bits for it.
    """
    names = [name for name, _, _ in HEAD + STATUS]
    for head, type_code, subtype in product(((17, 0), (17, 2), (17, 5), *((18, cf) for cf in range(9)), (16, 0), (19, 0)), (30, 31), range(9)):
        yield dict.fromkeys(names, 0) | {"DF": head[0], "CA or CF": head[1], "AA": 0xABCDEF, "TYPE": type_code, "subtype": subtype}
    for head, subtype in product((TRANSPONDER, OTHER, (18, 2), (18, 5)), (0, 1)):
        good = dict.fromkeys(names, 1) | {"DF": head[0], "CA or CF": head[1], "TYPE": 31, "subtype": subtype}
        for name, first, last in HEAD + STATUS:
            yield good | {name: 2 ** (last - first + 1) - 1}
            if name != "mode":
                yield good | {name: 2 ** (last - first + 1)}


def strings():
    """The byte strings decoded."""
    chance = Random(3)
    yield from published.messages()
    yield bytes(14)  # the examples of RULES 3.11
    yield (1 << 112 - 88).to_bytes(14, "big")
    yield from every_number(chance)
    yield from every_bit()
    yield from damaged(chance)
    yield from of_any_length(chance)
    for _ in range(800):
        yield random_valid(chance)
    yield from no_position(Random(4))
    yield from of_ground_stations(Random(5))
    yield from of_status(Random(6))
    yield from of_coarse(Random(7))


def answered(string):
    """The fields and the message encoded again."""
    message = decode(string)
    again = encode(message)
    assert again == string
    return [*message.values(), again.hex().upper()]


def cases():
    """Records and their lines."""
    for string in strings():
        yield bytes([len(string)]) + string, answer(answered, string)
    for number, messages in ((BY_HAND, by_hand()), (COARSE_BY_HAND, coarse_by_hand())):
        for message in messages:
            record = b"".join(value.to_bytes(8, "big") for value in message.values())
            yield bytes([number]) + record, answer(lambda: encode(message).hex().upper())
