"""Cases of table_vectors: logs, and what is worked out of them for a key."""

from random import Random

from positions import EVEN, ODD
from replay import MOST_RECORDS, RECORD
from tracks import C, I, N
from traffic import (
    ANOTHER,
    ICAO,
    MODE_A,
    NO_TRANSPONDER,
    OTHER,
    TRANSPONDER,
    airborne,
    coarse,
    coarse_bits,
    identification,
    no_position,
    status,
    surface,
    velocity,
)
from vectors.message_vectors import flipped, random_reserved, random_status, sealed_message

POKED = 11  # records at a time
HERE, SITE, SOUTH = (2**29, 2**30), (2**29 + 5_000, 2**30 - 7_000), (-(2**28), 2**31)
ONE, TWO = 0xABCDEF, 0x4840D6
LAST = 2**64 - 1
HEADS = [TRANSPONDER, NO_TRANSPONDER, OTHER, ICAO, MODE_A, ANOTHER]


def log_of(records):
    """Times and messages as a log."""
    return b"".join(time.to_bytes(8, "big") + string for time, string in records)


def lend(bench, records, at=0):
    """Puts the log of these records at the start of the buffer, or behind so many; its length."""
    log = log_of(records)
    for start in range(0, len(log), POKED * RECORD):
        bench.poke(at * RECORD + start, log[start : start + POKED * RECORD])
    return at * RECORD + len(log)


def every_key(bench, length, *sites, addresses=(ONE,)):
    """A log replayed for each kind, I to N, of these addresses, without a site and with each of these."""
    for kind in range(I, N + 1):
        for address in addresses:
            for site in (None, *sites):
                bench.replay(length, kind, address, site)


def of_each_sort(head, aa, i=EVEN):
    """A message of each sort, positions of both sorts among them."""
    return [
        airborne(head, aa, i, HERE),
        airborne(head, aa, 1 - i, HERE, type_code=21),
        surface(head, aa, i, HERE),
        identification(head, aa, "REPLAY8"),
        velocity(head, aa, 100, -50),
        no_position(head, aa, 700),
    ]


def damaged(aa):
    """What is refused with 3, 4 and 5, and whose AA is the aircraft's."""
    return [flipped(sealed_message(17, 5, aa, 11, 12345), 60), sealed_message(17 + 2, 5, aa, 11, 1), sealed_message(18, 4, aa, 11, 1), sealed_message(17, 5, aa, 30, 0)]


def whole_logs(bench):
    """14: not of whole records, or over 2,900, before 8; an empty log is taken. What lies beyond the length is not looked at."""
    bench.set_up(1024)  # so that the buffer is zero: records of time 0
    length = lend(bench, [(1_000, velocity(TRANSPONDER, ONE, 1, 2)), (1_400, identification(TRANSPONDER, ONE, "LAST"))])
    for bytes_of in (0, 1, 21, RECORD, RECORD + 1, length - 1, length, length + 1):
        bench.replay(bytes_of, I, ONE)
    most = MOST_RECORDS * RECORD
    lend(bench, [(9_000, velocity(TRANSPONDER, ONE, 3, 4))], at=MOST_RECORDS - 1)
    lend(bench, [(9_500, velocity(TRANSPONDER, ONE, 5, 6))], at=MOST_RECORDS)
    for bytes_of in (most - RECORD, most, most + RECORD, most - 1, most + 1, most + 2 * RECORD):
        bench.replay(bytes_of, I, ONE)
    for bytes_of, address, site in ((21, 2**24, None), (most + RECORD, 2**32 - 1, None), (length - 1, ONE, (2**30 + 1, 0)), (21, ONE, None)):
        bench.replay(bytes_of, I, address, site)
    for address in (2**24 - 1, 2**24, 2**24 + ONE, 2**32 - 1):
        bench.replay(length, I, address)
    for latitude in (2**30, 2**30 + 1, -(2**30), -(2**30) - 1, 2**31 - 1, -(2**31)):
        bench.replay(length, I, ONE, (latitude, 2**32 - 1))
        bench.replay(length, I, ONE, spot=(latitude, 5))  # of a site that is not known


def late_records(bench):
    """A late record moves nothing and ages nothing, a bad one in time moves the clock; at 2^64 - 1 all is late that follows."""
    mine, start = velocity(TRANSPONDER, ONE, 10, 20), identification(TRANSPONDER, ONE, "FIRST")
    for string in (*damaged(ONE), mine, velocity(OTHER, ONE, 5, 5), bytes(14)):
        for time in (0, 999, 1_000, 1_001, 125_999, 126_000, 126_001, LAST):
            every_key(bench, lend(bench, [(1_000, start), (time, string)]))
            every_key(bench, lend(bench, [(1_000, start), (time, string), (1_500, mine), (126_100, no_position(TRANSPONDER, ONE))]))


def ages(bench):
    """Held 124,999 after it was last heard and gone at 125,000, by whatever message comes; a newcomer's track starts anew."""
    first = [(1_000, airborne(TRANSPONDER, ONE, EVEN, HERE)), (1_400, airborne(TRANSPONDER, ONE, ODD, HERE)), (2_000, velocity(TRANSPONDER, ONE, 7, 8))]
    for gap in (124_999, 125_000):
        for string in (identification(TRANSPONDER, ONE, "AGAIN"), velocity(TRANSPONDER, TWO, 1, 1), no_position(TRANSPONDER, ONE), airborne(TRANSPONDER, ONE, EVEN, HERE)):
            every_key(bench, lend(bench, [*first, (2_000 + gap, string)]), addresses=(ONE, TWO))
            every_key(bench, lend(bench, [*first, (2_000 + gap, string), (2_000 + gap, velocity(TRANSPONDER, ONE, 9, 9))]))


def kinds_apart(bench):
    """One AA under every kind: each has its own messages, and what starts no track starts none."""
    for head in HEADS:
        for string in of_each_sort(head, ONE):
            every_key(bench, lend(bench, [(5, string)]), SITE)
            held = [(5, airborne(head, ONE, EVEN, HERE)), (6, string)]
            every_key(bench, lend(bench, held), SITE)
    chance = Random(81)
    every_key(bench, lend(bench, [(1, random_reserved(chance, ONE)), (2, string)]))


def sites(bench):
    """A surface message is read by the site, or by its track's position while that is young enough."""
    for head in (TRANSPONDER, OTHER, ICAO):
        taxi = [(10, surface(head, ONE, EVEN, HERE)), (20, surface(head, ONE, ODD, SITE))]
        every_key(bench, lend(bench, taxi), SITE, SOUTH)
        every_key(bench, lend(bench, [*taxi, (120_021, surface(head, ONE, EVEN, HERE))]), SITE, SOUTH)


def any_run(bench):
    """Runs of any messages at any steps, each key of them replayed: a few aircraft of every kind, noise, gaps about a drop."""
    chance = Random(82)
    for _ in range(60):
        time, records = chance.choice((0, 0, 10**6, LAST - 400_000)), []
        for _ in range(chance.randrange(4, 24)):
            time = max(0, min(LAST, time + chance.choice((0, 1, 400, 400, 5_000, 10_001, 120_001, 124_999, 125_000, -1, -5_000))))
            head, aa = chance.choice(HEADS), chance.choice((ONE, ONE, TWO))
            records.append((time, chance.choice([*of_each_sort(head, aa, chance.randrange(2)), *of_each_sort(head, aa, chance.randrange(2)), *damaged(aa)])))
        every_key(bench, lend(bench, records), chance.choice((SITE, SOUTH)), addresses=(ONE, TWO))


def status_in_logs(bench):
    """A status alone, before a position message and after it, under each kind; then runs with any status."""
    for head in HEADS[:3]:
        told, placed = status(head, ONE, 2, 1, 1, 1), airborne(head, ONE, EVEN, HERE)
        for strings in ([told], [told, placed], [placed, told], [told, placed, status(head, ONE, 1)], [status(head, ONE, 5), surface(head, ONE, ODD, HERE)]):
            every_key(bench, lend(bench, [*enumerate(strings, 1_000)]), SITE)
    for cf, subtype in ((2, 0), (5, 1), (1, 2), (0, 7)):  # 5
        every_key(bench, lend(bench, [(5, airborne(ICAO, ONE, EVEN, HERE)), (6, sealed_message(18, cf, ONE, 31, subtype << 48))]))
    chance = Random(83)
    for _ in range(30):
        time, records = 0, []
        for _ in range(chance.randrange(4, 24)):
            time += chance.choice((0, 1, 400, 5_000, 124_999, 125_000))
            head, aa = chance.choice(HEADS), chance.choice((ONE, ONE, TWO))
            sorts = of_each_sort(head, aa, chance.randrange(2))
            records.append((time, chance.choice(sorts) if chance.randrange(3) else random_status(chance, chance.choice(HEADS[:3]), aa)))
        every_key(bench, lend(bench, records), SOUTH, addresses=(ONE, TWO))


SENDERS = (0, 3), (0, 4), (1, 3)  # flag and station


def every_sender(bench, length, *sites, addresses=(ONE,)):
    """A log replayed for each station and flag of these addresses."""
    for address in addresses:
        for sender in SENDERS:
            for site in (None, *sites):
                bench.replay(length, C, address, site, sender=sender)


def coarse_in_logs(bench):
    """RULES 13.5: stations and flags apart, and from the other kinds; ages; 14, then 8 for a flag above 1 or a station above 15; then runs."""
    first, second = coarse(ONE, EVEN, HERE), coarse(ONE, ODD, HERE)
    for gap in (0, 400, 10_000, 10_001, 124_999, 125_000):
        length = lend(bench, [(1_000, first), (1_000 + gap, second), (1_000 + gap, coarse(ONE, ODD, HERE, 4)), (1_001 + gap, coarse(ONE, EVEN, HERE, 3, 1))])
        every_sender(bench, length, SITE)
        every_key(bench, length)
    for sender in ((0, 15), (0, 16), (1, 16), (2, 3), (2, 16), (3, 3), (255, 3), (0, 255)):
        bench.replay(length, C, ONE, sender=sender)
        bench.replay(length - 1, C, ONE, sender=sender)
        bench.replay(length, C, 2**24 + ONE, sender=sender)
        bench.replay(length, I, ONE, sender=sender)  # of other kinds neither is looked at
    chance = Random(84)
    for _ in range(40):
        time, records = chance.choice((0, 0, 10**6, LAST - 400_000)), []
        for _ in range(chance.randrange(4, 24)):
            time = max(0, min(LAST, time + chance.choice((0, 1, 400, 400, 5_000, 10_001, 120_001, 124_999, 125_000, -1))))
            aa, (flag, station), i = chance.choice((ONE, ONE, TWO)), chance.choice(SENDERS), chance.randrange(2)
            sorts = [coarse(aa, i, HERE, station, flag), coarse(aa, i, HERE, station, flag, speed=chance.getrandbits(6)), coarse_bits(aa, chance.getrandbits(56))]
            sorts += [flipped(coarse(aa, i, HERE, station, flag), 60), *of_each_sort(chance.choice(HEADS), aa, i)]
            records.append((time, chance.choice(sorts[:4]) if chance.randrange(4) else chance.choice(sorts)))
        length = lend(bench, records)
        every_sender(bench, length, SOUTH, addresses=(ONE, TWO))
        every_key(bench, length, addresses=(ONE,))


SCRIPTS = [whole_logs, late_records, ages, kinds_apart, sites, any_run]


def run(bench):
    """All of them; held, absent, 8 and 14 are among the answers."""
    for script in SCRIPTS:
        script(bench)
    answers = {line.rpartition("\n")[2].split()[0] for record, line in bench.cases if b"J" in record}
    assert {"held", "unheld", "refused"} <= answers, answers
