"""Calls the package for Python with whatever comes: python3 tests/python/hostile.py SEED CALLS

Wrong types, wrong lengths, numbers out of range, not-a-number, classes that lie, tables that are closed. A call may answer what it says
that it does, or raise: TypeError, and ValueError of a closed table or of one that cannot be made. Of addercoil.calls OverflowError may
come too, and of files what open raises. Anything else ends the program with 1; a crash ends it by a signal.
"""

import ctypes
import sys
import threading
from collections import Counter
from decimal import Decimal
from fractions import Fraction
from random import Random

import addercoil
from addercoil import Checked, Message, Refusal, Refused, Table, Track, calls

GOOD = "8D4840D6202CC371C32CE0576098"
NUMBERS = [0, 1, 2, 3, 5, 6, 7, 15, 16, 17, 100, 1024, 1025, 131071, 131072, -1, -90, 90, 180, 360, True, False]
NUMBERS += [sign * 2**bits + step for bits in (7, 24, 31, 32, 56, 63, 64, 200) for step in (-1, 0, 1) for sign in (1, -1)]
DOUBLES = [0.0, -0.0, 1.5, 52.31, -90.0, 90.0, 90.00001, 180.0, -180.0, 360.0, 1e300, -1e300, 5e-324, float("nan"), float("inf"), -float("inf")]
TEXTS = ["", "I", "O", "T", "M", "N", "C", "X", "i", "IO", GOOD, GOOD.lower(), GOOD[:-1], GOOD + "00", "*" + GOOD + ";", "8D 48", "\0", "\ud800", "é" * 28, "0" * 10_000]


class Lies(bytes):
    """Bytes that say that they are others."""

    def __len__(self):
        return 10**9

    def __bytes__(self):
        return Lies(b"more")

    def __iter__(self):
        raise RuntimeError("no")


class Text(str):
    """A text that says that it is another."""

    def __len__(self):
        return 10**6


class Index:
    """A number that does something else meanwhile."""

    def __init__(self, table):
        self.table = table

    def __index__(self):
        self.table.close()
        return 7

    def __float__(self):
        self.table.close()
        return 7.0


class Short(ctypes.c_uint8 * 3):
    """An array that says that it is longer."""

    def __len__(self):
        return 10**9


class Hostile:
    """The calls, chosen by a seed."""

    def __init__(self, seed):
        self.chance = Random(seed)
        self.closed = Table(1)
        self.closed.close()
        self.open = Table(2, (52.31, 4.76))
        self.said = Counter()

    def octets(self):
        """Bytes of some sort."""
        size = self.chance.choice((0, 1, 13, 14, 14, 14, 15, 22, 44, 188, 511, 512, 512, 513))
        made = self.chance.choice((bytes(size), self.chance.randbytes(size), bytes.fromhex(GOOD)))
        wide = memoryview(bytes(2 * size))[::2]
        return self.chance.choice((made, made, bytearray(made), memoryview(made), wide, Lies(made), memoryview(bytes(8 * size)).cast("Q")))

    def array(self):
        """An array of C, of some length and type."""
        size = self.chance.choice((0, 1, 2, 3, 14, 28, 72, 102, 102, 129, 1000))
        return self.chance.choice((calls.octets, calls.words, calls.doubles))(size) if self.chance.randrange(9) else Short()

    def anything(self):
        """Any value."""
        return self.chance.choice((
            lambda: self.chance.choice(NUMBERS),
            lambda: self.chance.choice(NUMBERS),
            lambda: self.chance.choice(DOUBLES),
            lambda: self.chance.choice(TEXTS),
            lambda: Text(GOOD),
            self.octets,
            self.octets,
            self.array,
            lambda: self.chance.choice((None, object(), [], {}, (), set(), 1j, Fraction(1, 3), Decimal("NaN"), len, Table, type, ...)),
            lambda: self.chance.choice((self.open, self.closed, Index(Table(1)), Index(self.closed))),
            lambda: tuple(self.anything() for _ in range(self.chance.choice((1, 2, 2, 3)))),
            lambda: [(self.chance.choice(NUMBERS), self.octets()) for _ in range(self.chance.randrange(4))],
            lambda: addercoil.decode(GOOD),
            lambda: addercoil.Over(),
        ))()

    def some(self, most):
        """Some values, now and then too few or too many."""
        return [self.anything() for _ in range(most if self.chance.randrange(8) else self.chance.randrange(most + 2))]

    def table(self):
        """A table, closed or not, or one that closes itself."""
        if self.open.closed or self.chance.randrange(50) == 0:
            self.open = Table(self.chance.choice((1, 2, 1024)))
        return self.closed if self.chance.randrange(6) == 0 else self.open

    def make(self):
        """One call: its name, what it may answer, what it may raise, and the call."""
        table, raises = self.table(), (TypeError,)
        closes = (TypeError, ValueError)  # if it is closed, or by a number that closes it
        site = [self.anything()] if self.chance.randrange(2) else []
        return self.chance.choice((
            lambda: ("Table", Table, (TypeError, Refused), lambda: Table(*self.some(2))),
            lambda: ("Table", Table, Refused, lambda: Table(self.chance.choice(NUMBERS), (self.chance.choice(DOUBLES), self.chance.choice(NUMBERS)))),
            lambda: ("receive", (Refusal, type(None)), closes, lambda: table.receive(*self.some(2))),
            lambda: ("receive", (Refusal, type(None)), closes, lambda: table.receive(self.octets(), self.chance.choice(NUMBERS))),
            lambda: ("receive_stamp", (Refusal, type(None)), closes, lambda: table.receive_stamp(*self.some(2))),
            lambda: ("feed", bool, closes, lambda: table.feed(*self.some(1))),
            lambda: ("track", (Track, Refusal, type(None)), closes, lambda: table.track(*self.some(4))),
            lambda: ("track", (Track, Refusal, type(None)), closes, lambda: table.track(self.chance.choice("IOTMNCX"), *self.some(1))),
            lambda: ("listing", str, closes, lambda: table.listing(*self.some(1))),
            lambda: ("to_bytes", bytes, (ValueError,), table.to_bytes),
            lambda: ("from_bytes", Table, (TypeError, Refused), lambda: Table.from_bytes(*self.some(1))),
            lambda: ("from_bytes", str, Refused, lambda: Table.from_bytes(self.octets()).listing(all=True)),
            lambda: ("walk", list, closes, lambda: list(table)),
            lambda: ("clock", int, closes, lambda: table.clock),
            lambda: ("site", (tuple, type(None)), closes, lambda: table.site),
            lambda: ("decode", (Message, Refusal), raises, lambda: addercoil.decode(*self.some(1))),
            lambda: ("encode", (bytes, Refusal), raises, lambda: addercoil.encode(*self.some(1))),
            lambda: ("units", (tuple, Refusal), raises, lambda: addercoil.units(*self.some(2))),
            lambda: ("degrees", (tuple, Refusal), raises, lambda: addercoil.degrees(*self.some(2))),
            lambda: ("replay", (Track, Refusal, type(None)), closes, lambda: addercoil.replay(*self.some(3), 0, 0, *site)),
            lambda: ("replay", (Track, Refusal, type(None)), closes, lambda: addercoil.replay(self.octets(), self.chance.choice("IOTMNCX"), *self.some(3))),
            lambda: ("check", Checked, (TypeError, OSError, ValueError), lambda: addercoil.check(*self.some(2))),
            lambda: ("check", Checked, raises, lambda: addercoil.check(self.octets(), self.octets())),
            lambda: ("merge", bytes, (TypeError, addercoil.Refused), lambda: addercoil.merge(*self.some(2))),
            lambda: ("merge", bytes, (addercoil.Refused,), lambda: addercoil.merge(self.octets(), self.octets())),
            lambda: ("Positions", (Track, type(None)), closes, lambda: addercoil.Positions(table).receive(*self.some(1))),
            lambda: ("Positions", (Track, type(None)), closes, lambda: addercoil.Positions(table).receive((self.chance.choice(NUMBERS), self.octets()))),
            lambda: ("read_capture", tuple, (TypeError, OSError, ValueError), lambda: addercoil.read_capture(*self.some(1))),
            self.low,
            self.low,
            self.low,
        ))()

    def low(self):
        """A function of the lower half: any values, or in part such as it takes."""
        name = self.chance.choice(list(calls.FUNCTIONS))
        _, parameters = calls.FUNCTIONS[name]
        fitting = [self.fitting(kind, use) if self.chance.randrange(12) else self.anything() for _, kind, use in parameters]
        given = fitting if self.chance.randrange(4) else self.some(len(parameters))
        return f"calls.{name}", int, (TypeError, OverflowError, ValueError), lambda: getattr(calls, name)(*given)

    def fitting(self, kind, use):
        """A value for a parameter of a type."""
        if use:
            size = self.chance.choice((0, 1, 2, 3, 14, 28, 72, 102, 129, 188))
            return self.chance.randbytes(size) if use == "reads" and kind == "u8" and self.chance.randrange(2) else (calls.ELEMENTS[kind] * size)()
        return self.chance.choice(DOUBLES) if kind == "f64" else self.chance.choice([one for one in NUMBERS if abs(one) < 2**33])

    def call(self):
        """Makes one call. What is wrong with it, or None."""
        name, answers, raises, made = self.make()
        try:
            found = made()
        except raises as why:
            self.said[type(why).__name__] += 1
            lying = isinstance(why, ValueError) and not isinstance(why, Refused) and "closed" not in str(why)
            return f"{name} raised {why!r}" if lying and raises == (TypeError, ValueError) else None
        except BaseException as why:
            return f"{name} raised {why!r}"
        self.said["refused" if isinstance(found, Refusal) else "answered"] += 1
        return None if isinstance(found, answers) else f"{name} answered {found!r}"


def together(seed):
    """Threads that share a table, and close it; they raise or are answered."""
    table, faults = Table(8), []

    def work(number):
        chance = Random(seed + number)
        for _ in range(2_000):
            try:
                table.receive(chance.randbytes(14) if chance.randrange(2) else GOOD, chance.randrange(100))
                sum(1 for _ in table)
            except ValueError as why:
                if str(why) != "the table is closed":
                    faults.append(why)
            if number == 0 and chance.randrange(1_500) == 0:
                table.close()

    threads = [threading.Thread(target=work, args=(number,)) for number in range(4)]
    for thread in threads:
        thread.start()
    for thread in threads:
        thread.join()
    return faults


def main():
    seed, count = map(int, sys.argv[1:])
    hostile = Hostile(seed)
    for number in range(count):
        fault = hostile.call()
        if fault:
            sys.exit(f"call {number}: {fault}")
    faults = together(seed)
    if faults or min(hostile.said[sort] for sort in ("answered", "refused", "TypeError", "ValueError", "OverflowError", "Refused")) < count // 1_000:
        sys.exit(f"{faults} {dict(hostile.said)}")
    print(f"{count} hostile calls: {', '.join(f'{number} {sort}' for sort, number in hostile.said.most_common())}")


if __name__ == "__main__":
    main()
