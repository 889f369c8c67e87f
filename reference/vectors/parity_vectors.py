"""Cases of parity_vectors.

A record: the length n as two bytes, high first, then n bytes. A line: the remainder and the seal of
the string, six hex digits each.
"""

from random import Random

import published
from parity import remainder, seal, sealed


def strings():
    """The byte strings asked about."""
    chance = Random(1)
    yield b""
    yield from (bytes([byte]) for byte in range(256))
    yield from published.messages()
    yield bytes(14)  # the examples of RULES 4.7: 14 zero bytes; only bit 88 set
    yield from ((1 << 112 - bit).to_bytes(14, "big") for bit in (88,))
    yield from ((1 << 112 - bit).to_bytes(14, "big") for bit in range(1, 113))
    for length in range(41):
        yield bytes(length)
        yield bytes([255]) * length
        for _ in range(3):
            yield chance.randbytes(length)
        yield sealed(chance.randbytes(length))
    for length in range(509, 513):
        yield bytes(length)
        yield bytes([255]) * length
        yield chance.randbytes(length)
        yield sealed(chance.randbytes(length - 3))
    for _ in range(60):
        yield sealed(chance.randbytes(11))


def cases():
    """Records and their lines."""
    for string in strings():
        record = len(string).to_bytes(2, "big") + string
        yield record, f"{remainder(string):06x} {seal(string):06x}"
