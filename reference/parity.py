"""RULES 4: parity."""

GENERATOR = 1 << 24 | 0xFFF409  # x^24 plus the terms of 0xFFF409


def remainder(string):
    """The bits of the string are a polynomial over bits, the first bit the highest power.

    What it leaves on division by the generator, by long division, one bit at a time.
    """
    rest = 0
    for byte in string:
        for place in range(7, -1, -1):
            rest = rest << 1 | byte >> place & 1
            if rest >> 24:
                rest ^= GENERATOR
    return rest


def seal(string):
    """The three bytes, as one number, that make the remainder of the string with them 0."""
    return remainder(string + bytes(3))


def sealed(string):
    """The string with its three bytes: its remainder is 0."""
    return string + seal(string).to_bytes(3, "big")
