"""Dials for scripts: every kind of float that a panel may send, those that count and those that do not.

A float is four bytes, most significant first, or the word `nan`; a dial is its words. Floats are made here by their values, with
`struct`, and second.py reads their bits by hand.
"""

import struct

FULL = "mix", bytes.fromhex("3f800000")
OFF = ("off",)
STOPS = range(257)
HELD = range(766)

# neither an amount nor a held value, whichever it comes as
SUBNORMAL = "00000001", "80000001", "007fffff", "807fffff", "00400000", "00000100"
NAN = "7fc00000", "ffc00000", "7f800001", "ff800001", "7fa00000", "7fffffff", "ffffffff"
OTHERS = "00800000", "80800000", "7f7fffff", "ff7fffff", "7f800000", "ff800000"  # least normal, greatest, infinite
HOSTILE = ["nan", *map(bytes.fromhex, SUBNORMAL + NAN + OTHERS)]
# numbers that wrap round to good ones where they are cut to 8, 16 or 32 bits
WRAPPED = 65536, 65536 + 300, 2**24, 2**31, 2**32, 2**32 + 512, 2**63, 2**64, -(2**31), -(2**32)
NO_AMOUNTS = -1, -0.5, -1 / 256, 1 / 512, 1 / 65536, 1 / 255, 254 / 255, 1 / 3, 0.1, 511 / 512, 513 / 512, 257 / 256
NO_AMOUNTS += 1.5, 2, 128, 256, 300
NOT_HELD = -1, -300, -765, -0.5, 1 / 256, 0.5, 254.5, 299.5, 300.25, 764.5, 765.5, 766, 767, 768, 1000, 1024


def packed(value):
    return struct.pack(">f", value)


def stop(k):
    return packed(k / 256)


def beside(data, step):
    """The next float above a good one, or below it, by its bits: those below zero count from minus zero."""
    size = int.from_bytes(data, "big") % 2**31
    return (size + step if size else 1 if step > 0 else 2**31 + 1).to_bytes(4, "big")


def neighbours(data):
    return beside(data, -1), beside(data, 1)


def no_amounts():
    """Floats that are no amount, by kind."""
    yield from HOSTILE
    yield from map(packed, NO_AMOUNTS + WRAPPED)


def not_held():
    yield from HOSTILE
    yield from map(packed, NOT_HELD + WRAPPED)


def amount(rng):
    """A stop, the ends and their neighbours among them more often; zero also as minus zero."""
    k = rng.choice((0, 256, rng.choice((1, 2, 127, 128, 129, 254, 255)), *rng.choices(STOPS, k=4)))
    return packed(rng.choice((0.0, -0.0))) if k == 0 else stop(k)


def held(rng):
    value = rng.choice((0, 765, rng.choice((1, 254, 255, 256, 382, 509, 510, 511, 764)), *rng.choices(HELD, k=5)))
    return packed(rng.choice((0.0, -0.0))) if value == 0 else packed(value)


def good(rng):
    kind = rng.random()
    if kind < 0.2:
        return FULL
    if kind < 0.6:
        return "mix", amount(rng)
    return ("hold", held(rng)) if kind < 0.9 else OFF


def bad(rng):
    """A dial that is refused, but for a pattern now and then that happens to be good."""
    command, floats, one, unit = rng.choice((("mix", no_amounts, amount, 256), ("hold", not_held, held, 1)))
    kind = rng.random()
    if kind < 0.4:
        return command, rng.choice(list(floats()))
    if kind < 0.6:
        return command, beside(one(rng), rng.choice((-1, 1)))
    if kind < 0.8:
        # between two good ones, or beyond them
        return command, packed((rng.randint(-300, 900) + rng.choice((0.5, 0.25, 1 / 64))) / unit)
    return command, rng.randbytes(4)


def any_dial(rng):
    return rng.choice((good, bad))(rng)
