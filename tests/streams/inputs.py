"""Streams, curves and jobs: the boundary ones and random ones."""

from exact_filters import BRIGHTEST, CURVE_LENGTH, HOLD, MIX, OFF, PIECE, STOPS, TONES, Job, curve_bytes, curve_of, tally

UNSIGNED = 2**32 - 1
# 256 + 1, 65536 + 2 and so on show where a number is cut to fewer bits
NO_CHOICES = NO_METHODS = 0, 3, 4, 255, 256, 257, 258, 65537, 65538, 2**31 + 1, 2**31 + 2, UNSIGNED - 1, UNSIGNED
NO_STOPS = 257, 258, 511, 512, 513, 65536, 65536 + 128, 2**31, 2**31 + 256, UNSIGNED
NOT_HELD = 766, 767, 1000, 1023, 65536, 65536 + 300, 2**31, 2**31 + 765, UNSIGNED
STOPS_TRIED = 0, 1, 64, 127, 128, 129, 255, 256
HELD_TRIED = 0, 1, 254, 255, 256, 382, 510, 511, 764, 765
# lengths in bytes, whole pixels among them and others
AROUND_ONE_PIECE = range(PIECE - 1, PIECE + 5)
AROUND_TWO_PIECES = range(2 * PIECE - 1, 2 * PIECE + 5)


def grey(tone):
    """The least colourful pixel of an intensity."""
    return bytes([tone // 3, (tone + 1) // 3, (tone + 2) // 3])


def colourful(tone):
    """The most colourful one."""
    return bytes([min(tone, 255), max(0, min(tone - 255, 255)), max(0, tone - 510)])


def ramp(pixel=grey):
    """Each intensity once, from black to white."""
    return b"".join(map(pixel, range(TONES)))


def every_tone():
    """Each intensity with much colour and little, and the channels in other orders."""
    pixels = [shape(tone) for tone in range(TONES) for shape in (grey, colourful)]
    return b"".join(pixels) + b"".join(pixel[::-1] for pixel in pixels)


def pixel_of(rng, tone):
    red = rng.randint(max(0, tone - 510), min(255, tone))
    green = rng.randint(max(0, tone - red - 255), min(255, tone - red))
    return bytes(rng.sample((red, green, tone - red - green), 3))


def flecked(rng, length):
    """So many bytes of two thousand pixels at random: a swapped, doubled or lost one shows, and each is worked out once."""
    pixels = [rng.randbytes(3) for _ in range(2000)]
    return b"".join(rng.choices(pixels, k=length // 3 + 1))[:length]


def short(rng):
    """A random stream of up to 300 pixels, mostly a whole one, with few tones or many."""
    kind, pixels = rng.random(), rng.choice((0, 1, 2, 3, rng.randint(4, 300)))
    if kind < 0.3:
        stream = rng.randbytes(3 * pixels)
    elif kind < 0.6:
        tones = rng.choices(range(TONES), k=rng.randint(1, 4))
        stream = b"".join(pixel_of(rng, rng.choice(tones)) for _ in range(pixels))
    else:
        ends = 0, 1, 254, 255, 256, 382, 383, 509, 510, 511, 764, 765
        stream = b"".join(pixel_of(rng, rng.choice(ends)) for _ in range(pixels))
    return stream + rng.randbytes(rng.choice((0, 0, 0, 1, 2)))


def boundary_streams(rng):
    """The boundary streams by name."""
    yield from {"empty": b"", "1 byte": b"a", "2 bytes": b"ab", "3 bytes": b"abc", "4 bytes": b"abcd"}.items()
    long = flecked(rng, AROUND_TWO_PIECES[-1])
    for length in (*AROUND_ONE_PIECE, *AROUND_TWO_PIECES):
        yield f"{length} bytes", long[:length]
    yield "black", bytes(3)
    yield "much black", bytes(3 * 999)
    yield "white", b"\xff" * 3
    yield "much white", b"\xff" * 3 * 999
    yield "black and white", bytes(9) + b"\xff" * 6
    yield "one tone", b"".join(pixel_of(rng, 382) for _ in range(500))
    yield "two tones, as often", (grey(100) + grey(600)) * 50
    yield "a ramp", ramp()
    yield "a colourful ramp down", ramp(colourful)[::-1]
    yield "a ramp from black on", ramp()[:-3]
    yield "a ramp up to white", ramp()[3:]
    yield "every tone", every_tone()
    yield "random bytes", rng.randbytes(PIECE + 3 * 1234)


def by_hand(rng):
    """Tone curves that no shot needs to have: steep, flat, with one step, and random."""
    yield "as it is", list(range(TONES))
    yield "flat and dark", [0] * 765 + [765]
    yield "flat and bright", [0] + [765] * 765
    yield "flat in between", [0] + [382] * 764 + [765]
    yield "one step", [0] * 383 + [765] * 383
    yield "steep", [max(0, min(765, 3 * (tone - 255))) for tone in range(TONES)]
    yield "at the bends", [0] + [255] * 254 + [256] * 128 + [510] * 127 + [511] * 255 + [765]
    yield "almost too dark", [0] * 764 + [1, 765]
    yield "random", [0, *sorted(rng.choices(range(TONES), k=764)), 765]
    yield "of few entries", [0, *sorted(rng.choices(rng.sample(range(TONES), 4), k=764)), 765]


def curves(rng):
    """Curves by name: those by hand, and those of other streams, by exact.py."""
    for name, entries in by_hand(rng):
        yield name, curve_bytes(entries)
    others = {"a ramp": ramp(), "random bytes": rng.randbytes(3 * 5000), "one tone": grey(200), "black": bytes(3)}
    for name, stream in others.items():
        for choice in 1, 2:
            yield f"of {name} by choice {choice}", curve_bytes(curve_of(tally(stream), choice))


def changed(entries, *places):
    """A curve with other entries at some places."""
    entries = list(entries)
    for place, value in places:
        entries[place] = value
    return curve_bytes(entries)


def broken_curves():
    """Curves of the right length that break the rule, by name, in every way."""
    as_it_is, dark, bright = range(TONES), [0] * 765 + [765], [0] + [765] * 765
    for value in 1, 255, 256, 765, 766, 65535:
        yield f"entry 0 is {value}", changed(bright, (0, value))
    for value in 764, 766, 0, 509, 253, 765 + 256, 65535:
        yield f"entry 765 is {value}", changed(dark, (765, value))
    for place in 1, 2, 382, 763, 764:
        yield f"entry {place} is 766", changed(bright, (place, 766))
        yield f"entry {place} is 65535", changed(as_it_is, (place, 65535))
    yield "all but the last are above 765", changed([0] + [766] * 765, (765, 765))
    yield "falling by one at the first place that may", changed(as_it_is, (1, 3))
    yield "falling by one in the middle", changed(as_it_is, (382, 383), (383, 382))
    yield "falling by one at the last place but one", changed(as_it_is, (763, 765), (764, 764))
    yield "falling by one at the last place", changed(as_it_is, (764, 766))
    yield "the high bytes first", curve_bytes(as_it_is)[::-1]
    yield "each entry's high byte first", b"".join(tone.to_bytes(2, "big") for tone in as_it_is)
    yield "all zero", bytes(CURVE_LENGTH)


def barely_good():
    """The neighbours of some of those, which are accepted: equal in place of falling."""
    as_it_is = range(TONES)
    yield "equal at the first place", changed(as_it_is, (1, 0))
    yield "equal at the first place that may fall", changed(as_it_is, (1, 2))
    yield "equal in the middle", changed(as_it_is, (382, 383), (383, 383))
    yield "equal at the last place", changed(as_it_is, (764, 765))
    yield "a rise of 765 at the first place", changed([765] * TONES, (0, 0))
    yield "a rise of 765 at the last place", changed([0] * TONES, (765, 765))


def of_wrong_length():
    """Parts and multiples of a good curve; those that are too short break the rule too."""
    curve = curve_bytes(range(TONES))
    for length in 0, 1, 2, 766, 1530, 1531, 1533, 1534, 3064, 100000:
        yield f"{length} bytes", (curve * (length // CURVE_LENGTH + 1))[:length]


def by_curve():
    """Each method with the full balance and with mixes of it."""
    for method in 1, 2:
        yield Job(method)
        for k in STOPS_TRIED:
            yield Job(method, MIX, k)


def by_no_curve():
    """Each method with the commands to which a curve makes no difference."""
    for method in 1, 2:
        yield Job(method, OFF)
        for value in HELD_TRIED:
            yield Job(method, HOLD, value)


def random_job(rng, bad=0.0):
    """A job, each part of which is refused now and then."""
    method = rng.choice(NO_METHODS if rng.random() < bad else (1, 2))
    command = rng.choice((None, OFF, MIX, MIX, HOLD, HOLD))
    value = 0
    if command == MIX:
        value = rng.choice(NO_STOPS) if rng.random() < bad else rng.randint(0, STOPS)
    if command == HOLD:
        value = rng.choice(NOT_HELD) if rng.random() < bad else rng.randint(0, BRIGHTEST)
    return Job(method, command, value)
