"""Random scripts for `replay`: calls over one to four shots, good and refused ones, in every spelling that a line allows."""

import itertools

import dials
from second import MOST_PIXELS, NoCall, read

UNSIGNED = 2**32 - 1
# 256 + 1, 65536 + 2 and so on show where a number is cut to fewer bits
CHOICES = METHODS = 0, 1, 2, 3, 4, 255, 256, 257, 258, 65537, 65538, 2**31 + 1, UNSIGNED - 1, UNSIGNED
TARGETS = 0, 1, 2, 254, 255, 256, 382, 383, 509, 510, 511, 763, 764, 765, 766, 767, 1000
TARGETS += 65536, 65836, 2**31, UNSIGNED - 765, UNSIGNED
LENGTHS = range(8)
# of so many pixels the equalised entries are often halves, and the cube's may be a tie
HALVED = 2, 6, 10, 18, 30, 34
MOST_REPEATED = 5000
WHITE = b" ", b"\t", b"\v", b"\f", b"\r"
EDITS = [*WHITE, *(bytes([byte]) for byte in b"\0\xff\x80\xa0\x85\x1c\n#-+/:@`xgG0123456789afAF")]


def pixel_of(rng, s):
    """A pixel of intensity s."""
    red = rng.randint(max(0, s - 510), min(255, s))
    green = rng.randint(max(0, s - red - 255), min(255, s - red))
    return rng.sample((red, green, s - red - green), 3)


def pixel(rng):
    kind = rng.random()
    if kind < 0.4:
        return list(rng.randbytes(3))
    if kind < 0.5:
        return rng.choice(((0, 0, 0), (255, 255, 255), (0, 0, 1), (254, 255, 255), (1, 0, 0), (255, 255, 254)))
    if kind < 0.6:
        return 3 * [rng.randrange(256)]
    if kind < 0.7:
        return rng.choices((0, 255, 1, 254, 127, 128), k=3)
    if kind < 0.85:
        return pixel_of(rng, rng.choice((1, 2, 3, 254, 255, 256, 257, 382, 383, 509, 510, 511, 512, 762, 763, 764)))
    dark = [rng.randrange(6) for _ in range(3)]
    return dark if kind < 0.93 else [255 - c for c in dark]


def flat(rng):
    s = rng.randint(0, 765)
    return [pixel_of(rng, s) for _ in range(rng.randint(1, 12))]


def two_toned(rng):
    """Half of it dark: between the two tones the cube's entry is a tie, and the equalised one a half."""
    dark, bright = sorted(rng.sample(range(766), 2))
    half = rng.randint(1, 6)
    return [pixel_of(rng, s) for s in half * [dark] + (half + rng.choice((0, 0, 0, 1))) * [bright]]


def ends(rng):
    return rng.choices(((0, 0, 0), (255, 255, 255)), k=rng.randint(1, 9)) + [pixel(rng) for _ in range(rng.randint(0, 1))]


def ramp(rng):
    start = rng.randint(0, 740)
    return [pixel_of(rng, s) for s in range(start, start + rng.randint(2, 25))]


def halved(rng):
    return [pixel(rng) for _ in range(rng.choice(HALVED))]


def any_pixels(rng):
    return [pixel(rng) for _ in range(rng.randint(1, 40))]


FOOTAGE = flat, two_toned, ends, ramp, halved, halved, any_pixels, any_pixels, any_pixels


def strip_of(pixels):
    return bytes(itertools.chain.from_iterable(pixels))


def strips(rng, pixels):
    """The pixels in any order, cut into strips, of which some are empty."""
    rng.shuffle(pixels)
    cuts = sorted(rng.choices(range(len(pixels) + 1), k=rng.randint(0, 4)))
    for start, end in itertools.pairwise([0, *cuts, len(pixels)]):
        yield strip_of(pixels[start:end])


def source(rng, pixels):
    """What a shot is coloured with: its own pixels, others of the same or the next intensity, and any."""
    some = rng.choices(pixels, k=rng.randint(0, 6))
    beside = [pixel_of(rng, min(765, max(0, sum(p) + rng.choice((-1, 0, 1))))) for p in some]
    return strip_of(some + beside + [pixel(rng) for _ in range(rng.randint(0, 4))])


def stray(rng, shot):
    """A call out of turn, or with arguments that are mostly bad."""
    kind = rng.random()
    if kind < 0.25:
        return "measure", shot, rng.randbytes(rng.choice(LENGTHS))
    if kind < 0.45:
        return "fix", shot, rng.choice(CHOICES)
    if kind < 0.75:
        lengths = [rng.choice(LENGTHS)] * 2 if rng.random() < 0.3 else rng.choices(LENGTHS, k=2)
        method = rng.choice((1, 2, rng.choice(METHODS)))
        return "colour", shot, method, *dials.any_dial(rng), *(rng.randbytes(length) for length in lengths)
    return move(rng)


def move(rng):
    target = rng.randint(0, 766) if rng.random() < 0.5 else rng.choice(TARGETS)
    return "move", rng.choice((1, 2, 1, 2, rng.choice(METHODS))), bytes(pixel(rng)), target


def filling(rng, shot):
    """Calls that bring a shot near its limit, to it, and past it; with how often each is made."""
    strip = rng.randbytes(3 * rng.randint(5000, 10000))  # 60,000 digits at most, so that the line is none too long
    times, rest = divmod(MOST_PIXELS + rng.choice((-1, 0, 1)), len(strip) // 3)
    yield times + rng.choice((0, 0, 2)), ("measure", shot, strip)
    yield 1, ("measure", shot, rng.randbytes(3 * rest))
    for _ in range(rng.randint(1, 3)):
        yield 1, ("measure", shot, rng.randbytes(rng.choice((3, 3, 6, rng.choice(LENGTHS)))))


def long_strips(rng, shot):
    """A shot of strips as long as a line allows, coloured so by both methods and two dials; with how often each call is made."""
    for _ in range(rng.randint(1, 3)):
        yield None, ("measure", shot, rng.randbytes(3 * rng.randint(9000, 10900)))
    yield None, ("fix", shot, rng.choice((1, 2)))
    for method, dial in itertools.product((1, 2), (dials.FULL, dials.good(rng))):
        source = rng.randbytes(3 * rng.randint(5000, 5440))
        yield None, ("colour", shot, method, *dial, source, rng.randbytes(len(source)))


def times(rng):
    """How often a call is made; None where there is no `repeat`."""
    return rng.choice((0, 1, 2, 3, rng.randint(0, 9))) if rng.random() < 0.06 else None


def shot_calls(rng, shot, filled):
    """Calls of one shot without end, each with how often it is made. A part of the shots is filled to the limit."""
    while True:
        pixels = rng.choice(FOOTAGE)(rng)
        turn = [("measure", shot, strip) for strip in strips(rng, pixels)]
        if rng.random() < filled:
            yield from filling(rng, shot)
        turn += [("fix", shot, rng.choice((1, 2)))]
        # few dials, so that many pixels are under one setting and can be compared
        set_to = [dials.good(rng) for _ in range(rng.randint(1, 3))]
        for _ in range(rng.randint(1, 8)):
            data, dial = source(rng, pixels), rng.choice(set_to) if rng.random() < 0.9 else dials.bad(rng)
            turn.append(("colour", shot, rng.choice((1, 2)), *dial, data, rng.randbytes(len(data))))
        for call in turn:
            while rng.random() < 0.3:
                yield times(rng), stray(rng, shot)
            yield times(rng), call
        yield times(rng), ("open", shot)


def digits(rng, data):
    if not data:
        return b"-"
    text = data.hex()
    kind = rng.random()
    if kind < 0.7:
        return text.encode()
    return (text.upper() if kind < 0.85 else "".join(rng.choice((c, c.upper())) for c in text)).encode()


def word(rng, argument):
    if isinstance(argument, str):
        return argument.encode()
    if isinstance(argument, bytes):
        return digits(rng, argument)
    text = b"%d" % argument
    return text.zfill(rng.randint(len(text), 10)) if rng.random() < 0.05 else text


def white(rng, least):
    return b"".join(rng.choices(WHITE, k=rng.randint(least, 4)))


def spelt(rng, count, call):
    """A line for a call, its LF not included: words apart by white space, with a comment now and then."""
    words = [word(rng, argument) for argument in call]
    if count is not None:
        words = [b"repeat", word(rng, count), *words]
    kind = rng.random()
    if kind < 0.7:
        return b" ".join(words)
    if kind < 0.8:
        return b" ".join(words) + b"\r"
    if kind < 0.9:
        return white(rng, 0) + b"".join(one + white(rng, 1) for one in words[:-1]) + words[-1] + white(rng, 0)
    return b" ".join(words) + rng.choice((b" ", b"")) + b"# " + rng.choice((b"open 1", b"", b"\0\xff", b"# open 1\r"))


def no_call(rng):
    """A line without a word."""
    return rng.choice((b"", b" ", b"\t\v\f\r ", b"#", b"# open 1", b" # \0"))


def edited(rng, line):
    """One byte replaced, inserted or deleted, or a word left out or doubled."""
    if rng.random() < 0.2:
        words = line.split(b" ")
        at = rng.randrange(len(words))
        return b" ".join(words[:at] + rng.choice((0, 2)) * words[at : at + 1] + words[at + 1 :])
    at = rng.randrange(len(line) + 1)
    byte = rng.choice(EDITS)
    return line[:at] + rng.choice((byte + line[at + 1 :], byte + line[at:], line[at + 1 :]))


def bounded(text):
    """Whether no line of a text repeats its call without measure."""
    for line in text.split(b"\n"):
        try:
            call = read(line)
        except NoCall:
            continue
        if call and call.times > MOST_REPEATED:
            return False
    return True


def mutated(rng, line):
    """A good line with one to three edits close to each other, most of them near its beginning."""
    start = rng.choice((0, 0, 0, rng.randrange(len(line))))
    before, part, after = line[:start], line[start : start + 40], line[start + 40 :]
    for _ in range(rng.choice((1, 1, 2, 3))):
        part = edited(rng, part)
    text = before + part + after
    return text if bounded(text) else line


def script_of_long_strips(rng):
    shots = rng.sample(range(1, 5), 2)
    return b"".join(spelt(rng, *call) + b"\n" for shot in shots for call in long_strips(rng, shot))


def script(rng, shots, calls, filled=0.0, broken=0.03):
    """So many calls over the first so many shots, a part of their lines broken; with blank lines and comments between them."""
    places = rng.sample(range(1, 5), shots)
    lists = [shot_calls(rng, shot, filled) for shot in places]
    lines = []
    for _ in range(calls):
        line = spelt(rng, *next(rng.choice(lists)))
        lines.append(mutated(rng, line) if rng.random() < broken else line)
        if rng.random() < 0.04:
            lines.append(no_call(rng))
    return b"\n".join(lines) + rng.choice((b"\n", b""))
