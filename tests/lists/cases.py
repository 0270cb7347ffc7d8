"""Calls by hand and by system: refusals in every order, every dial, the limit of a shot, ties and halves.

Where a table says what a line gets, that stands beside the line, apart from second.py, and the two have to agree.
"""

import itertools

import dials
import doctored
from scripts import CHOICES, METHODS, TARGETS, pixel, pixel_of, strip_of
from second import LONGEST, MOST_PIXELS, exact, moved, shown
from trial import Line

# in which order each call looks for causes of a refusal
MEASURE, FIX, COLOUR, MOVE = (1, 2, 3), (1, 4, 5), (6, 7, 2, 8, 17, 18), (7, 9)


# ---- By hand ----

# the moves of docs/RULES.md, "In figures"
FIGURES = (
    (1, (100, 150, 200), 300, (67, 100, 133)),
    (1, (100, 150, 200), 600, (174, 200, 226)),
    (1, (1, 2, 3), 3, (1, 1, 2)),
    (1, (254, 253, 252), 762, (254, 254, 253)),
    (2, (10, 20, 30), 120, (20, 40, 60)),
    (1, (10, 20, 30), 120, (31, 40, 49)),
    (2, (10, 20, 30), 405, (105, 135, 165)),
    (2, (245, 235, 225), 360, (150, 120, 90)),
    (2, (245, 235, 225), 645, (235, 215, 195)),
    (1, (255, 255, 0), 255, (128, 128, 0)),
    (2, (255, 255, 0), 255, (128, 128, 0)),
    (2, (255, 255, 1), 255, (128, 128, 0)),
    (1, (255, 255, 1), 255, (127, 127, 0)),
)

# the page's own examples of lines that are no call, and a shot of one pixel of intensity 300 and one of 600 by both choices
EXAMPLES = b"""fix 1
fix x
fix 9
fix 1 1 1
repeat
repeat 5
repeat x frob
measure 1 abc
repeat 2 repeat 3 open 1

# a shot
measure 1 646464
repeat 2 measure 1 -
measure 1 C8C8C8 # capital letters
fix 1 1
colour 1 1 mix 3f800000 646464c8c8c8 000000000000
fix 1 2
open 1\r
measure 1 646464c8c8c8
repeat 2 fix 1 2
colour 1 1 mix 3F800000 646464C8C8C8 -
colour 1 1 mix 3F800000 646464C8C8C8 000000000000
colour 1 1 off - -
colour 2 1 hold nan - AB
repeat 0 open 1
repeat 2 move 3 ffffff 766
move 1 ffffff 766"""
EXAMPLES_ANSWERED = b"""line 1 is no call: too few words
line 2 is no call: not a number from 0 to 4294967295
line 3 is no call: no such shot
line 4 is no call: too many words
line 5 is no call: too few words
line 6 is no call: too few words
line 7 is no call: not a number from 0 to 4294967295
line 8 is no call: not pairs of hexadecimal digits
line 9 is no call: no such call
0
0
0
0
0
0 6262629d9d9d
1
0
0
0
1
8 -
0 404040bfbfbf
0 -
6 ab
7 000000
7 000000
9 000000
"""
# What the dial writes, in figures. Beside each colouring stands the full balance where it shows the entry.
DIAL = b"""# two of 511 pixels have intensity 3, whose equalised entry is 1: a balance is rounded before it is mixed
measure 1 %s
fix 1 2
colour 1 1 mix 3f800000 030000 ffffff
colour 1 1 mix 3f800000 010101 ffffff
colour 1 1 mix 3f400000 010101 ffffff # 192 of 256: not 1
colour 1 2 mix 3f400000 010101 ffffff
# entry 514, and 255 of 256: the sum is 510, nearly five halves below
measure 2 %s
fix 2 2
colour 2 2 mix 3f800000 152940 000000
colour 2 2 mix 3f7f0000 152940 000000
# entry 243, and 254 of 256: a difference is nearly two steps off
measure 3 %s
fix 3 2
colour 3 2 mix 3f800000 439cae 000000
colour 3 2 mix 3f7e0000 439cae 000000
# the cube's entry for 2 is 267: by one amount and both methods the sums 264 and 268
measure 4 %s
fix 4 1
colour 4 2 mix 3f7f0000 000101 000000
colour 4 1 mix 3f7f0000 020000 000000
# amounts are not compared with each other: 299, just darker than a flat shot, stays at 0 and gets black at 1
open 1
measure 1 646464
fix 1 1
colour 1 1 mix 00000000 636464 ffffff
colour 1 1 mix 80000000 636464 ffffff
colour 1 1 mix 3f800000 636464 ffffff
colour 1 1 off 636464000000ffffff 010101010101010101
colour 1 1 hold 43960000 6496c8000000ffffff 010101010101010101
colour 1 2 hold 80000000 6496c8000000ffffff 010101010101010101
colour 1 2 hold 443f4000 6496c8000000ffffff 010101010101010101
""" % tuple(
    shown(strip)
    for strip in (
        bytes((1, 1, 1)) * 2 + bytes((200, 200, 200)) * 509,
        bytes(3) * 19 + bytes((21, 41, 64)) + bytes((200, 200, 200)) * 9,
        bytes((67, 156, 174)) * 7 + bytes((200, 200, 200)) * 4,
        bytes((0, 1, 1)) * 8 + bytes((200, 200, 200)) * 13,
    )
)
DIAL_ANSWERED = b"""0
0
0 010000
0 000000
0 000000
0 000000
0
0
0 96aac1
0 95a9c0
0
0
0 295f6b
0 295f6c
0
0
0 068181
0 5a5959
0
0
0
0 636464
0 636464
0 000000
0 636464000000ffffff
0 436485000000ffffff
0 000000000000ffffff
0 ffffff000000ffffff
"""
BY_HAND = (
    (
        b"".join(b"move %d %s %d\n" % (method, shown(bytes(pixel)), target) for method, pixel, target, _ in FIGURES),
        b"".join(b"0 %s\n" % shown(bytes(pixel)) for *_, pixel in FIGURES),
    ),
    (EXAMPLES, EXAMPLES_ANSWERED),
    (DIAL, DIAL_ANSWERED),
    (doctored.SCRIPT, doctored.GOOD),
)


# ---- Refusals ----


def call(order, causes, text):
    """A call that gives these causes to refuse it: the first in its order is its number."""
    return Line(text, next((number for number in order if number in causes), 0), frozenset(causes))


def filled(shot, pixels):
    """Lines that measure so many pixels, in strips of 10,000 and a rest."""
    times, rest = divmod(pixels, 10000)
    yield Line(b"repeat %d measure %d %s" % (times, shot, shown(b"\1\2\3" * 10000)))
    yield Line(b"measure %d %s" % (shot, shown(b"\1\2\3" * rest)), 0)


def probe(shot):
    """Whether anything changed: a shot of one pixel and another has a curve that shows it."""
    yield Line(b"measure %d 646464" % shot)
    yield Line(b"fix %d 1" % shot)
    yield Line(b"colour %d 1 mix 3f800000 0102036464649696967f8081 000000000000000000000000" % shot, 0)


def measures():
    """Each strip of 0 to 7 bytes on a shot with room for each number of pixels, fixed or not."""
    for room, fixed in itertools.product((0, 1, 2, MOST_PIXELS - 1), (False, True)):
        yield Line(b"open 1", 0)
        yield from filled(1, MOST_PIXELS - room)
        if fixed:
            yield Line(b"fix 1 1", 0)
        # the longest first: what is accepted takes of the room
        for length in 7, 6, 5, 4, 2, 1, 0, 3:
            causes = {1} if fixed else set()
            causes |= {2} if length % 3 else set()
            causes |= {3} if length // 3 > room else set()
            room -= 0 if causes else length // 3
            yield call(MEASURE, causes, b"measure 1 %s" % shown(bytes(range(length))))
        yield from probe(1)


def fixes():
    for state, choice in itertools.product(("empty", "measured", "fixed"), CHOICES):
        yield Line(b"open 2", 0)
        causes = set() if choice in (1, 2) else {4}
        if state == "empty":
            causes.add(5)
        else:
            yield Line(b"measure 2 c8c8c8", 0)
        if state == "fixed":
            yield Line(b"fix 2 2", 0)
            causes.add(1)
        yield call(FIX, causes, b"fix 2 %d" % choice)
        yield from probe(2)


# each with the cause that it gives to refuse it
DIALS = (
    *((b"off", set()), (b"mix 3f000000", set()), (b"hold 43960000", set())),
    *((b"mix 3f000001", {17}), (b"mix nan", {17}), (b"hold 43960001", {18}), (b"hold ffc00000", {18})),
)


def colours():
    for fixed in False, True:
        yield Line(b"open 3", 0)
        yield Line(b"measure 3 102030c8c8c8", 0)
        if fixed:
            yield Line(b"fix 3 1", 0)
        for method, (dial, bad), length, other in itertools.product(METHODS, DIALS, range(8), range(8)):
            causes = set() if fixed else {6}
            causes |= set() if method in (1, 2) else {7}
            causes |= {2} if length % 3 else set()
            causes |= {8} if length != other else set()
            source, destination = shown(bytes(range(10, 10 + length))), shown(bytes(range(200, 200 + other)))
            yield call(COLOUR, causes | bad, b"colour 3 %d %s %s %s" % (method, dial, source, destination))
        yield from probe(3)


def moves():
    pixels = "000000 ffffff 010203 fefdfc 0a141e f5ebe1 ffff00 ffff01 0000ff 00ff00 808080"
    for method, pixel, target in itertools.product(METHODS, pixels.encode().split(), TARGETS):
        causes = set() if method in (1, 2) else {7}
        causes |= {9} if target > 765 else set()
        yield call(MOVE, causes, b"move %d %s %d" % (method, pixel, target))


def possible(order):
    """The causes that a call can meet together: not 1 with 5, since a fixed shot has a pixel, nor 17 with 18, of two commands."""
    for count in range(len(order) + 1):
        for causes in itertools.combinations(order, count):
            if not {1, 5} <= set(causes) and not {17, 18} <= set(causes):
                yield frozenset(causes)


REFUSALS = (("measure", MEASURE, measures), ("fix", FIX, fixes), ("colour", COLOUR, colours), ("move", MOVE, moves))


# ---- Dials ----


def dial_word(data):
    return data.encode() if isinstance(data, str) else data.hex().encode()


def coloured(shot, method, command, data, strip, due):
    destination = bytes(200 + i for i in range(len(strip)))
    words = shot, method, command, dial_word(data), shown(strip), shown(destination)
    return Line(b"colour %d %d %s %s %s %s" % words, due)


# Black and white, which stay; and two pixels that a flat shot of intensity 300 moves to black and to white, as far as samples can
# move, so that one or the other shows each stop apart from the next.
TELLING = (0, 0, 0), (255, 255, 255), (255, 20, 10), (0, 200, 220)


def every_dial(rng, command, floats, refused):
    """Each good float by both methods, and the floats next to it, which are refused."""
    for data in floats:
        for method in 1, 2:
            strip = strip_of([*TELLING, *(pixel(rng) for _ in range(10))])
            yield coloured(1, method, command, data, strip, 0)
        for beside in dials.neighbours(data):
            yield coloured(1, rng.choice((1, 2)), command, beside, strip_of([pixel(rng)]), refused)


def bad_dials(command, floats, refused):
    """Floats that do not count, for a pixel and for none."""
    for data, strip in itertools.product(floats, (b"\1\2\3", b"")):
        yield coloured(1, 2, command, data, strip, refused)


def by_dials(rng):
    """For each choice every stop and held value, what is beside and between them, and other floats; then the stops of a flat shot."""
    minus = dials.packed(-0.0)
    for choice in 1, 2:
        yield [
            Line(b"measure 1 %s" % shown(strip_of(pixel(rng) for _ in range(60))), 0),
            Line(b"fix 1 %d" % choice, 0),
            *every_dial(rng, b"mix", map(dials.stop, dials.STOPS), 17),
            *every_dial(rng, b"hold", map(dials.packed, dials.HELD), 18),
            *(coloured(1, 1, b"mix", minus, b"\1\2\3", 0), coloured(1, 1, b"hold", minus, b"\1\2\3", 0)),
            *bad_dials(b"mix", [*dials.no_amounts(), *(dials.stop(k + 0.5) for k in dials.STOPS)], 17),
            *bad_dials(b"hold", [*dials.not_held(), *(dials.packed(value + 0.5) for value in dials.HELD)], 18),
        ]
    yield [Line(b"measure 1 646464", 0), Line(b"fix 1 1", 0), *every_dial(rng, b"mix", map(dials.stop, dials.STOPS), 17)]


# ---- The limit ----


def limits():
    """The limit reached exactly, missed and passed by one, beside another shot, and again after an opening."""
    longest = (LONGEST - 10 - len(b"repeat 9999 ")) // 6
    for strip, choice in (longest, 1), (4096, 2), (10001, 2):
        data = shown(bytes(i % 251 for i in range(3 * strip)))
        times, rest = divmod(MOST_PIXELS, strip)
        yield Line(b"measure 2 0a141e", 0)
        yield Line(b"repeat %d measure 1 %s" % (times, data))
        yield Line(b"measure 1 %s" % shown(b"\7\7\7" * (rest - 1)) if rest else b"measure 1 -", 0)
        yield Line(b"repeat 3 measure 1 0102ff")
        yield Line(b"measure 1 000000ffffff", 3)
        yield Line(b"repeat 2 measure 1 -")
        yield Line(b"measure 1 01020304", 2)
        yield Line(b"measure 1 %s" % data, 3)
        yield Line(b"fix 1 %d" % choice, 0)
        yield Line(b"measure 2 0a141e", 0)
        for method in 1, 2:
            yield Line(b"colour 1 %d mix 3f800000 %s %s" % (method, shown(bytes(range(240))), shown(bytes(240))), 0)
        yield Line(b"open 1", 0)
        # now every strip but the last few fits
        yield Line(b"repeat %d measure 1 %s" % (times + 3, data))
        yield Line(b"repeat 3 measure 1 %s" % shown(b"\1\1\1" * max(1, rest)))
        yield Line(b"fix 1 %d" % choice, 0)
        yield Line(b"colour 1 1 mix 3f800000 %s %s" % (shown(bytes(range(240))), shown(bytes(240))), 0)
        yield Line(b"open 1", 0)
        yield Line(b"open 2", 0)


# ---- Ties and halves ----

# numbers of pixels with their ties, as tests/host/ties.c has them
TIED = (1, 1), (2, 1), (3, 1), (10, 1), (1000, 1), (72250, 3), (144500, 3), (221085, 3), (442170, 9), (614125, 9), (884340, 9)
TIED += (736950, 17), (2210850, 51), (11054250, 255)


def tied(pixels):
    """The k that are as far as k + 1 for some H(s) + H(s − 1) among so many pixels, each with that number."""
    for k in range(765):
        part, left = divmod(pixels * (exact.TARGETS[k] + exact.TARGETS[k + 1]), exact.TARGETS[765])
        if left == 0:
            yield k, part


def telling(rng, s, low, high):
    """Pixels of intensity s that show which of two targets they moved to, by one method or the other."""
    for _ in range(200):
        pixel, method = tuple(pixel_of(rng, s)), rng.choice((1, 2))
        if moved(method, pixel, low) != moved(method, pixel, high):
            yield method, pixel


def colouring(rng, shot, wanted):
    """Lines that colour pixels which show of each intensity to which of two entries it moved."""
    found = {1: [], 2: []}
    for s, low, high in wanted:
        for method, pixel in itertools.islice(telling(rng, s, low, high), 3):
            found[method].append(pixel)
    told = {sum(pixel) for pixels in found.values() for pixel in pixels}
    # for instance no pixel of intensity 255 shows whether it moved to 255 or 256
    if len(told) < 0.95 * len(wanted):
        raise ValueError(f"of {len(wanted)} intensities only {len(told)} show their entry")
    for method, pixels in found.items():
        data = strip_of(pixels)
        yield Line(b"colour %d %d mix 3f800000 %s %s" % (shot, method, shown(data), shown(bytes(len(data)))), 0)


def measured(shot, pixel, count):
    """So many times one pixel, in strips of 1,000 and a rest."""
    times, rest = divmod(count, 1000)
    if times:
        yield Line(b"repeat %d measure %d %s" % (times, shot, shown(bytes(pixel) * 1000)))
    yield Line(b"measure %d %s" % (shot, shown(bytes(pixel) * rest)), 0)


def layout(rng, parts, pixels):
    """H(s − 1) and H(s) for each number H(s) + H(s − 1), rising and within so many pixels; of a tone's own pixels few or many."""
    so_far = 0
    for part, following in zip(parts, [*parts[1:], 2 * pixels]):
        # so that the next number can come too
        below = rng.choice((part // 2, rng.randint(max(so_far, part - following // 2), part // 2)))
        so_far = part - below
        yield below, so_far


def cube_ties(rng, pixels, expected, aside):
    """A shot whose H(s) + H(s − 1) is a tie at as many intensities as there are ties, or by `aside`, the least step, beside each."""
    found = list(tied(pixels))
    if len(found) != expected:
        raise ValueError(f"{pixels} pixels have {len(found)} ties, not {expected}")
    places = [20 + i * 700 // len(found) for i in range(len(found))]
    so_far = 0
    yield Line(b"open 1", 0)
    for s, (below, at_most) in zip(places, layout(rng, [part + aside for _, part in found], pixels)):
        yield from measured(1, pixel_of(rng, s - 1), below - so_far)
        yield from measured(1, pixel_of(rng, s), at_most - below)
        so_far = at_most
    yield from measured(1, pixel_of(rng, 764), pixels - so_far)
    yield Line(b"fix 1 1", 0)
    yield from colouring(rng, 1, [(s, k, k + 1) for s, (k, _) in zip(places, found)])


def halves(rng, times):
    """765 × (H(s) + H(s − 1)) / (2 × N) is a half at every intensity from 1 to 764: as many pixels of each from 0 to 764."""
    yield Line(b"open 2", 0)
    for s in range(765):
        yield from measured(2, pixel_of(rng, s), times)
    yield Line(b"fix 2 2", 0)
    yield from colouring(rng, 2, [(s, s, s + 1) for s in range(1, 765)])


def ties(rng):
    """One script for each shot of ties and halves."""
    for pixels, expected in TIED:
        yield list(cube_ties(rng, pixels, expected, 0))
    for pixels, expected in (144500, 3), (884340, 9):
        yield list(cube_ties(rng, pixels, expected, -1))
        yield list(cube_ties(rng, pixels, expected, 1))
    yield list(halves(rng, 1))
    yield list(halves(rng, 7))
