"""Tries the checks of kept.py: good answers break no rule, and in each doctored answer the broken rule is noticed."""

from kept import COPY, DIFFERENCE, FORM, FULL, HOLD, INTENSITY, MIX, OFF, ORDER, PAIR, RULES, STAY, UNTOUCHED
from kept import Setting, Spread, Unfit, broken, pixel_faults, setting

# The first shot has intensities 59, 299, 599 and 765 and is equalised: 60 to 298 go to 191, 300 to 598 to 383. The second has 59
# alone. 3f800000 is 1, the full balance, 3f000000 a half, 3f400000 three quarters, 43960000 the held value 300.
SCRIPT = b"""open 1
measure 1 0a0a27646463
measure 1 c8c8c7ffffff
fix 1 2
colour 1 1 mix 3f800000 0a0a28646464000000 010101010101010101
repeat 2 colour 1 2 mix 3f800000 0a0a29 000000
colour 1 3 mix 3f800000 0a0a28 0102ff # refused by 7
colour 1 1 mix 3f000000 340404 000000
colour 1 2 mix 3F000000 241405 000000
colour 1 1 mix 3f400000 2b070c000000 010101010101
colour 1 1 mix 00000000 0a0a28 000000
colour 1 2 mix 80000000 0a0a29 000000
colour 1 1 hold 43960000 0a0a28000000ffffff 010101010101010101
colour 1 2 hold 43960000 0a0a29 000000
colour 1 2 off 0a0a28646464 000000000000
colour 1 2 mix 3f7fffff 0a0a28 010203 # refused by 17
colour 1 2 hold nan 0a0a28 030201 # refused by 18
frob
repeat 0 open 1
open 1
measure 1 0a0a27
fix 1 1
colour 1 1 mix 3f800000 - -
colour 1 1 mix 3f800000 0a0a280a0a26 000000000000
move 1 6496c8 300
move 2 ffffff 0
"""
GOOD = b"""0
0
0
0
0 383850808080000000
0 1f1f80
0 1f1f80
7 0102ff
0 471c1c
0 4b2a0b
0 482a2e000000
0 0a0a28
0 0a0a29
0 5d5d71000000ffffff
0 3d3db3
0 0a0a28646464
17 010203
18 030201
line 18 is no call: no such call
0
0
0
0 -
0 ffffff000000
0 436485
0 ffffff
"""
# what stands in GOOD once, what is put in its place, and the rule that is then broken
DOCTORED = (
    (b"0 383850808080000000\n", b"0 373950808080000000\n", ORDER),  # equal channels come out unequal
    (b"0 383850808080000000\n", b"0 503838808080000000\n", ORDER),
    (b"0 383850808080000000\n", b"0 383851808080000000\n", INTENSITY),  # 2 above the entry, and all else is kept
    (b"0 383850808080000000\n", b"0 38384d808080000000\n", INTENSITY),
    (b"0 383850808080000000\n", b"0 373751808080000000\n", DIFFERENCE),  # 26 where 24.4 is exact, and all else is kept
    (b"0 383850808080000000\n", b"0 39394e808080000000\n", DIFFERENCE),
    (b"0 383850808080000000\n", b"0 383850808080010000\n", ORDER),  # black
    (b"0 383850808080000000\n", b"0 383850808080010101\n", INTENSITY),
    (b"0 383850808080000000\n", b"0 3a3a50808080000000\n", PAIR),  # 61 comes out 4 below 60
    (b"0 383850808080000000\n", b"0 383850000000000000\n", PAIR),  # 300 below 60, in one colouring
    (b"0 1f1f80\n0 1f1f80\n", b"0 1f1f80\n0 1e1e7f\n", PAIR),  # the second of two repeated colourings
    (b"0 ffffff000000\n", b"0 000000000000\n", INTENSITY),
    (b"0 ffffff000000\n", b"0 ffffff383850\n", INTENSITY),  # by the curve before the opening
    (b"0 471c1c\n", b"0 471d1c\n", ORDER),  # under mixes, one step in one sample
    (b"0 4b2a0b\n", b"0 4c2a0b\n", INTENSITY),
    (b"0 482a2e000000\n", b"0 482b2e000000\n", DIFFERENCE),
    (b"0 482a2e000000\n", b"0 482a2e010101\n", INTENSITY),  # black under a mix
    (b"0 4b2a0b\n", b"0 492808\n", PAIR),  # 61 comes out 6 below 60, by the other method and under the same mix
    (b"0 0a0a29\n", b"0 080826\n", PAIR),  # and 6 below, where one amount is zero and the other minus zero
    (b"0 3d3db3\n", b"0 3c3cb0\n", PAIR),  # and 3 below under one held value
    (b"0 5d5d71000000ffffff\n", b"0 5d5d71646464ffffff\n", STAY),  # black moves to the held value
    (b"0 5d5d71000000ffffff\n", b"0 5d5d71000001ffffff\n", STAY),
    (b"0 5d5d71000000ffffff\n", b"0 5d5d71000000646464\n", STAY),  # and white
    (b"0 5d5d71000000ffffff\n", b"0 383850000000ffffff\n", INTENSITY),  # by the entry, and not by the held value
    (b"0 5d5d71000000ffffff\n", b"0 5e5e72000000ffffff\n", INTENSITY),
    (b"0 5d5d71000000ffffff\n", b"0 5c5c73000000ffffff\n", DIFFERENCE),
    (b"0 0a0a28646464\n", b"0 20207f808080\n", COPY),  # off writes the balance
    (b"0 0a0a28646464\n", b"0 0a0a28646465\n", COPY),
    (b"0 0a0a28646464\n", b"0 000000000000\n", COPY),  # or nothing
    (b"17 010203\n", b"17 010204\n", UNTOUCHED),
    (b"17 010203\n", b"017 010203\n", FORM),
    (b"17 010203\n", b"0 20207f\n", FORM),  # accepted, though no rule tells of such an amount
    (b"18 030201\n", b"18 030202\n", UNTOUCHED),
    (b"18 030201\n", b"0 000000\n", FORM),
    (b"7 0102ff\n", b"7 0102fe\n", UNTOUCHED),
    (b"7 0102ff\n", b"7 0102\n", UNTOUCHED),
    (b"7 0102ff\n", b"7 -\n", UNTOUCHED),
    (b"7 0102ff\n", b"7 0102FF\n", FORM),
    (b"7 0102ff\n", b"7 \n", FORM),
    (b"0 383850808080000000\n", b"0 383850808080\n", FORM),
    (b"0 383850808080000000\n", b"0 38385080808000000\n", FORM),
    (b"0 383850808080000000\n", b"0 3838508080800000256\n", FORM),
    (b"0 -\n", b"0 \n", FORM),
    (b"0 -\n", b"", FORM),
    (b"0 -\n", b"0 -\n0 -\n", FORM),
    (b"0 1f1f80\n0 1f1f80\n", b"0 1f1f80\n", FORM),
    (b"line 18 is no call: no such call\n", b"", FORM),
    (b"line 18 is no call", b"line 19 is no call", FORM),
    (b"0 436485\n", b"0 436486\n0 436485\n", FORM),
    (b"0 436485\n", b"0 426486\n", DIFFERENCE),
    (b"0 436485\n", b"0 446586\n", INTENSITY),
    (b"0 436485\n0 ffffff\n", b"0 436485\n0 000000\n", INTENSITY),  # white does not stay
    (b"0 436485\n0 ffffff\n", b"0 436485\n0 ffffff", FORM),
    (b"0 436485\n0 ffffff\n", b"0 436485\n0 ffffff\n0\n", FORM),
)
# single pixels: setting, method, pixel, entry, what is written, and the rules that this breaks
PIXELS = (
    (FULL, 1, (10, 10, 40), 60, (10, 10, 40), set()),
    (FULL, 1, (10, 10, 40), 60, (10, 10, 41), {DIFFERENCE}),  # exactly 1 from what is exact
    (FULL, 1, (10, 10, 40), 60, (10, 11, 40), {ORDER, DIFFERENCE}),
    (FULL, 1, (10, 20, 30), 120, (31, 40, 49), set()),
    (FULL, 2, (10, 20, 30), 120, (31, 40, 49), {DIFFERENCE}),  # right by the other method
    (FULL, 2, (10, 20, 30), 120, (20, 40, 60), set()),
    (FULL, 1, (10, 20, 30), 120, (20, 40, 60), {DIFFERENCE}),
    (FULL, 2, (10, 20, 30), 405, (105, 135, 165), set()),
    (FULL, 2, (245, 235, 225), 360, (150, 120, 90), set()),
    (FULL, 2, (245, 235, 225), 645, (235, 215, 195), set()),
    (FULL, 2, (245, 235, 225), 645, (236, 216, 196), {INTENSITY}),
    (FULL, 1, (255, 255, 0), 255, (128, 128, 0), set()),
    (FULL, 1, (255, 255, 0), 255, (128, 128, 1), {INTENSITY}),
    # the worst that mixes write, and a step further
    (Setting(MIX, 255), 2, (21, 41, 64), 514, (149, 169, 192), set()),
    (Setting(MIX, 255), 2, (21, 41, 64), 514, (149, 169, 191), {INTENSITY}),
    (Setting(MIX, 254), 2, (67, 156, 174), 243, (41, 95, 108), set()),
    (Setting(MIX, 254), 2, (67, 156, 174), 243, (41, 95, 109), {DIFFERENCE}),
    # sums exactly five halves from 125 and a half, and a step further
    (Setting(MIX, 128), 1, (10, 20, 30), 191, (33, 42, 53), set()),
    (Setting(MIX, 128), 1, (10, 20, 30), 191, (33, 43, 53), {INTENSITY}),
    (Setting(MIX, 128), 1, (10, 20, 30), 191, (32, 41, 50), set()),
    (Setting(MIX, 128), 1, (10, 20, 30), 191, (32, 41, 49), {INTENSITY}),
    (Setting(MIX, 1), 1, (10, 10, 40), 60, (10, 10, 41), set()),
    (Setting(MIX, 1), 1, (10, 10, 40), 60, (9, 9, 41), {DIFFERENCE}),  # exactly 2 from what is exact
    (Setting(MIX, 255), 2, (10, 20, 30), 120, (31, 40, 49), {DIFFERENCE}),  # right by the other method
    (Setting(MIX, 0), 2, (10, 20, 30), 120, (10, 20, 30), set()),
    (Setting(MIX, 0), 2, (10, 20, 30), 120, (20, 40, 60), {INTENSITY, DIFFERENCE}),
    (Setting(HOLD, 120), 2, (10, 20, 30), 700, (20, 40, 60), set()),
    (Setting(HOLD, 120), 1, (10, 20, 30), 700, (20, 40, 60), {DIFFERENCE}),
    (Setting(HOLD, 120), 2, (10, 20, 30), 120, (21, 41, 60), {INTENSITY, DIFFERENCE}),
    (Setting(HOLD, 700), 2, (10, 20, 30), 120, (20, 40, 60), {INTENSITY, DIFFERENCE}),  # by the entry
    (Setting(HOLD, 0), 1, (0, 0, 1), 120, (0, 0, 0), set()),
    (Setting(HOLD, 0), 1, (255, 255, 255), 765, (0, 0, 0), {STAY}),
    (Setting(OFF), 1, (10, 20, 30), 120, (10, 20, 30), set()),
    (Setting(OFF), 1, (10, 20, 30), 120, (31, 40, 49), {COPY}),
)
# how far a brighter pixel may come out below, input and written intensities under one setting, and whether any two break the rule
PAIRS = (
    (2, [(5, 10), (6, 8)], False),
    (2, [(5, 10), (6, 7)], True),
    (2, [(6, 7), (5, 10)], True),
    (2, [(5, 10), (5, 8)], False),
    (2, [(5, 10), (5, 7)], True),
    (2, [(5, 10), (6, 12), (7, 9)], True),
    (2, [(5, 10), (4, 11), (300, 9), (301, 9)], False),
    (2, [(5, 10), (4, 11), (300, 200), (301, 8)], True),
    (2, [], False),
    (5, [(5, 10), (6, 5)], False),
    (5, [(5, 10), (6, 4)], True),
)
# two dials, and whether pixels under one are compared with those under the other
DIALS = (
    (b"mix 00000000", b"mix 80000000", True),
    (b"hold 80000000", b"hold 00000000", True),
    (b"mix 3f800000", b"mix 3F800000", True),
    (b"off", b"off", True),
    (b"off", b"mix 00000000", False),
    (b"hold 00000000", b"mix 00000000", False),
    (b"hold 3f800000", b"mix 3f800000", False),
    (b"mix 3f800000", b"mix 3f7f0000", False),
    (b"hold 43960000", b"hold 43968000", False),
)
# settings, and how far a brighter pixel may come out below
BELOW = (FULL, 2), (Setting(MIX, 255), 5), (Setting(MIX, 0), 5), (Setting(HOLD, 300), 2), (Setting(HOLD, 256), 2), (Setting(OFF), 2)
# floats by their bits, and the setting that they are
DECODED = (
    (b"mix 3b800000", Setting(MIX, 1)),
    (b"mix 3f800000", Setting(MIX, 256)),
    (b"mix 3f7f0000", Setting(MIX, 255)),
    (b"mix 80000000", Setting(MIX, 0)),
    (b"hold 00000000", Setting(HOLD, 0)),
    (b"hold 3f800000", Setting(HOLD, 1)),
    (b"hold 443F4000", Setting(HOLD, 765)),
    (b"off", Setting(OFF)),
)
# dials that no rule tells of: beyond the ends, beside good ones, the least subnormal, infinite, no number
RULELESS = (
    *(b"mix 3f808000", b"mix bb800000", b"mix 3f800001", b"mix 3f7fffff", b"mix 00000001", b"mix 7f800000", b"mix nan"),
    *(b"hold 443f8000", b"hold bf800000", b"hold 43960001", b"hold 3f000000", b"hold 80000001", b"hold ff800000", b"hold 7fc00000"),
)


def noticed(came):
    return {rule for _, rule, _ in broken(SCRIPT, came)}


def answer_faults():
    if noticed(GOOD):
        yield f"good answers are said to break {noticed(GOOD)}"
    for good, bad, rule in DOCTORED:
        if GOOD.count(good) != 1:
            yield f"{good!r} is not once in the good answers"
        if rule not in noticed(GOOD.replace(good, bad)):
            yield f"{bad!r} in place of {good!r} is not noticed to break {rule}"
    for rule in RULES:
        if rule not in {doctored[2] for doctored in DOCTORED}:
            yield f"no answer is doctored to break {rule}"


def faults():
    """What the checks did not notice, or noticed without cause."""
    yield from answer_faults()
    for *move, expected in PIXELS:
        found = {rule for rule, _ in pixel_faults(*move)}
        if found != expected:
            yield f"{move} is said to break {found}, and breaks {expected}"
    for most_below, intensities, expected in PAIRS:
        spread = Spread()
        for s, written in intensities:
            spread.add(s, written, 1)
        if any(spread.faults(most_below)) != expected:
            yield f"two of the intensities {intensities}, {most_below} below: {not expected}, where {expected} is right"
    yield from setting_faults()


def setting_faults():
    for one, other, expected in DIALS:
        if (setting(one) == setting(other)) != expected:
            yield f"{one!r} and {other!r} are one setting: {not expected}, where {expected} is right"
    for under, expected in BELOW:
        if under.most_below() != expected:
            yield f"{under}: {under.most_below()} below, where {expected} is right"
    for words, expected in DECODED:
        if setting(words) != expected:
            yield f"{words!r} is said to be {setting(words)}, and is {expected}"
    for words in RULELESS:
        try:
            yield f"{words!r} is said to be {setting(words)}, and is nothing"
        except Unfit:
            pass


COUNT = sum(map(len, (DOCTORED, PIXELS, PAIRS, DIALS, BELOW, DECODED, RULELESS)))
