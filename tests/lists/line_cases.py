"""Lines by system: good words and bad ones at every place, and lines of every length.

Beside a line that is no call stands its reason, apart from second.py, and the two have to agree.
"""

import itertools

from second import LONGEST, NO_SUCH_CALL, NO_SUCH_DIAL, NO_SUCH_SHOT, NOT_A_FLOAT, NOT_A_NUMBER, NOT_PAIRS, NOT_SIX
from second import TOO_FEW, TOO_LONG, TOO_MANY
from trial import Line

# ---- Words ----

BAD_NUMBER = [
    *(b"x", b"-", b"-1", b"+1", b"1.", b"1,", b"0x1", b"1x", b"x1", b"/", b":", b"1:", b"/1", b"open"),
    *(b"4294967296", b"4294967297", b"9999999999", b"18446744073709551617", b"00000000001", b"00000000000"),
    *(b"1\0", b"\x001", b"\xff", b"\xb9", b"\xef\xbc\x91", b"1\x1c"),
]
GOOD = {
    "shot": [b"1", b"4", b"02", b"0000000003"],
    "number": [b"0", b"1", b"2", b"4294967295", b"0000000001", b"0000000000", b"0765"],
    "run": [b"-", b"00", b"fF", b"0102", b"aBcDeF", b"0123456789abcdefABCDEF99"],
    "pixel": [b"000000", b"ffffff", b"FFFFFF", b"0a1B9f"],
    "dial": [
        *(b"off", b"mix 3f800000", b"hold 43960000", b"mix nan", b"hold nan"),
        *(b"mix 7FC0abcd", b"hold fF800000", b"mix 00000001"),
    ],
}
OTHER_SHOT = b"0", b"5", b"00", b"10", b"257", b"65537", b"2147483649", b"4294967295", b"0000000005"
BAD_RUN = [
    *(b"0", b"abc", b"00000", b"0102030", b"--", b"-00", b"00-", b"0-", b"0x00", b"zz", b"+0", b"."),
    *(b"0g", b"g0", b"0G", b"/0", b"0:", b"@0", b"`0", b"00\0", b"0\0", b"\xff\xff", b"00\xff0"),
]
BAD_PIXEL = [
    *(b"-", b"0", b"00000", b"0000000", b"00000000", b"0x0000", b"------", b"+00000"),
    *(b"00000g", b"g00000", b"G00000", b"00000/", b"00000:", b"@00000", b"`00000", b"00000\0", b"00\xff000"),
]
# a word in the place of a dial command, and one in the place of a float
BAD_COMMAND = [
    *(b"x", b"-", b"0", b"1", b"nan", b"3f800000", b"000000", b"Off", b"OFF", b"of", b"offf", b"off,", b"no", b"on", b"full"),
    *(b"Mix", b"MIX", b"mi", b"mixed", b"mix:", b"mix3f800000", b"mix=3f800000", b"Hold", b"HOLD", b"hol", b"holds", b"held"),
    *(b"off\0", b"\0off", b"mix\0", b"\xff", b"hold\xa0", b"mix\x1c3f800000"),
]
BAD_FLOAT = [
    *(b"-", b"0", b"1", b"1.0", b"0.5", b"-0", b"1e0", b"3f80000", b"3f8000000", b"3f80000000", b"3f80", b"0000000", b"0x3f8000"),
    *(b"NaN", b"NAN", b"Nan", b"nann", b"nan0", b"na", b"-nan", b"+nan", b"inf", b"-inf", b"infinity", b"off", b"mix", b"hold"),
    *(b"3f80000g", b"g3f80000", b"3f80000G", b"3f80000/", b"3f80000:", b"@f800000", b"`f800000", b"--------", b"+3f80000"),
    *(b"3f80000\0", b"\0003f80000", b"3f80_000", b"nan\0", b"\xff", b"3f8000\xff0", b"3f8000\x1c0"),
]
BAD = {
    "shot": [
        *((word, NOT_A_NUMBER) for word in BAD_NUMBER),
        *((word, NO_SUCH_SHOT) for word in OTHER_SHOT),
    ],
    "number": [(word, NOT_A_NUMBER) for word in BAD_NUMBER],
    "run": [(word, NOT_PAIRS) for word in BAD_RUN],
    "pixel": [(word, NOT_SIX) for word in BAD_PIXEL],
    "dial": [
        *((word, NO_SUCH_DIAL) for word in BAD_COMMAND),
        *((b"%s %s" % (command, word), NOT_A_FLOAT) for command in (b"mix", b"hold") for word in BAD_FLOAT),
    ],
}
KINDS = {
    b"open": ["shot"],
    b"measure": ["shot", "run"],
    b"fix": ["shot", "number"],
    b"colour": ["shot", "number", "dial", "run", "run"],
    b"move": ["number", "pixel", "number"],
}
NO_CALLS = [
    *(b"frob", b"Open", b"OPEN", b"opens", b"ope", b"o", b"open1", b"color", b"colours", b"measur", b"measured", b"move_one"),
    *(b"Repeat", b"repeats", b"repea", b"fix,", b"m", b"1", b"0", b"-"),
    *(b"\xff", b"\0", b"open\0", b"\0open", b"measure\x1c", b"\xc2\xa0"),
]
REPEATS = b"", b"repeat 0 ", b"repeat 2 ", b"repeat 0000000001 "


def bad_arguments(name, kinds):
    """Every bad word at every argument, alone, before good words and before bad ones."""
    for at, kind in enumerate(kinds):
        before = [GOOD[good][at % 2] for good in kinds[:at]]
        yield b" ".join([name, *before]), TOO_FEW
        for word, reason in BAD[kind]:
            rest = [GOOD[good][0] for good in kinds[at + 1 :]]
            for after in [], rest, [*rest, b"x"], [b"?"]:
                yield b" ".join([name, *before, word, *after]), reason


def bad_calls():
    """Lines from the call's name on, with their reasons."""
    for name in NO_CALLS:
        for after in b"", b" 1", b" x", b" 1 -":
            yield name + after, NO_SUCH_CALL
    for name, kinds in KINDS.items():
        yield from bad_arguments(name, kinds)
        good = b" ".join([name, *(GOOD[kind][0] for kind in kinds)])
        for left in b"1", b"x", b"-", b"\0", b"\xff", b"open 1", b"repeat":
            yield good + b" " + left, TOO_MANY


def bad_dials():
    """Where a line ends within a dial, or brings `off` a float."""
    for command in b"mix", b"hold":
        yield b"colour 1 2 " + command, TOO_FEW
        for float_word in b"3f800000", b"nan", b"ffffffff":
            yield b"colour 1 2 %s %s" % (command, float_word), TOO_FEW
            yield b"colour 1 2 %s %s 000000" % (command, float_word), TOO_FEW
    yield b"colour 1 2 off nan - -", NOT_PAIRS
    yield b"colour 1 2 off 3f80000 - -", NOT_PAIRS
    yield b"colour 1 2 off 3f800000 - -", TOO_MANY
    yield b"colour 1 2 off off - -", NOT_PAIRS


def bad_repeats():
    yield b"repeat", TOO_FEW
    for word in BAD_NUMBER:
        for after in b"", b" open 1", b" frob", b" open x":
            yield b"repeat " + word + after, NOT_A_NUMBER
    for count in GOOD["number"]:
        yield b"repeat " + count, TOO_FEW
        for after in b"repeat 3 open 1", b"repeat", b"repeat 3", b"frob", b"3", b"3 open 1":
            yield b"repeat " + count + b" " + after, NO_SUCH_CALL


def no_calls():
    """Each reason at each place, with and without `repeat`; at the end every shot is still as it was."""
    yield Line(b"measure 1 64646400c8c8", 0)
    yield Line(b"fix 1 2", 0)
    for text, reason in bad_repeats():
        yield Line(text, reason)
    for (text, reason), repeat in itertools.product(itertools.chain(bad_calls(), bad_dials()), REPEATS):
        yield Line(repeat + text, reason)
    yield Line(b"colour 1 2 mix 3f800000 64646401c8c7 000000000000", 0)
    for shot in b"2", b"3", b"4":
        yield Line(b"colour %s 1 off - -" % shot, 6)
        yield Line(b"fix %s 1" % shot, 5)


def good_words():
    """Every good word at every argument, white space and comments at every place, and lines without a word."""
    for name, kinds in KINDS.items():
        for words in itertools.product(*(GOOD[kind] for kind in kinds)):
            yield Line(b" ".join([name, *words]))
        first = b" ".join([name, *(GOOD[kind][0] for kind in kinds)])
        for text in first + b"#", first + b" #", first + b"\t#x", b"\r\v\f\t " + first + b"\r", first.replace(b" ", b"\v\f\t\r "):
            yield Line(text)
        for count in b"0", b"1", b"0000000002", b"3":
            yield Line(b"repeat " + count + b" " + first)
        yield Line(b"# " + first)
    for blank in b"", b" ", b"\r", b"\t\v\f\r ", b"#", b"#\0\xff", b" # repeat", b"##":
        yield Line(blank)


# ---- Lines of every length ----

# how a line begins, and what fills it up
PADDED = (b"open 2", b" "), (b"", b" "), (b"#", b"x"), (b"open 2 #", b"#"), (b"open 2", b"\r"), (b"", b"\0"), (b"", b"x")


def padded(start, length, byte):
    return start + byte * (length - len(start))


def long_lines():
    """Lines of LONGEST bytes, one less and one more, and far longer ones, each before a line that shows its number."""
    for length in LONGEST - 1, LONGEST, LONGEST + 1, LONGEST + 2, 2 * LONGEST, 2 * LONGEST + 1, 200000:
        due = TOO_LONG if length > LONGEST else None
        for start, byte in PADDED:
            yield Line(padded(start, length, byte), due)
            yield Line(b"?", NO_SUCH_CALL)
        yield Line(b"measure 2 " + b"7F" * ((length - 10) // 2) + b" " * (length % 2), due)
        yield Line(b"measure 3 " + b"ab" * ((length - 12) // 2) + b" \r" + b"#" * (length % 2), due)
        yield Line(b" " * (length - 6) + b"open 3", due)
        for start in b"colour 2 1 off ", b"colour 2 1 mix 3f800000 ", b"colour 2 1 hold nan ":
            half, left = divmod(length - len(start) - 1, 4)
            yield Line(start + b"ab" * half + b" " + b"cd" * half + b" " * left, due)
        yield Line(b"0" * (length - 1) + b"1", due or NO_SUCH_CALL)
        yield Line(b"fix 4 " + b"0" * (length - 7) + b"1", due or NOT_A_NUMBER)
        yield Line(b"colour 2 1 mix " + b"0" * (length - 19) + b" - -", due or NOT_A_FLOAT)
    # what stands after so many bytes is no line of its own
    yield Line(b" " * LONGEST + b"open 2", TOO_LONG)
    yield Line(b"open 2" + b" 1" * ((LONGEST - 6) // 2), TOO_MANY)
    yield Line(b" #" * (LONGEST // 2))
    yield Line(b"fix 2 1", 0)
    yield Line(b"colour 2 1 mix 3f800000 7f7f7f 000000", 0)


def many_lines():
    """More lines, and more calls by one line, than 16 bits count."""
    yield from 70000 * [Line(b"")]
    yield Line(b"?", NO_SUCH_CALL)
    yield Line(b"repeat 65537 move 1 010203 3")
    yield Line(b"repeat 100000 open 4")
    yield Line(b"?", NO_SUCH_CALL)


def last_lines():
    """Scripts whose last line has no LF."""
    opened = b"open 1\n\n"
    for length in LONGEST - 1, LONGEST, LONGEST + 1, 200000:
        yield opened + b"measure 1 " + b"7F" * ((length - 10) // 2) + b" " * (length % 2)
        yield opened + padded(b"open 2", length, b" ")
        yield opened + padded(b"#", length, b" ")
        yield opened + padded(b"", length, b"x")
    for text in b"open 1", b"fix 1 1\r", b"frob", b"#", b" ", b"\r", b"repeat 3 fix 1 1", b"repeat 0 fix 1 1", b"\0":
        yield opened + text
        yield text
