"""The program `replay` a second time, in plain integers: what it answers to a script.

    second.py <SCRIPT

prints the answers. Written from the documents alone. A line is split into words and each word is matched by a regular expression,
which is not how the program reads it; calls that a `repeat` makes are worked out together.
"""

import functools
import pathlib
import re
import sys
from collections import Counter
from fractions import Fraction
from itertools import accumulate
from typing import NamedTuple

sys.path.insert(0, str(pathlib.Path(__file__).resolve().parent.parent))
import exact

LONGEST = 65536
LARGEST = 2**32 - 1
MOST_PIXELS = 2**24
SHOTS = range(1, 5)
OFF, MIX, HOLD = b"off", b"mix", b"hold"
STOPS = 256  # an amount is a number of 256ths
BRIGHTEST = 765

TOO_LONG = "longer than 65536 bytes"
NO_SUCH_CALL = "no such call"
TOO_FEW = "too few words"
TOO_MANY = "too many words"
NOT_A_NUMBER = "not a number from 0 to 4294967295"
NO_SUCH_SHOT = "no such shot"
NOT_PAIRS = "not pairs of hexadecimal digits"
NOT_SIX = "not six hexadecimal digits"
NO_SUCH_DIAL = "no such dial command: off, mix or hold"
NOT_A_FLOAT = "not a float's bits: eight hexadecimal digits, or nan"
REASONS = TOO_LONG, NO_SUCH_CALL, TOO_FEW, TOO_MANY, NOT_A_NUMBER, NO_SUCH_SHOT, NOT_PAIRS, NOT_SIX, NO_SUCH_DIAL, NOT_A_FLOAT

DECIMAL = re.compile(rb"[0-9]{1,10}")
HEXADECIMAL = re.compile(rb"[0-9A-Fa-f]+")

# the same curves and moves come up again and again
entry = functools.lru_cache(2**16)(exact.entry)
moved = functools.lru_cache(2**18)(exact.moved)


class NoCall(Exception):
    """A line that is no call, with the reason."""


class Call(NamedTuple):
    times: int
    name: bytes
    arguments: list


class Dial(NamedTuple):
    """A dial command, and the exact value of its float, None where that is no number; `off` brings none."""

    command: bytes
    value: Fraction | None = None


def exact_value(bits):
    """What a 32-bit float stands for, by its bits; None for a NaN and an infinity."""
    negative, exponent, fraction = bits >> 31, bits >> 23 & 255, bits & 2**23 - 1
    if exponent == 255:
        return None
    # the leading 1 of a fraction is not written, and subnormals have none
    size = Fraction(2**23 + fraction, 2**150) * 2**exponent if exponent else Fraction(fraction, 2**149)
    return -size if negative else size


# Each kind of argument takes its words from the front of those that are left.


def due(words):
    if not words:
        raise NoCall(TOO_FEW)
    return words.pop(0)


def number(words):
    word = due(words)
    if not DECIMAL.fullmatch(word) or int(word) > LARGEST:
        raise NoCall(NOT_A_NUMBER)
    return int(word)


def shot(words):
    which = number(words)
    if which not in SHOTS:
        raise NoCall(NO_SUCH_SHOT)
    return which


def strip(words):
    word = due(words)
    if word == b"-":
        return b""
    if len(word) % 2 or not HEXADECIMAL.fullmatch(word):
        raise NoCall(NOT_PAIRS)
    return bytes.fromhex(word.decode())


def pixel(words):
    word = due(words)
    if len(word) != 6 or not HEXADECIMAL.fullmatch(word):
        raise NoCall(NOT_SIX)
    return tuple(bytes.fromhex(word.decode()))


def float_value(words):
    word = due(words)
    if word == b"nan":
        return None
    if len(word) != 8 or not HEXADECIMAL.fullmatch(word):
        raise NoCall(NOT_A_FLOAT)
    return exact_value(int(word, 16))


def dial(words):
    command = due(words)
    if command not in (OFF, MIX, HOLD):
        raise NoCall(NO_SUCH_DIAL)
    return Dial(command) if command == OFF else Dial(command, float_value(words))


ARGUMENTS = {
    b"open": (shot,),
    b"measure": (shot, strip),
    b"fix": (shot, number),
    b"colour": (shot, number, dial, strip, strip),
    b"move": (number, pixel, number),
}


def read(line):
    """The call of a line without its LF, None for a blank one."""
    if len(line) > LONGEST:
        raise NoCall(TOO_LONG)
    words = line.partition(b"#")[0].split()
    if not words:
        return None
    times, name = 1, words.pop(0)
    if name == b"repeat":
        times, name = number(words), due(words)
    if name not in ARGUMENTS:
        raise NoCall(NO_SUCH_CALL)
    arguments = [kind(words) for kind in ARGUMENTS[name]]
    if words:
        raise NoCall(TOO_MANY)
    return Call(times, name, arguments)


def pixels_of(data):
    return zip(data[0::3], data[1::3], data[2::3])


@functools.lru_cache(maxsize=1000)
def tally(data):
    return Counter(map(sum, pixels_of(data)))


def whole(value, unit, most):
    """Which of the whole numbers 0 to `most` a value is, counted in units; None if it is none of them. Minus zero is 0."""
    if value is None or (value / unit).denominator != 1 or not 0 <= value / unit <= most:
        return None
    return int(value / unit)


def written(source, becomes):
    """A strip of what each pixel becomes."""
    return bytes(c for p in pixels_of(source) for c in becomes(p))


class Shot:
    """A shot by its tally; each call says, of so many calls in a row, which numbers they get: pairs of number and count."""

    def __init__(self):
        self.pixels = 0
        self.counts = 766 * [0]
        self.curve = None

    def measure(self, times, data):
        if self.curve:
            return [(1, times)]
        if len(data) % 3:
            return [(2, times)]
        pixels = len(data) // 3
        # a refused strip leaves the room as it was, so all after it are refused too
        accepted = min(times, (MOST_PIXELS - self.pixels) // pixels) if pixels else times
        self.pixels += accepted * pixels
        for s, count in tally(data).items():
            self.counts[s] += accepted * count
        return [(0, accepted), (3, times - accepted)]

    def fix(self, times, choice):
        if self.curve:
            return [(1, times)]
        if choice not in (1, 2):
            return [(4, times)]
        if not self.pixels:
            return [(5, times)]
        self.curve = choice, list(accumulate(self.counts))
        return [(0, 1), (1, times - 1)]

    def entry(self, s):
        if s in (0, 765):
            return s
        choice, at_most = self.curve
        return entry(choice, self.pixels, at_most[s - 1], at_most[s])

    def colour(self, method, dial, source, destination):
        """The number, and what the destination then holds."""
        if not self.curve:
            return 6, destination
        if method not in (1, 2):
            return 7, destination
        if len(source) % 3:
            return 2, destination
        if len(source) != len(destination):
            return 8, destination
        if dial.command == OFF:
            return 0, source
        if dial.command == MIX:
            k = whole(dial.value, Fraction(1, STOPS), STOPS)
            return (17, destination) if k is None else (0, written(source, lambda p: self.mixed(method, k, p)))
        held = whole(dial.value, 1, BRIGHTEST)
        return (18, destination) if held is None else (0, written(source, lambda p: moved(method, p, held)))

    def mixed(self, method, k, p):
        """A pixel mixed with its full balance, of which k 256ths are taken."""
        full = moved(method, p, self.entry(sum(p)))
        return ((c * (STOPS - k) + balanced * k + 128) // STOPS for c, balanced in zip(p, full))


def move(method, p, target):
    if method not in (1, 2):
        return 7, (0, 0, 0)
    if target > 765:
        return 9, (0, 0, 0)
    return 0, moved(method, p, target)


def shown(data):
    return data.hex().encode() if data else b"-"


class Second:
    """All four shots, and the answers to one line after the other."""

    def __init__(self):
        self.shots = {which: Shot() for which in SHOTS}
        self.line = 0

    def reply(self, line):
        """The answers to the next line: pairs of an answer and how often it comes."""
        self.line += 1
        try:
            call = read(line)
        except NoCall as reason:
            return [(f"line {self.line} is no call: {reason}\n".encode(), 1)]
        if call is None or call.times == 0:
            return []
        return self.made(*call)

    def made(self, times, name, arguments):
        if name == b"move":
            which, data = move(*arguments)
            return [(b"%d %s\n" % (which, shown(bytes(data))), times)]
        place, *rest = arguments
        if name == b"open":
            self.shots[place] = Shot()
            return [(b"0\n", times)]
        if name == b"colour":
            which, data = self.shots[place].colour(*rest)
            return [(b"%d %s\n" % (which, shown(data)), times)]
        met = self.shots[place].measure if name == b"measure" else self.shots[place].fix
        return [(b"%d\n" % which, count) for which, count in met(times, *rest) if count]


def lines_of(script):
    """The lines of a script; nothing after the last LF is no line."""
    lines = script.split(b"\n")
    return lines if lines[-1] else lines[:-1]


def replies(script):
    """For each line the pairs that `reply` has."""
    second = Second()
    return [second.reply(line) for line in lines_of(script)]


def answers(script):
    return b"".join(answer * times for reply in replies(script) for answer, times in reply)


if __name__ == "__main__":
    sys.stdout.buffer.write(answers(sys.stdin.buffer.read()))
