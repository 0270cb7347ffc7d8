"""The accuracy rule under every dial command, checked on a script and the bytes that a program answered to it, and on nothing else.

It is docs/RULES.md's, and under a dial document 02's, wish 1. It keeps its own account of openings, and of the strips, fixings and
colourings that the answers call accepted; of what a program should have accepted it knows nothing. second.py has that.
"""

import functools
import pathlib
import re
import sys
from collections import Counter, defaultdict
from itertools import accumulate, combinations
from typing import NamedTuple

sys.path.insert(0, str(pathlib.Path(__file__).resolve().parent.parent))
from exact import entry

FORM, ORDER, INTENSITY, DIFFERENCE, PAIR, UNTOUCHED = "form", "order", "intensity", "difference", "two pixels", "untouched"
COPY, STAY = "off copies", "black and white stay"
RULES = FORM, ORDER, INTENSITY, DIFFERENCE, PAIR, UNTOUCHED, COPY, STAY

LONGEST = 65536
NUMBER = re.compile(rb"(0|[1-9][0-9]?)")
NUMBER_AND_BYTES = re.compile(rb"(0|[1-9][0-9]?) (-|(?:[0-9a-f]{2})+)")
NUMBER_AND_PIXEL = re.compile(rb"(0|[1-9][0-9]?) ([0-9a-f]{6})")
FLOAT = re.compile(rb"[0-9a-fA-F]{8}")
OFF, MIX, HOLD = b"off", b"mix", b"hold"

# by method, intensities and targets: the factor as numerator and denominator, where s is the intensity and f the target
FACTORS = (
    (1, 1, 764, lambda s, f: f <= s, lambda s, f: (f, s)),
    (1, 1, 764, lambda s, f: f > s, lambda s, f: (765 - f, 765 - s)),
    (2, 1, 255, lambda s, f: f <= 255, lambda s, f: (f, s)),
    (2, 1, 255, lambda s, f: f > 255, lambda s, f: (765 - f, 2 * s)),
    (2, 256, 510, lambda s, f: f <= s, lambda s, f: (f, s)),
    (2, 256, 510, lambda s, f: f > s, lambda s, f: (765 - f, 765 - s)),
    (2, 511, 764, lambda s, f: f <= 510, lambda s, f: (f, 2 * (765 - s))),
    (2, 511, 764, lambda s, f: f > 510, lambda s, f: (765 - f, 765 - s)),
)

entry = functools.lru_cache(2**16)(entry)


class Unfit(Exception):
    """Answers that cannot be those to the script."""


class Setting(NamedTuple):
    """A command with the 256ths of its amount or its held value: what two pixels share that may be compared."""

    command: bytes
    value: int = 0  # `off` has none

    def full(self):
        """Whether the mission's own bounds hold, and not those of a mix."""
        return self.command != MIX or self.value == 256

    def most_below(self):
        """How far the brighter of two pixels may come out below the other."""
        return 2 if self.full() else 5


FULL = Setting(MIX, 256)


def whole_value(bits, places):
    """A float by its bits, times 2 to the power `places`, where that is a whole number."""
    exponent, fraction = bits >> 23 & 255, bits & 0x7FFFFF
    up = max(exponent, 1) - 150 + places
    size = fraction + (2**23 if exponent else 0)
    if exponent == 255 or (up < 0 and size % 2**-up):
        raise Unfit(f"the float {bits:08x} is accepted")
    size = size << up if up >= 0 else size >> -up
    return -size if bits >> 31 else size


@functools.lru_cache(2**12)
def setting(dial):
    """What an accepted colouring's dial is, by its words."""
    if dial == OFF:
        return Setting(OFF)
    command, _, word = dial.partition(b" ")
    places, most = {MIX: (8, 256), HOLD: (0, 765)}[command]
    if not FLOAT.fullmatch(word):
        raise Unfit(f"the float {word[:60]!r} is accepted")
    value = whole_value(int(word, 16), places)
    if not 0 <= value <= most:
        raise Unfit(f"the dial {dial!r} is accepted")
    return Setting(command, value)


@functools.lru_cache(2**16)
def factor(method, s, f):
    """The factor, 1 for black and white."""
    if s in (0, 765):
        return 1, 1
    for which, low, high, holds, of in FACTORS:
        if which == method and low <= s <= high and holds(s, f):
            return of(s, f)
    raise Unfit(f"method {method} is accepted")


@functools.lru_cache(2**18)
def pixel_faults(under, method, pixel, entry, written):
    """The rules that one written pixel breaks under a setting."""
    s, k = sum(pixel), under.value if under.command == MIX else 256
    what = f"{pixel} by method {method}, entry {entry}, under {under.command.decode()} {under.value} is written as {written}"
    if under.command == OFF:
        return () if written == pixel else ((COPY, what),)
    if under.command == HOLD and s in (0, 765):
        return () if written == pixel else ((STAY, what),)
    target = under.value if under.command == HOLD else entry
    part, whole = factor(method, s, target)
    # how far off, in 256ths: at most one step and less than one, or at most five halves and less than two
    sum_off, difference_off = (256, 256) if under.full() else (640, 512)
    faults = []
    for i, j in combinations(range(3), 2):
        before, after = pixel[i] - pixel[j], written[i] - written[j]
        if (before <= 0 < after) or (before >= 0 > after):
            faults.append((ORDER, what))
        if abs(256 * after * whole - before * ((256 - k) * whole + k * part)) >= difference_off * whole:
            faults.append((DIFFERENCE, what))
    if abs(256 * sum(written) - s * (256 - k) - target * k) > sum_off:
        faults.append((INTENSITY, what))
    return tuple(faults)


def pixels_of(data):
    return list(zip(data[0::3], data[1::3], data[2::3]))


class Spread:
    """Of one shot under one setting: the least and the greatest written intensity of each input intensity, with the lines."""

    def __init__(self):
        self.least = {}
        self.most = {}

    def add(self, s, written, line):
        self.least[s] = min(self.least.get(s, (766, 0)), (written, line))
        self.most[s] = max(self.most.get(s, (-1, 0)), (written, line))

    def faults(self, most_below):
        """Each input intensity of which a pixel came out further than that below one that was no brighter."""
        highest = (-1, 0, 0)
        for s in sorted(self.least):
            highest = max(highest, (*self.most[s], s))
            below, line = self.least[s]
            if highest[0] - below > most_below:
                was, other, darker = highest
                yield line, PAIR, f"intensity {s} is written as {below}, and {darker} (line {other}) as {was}"


class Shot:
    """What the answers say of one shot since it was opened."""

    def __init__(self):
        self.counts = 766 * [0]
        self.curve = None
        self.spreads = defaultdict(Spread)

    def measured(self, strip, times):
        for pixel, count in Counter(pixels_of(strip)).items():
            self.counts[sum(pixel)] += times * count

    def fixed(self, choice):
        if choice not in (1, 2) or not any(self.counts):
            raise Unfit(f"choice {choice} for {sum(self.counts)} pixels is accepted")
        self.curve = choice, list(accumulate(self.counts))

    def entry(self, s):
        if s in (0, 765):
            return s
        choice, at_most = self.curve
        return entry(choice, at_most[765], at_most[s - 1], at_most[s])

    def faults(self):
        """Pairs of pixels that break the rule; none is compared with one under another setting."""
        for under, spread in self.spreads.items():
            yield from spread.faults(under.most_below())


def run_of(word):
    return b"" if word == b"-" else bytes.fromhex(word.decode())


def parts(form, answer):
    found = form.fullmatch(answer)
    if not found:
        raise Unfit(f"the answer {answer[:60]!r}")
    return found.groups()


class Account:
    """Goes through script and answers side by side."""

    def __init__(self, answers):
        *self.answers, self.rest = answers.split(b"\n")
        self.place = 0
        self.shots = {which: Shot() for which in range(1, 5)}
        self.line = 0
        self.faults = []

    def fault(self, rule, what):
        self.faults.append((self.line, rule, what))

    def next_answers(self, times):
        taken = self.answers[self.place : self.place + times]
        if len(taken) < times:
            raise Unfit("there are too few")
        self.place += times
        return taken

    def follow(self, script):
        try:
            for line in script.split(b"\n"):
                self.line += 1
                self.follow_line(line)
            if self.place < len(self.answers) or self.rest:
                raise Unfit("there are too many, or the last has no LF")
        except (Unfit, ValueError, IndexError, KeyError) as why:
            self.fault(FORM, f"the answers do not fit the script: {why}")
        for shot in self.shots.values():
            self.faults.extend(shot.faults())
        return self.faults

    def follow_line(self, line):
        # which lines are no calls is as the answers say
        if b"".join(self.answers[self.place : self.place + 1]).startswith(b"line %d is no call: " % self.line):
            self.place += 1
            return
        if len(line) > LONGEST:
            raise Unfit("a line that is too long is taken for a call")
        words = line.partition(b"#")[0].split()
        if not words:
            return
        times = 1
        if words[0] == b"repeat":
            times, words = int(words[1]), words[2:]
        call, count = self.calls[words.pop(0)]
        # a dial is one argument, of one word or two
        if call is Account.coloured and words[2] != OFF:
            words[2:4] = [b" ".join(words[2:4])]
        if len(words) != count:
            raise Unfit("a line with other words is taken for a call")
        call(self, self.next_answers(times), *words)

    def opened(self, answers, which):
        if answers != [b"0"] * len(answers):
            raise Unfit("an opening is refused")
        if not answers:
            return
        self.faults.extend(self.shots[int(which)].faults())
        self.shots[int(which)] = Shot()

    def measured(self, answers, which, strip):
        for answer in answers:
            parts(NUMBER, answer)
        self.shots[int(which)].measured(run_of(strip), answers.count(b"0"))

    def fixed(self, answers, which, choice):
        for answer in answers:
            if parts(NUMBER, answer) == (b"0",):
                self.shots[int(which)].fixed(int(choice))

    def coloured(self, answers, which, method, dial, source, destination):
        for answer in answers:
            number, data = parts(NUMBER_AND_BYTES, answer)
            if number == b"0":
                self.written(self.shots[int(which)], int(method), setting(dial), run_of(source), run_of(data))
            elif run_of(data) != run_of(destination):
                self.fault(UNTOUCHED, f"refused by {int(number)}, and the destination is {data[:60]!r}")

    def written(self, shot, method, under, source, data):
        if len(source) % 3 or len(source) != len(data):
            raise Unfit(f"{len(source)} bytes are coloured, and {len(data)} written")
        if not shot.curve:
            raise Unfit("a shot is coloured that was never fixed")
        for pixel, written in zip(pixels_of(source), pixels_of(data)):
            s = sum(pixel)
            shot.spreads[under].add(s, sum(written), self.line)
            for fault in pixel_faults(under, method, pixel, shot.entry(s), written):
                self.fault(*fault)

    def moved(self, answers, method, pixel, target):
        """One pixel by itself keeps the same rules; black and white stay for every target."""
        (pixel,) = pixels_of(run_of(pixel))
        for answer in answers:
            number, data = parts(NUMBER_AND_PIXEL, answer)
            if number != b"0":
                continue
            (written,) = pixels_of(run_of(data))
            target = sum(pixel) if sum(pixel) in (0, 765) else int(target)
            for fault in pixel_faults(FULL, int(method), pixel, target, written):
                self.fault(*fault)

    calls = {b"open": (opened, 1), b"measure": (measured, 2), b"fix": (fixed, 2), b"colour": (coloured, 5), b"move": (moved, 3)}


def broken(script, answers):
    """The rules that answers break: of each fault the line, the rule and what was found."""
    return Account(answers).follow(script)
