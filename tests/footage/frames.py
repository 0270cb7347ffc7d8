"""Frames as raw RGB, what the second version makes of them, and whether a clip has kept all that it should."""

import math
from fractions import Fraction

from clips import contents, rgb
from exact import curve_of
from pasted import expect

LIMIT = 16777216


def each(frames, sides):
    """The frames one by one."""
    length = 3 * math.prod(sides)
    return [frames[at : at + length] for at in range(0, len(frames), length)]


def cut(frames, sides, first=0, end=None):
    """The frames from the first up to the end, which is not among them."""
    length = 3 * math.prod(sides)
    return frames[first * length : len(frames) if end is None else end * length]


def picked(frames, n):
    """Every n-th pixel."""
    done = bytearray(3 * len(range(0, len(frames) // 3, n)))
    for channel in range(3):
        done[channel::3] = frames[channel :: 3 * n]
    return bytes(done)


def step(area, frames):
    """How many pixels on the next one is that is measured."""
    n = max(1, math.ceil(area * frames / LIMIT))
    while math.gcd(n, area) > 1:
        n += 1
    return n


def curve_of_shot(frames, sides):
    """The curve that pass 1 makes of the frames of a shot."""
    area = math.prod(sides)
    return curve_of(picked(frames, step(area, len(frames) // 3 // area)), 1)


def packed(curve):
    return b"".join(value.to_bytes(2, "little") for value in curve)


def expect_clip(case, room, clip, due):
    """out.mkv has these frames, each once, and the rate, the sound and the size of in.mp4."""
    source, result = room / "in.mp4", room / "out.mkv"
    expect(case, rgb(result) == due, "the frames are not those that are due, each once")
    before, after = contents(source), contents(result)
    sides = after.pictures["width"], after.pictures["height"]
    expect(case, sides == clip.size, f"the frames have become {sides}")
    expect(case, after.others == clip.sounds * ["audio"], f"beside the pictures there are {after.others}")
    expect_times(case, before, after)
    result.unlink()


def expect_times(case, before, after):
    """Pictures follow one another at the clip's rate, and the sound is the clip's, as far from their beginning."""
    rate = Fraction(before.pictures["avg_frame_rate"])
    # Matroska keeps times in milliseconds
    uneven = max(abs(time - after.times[0] - place / rate) for place, time in enumerate(after.times))
    expect(case, uneven < 0.002, f"times are off from the rate {rate} by up to {float(uneven):.3f} s")
    expect(case, before.sounds == after.sounds, "the sound is another")
    if before.sounds:
        lags = before.times[0] - before.sound, after.times[0] - after.sound
        expect(case, abs(lags[0] - lags[1]) < 0.5 / rate + 0.001, f"the pictures began {lags[0]} s after the sound, and now {lags[1]} s")
