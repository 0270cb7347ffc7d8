"""What a video format does to hue: pixels written as luma and chroma by BT.709, in video range, and read back.

Every step is exact but the format's own: the chroma of neighbouring pixels is their mean, luma and chroma are rounded to the format's
bits, and what is read back is rounded to bytes and cut to 0 to 255. tests/accuracy.py compares docs/ACCURACY.md's table with this;
tests/video.py has the same done by ffmpeg.
"""

from fractions import Fraction
from typing import NamedTuple

from colour import apart, chroma, width
from exact import near

RED, BLUE = Fraction(2126, 10000), Fraction(722, 10000)
GREEN = 1 - RED - BLUE
LUMA, CHROMA = Fraction(219, 255), Fraction(112, 255)
LEAST_CHROMA = 20  # of the pixels whose largest move is told


class Format(NamedTuple):
    name: str
    bits: int
    across: int  # pixels that share a chroma, in a row
    down: int  # and in a column


FORMATS = (
    Format("8-bit 4:2:0", 8, 2, 2),
    Format("8-bit 4:2:2", 8, 2, 1),
    Format("8-bit 4:4:4", 8, 1, 1),
    Format("10-bit 4:2:2", 10, 2, 1),
    Format("10-bit 4:4:4", 10, 1, 1),
)


def rounded(x):
    return near(*x.as_integer_ratio())


def byte(x):
    return min(255, max(0, rounded(x)))


def mean(values):
    return sum(values) / len(values)


def luma(pixel):
    r, g, b = pixel
    return RED * r + GREEN * g + BLUE * b


def coded(x, zero, bits):
    """A number in code values of 8 bits, as a format of these bits holds it."""
    steps = 2 ** (bits - 8)
    return Fraction(rounded(steps * (zero + x)), steps) - zero


def uncoded(y, blue, red, weights=(RED, BLUE), scales=(LUMA, CHROMA)):
    """Red, green and blue, exactly, from coded luma and chroma: by the weights of a matrix, and the scales of a range."""
    of_red, of_blue = weights
    y /= scales[0]
    b, r = y + blue * (1 - of_blue) / scales[1], y + red * (1 - of_red) / scales[1]
    return r, (y - of_red * r - of_blue * b) / (1 - of_red - of_blue), b


def read_back(y, blue, red):
    """A pixel from its coded luma and chroma."""
    return tuple(map(byte, uncoded(y, blue, red)))


def delivered(pixels, columns, form):
    """A picture of so many columns, written in a format and read back. Its sides are multiples of what shares a chroma."""
    lumas = [luma(pixel) for pixel in pixels]
    blues = [CHROMA * (pixel[2] - y) / (1 - BLUE) for pixel, y in zip(pixels, lumas)]
    reds = [CHROMA * (pixel[0] - y) / (1 - RED) for pixel, y in zip(pixels, lumas)]
    done = list(pixels)
    for top in range(0, len(pixels), columns * form.down):
        for left in range(top, top + columns, form.across):
            shared = [left + row * columns + column for row in range(form.down) for column in range(form.across)]
            blue = coded(mean([blues[at] for at in shared]), 128, form.bits)
            red = coded(mean([reds[at] for at in shared]), 128, form.bits)
            for at in shared:
                done[at] = read_back(coded(LUMA * lumas[at], 16, form.bits), blue, red)
    return done


def beyond(before, after):
    """Whether hue is not kept: it is off by 60° / chroma or more, or a grey pixel has got one."""
    if chroma(after) == 0:
        return False
    return chroma(before) == 0 or apart(before, after) >= width(after)


def share_beyond(before, after):
    """The part of the pixels whose hue is not kept."""
    return Fraction(sum(map(beyond, before, after)), len(before))


def largest_move(before, after):
    """The largest move of hue among pixels of some chroma, before and after."""
    return max(apart(p, q) for p, q in zip(before, after) if min(chroma(p), chroma(q)) >= LEAST_CHROMA)


def table(pixels, columns):
    """A row to a format, for docs/ACCURACY.md."""
    yield f"| format | pixels whose hue is beyond the width | largest move where both have a chroma of {LEAST_CHROMA} or more |"
    yield "|---|---|---|"
    for form in FORMATS:
        after = delivered(pixels, columns, form)
        yield f"| {form.name} | {float(100 * share_beyond(pixels, after)):.0f} % | {float(largest_move(pixels, after)):.1f}° |"
