"""Chroma and hue of a pixel, exactly, as docs/ACCURACY.md has them."""

from fractions import Fraction


def chroma(pixel):
    """The greatest sample less the least."""
    return max(pixel) - min(pixel)


def hue(pixel):
    """The hue of a pixel that is not grey, in degrees: HSV's and HSL's."""
    r, g, b = pixel
    if r == max(pixel):
        return Fraction(60 * (g - b), chroma(pixel)) % 360
    if g == max(pixel):
        return 120 + Fraction(60 * (b - r), chroma(pixel))
    return 240 + Fraction(60 * (r - g), chroma(pixel))


def width(pixel):
    """What the hue of a pixel that is written so has moved by less than."""
    return Fraction(60, chroma(pixel))


def apart(one, other):
    """How far the hues of two pixels lie apart round the circle."""
    off = abs(hue(one) - hue(other))
    return min(off, 360 - off)
