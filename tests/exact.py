"""Document 01, with document 02's rule for the curve, in plain integers: what the output of the filter and of the program `balance` is
compared with.

Written from the documents alone, and apart from host/exact.c, so that a slip in one of the two shows.
"""

from collections import Counter
from itertools import accumulate


def target(k):
    """G(k), the cube's target."""
    if k <= 255:
        return k**3
    if k <= 510:
        return 3 * 255**3 - 2 * k**3 + 9 * 255 * k**2 - 9 * 255**2 * k
    return 6 * 255**3 - (765 - k) ** 3


TARGETS = [target(k) for k in range(766)]


def near(n, d):
    """The nearest whole number of n / d, halves up."""
    return (2 * n + d) // (2 * d)


def entry(choice, pixels, below, at_most):
    """The entry for a sum that `below` pixels are below and `at_most` have at most, before the ends are set: choice 1 is the cube's, 2
    the equalised. "(H(s) + H(s − 1)) / (2 × N)" is the share that it is made from."""
    part, whole = at_most + below, 2 * pixels
    if choice == 2:
        return near(765 * part, whole)
    # min takes the first of equal distances, the smaller k
    return min(range(766), key=lambda k: abs(whole * TARGETS[k] - TARGETS[765] * part))


def each_pixel(frame):
    """The pixels of a frame, one after the other: a list of all would be too much for a whole clip."""
    return zip(frame[0::3], frame[1::3], frame[2::3])


def pixels_of(frame):
    return list(each_pixel(frame))


def curve_of(frame, choice):
    """The tone curve of a frame taken as a whole shot."""
    counts = Counter(map(sum, each_pixel(frame)))
    at_most = list(accumulate(counts[s] for s in range(766)))
    steps = list(zip(at_most, at_most[1:765]))
    entries = {step: entry(choice, at_most[765], *step) for step in set(steps)}
    return [0] + [entries[step] for step in steps] + [765]


def naik_murthy(c, s, f):
    if f <= s:
        return near(c * f, s)
    return 255 - near((255 - c) * (765 - f), 765 - s)


def yang_lee(c, s, f):
    d, t = 255 - c, 765 - s
    if s <= 255:
        return near(c * f, s) if f <= 255 else 255 - near((765 - f) * (s - c), 2 * s)
    if s <= 510:
        return naik_murthy(c, s, f)
    return near(f * (t - d), 2 * t) if f <= 510 else 255 - near((765 - f) * d, t)


def moved(method, pixel, f):
    s = sum(pixel)
    if s in (0, 765):
        return pixel
    return tuple((naik_murthy if method == 1 else yang_lee)(c, s, f) for c in pixel)


def coloured(frame, curve, method):
    """A frame coloured by a curve."""
    written = {pixel: bytes(moved(method, pixel, curve[sum(pixel)])) for pixel in set(each_pixel(frame))}
    return b"".join(map(written.get, each_pixel(frame)))


def balanced(frame, choice, method):
    """A frame coloured by its own curve."""
    return coloured(frame, curve_of(frame, choice), method)
