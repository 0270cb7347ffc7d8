"""Writes portrait.ppm beside itself: a synthetic portrait, underexposed and of low contrast, over a row of skin tones.

Whole numbers only, so that every machine writes the same bytes. The scene is painted at three times the width and height in full
contrast, averaged, and then exposed far too short.
"""

import pathlib
import sys
from math import isqrt

# another script may run this one from elsewhere
sys.path.insert(0, str(pathlib.Path(__file__).resolve().parent))
from painting import FINE, drawn, lit, mixed, scaled, within  # noqa: E402

SKIN = (216, 152, 108)
LIPS = (190, 98, 92)
HAIR = (88, 56, 38)
JUMPER = (58, 110, 128)
COLLAR = (206, 190, 160)
IRIS = (62, 78, 70)
EYE = (232, 226, 220)
# light to dark
TONES = (
    (246, 212, 184), (236, 190, 154), (222, 164, 124), (204, 140, 98), (180, 114, 74),
    (152, 90, 55), (124, 70, 41), (97, 53, 31), (72, 39, 24), (50, 28, 19),
)


def background(x, y):
    """A wall with a warm lamp at the left, which falls off to a cold corner, and a window at the right."""
    if 342 <= x < 462 and 18 <= y < 168:
        if abs(x - 402) < 3 or abs(y - 90) < 3:
            return mixed((130, 124, 120), (70, 66, 64), 1000 * (y - 18) // 150)
        return mixed((214, 232, 255), (150, 104, 88), 1000 * (y - 18) // 150)
    away = isqrt((x - 40) ** 2 + (y - 70) ** 2)
    return mixed((255, 228, 178), (30, 38, 62), min(1000, away * 1000 // 480))


def face(x, y):
    """The skin, with a blush on the cheeks, and a nose by its light and its shade."""
    colour = lit(SKIN, x, y, 204, 118, 78, 98)
    for cx in 168, 240:
        if within(x, y, cx, 148, 20, 15):
            colour = mixed(colour, LIPS, 160)
    if (x > 208 and within(x, y, 211, 130, 8, 26)) or within(x, y, 206, 154, 13, 5):
        colour = scaled(colour, 800)
    if within(x, y, 200, 128, 4, 20):
        colour = scaled(colour, 1100)
    return colour


def eyes(x, y):
    for cx in 174, 234:
        if within(x, y, cx, 112, 12, 6):
            if within(x, y, cx, 112, 3, 3):
                return (20, 18, 18)
            return IRIS if within(x, y, cx, 112, 6, 6) else EYE
        if within(x, y, cx, 98, 17, 5) and not within(x, y, cx, 103, 18, 6):
            return scaled(HAIR, 700)
    return None


def mouth(x, y):
    if within(x, y, 204, 177, 24, 8):
        return scaled(LIPS, 560) if abs(y - 176) <= 1 else lit(LIPS, x, y, 204, 177, 30, 14)
    return None


def head(x, y):
    """Whatever of the head stands at a point, from the front to the back."""
    fringe = within(x, y, 196, 66, 80, 52) and not within(x, y, 216, 122, 72, 66)
    if within(x, y, 204, 124, 66, 86) and not fringe:
        return eyes(x, y) or mouth(x, y) or face(x, y)
    if within(x, y, 204, 104, 90, 96) or within(x, y, 204, 146, 94, 60):
        strand = (x * 7 + isqrt(abs(x - 204)) * 23 + y) % 19
        return scaled(lit(HAIR, x, y, 190, 110, 150, 150), 880 + 14 * strand)
    return None


def body(x, y):
    if within(x, y, 204, 206, 34, 52):
        return scaled(lit(SKIN, x, y, 204, 200, 40, 70), 720)
    if within(x, y, 204, 232, 58, 26):
        return lit(COLLAR, x, y, 204, 240, 70, 40)
    if within(x, y, 204, 312, 150, 98):
        rib = 900 if (x + 2 * y) % 24 < 9 else 1000
        return scaled(lit(JUMPER, x, y, 204, 312, 160, 110), rib)
    return None


def chart(x, y):
    """The row of skin tones, in a dark frame."""
    if y < 249:
        return None
    tone, across = divmod(x, 48)
    if 4 <= across < 44 and 255 <= y < 294:
        return TONES[tone]
    return mixed((20, 20, 22), (44, 42, 40), 1000 * (x + y) // 780)


def scene(x, y):
    return chart(x, y) or head(x, y) or body(x, y) or background(x, y)


def underexposed(total, x, y, channel):
    """A sample of the picture from the sum over a pixel's points: a quarter of the light, and grain in place of bands."""
    grain = (x * 7919 + y * 104729 + channel * 1299709) ** 2 // 64 % 1000
    return (1000 + total * 60000 // (255 * FINE * FINE) + grain) // 1000


def picture():
    return drawn(scene, underexposed)


if __name__ == "__main__":
    (pathlib.Path(__file__).resolve().parent / "portrait.ppm").write_bytes(picture())
