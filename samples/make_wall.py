"""Writes wall.ppm beside itself: a still life in front of a dark wall, which is painted and lit so evenly that it is of one tone.

Whole numbers only, so that every machine writes the same bytes. The wall takes five eighths of the picture. Each thing in front of it is
either darker or brighter than the wall, in its light and in its shade, so that next to nothing shares the wall's intensity.
"""

import pathlib
import sys
from math import isqrt

# another script may run this one from elsewhere
sys.path.insert(0, str(pathlib.Path(__file__).resolve().parent))
from painting import FINE, drawn, lit, mixed, scaled, within  # noqa: E402

WALL = (28, 81, 94)
# darker
GLASS = (36, 62, 32)
CAP = (112, 30, 32)
BOWL = (26, 42, 104)
WOOD = (110, 66, 38)
DARK_WOOD = (58, 34, 22)
# brighter
LABEL = (206, 188, 142)
CLAY = (226, 196, 150)
LINEN = (226, 220, 206)
ORANGE = (246, 134, 22)
PEACH = (242, 156, 108)
LEMON = (248, 206, 46)
PEAR = (158, 174, 48)
# mixed into these
BLUE = (70, 92, 150)
BLUSH = (220, 90, 50)
GLOSS = (255, 250, 238)

# of each turned body, from its top to its foot: a height, and half the width there
BOTTLE = (66, 10), (80, 10), (124, 11), (160, 29), (264, 29)
JUG = (134, 24), (156, 21), (212, 43), (268, 28)
DISH = (218, 72), (248, 58), (270, 28), (276, 31)

# where the table begins, the cloth on it, and the table's edge at the front
TABLE, CLOTH, EDGE = 244, 251, 287
# on table and cloth: the bottle's, the jug's, the bowl's and the pear's
SHADOWS = (136, 267, 58, 8), (226, 276, 60, 8), (376, 279, 78, 7), (468, 279, 46, 7)


def half_width(outline, y):
    """Half the width of a turned body at a height, smooth between the outline's points; 0 above its top and below its foot."""
    for (top, one), (bottom, other) in zip(outline, outline[1:]):
        if top <= y < bottom:
            t = 1000 * (y - top) // (bottom - top)
            return one + (other - one) * t * t * (3000 - 2 * t) // 1000**3
    return 0


def upright(colour, x, cx, half, shade):
    """The colour on an upright round body, with the lamp at the left; `shade`, in thousandths, where it does not reach."""
    u = 1000 * (x - cx) // half
    light = max(0, (-620 * u + 784 * isqrt(max(0, 1000**2 - u * u))) // 1000)
    return scaled(colour, shade + (1060 - shade) * light // 1000)


def turned(colour, outline, x, y, cx, shade):
    """The colour on a turned body, which stands on a round foot."""
    foot_y, foot = outline[-1]
    half = half_width(outline, y)
    if abs(x - cx) < half:
        return upright(colour, x, cx, half, shade)
    if y >= foot_y and within(x, y, cx, foot_y, foot, foot // 5):
        return scaled(upright(colour, x, cx, foot, shade), 860)
    return None


def rough(colour, x, y):
    """The colour on clay or peel: up to a twentieth darker or brighter, from point to point."""
    return scaled(colour, 950 + (x * 7919 + y * 104729 + x * y * 31) ** 2 // 64 % 100)


def fruit(colour, x, y, cx, cy, r):
    if not within(x, y, cx, cy, r, r):
        return None
    peel = rough(lit(colour, x, y, cx, cy, r, r, 600), x, y)
    return mixed(peel, GLOSS, 500) if within(x, y, cx - r * 2 // 5, cy - r * 2 // 5, r // 5, r // 6) else peel


def bottle(x, y):
    """Green glass that reflects a window, with a red cap and a label with two red lines."""
    cx, half = 92, half_width(BOTTLE, y)
    if 60 <= y < 84 and abs(x - cx) < 11:
        return upright(CAP, x, cx, 12, 300)
    if 180 <= y < 228 and abs(x - cx) < half:
        line = 186 <= y < 189 or 219 <= y < 222
        return upright(CAP, x, cx, half, 300) if line else upright(LABEL, x, cx, half, 600)
    glass = turned(GLASS, BOTTLE, x, y, cx, 300)
    return mixed(glass, GLOSS, 420) if half and abs(2 * (x - cx) + half) < 5 else glass


def jug(x, y):
    """A clay jug with two blue lines, open at the top, and its handle."""
    cx, (top, wide) = 178, JUG[0]
    if within(x, y, cx, top, wide, 5):
        return scaled(CLAY, 500 if within(x, y, cx, top, wide - 4, 3) else 960)
    clay = turned(CLAY, JUG, x, y, cx, 600)
    if clay:
        return mixed(clay, BLUE, 700) if 195 <= y < 198 or 201 <= y < 204 else rough(clay, x, y)
    if within(x, y, 214, 172, 25, 32) and not within(x, y, 212, 172, 17, 24):
        return lit(CLAY, x, y, 214, 172, 36, 44, 500)
    return None


def fruits(x, y):
    return fruit(ORANGE, x, y, 294, 201, 29) or fruit(PEACH, x, y, 346, 199, 29) or fruit(LEMON, x, y, 320, 173, 23)


def bowl(x, y):
    """A dark blue bowl with a light line, and the fruits in it."""
    cx, (top, wide) = 320, DISH[0]
    open_here = within(x, y, cx, top, wide, 9)
    front = turned(BOWL, DISH, x, y, cx, 300)
    if front and not open_here:
        return mixed(front, LINEN, 600) if 231 <= y < 234 else front
    inside = scaled(BOWL, 380 if within(x, y, cx, top, wide - 4, 7) else 900)
    return fruits(x, y) or (inside if open_here else None)


def pear(x, y):
    """A pear with a red cheek, and its stalk."""
    cx = 432
    if 196 <= y < 212 and abs(x - cx - (218 - y) // 4) < 2:
        return DARK_WOOD
    if not within(x, y, cx, 256, 27, 25) and not within(x, y, cx, 231, 16, 22):
        return None
    peel = lit(PEAR, x, y, cx, 248, 30, 40, 600)
    return rough(mixed(peel, BLUSH, 250) if within(x, y, 443, 253, 15, 20) else peel, x, y)


def in_shadow(x, y):
    return y < EDGE and any(within(x, y, *shadow) for shadow in SHADOWS)


def cloth(x, y):
    """A linen cloth, wider toward the front, where it hangs over the edge in folds and has a blue line."""
    out = 30 * (min(y, EDGE) - CLOTH) // (EDGE - CLOTH)
    if y < CLOTH or not 178 - out <= x < 372 + out:
        return None
    if y < EDGE:
        lying = scaled(LINEN, 820 + 3 * abs((3 * x + y) % 120 - 60))
        return scaled(lying, 700) if in_shadow(x, y) else lying
    hanging = scaled(LINEN, 560 + 12 * abs(x % 44 - 22))
    return mixed(hanging, BLUE, 600) if 291 <= y < 294 else hanging


def board(x, y):
    """The colour on the table's three boards, with a grain and a groove between them, and on its edge."""
    if y >= EDGE:
        return scaled(WOOD, 1050) if y < EDGE + 2 else scaled(mixed(WOOD, DARK_WOOD, 500), 560)
    if y - TABLE in (11, 12, 27, 28):
        return scaled(DARK_WOOD, 700)
    grain = (y * y // 9 + abs((x + 37 * (y // 9)) % 400 - 200) * y // 900) % 17
    return mixed(WOOD, DARK_WOOD, 60 * grain)


def table(x, y):
    """The table with its cloth; the wood is darker to the right."""
    if y < TABLE:
        return None
    wood = scaled(board(x, y), 900 - 400 * x // 480)
    return cloth(x, y) or (scaled(wood, 520) if in_shadow(x, y) else wood)


def scene(x, y):
    return pear(x, y) or bowl(x, y) or jug(x, y) or bottle(x, y) or table(x, y) or WALL


def underexposed(total, *_):
    """A sample of the picture from the sum over a pixel's points: 64 % of the light."""
    return (64 * total + 50 * FINE * FINE) // (100 * FINE * FINE)


def picture():
    return drawn(scene, underexposed)


if __name__ == "__main__":
    (pathlib.Path(__file__).resolve().parent / "wall.ppm").write_bytes(picture())
