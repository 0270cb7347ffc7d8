"""What the scripts that draw the samples share: shapes, light, and the picture's file.

Whole numbers only, so that every machine writes the same bytes. A scene is a colour for each point; there are three points to a pixel in
each direction.
"""

from math import isqrt

WIDTH, HEIGHT = 160, 100
FINE = 3  # points to a pixel in each direction


def within(x, y, cx, cy, rx, ry):
    """Whether a point lies in an ellipse."""
    return ((x - cx) * ry) ** 2 + ((y - cy) * rx) ** 2 <= (rx * ry) ** 2


def scaled(colour, thousandths):
    return tuple(min(255, c * thousandths // 1000) for c in colour)


def mixed(one, other, thousandths):
    return tuple((a * (1000 - thousandths) + b * thousandths) // 1000 for a, b in zip(one, other))


def lit(colour, x, y, cx, cy, rx, ry, shade=380):
    """The colour on a rounded body, with a lamp at the upper left in front of it; `shade`, in thousandths, where it does not reach."""
    u, v = 1000 * (x - cx) // rx, 1000 * (y - cy) // ry
    toward = isqrt(max(0, 1000**2 - u * u - v * v))
    light = max(0, (-520 * u - 480 * v + 706 * toward) // 1000)
    return scaled(colour, shade + (1080 - shade) * light // 1000)


def pixel(scene, exposed, column, row):
    """The samples of a pixel, from the sums over its points."""
    points = [scene(FINE * column + i, FINE * row + j) for j in range(FINE) for i in range(FINE)]
    return bytes(exposed(sum(point[k] for point in points), column, row, k) for k in range(3))


def drawn(scene, exposed):
    """The P6 file of a scene. `exposed` makes a sample from the sum over a pixel's points, the pixel's place, and the channel."""
    samples = b"".join(pixel(scene, exposed, column, row) for row in range(HEIGHT) for column in range(WIDTH))
    return b"P6\n%d %d\n255\n" % (WIDTH, HEIGHT) + samples
