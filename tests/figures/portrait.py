"""The README's picture, docs/figures/portrait.png: the sample at the left, and what bin/balance writes for it at the right.

    python3 -B tests/figures/portrait.py          compares the committed picture with the two, and the sample with its script
    python3 -B tests/figures/portrait.py write    writes it
"""

import sys

import png
from panels import FIGURES, SAMPLES, balanced, samples, side_by_side
from make_portrait import picture  # which panels puts on the path

FIGURE = FIGURES / "portrait.png"
SAMPLE = SAMPLES / "portrait.ppm"


def drawn():
    """The figure's rows, from the sample and from what bin/balance writes for it."""
    sample = SAMPLE.read_bytes()
    if sample != picture():
        png.fail(FIGURE, f"{SAMPLE.name} is not what make_portrait.py draws")
    return list(side_by_side(samples(FIGURE, SAMPLE.name, sample), balanced(FIGURE, sample)))


def main():
    wanted = drawn()
    if sys.argv[1:] == ["write"]:
        FIGURE.write_bytes(png.packed(wanted))
        return
    png.compare(FIGURE, wanted)
    width, height = png.size(wanted)
    print(f"portrait: {width} by {height} pixels are the sample, and what bin/balance writes for it")


if __name__ == "__main__":
    main()
