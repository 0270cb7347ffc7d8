"""The picture of the change by which a tone counts half of itself, docs/figures/half_of_own_tone.png, and what CHANGES.md says of it.

    python3 -B tests/figures/half_of_own_tone.py          compares the committed picture, and the page, with what is written now
    python3 -B tests/figures/half_of_own_tone.py write    writes the picture

It has a row to a sample, a portrait and a wall, and three columns: the sample; what was written for it up to version 2.1.0, when a curve
was made from H(s) / N, so that a tone counted all of itself; and what bin/balance writes for it.
"""

import collections
import sys
from fractions import Fraction
from itertools import accumulate
from typing import NamedTuple

import png
from panels import FIGURES, GAP, ROOT, SAMPLES, WHITE, balanced, samples, side_by_side

sys.path.insert(0, str(ROOT / "tests"))
from exact import curve_of, entry, moved, pixels_of  # noqa: E402

FIGURE = FIGURES / "half_of_own_tone.png"
PAGE = ROOT / "CHANGES.md"
SHOWN = f"]({FIGURE.relative_to(ROOT).as_posix()})"  # the end of Markdown for the figure
PORTRAIT, WALL = SAMPLES / "portrait.ppm", SAMPLES / "wall.ppm"
CUBE = 1
YANG_LEE = 2


def tally(source):
    """How many pixels there are of each intensity."""
    return collections.Counter(map(sum, pixels_of(source)))


def curve_before(source):
    """What the cube's curve of a shot was: (H(s) + H(s − 1)) / (2 × N) is H(s) / N where H(s) stands for H(s − 1) too."""
    counts = tally(source)
    at_most = list(accumulate(counts[s] for s in range(766)))
    return [0] + [entry(CUBE, at_most[765], h, h) for h in at_most[1:765]] + [765]


def balanced_before(source):
    curve = curve_before(source)
    return bytes(sample for pixel in pixels_of(source) for sample in moved(YANG_LEE, pixel, curve[sum(pixel)]))


class Shot(NamedTuple):
    """The samples of a shot as it is, as it was balanced, and as it is balanced now."""

    source: bytes
    before: bytes
    after: bytes


def shot(path):
    file = path.read_bytes()
    source = samples(FIGURE, path.name, file)
    return Shot(source, balanced_before(source), balanced(FIGURE, file))


def rows(upper, lower):
    """The figure's rows: those of two shots, and white between."""
    above, below = list(side_by_side(*upper)), list(side_by_side(*lower))
    return above + GAP * [len(above[0]) // len(WHITE) * WHITE] + below


def means(pictures):
    """The mean intensity of each picture, as a whole number."""
    return [round(Fraction(sum(picture), len(picture) // 3)) for picture in pictures]


def share(count, source):
    """So many pixels of a shot, in per cent."""
    return f"{300 * count / len(source):.1f} %"


def placed(curve, tone, counts):
    """A curve's entries for an intensity and its neighbours in a shot: that of the next darker, its own, and that of the next brighter."""
    darker, brighter = max(s for s in counts if s < tone), min(s for s in counts if s > tone)
    return curve[darker], curve[tone], curve[brighter]


def wall_sentences(wall):
    """What the page says of the shot with a large area of one tone."""
    source, counts = wall.source, tally(wall.source)
    pixel, count = collections.Counter(pixels_of(source)).most_common(1)[0]
    before, after = (placed(curve, sum(pixel), counts) for curve in (curve_before(source), curve_of(source, CUBE)))
    darker, now, brighter = after
    # so that the sentence is true
    if not darker < now < brighter or before != (darker, brighter, brighter):
        png.fail(FIGURE, f"what is darker, the wall and what is brighter were put at {before}, and are put at {after}")
    mean, mean_before, mean_after = means(wall)
    yield f"In `samples/{WALL.name}` {share(count, source)} of the pixels are a wall of one tone, of intensity {sum(pixel)}."
    yield (
        f"The curve put it at {brighter} of 765, where the brighter things in front of it begin; "
        f"now it puts it at {now}, between these and the darker things, which end at {darker}."
    )
    yield f"The shot's mean intensity is {mean}; balanced it was {mean_before}, and is {mean_after}."


def portrait_sentence(portrait):
    """What the page says of the shot that has no such area."""
    commonest = share(max(tally(portrait.source).values()), portrait.source)
    mean, mean_before, mean_after = means(portrait)
    return (
        f"In `samples/{PORTRAIT.name}`, where the commonest intensity has {commonest} of the pixels, "
        f"the mean is {mean}; balanced it was {mean_before}, and is {mean_after}."
    )


def look_for(sentences):
    """Fails where the page does not show the figure, or has not one of the sentences, which may run over lines."""
    page = " ".join(PAGE.read_text(encoding="utf-8").split())
    for words in (SHOWN, *sentences):
        if words not in page:
            png.fail(FIGURE, f"{PAGE.name} does not say: {words}")


def main():
    portrait, wall = shot(PORTRAIT), shot(WALL)
    wanted = rows(portrait, wall)
    if sys.argv[1:] == ["write"]:
        FIGURE.write_bytes(png.packed(wanted))
        return
    png.compare(FIGURE, wanted)
    sentences = [*wall_sentences(wall), portrait_sentence(portrait)]
    look_for(sentences)
    width, height = png.size(wanted)
    print(f"half_of_own_tone: {width} by {height} pixels are the samples, and what was and is written for them.", *sentences)


if __name__ == "__main__":
    main()
