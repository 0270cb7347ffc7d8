"""The figures of docs/ACCURACY.md are what the program writes and what a search of every move finds.

    python3 -B tests/accuracy.py          compares the document, and the files of docs/figures/, with them
    python3 -B tests/accuracy.py print    prints the tables and sentences that the document has to have

The skin tone's written pixels are read from what bin/balance writes for samples/portrait.ppm, and bin/replay under the dial; all else is
computed, exactly. The search under a mix is run here for some amounts only, and docs/figures/mix.csv is compared with that. The script also
tries itself: with any one number of the dial's section changed, the document has to be found wrong.
"""

import math
import pathlib
import re
import struct
import subprocess
import sys
from collections import Counter
from fractions import Fraction

import delivery
from colour import apart, chroma, hue, width
from exact import TARGETS, curve_of, entry, moved, pixels_of

sys.path.insert(0, "tests/figures")
import hue as figures  # noqa: E402
import mix  # noqa: E402

DOC = pathlib.Path("docs/ACCURACY.md")
CRATES = pathlib.Path("crates")
PICTURE, WALL = pathlib.Path("samples/portrait.ppm"), pathlib.Path("samples/wall.ppm")
# two pixels of the picture, of one hue
SKIN = 49, 34, 24
DARKER = 27, 21, 17
DIAL = "## Under the strength dial\n"
MOST_PIXELS = 16777216
# the amount of the worked mix, k of k / 256, and the worked held value
FULL, HALF, HELD = 256, 128, 300
MIXED_FACTOR = f"({FULL} − k + k × factor) / {FULL}"
MIXED_INTENSITY = f"(s × ({FULL} − k) + entry × k) / {FULL}"
# the amounts 1/256 to 1/2, at which a mix is found to keep the full balance's bound
HALVINGS = [2**i for i in range(8)]


def samples(picture):
    """The width and the samples of a picture with a written header."""
    _, size, _, rest = picture.split(b"\n", 3)
    return int(size.split()[0]), rest


def places(x, count=3):
    return f"{float(x):.{count}f}"


def signed(x):
    return f"{float(x):+.3f}".replace("-", "−")


def numbers(pixel):
    return "(" + ", ".join(places(c) if isinstance(c, Fraction) else str(c) for c in pixel) + ")"


def plain(x):
    return f"{float(x):g}"


def mixed(k, pixel, full):
    """What a mix with the amount k / 256 writes for a pixel and its full balance."""
    return tuple((c * (FULL - k) + f * k + 128) // 256 for c, f in zip(pixel, full))


def replayed(source, pixel, dials):
    """What bin/replay writes for a pixel by method 2 under each dial, by the cube's curve of a strip."""
    script = [f"measure 1 {source[i : i + 30000].hex()}" for i in range(0, len(source), 30000)] + ["fix 1 1"]
    asked = [f"colour 1 2 {command} {struct.pack('>f', value).hex()} {bytes(pixel).hex()} 000000" for command, value in dials]
    said = subprocess.run(["bin/replay"], input="\n".join(script + asked), stdout=subprocess.PIPE, check=True, text=True).stdout
    answers = [line.split() for line in said.splitlines()]
    if [answer[0] for answer in answers] != ["0"] * (len(script) + len(asked)):
        sys.exit("bin/replay refuses the skin tone")
    return [tuple(bytes.fromhex(answer[1])) for answer in answers[len(script) :]]


class Portrait:
    """The picture, as it is and as bin/balance writes it."""

    def __init__(self):
        picture = PICTURE.read_bytes()
        balanced = subprocess.run(["bin/balance"], input=picture, stdout=subprocess.PIPE, check=True).stdout
        self.columns, self.source = samples(picture)
        self.pixels, self.balanced = pixels_of(self.source), pixels_of(samples(balanced)[1])
        self.curve = curve_of(self.source, 1)
        self.entry = self.curve[sum(SKIN)]
        self.place = self.pixels.index(SKIN)
        self.written = self.balanced[self.place]
        # method 2, an intensity of at most 255 and a target above 255
        assert sum(SKIN) <= 255 < min(self.entry, HELD)
        self.factor, self.held_factor = (Fraction(765 - f, 2 * sum(SKIN)) for f in (self.entry, HELD))
        self.half, self.held = replayed(self.source, SKIN, [("mix", HALF / FULL), ("hold", HELD)])

    def up_to(self, s):
        """H(s)."""
        return sum(sum(pixel) <= s for pixel in self.pixels)

    def skin_tone(self):
        """A row to a step: what, the number, how far off it may be and how far it is."""
        s, entry, written = sum(SKIN), self.entry, self.written
        pixels, at_most, below = len(self.pixels), self.up_to(s), self.up_to(s - 1)
        factor = self.factor
        exact = tuple(255 - factor * (s - c) for c in SKIN)
        r, g, b = SKIN
        r2, g2, b2 = written
        # so the table's formula is the hue's
        assert r > g > b and r2 > g2 > b2
        yield "| | number | how far off |"
        yield "|---|---|---|"
        yield f"| source pixel, column {self.place % self.columns}, row {self.place // self.columns} | {numbers(SKIN)} | |"
        yield f"| its intensity | {r} + {g} + {b} = {s} | |"
        yield f"| its chroma | {r} − {b} = {chroma(SKIN)} | |"
        yield f"| its hue | 60° × ({g} − {b}) / {chroma(SKIN)} = {float(hue(SKIN)):g}° | |"
        yield f"| pixels of the shot, N | {pixels:,} | |"
        yield f"| of them with an intensity of at most {s}, H({s}) | {at_most:,} | |"
        yield f"| of them with one of at most {s - 1}, H({s - 1}) | {below:,} | |"
        aim = TARGETS[765] * (at_most + below)
        yield f"| what 2 × N × G(k) comes nearest to, {TARGETS[765]:,} × (H({s}) + H({s - 1})) | {aim:,} | |"
        for k in entry - 1, entry, entry + 1:
            off = 2 * pixels * TARGETS[k] - aim
            yield f"| 2 × N × G({k}) | {2 * pixels * TARGETS[k]:,} | {abs(off):,} {'above' if off > 0 else 'below'} |"
        yield f"| the curve's entry for {s} | {entry} | |"
        yield f"| factor | (765 − {entry}) / (2 × {s}) = {765 - entry} / {2 * s} = {places(factor, 4)} | |"
        yield f"| exact samples, 255 − factor × ({s} − c) | {numbers(exact)} | |"
        offs = ", ".join(signed(c - e) for c, e in zip(written, exact))
        yield f"| written samples | {numbers(written)} | at most 0.5; here {offs} |"
        yield f"| written intensity | {r2} + {g2} + {b2} = {sum(written)} | at most 1 from {entry}; here {abs(sum(written) - entry)} |"
        off = abs(chroma(written) - factor * chroma(SKIN))
        yield (
            f"| written chroma | {r2} − {b2} = {chroma(written)}, where {places(factor * chroma(SKIN))} is exact "
            f"| less than 1; here {places(off)} |"
        )
        yield (
            f"| written hue | 60° × ({g2} − {b2}) / {chroma(written)} = {places(hue(written))}° "
            f"| less than 60° / {chroma(written)} = {places(width(written))}°; here {places(apart(written, SKIN))}° |"
        )

    def by_each_method(self):
        """What mixing the methods would do."""
        yield "| method | written | chroma | hue | hue moves by less than |"
        yield "|---|---|---|---|---|"
        for method in 1, 2:
            other = moved(method, SKIN, self.entry)
            yield f"| {method} | {numbers(other)} | {chroma(other)} | {places(hue(other))}° | {places(width(other))}° |"

    def sentences(self):
        """What the text says of the two skin tones."""
        other, at = self.balanced[self.pixels.index(DARKER)], self.written
        off, both = apart(at, other), width(at) + width(other)
        assert hue(DARKER) == hue(SKIN) and width(at) < off < both
        yield (
            f"So a key from {places(hue(SKIN) - width(at), 2)}° to {places(hue(SKIN) + width(at), 2)}° "
            f"catches every pixel of hue {float(hue(SKIN)):g}° that is written with a chroma of {chroma(at)} or more."
        )
        yield (
            f"{numbers(DARKER)}, of the same {float(hue(SKIN)):g}°, is written as {numbers(other)}, {places(hue(other))}°: "
            f"{places(off)}° from the pixel of the table. A key that was sampled there and opened by {places(width(at))}° alone would lose "
            f"it; step 4 opens it by 60° / {chroma(at)} + 60° / {chroma(other)} = {places(both)}°."
        )

    def brightest_sentences(self):
        """What the text says of the entries for the brightest pixels of a shot."""
        sums = [sum(pixel) for pixel in self.pixels]
        s, least = max(sums), min(sums)
        assert 0 < least and s < 765 and set(self.curve[:least]) == {0} and set(self.curve[s + 1 :]) == {765}
        yield "A pixel that is brighter than all measured ones gets the entry 765"
        yield "one that is darker than all of them gets 0"
        (written,) = {after for before, after in zip(self.pixels, self.balanced) if sum(before) == s}
        assert abs(sum(written) - self.curve[s]) <= 1
        yield (
            f"In the portrait {sums.count(s)} of {len(sums):,} pixels have its greatest intensity, {s}. They get the entry {self.curve[s]} "
            f"and are written as {numbers(written)}."
        )
        # flat shots of each grey, black first and white last
        flat = [[curve_of(bytes(3 * [c]), choice)[3 * c] for c in range(256)] for choice in (1, 2)]
        assert all(entries[0] == 0 and entries[255] == 765 for entries in flat)
        (one,), (two,) = (set(entries[1:255]) for entries in flat)
        yield f"Where all pixels are alike, but neither black nor white, they get {one} by the cube, and {two} equalised."
        # the fewest of all, and the edge of the equalised curve, which rounds
        assert entry(1, MOST_PIXELS, MOST_PIXELS - 1, MOST_PIXELS) == 764
        assert [entry(2, 7 * n, 7 * n - 7, 7 * n) for n in (764, 765)] == [764, 765]
        yield "the cube's curve never has 765 for them, and the equalised one has it where they are a 765th of all pixels or fewer"

    def half_strength(self, tolerance):
        """The same under a mix: a row to a step."""
        steps, most, _ = tolerance
        s, entry, k, rest, written = sum(SKIN), self.entry, HALF, FULL - HALF, self.half
        assert written == mixed(k, SKIN, self.written)
        yield "| | at half strength | how far off |"
        yield "|---|---|---|"
        yield f"| source pixel | {numbers(SKIN)} | |"
        yield f"| its full balance, by the entry {entry} | {numbers(self.written)} | |"
        for name, c, full, to in zip(("red", "green", "blue"), SKIN, self.written, written):
            exact = Fraction(c * rest + full * k + 128, 256)
            assert to == math.floor(exact)
            yield f"| written {name} | ({c} × {rest} + {full} × {k} + 128) / 256 = {plain(exact)}, rounded down {to} | |"
        aim = Fraction(s * rest + entry * k, FULL)
        off = abs(sum(written) - aim)
        assert off <= most
        yield f"| mixed intensity | ({s} × {rest} + {entry} × {k}) / 256 = {plain(aim)} | |"
        yield f"| written intensity | {' + '.join(map(str, written))} = {sum(written)} | at most {plain(most)} from {plain(aim)}; here {plain(off)} |"
        factor = (rest + k * self.factor) / FULL
        yield f"| mixed factor | ({rest} + {k} × {765 - entry} / {2 * s}) / 256 = {places(factor, 4)} | |"
        off = abs(chroma(written) - factor * chroma(SKIN))
        assert off < steps
        r, g, b = written
        yield (
            f"| written chroma | {r} − {b} = {chroma(written)}, where {places(factor * chroma(SKIN))} is exact "
            f"| less than {steps}; here {places(off)} |"
        )
        bound = steps * width(written)
        assert r > g > b and apart(written, SKIN) < bound
        yield (
            f"| written hue | 60° × ({g} − {b}) / {chroma(written)} = {plain(hue(written))}° "
            f"| less than {60 * steps}° / {chroma(written)} = {plain(bound)}°; here {plain(apart(written, SKIN))}° |"
        )

    def dial_sentences(self, tolerance):
        """What the text says of the skin tone under the dial."""
        bound, held = tolerance[0] * width(self.half), self.held
        assert held == moved(2, SKIN, HELD) and abs(sum(held) - HELD) <= 1 and apart(held, SKIN) < width(held)
        assert abs(chroma(held) - self.held_factor * chroma(SKIN)) < 1
        yield f"under a mix with k = {HALF}, by method 2:"
        yield (
            f"So a key from {places(hue(SKIN) - bound, 2)}° to {places(hue(SKIN) + bound, 2)}° catches every pixel of hue "
            f"{plain(hue(SKIN))}° that a mix writes with a chroma of {chroma(self.half)} or more, whatever the amount."
        )
        yield (
            f"Held at {HELD}, by method 2, the same pixel is written as {numbers(held)}. Its intensity is {sum(held)}, its chroma "
            f"{chroma(held)}, and its hue {places(hue(held))}°: it has moved by {places(apart(held, SKIN))}°, where less than "
            f"60° / {chroma(held)} = {places(width(held))}° is proved."
        )


def wall_sentence():
    """What the text says of the entries beside an intensity that many pixels have."""
    source = samples(WALL.read_bytes())[1]
    curve, sums = curve_of(source, 1), [sum(pixel) for pixel in pixels_of(source)]
    s, count = Counter(sums).most_common(1)[0]
    return (
        f"In `{WALL}` {float(100 * Fraction(count, len(sums))):.1f} % of the pixels have the intensity {s}, and the cube's curve has "
        f"{curve[s - 1]} for {s - 1}, {curve[s]} for {s}, and {curve[s + 1]} for {s + 1}."
    )


def two_below():
    """Two pixels with one entry, of which the brighter comes out two below the other; by either method."""
    yield "| source | its intensity | entry | written | its intensity |"
    yield "|---|---|---|---|---|"
    for pixel in (1, 2, 3), (1, 1, 5):
        written = moved(1, pixel, 3)
        assert written == moved(2, pixel, 3)
        yield f"| {numbers(pixel)} | {sum(pixel)} | 3 | {numbers(written)} | {sum(written)} |"


def other_sentences():
    """What the text says beside that."""
    at_20, at_60 = (width((chroma, 0, 0)) for chroma in (20, 60))
    assert (at_20, at_60) == (3, 1)
    yield "At a written chroma of 60 hue moves by less than one degree; at 20, by less than three."
    yield "the width is {}° at a chroma of 4, {}° at 3, {}° at 2, and at 1 {}°".format(*(width((c, 0, 0)) for c in (4, 3, 2, 1)))
    yield f"{figures.MOVES:,} moves"
    low, high, at = 18, 30, Fraction(60, 40)
    yield f"a key from {float(low - at):g}° to {float(high + at):g}° loses none of it"
    yield f"from {float(low - 2 * at):g}° to {float(high + 2 * at):g}°"
    yield f"(255, 1, 0) moved to the target 764 by method 1 becomes {numbers(moved(1, (255, 1, 0), 764))}"
    yield f"(255, 120, 40) moved to the target 760 by method 2 becomes {numbers(moved(2, (255, 120, 40), 760))}"


def tolerances():
    """Steps, sum and below of specs/, at the full balance and under a mix, and whether its formulas are those of the page."""
    own, under = ((CRATES / crate / "specs" / "Accuracy.antt").read_text(encoding="utf-8") for crate in ("pixel", "settings"))
    full = re.search(r"^mission = record \{ steps = (\d+); sum = whole (\d+); below = (\d+) \}$", own, re.M)
    mix_ = re.search(r"^mix_tolerance = record \{ steps = (\d+); sum = (\d+) over (\d+); below = (\d+) \}$", under, re.M)
    if not full or not mix_ or any(f'-- "{formula}"' not in under for formula in (MIXED_FACTOR, MIXED_INTENSITY)):
        sys.exit("specs/ do not give the tolerances, or the mixed factor and intensity, as expected")
    steps, over, of, below = map(int, mix_.groups())
    return tuple(map(int, full.groups())), (steps, Fraction(over, of), below)


def commands(full, mix_):
    """A row to a command of the dial."""
    yield "| command | hue moves by less than | chroma | intensity | of two pixels, the one that was brighter |"
    yield "|---|---|---|---|---|"
    yield "| off | it does not move | the source's | the source's | is as much brighter |"
    for name, (steps, most, below), of, at in (
        ("mix, amount below 1", mix_, "mixed factor", "mixed intensity"),
        ("mix, amount 1", full, "factor", "curve's entry"),
        ("hold", full, "held factor", "held value (black and white stay)"),
    ):
        values = "code value" if steps == 1 else "code values"
        yield (
            f"| {name} | {60 * steps}° / written chroma | less than {steps} {values} from the {of} times the source's "
            f"| at most {plain(most)} from the {at} | comes out at most {below} darker |"
        )


def worst_mixes(rows, steps):
    """A row to a written chroma: the bound, the worst under a mix, and the move."""
    yield "| written chroma | hue moves by less than | worst under a mix | source | method | entry | k | written |"
    yield "|---|---|---|---|---|---|---|---|"
    for row in mix.in_table(rows):
        at, method, _, _, low, mid, high, target, k, *written = row
        pixel = high, mid, low
        to = mixed(k, pixel, moved(method, pixel, target))
        bound = steps * Fraction(60, at)
        assert to == tuple(reversed(written)) and chroma(to) == at and apart(to, pixel) < bound
        yield f"| {at} | {plain(bound)}° | {places(apart(to, pixel))}° | {numbers(pixel)} | {method} | {target} | {k} | {numbers(to)} |"


def four_below(most):
    """Two pixels with one entry, of which the brighter comes out four below the other, the most that there is under a mix."""
    k, target = 255, 274
    yield "| source | its intensity | entry | written under a mix | its intensity |"
    yield "|---|---|---|---|---|"
    found = [(pixel, mixed(k, pixel, moved(2, pixel, target))) for pixel in ((2, 2, 1), (3, 3, 0))]
    assert sum(found[0][1]) - sum(found[1][1]) == most and sum(found[0][0]) < sum(found[1][0])
    for pixel, to in found:
        yield f"| {numbers(pixel)} | {sum(pixel)} | {target} | {numbers(to)} | {sum(to)} |"


def most_below():
    """By how much the brighter of two can come out darker under a mix: less than twice 1.5 + k / 256, in whole numbers."""
    return math.ceil(2 * (Fraction(3, 2) + Fraction(max(mix.AMOUNTS), FULL))) - 1


def mix_sentences(rows, mix_):
    """What the text says of a mix."""
    steps, most, below = mix_
    degrees = 60 * steps
    yield f"At a lower strength it is less than {degrees}° divided by the written chroma"
    assert mixed(FULL, SKIN, DARKER) == DARKER and mixed(0, SKIN, DARKER) == SKIN
    yield (
        f"- **Mix** has an amount, k / {FULL} for a whole k from 0 to {FULL}. Each written sample is (c × ({FULL} − k) + c′ × k + 128) / 256, "
        f"rounded down, where c is the sample of the source and c′ that of the full balance. So k = {FULL} is the full balance, and k = 0 copies."
    )
    yield "- **Hold** has an intensity, a whole number from 0 to 765."
    yield f"The mixed factor is {MIXED_FACTOR}. The mixed intensity is {MIXED_INTENSITY}, where s is"
    yield f"but in the mixed picture, and with {degrees}° in place of 60°."
    yield f"on both sides by {degrees}° / the least written chroma that it must catch: by {plain(Fraction(degrees, 40))}° at a chroma of 40."
    yield f"Exactly, by {degrees}° / the sampled pixel's own chroma, and by {degrees}° / the least chroma to be caught."
    yield f"from mixed intensities by {plain(most)}, and one that is set from written pixels by {plain(2 * most)}."
    yield f"open by {steps} code values, or by {2 * steps} where the key is set from one written pixel."
    yield f"The second column is {degrees}° / chroma, and proved."
    yield f"The third is the worst of all moves at the {len(mix.AMOUNTS)} amounts between 0 and 1."
    yield f"at each of these amounts, {mix.ALL_MOVES:,} moves."
    first, last = 2, 240
    share = min(mix.part(row) for row in rows[first - 1 : last]) / steps
    yield f"From a written chroma of {first} to {last} the worst move is more than {math.ceil(100 * share) - 1} % of the bound"
    yield f"At a written chroma of 1 it is {places(mix.degrees(rows[0]))}°, about half of the bound"
    assert [Fraction(k, FULL) for k in HALVINGS[-3:]] == [Fraction(1, 8), Fraction(1, 4), Fraction(1, 2)] and HALVINGS[0] == 1
    yield "At the amounts 1/2, 1/4, 1/8 and so on to 1/256 no move is more than 60° / written chroma."
    yield f"Under a mix the brighter one may come out at most {below} darker, by the proof. The worst there is, is {most_below()}."
    yield f"of the full balance's 1 only k / {FULL} counts, so each intensity is at most 1.5 + k / {FULL} from the mixed intensity"
    yield f"two of them are less than {most_below() + 1} apart. By method 2 and with k = 255:"
    yield "Under hold all pixels but black and white come out at most 1 from the held value"


def mix_row_faults(row, steps):
    """Whether a listed move is one, with the part that it says, below the bound."""
    at, method, size, of, *pixel, target, k = row[:9]
    if size == 0:
        return [] if row[1:] == [0, 0, 1] + 8 * [0] else [f"a move of no size: {row}"]
    low, mid, high = pixel
    written = mixed(k, pixel, moved(method, tuple(pixel), target))
    low2, mid2, high2 = written
    found = list(written) == row[9:] and high2 - low2 == at and of == high - low and k in mix.AMOUNTS and low <= mid <= high
    found = found and size == abs((mid2 - low2) * (high - low) - (mid - low) * (high2 - low2))
    # and by the hues themselves
    found = found and apart(written, pixel) == mix.degrees(row) < steps * Fraction(60, at)
    return [] if found else [f"no such move under a mix, or one not below the bound: {row}"]


def mix_faults(rows, steps):
    """What of mix.csv is not a move, or not as wide as the widest that a search finds at the amounts where they lie."""
    found, above = mix.searches((0, mix.WORST), (1, HALVINGS))
    for row, other in zip(rows, found):
        yield from mix_row_faults(row, steps)
        yield from mix_row_faults(other, steps)
        if mix.part(other) != mix.part(row):
            yield f"mix.csv has {row}, and the search found {other}"
    yield from (f"a move of more than 60° / chroma: {row}" for row in above if row[1])


def table_faults(lines, table):
    """Whether the document has a table, once and whole."""
    at = [i for i, line in enumerate(lines) if line == table[0]]
    if len(at) != 1:
        return [f"{DOC} has not one table {table[0]}"]
    rest = lines[at[0] :]
    count = next((i for i, line in enumerate(rest) if not line.startswith("|")), len(rest))
    missing = [f"{DOC} has no row {row}" for row in table if row not in rest[:count]]
    return missing or ([] if rest[:count] == table else [f"{DOC}: rows too many, or out of order: {table[0]}"])


def row_faults(row):
    """Whether what the search found is a move, with the part of the bound that it says, below the bound."""
    written_chroma, method, size, of, *pixel, target = row[:8]
    written = tuple(row[8:])
    if size == 0:
        return []
    low, mid, high = pixel
    low2, mid2, high2 = written
    found = moved(method, tuple(pixel), target) == written and high2 - low2 == written_chroma and of == high - low
    found = found and size == abs((mid2 - low2) * (high - low) - (mid - low) * (high2 - low2))
    return [] if found and size < of else [f"the search found no such move, or one not below the bound: {row}"]


def figure_faults(rows):
    """What of docs/figures/ is not as the search found it."""
    for path, wanted in (figures.CSV, figures.csv(rows)), (figures.SVG, figures.svg(rows)):
        if not path.is_file() or path.read_bytes() != wanted.encode():
            yield f"{path.name} is not what the search gives"
    for row in rows:
        yield from row_faults(row)


def example_faults(portrait):
    """Whether the proved example is the worked skin tone."""
    text = (CRATES / "key" / "specs" / "Examples.antt").read_text(encoding="utf-8")
    for line in f"target = {portrait.entry};", "written = rgb {} {} {};".format(*portrait.written):
        if line not in text:
            yield f"key/specs/Examples.antt: the skin tone has not {line}"


def page_faults(text, tables, sentences):
    """What the document has not; a table may stand in a list, and a sentence may run over lines."""
    lines, flowing = [line.strip() for line in text.splitlines()] + [""], " ".join(text.split())
    faults = [fault for table in tables for fault in table_faults(lines, table)]
    return faults + [f"{DOC} does not say: {sentence}" for sentence in sentences if sentence not in flowing]


def unnoticed(text, tables, sentences):
    """The numbers of the dial's section that could be others without a fault being found."""
    start = text.index(DIAL)
    end = text.index("\n## ", start)
    for found in re.finditer(r"\d+", text[start:end]):
        at, after = start + found.start(), start + found.end()
        wrong = f"{text[:at]}{int(found.group()) + 1}{text[after:]}"
        if not page_faults(wrong, tables, sentences):
            yield f"{DOC}: nothing holds the {found.group()} of: {' '.join(text[at - 60 : after + 20].split())}"


def main():
    portrait, rows, mixes = Portrait(), figures.search(), mix.listed()
    full, mix_ = tolerances()
    tables = [figures.table(rows), list(portrait.skin_tone()), list(portrait.by_each_method()), list(two_below())]
    tables.append(list(delivery.table(portrait.balanced, portrait.columns)))
    tables += [list(commands(full, mix_)), list(worst_mixes(mixes, mix_[0])), list(portrait.half_strength(mix_)), list(four_below(most_below()))]
    sentences = [*portrait.sentences(), *portrait.brightest_sentences(), wall_sentence(), *other_sentences()]
    sentences += [*portrait.dial_sentences(mix_), *mix_sentences(mixes, mix_)]
    if sys.argv[1:] == ["print"]:
        print("\n\n".join(["\n".join(table) for table in tables] + sentences))
        return
    text = DOC.read_text(encoding="utf-8")
    faults = page_faults(text, tables, sentences)
    # on a document that is right
    faults = faults or list(unnoticed(text, tables, sentences))
    faults += [*figure_faults(rows), *mix_faults(mixes, mix_[0]), *example_faults(portrait)]
    print("\n".join(faults) if faults else f"accuracy: {figures.MOVES:,} moves below the bound, and mixed ones; document and figures as found")
    sys.exit(1 if faults else 0)


main()
