"""The formulas and figures of docs/RULES.md are those of the exact arithmetic that the other tests use, and of the frames, proved or run.

The formulas are read from the page and computed, in exact fractions: G for every k, entries of curves, and moves of pixels at the edges of
the methods' ranges and at random, with the factor's rule beside them. What the letters mean is computed by this script, so the page has to
have the sentences that say it.
"""

import pathlib
import random
import re
import sys
from fractions import Fraction
from functools import cache
from itertools import product
from math import floor

sys.path.insert(0, "tests")
from exact import TARGETS, balanced, curve_of, entry, moved  # noqa: E402
from pages import DOCS, flowing, read, report, table  # noqa: E402

PAGE = DOCS / "RULES.md"
HEADER = pathlib.Path("include/cube_balance.h")
HEADER_FACTOR = re.compile(
    r"Otherwise it is by Naik and Murthy (\S.*?) for f at most s and (\S.*?) above; by Yang and Lee, for s at most 255, (\S.*?) for f at "
    r"most 255 and (\S.*?) above; for s from 256 to 510 as Naik and Murthy; for s above 510, (\S.*?) for f at most 510 and (\S.*?) above;"
)
STARRED = pathlib.Path("crates/frames/specs/Starred.antt")
PRINTED = pathlib.Path("crates/frames/stdout")
# what may stand in a formula, beside its letters
SIGNS = {"×": "*", "−": "-", "³": "**3", "²": "**2"}
FORMULA = re.compile(r"(?:near|[a-zGHN]|\d+|[-+*/() ]|\*\*)+")
# what the letters of the formulas stand for
LETTERS = (
    "The **intensity** of a pixel, s, is its three samples added, 0 to 765.",
    "**near(x)** is the whole number nearest to the exact fraction x, halves up.",
    "H(s) is the number of measured pixels whose intensity is at most s, so H(765) = N and H(−1) = 0.",
    "By both, entry 0 is then set to 0 and entry 765 to 765",
    "Black, s = 0, and white, s = 765, stay for every target.",
    "In every other pixel each sample c becomes what the table says, where d = 255 − c and t = 765 − s.",
)
METHODS = {"1": "NaikMurthy", "2": "YangLee"}


def near(x):
    return floor(x + Fraction(1, 2))


@cache
def program(formula):
    """A formula of the page as Python code."""
    for sign, meant in SIGNS.items():
        formula = formula.replace(sign, meant)
    if not FORMULA.fullmatch(formula):
        raise SystemExit(f"{PAGE}: not read as a formula: {formula}")
    return compile(formula, str(PAGE), "eval")


def computed(formula, **letters):
    """The exact value of a formula of the page. A letter is a number or a function."""
    values = {name: value if callable(value) else Fraction(value) for name, value in letters.items()}
    return eval(program(formula), {"__builtins__": {}, "near": near}, values)


def within(span, value, **letters):
    """Whether a value lies in "a to b"."""
    low, high = span.split(" to ")
    return computed(low, **letters) <= value <= computed(high, **letters)


def target_faults(rows):
    """What is wrong with the lines for G: each k has one, or two that agree."""
    for k in range(766):
        values = {computed(formula, k=k) for span, formula in rows if within(span, k)}
        if values != {TARGETS[k]}:
            yield f"{PAGE}: G({k}) is {sorted(values)}, and not {TARGETS[k]}"


def tallies():
    """N, H(s − 1) and H(s): ties, since G(382) + G(383) = G(765), with and without pixels of the own tone, the ends, and any."""
    chosen = random.Random(766)
    yield from ((1, 0, 1), (2, 1, 1))
    for pixels in 1, 3, 1000, 16777216:
        below, at_most = sorted(chosen.choices(range(pixels + 1), k=2))
        yield from {(pixels, 0, 0), (pixels, below, at_most), (pixels, 0, at_most), (pixels, below, pixels), (pixels, pixels, pixels)}


def entry_faults(rows):
    """What is wrong with the table of choices: the entries that its sentences give, before the ends are set."""
    cube = re.fullmatch(
        r"the k from (\d+) to (\d+) at which (.+?) is nearest to (.+?), of two equal distances the (smaller|larger) k \(equation 14\)",
        rows[0][1],
    )
    equalised = re.fullmatch(r"(near\(.+\)) \(equation 5\)", rows[1][1])
    if not cube or not equalised:
        yield f"{PAGE}: the sentences on the choices are not read"
        return
    first, last, here, aim, wins = cube.groups()
    places = range(int(first), int(last) + 1)
    for pixels, below, at_most in tallies():
        counts = {0: Fraction(below), 1: Fraction(at_most)}
        letters = {"N": pixels, "G": lambda k: Fraction(TARGETS[int(k)]), "H": counts.__getitem__, "s": 1}
        far = {k: abs(computed(here, k=k, **letters) - computed(aim, **letters)) for k in places}
        nearest = [k for k in places if far[k] == min(far.values())]
        found = nearest[0 if wins == "smaller" else -1], computed(equalised.group(1), **letters)
        if found != (entry(1, pixels, below, at_most), entry(2, pixels, below, at_most)):
            yield f"{PAGE}: for H = {below} and {at_most} of N = {pixels} the page's entries are {found}"
            return


def line_for(rows, method, s, f):
    """The formulas for a method, an intensity and a target: of the sample, and of the factor."""
    fitting = [row[3:] for row in rows if row[0] == str(method) and within(row[1], s) and within(row[2], f, s=s)]
    return fitting[0] if len(fitting) == 1 else None


def pixels():
    """Pixels to try: the edges of the methods' ranges, and random ones."""
    edges = 0, 1, 85, 127, 128, 170, 254, 255
    chosen = random.Random(255)
    yield from ((r, g, b) for r in edges for g in edges for b in edges if 0 < r + g + b < 765)
    yield from ((chosen.randrange(1, 255), chosen.randrange(256), chosen.randrange(255)) for _ in range(300))


def targets(s):
    return {0, 1, 254, 255, 256, 509, 510, 511, 764, 765, max(s - 1, 0), s, s + 1, (7 * s) % 766}


def move_faults(rows):
    """What is wrong with the table of moves."""
    for pixel in pixels():
        s = sum(pixel)
        for f in targets(s):
            for method in 1, 2:
                line = line_for(rows, method, s, f)
                if line is None:
                    yield f"{PAGE}: not one line for method {method}, s = {s}, f = {f}"
                    return
                written = moved(method, pixel, f)
                letters = {"s": s, "f": f, "t": 765 - s}
                if tuple(computed(line[0], c=c, d=255 - c, **letters) for c in pixel) != written:
                    yield f"{PAGE}: method {method} moves {pixel} to {f} otherwise than as {written}"
                    return
                factor = computed(line[1], **letters)
                for one in range(3):
                    off = written[one] - written[one - 1] - factor * (pixel[one] - pixel[one - 1])
                    if abs(off) >= 1:
                        yield f"{PAGE}: method {method}, {pixel} to {f}: a difference is {off} from the factor's"
                        return


def header_factor(text, method, s, f):
    """The factor by the C header's sentence."""
    found = HEADER_FACTOR.search(flowing(text))
    if not found:
        raise SystemExit(f"{HEADER}: the sentence on the factor is not read")
    down, up, dark_down, dark_up, bright_down, bright_up = found.groups()
    if method == 2 and s <= 255:
        return computed(dark_down if f <= 255 else dark_up, s=s, f=f)
    if method == 2 and s > 510:
        return computed(bright_down if f <= 510 else bright_up, s=s, f=f)
    return computed(down if f <= s else up, s=s, f=f)


def header_faults(text, rows):
    """Whether the C header has another factor than the page."""
    for s in 1, 2, 254, 255, 256, 300, 509, 510, 511, 512, 700, 764:
        for f, method in product(targets(s) & set(range(766)), (1, 2)):
            if header_factor(text, method, s, f) != computed(line_for(rows, method, s, f)[1], s=s, f=f, t=765 - s):
                yield f"{HEADER}: the factor of method {method} for s = {s}, f = {f} is not that of {PAGE}"
                return


def samples(cell):
    return tuple(int(sample) for sample in cell.strip("()").split(","))


def figure_faults(rows):
    """What is wrong with the moves in figures: each is exact and in the proved table, and no proved one is missing."""
    proved = re.findall(r"move (\w+) \(rgb (\d+) (\d+) (\d+)\) (\d+) \(rgb (\d+) (\d+) (\d+)\)", read(STARRED))
    listed = []
    for method, pixel, target, result in rows:
        if moved(int(method), samples(pixel), int(target)) != samples(result):
            yield f"{PAGE}: method {method} does not move {pixel} to {target} as {result}"
        listed.append((METHODS[method], *map(str, samples(pixel)), target, *map(str, samples(result))))
    if sorted(listed) != sorted(proved):
        yield f"{PAGE}: the moves in figures are not those of {STARRED}"


def curve_of_intensities(choice, *intensities):
    """The tone curve of a shot with a pixel of each of these intensities."""
    return curve_of(bytes(sample for s in intensities for sample in (min(s, 255), min(max(s - 255, 0), 255), max(s - 510, 0))), choice)


def two_tones_curve(choice, dark, bright):
    """The sentence's figures for the curve of two intensities: the entries at them and between them, where the rest is 0 and 765."""
    curve = curve_of_intensities(choice, dark, bright)
    at_dark, between, at_bright = (curve[s] for s in (dark, dark + 1, bright))
    rest = [between] * (bright - dark - 1)
    if curve != [0] * dark + [at_dark, *rest, at_bright] + [765] * (765 - bright):
        raise SystemExit(f"the curve of {dark} and {bright} has other steps than the page tells of")
    return at_dark, between, at_bright


def one_tone_entry(choice, s):
    """The figure for the curve of one intensity, where the rest is 0 and 765."""
    curve = curve_of_intensities(choice, s)
    if curve != [0] * s + [curve[s]] + [765] * (765 - s):
        raise SystemExit(f"the curve of {s} has other steps than the page tells of")
    return curve[s]


def curve_sentences(dark, bright):
    """What is said of the curves of two intensities and of one."""
    low, level, high = two_tones_curve(1, dark, bright)
    others = two_tones_curve(2, dark, bright)
    yield (
        f"intensity {dark} and one of {bright}, the cube's curve is 0 up to {dark - 1}, {low} at {dark}, {level} from {dark + 1} to "
        f"{bright - 1}, {high} at {bright}, and 765 from {bright + 1}; equalised, it has {others[0]}, {others[1]} and {others[2]} in place "
        f"of {low}, {level} and {high}."
    )
    yield (
        f"All pixels of intensity {dark}: the entries are 0 up to {dark - 1}, {one_tone_entry(1, dark)} at {dark} by the cube and "
        f"{one_tone_entry(2, dark)} equalised, and 765 from {dark + 1}."
    )


def curve_faults(text):
    """What is wrong with the sentences on curves: of the intensities whose curves are proved."""
    proved = {tuple(map(int, found)) for found in re.findall(r"curve \w+ \((\d+) ∷ (\d+) ∷ \[\]\)", read(STARRED))}
    for sentence in curve_sentences(*min(proved)):
        if sentence not in text:
            yield f"{PAGE} does not say: {sentence}"


def flat_sentence(printed):
    """What is said of the pixel of the shot's own intensity, by what `frames` prints."""
    first, second = re.findall(r"^flat shot .*, pixel (\d+) (\d+) (\d+) at 300,", printed, re.M)
    return f"So (255, 45, 0) is written by method 1 as ({', '.join(first)}) or ({', '.join(second)})."


def run_sentences(printed):
    """What is said of lengths, targets and the limit, by what `frames` prints."""
    moves = re.findall(r"^move by method 1 of [\d ]+ to (\d+): number (\d+),", printed, re.M)
    lengths = re.findall(r"^measure of length (\d+): number (\d+)$", printed, re.M)
    length, times = map(int, re.search(r"^measure of length (\d+): accepted (\d+) times$", printed, re.M).groups())
    (taken, good), (refused, number), (two, over), (one, fits), (more, full) = lengths
    if (good, fits, two, one, more, over) != ("0", "0", "6", "3", "3", full):
        raise SystemExit(f"{PRINTED}: not the measures that the page tells of")
    (target, moves_to), (above, refused_by) = moves
    if moves_to != "0":
        raise SystemExit(f"{PRINTED}: not the moves that the page tells of")
    yield f"A strip of {taken} bytes is measured, one of {refused} is refused {number}."
    yield f"A pixel moves to the target {target}, and {above} is refused {refused_by}."
    yield f"At {length * times // 3:,} pixels a shot measures one more, and refuses two by {over}."
    yield flat_sentence(printed)


def run_faults(text):
    """What is wrong with the figures that are run and not proved."""
    for sentence in run_sentences(read(PRINTED)):
        if sentence not in text:
            yield f"{PAGE} does not say: {sentence}"
    file = re.search(r"pixels (\(.+?\)) and (\(.+?\)) `balance` writes (\(.+?\)) and (\(.+?\))\.", text)
    if not file:
        yield f"{PAGE}: no sentence on what `balance` writes"
        return
    one, two, *written = (bytes(samples(cell)) for cell in file.groups())
    if balanced(one + two, 1, 2) != b"".join(written):
        yield f"{PAGE}: `balance` writes something else for two pixels"


def selftest():
    """Formulas are computed exactly, and a wrong one is found."""
    if computed("255 − near((765 − f) × (s − c) / (2 × s))", f=429, s=107, c=49) != 164:
        sys.exit("rules.py computes a formula wrongly")
    good = table(PAGE, ["method", "s", "f"]).rows
    for place, wrong in (1, "1 to 763"), (3, "near(c × f / s) + 1"), (4, "f / (2 × s)"):
        rows = [list(row) for row in good]
        rows[0][place] = wrong
        if not list(move_faults(rows)):
            sys.exit(f"rules.py does not find {wrong} wrong")
    if not list(target_faults([["0 to 765", "k³"]])):
        sys.exit("rules.py does not find a wrong G")
    choices = table(PAGE, ["choice", "the entry for s"]).rows
    for place, right, wrong in (
        (0, "smaller", "larger"),
        (0, "G(765)", "G(764)"),
        (0, "H(s − 1)", "H(s)"),
        (0, "2 × N", "1 × N"),
        (1, "765 ×", "764 ×"),
        (1, "H(s − 1)", "H(s)"),
        (1, "2 × N", "1 × N"),
    ):
        rows = [list(row) for row in choices]
        rows[place][1] = rows[place][1].replace(right, wrong)
        if rows == choices or not list(entry_faults(rows)):
            sys.exit(f"rules.py does not find {wrong} wrong in the table of choices")


def main():
    selftest()
    text = flowing(read(PAGE))
    faults = [
        *(f"{PAGE} does not say: {words}" for words in LETTERS if words not in text),
        *target_faults(table(PAGE, ["k", "G(k)"]).rows),
        *entry_faults(table(PAGE, ["choice", "the entry for s"]).rows),
        *move_faults(table(PAGE, ["method", "s", "f"]).rows),
        *header_faults(read(HEADER), table(PAGE, ["method", "s", "f"]).rows),
        *figure_faults(table(PAGE, ["method", "pixel", "target"]).rows),
        *curve_faults(text),
        *run_faults(text),
    ]
    sys.exit(report("rules", f"{sum(1 for _ in pixels())} pixels moved by the page's formulas", faults))


main()
