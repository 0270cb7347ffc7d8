"""Figures that one page takes from another, or from the tree, are what they are there.

The accuracy rule's tolerance and the hue bound are those of specs/. docs/PERFORMANCE.md and docs/OPEN.md speak of the tables of
docs/BENCHMARK.md, README.md of one of these and of one of docs/ACCURACY.md, docs/DECISIONS.md of the cases of tests/file/, and the newest
entry of docs/LANDINGS.md says how many crates, must-fail edits and claims there are. So an edit or a claim that goes is noticed.
"""

import pathlib
import re
import sys

sys.path.insert(0, "tests")
sys.path.insert(0, "tests/file")
from cases import BY_HAND, BY_TOOLS, CASES  # noqa: E402
from claims import claims_of, read_specs  # noqa: E402
from pages import DOCS, README, all_pages, flowing, read, report, table, tables  # noqa: E402

CRATES = pathlib.Path("crates")
HEADER = pathlib.Path("include/cube_balance.h")
ACCURACY, DECISIONS, OPEN, PERFORMANCE, PROMISES, RULES = (
    DOCS / f"{name}.md" for name in ("ACCURACY", "DECISIONS", "OPEN", "PERFORMANCE", "PROMISES", "RULES")
)


def numbers(rows, place, **cells):
    """The numbers at a place of the rows that begin with these cells; a cell may be only the start of the row's."""
    fitting = [row for row in rows if all(row[at].startswith(cell) for at, cell in enumerate(cells.values()))]
    if not fitting:
        raise SystemExit(f"docs/BENCHMARK.md has no row of {cells}")
    return [float(row[place].rstrip(" %")) for row in fitting]


def span(values, digits, unit=""):
    """"least to greatest", or one number where they look the same."""
    low, high = (f"{value:.{digits}f}" for value in (min(values), max(values)))
    return f"{low}{unit}" if low == high else f"{low} to {high}{unit}"


def jobs_sentences(jobs):
    """What is said of the jobs, by the medians of both sizes: our time, plain C's, and their ratio."""
    ours, plain, ratio = 3, 5, 7
    yield PERFORMANCE, span(numbers(jobs, ratio, frame="", job="colouring"), 1, " times plain C's speed")
    yield PERFORMANCE, f"| {span(numbers(jobs, ratio, frame='', job='colouring'), 1)} times | met |"
    yield PERFORMANCE, f"| {span(numbers(jobs, ratio, frame='random', job='measuring'), 2)} times | met |"
    yield PERFORMANCE, f"| {span(numbers(jobs, ratio, frame='flat', job='measuring'), 2)} times | **not met** |"
    yield OPEN, f"Measuring flat frames is {span(numbers(jobs, ratio, frame='flat', job='measuring'), 2)} times plain C's speed"
    flat = {"frame": "flat", "job": "measuring"}
    yield PERFORMANCE, (
        f"plain C takes {min(numbers(jobs, plain, **flat)):.2f} ns a pixel on a flat frame, less than on a random one, "
        f"and the library {min(numbers(jobs, ours, **flat)):.2f}."
    )
    smooth = {"frame": "smooth", "job": "measuring"}
    yield PERFORMANCE, (
        f"plain C takes {span(numbers(jobs, plain, **smooth), 1)} ns there, and four histograms bring "
        f"{span(numbers(jobs, ratio, **smooth), 1)} times its speed."
    )


def frame_sentences(frames):
    """What is said of whole frames of 3840 × 2160, by the medians."""
    yield PERFORMANCE, f"is measured, fixed and coloured in {span(numbers(frames, 2), 0)} ms on one core"
    yield README, f"a 3840 × 2160 frame takes {span(numbers(frames, 2), 0)} ms on one core"
    yield PERFORMANCE, f"| {span(numbers(frames, 3), 0)} % of the slot | met |"


def size_sentences(sizes):
    """What is said of cost by size: the medians of one pixel, and the bests of one and of the most."""
    (curve,), (colour,) = numbers(sizes[:1], 2), numbers(sizes[:1], 4)
    yield PERFORMANCE, f"| {curve:.1f} µs for a curve, {colour:.1f} µs for a colouring | met |"
    (curve,), (colour,) = numbers(sizes[:1], 1), numbers(sizes[:1], 3)
    (most,), (largest_curve,), (largest_colour,) = (numbers(sizes[-1:], place) for place in (0, 1, 3))
    yield PERFORMANCE, (
        f"A strip of one pixel takes {curve:.1f} µs for its curve and {colour:.1f} µs for its colouring, one of {int(most):,} pixels "
        f"{largest_curve / 1000:.1f} ms and {largest_colour / 1000:.1f} ms"
    )
    yield OPEN, f"its 766 lines take {colour:.1f} µs"


def dial_sentences(rows):
    """What is said of the dial's settings, by the medians: plain C's time over ours, and ours over the full balance's."""
    plain, full = 8, 10
    any_frame = {"frame": "", "method": ""}
    library = span(numbers(rows, full, **any_frame, setting="the library's call"), 2)
    yield PERFORMANCE, f"| the library's call takes {library} times its time | met |"
    yield PERFORMANCE, f"| {span(numbers(rows, full, **any_frame, setting='hold'), 2)} times | met |"
    yield PERFORMANCE, f"at most 1.6 times the full balance | {span(numbers(rows, full, **any_frame, setting='mix'), 2)} times | met |"
    off = {**any_frame, "setting": "off"}
    yield PERFORMANCE, f"| {span(numbers(rows, full, **off), 2)} times the full balance; {span(numbers(rows, plain, **off), 2)} times plain C's speed |"


def filter_sentences(rows):
    """What is said of the filters, by the medians: ours over C's."""
    ratio = 7
    measuring = numbers(rows, ratio, program="measure")
    colouring = [value for setting in ("full balance", "mix", "hold") for value in numbers(rows, ratio, program="colour", setting=setting)]
    off = numbers(rows, ratio, program="colour", setting="off")
    yield PERFORMANCE, f"| measuring {span(measuring, 2)} times, colouring {span(colouring, 2)} times, off {span(off, 2)} times | met; **not met** by off |"


def benchmark_sentences():
    found = tables(read(DOCS / "BENCHMARK.md"))
    if [table.head[0] for table in found] != ["frame", "frame", "frame", "frame", "pixels", "frame", "program"]:
        raise SystemExit("docs/BENCHMARK.md has not its seven tables")
    yield from jobs_sentences(found[0].rows + found[2].rows)
    yield from frame_sentences(found[3].rows)
    yield from size_sentences(found[4].rows)
    yield from dial_sentences(found[5].rows)
    yield from filter_sentences(found[6].rows)


def tolerance_sentences():
    """What the pages say of the accuracy rule's tolerance and of the hue bound, by the definitions of specs/."""
    accuracy, hue = read(CRATES / "pixel/specs/Accuracy.antt"), read(CRATES / "key/specs/Hue.antt")
    mission = re.search(r"^mission = record \{ steps = (\d+); sum = whole (\d+); below = (\d+) \}$", accuracy, re.M)
    settings = read(CRATES / "settings/specs/Accuracy.antt")
    mix = re.search(r"^mix_tolerance = record \{ steps = (\d+); sum = (\d+) over (\d+); below = (\d+) \}$", settings, re.M)
    bound = re.search(r"^hue_bound n c = \((\d+) \* n\) over c$", hue, re.M)
    if not mission or not mix or not bound:
        raise SystemExit("specs/ do not give the tolerance, or the hue bound, in figures")
    steps, most, below = map(int, mission.groups())
    degrees = int(bound.group(1)) * steps
    words = {1: "one", 2: "two"}
    yield RULES, f"3. The intensity is at most {most} from the curve's entry for the input intensity."
    yield RULES, f"4. Two channels differ by their input difference times the factor, give or take less than {steps}."
    yield RULES, f"comes out with an intensity at most {below} below the other's."
    yield PROMISES, f"| 3. the intensity is at most {most} from the entry |"
    yield PROMISES, f"give or take less than {steps} |"
    yield PROMISES, f"is at most {below} below the other |"
    yield README, f"moves by less than {degrees}° divided by the written pixel's chroma"
    yield README, f"by less than one degree at a chroma of {degrees};"
    yield README, f"**chroma** is less than {steps} code value from a factor times the source's;"
    yield README, f"is at most {most} from the tone curve's entry for the source pixel."
    yield ACCURACY, f"| the hue of the source pixel | less than {degrees}° / written chroma |"
    yield ACCURACY, f"| the factor times the chroma of the source pixel | less than {steps} code value |"
    yield ACCURACY, f"| the curve's entry for the source pixel's intensity | at most {most}, a third"
    yield HEADER, f"the intensity is at most {words.get(most, most)} from the curve's entry for the input intensity;"
    yield HEADER, f"has an intensity at most {words.get(below, below)} below the other's."
    yield from mix_sentences(*map(int, mix.groups()), int(bound.group(1)))


def mix_sentences(steps, over, under, below, degrees):
    """What the pages say of the tolerance and the hue bound of a mix."""
    yield RULES, (
        f"| mix, k below 256 | at most {over} / {under} from (s × (256 − k) + f × k) / 256 | (256 − k + k × φ) / 256 | {steps} | {below} |"
    )
    yield PROMISES, f"the intensity is within {over} / {under}, a difference less than {steps} steps off, the order at most {below} below;"
    yield ACCURACY, (
        f"| mix, amount below 1 | {degrees * steps}° / written chroma | less than {steps} code values from the mixed factor times the source's "
        f"| at most {over / under:g} from the mixed intensity | comes out at most {below} darker |"
    )
    yield README, f"a mix of source and balance keeps hue to less than {degrees * steps}° divided by the written chroma"


def delivery_sentences():
    """What README.md says of the costliest format of docs/ACCURACY.md's table."""
    form, share, _ = table(ACCURACY, ["format"]).rows[0]
    yield README, f"{form} alone moves hue beyond the widths above in [{share} of the portrait's pixels]"


def test_sentences():
    """What is said of the tests over files."""
    by_tools = sum(1 for _ in BY_TOOLS.glob("*.ppm"))
    yield DECISIONS, f"{CASES} cases, {BY_HAND} of them with the answer written by hand, {by_tools} of the inputs written by"


def newest(text):
    """The newest entry of the landings."""
    return re.split(r"^## ", text, flags=re.M)[1]


def landing_faults(entry):
    """Whether the newest landing has the counts of the tree after it."""
    specs = [file for _, file in read_specs().values()]
    claims = sum(map(len, claims_of(specs).values()))
    crates = sum(1 for path in CRATES.iterdir() if path.is_dir())
    edits = sum(1 for _ in CRATES.glob("*/must-fail/*.edit"))
    due = f"({crates} crates, {edits} must-fail edits, {claims} claims)"
    _, _, after = flowing(entry).partition(" After: ")
    return [] if due in after.partition("**")[0] else [f"docs/LANDINGS.md: the newest entry has not, after it: {due}"]


def unfinished_faults():
    """What was to be filled in."""
    return [f"{path}: {found}" for path in all_pages() for found in re.findall(r"@@\w*@*|\b(?:TODO|FIXME|XXX)\b", read(path))]


def sentence_faults(sentences):
    """The sentences that a page has not."""
    for page, sentence in sentences:
        if sentence not in flowing(read(page)):
            yield f"{page} does not say: {sentence}"


def selftest():
    rows = [["random", "measuring", "1.0"], ["flat", "colouring, method 1", "2.25"], ["flat", "colouring, method 2", "3.5"]]
    if numbers(rows, 2, frame="flat", job="colouring") != [2.25, 3.5]:
        sys.exit("figures.py finds other rows of a table")
    if span([2.25, 3.5], 1) != "2.2 to 3.5" or span([2, 2], 0, " ms") != "2 ms":
        sys.exit("figures.py reads a table wrongly")
    before = "Before: (22 crates, 132 must-fail edits, 59 claims). After: (1 crates, 1 must-fail edits, 1 claims)"
    if not list(sentence_faults([(OPEN, "what no page says")])) or not landing_faults("1. Nothing") or not landing_faults(before):
        sys.exit("figures.py does not find what is wrong")
    if newest("# L\n\n## 2. b\nc\n\n## 1. a\n") != "2. b\nc\n\n":
        sys.exit("figures.py takes another entry for the newest")


def main():
    selftest()
    sentences = [*benchmark_sentences(), *tolerance_sentences(), *delivery_sentences(), *test_sentences()]
    faults = [*sentence_faults(sentences), *landing_faults(newest(read(DOCS / "LANDINGS.md"))), *unfinished_faults()]
    sys.exit(report("figures", f"{len(sentences)} sentences", faults))


main()
