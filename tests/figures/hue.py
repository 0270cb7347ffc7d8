"""How far hue moves: the bound, and the worst move for each written chroma, from a search of every move.

    python3 tests/figures/hue.py    searches, writes hue.csv and hue.svg in docs/figures/, and prints the table of docs/ACCURACY.md

The search is worst_hue.c, which this script compiles with cc, beside the exact arithmetic of tests/host/, and runs for both methods at
once; it takes some ten seconds. Nothing else is needed but Python's standard library. tests/accuracy.py compares both files with what the
search gives.
"""

import math
import pathlib
import subprocess
import sys
import tempfile
from fractions import Fraction

HERE = pathlib.Path(__file__).resolve().parent
FIGURES = HERE.parent.parent / "docs" / "figures"
CSV, SVG = FIGURES / "hue.csv", FIGURES / "hue.svg"
EXACT = HERE.parent / "host"

# every three samples that are not all equal, in order, by 766 targets and two methods
MOVES = (256 * 257 * 258 // 6 - 256) * 766 * 2
COLUMNS = "written chroma,method,part of the bound,of,min,mid,max,target,min',mid',max'"
# the written chromas of the document's table
TABLE = 5, 10, 20, 40, 60, 80, 120, 200


def search():
    """The worst move for each written chroma from 1 to 255, method and third of the sums, as rows of COLUMNS."""
    with tempfile.TemporaryDirectory() as room:
        program = pathlib.Path(room) / "worst_hue"
        subprocess.run(["cc", "-O3", "-I", EXACT, "-o", program, HERE / "worst_hue.c", EXACT / "exact.c"], check=True)
        runs = [subprocess.Popen([program, method], stdout=subprocess.PIPE, stderr=subprocess.PIPE, text=True) for method in "12"]
        results = [run.communicate() for run in runs]
    if any(run.returncode for run in runs) or sum(int(said) for _, said in results) != MOVES:
        sys.exit("the search did not try every move")
    return [[int(x) for x in line.split(",")] for rows, _ in results for line in rows.splitlines()]


def part(row):
    """How much of the bound the move uses."""
    return Fraction(row[2], row[3])


def worst(rows):
    """The worst move for each written chroma; of equal ones the first."""
    return [max((row for row in rows if row[0] == chroma), key=part) for chroma in range(1, 256)]


def bound(chroma):
    """What hue moves by less than, in degrees."""
    return Fraction(60, chroma)


def degrees(row):
    """How far hue moves there."""
    return part(row) * bound(row[0])


def csv(rows):
    return "\n".join([COLUMNS] + [",".join(map(str, row)) for row in worst(rows)]) + "\n"


def table(rows):
    """The document's table."""
    both = worst(rows)
    head = ["| written chroma | hue moves by less than | worst of all moves |", "|---|---|---|"]
    return head + [f"| {c} | {float(bound(c)):g}° | {float(degrees(both[c - 1])):.3f}° |" for c in TABLE]


def text(x, y, words, more=""):
    return f'<text x="{x:.1f}" y="{y:.1f}" {more}>{words}</text>'


def line(x, y, x2, y2, kind):
    return f'<line x1="{x:.1f}" y1="{y:.1f}" x2="{x2:.1f}" y2="{y2:.1f}" class="{kind}"/>'


STYLE = """<style>
text { font: 13px sans-serif; fill: #222 }
.title { font-size: 16px }
.axis { stroke: #222 }
.grid { stroke: #ddd }
.bound { fill: none; stroke: #b03030; stroke-width: 1.5 }
.worst { fill: #205090 }
</style>"""

LEFT, RIGHT, TOP, MIDDLE, LOWER, BOTTOM = 70, 730, 50, 350, 400, 500


def across(chroma):
    """Where a written chroma stands: 1 to 255, by its logarithm."""
    return LEFT + (RIGHT - LEFT) * math.log(chroma) / math.log(256)


def upper(angle):
    """Where an angle stands: 0.2 to 80 degrees, by its logarithm."""
    return MIDDLE - (MIDDLE - TOP) * math.log(angle / 0.2) / math.log(80 / 0.2)


def lower(share):
    """Where a part of the bound stands, 90 % to 100 %."""
    return BOTTOM - (BOTTOM - LOWER) * (share - 0.9) / 0.1


def axes():
    for angle in 0.2, 0.5, 1, 2, 5, 10, 20, 60:
        yield line(LEFT, upper(angle), RIGHT, upper(angle), "grid")
        yield text(LEFT - 8, upper(angle) + 4, f"{angle:g}°", 'text-anchor="end"')
    for percent in 90, 92, 94, 96, 98, 100:
        yield line(LEFT, lower(percent / 100), RIGHT, lower(percent / 100), "grid")
        yield text(LEFT - 8, lower(percent / 100) + 4, f"{percent} %", 'text-anchor="end"')
    for chroma in (1, 2) + TABLE + (255,):
        yield line(across(chroma), TOP, across(chroma), MIDDLE, "grid")
        yield line(across(chroma), LOWER, across(chroma), BOTTOM, "grid")
        # 255 and 200 are too close for two words
        if chroma != 255:
            yield text(across(chroma), BOTTOM + 18, chroma, 'text-anchor="middle"')
    yield line(LEFT, MIDDLE, RIGHT, MIDDLE, "axis")
    yield line(LEFT, BOTTOM, RIGHT, BOTTOM, "axis")
    yield text((LEFT + RIGHT) / 2, BOTTOM + 40, "written chroma, max′ − min′, in code values", 'text-anchor="middle"')


def svg(rows):
    # at 255 no hue moves: there is nothing to draw on a scale of logarithms
    moving = [row for row in worst(rows) if part(row) > 0]
    dots = [(across(row[0]), upper(degrees(row))) for row in moving]
    parts = [(across(row[0]), lower(float(part(row)))) for row in moving]
    curve = " ".join(f"{across(c):.1f},{upper(bound(c)):.1f}" for c in range(1, 256))
    body = [
        text(LEFT, 24, "How far hue can move in a balanced pixel", 'class="title"'),
        *axes(),
        *(f'<circle cx="{x:.1f}" cy="{y:.1f}" r="2" class="worst"/>' for x, y in dots + parts),
        f'<polyline points="{curve}" class="bound"/>',
        f'<rect x="400" y="{TOP + 2}" width="320" height="54" fill="white"/>',
        line(410, TOP + 18, 440, TOP + 18, "bound"),
        text(448, TOP + 22, "proved: less than 60° / written chroma"),
        f'<circle cx="425" cy="{TOP + 40}" r="2.5" class="worst"/>',
        text(448, TOP + 44, f"the worst of all {MOVES:,} moves"),
        text(LEFT, LOWER - 12, "the worst move, as a part of the bound"),
    ]
    head = '<svg xmlns="http://www.w3.org/2000/svg" viewBox="0 0 760 560" role="img">'
    title = "<title>The bound on hue and the worst hue move, for each written chroma</title>"
    return "\n".join([head, title, STYLE, '<rect width="760" height="560" fill="white"/>', *body, "</svg>"]) + "\n"


def main():
    rows = search()
    CSV.write_text(csv(rows), encoding="utf-8")
    SVG.write_text(svg(rows), encoding="utf-8")
    print("\n".join(table(rows)))


if __name__ == "__main__":
    main()
