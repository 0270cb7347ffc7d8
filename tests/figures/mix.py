"""How far hue moves under a mix: the worst move for each written chroma, at any amount between 0 and 1.

docs/figures/mix.csv has them. It is what worst_mix.c prints; the command at its head searches all amounts and takes about a minute. Here it
is compiled with cc, beside the exact arithmetic of tests/host/, and run for the amounts at which these moves lie. tests/accuracy.py compares
the file with that.
"""

import pathlib
import subprocess
import sys
import tempfile
from fractions import Fraction

from hue import EXACT, FIGURES, HERE, MOVES, TABLE

CSV = FIGURES / "mix.csv"
COLUMNS = "written chroma,method,part of 60 degrees / chroma,of,min,mid,max,target,amount,min',mid',max'"
# k of k / 256; at 0 nothing moves, and 256 is the full balance
AMOUNTS = range(1, 256)
ALL_MOVES = MOVES * len(AMOUNTS)
# those at which the worst moves lie, and at which the gate repeats the search: seven seconds
WORST = *range(255, 245, -1), 244, 243, 241, 239, 237, 234, 230, 223, 213


def rows_of(text):
    """The rows under COLUMNS, one for each written chroma from 1 to 255."""
    head, *lines = text.splitlines()
    rows = [[int(x) for x in line.split(",")] for line in lines]
    if head != COLUMNS or [row[0] for row in rows] != list(range(1, 256)) or any(len(row) != 12 for row in rows):
        sys.exit("not a row for each written chroma")
    return rows


def listed():
    """What the search of all amounts found."""
    return rows_of(CSV.read_text(encoding="utf-8"))


def searches(*wanted):
    """For each floor and its amounts the worst move for each written chroma, of those above that part of 60 degrees / chroma."""
    with tempfile.TemporaryDirectory() as room:
        program = pathlib.Path(room) / "worst_mix"
        subprocess.run(["cc", "-O3", "-I", EXACT, "-o", program, HERE / "worst_mix.c", EXACT / "exact.c"], check=True)
        words = [[str(word) for word in (floor, *amounts)] for floor, amounts in wanted]
        runs = [subprocess.Popen([program, *run], stdout=subprocess.PIPE, stderr=subprocess.PIPE, text=True) for run in words]
        results = [run.communicate() for run in runs]
    due = [MOVES * len(amounts) for _, amounts in wanted]
    if any(run.returncode for run in runs) or [int(said) for _, said in results] != due:
        sys.exit("the search under a mix was not over every move")
    return [rows_of(found) for found, _ in results]


def part(row):
    """How much of 60 degrees / chroma the move uses."""
    return Fraction(row[2], row[3])


def degrees(row):
    """How far hue moves there."""
    return part(row) * Fraction(60, row[0])


def in_table(rows):
    """The rows that the document has."""
    return [rows[chroma - 1] for chroma in TABLE]
