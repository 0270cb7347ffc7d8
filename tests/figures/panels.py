"""Pictures beside one another, for a figure: the samples, and what is written for them.

Each pixel stands as a block, and white between the pictures, which are all of the samples' size.
"""

import pathlib
import subprocess
import sys

from png import fail

ROOT = pathlib.Path(__file__).resolve().parents[2]
FIGURES = ROOT / "docs" / "figures"
SAMPLES = ROOT / "samples"
sys.path.insert(0, str(SAMPLES))
from painting import HEIGHT, WIDTH  # noqa: E402

BLOCK = 2  # pixels of the figure to a pixel of the sample, in each direction
GAP = 20  # columns of white
WHITE = b"\xff\xff\xff"


def samples(figure, name, file):
    """The samples of a P6 file that has the samples' size."""
    header = b"P6\n%d %d\n255\n" % (WIDTH, HEIGHT)
    if not file.startswith(header) or len(file) != len(header) + 3 * WIDTH * HEIGHT:
        fail(figure, f"{name} is no picture of {WIDTH} by {HEIGHT}")
    return file[len(header) :]


def balanced(figure, file):
    """The samples that bin/balance writes for a file."""
    done = subprocess.run([ROOT / "bin" / "balance"], input=file, stdout=subprocess.PIPE, check=False)
    if done.returncode:
        fail(figure, f"bin/balance ended with status {done.returncode}")
    return samples(figure, "what bin/balance writes", done.stdout)


def enlarged(row):
    return b"".join(BLOCK * row[i : i + 3] for i in range(0, len(row), 3))


def side_by_side(*pictures):
    """The figure's rows, from the samples of each picture."""
    for i in range(0, 3 * WIDTH * HEIGHT, 3 * WIDTH):
        row = (GAP * WHITE).join(enlarged(picture[i : i + 3 * WIDTH]) for picture in pictures)
        yield from BLOCK * [row]
