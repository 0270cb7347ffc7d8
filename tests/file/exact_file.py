"""Document 01's "Frames from a file", with document 02's comments, in plain integers: what the program `balance` writes for a given
input.

Written from the documents alone. The header is one regular expression, which is not how the program reads it.
"""

import pathlib
import re
import sys

sys.path.insert(0, str(pathlib.Path(__file__).resolve().parent.parent))
from exact import balanced

SPACE = rb"[ \t\n\v\f\r]"
COMMENT = rb"#[^\n\r]*[\n\r]"
WHITE = rb"(?:" + SPACE + rb"|" + COMMENT + rb")+"
NUMBER = rb"([0-9]{1,5})"
HEADER = re.compile(rb"P6" + 3 * (WHITE + NUMBER) + SPACE)
LONGEST_HEADER = 512
MOST_PIXELS = 16384
CUBE = 1
YANG_LEE = 2


def refused(number):
    return b"refused %d\n" % number


def answer(file):
    """What `balance` writes: a picture or a refusal."""
    header = HEADER.match(file)
    if not header or header.end() > LONGEST_HEADER:
        return refused(12)
    width, height, largest = map(int, header.groups())
    samples = file[header.end() :]
    if largest != 255:
        return refused(13)
    if not 1 <= width * height <= MOST_PIXELS:
        return refused(14)
    if len(samples) < 3 * width * height:
        return refused(15)
    if len(samples) > 3 * width * height:
        return refused(16)
    return b"P6\n%d %d\n255\n" % (width, height) + balanced(samples, CUBE, YANG_LEE)
