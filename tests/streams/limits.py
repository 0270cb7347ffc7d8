"""The most that `measure` takes, streams longer than that through `colour`, and what memory the filters need for them.

A stream here is one ramp again and again, so that it never stands in memory: 766 pixels straddle the pieces in which it is taken.
"""

import itertools
import os
import pathlib
import re
import select
import sys
import threading

from exact_filters import COLOUR, MEASURE, MOST_PIXELS, PIECE, TONES, Answer, coloured_pixels, curve_bytes, curve_of, refused
from inputs import colourful, ramp
from trial import LONGEST_RUN, difference, ended, feed, run_fed, started

MOST_GROWTH = 256  # kB that a stream of any length may take beside its first piece
LONG_PIECES = 305  # some 60 MB, more pixels than a shot may have
READ = 2**20
RAMP = ramp(colourful)
LIMIT = 3 * MOST_PIXELS
# how many bytes more than 16,777,216 pixels have, what refuses them, and how many of them are read; 2 comes before 3 in a piece, and a
# piece before the next
BEYOND = (
    (-1, 2, -1),
    (1, 2, 1),
    (3, 3, 3),
    (4, 2, 4),
    (PIECE - 1, 2, PIECE - 1),
    (PIECE, 3, PIECE),
    (PIECE + 1, 3, PIECE),
    (PIECE + 3, 3, PIECE),
    (9 * PIECE + 2, 3, PIECE),
)


def ramps(length):
    """So many bytes of the ramp again and again, by some 230,000."""
    block = RAMP * 100
    for start in range(0, length, len(block)):
        yield block[: length - start]


def ramps_tally(pixels):
    return [pixels // TONES + (tone < pixels % TONES) for tone in range(TONES)]


def the_most(group, command):
    """As many pixels as a shot may have, or one fewer, are measured; what is more is refused."""
    for pixels, choice in (MOST_PIXELS, 1), (MOST_PIXELS, 2), (MOST_PIXELS - 1, 2):
        answer = Answer(0, curve_bytes(curve_of(ramps_tally(pixels), choice)))
        group.judge(f"{pixels} pixels by choice {choice}", answer, run_fed([*command, str(choice)], ramps(3 * pixels)))
    for more, number, read in BEYOND:
        answer = refused(MEASURE, number, LIMIT + read)
        group.judge(f"{MOST_PIXELS} pixels and {more} bytes", answer, run_fed(command, ramps(LIMIT + more)))


def most_memory(child):
    """The most kB of memory that a filter has had so far, 0 if it has ended."""
    try:
        status = pathlib.Path(f"/proc/{child.pid}/status").read_text(encoding="utf-8")
    except FileNotFoundError:
        return 0
    found = re.search(r"^VmHWM:\s+(\d+) kB$", status, re.M)
    return int(found[1]) if found else 0


def measure_in_little_memory(group, command):
    """The longest shot takes no more memory than its first piece. An open stream is waited for."""
    child, place = started(command)
    feed(place, ramps(PIECE), one_by_one=True)
    before = most_memory(child)
    feed(place, ramps(LIMIT - PIECE), one_by_one=True)
    after = most_memory(child)
    os.close(place)
    came = ended(child)
    tally = [one + other for one, other in zip(ramps_tally(PIECE // 3), ramps_tally((LIMIT - PIECE) // 3))]
    group.judge("the longest shot", Answer(0, curve_bytes(curve_of(tally, 1))), came)
    told_growth(group, MEASURE, LIMIT, before, after)


def told_growth(group, program, length, before, after):
    """Compares and tells how much memory there was before and after so much of a stream."""
    if not before or not after:
        group.fault(program, "has ended before its stream")
    if after - before > MOST_GROWTH:
        group.fault(program, f"takes {after - before} kB more for {length} bytes than for the first piece")
    print(f"streams: {program} takes {after - before} kB more for {length} bytes than for the first {PIECE}", flush=True)


class Reader:
    """Compares what a filter writes with a pattern again and again, and keeps none of it."""

    def __init__(self, child, pattern):
        self.child = child
        self.period = len(pattern)
        self.pattern = memoryview(pattern * (READ // self.period + 2))
        self.place = 0

    def read(self, length):
        """Reads so many bytes; what is wrong with them, None if they are as they should be."""
        end = self.place + length
        while self.place < end:
            if not select.select([self.child.stdout], [], [], LONGEST_RUN)[0]:
                sys.exit(f"streams: FAILED: nothing comes for {LONGEST_RUN} s after {self.place} bytes")
            data = os.read(self.child.stdout.fileno(), min(READ, end - self.place))
            if not data:
                return f"nothing comes after {self.place} bytes"
            due = self.pattern[self.place % self.period :][: len(data)]
            if data != due:
                return f"from byte {self.place} on: {difference(bytes(due), data)}"
            self.place += len(data)
        return None


def longer_than_a_shot(group, command, curve, entries, job, tail):
    """A stream of many pieces, and then a tail, which is coloured when the stream ends."""
    length = LONG_PIECES * PIECE
    child, place = started(command + [curve, str(job.method)] + ([job.command, str(job.value)] if job.command else []))
    reader = Reader(child, coloured_pixels(entries, job, RAMP))
    feed(place, ramps(PIECE))
    wrong = reader.read(PIECE)
    before = most_memory(child)
    # the second stream of ramps goes on where the first piece has cut one
    rest = RAMP[PIECE % len(RAMP) :]
    pieces = itertools.chain([rest], ramps(length - PIECE - len(rest)))
    feeder = threading.Thread(target=feed, args=(place, pieces), daemon=True)
    feeder.start()
    wrong = wrong or reader.read(length - PIECE)
    if wrong:
        child.kill()
    feeder.join()
    after = most_memory(child)
    feed(place, [tail])
    os.close(place)
    came = ended(child)
    case = f"colour {job}, {length} bytes and {len(tail)}"
    if wrong:
        group.fault(case, wrong)
        return
    written = coloured_pixels(entries, job, tail)
    answer = refused(COLOUR, 2, length + len(tail), written) if len(tail) % 3 else Answer(0, written)
    group.judge(case, answer, came)
    told_growth(group, COLOUR, length, before, after)
