"""The filters `measure` and `colour` a second time, by exact.py in plain integers: the status, the bytes and the words that they answer.

Written from what is said of the filters, and apart from crates/: a stream is worked out whole here, and not in pieces.
"""

import functools
import pathlib
import struct
import sys
from collections import Counter
from itertools import accumulate
from typing import NamedTuple, Optional

sys.path.insert(0, str(pathlib.Path(__file__).resolve().parent.parent))
import exact

PIECE = 3 * 65536  # bytes
MOST_PIXELS = 2**24
TONES = 766
CURVE_LENGTH = 2 * TONES
STOPS = 256  # a mix is of so many parts
BRIGHTEST = 765
MEASURE, COLOUR = "measure", "colour"
OFF, MIX, HOLD = "off", "mix", "hold"
USAGE = {
    MEASURE: "usage: measure [CHOICE] <in.rgb >shot.curve",
    COLOUR: "usage: colour CURVE [METHOD] [off | mix K | hold V] <in.rgb >out.rgb",
}

# the same steps of a curve and the same moves come up again and again
entry = functools.lru_cache(2**18)(exact.entry)
moved = functools.lru_cache(2**20)(exact.moved)


class Answer(NamedTuple):
    """How a filter ends, what it writes on standard output and on standard error, and how many bytes of the stream it takes."""

    status: int
    written: bytes = b""
    said: bytes = b""
    read: int = 0


class Job(NamedTuple):
    """What a colouring is asked for; without a command it is the full balance."""

    method: int = 2
    command: Optional[str] = None
    value: int = 0


def words_of(job):
    """A job as arguments."""
    if job.command is None:
        return [str(job.method)]
    return [str(job.method), job.command] + [str(job.value)] * (job.command != OFF)


def seen(read):
    pixels, over = divmod(read, 3)
    return f"{pixels} pixels and {over} of 3 bytes were read" if over else f"{pixels} pixels were read"


def refused(program, number, read, written=b""):
    return Answer(1, written, f"refused {number}\n{program}: {seen(read)}\n".encode(), read)


def failed(program, what, read, written=b""):
    return Answer(1, written, f"{program}: {what}; {seen(read)}\n".encode(), read)


def not_read(program, read, written=b""):
    return failed(program, "the input could not be read", read, written)


def not_written(program, read):
    return failed(program, "the output could not be written", read)


def misused(program, reason):
    return Answer(2, b"", f"{program}: {reason}; {USAGE[program]}\n".encode())


def no_curve(name):
    return Answer(1, b"", f'colour: the curve "{name}" cannot be read\n'.encode())


def pixels_of(stream):
    """The whole pixels of a stream; what is left over is none."""
    return zip(stream[0::3], stream[1::3], stream[2::3])


def tally(stream):
    counts = [0] * TONES
    for tone, count in Counter(map(sum, pixels_of(stream))).items():
        counts[tone] = count
    return counts


def curve_of(counts, choice):
    """The tone curve of so many pixels of each intensity."""
    at_most = list(accumulate(counts))
    return [0, *(entry(choice, at_most[-1], *step) for step in zip(at_most, at_most[1:-1])), BRIGHTEST]


def curve_bytes(entries):
    return struct.pack(f"<{TONES}H", *entries)


def measured(choice, stream):
    """What `measure` answers to a stream of no more pixels than a shot may have."""
    if choice not in (1, 2):
        return refused(MEASURE, 4, 0)
    if len(stream) % 3:
        return refused(MEASURE, 2, len(stream))
    if not stream:
        return refused(MEASURE, 5, 0)
    return Answer(0, curve_bytes(curve_of(tally(stream), choice)), b"", len(stream))


def keeps_rule(entries):
    rises = all(one <= next_one for one, next_one in zip(entries, entries[1:]))
    return entries[0] == 0 and rises and entries[-1] == BRIGHTEST


def opening_number(curve, job):
    """The number by which a colouring is refused before its stream, or 0."""
    if len(curve) != CURVE_LENGTH:
        return 10
    if not keeps_rule(struct.unpack(f"<{TONES}H", curve)):
        return 11
    if job.method not in (1, 2):
        return 7
    if job.command == MIX and job.value > STOPS:
        return 17
    if job.command == HOLD and job.value > BRIGHTEST:
        return 18
    return 0


def becomes(pixel, entries, job):
    if job.command == OFF:
        return pixel
    if job.command == HOLD:
        return moved(job.method, pixel, job.value)
    full = moved(job.method, pixel, entries[sum(pixel)])
    if job.command is None:
        return full
    k = job.value
    return [(c * (STOPS - k) + balanced * k + 128) // STOPS for c, balanced in zip(pixel, full)]


def coloured_pixels(entries, job, stream):
    """The whole pixels of a stream, each moved once and by itself."""
    pixels = list(pixels_of(stream))
    table = {pixel: bytes(becomes(pixel, entries, job)) for pixel in set(pixels)}
    return b"".join(map(table.__getitem__, pixels))


def coloured(curve, job, stream):
    """What `colour` answers to a stream."""
    number = opening_number(curve, job)
    if number:
        return refused(COLOUR, number, 0)
    written = coloured_pixels(struct.unpack(f"<{TONES}H", curve), job, stream)
    if len(stream) % 3:
        return refused(COLOUR, 2, len(stream), written)
    return Answer(0, written, b"", len(stream))
