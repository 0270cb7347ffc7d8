"""Times the filters `measure` and `colour` beside bench/filter.c, which does the same by the library for C, and prints a table.

    python3 -B bench/filters.py          the table
    python3 -B bench/filters.py check    only whether both give the same bytes

bench/run builds what is called here. A filter stands between a process that feeds it the stream through a pipe and one that drains what it
writes. Its time is the processor's, of the filter alone, user and system together, since the machine may have other work; the clock's stands
beside it. No time is taken before both have written the same bytes.
"""

import itertools
import os
import pathlib
import statistics
import subprocess
import sys
import tempfile
import time
from typing import NamedTuple

BENCH = pathlib.Path("target/bench")
PIECE = 196608
RUNS = 11
# 8 frames, all but as many pixels as a shot may have; what is coloured is 6 times as long
WIDTH, HEIGHT, REPEATS = 1920, 8 * 1080, 6
SETTINGS = [], ["off"], ["mix", "1"], ["mix", "128"], ["mix", "255"], ["hold", "0"], ["hold", "300"], ["hold", "765"]


class Row(NamedTuple):
    """What is timed: a filter with its arguments, on one file or more."""

    program: str
    name: str
    arguments: list
    feeds: list


class Spent(NamedTuple):
    """The seconds of a run."""

    processor: float
    clock: float


def stop(words):
    sys.exit(f"bench: {words}")


def ours(row):
    return [f"crates/{row.program}/out/{row.program}", *row.arguments]


def by_c(row):
    return [str(BENCH / "filter"), row.program, *row.arguments]


# ---- Running ----


def start(command, feeds):
    """The process that feeds the filter, and the filter, whose output is for the caller to read."""
    feeder = subprocess.Popen(["cat", *map(str, feeds)], stdout=subprocess.PIPE)
    worker = subprocess.Popen(command, stdin=feeder.stdout, stdout=subprocess.PIPE)
    feeder.stdout.close()
    return feeder, worker


def end(process):
    """What the process used."""
    _, status, used = os.wait4(process.pid, 0)
    process.returncode = os.waitstatus_to_exitcode(status)
    if process.returncode != 0:
        stop(f"{process.args[0]} failed")
    return used


def run(command, feeds):
    """The time of one run. What the filter writes is drained."""
    began = time.monotonic()
    feeder, worker = start(command, feeds)
    drain = subprocess.Popen(["cat"], stdin=worker.stdout, stdout=subprocess.DEVNULL)
    worker.stdout.close()
    used = end(worker)
    clock = time.monotonic() - began
    end(feeder)
    end(drain)
    return Spent(used.ru_utime + used.ru_stime, clock)


# ---- The same bytes ----


def same(row):
    """Ends the benchmark where the two write different bytes."""
    pairs = [start(command(row), row.feeds) for command in (ours, by_c)]
    outputs = [worker.stdout for _, worker in pairs]
    written = None
    while written != b"":
        written, expected = (output.read(1 << 20) for output in outputs)
        if written != expected:
            stop(f"the program {row.program} and bench/filter.c differ: {row.name}")
    for process in itertools.chain(*pairs):
        end(process)


def make(folder, width, height):
    """A stream's file."""
    path = folder / "stream.rgb"
    with path.open("wb") as file:
        subprocess.run([str(BENCH / "stream"), str(width), str(height)], stdout=file, check=True)
    return path


def make_curve(folder, stream):
    """The file of a stream's curve by choice 1."""
    path = folder / "curve"
    feeder, worker = start(ours(Row("measure", "choice 1", ["1"], [stream])), [stream])
    path.write_bytes(worker.stdout.read())
    end(feeder)
    end(worker)
    return path


def cases(curve, stream):
    """Both choices, and every setting by both methods."""
    for choice in "1", "2":
        yield Row("measure", f"choice {choice}", [choice], [stream])
    for method, setting in itertools.product("12", SETTINGS):
        yield Row("colour", f"method {method} {' '.join(setting)}", [str(curve), method, *setting], [stream])


def check(folder):
    """Streams of one pixel, of a piece, of a pixel less and more, and of some pieces. They begin with a pixel of each intensity."""
    pixels = bytes((s + k) // 3 for s in range(766) for k in range(3)) + make(folder, 512, 400).read_bytes()
    lengths = 3, PIECE - 3, PIECE, PIECE + 3, len(pixels)
    count = 0
    for length in lengths:
        stream = folder / f"{length}.rgb"
        stream.write_bytes(pixels[:length])
        for case in cases(make_curve(folder, stream), stream):
            same(case)
            count += 1
    print(f"bench: the filters and bench/filter.c give the same bytes, in {count} cases of {len(lengths)} lengths")


# ---- The table ----


def rows(stream, curve):
    """What the table has."""
    longer = [stream] * REPEATS
    yield Row("measure", "choice 1", ["1"], [stream])
    yield Row("measure", "choice 2", ["2"], [stream])
    yield Row("colour", "full balance, method 1", [str(curve), "1"], longer)
    yield Row("colour", "full balance, method 2", [str(curve), "2"], longer)
    yield Row("colour", "mix 128, method 2", [str(curve), "2", "mix", "128"], longer)
    yield Row("colour", "hold 300, method 2", [str(curve), "2", "hold", "300"], longer)
    yield Row("colour", "off", [str(curve), "2", "off"], longer)


def timed(sides, feeds):
    """The times of all runs of each side, the sides in turns, and each first in every other turn."""
    times = [[] for _ in sides]
    for turn in range(RUNS):
        pairs = list(zip(sides, times))
        for command, kept in pairs if turn % 2 else reversed(pairs):
            kept.append(run(command, feeds))
    return times


def shown(spent, pixels):
    """Best, median and the clock's median, in nanoseconds a pixel."""
    processor = [one.processor for one in spent]
    return [1e9 / pixels * each for each in (min(processor), statistics.median(processor), statistics.median(one.clock for one in spent))]


def pixels_of(feeds):
    return sum(feed.stat().st_size for feed in feeds) // 3


def print_row(row):
    """Both on one row."""
    our_runs, c_runs = timed([ours(row), by_c(row)], row.feeds)
    best, median, clock = shown(our_runs, pixels_of(row.feeds))
    c_best, c_median, c_clock = shown(c_runs, pixels_of(row.feeds))
    print(
        f"| {row.program} | {row.name} | {best:.3f} | {median:.3f} | {c_best:.3f} | {c_median:.3f} "
        f"| {best / c_best:.2f} | {median / c_median:.2f} | {clock:.2f} | {c_clock:.2f} |",
        flush=True,
    )


def print_reading(feeds):
    """What a filter takes that only reads."""
    [runs] = timed([[str(BENCH / "filter"), "read"]], feeds)
    best, median, clock = shown(runs, pixels_of(feeds))
    print(f"| | reading alone | | | {best:.3f} | {median:.3f} | | | | {clock:.2f} |", flush=True)


def print_table(folder):
    stream = make(folder, WIDTH, HEIGHT)
    curve = make_curve(folder, stream)
    print(f"\n### The filters, {pixels_of([stream])} pixels measured, {pixels_of([stream] * REPEATS)} coloured\n")
    print("| program | setting | ours, best, ns | median | C, best, ns | median | ours / C, best | median | clock: ours, median | C |")
    print("|---|---|---|---|---|---|---|---|---|---|", flush=True)
    for row in rows(stream, curve):
        same(row)
        print_row(row)
    print_reading([stream])


def main():
    if sys.argv[1:] not in ([], ["check"]):
        sys.exit("usage: filters.py [check]")
    with tempfile.TemporaryDirectory(dir=BENCH) as folder:
        (check if sys.argv[1:] else print_table)(pathlib.Path(folder))


main()
