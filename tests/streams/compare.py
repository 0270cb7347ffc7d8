"""The filters `measure` and `colour` beside exact.py, beside the other programs, and beside what is said of their words.

    compare.py START_MEASURE MEASURE START_COLOUR COLOUR BALANCE REPLAY [SEED]

MEASURE and COLOUR, which the starts end in, run what is many. Prints one line a group and `streams: N runs, seed S: ok`, or a line
for each of the first faults and status 1.
"""

import os
import pathlib
import random
import sys
import tempfile
from concurrent.futures import ThreadPoolExecutor

import agreement
import exact
import feeds
import inputs
import limits
import messages
import pipelines
import terminal
from exact_filters import COLOUR, MEASURE, PIECE, Job, coloured, curve_bytes, curve_of, measured, refused, tally, words_of
from trial import Group

DEFAULT_SEED = 20170101
RANDOM_RUNS = 400


class Curves:
    """Curves as files, each written once."""

    def __init__(self, folder):
        self.folder = folder
        self.paths = {}

    def file(self, curve):
        if curve not in self.paths:
            self.paths[curve] = self.folder / f"{len(self.paths)}.curve"
            self.paths[curve].write_bytes(curve)
        return self.paths[curve]


def rng_of(name):
    """Each group has random numbers of its own, so that one can change without the others."""
    return random.Random(f"{SEED} {name}")


def second_versions(group):
    """exact_filters.py has the curves and the pictures of exact.py, which takes frames."""
    rng = rng_of(group.name)
    for _ in range(10):
        stream = inputs.short(rng)
        frame, choice, method = stream[: len(stream) // 3 * 3] + b"abc", rng.choice((1, 2)), rng.choice((1, 2))
        curve = curve_of(tally(frame), choice)
        written = coloured(curve_bytes(curve), Job(method), frame).written
        if (curve, written) != (exact.curve_of(frame, choice), exact.balanced(frame, choice, method)):
            group.fault(f"{frame[:30]!r}", "exact_filters.py is not what exact.py says")
        group.runs += 1


def measured_streams(group):
    rng = rng_of(group.name)
    for name, stream in inputs.boundary_streams(rng):
        for choice, words in (1, []), (1, ["1"]), (2, ["2"]):
            group.expect(f"{name} by {words}", [PROGRAMS[MEASURE], *words], stream, measured(choice, stream))
    for number in range(RANDOM_RUNS):
        stream, choice = inputs.short(rng), rng.choice((1, 1, 2, 2, rng.choice(inputs.NO_CHOICES)))
        group.expect(f"random {number} by {choice}", [PROGRAMS[MEASURE], str(choice)], stream, measured(choice, stream))
    group.refused_by(2, 4, 5)


def expect_coloured(group, name, curve, job, stream):
    command = [PROGRAMS[COLOUR], CURVES.file(curve), *words_of(job)]
    group.expect(f"{name}: {job}", command, stream, coloured(curve, job, stream))


def coloured_streams(group):
    """Every tone by each curve and each command, and each boundary stream by some."""
    rng = rng_of(group.name)
    tones, curves = inputs.every_tone(), dict(inputs.curves(rng))
    for number, (name, curve) in enumerate(curves.items()):
        command = [PROGRAMS[COLOUR], CURVES.file(curve)]
        group.expect(f"{name}, unasked", command, tones, coloured(curve, Job(), tones))
        for job in (*inputs.by_curve(), *(inputs.by_no_curve() if number % 6 == 0 else ())):
            expect_coloured(group, name, curve, job, tones)
    for name, stream in inputs.boundary_streams(rng):
        for method in 1, 2:
            for job in Job(method), inputs.random_job(rng)._replace(method=method):
                curve = rng.choice(list(curves.values()))
                expect_coloured(group, name, curve, job, stream)


def random_colourings(group):
    """Anything at random, a part of it refused now and then."""
    rng = rng_of(group.name)
    good = [curve for _, curve in (*inputs.curves(rng), *inputs.barely_good())]
    bad = [curve for _, curve in (*inputs.broken_curves(), *inputs.of_wrong_length())]
    for number in range(RANDOM_RUNS):
        curve = rng.choice(bad if rng.random() < 0.15 else good)
        expect_coloured(group, f"random {number}", curve, inputs.random_job(rng, bad=0.1), inputs.short(rng))
    group.refused_by(2, 7, 10, 11, 17, 18)


def handed_in(group):
    """Curves that are refused, and their neighbours, which are not; nothing is read or written where they are."""
    stream = inputs.short(rng_of(group.name)) + b"abcdefg"
    for number, curves in (10, inputs.of_wrong_length()), (11, inputs.broken_curves()):
        for name, curve in curves:
            command = [PROGRAMS[COLOUR], CURVES.file(curve)]
            group.expect_from_file(f"{name}, to be refused by {number}", command, stream, refused(COLOUR, number, 0))
    for name, curve in inputs.barely_good():
        answer = coloured(curve, Job(), stream)
        if answer.said.startswith(b"refused 1"):
            group.fault(name, "is no good curve by exact_filters.py")
        group.expect_from_file(name, [PROGRAMS[COLOUR], CURVES.file(curve)], stream, answer)


def fed(group):
    rng = rng_of(group.name)
    long = inputs.flecked(rng, 2 * PIECE + 4)
    curve = curve_bytes(curve_of(tally(long), 2))
    path, job = CURVES.file(curve), Job(1, "mix", 100)
    for stream in b"", b"a", long[:300], long[:301], long[:PIECE], long[: 2 * PIECE - 1], long[: 2 * PIECE + 3], long:
        feeds.in_many_ways(group, rng, STARTS[MEASURE], PROGRAMS[MEASURE], [], stream, measured(1, stream))
        words = [path, *words_of(job)]
        feeds.in_many_ways(group, rng, STARTS[COLOUR], PROGRAMS[COLOUR], words, stream, coloured(curve, job, stream))
    feeds.into_a_slow_reader(group, rng, [PROGRAMS[COLOUR], path, *words_of(job)], long, coloured(curve, job, long))


def ill_fed(group):
    """Inputs that fail and outputs that take nothing."""
    rng = rng_of(group.name)
    long = inputs.flecked(rng, 2 * PIECE)
    entries = curve_of(tally(long), 1)
    path = CURVES.file(curve_bytes(entries))
    commands = {MEASURE: [STARTS[MEASURE]], COLOUR: [STARTS[COLOUR], path]}
    for program, command in commands.items():
        feeds.unreadable(group, program, command)
        feeds.unwritable(group, program, command, b"abcdef", 6)
    feeds.unwritable(group, COLOUR, commands[COLOUR], long, PIECE)
    feeds.written_in_part(group, FOLDER, MEASURE, commands[MEASURE], long, len(long), curve_bytes(entries))
    written = coloured(curve_bytes(entries), Job(), long).written
    feeds.written_in_part(group, FOLDER, COLOUR, commands[COLOUR], long, PIECE, written)
    feeds.failing_later(group, commands, entries, Job(), long)
    feeds.unheard(group, commands[MEASURE], measured(1, b"abcd"))
    feeds.unheard(group, commands[COLOUR], coloured(curve_bytes(entries), Job(), b"abcd"))
    feeds.early_end(group, [STARTS[COLOUR]], path)


def limit(group):
    limits.the_most(group, [PROGRAMS[MEASURE]])
    limits.measure_in_little_memory(group, [PROGRAMS[MEASURE]])
    entries = curve_of(tally(inputs.flecked(rng_of(group.name), PIECE)), 1)
    path = CURVES.file(curve_bytes(entries))
    for job, tail in (Job(2), b""), (Job(1, "mix", 200), b"abcd"):
        limits.longer_than_a_shot(group, [PROGRAMS[COLOUR]], path, entries, job, tail)


def agreed(group):
    rng = rng_of(group.name)
    commands = {program: [start] for program, start in PROGRAMS.items()}
    agreement.with_balance(group, commands, FOLDER, BALANCE, rng)
    agreement.with_replay(group, commands, FOLDER, REPLAY, rng, 150)


def words(group):
    rng = rng_of(group.name)
    stream = inputs.flecked(rng, 301)
    good = curve_bytes(curve_of(tally(stream), 1))
    path = CURVES.file(good)
    measure, colour = [PROGRAMS[MEASURE]], [PROGRAMS[COLOUR]]
    messages.choices(group, measure, stream[:300])
    messages.refusals_of_measure(group, measure, stream)
    messages.jobs(group, colour, path, good, stream[:300])
    broken = inputs.changed(range(766), (382, 381), (383, 380))
    curves = [(CURVES.file(curve), curve) for curve in (good, broken, good[:-1], broken + b"x", b"")]
    messages.refusals_of_colour(group, colour, curves, stream)
    messages.numbers_out_of_range(group, colour, path, stream)
    starts = {program: [start] for program, start in STARTS.items()}
    messages.curve_names(group, starts[COLOUR], FOLDER, good, stream[:300])
    messages.not_text(group, starts, path)
    messages.helps(group, starts)


def in_pipelines(group):
    stream = inputs.flecked(rng_of(group.name), PIECE + 300)
    curve = measured(1, stream).written
    names = {"whole": stream, "broken": stream[:-1], "curve": curve}
    environment = dict(os.environ, measure=STARTS[MEASURE], colour=STARTS[COLOUR], made=str(FOLDER / "made"))
    for name, data in names.items():
        (FOLDER / name).write_bytes(data)
        environment[name] = str(FOLDER / name)
    written = coloured(curve, Job(), stream).written
    due = pipelines.answers(written, written[:-3], len(stream) - 1, limits.LIMIT + PIECE)
    pipelines.pipelines(group, environment, due)


def on_terminals(group):
    """Runs beside the other groups, since it waits most of the time."""
    curve = curve_bytes([0, *range(700, 764), *[764] * 700, 765])
    path = CURVES.folder / "terminal.curve"
    path.write_bytes(curve)
    measure, colour = [STARTS[MEASURE], "2"], [STARTS[COLOUR], path, "1"]

    def measured_stream(stream):
        return measured(2, stream)

    def coloured_stream(stream):
        return coloured(curve, Job(1), stream)

    terminal.elsewhere(group, measure, measured_stream)
    terminal.elsewhere(group, colour, coloured_stream)
    for tail in b"\1\2", b"\1":
        terminal.on_a_terminal(group, measure, tail, measured_stream)
        terminal.on_a_terminal(group, colour, tail, coloured_stream)


GROUPS = {
    "the second version": second_versions,
    "measured": measured_streams,
    "coloured": coloured_streams,
    "at random": random_colourings,
    "curves handed in": handed_in,
    "fed in many ways": fed,
    "ill fed": ill_fed,
    "limits": limit,
    "beside balance and replay": agreed,
    "words": words,
    "pipelines": in_pipelines,
}


def main():
    groups = [Group("terminals")]
    with ThreadPoolExecutor() as beside:
        terminals = beside.submit(on_terminals, groups[0])
        for name, run in GROUPS.items():
            groups.append(Group(name))
            run(groups[-1])
            groups[-1].told()
        terminals.result()
    groups[0].told()
    runs, faults = sum(group.runs for group in groups), sum(group.faults for group in groups)
    if faults:
        sys.exit(f"streams: FAILED: {faults} faults in {runs} runs, seed {SEED}")
    print(f"streams: {runs} runs, seed {SEED}: ok")


if len(sys.argv) not in (7, 8):
    sys.exit(__doc__)
STARTS = {MEASURE: os.path.abspath(sys.argv[1]), COLOUR: os.path.abspath(sys.argv[3])}
PROGRAMS = {MEASURE: os.path.abspath(sys.argv[2]), COLOUR: os.path.abspath(sys.argv[4])}
BALANCE, REPLAY = map(os.path.abspath, sys.argv[5:7])
SEED = int(sys.argv[7]) if len(sys.argv) == 8 else DEFAULT_SEED
with tempfile.TemporaryDirectory(prefix="streams of pixels ") as temporary:
    FOLDER = pathlib.Path(temporary)
    CURVES = Curves(FOLDER)
    main()
