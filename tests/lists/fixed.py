"""The fixed part of the tests of `replay`: cases by hand and by system, random lists, broken lines and streams.

    fixed.py START PROGRAM [SEED]

START, which ends in PROGRAM, runs the cases by hand and the streams; PROGRAM runs all else. Prints a line a group, and a line
`lists: FAILED: ...` for each of the first faults, with status 1.
"""

import os
import random
import sys

import cases
import doctored
import line_cases
import scripts
import second
import streams
from trial import NUMBERS, Group, Tally, bytes_of, shown

DEFAULT_SEED = 20170101


def by_hand():
    group = Group("by hand", [START], SEED)
    for fault in doctored.faults():
        group.fault("doctored", fault)
    for script, answers in cases.BY_HAND:
        if second.answers(script) != answers:
            group.fault("tables", f"second.py answers {shown(second.answers(script))} to {shown(script)}")
        group.attempt(script)
    print(f"lists: {doctored.COUNT} doctored answers, pixels, pairs and dials")
    return group, (), ()


def refusals():
    """Every set of causes that can be met together is met in each call."""
    group = Group("refusals", [PROGRAM], SEED)
    for name, order, lines in cases.REFUSALS:
        lines = list(lines())
        group.attempt_lines(lines)
        for causes in set(cases.possible(order)) - {line.causes for line in lines}:
            group.fault("coverage", f"{name}: the causes {sorted(causes)} are never met together")
    return group, NUMBERS, ()


def words():
    group = Group("words", [PROGRAM], SEED)
    group.attempt_lines(list(line_cases.good_words()))
    group.attempt_lines(list(line_cases.no_calls()))
    return group, (), [reason for reason in second.REASONS if reason != second.TOO_LONG]


def long_lines():
    group = Group("long and many lines", [PROGRAM], SEED)
    group.attempt_lines(list(line_cases.long_lines()))
    group.attempt_lines(list(line_cases.many_lines()))
    for script in line_cases.last_lines():
        group.attempt(script)
    return group, (), [second.TOO_LONG]


def by_dials():
    group = Group("dials", [PROGRAM], SEED)
    for lines in cases.by_dials(rng_of(group)):
        group.attempt_lines(lines)
    return group, (17, 18), ()


def limits():
    group = Group("limits", [PROGRAM], SEED)
    group.attempt_lines(list(cases.limits()))
    return group, [3], ()


def ties():
    group = Group("ties and halves", [PROGRAM], SEED)
    for lines in cases.ties(rng_of(group)):
        group.attempt_lines(lines)
    return group, (), ()


def rng_of(group):
    """Each group has random numbers of its own, so that one can change without the others."""
    return random.Random(f"{SEED} {group.name}")


def lists(name, count, shots, calls, numbers=NUMBERS, reasons=(), **shares):
    """Random lists; each is over so many shots as the next of `shots` says."""
    group = Group(name, [PROGRAM], SEED)
    rng = rng_of(group)
    for i in range(count):
        group.attempt(scripts.script(rng, shots[i % len(shots)], calls, **shares))
    return group, numbers, reasons


def long_strips():
    group = Group("long strips", [PROGRAM], SEED)
    rng = rng_of(group)
    for _ in range(3):
        group.attempt(scripts.script_of_long_strips(rng))
    return group, (), ()


def moves():
    group = Group("moves", [PROGRAM], SEED)
    rng = rng_of(group)
    for _ in range(10):
        group.attempt(b"".join(scripts.spelt(rng, None, scripts.move(rng)) + b"\n" for _ in range(2000)))
    return group, (7, 9), ()


def in_streams():
    group = Group("streams", [START], SEED)
    rng = rng_of(group)
    short = scripts.script(rng, 4, 60, broken=0.2)
    list_of_calls = scripts.script(rng, 2, 300, broken=0.1)
    long = bytes_of(line_cases.long_lines())
    for script in b"", b"\n", b"open 1", short:
        group.attempt(script)
    streams.in_pieces(group, short[:1500], 1, 0.0001)
    streams.in_pieces(group, list_of_calls, 7, 0)
    streams.in_pieces(group, long, 65536, 0)
    streams.in_pieces(group, long, 65537, 0)
    streams.in_pieces(group, long[:700000], 4999, 0.0005)
    streams.line_by_line(group, list_of_calls.rstrip(b"\n") + b"\n" + long[:700000].rpartition(b"\n")[0] + b"\nopen 1\n")
    for script in b"", short, long:
        streams.from_file(group, script)
    streams.unreadable(group)
    streams.unwritable(group)
    streams.endless(group)
    streams.large(group)
    return group, (), ()


def groups():
    """The groups one after the other, each with the numbers and the reasons that it has to meet."""
    yield by_hand()
    yield refusals()
    yield words()
    yield long_lines()
    yield by_dials()
    yield limits()
    yield ties()
    # 3 is for shots that are filled to the limit
    unfilled = [number for number in NUMBERS if number != 3]
    yield lists("lists of one shot", 50, [1], 500, unfilled)
    yield lists("lists of several shots", 75, [2, 3, 4], 500, unfilled)
    yield lists("long lists", 4, [1, 4], 3000, unfilled)
    yield lists("lists of full shots", 6, [1, 2], 150, filled=0.2)
    yield lists("broken lines", 40, [1, 2, 3, 4], 500, (), [r for r in second.REASONS if r != second.TOO_LONG], broken=0.7)
    yield long_strips()
    yield moves()
    yield in_streams()


def main():
    total = Tally()
    faults = 0
    for group, numbers, reasons in groups():
        group.end(numbers, reasons)
        total.include(group.tally)
        faults += group.faults.total()
    print("lists: no call for being: " + ", ".join(f"{reason}: {total.reasons[reason]}" for reason in second.REASONS))
    print(f"lists: seed {SEED}: {total}")
    if faults:
        sys.exit(f"lists: FAILED: {faults} faults, seed {SEED}")


if len(sys.argv) not in (3, 4):
    sys.exit(__doc__)
START, PROGRAM = map(os.path.abspath, sys.argv[1:3])
SEED = int(sys.argv[3]) if len(sys.argv) == 4 else DEFAULT_SEED
main()
