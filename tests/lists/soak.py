"""Random lists without end for `replay`, until so many calls are made; the first difference ends it.

    soak.py COUNT SEED PROGRAM

Script n is made of SEED and n alone. Says how many calls were made and how many were refused by each number, with status 0; or
shows the first difference with seed and script, writes the script to a file, and ends with status 1.
"""

import os
import random
import sys
import time

import scripts
import second
from trial import Tally, faults_of, keep, run

TOLD_EVERY = 60  # seconds


def script_of(seed, index):
    """Mostly lists of some hundred calls, now and then a long one, one of broken lines, of long strips or of full shots."""
    rng = random.Random(f"{seed} {index}")
    kind = rng.random()
    if kind < 0.02:
        return scripts.script(rng, rng.randint(1, 2), 60, filled=0.5)
    if kind < 0.03:
        return scripts.script_of_long_strips(rng)
    if kind < 0.1:
        return scripts.script(rng, rng.randint(1, 4), 400, broken=0.7)
    if kind < 0.15:
        return scripts.script(rng, rng.randint(1, 4), 4000)
    return scripts.script(rng, rng.randint(1, 4), rng.randint(1, 600))


def difference(program, script, replies):
    """The first fault of a run, None if there is none."""
    return next((f"{kind}: {what}" for kind, what in faults_of(script, replies, *run([program], script))), None)


def soak(count, seed, program):
    tally, index, told = Tally(), 0, time.monotonic()
    while tally.numbers.total() < count:
        index += 1
        script = script_of(seed, index)
        replies = second.replies(script)
        found = difference(program, script, replies)
        if found:
            path = keep(script, f"soak {seed} {index}")
            sys.exit(f"soak: FAILED: seed {seed}, script {index}, which is now {path}: {found}")
        tally.add(replies)
        if time.monotonic() - told > TOLD_EVERY:
            told = time.monotonic()
            print(f"soak: so far {index} scripts, {tally}", flush=True)
    print(f"soak: seed {seed}: {index} scripts, {tally}: ok")


if len(sys.argv) != 4:
    sys.exit(__doc__)
soak(int(sys.argv[1]), int(sys.argv[2]), os.path.abspath(sys.argv[3]))
