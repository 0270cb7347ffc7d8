"""The filters beside the programs that do the same for pictures and for lists of calls: measured and then coloured, a stream has the bytes
that `balance` and `replay` give its pixels.
"""

import pathlib
import struct

from exact_filters import COLOUR, HOLD, MEASURE, MIX, OFF, STOPS, words_of
from inputs import random_job, short
from trial import run

SAMPLES = pathlib.Path(__file__).resolve().parents[2] / "samples"
OPENING = ["open 1\n", "measure 1 {strip}\n", "fix 1 {choice}\n", "colour 1 {method} {dial} {strip} {room}\n"]


def filtered(commands, folder, stream, choice, job_words):
    """What the filters make of a stream one after the other; the answer of the first that refuses it."""
    curve = run([*commands[MEASURE], *choice], stream)
    if curve.status:
        return curve
    path = folder / "filtered.curve"
    path.write_bytes(curve.written)
    return run([*commands[COLOUR], path, *job_words], stream)


def with_balance(group, commands, folder, balance, rng):
    """As a picture is balanced: by the cube and method 2, which are also what the filters do unasked."""
    pictures = {path.name: path.read_bytes() for path in sorted(SAMPLES.glob("*.ppm"))}
    for number in range(3):
        width, height = rng.randint(1, 40), rng.randint(1, 40)
        pictures[f"random {number}"] = b"P6\n%d %d\n255\n" % (width, height) + rng.randbytes(3 * width * height)
    for name, picture in pictures.items():
        header = b"\n".join(picture.split(b"\n", 3)[:3]) + b"\n"
        balanced = run([balance], picture)
        for choice, words in ([], []), (["1"], ["2"]), (["1"], ["2", "mix", "256"]):
            came = filtered(commands, folder, picture[len(header) :], choice, words)
            if (came.status, header + came.written, came.said) != (0, balanced.written, b""):
                group.fault(name, f"with {choice} and {words} is not what balance writes")
            group.runs += 1


def float_bits(value):
    return struct.pack(">f", value).hex()


def dial_of(job):
    """A job's command as a script has it: an amount of 1 is the full balance."""
    if job.command == OFF:
        return "off"
    if job.command == HOLD:
        return f"hold {float_bits(job.value)}"
    return f"mix {float_bits(job.value / STOPS if job.command == MIX else 1)}"


def called(replay, stream, choice, job):
    """What a list of calls is answered: the number of its first refusal, or 0, and the bytes of the colouring."""
    strip, room = stream.hex() or "-", "00" * len(stream) or "-"
    lines = [line.format(strip=strip, room=room, choice=choice, method=job.method, dial=dial_of(job)) for line in OPENING]
    answers = run([replay], "".join(lines).encode()).written.decode().splitlines()
    number = next((int(answer.split()[0]) for answer in answers if answer.split()[0] != "0"), 0)
    return number, b"" if number else bytes.fromhex(answers[-1].split()[1].replace("-", ""))


def with_replay(group, commands, folder, replay, rng, turns):
    """As a shot is measured, fixed and coloured, with what is refused now and then; filters and calls look in the same order at these."""
    for _ in range(turns):
        stream, choice = short(rng), rng.choice((1, 1, 1, 2, 2, 2, 3))
        if choice == 3:
            # a script is refused by 2 where it measures, and the filter by 4 before
            stream = stream[: len(stream) // 3 * 3]
        job = random_job(rng, bad=0.1)
        number, written = called(replay, stream, choice, job)
        came = filtered(commands, folder, stream, [str(choice)], words_of(job))
        due = [f"refused {number}".encode()] if number else []
        if came.said.splitlines()[:1] != due or came.written != written:
            group.fault(f"{choice} {job} {stream[:30]!r}", f"replay answers {number} {written[:30]!r}, the filters {came}")
        group.runs += 1
