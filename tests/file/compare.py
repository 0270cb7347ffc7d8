"""The program `balance` beside documents 01 and 02: the table's cases, generated inputs, and inputs that do not come all at once.

    compare.py START PROGRAM [SEED]

START runs the table's cases and the streams; PROGRAM, which START ends in, runs the generated inputs, which are many. Prints one
line a group and `file: N inputs, seed S: ok`, or a line for each fault and status 1.
"""

import collections
import functools
import os
import pathlib
import random
import runpy
import subprocess
import sys
import tempfile
import time

import exact_file
from cases import BY_HAND, BY_TOOLS, CASES, COMMENTED_HEADER, HEADER, PICTURES, SAMPLES, WHITE, digest, table

SAMPLES_FOLDER = pathlib.Path(__file__).resolve().parents[2] / "samples"
DEFAULT_SEED = 20170101
MUTATED = 1000
COMMENTED = 1000
MOST_READ = 512 + 3 * 16384 + 1
LONGEST_RUN = 60  # seconds
REFUSALS = [b"refused %d\n" % number for number in (12, 13, 14, 15, 16)]

answer = functools.cache(exact_file.answer)
faults = []
inputs = 0


def fault(case, what):
    faults.append(case)
    print(f"file: FAILED: {case}: {what}")


def shown(data):
    return repr(data[:60]) + (f" and {len(data) - 60} bytes" if len(data) > 60 else "")


def difference(expected, came):
    """Where two outputs part, for a reader."""
    at = next((i for i, (a, b) in enumerate(zip(expected, came)) if a != b), min(len(expected), len(came)))
    return f"expected {shown(expected)}, came {shown(came)}, different from byte {at} on"


def judge(case, expected, status, came, errors):
    global inputs
    inputs += 1
    if came != expected:
        fault(case, difference(expected, came))
    if status != 0:
        fault(case, f"exit status {status}")
    if errors:
        fault(case, f"standard error: {shown(errors)}")


def expect(case, command, expected, **stdin):
    """Runs the program, on bytes through a pipe (input) or on a stream (stdin)."""
    try:
        done = subprocess.run(command, capture_output=True, timeout=LONGEST_RUN, check=False, **stdin)
    except subprocess.TimeoutExpired:
        sys.exit(f"file: FAILED: {case}: not done after {LONGEST_RUN} s")
    judge(case, expected, done.returncode, done.stdout, done.stderr)


def by_hand(cases):
    return sum(case.by_hand is not None for case in cases)


def agreement(cases):
    """The table is whole, and exact_file.py says of each case what is by hand, or what the digest is of."""
    if (len(cases), by_hand(cases)) != (CASES, BY_HAND):
        fault("the table", f"has {len(cases)} cases, {by_hand(cases)} by hand; cases.py says {CASES} and {BY_HAND}")
    for case in cases:
        written = answer(case.file)
        if case.by_hand is None and digest(written) != PICTURES.get(case.name):
            fault(case.name, f"exact_file.py has {shown(written)}, and PICTURES the digest of something else")
        if case.by_hand not in (None, written):
            fault(case.name, f"by hand and by exact_file.py: {difference(case.by_hand, written)}")
    names = {case.name for case in cases}
    pictures = {case.name for case in cases if case.by_hand is None}
    for name in sorted(PICTURES.keys() - pictures):
        fault(name, "has a digest, and is no case without an output by hand")
    for path in sorted(BY_TOOLS.iterdir()):
        if path.name != "TOOLS.md" and (path.suffix != ".ppm" or path.stem not in names):
            fault(path.name, "is in by_tools/ and not in the table")


def each_case(cases):
    for case in cases:
        expected = answer(case.file) if case.by_hand is None else case.by_hand
        expect(f"{case.name} ({case.shows})", [START], expected, input=case.file)
    print(f"file: table: {len(cases)} cases, {by_hand(cases)} of them by hand")


def samples():
    """Each picture of samples/ is the one that its script draws, and is taken."""
    drawings = sorted(SAMPLES_FOLDER.glob("make_*.py"))
    there = {path.name for path in SAMPLES_FOLDER.glob("*.ppm")}
    for drawing in drawings:
        name = drawing.stem.removeprefix("make_") + ".ppm"
        file = runpy.run_path(str(drawing))["picture"]()
        if name not in there or (SAMPLES_FOLDER / name).read_bytes() != file:
            fault(name, f"is not what {drawing.name} draws")
        if answer(file) in REFUSALS:
            fault(name, "is no picture for balance")
        expect(name, [START], answer(file), input=file)
        there.discard(name)
    for name in sorted(there):
        fault(name, "has no script that draws it")
    if not drawings:
        fault("samples", "there is no picture")
    print(f"file: samples: {len(drawings)} pictures")


def generated(group, files):
    """Compares the program with exact_file.py; every kind of answer must be among those expected."""
    kinds = collections.Counter()
    for name, file in files:
        expected = answer(file)
        kinds[expected if expected in REFUSALS else b"accepted"] += 1
        expect(f"{group}: {name}: {shown(file)}", [PROGRAM], expected, input=file)
    for kind in [b"accepted", *REFUSALS]:
        if not kinds[kind]:
            fault(group, f"no input is {kind.decode().strip()}")
    counts = ", ".join(f"{count} {kind.decode().strip()}" for kind, count in sorted(kinds.items()))
    print(f"file: {group}: {sum(kinds.values())} inputs: {counts}")


def every_byte(header):
    """The reference samples after this header, with each byte of it replaced by every other."""
    file = header + SAMPLES
    for place in range(len(header)):
        for byte in range(256):
            if byte != file[place]:
                yield f"byte {place} is {byte}", file[:place] + bytes([byte]) + file[place + 1 :]


def edited(file, end):
    """One byte up to `end` and the next five replaced, inserted or deleted, or now and then the end cut or lengthened."""
    if RANDOM.random() < 0.15:
        return RANDOM.choice((file[: -RANDOM.randint(1, 3)], file + RANDOM.randbytes(RANDOM.randint(1, 3))))
    place = RANDOM.randrange(min(len(file), end + 5) + 1)
    byte = RANDOM.choice([*WHITE.values(), *(b"%d" % digit for digit in range(10)), b"#", b"-", RANDOM.randbytes(1)])
    return file[:place] + RANDOM.choice((byte + file[place + 1 :], byte + file[place:], file[place + 1 :]))


def mutated(cases):
    """Files with a good header and one to three edits, most of them in the header."""
    good = [case for case in cases if len(case.file) <= 1000 and answer(case.file) != REFUSALS[0]]
    for _ in range(MUTATED):
        case = RANDOM.choice(good)
        file, end = case.file, exact_file.HEADER.match(case.file).end()
        for _ in range(RANDOM.choice((1, 1, 2, 3))):
            file = edited(file, end)
        yield case.name, file


def comment():
    """A comment of up to some hundred bytes, most of them short; now and then with no end of its own."""
    text = bytes(RANDOM.choice(b"# 0127\t\v\f\0x\xff") for _ in range(int(RANDOM.expovariate(1 / 12))))
    return b"#" + text + RANDOM.choice((b"\n", b"\n", b"\n", b"\r", b"\r", b"\r\n", b"\n\r", RANDOM.choice((b"", b"\n"))))


def numeral(good, bad):
    """A number of a header, now and then a bad one."""
    return RANDOM.choice(good if RANDOM.random() < 0.95 else bad)


def side(value):
    """A side with this value, or a bad one: six digits, none, a size that is too large, also where it is cut to 16 bits."""
    return numeral((b"%d" % value, b"%02d" % value, b"%05d" % value), (b"%06d" % value, b"", b"0", b"%d" % (65536 + value)))


def white():
    """White space with comments: here and there none where some is due."""
    pieces = [RANDOM.choice((comment(), *WHITE.values())) for _ in range(RANDOM.choice((1, 1, 1, 2, 3, 4, 8)))]
    return b"".join(pieces) if RANDOM.random() < 0.99 else b""


def commented():
    """Files whose headers have comments at random; one header in five is filled to 509 to 515 bytes by one of its comments."""
    for number in range(COMMENTED):
        largest = numeral((b"255", b"0255", b"00255"), (b"000255", b"", b"254", b"00254"))
        words = [b"P6", white(), side(2), white(), side(1), white(), largest, RANDOM.choice(list(WHITE.values()))]
        header = b"".join(words)
        more = RANDOM.randint(509, 515) - len(header)
        if number % 5 == 0 and more >= 2:
            text = (more % 2 * b"x" + more * "ö".encode())[: more - 2]
            words.insert(RANDOM.choice((1, 3, 5)), b"#" + text + RANDOM.choice((b"\n", b"\r")))
            header = b"".join(words)
        after = RANDOM.choice((b"", b"", b"", b"", b"", b"", b"#\n", b"\n"))
        yield f"number {number}", header + after + SAMPLES[: RANDOM.choice((6, 6, 6, 6, 6, 5))]


def in_pieces(case, file, length):
    """The input comes in pieces, and the program must put them together."""
    with subprocess.Popen([START], stdin=subprocess.PIPE, stdout=subprocess.PIPE, stderr=subprocess.PIPE) as child:
        try:
            for i in range(0, len(file), length):
                child.stdin.write(file[i : i + length])
                child.stdin.flush()
                time.sleep(0.005)  # so that the program meets each piece by itself
        except BrokenPipeError:
            fault(case, "the program was done before all of the input came")
        out, errors = child.communicate(timeout=LONGEST_RUN)
        judge(case, answer(file), child.returncode, out, errors)


def from_file(case, file):
    """Standard input is a file, and no more of it is read than the longest input takes and one byte."""
    with tempfile.TemporaryFile() as stream:
        stream.write(file)
        stream.seek(0)
        expect(case, [START], answer(file), stdin=stream)
        if os.lseek(stream.fileno(), 0, os.SEEK_CUR) > MOST_READ:
            fault(case, f"more than {MOST_READ} bytes are read")


def unreadable():
    """A read error counts as the end of the input."""
    expect("standard input is closed", ["bash", "-c", 'exec "$0" <&-', START], REFUSALS[0])
    place = os.open(BY_TOOLS, os.O_RDONLY)
    expect("standard input is a folder", [START], REFUSALS[0], stdin=place)
    os.close(place)


def unwritable(file):
    """A failed write is told on standard error."""
    global inputs
    for case, output in ("standard output is full", ">/dev/full"), ("standard output is closed", ">&-"):
        inputs += 1
        done = subprocess.run(
            ["bash", "-c", f'exec "$0" {output}', START], input=file, stderr=subprocess.PIPE, timeout=LONGEST_RUN, check=False
        )
        if done.stderr != b"balance: the output could not be written\n":
            fault(case, f"standard error: {shown(done.stderr)}")


def streams(cases):
    before = inputs
    files = {case.name: case.file for case in cases}
    in_pieces("the reference file byte by byte", files["reference"], 1)
    in_pieces("the longest file in pieces", files["longest"], 4999)
    in_pieces("the longest file and one byte in pieces", files["longest_and_1"], 4999)
    for name in "reference", "cut_after_16", "longest", "longest_and_1", "longest_and_100000":
        from_file(f"{name} from a file", files[name])
    unreadable()
    unwritable(files["reference"])
    print(f"file: streams: {inputs - before} inputs")


def main():
    cases = table()
    agreement(cases)
    if faults:
        sys.exit(f"file: FAILED: {len(faults)} faults in the table, and nothing was run")
    each_case(cases)
    samples()
    streams(cases)
    generated("every byte of the header", every_byte(HEADER))
    generated("every byte of a header with comments", every_byte(COMMENTED_HEADER))
    generated("mutated", mutated(cases))
    generated("comments at random", commented())
    if faults:
        sys.exit(f"file: FAILED: {len(faults)} faults in {inputs} inputs, seed {SEED}")
    print(f"file: {inputs} inputs, seed {SEED}: ok")


if len(sys.argv) not in (3, 4):
    sys.exit(__doc__)
START, PROGRAM = map(os.path.abspath, sys.argv[1:3])
SEED = int(sys.argv[3]) if len(sys.argv) == 4 else DEFAULT_SEED
RANDOM = random.Random(SEED)
main()
