"""The filter examples/rgb24.c, built already: frames in and out, options, arguments, messages and exit statuses.

    rgb24.py FILTER MAKER [SEED]

MAKER is curve.c, built already, which writes the library's curves. What the filter has to write comes from exact.py alone.
Prints the seed of its random frames, one line a group, and `rgb24: N cases, seed S: ok`; the first failure ends it with status 1.
"""

import itertools
import os
import pathlib
import random
import re
import subprocess
import sys
import tempfile
import time
from typing import NamedTuple

sys.path.insert(0, str(pathlib.Path(__file__).resolve().parent.parent))
from exact import balanced, curve_of, moved, pixels_of

DEFAULT_SEED = 20170101
LINE = re.compile(
    r"frame (\d+): curve (\d+\.\d{3}) ms, colour (\d+\.\d{3}) ms, together (\d+\.\d{3}) ms, (\d+\.\d) % of 41\.7 ms"
)
LINE_OF_GIVEN = re.compile(r"frame (\d+): colour (\d+\.\d{3}) ms, (\d+\.\d) % of 41\.7 ms")
SUMMARY = re.compile(r"(\d+) frames: median (\d+\.\d{3}) ms, worst (\d+\.\d{3}) ms, (\d+) over 41\.7 ms")
USAGE = ["usage: rgb24 [-q] WIDTH HEIGHT [CHOICE] [METHOD]", "   or: rgb24 [-q] -c CURVE WIDTH HEIGHT [METHOD]"]
FEW, MANY = "rgb24: too few arguments", "rgb24: too many arguments"
BEFORE_USAGE = FEW, MANY, "rgb24: no such option: ", "rgb24: no file after -c"

SIZES = (1, 1), (5, 3), (3, 5), (32, 17)
IDENTITY = list(range(766))  # the curve that moves no pixel

cases = 0


class Mode(NamedTuple):
    """Options, and the entries of the curve that they give; None where each frame is measured."""

    options: list
    entries: list = None

    @property
    def quiet(self):
        return "-q" in self.options

    def written(self, frame, choice=1, method=2):
        """What has to be written for a frame."""
        if self.entries is None:
            return balanced(frame, choice, method)
        return bytes(sample for pixel in pixels_of(frame) for sample in moved(method, pixel, self.entries[sum(pixel)]))


MEASURED = Mode([]), Mode(["-q"])


def fail(case, what):
    sys.exit(f"rgb24: FAILED: {case}: {what}")


def expect(case, what, expected, came):
    if came != expected:
        fail(case, f"{what}: expected {expected!r}, came {came!r}")


def run(arguments, data=b"", **streams):
    """Runs the filter; its exit status, what it wrote, and the lines of its messages."""
    global cases
    cases += 1
    if "stdin" not in streams:
        streams["input"] = data
    streams.setdefault("stdout", subprocess.PIPE)
    done = subprocess.run([FILTER, *arguments], stderr=subprocess.PIPE, timeout=60, check=False, **streams)
    return done.returncode, done.stdout, done.stderr.decode().splitlines()


def random_frame(width, height, low=0, high=255):
    return bytes(RANDOM.randint(low, high) for _ in range(3 * width * height))


def three_frames(width, height):
    """Of all tones, of dark ones and of bright ones."""
    return [random_frame(width, height), random_frame(width, height, 0, 60), random_frame(width, height, 180, 255)]


def random_entries():
    return [0, *sorted(RANDOM.randint(0, 765) for _ in range(764)), 765]


def bytes_of(entries):
    """A curve as it travels: two bytes an entry, low byte first."""
    return b"".join(entry.to_bytes(2, "little") for entry in entries)


def file_of(data):
    """The path of a new file with these bytes."""
    path = pathlib.Path(ROOM.name, f"{next(FILE_NUMBERS)}.curve")
    path.write_bytes(data)
    return str(path)


def given(entries):
    """The modes in which a curve is given, with the options in each order."""
    file = file_of(bytes_of(entries))
    return Mode(["-c", file], entries), Mode(["-q", "-c", file], entries), Mode(["-c", file, "-q"], entries)


def every_mode():
    return *MEASURED, *given(random_entries())


def expect_times(case, mode, lines, frames):
    """The times belong to the machine; that they are there, add up and agree with the summary does not."""
    expect(case, "lines on standard error", frames + 1, len(lines))
    together = []
    for number, line in enumerate(lines[:-1], 1):
        found = (LINE if mode.entries is None else LINE_OF_GIVEN).fullmatch(line)
        if not found or int(found[1]) != number:
            fail(case, f"line {number} on standard error: {line!r}")
        *parts, both, share = map(float, found.groups()[1:])
        if parts and abs(sum(parts) - both) > 0.002 or abs(100 * both / 41.7 - share) > 0.06:
            fail(case, f"times that do not add up: {line!r}")
        together.append(both)
    found = SUMMARY.fullmatch(lines[-1])
    if not found:
        fail(case, f"summary: {lines[-1]!r}")
    together.sort()
    median = (together[(frames - 1) // 2] + together[frames // 2]) / 2
    expect(case, "frames of the summary", frames, int(found[1]))
    expect(case, "worst of the summary", together[-1], float(found[3]))
    if abs(median - float(found[2])) > 0.0011:
        fail(case, f"median of the summary: expected about {median}, came {found[2]}")
    # a time printed as 41.700 may lie on either side
    over = sum(t > 41.7 for t in together), sum(t >= 41.7 for t in together)
    if int(found[4]) not in over:
        fail(case, f"frames over the slot: expected {over[0]}, came {found[4]}")


def expect_frames(case, modes, arguments, frames, wanted):
    """Runs the filter on frames, in each mode: their bytes, and the lines that go with the options."""
    wanted = b"".join(wanted)
    for mode in modes:
        here = f"{case}, {mode.options}"
        status, out, lines = run([*mode.options, *arguments], b"".join(frames))
        expect(here, "exit status", 0, status)
        expect(here, "length of the output", len(wanted), len(out))
        for i, (want, came) in enumerate(zip(wanted, out)):
            expect(here, f"byte {i} of the output", want, came)
        if mode.quiet:
            expect(here, "standard error", [], lines)
        else:
            expect_times(here, mode, lines, len(frames))


def expect_balanced(case, arguments, frames, choice, method):
    expect_frames(case, MEASURED, arguments, frames, [balanced(frame, choice, method) for frame in frames])


def expect_coloured(case, modes, arguments, frames, method):
    expect_frames(case, modes, arguments, frames, [modes[0].written(frame, method=method) for frame in frames])


def frames_of_document_01():
    """The two pixels of `balance`, written out as document 02 has them."""
    two = bytes([100, 100, 100, 200, 200, 200])
    expect_frames("the two pixels of `balance`", MEASURED, ["2", "1"], [two], [bytes([98, 98, 98, 157, 157, 157])])
    # one of them by itself has the middle of the cube; by the curve of the two it is what it was beside the other
    expect_frames("a pixel by itself", MEASURED, ["1", "1"], [two[:3]], [bytes([127, 127, 127])])
    expect_frames("a pixel by the curve of two", given(curve_of(two, 1)), ["1", "1"], [two[:3]], [bytes([98, 98, 98])])


def good_runs():
    for width, height in SIZES:
        frames = three_frames(width, height)
        size = [str(width), str(height)]
        for choice in 1, 2:
            for method in 1, 2:
                case = f"{width} by {height}, {choice} {method}"
                expect_balanced(case, [*size, str(choice), str(method)], frames, choice, method)
            expect_balanced(f"{width} by {height}, {choice}, default method", [*size, str(choice)], frames[:2], choice, 2)
        expect_balanced(f"{width} by {height}, defaults", size, frames, 1, 2)
    expect_balanced("leading zeros", ["03", "002"], [random_frame(3, 2)], 1, 2)
    expect_balanced("twenty frames", ["2", "2"], [random_frame(2, 2) for _ in range(20)], 1, 2)
    # the times' room is made anew after 1,024 frames
    expect_balanced("1,030 frames", ["1", "2"], [random_frame(1, 2)] * 1030, 1, 2)


def given_curves():
    """Frames by the curves of another strip, by random curves, and by one that moves nothing."""
    for width, height in SIZES:
        frames = three_frames(width, height)
        size = [str(width), str(height)]
        strip = random_frame(9, 7, 40, 250)
        for entries in curve_of(strip, 1), curve_of(strip, 2), random_entries(), random_entries():
            modes = given(entries)
            for method in 1, 2:
                expect_coloured(f"{width} by {height}, method {method}", modes, [*size, str(method)], frames, method)
            expect_coloured(f"{width} by {height}, default method", modes, size, frames, 2)
        for method in "1", "2":
            expect_frames(f"a curve that moves nothing, method {method}", given(IDENTITY), [*size, method], frames, frames)
    modes = given(random_entries())
    expect_coloured("twenty frames", modes, ["4", "4"], [random_frame(4, 4) for _ in range(20)], 2)
    expect_coloured("1,030 frames", modes, ["1", "2"], [random_frame(1, 2)] * 1030, 2)


def made_by_the_library(strip, choice):
    global cases
    cases += 1
    return subprocess.run([MAKER, str(choice)], input=strip, stdout=subprocess.PIPE, timeout=60, check=True).stdout


def curves_of_the_library():
    """Curves that the library makes are taken, and are those of exact.py."""
    frames = three_frames(6, 2)
    for strip in random_frame(9, 7), random_frame(30, 30, 0, 60), random_frame(1, 1), bytes(3), bytes([255, 255, 255]):
        for choice in 1, 2:
            case = f"the library's curve of {len(strip)} bytes by choice {choice}"
            entries = curve_of(strip, choice)
            expect(case, "curve", bytes_of(entries), made_by_the_library(strip, choice))
            for method in 1, 2:
                expect_coloured(case, given(entries), ["6", "2", str(method)], frames, method)


def curves_from_a_pipe():
    """A curve may come from a pipe, whose length shows only at its end."""
    frame, entries = random_frame(6, 2), random_entries()
    for length, status_due in (1531, 1), (1532, 0), (1533, 1):
        case = f"{length} bytes of a curve from a pipe"
        reader, writer = os.pipe()
        os.write(writer, (bytes_of(entries) + b"\0")[:length])
        os.close(writer)
        status, out, _ = run(["-q", "-c", f"/dev/fd/{reader}", "6", "2"], frame, pass_fds=[reader])
        os.close(reader)
        expect(case, "exit status", status_due, status)
        expect(case, "output", b"" if status_due else Mode([], entries).written(frame), out)


def slow_input():
    """Frames that come in pieces, as through a pipe, are put together."""
    global cases
    cases += 1
    frames = [random_frame(4, 4) for _ in range(2)]
    data = b"".join(frames)
    with subprocess.Popen([FILTER, "4", "4"], stdin=subprocess.PIPE, stdout=subprocess.PIPE, stderr=subprocess.PIPE) as child:
        for i in range(0, len(data), 7):
            child.stdin.write(data[i : i + 7])
            child.stdin.flush()
            time.sleep(0.01)  # so that the filter meets each piece by itself
        out, _ = child.communicate(timeout=60)
        expect("input in pieces", "exit status", 0, child.returncode)
    expect("input in pieces", "output", b"".join(balanced(frame, 1, 2) for frame in frames), out)


def bad_sizes():
    """Arguments of a bad width or height, and what is said of them."""
    limit = 16777216
    return [
        (["0", "4"], f"rgb24: width is not from 1 to {limit}: 0"),
        (["4", "0"], f"rgb24: height is not from 1 to {limit}: 0"),
        (["16777217", "1"], f"rgb24: width is not from 1 to {limit}: 16777217"),
        (["1", "16777217"], f"rgb24: height is not from 1 to {limit}: 16777217"),
        (["1", "99999999999999999999999"], f"rgb24: height is not from 1 to {limit}: 99999999999999999999999"),
        # 2^32 pixels, which are none if cut to 32 bits
        (["65536", "65536"], f"rgb24: a frame of 65536 by 65536 has more than {limit} pixels"),
        (["4097", "4096"], f"rgb24: a frame of 4097 by 4096 has more than {limit} pixels"),
        (["16777216", "2"], f"rgb24: a frame of 16777216 by 2 has more than {limit} pixels"),
    ]


def bad_words(names):
    """Arguments with a word that is no number in the place of each name."""
    for text in "", "x", "4x", "4 ", " 4", "-4", "+4", "4.0", "0x4", "1e1":
        for place, name in enumerate(names):
            arguments = ["4", "4", "1", "1"][: len(names)]
            arguments[place] = text
            yield arguments, f"rgb24: {name} is not a number: '{text}'"


def bad_when_measured():
    """Arguments that are bad where each frame is measured, with the first line of what is said."""
    yield from ((words, FEW) for words in ([], ["4"]))
    yield ["4", "4", "1", "2", "3"], MANY
    yield from bad_sizes()
    yield from ((["4", "4", text], f"rgb24: choice is not from 1 to 2: {text}") for text in ("0", "3", "257", "4294967297"))
    yield from ((["4", "4", "1", text], f"rgb24: method is not from 1 to 2: {text}") for text in ("0", "3"))
    yield ["4", "4", "2", "258"], "rgb24: method is not from 1 to 2: 258"
    yield from bad_words(["width", "height", "choice", "method"])
    # options come first
    yield ["4", "4", "-q"], "rgb24: choice is not a number: '-q'"
    yield ["4", "-q", "4"], "rgb24: height is not a number: '-q'"


def bad_when_given():
    """The same where a curve is given: there is no choice."""
    yield from ((words, FEW) for words in ([], ["4"]))
    yield from ((words, MANY) for words in (["4", "4", "1", "2"], ["4", "4", "1", "2", "3"]))
    yield from bad_sizes()
    yield from ((["4", "4", text], f"rgb24: method is not from 1 to 2: {text}") for text in ("0", "3", "257", "4294967297"))
    yield from bad_words(["width", "height", "method"])
    yield ["4", "4", "-q"], "rgb24: method is not a number: '-q'"


def bad_options():
    """Options that there are not, and one without its file."""
    curve = file_of(bytes_of(IDENTITY))
    for text in "-", "--", "-x", "-Q", "-C", "-qq", "-qc", "-q1", "--quiet", "--help":
        for before in [], ["-q"], ["-c", curve], ["-q", "-c", curve]:
            yield [*before, text, "4", "4"], f"rgb24: no such option: '{text}'"
    for before in [], ["-q"], ["-c", curve]:
        yield [*before, "-c"], "rgb24: no file after -c"
    # the file is whatever follows
    yield ["-c", "4", "4"], FEW
    yield ["-c", "-q", "4"], FEW


def bad_arguments():
    refused = [*bad_options()]
    for mode in every_mode():
        bad = bad_when_measured if mode.entries is None else bad_when_given
        refused += [([*mode.options, *words], said) for words, said in bad()]
    # arguments are looked at before the curve is
    refused.append((["-c", file_of(b""), "4", "4", "3"], "rgb24: method is not from 1 to 2: 3"))
    for arguments, said in refused:
        status, out, lines = run(arguments, random_frame(4, 4))
        expect(arguments, "exit status", 2, status)
        expect(arguments, "output", b"", out)
        expect(arguments, "standard error", [said, *(USAGE if said.startswith(BEFORE_USAGE) else [])], lines)


def changed(entries, place, entry):
    """The bytes of a curve with another entry in one place."""
    return bytes_of([*entries[:place], entry, *entries[place + 1 :]])


def broken_curves():
    """Curves of which entry 0 is not 0, or entry 765 not 765, or one exceeds 765, or one is less than the one before."""
    highest, level = [0, *765 * [765]], [0, *764 * [300], 765]
    yield bytes(1532)
    yield bytes(1532 * [255])
    yield changed(highest, 0, 765)
    yield changed(IDENTITY, 0, 1)
    for entry in 764, 766, 765 + 1024:
        yield changed(IDENTITY, 765, entry)
    # entry 1 has none before it that it could be less than
    for place in 2, 400, 764:
        yield changed(highest, place, 764)
        yield changed(level, place, 299)
    for place in 1, 2, 400, 764:
        yield changed(highest, place, 766)
    # high byte first
    yield b"".join(entry.to_bytes(2, "big") for entry in IDENTITY)
    for _ in range(20):
        entries = random_entries()
        place = RANDOM.choice([place for place in range(1, 766) if entries[place - 1] > 0])
        yield changed(entries, place, RANDOM.randrange(entries[place - 1]))
        yield changed(entries, RANDOM.randrange(766), RANDOM.randint(766, 65535))


def refused_curve_files():
    """Curve files that are none, and what is said of them."""
    good = bytes_of(random_entries())
    missing, no_folder = ROOM.name + "/missing", file_of(good) + "/curve"
    yield from ((file, "No such file or directory") for file in (missing, missing + "/curve", ""))
    yield no_folder, "Not a directory"
    yield ROOM.name, "Is a directory"
    for length in 0, 1, 1530, 1531, 1533, 1534, 2 * 1532, 4096, 100000:
        yield file_of((good * 66)[:length]), "refused 10, it is not 1532 bytes long"
    # the length comes first
    yield file_of(bytes(1533)), "refused 10, it is not 1532 bytes long"
    yield from ((file_of(curve), "refused 11, its entries break the rule") for curve in broken_curves())


def refused_curves():
    """A curve that is none is told before a frame is read or written."""
    frames = file_of(random_frame(4, 4) * 3)
    for file, said in refused_curve_files():
        for options in ["-c", file], ["-q", "-c", file], ["-c", file, "-q"]:
            arguments = [*options, "4", "4", "1"]
            place = os.open(frames, os.O_RDONLY)
            status, out, lines = run(arguments, stdin=place)
            read = os.lseek(place, 0, os.SEEK_CUR)
            os.close(place)
            expect(arguments, "exit status", 1, status)
            expect(arguments, "output", b"", out)
            expect(arguments, "standard error", [f"rgb24: curve '{file}': {said}"], lines)
            expect(arguments, "bytes of the frames that were read", 0, read)


def short_input():
    first, second = random_frame(5, 4), random_frame(5, 4)
    for mode in every_mode():
        done = [mode.written(first), mode.written(second)]
        for length in 1, 2, 3, 59:
            for whole in range(3):
                case = f"{mode.options}, {whole} frames and {length} bytes of 60"
                status, out, lines = run([*mode.options, "5", "4"], (first + second)[: 60 * whole] + first[:length])
                expect(case, "exit status", 1, status)
                expect(case, "output", b"".join(done[:whole]), out)
                expect(case, "lines on standard error", 1 if mode.quiet else whole + 1, len(lines))
                expect(case, "message", f"rgb24: frame {whole + 1} ended after {length} of 60 bytes", lines[-1])
        status, out, lines = run([*mode.options, "5", "4"], b"")
        expect(f"{mode.options}, no input", "exit status", 1, status)
        expect(f"{mode.options}, no input", "output", b"", out)
        expect(f"{mode.options}, no input", "standard error", ["rgb24: no frame on standard input"], lines)


def read_errors():
    """A directory opens as standard input, but cannot be read."""
    for mode in every_mode():
        case = f"{mode.options}, reading a directory"
        place = os.open(os.path.dirname(os.path.abspath(__file__)), os.O_RDONLY)
        status, out, lines = run([*mode.options, "1", "1"], stdin=place)
        os.close(place)
        expect(case, "exit status", 1, status)
        expect(case, "output", b"", out)
        expect(case, "standard error", ["rgb24: reading frame 1: Is a directory"], lines)


def write_errors():
    for mode in every_mode():
        full = os.open("/dev/full", os.O_WRONLY)
        status, _, lines = run([*mode.options, "1", "1"], bytes(3), stdout=full)
        os.close(full)
        expect(f"{mode.options}, full device", "exit status", 1, status)
        expect(f"{mode.options}, full device", "standard error", ["rgb24: writing frame 1: No space left on device"], lines)

        reader, writer = os.pipe()
        os.close(reader)
        status, _, lines = run([*mode.options, "1", "1"], bytes(3), stdout=writer)
        os.close(writer)
        expect(f"{mode.options}, closed pipe", "exit status", 1, status)
        expect(f"{mode.options}, closed pipe", "standard error", ["rgb24: writing frame 1: Broken pipe"], lines)


def largest_frame():
    """16,777,216 pixels are taken: the frame is read, and the message tells how much of it came."""
    for mode in every_mode():
        case = f"{mode.options}, 4096 by 4096"
        status, out, lines = run([*mode.options, "4096", "4096"], bytes(10))
        expect(case, "exit status", 1, status)
        expect(case, "output", b"", out)
        expect(case, "standard error", ["rgb24: frame 1 ended after 10 of 50331648 bytes"], lines)


def main():
    print(f"rgb24: seed {SEED}")
    for group in (
        frames_of_document_01, good_runs, given_curves, curves_of_the_library, curves_from_a_pipe, slow_input,
        bad_arguments, refused_curves, short_input, read_errors, write_errors, largest_frame,
    ):
        before = cases
        group()
        print(f"rgb24: {group.__name__.replace('_', ' ')}: {cases - before} cases")
    print(f"rgb24: {cases} cases, seed {SEED}: ok")


if len(sys.argv) not in (3, 4):
    sys.exit(__doc__)
FILTER, MAKER = map(os.path.abspath, sys.argv[1:3])
SEED = int(sys.argv[3]) if len(sys.argv) == 4 else DEFAULT_SEED
RANDOM = random.Random(SEED)
ROOM = tempfile.TemporaryDirectory()
FILE_NUMBERS = itertools.count(1)
os.environ["LC_ALL"] = "C"  # the system's messages in English
main()
