"""One stream fed in many ways: all must come to the same bytes, status and words."""

import os
import select
import sys
import threading
import time

from exact_filters import COLOUR, MEASURE, PIECE, Answer, coloured_pixels, not_read, not_written
from trial import LONGEST_RUN, begun, ended, feed_and_close, pipe, run, run_fed, started, write_all

SHORT_SIZES = 1, 2, 3, 4, 5, 7, 100
# pieces of these lengths straddle pixels and the pieces of 196,608 bytes in which a stream is taken
LONG_SIZES = 4097, 65535, 65536, 65537, PIECE - 1, PIECE, PIECE + 1, 2 * PIECE + 1


def cut(stream, size):
    return [stream[start : start + size] for start in range(0, len(stream), size)]


def cut_at_random(rng, stream):
    """Pieces of one byte up to some 100,000, short ones as likely as long ones."""
    pieces = []
    while stream:
        size = int(2 ** rng.uniform(0, 17))
        pieces.append(stream[:size])
        stream = stream[size:]
    return pieces


def with_pauses(rng, pieces):
    for piece in pieces:
        yield piece
        time.sleep(rng.choice((0, 0, 0.0002, 0.002)))


def in_many_ways(group, rng, start, program, words, stream, answer):
    """Feeds a stream by file, at once, and in pieces, each of which the filter meets by itself. `start` ends in the program."""
    name, command = f"{program.rpartition('/')[2]}, {len(stream)} bytes", [program, *words]
    group.expect_from_file(f"{name} by file", [start, *words], stream, answer)
    group.expect(f"{name} at once", [start, *words], stream, answer)
    for size in LONG_SIZES if len(stream) > 5000 else SHORT_SIZES:
        group.judge(f"{name} by {size}", answer, run_fed(command, cut(stream, size), one_by_one=True))
    for turn in range(3):
        pieces = cut_at_random(rng, stream)
        group.judge(f"{name} in {len(pieces)} random pieces", answer, run_fed(command, pieces, one_by_one=turn == 0))
        group.judge(f"{name} in them with pauses", answer, run_fed(command, with_pauses(rng, pieces), size=4096))


def read_slowly(place, rng):
    """What comes through a pipe, little by little."""
    came = b""
    while select.select([place], [], [], LONGEST_RUN)[0]:
        piece = os.read(place, rng.randint(1, 20000))
        if not piece:
            return came
        came += piece
        time.sleep(0.0005)
    sys.exit(f"streams: FAILED: nothing comes for {LONGEST_RUN} s after {len(came)} bytes")


def into_a_slow_reader(group, rng, command, stream, answer):
    """The output is taken little by little through a small pipe, so that what the filter writes does not fit at once."""
    (source, place), (written, output) = pipe(), pipe(4096)
    child = begun(command, stdin=source, stdout=output)
    os.close(source)
    os.close(output)
    feeder = threading.Thread(target=feed_and_close, args=(place, [stream]), daemon=True)
    feeder.start()
    slowly = read_slowly(written, rng)
    came = ended(child)
    feeder.join()
    os.close(written)
    group.judge("into a slow reader", answer, came._replace(written=slowly))


def unreadable(group, program, command):
    """A standard input that cannot be read from its first byte on is told, and is no empty stream."""
    answer = not_read(program, 0)
    place = os.open(os.path.dirname(os.path.abspath(__file__)), os.O_RDONLY)
    group.judge(f"{program}: standard input is a folder", answer, run(command, stdin=place))
    os.close(place)
    group.judge(f"{program}: standard input is closed", answer, run(["bash", "-c", 'exec "$0" "$@" <&-', *command]))


def run_until_failure(command, stream):
    """The stream comes, and the next read fails: the pipe is open, does not block, and has no more."""
    source, place = pipe()
    os.set_blocking(source, False)
    write_all(place, stream)
    came = run(command, stdin=source)
    os.close(source)
    os.close(place)
    return came


def failing_later(group, commands, entries, job, stream):
    """A read that fails after good ones is not the stream's end, neither inside a piece nor between two."""
    for length in 0, 1, 3, 6000, PIECE, PIECE + 3, 2 * PIECE:
        case, part = f"a read fails after {length} bytes", stream[:length]
        group.judge(f"measure: {case}", not_read(MEASURE, length), run_until_failure(commands[MEASURE], part))
        came = run_until_failure(commands[COLOUR], part)
        # what was read before is coloured, or some of it; how much is not promised
        if not coloured_pixels(entries, job, part).startswith(came.written) or len(came.written) % 3:
            group.fault(f"colour: {case}", "what is written is not the stream's beginning, coloured")
        group.judge(f"colour: {case}", not_read(COLOUR, length, came.written), came)


def unwritable(group, program, command, stream, read):
    """An output that is not written is told. (A disk without room, no output, and a pipe that nobody reads.)"""
    answer = not_written(program, read)
    for output in ">/dev/full", ">&-":
        case = f"{program}: standard output is {output}"
        group.judge(case, answer, run(["bash", "-c", f'exec "$0" "$@" {output}', *command], stream))
    source, place = pipe()
    os.close(source)
    group.judge(f"{program}: nobody reads its output", answer, run(command, stream, stdout=place))
    os.close(place)


def written_in_part(group, folder, program, command, stream, read, written):
    """An output of which a part is written, here a file that may have 1,024 bytes, is told too."""
    path = folder / "in part"
    limited = 'trap "" XFSZ; ulimit -f 1; place=$0; exec "$@" >"$place"'
    came = run(["bash", "-c", limited, path, *command], stream)
    answer = not_written(program, read)._replace(written=written[:1024])
    group.judge(f"{program}: standard output has room for 1024 bytes", answer, came._replace(written=path.read_bytes()))


def unheard(group, command, answer):
    """Where standard error takes nothing, the status and the output are the same."""
    for output in "2>/dev/full", "2>&-":
        came = run(["bash", "-c", f'exec "$0" "$@" {output}', *command], b"abcd")
        group.judge(f"{command[0].rpartition('/')[2]}: standard error is {output}", answer._replace(said=b""), came)


def early_end(group, command, curve):
    """A filter that refuses before its stream ends at once, also where the stream is open and nothing comes."""
    child, place = started([*command, curve, "3"])
    came = ended(child)
    os.close(place)
    group.judge("refused while nothing comes", Answer(1, b"", b"refused 7\ncolour: 0 pixels were read\n"), came)
