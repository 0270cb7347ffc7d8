"""Scripts that do not come all at once, or not from a pipe, or are far larger than what a program may keep of them."""

import os
import pathlib
import re
import select
import subprocess
import tempfile
import threading
import time

import second

ANSWER_WITHIN = 20  # seconds
LONGEST_RUN = 60
MOST_GROWTH = 8192  # kB that a program may take for a script of any length
HUGE_LINE = 12 * 2**20
STRIPS = 200  # lines of some 60,000 bytes beside it
UNREADABLE = b"replay: the script could not be read\n"
UNWRITABLE = b"replay: the answers could not be written\n"


def started(command):
    return subprocess.Popen(command, stdin=subprocess.PIPE, stdout=subprocess.PIPE, stderr=subprocess.PIPE, bufsize=0)


def came_within(child, length):
    """What a program writes until it is so long, or the time is up, or the program ends."""
    came = b""
    until = time.monotonic() + ANSWER_WITHIN
    while len(came) < length and select.select([child.stdout], [], [], max(0, until - time.monotonic()))[0]:
        piece = os.read(child.stdout.fileno(), length - len(came))
        if not piece:
            break
        came += piece
    return came


def feed(child, pieces, pause=0.0):
    """Writes pieces. A program that ends before the last is told of by what it answered."""
    try:
        for piece in pieces:
            for start in range(0, len(piece), 2**16):
                child.stdin.write(piece[start : start + 2**16])
            time.sleep(pause)
    except BrokenPipeError:
        pass


def feeding(child, pieces, pause=0.0):
    """Starts to write pieces, so that the answers can be read meanwhile."""
    feeder = threading.Thread(target=feed, args=(child, pieces, pause), daemon=True)
    feeder.start()
    return feeder


def ended(child, feeder):
    """How a program ends, and what it still writes, once its input ends; one that does not take all of it is killed."""
    feeder.join(ANSWER_WITHIN)
    if feeder.is_alive():
        child.kill()
        feeder.join()
    rest, errors = child.communicate(timeout=LONGEST_RUN)
    return child.returncode, rest, errors


def in_pieces(group, script, length, pause):
    """The script comes in pieces, and the program must put them together. A last line without LF is answered at the end."""
    pieces = [script[i : i + length] for i in range(0, len(script), length)]
    with started(group.command) as child:
        feeder = feeding(child, pieces, pause)
        came = came_within(child, len(second.answers(script[: script.rfind(b"\n") + 1])))
        status, rest, errors = ended(child, feeder)
    group.judge(script, status, came + rest, errors, f"in pieces of {length} bytes")


def early(child):
    return bool(select.select([child.stdout], [], [], 0.0005)[0])


def answered(child, line, due):
    """What is wrong with the answer to a line; None if it is as due, after the LF and not before."""
    try:
        child.stdin.write(line[:-1])
        if early(child):
            return "an answer before the LF"
        child.stdin.write(line[-1:])
    except BrokenPipeError:
        return "the program has ended"
    came = came_within(child, len(due))
    return None if came == due else f"expected {due[:60]!r} within {ANSWER_WITHIN} s, came {came[:60]!r}"


def line_by_line(group, script):
    """Each line is written once the one before it is answered."""
    talker, came = second.Second(), b""
    with started(group.command) as child:
        for line in second.lines_of(script):
            due = b"".join(answer * times for answer, times in talker.reply(line))
            wrong = answered(child, line + b"\n", due)
            if wrong:
                child.kill()
                group.fault("streams", f"line by line: line {talker.line} {line[:60]!r}: {wrong}")
                return
            came += due
        rest, errors = child.communicate(timeout=LONGEST_RUN)
    group.judge(script, child.returncode, came + rest, errors, "line by line")


def from_file(group, script):
    with tempfile.TemporaryFile() as stream:
        stream.write(script)
        stream.seek(0)
        group.attempt(script, "from a file", stdin=stream)


def unreadable(group):
    """A script that cannot be read gets no answer, and a word on standard error."""
    command = group.command
    group.command = ["bash", "-c", 'exec "$0" <&-', *command]
    group.attempt(b"", "standard input is closed", UNREADABLE)
    group.command = command
    place = os.open(pathlib.Path(__file__).parent, os.O_RDONLY)
    group.attempt(b"", "standard input is a folder", UNREADABLE, stdin=place)
    os.close(place)


def unwritable(group):
    """Answers that cannot be written get a word on standard error, in the middle of a script and for its last line."""
    for script in b"open 1\nopen 2\n", b"open 1":
        with open("/dev/full", "wb") as full:
            done = subprocess.run(group.command, input=script, stdout=full, stderr=subprocess.PIPE, timeout=LONGEST_RUN, check=False)
        if (done.returncode, done.stderr) != (0, UNWRITABLE):
            group.fault("streams", f"nothing can be written: exit status {done.returncode}, standard error {done.stderr!r}")


def endless(group):
    """The most that a line can repeat: its first answers come, and more of them."""
    expected = 100000 * b"0 010102\n"
    with started(group.command) as child:
        feed(child, [b"repeat 4294967295 move 1 010203 3\n"])
        came = came_within(child, len(expected))
        child.kill()
    if came != expected:
        group.fault("streams", f"repeated 4294967295 times: {len(came)} bytes came, the first {came[:60]!r}")


def most_memory(child):
    """The most kB of memory that a program has had; 0 for one that has ended, which its answers show."""
    status = pathlib.Path(f"/proc/{child.pid}/status").read_text(encoding="utf-8")
    found = re.search(r"^VmHWM:\s+(\d+) kB$", status, re.M)
    return int(found[1]) if found else 0


def large_lines():
    """Some 24 MB, half of it one line."""
    yield b"measure 1 " + b"0a141e" * 10000
    yield b"#" + b"x" * HUGE_LINE
    for i in range(STRIPS):
        yield b"measure %d " % (i % 2 + 2) + b"0a141e" * (9999 + i % 2)
    yield b"fix 3 1"
    yield b"colour 3 1 mix 3f000000 " + b"0a141e" * 5000 + b" " + b"000000" * 5000


def large(group):
    """After a first long line a program needs no more memory, however much comes."""
    lines = [line + b"\n" for line in large_lines()]
    script = b"".join(lines)
    expected = second.answers(script)
    with started(group.command) as child:
        feed(child, lines[:1])
        came = came_within(child, len(b"0\n"))
        before = most_memory(child)
        feeder = feeding(child, lines[1:])
        came += came_within(child, len(expected) - len(came))
        growth = most_memory(child) - before
        status, rest, errors = ended(child, feeder)
    if growth > MOST_GROWTH:
        group.fault("streams", f"a script of {len(script)} bytes takes {growth} kB more than its first line")
    group.judge(script, status, came + rest, errors, "a large script")
    print(f"lists: a script of {len(script)} bytes takes {growth} kB more than its first line")
