"""Runs a filter on a stream that is fed in one way or another, and compares how it ends, what it writes and what it says."""

import fcntl
import os
import select
import signal
import struct
import subprocess
import sys
import tempfile
import termios
import threading
import time
from typing import NamedTuple

LONGEST_RUN = 60  # seconds
MOST_TOLD = 3  # faults of one group
SHOWN = 60  # bytes
PIPE_SIZE = 2**20


class Came(NamedTuple):
    """How a filter ended, and what came on standard output and standard error."""

    status: int
    written: bytes
    said: bytes


def shown(data):
    return repr(data[:SHOWN]) + (f" and {len(data) - SHOWN} bytes" if len(data) > SHOWN else "")


def difference(expected, came):
    """Where two outputs part, for a reader."""
    at = next((i for i, (one, other) in enumerate(zip(expected, came)) if one != other), min(len(expected), len(came)))
    return f"{len(expected)} bytes expected, {len(came)} came, different from byte {at} on: {shown(expected[at:])}, {shown(came[at:])}"


class Group:
    """Runs that are told of in one line."""

    def __init__(self, name):
        self.name = name
        self.runs = 0
        self.faults = 0
        self.words = set()

    def fault(self, case, what):
        self.faults += 1
        if self.faults <= MOST_TOLD:
            print(f"streams: FAILED: {self.name}: {case}: {what}", flush=True)

    def judge(self, case, answer, came):
        self.runs += 1
        self.words.add(came.said.partition(b"\n")[0])
        if came.status != answer.status:
            self.fault(case, f"exit status {came.status} in place of {answer.status}")
        if came.written != answer.written:
            self.fault(case, f"standard output: {difference(answer.written, came.written)}")
        if came.said != answer.said:
            self.fault(case, f"standard error: expected {answer.said!r}, came {came.said!r}")

    def expect(self, case, command, stream, answer):
        """The stream comes through a pipe, all that fits at once."""
        self.judge(case, answer, run(command, stream))

    def expect_from_file(self, case, command, stream, answer):
        """The stream is a file, and no more of it is taken than is said."""
        came, taken = run_from_file(command, stream)
        self.judge(case, answer, came)
        if taken != answer.read:
            self.fault(case, f"{taken} bytes of the stream are taken in place of {answer.read}")

    def refused_by(self, *numbers):
        """Each of these numbers must have come up."""
        for number in numbers:
            if b"refused %d" % number not in self.words:
                self.fault("coverage", f"nothing is refused by {number}")

    def told(self):
        print(f"streams: {self.name}: {self.runs} runs" + (f", {self.faults} FAULTS" if self.faults else ""), flush=True)


def begun(command, **streams):
    """A command that has begun. It has a session of its own, so that one that does not end can be ended with all that it has begun."""
    streams = {"stdin": subprocess.DEVNULL, "stdout": subprocess.PIPE, "stderr": subprocess.PIPE, **streams}
    return subprocess.Popen(command, start_new_session=True, **streams)


def ended(child, given=None):
    """How a command ends, given these bytes if any; of an output that is not its pipe there is nothing."""
    try:
        written, said = child.communicate(given, timeout=LONGEST_RUN)
    except subprocess.TimeoutExpired:
        os.killpg(child.pid, signal.SIGKILL)
        sys.exit(f"streams: FAILED: {child.args}: not done after {LONGEST_RUN} s")
    return Came(child.returncode, written or b"", said or b"")


def run(command, given=None, **streams):
    """Runs a command; it is given these bytes through a pipe, all that fits at once."""
    if given is not None:
        streams["stdin"] = subprocess.PIPE
    return ended(begun(command, **streams), given)


def run_from_file(command, stream, **streams):
    """Also says how many bytes of the file are taken."""
    with tempfile.TemporaryFile() as file:
        file.write(stream)
        file.seek(0)
        return run(command, stdin=file, **streams), os.lseek(file.fileno(), 0, os.SEEK_CUR)


def waiting(place):
    """How many bytes of a pipe or a terminal nobody has read yet."""
    return struct.unpack("i", fcntl.ioctl(place, termios.FIONREAD, bytes(4)))[0]


def await_empty(place):
    """Until all that a pipe holds is read."""
    end, poll = time.monotonic() + LONGEST_RUN, select.poll()
    poll.register(place, 0)
    while waiting(place):
        if poll.poll(0):
            raise BrokenPipeError
        if time.monotonic() > end:
            sys.exit(f"streams: FAILED: a filter has not read on for {LONGEST_RUN} s")
        time.sleep(0.00005)


def write_all(place, data):
    view = memoryview(data)
    while view:
        view = view[os.write(place, view) :]


def feed(place, pieces, one_by_one=False):
    """Writes pieces to a pipe. One by one, each is read before the next is written. Where nobody reads on, the rest is left."""
    try:
        for piece in pieces:
            write_all(place, piece)
            if one_by_one:
                await_empty(place)
    except BrokenPipeError:
        pass


def feed_and_close(place, pieces, one_by_one=False):
    feed(place, pieces, one_by_one)
    os.close(place)


def pipe(size=PIPE_SIZE):
    """The ends of a pipe to read from and to write to, which holds so many bytes."""
    ends = os.pipe()
    fcntl.fcntl(ends[1], fcntl.F_SETPIPE_SZ, size)
    return ends


def started(command, size=PIPE_SIZE):
    """A filter that waits for its stream, and the end of the pipe to write it to."""
    source, place = pipe(size)
    child = begun(command, stdin=source)
    os.close(source)
    return child, place


def run_fed(command, pieces, one_by_one=False, size=PIPE_SIZE):
    """The stream comes through a pipe in pieces."""
    child, place = started(command, size)
    feeder = threading.Thread(target=feed_and_close, args=(place, pieces, one_by_one), daemon=True)
    feeder.start()
    came = ended(child)
    feeder.join()
    return came
