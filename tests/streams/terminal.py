"""How far a filter is, told once a second over the line before, where standard error is a terminal, and nowhere else."""

import os
import pty
import re
import termios
import threading
import time
import tty

from trial import LONGEST_RUN, begun, ended, pipe, write_all

PIECE = b"~0a@ !x\n" * 125  # of 1,000 bytes, so that pixels are cut, and of lines, which a terminal brings as they are
END_OF_INPUT = b"\4"  # at the start of a line
PAUSE = 0.1  # seconds
TOLD = re.compile(rb"\r(\d+) pixels(?: and ([12]) of 3 bytes)? were read")
# the last line that was told is ended, and the words that follow stand on one of their own
SAID = re.compile(rb"((?:%s)+)\n(.*)" % re.sub(rb"\((?!\?)", b"(?:", TOLD.pattern), re.S)


class Terminal:
    """A terminal on which a filter writes, and what came there."""

    def __init__(self):
        self.screen, self.end = pty.openpty()
        tty.setraw(self.end)
        self.came = b""
        self.watcher = threading.Thread(target=self.watch, daemon=True)

    def start(self):
        """Once the filter has its own hold of the terminal."""
        os.close(self.end)
        self.watcher.start()

    def watch(self):
        while True:
            try:
                data = os.read(self.screen, 65536)
            except OSError:
                # the filter has let go of it
                return
            self.came += data

    def all_that_came(self):
        self.watcher.join(LONGEST_RUN)
        os.close(self.screen)
        return self.came


def feed_until(place, over):
    """Writes a piece ten times a second until that is so; how many bytes that were. Where nobody reads on, the rest is left."""
    fed, last = 0, time.monotonic() + LONGEST_RUN
    try:
        while not over() and time.monotonic() < last:
            write_all(place, PIECE)
            fed += len(PIECE)
            time.sleep(PAUSE)
    except BrokenPipeError:
        pass
    return fed


def stream_of(fed, tail):
    return PIECE * (fed // len(PIECE)) + tail


def bring_lines(terminal):
    """Has a terminal end its input on that byte, and not as one that fails."""
    modes = termios.tcgetattr(terminal)
    modes[3] |= termios.ICANON
    termios.tcsetattr(terminal, termios.TCSANOW, modes)


def on_a_terminal(group, command, tail, answer_to):
    """A stream that comes slowly until it was told of twice, and then a tail; `answer_to` says what the filter answers to a stream."""
    terminal, (source, place) = Terminal(), pipe()
    start = time.monotonic()
    child = begun(command, stdin=source, stderr=terminal.end)
    os.close(source)
    terminal.start()
    fed = feed_until(place, lambda: len(TOLD.findall(terminal.came)) >= 2)
    answer = answer_to(stream_of(fed, tail))
    try:
        write_all(place, tail)
    except BrokenPipeError:
        pass
    os.close(place)
    came = ended(child)
    took = time.monotonic() - start
    said = terminal.all_that_came()
    case = f"{command[0].rpartition('/')[2]} on a terminal, {len(tail)} bytes at the end"
    found = SAID.fullmatch(said)
    if not found:
        group.fault(case, f"came {said!r}")
        return
    group.judge(case, answer, came._replace(said=found[2]))
    for what in told_faults(TOLD.findall(found[1]), fed + len(tail), took):
        group.fault(case, f"{what}: {said!r}")


def told_faults(told, length, took):
    """What is wrong with amounts that were told. A filter takes each piece as it comes."""
    amounts = [3 * int(pixels) + int(over or 0) for pixels, over in told]
    if not 2 <= len(amounts) <= took:
        yield f"{len(amounts)} times in {took:.1f} s"
    if amounts != sorted(set(amounts)) or amounts[-1] > length:
        yield f"{amounts} of {length} bytes"
    if any(amount % len(PIECE) for amount in amounts[:-1]):
        yield "not what came"


def elsewhere(group, command, answer_to):
    """A stream that comes for two and a half seconds, from one terminal to another, where standard error is none."""
    keyboard, screen = Terminal(), Terminal()
    bring_lines(keyboard.end)
    child = begun(command, stdin=keyboard.end, stdout=screen.end)
    screen.start()
    last = time.monotonic() + 2.5
    fed = feed_until(keyboard.screen, lambda: time.monotonic() > last)
    # whole lines and whole pixels
    tail = b"a\n"[2 - -fed % 3 :]
    write_all(keyboard.screen, tail + END_OF_INPUT)
    came = ended(child)._replace(written=screen.all_that_came())
    os.close(keyboard.screen)
    os.close(keyboard.end)
    group.judge(f"{command[0].rpartition('/')[2]} where standard error is no terminal", answer_to(stream_of(fed, tail)), came)
