"""Runs a program on scripts, and compares what it answers with second.py and with the rules of kept.py."""

import pathlib
import subprocess
import sys
from collections import Counter
from itertools import accumulate
from typing import NamedTuple

import kept
import second

LONGEST_RUN = 60  # seconds
FAILED = pathlib.Path("target/lists")
NUMBERS = *range(1, 10), 17, 18
MOST_TOLD = 2  # faults of one kind in one group


class Line(NamedTuple):
    """A line of a script, and what a table says of it."""

    text: bytes
    due: object = None  # a number or a reason, None where the table does not say
    causes: frozenset = frozenset()  # of a refusal


def bytes_of(lines):
    return b"".join(line.text + b"\n" for line in lines)


def shown(data):
    return repr(data[:100]) + (f" and {len(data) - 100} bytes" if len(data) > 100 else "")


def line_at(data, place):
    """The line of some bytes that a place is in, with its LF."""
    start = data.rfind(b"\n", 0, place) + 1
    return data[start : data.find(b"\n", start) + 1 or len(data)]


def difference(script, replies, expected, came):
    """Which line of the script the first different answer belongs to, and both answers."""
    at = next((i for i, (a, b) in enumerate(zip(expected, came)) if a != b), min(len(expected), len(came)))
    ends = accumulate(sum(len(answer) * times for answer, times in reply) for reply in replies)
    lines = zip(second.lines_of(script), ends)
    of = next((f"line {number} {shown(line)}" for number, (line, end) in enumerate(lines, 1) if at < end), "after the last line")
    return f"{of}: expected {shown(line_at(expected, at))}, came {shown(line_at(came, at))}"


def run(command, script, **stdin):
    """The exit status and what came on standard output and standard error."""
    source = stdin or {"input": script}
    try:
        done = subprocess.run(command, capture_output=True, timeout=LONGEST_RUN, check=False, **source)
    except subprocess.TimeoutExpired:
        sys.exit(f"lists: FAILED: {shown(script)}: not done after {LONGEST_RUN} s")
    return done.returncode, done.stdout, done.stderr


def faults_of(script, replies, status, came, errors, said=b""):
    """What is wrong with a run, which has this to say on standard error: pairs of a kind and words."""
    expected = b"".join(answer * times for reply in replies for answer, times in reply)
    if came != expected:
        yield "comparison", difference(script, replies, expected, came)
    for line, rule, what in kept.broken(script, came)[:1]:
        yield "rules", f"line {line}: {rule}: {what}"
    if status != 0:
        yield "status", f"exit status {status}"
    if errors != said:
        yield "status", f"standard error: expected {shown(said)}, came {shown(errors)}"


class Tally:
    """How many lines were tried, and what they were answered."""

    def __init__(self):
        self.lines = 0
        self.numbers = Counter()
        self.reasons = Counter()

    def add(self, replies):
        self.lines += len(replies)
        for reply in replies:
            for answer, times in reply:
                self.count(answer, times)

    def count(self, answer, times):
        if answer.startswith(b"line "):
            self.reasons[answer.decode().rstrip("\n").partition(": ")[2]] += times
        else:
            self.numbers[int(answer.split()[0])] += times

    def include(self, other):
        self.lines += other.lines
        self.numbers += other.numbers
        self.reasons += other.reasons

    def __str__(self):
        refused = " ".join(f"{number}:{self.numbers[number]}" for number in NUMBERS)
        return (
            f"{self.lines} lines, {self.numbers.total()} calls, {self.numbers[0]} accepted, refused {refused}, "
            f"no call {self.reasons.total()}"
        )


def keep(script, name):
    """Writes a failing script to a file, whose name it hands back."""
    FAILED.mkdir(parents=True, exist_ok=True)
    path = FAILED / f"{name.replace(' ', '-')}.script"
    path.write_bytes(script)
    return path


class Group:
    """Scripts that are tried together and told of in one line."""

    def __init__(self, name, command, seed):
        self.name = name
        self.command = command
        self.seed = seed
        self.tally = Tally()
        self.scripts = 0
        self.faults = Counter()

    def fault(self, kind, what):
        self.faults[kind] += 1
        if self.faults[kind] <= MOST_TOLD:
            print(f"lists: FAILED: {self.name}, seed {self.seed}: {kind}: {what}", flush=True)

    def judge(self, script, status, came, errors, label="", said=b""):
        self.scripts += 1
        replies = second.replies(script)
        self.tally.add(replies)
        for kind, what in faults_of(script, replies, status, came, errors, said):
            where = label or f"script {self.scripts}"
            if kind != "status" and self.faults[kind] < MOST_TOLD:
                where += f" ({keep(script, f'{self.name} {self.scripts}')})"
            self.fault(kind, f"{where}: {what}")
        return replies

    def attempt(self, script, label="", said=b"", **stdin):
        """Runs the program on a script."""
        return self.judge(script, *run(self.command, script, **stdin), label, said)

    def attempt_lines(self, lines):
        """Runs it on lines, beside which stands what is due to some of them."""
        replies = self.attempt(bytes_of(lines))
        for number, (line, reply) in enumerate(zip(lines, replies, strict=True), 1):
            if line.due is not None and not self.is_due(number, line.due, reply):
                self.fault("tables", f"{shown(line.text)}: the table says {line.due}, second.py {reply[:1]}")

    @staticmethod
    def is_due(number, due, reply):
        if isinstance(due, str):
            return reply == [(f"line {number} is no call: {due}\n".encode(), 1)]
        return len(reply) == 1 and reply[0][0].split()[0] == b"%d" % due

    def end(self, numbers=(), reasons=()):
        """Tells of the group; each of the numbers and reasons must have been met."""
        for number in numbers:
            if not self.tally.numbers[number]:
                self.fault("coverage", f"no call is refused by {number}")
        for reason in reasons:
            if not self.tally.reasons[reason]:
                self.fault("coverage", f"no line is no call for being: {reason}")
        print(f"lists: {self.name}: {self.scripts} scripts, {self.tally}", flush=True)
