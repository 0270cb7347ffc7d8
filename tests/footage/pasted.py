"""The blocks of docs/VIDEO.md, run as they would be pasted, and what the tests of them share: comparisons, figures, and frames."""

import contextlib
import os
import pathlib
import re
import subprocess
import tempfile

from pages import DOCS, blocks, flowing, read

ROOT = pathlib.Path.cwd()
PAGE, CALLS = DOCS / "VIDEO.md", DOCS / "CALLS.md"
LINKED = "bin", "include", "examples", "target/lib"
# the blocks of the page, in its order
NAMES = (
    "functions", "pass 1", "pass 2", "check", "H.264", "matrix", "reel", "one curve", "many clips", "cores", "job", "queue", "join", "delivery",
    "master", "still by ImageMagick", "still by ffmpeg", "even",
)
SOURCED = ". ./video.sh\n"
BLOCKS = dict(zip(NAMES, blocks(read(PAGE), "bash")))
# of the caller's own, none that a block would take for the reader's
ENVIRONMENT = {name: value for name, value in os.environ.items() if name not in ("matrix", "FIRST", "LAST")}
cases = 0


class Failed(Exception):
    """A comparison that failed."""


def expect(case, good, what):
    global cases
    cases += 1
    if not good:
        raise Failed(f"{case}: {what}")


def expect_names():
    count = len(blocks(read(PAGE), "bash"))
    if count != len(NAMES):
        raise SystemExit(f"video: FAILED: {PAGE} has {count} blocks for bash, in place of {len(NAMES)}")


def near(case, stated, measured, tolerance):
    """A figure of the page is what is measured."""
    expect(case, abs(stated - measured) <= tolerance, f"the page has {stated}, and measured is {float(measured):.2f}")


def words_of(pattern):
    """What stands at the groups of a pattern, in the one sentence of the page that has it."""
    found = list(re.finditer(pattern, flowing(read(PAGE))))
    if len(found) != 1:
        raise Failed(f"{PAGE}: {len(found)} sentences like: {pattern}")
    return found[0].groups()


def figures(pattern):
    """The numbers there."""
    return [float(number.replace(",", "")) for number in words_of(pattern)]


def run(script, room):
    """Runs a script as it would be pasted: its exit status, what it wrote, and what it said."""
    found = {**ENVIRONMENT, "PATH": f"{room / 'broken'}:{ENVIRONMENT['PATH']}"}
    done = subprocess.run(["bash", "-c", script], cwd=room, env=found, stdin=subprocess.DEVNULL, capture_output=True, check=False)
    return done.returncode, done.stdout, done.stderr.decode()


def do(case, script, room):
    """Runs a script that has to succeed; what it wrote."""
    status, wrote, said = run(script, room)
    expect(case, status == 0 and not said, f"status {status}: {said}")
    return wrote


@contextlib.contextmanager
def furnished():
    """A folder with the project's own programs and the page's functions, in which blocks are run."""
    with tempfile.TemporaryDirectory() as folder:
        room = pathlib.Path(folder)
        (room / "target").mkdir()
        for name in LINKED:
            (room / name).symlink_to(ROOT / name)
        do("the functions", BLOCKS["functions"], room)
        yield room
