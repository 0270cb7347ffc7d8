"""Blocks in which a program fails: so does the block."""

import shutil

from clips import Clip, ffmpeg, make
from pasted import BLOCKS, ROOT, do, expect, run

# for each block, the programs whose failure has to be its own, but for the last of a pipeline
FAILING = {
    "pass 1": ("ffmpeg",),
    "pass 2": ("ffmpeg", "bin/colour"),
    "reel": ("ffmpeg", "bin/measure", "bin/colour"),
    "one curve": ("ffmpeg",),
    "many clips": ("bin/colour",),
    "cores": ("ffmpeg", "bin/colour"),
    "queue": ("bin/colour",),
    "still by ImageMagick": ("convert", "bin/measure", "bin/colour"),
    "still by ffmpeg": ("bin/measure", "bin/colour"),
}


def break_tool(room, tool):
    """Has a program do its work and then fail, the first time that it is started; of ffmpeg, that which writes to the pipe."""
    real = ROOT / tool if "/" in tool else shutil.which(tool)
    wrapper = room / ("broken" if "/" not in tool else "") / tool
    wrapper.unlink(missing_ok=True)
    first = '[ "${!#}" = - ] && ' if tool == "ffmpeg" else ""
    wrapper.write_text(f'#!/bin/bash\n"{real}" "$@" || exit\n{first}mkdir "{room}/failed" 2>/dev/null && exit 1\nexit 0\n', encoding="ascii")
    wrapper.chmod(0o755)


def mend_tool(room, tool):
    if "/" in tool:
        (room / tool).unlink()
        (room / tool).symlink_to(ROOT / tool)
    else:
        (room / "broken" / tool).unlink()


def try_failing(room, name):
    """A block that is run as it stands, and with each of its programs failing."""
    do(name, BLOCKS[name], room)
    for tool in FAILING[name]:
        break_tool(room, tool)
        status, _, said = run(BLOCKS[name], room)
        (room / "failed").rmdir()
        expect(name, status, f"status 0 where {tool} fails: {said}")
        mend_tool(room, tool)


def failures(room, names):
    """Where a program of a pipeline fails in the end, so does the block."""
    (room / "bin").unlink()
    (room / "bin").mkdir()
    for program in "bin/measure", "bin/colour":
        (room / program).symlink_to(ROOT / program)
    (room / "broken").mkdir()
    (room / "reel").mkdir()
    make(Clip((32, 18), 62), room / "in.mp4")
    make(Clip((32, 18), 3), room / "reel/a.mp4")
    shutil.copy(room / "reel/a.mp4", room / "reel/b.mp4")
    ffmpeg("-f", "lavfi", "-i", "testsrc2=size=32x18", "-frames:v", "1", room / "in.png")
    do("the job", BLOCKS["job"], room)
    for name in names:
        try_failing(room, name)
