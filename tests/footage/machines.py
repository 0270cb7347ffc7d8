"""One shot on many cores and many machines: the parts put together are the bytes that one writes."""

import shutil
from fractions import Fraction

from clips import Clip, contents, make, rgb
from exact import coloured
from frames import curve_of_shot, cut, expect_clip
from pasted import BLOCKS, SOURCED, do, expect, figures, run, words_of

SSH = """#!/bin/bash
# a stand-in: a machine that is this one, entered in its root
while [[ $1 == -* && $1 != -- ]]; do shift; done
echo "$1" >>"%s"
while [[ $1 != exec ]]; do shift; done
cd / && exec env -i PATH="$PATH" HOME=/ SHELL=/bin/bash bash -c "$*"
"""


def make_shot(room, clip):
    """A clip with its curve; what one machine writes for it."""
    make(clip, room / "in.mp4")
    do("a shot", BLOCKS["pass 1"], room)
    return do("a shot", f"{SOURCED}decode in.mp4 | bin/colour shot.curve", room)


def cores(room):
    """A stream of more than one block, coloured side by side."""
    (block,) = figures(r"`30M`, ([\d,]+) bytes, is\.")
    clip = Clip((640, 360), 46, sounds=1)
    alone = make_shot(room, clip)
    expect("the cores", block == 30 * 2**20 and block % 3 == 0 and block < len(alone), "not two blocks of whole pixels")
    do("the cores", BLOCKS["cores"], room)
    expect_clip("the cores", room, clip, alone)
    clip = Clip((160, 90), 20, sounds=1)
    alone = make_shot(room, clip)
    # where the first block is written a second after the others
    late = '"$@" >"$PARALLEL_SEQ.rgb" && { [ "$PARALLEL_SEQ" != 1 ] || sleep 1; } && cat "$PARALLEL_SEQ.rgb"\n'
    (room / "late").write_text(late, encoding="ascii")
    do("the cores", BLOCKS["cores"].replace("30M", "300k").replace("bin/colour", "bash late bin/colour"), room)
    expect_clip("the cores", room, clip, alone)
    status, _, said = run(BLOCKS["cores"].replace("30M", "301k"), room)
    expect("blocks of broken pixels", status and "refused 2" in said, f"status {status}: {said}")


def jobs(room):
    """Jobs by themselves, and their segments joined."""
    clip = Clip((160, 90), 70, sounds=1)
    alone = make_shot(room, clip)
    frames = rgb(room / "in.mp4")
    expect("the job", alone == coloured(frames, curve_of_shot(frames, clip.size), 2), "one machine writes other bytes than the second version")
    do("the job", BLOCKS["job"], room)
    for words in "5 x", "48", "90 95", "10 5":
        status, _, said = run(f"./job.sh {words}", room)
        expect("a job without a frame", status, f"status 0 for {words}: {said}")
    expect("a job without a frame", not list((room / "segments").glob("*.mkv")), "a segment has its name")
    # out of order, from another folder, and by the environment, with leading zeros
    do("the jobs", "./job.sh 48 71 && ./job.sh 24 47 && cd target && FIRST=0000 LAST=0023 ../job.sh", room)
    segment = room / "segments/00000024.mkv"
    expect("a segment", rgb(segment) == cut(alone, clip.size, 24, 48) and not contents(segment).others, "not the frames asked for, alone")
    do("the join", BLOCKS["join"], room)
    expect_clip("the join", room, clip, alone)
    try_bad_segments(room)


def queue(room):
    """GNU parallel as the queue, here and on two machines; setts gives the segments of a clip that starts late their times."""
    clip = Clip((160, 90), 50, Fraction(25), 1, Fraction(1, 2), container="mpegts")
    alone = make_shot(room, clip)
    for block in "job", "queue", "join":
        do(f"the {block}", BLOCKS[block], room)
    expect_clip("the queue", room, clip, alone)
    shutil.rmtree(room / "segments")
    try_machines(room, clip, alone)


def try_bad_segments(room):
    """One that is cut short or missing; ffmpeg's concat by itself ends with 0."""
    segment = room / "segments/00000024.mkv"
    file = segment.read_bytes()
    segment.write_bytes(file[: len(file) // 2])
    for case in "a segment cut short", "a segment missing":
        status, _, said = run(BLOCKS["join"], room)
        expect(case, status == 1, f"status {status}: {said}")
        status, _, said = run(BLOCKS["join"].split(" && test")[0], room)
        expect(case, status == 0, f"ffmpeg by itself: status {status}: {said}")
        segment.unlink(missing_ok=True)


def try_machines(room, clip, alone):
    """The queue on two machines, by a stand-in for ssh."""
    (option,) = words_of(r"with `(-S one,two --workdir [^`]+)` it starts the jobs")
    ssh, log = room / "broken/ssh", room / "ssh.log"
    ssh.parent.mkdir()
    ssh.write_text(SSH % log, encoding="ascii")
    ssh.chmod(0o755)
    status, _, said = run(BLOCKS["queue"].replace("parallel ", f"parallel {option} "), room)
    expect("two machines", status == 0 and {"one", "two"} <= set(log.read_text().split()), f"status {status}: {said}")
    do("two machines", BLOCKS["join"], room)
    expect_clip("two machines", room, clip, alone)
