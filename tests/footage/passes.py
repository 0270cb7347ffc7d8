"""A clip in two passes, a reel, many clips, and stills: what comes out is what the second version writes."""

import math
from fractions import Fraction

from clips import WHOLE, Clip, contents, ffmpeg, make, rgb, size, turn
from exact import balanced, coloured, curve_of
from frames import curve_of_shot, cut, each, expect_clip, packed
from pasted import BLOCKS, SOURCED, do, expect, run


def try_passes(room, case, clip, second="pass 2"):
    """Both passes."""
    make(clip, room / "in.mp4")
    frames = rgb(room / "in.mp4")
    expect(case, len(frames) == 3 * math.prod(clip.size) * clip.frames, f"the clip has {len(frames)} bytes")
    curve = curve_of_shot(frames, clip.size)
    do(case, BLOCKS["pass 1"], room)
    expect(case, (room / "shot.curve").read_bytes() == packed(curve), "the curve is not that of the second version")
    do(case, BLOCKS[second], room)
    due = coloured(frames, curve, 2)
    do(f"{case}: the check", BLOCKS["check"], room)
    expect_clip(case, room, clip, due)
    return frames, due


def passes(room):
    try_passes(room, "a clip with sound", Clip((640, 360), 4, sounds=1))
    try_passes(room, "a clip with two sounds, in H.264", Clip((480, 270), 5, Fraction(24000, 1001), sounds=2), "H.264")
    try_passes(room, "a clip with frames left out", Clip((320, 240), 8, filters="select='not(eq(mod(n,3),1))'"))
    try_passes(room, "pictures that start late", Clip((352, 288), 12, Fraction(25), 1, Fraction(1, 2), container="mpegts"))
    small = Clip((160, 98), 3, encoder=WHOLE, container="matroska")
    frames, full = try_passes(room, "a clip in RGB", small)
    do("half the balance", BLOCKS["pass 2"].replace("shot.curve", "shot.curve mix 128"), room)
    expect("half the balance", run(BLOCKS["check"], room)[0] == 1, "the check takes it for the balance")
    expect_clip("half the balance", room, small, bytes((sample + other + 1) // 2 for sample, other in zip(frames, full)))
    try_turned(room)
    try_cut_short(room)


def try_turned(room):
    """A clip that a player has to turn comes out as it is stored."""
    make(Clip((160, 90), 3), room / "in.mp4")
    frames = rgb(room / "in.mp4")
    turn(room / "in.mp4", room / "turned.mp4")
    expect("a clip to be turned", do("a clip to be turned", f"{SOURCED}decode turned.mp4", room) == frames, "it is not as it is stored")


def try_cut_short(room):
    """What ffmpeg cannot read is missing, and it says so; the status is 0."""
    make(Clip((320, 240), 30, container="matroska"), room / "whole.mkv")
    file = (room / "whole.mkv").read_bytes()
    (room / "in.mp4").write_bytes(file[: len(file) // 2])
    status, wrote, said = run(f"{SOURCED}decode in.mp4", room)
    expect("a clip cut short", status == 0 and said, f"status {status}: {said}")
    expect("a clip cut short", 0 < len(wrote) < 3 * 320 * 240 * 30, f"{len(wrote)} bytes")


def reel(room):
    """A curve for each shot of a reel."""
    clip = Clip((160, 90), 70, sounds=1)
    make(clip, room / "in.mp4")
    frames = rgb(room / "in.mp4")
    shots = [cut(frames, clip.size, *ends) for ends in ((0, 24), (24, 60), (60, None))]
    do("a reel", BLOCKS["reel"], room)
    expect_clip("a reel", room, clip, b"".join(balanced(shot, 1, 2) for shot in shots))


def many(room):
    """One curve for many clips, of two sizes."""
    (room / "reel").mkdir()
    clips = Clip((160, 90), 9, sounds=1), Clip((240, 136), 5, Fraction(25))
    for place, clip in enumerate(clips):
        make(clip, room / f"reel/{place} one.mp4")
    frames = [rgb(room / f"reel/{place} one.mp4") for place in range(len(clips))]
    curve = curve_of(b"".join(frames), 1)
    do("one curve", BLOCKS["one curve"], room)
    expect("one curve", (room / "reel.curve").read_bytes() == packed(curve), "the curve is not that of the second version")
    do("many clips", BLOCKS["many clips"], room)
    for place, clip in enumerate(clips):
        (room / f"reel/{place} one.mp4").rename(room / "in.mp4")
        (room / f"reel/{place} one.mkv").rename(room / "out.mkv")
        expect_clip("many clips", room, clip, coloured(frames[place], curve, 2))


def try_still(room, name, words, sides):
    """A picture through a block."""
    ffmpeg("-f", "lavfi", "-i", *words, "-frames:v", "1", room / "in.png")
    before = rgb(room / "in.png")
    # later versions of ImageMagick have something to say about convert
    status, _, said = run(BLOCKS[name], room)
    expect(name, status == 0, f"status {status}: {said}")
    expect(name, size(room / "out.png") == sides, f"the picture has become {size(room / 'out.png')}")
    expect(name, rgb(room / "out.png") == coloured(before, curve_of_shot(before, sides), 2), "the picture is not that of the second version")


def still_by_imagemagick(room):
    name = "still by ImageMagick"
    try_still(room, name, ("testsrc2=size=4200x4000", "-pix_fmt", "rgb24"), (4200, 4000))
    try_still(room, name, ("gradients=size=131x77:seed=5", "-pix_fmt", "gray"), (131, 77))


def still_by_ffmpeg(room):
    name = "still by ffmpeg"
    try_still(room, name, ("testsrc2=size=802x600", "-pix_fmt", "rgb24"), (802, 600))
    try_still(room, name, ("gradients=size=131x77:seed=5", "-pix_fmt", "gray"), (131, 77))


def even(room):
    """A clip with uneven times, brought to one rate: each of its frames is one of the clip's, and the time is kept."""
    case = "uneven times"
    clip = Clip((160, 90), 40, Fraction(25), 1, filters="select='not(between(mod(n,9),2,4))'")
    make(clip, room / "in.mp4")
    do(case, BLOCKS["even"], room)
    before, after = (each(rgb(room / name), clip.size) for name in ("in.mp4", "even.mkv"))
    expect(case, len(before) == 40 and len(after) > 55 and set(after) <= set(before), f"{len(before)} frames have become {len(after)}")
    expect(case, contents(room / "even.mkv").pictures["avg_frame_rate"] == "25/1", "not the rate of the clip")
    wide = f"{SOURCED}decode in.mp4 | encode in.mp4 wide.mkv -aspect 4:3"
    do("an aspect", wide, room)
    expect("an aspect", contents(room / "wide.mkv").pictures["display_aspect_ratio"] == "4:3", "it is not stated")
