"""What is measured of a long shot, and what one curve or many do to a fade."""

import math
import random
import re
from fractions import Fraction

from clips import SMALL, STILL, WHOLE, Clip, ffmpeg, make, rgb
from exact import balanced, curve_of, pixels_of
from frames import LIMIT, cut, each, expect_clip, packed, picked, step
from pages import blocks, read, table
from pasted import BLOCKS, CALLS, PAGE, SOURCED, do, expect, figures, near, run, words_of


def apart_at_most(one, other):
    """How far the entries of two curves lie apart."""
    return max(abs(a - b) for a, b in zip(one, other))


def grid(frames, sides, n):
    """Every n-th pixel of every n-th row."""
    length = 3 * sides[0]
    rows = [frame[at : at + length] for frame in each(frames, sides) for at in range(length * (n // 2), len(frame), length * n)]
    return b"".join(picked(row[3 * (n // 2) :], n) for row in rows)


def try_sample(room, clip):
    """A clip of more pixels than a shot may have: what is measured of it, and how far its curve is from that of all pixels."""
    case = "a long shot"
    make(clip, room / "in.mp4")
    frames = rgb(room / "in.mp4")
    n = step(math.prod(clip.size), clip.frames)
    sample = do(case, f'{SOURCED}sample in.mp4 "$(frames in.mp4)"', room)
    expect(case, sample == picked(frames, n) and len(sample) // 3 <= LIMIT < len(frames) // 3, f"not every {n}th pixel of the decoded frames")
    do(case, BLOCKS["pass 1"], room)
    curve = curve_of(sample, 1)
    expect(case, (room / "shot.curve").read_bytes() == packed(curve), "the curve is not that of the second version")
    whole, every_nth = curve_of(frames, 1), b"".join(each(frames, clip.size)[::n])
    rows = table(PAGE, ["of the pixels measured"]).rows
    for (label, stated), other in zip(rows, (curve, curve_of(grid(frames, clip.size, 3), 1), curve_of(every_nth, 1)), strict=True):
        near(f"{case}, {label}", float(stated), apart_at_most(whole, other), max(1, float(stated) / 8))
    expect(case, [int(number) for number in re.findall(r"every (\d)", " ".join(label for label, _ in rows))] == [n, 3, 3, n], "other rows")
    status, _, said = run(f"{SOURCED}decode in.mp4 | bin/measure >shot.curve", room)
    expect(case, status and "refused 3\n" in said, f"status {status}: {said}")


def sampled(room):
    """What is measured of a shot that has too many pixels."""
    count, *sides, fading, pixels = figures(r"For (\d+) frames of .*?, of (\d+) × (\d+) and the last (\d+) of them fading .*? are ([\d,]+) pixels")
    clip = Clip(tuple(map(int, sides)), int(count), Fraction(25), filters=f"fade=out:{count - fading:.0f}:{fading:.0f}")
    expect("a long shot", pixels == count * math.prod(sides), f"{pixels} is not its number of pixels")
    try_sample(room, clip)
    n, hd_frames, *hd = figures(r"as (\d+) for (\d+) frames of (\d+) × (\d+)\.")
    said = do("the step", f"{SOURCED}step {math.prod(map(int, hd))} {hd_frames:.0f}", room)
    expect("the step", int(said) == n == step(math.prod(map(int, hd)), hd_frames), f"{said} for {hd_frames} frames")
    limit, *most = figures(r"at most ([\d,]+) pixels: (\d+) frames of (\d+) × (\d+), or (\d+) of (\d+) × (\d+)\.")
    for many, *frame in most[:3], most[3:]:
        expect("frames of a shot", LIMIT == limit and LIMIT // math.prod(frame) == many, f"{many} frames of {frame} are not the most of a shot")
    try_neighbour()


def try_neighbour():
    """ffmpeg's scale picks pixels by three flags more, and not by neighbor alone."""
    (percent,) = figures(r"halved so, over (\d+) % of the pixels are none of its own")
    (flags,) = words_of(r"With `(accurate_rnd\S+)` beside `neighbor` all are")
    raw = random.Random(2).randbytes(3 * 256 * 256)
    own = set(pixels_of(raw))
    for words, least, most in ("neighbor", percent, percent + 1), (f"neighbor+{flags}", 0, 0):
        stream = "-f", "rawvideo", "-pix_fmt", "rgb24"
        half = pixels_of(ffmpeg(*stream, "-s", "256x256", "-i", "-", "-vf", f"scale=128:128:flags={words}", *stream, "-", data=raw))
        others = 100 * sum(pixel not in own for pixel in half) / len(half)
        expect(f"scale by {words}", least <= others <= most, f"{others} % of the pixels are none of the picture's")


def rgb24(room):
    """The filter of docs/CALLS.md, which balances each frame by itself."""
    (build,), (command,) = blocks(read(CALLS), "sh"), blocks(read(CALLS), "bash")
    do("building the filter", build, room)
    clip = Clip((320, 180), 4, sounds=1)
    make(clip, room / "in.mp4")
    due = b"".join(balanced(frame, 1, 2) for frame in each(rgb(room / "in.mp4"), clip.size))
    do("the filter", command, room)
    expect_clip("the filter", room, clip, due)
    try_fade(room)
    try_still_pixel(room)


def means(frames):
    return [sum(frame) / len(frame) for frame in each(frames, SMALL)]


def try_fade(room):
    """The table of a fade: means by one curve, by that of the frames before it, and by a curve for each frame."""
    case = "the fade"
    still, fading = map(int, figures(r"with (\d+) still frames and then a fade to black of (\d+):"))
    filters = f"format=rgb24,fade=out:{still}:{fading}"
    make(Clip(SMALL, still + fading, Fraction(25), pictures=STILL, filters=filters, encoder=WHOLE, container="matroska"), room / "in.mp4")
    do(case, BLOCKS["pass 1"], room)
    (command,) = words_of(r"the frames before the fade only, here by `(sample in.mp4 \d+ trim=start_frame=0:end_frame=\d+)`")
    do(case, f"{SOURCED}{command} | bin/measure >before.curve", room)
    source = rgb(room / "in.mp4")
    expect(case, (room / "before.curve").read_bytes() == packed(curve_of(cut(source, SMALL, 0, still), 1)), "not the curve of the frames before it")
    one, before = (do(case, f"{SOURCED}decode in.mp4 | bin/colour {name}.curve", room) for name in ("shot", "before"))
    each_by_itself = do(case, f"{SOURCED}decode in.mp4 | target/rgb24 -q $(size in.mp4)", room)
    measured = list(zip(means(source), means(one), means(before), means(each_by_itself)))
    for row in table(PAGE, ["frame", "source"]).rows:
        for stated, mean in zip(row[1:], measured[int(row[0])], strict=True):
            near(f"{case}, frame {row[0]}", float(stated), mean, 0.15)


def pixels_in(sentence):
    return [tuple(map(int, pixel)) for pixel in re.findall(r"\((\d+), (\d+), (\d+)\)", sentence)]


def try_still_pixel(room):
    """A pixel that stands still while a white picture slides over the portrait."""
    case = "a pixel that stands still"
    source, first, last, one = pixels_in(*words_of(r"(while a white picture slides over the portrait.*?in all of them)\."))
    white = "-f", "lavfi", "-i", f"color=white:size={SMALL[0]}x{SMALL[1]}"
    slides = "[0]format=gbrp[a];[1]format=gbrp[b];[a][b]overlay=x=2*n-160:format=gbrp:shortest=1"
    ffmpeg(*STILL, *white, "-filter_complex", slides, "-frames:v", "41", "-c:v", *WHOLE, "-f", "matroska", room / "in.mp4")
    at = pixels_of(cut(rgb(room / "in.mp4"), SMALL, 0, 1)).index(source)
    do(case, BLOCKS["pass 1"], room)
    by_one = do(case, f"{SOURCED}decode in.mp4 | bin/colour shot.curve", room)
    by_each = do(case, f"{SOURCED}decode in.mp4 | target/rgb24 -q $(size in.mp4)", room)
    pixels = [[pixels_of(frame)[at] for frame in each(frames, SMALL)] for frames in (rgb(room / "in.mp4"), by_one, by_each)]
    expect(case, set(pixels[0]) == {source} and set(pixels[1]) == {one}, f"{set(pixels[0])} has become {set(pixels[1])}")
    expect(case, (pixels[2][0], pixels[2][-1]) == (first, last), f"{pixels[2]} by a curve for each frame")
