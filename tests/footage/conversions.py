"""From luma and chroma to RGB and back: which matrix a clip is decoded by, how exactly, and what deliveries cost."""

import math
import random
import re
from fractions import Fraction

from clips import BT709, PORTRAIT, SMALL, STILL, WHOLE, Clip, contents, ffmpeg, make, rgb
from delivery import CHROMA, LUMA, byte, largest_move, share_beyond, uncoded
from exact import pixels_of
from exact_file import answer
from pages import table
from pasted import BLOCKS, PAGE, SOURCED, do, expect, figures, near, run

WEIGHTS = {"bt709": (Fraction(2126, 10000), Fraction(722, 10000)), "bt601": (Fraction(299, 1000), Fraction(114, 1000))}
SCALES = {"tv": (LUMA, CHROMA), "pc": (Fraction(1), Fraction(1, 2))}
PATCH = 24  # pixels, a side: one that divides HD and SD


def patches(sides):
    """Coded luma and chroma of even patches, made from random colours."""
    chance = random.Random(709)
    found = []
    for _ in range(math.prod(sides) // PATCH**2):
        r, g, b = (chance.randrange(256) for _ in range(3))
        y = 0.2126 * r + 0.7152 * g + 0.0722 * b
        found.append((round(16 + y * 219 / 255), round(128 + (b - y) / 0.9278 * 112 / 255), round(128 + (r - y) / 0.7874 * 112 / 255)))
    return found


def plane(values, columns, side):
    """A plane of patches of so many pixels a side."""
    rows = [values[at : at + columns] for at in range(0, len(values), columns)]
    return b"".join(side * b"".join(side * bytes([value]) for value in row) for row in rows)


def make_patches(file, sides, tags):
    """A frame of 8-bit 4:2:0 with even patches; their coded luma and chroma."""
    found, columns = patches(sides), sides[0] // PATCH
    planes = [plane([patch[at] for patch in found], columns, PATCH // (2 if at else 1)) for at in range(3)]
    raw = "-f", "rawvideo", "-pix_fmt", "yuv420p", "-s", f"{sides[0]}x{sides[1]}", "-i", "-"
    ffmpeg(*raw, "-c:v", "ffv1", *tags, "-f", "matroska", file, data=b"".join(planes))
    return found


def middles(frame, sides):
    """The pixel in the middle of each patch."""
    rows, columns = (range(PATCH // 2, side, PATCH) for side in sides[::-1])
    return [tuple(frame[at : at + 3]) for row in rows for at in (3 * (row * sides[0] + column) for column in columns)]


def exactly(patch, matrix, scale):
    """What a patch is in RGB, before it is rounded."""
    y, blue, red = patch
    zero = 16 if scale == "tv" else 0
    return [min(255, max(0, sample)) for sample in uncoded(Fraction(y - zero), Fraction(blue - 128), Fraction(red - 128), WEIGHTS[matrix], SCALES[scale])]


def furthest(decoded, exact):
    """How far decoded pixels are from exact ones, at most, in code values."""
    return max(abs(c - d) for pixel, other in zip(decoded, exact) for c, d in zip(pixel, other))


def hues_off(decoded, exact):
    """Of how many in a hundred the hue is off by 60° / chroma or more."""
    return 100 * share_beyond([tuple(map(byte, pixel)) for pixel in exact], decoded)


def try_matrix(room, case, sides, tags, said, matrix, scale):
    """A clip is decoded by this matrix and range."""
    found = make_patches(room / "in.mp4", sides, tags)
    frame = do(case, f"{said}{SOURCED}decode in.mp4", room)
    distance = furthest(middles(frame, sides), [exactly(patch, matrix, scale) for patch in found])
    expect(case, distance < 1, f"{float(distance):.1f} code values from {matrix}, {scale}")


def ranged(tags, scale):
    return *tags, "-color_range", scale


def matrix(room):
    """Which matrix a clip is decoded by: its tag's, and that which is stated where it has none."""
    hd, sd = (1920, 1080), (720, 576)
    tagged = {name: ("-colorspace", name) for name in ("bt709", "smpte170m", "bt470bg")}
    stated = BLOCKS["matrix"]
    try_matrix(room, "HD, BT.709", hd, tagged["bt709"], "", "bt709", "tv")
    try_matrix(room, "SD, BT.709", sd, ranged(tagged["bt709"], "tv"), "", "bt709", "tv")
    try_matrix(room, "SD, BT.709, full range", sd, ranged(tagged["bt709"], "pc"), "", "bt709", "pc")
    try_matrix(room, "HD, BT.601", hd, tagged["smpte170m"], "", "bt601", "tv")
    try_matrix(room, "SD, the other BT.601", sd, tagged["bt470bg"], "", "bt601", "tv")
    try_matrix(room, "SD, a tag before what is stated", sd, tagged["smpte170m"], stated, "bt601", "tv")
    try_matrix(room, "HD, stated", hd, (), stated, "bt709", "tv")
    try_matrix(room, "SD, full range tagged, stated", sd, ranged((), "pc"), stated, "bt709", "pc")
    try_matrix(room, "SD, stated as BT.601", sd, (), stated.replace("bt709", "bt601"), "bt601", "tv")
    try_matrix(room, "SD, full range stated", sd, (), stated.replace("bt709", "bt709:in_range=pc"), "bt709", "pc")
    for sides in hd, sd:
        try_untagged(room, sides)
    try_faster_way(room, sd)


def try_untagged(room, sides):
    """ffmpeg takes a clip without tags for BT.601, of whichever size; the page's functions do not take it."""
    found = make_patches(room / "in.mp4", sides, ())
    distance = furthest(middles(rgb(room / "in.mp4"), sides), [exactly(patch, "bt601", "tv") for patch in found])
    expect("ffmpeg without tags", distance < 1, f"{float(distance):.1f} code values from BT.601")
    status, wrote, said = run(BLOCKS["pass 1"], room)
    expect("a clip without tags", status and "in.mp4 has no tag" in said, f"status {status}: {said}")
    status, _, said = run(f"matrix=BT709\n{SOURCED}decode in.mp4", room)
    expect("a matrix that is none", status and "in.mp4 has no tag" in said, f"status {status}: {said}")
    expect("a clip without tags", not (room / "shot.curve").read_bytes() and not wrote, "it is measured")


def try_faster_way(room, sides):
    """What ffmpeg's faster conversion costs, and that of the page."""
    code, percent, good, less = figures(
        r"is up to ([\d.]+) code values off the exact conversion, and the hue of (\d+) % of the patches is off by 60° / chroma or more, .*? "
        r"With these flags it is at most ([\d.]+) code values off, .*?, and the hue of (\d+) % of the patches or fewer"
    )
    exact = [exactly(patch, "bt709", "tv") for patch in make_patches(room / "in.mp4", sides, BT709)]
    faster = middles(ffmpeg("-i", room / "in.mp4", "-f", "rawvideo", "-pix_fmt", "rgb24", "-"), sides)
    near("the faster way", code, furthest(faster, exact), 0.3)
    near("the faster way, hue", percent, hues_off(faster, exact), 3)
    own = middles(rgb(room / "in.mp4"), sides)
    expect("the page's flags", 0.5 < furthest(own, exact) <= good, f"off by {float(furthest(own, exact)):.2f}")
    expect("the page's flags", hues_off(own, exact) <= less, f"{float(hues_off(own, exact)):.1f} % of the hues are off")


def expect_tagged(case, file, form, clip):
    """A delivery says of itself what it was written with, and has kept the size and the sound."""
    found = contents(file)
    said = {entry: found.pictures.get(entry) for entry in ("pix_fmt", "color_space", "color_range", "color_primaries", "color_transfer")}
    due = dict(zip(said, (form, "bt709", "tv", "bt709", "bt709")))
    expect(case, said == due, f"{said}, and not {due}")
    expect(case, (found.pictures["width"], found.pictures["height"]) == clip.size, "the size is another")
    expect(case, found.others == clip.sounds * ["audio"], f"beside the pictures there are {found.others}")


def try_delivery(room, clip, cells):
    """A balanced clip in each form of the table: what it costs is what the page has."""
    make(clip, room / "in.mp4")
    do("delivery", BLOCKS["pass 1"], room)
    do("delivery", BLOCKS["pass 2"], room)
    before = pixels_of(rgb(room / "out.mkv"))
    for (label, *stated), (name, lossless) in zip(cells, (("delivery", 0), ("delivery", 1), ("master", 0), ("master", 1)), strict=True):
        form, file = ("yuv420p", "delivery.mov") if name == "delivery" else ("yuv444p10le", "master.mov")
        block = re.sub(r"-(?:crf 16|qp 0)", "-qp 0" if lossless else "-crf 16", BLOCKS[name])
        expect(label, ("-qp 0" in label, "10-bit 4:4:4" in label) == (bool(lossless), name == "master"), "not the rows that are measured")
        do(label, block, room)
        expect_tagged(label, room / file, form, clip)
        after = pixels_of(rgb(room / file))
        expect(label, len(after) == len(before), "not every frame once")
        # what an encoder loses may differ from one version to the next
        tolerance = 0 if stated[0] == "0 %" else 2 if lossless else 4
        near(label, float(stated[0].rstrip(" %")), 100 * share_beyond(before, after), tolerance)
        near(label, float(stated[1].rstrip("°")), largest_move(before, after), tolerance)
        (room / file).unlink()
    return before


def delivery(room):
    """What deliveries cost, in the portrait and in a clip."""
    rows = table(PAGE, ["written by `libx264` as"]).rows
    rgb_clip = Clip(SMALL, 1, Fraction(25), pictures=STILL, filters="format=rgb24", encoder=WHOLE, container="matroska")
    before = try_delivery(room, rgb_clip, [[row[0], row[1], row[2]] for row in rows])
    expect("the portrait", before == pixels_of(answer(PORTRAIT.read_bytes())[-3 * len(before) :]), "the portrait is not what bin/balance writes")
    moving = "zoompan=z=1.5:x=4*on:y=2*on:d=1:s=160x100:fps=25"
    try_delivery(room, rgb_clip._replace(frames=2, filters=f"{moving},format=rgb24", sounds=1), [[row[0], row[3], row[4]] for row in rows])
    # what the page warns of
    do("H.264", f"{SOURCED}decode in.mp4 | encode in.mp4 out.mkv -c:v libx264rgb -crf 0 -colorspace bt709", room)
    expect("RGB that is tagged", rgb(room / "out.mkv") != rgb(room / "in.mp4") and "yuv" in contents(room / "out.mkv").pictures["pix_fmt"], "it is kept")
