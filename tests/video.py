"""Every bash block of docs/VIDEO.md, and of docs/CALLS.md on the filter rgb24, run as it stands, where ffmpeg is.

    python3 -B tests/video.py    says which blocks it did not try, and for want of what

Blocks are taken from the pages and run by bash as they would be pasted, in a folder with the project's own bin/, on clips that ffmpeg makes
on the spot. What comes out is compared, byte by byte, with what exact.py writes: it shares nothing with the programs. Programs of the
pipelines are also replaced by ones that fail in the end, and the block has to fail. The figures of docs/VIDEO.md are measured: one that is
off by more than the tolerance given for it fails.
"""

import os
import re
import shutil
import subprocess
import sys
from concurrent.futures import ProcessPoolExecutor
from typing import NamedTuple

sys.path[1:1] = "tests/footage", "tests/docs", "tests/file"
import pasted  # noqa: E402
from clips import ffmpeg  # noqa: E402
from conversions import delivery, matrix  # noqa: E402
from failing import FAILING, failures  # noqa: E402
from machines import cores, jobs, queue  # noqa: E402
from passes import even, many, passes, reel, still_by_ffmpeg, still_by_imagemagick  # noqa: E402
from shots import rgb24, sampled  # noqa: E402

# builds what is missing, so that no block meets the start scripts' words about it
BUILDING = ("bin/measure", "--help"), ("bin/colour", "--help"), ("bin/library",)
TOOLS = "ffmpeg", "ffprobe", "perl", "parallel", "convert", "identify"
ENCODERS = "libx264", "libx264rgb"


class Section(NamedTuple):
    run: object
    blocks: tuple  # that it tries


# the longest first
SECTIONS = (
    Section(sampled, ("pass 1",)),
    Section(failures, ("job",)),
    Section(passes, ("pass 1", "pass 2", "check", "H.264")),
    Section(still_by_imagemagick, ("still by ImageMagick",)),
    Section(jobs, ("job", "join")),
    Section(queue, ("job", "queue", "join")),
    Section(delivery, ("delivery", "master", "H.264")),
    Section(matrix, ("matrix",)),
    Section(cores, ("cores",)),
    Section(rgb24, ("pass 1",)),
    Section(reel, ("reel",)),
    Section(many, ("one curve", "many clips")),
    Section(still_by_ffmpeg, ("still by ffmpeg",)),
    Section(even, ("even",)),
)


def said_by(*words):
    return subprocess.run(words, stdin=subprocess.DEVNULL, capture_output=True, text=True, check=False).stdout


def is_here(tool):
    """Whether a tool is on this machine. There is another program that is called parallel."""
    return shutil.which(tool) and (tool != "parallel" or "GNU parallel" in said_by(tool, "--version"))


def missing(name):
    """What a block needs and this machine has not. All use the page's functions."""
    text = pasted.BLOCKS["functions"] + pasted.BLOCKS[name]
    lacking = [tool for tool in TOOLS if re.search(rf"(?<![\w-]){tool}\b", text) and not is_here(tool)]
    if "ffmpeg" in lacking:
        return lacking
    here = ffmpeg("-encoders").decode().split()
    return lacking + [encoder for encoder in ENCODERS if re.search(rf"\b{encoder}\b", text) and encoder not in here]


def try_section(place, names):
    """Tries a section: how many comparisons it made, or what failed."""
    section, before = SECTIONS[place], pasted.cases
    try:
        with pasted.furnished() as room:
            section.run(room, *[names] * (section.run is failures))
    except (pasted.Failed, subprocess.CalledProcessError, OSError) as failure:
        return 0, f"{section.run.__name__}: {failure}"
    return pasted.cases - before, None


def main():
    pasted.expect_names()
    lacking = {name: " and ".join(missing(name)) for name in pasted.NAMES}
    for tools in sorted(set(lacking.values()) - {""}):
        print(f"video: blocks not tried, for want of {tools}: {', '.join(name for name in lacking if lacking[name] == tools)}")
    good = [name for name in lacking if not lacking[name]]
    places = [place for place, section in enumerate(SECTIONS) if set(section.blocks) <= set(good)]
    if not places:
        return
    for command in BUILDING:
        subprocess.run(command, stdin=subprocess.DEVNULL, stdout=subprocess.DEVNULL, check=True)
    with ProcessPoolExecutor(len(os.sched_getaffinity(0))) as workers:
        results = list(workers.map(try_section, places, len(places) * [[name for name in FAILING if name in good]]))
    if faults := [fault for _, fault in results if fault]:
        sys.exit("\n".join(f"video: FAILED: {fault}" for fault in faults))
    print(f"video: {sum(count for count, _ in results)} comparisons: ok")


if __name__ == "__main__":
    main()
