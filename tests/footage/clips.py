"""Clips, made on the spot by ffmpeg, and what ffmpeg and ffprobe tell of a file."""

import json
import pathlib
import subprocess
from fractions import Fraction
from typing import NamedTuple

NTSC = Fraction(30000, 1001)
# the exact conversion from luma and chroma to RGB, as docs/VIDEO.md has it
EXACT = "-sws_flags", "bicubic+accurate_rnd+full_chroma_int"
BT709 = "-colorspace", "bt709", "-color_primaries", "bt709", "-color_trc", "bt709", "-color_range", "tv"
# encoders that every ffmpeg has: with loss, and RGB without
LOSSY = "mpeg2video", "-q:v", "2", *BT709
WHOLE = "ffv1", "-pix_fmt", "bgr0"
PORTRAIT = pathlib.Path.cwd() / "samples/portrait.ppm"
STILL = "-loop", "1", "-i", PORTRAIT  # the portrait, for as many frames as are asked for
SMALL = 160, 100  # its size


class Clip(NamedTuple):
    size: tuple
    frames: int
    rate: Fraction = NTSC
    sounds: int = 0
    late: Fraction = Fraction(0)  # seconds by which the pictures begin after the sound
    pictures: tuple = ()  # words of ffmpeg for an input; without them its test picture
    filters: str = "null"
    encoder: tuple = LOSSY
    container: str = "mp4"


def ffmpeg(*words, data=None):
    stdin = {"stdin": subprocess.DEVNULL} if data is None else {"input": data}
    return subprocess.run(["ffmpeg", "-v", "error", "-y", *words], stdout=subprocess.PIPE, check=True, **stdin).stdout


def make(clip, file):
    """Writes a clip."""
    width, height = clip.size
    pictures = clip.pictures or ("-f", "lavfi", "-i", f"testsrc2=size={width}x{height}:rate={clip.rate}")
    words = ["-itsoffset", str(float(clip.late)), *pictures] + clip.sounds * ["-f", "lavfi", "-i", "sine=frequency=440"]
    words += [word for stream in range(clip.sounds + 1) for word in ("-map", str(stream))]
    # the form of sound that a container keeps as it is
    words += ["-shortest", "-c:a", "mp2" if clip.container == "mpegts" else "aac"]
    words += ["-vf", clip.filters, "-fps_mode", "passthrough", "-frames:v", str(clip.frames)]
    ffmpeg(*words, "-c:v", *clip.encoder, "-f", clip.container, file)


def turn(file, turned):
    """A copy of a clip, as one that a player has to turn: older versions of ffmpeg make it by metadata, later ones by an option."""
    ffmpeg("-i", file, "-c", "copy", "-metadata:s:v", "rotate=90", "-f", "mp4", turned)
    if "Display Matrix" not in json.dumps(ffprobe(turned, "-show_streams")):
        ffmpeg("-display_rotation", "90", "-i", file, "-c", "copy", "-f", "mp4", turned)


def rgb(file):
    """All frames of a file, as packed RGB."""
    return ffmpeg("-noautorotate", "-i", file, "-fps_mode", "passthrough", *EXACT, "-f", "rawvideo", "-pix_fmt", "rgb24", "-")


class Contents(NamedTuple):
    pictures: dict  # what ffprobe says of the stream of pictures
    others: list  # the types of the other streams
    times: list  # of the pictures, in their order
    sound: float  # when the first sound begins
    sounds: list  # each packet by packet, by digests


def ffprobe(file, *words):
    """What ffprobe says of a file."""
    done = subprocess.run(["ffprobe", "-v", "error", *words, "-of", "json", file], stdout=subprocess.PIPE, text=True, check=True)
    return json.loads(done.stdout)


def contents(file):
    """What is in a file."""
    said = ffprobe(file, "-show_streams", "-show_entries", "packet=codec_type,stream_index,pts_time,data_hash", "-show_data_hash", "md5")
    pictures, *others = sorted(said["streams"], key=lambda stream: stream["codec_type"] != "video")
    times, sounds = {"video": [], "audio": []}, {}
    for packet in said["packets"]:
        # a still has no time
        times[packet["codec_type"]].append(float(packet.get("pts_time", 0)))
        if packet["codec_type"] == "audio":
            sounds.setdefault(packet["stream_index"], []).append(packet["data_hash"])
    digests = [sounds[index] for index in sorted(sounds)]
    return Contents(pictures, [stream["codec_type"] for stream in others], sorted(times["video"]), min(times["audio"], default=None), digests)


def size(file):
    pictures = contents(file).pictures
    return pictures["width"], pictures["height"]
