"""PNG files of the one form that the figures' scripts write: 8-bit RGB, without a filter.

A figure is compared by its pixels and not by the file's bytes, since zlibs pack differently.
"""

import struct
import sys
import zlib

SIGNATURE = b"\x89PNG\r\n\x1a\n"
FORM = bytes([8, 2, 0, 0, 0])  # eight bits a sample, RGB, and PNG's plain compression, filters and order of rows
PERCEPTUAL = b"\0"  # of an sRGB chunk
NO_FILTER = b"\0"  # before a row


def fail(figure, words):
    sys.exit(f"{figure.stem}: FAILED: {words}")


def size(rows):
    """The width and the height of a picture, from its rows' samples."""
    return len(rows[0]) // 3, len(rows)


def chunk(kind, data):
    return struct.pack(">I", len(data)) + kind + data + struct.pack(">I", zlib.crc32(kind + data))


def packed(rows):
    """The file of a picture, from its rows' samples."""
    data = zlib.compress(b"".join(NO_FILTER + row for row in rows), 9)
    parts = (b"IHDR", struct.pack(">II", *size(rows)) + FORM), (b"sRGB", PERCEPTUAL), (b"IDAT", data), (b"IEND", b"")
    return SIGNATURE + b"".join(chunk(kind, data) for kind, data in parts)


def chunks(figure):
    """The chunks of a whole PNG file, as kinds and data."""
    file = figure.read_bytes()
    if not file.startswith(SIGNATURE):
        fail(figure, f"{figure.name} is no PNG file")
    at, kind = len(SIGNATURE), None
    while kind != b"IEND":
        length, kind = struct.unpack_from(">I4s", file, at) if at + 8 <= len(file) else (0, b"")
        data = file[at + 8 : at + 8 + length]
        if file[at : at + 12 + length] != chunk(kind, data):
            fail(figure, f"{figure.name} is damaged or ends early, from byte {at} on")
        yield kind, data
        at += 12 + length
    if at != len(file):
        fail(figure, f"{figure.name} has bytes after its end")


def unpacked(figure, width, height):
    """The rows of a PNG file that has this size, and the form."""
    (first, head), *rest = parts = list(chunks(figure))
    if {kind for kind, _ in parts} != {b"IHDR", b"sRGB", b"IDAT", b"IEND"} or (b"sRGB", PERCEPTUAL) not in rest:
        fail(figure, f"{figure.name} has other chunks than this script writes")
    if first != b"IHDR" or head[8:] != FORM:
        fail(figure, f"{figure.name} is not of the form that this script writes, 8-bit RGB")
    if (found := struct.unpack(">II", head[:8])) != (width, height):
        fail(figure, "{} is {} by {}, and not {} by {}".format(figure.name, *found, width, height))
    try:
        lines = zlib.decompress(b"".join(data for kind, data in rest if kind == b"IDAT"))
    except zlib.error as error:
        fail(figure, f"{figure.name} cannot be unpacked: {error}")
    length = 1 + 3 * width
    lines = [lines[i : i + length] for i in range(0, len(lines), length)]
    if len(lines) != height or any(len(line) != length or line[:1] != NO_FILTER for line in lines):
        fail(figure, f"{figure.name} has not {height} whole rows without a filter")
    return [line[1:] for line in lines]


def row_pixels(row):
    return [tuple(row[i : i + 3]) for i in range(0, len(row), 3)]


def compare_row(figure, y, row, wanted):
    for x, (found, due) in enumerate(zip(row_pixels(row), row_pixels(wanted))):
        if found != due:
            fail(figure, f"{figure.name}: column {x}, row {y} is {found}, and not {due}")


def compare(figure, wanted):
    """Fails where a PNG file is not the picture of these rows."""
    if not figure.is_file():
        fail(figure, f"there is no {figure.name}")
    for y, (row, due) in enumerate(zip(unpacked(figure, *size(wanted)), wanted)):
        compare_row(figure, y, row, due)
