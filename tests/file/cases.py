"""The cases for `balance`: a name, the sentence or boundary of documents 01 and 02 that it shows, the input, and the output by hand.

    cases.py FOLDER    writes them there, to look at: NAME.ppm, the input, and NAME.out, the output

The output is written by hand for every refusal and for the header's cases, which all carry the reference picture. Where a picture
has none by hand, exact_file.py says what it is, and PICTURES holds its digest. Every input is made here but those of by_tools/.
"""

import hashlib
import pathlib
import random
import sys
from typing import NamedTuple, Optional

from exact_file import answer

BY_TOOLS = pathlib.Path(__file__).resolve().parent / "by_tools"
SEED = 20170101
# how many cases there are, and how many of them have the output by hand; so that none is lost unseen
CASES, BY_HAND = 396, 369


def digest(data):
    return hashlib.sha256(data).hexdigest()[:16]


class Case(NamedTuple):
    name: str
    shows: str
    file: bytes
    by_hand: Optional[bytes]


HEADER = b"P6\n2 1\n255\n"
# comments directly after the letters and after numbers, between white space, ended by LF and by CR
COMMENTED_HEADER = b"P6#a\n2 #b\r1#\n\n#c\n255\n"
SAMPLES = bytes([100, 100, 100, 200, 200, 200])
BALANCED = HEADER + bytes([98, 98, 98, 157, 157, 157])


def accepted(name, shows, header, samples=SAMPLES, by_hand=BALANCED):
    return Case(name, shows, header + samples, by_hand)


def refused(name, shows, number, file):
    return Case(name, shows, file, b"refused %d\n" % number)


def sized(width, height, largest="255"):
    return f"P6\n{width} {height}\n{largest}\n".encode()


def reference():
    yield accepted("reference", "the reference frame of `balance`", HEADER)


def letters():
    for name, start in (
        ("p3", b"P3\n"),
        ("p5", b"P5\n"),
        ("p7", b"P7\n"),
        ("lower_case_p6", b"p6\n"),
        ("space_inside_p6", b"P 6\n"),
        ("p_missing", b"6\n"),
        ("six_missing", b"P\n"),
        ("white_space_missing_after_p6", b"P6"),
        ("p66", b"P66\n"),
        ("space_before_p6", b" P6\n"),
        ("line_feed_before_p6", b"\nP6\n"),
        ("digit_before_p6", b"1P6\n"),
        ("nul_before_p6", b"\0P6\n"),
        ("byte_order_mark_before_p6", b"\xef\xbb\xbfP6\n"),
    ):
        yield refused(name, "Header: the letters P6; white space", 12, start + b"2 1\n255\n" + SAMPLES)


def cuts():
    """The reference file, and the one with comments in its header, cut after each of their bytes but the last."""
    for name, header, early in (
        ("cut", HEADER, "12: the header ends early"),
        ("comment_cut", COMMENTED_HEADER, "12: the header ends early, or a comment never does"),
    ):
        file = header + SAMPLES
        for length in range(len(file)):
            shows, number = (early, 12) if length < len(header) else ("15: fewer samples than the header says", 15)
            yield refused(f"{name}_after_{length:02}", shows, number, file[:length])


WHITE = {"space": b" ", "tab": b"\t", "lf": b"\n", "vt": b"\v", "ff": b"\f", "cr": b"\r"}
NEARLY_WHITE = (0x00, 0x08, 0x0E, 0x1C, 0x1D, 0x1E, 0x1F, 0x85, 0xA0)


def white_space():
    for name, byte in WHITE.items():
        header = byte.join([b"P6", b"2", b"1", b"255", b""])
        yield accepted(f"white_space_{name}", f"White space is one or more of ...: {name} in all four places", header)
    run = b"".join(WHITE.values()).join([b"P6", b"2", b"1", b"255\n"])
    yield accepted("white_space_runs", "White space is one or more of ...: all six in a row", run)
    for byte in NEARLY_WHITE:
        for place, header in (
            ("p6", b"P6%c2 1\n255\n"),
            ("width", b"P6\n2%c1\n255\n"),
            ("height", b"P6\n2 1%c255\n"),
            ("largest", b"P6\n2 1\n255%c"),
        ):
            shows = f"White space is one or more of ...: byte {byte} is none"
            yield refused(f"not_white_{byte:02x}_after_{place}", shows, 12, header % byte + SAMPLES)
    for name, header in (("width", b"P6\n21\n255\n"), ("height", b"P6\n2 1255\n"), ("largest", b"P6\n2 1\n255")):
        yield refused(f"white_space_missing_after_{name}", "white space between the numbers and after them", 12, header + SAMPLES)


def last_white_space():
    one = "exactly one white-space byte; then the samples"
    yield refused("two_last_line_feeds", f"{one}: a second LF is a sample", 16, HEADER + b"\n" + SAMPLES)
    yield refused("cr_lf_last", f"{one}: after CR the LF is a sample", 16, b"P6\r\n2 1\r\n255\r\n" + SAMPLES)
    # the darker of two grey pixels ends at 98, whatever grey it is
    for name, byte in (*WHITE.items(), ("digit", b"5"), ("hash", b"#")):
        yield accepted(f"first_samples_{name}", f"{one}: the samples may be any bytes", HEADER, 3 * byte + SAMPLES[3:])
    cr_last = b"P6\r\n2 1\r\n255\r"
    yield accepted("cr_lf_last_exact", f"{one}: after CR the LF is a sample", cr_last, b"\n\n\n" + SAMPLES[3:])


def padded(place, length):
    """The reference header with spaces after its place-th word, so that it has `length` bytes."""
    words = [b"P6", b"\n2", b" 1", b"\n255\n"]
    words[place] += b" " * (length - len(HEADER))
    return b"".join(words)


def commented(place, length, letter="x", end=b"\n"):
    """The reference header with a comment after its place-th word, so that it has `length` bytes."""
    words = [b"P6", b"\n2", b" 1", b"\n255\n"]
    room = length - len(HEADER) - 2
    words[place] += b"#" + b"x" * (room % len(letter.encode())) + room // len(letter.encode()) * letter.encode() + end
    return b"".join(words)


def header_length():
    limit = "The header may have 512 bytes, comments included, its last white-space byte too"
    for place, name in enumerate(("p6", "width", "height")):
        for kind, filled in ("", padded), ("_comment", commented):
            yield accepted(f"header_512_bytes{kind}_after_{name}", limit, filled(place, 512))
            for length in 513, 514:
                yield refused(f"header_{length}_bytes{kind}_after_{name}", limit, 12, filled(place, length) + SAMPLES)
    for name, letter, end in ("utf_8", "ö", b"\n"), ("cr", "x", b"\r"):
        yield accepted(f"header_512_bytes_comment_{name}", limit, commented(1, 512, letter, end))
        yield refused(f"header_513_bytes_comment_{name}", limit, 12, commented(1, 513, letter, end) + SAMPLES)
    for length in 64, 65, 255, 256, 511:
        yield accepted(f"header_{length}_bytes", limit, padded(0, length))
    yield accepted("header_512_bytes_five_digits", limit, b"P6" + 492 * b" " + b"00002 00001 00255\n")
    yield refused("header_513_bytes_five_digits", limit, 12, b"P6" + 493 * b" " + b"00002 00001 00255\n" + SAMPLES)
    yield refused("header_1000_bytes", limit, 12, padded(1, 1000) + SAMPLES)
    yield refused("header_1000_bytes_comment", limit, 12, commented(1, 1000) + SAMPLES)
    yield refused("white_space_without_end", limit, 12, b"P6" + 1000 * b"\n")
    yield accepted("comments_512_bytes", limit, b"P6" + 251 * b"#\n" + b"2 1\n255\n")
    yield refused("comments_514_bytes", limit, 12, b"P6" + 252 * b"#\n" + b"2 1\n255\n" + SAMPLES)


def numbers():
    yield accepted("leading_zeros", "leading zeros are allowed", sized("02", "001", "0255"))
    yield accepted("five_digits", "A number has 1 to 5 decimal digits", sized("00002", "00001", "00255"))
    for place, (name, value) in enumerate((("width", 2), ("height", 1), ("largest", 255))):
        for what, text in (
            ("no_digit", ""),
            ("six_digits", f"{value:06}"),
            ("ten_digits", str(2**32 + value)),
            ("plus", f"+{value}"),
            ("minus", f"-{value}"),
            ("point", f"{value}.0"),
            ("exponent", f"{value}e0"),
            ("letter", f"{value}x"),
            ("hexadecimal", hex(value)),
            ("slash", f"{value}/"),
            ("colon", f"{value}:"),
            ("underscore", f"0_{value}"),
            ("comma", f"{value},"),
            ("quote", f'"{value}"'),
            ("other_digits", "\u0662"),
        ):
            words = ["2", "1", "255"]
            words[place] = text
            shows = f"A number has 1 to 5 decimal digits: {what.replace('_', ' ')} in the {name}"
            yield refused(f"{name}_{what}", shows, 12, sized(*words) + SAMPLES)


def comments():
    white = "From a # to the end of its line (LF or CR) counts as white space"
    for name, header in (
        ("after_p6", b"P6\n# job label\n2 1\n255\n"),
        ("after_width", b"P6\n2 # label\n1\n255\n"),
        ("after_height", b"P6\n2 1 # label\n255\n"),
        ("at_p6", b"P6# label\n2 1\n255\n"),
        ("at_width", b"P6\n2#label\n1\n255\n"),
        ("at_height", b"P6\n2 1#label\n255\n"),
        ("at_each", b"P6#a\n2#b\n1#c\n255\n"),
        ("at_many_places", COMMENTED_HEADER),
        ("before_a_number_directly", b"P6\n#\n2 #\n1 #\n255\n"),
        ("empty", b"P6\n#\n2 1\n255\n"),
        ("between_white_space", b"P6 \t# label\n \t2 1\n255\n"),
        ("two", b"P6\n# one\n# two\n2 1\n255\n"),
        ("many", b"P6" + 40 * b"#\n" + b"2" + 40 * b" #\n" + b"1" + 40 * b"#\n " + b"255\n"),
        ("ended_by_cr", b"P6\n2 1 # label\r255\n"),
        ("ended_by_cr_lf", b"P6\r\n# label\r\n2 1\r\n255\n"),
        ("ended_by_lf_cr", b"P6\n# label\n\r2 1\n255\n"),
        ("with_vt_and_ff", b"P6\n# 3\v4\f5\n2 1\n255\n"),
        ("with_hash", b"P6\n# a # 3 #\n2 1\n255\n"),
        ("with_only_hashes", b"P6\n########\n2 1\n255\n"),
        ("with_digits", b"P6\n#3 4 255\n2 1\n255\n"),
        ("with_a_header", b"P6\n#P6 3 4 255 \n2 1\n255\n"),
        ("with_nul", b"P6\n#\0\0\n2 1\n255\n"),
        ("in_utf_8", "P6\n# Szene 7, Größe übernommen\n2 1\n255\n".encode()),
        ("with_next_line", b"P6\n#\x853\n2 1\n255\n"),
        ("with_tab_and_number", b"P6\n# a\t3\n2 1\n255\n"),
        ("with_each_byte", b"P6\n#" + bytes(b for b in range(256) if b not in b"\n\r") + b"x\n2 1\n255\n"),
        ("beside_five_digits", b"P6#a\n00002#b\n00001#c\n00255\n"),
        ("on_the_line_of_the_letters", b"P6 # color map\n2 1 255\n"),
    ):
        yield accepted(f"comment_{name}", white, header)
    two = f"{white}: 1, a comment, 2 are two numbers"
    yield accepted("comment_splits_digits", two, b"P6\n1#x\n2 255\n", by_hand=sized(1, 2) + BALANCED[-6:])
    first = "before the largest sample value: samples may begin with #"
    yield accepted("comment_and_first_samples_hash", first, b"P6\n# label\n2 1\n255\n", b"###" + SAMPLES[3:])
    for name, header in (
        ("before_p6", b"# label\nP6\n2 1\n255\n"),
        ("inside_p6", b"P#\n6\n2 1\n255\n"),
        ("inside_largest", b"P6\n2 1\n2# label\n55\n"),
        ("at_largest", b"P6\n2 1\n255# label\n"),
        ("at_largest_empty", b"P6\n2 1\n255#\n"),
        ("at_largest_and_space", b"P6\n2 1\n255#\n "),
        ("without_end", b"P6\n2 1 # label 255"),
        ("without_end_and_space", b"P6\n2 1 # label 255 "),
        ("without_end_before_255", b"P6\n2 1 #255 "),
        ("after_six_digits", b"P6#a\n000002#b\n1 255\n"),
        ("before_six_digits", b"P6\n2#a\n000001 255\n"),
        ("before_and_after_six_digits", b"P6 2#a\n000001#b\n255\n"),
        ("before_six_digits_of_largest", b"P6 2 1#a\n000255\n"),
        ("ended_by_vt_or_ff_only", b"P6\n2 1 # label\v255 # label\f255 "),
    ):
        yield refused(f"comment_{name}", f"{white} wherever white space may stand before the largest sample value", 12, header + SAMPLES)
    endless = "12 covers a comment that never ends"
    yield refused("comment_file_ends_in_it", endless, 12, b"P6\n# label")
    yield refused("comment_file_ends_at_hash", endless, 12, b"P6\n2 1\n#")
    yield refused("comment_ends_too_late", endless, 12, b"P6 2 1 #" + 600 * b"x" + b"\n255\n" + SAMPLES)
    yield refused("comment_reaches_end_of_file", endless, 12, b"P6 2 1 #" + 60000 * b"x")
    after = "exactly one white-space byte follows the largest sample value; then the samples"
    yield refused("comment_after_last_white_space", f"{after}: # is one", 16, HEADER + b"# label\n" + SAMPLES)


def largest_values():
    # 511 and 65791 are 255 in 8 and in 16 bits
    for largest in "0", "00000", "1", "25", "55", "254", "00254", "256", "511", "2550", "65535", "65791", "99999":
        shows = "13: the largest sample value is not 255"
        yield refused(f"largest_is_{largest}", shows, 13, sized(2, 1, largest) + SAMPLES)


def sizes():
    limit = "Width times height is 1 to 16,384"
    for width, height in (("0", "1"), ("1", "0"), ("0", "0"), ("00000", "1"), ("1", "00000"), ("0", "99999")):
        yield refused(f"size_{width}_by_{height}", limit, 14, sized(width, height))
    for width, height in (
        (16385, 1), (1, 16385), (129, 128), (128, 129), (5462, 3), (3, 5462), (181, 91), (99999, 1), (1, 99999), (99999, 99999),
    ):
        yield refused(f"size_{width}_by_{height}", limit, 14, sized(width, height))
    for width, height in (16384, 1), (1, 16384), (128, 128), (8192, 2), (4, 4096), (127, 129), (5461, 3):
        yield refused(f"size_{width}_by_{height}", f"{limit}: this size is good, its samples are missing", 15, sized(width, height))
    # sizes that look small where width, height, their product or the number of samples is cut to 16 or 32 bits, or is taken as
    # signed; the file has as many samples as would then fit
    for width, height, samples, why in (
        (65538, 1, 6, "2 by 1 in 16 bits"),
        (1, 65538, 6, "1 by 2 in 16 bits"),
        (65537, 65538, 6, "1 by 2 in 16 bits"),
        (256, 257, 768, "256 pixels in 16 bits"),
        (50020, 85865, 12, "4 pixels in 32 bits"),
        (85865, 50020, 12, "4 pixels in 32 bits"),
        (61751, 69553, 21, "7 pixels in 32 bits"),
        (65536, 65536, 0, "no pixel in 32 bits"),
        (46341, 46341, 6, "below 0 in 32 bits with a sign"),
        (41887, 34179, 23, "23 samples in 32 bits"),
    ):
        yield refused(f"size_{width}_by_{height}", f"{limit}: {why}", 14, sized(width, height) + bytes(samples))


def after_the_samples():
    file = HEADER + SAMPLES
    for name, rest in (
        ("nul", b"\0"),
        ("line_feed", b"\n"),
        ("sample", b"\xc8"),
        ("pixel", bytes(3)),
        ("row", SAMPLES),
        ("image", file),
        ("thousand_bytes", bytes(1000)),
    ):
        yield refused(f"more_by_{name}", "16: bytes after the samples", 16, file + rest)


def first_named():
    """Two or more refusals apply, and the first of 12, 13, 14, 15, 16 is named."""
    long = padded(1, 513)
    for name, number, file in (
        ("12_13", 12, b"P6\n2 1\n254" + SAMPLES),
        ("12_13_six_digits", 12, sized(2, 1, "000254") + SAMPLES),
        ("12_13_long_header", 12, long.replace(b"255", b"254") + SAMPLES),
        ("12_13_cut", 12, b"P6\n2 1\n254"),
        ("12_14", 12, b"P6\n0 1\n255"),
        ("12_14_six_digits", 12, sized("000000", 1)),
        ("12_14_long_header", 12, long.replace(b"\n2 ", b"\n0 ")),
        ("12_14_too_large", 12, b"P6\n99999 99999\n25x\n"),
        ("12_14_no_largest", 12, b"P6\n0 1\n"),
        ("12_15", 12, sized(2, 1, "+255") + SAMPLES[:5]),
        ("12_15_long_header", 12, long + SAMPLES[:5]),
        ("12_16", 12, sized(2, 1, "+255") + SAMPLES + b"\0"),
        ("12_16_long_header", 12, long + SAMPLES + b"\0"),
        ("12_13_14", 12, b"P6\n0 1\n254"),
        ("13_14", 13, sized(0, 1, 254)),
        ("13_14_zero", 13, sized("00000", 1, "00000")),
        ("13_14_too_large", 13, sized(99999, 99999, 65535)),
        ("13_14_one_too_many", 13, sized(129, 128, 254)),
        ("13_15", 13, sized(2, 1, 254) + SAMPLES[:5]),
        ("13_15_no_samples", 13, sized(2, 1, 65535)),
        ("13_16", 13, sized(2, 1, 254) + SAMPLES + b"\0"),
        ("13_16_two_bytes_a_sample", 13, sized(2, 1, 65535) + 2 * SAMPLES),
        ("13_14_16", 13, sized(0, 1, 254) + SAMPLES),
        ("12_13_hash", 12, b"P6\n2 1#\n254#" + SAMPLES),
        ("12_14_endless_comment", 12, b"P6\n0 1 # label"),
        ("12_14_endless_comment_too_large", 12, b"P6\n99999 99999 # label 255 "),
        ("13_comment", 13, b"P6\n2 1\n#255\n254\n" + SAMPLES),
        ("14_comment", 14, b"P6\n0#2\n1\n255\n" + SAMPLES),
        ("14_15", 14, sized(16385, 1) + SAMPLES),
        ("14_16", 14, sized(0, 1) + b"\0"),
        ("14_16_picture", 14, sized(1, 0) + SAMPLES),
    ):
        yield refused(f"first_of_{name}", "The first that applies is named: file 12, 13, 14, 15, 16", number, file)


def drawn(name, shows, width, height, samples, written=None):
    header = sized(width, height)
    return accepted(name, shows, header, bytes(samples), None if written is None else header + bytes(written))


DARK, MIDDLE, BRIGHT = [10, 20, 30], [50, 100, 150], [225, 235, 245]
BLACK, WHITEST = 3 * [0], 3 * [255]


def moves():
    """Every line of method 2 by hand: n pixels of one colour beside b black and m white ones, where 2 b + n of 2 (b + n + m) settles the
    colour's entry."""
    for name, line, colour, b, n, m, written in (
        ("dark_to_255", "s at most 255, f at most 255", DARK, 0, 1, 2, [43, 85, 128]),
        ("dark_to_382", "s at most 255, f above 255", DARK, 2, 1, 2, [95, 127, 159]),
        ("sum_255_to_382", "s at most 255, f above 255", [255, 0, 0], 1, 1, 1, [255, 63, 63]),
        ("sum_256_to_382", "s from 256 to 510: as method 1", [255, 1, 0], 1, 2, 1, [255, 64, 63]),
        ("middle_to_255", "s from 256 to 510: as method 1", MIDDLE, 0, 2, 4, [43, 85, 128]),
        ("middle_to_382", "s from 256 to 510: as method 1", MIDDLE, 2, 1, 2, [86, 127, 169]),
        ("sum_510_to_255", "s from 256 to 510: as method 1", [255, 255, 0], 0, 1, 2, [128, 128, 0]),
        ("sum_511_to_255", "s above 510, f at most 510", [255, 255, 1], 0, 1, 2, [128, 128, 0]),
        ("bright_to_382", "s above 510, f at most 510", BRIGHT, 1, 3, 1, [96, 127, 159]),
        ("bright_to_510", "s above 510, f at most 510", BRIGHT, 2, 1, 0, [128, 170, 213]),
        ("bright_to_563", "s above 510, f above 510", BRIGHT, 5, 1, 0, [154, 188, 221]),
    ):
        samples = b * BLACK + n * colour + m * WHITEST
        yield drawn(name, f"Method 2, {line}", b + n + m, 1, samples, b * BLACK + n * written + m * WHITEST)


def pictures():
    stays = "A pixel with s = 0 stays black and one with s = 765 stays white"
    yield drawn("black", stays, 3, 2, 6 * BLACK, 6 * BLACK)
    yield drawn("white", stays, 2, 3, 6 * WHITEST, 6 * WHITEST)
    yield drawn("black_and_white", stays, 2, 1, BLACK + WHITEST, BLACK + WHITEST)
    half = "a curve of one sum has 382 there: half of the pixels count as below it"
    for name, pixel, written in (
        ("dark", DARK, [95, 127, 159]),
        ("middle", MIDDLE, [86, 127, 169]),
        ("bright", BRIGHT, [96, 127, 159]),
    ):
        yield drawn(f"flat_{name}", half, 3, 2, 6 * pixel, 6 * written)
    yield drawn("one_pixel", "Width times height is 1 to 16,384: one pixel", 1, 1, MIDDLE, [86, 127, 169])

    cube = "Fixing the curve, choice 1, and Moving a pixel, method 2"
    yield drawn("grey_ramp", cube, 16, 16, [c for c in range(256) for _ in "rgb"])
    yield drawn("primaries", cube, 4, 2, [255 * (k >> i & 1) for k in range(8) for i in range(3)])
    pixels = random.Random(SEED)
    for name, width, height, low, high in (
        ("random", 24, 16, 0, 255),
        ("random_tall", 7, 31, 0, 255),
        ("random_dark", 20, 15, 0, 60),
        ("random_middle", 20, 15, 86, 170),
        ("random_bright", 20, 15, 195, 255),
        ("random_row", 99, 1, 0, 255),
        ("random_column", 1, 99, 0, 255),
    ):
        yield drawn(name, cube, width, height, [pixels.randint(low, high) for _ in range(3 * width * height)])
    ends = [pixels.choice((0, 1, 127, 128, 254, 255)) for _ in range(3 * 20 * 15)]
    yield drawn("random_saturated", cube, 20, 15, ends)


def large():
    """Inputs at the limits of size, with random samples."""
    samples = random.Random(SEED).randbytes(3 * 129 * 128)
    full = samples[: 3 * 16384]
    limit = "Width times height is 1 to 16,384"
    for width, height in (16384, 1), (1, 16384), (128, 128), (127, 129):
        yield drawn(f"full_{width}_by_{height}", limit, width, height, full[: 3 * width * height])
    for width, height in (16385, 1), (1, 16385), (129, 128):
        yield refused(f"full_{width}_by_{height}", limit, 14, sized(width, height) + samples[: 3 * width * height])
    yield refused("first_of_14_16_large", "The first that applies is named", 14, sized(16385, 1) + samples + b"\0")

    longest = b"P6#" + 496 * b"x" + b"\n128 128\n255\n"
    yield accepted("longest", "the longest input that is taken, 49,664 bytes", longest, full, None)
    spaces = b"P6" + 498 * b" " + b"128 128\n255\n"
    yield accepted("longest_of_spaces", "the same with white space in place of the comment", spaces, full, None)
    yield refused("longest_less_one_byte", "15: fewer samples than the header says", 15, longest + full[:-1])
    for more in 1, 2, 3, 100_000:
        yield refused(f"longest_and_{more}", "16: bytes after the samples", 16, longest + full + bytes(more))
    yield refused("longest_header_513", "The header may have 512 bytes", 12, b"P6 " + longest[2:] + full)
    yield refused("short_header_and_1", "16: bytes after the samples", 16, sized(128, 128) + full + b"\0")
    yield refused("no_header_at_all", "12: the header is not as above", 12, full)


def tools():
    """Files that tools wrote, with their digests; by_tools/TOOLS.md has the commands."""
    taken = "a tool's file in the form that document 01 takes"
    commented = "a tool's file with comments in its header, as document 02 takes it"
    for name, due, shows, number in (
        ("netpbm_ramp", "76ea2d722ac31936", taken, None),
        ("netpbm_gingham", "e979303d1984f3c9", taken, None),
        ("netpbm_camouflage_scaled", "044ec476a561abbe", taken, None),
        ("netpbm_65535", "823642b74ad440c3", "13: the largest sample value is not 255", 13),
        ("netpbm_15", "5a132d4d1f34bcaa", "13: the largest sample value is not 255", 13),
        ("netpbm_plain", "ee25334f612242b5", "Header: the letters P6", 12),
        ("netpbm_grey", "80078279dee3ee67", "Header: the letters P6", 12),
        ("netpbm_colour_map", "d26472721c2c35b6", "Header: the letters P6", 12),
        ("netpbm_two_images", "d095ab6fce82e698", "16: bytes after the samples", 16),
        ("imagemagick_rose", "0ef4f0a1e76fe682", taken, None),
        ("imagemagick_gradient", "5ac2410c7e593885", taken, None),
        ("imagemagick_16_bits", "59272de2a492765d", "13: the largest sample value is not 255", 13),
        ("imagemagick_comment", "f1c5a1b03c67fad8", commented, None),
        ("imagemagick_comment_lines", "7070b0252e3177df", commented, None),
        ("imagemagick_header_512", "8dbb83020884a8ca", commented, None),
        ("imagemagick_header_513", "eb90396a67f30ad7", "The header may have 512 bytes, comments included", 12),
        ("gimp_gradient", "d3c2db5a95d61ad8", commented, None),
        ("ghostscript_page", "c51e9c28456adad6", commented, None),
        ("vips_gradient", "dd2f2edf5e781d87", commented, None),
        ("imagemagick_two_images", "d095ab6fce82e698", "16: bytes after the samples", 16),
    ):
        path = BY_TOOLS / f"{name}.ppm"
        if not path.is_file():
            sys.exit(f"cases.py: by_tools/{path.name} is missing")
        file = path.read_bytes()
        if digest(file) != due:
            sys.exit(f"cases.py: by_tools/{path.name} is not as the tool wrote it")
        yield Case(name, shows, file, None if number is None else b"refused %d\n" % number)


# the outputs of the pictures that have none by hand, by their digests
PICTURES = {
    "grey_ramp": "9415a547f51d4365",
    "primaries": "b6dae150856bbd5c",
    "random": "c1eafb926fe4ea1a",
    "random_tall": "9c65e33ee8448084",
    "random_dark": "3c4b86cd8a2a3c88",
    "random_middle": "04cf171996b6dd5d",
    "random_bright": "14093304a37bd1f3",
    "random_row": "fbd24f2cd7fdfd4c",
    "random_column": "d2c144821207315b",
    "random_saturated": "27464d09e1ddd30e",
    "full_16384_by_1": "7bd9a8387b3327f4",
    "full_1_by_16384": "f1e9b31018fb2925",
    "full_128_by_128": "bdacde7a1eb65303",
    "full_127_by_129": "f7481e3c6f5b4b10",
    "longest": "bdacde7a1eb65303",
    "longest_of_spaces": "bdacde7a1eb65303",
    "netpbm_ramp": "592edeb9e3f85d88",
    "netpbm_gingham": "4d2da06451c2bed3",
    "netpbm_camouflage_scaled": "85b70f01097fb0db",
    "imagemagick_rose": "d1dbef73445c5dea",
    "imagemagick_gradient": "915a9524ee7c771c",
    "imagemagick_comment": "1bf93ff042ffcbe0",
    "imagemagick_comment_lines": "915a9524ee7c771c",
    "imagemagick_header_512": "1bf93ff042ffcbe0",
    "gimp_gradient": "915a9524ee7c771c",
    "ghostscript_page": "5741c321b77fa039",
    "vips_gradient": "915a9524ee7c771c",
}


def table():
    groups = (
        reference, letters, cuts, white_space, last_white_space, header_length, numbers, comments, largest_values, sizes,
        after_the_samples, first_named, moves, pictures, large, tools,
    )
    cases = [case for group in groups for case in group()]
    names = [case.name for case in cases]
    twice = {name for name in names if names.count(name) > 1}
    if twice:
        sys.exit(f"cases.py: two cases of one name: {sorted(twice)}")
    return cases


def main():
    if len(sys.argv) != 2:
        sys.exit(__doc__)
    folder = pathlib.Path(sys.argv[1])
    folder.mkdir(parents=True, exist_ok=True)
    for case in table():
        (folder / f"{case.name}.ppm").write_bytes(case.file)
        (folder / f"{case.name}.out").write_bytes(answer(case.file) if case.by_hand is None else case.by_hand)


if __name__ == "__main__":
    main()
