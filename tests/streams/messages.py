"""What the filters are given as arguments, what they say of it, and which refusal comes first where several apply."""

import itertools
import os

from exact_filters import COLOUR, HOLD, MEASURE, MIX, OFF, USAGE, Answer, Job, coloured, measured, misused, no_curve, refused, words_of
from inputs import NO_CHOICES, NO_METHODS, NO_STOPS, NOT_HELD
from trial import run

NOT_A_NUMBER = "not a number from 0 to 4294967295"
NO_SUCH_DIAL = "no such dial command: off, mix or hold"
TOO_FEW, TOO_MANY = "too few words", "too many words"
NOT_READ = "the arguments cannot be read"
# as words they are no number: signs, other bases, points, digits that are not ASCII, more than 10 digits, more than 32 bits
NO_NUMBERS = "-1", "+1", "x", "1x", "x1", "1.0", "1,0", "0x1", "1e0", "#", "1#", "--", "-", "-h", "--Help", "--help=", "\u0661", "1\u00a0"
NO_NUMBERS += "4294967296", "4294967297", "9999999999", "10000000000", "12345678901", "00000000001", "00000000000", "18446744073709551617"
ONE = "1", "01", "001", "0000000001"
TWO = "2", "02", "0000000002"
NO_COMMANDS = "OFF", "Off", "MIX", "Hold", "offf", "of", "mi", "on", "balance", "-off", "off,"

# what follows the curve, and why it cannot be used: the leftmost word at fault tells
MISUSED_JOBS = (
    *(([word], NOT_A_NUMBER) for word in (*NO_NUMBERS, *NO_COMMANDS)),
    *((["1", word], NO_SUCH_DIAL) for word in (*NO_NUMBERS, *NO_COMMANDS, "1", "2", "256")),
    *(([command, word], NOT_A_NUMBER) for command in (MIX, HOLD) for word in (*NO_NUMBERS, *NO_COMMANDS, OFF, MIX, HOLD)),
    *((["2", command, word], NOT_A_NUMBER) for command in (MIX, HOLD) for word in ("-1", "4294967296", OFF)),
    ([MIX], TOO_FEW),
    ([HOLD], TOO_FEW),
    (["1", MIX], TOO_FEW),
    (["2", HOLD], TOO_FEW),
    ([OFF, "1"], TOO_MANY),
    ([OFF, "2"], TOO_MANY),
    ([MIX, "128", "1"], TOO_MANY),
    ([HOLD, "300", "2"], TOO_MANY),
    ([OFF, OFF], TOO_MANY),
    (["--help"], NOT_A_NUMBER),
    (["2", "--help"], NO_SUCH_DIAL),
    (["1", OFF, OFF], TOO_MANY),
    (["1", MIX, "1", "1"], TOO_MANY),
    (["1", HOLD, "1", OFF], TOO_MANY),
    # the number of a refusal is for what can be used, and comes after
    (["3", MIX], TOO_FEW),
    (["3", "paint"], NO_SUCH_DIAL),
    ([MIX, "257", "x"], TOO_MANY),
)
GOOD_JOBS = (
    ([], Job()),
    *(([word], Job(1)) for word in ONE),
    *(([word], Job(2)) for word in TWO),
    ([OFF], Job(2, OFF)),
    (["0000000001", OFF], Job(1, OFF)),
    ([MIX, "77"], Job(2, MIX, 77)),
    ([MIX, "0000000077"], Job(2, MIX, 77)),
    ([MIX, "0000000000"], Job(2, MIX, 0)),
    (["01", MIX, "0256"], Job(1, MIX, 256)),
    ([HOLD, "200"], Job(2, HOLD, 200)),
    ([HOLD, "0000000765"], Job(2, HOLD, 765)),
    (["01", HOLD, "000"], Job(1, HOLD, 0)),
)
# The words are put together to one line before it is read: what is empty or white space is left out, and one argument may have several.
GOOD_JOBS += (
    ([""], Job()),
    (["", "1"], Job(1)),
    (["1", "", OFF], Job(1, OFF)),
    (["1 mix 77"], Job(1, MIX, 77)),
    ([" \t\n\v\f\r", "hold\t200 "], Job(2, HOLD, 200)),
)
CHOICES = (
    ([], 1),
    *(([word], 1) for word in ONE),
    *(([word], 2) for word in TWO),
    ([""], 1),
    ([" 2\n"], 2),
    *(([str(number)], number) for number in (*NO_CHOICES, "0000000003")),
)
MISUSED_CHOICES = (
    *(([word], NOT_A_NUMBER) for word in (*NO_NUMBERS, *NO_COMMANDS, OFF)),
    *(([one, other], TOO_MANY) for one, other in (("1", "1"), ("2", "x"), ("3", "1"), ("1 2", ""), ("1", "--help"))),
    (["x", "1"], NOT_A_NUMBER),
    (["--help", "1"], NOT_A_NUMBER),
)


def choices(group, command, stream):
    for words, choice in CHOICES:
        group.expect_from_file(f"choice {words}", [*command, *words], stream, measured(int(choice), stream))
    for words, reason in MISUSED_CHOICES:
        group.expect_from_file(f"choice {words}", [*command, *words], stream, misused(MEASURE, reason))


def refusals_of_measure(group, command, stream):
    """4 comes before a stream that is refused by 2 or 5 or cannot be read, and 2 before 5: one byte is no pixel.

    (3 is in limits.py. It is for more pixels than a shot may have, and 5 for none, so that they never meet.)
    """
    for choice, part in itertools.product((1, 2, 0, 3), (b"", b"a", b"ab", stream[:3], stream[:4], stream)):
        group.expect_from_file(f"{choice}, {len(part)} bytes", [*command, str(choice)], part, measured(choice, part))
    place = os.open(os.path.dirname(os.path.abspath(__file__)), os.O_RDONLY)
    group.judge("choice 3 of a folder", refused(MEASURE, 4, 0), run([*command, "3"], stdin=place))
    os.close(place)
    group.refused_by(2, 4, 5)


def jobs(group, command, curve_file, curve, stream):
    for words, job in GOOD_JOBS:
        group.expect_from_file(f"job {words}", [*command, curve_file, *words], stream, coloured(curve, job, stream))
    for words, reason in MISUSED_JOBS:
        group.expect_from_file(f"job {words}", [*command, curve_file, *words], stream, misused(COLOUR, reason))
    group.expect_from_file("no curve is named", command, stream, misused(COLOUR, "no curve is named"))


def refusals_of_colour(group, command, curve_files, stream):
    """10, 11, 7, 17 or 18, and 2, in this order: every set of them that can be met together is met."""
    settings = (None, 0), (OFF, 0), (MIX, 256), (MIX, 257), (HOLD, 765), (HOLD, 766)
    for (path, curve), method, setting, length in itertools.product(curve_files, (1, 2, 3), settings, (0, 1, 3, 4, len(stream))):
        job, part = Job(method, *setting), stream[:length]
        group.expect_from_file(
            f"{path.name} {job} {length} bytes", [*command, path, *words_of(job)], part, coloured(curve, job, part)
        )
    group.refused_by(10, 11, 7, 17, 18, 2)


def numbers_out_of_range(group, command, curve_file, stream):
    for number, answers in ((7, NO_METHODS), (17, NO_STOPS), (18, NOT_HELD)):
        for value in answers:
            job = {7: Job(value), 17: Job(1, MIX, value), 18: Job(2, HOLD, value)}[number]
            group.expect_from_file(f"{job}", [*command, curve_file, *words_of(job)], stream, refused(COLOUR, number, 0))


def curve_names(group, command, folder, curve, stream):
    """A curve is a file of any name in the folder in which the filter is called; one that cannot be read is told by name."""
    answer = coloured(curve, Job(), stream)
    (folder / "below").mkdir()
    for name in "a b.curve", "-1", "off", "2", "\u00e4'\"$(x).curve", "below/a.curve", "./--help":
        (folder / name).write_bytes(curve)
        group.judge(f"the curve {name}", answer, run([*command, name], stream, cwd=folder))
        group.judge(f"the curve {name} by its whole path", answer, run([*command, str(folder / name)], stream))
    for name in "missing", "below", "a b.curve/x", "", "missing folder/a.curve", "off ", "x" * 300:
        group.judge(f"the curve {name!r}", no_curve(name), run([*command, name], stream, cwd=folder))
    # the words are looked at before the curve, and the curve before the numbers
    group.judge("no curve and bad words", misused(COLOUR, TOO_MANY), run([*command, "missing", OFF, "1"], stream))
    group.judge("no curve and no such method", no_curve("missing"), run([*command, "missing", "3"], stream, cwd=folder))
    group.expect_from_file("a curve without an end", [*command, "/dev/zero"], stream, refused(COLOUR, 10, 0))
    group.expect_from_file("an empty curve", [*command, "/dev/null"], stream, refused(COLOUR, 10, 0))


def not_text(group, commands, curve_file):
    """An argument that is no UTF-8 is no word, and no curve's name either."""
    group.judge("choice \\xff", misused(MEASURE, NOT_READ), run([*commands[MEASURE], b"\xff"], b""))
    group.judge("curve \\xff", misused(COLOUR, NOT_READ), run([*commands[COLOUR], b"\xff"], b""))
    group.judge("method \\xff", misused(COLOUR, NOT_READ), run([*commands[COLOUR], curve_file, b"2\xff"], b""))


def helps(group, commands):
    """The usage is an answer, and on standard output; nothing is read for it."""
    for program, command in commands.items():
        answer = Answer(0, USAGE[program].encode() + b"\n")
        group.expect_from_file(f"{program} --help", [*command, "--help"], b"abc", answer)
        came = run(["bash", "-c", 'exec "$0" --help >/dev/full', *command], b"")
        group.judge(f"{program} --help on a full disk", Answer(1), came._replace(said=b""))
