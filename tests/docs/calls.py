"""docs/CALLS.md has the numbers, names and orders of the code, and docs/RULES.md those of the book.

The table of numbers is compared with names and comments of the crate `refusal` and with the lists of checks that the contracts cite; the C
header's two orders and the book's are compared with the same lists. Choices, methods and the parameters of the calls for C are the
header's. Limits that the pages give in figures are those of specs/.
"""

import pathlib
import re
import sys

from pages import DOCS, README, SPAN, flowing, read, report, table, tables

CRATES = pathlib.Path("crates")
CALLS, RULES, PROMISES = DOCS / "CALLS.md", DOCS / "RULES.md", DOCS / "PROMISES.md"
HEADER = pathlib.Path("include/cube_balance.h")
# for each call, the definitions whose checks it makes, one after the other
CHECKS = {
    "shot.measure": [("shot/specs/Shot.antt", "measure_checks")],
    "shot.fix": [("shot/specs/Shot.antt", "fix_checks")],
    "shot.colour": [("shot/specs/Shot.antt", "colour_checks")],
    "move_one": [("pixel/specs/MoveOne.antt", "move_checks")],
    "cube_balance_curve": [("host/specs/Host.antt", "curve_checks"), ("strip_curve/specs/OneStrip.antt", "strip_checks")],
    "cube_balance_colour": [("host/specs/Host.antt", "colour_checks")],
    "balance": [("netpbm/specs/Header.antt", "Reading"), ("still/specs/Still.antt", "sample_checks")],
}
ORDINALS = ["1st", "2nd", "3rd", "4th", "5th", "6th"]
# limits: the file and the definition, and the pages that give it in figures
LIMITS = {
    "pixel_limit": ("measuring/specs/Histogram.antt", [CALLS, RULES]),
    "area_limit": ("netpbm/specs/Header.antt", [CALLS, RULES, README]),
    "header_limit": ("netpbm/specs/Header.antt", [CALLS, RULES, README]),
    "curve_length": ("curve_bytes/specs/CurveBytes.antt", [CALLS, RULES]),
}


def clauses(text, name):
    """The clauses of a definition, up to the next empty line."""
    found = re.search(rf"^(?:\w+ )*pub {name} : .*\n(?:unfolding .*\n)?((?:.+\n)+)", text, re.M)
    return found.group(1) if found else ""


def checked(text, name):
    """The numbers by which a definition refuses, in its order."""
    return [int(number) for number in re.findall(r"refuses (\d+)", clauses(text, name))]


def refusing(text, name, numbers):
    """The numbers of the refusals that values of this type stand for, in the order in which the file names them."""
    return [numbers[refusal] for refusal in re.findall(rf"^abbrev pub \w+ : {name}\n\w+ = Err (\w+)$", text, re.M)]


def numbers_of():
    """The number of each refusal."""
    return {name: int(number) for name, number in re.findall(r"^refusal_number (\w+) = (\d+)$", read(CRATES / "refusal/specs/Numbers.antt"), re.M)}


def order_of(call):
    numbers = numbers_of()
    found = []
    for file, name in CHECKS[call]:
        text = read(CRATES / file)
        found += refusing(text, name, numbers) if name[0].isupper() else checked(text, name)
    return found


def table_orders(numbers):
    """For each call of the table of numbers, the numbers in the order that its column gives; and what is wrong with a cell."""
    orders, faults = {}, []
    for place, cell in enumerate(numbers.head[3:], 3):
        call = cell.strip("`")
        found = {row[place]: int(row[0]) for row in numbers.rows if row[place]}
        orders[call] = [found.get(ordinal) for ordinal in ORDINALS[: len(found)]]
        if None in orders[call] or sum(row[place] != "" for row in numbers.rows) != len(found):
            faults.append(f"{CALLS}: the column of {call} counts wrong")
    return orders, faults


def limits():
    """The limits, in figures."""
    found = {name: re.search(rf"^{name} = (\d+)$", read(CRATES / file), re.M) for name, (file, _) in LIMITS.items()}
    if None in found.values():
        raise SystemExit(f"specs/ do not give in figures: {[name for name in found if not found[name]]}")
    return {name: int(value.group(1)) for name, value in found.items()}


def named():
    """The refusals of the crate `refusal`: number, name, and what the comment says, with the limits in figures."""
    values = limits()
    for words, name, number in re.findall(r"^    // (.+)\.\n    ([A-Z]\w*) = (\d+),$", read(CRATES / "refusal/src/lib.rt"), re.M):
        limit = values["area_limit" if name == "AreaOutOfRange" else "pixel_limit"]
        yield number, name, words[0].lower() + words[1:].replace("the limit", f"{limit:,}")


def number_faults():
    """What is wrong with the table of numbers."""
    numbers = table(CALLS, ["number", "name"])
    due = list(named())
    if len(due) != len(re.findall(r" = \d+,$", read(CRATES / "refusal/src/lib.rt"), re.M)) or not due:
        yield "crates/refusal/src/lib.rt: a refusal without a comment of one sentence"
    for row, wanted in zip(numbers.rows, due):
        if (row[0], row[1].strip("`"), row[2]) != wanted:
            yield f"{CALLS}: {row[:3]}, and the crate refusal has {wanted}"
    if len(numbers.rows) != len(due):
        yield f"{CALLS}: {len(numbers.rows)} numbers, and the crate refusal has {len(due)}"
    orders, faults = table_orders(numbers)
    yield from faults
    if orders.keys() != CHECKS.keys():
        yield f"{CALLS}: the columns are not those of {list(CHECKS)}"
    for call in orders.keys() & CHECKS.keys():
        if orders[call] != order_of(call) or not orders[call]:
            yield f"{CALLS}: {call} has the order {orders[call]}, and its checks {order_of(call)}"


def filter_faults():
    """What is wrong with the orders that the page gives for the two filters. A shot that is opened is never refused 1."""
    measuring, colouring = (read(CRATES / file) for file in ("stream_curve/specs/StreamCurve.antt", "stream_colouring/specs/StreamColour.antt"))
    pieces = sorted(set(order_of("shot.measure")) - {1}, reverse=True)
    due = {
        "`measure`": checked(measuring, "curve_checks") + pieces + order_of("shot.fix")[-1:],
        "`colour`": [number for name in ("opening_checks", "setting_checks", "stream_checks") for number in checked(colouring, name)],
    }
    rows = {row[0]: [int(number) for number in re.findall(r"\d+", row[1])] for row in table(CALLS, ["filter", "refused, in this order"]).rows}
    if rows != due:
        yield f"{CALLS}: the filters refuse by {rows}, and their checks have {due}"


def header_faults():
    """What is wrong with the orders that the C header gives."""
    for call in "cube_balance_curve", "cube_balance_colour":
        found = re.search(rf"Checked in this order: ([\d, ]+)\.\n \*/\nuint32_t {call}\(", read(HEADER))
        if not found or [int(number) for number in found.group(1).split(",")] != order_of(call):
            yield f"{HEADER}: {call} has another order than its checks {order_of(call)}"


def parameter_faults():
    """What is wrong with the parameters that the page gives for the calls for C."""
    prototypes = dict(re.findall(r"^uint32_t (\w+)\(([^)]*)\);$", read(HEADER), re.M))
    calls = [span for one in tables(read(CALLS)) for row in one.rows for _, span in SPAN.findall(row[0]) if span.startswith("cube_balance_")]
    due = [f"{name}({', '.join(part.split()[-1].strip('*') for part in parts.split(','))})" for name, parts in prototypes.items()]
    return [] if calls == due else [f"{CALLS}: the calls for C are {calls}, and the header has {due}"]


def word_faults():
    """Whether the pages number choices and methods as the header does."""
    number = dict(re.findall(r"^#define CUBE_BALANCE_(\w+) (\d)\b", read(HEADER), re.M))
    cube, equalised, first, second = (number[name] for name in ("CUBE", "EQUALISED", "NAIK_MURTHY", "YANG_LEE"))
    for page, words in (
        (CALLS, f"by choice {cube}, the cube, or {equalised}, equalised"),
        (CALLS, f"by method {first}, Naik and Murthy's, or {second}, Yang and Lee's"),
        (RULES, f"| {cube}, the cube |"),
        (RULES, f"| {equalised}, equalised |"),
        (RULES, f"Method {first} is Naik and Murthy's, method {second} Yang and Lee's."),
    ):
        if words not in flowing(read(page)):
            yield f"{page} does not say: {words}"


def book_faults():
    """What is wrong with the orders that the rules give for the book."""
    rows = table(RULES, ["call", "refused"]).rows
    if [row[0] for row in rows] != ["open", "measure", "fix", "colour"]:
        yield f"{RULES}: the book has not the four calls"
    for row in rows:
        call, refused = row[0], [int(number) for number in re.findall(r"(?:^|; )(\d+) ", row[1])]
        if refused != (order_of(f"shot.{call}") if f"shot.{call}" in CHECKS else []):
            yield f"{RULES}: the book refuses {call} by {refused}"


def limit_faults():
    """The limits that a page does not give."""
    values = limits()
    # the largest file that is accepted, and what is read of a longer one
    largest = values["header_limit"] + 3 * values["area_limit"]
    due = [(values[name], page) for name, (_, pages) in LIMITS.items() for page in pages]
    for value, page in [*due, (largest, PROMISES), (largest + 1, PROMISES)]:
        if not re.search(rf"(?<![\d,]){value:,}(?![\d,])", read(page)):
            yield f"{page} has not the figure {value:,}"


def selftest():
    """Orders are read as they stand."""
    text = "abbrev pub a_checks : Bool → List Check\na_checks x = x refuses 4 ∷ not x refuses 10 ∷ []\n\nb = y refuses 9\n"
    if checked(text, "a_checks") != [4, 10]:
        sys.exit(f"calls.py reads {checked(text, 'a_checks')}")
    if refusing("abbrev pub a : R\na = Err B\n\nabbrev pub c : Q\nc = Err D\n\nabbrev pub e : R\ne = Err D\n", "R", {"B": 12, "D": 13}) != [12, 13]:
        sys.exit("calls.py does not read the refusals of a type's values")
    if checked(text, "c_checks"):
        sys.exit("calls.py reads a definition that is not there")


def main():
    selftest()
    faults = [*number_faults(), *filter_faults(), *header_faults(), *parameter_faults(), *word_faults(), *book_faults(), *limit_faults()]
    sys.exit(report("calls", f"{len(CHECKS)} calls", faults))


main()
