"""The C header and the code name the same refusals by the same numbers.

Each `#define CUBE_BALANCE_A_NAME n` of the header that is a refusal has its `AName = n,` in the enum of the crate `refusal`, and no
two of either share a number.
"""

import pathlib
import re
import sys

CODE = pathlib.Path("crates/refusal/src/lib.rt")
HEADER = pathlib.Path("include/cube_balance.h")
VARIANT = re.compile(r"^    ([A-Z]\w*) = (\d+),$", re.M)
DEFINED = re.compile(r"^#define CUBE_BALANCE_(\w+) +(\d+)\b", re.M)
# what the header names by numbers that are no refusals
VERSION = {"VERSION_MAJOR", "VERSION_MINOR", "VERSION_PATCH"}
OTHERS = VERSION | {"CURVE_LENGTH", "PIXEL_LIMIT", "CUBE", "EQUALISED", "NAIK_MURTHY", "YANG_LEE", "ACCEPTED"}


def in_capitals(name):
    """AName as A_NAME."""
    return re.sub(r"(?<!^)(?=[A-Z])", "_", name).upper()


def main():
    code = [(in_capitals(name), number) for name, number in VARIANT.findall(CODE.read_text(encoding="utf-8"))]
    header = [found for found in DEFINED.findall(HEADER.read_text(encoding="utf-8")) if found[0] not in OTHERS]
    faults = [f"{HEADER}: {name} is {number}, which {CODE} does not have" for name, number in header if (name, number) not in code]
    for where, pairs in (CODE, code), (HEADER, header):
        if not pairs:
            faults.append(f"{where}: no refusal found")
        if len({number for _, number in pairs}) != len(pairs):
            faults.append(f"{where}: two refusals share a number")
    for fault in faults:
        print(fault)
    print(f"numbers: {len(header)} of {len(code)} refusals have a name in C, {len(faults)} faults")
    sys.exit(1 if faults else 0)


if __name__ == "__main__":
    main()
