"""The newest section of CHANGES.md is the C header's version, and the versions fall from section to section."""

import pathlib
import re
import sys

CHANGES = pathlib.Path("CHANGES.md")
HEADER = pathlib.Path("include/cube_balance.h")
PARTS = "MAJOR", "MINOR", "PATCH"
NUMBER = "(0|[1-9][0-9]*)"
SECTION = re.compile(r"^## *(.*)$", re.M)
VERSION = re.compile(rf"{NUMBER}\.{NUMBER}\.{NUMBER}")


def shown(version):
    return ".".join(map(str, version))


def of_header(text):
    """The header's version, each part of it defined once; or nothing."""
    found = [re.findall(rf"^#define CUBE_BALANCE_VERSION_{part} {NUMBER}$", text, re.M) for part in PARTS]
    return tuple(int(numbers[0]) for numbers in found) if all(len(numbers) == 1 for numbers in found) else None


def faults(changes, text):
    """What is wrong with the sections, and with the header beside them."""
    header, titles = of_header(text), SECTION.findall(changes)
    yield from (f"{CHANGES}: '{title}' is no version" for title in titles if not VERSION.fullmatch(title))
    versions = [tuple(map(int, VERSION.fullmatch(title).groups())) for title in titles if VERSION.fullmatch(title)]
    for newer, older in zip(versions, versions[1:]):
        if newer <= older:
            yield f"{CHANGES}: {shown(newer)} stands above {shown(older)}"
    if header is None:
        yield f"{HEADER} does not define each part of its version once"
        return
    if f"#if CUBE_BALANCE_VERSION_MAJOR != {header[0]}." not in text:
        yield f"{HEADER}: its example does not test for {header[0]}"
    if versions[:1] != [header]:
        yield f"{HEADER} has {shown(header)}, and the newest section of {CHANGES} is {shown(versions[0]) if versions else 'not there'}"


def main():
    text = HEADER.read_text(encoding="utf-8")
    found = list(faults(CHANGES.read_text(encoding="utf-8"), text))
    print("\n".join(found) if found else f"version: {shown(of_header(text))} in {HEADER} and {CHANGES}")
    sys.exit(1 if found else 0)


if __name__ == "__main__":
    main()
