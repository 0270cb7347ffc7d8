"""Reads Markdown as far as these tests need it: headings, links, tables, code spans and code blocks."""

import pathlib
import re
from typing import NamedTuple

README = pathlib.Path("README.md")
DOCS = pathlib.Path("docs")
FENCE = re.compile(r"^\s*```")
LINK = re.compile(r"!?\[[^\]]*\]\(([^)\s]+)\)")
SPAN = re.compile(r"(`+)(.+?)\1", re.S)
HEADING = re.compile(r"^#{1,6} +(.+?)\s*$")


def all_pages():
    """Every page of the project, as paths from its root."""
    return [README, pathlib.Path("CHANGES.md"), *sorted(DOCS.glob("*.md"))]


def read(path):
    return path.read_text(encoding="utf-8")


def flowing(text):
    """A text without its line breaks; of a C comment's lines the stars go too."""
    return " ".join(text.replace("\n * ", "\n").split())


def prose(text):
    """The lines outside code blocks, and nothing for those inside: between fences, or set in by four spaces after an empty line."""
    fenced, kept = False, []
    for line in text.splitlines():
        fence = FENCE.match(line)
        fenced ^= bool(fence)
        set_in = line.startswith("    ") and (not kept or not kept[-1].strip())
        kept.append("" if fence or fenced or set_in else line)
    return kept


def blocks(text, language):
    """The code blocks of a language, between fences."""
    return re.findall(rf"^```{language}\n(.*?)^```$", text, re.M | re.S)


def spans(text):
    """What stands in backquotes outside code blocks."""
    return [" ".join(span.split()) for _, span in SPAN.findall("\n".join(prose(text)))]


def links(text):
    """The targets of links and pictures; what stands in backquotes is none."""
    return LINK.findall(SPAN.sub(lambda span: "`" + "x" * len(span.group(2)) + "`", "\n".join(prose(text))))


def headings(text):
    return [found.group(1) for line in prose(text) if (found := HEADING.match(line))]


def anchor(heading):
    """The name by which a link reaches a heading: small letters, digits, hyphens; a space is a hyphen, other signs go."""
    return re.sub(r"[^\w\- ]", "", heading.lower()).replace(" ", "-")


def anchors(text):
    """The anchors of a page; a heading that comes again gets a number."""
    seen, found = {}, set()
    for heading in headings(text):
        name = anchor(heading)
        count = seen[name] = seen.get(name, -1) + 1
        found.add(f"{name}-{count}" if count else name)
    return found


class Table(NamedTuple):
    head: list
    rows: list


def cells(line):
    """The cells of a table's line."""
    return [cell.strip() for cell in line.strip().strip("|").split("|")]


def tables(text):
    """The tables of a page."""
    found, lines = [], []
    for line in [*prose(text), ""]:
        if line.lstrip().startswith("|"):
            lines.append(line)
        elif lines:
            found.append(Table(cells(lines[0]), [cells(row) for row in lines[2:]]))
            lines = []
    return found


def table(path, first):
    """The one table of a page whose head begins with these cells."""
    fitting = [one for one in tables(read(path)) if one.head[: len(first)] == first]
    if len(fitting) != 1 or not fitting[0].rows:
        raise SystemExit(f"{path}: {len(fitting)} tables with the head {first}, in place of one with rows")
    return fitting[0]


def listed(text):
    """The crates of crates.txt, in its order."""
    return re.findall(r"^(\w+)(?: \w+)*:", text, re.M)


def report(name, count, faults):
    """Prints the faults and what was looked at; the exit status."""
    for fault in faults:
        print(fault)
    print(f"{name}: {count}, {len(faults)} faults")
    return 1 if faults else 0
