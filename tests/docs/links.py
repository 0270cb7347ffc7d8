"""Every link of the pages leads somewhere, every path and every name in them is there, and they stand by themselves.

A link within the project has to lead to a file, and its anchor to a heading. What stands in backquotes and looks like a path has to be
there, from the project's root, from crates/, from a crate or from docs/. What looks like a name has to stand as a word in some file that
is no page. The customer's papers are cited only where it is said what they are.
"""

import pathlib
import re
import sys

from pages import DOCS, all_pages, anchors, flowing, links, prose, read, report, spans

# history speaks in the names and paths of its time, and three pages name what each thing was called before
HISTORY = {DOCS / "LANDINGS.md", DOCS / "PORT.md", DOCS / "DESIGN-PASS.md", DOCS / "LOOK-BACK.md"}
# these say what the customer's papers are
EXPLAIN = {DOCS / "RULES.md", DOCS / "PROMISES.md", DOCS / "DECISIONS.md"} | HISTORY
PAPERS = re.compile(r"document 0\d|demand [123]\b|source 00\d", re.I)

CRATES = pathlib.Path("crates")
PLACES = pathlib.Path("."), CRATES, DOCS, *sorted(path for path in CRATES.iterdir() if path.is_dir())
PATH = re.compile(r"(?:\.?[\w+-]+/)+(?:[\w+.-]+)?|[\w-]+\.(?:md|txt|c|h|py|ppm|antt|rt)")
NAME = re.compile(r"[A-Za-z][\w·'′₀-₉-]*(?:(?:::|\.)[A-Za-z_][\w'-]*)*")
SOURCES = "crates", "include", "examples", "bench", "tests", "bin", "samples", ".ci"
# what a reader makes: products, and the files of examples
MADE = {"target", "out", "balanced.ppm", "in.ppm", "out.ppm"}
# words in backquotes that are no names of ours
WORDS = {
    "P6", "refused", "rt", "rattle-kit-13f", "memcpy", "memset", "rattle_errno", "objdump", "ulimit", "ffmpeg", "ffprobe", "convert",
    "ppmtoppm", "ppmraw", "file-ppm-save",
}


def link_faults(path):
    """The links of a page that lead nowhere."""
    for target in links(read(path)):
        if re.match(r"[a-z]+:", target):
            continue
        file, _, name = target.partition("#")
        there = path if not file else path.parent / file
        if not there.exists():
            yield f"{path}: no file for the link {target}"
        elif name and (there.suffix != ".md" or name not in anchors(read(there))):
            yield f"{path}: no heading for the link {target}"


def is_there(path):
    """Whether there is such a file or folder. A star stands for any name."""
    if path.split("/")[0] in MADE:
        return True
    return any(any(place.glob(path.rstrip("/"))) for place in PLACES)


def edit_of(path):
    """Whether CRATE/EDIT names a must-fail edit."""
    crate, _, edit = path.partition("/")
    return (CRATES / crate / "must-fail" / f"{edit}.edit").is_file()


def path_faults(path):
    """The paths in backquotes that are not there."""
    for span in spans(read(path)):
        for word in span.split():
            word = word.strip("\"',;:()")
            if PATH.fullmatch(word.replace("*", "x")) and not is_there(word) and not edit_of(word):
                yield f"{path}: no file {word}"


def words_of_the_sources():
    """Every word of the files that are no pages, and the names of crates and edits. What rt makes, in a crate's out/, is no source."""
    found = set()
    for folder in SOURCES:
        for file in pathlib.Path(folder).rglob("*"):
            is_made = file.parts[0] == "crates" and "out" in file.parts[2:3]
            if not is_made and file.is_file() and file.suffix in {".rt", ".antt", ".edit", ".c", ".h", ".py", ".sh", ""}:
                text = file.read_text(encoding="utf-8", errors="ignore")
                found |= set(re.findall(r"[^\s(){}\[\];,\"`.:]+", text)) | set(re.findall(r"\w+", text))
    return found | {path.stem for path in [*CRATES.iterdir(), *CRATES.glob("*/must-fail/*.edit")]}


def parts(name):
    """The words of a name: `a::b` and `A.b` have two."""
    return [part for part in re.split(r"::|\.", name) if part]


def name_faults(path, known):
    """The names in backquotes that no source has: those that are one word, or begin a call or an application."""
    for span in spans(read(path)):
        head = re.match(NAME, span)
        if not head or PATH.fullmatch(span) or head.group() in WORDS or len(head.group()) < 3:
            continue
        missing = [part for part in parts(head.group()) if part not in known]
        if missing:
            yield f"{path}: no source has the name {missing[0]}, in `{span}`"


def paper_faults(path):
    """The papers that are cited, which the reader does not have; a citation may run over lines."""
    for found in PAPERS.finditer(flowing("\n".join(prose(read(path))))):
        yield f"{path}: cites {found.group()}, and does not say what it is"


def selftest():
    """What is wrong is found, and what is right is not."""
    known = {"near", "book", "open", "StepAccurate", "answer"}
    sample = pathlib.Path("target/page.md")
    sample.parent.mkdir(exist_ok=True)
    for text, check, due in (
        ("[a](README.md)", link_faults, 1),
        ("[a](../README.md) `[a](b.md)`", link_faults, 0),
        ("[a](../README.md#no-such-heading)", link_faults, 1),
        ("# A b, c\n[a](#a-b-c)", link_faults, 0),
        ("`tests/run` and `crates/*/must-fail` and `pixel/specs/Move.antt`", path_faults, 0),
        ("`tests/walk`", path_faults, 1),
        ("`pixel/white_moves` is an edit", path_faults, 0),
        ("`pixel/black_moves` is none", path_faults, 1),
        ("`near n d`, `book::open(shot)`, `StepAccurate.answer`", lambda path: name_faults(path, known), 0),
        ("`far n d`, `book::close(shot)`, `StepAccurate.number`", lambda path: name_faults(path, known), 3),
        ("as document 01 has it", paper_faults, 1),
        ("as the rules have it\n\n    document 01\n", paper_faults, 0),
        ("- a\n  - b\n    c [d](none.md)\n", link_faults, 1),
        ("as document\n01 has it", paper_faults, 1),
    ):
        sample.write_text(text, encoding="utf-8")
        found = list(check(sample))
        if len(found) != due:
            sys.exit(f"links.py finds {found} in:\n{text}")
    sample.unlink()


def main():
    selftest()
    known, faults, count = words_of_the_sources(), [], 0
    for path in all_pages():
        count += 1
        faults += link_faults(path)
        if path not in HISTORY:
            faults += [*path_faults(path), *name_faults(path, known)]
        if path not in EXPLAIN:
            faults += paper_faults(path)
    sys.exit(report("links", f"{count} pages", faults))


main()
