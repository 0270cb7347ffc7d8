"""crates.txt lists every crate, and for each exactly the crates that its files name, each above it.

A file of src/ names a crate by `name::`, a file of src/, specs/ or proofs/ by `Rattle.name.`; comments do not count. A must-fail edit
may name no other. The kit's libraries are named and listed in the same way; `std` comes by itself, with its own modules. The crates that
export functions to C are the static libraries, and no crate leans on one.
"""

import pathlib
import re
import sys

LIST = pathlib.Path("crates.txt")
CRATES = pathlib.Path("crates")
KIT = {"anyhow", "bytes", "check", "io", "libc", "os", "thiserror"}
STATIC = "staticlib"
COMMENT = {
    ".rt": re.compile(r'''("(?:\\.|[^"\\])*"|'(?:\\.|[^'\\])')|//[^\n]*|/\*.*?\*/''', re.S),
    ".antt": re.compile(r'("(?:\\.|[^"\\])*")|(?<![^\s(){}\[\],;])--[^\n]*|\{-.*?-\}', re.S),
}
PATH = re.compile(r"(?<![\w:])(\w+)\s*::")
LIBRARY = re.compile(r"\bRattle\.(\w+)\.")
OF_STD = re.compile(r"\buse std::([^;]*);")
EXPORTED = re.compile(r"^#\[unsafe\(no_mangle\)\]$", re.M)
MODULE = re.compile(r"\bmod (\w+)")


def named(text, kind, crates):
    """The crates that a text of src/ (.rt) or of specs/ and proofs/ (.antt) names."""
    text = COMMENT[kind].sub(lambda found: found.group(1) or " ", text)
    heads = set()
    if kind == ".rt":
        # a module of the crate's own, or of std
        modules = {word for items in OF_STD.findall(text) for word in re.findall(r"\w+", items)} | set(MODULE.findall(text))
        heads = set(PATH.findall(text)) - modules
    return (heads | set(LIBRARY.findall(text))) & crates


def named_by(crate, crates):
    """For each crate that a crate's files name, the first file that does."""
    found = {}
    for part in "src", "specs", "proofs":
        for path in sorted((CRATES / crate / part).rglob("*")):
            if path.suffix in COMMENT:
                for name in named(path.read_text(encoding="utf-8"), path.suffix, crates):
                    found.setdefault(name, path)
    found.pop(crate, None)
    return found


def named_by_edit(text, crates):
    """The crates that a must-fail edit names in what it puts in."""
    kind, found = None, set()
    for line in text.splitlines():
        if line.startswith("file:"):
            kind = pathlib.Path(line.strip()).suffix
        elif line.startswith("new:") and kind in COMMENT:
            found |= named(line.removeprefix("new:"), kind, crates)
    return found


def exports(crate):
    """Whether a crate has functions for C."""
    return any(EXPORTED.search(path.read_text(encoding="utf-8")) for path in (CRATES / crate / "src").rglob("*.rt"))


def listed(text):
    """The lines of crates.txt: a name, the words between it and the colon, and the names after that."""
    for line in text.splitlines():
        line = line.partition("#")[0]
        if line.strip():
            name, _, rest = line.partition(":")
            name, *words = name.split()
            yield name, words, rest.split()


def kind_faults(crate, words, names, is_exporter, statics):
    """What is wrong with a line's words, where `statics` are the static libraries above it."""
    if words != [STATIC] * is_exporter:
        yield f"{crate}: its line has the words {words}, and it {'exports functions to C' if is_exporter else 'exports nothing to C'}"
    for name in sorted(set(names) & statics):
        yield f"{crate}: its line lists {name}, a library for C"


def faults_of(crate, names, needed):
    """What is wrong with a line, where `needed` says which crates are named and where."""
    for name in sorted(needed.keys() - set(names)):
        yield f"{crate}: {needed[name]} names {name}, which its line does not list"
    for name in sorted(set(names) - needed.keys()):
        yield f"{crate}: its line lists {name}, which no file of src/, specs/ or proofs/ names"
    for name in sorted({name for name in names if names.count(name) > 1}):
        yield f"{crate}: its line lists {name} twice"


def selftest():
    """Names are found where they stand, and nowhere else."""
    crates = {"curve", "io", "pixel", "still", "text"}
    for kind, text, due in (
        (".rt", "let a = still::job(&b);", {"still"}),
        (".rt", "use io::read;\nghost use Rattle.text.specs.Text.{T};", {"io", "text"}),
        (".rt", "// still::job\nlet a = Pixel::still(pixel, my_curve::x, a::io::b); /* io::x */", set()),
        (".rt", 'let a = "// "; still::job();', {"still"}),
        (".rt", "let a = b'\"'; still::job(); // \"io::x\"", {"still"}),
        (".rt", "mod curve;\nfn f() { curve::x() }", set()),
        (".rt", "use std::io::{self, Read};\nuse std::{fs, text};\nfn f() { io::stdin(); text::x(); std::still::y(); }", set()),
        (".antt", "use Rattle.pixel.specs.Move.{a}\nuse Rattle.text.proofs.Text.{b}", {"pixel", "text"}),
        (".antt", "-- Rattle.pixel.specs\n{- Rattle.text.specs -}\na = still::b.Rattle.curves.specs", set()),
    ):
        if named(text, kind, crates) != due:
            sys.exit(f"crates_txt.py finds {sorted(named(text, kind, crates))} in place of {sorted(due)} in:\n{text}")
    edit = "# Rattle.pixel.specs\nfile: src/lib.rt\nold: io::x\nnew: text::y\nfile: proofs/A.antt\nnew: use Rattle.curve.specs.A.{b}\n"
    if named_by_edit(edit, crates) != {"curve", "text"}:
        sys.exit(f"crates_txt.py finds {sorted(named_by_edit(edit, crates))} in an edit")
    lines = list(listed("# words\na:\nb: a io # more\nc staticlib: a\n"))
    if lines != [("a", [], []), ("b", [], ["a", "io"]), ("c", ["staticlib"], ["a"])]:
        sys.exit(f"crates_txt.py reads {lines}")
    kinds = (["staticlib"], ["a"], True, {"d"}), ([], ["a"], False, {"d"}), ([], ["a"], True, set()), (["staticlib"], [], False, set()), ([], ["d"], False, {"d"})
    if [len(list(kind_faults("c", *kind))) for kind in kinds] != [0, 0, 1, 1, 1]:
        sys.exit("crates_txt.py does not tell a library for C from another")
    if len(list(faults_of("c", ["a", "b", "b"], {"b": "x", "d": "y"}))) != 3 or list(faults_of("c", ["b"], {"b": "x"})):
        sys.exit("crates_txt.py does not tell a wrong line from a right one")


def main():
    selftest()
    lines = list(listed(LIST.read_text(encoding="utf-8")))
    there = {path.name for path in CRATES.iterdir() if path.is_dir()}
    crates = there | KIT
    faults, above, statics = [], set(), set()
    for crate, words, names in lines:
        needed = named_by(crate, crates)
        faults += faults_of(crate, names, needed)
        faults += [f"{crate}: {name} stands below it" for name in sorted(needed.keys() - above - KIT)]
        faults += kind_faults(crate, words, names, exports(crate), statics)
        statics |= {crate} if words else set()
        for edit in sorted((CRATES / crate / "must-fail").glob("*.edit")):
            others = named_by_edit(edit.read_text(encoding="utf-8"), crates) - needed.keys() - {crate}
            faults += [f"{edit} names {name}, and no file of its crate does" for name in sorted(others)]
        above.add(crate)
    faults += [f"{crate} has no line" for crate in sorted(there - above)]
    faults += [f"{crate} has a line, and is not in crates/" for crate in sorted(above - there)]
    for fault in faults:
        print(f"crates.txt: {fault}")
    if not lines:
        sys.exit("crates.txt: no crate found")
    print(f"crates.txt: {len(lines)} crates, {len(faults)} faults")
    sys.exit(1 if faults else 0)


main()
