#!/usr/bin/env python3
"""Brings this repository's own definitions and lemmas to the spelling of today's Rattle: words in snake case.

usage: python3 tools/respell.py        at the top of the repository, once, after the kit's port.py

A name of specs/ or of a lemma file of proofs/ that begins with a small letter and holds a capital or a dash is spelled anew, everywhere:
in specs/, proofs/, the clauses and `ghost use` lines of src/, the lines of must-fail edits, and in the pages and comments where it stands
between backticks. Types, modules, functions of src/, strings and files keep their names. Where a lemma would fall together with the
definition that it is about, the lemma gets `_lem` after its name.
"""

import os
import re
import subprocess
import sys

TOKEN = re.compile(r"[A-Za-z_][A-Za-z0-9_'₀-₉-]*[A-Za-z0-9_'₀-₉]|[A-Za-z_]")
DECLARED = re.compile(r"^\s*(?:(?:pub|abbrev|unfoldable)\s+)*((?:[A-Za-z_][\w'₀-₉-]*\s+)*[A-Za-z_][\w'₀-₉-]*)\s+:\s")
KEYWORDS = {"pub", "abbrev", "unfoldable", "data", "record", "module", "let"}
# Where definitions and lemmas stand. Below proofs/ a folder is a function's own proof: what is declared there has the names of goals.
FOLDERS = {"specs", "proofs"}
# An operator's name has a circle on either side where it is declared, and none where it is used.
OPERATORS = {"upTo": "up_to"}
# A lemma that would fall together with a field of specs/.
APART = {"case-III-ii": "case_iii_ii_lem"}


def files(top, ending):
    for folder, folders, names in os.walk(top):
        folders[:] = sorted(f for f in folders if f not in ("out", ".git", "target"))
        for name in sorted(names):
            if name.endswith(ending):
                yield os.path.join(folder, name)


def read(path):
    with open(path, encoding="utf-8") as f:
        return f.read()


def snake(name):
    parted = re.sub(r"(?<=[a-z0-9₀-₉])([A-Z])", lambda m: "_" + m.group(1), name)
    return parted.replace("-", "_").lower()


def declared(top):
    names = set()
    for path in files(os.path.join(top, "crates"), ".antt"):
        if os.path.basename(os.path.dirname(path)) not in FOLDERS:
            continue
        for line in read(path).split("\n"):
            m = None if line.lstrip().startswith("--") else DECLARED.match(line)
            names.update(n for n in (m.group(1).split() if m else []) if n not in KEYWORDS)
    return names


def renamings(names):
    to = {n: snake(n) for n in names if n[0].islower() and snake(n) != n}
    functions = {s for n, s in to.items() if "-" not in n}
    renamed = {}
    for n, s in to.items():
        renamed[n] = s + "_lem" if "-" in n and s in functions else s
    # A lemma of a definition's new name, where it is spelled anew already. (A field may be named as the lemma that fills it.)
    if "same_number" in names and "sameNumber" in names:
        renamed["same_number"] = "same_number_lem"
    return renamed | OPERATORS | {n: s for n, s in APART.items() if n in names}


def turn(text, renamed):
    return TOKEN.sub(lambda m: renamed.get(m.group(0), m.group(0)), text)


class WithTheKits(dict):
    """The renamings, and those that port.py makes in crates/ but not in edits and pages: of names that the kit's libraries had too."""

    def __init__(self, renamed, names):
        super().__init__(renamed)
        self.now = names | set(renamed.values())

    def get(self, name, otherwise):
        if name in self or not name[0].islower():
            return super().get(name, otherwise)
        return snake(name) if snake(name) in self.now else otherwise


def in_backticks(text, renamed):
    return re.sub(r"`[^`\n]*`", lambda m: turn(m.group(0), renamed), text)


def turn_antt(text, renamed):
    out = []
    for line in text.split("\n"):
        code, dashes, comment = line, "", ""
        m = re.search(r"(?:^|\s)--(?:\s|$)", line)
        if m:
            code, comment = line[: m.start()], line[m.start() :]
        out.append(turn(code, renamed) + in_backticks(comment, renamed))
    return "\n".join(out)


def turn_source(text, renamed):
    out, depth = [], 0
    for line in text.split("\n"):
        bare = line.strip()
        if bare.startswith("//"):
            out.append(in_backticks(line, renamed))
            continue
        clause = depth > 0 or re.match(r"(ghost|requires|ensures)\b", bare)
        if clause and not bare.startswith("ghost use"):
            depth += line.count("{") - line.count("}")
        out.append(turn(line, renamed) if clause else line)
    return "\n".join(out)


def turn_edit(text, renamed):
    lines = text.split("\n")
    return "\n".join(turn(l, renamed) if l.startswith(("old:", "new:")) else in_backticks(l, renamed) for l in lines)


def turn_page(text, renamed):
    out, code = [], False
    for line in text.split("\n"):
        fence = line.lstrip().startswith("```")
        code = code != fence
        out.append(turn(line, renamed) if code and not fence else in_backticks(line, renamed))
    return "\n".join(out)


def main():
    top = subprocess.run(["git", "rev-parse", "--show-toplevel"], capture_output=True, text=True, check=True).stdout.strip()
    crates = os.path.join(top, "crates")
    names = declared(top)
    renamed = renamings(names)
    fallen = sorted(n for n in renamed if list(renamed.values()).count(renamed[n]) > 1)
    if fallen:
        sys.exit("these names fall together: " + ", ".join(fallen))
    wider = WithTheKits(renamed, names)
    jobs = [(crates, ".antt", turn_antt, renamed), (crates, ".rt", turn_source, renamed), (crates, ".edit", turn_edit, wider), (top, ".md", turn_page, wider)]
    for root, ending, how, to in jobs:
        for path in files(root, ending):
            text = read(path)
            new = how(text, to)
            if new != text:
                with open(path, "w", encoding="utf-8") as f:
                    f.write(new)
    for crate in sorted(os.listdir(crates)):
        subprocess.run(["rt", "fmt"], cwd=os.path.join(crates, crate), stdout=subprocess.DEVNULL, check=False)
    for name in sorted(renamed):
        print(name, renamed[name])


if __name__ == "__main__":
    main()
