"""Every claim that specs/ states is proved where its comment says.

A claim is a definition, record or data type of specs/ that has no parameters and is of `Type 0`, unless it is plain data:

    a record, of at least one field, each of a plain type;
    a data type, of at least one constructor, each of which takes plain types;
    a definition that is a plain type.

Plain types are ℕ, Bool, Char, String, what src/ declares, the plain data of specs/, and lists, options, results and pairs of plain
types.
What is not understood here is a claim. The comment directly above a claim ends in "Proved: proofs/FILE, `proof`."; where it is the
only one of its file, the file's first comment may. That file must bring the claim in from its own file, must not define it anew,
and must declare `pub proof : CLAIM`; the crate's check then proves it.
"""

import pathlib
import re
import sys
from typing import NamedTuple

PROVED = re.compile(r"Proved: (proofs/\S+\.antt), `([^`]+)`")
SIGNATURE = re.compile(r"(?:(?:unfoldable|abbrev|axiom|pub) )*([^\s:=]+)(?: \{[^}]*\})? : (.*)")
DECLARED = re.compile(r"(?:pub )?(record|data) (\S+)(?: \{[^}]*\})? : (.*?)(?: where\b.*)?")
USED = re.compile(r"(?:(?:unfoldable|pub) )*use (\S+)\.\{(.*)\}")
BLOCK = re.compile(r"(?:(?:unfoldable|abbrev|pub) )*(?:mutual|module)\b")
UNIVERSE = re.compile(r"\bType\b(?! 0(?![\w+]))")
OWN = re.compile(r"Rattle\.(\w+)\.specs\.(.+)")
BUILT_IN = {
    ("Rattle.std.specs.Prelude", "ℕ"): 0,
    ("Rattle.std.specs.Prelude", "Bool"): 0,
    ("Rattle.std.specs.Prelude", "List"): 1,
    ("Rattle.std.specs.Prelude", "Option"): 1,
    ("Rattle.std.specs.Prelude", "Result"): 2,
    ("Rattle.std.proofs.Math.Option", "Option"): 1,
    ("Prim.Native.Char", "Char"): 0,
    ("Prim.Native.String", "String"): 0,
    ("mathlib.Core.List", "List"): 1,
}


def without_comments(text):
    """Blanks comments out, so that every line stays where it is. Block comments nest, and `--` may stand inside a name."""
    kept, depth, i = [], 0, 0
    while i < len(text):
        if depth == 0 and text[i] == '"':
            found = re.compile(r'"(?:\\.|[^"\\])*"?', re.S).match(text, i)
            kept.append(found.group())
            i = found.end()
        elif depth == 0 and text.startswith("--", i) and (i == 0 or text[i - 1] in " \t\n(){}[],;"):
            i = (text + "\n").index("\n", i)
        elif text.startswith("{-", i) or (depth and text.startswith("-}", i)):
            depth += 1 if text[i] == "{" else -1
            kept.append("  ")
            i += 2
        else:
            kept.append(text[i] if depth == 0 or text[i] == "\n" else " ")
            i += 1
    return "".join(kept)


class Item(NamedTuple):
    line: int  # the number of its first line, from 0
    lines: list

    @property
    def text(self):
        return " ".join(" ".join(self.lines).split())


def items(lines):
    """What begins at the least indentation, each with the lines further in that follow it."""
    lines = [line.expandtabs().rstrip() for line in lines]
    least = min((len(line) - len(line.lstrip()) for line in lines if line), default=0)
    found = []
    for number, line in enumerate(lines):
        if line[least : least + 1].strip():
            found.append(Item(number, [line]))
        elif line and found:
            found[-1].lines.append(line)
    return found


class File:
    """A file of specs/, read as far as it is needed here."""

    def __init__(self, module, text):
        self.module, self.source = module, text.splitlines()
        self.names, self.bodies, self.candidates, self.faults = {}, {}, {}, []
        text = without_comments(text)
        if UNIVERSE.search(text):
            self.faults.append("speaks of another universe than `Type 0`, which is not read here")
        for item in items(text.splitlines()):
            self.read(item)

    def read(self, item):
        if BLOCK.match(item.text):
            self.faults.append(f"has a block that is not read here: {item.text[:40]}")
        elif used := USED.fullmatch(item.text):
            for name in used.group(2).split(","):
                name, _, other = name.strip().partition(" as ")
                self.names[other.strip() or name] = used.group(1), name
        elif declared := DECLARED.fullmatch(item.text):
            self.declare(declared.group(2), declared.group(3), item, declared.group(1))
        elif signature := SIGNATURE.fullmatch(item.text):
            self.declare(signature.group(1), signature.group(2), item, "definition")
        elif " = " in item.text:
            name, body = item.text.split(" = ", 1)
            self.bodies.setdefault(name, []).append(body)

    def declare(self, name, of, item, kind):
        self.names[name] = self.module, name
        if "Type" in of and "→" not in of:
            self.candidates[name] = kind, item

    def components(self, name):
        """The types that a candidate is made of; None or nothing where it is not understood."""
        kind, item = self.candidates[name]
        if kind == "definition":
            return self.bodies.get(name) if len(self.bodies.get(name, [])) == 1 else None
        if not any(line.endswith("where") for line in item.lines):
            return None
        head = next(i for i, line in enumerate(item.lines) if line.endswith("where")) + 1
        types = []
        for entry in items(item.lines[head:]):
            found = re.fullmatch(r"(?:pub )?([^:]+) : (.*)", entry.text)
            if not found:
                return None
            if kind == "record":
                types.append(found.group(2))
                continue
            *taken, made = found.group(2).split(" → ")
            if made != name:
                return None
            types += [re.sub(r"^\([^:()]+ : (.*)\)$", r"\1", part) for part in taken]
            types.append(name)
        return types


def plain(text, file, known):
    """Whether a text is a plain type: names that are known to be plain, applied, paired and in parentheses."""
    words = re.findall(r"[()]|[^\s()]+", text)

    def one():
        """Takes a type that stands by itself; how many types it still wants, or None."""
        word = words.pop(0) if words else ""
        if word == "(":
            inside = pairs()
            return 0 if inside and words and words.pop(0) == ")" else None
        return known(file.names.get(word))

    def applied():
        wants = one()
        while wants:
            if one() != 0:
                return False
            wants -= 1
        return wants == 0

    def pairs():
        if not applied():
            return False
        while words and words[0] == "×":
            words.pop(0)
            if not applied():
                return False
        return True

    return pairs() and not words


def claims_of(files):
    """For each file, by its module, the names of what it claims."""
    data = set()

    def known(itself):
        def wants(identity):
            if identity is None:
                return None
            module, name = identity
            own = OWN.fullmatch(module)
            if own and own.group(2) == f"declared.{name}":
                return 0
            return 0 if (module, name) in data or (module, name) == itself else BUILT_IN.get((module, name))

        return wants

    size = -1
    while size != len(data):
        size = len(data)
        for file in files:
            for name, (kind, _) in file.candidates.items():
                types = file.components(name)
                # a data type may hold values of itself
                itself = (file.module, name) if kind == "data" else None
                if types and all(plain(text, file, known(itself)) for text in types):
                    data.add((file.module, name))
    return {file.module: {name for name in file.candidates if (file.module, name) not in data} for file in files}


def comments_of(file):
    """What comments say, each by the number of the line below it."""
    found, run = {}, []
    for number, line in enumerate([*file.source, ""]):
        if line.startswith("--"):
            run.append(line[2:].strip())
        elif run:
            found[number] = " ".join(run)
            run = []
    return found


def proof_faults(text, module, claim, proof):
    """What is wrong with a file of proofs/ as the one that proves a claim."""
    texts = [item.text for item in items(without_comments(text).splitlines())]
    stated = [found.groups() for found in map(SIGNATURE.fullmatch, texts) if found]
    found = []
    if (proof, claim) not in stated or not any(re.match(rf"(?:\w+ )*pub {re.escape(proof)} : ", text) for text in texts):
        found.append(f"has no `pub {proof} : {claim}`")
    used = [use.groups() for use in map(USED.fullmatch, texts) if use]
    if not any(name == module and claim in map(str.strip, names.split(",")) for name, names in used):
        found.append(f"does not bring {claim} in from {module}")
    defined = {name for name, _ in stated} | {found.group(2) for found in map(DECLARED.fullmatch, texts) if found}
    if claim in defined or any(text.startswith(f"{claim} ") for text in texts):
        found.append(f"defines {claim} anew")
    return found


def file_faults(crate, file, claims):
    """What is wrong with a file of specs/, and how many proofs it names."""
    found, count = list(file.faults), 0
    comments = comments_of(file)
    first = next(iter(comments.values()), "") if file.source[:1] and file.source[0].startswith("--") else ""
    for claim in sorted(claims):
        said = PROVED.findall(comments.get(file.candidates[claim][1].line, ""))
        if not said and len(claims) == 1:
            said = PROVED.findall(first)
        if not said:
            found.append(f"{claim}: no comment says where it is proved")
        count += len(said)
        for where, proof in said:
            path = crate / where
            if path.is_file():
                found += [f"{path} {fault}" for fault in proof_faults(path.read_text(encoding="utf-8"), file.module, claim, proof)]
            else:
                found.append(f"{path} is missing")
    told = sum(len(PROVED.findall(comment)) for comment in comments.values())
    if told != count:
        found.append(f"{told} comments say where something is proved, and {count} of them stand above a claim")
    return found, count


PREDICATE = "abbrev pub Even : ℕ → Type 0\nEven n = n ≡ n\n\n"
HEADER = (
    "use Rattle.std.specs.Prelude.{ℕ, ◌+◌, List, []}\nuse Rattle.std.proofs.Math.Option.{Option}\n"
    "use Rattle.c.specs.declared.Pixel.{Pixel}\nuse Rattle.d.specs.Other.{Fraction as Part, Stated}\n\n"
)
# Each text with what it claims; what once slipped through is among them.
SNIPPETS = (
    ("abbrev pub A : Type 0\nA = (n : ℕ) → n ≡ n\n", {"A"}),
    ("unfoldable pub A : Type 0\nA = (n : ℕ) → n ≡ n\n", {"A"}),
    ("unfoldable abbrev pub A : Type 0\nA = Even 2\n", {"A"}),
    ("pub A : Type 0\nA = Even 2\n", {"A"}),
    ("A : Type 0\nA = Even 2\n", {"A"}),
    ("abbrev pub A :\n    Type 0\nA = Even 2\n", {"A"}),
    ("abbrev pub A\n    : Type 0\nA = Even 2\n", {"A"}),
    ("abbrev pub A : (Type 0)\nA = Even 2\n", {"A"}),
    ("abbrev pub A : {- a {- nested -} comment -} Type 0 -- and another\nA = Even 2\n", {"A"}),
    ("abbrev pub a--b : Type 0\na--b = Even 2\n", {"a--b"}),
    ('pub text : ℕ\ntext = size "{-"\n\nabbrev pub A : Type 0\nA = Even 2\n', {"A"}),
    ("abbrev pub A {ℓ} : Type 0\nA = Even 2\n", {"A"}),
    ("abbrev pub A : Type 0\nunfolding b\nA = ℕ → ℕ\n", {"A"}),
    ("abbrev pub A : Type 0\nA = List\n", {"A"}),
    ("abbrev pub A : Type 0\nA = Stated\n", {"A"}),
    ("abbrev pub A : Type 0\nA = A\n", {"A"}),
    ("abbrev pub A : Type 0\nA = Unknown\n", {"A"}),
    ("abbrev pub A : Type 0\n", {"A"}),
    ("pub record A : Type 0 where\n  pub a : Even 2\n  pub b : Even 4\n", {"A"}),
    ("pub record A :\n    Type 0 where\n  pub a : Even 2\n", {"A"}),
    ("pub record A : Type 0\n  where\n  pub a : Even 2\n", {"A"}),
    ("pub record A : Type 0 where\n  pub n : ℕ\n  pub a : n ≡ 2\n", {"A"}),
    ("pub record A : Type 0 where\n  pub a :\n      Even 2\n", {"A"}),
    ("pub record A : Type 0 where\n  pub n : ℕ → ℕ\n", {"A"}),
    ("pub record A : Type 0 where\n", {"A"}),
    ("pub record A : Type 0 where\n  pub b : B\n\npub record B : Type 0 where\n  pub a : Even 2\n", {"A", "B"}),
    ("record A : Type 0 where\n  a : Stated\n", {"A"}),
    ("pub data A : Type 0 where\n", {"A"}),
    ("pub data A : Type 0 where\n  a : A\n  b : Even 2 → A\n", {"A"}),
    ("pub data A : Type 0 where\n  a : {n : ℕ} → A\n", {"A"}),
    ("pub data A : Type 0 where\n  a : ℕ → Even 2\n", {"A"}),
    ("use c.Wrong.{ℕ}\n\npub record A : Type 0 where\n  pub n : ℕ\n", {"A"}),
    ("pub record List : Type 0 where\n  pub n : Even 2\n\npub record A : Type 0 where\n  pub n : List ℕ\n", {"A", "List"}),
    # predicates, terms and comments
    ("pub record A (n : ℕ) : Type 0 where\n  pub a : Even n\n", set()),
    ("abbrev pub A : ℕ → Type 0\nA n = Even n\n", set()),
    ("abbrev pub a : ℕ\na = 2\n", set()),
    ("-- abbrev pub A : Type 0\n{- pub A : Type 0\n{- -}\npub B : Type 0 -}\n", set()),
    # plain data
    ("pub record A : Type 0 where\n  pub n : ℕ -- a comment\n\n  -- another\n  pub l : List (Option ℕ)\n", set()),
    ("pub record A : Type 0 where\n  pub p : Pixel × Part\n", set()),
    ("pub data A : Type 0 where\n  red green blue : A\n", set()),
    ("pub record A : Type 0 where\n  pub b : List B\n\npub data B : Type 0 where\n  a : B\n  b : (n : ℕ) → List B → B\n", set()),
    ("abbrev pub A : Type 0\nA = List (ℕ × Part)\n", set()),
    ("use Rattle.std.specs.Prelude.{Result}\n\nabbrev pub A : Type 0\nA = Result Part ℕ\n", set()),
    ("use Rattle.std.specs.Prelude.{Result}\n\nabbrev pub A : Type 0\nA = Result Part\n", {"A"}),
    ("abbrev pub A : Type 0\nA =\n    ℕ\n\npub record B : Type 0 where\n  pub a : A\n", set()),
)
UNREAD = (
    "module _ (n : ℕ) where\n  pub A : Type 0\n",
    "mutual\n  pub A : Type 0\n",
    "pub Sort : Type 1\nSort = Type 0\n",
    "pub A : Type (0 + 1)\n",
)
# Files of proofs/ for the claim `A` of `Snippet` and its proof `a`, and whether they will do.
USE = "use Rattle.c.specs.Snippet.{B, A}\n\n"
PROOFS = (
    (USE + "pub a : A\na = b\n", True),
    ("use Rattle.c.specs.Snippet.{B,\n    A}\n\n-- a comment\npub a :\n    A -- another\na = b\n", True),
    ("", False),
    (USE, False),
    ("pub a : A\na = b\n", False),
    (USE + "a : A\na = b\n", False),
    (USE + "-- pub a : A\n", False),
    (USE + "pub a : A\n    → B\na c = b\n", False),
    (USE + "pub a : A 3\na = b\n", False),
    (USE + "pub b : A\nb = b\n", False),
    ("use Rattle.c.specs.Other.{A}\n\npub a : A\na = b\n", False),
    ("use Rattle.c.specs.Snippet.{A as C, B as A}\n\npub a : A\na = b\n", False),
    (USE + "abbrev A : Type 0\nA = B\n\npub a : A\na = b\n", False),
    (USE + "record A : Type 0 where\n  b : B\n\npub a : A\na = b\n", False),
)
OTHER = "pub record Fraction : Type 0 where\n  pub num : ℕ\n\npub record Stated : Type 0 where\n  pub n : Even 2\n"


def selftest():
    """The claims of each snippet are found, and no other, and what is wrong with a proof."""
    other = File("Rattle.d.specs.Other", HEADER + OTHER)
    for text, due in SNIPPETS:
        file = File("Rattle.c.specs.Snippet", HEADER + PREDICATE + text)
        found = claims_of([file, other])[file.module]
        if found != due or file.faults:
            sys.exit(f"claims.py finds {sorted(found)} in place of {sorted(due)}, {file.faults}, in:\n{text}")
    for text in UNREAD:
        if not File("Rattle.c.specs.Snippet", text).faults:
            sys.exit(f"claims.py takes for read:\n{text}")
    for text, good in PROOFS:
        found = proof_faults(text, "Rattle.c.specs.Snippet", "A", "a")
        if (not found) != good:
            sys.exit(f"claims.py finds {found} in:\n{text}")
    print(f"claims: {len(SNIPPETS) + len(UNREAD) + len(PROOFS)} snippets: ok")


def read_specs():
    """Every file of specs/ by its path: its crate, and what is read of it."""
    files = {}
    for path in sorted(pathlib.Path("crates").glob("*/specs/**/*.antt")):
        crate = pathlib.Path(*path.parts[:2])
        module = ".".join(path.relative_to(crate / "specs").with_suffix("").parts)
        files[path] = crate, File(f"Rattle.{crate.name}.specs.{module}", path.read_text(encoding="utf-8"))
    return files


def main():
    selftest()
    files = read_specs()
    claims = claims_of([file for _, file in files.values()])
    wrong, count = 0, 0
    for path, (crate, file) in files.items():
        found, proved = file_faults(crate, file, claims[file.module])
        count += proved
        wrong += len(found)
        for fault in found:
            print(f"{path}: {fault}")
    if count == 0:
        sys.exit("no claim found")
    print(f"{count} claims, {wrong} faults")
    sys.exit(1 if wrong else 0)


if __name__ == "__main__":
    main()
