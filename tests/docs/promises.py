"""docs/PROMISES.md names every claim at its file, every contract that a caller can count on, and nothing that is not there.

The table of files has every file of specs/ but those of inner functions, in the order of crates.txt, each with exactly the claims that it
has. The tables of contracts have every public function with its parameters; an outside call's `ensures` is one equality with the
definition that the page gives and its `requires` what the page has, other functions' cite the definitions, and a premise is said exactly
where there is one. A field A.b is a field of the record A.
"""

import pathlib
import re
import sys
from typing import NamedTuple

sys.path.insert(0, "tests")
from claims import claims_of, read_specs  # noqa: E402
from pages import DOCS, SPAN, listed, read, report, spans, table  # noqa: E402

PAGE = DOCS / "PROMISES.md"
CRATES = pathlib.Path("crates")
PUBLIC = re.compile(r'^ *pub (?:extern "C" )?fn (\w+)', re.M)
FUNCTION = re.compile(r'^ *pub (?:extern "C" )?fn (\w+)(?:<[^>]*>)?\(([^)]*)\)[^{]*?((?:\n\s+(?:requires|ensures) .*)*)\n\s*\{', re.M)
IMPL = re.compile(r"^impl(?:<[^>]*>)? (\w+)", re.M)
CALL = re.compile(r"(?:(\w+)(?:::|\.))(\w+)\(([^)]*)\)")
CONVERSION = re.compile(r"^impl (?:Try)?From<([^>]+)> for ([\w\[\]; ]+) \{\n(?:    type Error = \w+;\n\n)?    ghost (?:try_)?from_gives = \{ (.*) \};$", re.M)
# what a page calls a value whose methods it names, or its type, and the crate of these; in the crate's contracts it is `self`
VALUES = {"shot": "shot", "writer": "text", "pixel": "pixel", "line": "lines", "header": "netpbm", "word": "words", "found": "words", "shots": "interpreter", "progress": "progress", "program": "progress"}
TYPES = {"Shot": "shot", "Writer": "text", "Shots": "interpreter", "Progress": "progress"}


def crate_order():
    return listed(read(pathlib.Path("crates.txt")))


def is_inner(path):
    return path.name in {"Lib.antt", "Inner.antt"} or path == CRATES / "lines/specs/Line.antt"


def file_of(cell):
    """The file that a cell names and links to; what is not so stays as it is."""
    found = re.fullmatch(r"\[`(.+)`\]\(\.\./crates/\1\)", cell)
    return found.group(1) if found else cell


def claim_faults():
    """What is wrong with the table of files."""
    specs = read_specs()
    claims = claims_of([file for _, file in specs.values()])
    due = {str(path.relative_to(CRATES)): claims[file.module] for path, (_, file) in specs.items()}
    inner = {str(path.relative_to(CRATES)) for path in specs if is_inner(path)}
    rows = [(file_of(row[0]), [span for _, span in SPAN.findall(row[2])]) for row in table(PAGE, ["file", "what it says", "claims"]).rows]
    files = [file for file, _ in rows]
    for file in sorted(due.keys() - inner - set(files)):
        yield f"{PAGE} has no row for {file}"
    for file in sorted(inner):
        if due[file]:
            yield f"{file} is said to be of inner functions, and claims {sorted(due[file])}"
    for file, named in rows:
        if file not in due:
            yield f"{PAGE}: there is no {file}"
        elif sorted(named) != sorted(due[file]):
            yield f"{PAGE}: {file} claims {sorted(due[file])}, and its row names {sorted(named)}"
    places = [crate_order().index(file.split("/")[0]) for file in files if file.split("/")[0] in crate_order()]
    if places != sorted(places) or len(set(files)) != len(files):
        yield f"{PAGE}: the files are not in the order of crates.txt, or come twice"


class Contract(NamedTuple):
    parameters: list
    requires: list
    ensures: list


def body(text, value="shot"):
    """A contract's statement as the page writes it: what a run held at the start, and what was handed in, by its name; the value's for `self`."""
    text = re.sub(r"^(?:\w+ )?\{ | \}$", "", text.strip())
    text = re.sub(r"\b(\w+)(?:\.entry)?\.(?:now|old)\b", r"\1", text)
    text = re.sub(r"\b(\w+)\.entry\b", r"\1", text)
    return re.sub(r"\bself\b", value, text)


def value_at(crate, text):
    """What the page calls the value whose methods stand after this text of the crate: where it has more than one, that of the last impl."""
    values = [value for value, owner in VALUES.items() if owner == crate]
    of_impl = [name.lower() for name in IMPL.findall(text) if name.lower() in values]
    return of_impl[-1] if len(values) > 1 and of_impl else (values or ["self"])[0]


def functions():
    """Every public function by crate and name, and those whose contract is not read."""
    found, unread = {}, []
    for path in sorted(CRATES.glob("*/src/**/*.rt")):
        text = path.read_text(encoding="utf-8")
        for match in FUNCTION.finditer(text):
            name, parameters, contract = match.groups()
            value = value_at(path.parts[1], text[: match.start()])
            # a comma inside a type's arguments parts no parameters
            names = [part.split(":")[0].strip() for part in re.sub(r"<[^<>]*>", "", parameters).split(",") if part.strip()]
            requires, ensures = ([body(one, value) for one in re.findall(rf"{word} (.*)", contract)] for word in ("requires", "ensures"))
            found[path.parts[1], name] = Contract([part for part in names if part.split()[-1].strip("&") != "self"], requires, ensures)
        named = [name for crate, name in found if crate == path.parts[1]]
        unread += [f"{path}: {name}" for name in PUBLIC.findall(text) if name not in named]
    return found, unread


def called(span):
    """The crate and name of what a cell of the tables calls, and its arguments."""
    found = CALL.fullmatch(span)
    if not found:
        return None
    owner, name, arguments = found.groups()
    crate = TYPES.get(owner) or (VALUES.get(owner, owner) if span.startswith(owner + ".") else owner)
    return (crate, name), [part.strip() for part in arguments.split(",") if part.strip()]


def alike(word, parameter):
    """Whether a page's word names a parameter: as it is, or by its meaning where that is a letter."""
    return word == parameter or len(parameter) == 1


def renamed(span, calls, known):
    """What a page says of calls, in the names of the functions' parameters."""
    words = {word: parameter for key, arguments in calls for word, parameter in zip(arguments, known[key].parameters)}
    return re.sub(r"\w+", lambda word: words.get(word.group(), word.group()), span)


def cites(span, statement):
    """Whether a statement has these words, one after the other."""
    return re.search(rf"(?<![\w'.]){re.escape(span)}(?![\w'])", statement) is not None


def says(span, more, statement):
    """Whether a statement is that the result, or the record of result and lent bytes, is equal to a definition. A `call` or `request` is
    the record of a call's arguments. What a definition makes of the result is equal only where the page names that definition too."""
    head = re.sub(r"\\ (?:call|request)$", r"\\ \\(record \\{[^}]*\\}\\)", re.escape(span))
    found = re.fullmatch(rf"(?:(\w+) )?result ≡ {head}|{head} ≡ record \{{ \w+ = result; \w+ = \w+\.new \}}", statement)
    return found is not None and (found.group(1) is None or found.group(1) in more)


def equality_faults(row, calls, known):
    """What is wrong with a row that gives an outside call's contract: it is one equality, and the premise is said word for word."""
    (key, _), *more = calls
    spans_of = [[renamed(span, calls, known) for _, span in SPAN.findall(cell)] for cell in row[1:]]
    if more or len(known[key].ensures) != 1 or not spans_of[0] or not says(spans_of[0][0], spans_of[0][1:], known[key].ensures[0]):
        yield f"{PAGE}: {row[0]} is not equal to {row[1]}"
    if spans_of[1] != known[key].requires:
        yield f"{PAGE}: {row[0]} requires {known[key].requires}, and not {row[2]}"


def other_faults(row, calls, known):
    """What is wrong with a row on functions between crates: what it cites stands in a contract, and where there is a premise it is said."""
    ensures = " ".join(statement for key, _ in calls for statement in known[key].ensures)
    for _, span in SPAN.findall(row[1]):
        if not cites(renamed(span, calls, known), ensures):
            yield f"{PAGE}: no contract of {row[0]} has {span}"
    if bool(row[2]) != any(known[key].requires for key, _ in calls):
        yield f"{PAGE}: {row[0]}: what is required is not said, or nothing is required"


def row_faults(row, known, check):
    """What is wrong with a row of contracts."""
    calls = [called(span) for _, span in SPAN.findall(row[0])]
    if not calls or None in calls:
        yield f"{PAGE}: no function is called in {row[0]}"
        return
    missing = [key for key, _ in calls if key not in known]
    for key in missing:
        yield f"{PAGE}: there is no public function {'::'.join(key)}"
    if missing:
        return
    for key, arguments in calls:
        parameters = known[key].parameters
        if len(arguments) != len(parameters) or not all(map(alike, arguments, parameters)):
            yield f"{PAGE}: {'::'.join(key)} takes {parameters}, and not {arguments}"
    yield from check(row, calls, known)


def contract_faults():
    """What is wrong with the tables of contracts."""
    known, unread = functions()
    outside, between = table(PAGE, ["call", "is equal to", "requires"]).rows, table(PAGE, ["function", "hands back", "requires"]).rows
    listed = [call[0] for row in outside + between for _, span in SPAN.findall(row[0]) if (call := called(span))]
    for name in unread:
        yield f"no contract is read of {name}"
    for key in sorted(known.keys() - set(listed)):
        yield f"{PAGE} has no contract of {'::'.join(key)}"
    for key in sorted({key for key in listed if listed.count(key) > 1}):
        yield f"{PAGE} has {'::'.join(key)} twice"
    for row in outside:
        yield from row_faults(row, known, equality_faults)
    for row in between:
        yield from row_faults(row, known, other_faults)


def conversion_faults():
    """What is wrong with the table of conversions: it has each, to a type that is not a crate's own, that gives something by a definition."""
    due = {}
    for path in sorted(CRATES.glob("*/src/lib.rt")):
        text = path.read_text(encoding="utf-8")
        for _, made, gives in CONVERSION.findall(text):
            if not re.search(rf"^(?:enum|struct) {re.escape(made)}\b", text, re.M):  # of a type that others can name
                due[made] = gives
    rows = [(row[0], [span for _, span in SPAN.findall(row[1])]) for row in table(PAGE, ["conversion", "gives"]).rows]
    named = [re.fullmatch(r"`<?([\w\[\]; ]+)>?::(?:try_)?from\(\w+\)`", cell) for cell, _ in rows]
    if None in named or sorted(found.group(1) for found in named) != sorted(due):
        yield f"{PAGE}: the conversions are {sorted(due)}"
        return
    for found, (cell, spans_of) in zip(named, rows):
        if not spans_of or not all(cites(span, due[found.group(1)]) for span in spans_of):
            yield f"{PAGE}: {cell} gives {due[found.group(1)]}"


def fields():
    """The fields of every record of specs/."""
    found = {}
    for path in CRATES.glob("*/specs/**/*.antt"):
        for name, lines in re.findall(r"^pub record (\w+).* where\n((?:(?: .*)?\n)+)", path.read_text(encoding="utf-8") + "\n", re.M):
            found.setdefault(name, set()).update(re.findall(r"^  pub (\S+) :", lines, re.M))
    return found


def field_faults():
    """The fields that no record has."""
    known = fields()
    for span in spans(read(PAGE)):
        if re.fullmatch(r"[A-Z]\w+\.\w+", span):
            record, field = span.split(".")
            if field not in known.get(record, set()):
                yield f"{PAGE}: the record {record} has no field {field}"


def selftest():
    """A wrong row is told from a right one."""
    known = {
        ("shot", "fix"): Contract(["choice"], ["Reachable shot"], [body("value { result ≡ fixed_with self choice }")]),
        ("shot", "mend"): Contract(["choice"], ["Reachable shot"], [body("{ result.number ≡ (fixed_with self choice).number }")]),
        ("host", "c"): Contract(["run"], [], [body("{ made (record { a = run.old }) ≡ record { n = result; b = run.new } }")]),
        ("host", "d"): Contract(["run"], [], [body("{ made (record { a = run.old }) ≡ record { n = result; b = run.old } }")]),
        ("a", "f"): Contract(["n"], [], ["result ≡ near n 2"]),
        ("a", "g"): Contract(["n"], [], ["told result ≡ near n 2"]),
        ("a", "h"): Contract(["n"], [], ["result.number ≡ near n 2"]),
    }
    for row, check, due in (
        (["`shot.fix(choice)`", "`fixed_with shot choice`", "`Reachable shot`"], equality_faults, 0),
        (["`shot.fix(choice)`", "`fixed_with shot choice`", ""], equality_faults, 1),
        (["`shot.fix(choice)`", "`fixed_with shot choice`", "Nothing"], equality_faults, 1),
        (["`shot.fix(method)`", "`fixed_with shot choice`", "`Reachable shot`"], equality_faults, 1),
        (["`shot.fix(choice)`", "`measured shot choice`", "`Reachable shot`"], equality_faults, 1),
        (["`shot.mend(choice)`", "`fixed_with shot choice`", "`Reachable shot`"], equality_faults, 1),
        (["`a::g(n)`", "`near n 2`", ""], equality_faults, 1),
        (["`a::g(n)`", "`near n 2`, by `asked`", ""], equality_faults, 1),
        (["`a::g(n)`", "`near n 2`, by `told`", ""], equality_faults, 0),
        (["`a::h(n)`", "`near n 2`", ""], equality_faults, 1),
        (["`shot.break(choice)`", "`fixed_with shot choice`", "`Reachable shot`"], equality_faults, 1),
        (["`host::c(run)`", "`made call`", ""], equality_faults, 0),
        (["`host::c(run)`", "`made run`", ""], equality_faults, 1),
        (["`host::d(run)`", "`made call`", ""], equality_faults, 1),
        (["`a::f(number)`", "`near number 2`", ""], other_faults, 0),
        (["`a::f(number)`", "`near number 3`", ""], other_faults, 1),
        (["`a::f(number)`", "`near`", "n is small"], other_faults, 1),
        (["f", "`near n`", ""], other_faults, 1),
    ):
        if len(found := list(row_faults(row, known, check))) != due:
            sys.exit(f"promises.py finds {found} in {row}")


def main():
    selftest()
    faults = [*claim_faults(), *contract_faults(), *conversion_faults(), *field_faults()]
    sys.exit(report("promises", f"{len(functions()[0])} contracts and {sum(map(bool, fields().values()))} records", faults))


main()
