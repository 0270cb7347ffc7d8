"""No must-fail edit was refused merely because a proof no longer fits the code's shape, and none is bad.

    python3 -B tests/must_fail_logs.py [LOG]

LOG has what `rt ci` printed; without it `rt must-fail` is run, which tries only what has changed. Both print a line for each edit, with the
first fact that is not shown: an error at a declaration of a proof, or a goal of a function that is left open. This script prints it for each
edit, and fails where there is none: where only names are missing, where the prover came to a limit and gave no verdict, and where the edit
could not be applied or read, or was not refused.

An open goal shows something where the known facts allow values at which it is false, which the line says; or where no answer of the
function is written by hand, so that the prover finds the proofs of all its goals by itself. Else the crate is checked here with the edit: an
answer to a goal that is not there, or a name that is not there, then shows nothing. That the fact is false, and not only out of the proof's
reach, is for the author of an edit to see.
"""

import pathlib
import re
import shutil
import subprocess
import sys
import tempfile
from typing import NamedTuple

CRATES, LIST = pathlib.Path("crates"), pathlib.Path("crates.txt")
LINE = re.compile(r"^rt: must-fail (\w+)/([\w.-]+)\.edit: (.*)$", re.M)
REFUSED = re.compile(r"refused, as it must be(?: \((.*?)\))?(?:: (.*))?")
# An error at a declaration names it. One outside all declarations, as in a file that cannot be read, names none.
ERROR = re.compile(r"(?:\./)?(?:src|specs|proofs)/\S+:\d+:\d+: error: `([^`]+)`: (.*)")
OPEN = re.compile(r"note: (src/\S+):(\d+):\d+: it is not proved that .*?\(`([^`]+)(?:`\)(.*))?")
# what follows the goal where it is false; rt cuts the line somewhere
FALSE = "; the facts known there allow values"
# A name is missing, or a declaration below was refused: no fact. Lines below the first may say of a name that it is not in scope: a hint.
UNFIT = re.compile(r"(?:`[^`]+`: )*(?:`[^`]+` is not in scope|module `[^`]+` has no `[^`]+`|record `|`[^`]+` was not admitted)")
MISFIT = re.compile(r"^(?:\./)?proofs/\S+: error: (?:`[^`]+`: )*(?:`[^`]+` is not in scope|module `[^`]+` has no `[^`]+`|record `).*", re.M)
FUNCTION = re.compile(r'\s*(?:pub )?(?:extern "C" )?fn (\w+)')
BY_HAND = "Answers.antt", "Proof.antt"


class Verdict(NamedTuple):
    fact: str = ""  # what is not shown
    fault: str = ""  # or why the edit shows nothing
    place: tuple = ()  # of a goal that is open, and not known to be false: its file and line


def verdict(said):
    """What rt's words on an edit show."""
    refused = REFUSED.fullmatch(said)
    only, reason = refused.groups() if refused else (said, None)
    if only or not reason:
        return Verdict(fault=only or "no fact is named")
    error, goal = ERROR.match(reason), OPEN.fullmatch(reason)
    if error and not UNFIT.match(error.group(2)):
        return Verdict(f"not shown: `{error.group(1)}`")
    if goal:
        file, line, name, more = goal.groups()
        is_false = more is not None and len(more) > 3 and FALSE.startswith(more[: len(FALSE)])
        return Verdict(f"not shown: `{name}`, {file}:{line}", place=() if is_false else (file, int(line)))
    return Verdict(fault=f"no fact is named: {reason}")


def applied(text, read):
    """The files that an edit changes, as it leaves them."""
    texts, file, old = {}, "", ""
    for line in text.split("\n"):
        if line.startswith("file: "):
            file = line.removeprefix("file: ").strip()
            texts[file] = texts.get(file) or read(file)
        elif line.startswith("old: "):
            old = line.removeprefix("old: ")
        elif line.startswith("new:"):
            texts[file] = texts[file].replace(old, line.removeprefix("new:").removeprefix(" "))
    return texts


def function_at(text, line):
    """The function that a line of a file stands in."""
    names = [found.group(1) for found in map(FUNCTION.match, text.splitlines()[:line]) if found]
    return names[-1] if names else ""


def has_answers(crate, function):
    """Whether a proof of a function, or of some functions that call one another, is written by hand."""
    folders = [path.parent.name for name in BY_HAND for path in (CRATES / crate / "proofs").rglob(name)]
    return any(folder == function or folder.startswith("+") for folder in folders)


def checked(crate, texts):
    """What a check of a crate says with these texts in the place of its own."""
    with tempfile.TemporaryDirectory() as folder:
        room = pathlib.Path(folder)
        (room / ".git").mkdir()
        shutil.copy(LIST, room)
        shutil.copytree(CRATES, room / CRATES, ignore=shutil.ignore_patterns("out", "must-fail"))
        for file, text in texts.items():
            (room / CRATES / crate / file).write_text(text, encoding="utf-8")
        words, how = ["rt", "check"], {"stdin": subprocess.DEVNULL, "stdout": subprocess.PIPE, "stderr": subprocess.STDOUT, "check": False}
        return subprocess.run(words, cwd=room / CRATES / crate, text=True, **how).stdout


def misfit(log):
    """What in the log of a check with an edit is a proof's, and not the code's."""
    if not re.search(r"^logic=not-proved", log, re.M):
        return "the check of the edited crate comes to no verdict"
    found = MISFIT.search(log)
    return found.group() if found else ""


def shown(crate, edit, said):
    """What an edit leaves unshown, and why that is nothing; one of them is empty."""
    found = verdict(said)
    if found.place:
        file, line = found.place
        texts = applied(edit.read_text(encoding="utf-8"), lambda name: (CRATES / crate / name).read_text(encoding="utf-8"))
        text = texts.get(file) or (CRATES / crate / file).read_text(encoding="utf-8")
        if has_answers(crate, function_at(text, line)) and (fault := misfit(checked(crate, texts))):
            return "", fault
    return found.fact, found.fault


AT = "./proofs/Laws.antt:16:22: "
NOTE = "note: src/lib.rt:116:9: it is not proved that what the function ensures holds when it returns (`returns-then-f-s`)"
AS_IT_MUST = "refused, as it must be: "
# rt's words on an edit, and what is to be found: the name of what is not shown, or None where they show nothing; and whether it may be false.
SNIPPETS = (
    ("BAD EDIT: an 'old:' text is in src/lib.rt 0 times, and not once", None, True),
    ("NOT REFUSED: the crate is still proved with this edit", None, True),
    ("NOT TRIED: its check was killed, most likely for memory", None, True),
    ("refused, as it must be", None, True),
    ("refused, as it must be (only because a proof file names what the edit took away): " + AT + "error: `a`: `q` is not in scope", None, True),
    ("refused, as it must be (only by a limit of the prover, which gave no verdict): " + AT + "error: `a`: antt ran out of steps", None, True),
    (AS_IT_MUST + AT + "error: `near_window`: `omegaa` is not in scope; did you mean `omega`?", None, True),
    (AS_IT_MUST + AT + "error: `a`: `laws.b`: module `M.Laws` has no `b` that can be named from here", None, True),
    (AS_IT_MUST + AT + "error: `near_means`: `near_window` was not admitted (it has holes ...), so this cannot be checked", None, True),
    (AS_IT_MUST + AT + "error: `a`: record `M.f.Lts.Then2` has no field `if-s-eq0`", None, True),
    (AS_IT_MUST + AT + "error: `a`: record `M.f.Lts.View.In-After-slice_known-then-numb", None, True),
    (AS_IT_MUST + AT + "error: module `M.Near` has no `nearr` that can be named from here", None, True),
    (AS_IT_MUST + AT + "error: expected `:`, found name `b`", None, True),
    (AS_IT_MUST + "note: `simp` made 1 round(s) on the goal and never applied `mul_comm` (in `steps_over`)", None, True),
    (AS_IT_MUST + AT + "error: `near_window`: `omega`: the goal does not follow from what it read.", "near_window", True),
    (AS_IT_MUST + AT + "error: `foo`: expected type `b ≤ a`, but this has type `a ≤ b`", "foo", True),
    (AS_IT_MUST + NOTE + "; the facts known there allow values at which this goal i", "returns-then-f-s", True),
    (AS_IT_MUST + NOTE + "; the facts kn", "returns-then-f-s", True),
    (AS_IT_MUST + NOTE + "; `search` gave up at one of its limits", "returns-then-f-s", False),
    (AS_IT_MUST + NOTE, "returns-then-f-s", False),
    (AS_IT_MUST + NOTE[:-8], "returns-th", False),
)
OPEN_GOAL = NOTE + "\nfn c::f: not proved\nlogic=not-proved\n"
# Logs of checks, and whether a proof in them no longer fits.
LOGS = (
    (OPEN_GOAL, False),
    ("", True),
    ("logic=proved functions=1\n", True),
    ("proofs/f/Answers.antt:8:24: error: `a-s`: `goal.a-s`: module `Rattle.c.proofs.f.Goals` has no `a-s` that can be\n" + OPEN_GOAL, True),
    ("./proofs/f/Answers.antt:8:24: error: `a`: `q` is not in scope\n" + OPEN_GOAL, True),
    ("./proofs/f/Answers.antt:8:24: error: `a`: record `M.f.Lts.Then2` has no field `if-s-eq0`\n" + OPEN_GOAL, True),
    (AT + "error: `a`: they differ\n  `b` is not in scope here, so what is shown does not paste back\n" + OPEN_GOAL, False),
)


def selftest():
    for said, due, is_false in SNIPPETS:
        found = verdict(said)
        if bool(found.fact) == bool(found.fault) or bool(found.place) == is_false or (f"`{due}" not in found.fact if due else found.fact):
            sys.exit(f"must_fail_logs.py says {found} in place of {due} of: {said}")
    for log, due in LOGS:
        if bool(misfit(log)) != due:
            sys.exit(f"must_fail_logs.py says {misfit(log)!r} of:\n{log}")
    text = "fn a() {\n    b\n}\n\n    pub fn c(self) -> u8\n        ensures { fn d }\n    {\n"
    if [function_at(text, line) for line in (2, 7)] != ["a", "c"]:
        sys.exit("must_fail_logs.py does not find a line's function")
    if applied("file: src/a\nold: a\nnew: b\nold: bc\nnew:\n", lambda _: "aacd".replace("aa", "a")) != {"src/a": "d"}:
        sys.exit("must_fail_logs.py applies an edit wrongly")
    print(f"must-fail logs: {len(SNIPPETS) + len(LOGS)} snippets: ok")


def lines(words):
    """What rt says of each edit, from its log or anew."""
    if words:
        text = pathlib.Path(words[0]).read_text(encoding="utf-8")
    else:
        text = subprocess.run(["rt", "must-fail"], stdin=subprocess.DEVNULL, stdout=subprocess.PIPE, text=True, check=False).stdout
    found = {}
    for crate, edit, said in LINE.findall(text):
        found.setdefault((crate, edit), []).append(said)
    return found


def main():
    selftest()
    said, wrong, count = lines(sys.argv[1:]), 0, 0
    for edit in sorted(CRATES.glob("*/must-fail/*.edit")):
        count += 1
        crate, own = edit.parent.parent.name, said.pop((edit.parent.parent.name, edit.stem), [])
        fact, fault = shown(crate, edit, own[0]) if len(own) == 1 else ("", f"{len(own)} lines in place of one")
        wrong += not fact
        print(f"{crate}/{edit.stem}: {fact or 'SHOWS NOTHING: ' + fault}")
    for crate, edit in said:
        wrong += 1
        print(f"{crate}/{edit}: there is no such edit")
    if count == 0:
        sys.exit("no must-fail edit found")
    print(f"{count} must-fail edits, {wrong} that show nothing")
    sys.exit(1 if wrong else 0)


main()
