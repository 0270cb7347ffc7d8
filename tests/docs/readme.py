"""README.md's commands do what it says, its map is crates.txt, and what it says is trusted is what rt reports.

    python3 -B tests/docs/readme.py [LOG]

LOG has what `rt ci` printed, with rt's reports on what it proved in that run; `rt check` gives the others. The shell blocks are run as they
stand, in a folder with links to the project's own. The block in Rattle stands, but for comments, in the file that README.md takes it from.
The tools that the gate needs are those that it asks for.
"""

import pathlib
import re
import subprocess
import sys
import tempfile

sys.path.insert(0, "tests/file")
from exact_file import answer  # noqa: E402
from pages import README, blocks, flowing, listed, read, report, table  # noqa: E402

LINKED = "bin", "include", "examples", "samples", "target"
ROOT = pathlib.Path.cwd()
CRATES = pathlib.Path("crates")
RATTLE = CRATES / "frames/src/main.rt"
GATE = pathlib.Path(".ci/run")
NUMBERS = {"none": 0}


def map_faults(rows, crates):
    """Whether the layers name every crate of crates.txt, in its order."""
    named = [name for row in rows for name in re.findall(r"`(\w+)`:", row[1])]
    return [] if named == crates else [f"{README}: the map has {named}, and crates.txt {crates}"]


def reported(log):
    """The C functions whose contracts a program's proof assumes, by rt's report; more than three of a library it cuts, by three dots."""
    found = re.findall(r"^axioms \w+: (.*?) \((\d+) of the \d+ declared\)", log, re.M)
    return sorted(name.split("::")[-1] for names, _ in found for name in names.split(", "))


def said(text, program):
    """The count and the names that README gives for a program."""
    found = re.search(rf"{re.escape(program)} (?:rests )?on (\d+|none)\b(?: of these)?((?:,? (?:and )?`\w+`(?! on))*)", text)
    if not found:
        return None
    return int(NUMBERS.get(found.group(1), found.group(1))), sorted(re.findall(r"`(\w+)`", found.group(2)))


def trust_faults(text, logs):
    """Whether what README says of the assumed contracts is what rt reports."""
    for program, log in logs.items():
        due = reported(log)
        # only the report of what is linked names a target, and with it all that its proof assumes
        last = re.search(r"^logic=proved (?:.* )?target=.*", log, re.M)
        if not last:
            yield f"{program}: no report on what is linked; rt check has it for a program and for a library for C"
            continue
        count = re.search(r" axioms=(\d+) ", last.group())
        total = int(count.group(1) if count else 0)
        if "..." in due:
            # where rt cuts its names, the page has the count alone
            due = []
        elif len(due) != total:
            yield f"{program}: rt names {due}, and counts otherwise: {last.group()}"
        if said(text, program) != (total, due):
            yield f"{README}: {program} is said to rest on {said(text, program)}, and rt reports {total, due}"


def checked(crate, log):
    """What rt says of a crate: in the log of a run that proved it, or else anew."""
    found = re.search(rf"^== {crate}\n(.*?)^rt: {crate} proved$", log, re.M | re.S)
    if found:
        return found.group(1)
    how = {"stdin": subprocess.DEVNULL, "stdout": subprocess.PIPE, "stderr": subprocess.STDOUT, "check": False}
    return subprocess.run(["rt", "check"], cwd=CRATES / crate, text=True, **how).stdout


def reports(log):
    """rt's reports on the programs and on the library for C."""
    crates = {"`balance`": "balance", "`measure`": "measure", "`colour`": "colour", "`replay`": "replay", "`rounds`": "rounds", "`frames`": "frames", "the library for C": "host_c"}
    return {said_as: checked(crate, log) for said_as, crate in crates.items()}


def snippet_faults(snippet, source):
    """Whether the lines of a snippet stand in the source one after the other, but for comments."""
    lines = [line for line in source.splitlines() if not line.strip().startswith("//")]
    wanted = snippet.splitlines()
    found = any(lines[at : at + len(wanted)] == wanted for at in range(len(lines)))
    return [] if found else [f"{README}: {RATTLE} has not the block in Rattle"]


def tool_faults(text, gate):
    """Whether README names the tools that the gate asks for."""
    asked = re.search(r"^for tool in (.+); do$", gate, re.M)
    named = re.search(r"needs ((?:`[^`]+`,? (?:and )?)+)beside `rt`", text)
    if asked and named and sorted(asked.group(1).split()) == sorted(["rt", *re.findall(r"`([^`]+)`", named.group(1))]):
        return []
    return [f"{README} does not name the tools that the gate asks for"]


def run(block, room):
    """Runs a shell block in a folder: its exit status, and what it wrote."""
    done = subprocess.run(["sh", "-eu", "-c", block], cwd=room, stdin=subprocess.DEVNULL, capture_output=True, text=True, check=False)
    return done.returncode, done.stdout, done.stderr


def command_faults(text):
    """What does not come out as README says."""
    own = blocks(text, "sh")
    if len(own) != 5:
        yield f"{README}: {len(own)} shell blocks, in place of: balance, refusal, C, replay, filters"
        return
    balance, refusal, c, replay, filters = own
    with tempfile.TemporaryDirectory() as folder:
        room = pathlib.Path(folder)
        for name in LINKED:
            (room / name).symlink_to(ROOT / name)
        yield from balance_faults(balance, refusal, room)
        status, out, err = run(c, room)
        shown = re.search(r"prints `([^`]+)`", text)
        if status or not shown or out.splitlines()[-1:] != [shown.group(1)]:
            yield f"{README}: the C example ends with {status}, {out!r}, {err!r}"
        status, out, err = run(replay, room)
        answers = re.search(r"one answer a call: here ((?:`[^`]+`(?:, | and )?)+),", flowing(text))
        if status or err or not answers or out.splitlines() != re.findall(r"`([^`]+)`", answers.group(1)):
            yield f"{README}: the script is answered with {status}, {out!r}, {err!r}"
        status, out, err = run(filters, room)
        shown = re.search(r"at half strength: it prints `([\d ]+)`", flowing(text))
        if status or err or not shown or out.split() != shown.group(1).split():
            yield f"{README}: the filters write {status}, {out!r}, {err!r}"


def balance_faults(balance, refusal, room):
    """What is wrong with the picture that the first block makes, and with how the second tells it from a refusal."""
    status, out, err = run(balance, room)
    picture, written = (ROOT / "samples/portrait.ppm").read_bytes(), room / "balanced.ppm"
    if status or out or not written.is_file() or written.read_bytes() != answer(picture):
        yield f"{README}: the sample is not balanced: {status}, {out!r}, {err!r}"
    if run(refusal, room) != (0, "", ""):
        yield f"{README}: a picture is taken for a refusal"
    for refused in "refused 12\n", "":
        written.write_text(refused, encoding="ascii")
        if run(refusal, room) != (1, "", refused):
            yield f"{README}: what is no picture is taken for one: {refused!r}"


def selftest():
    """What is wrong is found."""
    log = (
        "axioms libc: libc::read, libc::write (2 of the 50 declared)\naxioms os: os::c::errno (1 of the 22 declared)\n"
        "axioms std: none reached of the 2 declared\nlogic=proved functions=1 axioms=3 target=x86\n"
    )
    for text, due in (
        ("`balance` rests on 3 of these, `errno`, `read` and `write`, `frames` on 1", 0),
        ("`balance` rests on 2 of these, `read` and `write`, `frames` on 1", 1),
        ("`balance` rests on 3 of these, `errno`, `read` and `open`, `frames` on 1", 1),
        ("`balance` rests on 1 of these, `read`", 1),
        ("`balance` rests on none", 1),
    ):
        if len(found := list(trust_faults(text, {"`balance`": log}))) != due:
            sys.exit(f"readme.py finds {found} in: {text}")
    cut = log.replace("(2 of", ", ... (7 of").replace("axioms=3", "axioms=8")
    for text, due in ("`balance` rests on 8", 0), ("`balance` rests on 7", 1), ("`balance` rests on 8 of these, `errno` and `read`", 1):
        if len(list(trust_faults(text, {"`balance`": cut}))) != due:
            sys.exit(f"readme.py reads a report that is cut wrongly beside: {text}")
    none = "the library for C on none", "the library for C"
    if list(trust_faults(none[0], {none[1]: "logic=proved functions=4 target=x86\n"})):
        sys.exit("readme.py does not read a report without assumptions")
    if not list(trust_faults(none[0], {none[1]: "logic=proved functions=4\n"})):
        sys.exit("readme.py takes a crate's report for that of what is linked")
    if checked("b", "== a\nx\nrt: a proved\n== b\ny\nz\nrt: b proved\n== c\nrt: c proved\n") != "y\nz\n":
        sys.exit("readme.py does not find a crate's report in a log")
    rows = [["ground", "`a`: x. `b`: y"], ["top", "`c`: z of `a`"]]
    if map_faults(rows, ["a", "b", "c"]) or not map_faults(rows, ["a", "b"]) or not map_faults(rows, ["b", "a", "c"]):
        sys.exit("readme.py does not tell a wrong map from a right one")
    if snippet_faults("a\nc\n", "b\na\n// b\nc\n") or not snippet_faults("a\nc\n", "a\nb\nc\n"):
        sys.exit("readme.py does not tell a wrong snippet from a right one")


def main():
    selftest()
    text = read(README)
    crates = listed(read(pathlib.Path("crates.txt")))
    rattle = blocks(text, "rust")
    faults = map_faults(table(README, ["layer", "crates"]).rows, crates)
    faults += trust_faults(flowing(text), reports("".join(read(pathlib.Path(path)) for path in sys.argv[1:])))
    faults += snippet_faults(rattle[0], read(RATTLE)) if len(rattle) == 1 else [f"{README}: not one block in Rattle"]
    faults += tool_faults(flowing(text), read(GATE))
    faults += command_faults(text)
    sys.exit(report("README", f"{len(crates)} crates, {len(blocks(text, 'sh'))} shell blocks", faults))


main()
