"""docs/CALLS.md has the scripts' form that specs/ have: the words of calls, the reasons, the limits; and its worked script is the one
that rt runs, with the answers that it must give.
"""

import pathlib
import re
import sys

from pages import DOCS, blocks, read, report, table

PAGE = DOCS / "CALLS.md"
CRATES = pathlib.Path("crates")
SCRIPT, WORDS, ANSWERS = CRATES / "script/specs/Script.antt", CRATES / "words/specs/Words.antt", CRATES / "answers/specs/Answers.antt"
WORKED = CRATES / "replay/stdin", CRATES / "replay/stdout"


def first_words(rows):
    """The first word of each row's line."""
    return [re.match(r"`(\w+)", row[0]).group(1) for row in rows if row[0].startswith("`")]


def word_faults(rows, specs):
    """Whether the table has the names of the calls, in their order, and then repeat."""
    due = [*re.findall(r'"(\w+)" means', specs), *re.findall(r'word_in line \w+\) \(ascii "(\w+)"\)', specs)]
    return [] if first_words(rows) == due and len(due) > 1 else [f"{PAGE}: the lines begin with {first_words(rows)}, and specs/ have {due}"]


def reason_faults(rows, specs):
    """Whether the table has the reasons, each once."""
    due = sorted(re.findall(r'^reason_text \w+ = ascii "(.+)"$', specs, re.M))
    named = sorted(row[0].strip("`") for row in rows)
    return [] if named == due and due else [f"{PAGE}: the reasons are {named}, and specs/ have {due}"]


def limits():
    """What the page has to say of limits, by specs/."""
    line = int(re.search(r"^line_limit = (\d+)$", read(SCRIPT), re.M).group(1))
    last = re.search(r"^is_shot number = (?:leb|nat_le) 1 number && (?:leb|nat_le) number (\d)$", read(WORDS), re.M).group(1)
    digits, bits = re.search(r"(?:leb|nat_le) \(length word\) (\d+) &&.* (?:ltb|nat_lt) \(value word\) \(2 \^ (\d+)\)", read(WORDS)).groups()
    largest = 2 ** int(bits) - 1
    return (
        f"at most {line:,} bytes",
        f"| `longer than {line} bytes` |",
        f"SHOT is 1 to {last}:",
        f"are 0 to {largest}. Numbers, SHOT too, have 1 to {digits} decimal digits",
        f"room for {(line - len('measure 1 ')) // 6:,} pixels and a `colour` line for {(line - len('colour 1 2 mix 3f800000  ')) // 12:,};",
        f"| `not a number from 0 to {largest}` |",
    )


def worked_faults(text):
    """Whether the worked script and its answers are those that rt runs."""
    shown = blocks(text, "text")
    if len(shown) != len(WORKED):
        yield f"{PAGE}: {len(shown)} blocks of text, in place of a script and its answers"
    for block, path in zip(shown, WORKED):
        if block.rstrip("\n") != read(path).rstrip("\n"):
            yield f"{PAGE}: a block is not what {path} has"


def selftest():
    """What is wrong is found."""
    specs = '"open" means IsOpen ∷ "fix" means IsFix\n(same_bytes (word_in line word) (ascii "repeat"))\nreason_text A = ascii "no"\n'
    rows = [["`open SHOT`"], ["`fix SHOT`"], ["`repeat N`, and"]]
    if word_faults(rows, specs) or not word_faults(rows[:2], specs) or not word_faults(rows[::-1], specs):
        sys.exit("scripts.py does not tell wrong words from right ones")
    if reason_faults([["`no`"]], specs) or not reason_faults([["`yes`"]], specs) or not reason_faults([["`no`"], ["`no`"]], specs):
        sys.exit("scripts.py does not tell wrong reasons from right ones")


def main():
    selftest()
    text = read(PAGE)
    faults = word_faults(table(PAGE, ["line", "makes the call"]).rows, read(SCRIPT))
    faults += reason_faults(table(PAGE, ["REASON", "what is wrong"]).rows, read(ANSWERS))
    faults += [f"{PAGE} does not say: {words}" for words in limits() if words not in " ".join(text.split())]
    faults += worked_faults(text)
    sys.exit(report("scripts", f"{len(read(WORKED[0]).splitlines())} lines", faults))


main()
