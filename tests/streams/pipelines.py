"""The filters in pipelines of the shell, as they are called by hand. `set -o pipefail` brings their status through."""

from exact_filters import COLOUR, MEASURE, Answer, not_written, refused
from trial import run

# what it shows, the pipeline, and the name of its answer
PIPELINES = (
    ("measured and coloured", '"$measure" <"$whole" | cat >"$made" && cat "$whole" | "$colour" "$made" | cat', "coloured"),
    ("a curve that is made meanwhile", '"$colour" <("$measure" <"$whole") <"$whole" | cat', "coloured"),
    ("a curve that comes in two parts", '"$colour" <(head -c 700 "$curve"; sleep 0.1; tail -c +701 "$curve") <"$whole" | cat', "coloured"),
    ("measure's refusal", 'cat "$broken" | "$measure" | cat', "measured 2"),
    ("measure's refusal of a choice", '"$measure" 3 <"$whole" | cat', "measured 4"),
    ("measure's refusal of no end", '"$measure" </dev/zero | cat', "measured 3"),
    ("colour's refusal at the end", 'cat "$broken" | "$colour" "$curve" | cat', "coloured 2"),
    ("colour's refusal of a method", '"$colour" "$curve" 3 </dev/zero | cat', "coloured 7"),
    ("nothing measured, nothing coloured", '"$measure" </dev/null >"$made" && "$colour" "$made" </dev/null | cat', "measured 5"),
    # the stream has no end, and the filter has one as soon as nobody reads on
    ("the first pixels of a stream without an end", '"$colour" "$curve" hold 0 </dev/zero | head -c 30', "cut short"),
    ("without pipefail the last status counts", 'set +o pipefail; "$measure" 3 <"$whole" 2>/dev/null | cat', "nothing"),
)


def answers(written, written_of_broken, broken_length, over_the_most):
    return {
        "coloured": Answer(0, written),
        "measured 2": refused(MEASURE, 2, broken_length),
        "measured 3": refused(MEASURE, 3, over_the_most),
        "measured 4": refused(MEASURE, 4, 0),
        "measured 5": refused(MEASURE, 5, 0),
        "coloured 2": refused(COLOUR, 2, broken_length, written_of_broken),
        "coloured 7": refused(COLOUR, 7, 0),
        "nothing": Answer(0),
    }


def pipelines(group, environment, due):
    for case, line, name in PIPELINES:
        came = run(["bash", "-c", f"set -o pipefail; {line}"], env=environment)
        if name == "cut short":
            # how much was read before the reader was gone is not promised
            read = int(b"0" + came.said.partition(b"; ")[2].partition(b" ")[0]) * 3
            group.judge(case, not_written(COLOUR, read)._replace(written=bytes(30)), came)
        else:
            group.judge(case, due[name], came)
