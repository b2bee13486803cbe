"""What the program writes of a campaign with `--only`, `--heads` and `--shard`, made of its whole report; and a program that does no more
than that."""
import os
import re
import sys

KINDS = ("pass", "check", "misuse", "ticks", "steps", "stuck")
HEAD = re.compile(r"row ([0-9]+) at [^:]*: (not reached, )?([a-z]+)")


def rows_of(report):
    """The rows of a report, each with its lines."""
    return re.split(r"(?m)^(?=row |total )", report)[1:-1]


def total_line(rows):
    heads = [HEAD.match(it) for it in rows]
    counts = ", ".join(f"{kind} {sum(it[3] == kind for it in heads)}" for kind in KINDS)
    return f"total {len(rows)}: {counts}, not reached {sum(it[2] is not None for it in heads)}\n"


def view(report, words):
    """The report in the view that these words ask for."""
    given = dict(zip(words, words[1:]))
    rows = rows_of(report)
    if "--shard" in given:
        part, parts = map(int, given["--shard"].split("/"))
        rows = rows[(part - 1) * len(rows) // parts : part * len(rows) // parts]
    kinds = given.get("--only", ",".join(KINDS)).replace("failing", ",".join(KINDS[1:])).split(",")
    written = [it for it in rows if HEAD.match(it)[3] in kinds]
    if "--heads" in words:
        written = [it.partition("\n")[0] + "\n" for it in written]
    return "".join(written) + total_line(rows)


def answer(name, words, out, report, status):
    """Does what the words ask for, as the program of this name. The words are noted."""
    with open(f"{name}.calls", "a") as calls:
        calls.write(" ".join(words) + "\n")
    if words == ["run", "--help"]:
        sys.stdout.write("--point POINT\n" if os.path.exists(f"{name}.takes_points") else "")
        return 0
    asked = ".".join(it.replace(" ", "_") for it in words[3:-1:2])
    state = f"{name}.at.{asked}" if "--state" in words else None
    if state and not os.path.exists(state):
        return 2
    with open(state or (out if words[0] == "run" else report)) as it:
        text = it.read()
    if status in (0, 1, 5):
        sys.stdout.write(view(text, words) if words[0] == "campaign" else text)
    return status
