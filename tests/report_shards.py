"""Cases of tests/report: the reports of shards, joined. Those in tests/of_shards are what a program wrote of
tests/of_several/two_presses.toml, by `--shard I/3`: whole, with `--heads`, and with `--only failing`."""
import glob
import os
import re
import resource
import subprocess
import sys

from cases import case, equal, holds
from reports import COMPANION, LOST, PATIENCE, RACE, ROOT, Dice, good, quick, read, report_of, run, total_of
from running import write
from rtosim_report.faults import Fault
from rtosim_report.joining import Part

PRESSES = f"{ROOT}/tests/of_several/two_presses.report"
REPORTS = sorted(glob.glob(f"{ROOT}/examples/*.report")) + sorted(glob.glob(f"{ROOT}/tests/of_*/*[a-z].report"))


def rows_of(text):
    """The text of each row of a whole report."""
    return re.findall(r"(?m)^row .*\n(?:[0-9].*\n)*", text)


def seen(rows, view):
    """What a view leaves of these rows, and the total line of them all."""
    heads = [it[: it.index("\n") + 1] for it in rows]
    wanted = ["failing" not in view or ": pass" not in it.replace("not reached, ", "") for it in heads]
    left = heads if "heads" in view else rows
    return "".join(it for it, is_wanted in zip(left, wanted) if is_wanted) + total_of(heads)


def shards(text, number, view=""):
    """The reports of this many shards, in files, by name."""
    rows = rows_of(text)
    names = [f"part.{it}" for it in range(1, number + 1)]
    for at, name in enumerate(names):
        write(name, seen(rows[at * len(rows) // number : (at + 1) * len(rows) // number], view))
    return names


def stored(view):
    return [f"{ROOT}/tests/of_shards/{view}.{it}.report" for it in (1, 2, 3)]


@case
def stored_shards_are_joined():
    whole = read(PRESSES).decode()
    for view in ("whole", "heads", "failing"):
        equal(good("join", *stored(view)), seen(rows_of(whole), view))
        equal(quick("join", "--of", "3", *stored(view)), (0, seen(rows_of(whole), view), ""))


@case
def shards_of_each_stored_report_are_joined():
    assert len(REPORTS) > 12, REPORTS
    for report in REPORTS:
        text = read(report).decode()
        for number in (1, 2, 3, 7, 40):
            equal(quick("join", *shards(text, number)), (0, text, ""))
        for view in ("heads", "failing", "heads failing"):
            equal(quick("join", *shards(text, 5, view)), (0, seen(rows_of(text), view), ""))


@case
def shards_of_random_reports_are_joined():
    for seed in range(150):
        text = report_of(Dice(seed).campaign()[1])
        number = 1 + seed % 5
        for view in ("", "heads", "failing"):
            equal(quick("join", *shards(text, number, view)), (0, seen(rows_of(text), view), ""))


def is_not_joined(names, *parts):
    """Refused, in one line, which has these parts; and nothing is written."""
    for words in ([], ["--output", "joined"]):
        found, out, err = run("join", *words, *names)
        equal((found, out, err.count(b"\n"), os.path.exists("joined")), (3, b"", 1, False))
        for part in parts:
            holds(err.decode(), part)


@case
def a_missing_shard_is_named():
    names = shards(read(LOST).decode(), 4)
    is_not_joined(names[1:], "part.2: it has row 5, where rows 0 to 4 are next: a shard is missing")
    is_not_joined(names[:2] + names[3:], "part.4: it has row 15, where rows 10 to 14 are next: a shard is missing")
    equal(run("join", "--of", "4", *names[:3]), (2, b"", b"rtosim-report: 3 parts of 4 shards: a shard is missing\n"))
    equal(run("join", "--of", "3", *names), (2, b"", b"rtosim-report: 4 parts of 3 shards: there are too many\n"))
    names = shards(read(LOST).decode(), 6)
    why = "part.3: it has rows 6 to 9, and shard 3 of 5 of 16 rows has rows 6 to 8: a shard is missing"
    is_not_joined(names[:5], f"{why}, or one is of another number of shards")


@case
def another_order_is_named():
    one, two, three, four = shards(read(LOST).decode(), 4)
    order = "the parts aren't in the order of their shards"
    is_not_joined([two, one, three, four], f"part.2: it has row 5, where rows 0 to 4 are next: {order}")
    is_not_joined([one, two, four, three], f"part.4: it has row 15, where rows 10 to 14 are next: {order}")
    is_not_joined([one, two, two, four], "part.2: it has row 5, where rows 10 to 14 are next: part.2 has such rows already")
    is_not_joined([one, two, three, four, one], "part.1: it has row 0, where rows 20 to 24 are next: part.1 has such rows already")
    heads = shards(read(LOST).decode(), 4, "heads")
    is_not_joined(heads[::-1], f"part.4: it has row 15, where rows 0 to 4 are next: {order}")


@case
def a_part_of_another_application_is_named():
    other = "it is of another application, or made with other words"
    old, new = (read(f"{ROOT}/tests/of_versions/{it}.report").decode() for it in ("old", "new"))
    names = shards(old, 2)
    write("other", read(shards(new, 2)[1]).decode())
    shards(old, 2)
    is_not_joined([names[0], "other"], "other: its rows begin otherwise than those of the parts before it", other)
    whole = read(PRESSES).decode()
    one, two = shards(whole, 2)
    text = read(two).decode()
    last = text.rindex("row 7")
    for changed in (text.replace("0 0 call ui 0 delay = 0", "0 0 call ui 0 delay = 1"),
                    text[:last] + text[last:].replace("3 2 call main 1 send = 1", "3 2 call main 1 send = 0"),
                    text.replace("not reached, pass in 24 steps, 8 ticks", "not reached, pass in 3 steps, 8 ticks")):
        write("changed", changed)
        is_not_joined([one, "changed"], other)
    names = shards(whole, 8)
    write("changed", read(names[6]).decode().replace("0 0 call ui 0 delay = 0", "0 0 call ui 0 delay = 1"))
    is_not_joined([*names[:6], "changed", names[7]], "changed: ", other)


@case
def two_base_runs_that_are_not_reached_are_named():
    lines = ["0 0 run a\n", "3 1 run -\n"]
    end = "stuck in 9 steps, 4 ticks"
    for other in ((end, lines[:1]), ("stuck in 9 steps, 5 ticks", lines), ("ticks in 9 steps, 4 ticks", lines)):
        whole = report_of([(9, "h", False, end, lines), (10, "h", False, *other)])
        is_not_joined(shards(whole, 2), "part.2: ", "of another application")
    whole = report_of([(9, "h", True, "stuck in 12 steps, 4 ticks", lines), (10, "h", False, end, lines)])
    is_not_joined(shards(whole, 2, "heads"), "part.2: ", "of another application")


@case
def parts_of_other_words_are_named():
    whole = read(LOST).decode()
    heads = shards(whole, 2, "heads")
    write("heads", read(heads[1]).decode())
    one, two = shards(whole, 2)
    is_not_joined([one, "heads"], "heads: it isn't of the same words as the parts before it: some rows are heads alone (--heads)")
    write("failing", read(shards(whole, 2, "failing")[0]).decode())
    shards(whole, 2)
    why = "rows that end with `pass` are there and left out (--only)"
    is_not_joined(["failing", two], f"part.2: it isn't of the same words as the parts before it: {why}")


@case
def a_part_that_lacks_a_row_is_named():
    one, two = shards(read(LOST).decode(), 2)
    rows = rows_of(read(two).decode())
    write(two, read(two).decode().replace(rows[3], ""))
    is_not_joined([one, two], "part.2: it has ", "that end with `pass`, and its total line counts ")
    one, two = shards(read(PRESSES).decode(), 2)
    write(two, read(two).decode().replace("not reached 1", "not reached 0"))
    is_not_joined([one, two], "part.2: it has 1 row that are not reached, and its total line counts 0")


@case
def what_is_no_report_of_a_shard_is_named():
    one, two = shards(read(RACE).decode(), 2)
    text = read(two).decode()
    lines = text.splitlines(True)
    of_a_run = "it is the report of a run, and not of a shard of a campaign"
    for broken, why in (
        ("", "it is cut off at line 1"), ("".join(lines[:-1]), f"it is cut off at line {len(lines)}"),
        (text[:-1], "it is cut off at line"), (text[: len(text) // 2], "it is cut off at line"),
        (text + "\n", "expected nothing after the total line"), (text.replace("total 6", "total 7"), "expected `total 6: "),
        (text.replace("row 7", "row 5"), "with a number above 6, found `row 5 at"),
        (text.replace("row 7", "row 6"), "with a number above 6, found `row 6 at"), ("hello\n", "line 1: expected "),
        (text.replace("row 7", "rew 7"), "that end with `pass`, and its total line counts 3"),
        (text.replace(" in 12", " on 12", 1), "expected `row N at"), (lines[0], of_a_run),
        (read(f"{ROOT}/examples/timeout_race.out").decode(), of_a_run),
    ):
        write(two, broken)
        is_not_joined([one, two], "rtosim-report: part.2: ", why)
    is_not_joined([one, "not\x1b there"], "cannot read not\\x1b there: No such file or directory")
    equal(run("join")[:2], (2, b""))


@case
def pipes_are_joined_too():
    names = shards(read(LOST).decode(), 3)
    command = '"$0" join <(cat "$1") "$2" <(cat "$3")'
    ran = subprocess.run(["bash", "-c", command, COMPANION, *names], stdout=subprocess.PIPE, timeout=PATIENCE, check=True)
    equal(ran.stdout, read(LOST))


@case
def more_parts_are_joined_than_files_may_be_open():
    rows = [(0, "h", True, "stuck in 9 steps, 4 ticks", ["0 0 isr h 0 send = 1\n", "3 1 run -\n"])] * 300
    text = report_of(rows)
    few = lambda: resource.setrlimit(resource.RLIMIT_NOFILE, (32, 32))
    equal(run("join", *shards(text, 200), preexec_fn=few), (0, text.encode(), b""))


@case
def a_part_may_be_the_output_too():
    text = read(LOST).decode()
    names = shards(text, 3)
    equal(good("join", *names, "--output", names[0]), "")
    equal(read(names[0]).decode(), text)


@case
def a_joined_report_that_can_not_be_written_is_told():
    names = shards(read(LOST).decode(), 3)
    with open("/dev/full", "wb") as full:
        equal(run("join", *names, stdout=full), (5, None, b"rtosim-report: cannot write: No space left on device\n"))
    equal(run("join", *names, preexec_fn=lambda: os.close(1)), (5, b"", b"rtosim-report: cannot write: standard output is closed\n"))
    reader, writer = os.pipe()
    os.close(reader)
    equal(run("join", *names, stdout=writer), (141, None, b""))
    os.close(writer)


@case
def a_part_that_is_changed_between_the_looks_is_told():
    for name, change in zip(shards(read(LOST).decode(), 2), (lambda text: text + b"x", lambda text: text[:100])):
        part = Part(name)
        write(name, change(read(name)).decode())
        try:
            part.copy_rows(None)
        except Fault as fault:
            equal(str(fault), f"{name}: it was changed while it was read")
            continue
        raise AssertionError("it is copied")


def parts_alike(rows, number, lines):
    """Parts of this many rows in all, each written row by row: the memory of this process at its start counts as that of a join."""
    size = rows // number
    for at in range(number):
        with open(f"part.{at}", "w") as it:
            for row in range(at * size, (at + 1) * size):
                it.write(f"row {row} at 0 h: stuck in 9 steps, 4 ticks\n0 0 isr h 0 send = 1\n")
                it.write(lines * "4 1 run a\n")
            it.write(total_of(size * ["row 0 at 0 h: stuck"]))
        yield f"part.{at}"


@case
def memory_of_a_join_grows_neither_with_rows_nor_with_parts():
    script = "\n".join((
        "import resource, sys",
        "from rtosim_report.command_line import main",
        "main(sys.argv[1:])",
        "print(resource.getrusage(resource.RUSAGE_SELF).ru_maxrss)",
    ))
    paths = {**os.environ, "PYTHONPATH": f"{ROOT}/tools", "PYTHONDONTWRITEBYTECODE": "1"}
    found = []
    for rows, number, lines in ((2_000, 4, 20), (40_000, 4, 20), (40_000, 400, 20), (60, 60, 50_000)):
        words = [sys.executable, "-c", script, "join", *parts_alike(rows, number, lines), "--output", "joined"]
        ran = subprocess.run(words, env=paths, stdout=subprocess.PIPE, timeout=PATIENCE, check=True)
        found.append(int(ran.stdout.splitlines()[-1]))
    assert max(found) < found[0] + 8_000 and max(found) < 100_000, found
