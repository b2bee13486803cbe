"""Cases of tests/report about how much of a report is read: the program is asked for the least view, nothing of it is kept, and the reports
of views are taken wherever they suffice."""
import os
import subprocess
import sys
import time
from unittest import mock

import views
from cases import case, equal, holds
from reports import PATIENCE, PROGRAM, RACE, ROOT, Dice, good, good_and_quick, quick, read, report_of, run, source_of, stand_in
from running import write
from rtosim_report import application, base_run, classes, made, whereabouts

LOCKS = f"{ROOT}/examples/opposite_locks"
OLD = f"{ROOT}/tests/of_versions/old"
# A driver that loses a wake-up, in a loop that makes the run as long as is wanted.
LONG = """[limits]
steps = 1000000
[[queue]]
name = "rx"
length = 4
[[binary]]
name = "go"
[[handler]]
name = "uart"
ops = ["send rx 42", "resume driver"]
[[handler]]
name = "timer"
ops = ["give go"]
[[task]]
name = "driver"
priority = 2
endless = true
script = ["repeat forever", "waiting rx", "if 0", "suspend driver", "end", "receive rx 0", "expect 42", "end"]
[[task]]
name = "main"
priority = 1
script = ["repeat {outer}", "repeat {inner}", "work 4", "take go 0", "time", "end", "end", "waiting rx", "expect 0"]
[campaign]
points = {points}
"""


def calls_of(companion, *words):
    """What the program is asked for by a command."""
    name = "bin/rtosim.calls"
    if os.path.exists(name):
        os.remove(name)
    good(*words, "--application", f"{LOCKS}.toml", companion=companion, env={**os.environ, "TMPDIR": "/none"})
    return [it.replace(f"{LOCKS}.toml", "FILE") for it in read(name).decode().splitlines()]


@case
def the_program_is_asked_for_the_least_view():
    companion = stand_in(os.getcwd(), "opposite_locks")
    state = "run FILE --at 11 --handler button --state"
    failing = ["campaign FILE --only failing --heads", "campaign FILE --only failing"]
    for words, wanted in (
        (["classes", "--failing"], ["run FILE", *failing, state]),
        (["classes", "--failing", "--names"], ["run FILE", *failing]),
        (["classes", "--by", "verdict"], ["run FILE", "campaign FILE --heads", "campaign FILE --heads"]),
        (["classes", "--by", "verdict", "--failing"], ["run FILE", "campaign FILE --heads", "campaign FILE --heads"]),
        (["classes"], ["run FILE", "campaign FILE --heads", "campaign FILE", state]),
        (["svg"], ["run FILE"]), (["vcd"], ["run FILE"]),
        (["show", "3"], ["run FILE", failing[0], "campaign FILE --shard 4/22"]),
        (["svg", "--row", "3"], ["run FILE", failing[0], "campaign FILE --shard 4/22"]),
        (["junit", "--rows"], ["run FILE", "campaign FILE --heads", "campaign FILE --heads", "campaign FILE --heads"]),
        (["json"], ["campaign FILE --heads", "run FILE", "campaign FILE"]),
        (["html"], ["run FILE", "campaign FILE --heads", "campaign FILE --heads", "campaign FILE --shard 1/22", failing[1], state]),
    ):
        equal((words, calls_of(companion, *words)), (words, wanted))


def viewed(name, *words):
    write("view", views.view(read(name).decode(), words))
    return "view"


@case
def reports_of_views_suffice_where_they_do():
    for name in (f"{LOCKS}.report", RACE, f"{OLD}.report", f"{ROOT}/tests/of_several/changes.report"):
        base = ["--base", f"{name[:-7]}.out", "--application", f"{name[:-7]}.toml"]
        failing = viewed(name, "--only", "failing")
        for words in (["classes", "--failing"], ["classes", "--failing", "--names"], ["classes", "--failing", "--by", "outcome"]):
            wanted = good_and_quick(*words, name, *base).replace(name, "view")
            equal((words, good_and_quick(*words, failing, *base)), (words, wanted))
        holds(good_and_quick("classes", failing, *base), good_and_quick("classes", name, *base).partition(" rows")[0])
        heads = viewed(name, "--heads")
        for words in (["classes", "--by", "verdict"], ["junit", "--rows"]):
            found, wanted = (good_and_quick(*words, it, *base, *dated).replace(it, "view") for it, dated in ((heads, []), (name, [])))
            equal(found.partition("timestamp")[0], wanted.partition("timestamp")[0])
            equal(found.partition("hostname")[2], wanted.partition("hostname")[2])
        equal(good_and_quick("json", heads).count("\n"), len(views.rows_of(read(name).decode())))


@case
def a_shard_is_a_report_of_its_own():
    text = read(f"{LOCKS}.report").decode()
    shards = [viewed(f"{LOCKS}.report", "--shard", f"{it}/3") for it in range(1, 4)]
    equal(len(shards), 3)
    parts = [views.view(text, ("--shard", f"{it}/3")) for it in range(1, 4)]
    found = [good_and_quick("json", text=it) for it in parts]
    equal("".join(found), good_and_quick("json", text=text))
    base = ["--base", f"{LOCKS}.out"]
    for number, part in enumerate(parts, 1):
        rows = len(views.rows_of(part))
        write("part", part)
        holds(good_and_quick("classes", "part", *base), f"{rows} rows in ")
        first = int(views.HEAD.match(part)[1])
        holds(good_and_quick("show", str(first), "part", *base), f"row {first} at ")
        equal(quick("show", str(first + rows), "part", *base)[0], 2)
        holds(good_and_quick("svg", "--campaign", "part", *base), f"{rows} rows in ")
        failing = views.view(text, ("--shard", f"{number}/3", "--only", "failing"))
        holds(good_and_quick("classes", "--failing", *base, text=failing), f"{rows} rows: ")


@case
def heads_alone_are_classed_by_these():
    """Also where no row passes, and nothing but the heads shows that the rows had lines."""
    for name, row, cause, every in ((LOCKS, 11, "stuck [button]", "22 rows in 2 classes"), (f"{ROOT}/examples/lost_wake_up", 2, "check main: expect 0 [uart]", "20 rows in 2 classes")):
        for view in (["--heads"], ["--heads", "--only", "failing"], ["--heads", "--only", "failing", "--shard", "1/1"]):
            heads = viewed(f"{name}.report", *view)
            table = good_and_quick("classes", heads, "--application", f"{name}.toml").splitlines()
            equal(table[:2], [f"{every if view == ['--heads'] else every.replace('2 classes', '1 class')}; the base run is not known",
                              "  the report has heads alone (--heads), so rows are classed by these"])
            holds(table[5], cause)
            # (no command is named that needs a whole row)
            holds(good_and_quick("classes", heads), f"\n       --at {row} --handler ")
            for words in (["html"], ["svg", "--campaign"], ["junit"], ["classes", "--names"]):
                good_and_quick(*words, heads)
            for words in (["show", f"{row}"], ["svg", "--row", f"{row}"], ["vcd", "--row", f"{row}"], ["perfetto", "--row", f"{row}"]):
                status, _, err = quick(*words, heads)
                equal((words, status, err), (words, 3, "rtosim-report: the report has heads alone (--heads): this needs whole rows\n"))


@case
def heads_are_compared_with_whole_rows_by_their_heads():
    whole, heads, failing = f"{ROOT}/examples/lost_wake_up.report", viewed(f"{ROOT}/examples/lost_wake_up.report", "--heads"), "failing"
    os.rename(heads, "heads")
    os.rename(viewed(whole, "--heads", "--only", "failing"), failing)
    for old, new in ((whole, "heads"), ("heads", whole), (failing, whole), (whole, failing)):
        status, out, err = quick("compare", old, new)
        equal((old, new, status), (old, new, 0))
        holds(out, " now; 0 failures new")
        holds(err, "heads alone are read, so the rows of both are classed by these\n")
    good_and_quick("compare", "heads", failing)
    good_and_quick("compare", whole, whole)


@case
def a_view_that_lacks_a_row_is_refused():
    text = views.view(read(f"{OLD}.report").decode(), ("--only", "failing"))
    rows = views.rows_of(text)
    for at in (0, 5, len(rows) - 1):
        status, _, err = quick("classes", "--failing", text=text.replace(rows[at], "", 1))
        equal((status, err), (3, f"rtosim-report: it has {len(rows) - 1} rows that end with `stuck`, and its total line counts {len(rows)}\n"))


@case
def what_is_made_by_the_program_is_classed_as_what_is_read():
    """The quick look at rows that the program has just made finds the classes that all lines show."""
    found = 0
    for seed in range(300):
        base_text, rows = Dice(seed).campaign()
        base = base_run.given_base(source_of(base_text).reader())
        text = report_of(rows)
        for by in (classes.By.DEFAULT, classes.By.CAUSE, classes.By.OUTCOME):
            tables = []
            for is_made in (False, True):
                classifier = classes.Classifier(base, by)
                for it in source_of(text).reader():
                    classifier.add(it, is_made)
                tables.append([(it.name, it.rows, it.first, it.what_differs) for it in classifier.in_order()])
            equal(tables[1], tables[0])
            found += len(tables[0])
    assert found > 1000, found


@case
def tasks_are_where_they_are_without_the_base_run():
    """That the tasks are followed through the base run once says the same as following them through each row."""
    stuck = 0
    for name in (LOCKS, OLD, f"{ROOT}/tests/of_stuck/lost_wake_up", f"{ROOT}/tests/of_versions/new", f"{ROOT}/examples/lost_wake_up"):
        texts = application.read_application(f"{name}.toml")
        base = base_run.given_base(source_of(read(f"{name}.out").decode()).reader())
        with mock.patch.object(whereabouts, "STRIDE", 3):
            quickly, slowly = whereabouts.Whereabouts(texts, base), whereabouts.Whereabouts(texts)
            runs = list(source_of(read(f"{name}.report").decode()).reader())
            for it in [*runs, *reversed(runs), *runs[::3]]:
                equal((name, it.head.row, quickly.at_end_of(it)), (name, it.head.row, slowly.at_end_of(it)))
                stuck += it.head.verdict.kind == "stuck"
    assert stuck > 50, stuck


@case
def what_is_too_large_is_classed_by_its_heads_and_said_beforehand():
    script = ("import sys; from unittest import mock; from rtosim_report import command_line, made\n"
              "made.MOST_OF_PASSING = made.MOST_OF_FAILING = made.WORTH_A_WORD = int(sys.argv[1])\n"
              "sys.exit(command_line.main(sys.argv[2:]))")
    stand_in(os.getcwd(), "opposite_locks")
    env = {**os.environ, "PYTHONPATH": f"{os.getcwd()}/tools", "PYTHONDONTWRITEBYTECODE": "1"}
    for size, words, lines, told in (
        (900, ["classes"], "22 rows in 2 classes", (b"19 rows that pass: some 1 MB, classed by their heads; --whole reads them, in some 1 second\n",)),
        (0, ["classes", "--failing"], "menu runs, where the base run has saver: lock = 1; then menu: take = 1", (b"3 rows that fail: ",)),
        (0, ["classes"], "stuck [button]", (b"3 rows that fail: ",)), (900, ["classes", "--whole"], "22 rows in 6 classes", (b", read in some 1 second\n",)),
        (0, ["classes", "--failing"], "deadlock: menu waits for saver", (b"3 rows that fail: ",)),
        (0, ["html"], "stuck [button]", (b"3 rows that fail: ",)), (1 << 30, ["classes"], "22 rows in 6 classes", ()),
    ):
        ran = subprocess.run([sys.executable, "-c", script, str(size), *words, "--application", f"{LOCKS}.toml"], env=env, capture_output=True,
                             timeout=PATIENCE)
        equal((words, ran.returncode), (words, 0))
        holds(ran.stdout.decode(), lines)
        equal(bool(ran.stderr), bool(told))
        for it in told:
            holds(ran.stderr, it)


@case
def json_of_what_the_program_makes_is_written_as_it_comes():
    """It may be of any size, so nothing of it goes to the folder for temporary files, and a reader that leaves ends it."""
    script = ("import sys; from rtosim_report import command_line, made, output\n"
              "made.WORTH_A_WORD, output.IN_MEMORY = 900, 1\n"
              "sys.exit(command_line.main(['json', '--application', *sys.argv[1:]]))")
    stand_in(os.getcwd(), "opposite_locks")
    env = {**os.environ, "PYTHONPATH": f"{os.getcwd()}/tools", "PYTHONDONTWRITEBYTECODE": "1", "TMPDIR": "/none"}
    words = [sys.executable, "-c", script, f"{LOCKS}.toml"]
    ran = subprocess.run(words, env=env, capture_output=True, timeout=PATIENCE)
    equal((ran.returncode, ran.stderr), (0, b"rtosim-report: 22 rows: some 1 MB, read in some 1 second\n"))
    equal(ran.stdout.decode(), good_and_quick("json", f"{LOCKS}.report"))
    reader, writer = os.pipe()
    os.close(reader)
    equal(subprocess.run(words, env=env, stdout=writer, stderr=subprocess.DEVNULL, timeout=PATIENCE).returncode, 141)
    os.close(writer)


@case
def rows_are_read_in_pieces():
    survey = made.Survey()
    for it in source_of(read(f"{LOCKS}.report").decode()).reader():
        survey.add(it.head)
        survey.total.add(it.head)
    base = base_run.given_base(source_of(read(f"{LOCKS}.out").decode()).reader())
    report = made.MadeReport("file.toml")
    report.known_base = base
    for piece in (1, 300, 700, 5000, 1 << 30):
        with mock.patch.object(made, "PIECE", piece):
            for kinds in ([made.FAILING], [made.PASSING, made.FAILING]):
                wanted = sorted(row for it in kinds for row in survey.rows[it])
                found = [row for words in report.pieces(kinds, survey) for row in rows_of_shard(words, survey.total.rows)]
                equal([it for it in found if it in wanted], wanted)
    equal(report.pieces([made.FAILING], survey), [[]])
    with mock.patch.object(made, "PIECE", 1):
        equal(len(report.pieces([made.FAILING], survey)), len(survey.rows[made.FAILING]))


def rows_of_shard(words, rows):
    part, parts = map(int, words[1].split("/")) if words else (1, 1)
    return range((part - 1) * rows // parts, part * rows // parts)


@case
def a_campaign_of_100_000_steps_is_classed_soon():
    if not os.access(PROGRAM, os.X_OK) or run("campaign", "--help", companion=PROGRAM)[0] not in (0, 2):
        print("   (skipped: there is no built program)")
        return
    companion = stand_in(os.getcwd())
    write("bin/rtosim", f'#!/bin/sh\nexec "{PROGRAM}" "$@"\n')
    write("long.toml", LONG.format(outer=14, inner=1000, points='["all uart", "all timer"]'))
    began = time.monotonic()
    # nothing goes to the disk: there is no folder for temporary files
    with open("table", "wb") as table:
        words = [companion, "classes", "--failing", "--application", "long.toml"]
        with subprocess.Popen(words, stdout=table, env={**os.environ, "TMPDIR": "/none"}) as started:
            _, status, used = os.wait4(started.pid, 0)
            started.returncode = os.WEXITSTATUS(status)
    equal(started.returncode, 0)
    holds(read("table").decode(), "196,070 rows: 196,068 pass, 2 fail in 1 class; ")
    processors, megabytes = used.ru_utime + used.ru_stime, used.ru_maxrss // 1024
    print(f"   ({time.monotonic() - began:.1f} seconds, {processors:.1f} of processors, the largest process {megabytes} MB)")
    assert processors < 30, processors
    assert megabytes < 250, megabytes


@case
def rows_that_are_classed_by_their_heads_are_checked():
    """Of a report that is named each line is looked at, also of rows that pass and aren't classed by it."""
    base = ["0 0 run a\n", "3 1 run -\n"]
    rows = [(1, "h", True, "pass in 4 steps, 1 ticks", [base[0], "1 0 isr h 0 send = 1\n", base[1]]), (9, "h", False, "pass in 4 steps, 1 ticks", base)]
    write("base", "base: pass in 4 steps, 1 ticks\n" + "".join(base))
    text = report_of(rows)
    for words in (["classes", "--failing"], ["classes", "--by", "verdict"], ["html"]):
        good_and_quick(*words, "--base", "base", text=text)
        for old, new in (("0 0 run a\n1", "0 0 run b\n1"), ("3 1 run -\nrow", "3 1 run\nrow"), ("3 1 run -\ntotal", "3 2 run -\ntotal"), ("0 0 run a\n3", "0 0 run b\n3")):
            assert old in text
            equal((words, old, quick(*words, "--base", "base", text=text.replace(old, new))[0]), (words, old, 3))
