"""Cases of tests/report: classes by cause, names that last, two versions beside each other, failures that are known. The reports in
tests/of_versions are what the program writes of the files there."""
import glob
import os
import re
import shutil
import subprocess
import sys
import tempfile
import xml.etree.ElementTree as tree
from unittest import mock

import views
from cases import case, equal, holds
from report_classes import failed_beyond
from reports import (LOST, PATIENCE, RACE, ROOT, RUN, STAND_IN, Dice, good, good_and_quick, quick, read, report_of, run, source_of, stand_in,
                     total_of)
from rtosim_report import application, base_run, classes, command_line, progress

VERSIONS = f"{ROOT}/tests/of_versions"
OLD, NEW, WORSE, BRANCHES = (f"{VERSIONS}/{it}" for it in ("old", "new", "worse", "branches"))


def of_texts(name):
    """The words for a report with the texts of its application and its base run."""
    return [f"{name}.report", "--application", f"{name}.toml", "--base", f"{name}.out"]


def names(*words):
    return [re.sub("^[0-9]+ rows?: ", "", it) for it in lines_of_names(*words)]


def lines_of_names(*words):
    return good_and_quick("classes", "--names", *words).splitlines()


def slow_cause(row, base, base_end):
    """What two rows must have in common to be of one cause; None where a row is as the base run and no call of a handler fails."""
    step, handler, _, end, lines = row
    failed = failed_beyond(*([it for it in there if int(it.split()[0]) >= step] for there in (lines, base)))
    verdict = end.split(" in ")[0]
    last = {}
    for it in lines:
        words = it.split()
        if words[2] == "call" and verdict == "stuck":
            last[words[3]] = words[4:6]
    return verdict, sorted(last.items()), set(failed), verdict != "pass" and handler


@case
def causes_are_those_of_the_slow_definition():
    several = 0
    for seed in range(400):
        base_text, rows = Dice(seed).campaign()
        base_head, *base_lines = base_text.splitlines(True)
        base = base_run.given_base(source_of(base_text).reader())
        by_cause, by_outcome = classes.Classifier(base, classes.By.CAUSE), classes.Classifier(base, classes.By.OUTCOME)
        found = []
        for it in source_of(report_of(rows)).reader():
            is_base = by_outcome.add(it).is_base
            found.append((None if is_base else 0, by_cause.add(it)))
        wanted = [None if is_base is None else slow_cause(row, base_lines, base_head) for (is_base, _), row in zip(found, rows)]
        for at, (_, one) in enumerate(found):
            for other in range(at):
                equal((seed, at, other, one is found[other][1]), (seed, at, other, wanted[at] == wanted[other]))
        several += len(by_cause.classes) > 2
    assert several > 100, several


@case
def what_fails_is_classed_by_its_cause():
    table = good_and_quick("classes", *of_texts(OLD)).splitlines()
    equal(table[4].strip(), "stuck: user suspended by itself after suspend user; uart: resume user = 0 [uart]")
    equal(lines_of_names("--failing", *of_texts(OLD)), [
        "23 rows: stuck: user suspended by itself after suspend user; uart: resume user = 0 [uart]",
        "1 row: stuck: driver in receive rx forever, user suspended by itself after suspend user; uart: send rx 42 = 0; "
        "uart: resume user = 0 [uart]",
    ])
    equal(names(f"{OLD}.report", "--base", f"{OLD}.out")[0], "stuck: driver after 4 time, user after 3 suspend; uart 1 resume = 0 [uart]")
    equal(names(*of_texts(WORSE))[1:], ["check driver: expect 42; uart: resume user = 0 [uart]"])
    rows = [(step, "h", True, "misuse a 2 3 in 9 steps, 2 ticks", [f"{step} 0 isr h 0 send = {step % 2}\n"]) for step in range(6)]
    equal(names("--by", "cause", "--base", LOST[:-6] + "out", LOST)[-1], "pass")
    base = "base: pass in 9 steps, 2 ticks\n8 2 run -\n"
    with open("base", "w") as it:
        it.write(base)
    equal(good_and_quick("classes", "--names", "--base", "base", text=report_of(rows)), "3 rows: misuse a 2 3; h 0 send = 0 [h]\n3 rows: misuse a 2 3 [h]\n")


@case
def a_lost_byte_does_not_count_as_the_base_run():
    ends = "pass in 9 steps, 2 ticks"
    rows = [(step, "h", True, ends, [f"{step} 0 isr h 0 send = {int(step != 4)}\n", "8 2 run -\n"]) for step in range(6)]
    with open("base", "w") as it:
        it.write(f"base: {ends}\n8 2 run -\n")
    for by in ("cause", "outcome", "exact"):
        table = good_and_quick("classes", "--by", by, "--base", "base", text=report_of(rows)).splitlines()
        equal(table[0], "6 rows in 2 classes; the base run: pass in 9 steps, 2 ticks")
        equal([it.split()[:2] for it in table if it.startswith("    ") and it.split()[0].isdigit()], [["1", "1"], ["2", "5"]])
        holds(table[4], "h 0 send = 0")
    equal(names("--base", "base", "given"), ["as the base run; h 0 send = 0", "as the base run"])


@case
def failing_classes_alone():
    table = good_and_quick("classes", "--failing", RACE).splitlines()
    equal(table[0].partition(";")[0], "12 rows: 9 pass, 3 fail in 1 class")
    equal([it.split()[:4] for it in table[3::4]], [["1", "3", "25.0%", "check"]])
    text = report_of([(0, "h", True, "pass in 1 steps, 0 ticks", ["0 0 run -\n"])])
    equal(good_and_quick("classes", "--failing", text=text).count("\n"), 1)


@case
def names_last():
    """An op added elsewhere, also before the one where it fails, renames no class; nor does the order of the points."""
    for by in ("cause", "default"):
        words = [] if by == "default" else ["--by", by]
        equal(*(sorted(names("--failing", *words, *of_texts(it))) for it in (OLD, NEW)))
    found = [it for name in (OLD, NEW, WORSE, BRANCHES) for it in names(*of_texts(name))]
    assert all(not re.search(r"\b(row|step|at [0-9])", it) for it in found), found
    assert len(set(names(*of_texts(BRANCHES)))) == 5
    rows = list(source_of(read(f"{OLD}.report").decode()).reader())
    turned = [it.text for it in reversed(rows)]
    heads = [it.head._replace(row=at).text() for at, it in enumerate(reversed(rows))]
    text = "".join(f"{head}\n{body.decode()}" for head, body in zip(heads, turned)) + total_of(heads)
    with open("turned", "w") as it:
        it.write(text)
    equal(sorted(names("--failing", "turned", *of_texts(OLD)[1:])), sorted(names("--failing", *of_texts(OLD))))


@case
def two_versions_beside_each_other():
    status, out, _ = run("compare", f"{OLD}.report", f"{OLD}.report")
    equal((status, out.splitlines()[0]), (0, b"24 rows in 2 classes before, 24 rows in 2 classes now; 0 failures new"))
    status, out, err = run("compare", f"{OLD}.report", f"{WORSE}.report")
    lines = out.decode().splitlines()
    equal((status, err), (1, b""))
    equal(lines[0], "24 rows in 2 classes before, 11 rows in 2 classes now; 1 failure new")
    holds(out.decode(), "new             -         1  fails  check driver 1; uart 1 resume = 0 [uart]\n")
    holds(out.decode(), f"       rtosim-report show 10 {WORSE}.report\n")
    companion = stand_in(os.getcwd())
    for old, new, wanted, counts in (
        (OLD, NEW, 1, b"; 0 failures new, 1 larger\n"), (NEW, OLD, 0, b"; 0 failures new\n"), (OLD, WORSE, 1, b"; 1 failure new\n"),
    ):
        status, out, err = run("compare", f"{old}.toml", f"{new}.toml", companion=by_name(companion))
        equal((status, err), (wanted, b""))
        assert out.partition(b"\n")[0].endswith(counts[:-1]), out
    holds(out.decode(), "check driver: expect 42")
    equal(run("compare", f"{OLD}.report", "--workers", "2", f"{NEW}.report")[0], 2)
    equal(run("compare", f"{OLD}.report", f"{OLD}.out")[0], 0)
    equal(run("compare", f"{OLD}.report", "none")[0], 3)


def by_name(companion):
    """A stand-in for the program that writes what is stored beside the file that it is called with."""
    program = f"{os.path.dirname(companion)}/rtosim"
    with open(program, "w") as it:
        it.write(STAND_IN.format(tests=f"{ROOT}/tests", out='f"{file}.out"', report='f"{file}.report"', status=1))
    return companion


@case
def the_lines_for_build_servers_do_what_they_say():
    companion = by_name(stand_in(os.getcwd()))
    for name, files in (("driver", OLD), ("driver.before", NEW)):
        for end in ("toml", "out", "report"):
            shutil.copy(f"{files}.{end}", f"{name}.{end}")
    lines = re.findall(r"bin/rtosim-report (.*)", read(f"{ROOT}/docs/CI.md").decode())
    lines = sorted(lines, key=lambda it: "> driver.known" not in it)
    for line in lines:
        words = line.replace(" > driver.known", " -o driver.known").split()
        equal((line, run(*words, companion=companion)[::2]), (line, (0, b"")))
    equal(len(lines), 5)
    with open("driver.known", "w"):
        pass
    equal([run(*it.split(), companion=companion)[0] for it in lines if "--accept" in it], [1, 1, 1])
    holds(read("driver.xml").decode(), "failures=\"2\"")


@case
def a_base_run_that_fails_now_is_a_new_failure():
    rows = [(0, "h", True, "pass in 1 steps, 0 ticks", ["0 0 run -\n"])]
    with open("old", "w") as it:
        it.write(report_of(rows))
    with open("new", "w") as it:
        it.write(report_of(rows).replace("pass in", "stuck in").replace("pass 1", "pass 0").replace("stuck 0", "stuck 1"))
    equal(run("compare", "old", "new")[0], 1)
    equal(run("compare", "new", "old")[0], 0)


@case
def failures_that_are_known():
    known = lines_of_names("--failing", *of_texts(OLD))
    with open("known", "w") as it:
        it.write("# what is to be mended\n\n" + "\n".join(known) + "\n")
    equal(run("classes", *of_texts(OLD), "--accept", "known")[::2], (0, b""))
    with open("known", "w") as it:
        it.write(f"{known[0]}\nanother\n")
    told = f"rtosim-report: not accepted: {known[1]}\nrtosim-report: 1 accepted name of nothing that fails\n".encode()
    status, out, err = run("classes", *of_texts(OLD), "--accept", "known", "--failing")
    equal((status, err, out.startswith(b"24 rows: 0 pass, 24 fail in 2 classes;")), (1, told, True))
    status, out, err = run("junit", *of_texts(OLD), "--accept", "known")
    equal((status, err), (1, told))
    suite = tree.fromstring(out).find("testsuite")
    equal((suite.get("tests"), suite.get("failures"), suite.get("skipped")), ("2", "1", "1"))
    equal(len(suite.findall("testcase/skipped")), 1)
    for words in (["--by", "outcome"], ["--by", "exact"], ["--by", "verdict"], ["--exact"]):
        equal(run("classes", *words, "--accept", "known", LOST)[:2], (2, b""))
    equal(run("junit", "--rows", "--accept", "known", LOST)[:2], (2, b""))
    with open("known", "wb") as it:
        it.write(b"a\nb\xff\n")
    equal(run("classes", LOST, "--accept", "known"), (3, b"", b"rtosim-report: known: line 2: expected a name in UTF-8\n"))
    equal(run("classes", LOST, "--accept", "none")[0], 3)


@case
def an_accepted_name_is_of_so_many_rows_and_of_its_handlers():
    end = "check a 2 in 9 steps, 4 ticks"
    rows = [(step, handler, True, end if fails else "pass in 9 steps, 4 ticks", ["8 4 run -\n"])
            for handler, fails in (("h", True), ("k", False)) for step in range(4)]
    worse = [(*it[:3], end, it[4]) if it[1] == "k" and it[0] == 1 else it for it in rows[1:]]
    with open("before", "w") as it:
        it.write(report_of(rows))
    with open("after", "w") as it:
        it.write(report_of(worse))
    known = lines_of_names("--failing", "before")
    equal(known, ["4 rows: check a 2 [h]"])
    write_known(known)
    equal(quick("classes", "before", "--accept", "known")[::2], (0, ""))
    told = "rtosim-report: not accepted: 1 row: check a 2 [k]\nrtosim-report: 1 accepted name of fewer rows than accepted\n"
    for words in (["classes"], ["junit"]):
        equal(quick(*words, "after", "--accept", "known")[::2], (1, told))
    equal(run("compare", "before", "after")[0], 1)
    for line, status, end_of_line in (("4 rows", 0, ""), ("3 rows", 1, "4 rows: check a 2 [h] (accepted are 3)"), ("1,000 rows", 0, "")):
        write_known([known[0].replace("4 rows", line)])
        found, _, err = quick("classes", "before", "--accept", "known")
        equal(found, status)
        holds(err, end_of_line)
    write_known(["check a 2 [h]"])
    equal(quick("classes", "before", "--accept", "known")[::2], (0, ""))


def write_known(lines):
    with open("known", "w") as it:
        it.write("".join(f"{line}\n" for line in lines))


@case
def an_op_can_have_a_name_of_its_own():
    """So that an op of the same text, which is put before it, renames nothing."""
    text = read(f"{WORSE}.toml").decode()
    words = ["--failing", f"{WORSE}.report", "--base", f"{WORSE}.out", "--application", "driver.toml"]
    for old, new, name in (
        ('"expect 42",', '"expect 42", # name:  the first   byte\n', "the first byte"),
        ('"expect 42",', '"expect 42" ,\t#name:a\r\n', "a"), ('"expect 42",', '"expect 42", # the first byte\n', "expect 42"),
        ('["receive rx 3", "expect 42", "work 2", "receive rx forever", "time"]',
         '["receive rx 3", "expect 42", "work 2", "receive rx forever", "expect 42"]  # name: the last one', "expect 42"),
        ('"expect 42",', '"expect 42", # name: ' + "x" * 70 + "\n", "x" * 60),
    ):
        assert old in text
        with open("driver.toml", "w", newline="") as it:
            it.write(text.replace(old, new))
        equal(names(*words)[1:], [f"check driver: {name}; uart: resume user = 0 [uart]"])
    script = application.Script("a", [application.Op(it.split(), name) for it, name in (
        ("expect 0", ""), ("expect 0", "empty"), ("expect 0", ""), ("expect 1", "empty"))])
    equal([script.lasting_name(at) for at in range(4)], ["expect 0", "empty", "expect 0 (2nd)", "empty (2nd)"])


@case
def a_campaign_without_points_fails_a_build():
    empty = total_of([])
    for words, failures in (([], 1), (["--allow-empty"], 0)):
        suite = tree.fromstring(good_and_quick("junit", *words, text=empty)).find("testsuite")
        equal((suite.get("tests"), suite.get("failures")), (str(failures), str(failures)))
    suite = tree.fromstring(good_and_quick("junit", text=RUN)).find("testsuite")
    equal([it.get("name") for it in suite.findall("testcase")], ["the base run: stuck: a after 0 send_front, c_3 after 255 suspend_all"])
    companion = stand_in(os.getcwd(), report=f"{os.getcwd()}/none")
    with open("none", "w") as it:
        it.write(empty)
    suite = tree.fromstring(good("junit", "--application", f"{OLD}.toml", companion=companion)).find("testsuite")
    equal([it.get("name") for it in suite.findall("testcase")], ["the base run", "the campaign has no points"])
    write_known([])
    for words in (["classes"], ["classes", "--failing"], ["junit"]):
        line = [*words, "--application", f"{OLD}.toml", "--accept", "known"]
        told = b"rtosim-report: the campaign has no points: nothing is injected, so nothing is tested; --allow-empty takes it\n"
        equal(run(*line, companion=companion)[::2], (1, told))
        equal(run(*line, "--allow-empty", companion=companion)[::2], (0, b""))
    equal(run("compare", f"{LOST[:-7]}.toml", f"{OLD}.toml", companion=companion)[::2], (1, told))
    holds(good_and_quick("classes", text=empty), "the campaign has no points: nothing is injected, so nothing is tested\n")


@case
def a_campaign_of_points_that_are_not_reached_fails_a_build():
    base = ["0 0 run -\n"]
    rows = [(step, "h", False, "pass in 1 steps, 0 ticks", base) for step in (7, 8)]
    write_known([])
    told = "rtosim-report: no point of the campaign is reached: the base run ends before each of them, or its interrupt can't come there, so nothing is tested; --allow-empty takes it\n"
    text = report_of(rows)
    for words in (["classes"], ["junit"]):
        equal(quick(*words, "--accept", "known", text=text)[::2], (1, told))
        equal(quick(*words, "--accept", "known", "--allow-empty", text=text)[::2], (0, ""))
    suite = tree.fromstring(good_and_quick("junit", text=text)).find("testsuite")
    equal([it.get("name") for it in suite.findall("testcase")], ["as the base run", "no point of the campaign is reached"])
    some = report_of([(0, "h", True, "pass in 1 steps, 0 ticks", base), *rows])
    holds(good_and_quick("classes", "--failing", text=some), "3 rows, 2 of them not reached: 3 pass, 0 fail in 0 classes; ")
    for words, more in (([], 1), (["--allow-empty"], 0)):
        suite = tree.fromstring(good_and_quick("junit", "--rows", *words, text=text)).find("testsuite")
        equal((suite.get("tests"), suite.get("failures"), len(suite.findall(".//failure"))), (f"{2 + more}", f"{more}", more))
        equal([it.get("name") for it in suite.findall("testcase")], ["row 0 at 7 h", "row 1 at 8 h", "no point of the campaign is reached"][: 2 + more])
    equal(quick("classes", "--accept", "known", text=report_of([*rows, (0, "h", True, *rows[0][3:])]))[::2], (0, ""))


@case
def a_report_without_the_rows_that_fail_fails_a_build():
    """It was made with --only, so it says how many there are and not which. One of the rows that fail is judged."""
    write_known([])
    text = read(f"{ROOT}/examples/lost_wake_up.report").decode()
    for words in (["--only", "pass"], ["--only", "pass", "--heads"], ["--only", "stuck,pass"], ["--only", "stuck"]):
        view = views.view(text, words)
        for command in (["classes"], ["classes", "--failing"], ["junit"], ["classes", "--allow-empty"]):
            told = "rtosim-report: rows that fail are left out of the report: 2 rows, by --only\n"
            equal((words, command, quick(*command, "--accept", "known", text=view)[::2]), (words, command, (1, told)))
        holds(good_and_quick("classes", text=view), "  rows that fail are left out of the report: 2 rows, by --only\n")
        suite = tree.fromstring(good_and_quick("junit", text=view)).find("testsuite")
        equal([it.get("name") for it in suite.findall("testcase") if it.find("failure") is not None], ["rows that fail are left out of the report"])
    write_known(good_and_quick("classes", "--failing", "--names", text=text).splitlines())
    for words in (["--only", "failing"], ["--only", "check"], ["--shard", "2/2"]):
        equal((words, quick("classes", "--accept", "known", text=views.view(text, words))[0]), (words, 0))


@case
def a_base_run_that_fails_without_points_fails_a_build():
    write_known([])
    name = "the base run: stuck: a after 0 send_front, c_3 after 255 suspend_all"
    for words in (["classes"], ["classes", "--failing"], ["junit"], ["classes", "--allow-empty"]):
        equal(quick(*words, "--accept", "known", text=RUN)[::2], (1, f"rtosim-report: not accepted: {name}\n"))
    equal(good_and_quick("classes", "--names", "--failing", text=RUN), f"{name}\n")
    write_known([name])
    for words in (["classes"], ["junit"]):
        equal(quick(*words, "--accept", "known", text=RUN)[::2], (0, ""))


@case
def sections_and_keys_that_the_program_ignores_are_named():
    companion = stand_in(os.getcwd())
    text = read(f"{ROOT}/examples/lost_wake_up.toml").decode()
    with open("driver.toml", "w") as it:
        it.write(text.replace("[campaign]", "[campain]").replace("length = 1", "length = 1\nroom = 3"))
    lines = text.splitlines()
    places = [lines.index("length = 1") + 2, lines.index("[campaign]") + 2]
    status, _, err = run("classes", "--application", "driver.toml", companion=companion)
    equal((status, err.decode().splitlines()), (0, [
        f'rtosim-report: driver.toml: line {places[0]}: queue "rx": "room" is ignored: it isn\'t a key of [[queue]]',
        f"rtosim-report: driver.toml: line {places[1]}: [campain] is ignored: there is no such section; did you mean [campaign]?"]))


@case
def a_full_folder_for_temporary_files_is_named():
    def full():
        return open("/dev/full", "r+b", buffering=0)

    words = [sys.executable, "-c", "import sys; from unittest import mock; from rtosim_report import command_line\n"
             "with mock.patch('tempfile.TemporaryFile', lambda: open('/dev/full', 'r+b', buffering=0)):\n"
             "    sys.exit(command_line.main(sys.argv[1:]))", "classes"]
    env = {**os.environ, "PYTHONPATH": f"{ROOT}/tools", "PYTHONDONTWRITEBYTECODE": "1", "TMPDIR": os.getcwd()}
    ran = subprocess.run(words, input=read(LOST), env=env, capture_output=True, timeout=PATIENCE)
    told = f"rtosim-report: no room in the folder for temporary files, {os.getcwd()}: No space left on device; TMPDIR names another\n"
    equal((ran.returncode, ran.stdout, ran.stderr.decode()), (5, b"", told))
    # what the program writes is never kept there
    companion = stand_in(os.getcwd())
    equal(run("classes", "--application", f"{OLD}.toml", companion=companion, env={**os.environ, "TMPDIR": "/none"})[::2], (0, b""))
    with mock.patch("tempfile.SpooledTemporaryFile", lambda _: full()), mock.patch("sys.stderr") as told_there:
        equal(command_line.main(["json", LOST]), 5)
    holds("".join(str(it) for it in told_there.write.call_args_list), f"{tempfile.gettempdir()}: No space left on device")


@case
def commands_name_what_is_there():
    for text, words, part in (
        (read(RACE), ["classes"], b"       --at 8 --handler device\n"),
        (None, ["classes", RACE], f"       rtosim-report show 8 {RACE}\n".encode()),
        (None, ["classes", RACE, "--base", RACE[:-6] + "out"], f"show 8 {RACE} --base {RACE[:-6]}out\n".encode()),
    ):
        out = run(*words, text=text)[1]
        assert part in out and b"FILE" not in out, out
    assert b"FILE" not in run("junit", text=read(RACE))[1]
    equal(run("show", "8", RACE)[0], 0)


def walks(name, is_passing):
    """Each task of a report goes as its script says, and where the run passes each has ended that isn't endless."""
    scripts = application.read_application(f"{name}.toml").tasks
    for file in (f"{name}.out", f"{name}.report"):
        for run_there in source_of(read(file).decode()).reader() if os.path.exists(file) else ():
            for script in scripts.values():
                calls = re.findall(rf"^\d+ \d+ call {script.name} (\d+) \S+ = (\S+)$", run_there.text.decode(), re.MULTILINE)
                told = [(int(op), None if answer == "none" else int(answer)) for op, answer in calls]
                walker = progress.walked(script, told)
                assert walker is not None, (file, run_there.head, script.name)
                if is_passing and run_there.head.verdict.passes and not script.is_endless:
                    assert walker.has_ended, (file, run_there.head, script.name)


# Runs of tests/runs that end amid a loop for ever that has no line, so that it isn't known where.
LOOPS_WITHOUT_LINES = ("an_empty_loop_for_ever_takes_all_steps", "a_loop_for_ever_runs_to_the_limit_of_steps",
                       "the_limit_of_ticks_where_only_the_endless_task_computes")


@case
def a_task_is_followed_through_its_script():
    examples = sorted(it[:-5] for it in os.listdir(f"{ROOT}/examples") if it.endswith(".toml"))
    for name in [f"{ROOT}/examples/{it}" for it in examples] + [OLD, NEW, WORSE, BRANCHES, f"{ROOT}/tests/of_several/changes"]:
        walks(name, True)
    stored = sorted(glob.glob(f"{ROOT}/tests/runs/branch/*.toml") + glob.glob(f"{ROOT}/tests/runs/endless/*.toml"))
    assert len(stored) > 40, len(stored)
    for name in stored:
        if os.path.basename(name)[:-5] not in LOOPS_WITHOUT_LINES:
            walks(name[:-5], True)
    for script, calls, wanted in (
        ("time|repeat 2|yield|end|time", [(0, 1), (2, 0)], 2), ("repeat 1000|repeat 1000|work 1|end|end|time", [], None),
        ("repeat forever|work 1|end", [], None), ("time|if not 3|yield|else|delay 1|end|time", [(0, 3)], 4),
        ("time|if above 3|yield|end|time", [(0, 3)], 4), ("time|if not below 4|yield|end|time", [(0, 9)], 2),
        ("repeat forever|repeat 2|break|end|time|break|end|yield", [], 4), ("time|yield", [(1, 0)], None),
        ("if none|else|yield|end|time", [], 4), ("if not none|else|yield|end|time", [], 2), ("if 1|end|if below 3|time|end|bits g", [], 5),
        ("repeat 2|if none|break|end|yield|end|time", [], 6), ("repeat 2|time|if above 4294967294|break|else|end|end|yield", [(1, 7)], 1),
    ):
        ops = [application.Op(it.split()) for it in script.split("|")]
        walker = progress.walked(application.Script("a", ops), calls)
        equal((script, walker and walker.at), (script, wanted))


@case
def who_serves_for_ever_is_named_where_it_waits_for_a_mutex():
    file = f"{ROOT}/examples/opposite_locks"
    names_of_it = names("--failing", "--base", f"{file}.out", "--application", f"{file}.toml", f"{file}.report")
    equal(names_of_it, ["stuck: menu in lock settings forever, saver in lock display forever [button]"])
    file = f"{ROOT}/tests/runs/endless/stuck_with_a_daemon_and_endless_tasks_alone"
    equal(names("--base", f"{file}.out", "--application", f"{file}.toml", f"{file}.report"), ["stuck [h]"])


@case
def an_application_that_cannot_be_read():
    with open("broken.toml", "w") as it:
        it.write("[[task]\n")
    status, out, err = run("classes", LOST, "--application", "broken.toml")
    equal((status, out, err.count(b"\n")), (3, b"", 1))
    holds(err.decode(), "rtosim-report: broken.toml is no application: ")
    equal(run("classes", LOST, "--application", "none.toml")[0], 3)
    with open("odd.toml", "w") as it:
        it.write("task = 1\n[handler]\n")
    equal(quick("classes", LOST, "--application", "odd.toml")[0], 0)
    for word in ("3", "auto"):
        equal(run("classes", LOST, "--workers", word)[0], 2)


@case
def memory_is_that_of_the_classes():
    """4,000 classes of runs of 400 lines each, read from a file: the runs aren't kept."""
    body = "".join(f"{step} {step} mark a 1\n" for step in range(400))
    with open("report", "w") as file:
        for at in range(4_000):
            file.write(f"row {at} at 0 h: stuck in 401 steps, 400 ticks\n0 0 isr h 0 send = 1\n{body}400 400 mark a {at}\n")
        file.write(total_of([]).replace("total 0", "total 4000").replace("stuck 0", "stuck 4000"))
    script = "import resource, sys\nfrom rtosim_report.command_line import main\nmain(sys.argv[1:])\n" \
             "print(resource.getrusage(resource.RUSAGE_SELF).ru_maxrss // 1024, file=sys.stderr)"
    env = {**os.environ, "PYTHONPATH": f"{ROOT}/tools", "PYTHONDONTWRITEBYTECODE": "1"}
    words = [sys.executable, "-c", script, "classes", "--by", "outcome", "report"]
    ran = subprocess.run(words, env=env, capture_output=True, timeout=PATIENCE, check=True)
    holds(ran.stdout.decode(), "4,000 rows in 4,000 classes")
    megabytes = int(ran.stderr)
    print(f"   ({os.path.getsize('report') // 1_000_000} MB of 4,000 classes are read in {megabytes} MB)")
    assert megabytes < 80, megabytes
