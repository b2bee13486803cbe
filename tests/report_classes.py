"""Cases of tests/report: classes, the base run, a row beside it, and what a build server reads."""
import os
import re
import xml.etree.ElementTree as tree

from cases import case, equal, holds
from reports import LOST, RACE, ROOT, Dice, good, good_and_quick, is_refused, read, report_of, source_of
from rtosim_report import base_run, classes, table
from rtosim_report.source import Source

FAILED = re.compile(r"isr \S+ \d+ ((send|send_front|give|resume|set|clear) = 0|(receive|peek) = none)\n")


def without_numbers(lines, is_exact):
    return tuple(it.split(" ", 1 if is_exact else 2)[-1] for it in lines)


def failed_beyond(lines, base):
    """Which calls of handlers fail more often than in the base run."""
    told, known = ([it.split(" ", 2)[2] for it in there] for there in (lines, base))
    return tuple(dict.fromkeys(it for it in told if FAILED.fullmatch(it) and told.count(it) > known.count(it)))


def slow_outcome(row, base, base_end, is_exact):
    """What two rows must have in common to be of one class; None where a row is as the base run except for lines of its handler, which
    are all of one tick, and of which none is of a call that failed."""
    step, handler, is_reached, end, lines = row
    failed = failed_beyond(lines, base)
    verdict = (end.split(" in ")[0],) + ((end.rpartition(", ")[2],) if is_exact else ())
    base_verdict = (base_end.split(" in ")[0],) + ((base_end.rpartition(", ")[2],) if is_exact else ())
    tail = [it for it in lines if int(it.split()[0]) >= step]
    base_tail = [it for it in base if int(it.split()[0]) >= step]
    if not is_reached:
        return None
    for own in range(len(tail) + 1):
        if verdict == base_verdict and without_numbers(tail[own:], is_exact) == without_numbers(base_tail, is_exact):
            return failed or None
        words = tail[own].split() if own < len(tail) else ["", "", "", ""]
        if words[0] != str(step) or words[2] not in ("isr", "mark") or words[3] != handler or words[1] != tail[0].split()[1]:
            break
    return verdict, without_numbers(tail, is_exact)


def groups_of(keys):
    groups = {}
    for at, key in enumerate(keys):
        groups.setdefault(key, []).append(at)
    return sorted(groups.values())


@case
def classes_are_those_of_the_slow_definition():
    several = 0
    for seed in range(600):
        base_text, rows = Dice(seed).campaign()
        base_head, *base_lines = base_text.splitlines(True)
        base = base_run.given_base(source_of(base_text).reader())
        for by in (classes.By.OUTCOME, classes.By.EXACT):
            classifier, found = classes.Classifier(base, by), []
            for it in source_of(report_of(rows)).reader():
                found.append(id(classifier.add(it)))
            is_exact = by is classes.By.EXACT
            wanted = [slow_outcome(it, base_lines, base_head[6:].strip(), is_exact) for it in rows]
            assert groups_of(found) == groups_of(wanted), (seed, by, report_of(rows))
            last = classifier.in_order()[-1]
            equal(last.is_base, None in wanted)
            several += len(classifier.classes) > 2
    assert several > 200, several


@case
def the_lost_wake_up_is_found():
    table = good_and_quick("classes", LOST, "--base", LOST[:-6] + "out").splitlines()
    equal(table[0], "20 rows in 2 classes; the base run: stuck in 20 steps, 18 ticks")
    equal(table[3].split()[:4], ["1", "2", "10.0%", "stuck"])
    equal(table[4].strip(), "stuck: driver after 1 suspend; uart 1 resume = 0 [uart]")
    equal(table[5].strip(), "driver: waiting = 1, where the base run has 0")
    equal(table[6].strip(), f"rtosim-report show 0 {LOST} --base {LOST[:-6]}out")
    equal(table[8].strip(), "driver runs, where idle runs in the base run; then driver: receive = 42")
    by_outcome = good_and_quick("classes", LOST, "--by", "outcome").splitlines()
    equal([it.split()[1] for it in by_outcome[3::3]], ["1", "1", "18"])
    equal(by_outcome[7].strip(), "as the base run, but for the handler's own lines; uart 1 resume = 0")
    equal([it.split()[1] for it in good_and_quick("classes", "--by", "verdict", LOST).splitlines()[3::2]], ["2", "18"])


@case
def the_base_run_is_found_or_presumed():
    for name in ("tests/of_stuck/lost_wake_up", "examples/timeout_race", "examples/inversion_by_an_interrupt"):
        file = f"{ROOT}/{name}"
        base = base_run.find_base(Source(open(f"{file}.report", "rb")))
        given = base_run.given_base(Source(open(f"{file}.out", "rb")).reader())
        equal((base.origin, base.lines, base.head), (base_run.Origin.PRESUMED, given.lines, given.head))
    text = read(RACE).decode().replace("row 11 at 11 device: pass", "row 11 at 12 device: not reached, pass")
    text = text.replace("11 4 isr device 0 send = 1\n", "").replace("not reached 0", "not reached 1")
    equal(base_run.find_base(source_of(text)).origin, base_run.Origin.TOLD)
    holds(good_and_quick("classes", text=text), "not reached: the base run itself")
    holds(good_and_quick("classes", text="".join(read(RACE).decode().splitlines(True)[:5])), "known before step 0 alone")
    head = "row 9 at 9 device: check client 3 in 12 steps, 4 ticks\n"
    other = text.replace(f"{head}4 0 run", f"{head}4 1 run")
    is_refused(other, "a row that begins as the base run does, up to step 9")


@case
def a_class_that_fails_as_the_base_run_does_says_so():
    row = (3, "h", True, "check a 2 in 9 steps, 4 ticks", ["3 1 isr h 0 send = 1\n"])
    for end, is_named in (
        ("check a 2 in 7 steps, 1 ticks", True), ("check a 3 in 9 steps, 4 ticks", False), ("stuck in 9 steps, 4 ticks", False),
        ("pass in 4 steps, 1 ticks", False),
    ):
        with open("base", "w") as it:
            it.write(f"base: {end}\n" + "3 1 run -\n")
        for words in (["classes"], ["classes", "--failing"]):
            equal((end, table.BASE_FAILS in good_and_quick(*words, "--base", "base", text=report_of([row]))), (end, is_named))
    stuck = (3, "h", True, "stuck in 9 steps, 4 ticks", ["3 1 isr h 0 send = 1\n"])
    with open("base", "w") as it:
        it.write("base: stuck in 9 steps, 4 ticks\n3 1 run -\n")
    assert table.BASE_FAILS not in good_and_quick("classes", "--base", "base", text=report_of([stuck]))


@case
def a_row_beside_the_base_run():
    lines = good_and_quick("show", "7", RACE).splitlines()
    equal([it[0] for it in lines], list("  " + " " + "+|  ~"))
    equal(lines[4].split("  "), ["| 7 2 call client 0 receive = none", "7 2 call client 0 receive = 7"])
    assert "\x1b" not in "".join(lines)
    for row in range(20):
        out = good_and_quick("show", str(row), LOST).splitlines()[1:-1]
        width = max(len(it) for it in [*read(LOST[:-6] + "out").decode().splitlines()]) + 4
        shown = "".join(it[width:] + "\n" for it in out if it[width:])
        text = read(LOST).decode()
        body = re.search(rf"^row {row} at .*\n((?:\d.*\n)*)", text, re.MULTILINE).group(1)
        equal(shown, body)
    holds(good_and_quick("show", "19", LOST, "--context", "1"), ".. 2 alike ..")


@case
def junit_has_what_its_schema_requires():
    for words, cases, failures in ((["junit", RACE], 3, 1), (["junit", "--rows", RACE], 12, 3)):
        root = tree.fromstring(good(*words, env={**os.environ, "SOURCE_DATE_EPOCH": "0"}))
        suite = root.find("testsuite")
        for name in ("name", "tests", "failures", "errors", "time", "timestamp", "hostname", "id", "package"):
            assert suite.get(name) is not None, name
        equal((suite.get("tests"), suite.get("failures")), (str(cases), str(failures)))
        equal(suite.get("timestamp"), "1970-01-01T00:00:00")
        equal([it.tag for it in suite][::len(suite) - 1], ["properties", "system-err"])
        found = suite.findall("testcase")
        equal((len(found), sum(it.find("failure") is not None for it in found)), (cases, failures))
        assert all(it.get("name") and it.get("classname") and it.get("time") for it in found)
        texts = [it.find("failure").text for it in found if it.find("failure") is not None]
        holds(texts[0], "row 8 at 8 device: check client 3 in 12 steps, 4 ticks\n")
        holds(texts[0], f"\nrtosim-report show 8 {RACE}")
        assert all(it.find("failure").get("type") == "check" for it in found if it.find("failure") is not None)
