"""Cases of tests/report: rows of several injections. The reports in tests/of_several are what the program writes of the files there."""
import json
import os
import re
import xml.etree.ElementTree as tree

from cases import case, equal, holds
from reports import ROOT, SVG, good, good_and_quick, is_refused, overlaps, read, report_of, report_of_pairs, run, source_of, stand_in, total_of
from rtosim_report import base_run
from rtosim_report.injections import groups_of, own_stretches, position_of
from rtosim_report.pairs import pairs_of
from rtosim_report.pairs_picture import PairMap
from rtosim_report.report import Injection, Point

PRESSES, CHANGES = f"{ROOT}/tests/of_several/two_presses.report", f"{ROOT}/tests/of_several/changes.report"
# How many lines the handlers of the two files write.
LINES = {"key": 1, "h": 1, "k": 2, "none": 0}


def base_beside(report):
    with open(report[:-6] + "out", "rb") as it:
        return base_run.given_base(source_of(it.read().decode()).reader())


def runs_of(report):
    return list(source_of(read(report).decode()).reader())


def injections_that_come(head):
    return [it for it in head.point if head.is_reached and it.step < head.steps]


@case
def heads_of_several_are_read():
    end = "stuck in 9 steps, 4 ticks"
    for point in ("0 h 1 k", "3 h 3 h", "3 h 3 k 3 h", "0 h 8 k 1000000 h"):
        text = f"row 0 at {point}: {end}\n" + total_of([f"row 0 at {point}: {end}"])
        equal(next(iter(source_of(text).reader())).head.text(), f"row 0 at {point}: {end}")
        told = json.loads(good_and_quick("json", text=text))["point"]
        equal(" ".join(f"{it['step']} {it['handler']}" for it in told), point)
        holds(good_and_quick("classes", text=text), f'points = ["{point}"]')
    for point in ("3 h 2 k", "0 h 1 h 0 h", "0 h 1 k 2 h 3 k", "0 h 1", "0 h k", "0 h  1 k", "0 h,1 k", "0 h 01 k"):
        text = f"row 0 at {point}: {end}\n" + total_of([f"row 0 at {point}: {end}"])
        is_refused(text, "line 1: expected `row 0 at STEP HANDLER: VERDICT in N steps, E ticks`, found `row 0 at ")


@case
def each_injection_has_its_own_lines():
    for report in (PRESSES, CHANGES):
        base = base_beside(report)
        for run in runs_of(report):
            lines = run.lines()
            tail = lines[position_of(lines, run.head.point.first_step) :]
            found = sum(count for _, count in own_stretches(tail, run.head.point, base)) if run.head.is_reached else 0
            equal((run.head.row, found), (run.head.row, sum(LINES[it.handler] for it in injections_that_come(run.head))))


@case
def rows_of_several_are_classed():
    table = good_and_quick("classes", PRESSES, "--base", PRESSES[:-6] + "out").splitlines()
    equal(table[0], "8 rows in 8 classes; the base run: pass in 24 steps, 8 ticks")
    equal([it.strip() for it in table[4:7]], ["check main 2 [key]", "main: send = 0, where the base run has 1", 'points = ["0 key 1 key"]'])
    holds(table[3], "check main 2  0 key 1 key ")
    rows = {it.head.row: it.head.point.text() for it in runs_of(CHANGES)}
    equal((rows[3], rows[4]), ("12 none", "12 none 12 none"))
    last = good_and_quick("classes", "--by", "outcome", CHANGES, "--base", CHANGES[:-6] + "out").splitlines()[-3:]
    holds(last[0], " 2  20.0%  pass     12 none ")
    equal(last[1].strip(), "as the base run, but for the handler's own lines")


@case
def the_base_run_is_presumed_of_rows_of_several():
    base = base_beside(CHANGES)
    shifted = [it for it in runs_of(CHANGES) if it.head.row in (3, 4)]
    body = shifted[0].text.decode()
    rows = [("2 h 5 none", "2 0 isr h 0 send = 1\n"), ("2 h 3 none", "2 0 isr h 0 send = 1\n"), ("4 k 4 k", "4 0 mark k 5\n4 0 mark k 6\n")]
    texts = []
    for at, (point, own) in enumerate(rows):
        lines = body.splitlines(True)
        place = sum(int(it.split()[0]) < int(point.split()[0]) for it in lines)
        end = base.head.end_text()
        texts.append(f"row {at} at {point}: {end}\n" + "".join(lines[:place]) + own + "".join(lines[place:]))
    text = "".join(texts) + total_of([it.partition("\n")[0] for it in texts])
    found = base_run.find_base(source_of(text))
    equal((found.origin, found.lines, found.head), (base_run.Origin.PRESUMED, base.lines, base.head))
    holds(good_and_quick("classes", "--by", "outcome", text=text), "3 rows in 1 class;")


@case
def a_row_of_several_beside_the_base_run():
    for report in (PRESSES, CHANGES):
        for run in runs_of(report):
            shown = good_and_quick("show", str(run.head.row), report, "--base", report[:-6] + "out").splitlines()
            own = sum(it.startswith("+") for it in shown)
            equal(own, sum(LINES[it.handler] for it in injections_that_come(run.head)))
            width = shown[0].index(f"row {run.head.row} at")
            equal("".join(it[width:] + "\n" for it in shown[1:-1] if it[width:]), run.text.decode())


@case
def pictures_of_several_mark_each_injection():
    for report in (PRESSES, CHANGES):
        for run in runs_of(report):
            words = ["--row", str(run.head.row), report, "--base", report[:-6] + "out"]
            come = injections_that_come(run.head)
            picture = good_and_quick("svg", *words)
            equal(picture.count('<line class="injection"'), len(groups_of(come)))
            equal(overlaps(tree.fromstring(picture).iter(f"{SVG}text")), [])
            for step, injections in groups_of(come):
                holds(picture, f"{', '.join(it.handler for it in injections)} before step {step}")
            trace = json.loads(good_and_quick("perfetto", *words))["traceEvents"]
            told = [(it["args"]["step"], it["name"]) for it in trace if it.get("cat") == "injection"]
            equal(told, [(it.step, f"{it.handler} injected") for it in come])
            dump = good_and_quick("vcd", *words)
            code = re.search(r"\$var wire 1 (\S+) injected \$end", dump)
            steps = {it.step for it in come}
            begun = len([it for it in steps if it - 1 not in steps])
            assert begun <= (dump.count(f"\n1{code[1]}\n") if code else 0) <= len(steps), run.head


@case
def the_map_has_a_row_of_several_at_its_first_injection():
    picture = good_and_quick("svg", "--campaign", PRESSES, "--base", PRESSES[:-6] + "out")
    holds(picture, "6 rows of several injections, each at its first")
    titles = [it.text for it in tree.fromstring(picture).iter(f"{SVG}title")]
    equal(sum(it.startswith("key before step ") and "later" not in it for it in titles), 6)
    equal(sum(it.startswith("key before step ") and ", key " in it for it in titles), 4)
    assert "several" not in good("svg", "--campaign", f"{ROOT}/tests/of_stuck/lost_wake_up.report")


@case
def a_program_that_runs_points_of_several_is_asked_by_them():
    file = PRESSES[:-7]
    companion = stand_in(os.getcwd(), report=PRESSES)
    with open("bin/rtosim") as it:
        text = it.read()
    with open("bin/rtosim", "w") as it:
        it.write(text.replace(f"{ROOT}/examples/lost_wake_up.out", f"{file}.out"))
    words = ["classes", "--failing", "--application", f"{file}.toml"]
    holds(good(*words, companion=companion), 'points = ["0 key 1 key"]')
    with open("bin/rtosim.takes_points", "w"):
        pass
    holds(good(*words, companion=companion), f"rtosim run {file}.toml --point '0 key 1 key'\n")
    page = good("html", "--application", f"{file}.toml", companion=companion)
    holds(page, '"takesPoints":true')
    # of a row that is stuck the state is asked for by its point
    locks = f"{ROOT}/examples/opposite_locks"
    companion = stand_in(os.getcwd(), "opposite_locks", report=f"{os.getcwd()}/report")
    rows = read(f"{locks}.report").decode().replace(" button: ", " button 999 button: ")
    with open("report", "w") as it:
        it.write(rows)
    with open("bin/rtosim.at.11_button_999_button", "w") as it:
        it.write(read("bin/rtosim.at.11.button").decode().replace(" button: ", " button 999 button: "))
    holds(good("classes", "--failing", "--application", f"{locks}.toml", companion=companion), "deadlock: menu waits for saver, which waits for menu")


@case
def points_of_pairs_are_written():
    companion = stand_in(os.getcwd())
    file = f"{ROOT}/examples/lost_wake_up.toml"
    with open(file, encoding="utf-8") as it, open("driver.toml", "w", encoding="utf-8") as without:
        without.write(it.read().replace('[campaign]\npoints = ["all uart"]\n', ""))
    status, text, err = run("pairs", file, "--handler", "uart", "--within", "2", "--from", "3", "--to", "4", companion=companion)
    equal((status, err.decode()), (0, f"rtosim-report: {file} has a [campaign], and a file has one: what is written takes its place\n"))
    text = text.decode()
    for words in (["driver.toml"], ["--application", "driver.toml"]):
        equal(good("pairs", *words, "--handler", "uart", "--within", "2", "--from", "3", "--to", "4", companion=companion), text)
    for words in (["driver.toml", "--application", "driver.toml"], []):
        equal(run("pairs", *words, "--handler", "uart", companion=companion)[:2], (2, b""))
    equal(text, '[campaign]\npoints = [\n  "3 uart 3 uart", "3 uart 4 uart", "3 uart 5 uart",\n  "4 uart 4 uart", "4 uart 5 uart", "4 uart 6 uart",\n]\n')
    whole = good("pairs", "driver.toml", "--handler", "uart", "--to", "19", companion=companion)
    equal((whole.count('",'), whole.splitlines()[-2].split('",')[0]), (20 * 11, '  "19 uart 19 uart'))
    equal(list(map(Point.text, pairs_of(["a", "b"], range(7, 8), 1))), ["7 a 7 b", "7 b 7 a", "7 a 8 b", "7 b 8 a"])
    equal(list(map(Point.text, pairs_of(["a"], range(999_999, 1_000_001), 2)))[1:], ["999999 a 1000000 a", "1000000 a 1000000 a"])
    for words, part in ((["--handler", "usart"], "no handler is called usart; the handlers are uart"),
                        (["--handler", "uart", "--within", "999999"], "a campaign has at most 1,000,000 points"),
                        (["--handler", "uart", "--from", "20"], "no first step is left: --from is 20, and the base run has 20 steps"),
                        (["--handler", "uart", "--from", "9", "--to", "8"], "no first step is left: --from is 9, and --to is 8")):
        status, out, err = run("pairs", "driver.toml", *words, companion=companion)
        equal((status, out), (2, b""))
        holds(err.decode(), part)


@case
def pairs_have_a_map_of_two_axes():
    picture = good_and_quick("svg", "--campaign", text=report_of_pairs())
    holds(picture, "h before a step, and then k so many steps later</text>")
    equal(len(re.findall(r"<title>h before step [0-9]+, k 2 later: class 1 \(check a 1\): 1 row</title>", picture)), 8)
    equal(len(re.findall(r"<title>h before step [0-9]+, k [013] later: class 2 \(pass\): 1 row</title>", picture)), 24)
    wide = PairMap()
    for first in range(0, 3000, 3):
        wide.see((Injection(first, "h"), Injection(first + first // 30, "k")), It())
    equal((wide.width, wide.height), (8, 4))
    equal(sum(rows for cell in wide.panels["h", "k"].values() for _, rows in cell.values()), 1000)


class It:
    """A class, as far as a map needs one."""

    number = 1
