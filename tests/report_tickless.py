"""Cases of tests/report: runs of tickless applications, in which a step of idle passes many ticks. The report in tests/of_tickless is what
the program writes of the file there."""
import json
import os
import re
import subprocess
import xml.etree.ElementTree as tree

from applications import Applications
from cases import case, equal, holds
from reports import PROGRAM, ROOT, SVG, good_and_quick, is_refused, overlaps, read, source_of
from rtosim_report import application, base_run, timeline
from rtosim_report.lanes import LaneKind

YEARS = f"{ROOT}/tests/of_tickless/years"
DAY = f"{ROOT}/examples/a_day_of_a_sensor"
GIVEN = [f"{YEARS}.report", "--base", f"{YEARS}.out", "--application", f"{YEARS}.toml"]
WITHOUT_TEXTS = GIVEN[:3]
START, MOST = 4294967000, 281474976710656
# The elapsed ticks of its base run at each boundary, as runs that are limited to this many steps have them.
TICKS = [
    0, 0, 1, 2, 3, 3, 3, 3, 3, 3, 100, 250, 403, 403, 403, 403, 700, 999999, 1000000, 1000000, 1000001, 1000002, 1000002, 1000002,
    1000002, 1000002, 1000002, 1000002, 4294967698, 4294967699, 4294967700, 4294967700, 4294967700, 4295967296, 4295967296, 4295967296,
    8589934995, 8589934996, 8589934997, 8589934997, 8589934997, 12884902292, 12884902293, 12884902294, 12884902294, 12884902294,
    17179869589, 17179869590, 17179869591, 17179869591, 17179869591, 21474836886, 21474836887, 21474836888, 21474836888, 21474836888,
]


def base_of(name):
    return base_run.given_base(source_of(read(f"{name}.out").decode()).reader())


def found_of(name, has_texts=True):
    texts = application.read_application(f"{name}.toml") if has_texts else None
    return timeline.of_base(base_of(name), texts)


def of_text(text, texts=None):
    return timeline.of_base(base_run.given_base(source_of(text).reader()), texts)


def boundaries_of_idle(found):
    return {at for it in found.bars if it.lane.kind is LaneKind.IDLE for at in range(it.start, it.end + 1)}


@case
def ticks_are_where_the_run_has_them():
    """Also where a jump has no line, since the handler of its interrupt has no ops."""
    found = found_of(YEARS)
    idle = boundaries_of_idle(found)
    assert {10, 11, 16} <= idle, idle
    for at, ticks in enumerate(TICKS):
        # where a task runs, its ticks are spread evenly between two lines
        assert found.clock.at(at) == ticks if at in idle else abs(found.clock.at(at) - ticks) < 3, (at, found.clock.at(at), ticks)
    equal(found.clock.start, START)


@case
def without_the_application_ticks_are_as_lines_print_them():
    found = found_of(YEARS, has_texts=False)
    equal(found.clock.start, START)
    for step, tick, _ in base_of(YEARS).lines:
        equal((int(step), (START + found.clock.at(int(step) + 1)) % (1 << 32)), (int(step), int(tick)))
    equal(found.clock.at(found.steps), TICKS[-1])


@case
def runs_that_end_amid_jumps():
    texts = application.read_application(f"{YEARS}.toml")
    text = "".join(read(f"{YEARS}.out").decode().splitlines(True)[1:4])
    for steps, ticks, known in ((11, 250, TICKS[:12]), (10, 100, TICKS[:11]), (11, 200, [*TICKS[:11], 200])):
        found = of_text(f"base: ticks in {steps} steps, {ticks} ticks\n{text}", texts)
        equal([found.clock.at(it) for it in range(9, steps + 1)], known[9:])
    # the interrupts of the file are not those of the run: between its lines ticks are spread evenly
    found = of_text(f"base: ticks in 11 steps, 90 ticks\n{text}", texts)
    equal([found.clock.at(it) for it in (9, 10, 11)], [3, 46, 90])


@case
def the_tick_at_reset_is_not_counted_back_across_a_jump_without_a_line():
    run = "2 3 run -\n"
    for lines, start in ((run, 0), (run + "3 3 isr h 0 give = 1\n", 0), (run.replace("3", "77"), 77)):
        equal(of_text("base: ticks in 4 steps, 5000 ticks\n" + lines).clock.start, start)
    injected = f"row 0 at 3 h: ticks in 4 steps, 5000 ticks\n{run}3 3 isr h 0 give = 1\n"
    row = next(iter(source_of(injected).reader()))
    equal(timeline.of_row(row, None).clock.start, 0)
    # a last line that follows its step says it
    equal(of_text("base: ticks in 4 steps, 5000 ticks\n2 4294967295 run -\n3 4996 run a\n").clock.start, 4294967292)


@case
def rows_and_pictures():
    rows = read(f"{YEARS}.report").decode().count("\nrow ") + 1
    for row in range(0, rows, 5):
        for given in (GIVEN, WITHOUT_TEXTS):
            picture = good_and_quick("svg", "--row", str(row), *given)
            equal(overlaps(tree.fromstring(picture).iter(f"{SVG}text")), [])
    picture = good_and_quick("svg", f"{YEARS}.out", "--application", f"{YEARS}.toml")
    told = [it.text for it in tree.fromstring(picture).iter(f"{SVG}text")]
    for it in ("elapsed", "1,000,000", "17,179,869,591", "4,294,967,000", "111"):
        assert it in told, told
    holds(picture, "idle runs: steps 15 to 17, ticks 403 to 1000000")
    day = good_and_quick("svg", f"{DAY}.out", "--application", f"{DAY}.toml")
    assert "elapsed" not in day and "21,750,002" in day


@case
def numbers_up_to_the_greatest_limit():
    text = f"base: ticks in 5 steps, {MOST} ticks\n1 0 run -\n2 4294967295 run a\n2 4294967295 mark a 1\n"
    for words in (["json"], ["classes"], ["svg"], ["perfetto"], ["vcd"], ["junit"]):
        good_and_quick(*words, text=text)
    equal(json.loads(good_and_quick("json", text=text))["ticks"], MOST)
    picture = good_and_quick("svg", text=text)
    told = tree.fromstring(picture).iter(f"{SVG}text")
    equal(overlaps(told), [])
    assert f"{MOST:,}" in picture
    is_refused(text.replace(str(MOST), f"{MOST}0"), "line 1: expected ")
    rows = text.replace("base:", "row 0 at 2 h:") + "total 1: pass 0, check 0, misuse 0, ticks 1, steps 0, stuck 0, not reached 0\n"
    holds(good_and_quick("classes", text=rows), f"{MOST:,}")


@case
def a_trace_of_more_milliseconds_than_there_are():
    for ticks, unit in ((TICKS[-1], "1 ms"), (MOST, "1 us")):
        text = f"base: ticks in 4 steps, {ticks} ticks\n1 0 run -\n2 4294967295 run a\n"
        trace = json.loads(good_and_quick("perfetto", text=text))
        equal(trace["otherData"]["tick"], unit)
        ends = [it["ts"] + it.get("dur", 0) for it in trace["traceEvents"]]
        assert max(ends) * 1000 < 1 << 63 and max(ends) >= ticks, (ticks, max(ends))
    dump = good_and_quick("vcd", text=text)
    times = [int(it) for it in re.findall(r"(?m)^#([0-9]+)$", dump)]
    assert times == sorted(set(times)) and times[-1] > MOST, times


def run_of(text, *words):
    """What the program writes of a run of this application."""
    with open("some.toml", "w") as it:
        it.write(text)
    return subprocess.run([PROGRAM, "run", "some.toml", *words], stdout=subprocess.PIPE, check=False).stdout.decode()


def elapsed_at(text, steps, *words):
    """The elapsed ticks of the run when it is limited to this many steps."""
    head = run_of(text.replace("[limits]\n", f"[limits]\nsteps = {steps}\n").replace("steps = 300\n", ""), *words)
    return int(re.search(r" steps, ([0-9]+) ticks", head)[1])


@case
def clocks_are_those_of_the_program():
    """Of idle at each boundary, also of rows and of random applications; of a task up to a few ticks between two lines."""
    if not os.access(PROGRAM, os.X_OK):
        print("   (skipped: there is no built program)")
        return
    texts = [read(f"{YEARS}.toml").decode(), *[Applications(seed).text() for seed in range(2, 80) if seed % 4 > 1]]
    count = 0
    for seed, text in enumerate(texts):
        limited = text.replace("steps = 300", "steps = 60")
        base = base_run.given_base(source_of(run_of(limited)).reader())
        application_of = application.read_application("some.toml")
        words = ["--at", str(seed * 7 % (base.head.steps + 1)), "--handler", next(iter(application_of.handlers))]
        row = next(iter(source_of(run_of(limited, *words)).reader()))
        for found, point in ((timeline.of_base(base, application_of), []), (timeline.of_row(row, base, application_of), words)):
            idle = boundaries_of_idle(found)
            count += len(idle)
            for at in range(1, found.steps):
                ticks, wanted = found.clock.at(at), elapsed_at(text, at, *point)
                assert ticks == wanted if at in idle else abs(ticks - wanted) < 3, (text, point, at, ticks, wanted)
    assert count > 100, count
