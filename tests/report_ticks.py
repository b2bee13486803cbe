"""Cases of tests/report: ticks that are injected, in reports of small applications."""
import json
import os
import re
import shutil
import xml.etree.ElementTree as tree

from cases import case, equal, holds
from reports import COMPANION, ROOT, SVG, good, good_and_quick, overlaps, run, source_of, total_of
from running import write
from rtosim_report import application, base_run, injections, timeline
from rtosim_report.explored import ends_of
from rtosim_report.lanes import Doing
from rtosim_report.report import Injection, Point

HANDLER = '[[handler]]\nname = "h"\nops = ["mark 9"]\n'


def task(name, priority, *ops):
    script = ", ".join(f'"{it}"' for it in ops)
    return f'[[task]]\nname = "{name}"\npriority = {priority}\nscript = [{script}]\n'


# a tick lets the second of two tasks of one priority run
SLICES = task("a", 1, "mark 1", "mark 2") + task("b", 1, "mark 3")
SLICES_BASE = "base: pass in 3 steps, 0 ticks\n0 0 mark a 1\n1 0 mark a 2\n1 0 run b\n2 0 mark b 3\n2 0 run -\n"
SLICES_ROWS = """row 0 at 0 tick: pass in 3 steps, 1 ticks
0 1 run b
0 1 mark b 3
0 1 run a
1 1 mark a 1
2 1 mark a 2
2 1 run -
row 1 at 1 tick: pass in 3 steps, 1 ticks
0 0 mark a 1
1 1 run b
1 1 mark b 3
1 1 run a
2 1 mark a 2
2 1 run -
row 2 at 2 tick: pass in 3 steps, 1 ticks
0 0 mark a 1
1 0 mark a 2
1 0 run b
2 1 mark b 3
2 1 run -
total 3: pass 3, check 0, misuse 0, ticks 0, steps 0, stuck 0, not reached 0
"""
# a task of higher priority wakes between a load and a store
UPDATE = '[[variable]]\nname = "x"\n' + task("b", 2, "delay 1", "store x 5") + task("a", 1, "load x", "add 1", "store x answer")
UPDATE_ROW = """row 0 at 2 tick: pass in 5 steps, 1 ticks
0 0 call b 0 delay = 0
0 0 run a
1 0 call a 0 load = 0
2 1 run b
2 1 call b 1 store = 5
2 1 run a
3 1 call a 1 add = 1
4 1 call a 2 store = 1
4 1 run -
"""
SECTION = HANDLER + task("a", 1, "enter_critical", "mark 1", "exit_critical", "mark 2") + task("b", 2, "delay 1", "mark 3")
SECTION_ROW = """row 0 at 2 tick 2 tick 3 h: pass in 6 steps, 1 ticks
0 0 call b 0 delay = 0
0 0 run a
2 0 mark a 1
4 0 mark h 9
4 1 run b
4 1 mark b 3
4 1 run a
5 1 mark a 2
5 1 run -
"""
# a base interrupt that a tick brings in the hold of a call
HELD = '[[queue]]\nname = "q"\nlength = 1\n' + HANDLER + task("a", 1, "receive q 1", "mark 1") + task("u", 1, "mark 2") + \
    '[[interrupt]]\ntick = 1\nhandler = "h"\n'
HELD_ROW = """row 0 at 2 tick: pass in 8 steps, 1 ticks
2 0 mark h 9
4 1 run u
5 1 mark u 2
5 1 run a
6 1 call a 0 receive = none
7 1 mark a 1
7 1 run -
"""
ORDER = '[[binary]]\nname = "s"\n[[group]]\nname = "g"\n' + HANDLER.replace("mark 9", "give s") + task("y", 2, "delay 1", "mark 1") + \
    task("x", 2, "take s forever") + task("a", 1, "set g 1")
ORDER_ROW = """row 0 at 7 tick 7 h: pass in 10 steps, 1 ticks
0 0 call y 0 delay = 0
0 0 run x
5 0 run a
7 0 isr h 0 give = 1
7 1 call a 0 set = 1
7 1 run x
8 1 call x 0 take = 1
8 1 run y
9 1 mark y 1
9 1 run -
"""
SUSPENDED = task("a", 1, "suspend_all", "time", "resume_all", "time")
SUSPENDED_ROW = """row 0 at 1 tick: pass in 4 steps, 1 ticks
0 0 call a 0 suspend_all = 0
1 0 call a 1 time = 0
2 1 call a 2 resume_all = 0
3 1 call a 3 time = 1
3 1 run -
"""
TWO = task("b", 2, "notify_take clear 2", "mark 1") + task("c", 2, "notify_wait 0 0 1", "mark 2")
TWO_ROW = """row 0 at 3 tick 3 tick: pass in 8 steps, 2 ticks
1 0 run c
4 2 call c 0 notify_wait = none
5 2 mark c 2
5 2 run b
6 2 call b 0 notify_take = 0
7 2 mark b 1
7 2 run -
"""
LIMIT = "[limits]\nticks = 1\n" + HANDLER + task("a", 1, "mark 1", "mark 2") + '[[interrupt]]\ntick = 3\nhandler = "h"\n'
LIMIT_ROW = "row 0 at 0 tick 0 tick 0 tick: ticks in 1 steps, 3 ticks\n0 3 mark h 9\n0 3 mark a 1\n"
JUMP = "tickless = true\n" + task("a", 1, "delay 4", "mark 1")
JUMP_ROW = "row 0 at 1 tick: pass in 3 steps, 4 ticks\n0 0 call a 0 delay = 0\n0 0 run -\n1 4 run a\n2 4 mark a 1\n2 4 run -\n"
NAMED = '[[handler]]\nname = "tick"\nops = ["mark 5"]\n' + task("a", 1, "mark 1")
NAMED_ROW = "row 0 at 0 tick: pass in 1 steps, 0 ticks\n0 0 mark tick 5\n0 0 mark a 1\n0 0 run -\n"
CHECKED = task("a", 1, "time", "expect 0")
CHECKED_BASE = "base: pass in 2 steps, 0 ticks\n0 0 call a 0 time = 0\n1 0 run -\n"
CHECKED_ROW = "row 0 at 0 tick: check a 1 in 2 steps, 1 ticks\n0 1 call a 0 time = 1\n"
FOUND = "pass: 2 placements, least is none in 2 steps, 0 ticks\ncheck a 1: 1 placement, least is 0 tick in 2 steps, 1 ticks\ntotal 3\n"
ALL = ((UPDATE, UPDATE_ROW), (SECTION, SECTION_ROW), (HELD, HELD_ROW), (ORDER, ORDER_ROW), (SUSPENDED, SUSPENDED_ROW), (TWO, TWO_ROW),
       (LIMIT, LIMIT_ROW), (JUMP, JUMP_ROW), (NAMED, NAMED_ROW), (CHECKED, CHECKED_ROW))


def known(text):
    write("ticks.toml", text)
    return application.read_application("ticks.toml")


def drawn(text, report, row=0, knows=True):
    """The timeline of a row."""
    runs = [it for it in source_of(report).reader() if it.head.row is not None]
    return timeline.of_row(runs[row], None, known(text) if knows else None)


def turns_of(built):
    return sorted((it.start, it.end, it.lane.name) for it in built.bars if it.doing is Doing.RUNS)


@case
def heads_with_ticks_are_read():
    for _, row in ALL:
        text = row + total_of([row.split("\n", 1)[0]])
        point = re.search("at (.*?):", row)[1].split()
        heads = json.loads(good_and_quick("json", text=text).splitlines()[0])["point"]
        steps = [heads] if isinstance(heads, dict) else heads
        equal([(str(it["step"]), it["handler"]) for it in steps], list(zip(point[::2], point[1::2])))
        holds(good_and_quick("classes", text=text), " ".join(point))


@case
def an_injected_tick_is_no_handler():
    for text, row in ALL:
        for knows in (True, False):
            built = drawn(text, row, knows=knows)
            has_lane = any(it.name == "tick" for it in built.lanes)
            is_pending = any(it.doing is Doing.PENDING and it.lane.name == "tick" for it in built.bars)
            equal((row, has_lane), (row, is_pending or text == NAMED))
            equal([it.event.name for it in built.notes if it.event.name == "tick"], ["tick"] * (text == NAMED))


@case
def the_processor_changes_before_the_step_of_a_tick():
    for knows in (True, False):
        equal(turns_of(drawn(SLICES, SLICES_ROWS, 0, knows))[0], (0, 1, "b"))
        equal(turns_of(drawn(SLICES, SLICES_ROWS, 1, knows)), [(0, 1, "a"), (1, 2, "b"), (2, 3, "a")])
        equal(turns_of(drawn(SLICES, SLICES_ROWS, 2, knows)), [(0, 2, "a"), (2, 3, "b")])
        equal(turns_of(drawn(UPDATE, UPDATE_ROW, knows=knows)), [(0, 1, "b"), (1, 2, "a"), (2, 3, "b"), (3, 5, "a")])
    equal(turns_of(drawn(HELD, HELD_ROW)), [(0, 5, "a"), (5, 6, "u"), (6, 8, "a")])
    # a jump takes what the tick has left
    equal(turns_of(drawn(JUMP, JUMP_ROW)), [(0, 1, "a"), (1, 2, "idle"), (2, 3, "a")])


@case
def the_change_of_a_step_that_releases_a_tick_comes_after_it():
    held = HELD_ROW.replace("at 2 tick", "at 4 tick").replace("2 0 mark h 9", "4 0 mark h 9")
    base = "base: pass in 8 steps, 1 ticks\n4 0 run u\n5 0 mark u 2\n5 0 run -\n6 1 mark h 9\n6 1 run a\n7 1 call a 0 receive = none\n"
    given = base_run.given_base(list(source_of(base + "7 1 run -\n").reader()))
    run_of_row = next(iter(source_of(held).reader()))
    for it in (known(HELD), None):
        equal(turns_of(timeline.of_row(run_of_row, given, it))[-2:], [(5, 6, "u"), (6, 8, "a")])


@case
def the_clock_takes_no_step_for_a_tick():
    for text, row, ticks, silent in (
        (UPDATE, UPDATE_ROW, [0, 0, 1, 1, 1, 1], 5), (SECTION, SECTION_ROW, [0, 0, 0, 0, 1, 1, 1], 6),
        (HELD, HELD_ROW, [0, 0, 1, 1, 1, 1, 1, 1, 1], 8), (ORDER, ORDER_ROW, [0] * 7 + [1] * 4, 10),
        (SUSPENDED, SUSPENDED_ROW, [0, 0, 0, 1, 1], 4), (TWO, TWO_ROW, [0, 0, 0] + [2] * 6, 8),
        (NAMED, NAMED_ROW, [0, 0], 1), (JUMP, JUMP_ROW, [0, 1, 4, 4], 0),
    ):
        for knows in (True, False)[: 1 + (text != JUMP)]:
            clock, steps = drawn(text, row, knows=knows).clock, len(ticks) - 1
            equal((row, [clock.at(it) for it in range(steps + 1)]), (row, ticks))
            equal((row, clock.silent_steps(0, steps)), (row, silent))
    clock = drawn(LIMIT, LIMIT_ROW).clock
    equal((clock.start, clock.at(0), clock.at(1), clock.silent_steps(0, 1)), (0, 3, 3, 1))


@case
def ticks_among_steps_of_work_leave_these_their_ticks():
    app = task("a", 1, "work 4", "mark 1", "work 4", "mark 2")
    row = "row 0 at 2 tick 7 tick: pass in 10 steps, 10 ticks\n4 5 mark a 1\n9 10 mark a 2\n9 10 run -\n"
    clock = drawn(app, row).clock
    equal([clock.at(it) for it in (0, 1, 2, 3, 5, 6, 7, 10)], [0, 0, 2, 3, 5, 5, 7, 10])
    equal((clock.silent_steps(0, 5), clock.silent_steps(5, 10), clock.silent_steps(0, 10)), (1, 1, 2))


@case
def a_tick_that_is_pending_is_drawn_up_to_where_it_comes():
    for knows in (True, False):
        built = drawn(SECTION, SECTION_ROW, knows=knows)
        pending = {(it.lane.name, it.start, it.end) for it in built.bars if it.doing is Doing.PENDING}
        equal(pending, {("tick", 2, 4), ("h", 3, 4)})
        equal(turns_of(built), [(0, 1, "b"), (1, 4, "a"), (4, 5, "b"), (5, 6, "a")])
    point = Point([Injection(2, "tick"), Injection(3, "h")])
    lines = next(iter(source_of(SECTION_ROW).reader())).lines()
    equal(injections.arrived(lines, point), [Injection(4, "h"), Injection(4, "tick")])


@case
def the_base_interrupts_of_a_tick_come_before_its_step():
    built = drawn(HELD, HELD_ROW)
    equal([(it.lane.name, it.lane.kind.value, it.boundary, it.is_injected) for it in built.notes][0], ("h", "handler", 2, True))
    built = drawn(LIMIT, LIMIT_ROW)
    equal([(it.lane.name, it.boundary, it.is_injected) for it in built.notes], [("h", 0, True), ("a", 0, False)])


@case
def base_runs_are_not_presumed_from_rows_with_ticks():
    base = base_run.find_base(source_of(SLICES_ROWS))
    equal((base.head, base.known_until), (None, 2))
    # a handler that has the name is one
    row = NAMED_ROW.replace("row 0", "row {}")
    named = row.format(0) + total_of([row.split("\n", 1)[0]])
    equal(base_run.find_base(source_of(named)).head.end_text(), "pass in 1 steps, 0 ticks")


@case
def a_task_may_have_the_name_of_the_tick():
    rows = re.sub(r"\bb\b", "tick", SLICES_ROWS)
    lines = [next(it for it in source_of(rows).reader() if it.head.row == row).lines() for row in range(3)]
    equal([injections.own_stretches(it, Point([Injection(row, "tick")])) for row, it in enumerate(lines)], [[(0, 0)], [(1, 0)], [(3, 0)]])
    equal(base_run.find_base(source_of(rows)).head, None)
    known(re.sub(r'"b"', '"tick"', SLICES))
    equal(turns_of(drawn(re.sub(r'"b"', '"tick"', SLICES), rows, 2)), [(0, 2, "a"), (2, 3, "tick")])
    write("base.out", re.sub(r"\bb\b", "tick", SLICES_BASE))
    holds(good_and_quick("classes", "--base", "base.out", text=rows), "as the base run")


@case
def classes_and_causes_name_the_tick():
    write("base.out", SLICES_BASE)
    table = good_and_quick("classes", "--base", "base.out", text=SLICES_ROWS)
    holds(table, "3 rows in 3 classes")
    holds(table, "as the base run")
    holds(table, "  tick\n")
    write("base.out", CHECKED_BASE)
    known(CHECKED)
    text = CHECKED_ROW + total_of([CHECKED_ROW.split("\n", 1)[0]])
    words = ("--base", "base.out", "--application", "ticks.toml")
    holds(good_and_quick("classes", "--names", *words, text=text), "check a: expect 0 [tick]")
    holds(good_and_quick("classes", *words, text=text), 'check a 1: "expect 0", the answer is 1')
    holds(good_and_quick("junit", *words, text=text), "1 row of tick; the first:")
    holds(good_and_quick("show", *words, "0", text=text), "row 0 at 0 tick: check a 1 in 2 steps, 1 ticks")


@case
def moments_of_c_name_the_tick():
    known(CHECKED)
    ops = [{"op": it, "file": "driver.c", "line": 7 + at, "column": 1, "text": f"C of {it}"} for at, it in enumerate(("time", "expect 0"))]
    write("map.json", json.dumps({"version": 1, "source": "driver.c", "tasks": {"a": ops}, "handlers": {}}))
    write("base.out", CHECKED_BASE)
    text = CHECKED_ROW + total_of([CHECKED_ROW.split("\n", 1)[0]])
    holds(good_and_quick("classes", "--base", "base.out", "--application", "ticks.toml", "--source", "map.json", text=text),
          "the tick comes before driver.c:7: C of time")


@case
def pictures_of_ticks():
    for text, row in ALL:
        known(text)
        report = row + total_of([row.split("\n", 1)[0]])
        for words in ([], ["--application", "ticks.toml"]):
            picture = good_and_quick("svg", "--row", "0", *words, text=report)
            equal(overlaps(tree.fromstring(picture).iter(f"{SVG}text")), [])
            holds(picture, "before step ")
            for command in ("perfetto", "vcd"):
                good_and_quick(command, "--row", "0", *words, text=report)
    write("base.out", SLICES_BASE)
    holds(good_and_quick("svg", "--campaign", "--base", "base.out", text=SLICES_ROWS), ">tick</text>")
    holds(good_and_quick("html", "--base", "base.out", text=SLICES_ROWS), '"tick"')


STAND_IN = """#!/usr/bin/env python3
import sys
words = sys.argv[1:]
with open("asked", "a") as it:
    it.write(" ".join(words) + "\\n")
if words[0] == "explore":
    sys.stdout.write({found!r})
    sys.exit(1)
sys.stdout.write({row!r} + "state a runs 1\\n" if "--at" in words else {base!r})
sys.exit("--at" in words)
"""


def companion_of():
    """A copy of the reader of reports beside a program that says what is wanted here."""
    shutil.copytree(f"{ROOT}/tools", "tools", dirs_exist_ok=True)
    os.makedirs("bin", exist_ok=True)
    shutil.copy(COMPANION, "bin/rtosim-report")
    write("bin/rtosim", STAND_IN.format(found=FOUND, row=CHECKED_ROW, base=CHECKED_BASE))
    os.chmod("bin/rtosim", 0o755)
    return os.path.abspath("bin/rtosim-report")


@case
def points_of_pairs_of_ticks():
    companion = companion_of()
    known(HANDLER + CHECKED)
    equal(good("pairs", "ticks.toml", "--handler", "tick", "--within", "1", companion=companion),
          '[campaign]\npoints = [\n  "0 tick 0 tick", "0 tick 1 tick",\n  "1 tick 1 tick", "1 tick 2 tick",\n]\n')
    both = good("pairs", "ticks.toml", "--handler", "h", "--handler", "tick", "--within", "0", companion=companion)
    holds(both, '"0 h 0 tick", "0 tick 0 h",')
    status, out, err = run("pairs", "ticks.toml", "--handler", "tock", companion=companion)
    equal((status, out), (2, b""))
    holds(err.decode(), "no handler is called tock; the handlers are h, and tick is the tick interrupt")


@case
def the_least_placement_may_have_ticks():
    companion = companion_of()
    known(CHECKED)
    shown = good("explore", "ticks.toml", "--handlers", "tick", "--pictures", "pictures", companion=companion)
    holds(shown, "  2           1  33.3%  check a 1  0 tick")
    holds(shown, "     check a: expect 0 [tick]\n")
    holds(shown, "     rtosim run ticks.toml --at 0 --handler tick\n")
    with open("pictures/0_tick.svg") as it:
        holds(it.read(), "tick before step 0")
    with open("asked") as it:
        holds(it.read(), "explore ticks.toml --handlers tick\n")
    found = ends_of(b"stuck: 3 placements, least is 1 tick 2 h 2 tick in 4 steps, 3 ticks\ntotal 3\n")
    equal(found[0].head.point.text(), "1 tick 2 h 2 tick")
