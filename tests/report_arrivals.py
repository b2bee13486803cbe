"""Cases of tests/report: when handlers are armed and raised, and which injections come, in the reports of tests/runs/arming, tests/runs/device
and examples/drivers."""
import glob
import json
import os
import re
import xml.etree.ElementTree as tree

from cases import case, equal, holds
from reports import ROOT, SVG, good, good_and_quick, overlaps, read, source_of
from rtosim_report import application, base_run, sources, timeline
from rtosim_report.lanes import Doing, WindowKind

ARMING, DEVICE, DRIVERS = (f"{ROOT}/{it}" for it in ("tests/runs/arming", "tests/runs/device", "examples/drivers"))
TRANSFER, BYTES = f"{DRIVERS}/i2c_transfer", f"{DRIVERS}/uart_bytes"


def rows(path):
    return [it for it in source_of(read(f"{path}.report").decode()).reader() if it.head.row is not None]


def built(path, run=None, knows_application=True):
    """The timeline of a row, or of the base run."""
    known = application.read_application(f"{path}.toml") if knows_application else None
    if run is None:
        return timeline.of_base(base_run.given_base(source_of(read(f"{path}.out").decode()).reader()), known)
    return timeline.of_row(run, None, known)


def windows(found, kind):
    return [(it.lane.name, it.start, it.end) for it in found.windows if it.kind is kind]


def times(path, row, kind):
    return windows(built(path, rows(path)[row]), kind)


@case
def a_handler_is_armed_and_raised_between_the_ops():
    equal(times(TRANSFER, 20, WindowKind.ARMED), [("i2c", 9, 20), ("i2c", 27, 31)])
    equal(times(TRANSFER, 20, WindowKind.RAISED), [("i2c", 7, 20), ("i2c", 25, 31)])
    # .. and in the base run up to the tick at which it comes
    found = built(TRANSFER)
    equal(windows(found, WindowKind.ARMED), [("i2c", 9, 33 + 1), ("i2c", 47, 54)])
    equal(windows(found, WindowKind.RAISED), [("i2c", 7, 25), ("i2c", 25, 34), ("i2c", 45, 54)])
    # one that is armed all the time has no bar, nor has one of which the application isn't known
    equal(times(BYTES, 21, WindowKind.ARMED), [])
    equal(windows(built(TRANSFER, rows(TRANSFER)[20], False), WindowKind.ARMED), [])
    equal(times(f"{ARMING}/an_interrupt_that_comes_only_when_it_is_armed", 2, WindowKind.ARMED), [("h", 2, 3)])
    equal(times(f"{ARMING}/a_handler_disarms_itself", 0, WindowKind.ARMED), [])


@case
def injections_that_cannot_come_are_not_drawn():
    for path, row, wanted in (
        (BYTES, 21, [10, 12]), (BYTES, 22, [10, 12, 14]), (f"{ARMING}/injections_that_are_too_near", 0, [0]),
        (f"{ARMING}/injections_that_are_too_near", 2, [0, 2]), (f"{ARMING}/becoming_pending_counts_as_a_coming", 0, [1]),
        (f"{ARMING}/an_injected_tick_counts_as_one_between_two_comings", 0, [1]),
        (f"{ARMING}/an_injected_tick_counts_as_one_between_two_comings", 1, [1, 1, 1]),
        (f"{ARMING}/the_first_injection_decides_whether_a_point_is_reached", 1, []),
        (f"{ARMING}/the_first_injection_decides_whether_a_point_is_reached", 3, [0]),
        (f"{ARMING}/a_pending_handler_arms_one_of_the_same_step", 0, [1, 3]),
    ):
        equal((path, row, [it.step for it in built(path, rows(path)[row]).injections]), (path, row, wanted))
    # without the application it isn't known
    equal([it.step for it in built(BYTES, rows(BYTES)[21], False).injections], [10, 11, 12])


@case
def what_cannot_come_in_a_section_is_not_pending():
    path = f"{ARMING}/a_section_in_which_a_handler_is_armed"
    found = [[(it.start, it.end) for it in built(path, run).bars if it.doing is Doing.PENDING] for run in rows(path)]
    equal(found, [[], [], [], [(3, 5)], [(4, 5)], []])


@case
def each_time_that_a_handler_comes_has_its_lines():
    """Of all stored runs the replay meets each line of the handlers, and no other."""
    count = 0
    for path in sorted(it[:-5] for folder in (ARMING, DEVICE, DRIVERS) for it in glob.glob(f"{folder}/*.toml")):
        known = application.read_application(f"{path}.toml")
        runs = [*(rows(path) if os.path.exists(f"{path}.report") else []), *([None] if os.path.exists(f"{path}.out") else [])]
        for run in runs if known.has_arrivals else []:
            followed = []
            real, timeline.follow = timeline.follow, lambda builder, ops: followed.append(sources.follow(builder, ops)) or followed[-1]
            try:
                built(path, run)
            finally:
                timeline.follow = real
            assert followed[-1] is not None, (path, run and run.head.text())
            count += 1
    assert count > 200, count


@case
def a_handler_of_which_a_branch_is_not_known_has_no_bars():
    text = read(f"{TRANSFER}.toml").decode().replace('"load transfer", "send done answer"', '"load transfer", "if 9", "mark 1", "end"')
    with open("other.toml", "w") as it:
        it.write(text)
    found = timeline.of_row(rows(TRANSFER)[20], None, application.read_application("other.toml"))
    equal(windows(found, WindowKind.ARMED), [])


@case
def pictures_and_waves_have_them():
    words = ("--row", "20", f"{TRANSFER}.report", "--application", f"{TRANSFER}.toml", "--base", f"{TRANSFER}.out")
    picture = good_and_quick("svg", *words)
    for title in ("the interrupt is armed: steps 9 to 19 of i2c", "the interrupt is raised: steps 7 to 19 of i2c"):
        holds(picture, f"<title>{title}</title>")
    root = tree.fromstring(picture)
    legend = [it.text for it in root.iter(f"{SVG}text")]
    assert "armed" in legend and "raised" in legend, legend
    equal(overlaps(root.iter(f"{SVG}text")), [])
    # a picture of another application has neither
    plain = good_and_quick("svg", "--row", "2", f"{ROOT}/tests/of_stuck/lost_wake_up.report")
    assert "armed" not in plain and "raised" not in plain
    trace = json.loads(good("perfetto", *words))["traceEvents"]
    equal(sorted({it["name"] for it in trace if it.get("cat") == "window" and it["name"] in ("armed", "raised")}), ["armed", "raised"])
    dump = good("vcd", *words)
    signals = dict(re.findall(r"\$var wire 1 (\S+) (armed|raised) \$end", dump))
    equal(sorted(signals.values()), ["armed", "raised"])
    for code in signals:
        equal(len(re.findall(rf"(?m)^1{re.escape(code)}$", dump)), 2)
