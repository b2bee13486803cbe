"""Cases of tests/report: handlers that are pending in critical sections, in the reports of tests/runs/critical."""
import glob
import json
import xml.etree.ElementTree as tree

from cases import case, equal, holds
from reports import ROOT, SVG, good, good_and_quick, overlaps, read, source_of
from rtosim_report import application, injections, timeline
from rtosim_report.lanes import Doing, WindowKind
from rtosim_report.report import Injection, Point

FOLDER = "tests/runs/critical"
SERVED = f"{ROOT}/{FOLDER}/a_handler_injected_in_a_section_comes_before_the_step_after_its_exit"
ORDER = f"{ROOT}/{FOLDER}/pending_handlers_come_in_the_order_of_the_file_and_not_in_that_of_their_steps"
TWICE = f"{ROOT}/{FOLDER}/a_handler_that_is_pending_and_injected_after_the_exit_comes_twice"
ENDS = f"{ROOT}/{FOLDER}/what_is_pending_at_the_end_of_the_run_does_nothing"
SWITCHES = f"{ROOT}/{FOLDER}/one_pending_handler_switches_before_the_next_comes"


def lines_of(text):
    return [tuple(it.split(b" ", 2)) for it in text.splitlines()]


def rows(report):
    """The runs of a report's rows."""
    return [it for it in source_of(read(report).decode()).reader() if it.head.row is not None]


def pending_in(path, row, knows_application=True):
    """From where to where handlers are pending in a row."""
    known = application.read_application(f"{path}.toml") if knows_application else None
    built = timeline.of_row(rows(f"{path}.report")[row], None, known)
    return [(it.lane.name, it.start, it.end) for it in built.bars if it.doing is Doing.PENDING]


@case
def a_pending_handler_is_drawn_from_where_it_was_raised_to_where_it_came():
    for knows in (True, False):
        equal([pending_in(SERVED, row, knows) for row in range(5)],
              [[], [("uart", 1, 4)], [("uart", 2, 4)], [("uart", 3, 4)], []])
        equal(sorted(pending_in(ORDER, 0, knows)), [("one", 3, 4), ("three", 1, 4), ("two", 2, 4)])
        equal(pending_in(TWICE, 0, knows), [("one", 1, 3)])
        equal(pending_in(TWICE, 1, knows), [("one", 1, 3), ("one", 2, 3)])
    equal(pending_in(ENDS, 2), [("h", 2, 4)])
    equal(pending_in(ENDS, 3), [("h", 3, 4)])
    equal(pending_in(ENDS, 3, False), [])


@case
def where_handlers_come_is_the_same_by_sections_and_by_lines():
    count = 0
    for report in sorted(glob.glob(f"{ROOT}/{FOLDER}/*.report")):
        for run in rows(report):
            if run.head.is_reached:
                lines = run.lines()
                built = timeline.of_row(run, None, application.read_application(f"{report[:-7]}.toml"))
                sections = [it for it in built.windows if it.kind is WindowKind.MASKED]
                for it, come in injections.arrivals_of(lines, run.head.point).items():
                    open_there = [at.end for at in sections if at.start <= it.step < at.end]
                    own = injections.own_words(it.handler)
                    has_lines = any(what.startswith(own) for step, _, what in lines if int(step) == come)
                    if has_lines and sections:
                        equal((report, run.head.text(), come), (report, run.head.text(), open_there[0] if open_there else it.step))
                        count += bool(open_there)
    assert count > 50, count


@case
def a_section_is_drawn_where_the_application_is_known():
    known = application.read_application(f"{SWITCHES}.toml")
    built = timeline.of_row(rows(f"{SWITCHES}.report")[0], None, known)
    equal([(it.lane.name, it.start, it.end) for it in built.windows if it.kind is WindowKind.MASKED], [("a", 11, 13)])
    nested = f"{ROOT}/{FOLDER}/an_inner_exit_leaves_the_section_open"
    built = timeline.of_row(rows(f"{nested}.report")[0], None, application.read_application(f"{nested}.toml"))
    equal([it.end - it.start for it in built.windows if it.kind is WindowKind.MASKED], [5])
    ended = f"{ROOT}/{FOLDER}/a_script_that_ends_inside_a_section"
    built = timeline.of_row(rows(f"{ended}.report")[1], None, application.read_application(f"{ended}.toml"))
    equal([(it.start, it.end) for it in built.windows if it.kind is WindowKind.MASKED], [(1, 2)])


@case
def lines_that_are_not_of_a_section_leave_a_handler_at_its_step():
    point = Point([Injection(1, "h")])
    for text, come in (
        (b"1 0 call a 1 waiting = 0\n4 0 isr h 0 send = 1\n", 4), (b"1 0 mark a 1\n2 0 call a 1 bits = 0\n4 0 mark h 1\n", 4),
        (b"1 0 call a 1 waiting = 0\n4 1 isr h 0 send = 1\n", 1), (b"1 0 call a 1 receive = 0\n4 0 isr h 0 send = 1\n", 1),
        (b"1 0 mark a 1\n2 0 mark b 1\n4 0 isr h 0 send = 1\n", 1), (b"1 0 mark a 1\n2 0 run b\n4 0 isr h 0 send = 1\n", 1),
        (b"1 0 mark a 1\n3 0 run b\n4 0 isr h 0 send = 1\n", 4), (b"1 0 mark a 1\n3 0 run b\n4 0 mark b 1\n5 0 mark h 1\n", 1),
        (b"1 0 run b\n2 0 run a\n3 0 mark h 1\n", 1),
        (b"1 0 isr h 0 send = 1\n1 0 call a 1 time = 0\n4 0 isr h 0 send = 1\n", 1), (b"1 0 mark a 1\n", 1), (b"", 1),
    ):
        equal((text, injections.arrivals_of(lines_of(text), point)[point[0]]), (text, come))


@case
def rows_of_one_section_are_one_class():
    table = good_and_quick("classes", f"{SERVED}.report")
    holds(table, "1     1  20.0%  pass     0 uart")
    holds(table, "2     4  80.0%  pass     1 uart")
    idle = f"{ROOT}/{FOLDER}/a_pending_handler_comes_in_the_step_of_idle"
    table = good_and_quick("classes", f"{idle}.report")
    holds(table, "5 rows in 1 class")
    holds(table, "as the base run, but for the handler's own lines")


@case
def pictures_have_pending_handlers_and_sections():
    for path in (SERVED, ORDER, SWITCHES):
        for words in ([], ["--application", f"{path}.toml"]):
            text = good_and_quick("svg", "--row", "1", f"{path}.report", *words)
            root = tree.fromstring(text)
            equal(overlaps(root.iter(f"{SVG}text")), [])
            width = float(root.get("width"))
            assert all(float(it.get("x", 0)) + float(it.get("width")) <= width for it in root.iter(f"{SVG}rect"))
            holds(text, 'class="pending"')
            equal('class="masked"' in text, True)
    without = good_and_quick("svg", f"{ROOT}/examples/periodic.out", "--application", f"{ROOT}/examples/periodic.toml")
    assert "pending" not in without and "masked" not in without


@case
def traces_and_dumps_have_them_too():
    words = ("--row", "1", f"{SERVED}.report", "--application", f"{SERVED}.toml")
    events = json.loads(good("perfetto", *words))["traceEvents"]
    found = {(it["name"], it["args"]["first_step"], it["args"]["last_step"]) for it in events if it["ph"] == "X"}
    equal({it for it in found if it[0] in ("is pending", "interrupts masked")}, {("is pending", 1, 3), ("interrupts masked", 1, 3)})
    dump = good("vcd", *words)
    for it in ("interrupts_masked", "pending"):
        holds(dump, f" {it} $end")
    assert "pending" not in good("vcd", f"{ROOT}/examples/periodic.out")
