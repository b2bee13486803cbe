"""Cases of tests/report: variables, in the reports of tests/of_variables."""
import io
import json
import xml.etree.ElementTree as tree

from cases import case, equal, holds
from reports import ROOT, SVG, good, good_and_quick, overlaps, read, rows
from rtosim_report import application, checks, end_state, progress, timeline
from rtosim_report.lanes import Doing
from rtosim_report.progress import Walker, holds as condition_holds
from rtosim_report.source import Source

FOLDER = f"{ROOT}/tests/of_variables"
LOST_UPDATE, VALUES, FLAG = (f"{FOLDER}/{it}" for it in ("lost_update", "values", "flag"))


def of(name):
    return ("--application", f"{name}.toml", "--base", f"{name}.out")


def built(name, row, base=None):
    return timeline.of_row(rows(name)[row], base, application.read_application(f"{name}.toml"))


def values_in(name, row):
    """Of each variable its values, each with the step from which it has it."""
    return {it: [(at.start, at.value) for at in stretches] for it, stretches in built(name, row).variables.items()}


@case
def a_variable_has_its_initial_value_and_then_those_that_are_stored():
    equal(values_in(LOST_UPDATE, 1), {"count": [(0, 0), (1, 1), (3, 1)], "interrupts": [(0, 0), (1, 1)], "wanted": [(0, 0), (9, 2)]})
    equal(values_in(LOST_UPDATE, 3)["count"], [(0, 0), (3, 2)])
    equal(values_in(VALUES, 1), {"sum": [(0, 0), (4, 8)], "scale": [(0, 3), (1, 0)], "limit": [(0, 100)]})
    equal(values_in(FLAG, 1), {"done": [(0, 0), (5, 1)], "wanted": [(0, 1), (1, 2)]})
    for name in (LOST_UPDATE, VALUES, FLAG):
        for row, run in enumerate(rows(name)):
            for stretches in built(name, row).variables.values():
                equal((stretches[0].start, stretches[-1].end), (0, run.head.steps))
                assert all(one.end == other.start for one, other in zip(stretches, stretches[1:])), stretches
    # without the application it isn't known what a store is about
    equal(timeline.of_row(rows(FLAG)[1], None).variables, {})


@case
def tasks_are_followed_through_conditions_with_variables():
    """Whether main suspends itself a second time, by the value that the interrupt has stored."""
    for row, run in enumerate(rows(FLAG)):
        found = built(FLAG, row)
        equal({it.name for it in found.ops}, {"main", "other"})
        main = next(stretches for lane, stretches in found.ops.items() if lane.name == "main")
        equal([it.op for it in main], [0, 1, 2, 3, 4, 5, *([6] if run.head.verdict.kind == "stuck" else [8])])
    table = good_and_quick("classes", "--failing", f"{FLAG}.report", *of(FLAG))
    holds(table, "stuck: main suspended by itself after suspend main (2nd) [more]\n")


SCRIPT = application.Script("a", [application.Op(it.split()) for it in ("time", "if x", "time", "else", "delay 0", "end", "time")])


@case
def a_branch_by_a_variable_that_may_have_several_values_is_found_by_the_next_call():
    for values, wanted, at in (
        ((5,), None, 2), ((4,), None, 4), ((4, 5), 2, 2), ((4, 5), 4, 4), ((4, 5), 6, 4), ((4, 6), None, 4), ((), 4, 4), ((), 2, 2),
    ):
        walker = Walker(SCRIPT)
        walker.called(5)
        walker.values = {"x": values}
        equal((values, wanted, walker.to_call(wanted), walker.at), (values, wanted, True, at))
    walker = Walker(SCRIPT)
    walker.called(5)
    walker.values = {"x": (4, 5)}
    equal(walker.to_call(), False)


@case
def conditions_with_variables():
    values = {"x": (3,), "y": (3, 4), "none": (7,)}
    for words, answer, found in (
        ("x", 3, True), ("x", 4, False), ("not x", 3, False), ("not x", None, True), ("below x", 2, True), ("below x", 3, False),
        ("above x", 4, True), ("above x", None, False), ("none", 7, False), ("none", None, True), ("not none", 7, True),
        ("y", 3, None), ("y", 5, False), ("below y", 2, True), ("below y", 3, None), ("above y", 5, True), ("not y", 4, None), ("z", 1, None),
        ("4294967295", 4294967295, True), ("not 4", None, True),
    ):
        equal((words, answer, condition_holds(words.split(), answer, values)), (words, answer, found))
    assert progress.PATIENCE > 1000


@case
def a_failed_check_is_explained():
    known = application.read_application(f"{VALUES}.toml")
    found = {run.head.verdict.text: checks.words_of_check(known, run) for run in rows(VALUES) if not run.head.verdict.passes}
    equal(found, {
        "check main 4": 'check main 4: "mod scale", scale is 0', "check main 2": 'check main 2: "add 1", the last answer is none',
        "check steal 1": 'check steal 1: "store sum answer", the last answer is none',
        "check main 6": 'check main 6: "expect below limit", the answer is 8, and limit is 4',
        "check lower 2": 'check lower 2: "expect below limit", the answer is 8, and limit is 4',
    })
    table = good_and_quick("classes", f"{VALUES}.report", *of(VALUES))
    for it in found.values():
        holds(table, f"       {it}\n")
    holds(table, "       check main: mod scale [reset]\n")
    holds(good_and_quick("show", "1", f"{LOST_UPDATE}.report", *of(LOST_UPDATE)), 'check main 12: "expect wanted", the answer is 1, and wanted is 2\n')


@case
def the_values_at_the_end_are_read_and_said():
    found = next(iter(Source(io.BytesIO(read(f"{FLAG}.state"))).reader()))
    equal(end_state.state_of(found.state).values, {0: 1, 1: 2})
    shown = good_and_quick("show", "0", f"{FLAG}.state", "--application", f"{FLAG}.toml")
    holds(shown, '  stuck: main is suspended at op 7 "end"\n  variables: done = 1, wanted = 2\n')
    equal([it.value for it in (stretches[-1] for stretches in built(FLAG, 1).variables.values())], [1, 2])
    for good_lines, bad in ((b"variable 1 = 2", b"variable 1 = x"), (b"variable 0 = 1\n", b"variable 0 = 1\nheld 0 main\n"),
                            (b"state other ended\n", b"variable 7 = 1\nstate other ended\n")):
        text = read(f"{FLAG}.state").replace(good_lines, bad)
        try:
            for it in Source(io.BytesIO(text)).reader():
                it.checked_lines()
        except Exception as fault:  # of whatever kind
            holds(str(fault), "`variable X = V`")
            continue
        raise AssertionError(f"taken for a state: {bad}")


@case
def a_handler_that_is_pending_in_a_section_of_variables_is_seen_without_the_application():
    for row in range(6, 13):
        run = rows(LOST_UPDATE)[row]
        with_application = [(it.start, it.end) for it in built(LOST_UPDATE, row).bars if it.doing is Doing.PENDING]
        by_lines = [(it.start, it.end) for it in timeline.of_row(run, None).bars if it.doing is Doing.PENDING]
        # what is pending at the end of the run leaves no line
        equal((row, with_application, by_lines), (row, with_application, []))
    equal([(it.start, it.end) for it in built(LOST_UPDATE, 7).bars if it.doing is Doing.PENDING], [(7, 13)])


@case
def pictures_have_a_row_for_each_variable():
    for name, row in ((LOST_UPDATE, "1"), (VALUES, "14"), (FLAG, "1")):
        text = good_and_quick("svg", "--row", row, f"{name}.report", *of(name))
        root = tree.fromstring(text)
        equal(overlaps(root.iter(f"{SVG}text")), [])
        boxes = [it for it in root.iter(f"{SVG}rect") if it.get("class") == "value"]
        found = [it.find(f"{SVG}title").text for it in boxes]
        equal(len(found), sum(map(len, values_in(name, int(row)).values())))
        assert all(float(it.get("x")) + float(it.get("width")) <= float(root.get("width")) for it in boxes)
    assert "count = 1: steps 3 to 13, stored by main in op 2" in good("svg", "--row", "1", f"{LOST_UPDATE}.report", *of(LOST_UPDATE))
    assert 'class="value"' not in good_and_quick("svg", "--row", "1", f"{FLAG}.report")


def long_run():
    """The report of a run in which a variable has a new value in each step, and its application."""
    with open("long.toml", "w") as it:
        it.write('[[variable]]\nname = "x"\ninitial = 7\n[[task]]\nname = "a"\npriority = 1\nscript = ["repeat 1000", "store x 1", "end"]\n')
    lines = "".join(f"{step} 0 call a 1 store = 1\n" for step in range(1, 8000, 2))
    with open("long", "w") as it:
        it.write(f"base: steps in 8000 steps, 0 ticks\n{lines}")


@case
def values_too_narrow_to_be_seen_apart_are_one_box():
    long_run()
    text = good("svg", "long", "--application", "long.toml")
    holds(text, "<title>x: ")
    assert text.count('class="value') < 1500, text.count('class="value')
    assert good("vcd", "long", "--application", "long.toml").count("values_of_variables") == 1


@case
def dumps_and_traces_have_the_values():
    dump = good("vcd", "--row", "1", f"{LOST_UPDATE}.report", *of(LOST_UPDATE))
    scope = dump.partition("$scope module values_of_variables $end\n")[2].partition("$upscope")[0].splitlines()
    equal([it.split()[4] for it in scope], ["count", "interrupts", "wanted"])
    codes = {it.split()[4]: it.split()[3] for it in scope}
    equal([it for it in dump.splitlines() if it.startswith("b") and it.endswith(f" {codes['wanted']}")],
          [f"b0 {codes['wanted']}", f"b10 {codes['wanted']}"])
    events = json.loads(good("perfetto", "--row", "1", f"{LOST_UPDATE}.report", *of(LOST_UPDATE)))["traceEvents"]
    found = [(it["name"], it["args"]["value"]) for it in events if it["ph"] == "C"]
    equal([value for name, value in found if name == "variable count"], [0, 1, 1])
    page = good_and_quick("html", f"{LOST_UPDATE}.report", *of(LOST_UPDATE))
    holds(page, '"variables":[["count",[0,1,0,1,3,1,3,14,1]]')
