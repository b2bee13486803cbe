"""Cases of tests/report: notifications, in the reports of tests/of_notifications and tests/runs/notification."""
import glob
import xml.etree.ElementTree as tree

from cases import case, equal, holds
from reports import ROOT, SVG, good, good_and_quick, overlaps, read, rows, source_of
from rtosim_report import application, causes, checks, endings, injections, timeline
from rtosim_report.lanes import Doing, WindowKind
from rtosim_report.reading import lone_run_of

NOTIFIED = f"{ROOT}/tests/of_notifications/notified"
RUNS = f"{ROOT}/tests/runs/notification"
OVERWRITTEN = f"{ROOT}/examples/overwritten_command_cured"
OF_NOTIFIED = ("--application", f"{NOTIFIED}.toml", "--base", f"{NOTIFIED}.out")


def known(name):
    return application.read_application(f"{name}.toml")


def base_of(name, texts=None):
    run = next(iter(source_of(read(f"{name}.out").decode()).reader()))
    return timeline.Builder(run.head, [timeline.event_of(it) for it in run.lines()], application=texts).build()


def waits_of(built):
    """The waits: of which task, from where to where, and in which call."""
    return sorted((it.lane.name, it.start, it.end, it.call) for it in built.bars if it.doing is Doing.WAITS)


def windows_of(built, kind):
    return sorted((it.lane.name, it.start, it.end) for it in built.windows if it.kind is kind)


@case
def a_wait_for_a_notification_is_drawn_as_a_wait_and_holds_the_scheduler_before():
    built = base_of(NOTIFIED, known(NOTIFIED))
    equal(waits_of(built), [("driver", 3, 9, "notify_wait"), ("driver", 16, 26, "notify_wait"), ("main", 19, 22, "notify_take")])
    equal(windows_of(built, WindowKind.HELD), [("driver", 1, 3), ("driver", 14, 16), ("main", 17, 19)])
    equal(windows_of(built, WindowKind.LOCKED), [])
    # without the application it isn't known in which call a task waits that doesn't come back
    equal(waits_of(base_of(NOTIFIED)), [("driver", 3, 9, "notify_wait"), ("main", 19, 22, "notify_take")])


@case
def a_notification_before_the_leave_is_no_wait():
    for row in (0, 1):
        equal([it for it in waits_of(timeline.of_row(rows(NOTIFIED)[row], None, known(NOTIFIED))) if it[:2] == ("driver", 3)], [])
    equal(waits_of(timeline.of_row(rows(NOTIFIED)[43], None, known(NOTIFIED)))[-1], ("driver", 16, 20, "notify_wait"))


@case
def a_notify_is_about_its_task_and_the_others_about_nothing():
    built = timeline.of_row(rows(NOTIFIED)[51], None, known(NOTIFIED))
    found = {(it.event.name, it.event.word): it.object for it in built.notes}
    equal(found, {
        ("main", "notify_clear"): "", ("main", "notify_value_clear"): "", ("uart", "notify"): "driver", ("driver", "notify_wait"): "",
        ("driver", None): "", ("main", "notify_take"): "", ("key", "notify"): "main", ("main", "notify"): "driver",
    })


@case
def the_ops_of_tasks_are_followed_through_notifications():
    for path in sorted(glob.glob(f"{RUNS}/*.report")):
        texts = known(path[:-7])
        if texts.daemon is not None:
            continue
        for run in rows(path[:-7]):
            built = timeline.of_row(run, None, texts)
            running = {it.lane for it in built.bars if it.doing is Doing.RUNS and it.lane.kind.name == "TASK"}
            equal((path, run.head.text(), set(built.ops)), (path, run.head.text(), running | set(built.ops)))
            for it in built.bars:
                assert 0 <= it.start < it.end <= run.head.steps, (path, run.head.text(), it)


@case
def a_value_that_is_kept_is_a_failed_call_of_the_handler():
    equal([run.head.point.text() for run in rows(NOTIFIED) if any(causes.has_failed(what) for _, _, what in run.lines())], ["9 uart"])
    table = good_and_quick("classes", f"{NOTIFIED}.report", *OF_NOTIFIED)
    holds(table, "stuck: main in notify_take decrement forever; uart: notify driver keep 9 = 0 [uart]\n")
    failed = {run.head.point.text(): causes.failed_calls(run.lines()) for run in rows(OVERWRITTEN)}
    equal({it: calls for it, calls in failed.items() if calls}, {f"{it} start": [b"isr start 0 notify = 0"] for it in (6, 9, 10, 11)})


@case
def where_tasks_wait_for_notifications_at_the_end():
    run = lone_run_of(source_of(read(f"{NOTIFIED}.state").decode()).reader())
    equal(endings.Endings(known(NOTIFIED)).lines_of(run), [
        'stuck: driver waits in op 1 "notify_wait 0 4294967295 forever", main waits in op 7 "notify_take decrement forever"'])


@case
def a_notify_without_a_value_is_explained():
    name = f"{RUNS}/a_handler_without_a_value_notifies_nobody"
    found = {run.head.point.text(): checks.words_of_check(known(name), run) for run in rows(name) if run.head.verdict.kind == "check"}
    equal(found, {
        "0 h": 'check h 1: "notify b bits answer", the last answer is none', "1 h": 'check h 1: "notify b bits answer", the last answer is none',
        "3 k": 'check k 0: "notify b keep answer", the last answer is none'})


@case
def a_handler_that_is_pending_while_a_task_clears_its_notification_is_found_by_the_lines():
    name = f"{RUNS}/the_clears_are_allowed_in_a_section_and_while_the_scheduler_is_held"
    count = 0
    for run in rows(name):
        sections = windows_of(timeline.of_row(run, None, known(name)), WindowKind.MASKED)
        for injection, come in injections.arrivals_of(run.lines(), run.head.point).items():
            there = [end for _, start, end in sections if start <= injection.step < end]
            equal((run.head.text(), come), (run.head.text(), there[0] if there else injection.step))
            count += bool(there)
    assert count == 3, count


@case
def pictures_of_notifications():
    for row in ("0", "9", "18", "51"):
        root = tree.fromstring(good_and_quick("svg", "--row", row, f"{NOTIFIED}.report", *OF_NOTIFIED))
        equal((row, overlaps(root.iter(f"{SVG}text"))), (row, []))
    holds(good("svg", f"{NOTIFIED}.out", "--application", f"{NOTIFIED}.toml"), "main waits in notify_take: steps 19 to 21")
    holds(good("svg", f"{NOTIFIED}.out"), "driver waits in notify_wait: steps 3 to 8")


@case
def dumps_traces_and_pages_have_the_waits():
    for command, words in (("vcd", ("--row", "51")), ("perfetto", ("--row", "51")), ("html", ())):
        holds(good(command, *words, f"{NOTIFIED}.report", *OF_NOTIFIED), "notify_wait" if command != "vcd" else "$enddefinitions")
