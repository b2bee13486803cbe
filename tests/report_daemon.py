"""Cases of tests/report: runs with a daemon, whose receive has no line. The report in tests/of_daemon is what the program writes of the
file there."""
import json
import os
import re
import subprocess
import xml.etree.ElementTree as tree

from cases import case, equal, holds
from report_pictures import states_differ
from reports import PATIENCE, PROGRAM, ROOT, SVG, good_and_quick, overlaps, read, report_of, source_of
from rtosim_report import application, base_run, timeline
from rtosim_report.lanes import Doing

DAEMON = f"{ROOT}/tests/of_daemon/daemon"
GIVEN = [f"{DAEMON}.report", "--base", f"{DAEMON}.out", "--application", f"{DAEMON}.toml"]
WITHOUT_TEXTS = GIVEN[:3]
COMMAND_TAKES = {"set": 3, "clear": 2}


def base_of_daemon():
    return base_run.given_base(source_of(read(f"{DAEMON}.out").decode()).reader())


def texts_of_daemon():
    return application.read_application(f"{DAEMON}.toml")


def rows_of_daemon():
    """The timelines of the base run and of all rows, with the application and without it."""
    base, texts = base_of_daemon(), texts_of_daemon()
    yield timeline.of_base(base, texts), timeline.of_base(base)
    for run in source_of(read(f"{DAEMON}.report").decode()).reader():
        yield timeline.of_row(run, base, texts), timeline.of_row(run, base)


def bars_of(found, name="svc"):
    bars = [it for it in found.bars if it.lane.name == name]
    return [(it.start, it.end, it.doing.name) for it in sorted(bars, key=lambda it: it.start)]


def windows_of(found):
    return sorted((it.start, it.end, it.kind.name) for it in found.windows if it.lane.name == "svc")


@case
def the_daemon_waits_until_a_command_is_there_and_is_ready_from_then_on():
    base = timeline.of_base(base_of_daemon(), texts_of_daemon())
    equal(bars_of(base), [
        (0, 2, "READY"), (2, 7, "RUNS"), (7, 9, "WAITS"), (9, 12, "RUNS"), (12, 18, "READY"), (18, 25, "RUNS"), (25, 38, "WAITS"),
    ])
    equal(windows_of(base), [
        (3, 6, "LOCKED"), (3, 7, "HELD"), (10, 12, "HELD"), (21, 24, "LOCKED"), (21, 25, "HELD"),
    ])
    # who runs at reset isn't known without the application, so it isn't known either that the daemon is Ready before its first turn
    equal(bars_of(timeline.of_base(base_of_daemon())), bars_of(base)[1:])
    assert not [it for it, _ in base.endings if it.name == "svc"]


@case
def a_command_that_comes_while_it_begins_to_wait_is_no_wait():
    rows = [found for found, _ in rows_of_daemon()][1:]
    for row, step in ((3, 3), (4, 4), (5, 5), (6, 6)):
        equal(rows[row].head.point.text(), f"{step} key")
        first = (2, 9, "RUNS") if step == 3 else (2, 10, "RUNS")
        equal(bars_of(rows[row])[:2], [(0, 2, "READY"), first])


@case
def it_is_found_without_the_application_where_it_has_done_a_command():
    for with_texts, without in rows_of_daemon():
        known = [it for it in bars_of(with_texts) if it != (0, 2, "READY")]
        equal((with_texts.title(), bars_of(without)), (with_texts.title(), known))
        equal(windows_of(without), windows_of(with_texts))


@case
def what_it_does_fits_the_commands():
    """It has no more calls than handlers have given it commands, each of them some steps later and about the same group."""
    for found, _ in rows_of_daemon():
        given = [it for it in found.notes if it.event.word in COMMAND_TAKES and it.lane.kind.name == "HANDLER" and it.event.answer == 1]
        done = [it for it in found.notes if it.lane.name == "svc"]
        assert len(done) <= len(given), found.title()
        for command, it in zip(given, done):
            equal((it.event.word, it.object), (command.event.word, "events"))
            assert it.step + 1 >= command.boundary + COMMAND_TAKES[it.event.word], found.title()
        turns = [it for it in bars_of(found) if it[2] == "RUNS"]
        assert all(any(start <= it.step < end for start, end, _ in turns) for it in done), found.title()


@case
def a_task_that_calls_like_a_daemon_is_none():
    """Its calls are those of a daemon, but not in the steps in which a daemon makes them."""
    for step, is_daemon in ((8, False), (9, True), (10, False)):
        lines = ["4 0 run a\n", "6 0 isr h 0 set = 1\n", "6 0 run d\n", f"{step} 0 call d 1 set = 1\n", f"{step + 5} 0 run a\n",
                 f"{step + 6} 0 run -\n"]
        text = f"base: stuck in {step + 7} steps, 0 ticks\n" + "".join(lines)
        base = base_run.given_base(source_of(text).reader())
        words = {it.call for it in timeline.of_base(base).bars if it.lane.name == "d" and it.doing is Doing.WAITS}
        equal((step, words), (step, {"receive commands"} if is_daemon else {""}))


@case
def a_daemon_that_never_runs_is_ready():
    with open("low.toml", "w") as it:
        it.write('group = [{ name = "g" }]\nhandler = [{ name = "h", ops = ["set g 1"] }]\n'
                 'task = [{ name = "a", priority = 1, script = ["work 3"] }]\ndaemon = { name = "d", priority = 0, length = 1 }\n')
    texts = application.read_application("low.toml")
    for line, bars in (("1 1 isr h 0 set = 1\n", [(0, 3, "READY")]), ("1 1 isr h 0 set = 0\n", [])):
        base = base_run.given_base(source_of(f"base: stuck in 3 steps, 3 ticks\n{line}").reader())
        equal(bars_of(timeline.of_base(base, texts), "d"), bars)


@case
def pictures_have_the_daemon():
    for row in (0, 4, 8, 27, 51, 76, 77):
        picture = good_and_quick("svg", "--row", str(row), *GIVEN)
        equal(overlaps(tree.fromstring(picture).iter(f"{SVG}text")), [])
        holds(picture, "svc waits in receive commands: steps ")
    picture = good_and_quick("svg", f"{DAEMON}.out", "--application", f"{DAEMON}.toml")
    for part in ("svc: set events = 0; step 11", "svc: clear events = 6; step 19", "key: set events = 1, clear events = 0; step 8",
                 "svc waits in receive commands: steps 25 to 37", "waits: receive commands</text>"):
        holds(picture, part)
    trace = json.loads(good_and_quick("perfetto", f"{DAEMON}.out", "--application", f"{DAEMON}.toml"))["traceEvents"]
    track = next(it["tid"] for it in trace if it["name"] == "thread_name" and it["args"]["name"] == "svc")
    told = [it["name"] for it in trace if it["tid"] == track and it["ph"] == "X"]
    equal(told.count("waits: receive commands"), 2)
    equal(told.count("queue locked"), 2)
    dump = good_and_quick("vcd", f"{DAEMON}.out", "--application", f"{DAEMON}.toml")
    scope = dump[dump.index("$scope module svc $end") :].partition("$upscope")[0]
    equal(re.findall(r" (\w+) \$end", scope.partition("$end")[2]), ["runs", "waits", "answer"])
    page = good_and_quick("html", *GIVEN)
    holds(page, '"waits","receive commands"]')


@case
def a_command_without_room_is_a_failed_call():
    names = good_and_quick("classes", "--names", *GIVEN).splitlines()
    assert any("; key: clear events 4 = 0" in it for it in names), names
    holds("\n".join(names), "as the base run; key: set events 1 = 0; key: clear events 4 = 0\n")
    assert any("; key 1 clear = 0" in it for it in good_and_quick("classes", "--names", *WITHOUT_TEXTS).splitlines())
    end = "pass in 9 steps, 2 ticks"
    with open("base", "w") as it:
        it.write(f"base: {end}\n8 2 run -\n")
    rows = [(step, "h", True, end, [f"{step} 0 isr h 0 {word} = {int(step != 4)}\n", "8 2 run -\n"])
            for step, word in enumerate(("set", "clear", "set", "clear", "set", "bits"))]
    found = good_and_quick("classes", "--names", "--base", "base", text=report_of(rows)).splitlines()
    equal(found, ["1 row: as the base run; h 0 set = 0", "5 rows: as the base run"])


@case
def nobody_waits_for_the_daemon_at_the_end():
    """It waits at the end of a run that is stuck, as it always does; that is no cause."""
    with open("stuck.toml", "w") as it:
        it.write('group = [{ name = "g" }]\nhandler = [{ name = "h", ops = ["set g 1"] }]\n'
                 'task = [{ name = "a", priority = 1, script = ["wait g 3 all keep forever"] }]\n'
                 "daemon = { name = 'd', priority = 0, length = 1 }\n[campaign]\npoints = ['0 h']\n")
    lines = ["0 0 isr h 0 set = 1\n", "1 0 run d\n", "4 0 call d 1 set = 1\n", "9 0 run -\n"]
    text = report_of([(0, "h", True, "stuck in 10 steps, 0 ticks", lines)])
    with open("rows", "w") as it:
        it.write(text)
    found = good_and_quick("classes", "--names", "--failing", "rows", "--application", "stuck.toml")
    equal(found, "1 row: stuck: a in wait g 3 all keep forever [h]\n")


@case
def what_is_drawn_of_the_daemon_is_the_state_that_the_program_writes():
    text = read(f"{DAEMON}.toml").decode()
    found = timeline.of_base(base_of_daemon(), texts_of_daemon())
    if states_differ(found, text) is None:
        print("   (skipped: there is no built program that writes the state)")


@case
def the_stored_report_is_what_the_program_writes():
    words = {"run": "out", "campaign": "report"}
    if not os.access(PROGRAM, os.X_OK):
        print("   (skipped: there is no built program)")
        return
    for word, end in words.items():
        ran = subprocess.run([PROGRAM, word, f"{DAEMON}.toml"], capture_output=True, timeout=PATIENCE)
        equal(ran.stdout, read(f"{DAEMON}.{end}"))
