"""Cases of tests/report: pictures, traces and dumps."""
import colorsys
import json
import os
import re
import shutil
import subprocess
import xml.etree.ElementTree as tree

from cases import case, equal, holds
from reports import (LOST, PATIENCE, PROGRAM, RACE, ROOT, SVG, good, good_and_quick, overlaps, read, report_of, source_of,
                     timeline_of)
from rtosim_report import application, base_run, colours, timeline
from rtosim_report.report import Verdict
from rtosim_report.source import Source
from rtosim_report.subticks import SubTicks

SUSPENDS = f"{ROOT}/tests/of_suspends/suspends"


def pictures():
    """Runs of reports of several sizes, as the companion's pictures."""
    for row in (0, 1, 2, 19):
        yield good_and_quick("svg", "--row", str(row), LOST)
    for name in sorted(os.listdir(f"{ROOT}/examples")):
        if name.endswith(".out"):
            yield good_and_quick("svg", f"{ROOT}/examples/{name}")
            yield good_and_quick("svg", f"{ROOT}/examples/{name}", "--application", f"{ROOT}/examples/{name[:-3]}toml")
    day = f"{ROOT}/examples/a_day_of_a_sensor"
    yield good_and_quick("svg", "--row", "20", f"{day}.report", "--application", f"{day}.toml", "--base", f"{day}.out")
    yield good_and_quick("svg", f"{SUSPENDS}.out", "--application", f"{SUSPENDS}.toml")
    yield good_and_quick("svg", text=long_run(2_000))


def long_run(steps):
    """Two tasks that send and receive, in this many steps."""
    lines, running = [], "a"
    for step in range(steps - 1):
        if step % 7 == 3:
            lines.append(f"{step} {step // 3} call {running} {step % 200} send = {step % 2}\n")
        if step % 11 == 5:
            running = {"a": "b", "b": "-", "-": "a"}[running]
            lines.append(f"{step} {step // 3} run {running}\n")
        if step % 7 == 2 and running == "-":
            lines = lines if lines[-1].split()[2] == "run" else lines
    text = "".join(it for it in lines if "call - " not in it)
    return f"base: ticks in {steps} steps, {steps // 3} ticks\n{text}"


@case
def pictures_are_legible():
    for text in pictures():
        root = tree.fromstring(text)
        bars = [it for it in root.iter(f"{SVG}rect") if it.get("class") in ("runs", "waits", "sleeps", "suspended")]
        bars = [it for it in bars if it.get("height") == "14"]
        assert bars and all(it.find(f"{SVG}title") is not None for it in bars)
        equal(overlaps(root.iter(f"{SVG}text")), [])
        width = float(root.get("width"))
        assert width < 1400 and all(float(it.get("x", 0)) + float(it.get("width")) <= width for it in root.iter(f"{SVG}rect"))
        equal([it.text for it in root.iter(f"{SVG}text") if right_of(it) > width], [])
        holds(text, "prefers-color-scheme:dark")
    assert len(good_and_quick("svg", text=long_run(200_000))) < 12_000_000


def right_of(text):
    """Where a text of a picture ends."""
    width = 7.3 * len(text.text) * (14 / 12 if "title" in text.get("class", "") else 1)
    return float(text.get("x")) + width / (2 if text.get("text-anchor") == "middle" else 1)


@case
def the_answer_of_a_failed_check_is_seen():
    """Also where there is no room for it: those beside it give way. In all rows of all examples that end with a check."""
    seen = 0
    for name in sorted(it[:-7] for folder in ("", "drivers/") for it in (folder + it for it in os.listdir(f"{ROOT}/examples/{folder}")) if it.endswith(".report")):
        file = f"{ROOT}/examples/{name}"
        for run in Source(open(f"{file}.report", "rb")).reader():
            if run.head.verdict.kind != "check" or seen > 300:
                continue
            lines = [it.split() for it in run.text.decode().splitlines() if f" {run.head.verdict.task} " in it and it.split()[2] in ("call", "isr")]
            words = ["--row", f"{run.head.row}", f"{file}.report", "--application", f"{file}.toml", "--base", f"{file}.out"]
            shown = [it.text for it in tree.fromstring(good_and_quick("svg", *words)).iter(f"{SVG}text")]
            answer = re.compile(rf"{lines[-1][5]}( \w+)? = {lines[-1][7]}(, .*|( :\d+)?)( \+\d+)?$")
            assert any(answer.search(it) for it in shown), (name, run.head.text(), lines[-1], shown)
            seen += 1
    assert seen > 100, seen


@case
def what_an_injected_handler_does_is_seen():
    """Though what it does at its ticks has texts in the same place."""
    lines = [f"{step} {step} isr uart {op} {word} = 1\n" for step in (3, 4, 5) for op, word in enumerate(("send", "load", "add", "store"))]
    text = "row 0 at 5 uart: check a 2 in 60 steps, 9 ticks\n" + "".join(lines).replace("5 5 isr uart 3 store = 1", "5 5 isr uart 3 store = 7") + "59 9 call a 1 load = 0\n"
    shown = [it.text for it in tree.fromstring(good_and_quick("svg", "--row", "0", text=text)).iter(f"{SVG}text")]
    assert any(it.startswith("send = 1, load = 1, add = 1, store = 7") for it in shown), shown


@case
def the_map_has_a_cell_for_each_point():
    root = tree.fromstring(good_and_quick("svg", "--campaign", LOST))
    titles = [it.find(f"{SVG}title").text for it in root.iter(f"{SVG}rect") if it.find(f"{SVG}title") is not None]
    equal(len(titles), 20)
    equal(titles[0], "uart before step 0: class 1: stuck: driver after 1 suspend; uart 1 resume = 0 [uart]")
    holds(titles[2], "uart before step 2: class 2 (pass): driver runs, where idle runs in the base run")
    equal(overlaps(root.iter(f"{SVG}text")), [])
    end = "stuck in 40000 steps, 4 ticks"
    wide = [(step, "h", True, end, [f"{step} 1 isr h 0 send = {int(step == 7777)}\n"]) for step in range(30_000)]
    root = tree.fromstring(good_and_quick("svg", "--campaign", text=report_of(wide)))
    cells = [it.find(f"{SVG}title").text for it in root.iter(f"{SVG}rect") if it.find(f"{SVG}title") is not None]
    assert 500 < len(cells) < 1100, len(cells)


@case
def a_browser_opens_a_picture():
    browser = shutil.which("chromium") or shutil.which("chromium-browser")
    if not browser:
        print("   (skipped: there is no chromium)")
        return
    with open("picture.svg", "w") as it:
        it.write(good("svg", "--row", "2", LOST))
    words = ["--headless", "--no-sandbox", "--disable-gpu", "--window-size=1200,400", "--screenshot=picture.png"]
    words += [f"--user-data-dir={os.getcwd()}/profile", "picture.svg"]
    subprocess.run([browser, *words], capture_output=True, timeout=PATIENCE, check=True)
    assert read("picture.png").startswith(b"\x89PNG") and len(read("picture.png")) > 10_000


@case
def the_trace_has_the_keys_that_its_format_requires():
    for words in (["--row", "8", RACE], [f"{ROOT}/examples/priority_inversion.out"]):
        trace = json.loads(good_and_quick("perfetto", *words))
        equal(sorted(trace), ["displayTimeUnit", "otherData", "traceEvents"])
        for it in trace["traceEvents"]:
            assert {"name", "ph", "ts", "pid", "tid"} <= set(it), it
            assert it["ph"] in "MXi" and it["ts"] >= 0, it
            assert it["ph"] != "X" or it["dur"] > 0, it
            assert it["ph"] != "i" or it["s"] in "gt", it
        named = {it["tid"] for it in trace["traceEvents"] if it["name"] == "thread_name"}
        assert {it["tid"] for it in trace["traceEvents"] if it["ph"] == "X"} <= named


@case
def the_dump_is_read_by_others():
    converter = shutil.which("vcd2fst")
    if not converter:
        print("   (skipped: there is no vcd2fst)")
    reports = [f"{ROOT}/examples/{it}" for it in sorted(os.listdir(f"{ROOT}/examples")) if it.endswith(".out")]
    for words in [["--row", "8", RACE], ["--row", "1", LOST], *[[it] for it in reports]]:
        text = good_and_quick("vcd", *words)
        declared, _, changes = text.partition("$enddefinitions $end\n")
        codes = {it.split()[3] for it in declared.splitlines() if it.startswith("$var")}
        times = [int(it[1:]) for it in changes.splitlines() if it.startswith("#")]
        equal(times, sorted(set(times)))
        for it in changes.splitlines():
            if not it.startswith("#"):
                assert (it.split()[1] if it[0] == "b" else it[1:]) in codes, it
        if converter:
            with open("dump.vcd", "w") as it:
                it.write(text)
            subprocess.run([converter, "dump.vcd", "dump.fst"], check=True, capture_output=True, timeout=PATIENCE)
            assert os.path.getsize("dump.fst") > 100


@case
def a_timeline_tells_who_runs_and_who_waits():
    found = timeline_of("lost_wake_up", 5, "tests/of_stuck")
    bars = {(it.lane.name, it.start, it.end, it.doing.value) for it in found.bars}
    equal(bars, {
        ("driver", 0, 2, "runs"), ("driver", 2, 5, "is suspended"), ("other", 2, 5, "runs"), ("driver", 5, 7, "runs"),
        ("other", 7, 22, "runs"), ("other", 0, 2, "is ready"), ("other", 5, 7, "is ready"),
    })
    waits = [it for it in timeline_of("priority_inversion").bars if it.doing is timeline.Doing.WAITS]
    equal([(it.lane.name, it.start, it.end, it.word) for it in waits], [("high", 9, 12, "lock")])
    windows = [(it.start, it.end, it.kind.name) for it in timeline_of("timeout_race").windows]
    equal(windows, [(1, 4, "LOCKED"), (1, 5, "HELD")])


@case
def at_each_step_one_lane_runs():
    for name in sorted(it[:-4] for it in os.listdir(f"{ROOT}/examples") if it.endswith(".out")):
        found = timeline_of(name)
        turns = sorted((it.start, it.end) for it in found.bars if it.doing is timeline.Doing.RUNS)
        equal([it[0] for it in turns] + [found.steps], [0] + [it[1] for it in turns])
        times = [SubTicks(found).at(it) for it in range(found.steps + 1)]
        equal(times, sorted(set(times)))



def of_suspends(has_texts):
    base = base_run.given_base(source_of(read(f"{SUSPENDS}.out").decode()).reader())
    return timeline.of_base(base, application.read_application(f"{SUSPENDS}.toml") if has_texts else None)


@case
def who_is_suspended_by_another_neither_sleeps_nor_waits():
    found = of_suspends(True)
    bars = {(it.lane.name, it.start, it.end, it.doing.name) for it in found.bars}
    suspended = {it for it in bars if it[3] == "SUSPENDED"}
    equal(suspended, {("sleeper", 12, 41, "SUSPENDED"), ("waiter", 13, 23, "SUSPENDED"), ("worker", 14, 22, "SUSPENDED")})
    for it in (("sleeper", 2, 12, "SLEEPS"), ("waiter", 7, 13, "WAITS"), ("waiter", 23, 24, "READY"), ("worker", 22, 29, "READY")):
        assert it in bars, it
    for name, start, end, _ in suspended:
        for it in of_suspends(False).bars:
            assert it.lane.name != name or it.end <= start or it.start >= end, it


@case
def ready_and_ended_are_told_apart():
    for has_texts in (False, True):
        found = of_suspends(has_texts)
        ends = {it.name: at for it, at in found.endings}
        # without the texts one that doesn't come back from a `delay` may serve for ever, and one that runs no more may be suspended
        known = {"main": 42, "gone": 8} if has_texts else {}
        equal(ends, {**known, "sleeper": 44, "waiter": 36, "worker": 53, "quick": 19})
        for it in found.bars:
            assert it.end <= ends.get(it.lane.name, 99), it
        assert ("quick", 0, 16) in [(it.lane.name, it.start, it.end) for it in found.bars if it.doing is timeline.Doing.READY]
    root = tree.fromstring(good_and_quick("svg", f"{SUSPENDS}.out"))
    equal(sum(it.get("class") == "ended" and it.find(f"{SVG}title") is not None for it in root.iter(f"{SVG}rect")), 4)


@case
def a_task_that_serves_for_ever_has_not_ended_where_the_run_passes():
    for name, ends in (("a_run_ends_amid_the_call_of_an_endless_task", {"t"}), ("an_endless_task_that_is_suspended", {"b"}),
                       ("a_driver_that_serves_two_items", {"t"}), ("an_endless_task_may_end_before_the_others", {"a", "b"})):
        file = f"{ROOT}/tests/runs/endless/{name}"
        base = base_run.given_base(Source(open(f"{file}.out", "rb")).reader())
        equal({it.name for it, _ in timeline.of_base(base, application.read_application(f"{file}.toml")).endings}, ends)
        assert {it.name for it, _ in timeline.of_base(base).endings} <= ends, name


@case
def calls_name_their_object():
    words = [f"{SUSPENDS}.out", "--application", f"{SUSPENDS}.toml"]
    for command in ("svg", "perfetto"):
        text = good_and_quick(command, *words)
        for part in ("receive q = none", "resume sleeper = 1", "delay = 0"):
            holds(text, part)
        assert "receive q" not in good_and_quick(command, words[0])
    holds(good_and_quick("svg", *words), "waiter waits in receive q: steps 7 to 12")


@case
def labels_are_folded_and_not_dropped():
    labels = 0
    for text in pictures():
        root = tree.fromstring(text)
        told = sum(it.get("class") == "note" for it in root.iter(f"{SVG}line"))
        shown = 0
        for it in root.iter(f"{SVG}text"):
            if re.search(r" = |mark ", it.text):
                more = re.search(r" \+([0-9,]+)$", it.text)
                equal(it.find(f"{SVG}title") is not None, more is not None)
                shown += 1 + (int(more[1].replace(",", "")) if more else 0)
        equal(shown, told)
        labels += shown
    assert labels > 300, labels
    holds(good_and_quick("svg", f"{SUSPENDS}.out"), "suspend = 1 +2<title>and suspend = 1; delay = 0</title>")


def hls(colour):
    return colorsys.rgb_to_hls(*(int(colour[at : at + 2], 16) / 255 for at in (1, 3, 5)))


def hue(colour):
    return hls(colour)[0]


def lightness(colour):
    return hls(colour)[1]


@case
def a_long_run_is_one_band_and_the_parts_that_matter():
    steps = 50_000
    lines = [f"{step} {step // 2} {what}\n" for step in range(100, steps, 100) for what in ("call a 0 time = 7",)]
    fails = [*lines[:40], "4050 2025 isr h 0 send = 0\n", *lines[40:]]
    text = report_of([(4050, "h", True, f"check a 2 in {steps} steps, 25000 ticks", fails)])
    with open("base", "w") as it:
        it.write(f"base: stuck in {steps} steps, 25000 ticks\n" + "".join(lines))
    picture = good_and_quick("svg", "--row", "0", "--base", "base", text=text)
    # all of it, around the injection, and the end
    axis = {int(it.replace(",", "")) for it in re.findall(r">([0-9,]+)</text>", picture)}
    assert {0, 20_000, 4_000, 4_050, 4_150, 49_850, 50_000} <= axis and 8_010 not in axis, sorted(axis)
    equal(picture.count("h before step 4050</text>"), 2)
    equal(picture.count(f"check a 2 in {steps} steps, 25000 ticks</title>"), 3)
    holds(picture, "send = 0</text>")
    assert len(picture) < 300_000, len(picture)


@case
def colours_differ_for_all_classes():
    class It:
        def __init__(self, number):
            self.number, self.is_base, self.verdict = number, number == 0, Verdict("", "pass" if number % 2 else "check")

    found = colours.colours_of([It(number) for number in range(4_001)])
    equal(len(set(found.values())), 4_001)
    for number, colour in found.items():
        if number:
            assert (0.24 < hue(colour) < 0.71) == bool(number % 2), (number, colour)
            assert (lightness(colour) > 0.7) == bool(number % 2), (number, colour)
        light = colours.luminance(colour)
        contrast = 1.05 / (light + 0.05) if colours.has_light_text(colour) else (light + 0.05) / 0.05
        assert contrast >= 4.5, (colour, contrast)
    rows = [(at, "h", True, f"check a {at} in 40 steps, 4 ticks", []) for at in range(30)]
    text = good_and_quick("svg", "--campaign", text=report_of(rows))
    holds(text, "and 6 more classes of 6 rows, each in a colour of its own")
    cells = re.findall(r'<rect fill="(#......)"', text)
    equal((len(cells), len(set(cells))), (54, 30))


def states(text, words=()):
    """What the program says of each task after the last step; nothing where it doesn't say it."""
    with open("limited.toml", "w") as it:
        it.write(text)
    ran = subprocess.run([PROGRAM, "run", "limited.toml", "--state", *words], capture_output=True, timeout=PATIENCE)
    return dict(re.findall(r"^state (\S+) (\S+)", ran.stdout.decode(), re.MULTILINE))


ALLOWED = {
    "RUNS": {"runs", "waits", "awake"}, "WAITS": {"waits", "ready", "awake"}, "SLEEPS": {"sleeps", "ready"},
    "SUSPENDED": {"suspended"}, "READY": {"ready"}, "ENDED": {"ended"},
}


def doing_at(found, lane, boundary):
    ended = any(it == lane and at <= boundary for it, at in found.endings)
    doing = [it.doing.name for it in found.bars if it.lane == lane and it.start <= boundary < it.end]
    return doing[0] if doing else "ENDED" if ended else None


def states_differ(found, text):
    """Compares a timeline with the states that the program writes, of each step but the last one: the run is limited to this many
    steps. Answers None where there is no built program that writes them."""
    if not os.access(PROGRAM, os.X_OK) or not states(text):
        return None
    for steps in range(1, found.steps):
        told = states(f"[limits]\nsteps = {steps}\n{text}")
        for lane in found.lanes:
            doing = doing_at(found, lane, steps)
            if doing and lane.name in told:
                assert told[lane.name] in ALLOWED[doing], (steps, lane.name, doing, told[lane.name])
    return found


@case
def what_is_drawn_is_the_state_that_the_program_writes():
    if states_differ(of_suspends(True), read(f"{SUSPENDS}.toml").decode()) is None:
        print("   (skipped: there is no built program that writes the state)")
