"""Cases of tests/report: lines of C beside ops, by the map of an application. tests/of_c has the maps of two examples."""
import json
import os
import re
import xml.etree.ElementTree as tree

from cases import case, equal, holds
from report_page import classes_in_a_browser, data_of
from reports import ROOT, SVG, good, good_and_quick, is_refused, overlaps, quick, read, stand_in
from running import write
from rtosim_report import application, source_map

MAPS = f"{ROOT}/tests/of_c"
LOST, BUS, PRESSES = f"{ROOT}/examples/c/lost_wake_up", f"{ROOT}/examples/c/shared_bus", f"{ROOT}/tests/of_several/two_presses"
LOST_MAP, BUS_MAP = f"{MAPS}/lost_wake_up.json", f"{MAPS}/shared_bus.json"
OF_LOST = [f"{LOST}.report", "--application", f"{LOST}.toml", "--base", f"{LOST}.out"]
COMMANDS = (["classes"], ["show", "2"], ["json"], ["junit"], ["svg", "--row", "2"], ["svg"], ["svg", "--campaign"], ["html"],
            ["perfetto", "--row", "2"], ["vcd", "--row", "2"])
PLACE = "examples/c/lost_wake_up.c"
LOOK, SUSPENSION = "if (uxQueueMessagesWaiting(rx) == 0) {", "vTaskSuspend(NULL);"


def made_map(name, **changes):
    """A map of any application: op 3 of the second task is in line 203, and so on."""
    found = application.read_application(f"{name}.toml")
    owners = {}
    for kind in ("tasks", "handlers"):
        owners[kind] = {script.name: [
            {"op": op.text, "file": "driver.c", "line": 100 * (number + 1) + at, "column": 1, "text": f"C of {op.text}"}
            for at, op in enumerate(script.ops)] for number, script in enumerate(getattr(found, kind).values())}
    write("map.json", json.dumps({"version": 1, "source": "driver.c", **owners, **changes}))
    return "map.json"


@case
def a_class_shows_the_moment_and_the_failure_in_c():
    lines = good_and_quick("classes", "--failing", *OF_LOST, "--source", LOST_MAP).splitlines()
    equal([it.strip() for it in lines[4:11]], [
        "check check: expect 0; USART1: resume driver = 0 [USART1]", "check: waiting = 1, where the base run has 0",
        f"USART1 comes after {PLACE}:41: {LOOK}", f"and before {PLACE}:42: {SUSPENSION}",
        f"USART1: {PLACE}:26: xTaskResumeFromISR(driver_handle);", 'check check 2: "expect 0", the answer is 1',
        f"{PLACE}:56: configASSERT(uxQueueMessagesWaiting(rx) == 0);"])
    holds(good_and_quick("junit", *OF_LOST, "--source", LOST_MAP), f"USART1 comes after {PLACE}:41: {LOOK}\nand before {PLACE}:42: ")


@case
def tasks_that_are_stuck_are_at_lines_of_c():
    companion = stand_in(os.getcwd(), "c/shared_bus")
    table = good("classes", "--failing", "--application", f"{BUS}.toml", "--source", BUS_MAP, companion=companion)
    for name, call, end in (("display", 44, "(held by sensor)"), ("sensor", 55, "(held by display)")):
        holds(table, f"{name}: examples/c/shared_bus.c:27 (called at {call}): xSemaphoreTake(second, portMAX_DELAY);\n")
        holds(table, end)


@case
def names_of_classes_are_the_same_with_a_map():
    words = ["classes", "--names", *OF_LOST]
    equal(good_and_quick(*words, "--source", LOST_MAP), good_and_quick(*words))


@case
def each_of_several_interrupts_has_its_moment():
    words = [f"{PRESSES}.report", "--application", f"{PRESSES}.toml", "--base", f"{PRESSES}.out", "--source", made_map(PRESSES)]
    table = good_and_quick("classes", "--failing", *words)
    first = re.search(r"\n +\d+ .*? (\d+) key (\d+) key .*\n((?: {7}.*\n)*)", table)
    moments = [it for it in first[3].splitlines() if re.match(r" {7}(key \(before step \d+\) comes|key comes|and before) ", it)]
    steps = [f"key (before step {it}) comes" for it in dict.fromkeys(first.groups()[:2])]
    assert len(steps) == 2 and all(sum(step in it for it in moments) == 1 for step in steps), table
    for it in moments:
        assert " while " in it or re.search(r"driver\.c:\d+: C of \w+", it), it


@case
def a_row_has_a_column_of_c():
    shown = good_and_quick("show", "2", *OF_LOST, "--source", LOST_MAP).splitlines()
    without = good_and_quick("show", "2", *OF_LOST).splitlines()
    place = shown[0].index(PLACE)
    equal(shown[0][:place].rstrip(), without[0])
    for line, plain in zip(shown[1:8], without[1:8]):
        equal(line[:place].rstrip(), plain)
        if " run " in plain:
            equal(line[place:], "")
        else:
            number, text = line[place:].split(": ", 1)
            holds(read(f"{LOST}.c").decode().splitlines()[int(number) - 1], text)
    equal(shown[8:10], [f"  USART1 comes after {PLACE}:41: {LOOK}", f"  and before {PLACE}:42: {SUSPENSION}"])
    holds(read(f"{ROOT}/docs/REPORTS.md").decode(), "".join(f"    {it}\n" for it in shown))


@case
def objects_name_the_places():
    out = good_and_quick("json", *OF_LOST, "--source", LOST_MAP)
    equal(re.sub(r',"source":"[^"]*"', "", out), good_and_quick("json", *OF_LOST))
    for row in map(json.loads, out.splitlines()):
        equal([it["event"] in ("call", "isr") for it in row["events"]], ["source" in it for it in row["events"]])
    row = json.loads(out.splitlines()[2])
    equal((row["verdict"]["source"], row["events"][0]["source"]), (f"{PLACE}:56", f"{PLACE}:41"))
    traced = json.loads(good_and_quick("perfetto", "--row", "2", *OF_LOST, "--source", LOST_MAP))["traceEvents"]
    equal([it["args"]["source"] for it in traced if it["name"].startswith("waiting")][0], f"{PLACE}:41: {LOOK}")


@case
def pictures_have_numbers_and_the_lines_below():
    plain = good_and_quick("svg", "--row", "2", *OF_LOST)
    for words in (OF_LOST, OF_LOST[:1]):
        text = good_and_quick("svg", "--row", "2", *words, "--source", LOST_MAP)
        root = tree.fromstring(text)
        texts = [it.text for it in root.iter(f"{SVG}text")]
        for it in ("waiting = 0 :41", f":41 {LOOK}", f":42 {SUSPENSION}", PLACE):
            assert any(it.replace("waiting", "waiting rx" if words is OF_LOST and it[0] == "w" else "waiting") in one for one in texts), (it, texts)
        equal(overlaps(root.iter(f"{SVG}text")), [])
        assert float(root.get("height")) > float(tree.fromstring(plain).get("height"))
    many = good_and_quick("svg", "--row", "3", f"{PRESSES}.report", "--application", f"{PRESSES}.toml", "--source", made_map(PRESSES))
    equal(overlaps(tree.fromstring(many).iter(f"{SVG}text")), [])


@case
def a_page_has_lines_of_c_beside_lines_and_ops():
    text = good_and_quick("html", *OF_LOST, "--source", LOST_MAP)
    source = data_of(text)["source"]
    equal((source["main"], source["lines"]["driver"][1]), (PLACE, f"41: {LOOK}"))
    equal(data_of(good_and_quick("html", *OF_LOST))["source"], None)
    for it in classes_in_a_browser(text) or []:
        for line, beside in zip(it["row"], it["source"]):
            equal(bool(re.search(r" (call|isr) ", line)), bool(beside)) if line else None
        holds(it["source"], f"41: {LOOK}")
        holds(it["scripts"], f"waiting rx41: {LOOK}")


@case
def a_map_of_another_application_is_refused():
    good_map = json.loads(read(LOST_MAP))

    def refused(words, part, **changes):
        write("map.json", json.dumps({**good_map, **changes}))
        for command in COMMANDS:
            status, out, err = quick(*command, *words, "--source", "map.json")
            equal((command, status, out), (command, 3, ""))
            holds(err, part)

    driver, check = good_map["tasks"]["driver"], good_map["tasks"]["check"]
    refused(OF_LOST, f"map.json is no map of {LOST}.toml: op 0 of driver is \"work 14\" in the map, and \"repeat forever\" in the application",
            tasks={"driver": check})
    refused(OF_LOST, f"map.json is no map of {LOST}.toml: driver has 4 ops in the map, and 10 in the application", tasks={"driver": driver[:4]})
    refused(OF_LOST, f"map.json is no map of {LOST}.toml, which has no task other", tasks={"driver": driver, "other": check})
    refused(OF_LOST, f"map.json is no map of {LOST}.toml, which has no handler driver", handlers={"driver": driver}, tasks={})
    good_and_quick("classes", *OF_LOST, "--source", made_map(LOST, handlers={}))
    write("map.json", json.dumps({**good_map, "tasks": {"driver": check}}))
    for command in (["show", "2"], ["json"], ["svg", "--row", "2"], ["html"], ["perfetto", "--row", "2"]):
        status, out, err = quick(*command, *OF_LOST[:1], "--source", "map.json")
        equal((command, status, out), (command, 3, ""))
        assert re.search(r"map.json is no map of this report: op \d of driver is not there in the map, and `\w+` in the report", err), err


def changed(value):
    """The value with one of its parts taken away or made odd, each in turn."""
    yield from (None, [], {}, "x", -1, 1.5, True)
    parts = value.items() if isinstance(value, dict) else enumerate(value) if isinstance(value, list) else ()
    for key, part in list(parts)[:4]:
        if isinstance(value, dict):
            yield {name: it for name, it in value.items() if name != key}
        for one in changed(part):
            yield {**value, key: one} if isinstance(value, dict) else [*value[:key], one, *value[key + 1 :]]


@case
def what_is_no_map_is_refused():
    for text in (b"", b"no JSON", b"\xff", b"[" * 100_000):
        with open("map.json", "wb") as it:
            it.write(text)
        is_refused(None, "rtosim-report: map.json is no map of `rtosim-from-c --map`: it isn't JSON", words=("json", OF_LOST[0], "--source", "map.json"))
    is_refused(None, "rtosim-report: cannot read none: No such file or directory", words=("json", OF_LOST[0], "--source", "none"))
    found = json.loads(read(LOST_MAP))
    count = 0
    for it in changed({key: found[key] for key in ("version", "tasks", "handlers", "source")}):
        write("map.json", json.dumps(it))
        try:
            source_map.read_map("map.json")
        except source_map.Fault as why:
            count += str(why) == "map.json is no map of `rtosim-from-c --map`, version 1"
    assert count > 200, count


@case
def long_lines_and_odd_characters_of_c_are_fit_to_be_shown():
    found = json.loads(read(LOST_MAP))
    found["tasks"]["driver"][1].update(text=f"if (\x1b[31m\t  {'x' * 200}", file="../\x1b</script>.c")
    write("map.json", json.dumps(found))
    table = good_and_quick("classes", "--failing", *OF_LOST, "--source", "map.json")
    holds(table, "USART1 comes after ../\\x1b</script>.c:41: if (\\x1b[31m xxx")
    assert "\x1b" not in table and "x" * 101 not in table
    text = good_and_quick("html", *OF_LOST, "--source", "map.json")
    equal(text.count("</script>"), good_and_quick("html", *OF_LOST).count("</script>"))
    tree.fromstring(good_and_quick("svg", "--row", "2", *OF_LOST, "--source", "map.json"))
