"""Cases of tests/report: what a page holds. That a browser shows it is tried by tests/page."""
import json
import os
import re
import shutil
import subprocess

from cases import case, equal, holds
from reports import LOST, PATIENCE, RACE, ROOT, RUN, good, good_and_quick, quick, read, report_of, report_of_pairs, source_of, total_of

OLD, NEW, SUSPENDS = (f"{ROOT}/tests/{it}" for it in ("of_versions/old", "of_versions/new", "of_suspends/suspends"))
EXAMPLE = f"{ROOT}/tests/of_stuck/lost_wake_up"


def page(name, *words):
    return good_and_quick("html", f"{name}.report", "--application", f"{name}.toml", "--base", f"{name}.out", *words)


def data_of(text):
    """The data of a page, with the first rows of its classes."""
    found = re.search(r'<script type="application/json" id="data">(.*?)</script>', text, re.DOTALL)
    firsts = re.findall(r'<script type="application/json" id="first-([0-9]+)">(.*?)</script>', text, re.DOTALL)
    equal([int(it) for it, _ in firsts], list(range(len(firsts))))
    return {**json.loads(found[1]), "firsts": [json.loads(it) for _, it in firsts]}


def lines_of_first(data, first):
    """The lines of a first row: those that it shares with the base run, and its own."""
    return lines_of(data, [*data["base"]["lines"][: 3 * first["shared"]], *first["lines"]])


def base_lines_of(data, first):
    """The lines of the base run beside a first row, as a browser puts them there."""
    lines, others = lines_of_first(data, first).splitlines(), lines_of(data, first["others"]).splitlines()
    found = []
    for mark in first["marks"]:
        row = None if mark == "<" else lines.pop(0)
        found += [others.pop(0)] if mark in "~|<" else [row] if mark == " " else []
    return "".join(f"{it}\n" for it in found)


def lines_of(data, numbers):
    triples = zip(numbers[::3], numbers[1::3], numbers[2::3])
    return "".join(f"{step} {tick} {data['texts'][text]}\n" for step, tick, text in triples)


def points_of(data):
    """Each row's step and handler, with the index of its class."""
    found, numbers = {}, data["points"]
    for row, step, handler, index, count in zip(*(numbers[at::5] for at in range(5))):
        for more in range(count):
            found[row + more] = step + more, data["handlers"][handler], index
    return found


@case
def a_page_has_all_points_and_the_first_rows_whole():
    for name in (EXAMPLE, OLD, SUSPENDS, f"{ROOT}/tests/of_several/two_presses"):
        data = data_of(page(name))
        runs = list(source_of(read(f"{name}.report").decode()).reader())
        firsts = {it["row"]: it for it in data["firsts"]}
        counts = {}
        for run in runs:
            first = firsts.get(run.head.row)
            assert not first or base_lines_of(data, first) == read(f"{name}.out").decode().partition("\n")[2]
            assert not first or (first["head"], lines_of_first(data, first)) == (run.head.text(), run.text.decode())
        for row, (step, handler, index) in points_of(data).items():
            equal((step, handler), tuple(runs[row].head.point[0]))
            counts[index] = counts.get(index, 0) + 1
        equal(len(points_of(data)) + len(data["missed"]), len(runs))
        equal([it["rows"] for it in data["classes"]], [counts.get(it["index"], 0) + it["missed"] for it in data["classes"]])
        words = ["--names", "--failing", f"{name}.report", "--application", f"{name}.toml", "--base", f"{name}.out"]
        passing = sum(it.head.verdict.passes for it in runs)
        equal([f"{it['rows']} row{'s' * (it['rows'] > 1)}: {it['name']}" for it in data["classes"]],
              [*good_and_quick("classes", *words).splitlines(), *[f"{passing} row{'s' * (passing > 1)}: pass"] * (passing > 0)])
        equal(lines_of(data, data["base"]["lines"]), read(f"{name}.out").decode().partition("\n")[2])
        rows = [*((row, it[2]) for row, it in points_of(data).items()), *((row, index) for row, _, index in data["missed"])]
        equal({it["row"] for it in data["firsts"]}, {min(row for row, index in rows if index == it["index"]) for it in data["classes"]})


@case
def a_page_asks_for_nothing():
    text = page(EXAMPLE)
    urls = set(re.findall(r"[a-z]+://[^\s\"'`]+", text))
    equal(urls, {"http://www.w3.org/2000/svg"})
    assert not re.search(r"\b(src|href)=", text.split('id="data"')[0]) and "@import" not in text and "url(" not in text
    equal(text.count("<script"), 2 + len(data_of(text)["firsts"]))
    os.mkdir("<")
    shutil.copy(f"{EXAMPLE}.toml", "</script><!-- b.toml")
    odd = good_and_quick("html", f"{EXAMPLE}.report", "--application", "</script><!-- b.toml", "--base", f"{EXAMPLE}.out")
    equal((odd.count("</script>"), odd.count("<!--")), (text.count("</script>"), 0))
    equal(data_of(odd)["title"], "</script><!-- b.toml: 20 rows")
    equal(text, page(EXAMPLE))


@case
def a_link_to_a_class_lasts():
    links = [[(it["name"], it["link"]) for it in data_of(page(name))["classes"] if it["fails"]] for name in (OLD, NEW)]
    equal(*map(sorted, links))
    assert all(re.fullmatch(r"[a-z0-9-]+-[0-9a-f]{8}", link) for _, link in links[0])


@case
def ops_of_scripts_are_at_their_steps():
    """Each call's line is in the last step of its op, for every task whose script is known."""
    for name in (EXAMPLE, OLD, SUSPENDS):
        data = data_of(page(name))
        for first in data["firsts"]:
            lanes, told = first["lanes"], lines_of_first(data, first).splitlines()
            ops = {lanes["names"][lane][0]: list(zip(*(numbers[at::3] for at in range(3)))) for lane, numbers in lanes["ops"]}
            calls = [it.split() for it in told if it.split()[2] == "call"]
            for step, _, _, task, op, *_ in calls:
                assert any(end == int(step) + 1 and there == int(op) for _, end, there in ops[task]), (name, first["head"], step, task)
            for task, stretches in ops.items():
                runs = [it for it in lanes["bars"] if lanes["names"][it[0]][0] == task and it[3] == "runs"]
                equal(sum(end - start for start, end, _ in stretches), sum(it[2] - it[1] for it in runs))


@case
def pages_of_odd_reports():
    empty = data_of(good_and_quick("html", text=total_of([])))
    equal((empty["rows"], empty["classes"], empty["base"]), (0, [], None))
    alone = data_of(good_and_quick("html", text=RUN))
    equal((alone["rows"], alone["base"]["head"]), (0, RUN.partition("\n")[0]))
    for run in ("base: pass in 0 steps, 0 ticks\n", "base: pass in 3 steps, 1 ticks\n1 0 run b\n2 1 run -\n"):
        equal(data_of(good_and_quick("html", text=run))["base"]["lanes"]["endings"], [[1, 3]] if "run b" in run else [])
    cut = "".join(read(RACE).decode().splitlines(True)[:9])
    status, out, _ = quick("html", "--partial", text=cut)
    equal((status, data_of(out)["rows"]), (0, 1))
    part = data_of(good_and_quick("html", RACE))
    holds(part["base"]["words"], "presumed")
    equal(part["command"], {"show": RACE, "base": ""})
    long = [(0, "h", True, "stuck in 30001 steps, 4 ticks", [f"{step} 0 mark a 1\n" for step in range(30_000)])]
    equal(data_of(good_and_quick("html", text=report_of(long)))["firsts"][0]["tooLong"], 30_000)


@case
def a_short_row_of_a_long_run_is_beside_the_base_run():
    """Also where the base run is too long for the page; and of a row that is too long there is the part around what differs."""
    base = [f"{step} 0 mark a {step % 7}\n" for step in range(30_000)]
    short = (5, "h", True, "check a 2 in 9 steps, 4 ticks", [*base[:5], "5 0 isr h 0 send = 1\n", "6 0 mark a 9\n"])
    long = (70, "h", True, "check a 3 in 30000 steps, 4 ticks", [*base[:70], "70 0 isr h 0 send = 0\n", *base[70:20_000], "20000 0 mark b 1\n", *base[20_001:]])
    # (what differs first, and the end of the row, are far from each other and from the end of the base run)
    half = (70, "h", True, "check a 4 in 15000 steps, 4 ticks", [*base[:70], "70 0 isr h 0 send = 0\n", *base[70:2_000], "2000 0 mark b 1\n", *base[2_001:14_999], "14999 0 mark b 2\n"])
    with open("base", "w") as it:
        it.write("base: stuck in 30000 steps, 4 ticks\n" + "".join(base))
    data = data_of(good_and_quick("html", "--base", "base", text=report_of([short, long, half])))
    equal((data["base"]["tooLong"], data["base"]["lines"]), (30_000, []))
    first, second, third = data["firsts"]
    equal((len(first["lanes"]["notes"]), second["tooLong"], "tooLong" in third), (7, 30_001, False))
    for it, own in ((first, "6 0 mark a 9\n"), (second, "20000 0 mark b 1\n"), (third, "2000 0 mark b 1\n"), (third, "14999 0 mark b 2\n")):
        beside = base_lines_of(data, it).splitlines(True)
        assert set(beside) < set(base) and own not in beside and own in lines_of(data, it["lines"]), it["head"]
        assert 30_001 <= len(it["marks"]) + sum(count for _, count in it["folds"]) <= 30_003
        assert len(it["marks"]) < 1500 and it["marks"].count("+") == 1, it["marks"]


def classes_in_a_browser(text):
    """What a page shows of each class, as node runs its code; None where there is no node."""
    if shutil.which("node") is None:
        print("   (skipped: there is no node)")
        return None
    with open("page.html", "w") as it:
        it.write(text)
    ran = subprocess.run(["node", f"{ROOT}/tests/page_without_browser.js", "page.html"], capture_output=True, timeout=PATIENCE)
    equal((ran.returncode, ran.stderr), (0, b""))
    return [json.loads(it) for it in ran.stdout.splitlines()]


@case
def the_code_of_a_page_shows_the_lines_and_cuts_no_text():
    for name in ("overrun", "lost_wake_up", "lost_wake_up_cured", "opposite_locks", "late_answer", "drivers/i2c_transfer"):
        file = f"{ROOT}/examples/{name}"
        text = page(file)
        data = data_of(text)
        for it in classes_in_a_browser(text) or []:
            first = data["firsts"][next(there["index"] for there in data["classes"] if there["name"] == it["name"])]
            equal("".join(f"{line}\n" for line in it["row"] if line), lines_of_first(data, first))
            equal("".join(f"{line}\n" for line in it["base"] if line), base_lines_of(data, first))
            assert it["needed"] <= it["width"] <= 900, (it["name"], it["needed"], it["width"])
            last = [told for _, step, _, told in first["lanes"]["notes"] if step == first["lanes"]["steps"] - 1]
            assert not last or any(data["texts"][last[-1]] in shown for shown in it["texts"]), (it["name"], it["texts"])


@case
def a_page_of_pairs_has_a_map_of_two_axes():
    for it in classes_in_a_browser(good_and_quick("html", text=report_of_pairs())) or []:
        failing = [text for text in it["cells"] if " class 1: check a 1" in text]
        equal((len(it["cells"]), len(failing), failing[0][:16]), (32, 8, "0 h 2 k: row 2, "))
    for it in classes_in_a_browser(page(f"{ROOT}/examples/overrun")) or []:
        equal(it["cells"], [])


@case
def a_page_of_many_rows_is_small():
    end = "stuck in 60000 steps, 4 ticks"
    rows = [(step, "h", True, end, [f"{step} 1 isr h 0 send = {int(step % 977 > 9)}\n"]) for step in range(50_000)]
    text = good_and_quick("html", text=report_of(rows))
    assert len(text) < 200_000, len(text)
    equal(sum(it["rows"] for it in data_of(text)["classes"]), 50_000)
    equal(len(points_of(data_of(text))), 50_000)
    assert good("html", LOST, "-o", "page.html") == "" and read("page.html").startswith(b"<!doctype html>")


@case
def a_page_of_many_classes_is_small_and_has_its_passing_rows_in_one():
    rows = []
    for step in range(9_000):
        number = step % 1_826
        lines = [f"{step} 1 isr h 0 send = {number % 2}\n", *(f"{step + at} 1 call a {at} send = {number >> at & 1}\n" for at in range(1, 12))]
        fails = number < 900
        end = f"check t{number // 250} {number % 250} in 9100 steps, 4 ticks" if fails else "pass in 9100 steps, 4 ticks"
        rows.append((step, "h", True, end, lines if fails else [*lines, "9099 4 run -\n"]))
    text = good_and_quick("html", text=report_of(rows))
    data = data_of(text)
    equal((len(data["classes"]), data["classes"][-1]["name"]), (901, "pass"))
    equal([it["fails"] for it in data["classes"]], [True] * 900 + [False])
    assert len(text) < 2_000_000, len(text)
