"""Cases of tests/report: what a run that fails says at its end. The runs in tests/runs/state and tests/runs/looking are what the
program writes of the files there, with the state at the end."""
import glob
import os
import re
import shutil
import subprocess
import xml.etree.ElementTree as tree

from cases import case, equal, holds
from reports import PATIENCE, PROGRAM, ROOT, SVG, good, good_and_quick, is_refused, overlaps, read, report_of, source_of, stand_in
from running import session, write
from rtosim_report import base_run, end_state, endings, timeline
from rtosim_report.application import read_application
from rtosim_report.reading import lone_run_of

STATES, LOOKING, STAMP = (f"{ROOT}/tests/runs/{it}" for it in ("state", "looking", "stamp"))
LOCKS = f"{ROOT}/examples/opposite_locks"
STUCK = ('stuck: menu waits in op 3 "lock settings forever" (held by saver), saver waits in op 3 "lock display forever" (held by menu)',
         "deadlock: menu waits for saver, which waits for menu")


def ending_of(name, at=0):
    """The lines of a stored run with its state, of a file whose session may have several."""
    _, lines, _ = list(session(os.path.relpath(f"{STATES}/{name}.session", ROOT)))[at]
    found = lone_run_of(source_of(lines.decode()).reader())
    return endings.Endings(read_application(f"{STATES}/{name}.toml")).lines_of(found)


@case
def where_each_task_is():
    for name, at, wanted in (
        ("three_who_wait_for_each_other_and_one_who_waits_for_them", 0, [
            'stuck: x waits in op 2 "lock b forever" (held by y), y waits in op 2 "lock c forever" (held by z), '
            'z waits in op 2 "lock a forever" (held by x), w waits in op 1 "lock b forever" (held by y)',
            "deadlock: x waits for y, which waits for z, which waits for x"]),
        ("a_task_that_locks_what_it_holds", 0, [
            'stuck: driver waits in op 2 "lock bus forever" (held by itself)', "deadlock: driver waits for itself"]),
        ("a_mutex_that_is_held_by_a_task_that_has_ended", 0, [
            'stuck: second waits in op 0 "lock bus forever" (held by first, which has ended)']),
        ("a_wait_with_a_deadline_is_no_deadlock", 0, [
            'ticks: x waits in op 2 "lock b 50" until tick 50 (held by y), y waits in op 2 "lock a forever" (held by x)']),
        ("each_word_but_awake", 0, [
            'ticks: sleeper sleeps until tick 9 before op 1 "time", reader waits in op 0 "receive rx 7" until tick 7, '
            'listener waits in op 0 "wait events 6 all keep forever", resting is suspended at op 1 "work 3", '
            'owner is suspended at op 2 "unlock bus", locker waits in op 0 "lock bus 20" until tick 20 (held by owner), '
            'worker runs at op 1 "work 3", other is Ready at op 0 "work 3"']),
        ("awake_at_a_locked_queue", 2, ['steps: reader is Awake at op 0 "receive rx forever", main is Ready at op 0 "work 5"']),
        ("suspended_amid_a_sleep_and_amid_a_wait", 0, [
            'stuck: sleeper is suspended at op 1 "time", reader is suspended at op 0 "receive rx 7"']),
        ("ticks_of_a_state_across_the_wrap", 0, [
            'ticks: reader waits in op 0 "receive rx 9" until tick 3, sleeper sleeps until tick 4294967289 before op 1 "time", '
            'late sleeps until tick 4294967295 before op 1 "time"']),
        ("the_daemon_is_last", 1, ['stuck: listener waits in op 0 "wait events 3 all keep forever"']),
        ("a_misuse_and_who_holds_the_mutex", 0, ['misuse other 1 3: "unlock bus", of a mutex that the task doesn\'t hold']),
        ("a_run_that_passes_has_ended_tasks_and_endless_ones", 0, []),
        ("a_run_without_a_step", 0, []),
    ):
        equal((name, ending_of(name, at)), (name, wanted))


def endings_of(name):
    """The lines of each row of a stored report that fails."""
    words = endings.Endings(read_application(f"{name}.toml"))
    runs = source_of(read(f"{name}.report").decode()).reader()
    return {it.head.point.text(): words.lines_of(it) for it in runs if not it.head.verdict.passes}


@case
def what_a_check_expected_and_what_the_answer_is():
    for name, wanted in (
        ("a_handler_finds_the_queue_full", {it: 'uart 1: "expect 1", the answer is 0' for it in ("6 uart", "15 uart")}),
        ("the_answer_is_none_at_first_in_each_call_of_a_handler", {
            it: 'second 2: "expect none", the answer is 0' for it in ("0 second", "1 first 1 second", "1 second 1 first")}),
        ("of_the_checks_that_fail_in_a_step_the_first_is_told", {
            "1 h": 'h 0: "expect 1", the answer is none', "1 k": 'k 1: "expect 2", the answer is none',
            "1 k 1 h": 'k 1: "expect 2", the answer is none', "1 h 1 k": 'h 0: "expect 1", the answer is none',
            "0 k 1 h": 'k 1: "expect 2", the answer is none', "1 h 1 h": 'h 0: "expect 1", the answer is none'}),
        ("each_condition_of_none_and_of_a_number_in_a_handler", {
            "3 k": 'k 13: "expect 0", the answer is 5', "3 l": 'l 10: "expect below 5", the answer is 5'}),
    ):
        found = endings_of(f"{LOOKING}/{name}")
        equal((name, found), (name, {point: [f"check {it}"] for point, it in wanted.items()}))
    # of the calls of one handler in one step that one is found in which the check fails
    found = endings_of(f"{LOOKING}/the_rest_of_a_handler_is_not_done_and_the_step_goes_on")
    equal(set(map(tuple, found.values())), {('check h 1: "expect 0", the answer is 1',)})
    found = endings_of(f"{LOOKING}/a_handler_that_looks_at_a_command_without_room")
    equal(set(map(tuple, found.values())), {('check key 7: "expect 1", the answer is 0',)})
    found = endings_of(f"{STAMP}/a_deadline_that_an_interrupt_lets_a_task_miss")
    equal(set(map(tuple, found.values())), {('check reader 4: "expect below 5", the answer is 5',)})
    count = 0
    for folder in (LOOKING, STAMP):
        for file in os.listdir(folder):
            for point, lines in endings_of(f"{folder}/{file[:-7]}").items() if file.endswith(".report") else ():
                equal((file, point, len(lines)), (file, point, 1))
                count += 1
    assert count > 50, count


@case
def each_misuse_has_its_words():
    count = 0
    for file in sorted(it for folder in ("misuse", "branch", "critical") for it in glob.glob(f"{ROOT}/tests/runs/{folder}/*.out")):
        found = lone_run_of(source_of(read(file).decode()).reader())
        if found.head.verdict.kind == "misuse":
            words = endings.Endings(read_application(f"{file[:-4]}.toml")).lines_of(found)
            code = found.head.verdict.numbers[1]
            equal((file, [it.rpartition('"')[2] for it in words]), (file, [f", {endings.MISUSES[code]}"]))
            count += 1
    assert count > 5, count


@case
def a_check_of_no_answer_and_of_each_condition():
    for ops, lines, wanted in (
        (["expect 7"], [], '"expect 7", the answer is none'),
        (["time", "expect not 3"], ["0 3 call a 0 time = 3\n"], '"expect not 3", the answer is 3'),
        (["receive q 0", "expect not none"], ["0 0 call a 0 receive = none\n"], '"expect not none", the answer is none'),
        (["time", "mark 1", "expect above 4"], ["0 4 call a 0 time = 4\n", "1 4 mark a 1\n"], '"expect above 4", the answer is 4'),
        (["time", "expect  below   4"], ["0 4 call a 0 time = 4\n"], '"expect below 4", the answer is 4'),
        # what fits no script of this file is left out
        (["time", "expect 3"], ["0 3 call a 0 time = 3\n"], None), (["time", "work 1"], ["0 3 call a 0 time = 3\n"], None),
        (["time"], [], None),
    ):
        write("a.toml", f"[[queue]]\nname = 'q'\nlength = 1\n[[task]]\nname = 'a'\npriority = 1\nscript = {ops}\n")
        at = max(len(ops) - 1, 1) if len(ops) > 1 else 0
        end = f"check a {at if wanted or len(ops) > 1 else 1} in {len(ops)} steps, 0 ticks"
        write("report", f"base: {end}\n" + "".join(lines))
        table = good_and_quick("classes", "report", "--application", "a.toml").splitlines()
        equal((ops, table[1:]), (ops, [f"  check a {at}: {wanted}"] if wanted else []))
        assert "answer is" not in good_and_quick("classes", "report")


@case
def rows_whose_check_names_a_handler_are_read_by_each_command():
    for name in ("a_handler_finds_the_queue_full", "a_check_of_a_handler_that_a_jump_of_idle_comes_to",
                 "the_rest_of_a_handler_is_not_done_and_the_step_goes_on"):
        file = f"{LOOKING}/{name}"
        failing = [it.head.row for it in source_of(read(f"{file}.report").decode()).reader() if it.head.verdict.kind == "check"]
        for words in ([f"{file}.report"], [f"{file}.report", "--base", f"{file}.out", "--application", f"{file}.toml"]):
            for command in (["classes"], ["json"], ["junit"], ["html"], ["svg", "--campaign"]):
                good_and_quick(*command, *words)
            for row in failing:
                for command in ("show", "svg", "perfetto", "vcd"):
                    good_and_quick(*([command] if command == "show" else [command, "--row"]), str(row), *words)
    table = good_and_quick("classes", "--failing", *words)
    holds(table, 'check h: expect 0 [h]\n')
    holds(table, 'check h 1: "expect 0", the answer is 1\n')
    # the failure is drawn in the handler's lane, which is a lane of a handler
    file = f"{LOOKING}/of_the_checks_that_fail_in_a_step_the_first_is_told"
    picture = good_and_quick("svg", "--row", "0", f"{file}.report", "--application", f"{file}.toml")
    holds(picture, '<title>check h 0 in 2 steps, 1 ticks</title>')


@case
def a_check_of_a_handler_without_a_line():
    """Without the application it is known to be none of a task where another one runs."""
    for lines, kinds in (
        ("3 1 run -\n", {"(not named)": "TASK", "idle": "IDLE", "h": "HANDLER"}),
        ("1 0 call a 0 time = 0\n3 1 run b\n", {"a": "TASK", "b": "TASK", "h": "HANDLER"}),
        ("1 0 call a 0 time = 0\n3 1 run h\n", {"a": "TASK", "h": "TASK"}), ("1 0 call h 0 time = 0\n", {"h": "TASK"}),
        ("1 0 isr h 0 give = 0\n3 1 run -\n", {"(not named)": "TASK", "idle": "IDLE", "h": "HANDLER"}),
    ):
        base = base_run.given_base(source_of(f"base: check h 1 in 5 steps, 2 ticks\n{lines}").reader())
        found = timeline.of_base(base)
        equal((lines, {it.name: it.kind.name for it in found.lanes}), (lines, kinds))


@case
def each_stored_state_is_read():
    count = 0
    for file in sorted(os.listdir(STATES)):
        for _, lines, _ in session(f"tests/runs/state/{file}") if file.endswith(".session") else ():
            found = lone_run_of(source_of(lines.decode()).reader())
            equal(f"{found.head.text()}\n".encode() + found.text + found.state, lines)
            names = list(read_application(f"{STATES}/{file[:-8]}.toml").tasks)
            equal([it.name for it in end_state.state_of(found.state).tasks if it.name != "svc"], names)
            count += 1
    assert count > 15, count


def with_its_state(file=f"{ROOT}/examples/opposite_locks.session"):
    """The row of the example, as the program writes it with its state."""
    return next(lines for words, lines, _ in session(os.path.relpath(file, ROOT)) if words[-1] == "--state").decode()


@case
def a_row_with_its_state_needs_no_program():
    write("row", with_its_state())
    words = ["row", "--base", f"{LOCKS}.out", "--application", f"{LOCKS}.toml"]
    shown = good_and_quick("show", "0", *words).splitlines()
    equal([it[2:] for it in shown[-3:-1]], list(STUCK))
    picture = good_and_quick("svg", "--row", "0", *words)
    texts = list(tree.fromstring(picture).iter(f"{SVG}text"))
    equal(overlaps(texts), [])
    equal([it.text for it in texts if it.get("class") == "fails"], list(STUCK))
    for command in (["classes"], ["junit"], ["html"], ["json"], ["perfetto", "--row", "0"], ["vcd", "--row", "0"]):
        out = good_and_quick(*command, *words)
        equal((command, "deadlock: menu waits for saver" in out), (command, command[0] in ("classes", "junit", "html")))
    # without the application nothing more is said than the report alone shows
    assert "deadlock" not in good_and_quick("classes", *words[:3])


@case
def the_base_run_with_its_state():
    name = "a_task_that_locks_what_it_holds"
    _, lines, _ = next(session(f"tests/runs/state/{name}.session"))
    write("base", lines.decode())
    given = ["base", "--application", f"{STATES}/{name}.toml"]
    table = good_and_quick("classes", *given)
    equal(table.splitlines()[1:], [
        '  stuck: driver waits in op 2 "lock bus forever" (held by itself)', "  deadlock: driver waits for itself"])
    for command in ("svg", "junit"):
        holds(good_and_quick(command, *given), "deadlock: driver waits for itself")


@case
def a_long_ending_is_cut_into_lines_of_a_picture():
    name = "each_word_but_awake"
    _, lines, _ = next(session(f"tests/runs/state/{name}.session"))
    write("base", lines.decode())
    picture = good_and_quick("svg", "base", "--application", f"{STATES}/{name}.toml")
    width = float(re.search(r'viewBox="0 0 ([0-9.]+) ', picture)[1])
    texts = [it for it in tree.fromstring(picture).iter(f"{SVG}text") if it.get("class") == "fails"]
    equal(" ".join(it.text for it in texts), ending_of(name)[0])
    assert len(texts) > 2 and all(12 + 7.3 * len(it.text) < width for it in texts)


@case
def a_state_that_is_none_is_refused():
    whole = with_its_state()
    for old, new, line in (
        ("state menu waits 3 forever", "state menu waits 3", 10), ("waits 3 forever", "ended 3", 10),
        ("waits 3 forever", "waits forever", 10),
        ("waits 3 forever", "runs 3 forever", 10), ("waits 3 forever", "sits 3", 10), ("state saver", "State saver", 11),
        ("held 1 saver\n", "held 1 saver\nstate menu ended\n", 13), ("held 2 menu", "held two menu", 13), ("held 2 menu", "held 2 -", 13),
        ("held 2 menu\n", "held 2 menu\n25 6 run -\n", 14), ("state menu waits 3 forever\nstate saver waits 3 forever\n", "", 10),
    ):
        is_refused(whole.replace(old, new, 1), f"line {line}: expected ", words=("json",))
    # rows of a campaign have none
    total = "total 1: pass 0, check 0, misuse 0, ticks 0, steps 0, stuck 1, not reached 0\n"
    is_refused(whole + total, "line 10: expected an event", words=("json",))


@case
def the_program_is_asked_for_the_state():
    companion = stand_in(os.getcwd(), "opposite_locks")
    shutil.copy(f"{LOCKS}.toml", "locks.toml")
    for words in (["classes", "--failing"], ["show", "12"], ["junit"], ["html"], ["svg", "--row", "11"]):
        out = good(*words, "--application", "locks.toml", companion=companion)
        is_row_11 = words[0] != "show"
        equal((words, "deadlock: menu waits for saver" in out), (words, is_row_11))
        asked = "run locks.toml --at {} --handler button --state".format(11 if is_row_11 else 12)
        equal(read("bin/rtosim.calls").decode().splitlines()[-1], asked)
        os.remove("bin/rtosim.calls")
    holds(good("svg", "--campaign", "--application", "locks.toml", companion=companion), f"<title>{'; '.join(STUCK)}</title>")
    os.remove("bin/rtosim.calls")
    for words in (["classes", "--names"], ["json"], ["junit", "--rows"], ["svg", "--row", "1"], ["svg"], ["show", "0"]):
        good(*words, "--application", "locks.toml", companion=companion)
        assert b"--state" not in read("bin/rtosim.calls"), words
    # with REPORT the program isn't run
    os.remove("bin/rtosim.calls")
    good("classes", f"{LOCKS}.report", "--base", f"{LOCKS}.out", "--application", "locks.toml", companion=companion)
    assert not os.path.exists("bin/rtosim.calls")


@case
def a_program_that_writes_no_state_is_asked_once():
    """Of an older one, which refuses the word, and of one that writes another run, no more is said than without it."""
    rows = [(step, "h", True, f"stuck in 9 steps, {step} ticks", [f"{step} 0 isr h 0 send = {step % 2}\n"]) for step in range(6)]
    write("report", report_of(rows))
    write("a.toml", '[[task]]\nname = "a"\npriority = 1\nscript = ["time"]\n')
    companion = stand_in(os.getcwd(), "opposite_locks", report=f"{os.getcwd()}/report")
    given = ["--application", "a.toml", "--by", "exact"]
    table = good("classes", *given, companion=companion)
    equal((table.count("rtosim run"), read("bin/rtosim.calls").decode().count("--state")), (6, 1))
    assert "deadlock" not in table and '"' not in table, table
    # the state of another run is that of another file
    write("bin/rtosim.at.0.h", with_its_state())
    equal(good("classes", *given, companion=companion), table)


@case
def a_row_of_several_injections_has_no_words_of_a_program():
    file = f"{ROOT}/tests/of_several/two_presses"
    companion = stand_in(os.getcwd(), report=f"{file}.report")
    shutil.copy(f"{file}.out", "out")
    write("bin/rtosim", read("bin/rtosim").decode().replace(f"{ROOT}/examples/lost_wake_up.out", f"{file}.out"))
    table = good("classes", "--failing", "--application", f"{file}.toml", companion=companion)
    holds(table, 'check main 2: "expect ')
    assert b"--state" not in read("bin/rtosim.calls")


@case
def the_built_program_says_the_state():
    words = [PROGRAM, "run", f"{LOCKS}.toml", "--state"]
    if not os.access(PROGRAM, os.X_OK) or subprocess.run(words, capture_output=True, timeout=PATIENCE).returncode:
        print("   (skipped: there is no built program that writes the state)")
        return
    companion = stand_in(os.getcwd())
    shutil.copy(PROGRAM, "bin/rtosim")
    table = good("classes", "--failing", "--application", f"{LOCKS}.toml", companion=companion)
    for it in STUCK:
        holds(table, f"       {it}\n")
