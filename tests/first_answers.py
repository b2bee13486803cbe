"""Cases of the launcher: a call before the program is proved prints an answer, proves, and holds the proved program's answer against it."""
import contextlib
import os
import pty
import signal
import subprocess

from cases import case, equal, holds
from checkout import BUILT, NO_PROGRAM, PATIENCE, TESTS, WAIT, is_alive, only_runs, wait_until

BEFORE = "rtosim: an answer that isn't proved comes in a minute or two, and then the proof"
UNPROVED = "rtosim: the answer above isn't proved yet. The proof comes now; if it is interrupted, the next call goes on where it stopped"
FIRST_TIME = "rtosim: proving and building the program for the first time, which took 11 to 33 minutes when it was measured"
CHECKED = [f"rtosim: checked {it} of 3 crates" for it in ("low, 1", "report, 2", "rtosim, 3")]
STAYS_UNPROVED = "rtosim: the answer above isn't proved"
# A program whose second run, the proved one, goes by the second text.
TWO_RUNS = 'if mkdir "$STAND_IN/has-run" 2>/dev/null; then\n{}\nelse\n{}\nfi\n'


def proved(text):
    return f"rtosim: proved: the same {len(text.encode())} bytes"


def differs(how):
    what = f"rtosim: the proved program gives another answer, which differs {how}"
    return f"{what}: the answer above isn't proved; the same call now prints the proved one"


def calls(a):
    """What rt and rattle were called for, in order."""
    return [it.split()[2] if it.startswith("build ") else it.split()[0] for it in a.read(f"{a.stand_in}/calls").splitlines()]


@case
def an_answer_comes_before_the_proof_and_the_proved_program_gives_the_same(a):
    status, out, err = a.start("--preview-first", "end", "3")
    equal((status, out), (3, BUILT + "<end>\n<3>\n"))
    equal(err.splitlines(), [BEFORE, UNPROVED, FIRST_TIME, *CHECKED, proved(out)])
    equal(calls(a), ["try", "low", "report", "rtosim"])
    equal(os.listdir(a.temporary), [])
    only_runs(a)


@case
def the_answer_is_there_while_the_proof_goes_on(a):
    a.plan_wait()
    started = a.started("--preview-first", "x")
    lines = [started.stdout.readline().decode() for _ in range(2)]
    equal(lines, [BUILT, "<x>\n"])
    equal([started.stderr.readline().decode().rstrip() for _ in range(3)], [BEFORE, UNPROVED, FIRST_TIME])
    wait_until(a.has_begun, "the proof has begun")
    a.go()
    out, err = started.communicate(timeout=PATIENCE)
    equal((started.returncode, out, err.decode().splitlines()[-1]), (0, b"", proved("".join(lines))))


def shown_on_terminals(a, streams, *words):
    """What a call shows whose streams of these names are a terminal, and what it writes to the others. Returns its status, too."""
    ours, theirs = pty.openpty()
    started = a.started(*words, **dict.fromkeys(streams, theirs))
    os.close(theirs)
    shown = b""
    with contextlib.suppress(OSError):
        while part := os.read(ours, 4096):
            shown += part
    os.close(ours)
    written = b"".join(it.read() for it in (started.stdout, started.stderr) if it)
    return started.wait(timeout=PATIENCE), shown.decode().replace("\r\n", "\n"), written.decode()


@case
def without_a_word_an_unproved_answer_goes_to_a_terminal_and_nowhere_else(a):
    status, shown, _ = shown_on_terminals(a, ("stdout", "stderr"), "x")
    equal((status, calls(a)), (0, ["try", "low", "report", "rtosim"]))
    equal(shown.count(BUILT), 1)
    holds(shown, f"{BEFORE}\n{BUILT}<x>\n{UNPROVED}\n")
    holds(shown.splitlines()[-1], proved(f"{BUILT}<x>\n"))
    for streams in (("stdout",), ("stderr",), ()):
        a.write("crates/low/src/lib.rt", f"beside {' '.join(streams)}\n")
        a.write(f"{a.stand_in}/calls", "")
        status, shown, written = shown_on_terminals(a, streams, "x")
        equal((status, calls(a)), (0, ["low", "report", "rtosim"]))
        equal((shown + written).count("<x>\n"), 1)


@case
def with_the_word_nothing_is_printed_before_it_is_proved_on_a_terminal_either(a):
    status, shown, _ = shown_on_terminals(a, ("stdout", "stderr"), "--proved", "x")
    equal((status, calls(a), shown.count("<x>\n")), (0, ["low", "report", "rtosim"], 1))
    assert shown.index("for the first time") < shown.index("<x>"), shown


@case
def a_first_build_without_a_terminal_says_how_an_answer_comes_sooner(a):
    first, *_ = a.start()[2].splitlines()
    equal(first, f"{FIRST_TIME}; `bin/rtosim --preview-first WORDS` prints an answer in a minute or two, before the proof")
    a.write("crates/low/src/lib.rt", "lower\n")
    assert "preview" not in a.start()[2]


@case
def over_kept_proofs_nothing_comes_before_the_proof(a):
    a.keep_proofs()
    equal(a.start("--preview-first", "x")[:2], (0, f"{BUILT}<x>\n"))
    assert "try" not in calls(a)


@case
def a_program_that_stands_gets_the_words_after_these_alone(a):
    a.start()
    for it in ("--preview-first", "--proved"):
        equal(a.start(it, "x", it), (0, f"{BUILT}<x>\n<{it}>\n", ""))


def gives_another_answer(a, first, second, how, out):
    """The proved program's run goes by the second text, which differs in this way."""
    a.write(f"{a.stand_in}/program", TWO_RUNS.format(first, second))
    status, found, err = a.start("--preview-first")
    equal((status, found, err.splitlines()[-1]), (70, BUILT + out, differs(how)))
    equal(os.listdir(a.temporary), [])
    os.rmdir(f"{a.stand_in}/has-run")
    a.write("crates/low/src/lib.rt", f"low\n{how}\n")
    a.write("crates/low/src/lib.rt", "low\n")
    os.remove(a.path("crates/rtosim/out/rtosim"))


@case
def another_answer_of_the_proved_program_is_a_fault(a):
    at = len(BUILT)
    gives_another_answer(a, "echo one", "echo only", f"from byte {at + 2} on", "one\n")
    gives_another_answer(a, "echo one", "echo one; echo two", f"from byte {at + 4} on", "one\n")
    gives_another_answer(a, "echo one; echo two", "echo one", f"from byte {at + 4} on", "one\ntwo\n")
    gives_another_answer(a, "echo one", "echo one; exit 1", "in its status, 1 and not 0", "one\n")
    gives_another_answer(a, "echo one", "echo one; kill -TERM $$", "in its status, -15 and not 0", "one\n")
    gives_another_answer(a, "echo one", "echo one; echo no >&2", "on standard error", "one\n")


@case
def want_of_memory_is_no_answer_before_the_proof_and_named_after_it(a):
    no_memory = 'echo "rtosim: out of memory" >&2; exit 4'
    # (as a program that writes nothing then)
    silent = a.read(f"{a.stand_in}/says.sh").replace("echo made of", ": made of")
    a.write(f"{a.stand_in}/says.sh", silent)
    a.write(f"{a.stand_in}/program", TWO_RUNS.format(no_memory, "echo whole; exit 1"))
    status, out, err = a.start("--preview-first")
    equal((status, out), (1, "whole\n"))
    equal(err.splitlines()[1:3], ["rtosim: out of memory", "rtosim: there is no answer before the proof, for what is said above"])
    os.rmdir(f"{a.stand_in}/has-run")
    os.remove(a.path("crates/rtosim/out/rtosim"))
    a.write(f"{a.stand_in}/program", TWO_RUNS.format("echo whole", no_memory))
    status, out, err = a.start("--preview-first")
    equal((status, out, err.splitlines()[-1]), (70, "whole\n", differs("in its status, 4, since it has too little memory")))


@case
def of_an_answer_without_end_no_more_is_read_than_up_to_the_difference(a):
    gives_another_answer(a, "yes | head -n 100000", "exec yes no", f"from byte {len(BUILT)} on", "y\n" * 100000)


@case
def what_the_program_writes_to_standard_error_is_printed_once(a):
    a.write(f"{a.stand_in}/program", 'echo "no such word: $1" >&2\nexit 2\n')
    a.write(f"{a.room}/x", "x")
    status, out, err = a.start("--preview-first", f"{a.room}/x")
    equal((status, out, err.splitlines()[1], err.count("no such word")), (2, BUILT, f"no such word: {a.room}/x", 1))
    equal(err.splitlines()[-1], proved(BUILT))


@case
def a_pipe_is_read_once_for_both(a):
    a.write(f"{a.stand_in}/program", 'cat "$1"')
    text = "given " * 100000
    status, out, err = a.start("--preview-first", "/dev/stdin", input=text.encode())
    equal((status, out == BUILT + text, err.splitlines()[-1]), (0, True, proved(BUILT + text)))
    a.write("crates/low/src/lib.rt", "low\nmore\n")
    piped = '"$0" --preview-first <(echo piped)'
    equal(a.start("-c", piped, a.launcher, launcher="/bin/bash")[1].splitlines()[1:], ["piped"])


@case
def a_file_that_is_edited_during_the_proof_counts_as_it_was(a):
    a.write(f"{a.stand_in}/program", 'cat "$1" below/two')
    for name in ("one", "below/two"):
        a.write(f"{a.room}/{name}", "before\n")
    a.plan_wait()
    started = a.started("--preview-first", f"{a.room}/one", "./below/two", cwd=a.room)
    wait_until(a.has_begun, "the proof has begun")
    for name in ("one", "below/two"):
        a.write(f"{a.room}/{name}", "after\n")
    a.go()
    out, err = started.communicate(timeout=PATIENCE)
    text = f"{BUILT}before\nbefore\n"
    equal((started.returncode, out.decode(), err.decode().splitlines()[-1]), (0, text, proved(text)))


@case
def without_an_answer_before_the_proof_the_proved_one_is_printed(a):
    a.write(f"{a.stand_in}/program", 'cat "$1"; echo said >&2; exit 3')
    a.write(f"{a.stand_in}/try", 'echo "run=no-answer runners=0 races=unchecked proved=no" >&2; echo partly; exit 6\n')
    status, out, err = a.start("--preview-first", "/dev/stdin", input=b"given\n")
    equal((status, out), (3, f"{BUILT}given\n"))
    shown = ["run=no-answer runners=0 races=unchecked proved=no", "rtosim: there is no answer before the proof, for what is said above"]
    equal(err.splitlines(), [BEFORE, *shown, FIRST_TIME, *CHECKED, "said"])
    a.write("crates/low/src/lib.rt", "low\nmore\n")
    a.write(f"{a.stand_in}/program", "kill -TERM $$")
    equal(a.start("--preview-first")[0], 128 + signal.SIGTERM)


@case
def where_no_preview_can_be_made_that_is_named_and_the_proof_is_tried(a):
    # (a copy of the sources doesn't fit, so the proof fails too)
    script = 'ulimit -f 1; exec "$0" --preview-first /dev/stdin'
    a.write("crates/low/src/big.rt", "x" * 9000)
    status, out, err = a.start("-c", script, a.launcher, launcher="/bin/bash", input=b"given\n", restore_signals=False)
    assert status == 70 and not out, (status, out, err)
    lines = err.splitlines()
    equal((lines[0], lines[3]), (BEFORE, FIRST_TIME))
    holds(lines[1], "rtosim: no preview can be made: ")


@case
def an_answer_stays_unproved_where_the_proof_fails(a):
    a.plan_proofs("exit 1")
    status, out, err = a.start("--preview-first", "x")
    equal((status, out), (70, f"{BUILT}<x>\n"))
    equal(err.splitlines()[-2:], [NO_PROGRAM, STAYS_UNPROVED])
    equal(os.listdir(a.temporary), [])
    a.write(f"{a.stand_in}/try", "exit 1")
    assert STAYS_UNPROVED not in a.start("--preview-first")[2].splitlines()


@case
def sources_that_are_edited_meanwhile_are_named_where_the_answers_differ(a):
    a.write(f"{a.stand_in}/lowest", 'echo later >"$CHECKOUT/crates/report/src/text.rt"')
    # (the copy of the preview is made before, and the one that is proved as well)
    a.write(f"{a.stand_in}/program", TWO_RUNS.format("echo one", "echo two"))
    status, _, err = a.start("--preview-first")
    equal((status, err.splitlines()[-1]), (70, differs(f"from byte {len(BUILT)} on (the sources were changed after it)")))


@case
def a_reader_that_leaves_does_not_end_the_proof(a):
    for stream, status in (("stdout", 141), ("stderr", 0)):
        ours, theirs = os.pipe()
        os.close(ours)
        a.write("crates/low/src/lib.rt", f"{stream}\n")
        started = a.started("--preview-first", "x", **{"stdout": subprocess.PIPE, stream: theirs})
        os.close(theirs)
        _, err = started.communicate(timeout=PATIENCE)
        equal(started.returncode, status)
        if err is not None:
            holds(err.decode().splitlines()[-1], "proved: the same ")


@case
def a_signal_ends_the_preview_the_proof_and_the_proved_program(a):
    places = {"try": "preview", "plan": "proof", "program": "proved program"}
    for number in (signal.SIGTERM, signal.SIGINT):
        for place, what in places.items():
            a.write("crates/low/src/lib.rt", f"{what} {number}\n")
            before = a.read(f"{a.stand_in}/{place}")
            a.write(f"{a.stand_in}/{place}", TWO_RUNS.format("echo first", WAIT) if place == "program" else WAIT)
            started = a.started("--preview-first", "x")
            wait_until(a.has_begun, f"the {what} was started")
            started.send_signal(number)
            started.communicate(timeout=PATIENCE)
            equal(started.returncode, -number)
            pids = a.read(f"{a.stand_in}/pids").split()
            wait_until(lambda: not any(map(is_alive, pids)), f"the {what} has ended, with what it started")
            equal(os.listdir(a.temporary), [])
            a.write(f"{a.stand_in}/{place}", before)
            os.remove(f"{a.stand_in}/waits")
            with contextlib.suppress(OSError):
                os.rmdir(f"{a.stand_in}/has-run")


@case
def a_call_that_waits_for_another_build_answers_first_too(a):
    a.plan_wait()
    first = a.started("--proved", "first")
    wait_until(a.has_begun, "the proof has begun")
    second = a.started("--preview-first", "second")
    equal([second.stdout.readline().decode() for _ in range(2)], [BUILT, "<second>\n"])
    lines = [second.stderr.readline().decode().rstrip() for _ in range(3)]
    equal(lines, [BEFORE, UNPROVED, "rtosim: another start is building the program: waiting for that"])
    a.go()
    equal(first.communicate(timeout=PATIENCE)[0].decode(), f"{BUILT}<first>\n")
    out, err = second.communicate(timeout=PATIENCE)
    equal((second.returncode, out, err.decode()), (0, b"", proved(f"{BUILT}<second>\n") + "\n"))
    equal(calls(a).count("low"), 1)


@case
def the_guide_shows_what_is_printed(_):
    with open(f"{TESTS}/../docs/USING.md", encoding="utf-8") as file:
        text = file.read()
    with open(f"{TESTS}/../examples/lost_wake_up.report", encoding="utf-8") as file:
        report = file.read()
    rows = report[: report.index("\n") + 1]
    holds(text, f"{BEFORE}\n{rows}..\n{report.splitlines()[-1]}\n{UNPROVED}\n{FIRST_TIME}\n{proved(report)}\n")


@case
def the_limit_on_memory_is_that_of_any_run(a):
    a.write(f"{a.stand_in}/program", '[ "$(ulimit -d)" = 2000000 ] && mkdir "$STAND_IN/limited"\n')
    env = {**a.environment, "RTOSIM_MEMORY": "2000000K"}
    a.start("--preview-first", env=env)
    assert os.path.isdir(f"{a.stand_in}/limited")
