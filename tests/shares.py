"""Cases of the launcher: by how many jobs each crate of a build from nothing is proved, and that an interrupted one goes on."""
import os
import re
import shutil
import signal
import sys

from cases import case, equal, holds
from checkout import BUILT, COPY, PATIENCE, TESTS, WAIT, is_alive, wait_until

sys.path.insert(0, f"{TESTS}/../tools")
import schedule

MANY_LINES = 9999


def proves_from_nothing(a, at_once, crates, lowest, lines=None):
    """Proves these crates by this many jobs, each of the lowest by this plan. A library has so many lines, or many. Returns the status."""
    a.write("crates.txt", crates)
    for name in re.findall(r"(?m)^\w+", crates):
        shutil.rmtree(a.path(f"crates/{name}/out"), ignore_errors=True)
        if name != "rtosim":
            a.write(f"crates/{name}/src/lib.rt", f"{name}\n" * (lines or {}).get(name, MANY_LINES))
    a.write(f"{a.stand_in}/lowest", lowest)
    proving = a.started(str(at_once), launcher=a.path("tools/from_nothing"), cwd=a.path("crates/rtosim"))
    proving.communicate(timeout=PATIENCE)
    return proving.returncode


TWO_BELOW = "low:\nother:\nreport: low other\nrtosim: report\n"


def proves_side_by_side(a, at_once, lowest):
    """Proves two libraries that don't need each other, and one above both, each of the two by this plan. Returns the status."""
    a.plan_proofs('[ -e "$STAND_IN/low.done" ] && [ -e "$STAND_IN/other.done" ] || exit 1')
    return proves_from_nothing(a, at_once, TWO_BELOW, lowest)


@case
def crates_that_do_not_need_each_other_are_proved_side_by_side_and_those_above_after_them(a):
    both = '"$STAND_IN/low.begun" ] && [ -e "$STAND_IN/other.begun"'
    waits = f': >"$STAND_IN/$3.begun"; until [ -e {both} ]; do sleep 0.02; done; : >"$STAND_IN/$3.done"'
    equal(proves_side_by_side(a, 2, waits), 0)
    equal(len(a.read(f"{a.stand_in}/calls").splitlines()), 4)


@case
def no_more_are_proved_at_once_than_is_asked(a):
    alone = 'mkdir "$STAND_IN/busy" || exit 1; sleep 0.2; rmdir "$STAND_IN/busy"; : >"$STAND_IN/$3.done"'
    equal(proves_side_by_side(a, 1, alone), 0)


def jobs_of_crates(a):
    """By how many jobs each crate was proved, as often as it was begun."""
    return re.findall(r"(?m)^build --crate-name (\w+) .* --jobs (\d+) ", a.read(f"{a.stand_in}/calls"))


@case
def of_crates_that_begin_together_the_first_gets_what_the_other_leaves_and_a_library_alone_gets_all(a):
    for at_once, of_two in ((1, "11"), (2, "11"), (3, "12"), (7, "16")):
        a.write(f"{a.stand_in}/calls", "")
        equal(proves_from_nothing(a, at_once, TWO_BELOW, ""), 0)
        jobs = jobs_of_crates(a)
        equal(("".join(sorted(it for _, it in jobs[:2])), jobs[2:]), (of_two, [("report", str(at_once)), ("rtosim", "1")]))


@case
def the_first_crate_gets_the_jobs_that_are_free_also_beside_another(a):
    waits = ': >"$STAND_IN/$3.begun"; [ $3 != other ] || until [ -e "$STAND_IN/middle.begun" ]; do sleep 0.02; done'
    crates = "other:\nlow:\nmiddle: low\nupper: middle\nreport: upper other\nrtosim: report\n"
    equal(proves_from_nothing(a, 5, crates, waits), 0)
    jobs = dict(jobs_of_crates(a))
    equal((jobs["low"], jobs["other"], jobs["middle"], jobs["report"]), ("4", "1", "4", "5"))


@case
def a_crate_gets_no_more_jobs_than_it_has_lines_for(a):
    for lines, wanted in ((1, "1"), (399, "1"), (400, "2"), (1199, "3"), (1200, "4"), (5000, "4")):
        a.write(f"{a.stand_in}/calls", "")
        equal(proves_from_nothing(a, 4, "low:\nreport: low\nrtosim: report\n", "", {"low": lines, "report": 1}), 0)
        equal(jobs_of_crates(a), [("low", wanted), ("report", "1"), ("rtosim", "1")])


@case
def any_other_crate_gives_way_to_the_one_for_which_the_longest_chain_waits(a):
    # (the niceness itself can't rise where the tests have the greatest)
    a.write(f"{a.stand_in}/nice", '#!/bin/sh\necho "$1 $2 $6" >>"$STAND_IN/gives-way"\nshift 2\nexec "$@"\n')
    os.chmod(f"{a.stand_in}/nice", 0o755)
    crates = "other:\nlow:\nmiddle: low\nupper: middle\nreport: upper other\nrtosim: report\n"
    equal(proves_from_nothing(a, 2, crates, "", {"other": 1}), 0)
    equal(a.read(f"{a.stand_in}/gives-way"), "-n 5 other\n")


@case
def a_crate_for_which_no_longest_chain_waits_gets_one_job(a):
    waits = ': >"$STAND_IN/$3.begun"; [ $3 != middle ] || until [ -e "$STAND_IN/beside.begun" ]; do sleep 0.02; done'
    crates = "low:\nmiddle: low\nupper: middle\ntop: upper\nother:\nbeside: other\nreport: top beside\nrtosim: report\n"
    equal(proves_from_nothing(a, 3, crates, waits), 0)
    jobs = dict(jobs_of_crates(a))
    equal((jobs["low"], jobs["other"], jobs["beside"], jobs["report"]), ("2", "1", "1", "3"))


@case
def of_more_crates_than_jobs_the_first_gets_half_of_them_and_each_other_one(a):
    waits = 'mkdir "$STAND_IN/$3.begun"; until [ $(ls -d "$STAND_IN"/*.begun | wc -l) -ge 3 ]; do sleep 0.02; done'
    equal(proves_from_nothing(a, 3, "low:\none:\ntwo:\nthree:\nfour:\nreport: low one two three four\nrtosim: report\n", waits), 0)
    equal(sorted(it for _, it in jobs_of_crates(a)[:3]), ["1", "1", "2"])


@case
def the_first_crate_gets_half_of_the_jobs_where_none_is_free(a):
    waits = ': >"$STAND_IN/$3.begun"; case $3 in one|two|three) until [ -e "$STAND_IN/middle.begun" ]; do sleep 0.02; done ;; esac'
    crates = "low:\nmiddle: low\nupper: middle\none:\ntwo:\nthree:\nreport: upper one two three\nrtosim: report\n"
    equal(proves_from_nothing(a, 4, crates, waits), 0)
    jobs = dict(jobs_of_crates(a))
    equal([jobs[it] for it in ("low", "one", "two", "three", "middle", "report")], ["2", "1", "1", "1", "2", "4"])


# The crate below takes a while for its one line, so that one of many lines seems to take long.
SLOW_LINE = '[ $3 != low ] || sleep 0.3'


@case
def the_first_crate_is_begun_anew_with_more_jobs_once_processors_become_free(a):
    begins = f'if mkdir "$STAND_IN/middle.begun" 2>/dev/null; then\n{WAIT}\nfi'
    waits = 'until [ -e "$STAND_IN/middle.begun" ]; do sleep 0.02; done'
    lowest = f'{SLOW_LINE}; case $3 in middle) {begins} ;; one|two) {waits} ;; esac'
    crates = "low:\nmiddle: low\none:\ntwo:\nreport: middle one two\nrtosim: report\n"
    equal(proves_from_nothing(a, 3, crates, lowest, {"low": 1, "one": 1, "two": 1, "report": 1}), 0)
    jobs = jobs_of_crates(a)
    equal([it for name, it in jobs if name == "middle"][-1], "3")
    equal(sorted({name for name, _ in jobs}), ["low", "middle", "one", "report", "rtosim", "two"])
    equal(a.read(f"{a.stand_in}/said").split().count("middle"), 1)
    pids = a.read(f"{a.stand_in}/pids").split()
    wait_until(lambda: not any(map(is_alive, pids)), "the first one has ended, with what it started")


@case
def a_crate_is_not_begun_anew_where_that_saves_little(a):
    waits = 'case $3 in middle) until [ -e "$STAND_IN/two.done" ]; do sleep 0.02; done; sleep 0.3 ;; esac; : >"$STAND_IN/$3.done"'
    crates = "low:\nmiddle: low\none:\ntwo:\nreport: middle one two\nrtosim: report\n"
    equal(proves_from_nothing(a, 3, crates, waits), 0)
    equal(len(jobs_of_crates(a)), 6)


class Crate:
    """What a schedule looks at in a crate."""

    def __init__(self, name, lines, *deps, is_program=False):
        self.name, self.lines, self.deps, self.is_program = name, lines, deps, is_program

    def count(self, _):
        return self.lines


class Work:
    """One that is being proved, for some seconds."""

    def __init__(self, crate, jobs, seconds, is_first=True):
        self.crate, self.jobs, self.seconds, self.is_first, self.is_given_up = crate, jobs, seconds, is_first, False

    def age(self):
        return self.seconds


@case
def to_begin_anew_pays_if_it_saves_a_minute_by_the_time_that_first_crates_took(a):
    low, other = Crate("low", 1000), Crate("other", 100)
    high = Crate("high", 2000, low, other)
    for age, wanted in ((0, (4,)), (90, (4,)), (91, None), (500, None)):
        plan = schedule.Schedule([low, other, high], 4)
        for crate, seconds, is_first in ((low, 50, True), (other, 9000, False)):
            plan.begin(Work(crate, 2, seconds, is_first))
            plan.end(plan.running[0], True)
        # 100 seconds of jobs for 1000 lines: 200 by one job for 2000, and 50 by four
        plan.begin(Work(high, 1, age))
        found = plan.anew()
        equal(found and found[1:], wanted)


def goes_on(a, *unchanged):
    """The next start proves all libraries but these, and no other."""
    a.write(f"{a.stand_in}/calls", "")
    a.plan_proofs("")
    a.plan("")
    status, out, err = a.start()
    equal(status, 0)
    equal([it for it, _ in jobs_of_crates(a)], [it for it in ("low", "report", "rtosim") if it not in unchanged])
    checked = [f"rtosim: checked {it} of 3 crates" for it in ("low, 1", "report, 2", "rtosim, 3")]
    equal([it for it in err.splitlines() if "checked" in it], checked)
    equal(os.listdir(a.path("crates/rtosim/out")).count("rlib"), 0)
    return out


def interrupted(a, number=signal.SIGTERM):
    """Interrupts a build, and returns what it said."""
    started = a.started()
    wait_until(a.has_begun, "rt was started")
    started.send_signal(number)
    _, err = started.communicate(timeout=PATIENCE)
    equal(started.returncode, -number)
    os.remove(f"{a.stand_in}/waits")
    return err.decode()


@case
def the_next_start_goes_on_where_a_build_was_interrupted(a):
    for number in (signal.SIGTERM, signal.SIGINT, signal.SIGHUP):
        shutil.rmtree(a.path("crates/rtosim/out"), ignore_errors=True)
        a.plan_proofs(WAIT)
        holds(interrupted(a, number), "rtosim: interrupted: the next call goes on where it stopped\n")
        equal(goes_on(a, "low"), BUILT)
        shutil.rmtree(a.path("crates/rtosim/out"))
        a.plan(WAIT)
        interrupted(a, number)
        equal(goes_on(a, "low", "report"), BUILT)
    for name in ("low", "report", "rtosim"):
        holds(a.read("crates/rtosim/out/rtosim.proofs"), f"\n{name} ")


@case
def a_build_goes_on_over_what_has_not_changed_alone(a):
    changes = {
        "crates/low/src/lib.rt": ("lower\n", ()),
        "crates/report/src/add.rt": ("added\n", ("low",)),
        "crates/report/specs/New.antt": ("new\n", ("low",)),
        "crates/rtosim/src/main.rt": ("other\n", ("low", "report")),
        "HANDLES": ("Handles allowed: Threads.\n", ()),
        "crates.txt": ("low:\nreport: low\nrtosim: report low\n", ("low", "report")),
        f"{a.stand_in}/WHAT": ("another kit\n", ()),
    }
    for name, (text, unchanged) in changes.items():
        shutil.rmtree(a.path("crates/rtosim/out"), ignore_errors=True)
        a.plan(WAIT)
        interrupted(a)
        a.write(name, text)
        goes_on(a, *unchanged)


@case
def a_library_that_is_not_as_it_was_built_is_proved_anew(a):
    a.plan(WAIT)
    interrupted(a)
    a.write(f"{COPY}/crates/report/out/rlib/report.rlib/format", "")
    goes_on(a, "low")


@case
def what_was_said_of_a_library_is_judged_again(a):
    a.plan(WAIT)
    interrupted(a)
    record = f"{COPY}/crates/low/out/proved"
    a.write(record, a.read(record).replace("logic=proved functions=2", "logic=proved functions=2 hides=1"))
    a.plan("")
    status, _, err = a.start()
    equal((status, err.splitlines()[-1]), (70, "rtosim: there is no program to run, since rt ci refuses its sources"))
    equal(goes_on(a), BUILT)


@case
def what_is_left_of_an_interrupted_build_is_no_repository(a):
    a.plan(WAIT)
    interrupted(a)
    left = {name for _, folders, files in os.walk(a.path(COPY)) for name in (*folders, *files)}
    assert not left & {"crates.txt", ".git"}, left
    equal(os.listdir(a.temporary), [])
    crates = a.path("crates/rtosim/out")
    equal([it for it in os.listdir(crates) if it not in ("turn", "rlib")], [])


@case
def an_interrupted_build_that_has_proved_nothing_leaves_nothing(a):
    a.write(f"{a.stand_in}/lowest", WAIT)
    err = interrupted(a)
    assert "interrupted" not in err, err
    equal(os.listdir(a.path("crates/rtosim/out")), ["turn"])


@case
def a_build_that_fails_leaves_nothing_and_one_over_kept_proofs_removes_what_was_left(a):
    a.plan_proofs("exit 1")
    equal(a.start()[0], 70)
    equal(os.listdir(a.path("crates/rtosim/out")), ["turn"])
    a.plan_proofs(WAIT)
    interrupted(a)
    a.plan_proofs("")
    a.keep_proofs()
    equal(a.start()[:2], (0, BUILT))
    assert "rlib" not in os.listdir(a.path("crates/rtosim/out"))


@case
def a_check_by_several_jobs_that_is_killed_is_tried_once_more_by_one(a):
    a.plan_proofs('[ -e "$STAND_IN/again" ] || { : >"$STAND_IN/again"; kill -KILL $$; }')
    equal(proves_from_nothing(a, 4, "low:\nreport: low\nrtosim: report\n", ""), 0)
    equal(jobs_of_crates(a), [("low", "4"), ("report", "4"), ("report", "1"), ("rtosim", "1")])
