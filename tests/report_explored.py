"""Cases of tests/report: what is found among all placements, beside a program that writes what is wanted here."""
import os
import shutil

from cases import case, equal, holds
from reports import COMPANION, ROOT, read, run
from rtosim_report.explored import ends_of
from rtosim_report.faults import BadReport

FILE = f"{ROOT}/examples/two_presses.toml"
POINT = "0 key 0 key"
FOUND = "pass: 221 placements, least is none in 24 steps, 8 ticks\ncheck main 2: 10 placements, least is 0 key 0 key in 5 steps, 2 ticks\ntotal 231\n"
LEAST = """row 0 at 0 key 0 key: check main 2 in 5 steps, 2 ticks
0 0 isr key 0 send = 1
0 0 isr key 0 send = 1
0 0 call ui 0 delay = 0
0 0 run main
3 2 call main 1 send = 0
state ui sleeps 1 4
state main runs 2
"""
# It answers `explore`, a run and the run of a point, and notes the words.
STAND_IN = """#!/usr/bin/env python3
import sys
words = sys.argv[1:]
with open({room!r} + "/asked", "a") as it:
    it.write(" ".join(words) + "\\n")
if words[0] == "explore":
    sys.stdout.write({found!r})
    sys.exit({status})
if "--point" in words:
    sys.stdout.write({least!r})
    sys.exit(1)
with open({base!r}) as it:
    sys.stdout.write(it.read())
"""


def companion_of(found=FOUND, status=1, least=LEAST):
    """A copy of the reader of reports beside a program that finds this."""
    room = os.getcwd()
    shutil.copytree(f"{ROOT}/tools", f"{room}/tools", dirs_exist_ok=True)
    os.makedirs(f"{room}/bin", exist_ok=True)
    shutil.copy(COMPANION, f"{room}/bin/rtosim-report")
    with open(f"{room}/bin/rtosim", "w") as it:
        it.write(STAND_IN.format(room=room, found=found, status=status, least=least, base=f"{ROOT}/examples/two_presses.out"))
    os.chmod(f"{room}/bin/rtosim", 0o755)
    return f"{room}/bin/rtosim-report"


@case
def the_least_placement_of_an_end_is_shown_with_its_cause():
    status, out, err = run("explore", FILE, "--injections", "2", "--handlers", "key", companion=companion_of())
    equal((status, err), (0, b""))
    equal(out.decode().splitlines(), [
        "231 placements in 2 ends: 10 fail; the base run: pass in 24 steps, 8 ticks",
        "",
        "end  placements  share  verdict       least placement  steps  ticks",
        "  1         221  95.7%  pass          none                24      8",
        "  2          10   4.3%  check main 2  0 key 0 key          5      2",
        "     check main: expect 1 [key]",
        "     main: send = 0, where the base run has 1",
        '     check main 2: "expect 1", the answer is 0',
        f"     rtosim run {FILE} --point '{POINT}'",
    ])
    equal(read("asked").decode().splitlines(), [
        f"explore {FILE} --injections 2 --handlers key", f"run {FILE}", f"run {FILE} --point {POINT} --state",
    ])


@case
def the_least_placement_of_an_end_is_drawn():
    status, out, err = run("explore", FILE, "--injections", "2", "--pictures", "pictures", companion=companion_of())
    equal((status, err), (0, b""))
    equal(out.decode().splitlines()[-1], "     pictures/0_key_0_key.svg")
    holds(read("pictures/0_key_0_key.svg").decode(), "<svg")


@case
def what_passes_alone_has_no_lines():
    found = "pass: 441 placements, least is none in 22 steps, 14 ticks\ntotal 441\n"
    status, out, err = run("explore", FILE, companion=companion_of(found, 0))
    equal((status, err), (0, b""))
    equal(out.decode().splitlines()[0], "441 placements in 1 end: all pass; the base run: pass in 24 steps, 8 ticks")
    equal(len(out.decode().splitlines()), 4)


@case
def numbers_of_128_bits_are_read():
    many = (1 << 128) - 1
    line = f"steps: {many} placements, least is 0 a 1 b 2 c in 1000000 steps, 281474976710656 ticks"
    (end,) = ends_of(f"{line}\ntotal {many}\n".encode())
    equal((end.placements, end.head.point.text(), end.head.steps, end.head.ticks), (many, "0 a 1 b 2 c", 1_000_000, 281474976710656))


@case
def what_is_no_report_of_explore_is_refused():
    line = "pass: 2 placements, least is none in 1 steps, 0 ticks"
    equal([it.placements for it in ends_of(f"{line}\ntotal 2\n".encode())], [2])
    for text in ("", "total 0\n", f"{line}\n", f"{line}\ntotal 3\n", f"{line}\ntotal 2", f"{line}\ntotal 2\n\n", "total 2\n",
                 f"{line.replace('2', '0')}\ntotal 0\n", f"{line.replace('none', '0')}\ntotal 2\n", f"{line.replace('none', '0 a 1 b 2 c 3 d')}\ntotal 2\n"):
        try:
            ends_of(text.encode())
        except BadReport:
            continue
        raise AssertionError(text)


@case
def what_the_program_refuses_has_its_status():
    for status in (2, 3, 4):
        companion = companion_of("", status)
        equal(run("explore", FILE, companion=companion)[:2], (status, b""))
    for words in (["explore"], ["explore", FILE, "--application", FILE], ["explore", FILE, "--injections", "two"]):
        equal(run(*words, companion=companion)[:2], (2, b""))


@case
def a_run_that_is_not_the_one_that_was_found_is_refused():
    companion = companion_of(least=LEAST.replace("5 steps, 2 ticks", "6 steps, 2 ticks"))
    status, out, err = run("explore", FILE, companion=companion)
    equal((status != 0, out), (True, b""))
    holds(err.decode(), "the run of 0 key 0 key isn't that of `explore`: check main 2 in 5 steps, 2 ticks")
