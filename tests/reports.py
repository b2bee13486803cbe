"""What the tests of bin/rtosim-report have in common: how it is called, reports that are made up, and the program's stand-in."""
import contextlib
import io
import os
import random
import re
import shutil
import subprocess
import sys

from cases import equal, holds
from running import session

ROOT = os.path.dirname(os.path.dirname(os.path.realpath(__file__)))
sys.path.insert(0, f"{ROOT}/tools")
from rtosim_report import base_run, command_line, timeline
from rtosim_report.source import Source

COMPANION = f"{ROOT}/bin/rtosim-report"
PROGRAM = f"{ROOT}/crates/rtosim/out/rtosim"
PATIENCE = 120
SVG = "{http://www.w3.org/2000/svg}"
LOST = f"{ROOT}/tests/of_stuck/lost_wake_up.report"
RACE = f"{ROOT}/examples/timeout_race.report"
KINDS = ("pass", "check", "misuse", "ticks", "steps", "stuck")
COMMANDS = (["classes"], ["show", "0"], ["json"], ["junit"], ["junit", "--rows"], ["svg", "--row", "0"], ["svg", "--campaign"],
            ["perfetto", "--row", "0"], ["vcd", "--row", "0"], ["html"])
HEAD = b"base: pass in 1 steps, 0 ticks\n"
RUN = """base: stuck in 12 steps, 4 ticks
0 4294967295 call a 0 send_front = 1
1 4294967295 mark a 4294967295
1 4294967295 run c_3
2 4294967295 isr h 0 receive = none
2 0 isr h 12 give = 0
3 0 call c_3 255 suspend_all = 0
10 2 run -
"""


def run(*words, text=None, companion=COMPANION, **how):
    """Runs the companion, and returns its status and what it wrote to its two streams."""
    given = {"input": text.encode() if isinstance(text, str) else text} if text is not None else {"stdin": subprocess.DEVNULL}
    streams = {"stdout": subprocess.PIPE, "stderr": subprocess.PIPE}
    ran = subprocess.run([companion, *words], timeout=PATIENCE, **{**given, **streams, **how})
    return ran.returncode, ran.stdout, ran.stderr


def good(*words, **how):
    """What it wrote, with status 0 and nothing on standard error."""
    status, out, err = run(*words, **how)
    equal((status, err), (0, b""))
    return out.decode()


def quick(*words, text=None):
    """What a command writes, without a process of its own: its status, its output, and its standard error."""
    if text is not None:
        with open("given", "w") as it:
            it.write(text)
        words += ("given",)
    with contextlib.redirect_stderr(io.StringIO()) as told_there:
        status = command_line.main([*words, "--output", "taken"])
    return status, read("taken").decode() if status == 0 else "", told_there.getvalue()


def good_and_quick(*words, text=None):
    status, out, err = quick(*words, text=text)
    equal((status, err), (0, ""))
    return out


def is_refused(text, *parts, words=("classes",)):
    """Status 3, nothing on standard output, and these parts in one line on standard error."""
    status, out, err = run(*words, text=text)
    equal((status, out, err.count(b"\n")), (3, b"", 1))
    for part in parts:
        holds(err.decode(), part)


def read(name):
    with open(name, "rb") as it:
        return it.read()


def total_of(heads):
    count = {kind: sum(it.split(": ", 1)[1].replace("not reached, ", "").startswith(kind) for it in heads) for kind in KINDS}
    counts = ", ".join(f"{kind} {number}" for kind, number in count.items())
    return f"total {len(heads)}: {counts}, not reached {sum(': not reached, ' in it for it in heads)}\n"


def report_of(rows):
    """The report of rows: each is its point, whether it is reached, its end, and its lines."""
    heads = [
        f"row {at} at {step} {handler}: {'' if is_reached else 'not reached, '}{end}\n"
        for at, (step, handler, is_reached, end, lines) in enumerate(rows)
    ]
    return "".join(head + "".join(row[4]) for head, row in zip(heads, rows)) + total_of(heads)


def report_of_pairs():
    """A report of points of two injections: those in which the second comes two steps after the first fail."""
    end = "check a 1 in 30 steps, 9 ticks"
    rows = [(f"{first} h {first + more}", "k", True, end if more == 2 else "pass in 30 steps, 9 ticks", ["29 9 run -\n"])
            for first in range(8) for more in range(4)]
    return report_of(rows)


class Dice:
    """Random reports that obey the grammar, and of which rows begin as the base run does."""

    def __init__(self, seed):
        self.random = random.Random(seed)
        # in a third of the reports a tick that passes is a day
        self.jump = 86400000 if seed % 3 == 2 else 1

    def what(self):
        name = self.random.choice("ab")
        return self.random.choice((
            f"call {name} {self.random.randrange(2)} receive = {self.random.choice(['none', 1, 2])}",
            f"run {self.random.choice('ab-')}",
            f"mark {name} {self.random.randrange(2)}",
            f"isr h 0 {self.random.choice(('give', 'set'))} = {self.random.randrange(2)}",
        ))

    def lines(self, first, steps, tick):
        found = []
        for step in range(first, steps):
            tick = (tick + self.random.randrange(2) * self.jump) % (1 << 32)
            found += [f"{step} {tick} {self.what()}\n" for _ in range(self.random.choice((0, 0, 1, 2)))]
        return found

    def end(self, steps):
        return f"{self.random.choice(('stuck', 'check a 1', 'ticks', 'misuse b 0 3'))} in {steps} steps, {steps // 2 * self.jump} ticks"

    def campaign(self):
        """The base run and rows: some as the base run, some of few outcomes, some of one of their own."""
        steps = self.random.randrange(1, 8)
        base = self.lines(0, steps, 0)
        base_end = self.end(steps)
        tails = [(self.random.choice((base_end, self.end(9))), self.lines(0, 3, 0)) for _ in range(2)]
        rows = []
        for _ in range(self.random.randrange(1, 9)):
            step, handler = self.random.randrange(steps + 2), self.random.choice("hk")
            rows.append(self.row(step, handler, steps, base, base_end, tails))
        return f"base: {base_end}\n" + "".join(base), rows

    def row(self, step, handler, steps, base, base_end, tails):
        if step >= steps:
            return step, handler, False, base_end, base
        before = [it for it in base if int(it.split()[0]) < step]
        own = [f"{step} {step} isr {handler} {at} {self.random.choice(('send', 'clear'))} = {self.random.random() < 0.8:d}\n" for at in range(self.random.randrange(3))]
        if self.random.random() < 0.4:
            return step, handler, True, base_end, before + own + base[len(before) :]
        end, tail = self.random.choice(tails) if self.random.random() < 0.7 else (self.end(step + 9), self.lines(0, 3, 0))
        shifted = [f"{int(s) + step} {int(t) + step} {what}" for s, t, what in (it.split(" ", 2) for it in tail)]
        end = re.sub(r"in \d+ steps", f"in {step + 9} steps", end)
        return step, handler, True, end, before + own + shifted


def overlaps(texts):
    """Pairs of texts that lie over each other."""
    boxes = []
    for it in texts:
        width = 7.3 * len(it.text)
        left = float(it.get("x")) - {"middle": width / 2, "end": width}.get(it.get("text-anchor"), 0)
        boxes.append((float(it.get("y")), left, left + width, it.text))
    boxes.sort()
    return [(it, next_one) for it, next_one in zip(boxes, boxes[1:]) if it[0] == next_one[0] and it[2] > next_one[1] + 0.5]


def source_of(text):
    return Source(io.BytesIO(text.encode()))


def rows(name):
    """The rows of a stored report."""
    return [it for it in source_of(read(f"{name}.report").decode()).reader() if it.head.row is not None]


def timeline_of(name, row=None, folder="examples"):
    file = f"{ROOT}/{folder}/{name}"
    base = base_run.given_base(Source(open(f"{file}.out", "rb")).reader())
    if row is None:
        return timeline.of_base(base)
    runs = list(Source(open(f"{file}.report", "rb")).reader())
    return timeline.of_row(runs[row], base)


# Words of a row with its state are answered as the example's session has them, and otherwise refused.
STAND_IN = """#!/usr/bin/env -S python3 -S -E -B
import os, sys
sys.path.insert(0, {tests!r})
from views import answer
file = os.path.splitext(sys.argv[2])[0]
sys.exit(answer(sys.argv[0], sys.argv[1:], {out}, {report}, {status}))
"""


def stand_in(room, name="lost_wake_up", status=1, report=None):
    """A copy of the companion beside a program that writes what an example says."""
    shutil.copytree(f"{ROOT}/tools", f"{room}/tools", dirs_exist_ok=True)
    os.makedirs(f"{room}/bin", exist_ok=True)
    shutil.copy(COMPANION, f"{room}/bin/rtosim-report")
    file = f"{ROOT}/examples/{name}"
    with open(f"{room}/bin/rtosim", "w") as it:
        it.write(STAND_IN.format(tests=f"{ROOT}/tests", out=repr(f"{file}.out"), report=repr(report or f"{file}.report"), status=status))
    os.chmod(f"{room}/bin/rtosim", 0o755)
    for words, lines, _ in session(f"examples/{name}.session") if os.path.exists(f"{file}.session") else ():
        if words[-1] == "--state":
            with open(f"{room}/bin/rtosim.at.{words[3]}.{words[5]}", "wb") as it:
                it.write(lines)
    return f"{room}/bin/rtosim-report"
