"""Cases of tests/program: scripts with branches, and tasks that serve for ever, at the limits of docs/FORMATS.md; and random scripts and
handlers, of which what is written is found here too, op by op, from docs/KERNEL.md."""
import json
import random

from applications import Scripts
from cases import case, equal
from edges import GROUP, LARGEST, QUEUE, faults, task, tells
from running import TASK, run_text, runs_are

STEPS = 300
BLOCKS = ("repeat", "if")


def endless(*script, name="a", priority=1):
    return task(*script, name=name, priority=priority).replace("script =", "endless = true\nscript =")


@case
def conditions_at_the_ends_of_their_range():
    taken = [it for number in (0, 7, LARGEST) for it in (f"{number}", f"not {number}", f"below {number}", f"above {number}")]
    for it in (*taken, "none", "not none", "0000000007", "  not   0000000007  "):
        tells(task(f"if {it}", "end", "mark 3"), *ends_of(it))
        equal(run_text(task("time", f"expect {it}"))[0], 0 if holds(it.split(), 0) else 1)
    for it in (f"{LARGEST + 1}", "00000000007", "-1", "not", "below", "not not 7", "below none", "not below 7", "7 7", "not 7 7", "",
               "="):
        for word in ("if", "expect"):
            faults(task(f"{word} {it}", "end"), "4 BadOp: task 0 script 0")
    # a word that may be the name of a variable, and is none
    for it in ("nOne", "a", "not answer", "below nobody", "above Above"):
        for word in ("if", "expect"):
            faults(task(f"{word} {it}", "end"), "5 UnknownName: task 0 script 0")


def ends_of(condition):
    """The run of an `if` with this condition of none, its `end`, and a mark."""
    steps = 3 if holds(condition.split(), None) else 2
    return f"pass in {steps} steps, 0 ticks", f"{steps - 1} 0 mark a 3", f"{steps - 1} 0 run -"


@case
def blocks_at_their_deepest():
    for eight in (["if none"] * 8, ["repeat 1", "if none"] * 4, ["repeat 1"] * 4 + ["if none"] * 4, ["if none"] * 4 + ["repeat 1"] * 4):
        tells(task(*eight, "mark 5", *["end"] * 8), "pass in 17 steps, 0 ticks", "8 0 mark a 5", "16 0 run -")
        for ninth in ("if 1", "repeat 1", "repeat forever"):
            faults(task(*eight, ninth, *["end"] * 9), "7 BadNesting: task 0 script 8")
        faults(task(*eight, *["end"] * 7), "7 BadNesting: task 0 script 15")
        faults(task(*eight, *["end"] * 9), "7 BadNesting: task 0 script 16")
    faults(task(*["if 1"] * 4, *["repeat 1"] * 4, "repeat forever"), "7 BadNesting: task 0 script 8")
    faults(task(*["repeat 1"] * 3, "if 1", "repeat 1", "repeat forever"), "7 BadNesting: task 0 script 5")
    # as many blocks one after the other as a script has room for
    tells(task(*["if none", "end"] * 128), "pass in 256 steps, 0 ticks", "255 0 run -")
    tells(task(*["if 1", "end"] * 128), "pass in 128 steps, 0 ticks", "127 0 run -")
    tells(task("if 1", *["mark 1"] * 253, "else", "end"), "pass in 2 steps, 0 ticks", "1 0 run -")
    tells(task("repeat forever", "break", *["mark 1"] * 253, "end"), "pass in 2 steps, 0 ticks", "1 0 run -")


@case
def turns_at_the_ends_of_their_range():
    for turns, head in (("1", "pass in 2 steps"), ("1000", "pass in 1001 steps"), ("forever", "steps in 1000000 steps")):
        equal(run_text(task(f"repeat {turns}", "end"))[1].split(b",")[0].decode(), f"base: {head}")
    for turns in ("0", "1001", "ever", "forever forever", "none", ""):
        faults(task(f"repeat {turns}", "end"), "4 BadOp: task 0 script 0")


@case
def names_that_are_words_of_branches():
    for name in ("if", "else", "break", "not", "below", "above", "forever", "endless", "none"):
        tells(QUEUE.replace('"q"', f'"{name}"') + task(f"send {name} 1 0", f"receive {name} 0", "if not none", "mark 1", "end"),
              "pass in 5 steps, 0 ticks", "0 0 call a 0 send = 1", "1 0 call a 1 receive = 1", "3 0 mark a 1", "4 0 run -")


@case
def tasks_that_are_endless():
    other = task("work 2", name="b")
    for text, head in (
        (endless(), "stuck in 0 steps, 0 ticks"), (endless("mark 1"), "stuck in 1 steps, 0 ticks"),
        (endless() + other, "pass in 2 steps, 2 ticks"), (other + endless("delay 9", priority=2), "pass in 3 steps, 2 ticks"),
        (endless("repeat forever", "work 1", "end", priority=0) + other, "pass in 2 steps, 2 ticks"),
        (endless("expect 1", priority=2) + other, "check a 0 in 1 steps, 0 ticks"),
        (endless("resume_all", priority=2) + other, "misuse a 0 2 in 1 steps, 0 ticks"),
        (task("mark 1").replace("script", "endless = false\nscript"), "pass in 1 steps, 0 ticks"),
        ("".join(endless("delay 1", name=f"t{it}") for it in range(31)) + task(name="b"), "pass in 0 steps, 0 ticks"),
        ("".join(endless("suspend t0", name=f"t{it}") for it in range(32)), "stuck in 32 steps, 0 ticks"),
    ):
        equal(run_text(text)[1].partition(b"\n")[0].decode(), f"base: {head}")
    for value in ("1", "0", '"true"', "1.0", "[]", "{}", "1979-05-27"):
        faults(TASK.replace("script", f"endless = {value}\nscript"), "2 WrongKind: task 0 endless")


MILLION_STEPS = {
    "a loop for ever of branches": ([
        task("repeat forever", "if none", "time", "else", "if below 5", "work 1", "time", "else", "bits g", "end", "end", "end"), GROUP,
    ], "steps in 1000000 steps, 76925 ticks", "975bfcd925da41d3"),
    "32 tasks that leave a loop each turn": ([
        *[endless("repeat forever", "repeat 9", "time", f"if above {it}", "break", "else", "delay 1", "end", "end", "work 1", "end",
                  name=f"t{it}", priority=it % 8) for it in range(32)],
    ], "steps in 1000000 steps, 166533 ticks", "fc026e15764bdb3d"),
    "retries of 16 drivers": ([
        QUEUE,
        *[endless("repeat forever", "repeat 3", f"receive q {it + 1}", "if none", "mark 1", "else", "break", "end", "end", "end",
                  name=f"t{it}", priority=it % 5) for it in range(16)],
        endless("repeat forever", "send q 1 3", "if 0", "work 2", "end", "delay 1", "end", name="s", priority=4),
    ], "steps in 1000000 steps, 21208 ticks", "3fc3d9ce66605cda"),
}


@case
def runs_of_a_million_steps_with_branches_as_an_independent_program_has_them():
    runs_are(MILLION_STEPS)


# -- random scripts of one task


def holds(words, answer):
    """Whether a condition holds of an answer, which is None for none."""
    if words[0] == "not":
        return not holds(words[1:], answer)
    if words[0] == "none":
        return answer is None
    if words[0].isdigit():
        return answer == int(words[0])
    return answer is not None and (answer < int(words[1]) if words[0] == "below" else answer > int(words[1]))


def partners(script):
    """Of each op of a block where its block begins, is parted, and ends; and the loop of each `break`."""
    found, opened = [{} for _ in script], []
    for at, op in enumerate(script):
        word = op.split()[0]
        if word in BLOCKS:
            opened.append([at])
        elif word == "else":
            opened[-1].append(at)
        elif word == "break":
            found[at]["loop"] = next(it for it in reversed(opened) if script[it[0]].startswith("repeat"))
        elif word == "end":
            block = opened.pop()
            for it in (*block, at):
                found[it].update(start=block[0], parted=block[1] if len(block) > 1 else at, end=at)
    return found


class Run:
    """The run of one task, whose script has marks, looks at the time, stamps, work, checks and blocks."""

    def __init__(self, script):
        self.script, self.partners = script, partners(script)
        self.at = self.step = self.tick = self.stamp = 0
        self.answer, self.turns, self.lines = None, {}, []
        self.verdict = self.end()

    def end(self):
        """Goes on to the end, and answers how it ends."""
        while self.at < len(self.script):
            if self.step == STEPS:
                return "steps"
            op, at = self.script[self.at].split(), self.at
            self.step += 1
            if op[0] == "expect" and not holds(op[1:], self.answer):
                return f"check a {at}"
            self.at = self.after(op, at)
            if self.at == len(self.script):
                self.line("run -")
        return "pass"

    def line(self, what):
        self.lines.append(f"{self.step - 1} {self.tick} {what}\n")

    def after(self, op, at):
        """Does an op, and answers which one is next."""
        word, there = op[0], self.partners[at]
        if word == "mark":
            self.line(f"mark a {op[1]}")
        elif word in ("time", "since"):
            self.answer = self.tick - self.stamp * (word == "since")
            self.line(f"call a {at} {word} = {self.answer}")
        elif word == "stamp":
            self.stamp = self.tick
        elif word == "work":
            self.tick += 1
        elif word == "repeat":
            self.turns[at] = None if op[1] == "forever" else int(op[1])
        elif word == "if" and not holds(op[1:], self.answer):
            return there["parted"] + 1
        elif word == "else":
            return there["end"] + 1
        elif word == "break":
            return self.partners[there["loop"][0]]["end"] + 1
        elif word == "end" and there["start"] in self.turns and self.script[there["start"]].startswith("repeat"):
            return self.turned(there["start"], at)
        return at + 1

    def turned(self, start, at):
        """At the end of a turn: the first op of the loop, or what is behind it."""
        if self.turns[start] is not None:
            self.turns[start] -= 1
        return at + 1 if self.turns[start] == 0 else start + 1

    def text(self):
        return f"base: {self.verdict} in {self.step} steps, {self.tick} ticks\n{''.join(self.lines)}".encode()


def of_one_task(script):
    return f"[limits]\nsteps = {STEPS}\n" + task(*script)


@case
def random_scripts_of_one_task():
    ends = {}
    for seed in range(400):
        dice = random.Random(seed)
        script = Scripts(dice, lambda: dice.choice(("time", "time", "since", "stamp", "work 1", "mark 7"))).script(seed % 5 == 0)
        wanted = Run(script)
        ends[wanted.verdict.split()[0]] = ends.get(wanted.verdict.split()[0], 0) + 1
        found = run_text(of_one_task(script))
        equal((script, found), (script, (0 if wanted.verdict == "pass" else 1, wanted.text(), b"")))
    assert all(ends.get(it, 0) > 20 for it in ("pass", "steps", "check")), ends


def first_bad_op(script):
    """The first op that is not allowed where it is; the number of ops where a block is left open; or None."""
    opened = []
    for at, op in enumerate(script):
        word = op.split()[0]
        inner = opened[-1] if opened else None
        is_bad = {
            "repeat": opened.count("repeat") == 4 or len(opened) == 8, "if": len(opened) == 8, "else": inner != "if",
            "end": not opened, "break": "repeat" not in opened,
        }.get(word, False)
        if is_bad:
            return at
        if word in BLOCKS:
            opened.append(word)
        elif word in ("else", "end"):
            opened.pop()
            opened += ["else"] * (word == "else")
    return len(script) if opened else None


@case
def random_scripts_whose_blocks_are_mostly_bad():
    words, good = ("repeat 2", "repeat forever", "if 0", "if none", "else", "end", "end", "end", "break", "mark 1"), 0
    for seed in range(900):
        dice = random.Random(seed)
        script = [dice.choice(words[: 4 if at < seed % 9 else None]) for at in range(dice.randrange(1, 24))]
        script += ["end"] * dice.choice((0, 0, seed % 9, 3))
        bad = first_bad_op(script)
        good += bad is None
        if bad is not None:
            faults(of_one_task(script), f"7 BadNesting: task 0 script {bad}")
        else:
            wanted = Run(script)
            equal(run_text(of_one_task(script))[1], wanted.text())
    assert good > 40, good


# -- random handlers


class Handled:
    """A handler that comes once, before the first step of a task that resumes nobody: its queue has room for two items."""

    def __init__(self, ops):
        self.ops, self.partners = ops, partners(ops)
        self.items, self.answer, self.lines = [], None, []
        self.failed = self.end()

    def end(self):
        """Does the ops, and answers the index of the check that fails, or None."""
        at = 0
        while at < len(self.ops):
            op, there = self.ops[at].split(), self.partners[at]
            if op[0] == "expect" and not holds(op[1:], self.answer):
                return at
            if op[0] == "mark":
                self.lines.append(f"0 0 mark h {op[1]}\n")
            elif op[0] in ("send", "receive", "resume"):
                self.call(op, at)
            at = 1 + (there["parted"] if op[0] == "if" and not holds(op[1:], self.answer) else there["end"] if op[0] == "else" else at)
        return None

    def call(self, op, at):
        if op[0] == "send":
            self.answer = int(len(self.items) < 2)
            self.items += [int(op[2])] * self.answer
        elif op[0] == "receive":
            self.answer = self.items.pop(0) if self.items else None
        else:
            self.answer = 0
        self.lines.append(f"0 0 isr h {at} {op[0]} = {'none' if self.answer is None else self.answer}\n")

    def text(self):
        verdict = "pass" if self.failed is None else f"check h {self.failed}"
        return f"row 0 at 0 h: {verdict} in 1 steps, 1 ticks\n{''.join(self.lines)}0 1 run -\n".encode()


def of_one_handler(ops):
    queue = '[[queue]]\nname = "q"\nlength = 2\n'
    return f'{queue}[[handler]]\nname = "h"\nops = {json.dumps(ops)}\n' + task("work 1")


@case
def random_handlers_that_look():
    checks = tried = 0
    for seed in range(2000):
        dice = random.Random(seed)
        plain = lambda: dice.choice(("send q 1", "send q 0", "receive q", "receive q", "resume a", "mark 7"))
        ops = Scripts(dice, plain).ops((), 1 + seed % 8)
        if len(ops) > 16 or any(it.startswith("repeat") for it in ops):
            continue
        wanted = Handled(ops)
        checks, tried = checks + (wanted.failed is not None), tried + 1
        found = run_text(of_one_handler(ops), "--at", "0", "--handler", "h")
        equal((ops, found), (ops, (int(wanted.failed is not None), wanted.text(), b"")))
    assert tried > 300 and checks > 20, (tried, checks)


@case
def random_handlers_whose_blocks_are_mostly_bad():
    good = 0
    for seed in range(600):
        dice = random.Random(seed)
        ops = [dice.choice(("if 0", "if none", "if 1", "else", "end", "end", "mark 1")[: 3 if at < seed % 10 else None])
               for at in range(dice.randrange(1, 12))]
        ops += ["end"] * dice.choice((0, 1, 2, min(seed % 10, 5)))
        bad = first_bad_op(ops)
        good += bad is None
        if bad is not None:
            faults(of_one_handler(ops), f"7 BadNesting: handler 0 ops {bad}")
        else:
            equal(run_text(of_one_handler(ops), "--at", "0", "--handler", "h")[1], Handled(ops).text())
    assert good > 20, good
