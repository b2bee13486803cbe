"""Cases of tests/program about variables and values: random scripts of one task and of a handler, and what a small program of its own makes of
them."""
import hashlib
import json
import random

from branches import endless, holds, partners
from cases import case, equal
from edges import QUEUE, entries, task
from running import campaign_text, points, run_text

LARGEST = 4294967295
NUMBERS = (0, 1, 2, 3, 7, 255, 65537, 2147483648, LARGEST - 1, LARGEST)
ARITHMETIC = {
    "add": lambda a, b: (a + b) & LARGEST, "sub": lambda a, b: (a - b) & LARGEST, "mul": lambda a, b: (a * b) & LARGEST,
    "div": lambda a, b: a // b if b else None, "mod": lambda a, b: a % b if b else None,
    "and": lambda a, b: a & b, "or": lambda a, b: a | b, "xor": lambda a, b: a ^ b,
}
NAMES = ("x", "y", "z")


class Scripts:
    """Random ops of a task or a handler, whose calls end with this wait."""

    def __init__(self, dice, wait):
        self.dice, self.wait = dice, wait

    def number(self):
        return self.dice.choice(NUMBERS)

    def operand(self):
        return self.dice.choice((*NAMES, *NAMES, self.number()))

    def value(self):
        return self.dice.choice(("answer", "answer", self.number()))

    def condition(self):
        compared = self.dice.choice((*NAMES, 0, 1, LARGEST))
        return self.dice.choice(("none", "not none", f"{compared}", f"not {compared}", f"below {compared}", f"above {compared}"))

    def op(self):
        word = self.dice.choice(tuple(ARITHMETIC))
        operand = self.operand()
        if operand == 0 and word in ("div", "mod"):
            operand = 3
        name = self.dice.choice(NAMES)
        return self.dice.choice((
            f"load {name}", f"load {name}", f"load {name}", f"store {name} {self.value()}", f"store {name} {self.value()}", f"{word} {operand}",
            f"{word} {operand}", f"send q {self.value()}{self.wait}", f"receive q{self.wait}", f"mark {self.value()}",
        ))

    def ops(self, room, depth=0):
        found = []
        while len(found) < room and self.dice.random() < 0.93:
            if depth < 3 and room - len(found) > 4 and self.dice.random() < 0.2:
                found += [f"if {self.condition()}", *self.ops(2, depth + 1), *self.dice.choice(([], ["else", self.op()])), "end"]
            else:
                found.append(f"expect {self.condition()}" if self.dice.random() < 0.04 else self.op())
        return found

    def script(self, room):
        """Ops of a task: some lie in critical sections, and ticks pass."""
        found = self.dice.choice((["time"], ["load x"], []))
        while len(found) < room:
            inner = [it for it in self.ops(4) if it.split()[0] not in ("send", "receive")] if self.dice.random() < 0.3 else None
            found += self.ops(5) + ["work 1"] if inner is None else ["enter_critical", *inner, "exit_critical"]
        return found


class Memory:
    """The variables, and a queue with room for two items."""

    def __init__(self, initial):
        self.variables, self.items = dict(initial), []

    def holds(self, words, answer):
        return holds([str(self.variables.get(it, it)) for it in words], answer)

    def number_of(self, word, answer):
        """The number that a value or an operand is, or None."""
        if word == "answer":
            return answer
        return self.variables[word] if word in self.variables else int(word)

    def done(self, op, answer):
        """Does an op that has a result, or a mark. Returns whether it has its value, and the result."""
        word, *others = op.split()
        if word == "load":
            return True, self.variables[others[0]]
        if word == "receive":
            return True, self.items.pop(0) if self.items else None
        number = self.number_of(others[0 if word in ARITHMETIC or word == "mark" else 1], answer)
        if word in ARITHMETIC:
            number = None if answer is None else ARITHMETIC[word](answer, number)
        if number is None or word in ARITHMETIC or word == "mark":
            return number is not None, number
        if word == "store":
            self.variables[others[0]] = number
            return True, number
        has_room = len(self.items) < 2
        self.items += [number] * has_room
        return True, int(has_room)


class Run:
    """The run of a task `a` and a handler `h` that is injected before this step, if it is given."""

    def __init__(self, initial, script, ops, injected=None):
        self.memory, self.script, self.ops = Memory(initial), script, ops
        self.partners, self.partners_of_handler = partners(script), partners(ops)
        self.at = self.step = self.tick = self.sections = 0
        self.answer, self.stopped, self.is_pending, self.lines = None, None, False, []
        while self.stopped is None and self.at < len(script):
            self.come(injected == self.step)
            self.do(script[self.at])
            if self.at == len(script):
                self.line("run -")
            self.step += 1

    def line(self, what):
        self.lines.append(f"{self.step} {self.tick} {what}\n")

    def come(self, is_injected):
        """The handler comes, or is pending, before a step."""
        if self.sections:
            self.is_pending |= is_injected
            return
        for _ in range(self.is_pending + is_injected):
            self.handle()
        self.is_pending = False

    def handle(self):
        at, answer = 0, None
        while at < len(self.ops):
            word, there = self.ops[at].split(), self.partners_of_handler[at]
            if word[0] in ("if", "expect", "else", "end"):
                is_so = word[0] == "end" or word[0] != "else" and self.memory.holds(word[1:], answer)
                if word[0] == "expect" and not is_so:
                    return self.fail(f"check h {at}")
                at = 1 + (at if is_so or word[0] == "expect" else there["parted" if word[0] == "if" else "end"])
                continue
            has_value, result = self.memory.done(self.ops[at], answer)
            if not has_value:
                return self.fail(f"check h {at}")
            answer = self.tell(f"isr h {at}", "h", word[0], result, answer)
            at += 1

    def tell(self, what, name, word, result, answer):
        """Writes the line of an op that is done, and returns the last answer after it."""
        shown = "none" if result is None else result
        self.line(f"mark {name} {shown}" if word == "mark" else f"{what} {word} = {shown}")
        return answer if word == "mark" else result

    def fail(self, check):
        self.stopped = self.stopped or check

    def do(self, op):
        """Does the op of a step."""
        word, *others = op.split()
        there, at = self.partners[self.at], self.at
        if word in ("if", "expect"):
            is_so = self.memory.holds(others, self.answer)
            if word == "expect" and not is_so:
                return self.fail(f"check a {at}")
            self.at = 1 + (at if is_so else there["parted"])
        elif word in ("else", "end"):
            self.at = 1 + there["end"]
        elif word in ("enter_critical", "exit_critical", "work", "time"):
            self.sections += {"enter_critical": 1, "exit_critical": -1}.get(word, 0)
            if word == "time":
                self.answer = self.tell(f"call a {at}", "a", word, self.tick, self.answer)
            self.tick += word == "work"
            self.at += 1
        else:
            has_value, result = self.memory.done(op, self.answer)
            if not has_value:
                return self.fail(f"check a {at}")
            self.answer = self.tell(f"call a {at}", "a", word, result, self.answer)
            self.at += 1

    def text(self, head="base: "):
        return f"{head}{self.stopped or 'pass'} in {self.step} steps, {self.tick} ticks\n{''.join(self.lines)}"

    def state(self):
        """The lines of `--state`."""
        task = "ended" if self.at == len(self.script) else f"runs {self.at}"
        values = self.memory.variables.values()
        return f"state a {task}\n" + "".join(f"variable {at} = {it}\n" for at, it in enumerate(values))


def file_of(initial, script, ops):
    variables = "".join(f'[[variable]]\nname = "{name}"\ninitial = {value}\n' for name, value in initial.items())
    return (
        f'[[queue]]\nname = "q"\nlength = 2\n{variables}[[handler]]\nname = "h"\nops = {json.dumps(ops)}\n'
        f'[[task]]\nname = "a"\npriority = 1\nscript = {json.dumps(script)}\n'
    )


def random_file(seed):
    """Initial values, a script and the ops of a handler."""
    dice = random.Random(seed)
    initial = {name: dice.choice((0, 0, dice.choice(NUMBERS), dice.randrange(1 << 32))) for name in NAMES}
    return initial, Scripts(dice, " 0").script(1 + seed % 20), Scripts(dice, "").ops(1 + seed % 13)[:16]


def files(seeds):
    """Random files whose scripts aren't too long, and whose handler's blocks weren't cut."""
    for seed in range(seeds):
        initial, script, ops = random_file(seed)
        if len(script) < 100 and sum(it.startswith("if ") for it in ops) == ops.count("end"):
            yield initial, script, ops


@case
def random_scripts_with_variables():
    checks = tried = 0
    for initial, script, ops in files(1000):
        wanted = Run(initial, script, ops)
        checks, tried = checks + (wanted.stopped is not None), tried + 1
        found = run_text(file_of(initial, script, ops), "--state")
        equal((script, found), (script, (int(wanted.stopped is not None), (wanted.text() + wanted.state()).encode(), b"")))
    assert tried > 800 and 200 < checks < tried - 200, (tried, checks)


@case
def random_handlers_with_variables_before_each_step():
    rows = checks = pending = 0
    for initial, script, ops in files(400):
        base = Run(initial, script, ops)
        wanted = [Run(initial, script, ops, it) for it in range(base.step)]
        text = "".join(it.text(f"row {at} at {at} h: ") for at, it in enumerate(wanted))
        found = campaign_text(file_of(initial, script, ops) + points("all h"))[1].decode()
        equal((script, ops, found[: found.rindex("total ")]), (script, ops, text))
        rows, checks = rows + len(wanted), checks + sum((it.stopped or "").startswith("check h") for it in wanted)
        pending += any(it == "enter_critical" for it in script)
    assert rows > 3000 and checks > 500 and pending > 100, (rows, checks, pending)


# -- long runs


def handler(*ops, name="h"):
    return f'[[handler]]\nname = "{name}"\nops = {json.dumps(ops)}\n'


# Runs of a million steps: the parts of the file, the verdict, and the digest of all that is written, as an independent program has it.
MILLION_STEPS = {
    "a task that computes random numbers": ([
        entries("variable", 1), task("repeat forever", "load v0", "mul 1664525", "add 1013904223", "store v0 answer", "div 65536", "mod 7", "if 3",
                                     "mark answer", "end", "end"),
    ], "steps in 1000000 steps, 0 ticks", "9411c294540a822a"),
    "32 tasks that add up each other's variables": ([
        entries("variable", 32, "initial = 1\n"),
        *[endless("repeat forever", f"load v{it}", f"add v{(it + 1) % 32}", f"store v{it} answer", "delay 1", "end", name=f"t{it}", priority=it % 8)
          for it in range(31)],
        task("repeat forever", "enter_critical", "load v31", "sub v0", "xor v7", "store v31 answer", "exit_critical", "work 1", "end"),
    ], "steps in 1000000 steps, 6993 ticks", "72b09b79135514cd"),
    "a ring of values through queues, which interrupts change": ([
        QUEUE, entries("queue", 1, "length = 1\n", "p"), entries("variable", 2, "initial = 4294967290\n"),
        handler("load v0", "add 7", "store v0 answer", "receive q", "if not none", "add v0", "overwrite p0 answer", "end"),
        *[f'[[interrupt]]\ntick = {40 * it + 1}\nhandler = "h"\n' for it in range(1024)],
        task("repeat forever", "load v1", "add 1", "send q answer 3", "if 0", "store v1 0", "end", "receive p0 2", "if not none",
             "store v1 answer", "end", "work 1", "end"),
        endless("repeat forever", "receive q forever", "if above v0", "mul 3", "else", "and 4095", "end", "send p0 answer 1", "end", name="b",
                priority=2),
    ], "steps in 1000000 steps, 47618 ticks", "3edff6c3e43d7f0a"),
}
# Campaigns over each step of a run: the parts of the file, the line of totals, and the digest.
CAMPAIGNS = {
    "rows that count on from another number": ([
        "[limits]\nsteps = 600\n", entries("variable", 2), handler("load v0", "add 100", "store v0 answer"),
        task("repeat forever", "load v0", "add 1", "store v0 answer", "if above 250", "store v0 0", "end", "end"),
    ], "total 600: pass 0, check 0, misuse 0, ticks 0, steps 600, stuck 0, not reached 0", "9fc47bc0bfea5ee9"),
    "rows whose variables are written over": ([
        "[limits]\nsteps = 600\n", entries("variable", 2), handler("store v1 9", "load v0", "store v1 answer"),
        task("repeat forever", "load v0", "add 1", "store v0 answer", "store v1 answer", "load v1", "if v0", "time", "else", "since", "end", "end"),
    ], "total 600: pass 0, check 0, misuse 0, ticks 0, steps 600, stuck 0, not reached 0", "ece02a6311cec8ee"),
    "rows that end where a value is missing": ([
        "[limits]\nsteps = 600\n", QUEUE, entries("variable", 2, "initial = 3\n"), handler("receive q", "store v1 answer", "load v0", "sub 1", "store v0 answer"),
        task("repeat forever", "load v0", "send q answer 0", "load v1", "div v0", "receive q 0", "add v1", "end"),
    ], "total 600: pass 0, check 598, misuse 0, ticks 0, steps 2, stuck 0, not reached 0", "0aff0a9090b6a21c"),
}


def digest_of(text):
    return hashlib.sha256(text).hexdigest()[:16]


@case
def runs_of_a_million_steps_with_variables_as_an_independent_program_has_them():
    for name, (parts, verdict, digest) in MILLION_STEPS.items():
        _, out, err = run_text("".join(parts))
        equal((name, out.partition(b"\n")[0].decode(), digest_of(out), err), (name, f"base: {verdict}", digest, b""))


@case
def campaigns_over_each_step_with_variables_as_an_independent_program_has_them():
    for name, (parts, totals, digest) in CAMPAIGNS.items():
        _, out, err = campaign_text("".join(parts) + points("all h"))
        equal((name, out.splitlines()[-1].decode(), digest_of(out), err), (name, totals, digest, b""))
