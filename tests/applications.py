"""Random applications, with campaigns of all steps of two handlers: half of them with a daemon, half of them tickless, half of them with
branches and endless tasks, half of them with handlers that look at answers and tasks that measure time, half of them with critical
sections, half of them with variables, half of them with notifications, and half of them with handlers that are armed and raised."""
import json
import random

# How deep loops are at most, and how deep blocks are, which are loops and ifs.
DEEPEST_LOOP, DEEPEST = 4, 8
# How many ops a handler has at most.
MOST_OPS = 16
# The variables, of which nothing stores the last one.
VARIABLES, NEVER_STORED = ("x", "y"), "z"
NUMBERS = (0, 0, 1, 1, 2, 3, 4294967295)
ARITHMETIC = ("add", "sub", "mul", "div", "mod", "and", "or", "xor")
# The words of a notify after its task, of which the first ones are likely; and masks of bits to clear.
ACTIONS = ("increment", "increment", "keep 2", "keep 2", "overwrite 3", "bits 4", "bits 1", "none")
MASKS = (0, 0, 1, 4294967295)


class Scripts:
    """Random scripts with blocks in one another, whose plain ops are given one at a time. Most conditions are of answers that come, or of
    these variables."""

    def __init__(self, dice, plain_op, variables=()):
        self.dice, self.plain_op, self.variables = dice, plain_op, variables

    def condition(self):
        number = self.dice.choice(NUMBERS)
        if self.variables and self.dice.random() < 0.3:
            number = self.dice.choice(self.variables)
        return self.dice.choice(("none", "not none", f"{number}", f"not {number}", f"below {number}", f"above {number}"))

    def script(self, is_endless):
        """A script of few ops, or now and then one whose blocks are as deep as may be; of an endless task mostly one loop without end."""
        around = ("repeat",) if is_endless and self.dice.random() < 0.6 else ()
        most = DEEPEST if self.dice.random() < 0.1 else len(around) + 3
        ops = self.nested(around, most) if self.dice.random() < 0.2 else self.ops(around, most)
        return ["repeat forever", *ops, "end"] if around else ops

    def ops(self, opened, most):
        """Ops inside these open blocks, loops and ifs, of which at most this many are inside one another."""
        found = []
        for _ in range(self.dice.randrange(1, 4)):
            found += self.op(opened, most)
        return found

    def op(self, opened, most):
        chance = self.dice.random()
        if chance < 0.2 and len(opened) < most:
            return self.branch(opened, most)
        if chance < 0.3 and len(opened) < most and opened.count("repeat") < DEEPEST_LOOP:
            return [self.repeat(), *self.ops((*opened, "repeat"), most), "end"]
        if chance < 0.4 and "repeat" in opened:
            return ["break"]
        if chance < 0.42:
            return [f"expect {self.condition()}"]
        return [f"mark {self.dice.randrange(9)}"] if chance < 0.5 else [self.plain_op()]

    def repeat(self):
        return f"repeat {self.dice.choice((1, 2, 2, 3, 'forever'))}"

    def branch(self, opened, most):
        inside = (*opened, "if")
        other = ["else", *self.ops(inside, most)] if self.dice.random() < 0.5 else []
        first = self.ops(inside, most) if self.dice.random() < 0.9 else []
        return [f"if {self.condition()}", *first, *other, "end"]

    def nested(self, around, depth):
        """Blocks inside one another, up to this depth, with ops before and behind each."""
        opened, ops = list(around), []
        while len(opened) < depth:
            is_loop = self.dice.random() < 0.4 and opened.count("repeat") < DEEPEST_LOOP
            ops += [*self.op(opened, 0), self.repeat() if is_loop else f"if {self.condition()}"]
            opened.append("repeat" if is_loop else "if")
        while len(opened) > len(around):
            ops += [*self.op(opened, 0), "end"]
            opened.pop()
        return ops + self.op(opened, 0)


class Handlers(Scripts):
    """Random ops of handlers that look at answers, by branches in one another and by checks. There are no loops."""

    def handler(self):
        """Few ops, or now and then branches as deep as may be, which are as many ops as may be."""
        if self.dice.random() < 0.05:
            return [*(f"if {self.condition()}" for _ in range(DEEPEST)), *["end"] * DEEPEST]
        while True:
            ops = self.ops((), 3) if self.dice.random() < 0.9 else []
            if len(ops) <= MOST_OPS:
                return ops

    def op(self, opened, most):
        chance = self.dice.random()
        if chance < 0.3 and len(opened) < most:
            return self.branch(opened, most)
        return [f"expect {self.condition()}"] if chance < 0.45 else [self.plain_op()]


class Applications:
    """Random applications, most of which have something that can't end, fails or isn't reached. Those of even seeds have a daemon,
    and handlers that set and clear bits by it. Of four seeds the last two are tickless: they sleep and wait for up to nearly a turn of the
    tick, begin at any tick, and have base interrupts amid their sleeps. Of eight seeds the last four have branches, and tasks that are
    endless. Of sixteen seeds the last eight have handlers that look at answers, and tasks that measure time. Of thirty-two seeds the last
    sixteen have critical sections, some of which are closed too often, too seldom, or after an op that they bar. Of sixty-four seeds the
    last thirty-two have variables, which tasks and handlers load, compute with and store, some of them where nothing was answered. Of a
    hundred and twenty-eight seeds the last sixty-four have notifications, which tasks and handlers send, and tasks take and wait for. Of two
    hundred and fifty-six seeds the last half have handlers that can't come at each moment, since they are disarmed or have just come, and
    that devices raise."""

    def __init__(self, seed):
        self.dice, self.has_daemon = random.Random(seed), seed % 2 == 0
        # What a tickless application has besides is of dice of its own.
        self.is_tickless, self.long_dice = seed % 4 > 1, random.Random(-1 - seed)
        # So has one with branches.
        self.has_branches, self.block_dice = seed % 8 > 3, random.Random(f"blocks {seed}")
        # And so has one whose handlers look.
        self.looks, self.look_dice = seed % 16 > 7, random.Random(f"looks {seed}")
        # And one with critical sections.
        self.masks, self.mask_dice = seed % 32 > 15, random.Random(f"masks {seed}")
        # And one with variables.
        self.variables = (*VARIABLES, NEVER_STORED) if seed % 64 > 31 else ()
        self.value_dice = random.Random(f"values {seed}")
        # And one with notifications.
        self.notifies, self.note_dice = seed % 128 > 63, random.Random(f"notifications {seed}")
        # And one whose handlers can't come at each moment.
        self.has_devices, self.device_dice = seed % 256 > 127, random.Random(f"devices {seed}")

    def ticks(self, few):
        """So few ticks, and in a tickless application perhaps many."""
        return self.long_dice.choice((few, 3, 40, 700, 4000, 86400000, 4294967294)) if self.is_tickless else few

    def device_op(self):
        """An op about when a handler comes, of a task or a handler."""
        dice, name = self.device_dice, self.device_dice.choice("hhk")
        later = dice.choice((1, 1, 2, 3, self.ticks(2) % 1000000 + 1))
        return dice.choice((f"arm {name}", f"arm {name}", f"disarm {name}", f"raise {name} {later}", f"raise {name} {later}", f"cancel {name}"))

    def task_op(self):
        if self.has_devices and self.device_dice.random() < 0.3:
            return self.device_op()
        if self.variables and self.value_dice.random() < 0.4:
            return self.value_dice.choice((self.value_op(), self.value_op(), "send q answer 0", "overwrite r answer"))
        return self.own_op() if self.notifies and self.note_dice.random() < 0.4 else self.plain_task_op()

    def notify_op(self):
        """An op of a task or a handler that notifies a task."""
        action = self.note_dice.choice(ACTIONS)
        if self.variables and self.note_dice.random() < 0.2:
            action = action.replace(action.split()[-1], "answer") if " " in action else action
        return f"notify {self.note_dice.choice('ab')} {action}"

    def own_op(self):
        """An op on notifications of a task, which mostly is about its own."""
        dice, wait = self.note_dice, self.note_dice.choice(("forever", "forever", 0, 2))
        return dice.choice((
            self.notify_op(), self.notify_op(), f"notify_take {dice.choice(('clear', 'decrement'))} {wait}",
            f"notify_wait {dice.choice(MASKS)} {dice.choice(MASKS)} {wait}", "notify_clear", f"notify_value_clear {dice.choice(MASKS)}"))

    def value_op(self):
        """An op about a variable or the last answer, of a task or a handler."""
        dice, name = self.value_dice, self.value_dice.choice(VARIABLES)
        number, other = dice.choice(NUMBERS), dice.choice(self.variables)
        arithmetic = f"{dice.choice(ARITHMETIC)} {dice.choice((number or 1, number or 1, other))}"
        stores = f"store {name} {dice.choice((number, 'answer', 'answer'))}"
        return dice.choice((f"load {other}", f"load {other}", stores, stores, arithmetic, arithmetic, "mark answer"))

    def plain_task_op(self):
        return self.mask_op() if self.masks and self.mask_dice.random() < 0.4 else self.unmasked_op()

    def mask_op(self):
        """An op that opens or closes a critical section, or one that is done inside."""
        return self.mask_dice.choice(("enter_critical", "enter_critical", "exit_critical", "exit_critical", "waiting q", "bits g"))

    def unmasked_op(self):
        return self.clock_op() if self.looks and self.look_dice.random() < 0.3 else self.other_op()

    def clock_op(self):
        """An op by which a task measures time, or a check of how much has passed."""
        return self.look_dice.choice(("stamp", "stamp", "since", "since", "since", f"expect below {self.ticks(3)}"))

    def other_op(self):
        q, s, t = (self.dice.choice(it) for it in ("qr", "sc", "ab"))
        wait = self.dice.choice(("forever", "forever", 0, 2))
        wait = self.ticks(2) if wait == 2 else wait
        mask, other = self.dice.randrange(1, 8), self.dice.choice(("any", "all"))
        return self.dice.choice((
            f"receive {q} {wait}", f"peek {q} {wait}", f"send {q} 1 {wait}", f"take {s} {wait}", f"give {s}", f"lock m {wait}",
            "unlock m", f"set g {mask}", f"wait g {mask} {other} clear {wait}", f"suspend {t}", f"resume {t}", "work 2", self.sleep(),
        ))

    def sleep(self):
        return f"{self.long_dice.choice(('delay', 'delay_until'))} {self.ticks(1)}" if self.is_tickless else "delay 1"

    def script(self):
        ops = [self.task_op() for _ in range(self.dice.randrange(1, 5))]
        return ["repeat 2", *ops, "end"] if self.dice.random() < 0.3 else ops

    def task(self, name):
        priority = self.dice.randrange(2)
        endless = self.block_dice.choice(("", "", "endless = false\n", "endless = true\n", "endless = true\n")) if self.has_branches else ""
        blocks = Scripts(self.block_dice, self.task_op, self.variables)
        script = self.loaded(blocks.script("true" in endless) if self.has_branches else self.script())
        return f'[[task]]\nname = "{name}"\npriority = {priority}\n{endless}script = {json.dumps(script)}'

    def handler_op(self):
        if self.has_devices and self.device_dice.random() < 0.3:
            return self.device_op()
        if self.variables and self.value_dice.random() < 0.4:
            return self.value_dice.choice((self.value_op(), self.value_op(), "send q answer"))
        if self.notifies and self.note_dice.random() < 0.4:
            return self.notify_op()
        ops = ("send q 1", "send_front q 1", "give s", "give c", "receive q", "overwrite r 1", "resume a", "mark 1", "peek q")
        return self.command() if self.has_daemon and self.dice.random() < 0.4 else self.dice.choice(ops)

    def handler(self):
        if self.looks:
            return self.loaded(Handlers(self.look_dice, self.handler_op, self.variables).handler())
        return self.loaded([self.handler_op() for _ in range(self.dice.randrange(6))])

    def arrivals(self):
        """Whether a handler is armed at reset, and how far apart it comes."""
        if not self.has_devices:
            return ""
        armed = self.device_dice.choice(("", "armed = true\n", "armed = false\n", "armed = false\n"))
        return f"\n{armed}{self.device_dice.choice(('', '', 'apart = 1', 'apart = 3', f'apart = {self.ticks(2) % 1000001}'))}".rstrip("\n")

    def loaded(self, ops):
        """These ops, mostly with a load before them, so that there is a number from the first one on."""
        is_loaded = self.variables and len(ops) < MOST_OPS and self.value_dice.random() < 0.8
        return [f"load {self.value_dice.choice(VARIABLES)}", *ops] if is_loaded else ops

    def command(self):
        return f"{self.dice.choice(('set', 'set', 'clear'))} g {self.dice.randrange(1, 8)}"

    def daemon(self):
        """Below, equal to and above the tasks, and with as little room for commands as a handler may need."""
        return f'[daemon]\nname = "d"\npriority = {self.dice.randrange(3)}\nlength = {self.dice.randrange(1, 4)}'

    def beginning(self):
        start = self.long_dice.choice((0, 4294967290, self.long_dice.randrange(1 << 32)))
        return f"start = {start}\ntickless = true" if self.is_tickless else ""

    def limit_of_ticks(self):
        return f"ticks = {self.long_dice.choice((4001, 281474976710656))}\n" if self.is_tickless else ""

    def interrupts(self):
        ticks = self.long_dice.sample(range(1, 4001), self.long_dice.randrange(4)) if self.is_tickless else []
        return [f'[[interrupt]]\ntick = {it}\nhandler = "{self.long_dice.choice("hk")}"' for it in ticks]

    def section_of_variables(self):
        initial = {it: self.value_dice.choice(("", ", initial = 7", ", initial = 4294967295")) for it in VARIABLES}
        tables = ", ".join(f'{{ name = "{it}"{initial.get(it, "")} }}' for it in self.variables)
        return f"variable = [{tables}]" if self.variables else ""

    def text(self):
        handlers = [self.handler() for _ in "hk"]
        parts = [self.beginning(), 'queue = [{ name = "q", length = 2 }, { name = "r", length = 1 }]']
        parts.append('binary = [{ name = "s" }]\nmutex = [{ name = "m" }]')
        parts.append(f'counting = [{{ name = "c", max = 2, initial = {self.dice.randrange(2)} }}]\ngroup = [{{ name = "g" }}]')
        parts += [self.section_of_variables()]
        parts += [f'[[handler]]\nname = "{name}"\nops = {json.dumps(ops)}{self.arrivals()}' for name, ops in zip("hk", handlers)]
        parts += [self.task(it) for it in "ab"]
        parts += [self.daemon()] if self.has_daemon else []
        parts += self.interrupts()
        parts.append(f'[limits]\n{self.limit_of_ticks()}steps = 300\n[campaign]\npoints = ["all h", "all k", "7 h", "30 h", "all k from 20 to 24"]')
        return "\n".join(it for it in parts if it) + "\n"
