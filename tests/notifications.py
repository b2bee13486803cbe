"""Notifications of a task that is alone, beside a model of it: random scripts and base interrupts, and a handler before each step.

The model knows one task, idle and handlers that notify the task. It is written from docs/kernel/tasks.md, and shares nothing with the program."""
import json
import random

from cases import case, equal
from running import campaign_text, points

TOP = 4294967295
NUMBERS = (0, 1, 2, 3, 6, TOP, TOP - 1)
# The handlers, each with the actions of its notifies.
HANDLERS = {"one": ["increment"], "two": ["bits 6", "keep 9"], "three": ["keep 4"], "four": ["none", "overwrite 4294967295", "increment"]}


class Notification:
    """The notification value of the task, and whether a notification is pending."""

    def __init__(self):
        self.value, self.is_pending = 0, False

    def notify(self, action):
        """Returns what a notify returns."""
        word, _, number = action.partition(" ")
        if word == "keep" and self.is_pending:
            return 0
        changed = {"none": self.value, "increment": (self.value + 1) % (TOP + 1), "bits": self.value | int(number or 0)}
        self.value, self.is_pending = changed[word] if word in changed else int(number), True
        return 1

    def enter(self, words):
        """At the start of a call that may wait. Returns whether there is something."""
        if words[0] == "notify_take":
            return self.value != 0
        if not self.is_pending:
            self.value &= ~int(words[1])
        return self.is_pending

    def leave(self, words):
        """At the end of a call that may wait. Returns its result."""
        found, was_pending = self.value, self.is_pending
        self.is_pending = False
        if words[0] == "notify_take":
            self.value = 0 if words[1] == "clear" else max(found, 1) - 1
            return found
        if was_pending:
            self.value &= ~int(words[2])
        return found if was_pending else "none"


class Model:
    """A run of the task, with this handler injected before this step."""

    def __init__(self, script, interrupts, step=None, handler=None):
        self.script, self.interrupts, self.injection = script, interrupts, (step, handler)
        self.step, self.tick, self.lines = 0, 0, []
        self.notification = Notification()
        # Whether the task waits, and whether idle runs.
        self.waits = self.is_idle = self.is_held = False

    def line(self, what):
        self.lines.append(f"{self.step} {self.tick} {what}\n")

    def handle(self, handler):
        for at, action in enumerate(HANDLERS[handler]):
            self.line(f"isr {handler} {at} notify = {self.notification.notify(action)}")
            self.waits = False

    def before_step(self):
        """The injected handler, if it is its step."""
        if self.step == self.injection[0]:
            self.handle(self.injection[1])
            self.wake()

    def wake(self):
        if self.is_idle and not self.waits:
            self.is_idle = False
            self.line("run a")

    def pass_tick(self, deadline=None):
        self.tick += 1
        self.waits &= self.tick != deadline
        for it in self.interrupts.get(self.tick, ()):
            self.handle(it)
        self.wake()

    def run(self):
        """The text of its lines, how many steps it has, and how many ticks."""
        for at, text in enumerate(self.script):
            words = text.split()
            if words[0] == "work":
                for left in range(int(words[1]) - 1, -1, -1):
                    self.before_step()
                    self.pass_tick()
                    self.go_on(is_last=at + 1 == len(self.script) and left == 0)
            else:
                self.before_step()
                self.line(f"call a {at} {words[0]} = {self.answer(words)}")
                self.go_on(is_last=at + 1 == len(self.script))
        return "".join(self.lines), self.step, self.tick

    def go_on(self, is_last=False):
        if is_last:
            self.line("run -")
        self.step += 1

    def answer(self, words):
        """The result of the call, in its last step, before which it may have waited."""
        if words[0] == "notify":
            return self.notification.notify(" ".join(words[2:]))
        if words[0] in ("notify_take", "notify_wait"):
            if not self.notification.enter(words) and words[-1] != "0":
                self.wait(int(words[-1]))
            return self.notification.leave(words)
        if words[0] == "notify_clear":
            was_pending, self.notification.is_pending = self.notification.is_pending, False
            return int(was_pending)
        found = self.notification.value
        self.notification.value &= ~int(words[1])
        return found

    def wait(self, ticks):
        """The steps of Start and Leave, and of idle, up to the step in which the call ends."""
        deadline, self.waits = self.tick + ticks, True
        self.step += 1
        if self.step == self.injection[0]:
            self.handle(self.injection[1])
        if self.waits:
            self.is_idle = True
            self.line("run -")
        self.step += 1
        self.before_step()
        while self.is_idle:
            self.pass_tick(deadline)
            self.step += 1
            self.before_step()


class Scripts:
    """Random scripts, and random base interrupts."""

    def __init__(self, seed):
        self.dice = random.Random(seed)

    def op(self):
        number, other, wait = self.dice.choice(NUMBERS), self.dice.choice(NUMBERS), self.dice.choice((0, 1, 2, 3, 5))
        notify = self.dice.choice(("none", "increment", f"bits {number}", f"overwrite {number}", f"keep {number}"))
        return self.dice.choice((
            f"notify a {notify}", f"notify_take {self.dice.choice(('clear', 'decrement'))} {wait}", f"notify_wait {number} {other} {wait}",
            f"notify_take {self.dice.choice(('clear', 'decrement'))} {wait}", f"notify_wait {number} {other} {wait}",
            "notify_clear", f"notify_value_clear {number}", f"work {self.dice.randrange(1, 4)}"))

    def script(self):
        return [self.op() for _ in range(self.dice.randrange(1, 12))]

    def interrupts(self):
        found = {}
        for _ in range(self.dice.randrange(5)):
            found.setdefault(self.dice.randrange(1, 12), []).append(self.dice.choice(list(HANDLERS)))
        return {tick: names[:4] for tick, names in found.items()}


def text_of(script, interrupts):
    ops = {name: json.dumps([f"notify a {it}" for it in actions]) for name, actions in HANDLERS.items()}
    text = "".join(f'[[handler]]\nname = "{name}"\nops = {it}\n' for name, it in ops.items())
    text += f'[[task]]\nname = "a"\npriority = 1\nscript = {json.dumps(script)}\n'
    return text + "".join(f'[[interrupt]]\ntick = {tick}\nhandler = "{it}"\n' for tick, names in interrupts.items() for it in names)


@case
def random_tasks_that_are_notified_do_as_the_model():
    waits = 0
    for seed in range(200):
        scripts = Scripts(seed)
        script, interrupts, handler = scripts.script(), scripts.interrupts(), scripts.dice.choice(list(HANDLERS))
        _, steps, _ = Model(script, interrupts).run()
        rows = [Model(script, interrupts, step, handler).run() for step in range(steps)]
        wanted = "".join(
            f"row {at} at {at} {handler}: pass in {last} steps, {ticks} ticks\n{lines}" for at, (lines, last, ticks) in enumerate(rows))
        wanted += f"total {steps}: pass {steps}, check 0, misuse 0, ticks 0, steps 0, stuck 0, not reached 0\n"
        found = campaign_text(text_of(script, interrupts) + points(f"all {handler}"))
        equal((seed, *found), (seed, 0, wanted.encode(), b""))
        waits += wanted.count(" run a\n")
    assert waits > 3000, waits
