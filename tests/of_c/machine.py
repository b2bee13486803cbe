"""Runs the script of one task alone, as the program does: for tests that compare it with the C that it was made of."""
import operator
from typing import Callable, Dict, List, Optional, Sequence

MOST_CALLS = 300
SIZE = 1 << 32
ARITHMETIC: Dict[str, Callable[[int, int], int]] = {
    "add": operator.add, "sub": operator.sub, "mul": operator.mul, "div": operator.floordiv, "mod": operator.mod, "and": operator.and_,
    "or": operator.or_, "xor": operator.xor,
}


class Over(Exception):
    """The task doesn't go on."""


class Machine:
    """A task's script, and the objects and the variables of its file."""

    def __init__(self, objects: Sequence[object], ops: Sequence[str], variables: Optional[Dict[str, int]] = None):
        self.variables = dict(variables or {})
        self.kinds = {it.name: it.kind for it in objects}
        self.most = {it.name: it.numbers.get("length", it.numbers.get("max", 1)) for it in objects}
        self.items: Dict[str, List[int]] = {it.name: [] for it in objects}
        self.counts = {it.name: 1 if it.kind == "mutex" else it.numbers.get("initial", 0) for it in objects}
        self.ops = [it.split() for it in ops]
        self.now = self.at = self.stamp = self.steps = self.sections = 0
        self.answer: Optional[int] = None
        # the task's notification
        self.notified, self.is_pending = 0, False
        self.loops: List[List[int]] = []
        self.trace: List[str] = []

    def run(self) -> List[str]:
        """The lines of the trace, and then how it ends."""
        try:
            while self.at < len(self.ops):
                self.steps += 1
                if self.steps > 100_000:
                    raise Over("enough")
                self.step()
        except Over as why:
            return [*self.trace, str(why)]
        return [*self.trace, "pass"]

    def step(self) -> None:
        word, *words = self.ops[self.at]
        self.at += 1
        if word in ARITHMETIC:
            return self.compute(word, words[0])
        getattr(self, f"do_{word}")(*words)

    def write(self, line: str) -> None:
        self.trace.append(f"{self.now} {line}")
        if len(self.trace) >= MOST_CALLS:
            raise Over("enough")

    def answered(self, word: str, answer: Optional[int]) -> None:
        self.answer = answer
        self.write(f"{word} = {'none' if answer is None else answer}")

    def waits(self, is_possible: bool, wait: str) -> bool:
        if is_possible:
            return True
        if wait == "forever":
            raise Over("stuck")
        self.now += int(wait)
        return False

    def holds(self, words: Sequence[str]) -> bool:
        if words[0] == "not":
            return not self.holds(words[1:])
        if words[0] in ("below", "above"):
            number = self.number(words[1])
            return self.answer is not None and (self.answer < number if words[0] == "below" else self.answer > number)
        return self.answer == (None if words[0] == "none" else self.number(words[0]))

    def number(self, word: str) -> int:
        return int(word) if word.isdigit() else self.variables[word]

    def value(self, word: str) -> int:
        """A number, or the last answer, which must be one."""
        if word != "answer":
            return int(word)
        if self.answer is None:
            raise Over("no value")
        return self.answer

    # -- blocks

    def behind_block(self, at: int, stops_at_else: bool) -> int:
        """The index behind the `end`, or behind the `else`, of the block that is open before this index."""
        depth = 1
        while True:
            word = self.ops[at][0]
            at += 1
            depth += (word in ("if", "repeat")) - (word == "end")
            if depth == 0 or depth == 1 and word == "else" and stops_at_else:
                return at

    def do_if(self, *words: str) -> None:
        self.loops.append([])
        if not self.holds(words):
            self.at = self.behind_block(self.at, True)
            if self.ops[self.at - 1][0] == "end":
                self.loops.pop()

    def do_else(self) -> None:
        self.at = self.behind_block(self.at, False)
        self.loops.pop()

    def do_repeat(self, turns: str) -> None:
        self.loops.append([self.at, -1 if turns == "forever" else int(turns)])

    def do_end(self) -> None:
        block = self.loops[-1]
        if block:
            block[1] -= 1
            if block[1] != 0:
                self.at = block[0]
                return
        self.loops.pop()

    def do_break(self) -> None:
        while True:
            self.at = self.behind_block(self.at, False)
            if self.loops.pop():
                return

    # -- ops

    def do_work(self, ticks: str) -> None:
        self.now += int(ticks)

    def do_mark(self, number: str) -> None:
        self.write(f"mark {self.value(number)}")

    # -- variables, which leave no line here, as the C has none

    def do_load(self, name: str) -> None:
        self.answer = self.variables[name]

    def do_store(self, name: str, value: str) -> None:
        self.answer = self.variables[name] = self.value(value)

    def compute(self, word: str, other: str) -> None:
        if word in ("div", "mod") and self.number(other) == 0:
            raise Over("no value")
        self.answer = ARITHMETIC[word](self.value("answer"), self.number(other)) % SIZE

    def do_expect(self, *words: str) -> None:
        if not self.holds(words):
            raise Over("check")

    def do_enter_critical(self) -> None:
        self.sections += 1

    def do_exit_critical(self) -> None:
        if self.sections == 0:
            raise Over("misuse")
        self.sections -= 1

    def do_stamp(self) -> None:
        self.stamp = self.now

    def do_since(self) -> None:
        self.answer = self.now - self.stamp  # without a line, as the stub has none

    def do_time(self) -> None:
        self.answer = self.now  # as `since`

    def do_delay(self, ticks: str) -> None:
        self.answered("delay", 0)
        self.now += int(ticks)

    def do_yield(self) -> None:
        self.answered("yield", 0)

    def do_suspend_all(self) -> None:
        self.answered("suspend_all", 0)

    def do_resume_all(self) -> None:
        self.answered("resume_all", 0)

    def put(self, word: str, queue: str, item: str, wait: str, at: Optional[int]) -> None:
        items, number = self.items[queue], self.value(item)
        is_possible = self.waits(len(items) < self.most[queue], wait)
        if is_possible:
            items.insert(len(items) if at is None else at, number)
        self.answered(word, int(is_possible))

    def do_send(self, queue: str, item: str, wait: str) -> None:
        self.put("send", queue, item, wait, None)

    def do_send_front(self, queue: str, item: str, wait: str) -> None:
        self.put("send_front", queue, item, wait, 0)

    def do_overwrite(self, queue: str, item: str) -> None:
        self.items[queue] = [self.value(item)]
        self.answered("overwrite", 1)

    def do_receive(self, queue: str, wait: str) -> None:
        is_there = self.waits(bool(self.items[queue]), wait)
        self.answered("receive", self.items[queue].pop(0) if is_there else None)

    def do_peek(self, queue: str, wait: str) -> None:
        self.answered("peek", self.items[queue][0] if self.waits(bool(self.items[queue]), wait) else None)

    def do_waiting(self, queue: str) -> None:
        self.answered("waiting", len(self.items[queue]))

    def do_spaces(self, queue: str) -> None:
        self.answered("spaces", self.most[queue] - len(self.items[queue]))

    def do_take(self, semaphore: str, wait: str, word: str = "take") -> None:
        is_possible = self.waits(self.counts[semaphore] > 0, wait)
        self.counts[semaphore] -= is_possible
        self.answered(word, int(is_possible))

    def do_give(self, semaphore: str, word: str = "give") -> None:
        is_possible = self.counts[semaphore] < self.most[semaphore]
        if not is_possible and word == "unlock":
            raise Over("misuse")
        self.counts[semaphore] += is_possible
        self.answered(word, int(is_possible))

    def do_lock(self, mutex: str, wait: str) -> None:
        self.do_take(mutex, wait, "lock")

    def do_unlock(self, mutex: str) -> None:
        self.do_give(mutex, "unlock")

    def do_set(self, group: str, mask: str) -> None:
        self.counts[group] |= int(mask)
        self.answered("set", self.counts[group])

    def do_clear(self, group: str, mask: str) -> None:
        before = self.counts[group]
        self.counts[group] &= ~int(mask)
        self.answered("clear", before)

    def do_bits(self, group: str) -> None:
        self.answered("bits", self.counts[group])

    def do_wait(self, group: str, mask: str, which: str, then: str, wait: str) -> None:
        bits = self.counts[group] & int(mask)
        is_met = self.waits(bits == int(mask) if which == "all" else bits != 0, wait)
        found = self.counts[group]
        if is_met and then == "clear":
            self.counts[group] &= ~int(mask)
        self.answered("wait", found)

    # -- notifications: the task notifies itself

    def do_notify(self, task: str, action: str, value: str = "0") -> None:
        is_kept = action == "keep" and self.is_pending
        number = self.value(value)
        if action == "bits":
            self.notified |= number
        elif action == "increment":
            self.notified = (self.notified + 1) % SIZE
        elif action in ("overwrite", "keep") and not is_kept:
            self.notified = number
        self.is_pending = True
        self.answered("notify", int(not is_kept))

    def do_notify_take(self, which: str, wait: str) -> None:
        self.waits(self.notified != 0, wait)
        found = self.notified
        self.notified = 0 if which == "clear" else max(0, found - 1)
        self.is_pending = False
        self.answered("notify_take", found)

    def do_notify_wait(self, before: str, after: str, wait: str) -> None:
        if not self.is_pending:
            self.notified &= ~int(before)
        is_there = self.waits(self.is_pending, wait)
        found = self.notified
        self.notified &= ~int(after) if is_there else -1
        self.is_pending = False
        self.answered("notify_wait", found if is_there else None)

    def do_notify_clear(self) -> None:
        was_pending, self.is_pending = self.is_pending, False
        self.answered("notify_clear", int(was_pending))

    def do_notify_value_clear(self, bits: str) -> None:
        before = self.notified
        self.notified &= ~int(bits)
        self.answered("notify_value_clear", before)
