"""How far a task is in its script, by the calls that a report shows of it.

Between two calls a task does ops that have no line: they are gone through here as the task goes through them, since loops count
and conditions look at the last answer, which is reported, and at variables, which the reported stores change."""
from __future__ import annotations

import copy
from typing import Any, Iterable, List, Optional, Tuple

from .application import Op, Script
from .variables import Values

# So many ops without a line are gone through between two calls.
PATIENCE = 20_000


class Blocks:
    """For each op that opens, parts or closes a block: the ops at which its block opens, parts and closes."""

    def __init__(self, script: Script) -> None:
        self.opening, self.closing, self.parting = {}, {}, {}
        stack = []
        for at, op in enumerate(script.ops):
            if op.word in ("repeat", "if"):
                stack.append(at)
            elif op.word == "else" and stack:
                self.parting[stack[-1]] = at
                self.opening[at] = stack[-1]
            elif op.word == "end" and stack:
                start = stack.pop()
                self.opening[at], self.closing[start] = start, at

    def end_of(self, start: int, ops: List[Op]) -> int:
        return self.closing.get(start, len(ops))


def holds(words: List[str], answer: Optional[int], values: Values) -> Optional[bool]:
    """Whether a condition holds of an answer: `N`, `none`, `not C`, `below N` or `above N`, where N may be a variable; None if that depends on
    which of its values a variable has."""
    if words[0] == "not":
        found = holds(words[1:], answer, values)
        return None if found is None else not found
    if words == ["none"]:
        return answer is None
    met = {is_met(words[:-1], answer, it) for it in numbers_of(words[-1], values)}
    return met.pop() if len(met) == 1 else None


def is_met(front: List[str], answer: Optional[int], number: int) -> bool:
    """Whether an answer is this number, or with a front is below or above it."""
    if not front or answer is None:
        return answer == number
    return answer < number if front == ["below"] else answer > number


def numbers_of(word: str, values: Values) -> Tuple[int, ...]:
    """What a word of a condition may be: a number, or each of the values of a variable."""
    return (int(word),) if word.isdigit() else values.get(word, ())


class Walker:
    """A task on its way through its script. `at` is the op that it does next; after the last one the task has ended."""

    def __init__(self, script: Script) -> None:
        self.script, self.blocks = script, Blocks(script)
        self.at = 0
        self.loops: List[Tuple[int, int]] = []
        self.answer: Optional[int] = None
        # The values that variables may have had when the ops were done that are gone past.
        self.values: Values = {}

    def copied(self) -> Walker:
        """One that goes on by itself."""
        found = copy.copy(self)
        found.loops = list(self.loops)
        return found

    @property
    def op(self) -> Any:
        return self.script.op(self.at)

    @property
    def has_ended(self) -> bool:
        return self.at >= len(self.script.ops)

    def called(self, answer: Optional[int]) -> None:
        """The call that is next is complete."""
        self.answer = answer
        self.at += 1

    def go_past(self) -> Optional[Walker]:
        """Does the next op, which has no line. If either way may have been taken, returns the op to which the other way leads."""
        op, ops, other = self.op, self.script.ops, None
        if op.word == "repeat":
            turns = 1 << 62 if op.words[1] == "forever" else int(op.words[1])
            self.loops.append((self.at, turns))
        elif op.word == "if":
            is_met = holds(op.words[1:], self.answer, self.values)
            other = self.parted() if is_met is None else None
            self.at = self.otherwise() if is_met is False else self.at
        elif op.word == "else":
            self.at = self.blocks.end_of(self.blocks.opening.get(self.at, self.at), ops)
        elif op.word == "break" and self.loops:
            self.at = self.blocks.end_of(self.loops.pop()[0], ops)
        elif op.word == "end" and self.loops and self.loops[-1][0] == self.blocks.opening.get(self.at):
            self.turn()
        self.at += 1
        return other

    def otherwise(self) -> int:
        """The op after which it goes on if the condition of the next op, an `if`, doesn't hold."""
        parting = self.blocks.parting.get(self.at)
        return self.blocks.end_of(self.at, self.script.ops) if parting is None else parting

    def parted(self) -> Optional[Walker]:
        """One for which the condition of the `if` that is next doesn't hold."""
        found = self.copied()
        found.at = found.otherwise() + 1
        return found

    def turn(self) -> None:
        """At the end of a loop's turn: back to its first op, or out of it."""
        start, left = self.loops.pop()
        if left > 1:
            self.loops.append((start, left - 1))
            self.at = start

    def to_call(self, wanted: Optional[int] = None) -> bool:
        """Goes on to the next op that has a line, or to the end; False if that isn't known, or takes too long to find out. If either branch may have
        been taken, it is the one that leads to the op that is wanted."""
        others: List[Walker] = []
        for _ in range(PATIENCE):
            if self.has_ended or not self.op.is_silent:
                if self.at == wanted or not others:
                    return True
                self.become(others.pop())
                continue
            other = self.go_past()
            if other is not None and wanted is None:
                return False
            others += [other] if other is not None else []
        return False

    def become(self, other: Walker) -> None:
        self.at, self.loops, self.answer = other.at, other.loops, other.answer


def walked(script: Script, calls: Iterable[Tuple[int, Optional[int]]]) -> Optional[Walker]:
    """The walker after these calls, which are pairs of an op and an answer, at the next call or the end; None if they aren't the script's, or
    if no way is found."""
    walker = Walker(script)
    for index, answer in calls:
        if not walker.to_call(index) or walker.at != index:
            return None
        walker.called(answer)
    return walker if walker.to_call() else None
