"""What a task does between its turns on the processor, as far as it is known: it waits, sleeps, is suspended or is Ready; or it has ended.

A task is taken to wait in a call if it left the processor after the silent steps of such a call, and completes one in its first step when
it is back. With the application its op is known instead."""
from __future__ import annotations

import bisect
from typing import Any, Iterator, List, Optional, TYPE_CHECKING, Tuple

from .application import Op
from .lanes import Bar, Doing, Lane, Note
from .op_times import OpTimes, Stretch
from .report import Event, Kind
from .suspensions import Change, known_stretches
from .windows import SILENT_STEPS

if TYPE_CHECKING:
    from .timeline import Builder

UNNAMED = "(not named)"
SLEEPS = ("delay", "delay_until")


class AwayTimes:
    """The times of one task."""

    def __init__(self, builder: Builder, lane: Lane, turns: List[Bar], notes: List[Note], script: Any,
                 changes: List[Change]) -> None:
        self.builder, self.lane, self.turns, self.notes, self.changes = builder, lane, turns, notes, changes
        self.steps = [it.step for it in notes]
        self.endings: List[Tuple[Lane, int]] = []
        ops = OpTimes(script, turns, notes, builder.history) if script is not None else None
        self.script = script
        self.ops: Any = ops if ops is not None and ops.is_known else None
        self.last_op = {it.end: it for it in self.ops.stretches} if self.ops else {}

    def bars(self) -> List[Bar]:
        """From the last turn to the first: a turn without a line may be a failed attempt of the call that a later turn ends."""
        found: List[Bar] = []
        word = None
        for at in range(len(self.turns) - 1, -1, -1):
            turn = self.turns[at]
            back = self.turns[at + 1] if at + 1 < len(self.turns) else None
            doing, word = self.after(turn, back, word)
            end = back.start if back else self.builder.head.steps
            if (self.lane, turn.end) not in self.endings:
                found += self.known_bars(turn.end, end, doing, word or "", back is not None)
        return found + self.before_the_first()

    def known_bars(self, start: int, end: int, doing: Optional[Doing], word: str, comes_back: bool) -> Iterator[Bar]:
        object_of_wait = self.object_at(start) if doing is Doing.WAITS else ""
        for first, last, done in known_stretches(self.lane.name, self.changes, start, end, doing, comes_back):
            if done is not None and last > first:
                is_wait = done is Doing.WAITS
                yield Bar(self.lane, first, last, done, word if is_wait else "", object_of_wait if is_wait else "")

    def object_at(self, boundary: int) -> str:
        """What the call is about that the task is in when it leaves the processor."""
        stretch = self.last_op.get(boundary)
        op = self.script.op(stretch.op) if stretch is not None else None
        return op.object or "" if op is not None else ""

    def before_the_first(self) -> List[Bar]:
        """All tasks are Ready at reset; but who runs there isn't always known."""
        if not self.turns or UNNAMED in self.builder.lanes:
            return []
        return list(self.known_bars(0, self.turns[0].start, Doing.READY, "", True))

    def notes_in(self, turn: Bar) -> List[Note]:
        first = bisect.bisect_left(self.steps, turn.start)
        return self.notes[first : bisect.bisect_left(self.steps, turn.end)]

    def after(self, turn: Bar, back: Optional[Bar], later_word: Optional[str]) -> Tuple[Optional[Doing], Optional[str]]:
        """What the task does after this turn, and in which call."""
        notes = self.notes_in(turn)
        last: Any = notes[-1].event if notes else None
        has_told = last is not None and last.step == turn.end - 1 and last.kind is Kind.CALL
        if self.ops is not None and turn.end > turn.start:
            return self.after_op(self.last_op[turn.end], turn, back)
        if has_told:
            return self.after_call(last, turn, back), None
        word: Any = self.awaited(back, later_word) if back else "?"
        quiet_from = last.step + 1 if last is not None else turn.start
        needed = SILENT_STEPS.get(word, max(SILENT_STEPS.values()))
        least = SILENT_STEPS.get(word, min(SILENT_STEPS.values()))
        is_over = back is None and self.builder.head.verdict.passes
        silent = self.builder.clock.silent_steps(quiet_from, turn.end)
        if silent + self.may_end_later(turn) < least:
            return self.ready_or_ended(turn, back), None
        if word is None or is_over or silent < needed or turn.end - turn.start < needed - 1:
            return None, None
        return Doing.WAITS, word if back else None

    def after_op(self, stretch: Stretch, turn: Bar, back: Optional[Bar]) -> Tuple[Optional[Doing], Optional[str]]:
        """The same, if the op that the task is in is known."""
        op = self.script.op(stretch.op)
        if stretch.is_complete and back is None and self.ops.walker.has_ended and not self.may_fail(op, turn):
            self.endings.append((self.lane, turn.end))
            return None, None
        if stretch.is_complete and op.word in SLEEPS:
            sleeps = self.notes_in(turn)[-1].event.answer == 1 if op.word == "delay_until" else int(op.words[1]) > 0
            return Doing.SLEEPS if sleeps else Doing.READY, None
        if stretch.is_complete or op.word not in SILENT_STEPS:
            return Doing.READY, None
        taken = turn.end - max(turn.start, stretch.start)
        if taken >= SILENT_STEPS[op.word]:
            return Doing.WAITS, op.word
        return None if taken == SILENT_STEPS[op.word] - 1 else Doing.READY, None

    def may_end_later(self, turn: Bar) -> bool:
        """Whether it isn't certain that an injection ends the turn: while the scheduler is held the processor changes after the step."""
        return any(it.step == turn.end for it in self.builder.injections())

    def may_fail(self, op: Op, turn: Bar) -> bool:
        """Whether the op of the run's last step may be one that isn't done: of two checks that fail in one step one is reported."""
        head = self.builder.head
        return head.verdict.task is not None and turn.end == head.steps and (op.word == "expect" or head.verdict.task == self.lane.name)

    def ready_or_ended(self, turn: Bar, back: Optional[Bar]) -> Optional[Doing]:
        """After a turn that ends with nothing that lets a task wait: it is Ready if it comes back. If it doesn't, it has ended, provided that the run
        passes, idle runs then, and nobody may have suspended it. Otherwise this isn't known, since it may serve forever."""
        if back is None and self.builder.passes_with_idle and not self.may_be_suspended_after(turn):
            self.endings.append((self.lane, turn.end))
        return Doing.READY if back is not None else None

    def may_be_suspended_after(self, turn: Bar) -> bool:
        return any(it.is_suspend and it.boundary >= turn.end and it.may_be_of(self.lane.name) for it in self.changes)

    def after_call(self, call: Event, turn: Bar, back: Optional[Bar]) -> Optional[Doing]:
        """A call that is reported in the turn's last step: the task may sleep or be suspended by it. If it doesn't come back from a `delay`, it may
        have ended, with that as its last op, or still sleep: that isn't known."""
        if call.word == "suspend" and call.answer == 1:
            return Doing.SUSPENDED
        end = back.start if back else self.builder.head.steps
        has_time_passed = self.builder.clock.at(end) > self.builder.clock.at(turn.end)
        is_sleep = call.word == "delay" or call.word == "delay_until" and call.answer == 1
        if not is_sleep:
            return self.ready_or_ended(turn, back)
        return Doing.SLEEPS if back is not None and has_time_passed else None

    def awaited(self, back: Bar, later_word: Optional[str]) -> Optional[str]:
        """The call that ends in the first step of the turn, or in a later one if this one is a failed attempt."""
        notes = self.notes_in(back)
        if not notes:
            return later_word
        first = notes[0].event
        is_wait = first.kind is Kind.CALL and first.word in SILENT_STEPS and first.step == back.start
        return first.word if is_wait else None
