"""Which op of its script a task is in at which steps: its turns on the processor, its calls, its script and the values of variables say it
together."""
from __future__ import annotations

from typing import List, NamedTuple, Optional, TYPE_CHECKING

from .application import Op, Script
from .progress import Walker
from .report import Kind
from .variables import History

if TYPE_CHECKING:
    from .lanes import Bar, Note


class Stretch(NamedTuple):
    """Steps of one turn in which a task is in one op; whether it is complete with the last of them."""

    start: int
    end: int
    op: int
    is_complete: bool


class OpTimes:
    """The stretches of a task; none if what is reported isn't what the script says."""

    def __init__(self, script: Script, turns: List[Bar], notes: List[Note], history: History) -> None:
        self.walker, self.history = Walker(script), history
        self.calls = [it.event for it in notes if it.event.kind is Kind.CALL]
        self.left: Optional[int] = None
        self.stretches: List[Stretch] = []
        self.is_known = all(self.follow(it) for it in turns)

    def follow(self, turn: Bar) -> bool:
        """Goes through the turn; False if the script says otherwise."""
        at = turn.start
        while at < turn.end:
            if self.walker.has_ended:
                return False
            op, index = self.walker.op, self.walker.at
            end = self.end_of_silent(op, at) if op.is_silent else self.end_of_call(index, turn)
            if end is None:
                return False
            is_complete = end <= turn.end
            self.stretches.append(Stretch(at, min(end, turn.end), index, is_complete))
            self.left = None if is_complete else end - turn.end
            if is_complete:
                self.go_on(op, end - 1)
            at = min(end, turn.end)
        return True

    def end_of_silent(self, op: Op, at: int) -> int:
        """A `work` takes as many steps as it says, any other op without a line one."""
        if self.left is None:
            self.left = int(op.words[1]) if op.word == "work" else 1
        return at + self.left

    def end_of_call(self, index: int, turn: Bar) -> Optional[int]:
        """A call takes the steps up to its line; one that has none in this turn takes the rest of it, and isn't complete."""
        if not self.calls or self.calls[0].step >= turn.end:
            return turn.end + 1
        return self.calls[0].step + 1 if self.calls[0].op == index else None

    def go_on(self, op: Op, step: int) -> None:
        """The op is complete with this step."""
        if op.is_silent:
            self.walker.values = self.history.before(step) if op.word == "if" else {}
            self.walker.go_past()
        else:
            self.walker.called(self.calls.pop(0).answer)
