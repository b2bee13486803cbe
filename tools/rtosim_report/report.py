"""What a report is made of: heads, runs, events."""
import enum
from typing import Any, List, NamedTuple, Optional, Tuple

IDLE = "-"
# In a point it is the tick interrupt, unless a handler has this name.
TICK = "tick"


class Injection(NamedTuple):
    """A handler, or the tick, before a step."""

    step: int
    handler: str

    def text(self) -> str:
        return f"{self.step} {self.handler}"


class Point(Tuple[Injection, ...]):
    """A point of a campaign: one to three injections, whose steps don't fall. Up to the first of them its row is the base run."""

    __slots__ = ()

    @property
    def first_step(self) -> int:
        return self[0].step

    @property
    def is_single(self) -> bool:
        return len(self) == 1

    def text(self) -> str:
        return " ".join(it.text() for it in self)


class Verdict(NamedTuple):
    """How a run ended: the words of its head line, and the first of them."""

    text: str
    kind: str

    @property
    def passes(self) -> bool:
        return self.kind == "pass"

    @property
    def task(self) -> Optional[str]:
        """The task that a `check` or a `misuse` names; of a check it may be a handler."""
        words = self.text.split(" ")
        return words[1] if len(words) > 1 else None

    @property
    def numbers(self) -> List[int]:
        """The index of the op, and of a misuse its code."""
        return [int(it) for it in self.text.split(" ")[2:]]


class Head(NamedTuple):
    """The head line of a run: of the base run there is neither a row nor a point."""

    row: Optional[int]
    # A Point, or None of the base run.
    point: Any
    is_reached: bool
    verdict: Verdict
    steps: int
    ticks: int

    @property
    def is_tickless(self) -> bool:
        """Whether the run is surely one of a tickless application: no other step passes more than a tick, beside those of its point."""
        return self.ticks > self.steps + sum(it.handler == TICK for it in self.point or ())

    def is_base(self) -> bool:
        """The lines below it are those of the base run."""
        return self.row is None or not self.is_reached

    def end_text(self) -> str:
        return f"{self.verdict.text} in {self.steps} steps, {self.ticks} ticks"

    def text(self) -> str:
        if self.row is None:
            return f"base: {self.end_text()}"
        reached, point = "" if self.is_reached else "not reached, ", self.point.text() if self.point else ""
        return f"row {self.row} at {point}: {reached}{self.end_text()}"


class Kind(enum.Enum):
    """What an event line is about."""

    CALL = "call"
    ISR = "isr"
    MARK = "mark"
    RUN = "run"


class Event(NamedTuple):
    """An event line, cut into its words. A mark has its number as the answer; idle is the name `-`."""

    step: int
    tick: int
    kind: Kind
    name: str
    op: Optional[int] = None
    word: Optional[str] = None
    answer: Optional[int] = None

    def short(self) -> str:
        """Without the name."""
        if self.kind is Kind.MARK:
            return f"mark {self.answer}"
        if self.kind is Kind.RUN:
            return "runs"
        return f"{self.word} = {'none' if self.answer is None else self.answer}"


# The step, the tick, and what is reported, as the bytes of the line.
Line = Tuple[bytes, bytes, bytes]
KINDS = {it.value: it for it in Kind}


def event_of(line: Line) -> Event:
    step, tick, what = line
    words = what.decode("ascii").split(" ")
    kind = KINDS[words[0]]
    if kind is Kind.RUN:
        return Event(int(step), int(tick), kind, words[1])
    if kind is Kind.MARK:
        return Event(int(step), int(tick), kind, words[1], answer=int(words[2]))
    answer = None if words[5] == "none" else int(words[5])
    return Event(int(step), int(tick), kind, words[1], int(words[2]), words[3], answer)
