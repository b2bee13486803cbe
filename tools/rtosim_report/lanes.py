"""What a timeline is made of: lanes, what is done in them and when, what is reported, and the clock.

Times are boundaries: boundary b is before step b, and boundary N after the last step."""
from __future__ import annotations

import bisect
import enum
from dataclasses import dataclass, field
from typing import Any, Dict, List, Optional, Tuple

from .op_times import Stretch
from .report import Event, Head, Injection, Kind
from .source_map import SourceLine
from .variables import ValueStretch


class Doing(enum.Enum):
    RUNS = "runs"
    WAITS = "waits"
    SLEEPS = "sleeps"
    SUSPENDED = "is suspended"
    READY = "is ready"
    PENDING = "is pending"


class LaneKind(enum.Enum):
    TASK = "task"
    IDLE = "idle"
    HANDLER = "handler"


class WindowKind(enum.Enum):
    LOCKED = "the queue is locked"
    HELD = "the scheduler is held"
    MASKED = "interrupts are masked"
    ARMED = "the interrupt is armed"
    RAISED = "the interrupt is raised"


@dataclass(frozen=True)
class Lane:
    name: str
    kind: LaneKind


@dataclass(frozen=True)
class Bar:
    """What a task does from one boundary to another."""

    lane: Lane
    start: int
    end: int
    doing: Doing
    word: str = ""
    object: str = ""

    @property
    def call(self) -> str:
        """The call that it waits in, with its object if that is known."""
        return f"{self.word} {self.object}" if self.object else self.word


@dataclass(frozen=True)
class Note:
    """A line that a lane has at a step; an injected handler has it at the boundary before."""

    lane: Lane
    boundary: int
    event: Event
    is_injected: bool
    object: str = ""

    @property
    def step(self) -> int:
        return self.event.step

    @property
    def told(self) -> str:
        """What is reported, without the name of the lane, and with the call's object if that is known."""
        event = self.event
        if event.kind is not Kind.CALL and event.kind is not Kind.ISR or not self.object:
            return event.short()
        return f"{event.word} {self.object} = {'none' if event.answer is None else event.answer}"


@dataclass(frozen=True)
class Window:
    lane: Lane
    start: int
    end: int
    kind: WindowKind


@dataclass
class Clock:
    """The elapsed ticks at the boundaries: at some of them lines show these; between them they are spread evenly. A boundary with injected ticks
    is there twice, before them and after them."""

    boundaries: List[int]
    ticks: List[int]
    start: int = 0
    injected: List[int] = field(default_factory=list)

    def at(self, boundary: int) -> int:
        return int(self.exactly(boundary))

    def exactly(self, boundary: int) -> float:
        at = bisect.bisect_right(self.boundaries, boundary) - 1
        if at + 1 == len(self.boundaries):
            return self.ticks[at]
        first, last = self.boundaries[at], self.boundaries[at + 1]
        return self.ticks[at] + (self.ticks[at + 1] - self.ticks[at]) * (boundary - first) / (last - first)

    def next(self, boundary: int) -> int:
        """The elapsed ticks at the first boundary from this one on at which lines show them."""
        return self.ticks[min(bisect.bisect_left(self.boundaries, boundary), len(self.ticks) - 1)]

    def silent_steps(self, start: int, end: int) -> int:
        """How many of the steps between the two were no ticks."""
        return end - start - (self.at(end) - self.at(start) - sum(start < it <= end for it in self.injected))


@dataclass
class Timeline:
    head: Head
    lanes: List[Lane]
    bars: List[Bar]
    notes: List[Note]
    windows: List[Window]
    clock: Clock
    injections: Tuple[Injection, ...] = ()
    endings: List[Tuple[Lane, int]] = field(default_factory=list)
    ops: Dict[Lane, List[Stretch]] = field(default_factory=dict)
    # Of each variable of the application its values along the run.
    variables: Dict[str, List[ValueStretch]] = field(default_factory=dict)
    is_presumed: bool = False
    # What the run says at its end, in words.
    ending: List[str] = field(default_factory=list)
    source_map: Any = None

    @property
    def steps(self) -> int:
        return self.head.steps

    @property
    def outlasts_printed_ticks(self) -> bool:
        """Whether it is so long that a printed tick comes again."""
        return self.head.ticks >= 1 << 32

    def line_of(self, note: Note) -> Optional[SourceLine]:
        """The line of C of a call, if that is known."""
        return self.source_map.line(note.event.name, note.event.op, note.event.word) if self.source_map else None

    def told(self, note: Note) -> str:
        """What is reported, with the number of its line of C if that is known."""
        found = self.line_of(note)
        return f"{note.told} {self.source_map.short(found)}" if found else note.told

    def source_lines(self) -> List[SourceLine]:
        """The lines of C of all calls that are reported, each once, in the order of their first steps."""
        found = (self.line_of(it) for it in sorted(self.notes, key=lambda it: (it.boundary, not it.is_injected)))
        return list({(it.file, it.line): it for it in found if it}.values())

    def title(self) -> str:
        words = self.head.text()
        return words + " (presumed)" if self.is_presumed else words
