"""When handlers are armed and raised along a run, and which injections come.

No line shows an `arm`, a `disarm`, a `raise` or a `cancel`. They are followed through the scripts: of tasks it is known which op they are in
at which step, and a handler is gone through each time that it comes. Nothing is known if a branch of a handler isn't."""
from __future__ import annotations

from collections import defaultdict, deque
from typing import Any, Deque, Dict, List, NamedTuple, Optional, Tuple, TYPE_CHECKING

from .application import ARMS, Application, CANCELS, CLOSES, DISARMS, OF_HANDLERS, OPENS, Op, RAISES
from .lanes import LaneKind
from .progress import Walker, holds
from .report import Event, Injection, Kind

if TYPE_CHECKING:
    from .timeline import Builder

STORES, MARKS = "store", "mark"


class Stretch(NamedTuple):
    """From one boundary to another a handler is armed, or raised."""

    handler: str
    start: int
    end: int


class Followed(NamedTuple):
    """The stretches in which handlers are armed, of those that aren't at each step, and raised; and the injections that come."""

    armed: List[Stretch]
    raised: List[Stretch]
    come: Tuple[Injection, ...]


class NotKnown(Exception):
    """What a handler does isn't known, or its lines aren't those of the times at which it comes."""


class Source:
    """What is kept of a handler."""

    def __init__(self, is_armed: bool) -> None:
        self.is_armed, self.is_pending, self.free_from = is_armed, False, 0
        self.due: Optional[int] = None
        # Since when it is armed, and raised.
        self.armed_since, self.raised_since = 0, 0


class Replay:
    """A run, gone through step by step."""

    def __init__(self, builder: Builder, ops: Dict[Any, List[Any]]) -> None:
        self.application: Application = builder.application
        self.builder, self.steps, self.now, self.sections = builder, builder.head.steps, 0, 0
        self.sources = {it.name: Source(it.is_armed) for it in self.application.handlers.values()}
        self.events: Dict[str, Deque[Event]] = defaultdict(deque)
        for it in builder.events:
            if it.kind is Kind.ISR or it.kind is Kind.MARK and it.name in self.sources:
                self.events[it.name].append(it)
        self.is_tick_pending = False
        self.armed: List[Stretch] = []
        self.raised: List[Stretch] = []
        self.come: List[Injection] = []
        # Of each step the op that is done in it, and whether it is complete then.
        self.done: Dict[int, Tuple[Optional[Op], bool]] = {}
        for lane, stretches in ops.items():
            script = self.application.tasks[lane.name]
            for one in stretches:
                self.done.update({step: (script.op(one.op), one.is_complete and step == one.end - 1) for step in range(one.start, one.end)})
        self.idle = {step for turn in builder.turns if turn.lane.kind is LaneKind.IDLE for step in range(turn.start, turn.end)}

    def followed(self) -> Followed:
        injections = defaultdict(list)
        for it in self.builder.injections():
            injections[it.step].append(it)
        for step in range(self.steps):
            if not self.sections:
                self.serve_pending(step)
            for it in injections[step]:
                self.inject(it)
            self.do(step)
        for name, source in self.sources.items():
            self.arm(name, source, False, self.steps)
            self.raise_for(name, source, None, self.steps)
        if any(self.events.values()):
            raise NotKnown
        return Followed([it for it in self.armed if (it.start, it.end) != (0, self.steps)], self.raised, tuple(self.come))

    # -- interrupts

    def inject(self, injection: Injection) -> None:
        """An injection comes, or becomes pending, if it can. The tick can, and is pending in a section as handlers are."""
        source = self.sources.get(injection.handler)
        if source is None:
            self.come.append(injection)
            if self.sections:
                self.is_tick_pending = True
            else:
                self.tick(injection.step, 1)
            return
        if not source.is_armed or self.now < source.free_from:
            return
        self.come.append(injection)
        if self.sections:
            source.is_pending = True
            self.note_coming(injection.handler)
        else:
            self.handle(injection.handler, injection.step)

    def note_coming(self, name: str) -> None:
        self.sources[name].free_from = self.now + self.application.handlers[name].apart

    def serve_pending(self, boundary: int) -> None:
        for name, source in self.sources.items():
            if source.is_pending:
                source.is_pending = False
                self.handle(name, boundary)
        if self.is_tick_pending:
            self.is_tick_pending = False
            self.tick(boundary, 1)

    def tick(self, boundary: int, count: int) -> None:
        """A tick, or several in a jump: the base interrupts of the last of them come, and then the handlers that are due."""
        self.now += count
        due = [name for name, it in self.sources.items() if it.due == self.now]
        for name in due:
            self.raise_for(name, self.sources[name], None, boundary)
        for name in [*(handler for tick, handler in self.application.interrupts if tick == self.now), *due]:
            if name in self.sources:
                self.handle(name, boundary)

    def handle(self, name: str, boundary: int) -> None:
        """A handler does its ops."""
        self.note_coming(name)
        walker = Walker(self.application.handlers[name])
        walker.values = dict(self.builder.history.before(boundary))
        while not walker.has_ended:
            op = walker.op
            if op.word == "expect":
                found = holds(op.words[1:], walker.answer, walker.values)
                if found is None:
                    raise NotKnown
                if not found:
                    return
            if op.word in OF_HANDLERS:
                self.control(op, boundary)
            if op.uses_answer and walker.answer is None:
                return
            if not op.is_silent:
                self.call(name, walker, op)
                continue
            if op.word == MARKS and (not self.events[name] or self.events[name].popleft().kind is not Kind.MARK):
                raise NotKnown
            if walker.go_past() is not None:
                raise NotKnown

    def call(self, name: str, walker: Walker, op: Op) -> None:
        """The handler's op that is next has a line, unless it divides by 0."""
        event = self.events[name].popleft() if self.events[name] else None
        if event is None or event.op != walker.at:
            raise NotKnown
        if op.word == STORES and op.object is not None and event.answer is not None:
            walker.values[op.object] = (event.answer,)
        walker.called(event.answer)

    # -- steps

    def do(self, step: int) -> None:
        """What is done in a step: the op of the running task, or idle's tick."""
        op, is_complete = self.done.get(step, (None, False))
        if op is not None and is_complete:
            self.sections += op.word == OPENS
            self.sections -= op.word == CLOSES and self.sections > 0
            if op.word in OF_HANDLERS:
                self.control(op, step + 1)
        if step in self.idle:
            self.tick(step + 1, self.jump(step + 1) if self.application.is_tickless else 1)
        elif op is not None and op.word == "work":
            self.tick(step + 1, 1)

    def jump(self, boundary: int) -> int:
        """How many ticks idle lets pass up to this boundary: those to the next interrupt, or to the next line if that is sooner."""
        ahead = [self.builder.clock.next(boundary) - self.builder.clock.next(0)]
        ahead += [it.due for it in self.sources.values() if it.due is not None and it.due > self.now]
        ahead += [tick for tick, _ in self.application.interrupts if tick > self.now]
        return max(1, min(ahead) - self.now)

    def control(self, op: Op, boundary: int) -> None:
        """An op about a handler is done."""
        name = op.words[1]
        source = self.sources[name]
        if op.word in (ARMS, DISARMS):
            self.arm(name, source, op.word == ARMS, boundary)
        elif op.word == RAISES:
            self.raise_for(name, source, self.now + int(op.words[2]), boundary)
        elif op.word == CANCELS:
            self.raise_for(name, source, None, boundary)

    def arm(self, name: str, source: Source, is_armed: bool, boundary: int) -> None:
        if source.is_armed and not is_armed and boundary > source.armed_since:
            self.armed.append(Stretch(name, source.armed_since, boundary))
        if is_armed and not source.is_armed:
            source.armed_since = boundary
        source.is_armed = is_armed

    def raise_for(self, name: str, source: Source, due: Optional[int], boundary: int) -> None:
        """It comes by itself at this elapsed tick, or no longer."""
        if source.due is not None and boundary > source.raised_since:
            self.raised.append(Stretch(name, source.raised_since, boundary))
        source.due, source.raised_since = due, boundary


def follow(builder: Builder, ops: Dict[Any, List[Any]]) -> Optional[Followed]:
    """What is known of the handlers of a run; None if nothing is, and of an application whose handlers can all come at any moment."""
    application = builder.application
    if application is None or not application.has_arrivals or builder.leaves_a_script(ops):
        return None
    try:
        return Replay(builder, ops).followed()
    except NotKnown:
        return None
