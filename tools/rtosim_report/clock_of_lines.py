"""The clock of a run: how many ticks have elapsed at which boundary, as its lines show them.

In a tickless application a step of idle passes as many ticks as come before the next thing to happen, and any other step one at
most. Who wakes then has a line; a base interrupt whose handler has no ops has none, and is known by the application.

An injected tick takes no step: the clock jumps at its boundary, or, if lines show that it is held or pending there, at a later one."""
from __future__ import annotations

from typing import AbstractSet, Any, Callable, List, Optional, Sequence

from .application import Application
from .lanes import Clock
from .report import Event, Head, IDLE, Kind

WRAP = 1 << 32


class TickReader:
    """Puts the clock of a run together. `boundary` returns when the event of an index is seen."""

    def __init__(self, head: Head, events: List[Event], injected: AbstractSet[int], boundary: Callable[..., Any],
                 application: Optional[Application], ticks: Sequence[int] = ()) -> None:
        self.head, self.events, self.injected, self.boundary = head, events, injected, boundary
        self.application = application if application is not None and application.is_tickless else None
        self.is_tickless = self.application is not None or head.is_tickless
        self.boundaries, self.ticks = [0], [0]
        # The boundaries of all injected ticks, of those that no line has shown yet, and at which the others have come.
        self.injected_ticks, self.waiting = ticks, list(ticks)
        self.jumps: List[int] = []
        self.start = self.tick_at_reset()

    def clock(self) -> Clock:
        """Known are the ticks of lines, and those at both ends."""
        last, is_idle = self.start, False
        for index, event in enumerate(self.events):
            elapsed = min(self.ticks[-1] + (event.tick - last) % WRAP, self.head.ticks)
            last = event.tick
            at = self.boundary(index)
            self.lay_silent_jumps(is_idle, at, elapsed)
            self.lay_injected(at, elapsed, index in self.injected, event.word == "resume_all")
            if event.kind is Kind.CALL and event.word != "resume_all":
                self.know(at - 1, elapsed)
            self.know(at, elapsed, is_latest=True)
            is_idle = event.name == IDLE if event.kind is Kind.RUN else is_idle
        if self.boundaries[-1] < self.head.steps:
            elapsed = max(self.head.ticks, self.ticks[-1])
            self.lay_silent_jumps(is_idle, self.head.steps, elapsed)
            self.lay_injected(self.head.steps, elapsed)
            self.know(self.head.steps, elapsed)
        return Clock(self.boundaries, self.ticks, self.start, self.jumps)

    def know(self, boundary: int, elapsed: int, is_latest: bool = False) -> None:
        """The ticks of a boundary after the known ones, or what a later line shows of the last of these."""
        if boundary > self.boundaries[-1]:
            self.boundaries.append(boundary)
            self.ticks.append(elapsed)
        elif boundary == self.boundaries[-1] and is_latest:
            self.ticks[-1] = max(self.ticks[-1], elapsed)

    def lay_silent_jumps(self, is_idle: bool, end: int, elapsed: int) -> None:
        """The ticks at which steps of idle before this boundary end that have no line: each is that of a base interrupt."""
        start, last = self.boundaries[-1], self.ticks[-1]
        if self.application is None or not is_idle or end - start < 2 or any(it <= end for it in self.waiting):
            return
        ticks = [it for it in self.application.interrupt_ticks if last < it < elapsed]
        if len(ticks) == end - start - 1:
            for at, tick in enumerate(ticks, start + 1):
                self.know(at, tick)

    def lay_injected(self, end: int, elapsed: int, is_before: bool = False, are_released: bool = False) -> None:
        """The injected ticks that have come by this boundary. Each is a jump at the boundary at which it was injected, or at that of the last line
        which shows that it hasn't come. Those that a step releases are ticks of that step. `is_before` says that the line at the boundary comes
        before the next step, as the ticks do that are injected there."""
        last_one = end if is_before else end - 1
        while self.waiting and self.waiting[0] <= last_one and self.ticks[-1] < elapsed:
            at, start, last = max(self.waiting.pop(0), self.boundaries[-1]), self.boundaries[-1], self.ticks[-1]
            self.jumps.append(end if are_released else at)
            if not are_released:
                by_steps = max(0, elapsed - last - 1 - sum(it <= last_one for it in self.waiting))
                before = last + (by_steps * (at - start) // (end - start) if end > start else 0)
                self.boundaries += [at, at]
                self.ticks += [before, before + 1]

    def tick_at_reset(self) -> int:
        """The printed tick at reset: counted back from a line of the last step, otherwise 0 if that is possible. In a tickless application it is
        known; if it isn't given, no step before the first line passes more than a tick, since none is idle's."""
        if self.application is not None:
            return self.application.start
        if not self.events:
            return 0
        first, last = self.events[0], self.events[-1]
        if last.step == self.head.steps - 1 and (last.tick - first.tick) % WRAP <= self.head.ticks:
            start = (last.tick - self.head.ticks) % WRAP
            is_after = len(self.events) - 1 not in self.injected
            if not self.is_tickless or is_after and (first.tick - start) % WRAP <= first.step + 1:
                return start
        return 0 if first.tick <= first.step + 1 + len(self.injected_ticks) else first.tick
