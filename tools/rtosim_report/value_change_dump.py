"""A run as a value change dump, as GTKWave and PulseView read it.

Of each task: whether it runs, whether it waits, its last answer and its last mark; of each handler: when it comes, its last
answer and mark; of each variable its value; and idle, the step, the printed tick, the windows and the injection."""
from __future__ import annotations

from collections import defaultdict
from typing import Any, Dict, List, Optional

from .lanes import Bar, Doing, Lane, LaneKind, Note, Timeline, WindowKind
from .output import Text as Output
from .report import Kind
from .subticks import SubTicks
from .variables import ValueStretch

WORD = 32
# The scope of variables: it is longer than the name of a task or a handler may be.
VARIABLES = "values_of_variables"
FIRST, CODES = 33, 94


def code_of(index: int) -> str:
    """A short name of printable characters."""
    text = ""
    while True:
        text += chr(FIRST + index % CODES)
        index = index // CODES - 1
        if index < 0:
            return text


class Signal:
    """A wire or a register, with its changes."""

    def __init__(self, name: str, size: int, code: str) -> None:
        self.name, self.size, self.code = name, size, code

    def change(self, value: Optional[int]) -> str:
        if self.size == 1:
            return f"{'x' if value is None else int(value)}{self.code}"
        return f"b{'x' if value is None else format(value, 'b')} {self.code}"

    def declaration(self) -> str:
        kind = "wire" if self.size == 1 else "reg"
        return f"$var {kind} {self.size} {self.code} {self.name} $end"


class Dump:
    """Signals in scopes, and what changes when."""

    def __init__(self) -> None:
        self.scopes: Dict[str, List[Signal]] = defaultdict(list)
        self.changes: Dict[int, Dict[Signal, Any]] = defaultdict(dict)
        self.count = 0

    def signal(self, scope: str, name: str, size: int = 1, value: Optional[int] = 0) -> Signal:
        found = Signal(name, size, code_of(self.count))
        self.count += 1
        self.scopes[scope].append(found)
        self.set(0, found, value)
        return found

    def set(self, time: int, signal: Any, value: Optional[int]) -> None:
        self.changes[time][signal] = value

    def while_on(self, signal: Any, start: int, end: int) -> None:
        """On from one time to another; what ends when the next begins stays on."""
        if end > start:
            self.set(start, signal, 1)
            self.changes[end].setdefault(signal, 0)

    def write(self, output: Output, comment: str, scale: str, end: int) -> None:
        output.line(f"$comment {comment} $end")
        output.line(f"$timescale {scale} $end")
        output.line("$scope module rtosim $end")
        for scope, signals in self.scopes.items():
            lines = [it.declaration() for it in signals]
            if scope:
                lines = [f"$scope module {scope} $end", *lines, "$upscope $end"]
            output.line("\n".join(lines))
        output.line("$upscope $end")
        output.line("$enddefinitions $end")
        for time in sorted({*self.changes, end}):
            output.line(f"#{time}")
            for signal, value in self.changes.get(time, {}).items():
                output.line(signal.change(value))


def scale_of(in_a_tick: int) -> str:
    """A tick is a millisecond, or as much more as its parts need to be nanoseconds at least."""
    if in_a_tick <= 1_000_000:
        return {10: "100 us", 100: "10 us", 1000: "1 us", 10_000: "100 ns", 100_000: "10 ns"}.get(in_a_tick, "1 ns")
    return "1 ns"


def write(output: Output, timeline: Timeline) -> None:
    times, dump = SubTicks(timeline), Dump()
    add_counters(dump, timeline, times)
    add_windows(dump, timeline, times)
    for lane in timeline.lanes:
        add_lane(dump, timeline, times, lane)
    for name, stretches in timeline.variables.items():
        add_variable(dump, times, name, stretches)
    comment = f"{timeline.title()}; a tick is {times.in_a_tick} of these times"
    dump.write(output, comment, scale_of(times.in_a_tick), times.at(timeline.steps) + 1)


def add_counters(dump: Dump, timeline: Timeline, times: SubTicks) -> None:
    step, tick = dump.signal("", "step", WORD), dump.signal("", "tick", WORD)
    last = None
    for boundary in range(timeline.steps + 1):
        if boundary < timeline.steps:
            dump.set(times.at(boundary), step, boundary)
        now = (timeline.clock.start + timeline.clock.at(boundary)) % (1 << WORD)
        if now != last:
            dump.set(times.at(boundary), tick, now)
            last = now
    if timeline.injections:
        injected = dump.signal("", "injected")
        for it in timeline.injections:
            dump.while_on(injected, times.at(it.step), times.at(it.step) + 1)


def add_windows(dump: Dump, timeline: Timeline, times: SubTicks) -> None:
    kinds = [(WindowKind.LOCKED, "queue_locked"), (WindowKind.HELD, "scheduler_held")]
    if any(it.kind is WindowKind.MASKED for it in timeline.windows):
        kinds.append((WindowKind.MASKED, "interrupts_masked"))
    for kind, name in kinds:
        signal = dump.signal("", name)
        for it in sorted(timeline.windows, key=lambda it: it.start):
            if it.kind is kind:
                dump.while_on(signal, times.at(it.start), times.at(it.end))


def add_lane(dump: Dump, timeline: Timeline, times: SubTicks, lane: Lane) -> None:
    bars = sorted((it for it in timeline.bars if it.lane == lane), key=lambda it: it.start)
    notes = [it for it in timeline.notes if it.lane == lane]
    if lane.kind is LaneKind.HANDLER:
        comes = dump.signal(lane.name, "comes")
        for it in notes:
            dump.while_on(comes, times.at(it.boundary), times.at(it.boundary) + 1)
        if bars:
            pending = dump.signal(lane.name, "pending")
            for bar in bars:
                dump.while_on(pending, times.at(bar.start), times.at(bar.end))
        add_sources(dump, timeline, times, lane)
    else:
        scope = lane.name if lane.kind is LaneKind.TASK else "idle"
        add_doing(dump, times, scope if scope != "(not named)" else "not_named", bars)
    if lane.kind is not LaneKind.IDLE and notes:
        add_answers(dump, times, lane, notes)


def add_sources(dump: Dump, timeline: Timeline, times: SubTicks, lane: Lane) -> None:
    """When a handler is armed and raised, if that changes."""
    for kind, name in ((WindowKind.ARMED, "armed"), (WindowKind.RAISED, "raised")):
        there = [it for it in timeline.windows if it.lane == lane and it.kind is kind]
        signal = dump.signal(lane.name, name) if there else None
        for it in sorted(there, key=lambda it: it.start):
            dump.while_on(signal, times.at(it.start), times.at(it.end))


def add_variable(dump: Dump, times: SubTicks, name: str, stretches: List[ValueStretch]) -> None:
    signal = dump.signal(VARIABLES, name, WORD, stretches[0].value)
    for it in stretches[1:]:
        dump.set(times.at(it.start), signal, it.value)


def add_doing(dump: Dump, times: SubTicks, scope: str, bars: List[Bar]) -> None:
    runs = dump.signal(scope, "runs")
    away = dump.signal(scope, "waits") if scope != "idle" else None
    for it in bars:
        if it.doing is not Doing.READY:
            signal = runs if it.doing is Doing.RUNS else away
            dump.while_on(signal, times.at(it.start), times.at(it.end))


def add_answers(dump: Dump, times: SubTicks, lane: Lane, notes: List[Note]) -> None:
    kinds = {it.event.kind for it in notes}
    answer = dump.signal(lane.name, "answer", WORD, None) if kinds != {Kind.MARK} else None
    mark = dump.signal(lane.name, "mark", WORD, None) if Kind.MARK in kinds else None
    for it in notes:
        signal = mark if it.event.kind is Kind.MARK else answer
        dump.set(times.at(it.boundary), signal, it.event.answer)
