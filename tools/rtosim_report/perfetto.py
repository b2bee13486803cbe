"""A run as a Chrome trace, which ui.perfetto.dev and chrome://tracing open: a track for each lane, and a counter for each variable.

A tick is a millisecond there; the steps of one tick follow each other within it. In a run of more ticks than a trace has milliseconds
a tick is a microsecond."""
from __future__ import annotations

import json
from typing import Any, Dict, Iterator, Union

from .lanes import Bar, Lane, LaneKind, Note, Timeline, Window, WindowKind
from .output import Text as Output
from .report import Kind
from .subticks import SubTicks

# In microseconds; a trace has at most 2^63 nanoseconds.
MILLISECOND, MICROSECOND = 1000, 1
MOST_MILLISECONDS = (1 << 63) // 1_000_000
PROCESS = 1
WINDOWS = {WindowKind.LOCKED: "queue locked", WindowKind.HELD: "scheduler held", WindowKind.MASKED: "interrupts masked",
           WindowKind.ARMED: "armed", WindowKind.RAISED: "raised"}


def write(output: Output, timeline: Timeline) -> None:
    times = SubTicks(timeline)
    tracks = {lane: at for at, lane in enumerate(timeline.lanes, 1)}
    output.line('{"displayTimeUnit":"ms","otherData":' + json.dumps(other_data(timeline, times)) + ',"traceEvents":[')
    lines = [json.dumps(it, separators=(",", ":")) for it in events_of(timeline, times, tracks)]
    output.line(",\n".join(lines))
    output.line("]}")


def other_data(timeline: Timeline, times: SubTicks) -> Dict[str, str]:
    return {
        "run": timeline.title(),
        "tick": "1 ms" if size_of_tick(timeline) == MILLISECOND else "1 us",
        "steps_per_tick_at_most": str(times.in_a_tick),
        "tick_at_reset": str(timeline.clock.start),
    }


def size_of_tick(timeline: Timeline) -> int:
    return MILLISECOND if timeline.head.ticks < MOST_MILLISECONDS else MICROSECOND


def events_of(timeline: Timeline, times: SubTicks, tracks: Dict[Lane, int]) -> Iterator[Dict[str, Any]]:
    size = size_of_tick(timeline)
    stamp = lambda boundary: round(times.at(boundary) * size / times.in_a_tick, 3)
    yield {"ph": "M", "name": "process_name", "pid": PROCESS, "tid": 0, "ts": 0, "args": {"name": timeline.title()}}
    for lane, track in tracks.items():
        base = {"ph": "M", "pid": PROCESS, "tid": track, "ts": 0}
        name = f"interrupt {lane.name}" if lane.kind is LaneKind.HANDLER else lane.name
        yield {**base, "name": "thread_name", "args": {"name": name}}
        yield {**base, "name": "thread_sort_index", "args": {"sort_index": track}}
    slices = [(it.start, it.end, it.lane, bar_name(it), it.doing.value) for it in timeline.bars]
    slices += [(it.start, it.end, it.lane, window_name(it), "window") for it in timeline.windows]
    for start, end, lane, name, category in sorted(slices, key=lambda it: (it[0], -it[1], it[4])):
        steps = {"first_step": start, "last_step": end - 1}
        yield {
            "ph": "X", "name": name, "cat": category.replace(" ", "_"), "pid": PROCESS, "tid": tracks[lane],
            "ts": stamp(start), "dur": round(stamp(end) - stamp(start), 3), "args": steps,
        }
    for note in timeline.notes:
        yield instant(note, stamp(note.boundary), tracks[note.lane], timeline.line_of(note))
    for name, stretches in timeline.variables.items():
        yield from (value_of(name, it.value, stamp(it.start)) for it in stretches)
    for it in timeline.injections:
        yield {
            "ph": "i", "name": f"{it.handler} injected", "cat": "injection", "s": "g", "pid": PROCESS,
            "tid": 0, "ts": stamp(it.step), "args": {"step": it.step},
        }


def value_of(name: str, value: int, stamp: float) -> Dict[str, Union[Dict[str, int], float, int, str]]:
    """A value of a variable, which has a track of its own as a counter."""
    return {"ph": "C", "name": f"variable {name}", "pid": PROCESS, "tid": 0, "ts": stamp, "args": {"value": value}}


def bar_name(bar: Bar) -> str:
    return f"{bar.doing.value}: {bar.call}" if bar.word else bar.doing.value


def window_name(window: Window) -> str:
    return WINDOWS[window.kind]


def instant(note: Note, stamp: float, track: int, source: Any) -> Dict[str, Any]:
    event = note.event
    args: Dict[str, Any] = {"step": event.step, "tick": event.tick}
    if event.kind is not Kind.MARK:
        args.update(op=event.op, answer=event.answer)
    if source is not None:
        args["source"] = source.shown
    return {
        "ph": "i", "name": note.told, "cat": event.kind.value, "s": "t", "pid": PROCESS, "tid": track,
        "ts": stamp, "args": args,
    }
