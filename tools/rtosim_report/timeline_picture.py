"""A run as a picture: a lane for each task, for idle and for each handler, in bands that are below each other. Of a run that is too long for
that one band has all of it, and others the steps around the injections and those at the end."""
from __future__ import annotations

import math
import textwrap
from dataclasses import dataclass
from itertools import groupby
from typing import Any, Iterator, List, Optional, Sequence, Tuple

from . import drawing, variables_picture
from .drawing import Labels
from .injections import groups_of
from .lanes import Bar, Doing, Lane, LaneKind, Note, Timeline, Window, WindowKind
from .output import Text as Output
from .report import Kind

# What is left free on the right is at least so much.
PLOT, RIGHT, TOP = 1080, 24, 58
WIDEST_STEP, NARROWEST_STEP, MOST_BANDS, MOST_DETAILS = 54, 6, 16, 3
LABEL_ROW, BAR, LANE_GAP, AXIS, BAND_GAP = 14, 14, 12, 40, 18
# A row of the axis, and one of what the run says at its end.
AXIS_ROW, ENDING_ROW = 14, 16
# So many lines of C are shown below a picture.
MOST_SOURCE_LINES = 24
LEAST_VISIBLE = 0.75
STYLES = [
    (".runs", "fill:#2f6fce", "fill:#5c9bf5"),
    (".on-bar", "fill:#ffffff", "fill:#0c1420"),
    (".idle", "fill:#a9b3c0", "fill:#5b6573"),
    (".waits", "fill:#f2c14e", "fill:#7a5a10"),
    (".sleeps", "fill:#cfe0d4", "fill:#3c5a48"),
    (".suspended", "fill:#e3c3e8", "fill:#68466f"),
    (".ready", "fill:#8fb4e8", "fill:#3f6aa8"),
    (".ended", "fill:#1d2430", "fill:#e3e7ee"),
    (".locked", "fill:#c2410c", "fill:#ff9c66"),
    (".held", "fill:#7c3aed", "fill:#b79bff"),
    (".note", "stroke:#1d2430;stroke-width:1.5", "stroke:#e3e7ee;stroke-width:1.5"),
    (".injection", "stroke:#b3261e;stroke-width:1.5;stroke-dasharray:4 3", "stroke:#ff8a80"),
    (".injected", "fill:#b3261e", "fill:#ff8a80"),
]
# Those of a run whose handlers are armed or raised.
SOURCE_STYLES = [
    (".armed", "fill:#be5a00", "fill:#f0a35e"),
    (".raised", "fill:#0369a1", "fill:#7dd3fc"),
]
# Those of a run with critical sections.
SECTION_STYLES = [
    (".masked", "fill:#0f766e", "fill:#5eead4"),
    (".pending", "fill:#f4b8b3", "fill:#7d2f2b"),
]
CLASSES = {
    Doing.RUNS: "runs", Doing.WAITS: "waits", Doing.SLEEPS: "sleeps", Doing.SUSPENDED: "suspended", Doing.READY: "ready",
    Doing.PENDING: "pending",
}
# Of each kind of window its class, and how far below the bar it is.
WINDOWS = {WindowKind.LOCKED: ("locked", 1), WindowKind.HELD: ("held", 5), WindowKind.MASKED: ("masked", 1),
           WindowKind.ARMED: ("armed", 1), WindowKind.RAISED: ("raised", 5)}
LEGEND = [
    ("runs", "runs"), ("waits", "waits in a call"), ("sleeps", "sleeps"), ("suspended", "suspended"),
    ("ready", "Ready"), ("ended", "ended"), ("idle", "idle runs"), ("locked", "queue locked"), ("held", "scheduler held"), ("injected", "injected"),
]
SECTION_LEGEND = [("masked", "masked"), ("pending", "pending")]
SOURCE_LEGEND = [("armed", "armed"), ("raised", "raised")]


@dataclass
class Layout:
    """The places of steps and lanes."""

    timeline: Timeline
    left: float
    right: float
    # The first step of each band, and the step after its last one. Bands may have steps in common.
    spans: List[Tuple[int, int]]
    lane_tops: List[float]
    # How far below the beginning of a band the rows of variables begin.
    variables_top: float
    band_height: float
    axis: float
    # What the run says at its end, cut into lines; and the lines of C of its calls.
    ending: List[str]
    source: List[str]

    @property
    def bands(self) -> int:
        return len(self.spans)

    def bands_of(self, boundary: int) -> List[int]:
        """The bands in which a boundary is: not at the end of one that another one follows on."""
        return [band for band in range(self.bands) if self.overlaps(band, boundary, boundary)]

    def overlaps(self, band: int, start: int, end: int) -> bool:
        """Whether a stretch has a part in a band."""
        first, last = self.spans[band]
        return first < max(end, start + 1) and (start < last or start == last == self.timeline.steps)

    def first_step(self, band: int) -> int:
        return self.spans[band][0]

    def last_step(self, band: int) -> int:
        return min(self.timeline.steps, self.spans[band][1])

    def step_width(self, band: int) -> float:
        first, last = self.spans[band]
        return min(WIDEST_STEP, PLOT / max(1, last - first))

    def across(self, band: int, boundary: float) -> float:
        return self.left + (boundary - self.first_step(band)) * self.step_width(band)

    def band_top(self, band: int) -> float:
        return TOP + band * (self.band_height + BAND_GAP)

    def bar_top(self, band: int, lane: int) -> float:
        return self.band_top(band) + self.lane_tops[lane] + rows_of(self.timeline.lanes[lane]) * LABEL_ROW

    @property
    def width(self) -> float:
        return self.left + PLOT + self.right

    @property
    def height(self) -> float:
        return self.source_top + ENDING_ROW * len(self.source)

    @property
    def source_top(self) -> float:
        return self.band_top(self.bands) + 22 + ENDING_ROW * len(self.ending)


def rows_of(lane: Lane) -> int:
    """How many rows of labels a lane has."""
    return 0 if lane.kind is LaneKind.IDLE else 2


def layout_of(timeline: Timeline) -> Layout:
    tops, at = [], 24.0
    for lane in timeline.lanes:
        tops.append(at)
        at += rows_of(lane) * LABEL_ROW + BAR + LANE_GAP
    widest = max(map(len, axis_numbers(timeline, timeline.steps)))
    margin = max(6, 5 + 3 * timeline.outlasts_printed_ticks + widest // 2)
    names = [*(it.name for it in timeline.lanes), *timeline.variables]
    left = 22 + drawing.width_of("x" * max(margin, *map(len, names)))
    axis, variables_top = AXIS + AXIS_ROW * timeline.outlasts_printed_ticks, at
    at += variables_picture.height_of(timeline)
    # (the last number of the axis is below the end of the last step)
    right = max(RIGHT, 4 + drawing.width_of("x" * widest) / 2)
    room = int((left + PLOT + right - 24) / drawing.CHARACTER)
    ending = [line for it in timeline.ending for line in textwrap.wrap(it, room, break_on_hyphens=False)]
    return Layout(timeline, left, right, spans_of(timeline), tops, variables_top, at + axis, axis, ending, source_of(timeline, room))


def source_of(timeline: Timeline, room: int) -> List[str]:
    """The lines of C of the calls, below the name of the file; nothing if no map has them."""
    found = timeline.source_lines()
    if not found:
        return []
    texts = [f"{timeline.source_map.short(it)} {it.text}" for it in found[:MOST_SOURCE_LINES]]
    more = [f"and {len(found) - MOST_SOURCE_LINES} more"] if len(found) > MOST_SOURCE_LINES else []
    return [it if len(it) <= room else f"{it[:room - 3]} .." for it in (timeline.source_map.main, *texts, *more)]


def spans_of(timeline: Timeline) -> List[Tuple[int, int]]:
    """The steps of each band: all in few bands, or those of a long run in one, and below it those around what matters."""
    steps = max(1, timeline.steps)
    bands = max(1, math.ceil(steps * NARROWEST_STEP / PLOT))
    if bands <= MOST_BANDS:
        size = math.ceil(steps / bands)
        return [(first, first + size) for first in range(0, steps, size)]
    size = int(PLOT / NARROWEST_STEP)
    starts = [max(0, it.step - size // 3) for it in timeline.injections[:MOST_DETAILS]] + [steps - size]
    details: List[Tuple[int, int]] = []
    for start in sorted(min(it, steps - size) for it in starts):
        if not details or start > details[-1][0] + size // 2:
            details.append((start, start + size))
    return [(0, steps), *details]


def axis_numbers(timeline: Timeline, last: int) -> Iterator[str]:
    """The widest numbers of the axis up to a boundary, except for steps."""
    elapsed = timeline.clock.at(last)
    yield f"{min(timeline.clock.start + elapsed, (1 << 32) - 1):,}"
    if timeline.outlasts_printed_ticks:
        yield f"{elapsed:,}"


def write(output: Output, timeline: Timeline) -> None:
    layout = layout_of(timeline)
    styles = STYLES + SECTION_STYLES * has_sections(timeline) + SOURCE_STYLES * has_sources(timeline)
    styles += variables_picture.STYLES * bool(timeline.variables)
    drawing.start(output, layout.width, layout.height, styles, timeline.title())
    fails = "" if timeline.head.verdict.passes else " fails"
    output.line(drawing.label(12, 24, timeline.title(), "title" + fails))
    for band in range(layout.bands):
        write_band(output, layout, band)
    write_lane_contents(output, layout)
    variables_picture.write(output, layout)
    write_injections(output, layout)
    write_legend(output, layout)
    for at, text in enumerate(layout.ending):
        output.line(drawing.label(12, layout.band_top(layout.bands) + 8 + ENDING_ROW * at, text, "fails"))
    for at, text in enumerate(layout.source):
        output.line(drawing.label(12, layout.source_top - 14 + ENDING_ROW * at, text, "" if at else "quiet"))
    drawing.end(output)


def has_sections(timeline: Timeline) -> bool:
    """Whether a critical section, or a handler that is pending, is drawn."""
    return any(it.kind is WindowKind.MASKED for it in timeline.windows) or any(it.doing is Doing.PENDING for it in timeline.bars)


def has_sources(timeline: Timeline) -> bool:
    """Whether it is drawn when a handler is armed or raised."""
    return any(it.kind in (WindowKind.ARMED, WindowKind.RAISED) for it in timeline.windows)


def write_legend(output: Output, layout: Layout) -> None:
    at = 12.0
    for name, text in LEGEND + SECTION_LEGEND * has_sections(layout.timeline) + SOURCE_LEGEND * has_sources(layout.timeline):
        top, height = (40, 4) if name == "ready" else (36, 11)
        output.line(drawing.box(at, top, 5 if name == "ended" else 11, height, name))
        output.line(drawing.label(at + 16, 46, text, "quiet"))
        at += 16 + drawing.width_of(text) + 18


def write_band(output: Output, layout: Layout, band: int) -> None:
    """The ground of a band: the lanes with their names, and the axis."""
    top = layout.band_top(band)
    right = layout.across(band, layout.last_step(band))
    for index, lane in enumerate(layout.timeline.lanes):
        lane_top = top + layout.lane_tops[index]
        height = rows_of(lane) * LABEL_ROW + BAR + LANE_GAP
        if index % 2 == 0:
            output.line(drawing.box(8, lane_top - LANE_GAP / 2, right - 8, height, "stripe"))
        output.line(drawing.label(12, layout.bar_top(band, index) + BAR - 3, lane.name))
    write_axis(output, layout, band, top + layout.band_height - layout.axis)


def write_axis(output: Output, layout: Layout, band: int, top: float) -> None:
    first, last = layout.first_step(band), layout.last_step(band)
    clock = layout.timeline.clock
    widest = max(len(f"{last:,}"), *map(len, axis_numbers(layout.timeline, last)))
    interval = drawing.nice_interval((widest + 2) * drawing.CHARACTER / layout.step_width(band))
    output.line(drawing.label(12, top + 18, "step", "quiet"))
    output.line(drawing.label(12, top + 32, "tick", "quiet"))
    if layout.timeline.outlasts_printed_ticks:
        output.line(drawing.label(12, top + 32 + AXIS_ROW, "elapsed", "quiet"))
    for step in range(-(-first // interval) * interval, last + 1, interval):
        at = layout.across(band, step)
        tick = (clock.start + clock.at(step)) % (1 << 32)
        output.line(drawing.line(at, layout.band_top(band) + 18, at, top + 6, "rule"))
        output.line(drawing.label(at, top + 18, f"{step:,}", "quiet", "middle"))
        output.line(drawing.label(at, top + 32, f"{tick:,}", "quiet", "middle"))
        if layout.timeline.outlasts_printed_ticks:
            output.line(drawing.label(at, top + 32 + AXIS_ROW, f"{clock.at(step):,}", "quiet", "middle"))


def write_lane_contents(output: Output, layout: Layout) -> None:
    timeline = layout.timeline
    for index, lane in enumerate(timeline.lanes):
        bars = sorted((it for it in timeline.bars if it.lane == lane), key=lambda it: it.start)
        write_bars(output, layout, index, bars)
        write_windows(output, layout, index, [it for it in timeline.windows if it.lane == lane])
        write_notes(output, layout, index, [it for it in timeline.notes if it.lane == lane])
        write_endings(output, layout, index, [at for there, at in timeline.endings if there == lane])
    write_failure(output, layout)


def pieces(layout: Layout, band: int, stretches: Sequence[Any]) -> Iterator[Tuple[int, int, Any]]:
    """The parts of stretches that lie in a band, each with its start and its end there."""
    first, last = layout.first_step(band), layout.last_step(band)
    for it in stretches:
        if layout.overlaps(band, it.start, it.end):
            yield max(it.start, first), min(it.end, last), it


def write_bars(output: Output, layout: Layout, index: int, bars: List[Bar]) -> None:
    """Bars too narrow to be seen apart are drawn as one."""
    for band in range(layout.bands):
        drawn: List[List[Any]] = []
        width = layout.step_width(band)
        for start, end, it in pieces(layout, band, bars):
            last = drawn[-1] if drawn else None
            if last and (end - start) * width < LEAST_VISIBLE and (start - last[1]) * width < LEAST_VISIBLE:
                last[1], last[3] = end, last[3] + 1
            else:
                drawn.append([start, end, it, 1])
        for start, end, it, count in drawn:
            output.line(bar_shape(layout, index, band, start, end, it, count))


def bar_shape(layout: Layout, index: int, band: int, start: int, end: int, it: Bar, count: int) -> str:
    left, right = layout.across(band, start), layout.across(band, end)
    top = layout.bar_top(band, index)
    name = "idle" if it.lane.kind is LaneKind.IDLE else CLASSES[it.doing]
    clock = layout.timeline.clock
    what = f"{it.lane.name} {it.doing.value}{' in ' + it.call if it.word else ''}"
    title = f"{what}: steps {it.start} to {it.end - 1}, ticks {clock.at(it.start)} to {clock.at(it.end)}"
    if count > 1:
        title = f"{it.lane.name}: {count} turns in steps {start} to {end - 1}"
    is_ready = it.doing is Doing.READY
    shape = drawing.box(left, top + 5 * is_ready, max(right - left, LEAST_VISIBLE), 4 if is_ready else BAR, name, title)
    text = f"waits: {it.call}" if it.word else it.doing.value
    if it.doing not in (Doing.RUNS, Doing.READY) and drawing.width_of(text) + 6 < right - left:
        shape += drawing.label((left + right) / 2, top + BAR - 3, text, "", "middle")
    return shape


def write_windows(output: Output, layout: Layout, index: int, windows: List[Window]) -> None:
    for band in range(layout.bands):
        for start, end, it in pieces(layout, band, windows):
            name, below = WINDOWS[it.kind]
            left, right = layout.across(band, start), layout.across(band, end)
            top = layout.bar_top(band, index) + BAR + below
            title = f"{it.kind.value}: steps {it.start} to {it.end - 1} of {it.lane.name}"
            output.line(drawing.box(left, top, max(right - left, LEAST_VISIBLE), 3, name, title))


def write_endings(output: Output, layout: Layout, index: int, boundaries: List[int]) -> None:
    """Marks the end of each task that has ended."""
    for boundary in boundaries:
        for band in layout.bands_of(max(0, boundary - 1)):
            at, top = layout.across(band, boundary), layout.bar_top(band, index)
            title = f"{layout.timeline.lanes[index].name} has ended, in step {boundary - 1}"
            output.line(drawing.box(at, top, 4, BAR, "ended", title))


def write_notes(output: Output, layout: Layout, index: int, notes: List[Note]) -> None:
    """A mark at each step with something reported, and what is reported above it."""
    for band in range(layout.bands):
        there = [it for it in notes if layout.overlaps(band, it.step, it.step)]
        if there:
            labels = drawing.Labels(2, layout.width - 4)
            write_marks(output, layout, index, band, there, labels)
            top = layout.bar_top(band, index)
            for row, it in labels.placed():
                output.line(it.shape(top - 5 - row * LABEL_ROW))


def write_marks(output: Output, layout: Layout, index: int, band: int, notes: List[Note], labels: Labels) -> None:
    """The marks of one band. Those that can't be seen apart are one, except for that of the answer for which a check failed. Its text, and
    those of injected handlers, are shown in any case."""
    marked, top, failing = float("-inf"), layout.bar_top(band, index), failing_note(layout.timeline)
    for (step, is_injected), group in groupby(notes, key=lambda it: (it.step, it.is_injected)):
        there = list(group)
        told = ", ".join(layout.timeline.told(it) for it in there)
        at = layout.across(band, step + (0 if is_injected else 0.5))
        if at - marked < LEAST_VISIBLE and failing not in there:
            labels.fold(told)
            continue
        marked = at
        title = f"{layout.timeline.lanes[index].name}: {told}; {'before ' if is_injected else ''}step {step}"
        output.line(drawing.line(at, top - 3, at, top + BAR, "note", title))
        add = labels.add_kept if is_injected or failing in there else labels.add
        add(at + (5 if is_injected else -2), told, "injected" if is_injected else "")


def failing_note(timeline: Timeline) -> Optional[Note]:
    """The last answer of the task or handler whose check failed."""
    verdict = timeline.head.verdict
    answers = [it for it in timeline.notes if it.lane.name == verdict.task and it.event.kind in (Kind.CALL, Kind.ISR)]
    return answers[-1] if verdict.kind == "check" and answers else None


def write_failure(output: Output, layout: Layout) -> None:
    """Marks the end of a run by a check or a misuse, in the lane of the task."""
    head = layout.timeline.head
    names = [it.name for it in layout.timeline.lanes]
    if head.verdict.task not in names or not head.steps:
        return
    index = names.index(head.verdict.task)
    for band in layout.bands_of(head.steps - 1):
        at, top = layout.across(band, head.steps), layout.bar_top(band, index)
        output.line(drawing.box(at - 3, top - 4, 5, BAR + 8, "injected", head.end_text()))


def write_injections(output: Output, layout: Layout) -> None:
    """A line at each injection. Texts that would lie over each other are one."""
    labels: List[Tuple[float, float, str]] = []
    for step, injections in groups_of(layout.timeline.injections):
        text = f"{', '.join(it.handler for it in injections)} before step {step}"
        for band in layout.bands_of(step):
            write_injection(output, layout, band, step, text, labels)
    for top, left, text in sorted(labels):
        output.line(drawing.label(left, top + 11, text, "injected"))


def write_injection(output: Output, layout: Layout, band: int, step: int, text: str, labels: List[Tuple[float, float, str]]) -> None:
    """The line of an injection in a band, and its text among those of the others."""
    at, top = layout.across(band, step), layout.band_top(band)
    output.line(drawing.line(at, top, at, top + layout.band_height - layout.axis + 4, "injection", text))
    last = next((it for it in reversed(labels) if it[0] == top), None)
    if last and left_of(layout, at, text) < last[1] + drawing.width_of(last[2]) + drawing.Labels.GAP:
        text = f"{last[2]}, {text}"
        labels[labels.index(last)] = top, left_of(layout, last[1] - 5, text), text
    else:
        labels.append((top, left_of(layout, at, text), text))


def left_of(layout: Layout, at: float, text: str) -> float:
    """The left end of a text at an injection, chosen so that the text ends within the picture."""
    return min(at + 5, layout.width - 4 - drawing.width_of(text))
