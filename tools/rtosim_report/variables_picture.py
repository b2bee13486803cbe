"""Variables in the picture of a run: a row for each below the lanes, with its values as boxes from one `store` to the next."""
from __future__ import annotations

from typing import Any, List, TYPE_CHECKING

from . import drawing
from .lanes import Timeline
from .output import Text as Output
from .variables import ValueStretch

if TYPE_CHECKING:
    from .timeline_picture import Layout

ROW, BOX = 22, 14
STYLES = [
    (".value", "fill:#e8edf5;stroke:#8a94a6;stroke-width:1", "fill:#232b37;stroke:#6b7686;stroke-width:1"),
    (".values", "fill:#8a94a6", "fill:#6b7686"),
]
# A value that is narrower has no box of its own; none is drawn narrower than this.
LEAST_WIDTH, LEAST_VISIBLE = 2.0, 0.75


def height_of(timeline: Timeline) -> int:
    return ROW * len(timeline.variables)


def write(output: Output, layout: Layout) -> None:
    for row, (name, stretches) in enumerate(layout.timeline.variables.items()):
        for band in range(layout.bands):
            top = layout.band_top(band) + layout.variables_top + ROW * row
            output.line(drawing.label(12, top + BOX - 3, name))
            for start, end, there in grouped(layout, band, stretches):
                output.line(shape_of(layout, band, top, name, start, end, there))


def grouped(layout: Layout, band: int, stretches: List[ValueStretch]) -> List[List[Any]]:
    """The parts of the values that lie in a band; those too narrow to be seen apart are together."""
    first, last, width = layout.first_step(band), layout.last_step(band), layout.step_width(band)
    found: List[List[Any]] = []
    for it in stretches:
        if not layout.overlaps(band, it.start, it.end):
            continue
        start, end = max(it.start, first), min(it.end, last)
        is_narrow = (end - start) * width < LEAST_WIDTH
        if found and is_narrow and (found[-1][1] - found[-1][0]) * width < LEAST_WIDTH * len(found[-1][2]):
            found[-1][1] = end
            found[-1][2].append(it)
        else:
            found.append([start, end, [it]])
    return found


def shape_of(layout: Layout, band: int, top: float, name: str, start: int, end: int, there: List[ValueStretch]) -> str:
    left, right = layout.across(band, start), layout.across(band, end)
    width = max(right - left, LEAST_VISIBLE)
    if len(there) > 1:
        title = f"{name}: {len(there):,} values in steps {start} to {end - 1}"
        return drawing.box(left, top, width, BOX, "values", title)
    it = there[0]
    shape = drawing.box(left, top, width, BOX, "value", f"{name} = {it.value}: {steps_of(it)}{origin_of(it)}")
    text = str(it.value)
    if drawing.width_of(text) + 4 < right - left:
        shape += drawing.label((left + right) / 2, top + BOX - 3, text, "", "middle")
    return shape


def steps_of(it: ValueStretch) -> str:
    return f"steps {it.start} to {it.end - 1}" if it.end > it.start else f"from step {it.start} on"


def origin_of(it: ValueStretch) -> str:
    """Who has stored the value."""
    if it.by is None:
        return ", from reset on"
    return f", stored by {it.by.name} in op {it.by.op}"
