"""A campaign as a picture: a column for each step of injection, a row for each handler, coloured by class; and for points of two injections a
map of two axes.

If there are more steps than columns, a column is for several steps, and shows the class that comes first in the table. Only the classes of
each column are kept, never a row."""
from __future__ import annotations

import math
from typing import Dict, List, Tuple

from . import drawing
from .base_run import BaseRun
from .classes import OutcomeClass
from .colours import colours_of, has_light_text
from .faults import counted
from .output import Text as Output
from .pairs_picture import PairMap
from .reading import Run
from .table import base_words, what_differs

PLOT, TOP, CELL_HEIGHT, ROW_GAP, WIDEST, RIGHT = 1080, 44, 26, 8, 54, 24
MOST_COLUMNS = 1080
LEAST_FOR_NUMBER = 13
SHOWN_CLASSES, LONGEST_WORDS, SHOWN_OF_CELL = 24, 130, 6
STYLES = [
    (".number", "fill:#ffffff", "fill:#ffffff"),
    (".dark", "fill:#000000", "fill:#000000"),
    (".gap", "fill:none;stroke:#d5dae1", "fill:none;stroke:#343c47"),
]


class Map:
    """Which classes are at which steps, of each handler: columns of one step, or, of many steps, of the same power of two."""

    def __init__(self) -> None:
        self.width = 1
        self.last = -1
        self.cells: Dict[Tuple[str, int], Dict[int, Tuple[OutcomeClass, int]]] = {}
        self.not_reached = 0
        self.several = 0
        self.pairs = PairMap()

    def see(self, run: Run, found: OutcomeClass) -> None:
        """Takes a row with its class."""
        head = run.head
        if not head.is_reached:
            self.not_reached += 1
            return
        self.several += not head.point.is_single
        if len(head.point) == 2:
            self.pairs.see(head.point, found)
        injection = head.point[0]
        self.last = max(self.last, injection.step)
        while self.last // self.width >= MOST_COLUMNS:
            self.widen()
        cell = self.cells.setdefault((injection.handler, injection.step // self.width), {})
        cell[id(found)] = (found, cell.get(id(found), (found, 0))[1] + 1)

    def widen(self) -> None:
        """Puts two columns together."""
        self.width *= 2
        old, self.cells = self.cells, {}
        for (handler, column), classes in old.items():
            cell = self.cells.setdefault((handler, column // 2), {})
            for key, (found, rows) in classes.items():
                cell[key] = (found, cell.get(key, (found, 0))[1] + rows)

    def handlers(self) -> List[str]:
        return list(dict.fromkeys(handler for handler, _ in self.cells))

    def write(self, output: Output, classes: List[OutcomeClass], rows: int, base: BaseRun) -> None:
        Picture(self, classes, rows, base).write(output)


class Picture:
    """The map with its legend."""

    def __init__(self, map_of_points: Map, classes: List[OutcomeClass], rows: int, base: BaseRun) -> None:
        self.map, self.classes, self.rows, self.base = map_of_points, classes, rows, base
        self.colours = colours_of(classes)
        self.handlers = self.map.handlers()
        columns = max(1, math.ceil((self.map.last + 1) / self.map.width))
        self.cell = min(WIDEST, PLOT / columns)
        self.left = 22 + drawing.width_of("x" * max([6] + [len(it) for it in self.handlers]))
        self.axis_top = TOP + len(self.handlers) * (CELL_HEIGHT + ROW_GAP)
        self.pairs_top = self.axis_top + 34
        self.legend_top = self.axis_top + 44 + self.map.pairs.size
        self.shown = min(len(classes), SHOWN_CLASSES)

    def write(self, output: Output) -> None:
        width = self.left + PLOT + RIGHT
        more = len(self.classes) > self.shown or self.map.not_reached or self.map.several
        height = self.legend_top + 20 * self.shown + (26 if more else 10)
        title = f"{self.rows:,} rows in {len(self.classes):,} classes; {base_words(self.base).split(' (')[0]}"
        drawing.start(output, width, height, STYLES, title)
        output.line(drawing.label(12, 24, title, "title"))
        for at, handler in enumerate(self.handlers):
            top = TOP + at * (CELL_HEIGHT + ROW_GAP)
            output.line(drawing.label(12, top + 17, handler))
            output.line(drawing.box(self.left, top, self.across(self.map.last + 1) - self.left, CELL_HEIGHT, "gap"))
        for (handler, column), cell in sorted(self.map.cells.items()):
            self.write_cell(output, self.handlers.index(handler), handler, column, cell)
        self.write_axis(output)
        self.map.pairs.write(output, self.left, self.pairs_top, self.colours)
        self.write_legend(output)
        drawing.end(output)

    def across(self, step: int) -> float:
        return self.left + step / self.map.width * self.cell

    def write_cell(self, output: Output, row: int, handler: str, column: int, cell: Dict[int, Tuple[OutcomeClass, int]]) -> None:
        found = sorted(cell.values(), key=lambda it: it[0].number)
        first = found[0][0]
        steps = f"step {column}" if self.map.width == 1 else \
            f"steps {column * self.map.width} to {min((column + 1) * self.map.width - 1, self.map.last)}"
        told = "; ".join(f"class {it.number} ({it.verdict.text}): {counted(rows, 'row')}" for it, rows in found[:SHOWN_OF_CELL])
        if len(found) > SHOWN_OF_CELL:
            told += f"; and {counted(len(found) - SHOWN_OF_CELL, 'more class')}"
        title = f"{handler} before {steps}: {told if len(found) > 1 or self.map.width > 1 else words_of(first)}"
        left, top = self.left + column * self.cell, TOP + row * (CELL_HEIGHT + ROW_GAP)
        gap = 1 if self.cell >= 5 else 0
        shape = drawing.box(left, top, max(0.75, self.cell - gap), CELL_HEIGHT, "cell", title)
        output.line(shape.replace('class="cell"', f'fill="{self.colours[first.number]}"', 1))
        if self.cell >= max(LEAST_FOR_NUMBER, drawing.width_of(str(first.number)) + 4):
            colour = self.on_colour(first)
            output.line(drawing.label(left + self.cell / 2, top + 17, str(first.number), colour, "middle"))

    def on_colour(self, it: OutcomeClass) -> str:
        """How a number on the colour of a class is drawn."""
        return "number" if has_light_text(self.colours[it.number]) else "dark"

    def write_axis(self, output: Output) -> None:
        last = self.map.last + 1
        widest = (len(f"{last:,}") + 2) * drawing.CHARACTER
        interval = drawing.nice_interval(widest / self.cell * self.map.width)
        output.line(drawing.label(12, self.axis_top + 16, "step", "quiet"))
        middle = self.cell / 2 if self.map.width == 1 else 0
        for step in range(0, last, interval):
            output.line(drawing.label(self.across(step) + middle, self.axis_top + 16, f"{step:,}", "quiet", "middle"))

    def write_legend(self, output: Output) -> None:
        top = self.legend_top
        for it in self.classes[: self.shown]:
            shape = drawing.box(12, top - 11, 26, 15, "cell")
            output.line(shape.replace('class="cell"', f'fill="{self.colours[it.number]}"', 1))
            output.line(drawing.label(25, top + 1, str(it.number), self.on_colour(it), "middle"))
            words = f"{it.verdict.text}, {counted(it.rows, 'row')}: {what_differs(it)}"
            if it.is_by_cause:
                words = f"{it.name}, {counted(it.rows, 'row')}"
            shown = words if len(words) <= LONGEST_WORDS else words[: LONGEST_WORDS - 2] + ".."
            ending = "; ".join(it.ending) or None
            output.line(drawing.label(46, top + 1, shown, "" if it.verdict.passes else "fails", title=ending))
            top += 20
        left_out = self.classes[self.shown :]
        rows = counted(sum(it.rows for it in left_out), "row")
        notes = [f"and {counted(len(left_out), 'more class')} of {rows}, each in a colour of its own"] * bool(left_out)
        notes += [f"{counted(self.map.not_reached, 'point')} not reached"] * bool(self.map.not_reached)
        if self.map.several:
            notes.append(f"{counted(self.map.several, 'row')} of several injections, each at its first")
        if notes:
            output.line(drawing.label(46, top + 1, "; ".join(notes), "quiet"))


def words_of(it: OutcomeClass) -> str:
    return f"class {it.number}: {it.name}" if it.is_by_cause else f"class {it.number} ({it.verdict.text}): {what_differs(it)}"
