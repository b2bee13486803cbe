"""The points of two injections as a map of two axes: a column for each step of the first one, a row for how many steps later the second
one comes, of each pair of handlers a panel. With more columns or rows than there is room for, each is for several steps."""
from __future__ import annotations

from typing import Any, Dict, Tuple

from . import drawing
from .classes import OutcomeClass
from .faults import counted
from .output import Text as Output

PLOT, MOST_COLUMNS, MOST_ROWS, WIDEST, LOWEST, PANEL_GAP, TITLE, AXIS = 1080, 540, 48, 26, 5, 16, 18, 22
Cell = Dict[int, Tuple[OutcomeClass, int]]


class PairMap:
    """Which classes are at which pairs of steps."""

    def __init__(self) -> None:
        # The steps of a column and of a row, and the last step and the greatest distance.
        self.width = self.height = 1
        self.last = self.farthest = -1
        self.panels: Dict[Tuple[str, str], Dict[Tuple[int, int], Cell]] = {}

    def see(self, point: Any, found: Any) -> None:
        """Takes a point of two injections with the class of its row."""
        first, second = point
        distance = second.step - first.step
        self.last, self.farthest = max(self.last, first.step), max(self.farthest, distance)
        while self.last // self.width >= MOST_COLUMNS or self.farthest // self.height >= MOST_ROWS:
            self.widen(self.last // self.width >= MOST_COLUMNS)
        cells = self.panels.setdefault((first.handler, second.handler), {})
        add(cells.setdefault((first.step // self.width, distance // self.height), {}), found, 1)

    def widen(self, is_wider: bool) -> None:
        """Puts two columns, or two rows, together."""
        if is_wider:
            self.width *= 2
        else:
            self.height *= 2
        for name, old in self.panels.items():
            cells = self.panels[name] = {}
            for (column, row), cell in old.items():
                place = (column // 2, row) if is_wider else (column, row // 2)
                for found, rows in cell.values():
                    add(cells.setdefault(place, {}), found, rows)

    @property
    def rows(self) -> int:
        return self.farthest // self.height + 1

    @property
    def cell(self) -> Tuple[float, float]:
        """How wide a column is, and how high a row."""
        width = min(WIDEST, PLOT / max(1, self.last // self.width + 1))
        return width, max(LOWEST, min(14, width))

    @property
    def size(self) -> float:
        """How high all panels are together."""
        return len(self.panels) * (TITLE + self.rows * self.cell[1] + AXIS + PANEL_GAP)

    def write(self, output: Output, left: float, top: float, colours: Dict[int, str]) -> None:
        for names, cells in self.panels.items():
            self.write_panel(output, left, top, names, cells, colours)
            top += self.size / len(self.panels)

    def write_panel(self, output: Output, left: float, top: float, names: Any, cells: Any, colours: Dict[int, str]) -> None:
        width, height = self.cell
        columns = self.last // self.width + 1
        output.line(drawing.label(left, top + 12, f"{names[0]} before a step, and then {names[1]} so many steps later", "quiet"))
        ground = top + TITLE
        output.line(drawing.box(left, ground, columns * width, self.rows * height, "gap"))
        for (column, row), cell in sorted(cells.items()):
            first = min((it for it, _ in cell.values()), key=lambda it: it.number)
            title = f"{names[0]} before {span_of('step', column, self.width)}, {names[1]} {span_of('', row, self.height)} later: {words_of(cell)}"
            shape = drawing.box(left + column * width, ground + row * height, max(0.75, width - (width >= 5)), height - (height >= 5), "cell", title)
            output.line(shape.replace('class="cell"', f'fill="{colours[first.number]}"', 1))
        self.write_axes(output, left, ground, width, height)

    def write_axes(self, output: Output, left: float, ground: float, width: float, height: float) -> None:
        bottom = ground + self.rows * height
        for row in {0, self.rows - 1}:
            output.line(drawing.label(left - 6, ground + (row + 0.5) * height + 4, f"{row * self.height:,}", "quiet", "end"))
        interval = drawing.nice_interval((len(f"{self.last:,}") + 2) * drawing.CHARACTER / width * self.width)
        for step in range(0, self.last + 1, interval):
            at = left + (step / self.width + (0.5 if self.width == 1 else 0)) * width
            output.line(drawing.label(at, bottom + 14, f"{step:,}", "quiet", "middle"))


def add(cell: Cell, found: Any, rows: int) -> None:
    cell[id(found)] = (found, cell.get(id(found), (found, 0))[1] + rows)


def span_of(what: str, at: int, size: int) -> str:
    """As `step 3`, or `steps 4 to 7`."""
    if size == 1:
        return f"{what} {at}".strip()
    return f"{what}{'s' if what else ''} {at * size} to {(at + 1) * size - 1}".strip()


def words_of(cell: Cell) -> str:
    found = sorted(cell.values(), key=lambda it: it[0].number)
    return "; ".join(f"class {it.number} ({it.verdict.text}): {counted(rows, 'row')}" for it, rows in found[:4]) + ("; .." if len(found) > 4 else "")
