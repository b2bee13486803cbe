"""A row beside the base run, line by line, with what differs marked."""
from __future__ import annotations

import difflib
import enum
from dataclasses import dataclass
from typing import Any, Iterable, Iterator, List, Optional, Sequence, Tuple

from .base_run import BaseRun
from .injections import own_stretches, position_of, without
from .output import Text as Output
from .reading import Run
from .report import Line, event_of

LONGEST_COMPARED = 3000
EMPTY = "(not known)"


class Mark(enum.Enum):
    """How a line of the row compares with that of the base run."""

    SAME = " "
    NUMBERS = "~"
    OTHER = "|"
    ONLY_BASE = "<"
    ONLY_ROW = ">"
    OWN = "+"


COLOURS = {Mark.OTHER: "33", Mark.ONLY_BASE: "31", Mark.ONLY_ROW: "32", Mark.OWN: "36", Mark.NUMBERS: "2"}
LEGEND = "~ other numbers   | other answer   < base run alone   > row alone   + injected"


@dataclass(frozen=True)
class Pair:
    """A line of the base run and one of the row, or one of the two."""

    base: Optional[Line]
    row: Optional[Line]
    mark: Mark


def paired(base: Line, row: Line) -> Pair:
    """The two lines beside each other."""
    if base == row:
        return Pair(base, row, Mark.SAME)
    return Pair(base, row, Mark.NUMBERS if base[2] == row[2] else Mark.OTHER)


def is_same_call(base: Line, row: Line) -> bool:
    return base[2].rpartition(b" ")[0] == row[2].rpartition(b" ")[0] != b"run"


def pairs_of_replaced(base: List[Line], row: List[Line]) -> Iterator[Pair]:
    """Of lines that are in each other's place, those of one call beside each other."""
    for wanted, line in zip(base, row):
        if is_same_call(wanted, line):
            yield Pair(wanted, line, Mark.OTHER)
        else:
            yield Pair(wanted, None, Mark.ONLY_BASE)
            yield Pair(None, line, Mark.ONLY_ROW)
    for wanted in base[len(row) :]:
        yield Pair(wanted, None, Mark.ONLY_BASE)
    for line in row[len(base) :]:
        yield Pair(None, line, Mark.ONLY_ROW)


def pairs_of(base: List[Line], row: List[Line]) -> Iterator[Pair]:
    """The lines of the two, aligned. What is too long to be aligned is taken line by line."""
    if max(len(base), len(row)) > LONGEST_COMPARED:
        count = min(len(base), len(row))
        yield from map(paired, base[:count], row[:count])
        yield from pairs_of_replaced(base[count:], row[count:])
        return
    matcher = difflib.SequenceMatcher(None, [it[2] for it in base], [it[2] for it in row], autojunk=False)
    for tag, base_start, base_end, row_start, row_end in matcher.get_opcodes():
        if tag == "equal":
            yield from map(paired, base[base_start:base_end], row[row_start:row_end])
        else:
            yield from pairs_of_replaced(base[base_start:base_end], row[row_start:row_end])


def all_pairs(run: Run, base: BaseRun) -> List[Pair]:
    """The whole of the row beside the base run: alike up to the first injection, then the handlers' own lines among the rest."""
    lines = run.checked_lines()
    step = run.head.point.first_step if run.head.is_reached else run.head.steps
    position = position_of(lines, step)
    base_tail = base.lines[position:] if base else []
    tail = lines[position:]
    stretches = own_stretches(tail, run.head.point, base) if run.head.is_reached else []
    pairs = [paired(it, it) for it in lines[:position]]
    return pairs + with_own(pairs_of(base_tail, without(tail, stretches)), tail, stretches)


def with_own(pairs: Iterable[Pair], tail: List[Line], stretches: List[Tuple[int, int]]) -> List[Pair]:
    """The pairs with the handlers' own lines in their places among those of the row."""
    own = {at for start, count in stretches for at in range(start, start + count)}
    found, at = [], 0
    for it in pairs:
        while at in own:
            found.append(Pair(None, tail[at], Mark.OWN))
            at += 1
        found.append(it)
        at += it.row is not None
    return found + [Pair(None, it, Mark.OWN) for it in tail[at:]]


def text_of(line: Optional[Line]) -> str:
    return b" ".join(line).decode("ascii") if line else ""


def source_of(line: Any, source_map: Any) -> str:
    """The line of C of a line of a report, if it is that of a call."""
    event = event_of(line)
    return source_map.column(source_map.line(event.name, event.op, event.word))


def write_row(output: Output, run: Run, base: BaseRun, context: Optional[int] = None, has_colour: bool = False, ending: Sequence[str] = (),
              source_map: Any = None) -> None:
    """The two heads, the pairs, with a map also their lines of C, what the row says at its end, and what the marks mean."""
    pairs = all_pairs(run, base)
    base_head = base.head.text() if base and base.head else "base: not known whole"
    width = max([len(base_head)] + [len(text_of(it.base)) for it in pairs])
    row_width = max([len(run.head.text())] + [len(text_of(it.row)) for it in pairs]) if source_map else 0
    main = source_map.main if source_map else ""
    output.line(f"  {base_head.ljust(width)}  {run.head.text().ljust(row_width)}  {main}".rstrip())
    folded = 0
    for it, is_shown in zip(pairs, shown(pairs, context)):
        if not is_shown:
            folded += 1
            continue
        write_folded(output, folded)
        folded = 0
        source = source_of(it.row or it.base, source_map) if source_map else ""
        line = f"{it.mark.value} {text_of(it.base).ljust(width)}  {text_of(it.row).ljust(row_width)}  {source}".rstrip()
        colour = COLOURS.get(it.mark) if has_colour else None
        output.line(f"\x1b[{colour}m{line}\x1b[0m" if colour else line)
    write_folded(output, folded)
    for words in ending:
        output.line(f"  {words}")
    output.line(LEGEND)


def write_folded(output: Output, count: int) -> None:
    if count:
        output.line(f"  .. {count:,} alike ..")


def shown(pairs: List[Pair], context: Optional[int]) -> List[bool]:
    """Which of the pairs are shown: all, or those that have something that differs in this many lines around them."""
    if context is None:
        return [True] * len(pairs)
    flags = [False] * len(pairs)
    for at, it in enumerate(pairs):
        if it.mark not in (Mark.SAME, Mark.NUMBERS):
            flags[max(0, at - context) : at + context + 1] = [True] * len(flags[max(0, at - context) : at + context + 1])
    return flags
