"""In words: the first event of a row that the base run has not, or has at another place."""
from __future__ import annotations

from dataclasses import dataclass
from itertools import product
from typing import Any, Iterator, List, Optional, Tuple

from .base_run import BaseRun
from .injections import leading_own, own_stretches, without
from .reading import Run
from .report import IDLE, Line


@dataclass(frozen=True)
class Difference:
    """What differs from the base run, in words; empty if all is the same except for the handler's own lines."""

    words: str


def told(what: bytes) -> str:
    """What an event line says, in words."""
    kind, name, *rest = what.decode("ascii").split(" ")
    if kind == "run":
        return f"{'idle' if name == IDLE else name} runs"
    if kind == "mark":
        return f"{name}: mark {rest[0]}"
    words = f"{name}: {' '.join(rest[1:])}"
    return words if kind == "call" else f"handler {words}"


def difference(run: Run, tail: List[Line], position: int, base: BaseRun, keeps_ticks: bool = False) -> Difference:
    """What is different in this row, whose lines from the injection on are the tail."""
    if base is None:
        return Difference("not known, without the base run")
    base_tail = base.lines[position:]
    rest = without(tail, own_stretches(tail, run.head.point, base)) if run.head.is_reached else tail
    seen = slice(1 if keeps_ticks else 2, 3)
    for index, (line, wanted) in enumerate(zip(rest, base_tail)):
        if line[seen] != wanted[seen]:
            return Difference(where_they_part(rest[index:], base_tail[index:], run, base))
    return Difference(where_one_ends(rest, base_tail, run, base, keeps_ticks))


def where_one_ends(rest: List[Line], base_tail: List[Line], run: Run, base: BaseRun, keeps_ticks: bool) -> str:
    """The lines of one are the first of the other's."""
    count = min(len(rest), len(base_tail))
    if base.head is None and len(rest) >= len(base_tail):
        return f"nothing before step {base.known_until}, from which on the base run is not known"
    if len(rest) != len(base_tail):
        return where_they_part(rest[count:], base_tail[count:], run, base)
    if run.head.verdict != base.head.verdict:
        return f"the run is over ({run.head.verdict.text}), where the base run is over ({base.head.verdict.text})"
    if keeps_ticks and run.head.ticks != base.head.ticks:
        return f"the run takes {run.head.ticks} ticks, where the base run takes {base.head.ticks}"
    return ""


def where_they_part(rest: List[Line], base_rest: List[Line], run: Run, base: BaseRun) -> str:
    """The words for the first lines of the two, which differ, and for the next one that the base run never has."""
    line = rest[0] if rest else None
    wanted = base_rest[0] if base_rest else None
    if line is None:
        words = f"the run is over ({run.head.verdict.text})"
    else:
        words = told(line[2])
    return words + ", " + in_base(line, wanted, base_rest, base) + afterwards(rest, base)


def in_base(line: Optional[Line], wanted: Optional[Line], base_rest: List[Line], base: BaseRun) -> str:
    if wanted is None:
        return "where the base run is over" if base.head else "after which the base run is not known"
    if line is not None and line[2] == wanted[2]:
        return f"at tick {int(line[1])}, where the base run has it at tick {int(wanted[1])}"
    if line is not None and same_call(line[2], wanted[2]):
        return f"where the base run has {wanted[2].rpartition(b' ')[2].decode()}"
    later = line is not None and any(it[2] == line[2] for it in base_rest)
    words = told(wanted[2])
    if wanted[2].startswith(b"run "):
        return f"where {words}{' first' if later else ''} in the base run"
    return f"where the base run has {words}" + (" first" if later else "")


def same_call(what: bytes, wanted: bytes) -> bool:
    """The same op of the same name, with another answer."""
    return what.rpartition(b" ")[0] == wanted.rpartition(b" ")[0] and not what.startswith(b"run ")


def afterwards(rest: List[Line], base: BaseRun) -> str:
    """After a change of the processor: what comes next that the base run never has."""
    if not rest or not rest[0][2].startswith(b"run "):
        return ""
    known = {it[2] for it in base.lines}
    new = next((it[2] for it in rest if not it[2].startswith(b"run ") and it[2] not in known), None)
    return "" if new is None else f"; then {told(new)}"


def is_as_base(run: Run, tail: List[Line], position: int, base: BaseRun, keeps_ticks: bool = False) -> bool:
    """The row is the base run except for the handler's own lines, and the numbers of steps and ticks."""
    if base is None or base.head is None or run.head.verdict != base.head.verdict:
        return False
    if keeps_ticks and run.head.ticks != base.head.ticks:
        return False
    own = len(tail) - (len(base.lines) - position)
    seen = slice(1 if keeps_ticks else 2, 3)
    if own < 0 or own and not run.head.is_reached:
        return False
    if own and (not run.head.point.is_single or own > leading_own(tail[:own], run.head.point[0])):
        stretches = own_stretches(tail, run.head.point)
        return any(are_alike(without(tail, it), 0, base.lines, position, seen) for it in parts_of_stretches(stretches, own))
    return are_alike(tail, own, base.lines, position, seen)


def are_alike(lines: List[Line], start: int, base_lines: List[Line], base_start: int, seen: slice) -> bool:
    """The lines from this one on are those of the base run from that one on, except for what isn't seen of them."""
    for at in range(start, len(lines)):
        if lines[at][seen] != base_lines[base_start + at - start][seen]:
            return False
    return True


def parts_of_stretches(stretches: List[Tuple[int, int]], count: int) -> Iterator[Any]:
    """The stretches, cut at their ends so that they have this many lines together: in each way."""
    for sizes in product(*(range(size + 1) for _, size in stretches)):
        if sum(sizes) == count:
            yield [(start, size) for (start, _), size in zip(stretches, sizes)]


def equals_exactly(run: Run, tail: List[Line], position: int, base: BaseRun) -> bool:
    """The run is the base run, with all numbers."""
    return base.head is not None and tail == base.lines[position:] and run.head.end_text() == base.head.end_text()
